//! Scaling back and the inverse, for which there is no Rust, against the formulas worked out apart (formula.rs): an
//! accepted block must have their numbers and leave the surplus alone, a refused one must be left as it was.

use crate::blocks::Random;
use crate::calls::{self, Inverse, ScaleBack};
use crate::fault_of;
use crate::formula::{self, clipped, rounded, Sums};
use crate::order::{self, Fault};
use crate::tally::Tally;
use galemosu::Refused;

pub const SHAPES: [(usize, usize); 25] = {
    let (mut shapes, mut i) = ([(0, 0); 25], 0);
    while i < 25 {
        shapes[i] = (1 + i % 5, 1 + i / 5);
        i += 1;
    }
    shapes
};

/// A refusal of either call; one that names a component is none of theirs.
fn fault(answer: Result<(), Refused>) -> Option<Fault> {
    answer.err().map(|refused| if refused.component.is_none() { fault_of(refused) } else { (u32::MAX, 0) })
}

// ---- scaling back

/// Every level at every QP and side, then this many random accepted calls.
pub fn scale_back(accepted: u64) -> Tally {
    let kinds = [
        ("pairs of QP and side", 320),
        ("levels", 65_536),
        ("of coefficients clipped below, unclipped and clipped above", 3),
        ("of halves below 0 and above", 2),
    ];
    let mut tally = Tally::new("scale_back", &[(1, &[0]), (2, &[0]), (5, &[0])], &kinds);
    tally.beside = "held against the formula";
    let mut random = Random::new(16_112_026);
    let all: Vec<i16> = (i16::MIN..=i16::MAX).collect();
    for (log2_side, qp) in (0..320).map(|i| (1 + i / 64, i as u32 % 64)) {
        for levels in all.chunks(1 << (2 * log2_side)) {
            scaled(&mut tally, &ScaleBack { buffer: levels.to_vec(), log2_side, qp });
        }
    }
    let whole = tally.both + accepted;
    let mut turn = 0;
    while tally.both < whole || tally.refused < accepted / 8 {
        let faulty = random.below(3) == 0;
        scaled(&mut tally, &calls::scale_back(&mut random, 1 + turn % 5, turn as u32 / 5 % 64, faulty));
        turn += 1;
    }
    tally
}

fn scaled(tally: &mut Tally, call: &ScaleBack) {
    let mut ours = call.buffer.clone();
    let answer = fault(galemosu::scale_back(&mut ours, call.log2_side, call.qp));
    let right = order::scale_back(call);
    let good = match right {
        Some(fault) => {
            tally.refused(fault);
            ours == call.buffer
        }
        None => {
            tally.both += 1;
            tally.kind("pairs of QP and side", 64 * (call.log2_side - 1) + call.qp as usize);
            let (levels, surplus) = call.buffer.split_at(call.needs());
            let by_formula = |(level, coefficient): (&i16, &i16)| {
                let value = formula::scaled_back(*level, call.log2_side, call.qp);
                tally.kind("levels", (i32::from(*level) + 32768) as usize);
                let clip = usize::from(value >= -32768) + usize::from(value > 32767);
                tally.kind("of coefficients clipped below, unclipped and clipped above", clip);
                if formula::is_halfway(*level, call.log2_side, call.qp) {
                    tally.kind("of halves below 0 and above", usize::from(*level > 0));
                }
                *coefficient == clipped(value)
            };
            // every place is looked at, so that every kind is counted
            let wrong = levels.iter().zip(&ours).map(by_formula).filter(|good| !good).count();
            wrong == 0 && ours[call.needs()..] == *surplus
        }
    };
    tally.hold(good && answer == right, call, &answer);
}

// ---- the inverse

/// The extremes of every shape, then this many random accepted calls.
pub fn inverse(accepted: u64) -> Tally {
    let kinds = [
        ("shapes", 25),
        ("kinds of extremes", 7),
        ("of samples clipped below, at the lower clip, at the upper one and clipped above", 4),
        ("of halves below 0 and above", 2),
    ];
    let mut tally = Tally::new("inverse", &[(1, &[0]), (5, &[0])], &kinds);
    tally.beside = "held against the formula";
    let mut random = Random::new(23_094_001);
    let sums = SHAPES.map(|(log2_w, log2_h)| Sums::new(log2_w, log2_h));
    for ((log2_w, log2_h), sums) in SHAPES.into_iter().zip(&sums) {
        extremes(&mut random, log2_w, log2_h, sums, |kind, buffer| {
            tally.kind("kinds of extremes", kind);
            restored(&mut tally, &Inverse { buffer, log2_w, log2_h }, sums);
        });
    }
    let whole = tally.both + accepted;
    let mut turn = 0;
    while tally.both < whole || tally.refused < accepted / 8 {
        let ((log2_w, log2_h), faulty) = (SHAPES[turn % 25], random.below(3) == 0);
        restored(&mut tally, &calls::inverse(&mut random, log2_w, log2_h, faulty), &sums[turn % 25]);
        turn += 1;
    }
    tally
}

/// Coefficients that are extreme: one of them, all, in turn by place, by column and by row, and for each sample those
/// that make it as large and as small as it gets, and those that bring it to where it is clipped.
fn extremes(random: &mut Random, log2_w: usize, log2_h: usize, sums: &Sums, mut with: impl FnMut(usize, Vec<i16>)) {
    let (w, n) = (1usize << log2_w, 1usize << (log2_w + log2_h));
    for limit in [32767, -32768] {
        for place in 0..n {
            let mut block = vec![0; n];
            block[place] = limit;
            with(0, block);
        }
        with(1, vec![limit; n]);
    }
    let turned = |sign: bool| if sign { 32767 } else { -32768 };
    for first in [0, 1] {
        with(2, (0..n).map(|i| turned((i % w + i / w + first) % 2 == 0)).collect());
        with(3, (0..n).map(|i| turned((i % w + first) % 2 == 0)).collect());
        with(4, (0..n).map(|i| turned((i / w + first) % 2 == 0)).collect());
    }
    for sample in 0..n {
        let signs: Vec<bool> = (0..n).map(|place| sums.weight(place, sample) > 0).collect();
        let total: i64 = (0..n).map(|place| sums.weight(place, sample).abs()).sum();
        for sign in [true, false] {
            with(5, signs.iter().map(|s| turned(*s == sign)).collect());
            // about this much of each coefficient brings the sample to 2^15
            let magnitude = (1i64 << 32) / total;
            if magnitude < 32000 {
                let near = |s: &bool, random: &mut Random| {
                    let value = (magnitude + random.between(0, 1)) as i16;
                    if *s == sign {
                        value
                    } else {
                        -value
                    }
                };
                with(6, signs.iter().map(|s| near(s, random)).collect());
            }
        }
    }
}

fn restored(tally: &mut Tally, call: &Inverse, sums: &Sums) {
    let mut ours = call.buffer.clone();
    let answer = fault(galemosu::inverse(&mut ours, call.log2_w, call.log2_h));
    let right = order::inverse(call);
    let good = match right {
        Some(fault) => {
            tally.refused(fault);
            ours == call.buffer
        }
        None => {
            tally.both += 1;
            tally.kind("shapes", 5 * call.log2_h + call.log2_w - 6);
            let (coefficients, surplus) = call.buffer.split_at(call.needs());
            let by_formula = |(sum, residual): (i64, &i16)| {
                let value = rounded(sum);
                let edge = match value {
                    ..-32768 => Some(0),
                    -32768 => Some(1),
                    32767 => Some(2),
                    32768.. => Some(3),
                    _ => None,
                };
                if let Some(edge) = edge {
                    tally.kind("of samples clipped below, at the lower clip, at the upper one and clipped above", edge);
                }
                if sum.rem_euclid(1 << 17) == 1 << 16 {
                    tally.kind("of halves below 0 and above", usize::from(sum > 0));
                }
                *residual == clipped(value)
            };
            let wrong = sums.all(coefficients).into_iter().zip(&ours).map(by_formula).filter(|good| !good).count();
            wrong == 0 && ours[call.needs()..] == *surplus
        }
    };
    tally.hold(good && answer == right, call, &answer);
}
