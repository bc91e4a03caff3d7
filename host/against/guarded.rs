//! The guarded call and `measure`, for which there is no Rust, against their definition worked out here: candidates
//! from document 01's levels (paper.rs) or the cheapest block (least.rs), decoded by ticket 6's formulas (formula.rs).
//! An accepted call must leave the first candidate that fits, with its count, its price and its exact extremes, and
//! what is not run and the surplus untouched; a refused one must be left as it was.

use crate::blocks::Random;
use crate::calls::{self, Guarded, Measure};
use crate::fault_of;
use crate::formula::{self, clipped, rounded, Sums};
use crate::least;
use crate::order;
use crate::paper::Block;
use crate::scan::scan;
use crate::tally::Tally;
use galemosu::{Extremes, Mode};

const ALL: &[usize] = &[0, 1, 2];

/// "decoded(levels) is scaling back and the inverse of ticket 6"
pub fn decoded(levels: &[i16], log2_side: usize, qp: u32) -> Vec<i16> {
    let coefficients: Vec<i16> =
        levels.iter().map(|level| clipped(formula::scaled_back(*level, log2_side, qp))).collect();
    if coefficients.iter().all(|c| *c == 0) {
        return coefficients;
    }
    Sums::new(log2_side, log2_side).all(&coefficients).into_iter().map(|sum| clipped(rounded(sum))).collect()
}

/// "darker and lighter are the largest r - r' and r' - r over the block's samples, 0 at least"
pub fn extremes(residuals: &[i16], decoded: &[i16]) -> Extremes {
    let apart = || residuals.iter().zip(decoded).map(|(r, d)| i32::from(*r) - i32::from(*d));
    Extremes { darker: apart().max().unwrap().max(0) as u32, lighter: (-apart().min().unwrap()).max(0) as u32 }
}

/// What must be written of a component: the levels, their price and extremes, and which candidate it is; nothing where
/// none fits.
pub struct Written {
    levels: Vec<i16>,
    price: i128,
    extremes: Extremes,
    candidate: usize,
}

pub fn written(call: &Guarded, k: usize) -> Option<Written> {
    let coefficients = call.call.coefficients(k);
    let block = call.call.block(k, &coefficients);
    let residuals = &call.call.buffer[call.call.part(k)];
    let mut levels = match call.mode {
        Mode::Least if !block.skipped() => least::found_by_search(&block),
        _ => block.levels(),
    };
    let places = scan(1 << block.log2_side);
    let (mut candidate, mut back) = (0, 1);
    loop {
        let price = block.price(&levels);
        if price < 1 << 62 {
            let extremes = extremes(residuals, &decoded(&levels, block.log2_side, block.qp));
            if extremes.darker <= call.heights[k].darker && extremes.lighter <= call.heights[k].lighter {
                return Some(Written { levels, price, extremes, candidate });
            }
        }
        if back > places.len() {
            return None;
        }
        for place in &places[..back] {
            levels[*place] = rounded_level(&block, *place);
        }
        (candidate, back) = (candidate + 1, 2 * back);
    }
}

/// m with the coefficient's sign.
fn rounded_level(block: &Block, place: usize) -> i16 {
    let m = block.rounded(block.coefficients[place]) as i16;
    if block.coefficients[place] < 0 {
        -m
    } else {
        m
    }
}

/// At least this many accepted calls, a tenth of that many with a repair, and as many refused with 15.
pub fn compare(accepted: u64) -> Tally {
    let refusals = [(1, &[0][..]), (2, ALL), (3, ALL), (4, &[0]), (5, &[0]), (6, ALL), (7, &[0]), (8, ALL), (15, ALL)];
    let kinds = [
        ("luma sides", 4),
        ("run masks", 8),
        ("pairs of QP and component", 192),
        ("pairs of flags", 4),
        ("of the two modes", 2),
        ("candidates, the last of each side among them", 12),
    ];
    let mut tally = Tally::new("guarded_sub_block", &refusals, &kinds);
    tally.beside = "held against the first candidate that fits";
    let mut random = Random::new(17_112_026);
    let (mut turn, mut repaired, mut too_far) = (0, 0, 0);
    while tally.wants(accepted) || repaired < accepted / 10 || too_far < accepted / 10 {
        let log2_luma = [2, 2, 3, 2, 3, 4, 2, 3, 2, 2, 3, 2, 3, 4, 2, 5][turn / 8 % 16];
        let run = (turn % 8) as u32 | if random.below(2) == 0 { 0 } else { (random.next() as u32) << 3 };
        let faulty = random.below(8) == 0;
        one(&mut tally, &calls::guarded(&mut random, log2_luma, run, faulty), &mut repaired, &mut too_far);
        turn += 1;
    }
    println!("guarded_sub_block: {repaired} of the accepted calls were repaired, {too_far} calls were refused with 15");
    tally
}

fn one(tally: &mut Tally, call: &Guarded, repaired: &mut u64, too_far: &mut u64) {
    let mut ours = call.call.buffer.clone();
    let answer = galemosu::guarded_sub_block(&mut ours, &call.call.asked(call.mode), &call.heights).map_err(fault_of);
    let good = match order::guarded(call) {
        Some(fault) => {
            tally.refused(fault);
            *too_far += (fault.0 == 15) as u64;
            answer.as_ref().err() == Some(&fault) && ours == call.call.buffer
        }
        None => answer.as_ref().is_ok_and(|coded| {
            tally.both += 1;
            tally.kind("luma sides", call.call.log2_luma - 2);
            tally.kind("run masks", call.call.run as usize & 7);
            tally.kind("pairs of flags", 2 * call.call.intra_slice as usize + call.call.intra_coded as usize);
            tally.kind("of the two modes", (call.mode == Mode::Least) as usize);
            let n = call.call.needs();
            let mut most = 0;
            let good = (0..3).fold(ours[n..] == call.call.buffer[n..], |good, k| {
                component(tally, call, k, coded[k], &ours[call.call.part(k)], &mut most) && good
            });
            *repaired += (most > 0) as u64;
            good
        }),
    };
    tally.hold(good, call, &answer);
}

/// Whether one component of an accepted call is as it must be; `most` is the last candidate that was written so far.
fn component(
    tally: &mut Tally,
    call: &Guarded,
    k: usize,
    coded: galemosu::Guarded,
    left: &[i16],
    most: &mut usize,
) -> bool {
    let (count, price) = (coded.coded.count as usize, coded.coded.price as i128);
    if !call.call.runs(k) {
        let nothing = Extremes { darker: 0, lighter: 0 };
        return left == &call.call.buffer[call.call.part(k)] && (count, price, coded.extremes) == (0, 0, nothing);
    }
    tally.kind("pairs of QP and component", 3 * call.call.settings[k].qp as usize + k);
    let right = written(call, k).unwrap();
    tally.kind("candidates, the last of each side among them", right.candidate);
    *most = right.candidate.max(*most);
    left == right.levels
        && count == left.iter().filter(|level| **level != 0).count()
        && price == right.price
        && coded.extremes == right.extremes
}

// ---- measure

pub fn measures(accepted: u64) -> Tally {
    let kinds = [("pairs of QP and side", 320), ("of blank and other levels", 2), ("of extremes above and at 0", 4)];
    let mut tally = Tally::new("measure", &[(1, &[0]), (2, &[0]), (5, &[0])], &kinds);
    tally.beside = "held against the formulas";
    let mut random = Random::new(18_112_026);
    let mut turn = 0;
    while tally.wants(accepted) {
        let (side, qp) = (random.one(&[1, 1, 2, 2, 2, 3, 3, 4, 5]), turn % 64);
        let faulty = random.below(4) == 0;
        measured(&mut tally, &calls::measure(&mut random, side, qp, faulty));
        turn += 1;
    }
    tally
}

fn measured(tally: &mut Tally, call: &Measure) {
    let answer = galemosu::measure(&call.residuals, &call.levels, call.log2_side, call.qp);
    let good = match order::measure(call) {
        Some(fault) => {
            tally.refused(fault);
            answer.is_err_and(|refused| refused.component.is_none() && fault_of(refused) == fault)
        }
        None => answer.is_ok_and(|found| {
            tally.both += 1;
            tally.kind("pairs of QP and side", 5 * call.qp as usize + call.log2_side - 1);
            let levels = &call.levels[..call.needs()];
            tally.kind("of blank and other levels", levels.iter().any(|level| *level != 0) as usize);
            tally.kind("of extremes above and at 0", 2 * (found.darker == 0) as usize + (found.lighter == 0) as usize);
            found == extremes(&call.residuals[..call.needs()], &decoded(levels, call.log2_side, call.qp))
        }),
    };
    tally.hold(good, call, &answer);
}
