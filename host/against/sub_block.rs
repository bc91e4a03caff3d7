//! The three-component call against the Rust and against document 01: counts and levels of an accepted call must be
//! those of both, prices the document's, what is not run and the surplus untouched; a refused buffer must be left as it
//! was.

use crate::blocks::Random;
use crate::calls::{self, SubBlock};
use crate::order;
use crate::tally::Tally;
use crate::{costs_of_the_rust, fault_of};
use galemosu::{Coded, Mode};
use std::panic::catch_unwind;

const ALL: &[usize] = &[0, 1, 2];

/// Refusal 7 of chroma and refusal 9 cannot come: a transformed block of side 16 has rounded magnitudes up to 26,188,
/// and D of one of side 32 stays below 2^58.
pub fn compare(accepted: u64) -> Tally {
    let refusals = [(1, &[0][..]), (2, ALL), (3, ALL), (4, &[0]), (5, &[0]), (6, ALL), (7, &[0]), (8, ALL)];
    let kinds = [("luma sides", 4), ("run masks", 8), ("pairs of QP and component", 192), ("pairs of flags", 4)];
    let mut tally = Tally::new("sub_block", &refusals, &kinds);
    let mut random = Random::new(2_309_411);
    let mut turn = 0;
    while tally.wants(accepted) {
        let log2_luma = [2, 2, 3, 2, 3, 4, 2, 5][turn / 8 % 8];
        // bits 0 to 2, and now and then bits that mean nothing
        let run = (turn % 8) as u32 | if random.below(2) == 0 { 0 } else { (random.next() as u32) << 3 };
        let faulty = random.below(4) == 0;
        one(&mut tally, &calls::sub_block(&mut random, log2_luma, run, faulty));
        turn += 1;
    }
    tally
}

fn one(tally: &mut Tally, call: &SubBlock) {
    let mut ours = call.buffer.clone();
    let answer = galemosu::sub_block(&mut ours, &call.asked(Mode::Walk)).map_err(fault_of);
    let good = match order::sub_block(call) {
        Some(fault) => {
            tally.refused(fault);
            answer == Err(fault) && ours == call.buffer
        }
        None => answer.is_ok_and(|coded| accepted(tally, call, &coded, &ours)),
    };
    tally.hold(good, call, &answer);
}

/// Whether an accepted call has left what it must, and answered so.
fn accepted(tally: &mut Tally, call: &SubBlock, coded: &[Coded; 3], ours: &[i16]) -> bool {
    tally.kind("luma sides", call.log2_luma - 2);
    tally.kind("run masks", call.run as usize & 7);
    tally.kind("pairs of flags", 2 * call.intra_slice as usize + call.intra_coded as usize);
    let theirs = theirs(call);
    let mut overflows = false;
    let mut good = ours[call.needs()..] == call.buffer[call.needs()..];
    for k in 0..3 {
        let (left, held) = (&ours[call.part(k)], &call.buffer[call.part(k)]);
        if !call.runs(k) {
            good &= left == held && (coded[k].count, coded[k].price) == (0, 0);
        } else {
            tally.kind("pairs of QP and component", 3 * call.settings[k].qp as usize + k);
            let coefficients = call.coefficients(k);
            let block = call.block(k, &coefficients);
            let count = left.iter().filter(|c| **c != 0).count();
            good &= left == block.levels()
                && coded[k].count as usize == count
                && coded[k].price as i128 == block.price(left);
            overflows |= block.widest_rate() > i32::MAX as i128;
        }
    }
    match theirs {
        Some((counts, parts)) => {
            tally.both += 1;
            good && (0..3).all(|k| coded[k].count == counts[k] as u32 && ours[call.part(k)] == parts[k])
        }
        None => {
            tally.beyond += 1;
            good && overflows
        }
    }
}

/// What the Rust answers and leaves, if it does not panic.
fn theirs(call: &SubBlock) -> Option<([u16; 3], [Vec<i16>; 3])> {
    let [mut y, mut u, mut v] = [0, 1, 2].map(|k| call.buffer[call.part(k)].to_vec());
    let (side, costs) = (call.log2_luma, costs_of_the_rust(&call.costs));
    let (qps, lambdas) = (call.settings.map(|s| s.qp as u8), call.settings.map(|s| s.lambda));
    catch_unwind(move || {
        let (coded, slice) = (call.intra_coded, call.intra_slice);
        let counts =
            oracle::sub_block(&mut y, &mut u, &mut v, side, side, qps, lambdas, coded, slice, call.run as u8, &costs);
        (counts, [y, u, v])
    })
    .ok()
}
