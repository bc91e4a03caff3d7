//! The quantiser against the Rust and against document 01: count and levels of an accepted block must be those of both,
//! the price the document's and the best cost that the Rust's walk has found (0 where it has not walked), the surplus
//! untouched; a refused block must be left as it was. Where the Rust's 32-bit rate overflows it has no answer, and the
//! document is alone.

use crate::blocks::Random;
use crate::calls::{self, Quantise, COMPONENTS};
use crate::order;
use crate::tally::Tally;
use crate::{costs_of_the_rust, fault_of};
use galemosu::{Coded, Mode};
use std::panic::catch_unwind;

const ALL: &[usize] = &[0, 1, 2];

pub fn compare(accepted: u64) -> Tally {
    let refusals = [(1, &[0][..]), (2, ALL), (3, ALL), (4, &[0]), (5, &[0]), (6, ALL), (7, ALL), (8, ALL), (9, ALL)];
    let kinds =
        [("sides", 5), ("pairs of QP and component", 192), ("pairs of flags", 4), ("of skipped, emptied and coded", 3)];
    let mut tally = Tally::new("quantise", &refusals, &kinds);
    let mut random = Random::new(19_031_928);
    let mut turn = 0;
    while tally.wants(accepted) {
        // small sides more often: they are quick, and they meet more ties
        let log2_side = [1, 1, 1, 2, 2, 2, 3, 3, 4, 5][turn / 192 % 10];
        let faulty = random.below(4) == 0;
        one(&mut tally, &calls::quantise(&mut random, log2_side, turn as u32 / 3 % 64, COMPONENTS[turn % 3], faulty));
        turn += 1;
    }
    tally
}

fn one(tally: &mut Tally, call: &Quantise) {
    let mut ours = call.buffer.clone();
    let answer = galemosu::quantise(&mut ours, &call.asked(Mode::Walk)).map_err(fault_of);
    let good = match order::quantise(call) {
        Some(fault) => {
            tally.refused(fault);
            answer == Err(fault) && ours == call.buffer
        }
        None => answer.is_ok_and(|coded| accepted(tally, call, coded, &ours)),
    };
    tally.hold(good, call, &answer);
}

/// Whether an accepted call has left what it must, and answered so.
fn accepted(tally: &mut Tally, call: &Quantise, coded: Coded, ours: &[i16]) -> bool {
    let block = call.block();
    let (levels, surplus) = ours.split_at(call.needs());
    let count = levels.iter().filter(|c| **c != 0).count();
    tally.kind("sides", call.log2_side - 1);
    tally.kind("pairs of QP and component", 3 * call.settings.qp as usize + call.component as usize);
    tally.kind("pairs of flags", 2 * call.intra_slice as usize + call.intra_coded as usize);
    let skipped = block.skipped();
    tally.kind("of skipped, emptied and coded", if skipped { 0 } else { 1 + (count != 0) as usize });
    let same_as_theirs = match theirs(call) {
        Some((n, price, block)) => {
            tally.both += 1;
            // of a block that it skips the Rust has no cost
            n == count && (skipped && price == 0 || price == coded.price as i64) && block == levels
        }
        None => {
            tally.beyond += 1;
            block.widest_rate() > i32::MAX as i128
        }
    };
    same_as_theirs
        && levels == block.levels()
        && coded.count as usize == count
        && coded.price as i128 == block.price(levels)
        && *surplus == call.buffer[call.needs()..]
}

/// The Rust's count and best cost, and what it leaves, if it does not panic.
fn theirs(call: &Quantise) -> Option<(usize, i64, Vec<i16>)> {
    let mut block = call.buffer[..call.needs()].to_vec();
    let (side, component, costs) = (call.log2_side, call.component as usize, costs_of_the_rust(&call.costs));
    let (qp, lambda) = (call.settings.qp as u8, call.settings.lambda);
    catch_unwind(move || {
        let (coded, slice) = (call.intra_coded, call.intra_slice);
        let count = oracle::quant(qp, lambda, coded, slice, &mut block, side, side, component, &costs);
        (count as usize, oracle::price_probe(), block)
    })
    .ok()
}
