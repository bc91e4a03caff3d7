//! The transform against the Rust and against document 01: an accepted block must give both their coefficients and
//! leave the surplus alone, a refused one must be left as it was.

use crate::blocks::Random;
use crate::calls::{self, Transform};
use crate::order;
use crate::paper;
use crate::tally::Tally;

pub fn compare(accepted: u64) -> Tally {
    let mut tally = Tally::new("transform", &[(1, &[0]), (5, &[0]), (6, &[0])], &[("shapes", 25)]);
    let mut random = Random::new(20_090_912);
    grid(&mut tally);
    let shapes: Vec<(usize, usize)> = (0..25).map(|i| (1 + i % 5, 1 + i / 5)).collect();
    for (log2_w, log2_h) in &shapes {
        limits_at_every_place(&mut tally, *log2_w, *log2_h);
    }
    let fixed = tally.both;
    let mut turn = 0;
    while tally.wants(fixed + accepted) {
        let (log2_w, log2_h) = shapes[turn % 25];
        let faulty = random.below(4) == 0;
        one(&mut tally, &calls::transform(&mut random, log2_w, log2_h, faulty));
        turn += 1;
    }
    tally
}

fn one(tally: &mut Tally, call: &Transform) {
    let mut ours = call.buffer.clone();
    let answer = galemosu::transform(&mut ours, call.log2_w, call.log2_h).map_err(|refusal| (refusal.number(), 0));
    let good = match order::transform(call) {
        Some(fault) => {
            tally.refused(fault);
            answer == Err(fault) && ours == call.buffer
        }
        None => {
            tally.both += 1;
            tally.kind("shapes", 5 * call.log2_h + call.log2_w - 6);
            let (residuals, surplus) = call.buffer.split_at(call.needs());
            let mut theirs = residuals.to_vec();
            oracle::transform(&mut theirs, call.log2_w, call.log2_h);
            answer == Ok(())
                && ours[..call.needs()] == theirs
                && theirs == paper::transform(residuals, call.log2_w, call.log2_h)
                && ours[call.needs()..] == *surplus
        }
    };
    tally.hold(good, call, &answer);
}

/// 2×2 over every choice of a grid that has the limits.
fn grid(tally: &mut Tally) {
    let values = [-1023, -1022, -700, -65, -2, -1, 0, 1, 2, 64, 511, 1022, 1023];
    for i in 0..values.len().pow(4) {
        let buffer = (0..4).map(|digit| values[i / values.len().pow(digit) % values.len()]).collect();
        one(tally, &Transform { buffer, log2_w: 1, log2_h: 1 });
    }
}

/// 1023 and -1023 are accepted at every place, 1024 and -1024 refused.
fn limits_at_every_place(tally: &mut Tally, log2_w: usize, log2_h: usize) {
    let n = 1usize << (log2_w + log2_h);
    for place in 0..n {
        for value in [1023, -1023, 1024, -1024] {
            let mut buffer = vec![0; n];
            buffer[place] = value;
            one(tally, &Transform { buffer, log2_w, log2_h });
        }
    }
}
