//! Calls of the quantiser at a limit: of the skip, of the refusals 7, 8 and 9, on this side of it or just beyond; and
//! at equal prices.

use crate::blocks::Random;
use crate::calls::Quantise;
use galemosu::Costs;

/// Moves a sound call, whose buffer is the block alone, to one of the limits, if it has it.
pub fn to_a_limit(random: &mut Random, call: &mut Quantise) {
    let beyond = random.below(2) as i128;
    match random.below(5) {
        0 => to_the_skip(random, call, beyond),
        1 => to_refusal_7(random, call, beyond),
        2 => to_refusal_8(random, call, beyond),
        3 => to_refusal_9(random, call, beyond),
        _ => to_a_tie(random, call),
    }
}

/// Every coefficient just below the threshold, or one of them at it.
fn to_the_skip(random: &mut Random, call: &mut Quantise, beyond: i128) {
    let (threshold, q) = (call.block().threshold(), call.block().q());
    let walked = (threshold + q - 1) / q;
    call.buffer.iter_mut().for_each(|c| *c = random.signed(walked - 1));
    put(random, call, walked - 1 + beyond);
}

/// The largest coefficient whose rounded magnitude is at most 32767, or the next; alone, at a lambda that is low
/// enough.
fn to_refusal_7(random: &mut Random, call: &mut Quantise, beyond: i128) {
    let (bits, q) = (call.block().bits(), call.block().q());
    let most = ((32768 << bits) - (1 << (bits - 1)) - 1) / q;
    if most <= 32767 {
        call.buffer.fill(0);
        put(random, call, (most + beyond).min(32767));
        call.settings.lambda = random.below(1024) as f64;
    }
}

/// The largest lambda that one coefficient of magnitude 8191, 16383, 32767 or any above them allows, or the next.
fn to_refusal_8(random: &mut Random, call: &mut Quantise, beyond: i128) {
    let (bits, q) = (call.block().bits(), call.block().q());
    let any = random.between(8191, 32767) as i128;
    let m = random.one(&[8191, 16383, 32767, any]);
    let c = ((m << bits) + q - 1) / q;
    if c <= 32767 && (c * q + (1 << (bits - 1))) >> bits == m {
        call.buffer.fill(0);
        put(random, call, c);
        call.settings.lambda = ((1i128 << 41) / (m + 1) + beyond) as f64 / 32768.0;
    }
}

/// As many equal coefficients as D allows, or one more.
fn to_refusal_9(random: &mut Random, call: &mut Quantise, beyond: i128) {
    let c = if random.below(2) == 0 { 16384 } else { random.between(16000, 32767) as i16 };
    let passing = (1i128 << 60) / call.block().square(c, 0);
    if passing < call.buffer.len() as i128 {
        call.buffer.fill(0);
        call.buffer[..(passing + beyond) as usize].iter_mut().for_each(|place| *place = random.signed(c as i128));
        call.settings.lambda = 0.0;
    }
}

/// With equal costs and q = 2^14, coefficients of exactly one step, at the lambda where coding one of them costs what
/// it saves.
fn to_a_tie(random: &mut Random, call: &mut Quantise) {
    let j = random.below(10);
    let step = (32i128 << j) >> call.log2_side;
    call.settings.qp = 4 + 6 * j as u32;
    call.settings.lambda = (512u64 << (2 * j)) as f64 / 32768.0;
    call.costs = Costs::equal(32768);
    let often = 1 + random.below(6);
    call.buffer.iter_mut().for_each(|c| *c = if random.below(often) == 0 { random.signed(step) } else { 0 });
}

fn put(random: &mut Random, call: &mut Quantise, magnitude: i128) {
    let place = random.place(&call.buffer);
    call.buffer[place] = random.signed(magnitude);
}
