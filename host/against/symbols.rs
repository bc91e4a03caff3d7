//! Run lists, for which there is no Rust, against ticket 1's words worked out here: a block must be written as the
//! symbols of its levels, with the places behind them untouched, and come back when they are read; a list must be read
//! as the levels that it tells, or refused for what is wrong with it; and what is refused must be left as it was.

use crate::blocks::Random;
use crate::calls::{self, Read, Write};
use crate::order;
use crate::scan::scan;
use crate::tally::Tally;
use galemosu::{read_symbols, write_symbols};

/// "per nonzero level in scan order the zeros before it, magnitude, sign and whether it is the last, packed in a u32
/// (run 10 bits lowest, magnitude 15, sign 1 when negative, last)"
pub fn listed(block: &[i16], log2_side: usize) -> Vec<u32> {
    let (mut list, mut zeros) = (Vec::new(), 0u32);
    for place in scan(1 << log2_side) {
        let level = i32::from(block[place]);
        if level == 0 {
            zeros += 1;
            continue;
        }
        list.push(zeros + level.unsigned_abs() * 1024 + if level < 0 { 1024 * 32768 } else { 0 });
        zeros = 0;
    }
    if let Some(last) = list.last_mut() {
        *last += 2 * 1024 * 32768;
    }
    list
}

/// "a zero magnitude, unused bits set, a run past the block, a missing last mark or a symbol after it": a bit for each
/// of the five that a list of a block of n places has.
pub fn wrong(list: &[u32], n: usize) -> usize {
    let marked = |symbol: &u32| symbol / (2 * 1024 * 32768) % 2 == 1;
    let taken: usize = list.iter().map(|symbol| *symbol as usize % 1024 + 1).sum();
    let faults = [
        list.iter().any(|symbol| symbol / 1024 % 32768 == 0),
        list.iter().any(|symbol| *symbol >= 4 * 1024 * 32768),
        taken > n,
        list.last().is_some_and(|last| !marked(last)),
        list.iter().rev().skip(1).any(marked),
    ];
    faults.iter().rev().fold(0, |set, fault| 2 * set + *fault as usize)
}

/// The levels that a list tells which has nothing wrong, by rows.
pub fn told(list: &[u32], log2_side: usize) -> Vec<i16> {
    let places = scan(1 << log2_side);
    let (mut block, mut at) = (vec![0; places.len()], 0);
    for symbol in list {
        at += *symbol as usize % 1024;
        let magnitude = (symbol / 1024 % 32768) as i16;
        block[places[at]] = if symbol / (1024 * 32768) % 2 == 1 { -magnitude } else { magnitude };
        at += 1;
    }
    block
}

// ---- the writer, and what it wrote read back

pub fn writes(accepted: u64) -> Tally {
    let kinds = [
        ("sides", 5),
        ("of levels that the quantiser left and of others", 2),
        ("sides with the longest run", 5),
        ("of levels of 32767 and -32767", 2),
        ("of blocks empty, with some levels and with all", 3),
        ("of lists and blocks with and without a surplus", 4),
    ];
    let mut tally = Tally::new("write_symbols", &[(1, &[0]), (5, &[0]), (6, &[0]), (10, &[0])], &kinds);
    tally.beside = "held against the list worked out apart, and read back";
    let mut random = Random::new(1_112_026);
    let (mut turn, mut one_short) = (0, 0);
    while tally.wants(accepted) {
        let faulty = random.below(5) == 0;
        let call = calls::write(&mut random, 1 + turn % 5, turn / 5 % 2 == 0, faulty);
        write(&mut tally, &mut random, &call, &mut one_short);
        turn += 1;
    }
    println!("write_symbols: {one_short} calls were refused with 10 for one place too few");
    tally.different += (one_short == 0) as u64;
    tally
}

fn write(tally: &mut Tally, random: &mut Random, call: &Write, one_short: &mut u64) {
    let mut list = call.list.clone();
    let answer = write_symbols(&call.buffer, call.log2_side, &mut list).map(<[u32]>::to_vec);
    let good = match order::write(call) {
        Some(fault) => {
            tally.refused(fault);
            *one_short += (fault.0 == 10 && listed(&call.buffer, call.log2_side).len() == list.len() + 1) as u64;
            answer.as_ref().is_err_and(|refusal| refusal.number() == fault.0) && list == call.list
        }
        None => {
            tally.both += 1;
            let right = listed(&call.buffer, call.log2_side);
            kinds_of(tally, call, &right);
            answer.as_ref().is_ok_and(|symbols| *symbols == right)
                && list[..right.len()] == right
                && list[right.len()..] == call.list[right.len()..]
                && comes_back(random, &right, call)
        }
    };
    tally.hold(good, call, &answer);
}

fn kinds_of(tally: &mut Tally, call: &Write, right: &[u32]) {
    let (n, block) = (call.needs(), &call.buffer[..call.needs()]);
    tally.kind("sides", call.log2_side - 1);
    tally.kind("of levels that the quantiser left and of others", !call.quantised as usize);
    if right.iter().any(|symbol| *symbol as usize % 1024 == n - 1) {
        tally.kind("sides with the longest run", call.log2_side - 1);
    }
    for (sign, level) in [32767, -32767].into_iter().enumerate() {
        if block.contains(&level) {
            tally.kind("of levels of 32767 and -32767", sign);
        }
    }
    let filled = (!right.is_empty()) as usize + (right.len() == n) as usize;
    tally.kind("of blocks empty, with some levels and with all", filled);
    let surplus = 2 * (call.list.len() > right.len()) as usize + (call.buffer.len() > n) as usize;
    tally.kind("of lists and blocks with and without a surplus", surplus);
}

/// Whether the symbols, read over anything, give the block back and leave what lies behind it.
fn comes_back(random: &mut Random, symbols: &[u32], call: &Write) -> bool {
    let n = call.needs();
    let held: Vec<i16> = (0..n + random.below(3) as usize).map(|_| random.next() as i16).collect();
    let mut block = held.clone();
    read_symbols(symbols, &mut block, call.log2_side) == Ok(())
        && block[..n] == call.buffer[..n]
        && block[n..] == held[n..]
}

// ---- the reader

/// How many lists of numbers by chance alone are read beside the others.
const BY_CHANCE: u64 = 100_000;

pub fn reads(accepted: u64) -> Tally {
    let kinds = [("sides", 5), ("of lists as written, changed and by chance", 3), ("of lists empty and not", 2)];
    let mut tally = Tally::new("read_symbols", &[(1, &[0]), (5, &[0]), (11, &[0])], &kinds);
    tally.beside = "held against the levels worked out apart, and written again";
    let mut random = Random::new(2_112_026);
    let (mut turn, mut sets) = (0, [0u64; 32]);
    while tally.wants(accepted) {
        let (kind, faulty) = (random.one(&[0, 0, 0, 1, 1]), random.below(8) == 0);
        read(&mut tally, &calls::read(&mut random, 1 + turn % 5, kind, faulty), kind, &mut sets);
        turn += 1;
    }
    let before = tally.refused;
    for turn in 0..BY_CHANCE {
        read(&mut tally, &calls::read(&mut random, 1 + turn as usize % 5, 2, false), 2, &mut sets);
    }
    println!("read_symbols: of {BY_CHANCE} lists of random numbers {} were refused", tally.refused - before);
    let alone: Vec<String> = (0..5).map(|fault| sets[1 << fault].to_string()).collect();
    let least = sets[1..].iter().min().unwrap();
    println!(
        "read_symbols: 11 for a zero magnitude, an unused bit, a run past the block, no last mark, a symbol behind it, \
         each alone: {}; each of the 31 sets of these {least} times or more",
        alone.join(", ")
    );
    tally.different += (*least == 0) as u64;
    tally
}

fn read(tally: &mut Tally, call: &Read, kind: usize, sets: &mut [u64; 32]) {
    let mut block = call.buffer.clone();
    let answer = read_symbols(&call.list, &mut block, call.log2_side);
    let good = match order::read(call) {
        Some(fault) => {
            tally.refused(fault);
            if fault.0 == 11 {
                sets[wrong(&call.list, call.needs())] += 1;
            }
            answer.is_err_and(|refusal| refusal.number() == fault.0) && block == call.buffer
        }
        None => {
            tally.both += 1;
            tally.kind("sides", call.log2_side - 1);
            tally.kind("of lists as written, changed and by chance", kind);
            tally.kind("of lists empty and not", !call.list.is_empty() as usize);
            let n = call.needs();
            answer.is_ok()
                && block[..n] == told(&call.list, call.log2_side)
                && block[n..] == call.buffer[n..]
                && write_symbols(&block, call.log2_side, &mut vec![0; n]) == Ok(&call.list[..])
        }
    };
    tally.hold(good, call, &answer);
}
