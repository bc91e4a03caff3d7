//! Holds the recorder's three calls against the Rust that they were ported from, built with overflow checks, and
//! against document 01 worked out apart (paper.rs), the second mode of two of them against the cheapest block found
//! apart (least.rs), the viewer's two calls against their formulas worked out apart (formula.rs), the guarded call and
//! `measure` against theirs (guarded.rs), and the run lists against theirs (symbols.rs): `compare
//! transform|quantise|sub_block|least|back|guarded|symbols|all [N]`, N random accepted calls of each. Status 0 when
//! nothing differed and all that must come has come.

mod back;
mod blocks;
mod calls;
mod digits;
mod formula;
mod guarded;
mod least;
mod limits;
mod matrix;
mod order;
mod paper;
mod quantise;
mod scan;
mod sub_block;
mod symbols;
mod tally;
mod there;
mod transform;

use galemosu::{Costs, Refused};
use order::Fault;
use tally::Tally;

/// A comparison and how many accepted calls it takes where no number is given.
type Comparison = (&'static str, fn(u64) -> Tally, u64);
const COMPARISONS: [Comparison; 3] = [
    ("transform", transform::compare, 300_000),
    ("quantise", quantise::compare, 450_000),
    ("sub_block", sub_block::compare, 250_000),
];
/// The second mode, which the Rust has not.
const LEAST: Comparison = ("least", least::compare, 120_000);
/// The way back, which it has neither.
const BACK: [Comparison; 2] = [("back", back::scale_back, 100_000), ("back", back::inverse, 200_000)];
/// The guarded call and `measure`, which it has neither.
const GUARDED: [Comparison; 2] = [("guarded", guarded::compare, 100_000), ("guarded", guarded::measures, 50_000)];
/// Run lists, which it has neither: written and read back, and read.
const SYMBOLS: [Comparison; 2] = [("symbols", symbols::writes, 200_000), ("symbols", symbols::reads, 200_000)];
/// How many blocks go there and back.
const THERE_AND_BACK: u64 = 100_000;

pub fn fault_of(refused: Refused) -> Fault {
    (refused.refusal.number(), refused.component.map_or(0, |component| component as usize))
}

/// The cost tables as the Rust takes them.
pub fn costs_of_the_rust(costs: &Costs) -> Vec<i32> {
    costs.entries().map(|entry| entry as i32).to_vec()
}

fn main() {
    // a panic of the Rust is an answer here
    let usual = std::panic::take_hook();
    std::panic::set_hook(Box::new(move |panic| {
        if !panic.location().is_some_and(|place| place.file().ends_with("tq.rs")) {
            usual(panic);
        }
    }));
    let words: Vec<String> = std::env::args().skip(1).collect();
    let what = words.first().map_or("all", |word| word.as_str());
    let number = words.get(1).map(|n| n.parse().expect("a number of accepted calls"));
    let (mut both, mut beyond, mut refused, mut different, mut good) = (0, 0, 0, 0, true);
    for (_, compare, usual) in COMPARISONS.iter().filter(|(name, ..)| what == "all" || what == *name) {
        let tally = compare(number.unwrap_or(*usual));
        good &= tally.report();
        both += tally.both;
        beyond += tally.beyond;
        refused += tally.refused;
        different += tally.different;
    }
    if COMPARISONS.iter().any(|(name, ..)| what == "all" || what == *name) {
        print!("in all: {both} accepted through both, {beyond} past the Rust's 32-bit rate, ");
        println!("{refused} refused, {different} different");
    }
    if what == "all" || what == LEAST.0 {
        good &= LEAST.1(number.unwrap_or(LEAST.2)).report();
    }
    if what == "all" || what == BACK[0].0 {
        for (_, compare, usual) in BACK {
            good &= compare(number.unwrap_or(usual)).report();
        }
        good &= there::compare(number.unwrap_or(THERE_AND_BACK));
    }
    for (name, compare, usual) in GUARDED.into_iter().chain(SYMBOLS) {
        if what == "all" || what == name {
            good &= compare(number.unwrap_or(usual)).report();
        }
    }
    std::process::exit(!good as i32);
}
