//! What a comparison has seen: what differed, and how often each refusal and each kind of accepted call has come. What
//! never came counts against the comparison as a difference does.

use crate::order::Fault;
use std::collections::BTreeMap;
use std::fmt::Debug;

pub struct Tally {
    name: &'static str,
    /// What the accepted calls went through.
    pub beside: &'static str,
    /// Accepted calls that went through both, the library and what it is held against.
    pub both: u64,
    /// Accepted calls that the Rust has no answer to: its 32-bit rate overflows.
    pub beyond: u64,
    pub refused: u64,
    pub different: u64,
    refusals: BTreeMap<Fault, u64>,
    kinds: BTreeMap<&'static str, Vec<u64>>,
}

impl Tally {
    /// A tally of a call that must meet each of these refusals, of each of the components, and so many kinds of
    /// accepted calls of each name.
    pub fn new(name: &'static str, refusals: &[(u32, &[usize])], kinds: &[(&'static str, usize)]) -> Tally {
        let refusals =
            refusals.iter().flat_map(|(number, components)| components.iter().map(|k| ((*number, *k), 0))).collect();
        let kinds = kinds.iter().map(|(kind, values)| (*kind, vec![0; *values])).collect();
        Tally { name, beside: "through both", both: 0, beyond: 0, refused: 0, different: 0, refusals, kinds }
    }

    /// Whether fewer calls than these have come, or fewer refused ones than one for eight of them.
    pub fn wants(&self, accepted: u64) -> bool {
        self.both < accepted || self.refused < accepted / 8
    }

    pub fn refused(&mut self, fault: Fault) {
        self.refused += 1;
        *self.refusals.entry(fault).or_default() += 1;
    }

    /// An accepted call is one of this kind.
    pub fn kind(&mut self, kind: &'static str, value: usize) {
        self.kinds.get_mut(kind).unwrap()[value] += 1;
    }

    /// Complains of a call that is not as it must be.
    pub fn hold(&mut self, good: bool, call: &impl Debug, answer: &impl Debug) {
        if good {
            return;
        }
        self.different += 1;
        if self.different <= 5 {
            println!("DIFFERENT: {call:?}: {answer:?}");
        }
    }

    /// Prints what came; whether nothing differed and nothing is missing.
    pub fn report(&self) -> bool {
        let beyond = if self.beyond == 0 {
            String::new()
        } else {
            format!(" ({} more are past the Rust's 32-bit rate)", self.beyond)
        };
        println!(
            "{}: {} accepted {}{beyond}, {} refused, {} different",
            self.name, self.both, self.beside, self.refused, self.different
        );
        let mut numbers: BTreeMap<u32, Vec<String>> = BTreeMap::new();
        for ((number, component), times) in &self.refusals {
            numbers.entry(*number).or_default().push(format!("{} {times}", ["Y", "U", "V"][*component]));
        }
        let numbers: Vec<String> =
            numbers.iter().map(|(number, times)| format!("{number}: {}", times.join(" "))).collect();
        println!("    refusals by number and component (Y where it belongs to none): {}", numbers.join("; "));
        let kinds: Vec<String> = self
            .kinds
            .iter()
            .map(|(kind, times)| format!("{} {kind}, each {} times or more", times.len(), times.iter().min().unwrap()))
            .collect();
        println!("    accepted calls have {}", kinds.join("; "));
        let never = self.refusals.values().chain(self.kinds.values().flatten()).filter(|times| **times == 0).count();
        if never != 0 {
            println!("    {never} of these never came");
        }
        self.different == 0 && never == 0
    }
}
