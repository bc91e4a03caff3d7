//! What the Rust that was ported, built with overflow checks, answers to request lines of the protocol: one line for
//! each, to be recorded (tools/record). It asks nothing of the library. The requests must be well-formed and accepted
//! by document 01's refusals; of the buffer only the block is answered, without a surplus. The Rust reports no price:
//! what stands for it is the best cost that its walk has found, handed out by one line that the probe adds to its text,
//! and 0 where it has not walked.
//!
//!     transform   : c1 .. cN
//!     quantise    COUNT PRICE : c1 .. cN
//!     subblock    COUNTY PRICEY COUNTU PRICEU COUNTV PRICEV : r1 .. rN
//!
//! or `panic` and its message.

use std::io::{stdin, BufRead};
use std::panic::{catch_unwind, set_hook};
use std::sync::Mutex;

static SAID: Mutex<String> = Mutex::new(String::new());

struct Words<'a>(std::str::Split<'a, char>);

impl Words<'_> {
    fn number<T: std::str::FromStr>(&mut self) -> T {
        self.0.next().and_then(|w| w.parse().ok()).expect("a well-formed request")
    }

    fn lambda(&mut self) -> f64 {
        f64::from_bits(u64::from_str_radix(self.0.next().expect("LAMBDA"), 16).expect("hex digits"))
    }

    /// Of FLAGS whether the slice is an I slice, and whether the block is intra coded. The second mode is not asked.
    fn flags(&mut self) -> (bool, bool) {
        let flags: u32 = self.number();
        assert!(flags & 4 == 0, "a request of the first mode");
        (flags & 1 != 0, flags & 2 != 0)
    }

    fn costs(&mut self) -> Vec<i32> {
        (0..28).map(|_| self.number()).collect()
    }

    fn samples(&mut self) -> Vec<i16> {
        let n = self.number();
        (0..n).map(|_| self.number()).collect()
    }
}

fn said(answers: &[(u16, i64)], block: &[i16]) -> String {
    let answers = answers.iter().map(|(count, price)| format!("{count} {price} "));
    let block = block.iter().map(|c| format!(" {c}"));
    answers.chain([":".to_string()]).chain(block).collect()
}

fn transform(words: &mut Words) -> String {
    let (log2_w, log2_h): (usize, usize) = (words.number(), words.number());
    let mut block = words.samples();
    block.truncate(1 << (log2_w + log2_h));
    oracle::transform(&mut block, log2_w, log2_h);
    said(&[], &block)
}

fn quantise(words: &mut Words) -> String {
    let (component, log2): (usize, usize) = (words.number(), words.number());
    let (qp, lambda): (u8, f64) = (words.number(), words.lambda());
    let ((intra_slice, intra_coded), costs) = (words.flags(), words.costs());
    let mut block = words.samples();
    block.truncate(1 << (2 * log2));
    let count = oracle::quant(qp, lambda, intra_coded, intra_slice, &mut block, log2, log2, component, &costs);
    said(&[(count, oracle::price_probe())], &block)
}

/// A call of the Rust over three components. Its QP and mask have 8 bits; those of a component that is not run may be
/// wider, and it doesn't read them.
struct SubBlock {
    log2: usize,
    qp: [u8; 3],
    lambda: [f64; 3],
    intra_slice: bool,
    intra_coded: bool,
    costs: Vec<i32>,
    y: Vec<i16>,
    u: Vec<i16>,
    v: Vec<i16>,
}

impl SubBlock {
    /// The counts that it reports, the best cost of the component walked last, and what it leaves.
    fn run(&self, run: u32) -> ([u16; 3], i64, Vec<i16>) {
        // a block that the quick skip clears sets the probe back to 0
        oracle::quant(0, 0.0, false, false, &mut [0; 4], 1, 1, 0, &self.costs);
        let (mut y, mut u, mut v) = (self.y.clone(), self.u.clone(), self.v.clone());
        let (log2, coded, slice) = (self.log2, self.intra_coded, self.intra_slice);
        let (qp, lambda, costs) = (self.qp, self.lambda, &self.costs);
        let counts = oracle::sub_block(&mut y, &mut u, &mut v, log2, log2, qp, lambda, coded, slice, run as u8, costs);
        (counts, oracle::price_probe(), [y, u, v].concat())
    }
}

/// The probe keeps one cost, so that each component that is run is run alone once more for its own.
fn sub_block(words: &mut Words) -> String {
    let (log2, run): (usize, u32) = (words.number(), words.number());
    let settings = [0; 3].map(|_| (words.number::<u32>() as u8, words.lambda()));
    let ((intra_slice, intra_coded), costs) = (words.flags(), words.costs());
    let (n, mut y) = (1 << (2 * log2), words.samples());
    let mut u = y.split_off(n);
    let mut v = u.split_off(n / 4);
    v.truncate(n / 4);
    let (qp, lambda) = (settings.map(|s| s.0), settings.map(|s| s.1));
    let call = SubBlock { log2, qp, lambda, intra_slice, intra_coded, costs, y, u, v };
    let (counts, _, left) = call.run(run);
    let answers = [0, 1, 2].map(|k| (counts[k], call.run(run & (1 << k)).1));
    said(&answers, &left)
}

fn answer(line: &str) -> String {
    let mut words = Words(line.split(' '));
    match words.0.next() {
        Some("transform") => transform(&mut words),
        Some("quantise") => quantise(&mut words),
        Some("subblock") => sub_block(&mut words),
        _ => panic!("no request"),
    }
}

fn main() {
    set_hook(Box::new(|info| *SAID.lock().unwrap() = info.to_string().replace('\n', " ")));
    for line in stdin().lock().lines() {
        let line = line.expect("a line of text");
        match catch_unwind(|| answer(&line)) {
            Ok(answer) => println!("{answer}"),
            Err(_) => println!("panic {}", SAID.lock().unwrap()),
        }
    }
}
