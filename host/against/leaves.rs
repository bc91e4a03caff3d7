//! Where the Rust leaves the definition, for docs/DIFFERENCES.md. Each input is put to one build of the Rust, with
//! overflow checks or without, and to the library; a line says what each has made of it.

use galemosu::{quantise, transform, Component, Costs, Quantise, Settings};
use std::panic::{catch_unwind, AssertUnwindSafe};

const FLAT: Costs = Costs::equal(32768);
const LARGEST: Costs = Costs::equal(1 << 20);

/// One call: luma of an intra-coded block in an intra slice.
struct Call {
    what: &'static str,
    log2: (usize, usize),
    qp: u32,
    lambda: f64,
    costs: Costs,
    block: Vec<i16>,
}

/// The first places of a block that hold something, in words.
fn shown(block: &[i16]) -> String {
    let held: Vec<String> =
        block.iter().enumerate().filter(|(_, c)| **c != 0).map(|(i, c)| format!("{c} at {i}")).collect();
    match held.len() {
        0 => "an empty block".to_string(),
        1..=3 => held.join(", "),
        n => format!("{}, .. ({n} levels)", held[..3].join(", ")),
    }
}

/// What the Rust makes of a call: its levels, or a panic and its message.
fn theirs(call: &Call) -> String {
    let costs = call.costs.entries().map(|entry| entry as i32);
    let mut block = call.block.clone();
    let (w, h) = call.log2;
    let run = AssertUnwindSafe(|| oracle::quant(call.qp as u8, call.lambda, true, true, &mut block, w, h, 0, &costs));
    match catch_unwind(run) {
        Ok(_) => {
            let outside = (1 << (w + h)..block.len()).filter(|i| block[*i] != call.block[*i]).count();
            let behind =
                if outside > 0 { format!("; {outside} places behind the block changed") } else { String::new() };
            shown(&block[..1 << (w + h)]) + &behind
        }
        Err(panic) => {
            let text = panic.downcast_ref::<String>().cloned();
            let text = text.or(panic.downcast_ref::<&str>().map(|s| s.to_string())).unwrap_or_default();
            format!("panics: {text}")
        }
    }
}

/// What the library makes of it.
fn ours(call: &Call) -> String {
    let mut block = call.block.clone();
    let settings = Settings { qp: call.qp, lambda: call.lambda };
    let mut asked = Quantise::new(Component::Y, call.log2.0, settings, &call.costs);
    (asked.intra_slice, asked.intra_coded) = (true, true);
    match quantise(&mut block, &asked) {
        Ok(_) => shown(&block),
        Err(refused) => format!("refuses with {} {:?}", refused.refusal.number(), refused.refusal),
    }
}

/// n places, the first few of which are given.
fn front(n: usize, values: &[i16]) -> Vec<i16> {
    values.iter().cloned().chain(std::iter::repeat(0)).take(n).collect()
}

fn small(what: &'static str, qp: u32, lambda: f64, costs: Costs, values: &[i16]) -> Call {
    Call { what, log2: (1, 1), qp, lambda, costs, block: front(4, values) }
}

fn large(what: &'static str, qp: u32, lambda: f64, block: Vec<i16>) -> Call {
    Call { what, log2: (5, 5), qp, lambda, costs: FLAT, block }
}

fn rectangle(what: &'static str, w: usize, h: usize) -> Call {
    Call { what, log2: (w, h), qp: 22, lambda: 0.0, costs: FLAT, block: vec![3000; 1024] }
}

/// The smallest coefficient of a 2×2 block at QP 0 at which the Rust panics, if it does, and its magnitude.
fn first_panic(costs: Costs) -> Option<(i16, u64)> {
    let panics = |c: &i16| theirs(&small("", 0, 0.0, costs, &[*c])).starts_with("panics");
    let c = (1..=32767).find(panics)?;
    Some((c, (c as u64 * 26214 + (1 << 17)) >> 18))
}

fn main() {
    std::panic::set_hook(Box::new(|_| {}));
    let mut only = Costs::equal(0);
    only.level[1][1] = 1 << 20;
    for (name, costs) in [("every entry 1,048,576", LARGEST), ("only level[1][1] 1,048,576", only)] {
        match first_panic(costs) {
            Some((c, m)) => println!("2×2, QP 0, d 0, {name}\n    the Rust: panics first at {c}, whose m is {m}"),
            None => println!("2×2, QP 0, d 0, {name}\n    the Rust: panics nowhere"),
        }
    }
    for call in [
        small("20466, QP 0, d 0, every cost 1,048,576", 0, 0.0, LARGEST, &[20466]),
        small("20466, QP 0, d 1/8192, every cost 1,048,576", 0, 1.0 / 8192.0, LARGEST, &[20466]),
        small("20496, QP 0, d 0, only level[1][1] 1,048,576", 0, 0.0, only, &[20496]),
        small("-32768, QP 4", 4, 1.0 / 1024.0, FLAT, &[-32768]),
        large("side 32, QP 3, 29184", 3, 1.0 / 1024.0, front(1024, &[29184])),
        large("side 32, QP 4, d 8192, 8192", 4, 8192.0, front(1024, &[8192])),
        large("side 32, QP 4, d 0, 1,024 × 32767", 4, 0.0, vec![32767; 1024]),
        small("20 7 0 0, QP 64", 64, 1.0 / 1024.0, FLAT, &[20, 7]),
        small("30000, QP 64", 64, 1.0 / 1024.0, FLAT, &[30000]),
        small("18 9 0 0, QP 5, d 0", 5, 0.0, FLAT, &[18, 9]),
        small("18 9 0 0, QP 5, d NaN", 5, f64::NAN, FLAT, &[18, 9]),
        small("18 9 0 0, QP 5, d -1", 5, -1.0, FLAT, &[18, 9]),
        rectangle("8×32", 3, 5),
        rectangle("4×16", 2, 4),
        rectangle("8×4", 3, 2),
        rectangle("4×8", 2, 3),
        rectangle("16×4", 4, 2),
        rectangle("32×8", 5, 3),
    ] {
        println!("{}\n    the Rust: {}", call.what, theirs(&call));
        if call.log2.0 == call.log2.1 {
            println!("    the library: {}", ours(&call));
        }
    }
    let (mut theirs, mut ours) = ([1024; 4], [1024; 4]);
    oracle::transform(&mut theirs, 1, 1);
    println!("transform of 2×2 residuals of 1024\n    the Rust: {}", shown(&theirs));
    println!("    the library: {:?}", transform(&mut ours, 1, 1));
}
