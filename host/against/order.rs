//! Which refusal document 01 gives a call, and of which component: the tests of each call, in its order, written from
//! its text alone; document 02's of the two calls of the way back and of the two of run lists; and those of the guarded
//! call and of `measure`.

use crate::calls::{Guarded, Inverse, Measure, Quantise, Read, ScaleBack, SubBlock, Transform, Write};
use crate::{guarded, symbols};

/// A refusal's number and the component that it is reported with.
pub type Fault = (u32, usize);

/// A fault, and whether the call has it. A test is asked only when those before it have found nothing.
type Test<'a> = (u32, usize, Box<dyn Fn() -> bool + 'a>);

fn first(tests: Vec<Test>) -> Option<Fault> {
    tests.into_iter().find(|test| test.2()).map(|test| (test.0, test.1))
}

fn bad_lambda(lambda: f64) -> bool {
    lambda.is_nan() || lambda < 0.0 || lambda > 8192.0
}

fn bad_costs(costs: &galemosu::Costs) -> bool {
    costs.entries().into_iter().any(|entry| entry > 1_048_576)
}

fn bad_residuals(residuals: &[i16]) -> bool {
    residuals.iter().any(|r| !(-1023..=1023).contains(r))
}

/// "The transform tests 1, 5, 6 only, always with component 0."
pub fn transform(call: &Transform) -> Option<Fault> {
    first(vec![
        (1, 0, Box::new(|| !(1..=5).contains(&call.log2_w) || !(1..=5).contains(&call.log2_h))),
        (5, 0, Box::new(|| call.buffer.len() < 1 << (call.log2_w + call.log2_h))),
        (6, 0, Box::new(|| bad_residuals(&call.buffer[..1 << (call.log2_w + call.log2_h)]))),
    ])
}

/// "The quantiser alone tests all nine in the table's order, 7 to 9 only for a walked block, and reports the component
/// it was told (0 for 1, 4 and 5)."
pub fn quantise(call: &Quantise) -> Option<Fault> {
    let told = call.component as usize;
    first(vec![
        (1, 0, Box::new(|| !(1..=5).contains(&call.log2_side))),
        (2, told, Box::new(|| call.settings.qp > 63)),
        (3, told, Box::new(|| bad_lambda(call.settings.lambda))),
        (4, 0, Box::new(|| bad_costs(&call.costs))),
        (5, 0, Box::new(|| call.buffer.len() < call.needs())),
        (6, told, Box::new(|| call.buffer[..call.needs()].contains(&-32768))),
        (7, told, Box::new(|| call.block().level_fault())),
        (8, told, Box::new(|| call.block().price_fault())),
        (9, told, Box::new(|| call.block().distortion_fault())),
    ])
}

/// "The three-component call tests 1; 2 for Y, U, V; 3 likewise; 4; 5; 6 likewise; then 7, 8, 9 for Y, then U, then V
/// [..]. Settings and samples of a component not run aren't read; test 4 reads every cost entry all the same."
pub fn sub_block(call: &SubBlock) -> Option<Fault> {
    first(of_three(call, |_| vec![]))
}

/// "15 behind 9 of the same component".
pub fn guarded(call: &Guarded) -> Option<Fault> {
    first(of_three(&call.call, |k| vec![(15, k, Box::new(move || guarded::written(call, k).is_none()))]))
}

/// The tests of the three-component call, and behind those of each component's coefficients what else is asked of it.
fn of_three<'a>(call: &'a SubBlock, behind: impl Fn(usize) -> Vec<Test<'a>>) -> Vec<Test<'a>> {
    let run: Vec<usize> = (0..3).filter(|k| call.runs(*k)).collect();
    let mut tests: Vec<Test> = vec![(1, 0, Box::new(|| !(2..=5).contains(&call.log2_luma)))];
    for &k in &run {
        tests.push((2, k, Box::new(move || call.settings[k].qp > 63)));
    }
    for &k in &run {
        tests.push((3, k, Box::new(move || bad_lambda(call.settings[k].lambda))));
    }
    tests.push((4, 0, Box::new(|| bad_costs(&call.costs))));
    tests.push((5, 0, Box::new(|| call.buffer.len() < call.needs())));
    for &k in &run {
        tests.push((6, k, Box::new(move || bad_residuals(&call.buffer[call.part(k)]))));
    }
    for &k in &run {
        tests.push((7, k, Box::new(move || call.block(k, &call.coefficients(k)).level_fault())));
        tests.push((8, k, Box::new(move || call.block(k, &call.coefficients(k)).price_fault())));
        tests.push((9, k, Box::new(move || call.block(k, &call.coefficients(k)).distortion_fault())));
        tests.extend(behind(k));
    }
    tests
}

/// "with 1, 2, 5", the last of either list.
pub fn measure(call: &Measure) -> Option<Fault> {
    first(vec![
        (1, 0, Box::new(|| !(1..=5).contains(&call.log2_side))),
        (2, 0, Box::new(|| call.qp > 63)),
        (5, 0, Box::new(|| call.residuals.len() < call.needs() || call.levels.len() < call.needs())),
    ])
}

/// "Refusals: 1, 2, 5 as in 01; no sample is refused."
pub fn scale_back(call: &ScaleBack) -> Option<Fault> {
    first(vec![
        (1, 0, Box::new(|| !(1..=5).contains(&call.log2_side))),
        (2, 0, Box::new(|| call.qp > 63)),
        (5, 0, Box::new(|| call.buffer.len() < call.needs())),
    ])
}

/// The same, of a call that has no QP.
pub fn inverse(call: &Inverse) -> Option<Fault> {
    first(vec![
        (1, 0, Box::new(|| !(1..=5).contains(&call.log2_w) || !(1..=5).contains(&call.log2_h))),
        (5, 0, Box::new(|| call.buffer.len() < call.needs())),
    ])
}

/// "10 ROOM when the list has fewer places than nonzero levels, after 1, 5, 6 (a level of -32768 is 6)"
pub fn write(call: &Write) -> Option<Fault> {
    let block = || &call.buffer[..call.needs()];
    first(vec![
        (1, 0, Box::new(|| !(1..=5).contains(&call.log2_side))),
        (5, 0, Box::new(|| call.buffer.len() < call.needs())),
        (6, 0, Box::new(|| block().contains(&-32768))),
        (10, 0, Box::new(|| call.list.len() < block().iter().filter(|level| **level != 0).count())),
    ])
}

/// "the reader gives 1, 5, then 11 SYMBOL"
pub fn read(call: &Read) -> Option<Fault> {
    first(vec![
        (1, 0, Box::new(|| !(1..=5).contains(&call.log2_side))),
        (5, 0, Box::new(|| call.buffer.len() < call.needs())),
        (11, 0, Box::new(|| symbols::wrong(&call.list, call.needs()) != 0)),
    ])
}
