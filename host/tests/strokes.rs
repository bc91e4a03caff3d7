//! What a viewer can see of a stroke, in samples: the figures of docs/ANSWER.md, each looked for in that page.
//!
//! A block is coded by the library and decoded by it, and each decoded block is held against the formulas of document
//! 02's ticket 6, worked out here: scaling back, then the double sum with the matrix of document 01's rule, rounded
//! once. All is luma of an intra-coded block in an intra slice, every cost entry 32768. What is shown is the guess plus
//! what was decoded, so that the error of a sample is the decoded residual less the true one: below 0 it is darker than
//! the camera saw it.
//!
//!     cargo test --test strokes -- --nocapture     prints the tables

#[path = "../against/bits.rs"]
mod bits;
#[path = "../against/blocks.rs"]
mod blocks;
#[path = "../against/digits.rs"]
mod digits;
#[path = "../against/scan.rs"]
mod scan;

use bits::bits;
use blocks::Random;
use digits::{Digit, Guess};
use galemosu::{guarded_sub_block, measure, Extremes, Guarded, Heights, Refusal, SubBlock};
use galemosu::{inverse, quantise, scale_back, transform, Coded, Component, Costs, Mode, Quantise, Settings};

const PAGE: &str = include_str!("../../docs/ANSWER.md");
const COSTS: Costs = Costs::equal(Costs::BIT);

/// An encoder's lambda.
fn usual(qp: u32) -> f64 {
    Settings::usual(qp).lambda
}

/// T_N[k][n], by document 01's rule.
fn entry(side: usize, k: usize, n: usize) -> i64 {
    const C: [i64; 32] = [
        64, 90, 90, 90, 89, 88, 87, 85, 84, 82, 80, 78, 75, 73, 70, 67, 64, 61, 57, 54, 50, 47, 43, 39, 35, 30, 26, 22,
        18, 13, 9, 4,
    ];
    let k = k * 32 / side;
    let a = (2 * n + 1) * k % 128;
    let a = if a > 64 { 128 - a } else { a };
    if k == 0 {
        64
    } else if a < 32 {
        C[a]
    } else {
        -C[64 - a]
    }
}

fn clipped(value: i64) -> i64 {
    value.clamp(-32768, 32767)
}

/// The residuals that a viewer works out of the levels of a square block, by the library; the formulas give the same.
fn decoded(levels: &[i16], log2: usize, qp: u32) -> Vec<i64> {
    let mut block = levels.to_vec();
    scale_back(&mut block, log2, qp).expect("levels of a square block");
    inverse(&mut block, log2, log2).expect("its coefficients");
    let residuals: Vec<i64> = block.into_iter().map(i64::from).collect();
    assert_eq!(residuals, by_formula(levels, log2, qp), "side 2^{log2}, QP {qp}: {levels:?}");
    residuals
}

/// The same by the formulas.
fn by_formula(levels: &[i16], log2: usize, qp: u32) -> Vec<i64> {
    let side = 1 << log2;
    let scale = [40, 45, 51, 57, 64, 72][qp as usize % 6] << (qp / 6);
    let back = |level: i16| clipped((level as i64 * scale + (1 << log2)) >> (1 + log2));
    let coefficients: Vec<i64> = levels.iter().map(|level| back(*level)).collect();
    let matrix: Vec<Vec<i64>> = (0..side).map(|k| (0..side).map(|n| entry(side, k, n)).collect()).collect();
    // over v first, then over u: the sums are exact, so that the order does not matter
    let mut columns = vec![0; side * side];
    for y in 0..side {
        for u in 0..side {
            columns[y * side + u] = (0..side).map(|v| matrix[v][y] * coefficients[v * side + u]).sum();
        }
    }
    let sample = |y: usize, x: usize| (0..side).map(|u| matrix[u][x] * columns[y * side + u]).sum::<i64>();
    (0..side * side).map(|i| clipped((sample(i / side, i % side) + (1 << 16)) >> 17)).collect()
}

/// The levels of a block of residuals, and what the call has answered.
fn coded(mode: Mode, residuals: &[i16], log2: usize, qp: u32, lambda: f64) -> (Vec<i16>, Coded) {
    let mut block = residuals.to_vec();
    transform(&mut block, log2, log2).expect("residuals of a camera");
    let mut call = Quantise::new(Component::Y, log2, Settings { qp, lambda }, &COSTS);
    (call.intra_slice, call.intra_coded, call.mode) = (true, true, mode);
    let answer = quantise(&mut block, &call);
    (block, answer.expect("a block of a camera"))
}

/// Decoded less true, sample by sample, of a block that is coded by the walk.
fn errors(residuals: &[i16], log2: usize, qp: u32, lambda: f64) -> Vec<i64> {
    let (levels, _) = coded(Mode::Walk, residuals, log2, qp, lambda);
    decoded(&levels, log2, qp).iter().zip(residuals).map(|(shown, true_)| shown - *true_ as i64).collect()
}

fn largest(errors: impl Iterator<Item = i64>) -> i64 {
    errors.map(i64::abs).max().unwrap_or(0)
}

/// A line that the page must have.
fn on_the_page(line: &str) {
    println!("{line}");
    assert!(PAGE.contains(line), "docs/ANSWER.md lacks: {line}");
}

// ---- a stroke that the guess has

/// The deepest bar that is left whole: two samples wide and half a block high, in the middle of an 8×8 block of the
/// guess, where the camera sees paper. The correction is a residual of as much on the bar, and the block is emptied.
fn deepest_bar(mode: Mode, qp: u32, lambda: f64) -> i16 {
    let is_bar = |i: i16| (2..6).contains(&(i / 8)) && (3..5).contains(&(i % 8));
    let emptied = |depth: &i16| {
        let residuals: Vec<i16> = (0..64).map(|i| if is_bar(i) { *depth } else { 0 }).collect();
        let (levels, answer) = coded(mode, &residuals, 3, qp, lambda);
        assert_eq!(answer.count == 0, decoded(&levels, 3, qp).iter().all(|r| *r == 0));
        answer.count == 0
    };
    (1..=1023).filter(emptied).max().unwrap_or(0)
}

#[test]
fn a_bar_of_the_guess_is_left() {
    const QPS: [u32; 6] = [28, 34, 38, 42, 46, 51];
    on_the_page(&format!("| QP | {} |", QPS.map(|qp| qp.to_string()).join(" | ")));
    for (name, mode) in [("the walk", Mode::Walk), ("the cheapest block", Mode::Least)] {
        for (of, times) in [("an encoder's lambda", 1.0), ("ten times that", 10.0)] {
            let depths = QPS.map(|qp| deepest_bar(mode, qp, times * usual(qp)).to_string());
            on_the_page(&format!("| {name}, {of} | {} |", depths.join(" | ")));
        }
    }
}

// ---- a gap that closes

/// A 6 of side 32 on grained paper; in its gap, rows 11 to 14 and columns 18 and 19, the residual is 0.
fn six() -> Vec<i16> {
    include_str!("six.txt").split_whitespace().map(|word| word.parse().expect("a number")).collect()
}

fn is_gap(i: usize) -> bool {
    (11..15).contains(&(i / 32)) && (18..20).contains(&(i % 32))
}

#[test]
fn the_gap_of_a_six_closes_by_a_quarter() {
    let six = six();
    let (levels, answer) = coded(Mode::Walk, &six, 5, 40, usual(40));
    assert_eq!((answer.count, answer.price), (364, 121_712_390_701_056));
    let shown = decoded(&levels, 5, 40);
    let gap: Vec<(i16, i64)> = (0..1024).filter(|i| is_gap(*i)).map(|i| (six[i], shown[i])).collect();
    assert!(gap.iter().all(|(residual, shown)| *residual == 0 && (-179..=-177).contains(shown)), "{gap:?}");
    assert_eq!(largest(errors(&six, 5, 40, usual(40)).into_iter()), 190);
}

#[test]
fn the_gap_of_a_six_by_qp() {
    for qp in [22, 28, 34, 40, 46, 51] {
        let errors = errors(&six(), 5, qp, usual(qp));
        let gap = (0..1024).filter(|i| is_gap(*i)).map(|i| -errors[i]).max().unwrap();
        on_the_page(&format!("| {qp} | {} | {} |", gap.max(0), largest(errors.into_iter())));
    }
}

// ---- digits drawn by chance, on an even guess

/// How much the darkest point of paper darkens, in percent of the contrast: the mean and the most of 1,000 blocks; and
/// the largest error of any sample.
fn darkening(log2: usize, qp: u32) -> (f64, f64, i64) {
    let (mut random, mut dark, mut error) = (Random::new(20_261_115), vec![], 0);
    for _ in 0..1000 {
        let Digit { residuals, contrast, paper } = Digit::drawn(&mut random, log2, Guess::Even);
        let errors = errors(&residuals, log2, qp, usual(qp));
        let darkest = errors.iter().zip(&paper).filter(|(_, paper)| **paper).map(|(e, _)| -e).max().unwrap();
        dark.push(100.0 * darkest.max(0) as f64 / contrast as f64);
        error = error.max(largest(errors.into_iter()));
    }
    (dark.iter().sum::<f64>() / 1000.0, dark.iter().cloned().fold(0.0, f64::max), error)
}

#[test]
fn paper_beside_digits_darkens() {
    for qp in [22, 34, 42, 51] {
        let cell = |(mean, most, error): (f64, f64, i64)| format!("{mean:.1} %, {most:.0} %, {error}");
        on_the_page(&format!("| {qp} | {} | {} |", cell(darkening(3, qp)), cell(darkening(5, qp))));
    }
}

// ---- the same, guarded

/// Luma alone, of an intra-coded block in an intra slice, by the walk.
fn guarded(residuals: &[i16], log2: usize, qp: u32, lambda: f64, height: u32) -> Result<(Vec<i16>, Guarded), Refusal> {
    let mut buffer = residuals.to_vec();
    buffer.resize(residuals.len() / 2 * 3, 0);
    let mut call = SubBlock::new(log2, [Settings { qp, lambda }; 3], &COSTS);
    (call.run, call.intra_slice, call.intra_coded) = (SubBlock::RUN_Y, true, true);
    let [y, ..] =
        guarded_sub_block(&mut buffer, &call, &[Heights::both(height); 3]).map_err(|refused| refused.refusal)?;
    buffer.truncate(residuals.len());
    // the extremes reported are those of what the formulas make of the levels, and those that `measure` finds
    let errors = by_formula(&buffer, log2, qp).into_iter().zip(residuals).map(|(shown, seen)| shown - *seen as i64);
    let (low, high) = errors.fold((0, 0), |(low, high), e| (e.min(low), e.max(high)));
    assert_eq!(y.extremes, Extremes { darker: -low as u32, lighter: high as u32 });
    assert_eq!(measure(residuals, &buffer, log2, qp), Ok(y.extremes));
    assert!(y.extremes.darker.max(y.extremes.lighter) <= height);
    Ok((buffer, y))
}

#[test]
fn the_gap_of_a_guarded_six_stays_open() {
    let six = six();
    let (free, _) = coded(Mode::Walk, &six, 5, 40, usual(40));
    for height in [64, 96, 128, 192] {
        let line = match guarded(&six, 5, 40, usual(40), height) {
            Ok((levels, y)) => {
                let shown = decoded(&levels, 5, 40);
                let gap = (0..1024).filter(|i| is_gap(*i)).map(|i| six[i] as i64 - shown[i]).max().unwrap();
                let more = 100.0 * (f64::from(bits(&levels, 5)) / f64::from(bits(&free, 5)) - 1.0);
                let Extremes { darker, lighter } = y.extremes;
                format!("| {height} | {} | {darker} and {lighter} | {more:.0} % |", gap.max(0))
            }
            Err(refusal) => {
                assert_eq!(refusal, Refusal::Height);
                format!("| {height} | refused | | |")
            }
        };
        on_the_page(&line);
    }
}

/// The guess has an 8 where the camera sees the 6: its gap is inked there, and the residual is what wipes that out.
/// What is left of the stroke at its darkest, at ten times an encoder's lambda.
#[test]
fn a_stroke_of_the_guess_is_wiped_out() {
    let (qp, lambda) = (40, 10.0 * usual(40));
    for depth in [100, 200, 300, 400] {
        let residuals: Vec<i16> = (0..1024).map(|i| six()[i] + if is_gap(i) { depth } else { 0 }).collect();
        let gap =
            |shown: &[i64]| (0..1024).filter(|i| is_gap(*i)).map(|i| residuals[i] as i64 - shown[i]).max().unwrap();
        let (levels, _) = coded(Mode::Walk, &residuals, 5, qp, lambda);
        let free = gap(&decoded(&levels, 5, qp));
        let (levels, _) = guarded(&residuals, 5, qp, lambda, 128).expect("a block that can be repaired");
        on_the_page(&format!("| {depth} | {free} | {} |", gap(&decoded(&levels, 5, qp)).max(0)));
    }
}

/// A bar of the guess, where the camera sees paper: the deepest part of it that is left, of all depths.
#[test]
fn no_bar_of_the_guess_is_left_beyond_the_height() {
    for (qp, times) in [(34, 10.0), (42, 10.0), (46, 1.0), (51, 10.0)] {
        for height in [64, 128] {
            for depth in (1..=1023).step_by(7) {
                let is_bar = |i: i16| (2..6).contains(&(i / 8)) && (3..5).contains(&(i % 8));
                let residuals: Vec<i16> = (0..64).map(|i| if is_bar(i) { depth } else { 0 }).collect();
                let answer = guarded(&residuals, 3, qp, times * usual(qp), height);
                assert!(answer.is_ok_and(|_| true) || qp > 42, "QP {qp}, height {height}, depth {depth}");
            }
        }
    }
}
