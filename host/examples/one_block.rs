//! One 8×8 block of luma, from samples to levels, by both modes: docs/HOSTING.md goes through it line by line.
//!
//!     cargo run --example one_block

use galemosu::{quantise, transform, Coded, Component, Costs, Mode, Quantise, Refused, Settings};

const LOG2: usize = 3;
const SIDE: usize = 1 << LOG2;

/// What the camera saw: a dark stroke that leans, two samples wide, on grained paper; samples have 10 bits.
fn camera() -> [i16; SIDE * SIDE] {
    core::array::from_fn(|i| {
        let (x, lean, grain) = (i % SIDE, i / SIDE / 4, (i * 10 % 13) as i16 - 6);
        grain + if x == 3 + lean || x == 4 + lean { 150 } else { 800 }
    })
}

/// The levels of a block of residuals, and what they cost.
fn coded(residuals: &[i16; SIDE * SIDE], mode: Mode) -> Result<([i16; SIDE * SIDE], Coded), Refused> {
    let mut block = *residuals;
    transform(&mut block, LOG2, LOG2)?; // the block holds coefficients now

    let costs = Costs::START; // later: what the entropy coder's contexts say
    let slice_qp = 22;
    let mut call = Quantise::new(Component::Y, LOG2, Settings::usual(slice_qp + 12), &costs);
    call.intra_slice = true;
    call.intra_coded = true;
    call.mode = mode;
    let coded = quantise(&mut block, &call)?; // the block holds levels now
    Ok((block, coded))
}

fn main() -> Result<(), Refused> {
    assert_eq!(galemosu::version(), galemosu::VERSION, "an archive of another version");
    let guess = 640;
    let residuals = camera().map(|sample| sample - guess);
    for mode in [Mode::Walk, Mode::Least] {
        let (levels, coded) = coded(&residuals, mode)?;
        // 2^26 of a price are one squared step of a 10-bit sample
        let squares = coded.price as f64 / (1u64 << 26) as f64;
        println!(
            "{mode:?}: {} levels that are not 0, at a price of {} ({squares:.0} squares)",
            coded.count, coded.price
        );
        for row in levels.chunks(SIDE) {
            row.iter().for_each(|level| print!("{level:5}"));
            println!();
        }
    }
    // what is refused is left as it was, and says why
    let refused = coded(&[1024; SIDE * SIDE], Mode::Walk).unwrap_err();
    println!("{refused}");
    Ok(())
}
