//! One 8×8 block of luma as a viewer shows it, beside what the camera saw: docs/HOSTING.md has the same in short.
//!
//!     cargo run --example view_block

use galemosu::{inverse, quantise, scale_back, transform, Component, Costs, Quantise, Refused, Settings};

const LOG2: usize = 3;
const SIDE: usize = 1 << LOG2;
const QP: u32 = 22 + 12;
type Block = [i16; SIDE * SIDE];

/// What the camera saw: a dark stroke that leans, two samples wide, on grained paper; samples have 10 bits.
fn camera() -> Block {
    core::array::from_fn(|i| {
        let (x, lean, grain) = (i % SIDE, i / SIDE / 4, (i * 10 % 13) as i16 - 6);
        grain + if x == 3 + lean || x == 4 + lean { 150 } else { 800 }
    })
}

/// The recorder's half: what goes into the clip.
fn recorded(camera: &Block, guess: i16) -> Result<Block, Refused> {
    let mut block = camera.map(|sample| sample - guess);
    transform(&mut block, LOG2, LOG2)?;
    let mut call = Quantise::new(Component::Y, LOG2, Settings::usual(QP), &Costs::START);
    (call.intra_slice, call.intra_coded) = (true, true);
    quantise(&mut block, &call)?;
    Ok(block)
}

/// The viewer's half: what the levels in the clip and the same guess make of it. A viewer's filter comes behind this.
fn shown(levels: &Block, guess: i16) -> Result<Block, Refused> {
    let mut block = *levels;
    scale_back(&mut block, LOG2, QP)?; // the block holds coefficients now
    inverse(&mut block, LOG2, LOG2)?; // the block holds residuals now
    Ok(block.map(|residual| residual.saturating_add(guess).clamp(0, 1023)))
}

fn main() -> Result<(), Refused> {
    assert_eq!(galemosu::version(), galemosu::VERSION, "an archive of another version");
    let (guess, seen) = (640, camera());
    let levels = recorded(&seen, guess)?;
    let shown = shown(&levels, guess)?;
    println!(
        "{} levels that are not 0; what the camera saw, and what is shown:",
        levels.iter().filter(|l| **l != 0).count()
    );
    for (seen, shown) in seen.chunks(SIDE).zip(shown.chunks(SIDE)) {
        seen.iter().for_each(|sample| print!("{sample:5}"));
        print!("   |");
        shown.iter().for_each(|sample| print!("{sample:5}"));
        println!();
    }
    let largest = seen.iter().zip(&shown).map(|(seen, shown)| (shown - seen).abs()).max();
    println!("the largest difference of a sample is {}", largest.unwrap_or(0));
    Ok(())
}
