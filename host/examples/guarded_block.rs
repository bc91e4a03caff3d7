//! An 8×8 block of luma that the recorder would soften, held to heights: docs/HOSTING.md has the same in short.
//!
//!     cargo run --example guarded_block

use galemosu::{guarded_sub_block, Costs, Heights, Refusal, Refused, Settings, SubBlock};

const LOG2: usize = 3;
const SIDE: usize = 1 << LOG2;
const PLACES: usize = SIDE * SIDE;
/// Luma, and room for chroma, which is not run here.
type Buffer = [i16; PLACES / 2 * 3];

/// Camera minus guess: the guess has a dark stroke that the camera doesn't see, two samples wide and four high.
fn residuals() -> Buffer {
    core::array::from_fn(|i| {
        let (x, y) = (i % SIDE, i / SIDE);
        if i < PLACES && (3..5).contains(&x) && (2..6).contains(&y) {
            240
        } else {
            0
        }
    })
}

/// Whether the block was coded; a height that it can't be held to is an answer, not a failure.
fn held(heights: Heights) -> Result<(), Refused> {
    let settings = Settings { qp: 46, lambda: 10.0 * Settings::usual(46).lambda };
    let mut call = SubBlock::new(LOG2, [settings; 3], &Costs::START);
    call.run = SubBlock::RUN_Y;
    (call.intra_slice, call.intra_coded) = (true, true);
    match guarded_sub_block(&mut residuals(), &call, &[heights; 3]) {
        Ok([y, ..]) => println!(
            "{} levels that are not 0; no sample is shown more than {} darker or {} lighter than the camera saw it",
            y.coded.count, y.extremes.darker, y.extremes.lighter
        ),
        Err(refused) if refused.refusal == Refusal::Height => println!("{refused}"),
        Err(refused) => return Err(refused),
    }
    Ok(())
}

fn main() -> Result<(), Refused> {
    assert_eq!(galemosu::version(), galemosu::VERSION, "an archive of another version");
    held(Heights::ANY)?; // as the unguarded call codes it: the guess's stroke is left in the clip
    held(Heights::both(128))?;
    held(Heights::both(64))?;
    held(Heights::both(4)) // not at this QP
}
