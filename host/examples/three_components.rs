//! The three components of a block in one call: Y of 16×16, then U and V of 8×8, in one buffer.
//!
//!     cargo run --example three_components

use galemosu::{sub_block, Costs, Mode, Refused, Settings, SubBlock};

fn main() -> Result<(), Refused> {
    let (luma, chroma) = (16 * 16, 8 * 8);
    // residuals: luma falls off to the right, U is even, V is nearly nothing
    let mut buffer: Vec<i16> = (0..luma).map(|i| 400 - 50 * (i % 16)).collect();
    buffer.extend(vec![-90; chroma]);
    buffer.extend((0..chroma).map(|i| (i % 3) as i16 - 1));

    // chroma has its own QP, which the encoder's chroma table gives; 12 is added to each
    let settings = [Settings::usual(22 + 12), Settings::usual(21 + 12), Settings::usual(21 + 12)];
    let costs = Costs::START;
    let mut call = SubBlock::new(4, settings, &costs);
    call.intra_slice = true;
    call.intra_coded = true;
    call.mode = Mode::Least;
    let coded = sub_block(&mut buffer, &call)?;
    for (name, coded) in ["Y", "U", "V"].into_iter().zip(coded) {
        println!("{name}: {} levels that are not 0, at a price of {}", coded.count, coded.price);
    }
    let (y, rest) = buffer.split_at(luma as usize);
    println!("Y begins with {:?}, U with {:?}", &y[..4], &rest[..4]);

    // a fault in one component, and nothing of any is written
    let held = vec![1023; luma as usize + 2 * chroma];
    let mut buffer = held.clone();
    buffer[luma as usize + chroma] = 1024; // the first of V
    let refused = sub_block(&mut buffer, &call).unwrap_err();
    println!("{refused}");
    assert_eq!(buffer[..luma as usize], held[..luma as usize]);
    Ok(())
}
