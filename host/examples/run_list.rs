//! The 8×8 block of one_block as a list of symbols for the entropy coder, and back: docs/HOSTING.md has the same in
//! short.
//!
//!     cargo run --example run_list

use galemosu::{quantise, read_symbols, transform, write_symbols};
use galemosu::{Component, Costs, Quantise, Refused, Settings, Symbol};

const LOG2: usize = 3;
const SIDE: usize = 1 << LOG2;
type Block = [i16; SIDE * SIDE];

/// The levels of a dark stroke that leans, two samples wide, on grained paper; and how many are not 0.
fn levels() -> Result<(Block, usize), Refused> {
    let guess = 640;
    let mut block: Block = core::array::from_fn(|i| {
        let (x, lean, grain) = (i % SIDE, i / SIDE / 4, (i * 10 % 13) as i16 - 6);
        grain + if x == 3 + lean || x == 4 + lean { 150 } else { 800 } - guess
    });
    transform(&mut block, LOG2, LOG2)?;
    let mut call = Quantise::new(Component::Y, LOG2, Settings::usual(22 + 12), &Costs::START);
    (call.intra_slice, call.intra_coded) = (true, true);
    let coded = quantise(&mut block, &call)?;
    Ok((block, coded.count as usize))
}

fn main() -> Result<(), Refused> {
    assert_eq!(galemosu::version(), galemosu::VERSION, "an archive of another version");
    let (levels, count) = levels()?;
    let mut list = [0; SIDE * SIDE]; // as many places as the block has are always enough
    let symbols = write_symbols(&levels, LOG2, &mut list)?;
    println!("{} symbols, each so many zeros and a level:", symbols.len());
    for row in symbols.chunks(12) {
        for packed in row {
            let symbol = Symbol::try_from(*packed)?;
            print!("{:4}:{}{}", symbol.run(), symbol.level(), if symbol.is_last() { " and no more" } else { "" });
        }
        println!();
    }

    let mut block = [99; SIDE * SIDE]; // whatever it held
    read_symbols(symbols, &mut block, LOG2)?;
    println!("read back, the block is {}", if block == levels { "the same" } else { "another" });

    // a list with a place too few, and a list whose end is lost: what is refused is left as it was
    let refusals = [
        write_symbols(&levels, LOG2, &mut [0; SIDE * SIDE][..count - 1]).map(|_| ()),
        read_symbols(&symbols[..count - 1], &mut block, LOG2),
    ];
    for refusal in refusals.into_iter().filter_map(Result::err) {
        println!("{}", Refused::from(refusal));
    }
    Ok(())
}
