//! What a block takes where every cost entry is one bit.

use crate::scan::scan;

/// A 0 takes one bit, a level of 1 four, and one of a a + 3, with its flag; one is the block's.
pub fn bits(levels: &[i16], log2: usize) -> u32 {
    let places = scan(1 << log2);
    let size = places.iter().rposition(|p| levels[*p] != 0).map_or(0, |last| last + 1);
    let bits = |level: i16| match u32::from(level.unsigned_abs()) {
        0 => 1,
        1 => 4,
        a => a + 3,
    };
    1 + places[..size].iter().map(|p| bits(levels[*p])).sum::<u32>()
}
