//! What the quantiser is measured with: blocks as a recorder meets them, luma of an intra slice, with such costs as
//! there are after some blocks.

use crate::blocks::Random;

pub const QP: u32 = 34;
pub const LAMBDA: f64 = 57.9;
/// Run, level, last, and the flags of all, luma, cb and cr.
pub const COSTS: [u64; 28] = [
    21000, 48000, 37000, 26000, 21000, 48000, 37000, 26000, // run
    18000, 52000, 24000, 40000, 18000, 52000, 24000, 40000, // level
    12000, 70000, 12000, 70000, // last
    60000, 14000, 60000, 14000, 60000, 14000, 60000, 14000,
];

/// How many blocks of each kind.
pub const BLOCKS: usize = 16;

/// All sides 4 to 32: the log2 side, the kind's name, the blocks of residuals.
pub fn blocks() -> Vec<(usize, &'static str, Vec<Vec<i16>>)> {
    let mut random = Random::new(11);
    let mut all = Vec::new();
    for log2 in 2..=5 {
        let (w, n) = (1usize << log2, 1usize << (2 * log2));
        all.push((log2, "skipped", (0..BLOCKS).map(|_| random.blank(n)).collect()));
        all.push((log2, "ramp", (0..BLOCKS).map(|_| random.ramp(w, n)).collect()));
        all.push((log2, "soft text", (0..BLOCKS).map(|_| random.soft_text(w, n)).collect()));
        all.push((log2, "sharp text", (0..BLOCKS).map(|_| random.text(w, n)).collect()));
    }
    all
}
