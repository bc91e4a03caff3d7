use core::mem::{offset_of, size_of};

/// What the symbols of a block cost, as the host's entropy coder estimates it now.
///
/// An entry is in units of 1/32768 bit, from 0 to [`MOST`](Costs::MOST), which is 32 bits: `-32768 · log2(p)` for a
/// symbol of probability p. A context that stands at one half has [`BIT`](Costs::BIT) in both of its entries. Of each
/// pair, entry 0 is the price of coding a 0 there and entry 1 that of coding a 1. A sign costs one bit and has no
/// entry.
///
/// Places are taken in scan order. "After a zero" means that the level one place before is 0; the first place of a
/// block counts as after a level that is not.
///
/// What a level costs, with j = 0 for luma and 2 for chroma, and k = j, or j + 1 after a zero; `last` and the flag of
/// the component come on top:
///
/// | magnitude | costs |
/// |---|---|
/// | 0 | `run[k][1]` |
/// | 1 | a sign, `run[k][0]`, `level[j][0]` |
/// | a of 2 or more | a sign, `run[k][0]`, `level[j][1]`, (a - 2) times `level[j + 1][1]`, `level[j + 1][0]` |
///
/// ```
/// use galemosu::Costs;
///
/// let mut costs = Costs::START;
/// costs.run[0] = [21_000, 48_000]; // luma, after a level that is not 0: another one; a zero
/// costs.last[1] = [12_000, 70_000]; // chroma: others follow; it was the last
/// assert_eq!(costs.entries()[..2], [21_000, 48_000]);
/// assert_eq!(Costs::from(costs.entries()), costs);
/// ```
///
/// Each call tests every entry, also those that it would not use; above [`MOST`](Costs::MOST) it is refused with
/// [`Cost`](crate::Refusal::Cost). A signed entry of an encoder, `as u64`, keeps its meaning: a negative one is
/// refused.
#[derive(Clone, Copy, Debug, PartialEq, Eq)]
#[repr(C)]
pub struct Costs {
    /// Whether the level at a place is 0: `[1]` it is, the run of zeros goes on; `[0]` it is not. Rows: 0 luma, 1 luma
    /// after a zero, 2 chroma, 3 chroma after a zero.
    pub run: [[u64; 2]; 4],
    /// The magnitude of a level that is not 0. Rows 0 of luma and 2 of chroma: `[0]` it is 1, `[1]` it is 2 or more.
    /// Rows 1 of luma and 3 of chroma, the rest of one that is 2 or more: `[1]` for each step above 2, `[0]` for the
    /// end.
    pub level: [[u64; 2]; 4],
    /// Behind each level that is not 0: `[1]` it is the block's last such, `[0]` others follow. Rows: 0 luma, 1 chroma.
    pub last: [[u64; 2]; 2],
    /// Luma of a block that is not intra-coded: `[1]` it has a level, `[0]` it is empty.
    pub cbf_all: [u64; 2],
    /// Luma of an intra-coded block, likewise.
    pub cbf_luma: [u64; 2],
    /// U, likewise.
    pub cbf_cb: [u64; 2],
    /// V, likewise.
    pub cbf_cr: [u64; 2],
}

// the calls read 28 numbers in this order
const _: () = {
    assert!(size_of::<Costs>() == 28 * 8);
    assert!(offset_of!(Costs, run) == 0 && offset_of!(Costs, level) == 8 * 8 && offset_of!(Costs, last) == 16 * 8);
    assert!(offset_of!(Costs, cbf_all) == 20 * 8 && offset_of!(Costs, cbf_luma) == 22 * 8);
    assert!(offset_of!(Costs, cbf_cb) == 24 * 8 && offset_of!(Costs, cbf_cr) == 26 * 8);
};

impl Costs {
    /// One bit.
    pub const BIT: u64 = 32_768;

    /// The largest entry that is accepted: 32 bits.
    pub const MOST: u64 = 1_048_576;

    /// What an encoder starts from: every context at one half. Each entry is 32,721, a hair below one bit: that is what
    /// the estimate of the ported encoder gives, whose table of probabilities has 512.5/1024 there.
    pub const START: Costs = Costs::equal(32_721);

    /// Every entry the same.
    pub const fn equal(entry: u64) -> Costs {
        let pair = [entry; 2];
        Costs {
            run: [pair; 4],
            level: [pair; 4],
            last: [pair; 2],
            cbf_all: pair,
            cbf_luma: pair,
            cbf_cb: pair,
            cbf_cr: pair,
        }
    }

    /// The 28 entries, in the order in which the calls and the line protocol have them: run 8, level 8, last 4, and the
    /// flags of all, luma, cb and cr, 2 each.
    pub const fn entries(&self) -> [u64; 28] {
        let Costs { run: [r0, r1, r2, r3], level: [l0, l1, l2, l3], last: [e0, e1], .. } = *self;
        let Costs { cbf_all, cbf_luma, cbf_cb, cbf_cr, .. } = *self;
        let pairs = [r0, r1, r2, r3, l0, l1, l2, l3, e0, e1, cbf_all, cbf_luma, cbf_cb, cbf_cr];
        let (mut entries, mut i) = ([0; 28], 0);
        while i < 28 {
            entries[i] = pairs[i / 2][i % 2];
            i += 1;
        }
        entries
    }

    /// Costs of 28 entries, in the order of [`entries`](Costs::entries).
    pub const fn from_entries(e: [u64; 28]) -> Costs {
        Costs {
            run: [[e[0], e[1]], [e[2], e[3]], [e[4], e[5]], [e[6], e[7]]],
            level: [[e[8], e[9]], [e[10], e[11]], [e[12], e[13]], [e[14], e[15]]],
            last: [[e[16], e[17]], [e[18], e[19]]],
            cbf_all: [e[20], e[21]],
            cbf_luma: [e[22], e[23]],
            cbf_cb: [e[24], e[25]],
            cbf_cr: [e[26], e[27]],
        }
    }
}

impl From<[u64; 28]> for Costs {
    fn from(entries: [u64; 28]) -> Costs {
        Costs::from_entries(entries)
    }
}

impl From<Costs> for [u64; 28] {
    fn from(costs: Costs) -> [u64; 28] {
        costs.entries()
    }
}
