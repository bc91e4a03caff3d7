//! The proved transform and quantiser of an EVC recorder, and their way back, for a Rust host. `docs/HOSTING.md` of
//! the repository walks through coding and showing one block; `docs/PROMISES.md` says what is proved.
//!
//! The recorder's half: [`transform`] turns a block of residuals into coefficients, [`quantise`] turns those of a
//! square block into levels, and [`sub_block`] does both for the three components of a block. The viewer's half:
//! [`scale_back`] turns the levels of a square block into coefficients, and [`inverse`] turns coefficients into
//! residuals. Both at once: [`guarded_sub_block`] is [`sub_block`] held to heights, so that no sample is shown darker
//! or lighter than the camera saw it by more than the host allows, and [`measure`] says how far the samples of any
//! levels are off. Between the two halves: [`write_symbols`] lists the levels of a square block for the entropy coder,
//! and [`read_symbols`] makes the block of such a list again.
//!
//! All work on lent slices of any length, in place but for `measure`, which writes nothing, and the two that go from a
//! block to a list and back, and look at everything themselves: every call comes back, for all settings, lengths,
//! samples and lists. A refused call says why, as a [`Refused`] or a [`Refusal`], and leaves what it was lent as it
//! was.
//!
//! ```
//! use galemosu::{inverse, quantise, scale_back, transform, Component, Costs, Quantise, Refused, Settings};
//!
//! fn main() -> Result<(), Refused> {
//!     let mut block = [100, 98, -40, 5]; // 2×2 residuals, by rows
//!     transform(&mut block, 1, 1)?;
//!     let mut call = Quantise::new(Component::Y, 1, Settings::usual(34), &Costs::START);
//!     (call.intra_slice, call.intra_coded) = (true, true);
//!     let coded = quantise(&mut block, &call)?;
//!     assert_eq!((block, coded.count), ([3, -1, 4, 1], 4));
//!
//!     scale_back(&mut block, 1, 34)?; // what a viewer makes of these levels
//!     inverse(&mut block, 1, 1)?;
//!     assert_eq!(block, [112, 112, -48, 16]);
//!     Ok(())
//! }
//! ```
//!
//! # What is proved, of levels and of samples
//!
//! For accepted calls: no level above its rounded magnitude, no sign changed, nothing added, the price reported that of
//! the block written. A level within its bound can still leave a stroke that only the guess had, or darken a gap: how
//! much of that a viewer can see of [`sub_block`] is measured, not proved, in `docs/ANSWER.md`. Of
//! [`guarded_sub_block`] it is proved how far a sample that is shown can be off: by the heights, and no more, before
//! any filter. The Rust of this crate is not proved.
//!
//! Of the run lists it is proved that reading what was written gives the block back, and that every list which the
//! reader accepts is the one that the writer gives of its block: no two lists tell one block.
//!
//! Of the way back it is proved that the two calls give the numbers of their definition, the formulas that stand at
//! [`scale_back`] and [`inverse`]: document 02's, as the standard's own text, ISO/IEC 23094-1, was not at hand. They
//! bring back what was coded, not what the camera saw; and what a viewer shows is that plus its guess, clipped to a
//! sample's range and filtered at the edges of blocks, none of which is here.
//!
//! # Units
//!
//! * **QP** is the slice's plus 12: a sample has 10 bits, and the steps of a QP are twice as large six QPs on, so that
//!   the two bits above 8 shift it by twelve. 0 to 63 here is -12 to 51 of the slice. Of chroma it is the QP that the
//!   encoder's chroma table gives, plus 12.
//! * **Lambda** is what a bit may cost in squared error, measured in steps of an 8-bit sample, as encoders give it;
//!   [`Settings::usual`] has the usual one of a QP. It is used as a whole number of 1/32768ths: `lambda · 32768 + 0.5`
//!   with its fraction dropped. A lambda of 0 weighs no bits at all.
//! * **Costs** are in units of 1/32768 bit: see [`Costs`].
//! * **Price** is squared error plus lambda times bits, in units of which 2^30 are one squared step of an 8-bit sample,
//!   and 2^26 one of a 10-bit sample: a bit costs 32768 times lambda's whole number, and residuals that are left
//!   uncoded cost about 2^26 times the sum of their squares. So prices of different QPs and sides can be added up and
//!   compared.
//!
//! # The skip
//!
//! A block whose coefficients are all below 311/512 of a step, in a slice that is not intra 359/512, is cleared without
//! being weighed. It answers count 0 and the price of an empty block, its squared error plus lambda times the empty
//! flag's cost, as a block does that was weighed and came out empty.
//!
//! # State, threads, memory
//!
//! There is no state to set up or to keep: no writable global, no allocation, no lock. A call depends on its arguments
//! alone, and calls may run on any threads at the same time. A call takes at most 16 KB of stack in `transform` and in
//! `quantise`, 18 KB in `inverse`, 20 KB in `sub_block` and in `measure`, 36 KB in `guarded_sub_block`, 1 KB in
//! `scale_back`, and 6 KB in `write_symbols` and in `read_symbols` (measured by `host/include/stack.c`).
//! The crate is `no_std`; the archive asks for `memcpy` and `memset` and nothing else, rounds lambda in the
//! floating-point mode that it finds, which must be to nearest, and is for 64-bit targets only.

#![no_std]
#![deny(missing_docs)]

#[cfg(test)]
extern crate std;

#[cfg(not(target_pointer_width = "64"))]
compile_error!("galemosu is for 64-bit targets only");

mod costs;
pub mod raw;
mod refused;
mod symbol;
#[cfg(test)]
mod tests;

pub use costs::Costs;
pub use refused::{Component, Refusal, Refused};
pub use symbol::Symbol;

/// The example of README.md, compiled and run.
#[cfg(doctest)]
#[doc = include_str!("../../README.md")]
struct Readme;

/// The examples of docs/HOSTING.md, compiled and run.
#[cfg(doctest)]
#[doc = include_str!("../../docs/HOSTING.md")]
struct Hosting;

/// The version of the archive that this crate is for: major·10000 + minor·100 + patch.
pub const VERSION: u32 = 600;

/// The version of the archive that was linked. A host compares it with [`VERSION`] once, at its start: an archive of
/// another version may read other arguments.
///
/// ```
/// assert_eq!(galemosu::version(), galemosu::VERSION);
/// ```
pub fn version() -> u32 {
    // SAFETY: it takes nothing and reads nothing
    unsafe { raw::galemosu_version() }
}

/// One component's settings.
#[derive(Clone, Copy, Debug, PartialEq)]
pub struct Settings {
    /// The slice's QP plus 12, 0 to 63.
    pub qp: u32,
    /// What a bit may cost in squared error, 0 to 8192.
    pub lambda: f64,
}

impl Settings {
    /// A QP with the lambda that the ported encoder gives it, 0.57 · 2^((QP - 24) / 3). Of a QP above 63, which is
    /// refused, it is that of 63.
    ///
    /// ```
    /// use galemosu::Settings;
    ///
    /// assert_eq!(Settings::usual(24), Settings { qp: 24, lambda: 0.57 });
    /// assert_eq!(Settings::usual(63), Settings { qp: 63, lambda: 0.57 * 8192.0 });
    /// ```
    pub fn usual(qp: u32) -> Settings {
        const THIRDS: [f64; 3] = [1.0, 1.259_921_049_894_873_2, 1.587_401_051_968_199_4];
        let held = qp.min(63);
        // 2^(held / 3 - 8), by its exponent
        let power = f64::from_bits(u64::from(1023 - 8 + held / 3) << 52);
        Settings { qp, lambda: 0.57 * THIRDS[held as usize % 3] * power }
    }
}

/// How the levels of a block are chosen. With m a coefficient's magnitude in steps, rounded, its level is 0 or has its
/// sign and magnitude m, or m - 1 where m is 2 or more.
#[derive(Clone, Copy, Debug, Default, PartialEq, Eq, Hash)]
#[non_exhaustive]
pub enum Mode {
    /// Place by place in scan order, what is cheapest after the places before it; the block ends where that is
    /// cheapest.
    #[default]
    Walk,
    /// The block of least price among all of such levels; at equal price the one whose magnitudes in scan order come
    /// first in dictionary order. It is never dearer than the walk's, and takes up to twice its time.
    Least,
}

/// All that [`quantise`] is told beside the block.
///
/// Fields will come that say more of a call; [`new`](Quantise::new) gives them the values that keep today's meaning.
#[derive(Clone, Copy, Debug, PartialEq)]
#[non_exhaustive]
pub struct Quantise<'a> {
    /// Which component it is: chroma has rows of its own in the costs.
    pub component: Component,
    /// The block's side is 2^log2_side, 2 to 32.
    pub log2_side: usize,
    /// Its QP and lambda.
    pub settings: Settings,
    /// Whether the slice is intra: this sets how weak a block must be to be skipped.
    pub intra_slice: bool,
    /// Whether the block is predicted intra: luma's flag is then priced by `cbf_luma`, else by `cbf_all`.
    pub intra_coded: bool,
    /// How levels are chosen.
    pub mode: Mode,
    /// What symbols cost.
    pub costs: &'a Costs,
}

impl<'a> Quantise<'a> {
    /// A call in a slice that is not intra, of a block that is not intra-coded, by the walk.
    pub const fn new(component: Component, log2_side: usize, settings: Settings, costs: &'a Costs) -> Quantise<'a> {
        Quantise { component, log2_side, settings, intra_slice: false, intra_coded: false, mode: Mode::Walk, costs }
    }
}

/// All that [`sub_block`] is told beside the buffer.
///
/// Fields will come that say more of a call; [`new`](SubBlock::new) gives them the values that keep today's meaning.
#[derive(Clone, Copy, Debug, PartialEq)]
#[non_exhaustive]
pub struct SubBlock<'a> {
    /// Luma's side is 2^log2_luma, 4 to 32, and chroma's half of it.
    pub log2_luma: usize,
    /// QP and lambda of Y, U and V. Those of a component that is not run are not looked at.
    pub settings: [Settings; 3],
    /// Which components are coded: [`RUN_Y`](SubBlock::RUN_Y), [`RUN_U`](SubBlock::RUN_U) and
    /// [`RUN_V`](SubBlock::RUN_V) added up. Other bits mean nothing.
    pub run: u32,
    /// Whether the slice is intra: this sets how weak a block must be to be skipped.
    pub intra_slice: bool,
    /// Whether the block is predicted intra: luma's flag is then priced by `cbf_luma`, else by `cbf_all`.
    pub intra_coded: bool,
    /// How levels are chosen.
    pub mode: Mode,
    /// What symbols cost.
    pub costs: &'a Costs,
}

impl<'a> SubBlock<'a> {
    /// Y is coded.
    pub const RUN_Y: u32 = 1;
    /// U is coded.
    pub const RUN_U: u32 = 2;
    /// V is coded.
    pub const RUN_V: u32 = 4;

    /// A call over all three components in a slice that is not intra, of a block that is not intra-coded, by the walk.
    pub const fn new(log2_luma: usize, settings: [Settings; 3], costs: &'a Costs) -> SubBlock<'a> {
        let run = SubBlock::RUN_Y | SubBlock::RUN_U | SubBlock::RUN_V;
        SubBlock { log2_luma, settings, run, intra_slice: false, intra_coded: false, mode: Mode::Walk, costs }
    }
}

/// What was coded.
#[derive(Clone, Copy, Debug, PartialEq, Eq, Hash)]
pub struct Coded {
    /// How many levels are not 0.
    pub count: u32,
    /// The price of the block written, in the units that stand at the top of this page; 0 of a component that was not
    /// run.
    pub price: u64,
}

impl Coded {
    /// Whether every level is 0, or nothing was coded, as the component was not run.
    pub const fn is_empty(&self) -> bool {
        self.count == 0
    }
}

/// The bits of `flags`.
fn flags(intra_slice: bool, intra_coded: bool, mode: Mode) -> u32 {
    let bit = |yes, bit| if yes { bit } else { 0 };
    bit(intra_slice, raw::INTRA_SLICE) | bit(intra_coded, raw::INTRA_CODED) | bit(mode == Mode::Least, raw::LEAST)
}

/// The forward transform, in place, of the block of residuals at the front of `block`: 2^log2_w wide, 2^log2_h high, by
/// rows.
///
/// The coefficients take the residuals' place; what lies behind the block is neither read nor changed. Refusals, in
/// this order: `Side` for a log2 side outside 1..5, `Length` for a short buffer, `Sample` for a residual outside
/// ±1023.
///
/// ```
/// let mut block = [1, 2, 3, 4];
/// assert_eq!(galemosu::transform(&mut block, 1, 1), Ok(()));
/// assert_eq!(block, [80, -16, -32, 0]);
/// ```
pub fn transform(block: &mut [i16], log2_w: usize, log2_h: usize) -> Result<(), Refusal> {
    // SAFETY: the pointer and the length are those of one lent slice; a slice's pointer is not null and is aligned.
    let number = unsafe { raw::galemosu_transform(block.as_mut_ptr(), block.len(), log2_w, log2_h) };
    Refusal::of(number).map_or(Ok(()), Err)
}

/// Quantises, in place, the square block of coefficients at the front of `block`.
///
/// The levels take the coefficients' place; what lies behind the block is neither read nor changed. Refusals 1 to 9
/// can come, in their order; `Level`, `Price` and `Distortion` only for a block that the skip does not clear. They are
/// the same in both modes.
///
/// ```
/// use galemosu::{quantise, Component, Costs, Mode, Quantise, Settings};
///
/// let costs = Costs::equal(Costs::BIT);
/// let mut call = Quantise::new(Component::Y, 1, Settings { qp: 4, lambda: 0.0 }, &costs);
/// let mut block = [-24, 0, 0, 0]; // a step and a half
/// assert_eq!(quantise(&mut block, &call).unwrap().count, 1);
/// assert_eq!(block, [-2, 0, 0, 0]);
///
/// call.mode = Mode::Least; // 1 costs the same as 2 here, and comes first
/// let mut block = [-24, 0, 0, 0];
/// quantise(&mut block, &call).unwrap();
/// assert_eq!(block, [-1, 0, 0, 0]);
/// ```
pub fn quantise(block: &mut [i16], call: &Quantise) -> Result<Coded, Refused> {
    let quantise_one = match call.component {
        Component::Y => raw::galemosu_quantise_y,
        Component::U => raw::galemosu_quantise_u,
        Component::V => raw::galemosu_quantise_v,
    };
    let mut answer = [0u64; 3];
    // SAFETY: the block is one lent slice; the answer has the length that the call writes, and outlives it.
    let number = unsafe {
        quantise_one(
            block.as_mut_ptr(),
            block.len(),
            call.log2_side,
            call.settings.qp,
            call.settings.lambda,
            flags(call.intra_slice, call.intra_coded, call.mode),
            call.costs,
            answer.as_mut_ptr(),
        )
    };
    match Refused::of(number, answer[0]) {
        None => Ok(Coded { count: answer[1] as u32, price: answer[2] }),
        Some(refused) => Err(refused),
    }
}

/// Transforms and quantises the three components that stand in `buffer`, one behind the other: Y of side 2^log2_luma,
/// then U and V of half that side.
///
/// Nothing is written until every test of every component has passed: `Side`; `Qp` of Y, U, V; `Lambda` of Y, U, V;
/// `Cost`; `Length`; `Sample` of Y, U, V; then `Level`, `Price` and `Distortion` of Y, of U, of V.
///
/// Of a component that is not run neither settings nor residuals are looked at; its residuals stay where they are, and
/// it answers 0 and 0. The side, all 28 costs and the length of all three are asked for all the same.
///
/// ```
/// use galemosu::{sub_block, Costs, Settings, SubBlock};
///
/// let mut buffer = [300i16; 16 + 4 + 4]; // 4×4 of Y, 2×2 of U, 2×2 of V
/// let mut call = SubBlock::new(2, [Settings::usual(34); 3], &Costs::START);
/// call.run = SubBlock::RUN_Y | SubBlock::RUN_V;
/// let [y, u, v] = sub_block(&mut buffer, &call).unwrap();
/// assert_eq!((y.count, u.count, v.count), (1, 0, 1));
/// assert_eq!(buffer[16..20], [300; 4]); // U is still its residuals
/// ```
pub fn sub_block(buffer: &mut [i16], call: &SubBlock) -> Result<[Coded; 3], Refused> {
    let (qp, lambda) = (call.settings.map(|s| s.qp), call.settings.map(|s| s.lambda));
    let mut answer = [0u64; 7];
    // SAFETY: the buffer is one lent slice; the arrays have the lengths that the call reads and writes, and outlive it.
    let number = unsafe {
        raw::galemosu_sub_block(
            buffer.as_mut_ptr(),
            buffer.len(),
            call.log2_luma,
            qp.as_ptr(),
            lambda.as_ptr(),
            call.run,
            flags(call.intra_slice, call.intra_coded, call.mode),
            call.costs,
            answer.as_mut_ptr(),
        )
    };
    match Refused::of(number, answer[0]) {
        None => Ok([0, 1, 2].map(|k| Coded { count: answer[1 + k] as u32, price: answer[4 + k] })),
        Some(refused) => Err(refused),
    }
}

/// Scaling back, in place, of the square block of levels at the front of `block`, of side 2^log2_side: the coefficients
/// that a viewer takes them for. `qp` is what the block was quantised with, the slice's plus 12.
///
/// Each level by itself becomes level · s · 2^(QP / 6), plus 2^log2_side, shifted right by 1 + log2_side, clipped to 16
/// bits; s is 40, 45, 51, 57, 64, 72 by QP mod 6, and QP / 6 is a whole number. That this is so is proved; that the
/// standard has the same was not looked up.
///
/// The coefficients take the levels' place; what lies behind the block is neither read nor changed. Refusals, in this
/// order: `Side` for a log2 side outside 1..5, `Qp` for one above 63, `Length` for a short buffer; none tells a
/// component. No level is refused.
///
/// ```
/// let mut block = [3, -1, 4, 1];
/// assert_eq!(galemosu::scale_back(&mut block, 1, 34), Ok(()));
/// assert_eq!(block, [1536, -512, 2048, 512]); // a step of QP 34 is 512 here
/// ```
pub fn scale_back(block: &mut [i16], log2_side: usize, qp: u32) -> Result<(), Refused> {
    // SAFETY: the pointer and the length are those of one lent slice; a slice's pointer is not null and is aligned.
    let number = unsafe { raw::galemosu_scale_back(block.as_mut_ptr(), block.len(), log2_side, qp) };
    Refusal::of(number).map_or(Ok(()), |refusal| Err(refusal.into()))
}

/// The inverse transform, in place, of the block of coefficients at the front of `block`: 2^log2_w wide, 2^log2_h high,
/// by rows.
///
/// Residual (y, x) is the sum over all v and u of `T_h[v][y] · T_w[u][x] · coefficient(v, u)`, plus 2^16, shifted right
/// by 17 and clipped to 16 bits, with the matrices of [`transform`]. That this is so is proved, and that at 2×2 the
/// inverse of an accepted transform gives the residuals back. At other sides it comes near them and no nearer, since
/// coefficients are rounded and the matrices are orthogonal only nearly: `host/against-rust back` prints by how much a
/// sample was off.
///
/// The residuals take the coefficients' place; what lies behind the block is neither read nor changed. They are not
/// held to ±1023, and the guess is not in them. Refusals, in this order: `Side` for a log2 side outside 1..5, `Length`
/// for a short buffer; none tells a component. No coefficient is refused.
///
/// ```
/// let mut block = [80, -16, -32, 0];
/// assert_eq!(galemosu::inverse(&mut block, 1, 1), Ok(()));
/// assert_eq!(block, [1, 2, 3, 4]);
/// ```
pub fn inverse(block: &mut [i16], log2_w: usize, log2_h: usize) -> Result<(), Refused> {
    // SAFETY: the pointer and the length are those of one lent slice; a slice's pointer is not null and is aligned.
    let number = unsafe { raw::galemosu_inverse(block.as_mut_ptr(), block.len(), log2_w, log2_h) };
    Refusal::of(number).map_or(Ok(()), |refusal| Err(refusal.into()))
}

/// How far the samples of a block may be off: what the host allows [`guarded_sub_block`].
#[derive(Clone, Copy, Debug, PartialEq, Eq, Hash)]
pub struct Heights {
    /// How much darker than the camera saw it a sample may be shown.
    pub darker: u32,
    /// How much lighter.
    pub lighter: u32,
}

impl Heights {
    /// More than any accepted block can be off: with these, [`guarded_sub_block`] writes what [`sub_block`] writes.
    pub const ANY: Heights = Heights::both(33791);

    /// As much darker as lighter.
    pub const fn both(height: u32) -> Heights {
        Heights { darker: height, lighter: height }
    }
}

/// How far the samples of a block are off at most, exactly. A residual is the camera's sample less a guess, and a
/// viewer adds what it decodes to the same guess: so these are distances of what is shown from what the camera saw,
/// whatever the guess was.
#[derive(Clone, Copy, Debug, PartialEq, Eq, Hash)]
pub struct Extremes {
    /// How much darker than the camera saw it a sample is shown at most.
    pub darker: u32,
    /// How much lighter.
    pub lighter: u32,
}

/// What was coded of a guarded component.
#[derive(Clone, Copy, Debug, PartialEq, Eq, Hash)]
pub struct Guarded {
    /// The count and the price of the block written.
    pub coded: Coded,
    /// How far its samples are off; 0 and 0 of a component that was not run.
    pub extremes: Extremes,
}

/// [`sub_block`], held to heights: of each component that is run, every sample that a viewer makes of the block written
/// lies at most so much below and above what the camera saw as `heights` of Y, U and V say.
///
/// The library decodes each block that it codes, as a viewer does, and looks at every sample. Where one is off by more
/// than its height, the levels of the first place in scan order are put back to their rounded magnitudes, then of the
/// first 2, 4, 8 and so on up to all, until every sample is within; the first block that is within is written. Where
/// even plain rounding at this QP is not, or costs 2^62 or more, the call is refused with `Height` of the component,
/// and nothing is written: code the block at a lower QP, or send it another way. `Height` comes behind `Distortion` of
/// the same component; all other refusals are those of [`sub_block`], in their order.
///
/// With the camera's sample between 0 and 1023 and what is shown clipped to that range, for any guess: camera - darker
/// ≤ shown ≤ camera + lighter. Where paper is at least W, ink at most W - C, and the two heights add up to less than C,
/// one threshold tells paper from ink in what is shown. All this is proved; a viewer that does other arithmetic, has
/// another guess, or filters behind it is not spoken of.
///
/// ```
/// use galemosu::{guarded_sub_block, measure, Costs, Extremes, Heights, Settings, SubBlock};
///
/// let camera = [0i16, 0, 0, 0, 0, 300, 0, 0, 0, 300, 0, 0, 0, 300, 0, 0]; // a light stroke, 4×4
/// let mut buffer = [0i16; 16 + 4 + 4];
/// buffer[..16].copy_from_slice(&camera);
/// let mut call = SubBlock::new(2, [Settings { qp: 46, lambda: 2000.0 }; 3], &Costs::START);
/// call.run = SubBlock::RUN_Y;
///
/// let [y, ..] = guarded_sub_block(&mut buffer.clone(), &call, &[Heights::ANY; 3]).unwrap();
/// assert_eq!((y.coded.count, y.extremes), (0, Extremes { darker: 300, lighter: 0 })); // the stroke is taken away
///
/// let [y, ..] = guarded_sub_block(&mut buffer, &call, &[Heights::both(100); 3]).unwrap();
/// assert!(y.coded.count > 0 && y.extremes.darker <= 100 && y.extremes.lighter <= 100);
/// assert_eq!(measure(&camera, &buffer, 2, 46), Ok(y.extremes));
/// ```
pub fn guarded_sub_block(buffer: &mut [i16], call: &SubBlock, heights: &[Heights; 3]) -> Result<[Guarded; 3], Refused> {
    let (qp, lambda) = (call.settings.map(|s| s.qp), call.settings.map(|s| s.lambda));
    let [y, u, v] = heights;
    let heights = [y.darker, u.darker, v.darker, y.lighter, u.lighter, v.lighter];
    let mut answer = [0u64; 13];
    // SAFETY: the buffer is one lent slice; the arrays have the lengths that the call reads and writes, and outlive it.
    let number = unsafe {
        raw::galemosu_guarded_sub_block(
            buffer.as_mut_ptr(),
            buffer.len(),
            call.log2_luma,
            qp.as_ptr(),
            lambda.as_ptr(),
            call.run,
            flags(call.intra_slice, call.intra_coded, call.mode),
            call.costs,
            heights.as_ptr(),
            answer.as_mut_ptr(),
        )
    };
    match Refused::of(number, answer[0]) {
        None => Ok([0, 1, 2].map(|k| Guarded {
            coded: Coded { count: answer[1 + k] as u32, price: answer[4 + k] },
            extremes: Extremes { darker: answer[7 + k] as u32, lighter: answer[10 + k] as u32 },
        })),
        Some(refused) => Err(refused),
    }
}

/// How far the samples that a viewer makes of the square block of levels at the front of `levels` are off at most, by
/// the residuals at the front of `residuals`; both of side 2^log2_side, by rows. The levels may be of any origin: of
/// another QP's try, of another mode, of a file.
///
/// The two extremes are exact: no sample is further off, and one is as far (or they are 0). Nothing is written.
/// Refusals, in this order: `Side` for a log2 side outside 1..5, `Qp` for one above 63, `Length` where either slice is
/// shorter than the block; none tells a component. No sample is refused.
///
/// ```
/// use galemosu::{measure, Extremes};
///
/// // what is decoded of these levels is 112, 112, -48, 16
/// assert_eq!(measure(&[100, 98, -40, 5], &[3, -1, 4, 1], 1, 34), Ok(Extremes { darker: 8, lighter: 14 }));
/// ```
pub fn measure(residuals: &[i16], levels: &[i16], log2_side: usize, qp: u32) -> Result<Extremes, Refused> {
    let mut answer = [0u64; 2];
    // SAFETY: both are lent slices, whose pointers are not null and are aligned; the answer has the length that the
    // call writes, and outlives it.
    let number = unsafe {
        raw::galemosu_measure(
            residuals.as_ptr(),
            residuals.len(),
            levels.as_ptr(),
            levels.len(),
            log2_side,
            qp,
            0,
            answer.as_mut_ptr(),
        )
    };
    match Refusal::of(number) {
        None => Ok(Extremes { darker: answer[0] as u32, lighter: answer[1] as u32 }),
        Some(refusal) => Err(refusal.into()),
    }
}

/// The levels of the square block at the front of `levels`, of side 2^log2_side by rows, as symbols: one for each level
/// that is not 0, in scan order. They are written to the front of `list`, and that stretch of it is given back; what
/// lies behind it is neither read nor changed. An empty block has no symbols.
///
/// A list with as many places as the block has always suffices; [`Coded::count`](Coded::count) places are enough for a
/// block that [`quantise`] has written. Each is a packed [`Symbol`]. Refusals, in this order: `Side` for a log2 side
/// outside 1..5, `Length` for a short buffer of levels, `Sample` for a level of -32768, `Room` for a list with fewer
/// places than there are levels other than 0. A refused list holds what it held.
///
/// ```
/// use galemosu::{read_symbols, write_symbols, Symbol};
///
/// let levels = [0, 3, 0, -7]; // 2×2
/// let mut list = [0; 4];
/// let symbols = write_symbols(&levels, 1, &mut list)?;
/// assert_eq!(symbols, [u32::from(Symbol::new(1, 3, false)?), u32::from(Symbol::new(1, -7, true)?)]);
///
/// let mut block = [99; 4];
/// read_symbols(symbols, &mut block, 1)?;
/// assert_eq!(block, levels);
/// # Ok::<(), galemosu::Refusal>(())
/// ```
pub fn write_symbols<'a>(levels: &[i16], log2_side: usize, list: &'a mut [u32]) -> Result<&'a [u32], Refusal> {
    let mut answer = [0u64; 1];
    // SAFETY: both are lent slices, whose pointers are not null and are aligned; they do not overlap, as one of them is
    // lent to be written; the answer has the length that the call writes, and outlives it.
    let number = unsafe {
        let (room, len) = (list.as_mut_ptr(), list.len());
        raw::galemosu_write_symbols(levels.as_ptr(), levels.len(), log2_side, room, len, answer.as_mut_ptr())
    };
    match Refusal::of(number) {
        None => Ok(list.get(..answer[0] as usize).unwrap_or(&[])),
        Some(refusal) => Err(refusal),
    }
}

/// The square block that a list of symbols tells, of side 2^log2_side by rows, at the front of `block`: each symbol's
/// level behind its zeros in scan order, and 0 behind the last. What lies behind the block is neither read nor changed.
///
/// The list is taken whole: lend the stretch that [`write_symbols`] gave back, or as many symbols as were decoded. The
/// empty list is the empty block. Refusals, in this order: `Side` for a log2 side outside 1..5, `Length` for a short
/// buffer, then `Symbol` where the list is no block's: a magnitude of 0, an unused bit that is set, a run past the
/// block, no last mark on the last symbol, or a symbol behind one that has it. A refused block holds what it held.
///
/// ```
/// use galemosu::{read_symbols, Refusal, Symbol};
///
/// let mut block = [5; 4];
/// assert_eq!(read_symbols(&[Symbol::new(3, -2, true)?.into()], &mut block, 1), Ok(()));
/// assert_eq!(block, [0, 0, 0, -2]);
/// let past_the_block = Symbol::new(4, -2, true)?.into();
/// assert_eq!(read_symbols(&[past_the_block], &mut block, 1), Err(Refusal::Symbol));
/// assert_eq!(read_symbols(&[], &mut block, 1), Ok(()));
/// assert_eq!(block, [0; 4]);
/// # Ok::<(), Refusal>(())
/// ```
pub fn read_symbols(list: &[u32], block: &mut [i16], log2_side: usize) -> Result<(), Refusal> {
    // SAFETY: both are lent slices, whose pointers are not null and are aligned; they do not overlap, as one of them is
    // lent to be written.
    let number =
        unsafe { raw::galemosu_read_symbols(list.as_ptr(), list.len(), block.as_mut_ptr(), block.len(), log2_side) };
    Refusal::of(number).map_or(Ok(()), Err)
}
