//! The calls as `include/galemosu.h` has them, with a slice as a pointer and a length, for a host that has no slices to
//! lend. The functions of the crate's root say the same in Rust's words, and need no `unsafe`.
//!
//! # Safety
//!
//! Of every function but [`galemosu_version`]: pointers are not null and are aligned, also at length 0. `block` or
//! `buffer` is `len` samples, `residuals` and `levels` are as many samples as the number behind each says, `costs` is a
//! [`Costs`], `qp` and `lambda` are three numbers each, `heights` six, `list` is `list_len` symbols, `answer` is three
//! numbers of [`galemosu_quantise_y`] and its kind, seven of [`galemosu_sub_block`], thirteen of
//! [`galemosu_guarded_sub_block`], two of [`galemosu_measure`], one of [`galemosu_write_symbols`]. What is written
//! (`block` or `buffer`, the list of [`galemosu_write_symbols`], `answer`) overlaps nothing else that is lent. Nothing
//! is asked of what the numbers are.

use crate::Costs;

/// Bit 0 of `flags`: the slice is intra.
pub const INTRA_SLICE: u32 = 1;
/// Bit 1 of `flags`: the block is predicted intra.
pub const INTRA_CODED: u32 = 2;
/// Bit 2 of `flags`: the second mode, the cheapest block of all. Bit 3 is kept; bits above it mean nothing.
pub const LEAST: u32 = 4;

macro_rules! quantisers {
    ($($(#[$doc:meta])* $name:ident)*) => {
        extern "C" {
            $($(#[$doc])* pub fn $name(
                block: *mut i16,
                len: usize,
                log2_side: usize,
                qp: u32,
                lambda: f64,
                flags: u32,
                costs: *const Costs,
                answer: *mut u64,
            ) -> u32;)*
        }
    };
}

quantisers! {
    /// Quantises luma; `answer` is component, count, price.
    galemosu_quantise_y
    /// Quantises U.
    galemosu_quantise_u
    /// Quantises V.
    galemosu_quantise_v
}

extern "C" {
    /// The archive's version: major·10000 + minor·100 + patch.
    pub fn galemosu_version() -> u32;

    /// Transforms a block of residuals.
    pub fn galemosu_transform(block: *mut i16, len: usize, log2_w: usize, log2_h: usize) -> u32;

    /// Scales the levels of a square block back to coefficients.
    pub fn galemosu_scale_back(block: *mut i16, len: usize, log2_side: usize, qp: u32) -> u32;

    /// Turns a block of coefficients back into residuals.
    pub fn galemosu_inverse(block: *mut i16, len: usize, log2_w: usize, log2_h: usize) -> u32;

    /// Transforms and quantises three components; `answer` is component, counts of Y, U, V, prices of Y, U, V.
    pub fn galemosu_sub_block(
        buffer: *mut i16,
        len: usize,
        log2_luma: usize,
        qp: *const u32,
        lambda: *const f64,
        run: u32,
        flags: u32,
        costs: *const Costs,
        answer: *mut u64,
    ) -> u32;

    /// [`galemosu_sub_block`], held to `heights`: how much darker Y, U and V may get, then how much lighter. `answer`
    /// is component, counts, prices, and how much darker and how much lighter they got, each of Y, U, V.
    pub fn galemosu_guarded_sub_block(
        buffer: *mut i16,
        len: usize,
        log2_luma: usize,
        qp: *const u32,
        lambda: *const f64,
        run: u32,
        flags: u32,
        costs: *const Costs,
        heights: *const u32,
        answer: *mut u64,
    ) -> u32;

    /// How far what a viewer makes of levels lies from the residuals at most; `answer` is how much darker, how much
    /// lighter. No bit of `flags` means anything yet.
    pub fn galemosu_measure(
        residuals: *const i16,
        residuals_len: usize,
        levels: *const i16,
        levels_len: usize,
        log2_side: usize,
        qp: u32,
        flags: u32,
        answer: *mut u64,
    ) -> u32;

    /// Writes the levels of a square block to a list as symbols; `answer` is how many there are.
    pub fn galemosu_write_symbols(
        block: *const i16,
        len: usize,
        log2_side: usize,
        list: *mut u32,
        list_len: usize,
        answer: *mut u64,
    ) -> u32;

    /// Turns a whole list of symbols into the square block that it tells.
    pub fn galemosu_read_symbols(
        list: *const u32,
        list_len: usize,
        block: *mut i16,
        len: usize,
        log2_side: usize,
    ) -> u32;
}
