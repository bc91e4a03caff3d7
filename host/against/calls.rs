//! The calls with all their inputs, made at random: sound ones, such at the limits of the late refusals, and such with
//! several faults at once, so that the order of the tests shows.

use crate::blocks::Random;
use crate::digits::{Digit, Guess};
use crate::limits::to_a_limit;
use crate::paper::{self, Block};
use crate::scan::scan;
use crate::symbols;
use galemosu::{Component, Costs, Heights, Mode, Settings};
use std::ops::Range;

pub const COMPONENTS: [Component; 3] = [Component::Y, Component::U, Component::V];

const WRONG_SIDES: [usize; 6] = [0, 6, 7, 63, 64, usize::MAX];
const WRONG_LUMA_SIDES: [usize; 7] = [0, 1, 6, 7, 63, 64, usize::MAX];
const WRONG_QPS: [u32; 6] = [64, 65, 255, 256, 1 << 31, u32::MAX];
const WRONG_COSTS: [u64; 6] = [1_048_577, 1 << 31, 1 << 32, (1 << 32) + 1, 1 << 63, u64::MAX];
const WRONG_RESIDUALS: [i16; 6] = [1024, -1024, 1025, -2048, 32767, -32768];

#[derive(Debug)]
pub struct Transform {
    pub buffer: Vec<i16>,
    pub log2_w: usize,
    pub log2_h: usize,
}

#[derive(Debug)]
pub struct Quantise {
    pub buffer: Vec<i16>,
    pub log2_side: usize,
    pub component: Component,
    pub settings: Settings,
    pub intra_slice: bool,
    pub intra_coded: bool,
    pub costs: Costs,
}

#[derive(Debug)]
pub struct SubBlock {
    pub buffer: Vec<i16>,
    pub log2_luma: usize,
    pub settings: [Settings; 3],
    pub run: u32,
    pub intra_slice: bool,
    pub intra_coded: bool,
    pub costs: Costs,
}

#[derive(Debug)]
pub struct ScaleBack {
    pub buffer: Vec<i16>,
    pub log2_side: usize,
    pub qp: u32,
}

#[derive(Debug)]
pub struct Inverse {
    pub buffer: Vec<i16>,
    pub log2_w: usize,
    pub log2_h: usize,
}

#[derive(Debug)]
pub struct Guarded {
    pub call: SubBlock,
    pub mode: Mode,
    pub heights: [Heights; 3],
}

#[derive(Debug)]
pub struct Measure {
    pub residuals: Vec<i16>,
    pub levels: Vec<i16>,
    pub log2_side: usize,
    pub qp: u32,
}

#[derive(Debug)]
pub struct Write {
    pub buffer: Vec<i16>,
    pub log2_side: usize,
    pub list: Vec<u32>,
    /// Whether the levels are such as the quantiser leaves.
    pub quantised: bool,
}

#[derive(Debug)]
pub struct Read {
    pub list: Vec<u32>,
    pub buffer: Vec<i16>,
    pub log2_side: usize,
}

impl Write {
    pub fn needs(&self) -> usize {
        1 << (2 * self.log2_side)
    }
}

impl Read {
    pub fn needs(&self) -> usize {
        1 << (2 * self.log2_side)
    }
}

impl Measure {
    pub fn needs(&self) -> usize {
        1 << (2 * self.log2_side)
    }
}

impl Transform {
    /// How many places of the buffer the call is about, of sides that are not refused.
    pub fn needs(&self) -> usize {
        1 << (self.log2_w + self.log2_h)
    }
}

impl ScaleBack {
    pub fn needs(&self) -> usize {
        1 << (2 * self.log2_side)
    }
}

impl Inverse {
    pub fn needs(&self) -> usize {
        1 << (self.log2_w + self.log2_h)
    }
}

impl Quantise {
    pub fn needs(&self) -> usize {
        1 << (2 * self.log2_side)
    }

    /// The call as the library takes it.
    pub fn asked(&self, mode: Mode) -> galemosu::Quantise<'_> {
        let mut call = galemosu::Quantise::new(self.component, self.log2_side, self.settings, &self.costs);
        (call.intra_slice, call.intra_coded, call.mode) = (self.intra_slice, self.intra_coded, mode);
        call
    }

    pub fn block(&self) -> Block<'_> {
        Block {
            coefficients: &self.buffer[..self.needs()],
            log2_side: self.log2_side,
            component: self.component,
            qp: self.settings.qp,
            lambda: self.settings.lambda,
            intra_slice: self.intra_slice,
            intra_coded: self.intra_coded,
            costs: &self.costs,
        }
    }
}

impl SubBlock {
    pub fn needs(&self) -> usize {
        3 << (2 * self.log2_luma - 1)
    }

    /// The call as the library takes it.
    pub fn asked(&self, mode: Mode) -> galemosu::SubBlock<'_> {
        let mut call = galemosu::SubBlock::new(self.log2_luma, self.settings, &self.costs);
        (call.run, call.intra_slice, call.intra_coded, call.mode) =
            (self.run, self.intra_slice, self.intra_coded, mode);
        call
    }

    pub fn runs(&self, k: usize) -> bool {
        self.run >> k & 1 == 1
    }

    /// The log2 side of component k.
    pub fn side(&self, k: usize) -> usize {
        self.log2_luma - (k != 0) as usize
    }

    /// Where component k stands in the buffer.
    pub fn part(&self, k: usize) -> Range<usize> {
        let n = 1 << (2 * self.log2_luma);
        [0..n, n..n + n / 4, n + n / 4..n + n / 2][k].clone()
    }

    /// The coefficients of component k, as document 01 defines them.
    pub fn coefficients(&self, k: usize) -> Vec<i16> {
        paper::transform(&self.buffer[self.part(k)], self.side(k), self.side(k))
    }

    pub fn block<'a>(&'a self, k: usize, coefficients: &'a [i16]) -> Block<'a> {
        Block {
            coefficients,
            log2_side: self.side(k),
            component: COMPONENTS[k],
            qp: self.settings[k].qp,
            lambda: self.settings[k].lambda,
            intra_slice: self.intra_slice,
            intra_coded: self.intra_coded,
            costs: &self.costs,
        }
    }
}

/// A transform of the given sides, or a faulty one.
pub fn transform(random: &mut Random, log2_w: usize, log2_h: usize, faulty: bool) -> Transform {
    let mut call = Transform { buffer: random.picture(1 << log2_w, 1 << (log2_w + log2_h)), log2_w, log2_h };
    if random.wrong(faulty) {
        call.log2_w = random.one(&WRONG_SIDES);
    }
    if random.wrong(faulty) {
        call.log2_h = random.one(&WRONG_SIDES);
    }
    if random.wrong(faulty) {
        let all = 0..call.buffer.len();
        random.spoil(&mut call.buffer, all);
    }
    random.lend(&mut call.buffer, faulty);
    call
}

/// A call of the quantiser with the given side, QP and component, or a faulty one.
pub fn quantise(random: &mut Random, log2_side: usize, qp: u32, component: Component, faulty: bool) -> Quantise {
    let mut call = Quantise {
        buffer: random.coefficients(log2_side),
        log2_side,
        component,
        settings: Settings { qp, lambda: random.lambda() },
        intra_slice: random.yes(),
        intra_coded: random.yes(),
        costs: random.costs(faulty),
    };
    if random.below(6) == 0 {
        to_a_limit(random, &mut call);
    }
    if random.wrong(faulty) {
        let place = random.place(&call.buffer);
        call.buffer[place] = -32768;
    }
    if random.wrong(faulty) {
        call.log2_side = random.one(&WRONG_SIDES);
    }
    random.unsettle(&mut call.settings, faulty);
    random.lend(&mut call.buffer, faulty);
    call
}

/// A three-component call of the given luma side and run bits, or a faulty one. A component that is not run holds
/// anything.
pub fn sub_block(random: &mut Random, log2_luma: usize, run: u32, faulty: bool) -> SubBlock {
    let steep = random.below(8) == 0;
    let settings = [0; 3].map(|_| {
        let qp = random.below(if steep { 6 } else { 64 }) as u32;
        Settings { qp, lambda: if steep && random.yes() { 8192.0 } else { random.lambda() } }
    });
    let (intra_slice, intra_coded, costs) = (random.yes(), random.yes(), random.costs(faulty));
    let mut call = SubBlock { buffer: Vec::new(), log2_luma, settings, run, intra_slice, intra_coded, costs };
    for k in 0..3 {
        let (w, n) = (1 << call.side(k), call.part(k).len());
        call.buffer.extend(if steep { random.flat(n) } else { random.picture(w, n) });
    }
    for k in 0..3 {
        let anything = faulty || !call.runs(k);
        random.unsettle(&mut call.settings[k], anything);
        if random.wrong(anything) {
            let part = call.part(k);
            random.spoil(&mut call.buffer, part);
        }
    }
    if random.wrong(faulty) {
        call.log2_luma = random.one(&WRONG_LUMA_SIDES);
    }
    random.lend(&mut call.buffer, faulty);
    call
}

/// A guarded call of the given luma side and run bits, or a faulty one: any three-component call, or pictures at
/// settings at which much is taken away; heights none, that some candidate reaches, or past all.
pub fn guarded(random: &mut Random, log2_luma: usize, run: u32, faulty: bool) -> Guarded {
    let mut call = sub_block(random, log2_luma, run, faulty);
    let coarse = !faulty && random.below(4) != 0;
    if coarse {
        let run: Vec<usize> = (0..3).filter(|k| call.runs(*k)).collect();
        for k in run {
            let (w, part) = (1 << call.side(k), call.part(k));
            let picture = random.accepted_picture(w, part.len());
            call.buffer[part].copy_from_slice(&picture);
            let mut settings = Settings::usual(random.between(16, 54) as u32);
            settings.lambda = (settings.lambda * random.one(&[0.5, 1.0, 4.0, 16.0])).min(8192.0);
            call.settings[k] = settings;
        }
        call.costs = random.one(&[Costs::START, Costs::equal(Costs::BIT)]);
    }
    let heights = [0; 3].map(|_| {
        let most = random.one(&[8, 40, 150, 600, 1200]);
        match random.below(12) {
            0 => Heights::both(random.below(4) as u32),
            1 => Heights::both(u32::MAX),
            2 => Heights { darker: random.below(most) as u32, lighter: u32::MAX },
            3 => Heights { darker: 33791, lighter: random.below(most) as u32 },
            _ => Heights { darker: random.below(most) as u32, lighter: random.below(most) as u32 },
        }
    });
    Guarded { call, mode: random.one(&[Mode::Walk, Mode::Walk, Mode::Least]), heights }
}

/// A measuring of the given side and QP, or a faulty call of it: of any residuals and levels, or of such as belong
/// together.
pub fn measure(random: &mut Random, log2_side: usize, qp: u32, faulty: bool) -> Measure {
    let n = 1 << (2 * log2_side);
    let mut call = Measure { residuals: random.any(n), levels: random.any(n), log2_side, qp };
    if random.yes() {
        call.residuals = random.accepted_picture(1 << log2_side, n);
        call.levels = call.residuals.clone();
        galemosu::transform(&mut call.levels, log2_side, log2_side).unwrap();
        let step = 1i32 << (qp / 6);
        call.levels.iter_mut().for_each(|c| *c = ((i32::from(*c) << (log2_side - 1)) / 16 / step) as i16);
    }
    if random.below(8) == 0 {
        call.levels.fill(0);
    }
    if random.wrong(faulty) {
        call.log2_side = random.one(&WRONG_SIDES);
    }
    if random.wrong(faulty) {
        call.qp = random.one(&WRONG_QPS);
    }
    random.lend(&mut call.residuals, faulty);
    random.lend(&mut call.levels, faulty);
    call
}

/// Scaling back of the given side and QP, or a faulty call of it.
pub fn scale_back(random: &mut Random, log2_side: usize, qp: u32, faulty: bool) -> ScaleBack {
    let mut call = ScaleBack { buffer: random.any(1 << (2 * log2_side)), log2_side, qp };
    if random.wrong(faulty) {
        call.log2_side = random.one(&WRONG_SIDES);
    }
    if random.wrong(faulty) {
        call.qp = random.one(&WRONG_QPS);
    }
    random.lend(&mut call.buffer, faulty);
    call
}

/// An inverse of the given sides, or a faulty one: of the coefficients of a picture, or of any.
pub fn inverse(random: &mut Random, log2_w: usize, log2_h: usize, faulty: bool) -> Inverse {
    let n = 1 << (log2_w + log2_h);
    let mut buffer = random.any(n);
    if random.below(3) == 0 {
        buffer = random.accepted_picture(1 << log2_w, n);
        galemosu::transform(&mut buffer, log2_w, log2_h).unwrap();
    }
    let mut call = Inverse { buffer, log2_w, log2_h };
    if random.wrong(faulty) {
        call.log2_w = random.one(&WRONG_SIDES);
    }
    if random.wrong(faulty) {
        call.log2_h = random.one(&WRONG_SIDES);
    }
    random.lend(&mut call.buffer, faulty);
    call
}

/// A writing of the given side, of levels that the quantiser has left or of others, or a faulty one. A list that is too
/// short lacks one place, or more.
pub fn write(random: &mut Random, log2_side: usize, quantised: bool, faulty: bool) -> Write {
    let levels = if quantised { random.quantised(log2_side) } else { random.levels(log2_side) };
    let count = levels.iter().filter(|level| **level != 0).count();
    let short = random.wrong(faulty) && count != 0;
    let places = if short { random.one(&[count - 1, count - 1, count / 2, 0]) } else { count + random.surplus() };
    let list = (0..places).map(|_| random.next() as u32).collect();
    let mut call = Write { buffer: levels, log2_side, list, quantised };
    if random.wrong(faulty) {
        let place = random.place(&call.buffer);
        call.buffer[place] = -32768;
    }
    if random.wrong(faulty) {
        call.log2_side = random.one(&WRONG_SIDES);
    }
    random.lend(&mut call.buffer, faulty);
    call
}

/// A reading of the given side, or a faulty one: of a list as it is written (kind 0), of such a list with changes (1),
/// or of numbers by chance, half of them with no unused bit set (2).
pub fn read(random: &mut Random, log2_side: usize, kind: usize, faulty: bool) -> Read {
    let buffer = (0..1 << (2 * log2_side)).map(|_| random.next() as i16).collect();
    let list = if kind == 2 {
        let used = random.one(&[u32::MAX, (1 << 27) - 1]);
        (0..1 + random.below(4)).map(|_| random.next() as u32 & used).collect()
    } else {
        let quantised = random.yes();
        let levels = if quantised { random.quantised(log2_side) } else { random.levels(log2_side) };
        let mut list = symbols::listed(&levels, log2_side);
        for _ in 0..if kind == 1 { 1 + random.below(4) } else { 0 } {
            random.change(&mut list);
        }
        list
    };
    let mut call = Read { list, buffer, log2_side };
    if random.wrong(faulty) {
        call.log2_side = random.one(&WRONG_SIDES);
    }
    random.lend(&mut call.buffer, faulty);
    call
}

impl Random {
    /// Levels as the quantiser leaves them, of coefficients of any kind or of a digit's.
    fn quantised(&mut self, log2_side: usize) -> Vec<i16> {
        let mut block = if log2_side > 1 && self.yes() {
            let mut residuals = Digit::drawn(self, log2_side, Guess::Even).residuals;
            galemosu::transform(&mut residuals, log2_side, log2_side).unwrap();
            residuals
        } else {
            self.coefficients(log2_side)
        };
        let settings = Settings::usual(self.between(4, 51) as u32);
        let mut call = galemosu::Quantise::new(Component::Y, log2_side, settings, &Costs::START);
        (call.intra_slice, call.intra_coded) = (true, true);
        match galemosu::quantise(&mut block, &call) {
            Ok(_) => block,
            Err(_) => self.quantised(log2_side), // refused with 8 or 9: other coefficients
        }
    }

    /// Levels of any kind that are not refused: such as `any` gives, one alone in the front, in the middle or at the
    /// end of the scan, none, or all of one size.
    fn levels(&mut self, log2_side: usize) -> Vec<i16> {
        let n = 1usize << (2 * log2_side);
        let level = self.one(&[1, -1, 32767, -32767, 300]);
        match self.below(8) {
            0 => vec![0; n],
            1 => vec![level; n],
            2 => {
                let (mut block, place) = (vec![0; n], self.below(n as u64) as usize);
                block[scan(1 << log2_side)[self.one(&[0, place, n - 1])]] = level;
                block
            }
            _ => self.any(n).into_iter().map(|level| level.max(-32767)).collect(),
        }
    }

    fn surplus(&mut self) -> usize {
        self.one(&[0, 0, 1, 3, 40])
    }

    /// One thing of a list changed: a bit, a symbol less or more, a mark, a run, a magnitude, or two symbols
    /// exchanged. The list may be another block's then, or none's.
    fn change(&mut self, list: &mut Vec<u32>) {
        const LAST: u32 = 1 << 26;
        let Some(end) = list.len().checked_sub(1) else {
            list.push(self.next() as u32 >> self.one(&[0, 5, 6]));
            return;
        };
        let place = self.below(list.len() as u64) as usize;
        let at = self.one(&[end, place]);
        match self.below(9) {
            0 => list[at] ^= 1 << self.below(32),
            1 => list.truncate(at),
            2 => list.push(list[at]),
            3 => list[at] ^= LAST,
            4 => list[at] = list[at] & !1023 | self.one(&[0, 1, 16, 1023]),
            5 => list[at] &= !(32767 << 10),
            6 => list[at] |= 1 << self.between(27, 31),
            7 => list.swap(at, end),
            _ => {
                list.insert(at, 1024 + self.below(3) as u32);
            }
        }
    }

    /// Numbers of 16 bits: up to a size, few of them, the limits alone, or all but 0 near the front.
    fn any(&mut self, n: usize) -> Vec<i16> {
        let reach = (1i64 << self.below(16)).min(32767);
        match self.below(6) {
            0 => (0..n).map(|_| self.next() as i16).collect(),
            1 => (0..n).map(|_| self.one(&[32767, -32768])).collect(),
            2 => (0..n).map(|_| if self.below(9) == 0 { self.next() as i16 } else { 0 }).collect(),
            3 => (0..n).map(|i| if i < 12 { self.between(-reach, reach) as i16 } else { 0 }).collect(),
            _ => (0..n).map(|_| self.between(-reach, reach) as i16).collect(),
        }
    }

    /// Whether an input is to be wrong: in a faulty call, one of five.
    fn wrong(&mut self, faulty: bool) -> bool {
        faulty && self.below(5) == 0
    }

    /// Puts a residual that is refused at one of the places.
    fn spoil(&mut self, buffer: &mut [i16], places: Range<usize>) {
        let place = places.start + self.below(places.len() as u64) as usize;
        buffer[place] = self.one(&WRONG_RESIDUALS);
    }

    fn unsettle(&mut self, settings: &mut Settings, faulty: bool) {
        if self.wrong(faulty) {
            settings.qp = self.one(&WRONG_QPS);
        }
        if self.wrong(faulty) {
            settings.lambda = self.wrong_lambda();
        }
    }

    /// Makes the buffer longer than the block, or, of a faulty call, shorter: by one, by more, or empty.
    fn lend(&mut self, buffer: &mut Vec<i16>, faulty: bool) {
        let n = buffer.len();
        if self.wrong(faulty) {
            buffer.truncate(self.one(&[n - 1, n - 1, n / 2, 1, 0]));
            return;
        }
        // long enough for side 64 now and then, so that a refused side is not refused by the length
        let surplus = if faulty && self.below(8) == 0 { 6144 } else { self.one(&[0, 1, 3, 40]) };
        buffer.extend((0..surplus).map(|_| self.next() as i16));
    }

    /// Residuals: of the kinds of `residuals`, or such as a label leaves.
    fn picture(&mut self, w: usize, n: usize) -> Vec<i16> {
        match self.below(8) {
            0 => self.text(w, n),
            1 => self.soft_text(w, n),
            2 => self.ramp(w, n),
            3 => self.flat(n),
            _ => self.residuals(n),
        }
    }

    /// The same, held to what the transform accepts: light that falls off over a high block goes beyond.
    pub fn accepted_picture(&mut self, w: usize, n: usize) -> Vec<i16> {
        self.picture(w, n).into_iter().map(|residual| residual.clamp(-1023, 1023)).collect()
    }

    /// One residual everywhere, near a limit or anywhere.
    fn flat(&mut self, n: usize) -> Vec<i16> {
        let value = if self.yes() { self.between(1000, 1023) } else { self.between(0, 1023) };
        vec![self.signed(value as i128); n]
    }

    /// Coefficients of a side: of a transformed picture, of the whole range, few and large, or about one step.
    fn coefficients(&mut self, log2_side: usize) -> Vec<i16> {
        let n = 1usize << (2 * log2_side);
        match self.below(5) {
            0 | 1 => {
                let mut block = self.picture(1 << log2_side, n);
                galemosu::transform(&mut block, log2_side, log2_side).unwrap();
                block
            }
            2 => (0..n).map(|_| self.between(-32767, 32767) as i16).collect(),
            3 => (0..n).map(|_| if self.below(9) == 0 { self.between(-32767, 32767) as i16 } else { 0 }).collect(),
            _ => {
                let reach = 1 << self.below(12);
                (0..n).map(|_| self.between(-reach, reach) as i16).collect()
            }
        }
    }

    /// A lambda that is accepted: 0 of both signs, about its whole numbers 0 and 1, usual, large, the largest, or any.
    fn lambda(&mut self) -> f64 {
        let below_half = f64::from_bits(0.5f64.to_bits() - 1);
        match self.below(9) {
            0 => 0.0,
            1 => -0.0,
            2 => self.one(&[5e-324, f64::MIN_POSITIVE, below_half / 32768.0, 0.5 / 32768.0, 1.0 / 32768.0]),
            3 => self.below(4096) as f64 / 65536.0,
            4 | 5 => self.below(1 << 20) as f64 / 16384.0,
            6 => self.below((1 << 26) + 1) as f64 / 8192.0,
            7 => self.one(&[8192.0, f64::from_bits(8192f64.to_bits() - 1)]),
            _ => f64::from_bits(self.next() >> 2),
        }
    }

    /// A lambda that is refused: a NaN, an infinity, one below 0 or above 8192, barely so and far.
    fn wrong_lambda(&mut self) -> f64 {
        let just_above = f64::from_bits(8192f64.to_bits() + 1);
        let signalling = f64::from_bits(0x7ff0_0000_0000_0001);
        let refused = [
            f64::NAN,
            -f64::NAN,
            signalling,
            f64::INFINITY,
            f64::NEG_INFINITY,
            -5e-324,
            -1.0,
            -8192.0,
            just_above,
            1e300,
        ];
        self.one(&refused)
    }

    /// Cost tables: usual, all equal, extreme, or anything; of a faulty call, perhaps with one entry that is refused.
    fn costs(&mut self, faulty: bool) -> Costs {
        let kind = self.below(4);
        let mut entries = [0u64; 28].map(|_| match kind {
            0 => 4096 + self.below(160_000),
            1 => 32768,
            2 => self.one(&[0, 1, 1_048_576]),
            _ => self.below(1_048_577),
        });
        if self.wrong(faulty) {
            let entry = self.below(28) as usize;
            entries[entry] = self.one(&WRONG_COSTS);
        }
        Costs::from(entries)
    }
}
