//! Document 01 worked out apart from the library: the transform as the sum that defines it; of the quantiser the skip,
//! the faults 7 to 9, the levels and what they cost, in 128-bit whole numbers. Slow and plain: it is there to be held
//! against the text.

use crate::matrix::matrix;
use crate::scan::scan;
use galemosu::{Component, Costs};

const SCALES: [i128; 6] = [26214, 23302, 20560, 18396, 16384, 14564];

/// The coefficients of residuals 2^log2_w wide and 2^log2_h high.
pub fn transform(residuals: &[i16], log2_w: usize, log2_h: usize) -> Vec<i16> {
    let (w, h, shift) = (1usize << log2_w, 1usize << log2_h, 7 + log2_w + log2_h);
    let rows: Vec<i64> = (0..w).flat_map(|u| (0..w).map(move |x| matrix(log2_w, u, x))).collect();
    let columns: Vec<i64> = (0..h).flat_map(|v| (0..h).map(move |y| matrix(log2_h, v, y))).collect();
    // along the rows: entry (y, u)
    let mut along = vec![0i64; w * h];
    for (i, sum) in along.iter_mut().enumerate() {
        let (y, u) = (i / w, i % w);
        *sum = (0..w).map(|x| rows[u * w + x] * residuals[y * w + x] as i64).sum();
    }
    let coefficient = |i: usize| {
        let (v, u) = (i / w, i % w);
        let sum: i64 = (0..h).map(|y| columns[v * h + y] * along[y * w + u]).sum();
        ((sum + (1 << (shift - 1))) >> shift) as i16
    };
    (0..w * h).map(coefficient).collect()
}

/// Lambda's whole number, of a lambda that is not refused.
pub fn whole(lambda: f64) -> i128 {
    (lambda * 32768.0 + 0.5) as i128
}

/// A block that the quantiser is given, and that has passed refusals 1 to 6.
pub struct Block<'a> {
    pub coefficients: &'a [i16],
    pub log2_side: usize,
    pub component: Component,
    pub qp: u32,
    pub lambda: f64,
    pub intra_slice: bool,
    pub intra_coded: bool,
    pub costs: &'a Costs,
}

impl Block<'_> {
    pub fn q(&self) -> i128 {
        SCALES[self.qp as usize % 6]
    }

    pub fn bits(&self) -> u32 {
        19 - self.log2_side as u32 + self.qp / 6
    }

    fn scaled(&self, coefficient: i16) -> i128 {
        (coefficient as i128).abs() * self.q()
    }

    /// m, of a coefficient.
    pub fn rounded(&self, coefficient: i16) -> i128 {
        (self.scaled(coefficient) + (1 << (self.bits() - 1))) >> self.bits()
    }

    /// The squared error of a coefficient coded as magnitude a.
    pub fn square(&self, coefficient: i16, a: i128) -> i128 {
        let scale = (1i128 << (28 + self.log2_side)) / self.q();
        let error = ((self.scaled(coefficient) - (a << self.bits())) * scale) >> 20;
        error * error
    }

    /// What a scaled coefficient must reach for the block to be walked.
    pub fn threshold(&self) -> i128 {
        let offset = if self.intra_slice { 201 } else { 153 };
        (1i128 << self.bits()) - (offset << (self.bits() - 9))
    }

    pub fn skipped(&self) -> bool {
        self.coefficients.iter().all(|c| self.scaled(*c) < self.threshold())
    }

    /// M, the largest rounded magnitude.
    fn most(&self) -> i128 {
        self.coefficients.iter().map(|c| self.rounded(*c)).max().unwrap()
    }

    /// D, the squares of the block left uncoded.
    pub fn uncoded(&self) -> i128 {
        self.coefficients.iter().map(|c| self.square(*c, 0)).sum()
    }

    /// The faults 7, 8 and 9.
    pub fn level_fault(&self) -> bool {
        !self.skipped() && self.most() > 32767
    }

    pub fn price_fault(&self) -> bool {
        !self.skipped() && whole(self.lambda) * (self.most() + 1) > 1 << 41
    }

    pub fn distortion_fault(&self) -> bool {
        !self.skipped() && self.uncoded() > 1 << 60
    }

    fn rate(&self, after_zero: bool, a: i128) -> i128 {
        let first = if self.component == Component::Y { 0 } else { 2 };
        let run = first + after_zero as usize;
        let entry = |pair: &[u64; 2], i: usize| pair[i] as i128;
        let (run, level, rest) = (&self.costs.run[run], &self.costs.level[first], &self.costs.level[first + 1]);
        match a {
            0 => entry(run, 1),
            1 => 32768 + entry(run, 0) + entry(level, 0),
            _ => 32768 + entry(run, 0) + entry(level, 1) + (a - 2) * entry(rest, 1) + entry(rest, 0),
        }
    }

    /// The largest rate that the choice of a level looks at.
    pub fn widest_rate(&self) -> i128 {
        self.rate(false, self.most()).max(self.rate(true, self.most()))
    }

    /// What the flag of a coded block costs, or that of an empty one.
    pub fn cbf(&self, coded: usize) -> i128 {
        let pair = match self.component {
            Component::Y if self.intra_coded => self.costs.cbf_luma,
            Component::Y => self.costs.cbf_all,
            Component::U => self.costs.cbf_cb,
            Component::V => self.costs.cbf_cr,
        };
        whole(self.lambda) * pair[coded] as i128
    }

    /// What the flag behind a nonzero level costs, of the last one or another.
    pub fn last(&self, ends: usize) -> i128 {
        let row = if self.component == Component::Y { 0 } else { 1 };
        whole(self.lambda) * self.costs.last[row][ends] as i128
    }

    /// What a magnitude costs at a place.
    pub fn cost(&self, place: usize, after_zero: bool, a: i128) -> i128 {
        self.square(self.coefficients[place], a) + whole(self.lambda) * self.rate(after_zero, a)
    }

    /// The levels: the walk, cut where its price is least, the earliest of equals; all 0 where that or the skip is
    /// cheaper.
    pub fn levels(&self) -> Vec<i16> {
        let mut levels = vec![0i16; self.coefficients.len()];
        if self.skipped() {
            return levels;
        }
        let places = scan(1 << self.log2_side);
        let (mut spent, mut rest) = (self.cbf(1), self.uncoded());
        let (mut least, mut kept, mut after_zero) = (rest + self.cbf(0), 0, false);
        for (i, place) in places.iter().enumerate() {
            let m = self.rounded(self.coefficients[*place]);
            let allowed = if m >= 2 { vec![0, m, m - 1] } else { vec![0, m] };
            // the first of equals
            let a = allowed.into_iter().min_by_key(|a| self.cost(*place, after_zero, *a)).unwrap();
            spent += self.cost(*place, after_zero, a);
            rest -= self.square(self.coefficients[*place], 0);
            if a != 0 {
                if spent + rest + self.last(1) < least {
                    (least, kept) = (spent + rest + self.last(1), i + 1);
                }
                spent += self.last(0);
            }
            levels[*place] = if self.coefficients[*place] < 0 { -a as i16 } else { a as i16 };
            after_zero = a == 0;
        }
        places[kept..].iter().for_each(|place| levels[*place] = 0);
        levels
    }

    /// The price of finished levels, whatever chose them.
    pub fn price(&self, levels: &[i16]) -> i128 {
        let places = scan(1 << self.log2_side);
        let Some(end) = places.iter().rposition(|p| levels[*p] != 0) else {
            return self.uncoded() + self.cbf(0);
        };
        let (mut price, mut after_zero) = (self.cbf(1), false);
        for p in &places[..=end] {
            price += self.cost(*p, after_zero, (levels[*p] as i128).abs());
            if levels[*p] != 0 {
                price += self.last((*p == places[end]) as usize);
            }
            after_zero = levels[*p] == 0;
        }
        price + places[end + 1..].iter().map(|p| self.square(self.coefficients[*p], 0)).sum::<i128>()
    }
}
