//! Scaling back and the inverse by the formulas of document 02's ticket 6, as they stand there: each level by itself,
//! each sample by its own double sum, in numbers wide enough for all of it. Slow and plain: it is there to be held
//! against the text.

use crate::matrix::matrix;

/// "level × s × 2^(QP/6), plus 2^l, shifted right by 1+l", before it is clipped.
pub fn scaled_back(level: i16, log2_side: usize, qp: u32) -> i64 {
    (product(level, qp) + (1 << log2_side)) >> (1 + log2_side)
}

/// Whether that lies halfway between two whole numbers before it is rounded.
pub fn is_halfway(level: i16, log2_side: usize, qp: u32) -> bool {
    product(level, qp).rem_euclid(2 << log2_side) == 1 << log2_side
}

fn product(level: i16, qp: u32) -> i64 {
    let s = [40, 45, 51, 57, 64, 72][qp as usize % 6];
    i64::from(level) * s * 2i64.pow(qp / 6)
}

pub fn clipped(value: i64) -> i16 {
    value.clamp(-32768, 32767) as i16
}

/// The double sums of a shape.
pub struct Sums {
    w: usize,
    h: usize,
    /// T_w[u][x] at x·w + u, and T_h[v][y] at y·h + v
    along: Vec<i64>,
    down: Vec<i64>,
}

impl Sums {
    pub fn new(log2_w: usize, log2_h: usize) -> Sums {
        let turned =
            |log2: usize| (0..1usize << (2 * log2)).map(|i| matrix(log2, i % (1 << log2), i >> log2)).collect();
        Sums { w: 1 << log2_w, h: 1 << log2_h, along: turned(log2_w), down: turned(log2_h) }
    }

    /// "the sum over v, u of T_h[v][y]·T_w[u][x]·coefficient"
    pub fn at(&self, coefficients: &[i16], y: usize, x: usize) -> i64 {
        let (along, down) = (&self.along[x * self.w..][..self.w], &self.down[y * self.h..][..self.h]);
        let mut sum = 0;
        for (t_h, row) in down.iter().zip(coefficients.chunks(self.w)) {
            for (t_w, coefficient) in along.iter().zip(row) {
                sum += t_h * t_w * i64::from(*coefficient);
            }
        }
        sum
    }

    /// The sums of all samples, by rows.
    pub fn all(&self, coefficients: &[i16]) -> Vec<i64> {
        (0..self.w * self.h).map(|i| self.at(coefficients, i / self.w, i % self.w)).collect()
    }

    /// T_h[v][y]·T_w[u][x], what coefficient (v, u) counts in sample (y, x).
    pub fn weight(&self, place: usize, sample: usize) -> i64 {
        let ((v, u), (y, x)) = ((place / self.w, place % self.w), (sample / self.w, sample % self.w));
        self.down[y * self.h + v] * self.along[x * self.w + u]
    }
}

/// "plus 2^16, shifted right by 17", before it is clipped.
pub fn rounded(sum: i64) -> i64 {
    (sum + (1 << 16)) >> 17
}
