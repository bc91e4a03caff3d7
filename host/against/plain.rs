//! The way back as it is written down without further thought: what the library's calls are timed beside. The inverse
//! in two stages over whole rows, in 64 bits, with the matrices in tables.

use crate::matrix::matrix;

pub struct Inverse {
    w: usize,
    h: usize,
    /// T_w[u][x] at u·w + x, and T_h[v][y] at y·h + v
    along: Vec<i64>,
    down: Vec<i64>,
    /// room for what the first stage leaves
    columns: Vec<i64>,
}

impl Inverse {
    pub fn new(log2_w: usize, log2_h: usize) -> Inverse {
        let (w, h) = (1 << log2_w, 1 << log2_h);
        Inverse {
            w,
            h,
            along: (0..w * w).map(|i| matrix(log2_w, i / w, i % w)).collect(),
            down: (0..h * h).map(|i| matrix(log2_h, i % h, i / h)).collect(),
            columns: vec![0; w * h],
        }
    }

    pub fn run(&mut self, block: &mut [i16]) {
        self.columns.fill(0);
        for (row, down) in self.columns.chunks_exact_mut(self.w).zip(self.down.chunks_exact(self.h)) {
            for (t, coefficients) in down.iter().zip(block.chunks_exact(self.w)) {
                for (sum, coefficient) in row.iter_mut().zip(coefficients) {
                    *sum += t * i64::from(*coefficient);
                }
            }
        }
        for (row, columns) in block.chunks_exact_mut(self.w).zip(self.columns.chunks_exact(self.w)) {
            let mut sums = [0i64; 32];
            for (column, along) in columns.iter().zip(self.along.chunks_exact(self.w)) {
                for (sum, t) in sums.iter_mut().zip(along) {
                    *sum += t * column;
                }
            }
            for (residual, sum) in row.iter_mut().zip(sums) {
                *residual = ((sum + (1 << 16)) >> 17).clamp(-32768, 32767) as i16;
            }
        }
    }
}

pub fn scale_back(block: &mut [i16], log2_side: usize, qp: u32) {
    let scale = [40i64, 45, 51, 57, 64, 72][qp as usize % 6] << (qp / 6);
    for level in block {
        *level = ((i64::from(*level) * scale + (1 << log2_side)) >> (1 + log2_side)).clamp(-32768, 32767) as i16;
    }
}
