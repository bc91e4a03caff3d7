//! Blocks to compare and to time with: random ones, extreme ones, and such as a label's strokes leave.

pub struct Random(u64);

#[allow(dead_code)] // each program uses some of them
impl Random {
    pub fn new(seed: u64) -> Random {
        Random(seed | 1)
    }

    pub fn next(&mut self) -> u64 {
        self.0 ^= self.0 << 13;
        self.0 ^= self.0 >> 7;
        self.0 ^= self.0 << 17;
        self.0
    }

    pub fn below(&mut self, n: u64) -> u64 {
        (self.next() >> 11) % n
    }

    pub fn between(&mut self, low: i64, high: i64) -> i64 {
        low + self.below((high - low + 1) as u64) as i64
    }

    pub fn yes(&mut self) -> bool {
        self.below(2) == 1
    }

    pub fn one<T: Copy>(&mut self, of: &[T]) -> T {
        of[self.below(of.len() as u64) as usize]
    }

    pub fn place(&mut self, block: &[i16]) -> usize {
        self.below(block.len() as u64) as usize
    }

    /// A magnitude of either sign.
    pub fn signed(&mut self, magnitude: i128) -> i16 {
        if self.yes() {
            magnitude as i16
        } else {
            -magnitude as i16
        }
    }

    /// n accepted residuals: the whole range, small ones, the two limits, or mostly zeros.
    pub fn residuals(&mut self, n: usize) -> Vec<i16> {
        let kind = self.below(4);
        (0..n)
            .map(|_| match kind {
                0 => self.between(-1023, 1023) as i16,
                1 => self.between(-20, 20) as i16,
                2 => {
                    if self.below(2) == 0 {
                        1023
                    } else {
                        -1023
                    }
                }
                _ => {
                    if self.below(12) == 0 {
                        self.between(-1023, 1023) as i16
                    } else {
                        0
                    }
                }
            })
            .collect()
    }

    /// A part of a label under a flat prediction: dark strokes on light ground, w wide.
    pub fn text(&mut self, w: usize, n: usize) -> Vec<i16> {
        let (pitch, width, ink) =
            (4 + self.below(6) as usize, 1 + self.below(3) as usize, 300 + self.below(500) as i16);
        (0..n)
            .map(|i| {
                let (x, y) = (i % w, i / w);
                let stroke = (x + y / 3) % pitch < width || y % (2 * pitch) < width;
                (if stroke { -ink } else { ink / 4 }) + self.between(-6, 6) as i16
            })
            .collect()
    }

    /// The same strokes out of focus: each sample the mean of a square of nine.
    pub fn soft_text(&mut self, w: usize, n: usize) -> Vec<i16> {
        let (sharp, h) = (self.text(w, n), n / w);
        (0..n)
            .map(|i| {
                let (x, y) = (i % w, i / w);
                let around = |v: usize, most: usize| [v.saturating_sub(1), v, (v + 1).min(most - 1)];
                let sum: i32 = around(y, h).iter().flat_map(|b| around(x, w).map(|a| sharp[b * w + a] as i32)).sum();
                (sum / 9 / 2) as i16
            })
            .collect()
    }

    /// Light that falls off over the block.
    pub fn ramp(&mut self, w: usize, n: usize) -> Vec<i16> {
        let slope = 20 + self.below(60) as i64;
        (0..n)
            .map(|i| ((i % w + i / w) as i64 * slope * 8 / w as i64 - slope * 8 + self.between(-2, 2)) as i16)
            .collect()
    }

    /// A blank part of a label: noise alone.
    pub fn blank(&mut self, n: usize) -> Vec<i16> {
        (0..n).map(|_| self.between(-2, 2) as i16).collect()
    }
}
