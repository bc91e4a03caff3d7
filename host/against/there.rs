//! The transform and then the inverse, without a quantiser between them: how far a sample may be off. At 2×2 it must
//! come back exactly. Of the other shapes the largest difference is printed: of random accepted blocks, of blocks
//! looked for, and the most that roundings and the matrices' products allow, added up without regard to whether they
//! can meet.

use crate::back::SHAPES;
use crate::blocks::Random;
use crate::formula::{rounded, Sums};
use crate::matrix::matrix;

/// Steps of a search, and how many samples of a shape are searched for.
const STEPS: usize = 60_000;
const SAMPLES: usize = 2;

/// So many accepted blocks of all shapes in turn, and a search for each; whether all that must come back has.
pub fn compare(accepted: u64) -> bool {
    let (mut random, mut most, mut exact) = (Random::new(6_022_026), [0; 25], [0u64; 25]);
    for turn in 0..accepted {
        let shape = turn as usize % 25;
        let (log2_w, log2_h) = SHAPES[shape];
        let residuals = random.accepted_picture(1 << log2_w, 1 << (log2_w + log2_h));
        let off = off(&residuals, log2_w, log2_h);
        most[shape] = most[shape].max(off);
        exact[shape] += u64::from(off == 0);
    }
    println!("there and back: {accepted} accepted blocks; by how much a sample is off at most:");
    println!("    | sides | random blocks | of these exact | searched | no more than |");
    println!("    |---|---|---|---|---|");
    let mut good = true;
    for (shape, (log2_w, log2_h)) in SHAPES.into_iter().enumerate() {
        let place = Search::new(log2_w, log2_h);
        let limit = place.limit();
        let searched = place.found(&mut random);
        let percent = 100.0 * exact[shape] as f64 / (accepted / 25).max(1) as f64;
        let (w, h) = (1 << log2_w, 1 << log2_h);
        println!("    | {w}×{h} | {} | {percent:.0} % | {searched} | {limit} |", most[shape]);
        if searched.max(most[shape]) > limit || shape == 0 && limit != 0 {
            println!("DIFFERENT: {w}×{h} does not come back as it must");
            good = false;
        }
    }
    good
}

/// By how much the largest sample of a block is off behind both calls.
fn off(residuals: &[i16], log2_w: usize, log2_h: usize) -> i64 {
    let mut block = residuals.to_vec();
    galemosu::transform(&mut block, log2_w, log2_h).expect("an accepted block");
    galemosu::inverse(&mut block, log2_w, log2_h).expect("its coefficients");
    let off = |(restored, true_): (&i16, &i16)| (i64::from(*restored) - i64::from(*true_)).abs();
    block.iter().zip(residuals).map(off).max().unwrap_or(0)
}

/// What a search for blocks of a shape goes by. The sum of a sample is 2^17 times its residual where nothing is
/// rounded and the matrices are orthogonal; `shift` is the transform's.
struct Search {
    log2_w: usize,
    log2_h: usize,
    shift: usize,
    sums: Sums,
    /// For two places along a row, and down a column: the product of their columns of the matrix.
    along: Vec<i64>,
    down: Vec<i64>,
}

impl Search {
    fn new(log2_w: usize, log2_h: usize) -> Search {
        let products = |log2: usize| {
            let product = |i: usize, j: usize| (0..1 << log2).map(|k| matrix(log2, k, i) * matrix(log2, k, j)).sum();
            (0..1usize << (2 * log2)).map(|i| product(i >> log2, i % (1 << log2))).collect()
        };
        let (along, down) = (products(log2_w), products(log2_h));
        Search { log2_w, log2_h, shift: 7 + log2_w + log2_h, sums: Sums::new(log2_w, log2_h), along, down }
    }

    fn places(&self) -> usize {
        1 << (self.log2_w + self.log2_h)
    }

    /// What a residual adds to the sum of a sample in which it has no part, 2^shift times as large, or, of its own,
    /// what it adds too much.
    fn leak(&self, sample: usize, from: usize) -> i64 {
        let (w, h) = (1 << self.log2_w, 1 << self.log2_h);
        let along = self.along[(sample % w) * w + from % w];
        let own = if sample == from { 1i64 << (17 + self.shift) } else { 0 };
        self.down[(sample / w) * h + from / w] * along - own
    }

    /// The most that a sum can be off by: all residuals at their limits, all coefficients rounded by half.
    fn most(&self, sample: usize) -> i64 {
        let leaks: i64 = (0..self.places()).map(|from| self.leak(sample, from).abs()).sum();
        let weights: i64 = (0..self.places()).map(|place| self.sums.weight(place, sample).abs()).sum();
        ((1023 * leaks) >> self.shift) + 1 + weights / 2
    }

    fn limit(&self) -> i64 {
        (0..self.places()).map(|sample| rounded(self.most(sample))).max().unwrap_or(0)
    }

    /// The largest difference of the blocks found.
    fn found(&self, random: &mut Random) -> i64 {
        let mut samples: Vec<usize> = (0..self.places()).collect();
        samples.sort_by_key(|sample| -self.most(*sample));
        samples.truncate(SAMPLES);
        let block_of = |sample: usize| off(&self.climbed(random, sample), self.log2_w, self.log2_h);
        samples.into_iter().map(block_of).max().unwrap_or(0)
    }

    /// A block that has a sample far off: all residuals near their limits, with the signs that add up; then one
    /// residual after the other is changed, and the change kept where the sum is no nearer to what it should be.
    fn climbed(&self, random: &mut Random, sample: usize) -> Vec<i16> {
        let n = self.places();
        let first = |from: usize| {
            let near = random.between(1015, 1023);
            if self.leak(sample, from) < 0 {
                -near
            } else {
                near
            }
        };
        let mut residuals: Vec<i64> = (0..n).map(first).collect();
        let patterns: Vec<Vec<i64>> =
            (0..n).map(|from| (0..n).map(|place| self.sums.weight(place, from)).collect()).collect();
        let mut exact = vec![0; n];
        for (residual, pattern) in residuals.iter().zip(&patterns) {
            exact.iter_mut().zip(pattern).for_each(|(sum, weight)| *sum += residual * weight);
        }
        let mut best = i64::MIN;
        for step in 0..STEPS {
            let from = random.below(n as u64) as usize;
            let reach = random.one(&[1, 2, 8, 64]);
            let to = (residuals[from] + random.between(-reach, reach)).clamp(-1023, 1023);
            let change = if step == 0 { 0 } else { to - residuals[from] };
            let off = self.sum_of(&exact, &patterns[from], change, &patterns[sample])
                - ((residuals[sample] + if from == sample { change } else { 0 }) << 17);
            if off >= best {
                best = off;
                residuals[from] += change;
                exact.iter_mut().zip(&patterns[from]).for_each(|(sum, weight)| *sum += change * weight);
            }
        }
        residuals.into_iter().map(|residual| residual as i16).collect()
    }

    /// The sum of a sample, of the coefficients of sums to which so many times a pattern has been added.
    fn sum_of(&self, exact: &[i64], pattern: &[i64], change: i64, weights: &[i64]) -> i64 {
        let half = 1 << (self.shift - 1);
        let coefficients = exact.iter().zip(pattern).map(|(sum, weight)| (sum + change * weight + half) >> self.shift);
        coefficients.zip(weights).map(|(coefficient, weight)| coefficient * weight).sum()
    }
}
