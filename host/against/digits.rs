//! Blocks of drawn digits: seven bars on grained paper, over an even guess or over one that has another digit.

use crate::blocks::Random;

/// What the recorder guesses: paper everywhere, or what another digit left there.
#[allow(dead_code)] // each program uses some of them
#[derive(Clone, Copy)]
pub enum Guess {
    Even,
    Another,
}

/// One block of a digit: its residuals, its contrast, and which samples are paper two or more from any ink.
pub struct Digit {
    pub residuals: Vec<i16>,
    #[allow(dead_code)]
    pub contrast: i64,
    #[allow(dead_code)]
    pub paper: Vec<bool>,
}

/// A digit of seven bars, some 15 samples wide and 24 high, in an area of 32×32: where its ink is.
fn digit(random: &mut Random) -> Vec<bool> {
    // top, upper left, upper right, middle, lower left, lower right, bottom, of 0 to 9
    const BARS: [u8; 10] =
        [0b1110111, 0b0010010, 0b1011101, 0b1011011, 0b0111010, 0b1101011, 0b1101111, 0b1010010, 0b1111111, 0b1111011];
    let bars = BARS[random.between(0, 9) as usize];
    let (width, x, y) = (random.between(2, 4), random.between(4, 12), random.between(2, 6));
    let (right, middle, bottom) = (x + random.between(11, 15), y + random.between(9, 13), y + random.between(20, 25));
    let boxes = [
        (x, y, right, y + width),
        (x, y, x + width, middle),
        (right - width, y, right, middle),
        (x, middle, right, middle + width),
        (x, middle, x + width, bottom),
        (right - width, middle, right, bottom),
        (x, bottom - width, right, bottom),
    ];
    let drawn: Vec<_> = (0..7).filter(|k| bars >> (6 - k) & 1 == 1).map(|k| boxes[k as usize]).collect();
    let inked = |i: i64| drawn.iter().any(|(l, t, r, b)| (*l..*r).contains(&(i % 32)) && (*t..*b).contains(&(i / 32)));
    (0..1024).map(inked).collect()
}

impl Digit {
    /// A block that has ink and paper far from it.
    pub fn drawn(random: &mut Random, log2: usize, guess: Guess) -> Digit {
        let (side, ink, contrast) = (1i64 << log2, digit(random), random.between(600, 700));
        let has_ink = |x: i64, y: i64| (0..32).contains(&x) && (0..32).contains(&y) && ink[(y * 32 + x) as usize];
        let (left, top) = (random.between(0, 32 / side - 1) * side, random.between(0, 32 / side - 1) * side);
        let places: Vec<(i64, i64)> = (0..side * side).map(|i| (left + i % side, top + i / side)).collect();
        let far = |x: i64, y: i64| (-1..=1).all(|dx| (-1..=1).all(|dy| !has_ink(x + dx, y + dy)));
        let paper: Vec<bool> = places.iter().map(|(x, y)| far(*x, *y)).collect();
        if !places.iter().any(|(x, y)| has_ink(*x, *y)) || !paper.contains(&true) {
            return Digit::drawn(random, log2, guess);
        }
        let guessed = match guess {
            Guess::Even => vec![false; 1024],
            Guess::Another => digit(random),
        };
        let residual = |(x, y): &(i64, i64)| {
            let seen = if has_ink(*x, *y) { -contrast } else { 0 } + random.between(-12, 12);
            (seen + if guessed[(y * 32 + x) as usize] { contrast } else { 0 }) as i16
        };
        Digit { residuals: places.iter().map(residual).collect(), contrast, paper }
    }
}
