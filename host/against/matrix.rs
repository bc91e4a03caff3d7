//! The matrices by document 01's rule.

/// c(0) to c(31): the first column of T_32.
const FIRST_COLUMN: [i64; 32] = [
    64, 90, 90, 90, 89, 88, 87, 85, 84, 82, 80, 78, 75, 73, 70, 67, 64, 61, 57, 54, 50, 47, 43, 39, 35, 30, 26, 22, 18,
    13, 9, 4,
];

/// T_N[k][n] of N = 2^log2.
pub fn matrix(log2: usize, k: usize, n: usize) -> i64 {
    let k = k << (5 - log2);
    if k == 0 {
        return 64;
    }
    let a = (2 * n + 1) * k % 128;
    let a = if a > 64 { 128 - a } else { a };
    if a < 32 {
        FIRST_COLUMN[a]
    } else {
        -FIRST_COLUMN[64 - a]
    }
}
