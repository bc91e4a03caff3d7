//! The scan, by document 01's rule.

/// The places of a block in scan order: diagonals from the top left, the even ones from left to right, the odd ones
/// from right to left.
pub fn scan(side: usize) -> Vec<usize> {
    let mut places = Vec::new();
    for d in 0..2 * side - 1 {
        let mut columns: Vec<usize> = (0..side).filter(|x| d >= *x && d - x < side).collect();
        if d % 2 == 1 {
            columns.reverse();
        }
        places.extend(columns.iter().map(|x| (d - x) * side + x));
    }
    places
}
