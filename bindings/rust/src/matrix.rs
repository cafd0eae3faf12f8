use crate::refusal::check;
use crate::{sys, Refusal, Room};

/// What a reduction tells.
#[derive(Clone, Debug, PartialEq, Eq)]
pub struct Reduced {
    /// Number of rows that are not zero.
    pub rank: usize,
    /// Sum, over the windows of k columns, of 2^(pivots in the window) - 1.
    pub additions: usize,
    /// The pivot columns, rising: one for each row that is not zero.
    pub pivots: Vec<u16>,
}

/// The words of row i; nothing if the matrix does not have that shape, or not that row. Padding is not looked at.
///
/// ```
/// let matrix = [1, 2, 3, 4];
/// assert_eq!(chhayublo::row_view(&matrix, 2, 65, 1), Some(&matrix[2..]));
/// assert_eq!(chhayublo::row_view(&matrix, 2, 65, 2), None);
/// ```
pub fn row_view(matrix: &[u64], rows: usize, columns: usize, i: usize) -> Option<&[u64]> {
    let row = sys::row_view(matrix, rows, columns, i);
    (row.words > 0).then(|| &matrix[row.start..row.start + row.words])
}

/// Brings the matrix into its reduced row echelon form, in place: zero rows last, each pivot right of the one above and alone in
/// its column. Refusals in order: 1, 2, 3, 4, 5.
pub fn reduce(matrix: &mut [u64], rows: usize, columns: usize, k: usize, room: &mut Room) -> Result<Reduced, Refusal> {
    let answer = sys::reduce(matrix, rows, columns, k, room.table(0, columns, k));
    check(answer.refusal)?;
    Ok(Reduced { rank: answer.rank, additions: answer.additions, pivots: answer.pivots[..answer.rank].to_vec() })
}

/// The inverse of a square matrix. Refusals in order: 1, 2, 8, 3, 4, 5, 9.
///
/// ```
/// use chhayublo::{invert, Refusal, Room};
///
/// let mut room = Room::new();
/// assert_eq!(invert(&[0b011, 0b110, 0b100], 3, 3, 4, &mut room), Ok(vec![0b111, 0b110, 0b100]));
/// assert_eq!(invert(&[0b011, 0b110, 0b101], 3, 3, 4, &mut room), Err(Refusal::NoInverse));
/// ```
pub fn invert(matrix: &[u64], rows: usize, columns: usize, k: usize, room: &mut Room) -> Result<Vec<u64>, Refusal> {
    let mut result = vec![0; matrix.len()];
    check(sys::invert(matrix, rows, columns, k, &mut result, room.table(rows, rows.saturating_mul(2), k)))?;
    Ok(result)
}
