use crate::refusal::check;
use crate::{sys, words, Refusal, Room, MAX_COLUMNS, MAX_ROWS};

/// What solving tells of the blocks.
#[derive(Clone, Debug, PartialEq, Eq)]
pub struct Solution {
    /// Number of known blocks.
    pub known: usize,
    /// The blocks one after the other, each in whole words; zeros for a block that is not known.
    pub image: Vec<u64>,
    /// For each block whether it is known: whether all images that meet the packets agree on it.
    pub marks: Vec<bool>,
    /// Rank of the packets.
    pub rank: usize,
    /// Sum, over the windows of k columns, of 2^(pivots in the window) - 1.
    pub additions: usize,
    /// The pivot columns of the reduced packets, rising.
    pub pivots: Vec<u16>,
}

impl Solution {
    /// The content of block b, if it is known.
    pub fn block(&self, b: usize) -> Option<&[u64]> {
        let width = self.image.len().checked_div(self.marks.len())?;
        self.marks.get(b)?.then(|| &self.image[b * width..(b + 1) * width])
    }
}

/// Solves a list of packets: rows of n coefficients and then columns - n payload bits. The packets are reduced in place.
/// Refusals in order: 1, 2, 7, 3, 4, 5, 10; with 10, where no image meets all packets, they hold their reduced form too.
///
/// ```
/// use chhayublo::{solve, Refusal, Room};
///
/// let mut room = Room::new();
/// let mut packets = [0b01_011, 0b01_011, 0b11_100]; // 110|10, 110|10, 001|11: three blocks of two bits
/// let solution = solve(&mut packets, 3, 5, 3, 4, &mut room)?;
/// assert_eq!(solution.marks, [false, false, true]);
/// assert_eq!((solution.block(1), solution.block(2)), (None, Some(&[0b11][..])));
///
/// let mut packets = [0b01_011, 0b11_011]; // 110|10, 110|11
/// assert_eq!(solve(&mut packets, 2, 5, 3, 4, &mut room), Err(Refusal::Contradictory));
/// # Ok::<(), Refusal>(())
/// ```
pub fn solve(packets: &mut [u64], rows: usize, columns: usize, n: usize, k: usize, room: &mut Room) -> Result<Solution, Refusal> {
    // numbers out of range are refused before image and marks are looked at
    let blocks = if n < columns && columns <= MAX_COLUMNS { n } else { 0 };
    let mut image = vec![0; blocks * words(columns.saturating_sub(n))];
    let mut marks = vec![0; blocks];
    let answer = sys::solve(packets, rows, columns, n, k, &mut image, &mut marks, room.table(0, columns, k));
    check(answer.refusal)?;
    Ok(Solution {
        known: answer.known,
        image,
        marks: marks.iter().map(|&mark| mark == 1).collect(),
        rank: answer.rank,
        additions: answer.additions,
        pivots: answer.pivots[..answer.rank].to_vec(),
    })
}

/// The numbers, from 0, of packets that contradict each other: the xor of their coefficients is zero, that of their payloads is
/// not. Nothing if some image meets all packets. It goes by the packets as given, so ask before they are reduced.
/// Refusals in order: 1, 2, 7, 11, 3, 4, 5.
///
/// ```
/// use chhayublo::{contradiction, Room};
///
/// let packets = [0b01_011, 0b10_110, 0b01_101]; // 110|10, 011|01, 101|10
/// assert_eq!(contradiction(&packets, 3, 5, 3, 4, &mut Room::new())?, Some(vec![0, 1, 2]));
/// assert_eq!(contradiction(&packets[..2], 2, 5, 3, 4, &mut Room::new())?, None);
/// # Ok::<(), chhayublo::Refusal>(())
/// ```
pub fn contradiction(
    packets: &[u64],
    rows: usize,
    columns: usize,
    n: usize,
    k: usize,
    room: &mut Room,
) -> Result<Option<Vec<usize>>, Refusal> {
    let mut names = vec![0; words(rows.min(MAX_ROWS))];
    let answer = sys::contradiction(packets, rows, columns, n, k, &mut names, room.table(rows, columns.saturating_add(rows), k));
    check(answer.refusal)?;
    let named = |i: &usize| names[i / 64] >> (i % 64) & 1 == 1;
    Ok((answer.named == 1).then(|| (0..rows).filter(named).collect()))
}
