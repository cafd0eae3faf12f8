//! Dense linear algebra over GF(2): reduced row echelon form, inverses, the solving of xor packets, contradictions, and bundles of
//! matrices. The work is done by a proved library, linked as an archive; this crate lends it slices and turns its refusals into
//! [`Refusal`].
//!
//! A matrix has no more than 512 rows and 1 to 1,024 columns, and stores each row in [`words`]`(columns)` words of 64 bits, right
//! behind the row above. Word c / 64 of a row has column c as its bit c % 64, counted from the lowest; the bits that the last word
//! has left over must be 0. k, from 1 to 8, is the width of the windows in which columns are worked off: it changes the time and
//! the number of additions told, and nothing else; 7 or 8 is fastest for large matrices.
//!
//! No function asks anything of its arguments: what does not fit is refused, and unless said otherwise a refused call changes
//! nothing. Working room is kept in a [`Room`] that can be used for any number of calls. A function panics only where the archive
//! that was linked has another version than [`VERSION`]: its calls are then not those that this crate knows.
//!
//! ```
//! use chhayublo::{reduce, Room};
//!
//! let mut matrix = [0b11, 0b01]; // the rows 11 and 10, column 0 written first
//! let reduced = reduce(&mut matrix, 2, 2, 2, &mut Room::new())?;
//! assert_eq!(matrix, [0b01, 0b10]);
//! assert_eq!((reduced.rank, reduced.additions, reduced.pivots), (2, 3, vec![0, 1]));
//! # Ok::<(), chhayublo::Refusal>(())
//! ```

pub mod bundle;
mod matrix;
mod packets;
mod refusal;
mod room;
mod sys;

pub use matrix::{invert, reduce, row_view, Reduced};
pub use packets::{contradiction, solve, Solution};
pub use refusal::Refusal;
pub use room::Room;

/// Version of the archive's structs and calls that this crate is written for.
pub const VERSION: u64 = 1;

/// Most rows of a matrix, and most packets.
pub const MAX_ROWS: usize = 512;
/// Most columns of a matrix; at least one is needed.
pub const MAX_COLUMNS: usize = 1024;
/// Widest window; the narrowest is 1.
pub const MAX_K: usize = 8;
/// Most entries of a bundle; at least one is needed.
pub const MAX_ENTRIES: usize = 64;
/// Most bytes of a bundle.
pub const MAX_BUNDLE: usize = 65_535;

/// Words of a row of that many columns.
pub fn words(columns: usize) -> usize {
    columns / 64 + usize::from(columns % 64 != 0)
}
