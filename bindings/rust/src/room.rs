use crate::{words, MAX_COLUMNS, MAX_K, MAX_ROWS};
use std::fmt;

/// Working room that grows as calls need it and is kept between them.
#[derive(Default)]
pub struct Room(Vec<u64>);

impl Room {
    pub fn new() -> Room {
        Room::default()
    }

    /// a table of 2^k rows, and some rows beside it; empty where the numbers are out of range, since the call then refuses them
    /// before it looks at the room
    pub(crate) fn table(&mut self, rows: usize, columns: usize, k: usize) -> &mut [u64] {
        let fits = rows <= MAX_ROWS && columns <= MAX_COLUMNS && k <= MAX_K;
        let needed = if fits { (rows + (1 << k)) * words(columns) } else { 0 };
        if self.0.len() < needed {
            self.0.resize(needed, 0);
        }
        &mut self.0[..needed]
    }
}

/// Tells how many words it has, not what they hold: between calls they are of no use.
impl fmt::Debug for Room {
    fn fmt(&self, f: &mut fmt::Formatter) -> fmt::Result {
        f.debug_struct("Room").field("words", &self.0.len()).finish()
    }
}
