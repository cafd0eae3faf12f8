//! Bundles: 1 to 64 matrices in at most 65,535 bytes. Words that are lent or given are in the order of kind 1, whatever the kind
//! of an entry.
//!
//! ```
//! use chhayublo::bundle::{self, Entry};
//!
//! let entries = [Entry { kind: 1, rows: 2, columns: 2 }, Entry { kind: 2, rows: 1, columns: 65 }];
//! let bytes = bundle::write(&entries, &[0b11, 0b01, 5, 1])?;
//! assert_eq!((bytes.len(), bundle::count(&bytes)?), (54, 2));
//! assert_eq!(bundle::entry(&bytes, 1)?, entries[1]);
//! assert_eq!(bundle::unpack(&bytes, 1)?, (entries[1], vec![5, 1]));
//! # Ok::<(), chhayublo::Refusal>(())
//! ```

use crate::refusal::check;
use crate::{sys, words, Refusal, MAX_BUNDLE};

/// The numbers of an entry; kind is 1 or 2, the order in which its bits are stored.
#[derive(Clone, Copy, Debug, PartialEq, Eq)]
pub struct Entry {
    pub kind: u16,
    pub rows: u16,
    pub columns: u16,
}

fn told(entry: sys::Entry) -> Result<Entry, Refusal> {
    check(entry.refusal)?;
    Ok(Entry { kind: entry.kind as u16, rows: entry.rows as u16, columns: entry.columns as u16 })
}

/// How many entries the bundle has. Refusals in order: 20, 21, 22; for each entry 23, 24, 25, 26, 5; then 27.
pub fn count(bytes: &[u8]) -> Result<usize, Refusal> {
    let count = sys::bundle_read(bytes);
    check(count.refusal)?;
    Ok(count.entries)
}

/// The numbers of entry i, from 0. Refusals: those of [`count`], then 12.
pub fn entry(bytes: &[u8], i: usize) -> Result<Entry, Refusal> {
    told(sys::bundle_entry(bytes, i))
}

/// The numbers of entry i and its words. Refusals: those of [`entry`].
pub fn unpack(bytes: &[u8], i: usize) -> Result<(Entry, Vec<u64>), Refusal> {
    let shape = entry(bytes, i)?;
    let mut list = vec![0; usize::from(shape.rows) * words(shape.columns.into())];
    let entry = told(sys::bundle_unpack(bytes, i, &mut list))?;
    Ok((entry, list))
}

/// A bundle of the entries given, whose words follow each other in `words`. Refusals in order: 21; for each entry 23, 24; 4 (the
/// words of all entries together); 5; 29.
pub fn write(entries: &[Entry], words: &[u64]) -> Result<Vec<u8>, Refusal> {
    let kinds: Vec<u16> = entries.iter().map(|entry| entry.kind).collect();
    let rows: Vec<u16> = entries.iter().map(|entry| entry.rows).collect();
    let columns: Vec<u16> = entries.iter().map(|entry| entry.columns).collect();
    let mut out = vec![0; MAX_BUNDLE];
    let length = sys::bundle_write(&kinds, &rows, &columns, words, &mut out);
    check(length.refusal)?;
    out.truncate(length.bytes);
    Ok(out)
}
