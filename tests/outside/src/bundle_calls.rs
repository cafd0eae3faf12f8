//! The bundle calls of the library, each held to the plain model: every field of the answer, every element of every buffer, and the
//! guards around them.

use crate::count;
use crate::groups::{ensure, Tried};
use crate::guarded::Guarded;
use crate::plain_bundle::{self, Entry, Lists};
use crate::random::Random;
use crate::raw;

/// any bytes, and what the plain reader makes of them
pub struct Bundle<'a> {
    given: &'a [u8],
    model: Result<Vec<Entry>, u64>,
}

fn told(found: Result<&Entry, u64>) -> raw::Entry {
    match found {
        Ok(e) => raw::Entry { refusal: 0, kind: e.kind.into(), rows: e.rows.into(), columns: e.columns.into() },
        Err(refusal) => raw::Entry { refusal, kind: 0, rows: 0, columns: 0 },
    }
}

impl<'a> Bundle<'a> {
    pub fn new(given: &'a [u8]) -> Bundle<'a> {
        Bundle { given, model: plain_bundle::read(given) }
    }

    /// the refusal of reading
    pub fn refusal(&self) -> u64 {
        self.model.as_ref().err().copied().unwrap_or(0)
    }

    pub fn count(&self) -> usize {
        self.model.as_ref().map_or(0, Vec::len)
    }

    fn found(&self, i: usize) -> Result<&Entry, u64> {
        self.model.as_ref().map_err(|number| *number).and_then(|list| list.get(i).ok_or(12))
    }

    /// the words that entry i has, or 3 where there is no such entry
    pub fn exact(&self, i: usize) -> usize {
        self.found(i).map_or(3, |entry| entry.words.len())
    }

    pub fn read(&self) -> Tried {
        let bytes = Guarded::new(self.given);
        let got = unsafe { raw::chhayublo_bundle_read(bytes.at(), bytes.len()) };
        let expected = raw::Count { refusal: self.refusal(), entries: self.count() };
        ensure(got == expected, || format!("reading {} bytes: got {got:?}, expected {expected:?}", self.given.len()))?;
        bytes.holds("bundle that was read", self.given)?;
        count::one();
        Ok(())
    }

    /// the refusal
    pub fn entry(&self, i: usize) -> Result<u64, String> {
        let bytes = Guarded::new(self.given);
        let got = unsafe { raw::chhayublo_bundle_entry(bytes.at(), bytes.len(), i) };
        let expected = told(self.found(i));
        ensure(got == expected, || format!("entry {i}: got {got:?}, expected {expected:?}"))?;
        bytes.holds("bundle of an entry", self.given)?;
        count::one();
        Ok(got.refusal)
    }

    /// into words that are lent full of junk; the refusal
    pub fn unpack(&self, random: &mut Random, i: usize, length: usize) -> Result<u64, String> {
        let found = self.found(i).and_then(|entry| if entry.words.len() == length { Ok(entry) } else { Err(4) });
        let (bytes, lent) = (Guarded::new(self.given), random.words(length));
        let mut words = Guarded::new(&lent);
        let got = unsafe { raw::chhayublo_bundle_unpack(bytes.at(), bytes.len(), i, words.at_mut(), words.len()) };
        let expected = told(found);
        ensure(got == expected, || format!("unpacking {i} into {length}: got {got:?}, expected {expected:?}"))?;
        words.holds("unpacked words", found.map_or(&lent, |entry| &entry.words))?;
        bytes.holds("bundle that was unpacked", self.given)?;
        count::one();
        Ok(got.refusal)
    }
}

/// the writer; gives its answer, and the output as it stands
pub fn write(lists: &Lists, output: &[u8]) -> Result<(raw::Length, Vec<u8>), String> {
    let (kinds, rows) = (Guarded::new(&lists.kinds), Guarded::new(&lists.rows));
    let (columns, words) = (Guarded::new(&lists.columns), Guarded::new(&lists.words));
    let mut out = Guarded::new(output);
    let got = unsafe {
        let (k, r, c, w, o) = (kinds.at(), rows.at(), columns.at(), words.at(), out.at_mut());
        raw::chhayublo_bundle_write(k, kinds.len(), r, rows.len(), c, columns.len(), w, words.len(), o, out.len())
    };
    let (expected, after) = match lists.write(output.len()) {
        Ok(bytes) => (raw::Length { refusal: 0, bytes: bytes.len() }, [&bytes[..], &output[bytes.len()..]].concat()),
        Err(refusal) => (raw::Length { refusal, bytes: 0 }, output.to_vec()),
    };
    ensure(got == expected, || format!("writer: got {got:?}, expected {expected:?}"))?;
    out.holds("output", &after)?;
    kinds.holds("kinds", &lists.kinds)?;
    rows.holds("rows", &lists.rows)?;
    columns.holds("columns", &lists.columns)?;
    words.holds("words", &lists.words)?;
    count::one();
    Ok((got, after))
}
