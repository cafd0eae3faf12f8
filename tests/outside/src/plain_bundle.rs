//! The plain model of bundles: a reader, a writer, and what the program prints, from the description alone.

use crate::plain::{self, words_of, Bits};

#[derive(Clone, Debug, PartialEq)]
pub struct Entry {
    pub kind: u16,
    pub rows: u16,
    pub columns: u16,
    /// in the order of kind 1
    pub words: Vec<u64>,
}

impl Entry {
    pub fn bits(&self) -> Bits {
        plain::to_bits(&self.words, usize::from(self.rows), usize::from(self.columns))
    }
}

fn number(bytes: &[u8], at: usize, length: usize) -> u64 {
    (0..length).map(|i| u64::from(bytes[at + i]) << (8 * i)).sum()
}

/// the place in a stored word of the column that stands at the given place in kind 1
fn place(kind: u16, column: usize) -> usize {
    if kind == 1 {
        column
    } else {
        63 - column
    }
}

/// a stored row in the order of kind 1, or nothing if a bit that is no column is set
fn ordered(kind: u16, stored: &[u64], columns: usize) -> Option<Vec<u64>> {
    let mut words = vec![0; stored.len()];
    for (w, &word) in stored.iter().enumerate() {
        for i in 0..64 {
            let bit = word >> place(kind, i) & 1;
            if bit == 1 && 64 * w + i >= columns {
                return None;
            }
            words[w] |= bit << i;
        }
    }
    Some(words)
}

fn body(bytes: &[u8], kind: u16, rows: usize, columns: usize, start: usize) -> Option<Vec<u64>> {
    let width = words_of(columns);
    let mut words = Vec::new();
    for row in 0..rows {
        let stored: Vec<u64> = (0..width).map(|w| number(bytes, start + 8 * (row * width + w), 8)).collect();
        words.extend(ordered(kind, &stored, columns)?);
    }
    Some(words)
}

pub fn read(bytes: &[u8]) -> Result<Vec<Entry>, u64> {
    if bytes.len() < 2 || bytes.len() > 65_535 {
        return Err(20);
    }
    let count = number(bytes, 0, 2) as usize;
    if count == 0 || count > 64 {
        return Err(21);
    }
    let mut end = 2 + 10 * count;
    if bytes.len() < end {
        return Err(22);
    }
    let mut entries = Vec::new();
    for entry in 0..count {
        let head = |field: usize, length: usize| number(bytes, 2 + 10 * entry + field, length) as usize;
        let (kind, rows, columns) = (head(0, 2), head(2, 2), head(4, 2));
        if kind != 1 && kind != 2 {
            return Err(23);
        }
        if rows > 512 || columns == 0 || columns > 1024 {
            return Err(24);
        }
        if head(6, 4) != end {
            return Err(25);
        }
        let start = end;
        end += 8 * rows * words_of(columns);
        if end > bytes.len() {
            return Err(26);
        }
        let words = body(bytes, kind as u16, rows, columns, start).ok_or(5u64)?;
        entries.push(Entry { kind: kind as u16, rows: rows as u16, columns: columns as u16, words });
    }
    if end == bytes.len() {
        Ok(entries)
    } else {
        Err(27)
    }
}

/// what the writer is lent
#[derive(Clone, Debug, Default)]
pub struct Lists {
    pub kinds: Vec<u16>,
    pub rows: Vec<u16>,
    pub columns: Vec<u16>,
    pub words: Vec<u64>,
}

impl Lists {
    pub fn of(entries: &[Entry]) -> Lists {
        Lists {
            kinds: entries.iter().map(|entry| entry.kind).collect(),
            rows: entries.iter().map(|entry| entry.rows).collect(),
            columns: entries.iter().map(|entry| entry.columns).collect(),
            words: entries.iter().flat_map(|entry| entry.words.clone()).collect(),
        }
    }

    fn body_words(&self, entry: usize) -> usize {
        usize::from(self.rows[entry]) * words_of(usize::from(self.columns[entry]))
    }

    /// kind, columns and words of each entry; the words must be as many as all of them have
    fn bodies(&self) -> Vec<(u16, usize, &[u64])> {
        let mut rest = &self.words[..];
        let mut list = Vec::new();
        for entry in 0..self.kinds.len() {
            let (own, others) = rest.split_at(self.body_words(entry));
            list.push((self.kinds[entry], usize::from(self.columns[entry]), own));
            rest = others;
        }
        list
    }

    fn refusal(&self) -> Result<(), u64> {
        let count = self.kinds.len();
        if self.rows.len() != count || self.columns.len() != count {
            return Err(13);
        }
        if count == 0 || count > 64 {
            return Err(21);
        }
        for entry in 0..count {
            if self.kinds[entry] != 1 && self.kinds[entry] != 2 {
                return Err(23);
            }
            if self.rows[entry] > 512 || self.columns[entry] == 0 || self.columns[entry] > 1024 {
                return Err(24);
            }
        }
        if (0..count).map(|entry| self.body_words(entry)).sum::<usize>() != self.words.len() {
            return Err(4);
        }
        let clean = |columns: usize, words: &[u64]| words.chunks(words_of(columns)).all(|row| ordered(1, row, columns).is_some());
        if self.bodies().iter().all(|&(_, columns, words)| clean(columns, words)) {
            Ok(())
        } else {
            Err(5)
        }
    }

    fn bytes(&self) -> Vec<u8> {
        let mut bytes = (self.kinds.len() as u16).to_le_bytes().to_vec();
        let mut offset = 2 + 10 * self.kinds.len() as u32;
        for entry in 0..self.kinds.len() {
            for field in [self.kinds[entry], self.rows[entry], self.columns[entry]] {
                bytes.extend(field.to_le_bytes());
            }
            bytes.extend(offset.to_le_bytes());
            offset += 8 * self.body_words(entry) as u32;
        }
        for (kind, _, words) in self.bodies() {
            for &word in words {
                let stored: u64 = (0..64).map(|i| (word >> i & 1) << place(kind, i)).sum();
                bytes.extend(stored.to_le_bytes());
            }
        }
        bytes
    }

    pub fn write(&self, room: usize) -> Result<Vec<u8>, u64> {
        self.refusal()?;
        match 2 + 10 * self.kinds.len() + 8 * self.words.len() {
            length if length > 65_535 => Err(29),
            length if length > room => Err(28),
            _ => Ok(self.bytes()),
        }
    }
}

/// what the program prints for a bundle on standard input
pub fn report(bytes: &[u8]) -> String {
    let entries = match read(bytes) {
        Ok(entries) => entries,
        Err(number) => return format!("refused {number}\n"),
    };
    let mut text = String::new();
    for (i, entry) in entries.iter().enumerate() {
        let columns = usize::from(entry.columns);
        let (form, pivots) = plain::reduced(&entry.bits(), columns);
        let additions = plain::additions(&pivots, columns, 4);
        text += &format!("entry {i} rows {} columns {columns} rank {} additions {additions}\n", entry.rows, pivots.len());
        for row in &form[..pivots.len()] {
            text.extend(row.iter().map(|bit| char::from(b'0' + bit)));
            text.push('\n');
        }
    }
    text + &format!("done {}\n", entries.len())
}
