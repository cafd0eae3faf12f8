//! Bundles: good ones of drawn and of planned shapes, and what is made wrong with them.

use crate::make;
use crate::plain::{self, words_of};
use crate::plain_bundle::{Entry, Lists};
use crate::random::Random;

pub fn entry(random: &mut Random, rows: usize, columns: usize) -> Entry {
    let bits = make::matrix(random, rows, columns);
    let kind = random.between(1, 2) as u16;
    Entry { kind, rows: rows as u16, columns: columns as u16, words: plain::to_words(&bits, columns) }
}

/// a good bundle's entries: few or many, with rows of one to three words, some without rows
pub fn entries(random: &mut Random, most: usize) -> Vec<Entry> {
    let count = random.between(1, most);
    let one = |random: &mut Random| {
        let (rows, columns) = (random.below(6), random.of(&[1, 2, 3, 5, 63, 64, 65, 127, 128, 130]));
        entry(random, rows, columns)
    };
    (0..count).map(|_| one(random)).collect()
}

pub fn bytes_of(entries: &[Entry]) -> Vec<u8> {
    Lists::of(entries).write(usize::MAX).expect("a good bundle")
}

/// all of kind 1, all of kind 2, or both by turns
pub const MODES: usize = 4;

fn kind(mode: usize, place: usize) -> u16 {
    match mode {
        0 => 1,
        1 => 2,
        _ => 1 + ((mode + place) % 2) as u16,
    }
}

pub fn of_shapes(random: &mut Random, shapes: &[(usize, usize)], mode: usize) -> Vec<Entry> {
    let mut list: Vec<Entry> = shapes.iter().map(|&(rows, columns)| entry(random, rows, columns)).collect();
    list.iter_mut().enumerate().for_each(|(place, entry)| entry.kind = kind(mode, place));
    list
}

/// three entries with rows of two words, of one with padding, and of two without
pub fn little(random: &mut Random, mode: usize) -> Vec<Entry> {
    of_shapes(random, &[(2, 65), (3, 5), (1, 128)], mode)
}

/// 65,534 bytes: a byte more than that many no bundle can have
pub fn longest(random: &mut Random) -> Vec<Entry> {
    of_shapes(random, &[(511, 1000), (13, 37)], 3)
}

/// each pair of rows and columns alone, with another and among three, and all of them twice; tall entries, and 64 without rows
pub fn planned(random: &mut Random) -> Vec<Vec<Entry>> {
    let pairs: Vec<(usize, usize)> =
        [0, 1, 3, 64].iter().flat_map(|&rows| [1, 2, 63, 64, 65, 127, 128, 1024].map(|columns| (rows, columns))).collect();
    let chosen = |first: usize, count: usize| (0..count).map(|i| pairs[(first + 11 * i) % 32]).collect::<Vec<_>>();
    let flat: Vec<(usize, usize)> = (1..=64).map(|columns| (0, columns)).collect();
    let mut plans = Vec::new();
    for mode in 0..MODES {
        for first in 0..32 {
            plans.extend((1..=3).map(|count| of_shapes(random, &chosen(first, count), mode)));
        }
        plans.push(of_shapes(random, &chosen(mode, 64), mode));
        plans.push(of_shapes(random, &[(512, 77)], mode));
        plans.push(of_shapes(random, &flat, mode));
        plans.push(little(random, mode));
    }
    plans.push(longest(random));
    plans
}

/// a number in so many bytes, the lowest first, as far as there are bytes
pub fn put(bytes: &mut [u8], at: usize, value: usize, length: usize) {
    for i in 0..length {
        if at + i < bytes.len() {
            bytes[at + i] = (value >> (8 * i)) as u8;
        }
    }
}

/// one thing made wrong: a number of the contents, a byte or a bit anywhere, the length, or two heads exchanged
pub fn damage(random: &mut Random, bytes: &mut Vec<u8>) {
    let count = usize::from(bytes.first().copied().unwrap_or(1)).max(1);
    let head = 2 + 10 * random.below(count);
    let offset = bytes.get(head + 6).map_or(0, |&low| usize::from(low));
    match random.below(10) {
        0 => put(bytes, 0, random.of(&[0, count + 1, count - 1, 65, 64, 256, 65535]), 2),
        1 => put(bytes, head, random.of(&[0, 1, 2, 3, 256, 257, 65535]), 2),
        2 => put(bytes, head + 2, random.of(&[0, 1, 512, 513, 65535]), 2),
        3 => put(bytes, head + 4, random.of(&[0, 1, 64, 65, 1024, 1025, 65535]), 2),
        4 => put(bytes, head + 6, random.of(&[0, offset + 1, offset.wrapping_sub(1), offset + 8, offset + 65536]), 4),
        5 => bytes.truncate(random.below(bytes.len() + 1)),
        6 => bytes.extend(vec![0; random.between(1, 9)]),
        7 if bytes.len() >= 22 => (0..10).for_each(|i| bytes.swap(2 + i, 12 + i)),
        _ if !bytes.is_empty() => {
            let at = random.below(bytes.len());
            bytes[at] ^= 1 << random.below(8);
        }
        _ => bytes.push(0),
    }
}

pub fn padded(entry: &Entry) -> bool {
    entry.rows > 0 && entry.columns % 64 != 0
}

/// a column past the last one of some row: the row's last word, and the place in it by the order of kind 1; there must be padding
pub fn padding(random: &mut Random, entry: &Entry) -> (usize, usize) {
    let (width, used) = (words_of(entry.columns.into()), usize::from(entry.columns % 64));
    let row = random.below(entry.rows.into());
    (row * width + width - 1, random.between(used, 63))
}

/// sets a padding bit of the entry whose body starts there
pub fn soil(random: &mut Random, bytes: &mut [u8], entry: &Entry, start: usize) {
    let (word, column) = padding(random, entry);
    let bit = if entry.kind == 1 { column } else { 63 - column };
    bytes[start + 8 * word + bit / 8] |= 1 << (bit % 8);
}
