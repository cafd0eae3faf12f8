//! The writer, its refusals in every order, and the round trips.

use super::grids::Case;
use super::refusals::{every_set, Provoked};
use super::{ensure, Tried};
use crate::bundle_calls::write;
use crate::make_bundles::{bytes_of, entries, entry, padded, padding, planned};
use crate::plain::words_of;
use crate::plain_bundle::{self, Entry, Lists};
use crate::random::Random;
use crate::raw;
use crate::share;

pub fn good(random: &mut Random) -> Tried {
    for round in share::rounds(8000) {
        let list = entries(random, if round % 20 == 0 { 64 } else { 6 });
        let length = bytes_of(&list).len() + random.of(&[0, 0, 1, 5, 100]);
        let (answer, _) = write(&Lists::of(&list), &random.bytes(length))?;
        ensure(answer.refusal == 0, || format!("writing refused with {}", answer.refusal))?;
    }
    Ok(())
}

/// 23 and 24 of the first entry, then of the last
const ORDER: [u64; 10] = [13, 21, 23, 24, 23, 24, 4, 5, 29, 28];

/// an entry that alone makes a bundle too long
fn too_long(random: &mut Random) -> Entry {
    Entry { kind: 2, rows: 512, columns: 1024, words: random.words(8192) }
}

fn spoil_entry(random: &mut Random, lists: &mut Lists, at: usize, kind: bool, shape: bool) {
    if kind {
        lists.kinds[at] = random.of(&[0, 3, 257, 65535]);
    }
    if shape {
        match random.below(3) {
            0 => lists.rows[at] = random.of(&[513, 65535]),
            1 => lists.columns[at] = 0,
            _ => lists.columns[at] = random.of(&[1025, 65535]),
        }
    }
}

/// good entries, but for padding, a length and their number
fn listed(random: &mut Random, provoked: &Provoked) -> Vec<Entry> {
    let mut list = entries(random, 5);
    let mut padded = entry(random, 2, 70);
    if provoked.has(5) {
        let (word, bit) = padding(random, &padded);
        padded.words[word] |= 1 << bit;
    }
    list.push(padded);
    if provoked.has(29) {
        list.push(too_long(random));
    }
    match (provoked.has(21), random.one_in(2)) {
        (false, _) => list,
        (true, true) => Vec::new(),
        (true, false) => vec![list[0].clone(); random.between(65, 67)],
    }
}

/// lists in which the refusals of the set apply, and a fitting length of output
fn provoking(random: &mut Random, provoked: &Provoked) -> (Lists, usize) {
    let list = listed(random, provoked);
    let mut lists = Lists::of(&list);
    let whole = 2 + 10 * list.len() + 8 * lists.words.len();
    if !list.is_empty() {
        spoil_entry(random, &mut lists, 0, provoked.at(2), provoked.at(3));
        spoil_entry(random, &mut lists, list.len() - 1, provoked.at(4), provoked.at(5));
    }
    if provoked.has(4) {
        lists.words.push(0);
    }
    if provoked.has(13) {
        let lengths = [&mut lists.kinds, &mut lists.rows, &mut lists.columns];
        lengths[random.below(3)].push(1);
    }
    let room = if provoked.has(28) { random.of(&[whole - 1, whole / 2, 0]) } else { whole + random.below(3) };
    (lists, room)
}

pub fn refusals(random: &mut Random) -> Tried {
    every_set(&ORDER, 4, |provoked| {
        let (lists, room) = provoking(random, provoked);
        Ok(write(&lists, &random.bytes(room))?.0.refusal)
    })
}

/// lists of 2, 64, no and 65 elements and such as differ by one; both entries good or not; words too few and too many; padding that
/// is clean or not; an output that fits or is a byte short
pub fn grid(random: &mut Random) -> Tried {
    for number in share::of(0..4 * 5 * 16 * 3 * 4 * 2) {
        let mut case = Case(number);
        let count: usize = case.of(&[2, 64, 0, 65]);
        let fewer = count.saturating_sub(1);
        let (rows, columns) = case.of(&[(count, count), (count + 1, count), (fewer, count), (count, count + 1), (count, fewer)]);
        let (first, second) = (case.of(&[(1, 2), (3, 2), (1, 513), (3, 513)]), case.of(&[(2, 5), (0, 5), (2, 0), (0, 0)]));
        let begin = |two: [u16; 2], rest: u16, length: usize| two.into_iter().chain(vec![rest; 64]).take(length).collect();
        let mut words = random.words(case.of(&[7, 8, 6]));
        words.iter_mut().zip([64, 1, 64, 1, 5, 5, 5]).filter(|(_, used)| *used < 64).for_each(|(word, used)| *word %= 1 << used);
        let (dirty, bit) = case.of(&[(0, 0), (1, 1), (4, 63), (6, 5)]);
        if dirty < words.len() {
            words[dirty] |= u64::from(dirty != 0) << bit;
        }
        let lists = Lists {
            kinds: begin([first.0, second.0], 1, count),
            rows: begin([first.1, 3], 0, rows),
            columns: begin([65, second.1], 1, columns),
            words,
        };
        let room = 2 + 10 * count + 56 - case.of(&[0, 1]);
        write(&lists, &random.bytes(room))?;
    }
    Ok(())
}

/// rows of the second of two entries, its kind, words more than there should be, bytes of output, whether a padding bit is set, and
/// the refusal due: 65,534 bytes are written, 65,542 are too many whatever the output
const NEAR_THE_LIMIT: [(u16, u16, isize, usize, bool, u64); 12] = [
    (13, 1, 0, 65_534, false, 0),
    (13, 1, 0, 65_600, false, 0),
    (13, 1, 0, 65_533, false, 28),
    (14, 1, 0, 65_542, false, 29),
    (14, 1, 0, 65_541, false, 29),
    (14, 1, 0, 0, false, 29),
    (14, 1, 0, 65_542, true, 5),
    (14, 2, 0, 0, true, 5),
    (14, 1, 1, 65_542, false, 4),
    (14, 2, -1, 65_534, false, 4),
    (14, 3, 0, 65_542, false, 23),
    (513, 1, 0, 65_542, false, 24),
];

pub fn near_the_limit(random: &mut Random) -> Tried {
    for _ in share::rounds(20) {
        let first = entry(random, 511, 1000);
        for (rows, kind, more, room, dirty, wanted) in NEAR_THE_LIMIT {
            let mut second = entry(random, rows.into(), 37);
            second.kind = kind;
            if dirty {
                second.words[13] |= 1 << random.between(37, 63);
            }
            let mut lists = Lists::of(&[first.clone(), second]);
            lists.words.resize((lists.words.len() as isize + more) as usize, 0);
            let (answer, _) = write(&lists, &random.bytes(room))?;
            ensure(answer.refusal == wanted, || format!("writer near the limit: {} for {wanted}", answer.refusal))?;
        }
    }
    Ok(())
}

/// a padding bit of each entry in turn, in bundles of many shapes
pub fn padding_of_each(random: &mut Random) -> Tried {
    for list in share::of(planned(random)) {
        let room = bytes_of(&list).len();
        for e in (0..list.len()).filter(|&e| padded(&list[e])) {
            let mut other = list.clone();
            let (word, bit) = padding(random, &list[e]);
            other[e].words[word] |= 1 << bit;
            let (answer, _) = write(&Lists::of(&other), &random.bytes(room))?;
            ensure(answer.refusal == 5, || format!("writer: {} for a padding bit of entry {e}", answer.refusal))?;
        }
    }
    Ok(())
}

/// 24 of an earlier entry stands before 23 of a later one
pub fn entry_by_entry(random: &mut Random) -> Tried {
    for _ in share::rounds(1000) {
        let mut list = entries(random, 6);
        list.extend([entry(random, 1, 3), entry(random, 1, 3)]);
        let mut lists = Lists::of(&list);
        let (bad_shape, bad_kind) = (random.below(list.len()), random.below(list.len()));
        lists.rows[bad_shape] = 513;
        lists.kinds[bad_kind] = 3;
        let wanted = if bad_shape < bad_kind { 24 } else { 23 };
        let (answer, _) = write(&lists, &random.bytes(4000))?;
        ensure(answer.refusal == wanted, || format!("writer: {} where {wanted} stands first", answer.refusal))?;
    }
    Ok(())
}

/// every entry unpacked by the library
fn unpacked(bytes: &[u8]) -> Vec<Entry> {
    let count = unsafe { raw::chhayublo_bundle_read(bytes.as_ptr(), bytes.len()) };
    let one = |i: usize| unsafe {
        let told = raw::chhayublo_bundle_entry(bytes.as_ptr(), bytes.len(), i);
        let mut words = vec![0; told.rows as usize * words_of(told.columns as usize)];
        let told = raw::chhayublo_bundle_unpack(bytes.as_ptr(), bytes.len(), i, words.as_mut_ptr(), words.len());
        Entry { kind: told.kind as u16, rows: told.rows as u16, columns: told.columns as u16, words }
    };
    (0..count.entries).map(one).collect()
}

/// unpacked, what was written gives the entries; written again, the same bytes, whatever the output had, and nothing past them
fn there_and_back(random: &mut Random, list: &[Entry]) -> Tried {
    let bytes = bytes_of(list);
    let read = unpacked(&bytes);
    ensure(read == list && plain_bundle::read(&bytes) == Ok(read.clone()), || "written, then unpacked".into())?;
    let room = bytes.len() + 7 * random.below(5);
    let (answer, output) = write(&Lists::of(&read), &random.bytes(room))?;
    ensure(answer.bytes == bytes.len() && output.starts_with(&bytes), || "unpacked, then written".into())
}

pub fn round_trips(random: &mut Random) -> Tried {
    for round in share::rounds(3000) {
        let list = match round % 300 {
            0 => vec![entry(random, 512, 960), entry(random, 509, 64)],
            _ => entries(random, 8),
        };
        there_and_back(random, &list)?;
    }
    for list in share::of(planned(random)) {
        there_and_back(random, &list)?;
    }
    Ok(())
}
