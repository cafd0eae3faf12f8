//! Every set of faults of a bundle of two entries: the first in the order of the checks is told. Those of the first entry come
//! before those of the second, and what entry and unpacking check comes last.

use super::bundles::check;
use super::refusals::{every_set, Provoked};
use super::{ensure, Tried};
use crate::bundle_calls::Bundle;
use crate::make_bundles::{bytes_of, damage, entries, entry, put, soil};
use crate::plain_bundle::{self, Entry};
use crate::random::Random;

const READING: [u64; 14] = [20, 21, 22, 23, 24, 25, 26, 5, 23, 24, 25, 26, 5, 27];

/// where the faults of the first and of the second entry begin in the order
const ENTRIES: [usize; 2] = [3, 8];

/// where the bodies begin, and where the last one ends
fn bounds(list: &[Entry; 2]) -> [usize; 3] {
    let first = 22 + 8 * list[0].words.len();
    [22, first, first + 8 * list[1].words.len()]
}

fn spoil_entry(random: &mut Random, provoked: &Provoked, bytes: &mut [u8], list: &[Entry; 2], e: usize) {
    let (faults, head, start) = (ENTRIES[e], 2 + 10 * e, bounds(list)[e]);
    if provoked.at(faults) {
        put(bytes, head, random.of(&[0, 3, 256, 257, 258, 65_535]), 2);
    }
    if provoked.at(faults + 1) {
        let (place, value) = random.of(&[(2, 513), (2, 65_535), (4, 0), (4, 1025), (4, 65_535)]);
        put(bytes, head + place, value, 2);
    }
    if provoked.at(faults + 2) {
        put(bytes, head + 6, random.of(&[0, start - 1, start + 1, start + 8, start + 256, start + 65_536]), 4);
    }
    if provoked.at(faults + 4) {
        soil(random, bytes, &list[e], start);
    }
}

/// by the first of the faults that are a length
fn length(random: &mut Random, provoked: &Provoked, [contents, first, end]: [usize; 3]) -> usize {
    let past_the_end = |entry: usize| provoked.at(ENTRIES[entry] + 3);
    match () {
        () if provoked.has(20) => random.of(&[0, 1, 1, 65_536]),
        () if provoked.has(22) => random.between(2, contents - 1),
        () if past_the_end(0) => random.between(contents, first - 1),
        () if past_the_end(1) => random.between(first, end - 1),
        () if provoked.has(27) => end + random.between(1, 9),
        () => end,
    }
}

fn provoking(random: &mut Random, provoked: &Provoked) -> Vec<u8> {
    let mut one = || {
        let (rows, columns) = (random.between(1, 3), random.of(&[1, 5, 63, 65, 70, 127, 129]));
        entry(random, rows, columns)
    };
    let list = [one(), one()];
    let mut bytes = bytes_of(&list);
    for e in 0..2 {
        spoil_entry(random, provoked, &mut bytes, &list, e);
    }
    if provoked.has(21) {
        put(&mut bytes, 0, random.of(&[0, 65, 256, 257, 258, 65_535]), 2);
    }
    bytes.resize(length(random, provoked, bounds(&list)), 0);
    bytes
}

pub fn reading(random: &mut Random) -> Tried {
    every_set(&READING, 2, |provoked| {
        let bytes = provoking(random, provoked);
        check(random, &bytes)
    })
}

/// 12 comes before 4, and every refusal of reading before both: 27 stands here for whichever it is
pub fn places(random: &mut Random) -> Tried {
    every_set(&[27, 12, 4], 4000, |provoked| {
        let mut bytes = bytes_of(&entries(random, 4));
        while provoked.has(27) == plain_bundle::read(&bytes).is_ok() {
            damage(random, &mut bytes);
        }
        let bundle = Bundle::new(&bytes);
        let count = bundle.count().max(1);
        let i = if provoked.has(12) { random.of(&[count, count + 1, 64, 1 << 32, usize::MAX]) } else { random.below(count) };
        let words = bundle.exact(i) + usize::from(provoked.has(4));
        let (told, unpacked) = (bundle.entry(i)?, bundle.unpack(random, i, words)?);
        let wanted = if bundle.refusal() == 0 { provoked.first() } else { bundle.refusal() };
        let right = unpacked == wanted && told == if wanted == 4 { 0 } else { wanted };
        ensure(right, || format!("entry {i}: {told}, unpacked {unpacked}, where {wanted} stands first"))?;
        Ok(provoked.first())
    })
}
