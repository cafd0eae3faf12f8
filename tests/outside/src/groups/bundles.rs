//! Reading, an entry's numbers and unpacking, over good, cut and damaged bundles.

use super::{ensure, Tried};
use crate::bundle_calls::Bundle;
use crate::make_bundles::{bytes_of, damage, entries, little, longest, of_shapes, padded, planned, put, soil, MODES};
use crate::random::Random;
use crate::share;

/// every call that reads, on any bytes; gives the refusal of reading
pub fn check(random: &mut Random, given: &[u8]) -> Result<u64, String> {
    let bundle = Bundle::new(given);
    bundle.read()?;
    if bundle.refusal() != 0 {
        for i in [0, usize::MAX] {
            bundle.entry(i)?;
            bundle.unpack(random, i, 3)?;
        }
        return Ok(bundle.refusal());
    }
    for i in (0..bundle.count() + 1).chain([64, usize::MAX]) {
        bundle.entry(i)?;
        let exact = bundle.exact(i);
        for length in [exact, exact + 1, exact.saturating_sub(1)] {
            bundle.unpack(random, i, length)?;
        }
    }
    Ok(0)
}

fn accepted(random: &mut Random, bytes: &[u8]) -> Tried {
    let refusal = check(random, bytes)?;
    ensure(refusal == 0, || format!("a good bundle of {} bytes refused with {refusal}", bytes.len()))
}

fn refused(random: &mut Random, bytes: &[u8], wanted: u64) -> Tried {
    let refusal = check(random, bytes)?;
    ensure(refusal == wanted, || format!("{} bytes: {refusal} where {wanted} is due", bytes.len()))
}

pub fn good(random: &mut Random) -> Tried {
    for round in share::rounds(3000) {
        let most = if round % 50 == 0 { 64 } else { 5 };
        let list = entries(random, most);
        accepted(random, &bytes_of(&list))?;
    }
    for list in share::of(planned(random)) {
        accepted(random, &bytes_of(&list))?;
    }
    Ok(())
}

/// each entry into words that are too few and too many, and entries that are none
pub fn places(random: &mut Random) -> Tried {
    for _ in share::rounds(400) {
        let bytes = bytes_of(&entries(random, 4));
        let bundle = Bundle::new(&bytes);
        let count = bundle.count();
        for i in 0..count {
            let exact = bundle.exact(i);
            for length in [exact + 1, exact + 2, exact + 64, exact.wrapping_sub(1), exact / 2, 0] {
                if length != exact && length < 1 << 20 {
                    let answers = (bundle.entry(i)?, bundle.unpack(random, i, length)?);
                    ensure(answers == (0, 4), || format!("entry {i} into {length} words: {answers:?}"))?;
                }
            }
        }
        for i in [count, count + 1, 64, 256, 65_536, 1 << 32, 1 << 63, usize::MAX] {
            for length in [bundle.exact(0), 0] {
                let answers = (bundle.entry(i)?, bundle.unpack(random, i, length)?);
                ensure(answers == (12, 12), || format!("entry {i} of {count}: {answers:?}"))?;
            }
        }
    }
    Ok(())
}

pub fn cut(random: &mut Random) -> Tried {
    for round in share::rounds(150) {
        let list = if round < MODES { little(random, round) } else { entries(random, 4) };
        let whole = bytes_of(&list);
        for length in 0..whole.len() {
            let refusal = check(random, &whole[..length])?;
            ensure(refusal != 0, || format!("{length} bytes of {} accepted", whole.len()))?;
        }
        for extra in [1, 2, 8, random.between(3, 11)] {
            let longer = [whole.clone(), random.bytes(extra)].concat();
            refused(random, &longer, 27)?;
        }
    }
    Ok(())
}

pub fn damaged(random: &mut Random) -> Tried {
    let mut seen = std::collections::BTreeSet::new();
    for _ in share::rounds(20_000) {
        let list = entries(random, 4);
        let mut bytes = bytes_of(&list);
        for _ in 0..random.between(1, 3) {
            damage(random, &mut bytes);
        }
        seen.insert(check(random, &bytes)?);
    }
    let all = [0, 5, 20, 21, 22, 23, 24, 25, 26, 27];
    ensure(seen.into_iter().eq(all), || "not every refusal of a bundle was met".into())
}

/// each byte of small bundles in turn another: a small number, the largest, the next, and with each bit turned
pub fn every_byte(random: &mut Random) -> Tried {
    for round in 0..12 {
        let list = if round < MODES { little(random, round) } else { entries(random, 3) };
        let mut bytes = bytes_of(&list);
        for at in 0..bytes.len() {
            let own = bytes[at];
            let turned = (0..8).map(|bit| own ^ 1 << bit);
            for other in share::of([0, 1, 2, 3, 255, own.wrapping_add(1)].into_iter().chain(turned)) {
                bytes[at] = other;
                check(random, &bytes)?;
            }
            bytes[at] = own;
        }
    }
    Ok(())
}

/// a padding bit of each entry in turn, in bundles of many shapes
pub fn padding(random: &mut Random) -> Tried {
    for list in share::of(planned(random)) {
        let whole = bytes_of(&list);
        let mut start = 2 + 10 * list.len();
        for entry in &list {
            if padded(entry) {
                let mut bytes = whole.clone();
                soil(random, &mut bytes, entry, start);
                refused(random, &bytes, 5)?;
            }
            start += 8 * entry.words.len();
        }
    }
    Ok(())
}

/// a number of an entry that is at fault, with its place among the entry's ten bytes, its length and the refusal due
fn bad_numbers(offset: usize) -> Vec<(usize, usize, usize, u64)> {
    let kinds = [0, 3, 256, 257, 258, 513, 32_769, 65_535].map(|value| (value, 0, 2, 23));
    let rows = [513, 514, 1024, 32_768, 65_535].map(|value| (value, 2, 2, 24));
    let columns = [0, 1025, 1026, 2048, 65_535].map(|value| (value, 4, 2, 24));
    let near = [0, offset - 1, offset + 1, offset ^ 32, offset + 256, offset + 65_536, offset + (1 << 31), (1 << 32) - 1];
    let offsets = near.map(|value| (value, 6, 4, 25));
    [&kinds[..], &rows, &columns, &offsets].concat()
}

/// numbers past their bounds, in each entry of three and in the count
pub fn limits(random: &mut Random) -> Tried {
    for mode in 0..MODES {
        let whole = bytes_of(&little(random, mode));
        for (entry, offset) in [(0, 32), (1, 64), (2, 88)] {
            for (value, place, length, number) in bad_numbers(offset) {
                let mut bytes = whole.clone();
                put(&mut bytes, 2 + 10 * entry + place, value, length);
                refused(random, &bytes, number)?;
            }
        }
        for count in [0, 65, 256, 257, 258, 32_770, 65_535] {
            let mut bytes = whole.clone();
            put(&mut bytes, 0, count, 2);
            refused(random, &bytes, 21)?;
        }
    }
    Ok(())
}

/// the longest bundles, and lengths that are not theirs
pub fn lengths(random: &mut Random) -> Tried {
    let whole = bytes_of(&longest(random));
    ensure(whole.len() == 65_534, || "length of the longest bundle".into())?;
    for (length, number) in [(0, 20), (1, 20), (2, 22), (21, 22), (22, 26), (65_533, 26), (65_535, 27), (65_536, 20)] {
        let mut bytes = whole.clone();
        bytes.resize(length, 0);
        refused(random, &bytes, number)?;
    }
    for (length, number) in [(2, 21), (65_535, 21), (65_536, 20)] {
        refused(random, &vec![0; length], number)?;
    }
    let shapes: [&[(usize, usize)]; 4] = [&[(512, 960), (509, 64)], &[(511, 1024)], &[(512, 960)], &[(0, 1024); 64]];
    for shape in shapes {
        let mut bytes = bytes_of(&of_shapes(random, shape, 2));
        accepted(random, &bytes)?;
        for (length, number) in [(65_535, 27), (65_536, 20), (70_000, 20)] {
            bytes.resize(length, 0);
            refused(random, &bytes, number)?;
        }
    }
    Ok(())
}
