//! Inverses: where there is one, both products are the identity.

use super::{ensure, Tried};
use crate::make::{self, Style, STYLES};
use crate::plain::{self, Bits};
use crate::random::Random;
use crate::share;

/// the refusal
fn try_one(random: &mut Random, bits: &Bits, k: usize) -> Result<u64, String> {
    let (refusal, inverse) = make::invert(random, bits, k).check()?;
    let full = plain::reduced(bits, bits.len()).1.len() == bits.len();
    ensure(full == (refusal == 0), || format!("size {}: refusal {refusal}, full rank {full}", bits.len()))?;
    if let Some(inverse) = inverse {
        let one = plain::identity(bits.len());
        let both = plain::product(bits, &inverse) == one && plain::product(&inverse, bits) == one;
        ensure(both, || format!("size {}: a product is not the identity", bits.len()))?;
    }
    Ok(refusal)
}

pub fn small(random: &mut Random) -> Tried {
    for round in share::rounds(8000) {
        let size = random.between(1, 12);
        let bits = if round % 2 == 0 { make::invertible(random, size) } else { make::matrix(random, size, size) };
        for k in 1..=8 {
            try_one(random, &bits, k)?;
        }
    }
    Ok(())
}

fn permuted(random: &mut Random, rows: usize, _: usize) -> Bits {
    let mut bits = plain::identity(rows);
    make::shuffle(random, &mut bits);
    bits
}

/// dense: a lower times an upper one
fn made_of_two(random: &mut Random, rows: usize, columns: usize) -> Bits {
    plain::product(&make::lower(random, rows, rows), &make::upper(random, rows, columns))
}

fn mixed(random: &mut Random, rows: usize, _: usize) -> Bits {
    make::invertible(random, rows)
}

/// each of these has an inverse
const INVERTIBLE: [Style; 5] = [make::lower, make::upper, permuted, made_of_two, mixed];

/// a row becomes zero, another row, or the sum of two others
fn spoil(random: &mut Random, bits: &mut Bits, how: usize) {
    let size = bits.len();
    let row = random.below(size);
    let mut sum = vec![vec![0; size]];
    for _ in 0..how {
        let other = bits[(row + random.between(1, size.max(2) - 1)) % size].clone();
        sum = plain::product(&vec![vec![1, 1]], &vec![sum.remove(0), other]);
    }
    bits[row] = sum.remove(0);
}

/// known to have an inverse, and then known to have none
fn both_ways(random: &mut Random, style: Style, size: usize, k: usize) -> Tried {
    let mut bits = style(random, size, size);
    let refusal = try_one(random, &bits, k)?;
    ensure(refusal == 0, || format!("size {size}: an inverse that there is was refused with {refusal}"))?;
    let how = if size < 3 { 0 } else { random.below(3) };
    spoil(random, &mut bits, how);
    let refusal = try_one(random, &bits, k)?;
    ensure(refusal == 9, || format!("size {size}: answered {refusal} where there is no inverse"))
}

/// sizes at the borders of words, alone and beside an identity; every kind with every k
pub fn kinds(random: &mut Random) -> Tried {
    for size in [1, 2, 3, 5, 8, 9, 31, 32, 33, 63, 64, 65, 100, 127, 128, 129] {
        for k in 1..=8 {
            for style in share::of(INVERTIBLE) {
                both_ways(random, style, size, k)?;
            }
        }
    }
    for style in STYLES {
        for size in share::of([1, 3, 17, 64, 65]) {
            let bits = style(random, size, size);
            for k in 1..=8 {
                try_one(random, &bits, k)?;
            }
        }
    }
    Ok(())
}

pub fn large(random: &mut Random) -> Tried {
    for size in [200, 256, 257, 320, 511, 512] {
        for style in share::of(INVERTIBLE) {
            let k = random.between(1, 8);
            both_ways(random, style, size, k)?;
        }
        if share::turn() {
            let (any, k) = (make::dense(random, size, size), random.between(7, 8));
            try_one(random, &any, k)?;
        }
    }
    Ok(())
}
