//! All inputs of small sizes, none left out (but where a share is asked for).

use super::packets::{all_images, both_calls, named};
use super::reduction::every_k;
use super::{ensure, Tried};
use crate::make;
use crate::plain::{self, Bits};
use crate::random::Random;
use crate::share;

/// the matrix whose bits, row by row, are those of the number
fn numbered(number: usize, rows: usize, columns: usize) -> Bits {
    (0..rows).map(|row| (0..columns).map(|column| (number >> (row * columns + column) & 1) as u8).collect()).collect()
}

/// every matrix of up to 12 bits, with every k
pub fn matrices(random: &mut Random) -> Tried {
    for columns in 1..=12 {
        for rows in 0..=12 / columns {
            for number in share::of(0..1 << (rows * columns)) {
                every_k(random, &numbered(number, rows, columns), columns)?;
            }
        }
    }
    Ok(())
}

/// whether it has an inverse
fn inverted(random: &mut Random, bits: &Bits, k: usize) -> Result<bool, String> {
    let inverse = make::invert(random, bits, k).check()?.1;
    let undone = inverse.iter().all(|inverse| plain::product(bits, inverse) == plain::identity(bits.len()));
    ensure(undone, || format!("the product with {bits:?} is not the identity"))?;
    Ok(inverse.is_some())
}

/// every square matrix of up to 3 rows with every k, and of 4 rows with any; how many have an inverse is known where all are tried
pub fn squares(random: &mut Random) -> Tried {
    for (size, right) in [(1, 8), (2, 8 * 6), (3, 8 * 168), (4, 20_160)] {
        let all = size < 4 || share::is_all();
        let mut found = 0;
        for number in (0..1 << (size * size)).filter(|_| all || share::turn()) {
            let bits = numbered(number, size, size);
            let any = random.between(1, 8);
            for k in if size < 4 { 1..=8 } else { any..=any } {
                found += usize::from(inverted(random, &bits, k)?);
            }
        }
        ensure(found == right || !all, || format!("{found} times an inverse of size {size}, where there are {right}"))?;
    }
    Ok(())
}

/// solving, and the contradiction call before and after it: the reduced packets contradict each other exactly if the packets do
fn list(random: &mut Random, bits: &Bits, n: usize, p: usize, k: usize) -> Tried {
    let solved = both_calls(random, bits, n, p, k)?;
    all_images(&solved, bits, n, p)?;
    let left = plain::to_bits(&solved.packets, bits.len(), n + p);
    let again = named(random, &left, n, p, k)?;
    ensure(again == (solved.answer.refusal == 10), || format!("n {n}, p {p}: reduced packets named {again}"))
}

/// every list of up to 12 bits, of up to 4 blocks of up to 3 bits, against all images
pub fn lists(random: &mut Random) -> Tried {
    for (n, p) in (1..=4).flat_map(|n| (1..=3).map(move |p| (n, p))) {
        for rows in 0..=12 / (n + p) {
            for number in share::of(0..1 << (rows * (n + p))) {
                let k = random.between(1, 8);
                list(random, &numbered(number, rows, n + p), n, p, k)?;
            }
        }
    }
    Ok(())
}
