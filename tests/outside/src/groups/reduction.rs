//! The reduction of small, wide and large matrices of every style, with every k.

use super::{ensure, Tried};
use crate::make::{self, BORDERS, STYLES};
use crate::plain::{self, Bits};
use crate::random::Random;
use crate::share;

/// the same matrix with each k: another k changes nothing but the additions
pub fn every_k(random: &mut Random, bits: &Bits, columns: usize) -> Tried {
    let reduced = plain::reduced(bits, columns);
    for k in 1..=8 {
        make::reduce(random, bits, columns, k).check_by(Some(&reduced))?;
    }
    Ok(())
}

pub fn small(random: &mut Random) -> Tried {
    for _ in share::rounds(25_000) {
        let (rows, columns) = (random.below(13), random.between(1, 24));
        let bits = make::matrix(random, rows, columns);
        every_k(random, &bits, columns)?;
    }
    Ok(())
}

/// every style at every border of words, with few rows
pub fn styles(random: &mut Random) -> Tried {
    for columns in BORDERS {
        for style in STYLES {
            for rows in share::of([1, 2, 3, 5, random.between(6, 40), random.between(41, 130)]) {
                let bits = style(random, rows, columns);
                every_k(random, &bits, columns)?;
            }
        }
    }
    Ok(())
}

/// one row less than k, k, one more, the same with 2k, 3k and above; ranks of none, few, half and all of the rows
pub fn rows_around_k(random: &mut Random) -> Tried {
    for k in 1..=8 {
        for rows in (1..=4).flat_map(|times| [times * k - 1, times * k, times * k + 1]) {
            for columns in [1, k, k + 1, 2 * k, 3 * k + 1, 63, 64, 65, 128, 129, 193] {
                let most: usize = rows.min(columns);
                for rank in share::of([0, 1.min(most), most / 2, most.saturating_sub(1), most]) {
                    let bits = make::of_rank(random, rows, columns, rank);
                    let (answer, _) = make::reduce(random, &bits, columns, k).check()?;
                    ensure(answer.rank == rank, || format!("{rows} x {columns}: rank {}, made {rank}", answer.rank))?;
                }
            }
        }
    }
    Ok(())
}

pub fn borders(random: &mut Random) -> Tried {
    for word in 1..=16 {
        for columns in [64 * word - 1, 64 * word, 64 * word + 1] {
            for _ in share::of(0..20) {
                let (rows, columns) = (random.below(150), columns.min(1024));
                let bits = make::matrix(random, rows, columns);
                every_k(random, &bits, columns)?;
            }
        }
    }
    Ok(())
}

/// any shape at all, and any k
pub fn shapes(random: &mut Random) -> Tried {
    for _ in share::rounds(2000) {
        let (rows, columns, k) = (random.below(513), random.between(1, 1024), random.between(1, 8));
        let bits = make::matrix(random, rows, columns);
        make::reduce(random, &bits, columns, k).check()?;
    }
    Ok(())
}

pub fn large(random: &mut Random) -> Tried {
    let shapes = [(512, 1024), (512, 1023), (511, 1024), (512, 512), (512, 513), (512, 65), (512, 1), (1, 1024), (300, 700)];
    for (rows, columns) in shapes {
        for style in share::of(0..6) {
            let bits = if style == 0 { make::dense(random, rows, columns) } else { make::matrix(random, rows, columns) };
            every_k(random, &bits, columns)?;
        }
    }
    Ok(())
}

/// every style with as many rows and columns as there may be
pub fn largest_of_every_style(random: &mut Random) -> Tried {
    for style in share::of(STYLES) {
        let (k, bits) = (random.between(1, 8), style(random, 512, 1024));
        let (answer, form) = make::reduce(random, &bits, 1024, k).check()?;
        let again = plain::to_bits(&form, 512, 1024);
        let (same, twice) = make::reduce(random, &again, 1024, k).check()?;
        ensure(same == answer && twice == form, || "a reduced matrix changes when it is reduced".into())?;
    }
    Ok(())
}
