//! Row views: the row's own place, whatever stands there and elsewhere, or no words at all.

use super::refusals::{every_set, Provoked};
use super::{ensure, Tried};
use crate::calls;
use crate::checks::Numbers;
use crate::make::{self, BORDERS};
use crate::plain::{to_words, words_of};
use crate::random::Random;
use crate::share;

const ORDER: [u64; 4] = [1, 2, 4, 12];

fn shape(rows: usize, columns: usize) -> Numbers {
    Numbers { rows, columns, ..Numbers::default() }
}

/// every row of a matrix at its own place and with its own words; none past the last
fn every_row(matrix: &[u64], rows: usize, columns: usize) -> Tried {
    let width = words_of(columns);
    for (i, own) in matrix.chunks(width).enumerate() {
        let view = calls::row_view(shape(rows, columns), matrix, i)?;
        let shown = &matrix[view.start..view.start + view.words];
        ensure(shown == own && view.start == i * width, || format!("{rows} x {columns}: another row than {i} is shown"))?;
    }
    for i in [rows, rows + 1, rows + 64, 1 << 32, 1 << 58, 1 << 63, usize::MAX - 1, usize::MAX] {
        let view = calls::row_view(shape(rows, columns), matrix, i)?;
        ensure(view.words == 0, || format!("{rows} x {columns}: row {i} is shown"))?;
    }
    Ok(())
}

/// rows that repeat each other, so that only the place tells them apart; with clean padding, and with junk in it
pub fn repeated_rows(random: &mut Random) -> Tried {
    for columns in BORDERS {
        for rows in [0, 1, 2, 3, 7, 20] {
            let width = words_of(columns);
            let (one, other) = (random.words(width), random.words(width));
            every_row(&one.repeat(rows), rows, columns)?;
            every_row(&vec![0; rows * width], rows, columns)?;
            every_row(&[&one[..], &other].concat().repeat(rows), 2 * rows, columns)?;
            let bits = make::matrix(random, rows, columns);
            every_row(&to_words(&bits, columns), rows, columns)?;
            every_row(&random.words(rows * width), rows, columns)?;
        }
    }
    for columns in [1, 64, 65, 1024] {
        let row = random.words(words_of(columns));
        every_row(&row.repeat(512), 512, columns)?;
    }
    Ok(())
}

/// a number at and past each bound, each with each, with a length that fits and others, and indices up to the last there is
pub fn grid(random: &mut Random) -> Tried {
    let numbers_of_rows = [0, 1, 2, 3, 64, 511, 512, 513, 514, 1 << 32, (1 << 63) - 1, 1 << 63, usize::MAX];
    let numbers_of_columns = [0, 1, 63, 64, 65, 127, 128, 129, 1023, 1024, 1025, 1088, 1 << 63, usize::MAX];
    for rows in numbers_of_rows {
        for columns in numbers_of_columns {
            let whole = shape(rows.min(514), columns.min(1088)).matrix_words() as usize;
            for length in share::of([whole, whole + 1, whole.saturating_sub(1), 0]) {
                let matrix = random.words(length);
                for i in [0, 1, rows / 2, rows.wrapping_sub(1), rows, rows.wrapping_add(1), 1 << 58, 1 << 63, usize::MAX] {
                    calls::row_view(shape(rows, columns), &matrix, i)?;
                }
            }
        }
    }
    Ok(())
}

fn provoking(random: &mut Random, provoked: &Provoked) -> (Numbers, Vec<u64>, usize) {
    let rows = if provoked.has(1) { random.of(&[513, 514, 1 << 32, usize::MAX]) } else { random.between(1, 20) };
    let columns = if provoked.has(2) { random.of(&[0, 1025, 1 << 63, usize::MAX]) } else { random.of(&BORDERS) };
    let whole = shape(rows.min(520), columns.min(1088)).matrix_words() as usize;
    let wrong = random.of(&[whole + 1, whole.wrapping_sub(1), 2 * whole + 1, whole + 64]);
    let length = if provoked.has(4) && wrong < 100_000 { wrong } else { whole + usize::from(provoked.has(4)) };
    let past = random.of(&[rows, rows.saturating_add(1), usize::MAX]);
    let i = if provoked.has(12) { past } else { random.below(rows.min(600)) };
    (shape(rows, columns), random.words(length), i)
}

/// every set of refusals: a view shows words exactly if none applies (it tells no number)
pub fn refusals(random: &mut Random) -> Tried {
    every_set(&ORDER, 500, |provoked| {
        let (x, matrix, i) = provoking(random, provoked);
        let shown = calls::row_view(x, &matrix, i)?.words != 0;
        ensure(shown == (provoked.first() == 0), || format!("{x:?}, {} words, row {i}: shown {shown}", matrix.len()))?;
        Ok(provoked.first())
    })
}
