//! Which refusal a matrix call gives before it works: each call's conditions in their order, with exact numbers of any size.

use crate::plain::words_of;

/// the numbers that a call is given; a field that the call has no use for is 0
#[derive(Clone, Copy, Debug, Default)]
pub struct Numbers {
    pub rows: usize,
    pub columns: usize,
    pub n: usize,
    pub k: usize,
}

fn wide(number: usize) -> u128 {
    number as u128
}

fn width(columns: u128) -> u128 {
    (columns + 63) / 64
}

fn table(k: usize) -> u128 {
    1 << k.min(60)
}

impl Numbers {
    pub fn reduce_room(self) -> u128 {
        table(self.k) * width(wide(self.columns))
    }

    pub fn invert_room(self) -> u128 {
        (wide(self.rows) + table(self.k)) * width(2 * wide(self.rows))
    }

    pub fn contradiction_room(self) -> u128 {
        (wide(self.rows) + table(self.k)) * width(wide(self.columns) + wide(self.rows))
    }

    pub fn matrix_words(self) -> u128 {
        wide(self.rows) * width(wide(self.columns))
    }

    pub fn image_words(self) -> u128 {
        wide(self.n) * width(wide(self.columns.saturating_sub(self.n)))
    }

    pub fn names_words(self) -> u128 {
        width(wide(self.rows))
    }
}

fn dirty(matrix: &[u64], columns: usize) -> bool {
    let used = columns % 64;
    used != 0 && matrix.chunks(words_of(columns)).any(|row| row.len() == words_of(columns) && row[row.len() - 1] >> used != 0)
}

fn first(conditions: &[(u64, bool)]) -> u64 {
    conditions.iter().find(|(_, applies)| *applies).map_or(0, |(number, _)| *number)
}

fn shape(x: Numbers) -> [(u64, bool); 2] {
    [(1, x.rows > 512), (2, x.columns == 0 || x.columns > 1024)]
}

fn bad_k(x: Numbers) -> (u64, bool) {
    (3, x.k == 0 || x.k > 8)
}

fn bad_blocks(x: Numbers) -> (u64, bool) {
    (7, x.n == 0 || x.n >= x.columns)
}

pub fn view(x: Numbers, matrix: &[u64], i: usize) -> u64 {
    let [rows, columns] = shape(x);
    first(&[rows, columns, (4, wide(matrix.len()) != x.matrix_words()), (12, i >= x.rows)])
}

pub fn reduce(x: Numbers, matrix: &[u64], room: usize) -> u64 {
    let [rows, columns] = shape(x);
    let length = (4, wide(matrix.len()) != x.matrix_words());
    first(&[rows, columns, bad_k(x), length, (6, wide(room) < x.reduce_room()), (5, dirty(matrix, x.columns))])
}

pub fn invert(x: Numbers, matrix: &[u64], result: usize, room: usize) -> u64 {
    let [rows, columns] = shape(x);
    let length = (4, wide(matrix.len()) != x.matrix_words());
    let buffer = (13, wide(result) != x.matrix_words());
    let short = (6, wide(room) < x.invert_room());
    first(&[rows, columns, (8, x.rows != x.columns), bad_k(x), length, buffer, short, (5, dirty(matrix, x.columns))])
}

pub fn solve(x: Numbers, matrix: &[u64], image: usize, marks: usize, room: usize) -> u64 {
    let [rows, columns] = shape(x);
    let length = (4, wide(matrix.len()) != x.matrix_words());
    let buffers = (13, wide(image) != x.image_words() || marks != x.n);
    let short = (6, wide(room) < x.reduce_room());
    first(&[rows, columns, bad_blocks(x), bad_k(x), length, buffers, short, (5, dirty(matrix, x.columns))])
}

pub fn contradiction(x: Numbers, matrix: &[u64], names: usize, room: usize) -> u64 {
    let [rows, columns] = shape(x);
    let beside = (11, wide(x.columns) + wide(x.rows) > 1024);
    let length = (4, wide(matrix.len()) != x.matrix_words());
    let buffer = (13, wide(names) != x.names_words());
    let short = (6, wide(room) < x.contradiction_room());
    first(&[rows, columns, bad_blocks(x), beside, bad_k(x), length, buffer, short, (5, dirty(matrix, x.columns))])
}
