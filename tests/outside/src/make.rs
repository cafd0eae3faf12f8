//! Inputs that pass the checks: matrices of many styles, and the buffers that a call is lent, full of junk.

use crate::calls::{Contradict, Invert, Reduce, Solve};
use crate::checks::Numbers;
use crate::listed;
use crate::plain::{self, Bits};
use crate::random::Random;

/// numbers of columns around the borders of words
pub const BORDERS: [usize; 22] = [1, 2, 7, 8, 9, 31, 62, 63, 64, 65, 66, 72, 127, 128, 129, 191, 192, 193, 512, 1022, 1023, 1024];

pub fn dense(random: &mut Random, rows: usize, columns: usize) -> Bits {
    (0..rows).map(|_| (0..columns).map(|_| (random.word() >> 40 & 1) as u8).collect()).collect()
}

fn sparse(random: &mut Random, rows: usize, columns: usize) -> Bits {
    (0..rows).map(|_| (0..columns).map(|_| u8::from(random.one_in(1 + columns.min(24)))).collect()).collect()
}

/// a few ones in a whole row, and rows without any
fn lone_ones(random: &mut Random, rows: usize, columns: usize) -> Bits {
    (0..rows).map(|_| (0..columns).map(|_| u8::from(random.one_in(4 * columns))).collect()).collect()
}

/// ones on the diagonal and nothing right of it
pub fn lower(random: &mut Random, rows: usize, columns: usize) -> Bits {
    triangle(dense(random, rows, columns), |row, column| column < row)
}

/// ones on the diagonal and nothing left of it
pub fn upper(random: &mut Random, rows: usize, columns: usize) -> Bits {
    triangle(dense(random, rows, columns), |row, column| column > row)
}

fn triangle(mut bits: Bits, kept: impl Fn(usize, usize) -> bool) -> Bits {
    for (row, list) in bits.iter_mut().enumerate() {
        for (column, bit) in list.iter_mut().enumerate() {
            *bit = if kept(row, column) { *bit } else { u8::from(row == column) };
        }
    }
    bits
}

/// any order
pub fn shuffle<T>(random: &mut Random, list: &mut [T]) {
    for place in 1..list.len() {
        list.swap(place, random.below(place + 1));
    }
}

/// exactly that rank, which must not be above rows or columns; the pivots stand anywhere
pub fn of_rank(random: &mut Random, rows: usize, columns: usize, rank: usize) -> Bits {
    if rank == 0 {
        return vec![vec![0; columns]; rows];
    }
    let mut order: Vec<usize> = (0..columns).collect();
    shuffle(random, &mut order);
    let mut bits = plain::product(&lower(random, rows, rank), &upper(random, rank, columns));
    shuffle(random, &mut bits);
    bits.into_iter().map(|row| order.iter().map(|&column| row[column]).collect()).collect()
}

fn of_low_rank(random: &mut Random, rows: usize, columns: usize) -> Bits {
    let rank = random.below(1 + rows.min(columns).min(6));
    of_rank(random, rows, columns, rank)
}

fn of_any_rank(random: &mut Random, rows: usize, columns: usize) -> Bits {
    let rank = random.below(1 + rows.min(columns));
    of_rank(random, rows, columns, rank)
}

fn of_half_rank(random: &mut Random, rows: usize, columns: usize) -> Bits {
    of_rank(random, rows, columns, rows.min(columns) / 2)
}

fn of_full_rank(random: &mut Random, rows: usize, columns: usize) -> Bits {
    of_rank(random, rows, columns, rows.min(columns))
}

fn repeated(random: &mut Random, rows: usize, columns: usize) -> Bits {
    let few = dense(random, 1 + rows / 3, columns);
    (0..rows).map(|_| few[random.below(few.len())].clone()).collect()
}

/// each odd row repeats the row before it
fn in_pairs(random: &mut Random, rows: usize, columns: usize) -> Bits {
    let half = dense(random, rows / 2 + 1, columns);
    (0..rows).map(|row| half[row / 2].clone()).collect()
}

/// ones on a falling line, right of a random start, with some steps left out
fn stairs(random: &mut Random, rows: usize, columns: usize) -> Bits {
    let start = random.below(columns);
    (0..rows).map(|row| (0..columns).map(|column| u8::from(column == start + row && column % 5 != 2)).collect()).collect()
}

fn zeros(_: &mut Random, rows: usize, columns: usize) -> Bits {
    vec![vec![0; columns]; rows]
}

fn ones(_: &mut Random, rows: usize, columns: usize) -> Bits {
    vec![vec![1; columns]; rows]
}

fn diagonal(_: &mut Random, rows: usize, columns: usize) -> Bits {
    (0..rows).map(|row| (0..columns).map(|column| u8::from(column == row)).collect()).collect()
}

/// one row as it is, the others different only from that column on
fn apart_from(random: &mut Random, rows: usize, columns: usize, first: usize) -> Bits {
    let head = dense(random, 1, first.min(columns)).remove(0);
    let row = |random: &mut Random| [head.clone(), dense(random, 1, columns - head.len()).remove(0)].concat();
    (0..rows).map(|_| row(random)).collect()
}

fn apart_past_the_first_word(random: &mut Random, rows: usize, columns: usize) -> Bits {
    apart_from(random, rows, columns, 64)
}

fn apart_in_the_last_word(random: &mut Random, rows: usize, columns: usize) -> Bits {
    apart_from(random, rows, columns, (columns - 1) / 64 * 64)
}

/// ones only in the last ten columns
fn late(random: &mut Random, rows: usize, columns: usize) -> Bits {
    let mut bits = dense(random, rows, columns);
    bits.iter_mut().for_each(|row| row[..columns.saturating_sub(10)].fill(0));
    bits
}

pub type Style = fn(&mut Random, usize, usize) -> Bits;

pub const STYLES: [Style; 18] = [
    dense,
    sparse,
    lone_ones,
    lower,
    upper,
    of_low_rank,
    of_any_rank,
    of_half_rank,
    of_full_rank,
    repeated,
    in_pairs,
    stairs,
    zeros,
    ones,
    diagonal,
    apart_past_the_first_word,
    apart_in_the_last_word,
    late,
];

/// a dense matrix, or one of any style
pub fn matrix(random: &mut Random, rows: usize, columns: usize) -> Bits {
    let style: Style = if random.one_in(3) { dense } else { random.of(&STYLES) };
    style(random, rows, columns)
}

/// a matrix that has an inverse: rows of the identity, in any order, each added to others
pub fn invertible(random: &mut Random, size: usize) -> Bits {
    let mut bits = plain::identity(size);
    shuffle(random, &mut bits);
    for step in 0..size * 4 {
        let (target, source) = (step % size, random.below(size));
        if target != source {
            let added = bits[source].clone();
            bits[target].iter_mut().zip(&added).for_each(|(bit, other)| *bit ^= other);
        }
    }
    bits
}

/// packets that some image meets
pub fn honest_packets(random: &mut Random, rows: usize, n: usize, p: usize) -> Bits {
    listed::honest(random, matrix, rows, n, p).1
}

/// honest packets, or such with some bits turned, or any rows at all
pub fn packets(random: &mut Random, rows: usize, n: usize, p: usize) -> Bits {
    if random.one_in(4) {
        return matrix(random, rows, n + p);
    }
    let mut list = honest_packets(random, rows, n, p);
    if rows > 0 && random.one_in(3) {
        list[random.below(rows)][n + random.below(p)] ^= 1;
    }
    list
}

fn room(random: &mut Random, needed: u128) -> Vec<u64> {
    let extra = random.of(&[0, 0, 1, 2, 7, 99]);
    random.words(needed as usize + extra)
}

pub fn reduce(random: &mut Random, bits: &Bits, columns: usize, k: usize) -> Reduce {
    let numbers = Numbers { rows: bits.len(), columns, k, n: 0 };
    Reduce { numbers, matrix: plain::to_words(bits, columns), room: room(random, numbers.reduce_room()) }
}

pub fn invert(random: &mut Random, bits: &Bits, k: usize) -> Invert {
    let numbers = Numbers { rows: bits.len(), columns: bits.len(), k, n: 0 };
    let result = random.words(numbers.matrix_words() as usize);
    Invert { numbers, matrix: plain::to_words(bits, bits.len()), result, room: room(random, numbers.invert_room()) }
}

pub fn solve(random: &mut Random, bits: &Bits, n: usize, p: usize, k: usize) -> Solve {
    let numbers = Numbers { rows: bits.len(), columns: n + p, k, n };
    Solve {
        numbers,
        packets: plain::to_words(bits, n + p),
        image: random.words(numbers.image_words() as usize),
        marks: random.bytes(n),
        room: room(random, numbers.reduce_room()),
    }
}

pub fn contradict(random: &mut Random, bits: &Bits, n: usize, p: usize, k: usize) -> Contradict {
    let numbers = Numbers { rows: bits.len(), columns: n + p, k, n };
    let names = random.words(numbers.names_words() as usize);
    Contradict { numbers, packets: plain::to_words(bits, n + p), names, room: room(random, numbers.contradiction_room()) }
}
