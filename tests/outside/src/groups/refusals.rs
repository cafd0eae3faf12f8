//! Every set of refusals that can be provoked together, call by call: the first in the call's order is the answer. That nothing
//! changed is seen where the call is held to the model.

use super::{ensure, Tried};
use crate::calls::{Contradict, Invert, Reduce, Solve};
use crate::checks::Numbers;
use crate::make;
use crate::plain::{self, words_of, Bits};
use crate::random::Random;
use crate::share;

const REDUCE: [u64; 6] = [1, 2, 3, 4, 6, 5];
const INVERT: [u64; 9] = [1, 2, 8, 3, 4, 13, 6, 5, 9];
const SOLVE: [u64; 9] = [1, 2, 7, 3, 4, 13, 6, 5, 10];
const CONTRADICTION: [u64; 9] = [1, 2, 7, 11, 3, 4, 13, 6, 5];

/// lengths of buffers that no call reaches, because a number is out of range
const CAP: u128 = 20_000;

/// the refusals to provoke: those of the order whose bit is set
pub struct Provoked<'a> {
    order: &'a [u64],
    set: usize,
}

impl Provoked<'_> {
    /// whether the refusal at that place of the order is provoked
    pub fn at(&self, place: usize) -> bool {
        self.set >> place & 1 == 1
    }

    pub fn has(&self, number: u64) -> bool {
        self.order.iter().enumerate().any(|(place, &other)| other == number && self.at(place))
    }

    pub fn first(&self) -> u64 {
        (0..self.order.len()).find(|&place| self.at(place)).map_or(0, |place| self.order[place])
    }
}

pub fn every_set(order: &[u64], rounds: usize, mut answer: impl FnMut(&Provoked) -> Result<u64, String>) -> Tried {
    for _ in share::rounds(rounds) {
        for set in 0..1 << order.len() {
            let provoked = Provoked { order, set };
            let got = answer(&provoked)?;
            let wanted = provoked.first();
            ensure(got == wanted, || format!("refusal {got} where {wanted} was provoked first (set {set:b})"))?;
        }
    }
    Ok(())
}

fn wrong_length(random: &mut Random, right: usize) -> usize {
    let other = random.of(&[right + 1, right.wrapping_sub(1), 0, 2 * right + 1, right + 16]);
    if other == right || other > 100_000 {
        right + 1
    } else {
        other
    }
}

fn length(random: &mut Random, right: u128, wrong: bool) -> usize {
    let right = right.min(CAP) as usize;
    if wrong {
        wrong_length(random, right)
    } else {
        right
    }
}

/// columns in the given range that leave padding in the last word
fn padded_columns(random: &mut Random, low: usize, high: usize) -> usize {
    let columns = random.between(low, high);
    if columns % 64 == 0 {
        columns - 1
    } else {
        columns
    }
}

fn numbers(random: &mut Random, provoked: &Provoked, rows: usize, columns: usize) -> Numbers {
    let rows = if provoked.has(1) { random.of(&[513, 513, 514, 1 << 32, 1 << 63, usize::MAX]) } else { rows };
    let columns = if provoked.has(2) { random.of(&[0, 1025, 1025, 1088, 1 << 63, usize::MAX]) } else { columns };
    let k = if provoked.has(3) { random.of(&[0, 9, 9, 64, 65, 1 << 32, usize::MAX]) } else { random.between(1, 8) };
    let n = match columns {
        0 | 1 => 1,
        _ => random.between(1, columns.min(1024) - 1),
    };
    let n = if provoked.has(7) { random.of(&[0, columns, columns.saturating_add(1), usize::MAX]) } else { n };
    Numbers { rows, columns, n, k }
}

fn matrix(random: &mut Random, provoked: &Provoked, x: Numbers, content: impl FnOnce(&mut Random) -> Bits) -> Vec<u64> {
    let fits = x.rows <= 512 && (1..=1024).contains(&x.columns);
    let whole = x.matrix_words().min(CAP) as usize;
    let mut words = if fits { plain::to_words(&content(random), x.columns) } else { random.words(whole) };
    if provoked.has(4) {
        words.resize(wrong_length(random, whole), 0);
    }
    let width = words_of(x.columns);
    if provoked.has(5) && x.columns % 64 != 0 && width <= words.len() {
        let row = random.below(words.len() / width);
        words[row * width + width - 1] |= 1 << random.between(x.columns % 64, 63);
    }
    words
}

fn room(random: &mut Random, provoked: &Provoked, needed: u128) -> Vec<u64> {
    let needed = needed.min(CAP) as usize;
    let short = needed.saturating_sub(1);
    let length = if provoked.has(6) { random.of(&[short, short, needed / 2, 0]) } else { needed + random.below(3) };
    random.words(length)
}

pub fn reduce(random: &mut Random) -> Tried {
    every_set(&REDUCE, 120, |provoked| {
        let (rows, columns) = (random.between(1, 20), padded_columns(random, 1, 200));
        let x = numbers(random, provoked, rows, columns);
        let matrix = matrix(random, provoked, x, |random| make::matrix(random, x.rows, x.columns));
        let room = room(random, provoked, x.reduce_room());
        Ok(Reduce { numbers: x, matrix, room }.check()?.0.refusal)
    })
}

pub fn invert(random: &mut Random) -> Tried {
    every_set(&INVERT, 16, |provoked| {
        let size = padded_columns(random, 2, 90);
        let rows = if provoked.has(8) { random.of(&[size - 1, size + 1]) } else { size };
        let x = numbers(random, provoked, rows, size);
        let matrix = matrix(random, provoked, x, |random| match x.rows == x.columns {
            true if provoked.has(9) => vec![vec![1; x.columns]; x.rows],
            true => make::invertible(random, x.rows),
            false => make::dense(random, x.rows, x.columns),
        });
        let result = length(random, x.matrix_words(), provoked.has(13));
        let result = random.words(result);
        let room = room(random, provoked, x.invert_room());
        Ok(Invert { numbers: x, matrix, result, room }.check()?.0)
    })
}

/// packets of the shape given; contradictory if 10 is to be provoked
fn packets(random: &mut Random, provoked: &Provoked, x: Numbers) -> Bits {
    if x.n == 0 || x.n >= x.columns {
        return make::dense(random, x.rows, x.columns);
    }
    let mut list = make::honest_packets(random, x.rows, x.n, x.columns - x.n);
    if provoked.has(10) {
        let row = random.below(x.rows);
        list[row] = vec![0; x.columns];
        list[row][random.between(x.n, x.columns - 1)] = 1;
    }
    list
}

pub fn solve(random: &mut Random) -> Tried {
    every_set(&SOLVE, 16, |provoked| {
        let (rows, columns) = (random.between(1, 20), padded_columns(random, 2, 200));
        let x = numbers(random, provoked, rows, columns);
        let packets_words = matrix(random, provoked, x, |random| packets(random, provoked, x));
        let both = random.below(3);
        let image = length(random, x.image_words(), provoked.has(13) && both != 0);
        let marks = length(random, x.n as u128, provoked.has(13) && both != 1);
        let (image, marks) = (random.words(image), random.bytes(marks));
        let room = room(random, provoked, x.reduce_room());
        Ok(Solve { numbers: x, packets: packets_words, image, marks, room }.check()?.answer.refusal)
    })
}

pub fn contradiction(random: &mut Random) -> Tried {
    every_set(&CONTRADICTION, 12, |provoked| {
        let wide = padded_columns(random, 513, 1000);
        let narrow = padded_columns(random, 2, 200);
        let (rows, columns) = if provoked.has(11) { (1025 - wide, wide) } else { (random.between(1, 20), narrow) };
        let x = numbers(random, provoked, rows, columns);
        let packets_words = matrix(random, provoked, x, |random| packets(random, provoked, x));
        let names = length(random, x.names_words(), provoked.has(13));
        let names = random.words(names);
        let room = room(random, provoked, x.contradiction_room());
        Ok(Contradict { numbers: x, packets: packets_words, names, room }.check()?.0.refusal)
    })
}
