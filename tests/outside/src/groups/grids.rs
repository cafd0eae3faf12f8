//! Numbers at and past each bound, each with each, with lengths that fit or not and padding that is clean or not.

use super::Tried;
use crate::calls::{Contradict, Invert, Reduce, Solve};
use crate::checks::Numbers;
use crate::plain::words_of;
use crate::random::Random;
use crate::share;

/// half of the numbers there are, and the last one
const HALF: usize = 1 << 63;
const LAST: usize = usize::MAX;

/// taken apart, it chooses an item of each list: the numbers below the product of the lengths are all the choices
pub struct Case(pub usize);

impl Case {
    pub fn of<T: Copy>(&mut self, list: &[T]) -> T {
        let item = list[self.0 % list.len()];
        self.0 /= list.len();
        item
    }

    /// the length asked for, in three cases of six; one short, one long, or none
    fn length(&mut self, asked: u128) -> usize {
        let asked = asked as usize;
        self.of(&[asked, asked, asked, asked.saturating_sub(1), asked + 1, 0])
    }
}

const K: [usize; 8] = [1, 4, 8, 0, 9, 64, HALF, LAST];

/// rows, columns and blocks
const SQUARES: [(usize, usize, usize); 24] = [
    (0, 0, 0),
    (0, 1, 0),
    (1, 0, 0),
    (1, 1, 0),
    (1, 2, 0),
    (2, 1, 0),
    (3, 3, 0),
    (3, 67, 0),
    (63, 63, 0),
    (64, 64, 0),
    (65, 65, 0),
    (65, 64, 0),
    (127, 127, 0),
    (512, 512, 0),
    (512, 513, 0),
    (513, 513, 0),
    (513, 0, 0),
    (512, 1024, 0),
    (3, 1025, 0),
    (HALF, HALF, 0),
    (LAST, LAST, 0),
    (LAST, 1, 0),
    (1, LAST, 0),
    (HALF, 0, 0),
];

const LISTS: [(usize, usize, usize); 38] = [
    (0, 0, 0),
    (0, 2, 1),
    (1, 1, 1),
    (1, 1, 0),
    (2, 2, 1),
    (3, 5, 3),
    (3, 63, 1),
    (3, 64, 63),
    (64, 63, 1),
    (65, 64, 63),
    (3, 65, 64),
    (3, 65, 0),
    (3, 65, 65),
    (3, 65, 66),
    (5, 131, 2),
    (0, 1023, 2),
    (0, 1024, 1023),
    (1, 1023, 1022),
    (1, 1024, 512),
    (2, 1023, 1023),
    (3, 1024, 1023),
    (3, 1025, 7),
    (3, 1025, 0),
    (3, 0, LAST),
    (513, 65, 9),
    (513, 0, 9),
    (511, 67, 9),
    (512, 65, 0),
    (512, 513, 9),
    (512, 1024, 0),
    (LAST, LAST, LAST),
    (HALF, HALF, 1),
    (LAST, 3, 1),
    (3, LAST, 1),
    (3, HALF, HALF - 1),
    (3, 100, LAST),
    (100, 925, 500),
    (512, 1023, 500),
];

fn numbers(case: &mut Case, list: &[(usize, usize, usize)]) -> Numbers {
    let (rows, columns, n) = case.of(list);
    Numbers { rows, columns, n, k: case.of(&K) }
}

/// cut down to what is worth lending where a number is far past its bound
fn cut(x: Numbers) -> Numbers {
    Numbers { rows: x.rows.min(513), columns: x.columns.min(1088), n: x.n.min(1025), k: x.k.min(8) }
}

/// any words with clean padding; then a padding bit is set or none: the first or the last one, in the first, middle or last row
fn matrix(random: &mut Random, case: &mut Case, x: Numbers) -> Vec<u64> {
    let length = case.length(cut(x).matrix_words());
    let mut words = random.words(length);
    let (width, used) = (words_of(cut(x).columns), x.columns % 64);
    let (dirty, middle, last) = case.of(&[(0, 0, 0), (1 << 63, 0, 0), (1 << 63, 1, 0), (1 << 63, 0, 1), (1 << used, 0, 1)]);
    if used != 0 && width <= length {
        words.chunks_mut(width).filter(|row| row.len() == width).for_each(|row| row[width - 1] %= 1 << used);
        let rows = length / width;
        words[(middle * (rows / 2) + last * (rows - 1)) * width + width - 1] |= dirty;
    }
    words
}

pub fn reduce(random: &mut Random) -> Tried {
    let rows = [0, 1, 3, 512, 513, HALF - 1, HALF, LAST];
    let columns = [0, 1, 63, 64, 65, 1023, 1024, 1025, HALF, LAST];
    for number in share::of(0..8 * 10 * 8 * 6 * 5 * 6) {
        let mut case = Case(number);
        let x = Numbers { rows: case.of(&rows), columns: case.of(&columns), n: 0, k: case.of(&K) };
        let matrix = matrix(random, &mut case, x);
        let room = random.words(case.length(cut(x).reduce_room()));
        Reduce { numbers: x, matrix, room }.check()?;
    }
    Ok(())
}

/// each eleventh choice: no length of a list has that factor, so that every item meets every other
pub fn invert(random: &mut Random) -> Tried {
    for number in share::of((0..24 * 8 * 6 * 5 * 6 * 6).step_by(11)) {
        let mut case = Case(number);
        let x = numbers(&mut case, &SQUARES);
        let matrix = matrix(random, &mut case, x);
        let result = random.words(case.length(cut(x).matrix_words()));
        let room = random.words(case.length(cut(x).invert_room()));
        Invert { numbers: x, matrix, result, room }.check()?;
    }
    Ok(())
}

/// each forty-third choice
pub fn solve(random: &mut Random) -> Tried {
    for number in share::of((0..38 * 8 * 6 * 5 * 6 * 6 * 6).step_by(43)) {
        let mut case = Case(number);
        let x = numbers(&mut case, &LISTS);
        let packets = matrix(random, &mut case, x);
        let image = random.words(case.length(cut(x).image_words()));
        let marks = random.bytes(case.length(cut(x).n as u128));
        let room = random.words(case.length(cut(x).reduce_room()));
        Solve { numbers: x, packets, image, marks, room }.check()?;
    }
    Ok(())
}

/// each thirteenth choice
pub fn contradiction(random: &mut Random) -> Tried {
    for number in share::of((0..38 * 8 * 6 * 5 * 6 * 6).step_by(13)) {
        let mut case = Case(number);
        let x = numbers(&mut case, &LISTS);
        let packets = matrix(random, &mut case, x);
        let names = random.words(case.length(cut(x).names_words()));
        let room = random.words(case.length(cut(x).contradiction_room()));
        Contradict { numbers: x, packets, names, room }.check()?;
    }
    Ok(())
}
