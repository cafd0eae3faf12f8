//! Two lists of packets, of which the second has every packet of the first: a longer one knows as much, and order and repeats
//! change nothing. The second is solved with any k.

use super::{ensure, Tried};
use crate::calls::Solved;
use crate::listed::{self, Listed, CHANGES};
use crate::make;
use crate::plain::{words_of, Bits};
use crate::random::Random;
use crate::share;

fn solve(random: &mut Random, bits: &Bits, n: usize, p: usize) -> Result<Solved, String> {
    let k = random.between(1, 8);
    make::solve(random, bits, n, p, k).check()
}

fn still_known(first: &Solved, second: &Solved, n: usize, p: usize) -> bool {
    let width = words_of(p);
    let block = |solved: &Solved, b: usize| solved.image[b * width..(b + 1) * width].to_vec();
    (0..n).all(|b| first.marks[b] == 0 || (second.marks[b] == 1 && block(first, b) == block(second, b)))
}

/// a large list now and then
fn shape(random: &mut Random, round: usize) -> (usize, usize, usize) {
    match round % 400 {
        0 => (480, 512, 65),
        1..=99 => (random.of(&[0, 1, 2, 5, 20, 64]), random.of(&[1, 2, 3, 64, 65]), random.of(&[1, 2, 63, 64, 65, 128])),
        _ => {
            let n = random.between(1, 40);
            (random.below(n + 6), n, random.between(1, 70))
        }
    }
}

/// all packets, some of them more than once, in any order
fn repeated(random: &mut Random, list: &[Vec<u8>], most: usize) -> Bits {
    let mut other = list.to_vec();
    for _ in 0..random.below(most + 1) {
        if !list.is_empty() {
            other.push(list[random.below(list.len())].clone());
        }
    }
    make::shuffle(random, &mut other);
    other
}

/// the second list has more packets, repeats, and another order
fn grown(random: &mut Random, list: &Listed, rows: usize, p: usize) -> Tried {
    let n = list.image.len();
    let longer = repeated(random, &list.packets, 6);
    let first = solve(random, &list.packets[..rows].to_vec(), n, p)?;
    let second = solve(random, &longer, n, p)?;
    let kept = match (first.answer.refusal, second.answer.refusal) {
        (0, 0) => still_known(&first, &second, n, p),
        (_, 10) => !list.still_true,
        _ => false,
    };
    ensure(kept, || format!("n {n}, p {p}, {rows} packets: lost among {}", longer.len()))
}

pub fn growths(random: &mut Random) -> Tried {
    for round in share::rounds(8000) {
        let (rows, n, p) = shape(random, round);
        let more = random.below(25);
        let list = listed::changed(random, (rows + more, n, p), round % CHANGES);
        grown(random, &list, rows, p)?;
    }
    Ok(())
}

pub fn order_and_repeats(random: &mut Random) -> Tried {
    for round in share::rounds(8000) {
        let (rows, n, p) = shape(random, round);
        let list = listed::changed(random, (rows, n, p), round % CHANGES).packets;
        let other = repeated(random, &list, (rows / 2).min(512 - rows));
        let (first, second) = (solve(random, &list, n, p)?, solve(random, &other, n, p)?);
        let refused = first.answer.refusal == 10;
        let same = first.answer.refusal == second.answer.refusal
            && first.answer.rank == second.answer.rank
            && first.answer.known == second.answer.known
            && first.answer.pivots == second.answer.pivots
            && second.packets.starts_with(&first.packets)
            && second.packets[first.packets.len()..].iter().all(|&word| word == 0)
            && (refused || (first.marks == second.marks && first.image == second.image));
        ensure(same, || format!("n {n}, p {p}, {rows} packets: order or repeats made a difference"))?;
    }
    Ok(())
}
