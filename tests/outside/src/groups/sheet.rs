//! The worked examples, with their answers written down here, and the largest and first too large numbers; empty buffers.

use super::{ensure, Tried};
use crate::bundle_calls::{write, Bundle};
use crate::calls::{self, Contradict, Invert, Reduce, Solve};
use crate::checks::Numbers;
use crate::guarded::with_nulls;
use crate::make;
use crate::plain::{self, Bits};
use crate::plain_bundle::Lists;
use crate::random::Random;
use crate::raw;

/// rows written with column 0 first
fn rows(text: &str) -> Bits {
    text.split_whitespace().map(|row| row.bytes().filter(|&c| c != b'|').map(|c| c - b'0').collect()).collect()
}

struct Example {
    given: &'static str,
    columns: usize,
    k: usize,
    form: &'static str,
    pivots: &'static [u16],
    additions: usize,
}

const REDUCTIONS: [Example; 6] = [
    Example { given: "11 10", columns: 2, k: 1, form: "10 01", pivots: &[0, 1], additions: 2 },
    Example { given: "11 10", columns: 2, k: 2, form: "10 01", pivots: &[0, 1], additions: 3 },
    Example { given: "011 011 000", columns: 3, k: 2, form: "011 000 000", pivots: &[1], additions: 1 },
    Example { given: "", columns: 5, k: 3, form: "", pivots: &[], additions: 0 },
    Example { given: "110 011 101", columns: 3, k: 2, form: "101 011 000", pivots: &[0, 1], additions: 3 },
    Example { given: "110 011 001", columns: 3, k: 1, form: "100 010 001", pivots: &[0, 1, 2], additions: 3 },
];

pub fn reductions(random: &mut Random) -> Tried {
    for example in &REDUCTIONS {
        let input: Reduce = make::reduce(random, &rows(example.given), example.columns, example.k);
        let (answer, form) = input.check()?;
        let right = form == plain::to_words(&rows(example.form), example.columns)
            && answer.additions == example.additions
            && answer.rank == example.pivots.len()
            && answer.pivots.starts_with(example.pivots);
        ensure(right, || format!("reduction of {}", example.given))?;
    }
    let ones = |places: [usize; 2]| (0..72).map(|column| u8::from(places.contains(&column))).collect::<Vec<u8>>();
    for k in 1..=8 {
        let (_, form) = make::reduce(random, &vec![ones([1, 70]), ones([1, 71])], 72, k).check()?;
        ensure(form == plain::to_words(&vec![ones([1, 71]), ones([70, 71])], 72), || "ones at 1, 70 and 1, 71".into())?;
    }
    Ok(())
}

/// packets of three blocks of two bits; their reduced form; marks and blocks, or the packets named where they contradict each other
struct Solving {
    given: &'static str,
    reduced: &'static str,
    told: Result<([u8; 3], &'static str), u64>,
}

const SOLVINGS: [Solving; 7] = [
    Solving { given: "110|10 011|01", reduced: "101|11 011|01", told: Ok(([0, 0, 0], "00 00 00")) },
    Solving { given: "110|10 011|01 001|11", reduced: "100|00 010|10 001|11", told: Ok(([1, 1, 1], "00 10 11")) },
    Solving { given: "110|10 110|10 001|11", reduced: "110|10 001|11 000|00", told: Ok(([0, 0, 1], "00 00 11")) },
    Solving { given: "110|10 011|01 101|10", reduced: "101|10 011|00 000|01", told: Err(7) },
    Solving { given: "000|01", reduced: "000|01", told: Err(1) },
    Solving { given: "000|00", reduced: "000|00", told: Ok(([0, 0, 0], "00 00 00")) },
    Solving { given: "", reduced: "", told: Ok(([0, 0, 0], "00 00 00")) },
];

fn solving(random: &mut Random, example: &Solving, k: usize) -> Tried {
    let input: Solve = make::solve(random, &rows(example.given), 3, 2, k);
    let solved = input.check()?;
    let input: Contradict = make::contradict(random, &rows(example.given), 3, 2, k);
    let (answer, names) = input.check()?;
    let told = match example.told {
        Ok((marks, blocks)) => answer.named == 0 && solved.marks == marks && solved.image == plain::to_words(&rows(blocks), 2),
        Err(packets) => solved.answer.refusal == 10 && answer.named == 1 && names == [packets],
    };
    let left = solved.packets == plain::to_words(&rows(example.reduced), 5);
    ensure(told && left, || format!("packets {}, k = {k}: told rightly {told}, left rightly {left}", example.given))
}

pub fn packets(random: &mut Random) -> Tried {
    for k in 1..=8 {
        for example in &SOLVINGS {
            solving(random, example, k)?;
        }
        let input: Invert = make::invert(random, &rows("110 011 001"), k);
        ensure(input.check()?.1 == Some(rows("111 011 001")), || "inverse of 110, 011, 001".into())?;
        ensure(make::invert(random, &rows("110 011 101"), k).check()?.0 == 9, || "no inverse of 110, 011, 101".into())?;
    }
    Ok(())
}

pub fn limits(random: &mut Random) -> Tried {
    for (rows, columns, k, refusal) in
        [(512, 1024, 8, 0), (513, 1024, 8, 1), (512, 1025, 8, 2), (512, 1024, 0, 3), (512, 1024, 9, 3)]
    {
        let bits = make::dense(random, rows, columns);
        let input = make::reduce(random, &bits, columns, k);
        ensure(input.check()?.0.refusal == refusal, || format!("{rows} x {columns}, k {k}"))?;
    }
    Ok(())
}

/// an empty buffer may come as a null pointer
pub fn empty_buffers(random: &mut Random) -> Tried {
    with_nulls(|| {
        for k in 1..=8 {
            empty_in_matrices(random, k)?;
        }
        empty_in_bundles(random)
    })
}

fn empty_in_matrices(random: &mut Random, k: usize) -> Tried {
    let none = Bits::new();
    ensure(make::reduce(random, &none, 70, k).check()?.0.refusal == 0, || "reduction of no rows".into())?;
    ensure(make::solve(random, &none, 3, 67, k).check()?.marks == [0; 3], || "solving of no packets".into())?;
    let names = make::contradict(random, &none, 3, 67, k).check()?.0;
    ensure(names == raw::Names { refusal: 0, named: 0 }, || "contradiction of no packets".into())?;
    let x = Numbers { rows: 0, columns: 70, n: 0, k };
    let short = Reduce { numbers: x, matrix: Vec::new(), room: Vec::new() }.check()?.0;
    ensure(short.refusal == 6, || "no room at all".into())?;
    let x = Numbers { rows: 2, columns: 2, n: 0, k };
    let square = Invert { numbers: x, matrix: Vec::new(), result: Vec::new(), room: Vec::new() }.check()?.0;
    ensure(square == 4, || "inverse of nothing".into())
}

fn empty_in_bundles(random: &mut Random) -> Tried {
    let empty = Bundle::new(&[]);
    empty.read()?;
    let refused = [empty.refusal(), empty.entry(0)?, empty.unpack(random, 0, 0)?, write(&Lists::default(), &[])?.0.refusal];
    ensure(refused == [20, 20, 20, 21], || format!("bundles of nothing: {refused:?}"))?;
    let no_rows = [1, 0, 1, 0, 0, 0, 5, 0, 12, 0, 0, 0];
    ensure(Bundle::new(&no_rows).unpack(random, 0, 0)? == 0, || "an entry of no rows".into())?;
    let row = calls::row_view(Numbers { rows: 0, columns: 5, ..Numbers::default() }, &[], 0)?;
    ensure(row == raw::Row { start: 0, words: 0 }, || "a row of no rows".into())
}
