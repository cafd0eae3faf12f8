//! Solving against all images, against the image that a list was made from, and against the plain reduction; contradictions, and
//! what the packets named do.

use super::{ensure, Tried};
use crate::calls::Solved;
use crate::listed::{self, Listed, CHANGES};
use crate::make;
use crate::plain::{self, words_of, Bits};
use crate::random::Random;
use crate::share;

/// what solving told, held to all images there are
pub fn all_images(solved: &Solved, bits: &Bits, n: usize, p: usize) -> Tried {
    let agreed = plain::agreed_by_images(bits, n, p);
    ensure(agreed.is_none() == (solved.answer.refusal == 10), || format!("n {n}, p {p}: images say {}", agreed.is_some()))?;
    match agreed {
        Some(blocks) => {
            let same = plain::laid(&blocks, p) == (solved.marks.clone(), solved.image.clone());
            ensure(same, || format!("n {n}, p {p}: not what all images agree on"))
        }
        None => Ok(()),
    }
}

pub fn against_all_images(random: &mut Random) -> Tried {
    for _ in share::rounds(40_000) {
        let n = random.between(1, 6);
        let p = random.between(1, (10 / n).max(1));
        let rows = random.below(8);
        let bits = make::packets(random, rows, n, p);
        let k = random.between(1, 8);
        let solved = make::solve(random, &bits, n, p, k).check()?;
        all_images(&solved, &bits, n, p)?;
    }
    Ok(())
}

pub fn middle(random: &mut Random) -> Tried {
    for _ in share::rounds(15_000) {
        let (n, p) = (random.between(1, 80), random.between(1, 80));
        let rows = random.below(n + 12);
        let bits = make::packets(random, rows, n, p);
        let k = random.between(1, 8);
        make::solve(random, &bits, n, p, k).check()?;
    }
    Ok(())
}

/// named packets have no coefficient left in their sum, and some payload
fn contradict(bits: &Bits, names: &[u64], n: usize) -> bool {
    let row = plain::to_bits(names, 1, bits.len());
    let sum = plain::product(&row, bits).remove(0);
    sum[..n].iter().all(|&bit| bit == 0) && sum[n..].contains(&1)
}

/// whether the contradiction call named packets
pub fn named(random: &mut Random, bits: &Bits, n: usize, p: usize, k: usize) -> Result<bool, String> {
    let (answer, names) = make::contradict(random, bits, n, p, k).check()?;
    if answer.named == 1 {
        ensure(contradict(bits, &names, n), || format!("n {n}, p {p}: the packets named do not contradict each other"))?;
    }
    Ok(answer.named == 1)
}

/// both calls on one list, where it is narrow enough for both: packets are named exactly if solving refuses them
pub fn both_calls(random: &mut Random, bits: &Bits, n: usize, p: usize, k: usize) -> Result<Solved, String> {
    let solved = make::solve(random, bits, n, p, k).check()?;
    if bits.len() + n + p <= 1024 {
        let refused = solved.answer.refusal == 10;
        let found = named(random, bits, n, p, k)?;
        ensure(refused == found, || format!("n {n}, p {p}: solving refused {refused}, named {found}"))?;
    }
    Ok(solved)
}

/// every block that is known is that of the image
fn truthful(solved: &Solved, image: &Bits, p: usize) -> bool {
    let width = words_of(p);
    let right = plain::to_words(image, p);
    let same = |b: usize| solved.image[b * width..(b + 1) * width] == right[b * width..(b + 1) * width];
    solved.answer.refusal == 0 && (0..image.len()).all(|b| solved.marks[b] == 0 || same(b))
}

fn told_rightly(random: &mut Random, list: &Listed, p: usize, k: usize) -> Tried {
    let n = list.image.len();
    let solved = both_calls(random, &list.packets, n, p, k)?;
    let what = || format!("n {n}, p {p}, {} packets: against the image that they were made from", list.packets.len());
    ensure(!list.still_true || truthful(&solved, &list.image, p), what)?;
    ensure(!list.is_false || solved.answer.refusal == 10, what)
}

/// lists of an image, each change of each size, with every k
pub fn changed_small(random: &mut Random) -> Tried {
    for round in share::rounds(20_000) {
        let (rows, n) = (random.of(&[0, 1, 2, 3, 5, 8, 9, 20, 64]), random.of(&[1, 2, 3, 8, 16, 64, 65]));
        let size = (rows, n, random.of(&[1, 2, 3, 63, 64, 65, 128]));
        let list = listed::changed(random, size, round % CHANGES);
        told_rightly(random, &list, size.2, round / CHANGES % 8 + 1)?;
    }
    Ok(())
}

/// many blocks, up to 1,023, with payloads that leave no column over, and some that do
pub fn changed_large(random: &mut Random) -> Tried {
    let mut round = 0;
    for n in [200, 511, 512, 513, 1023] {
        for p in [1, 2, 63, 64, 65, 128, 1024 - n] {
            for rows in share::of([20, 64, 200, 512]) {
                let list = listed::changed(random, (rows, n, p.min(1024 - n)), round % CHANGES);
                let k = random.between(1, 8);
                told_rightly(random, &list, p.min(1024 - n), k)?;
                round += 1;
            }
        }
    }
    Ok(())
}

pub fn large(random: &mut Random) -> Tried {
    let shapes = [(512, 512, 512), (512, 1, 1023), (512, 300, 724), (512, 500, 64), (400, 64, 64), (512, 64, 960), (0, 1023, 1)];
    for (rows, n, p) in shapes {
        for how in share::of(0..CHANGES) {
            let list = listed::changed(random, (rows, n, p), how);
            let k = random.between(1, 8);
            told_rightly(random, &list, p, k)?;
        }
    }
    Ok(())
}

pub fn contradictions_small(random: &mut Random) -> Tried {
    for _ in share::rounds(25_000) {
        let (n, p) = (random.between(1, 9), random.between(1, 9));
        let rows = random.below(14);
        let bits = make::packets(random, rows, n, p);
        let k = random.between(1, 8);
        both_calls(random, &bits, n, p, k)?;
    }
    Ok(())
}

/// packets, blocks and payload bits that are 1,024 together, or nearly
pub fn contradictions_large(random: &mut Random) -> Tried {
    let shapes = [
        (512, 500, 12),
        (512, 12, 500),
        (512, 256, 256),
        (512, 511, 1),
        (512, 1, 511),
        (400, 300, 324),
        (333, 333, 333),
        (200, 64, 760),
        (129, 447, 448),
        (65, 63, 65),
        (64, 896, 64),
        (64, 64, 64),
        (24, 500, 500),
        (1, 1022, 1),
        (1, 1, 1022),
        (0, 1023, 1),
        (0, 1, 1023),
    ];
    for (rows, n, p) in shapes {
        for how in share::of(0..CHANGES) {
            let list = listed::changed(random, (rows, n, p), how);
            let k = random.between(1, 8);
            told_rightly(random, &list, p, k)?;
        }
    }
    Ok(())
}

/// the two plain solvers against each other, so that the one that serves large lists is itself held to the images: no input of the
/// library
pub fn models_agree(random: &mut Random) -> Tried {
    for _ in share::rounds(6000) {
        let n = random.between(1, 5);
        let p = random.between(1, 2);
        let rows = random.below(7);
        let bits = make::packets(random, rows, n, p);
        let same = plain::agreed_by_images(&bits, n, p) == plain::agreed_by_reduction(&bits, n, n + p);
        ensure(same, || format!("n {n}, p {p}: the plain solvers differ"))?;
    }
    Ok(())
}
