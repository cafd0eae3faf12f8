//! Lists of packets made from an image, and changed, so that it is known beforehand what may be told of them.

use crate::make::{self, Style, STYLES};
use crate::plain::{self, Bits};
use crate::random::Random;

pub struct Listed {
    pub image: Bits,
    pub packets: Bits,
    /// the image still meets every packet
    pub still_true: bool,
    /// one packet is met by no image
    pub is_false: bool,
}

/// so many changes there are; the last ones make a list false, or any list at all
pub const CHANGES: usize = 7;

/// packets of an image, with coefficients of that style
pub fn honest(random: &mut Random, style: Style, rows: usize, n: usize, p: usize) -> (Bits, Bits) {
    let (image, coefficients) = (make::matrix(random, n, p), style(random, rows, n));
    let payloads = plain::product(&coefficients, &image);
    let packets = coefficients.into_iter().zip(payloads).map(|(left, right)| [left, right].concat()).collect();
    (image, packets)
}

pub fn changed(random: &mut Random, (rows, n, p): (usize, usize, usize), how: usize) -> Listed {
    let style = random.of(&STYLES);
    let (image, mut packets) = honest(random, style, rows, n, p);
    if rows == 0 {
        return Listed { image, packets, still_true: true, is_false: false };
    }
    let row = random.below(rows);
    match how {
        0 => {}
        1 => make::shuffle(random, &mut packets),
        2 => packets[row].fill(0),
        3 => packets[row][n + random.below(p)] ^= 1,
        4 => packets[row][random.below(n)] ^= 1,
        5 => {
            packets[row].fill(0);
            packets[row][n + random.below(p)] = 1;
        }
        _ => packets = make::matrix(random, rows, n + p),
    }
    Listed { image, packets, still_true: how < 3, is_false: how == 5 }
}
