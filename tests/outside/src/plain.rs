//! The plain model of the matrix calls, bit by bit, from the description alone: no tables, no words of 64 columns.

/// a row is a list of zeros and ones, column 0 first
pub type Bits = Vec<Vec<u8>>;

/// what solving tells by trying every image: the content of each block on which all agree; nothing if no image meets the packets
pub type Agreed = Option<Vec<Option<Vec<u8>>>>;

pub const NO_PIVOT: u16 = 65_535;

#[derive(Clone, Debug, PartialEq)]
pub struct Answer {
    pub refusal: u64,
    pub rank: usize,
    pub known: usize,
    pub additions: usize,
    pub pivots: Vec<u16>,
}

impl Answer {
    pub fn refused(refusal: u64) -> Answer {
        Answer { refusal, rank: 0, known: 0, additions: 0, pivots: vec![NO_PIVOT; 512] }
    }

    fn told(pivots: &[usize], columns: usize, k: usize, known: usize) -> Answer {
        let mut list = vec![NO_PIVOT; 512];
        for (place, &pivot) in pivots.iter().enumerate() {
            list[place] = pivot as u16;
        }
        Answer { refusal: 0, rank: pivots.len(), known, additions: additions(pivots, columns, k), pivots: list }
    }
}

pub fn words_of(columns: usize) -> usize {
    columns / 64 + usize::from(columns % 64 != 0)
}

pub fn to_bits(words: &[u64], rows: usize, columns: usize) -> Bits {
    let width = words_of(columns);
    let bit = |row: usize, column: usize| (words[row * width + column / 64] >> (column % 64) & 1) as u8;
    (0..rows).map(|row| (0..columns).map(|column| bit(row, column)).collect()).collect()
}

pub fn to_words(bits: &Bits, columns: usize) -> Vec<u64> {
    let width = words_of(columns);
    let mut words = vec![0; bits.len() * width];
    for (row, list) in bits.iter().enumerate() {
        for (column, &bit) in list.iter().enumerate() {
            words[row * width + column / 64] |= u64::from(bit) << (column % 64);
        }
    }
    words
}

fn add_row(bits: &mut Bits, target: usize, source: usize) {
    let added = bits[source].clone();
    for (bit, other) in bits[target].iter_mut().zip(&added) {
        *bit ^= other;
    }
}

/// a reduced form and its pivots
pub type Reduced = (Bits, Vec<usize>);

/// one column after the other
pub fn reduced(matrix: &Bits, columns: usize) -> Reduced {
    let mut bits = matrix.clone();
    let mut pivots = Vec::new();
    for column in 0..columns {
        let top = pivots.len();
        let found = match (top..bits.len()).find(|&row| bits[row][column] == 1) {
            Some(row) => row,
            None => continue,
        };
        bits.swap(top, found);
        for row in 0..bits.len() {
            if row != top && bits[row][column] == 1 {
                add_row(&mut bits, row, top);
            }
        }
        pivots.push(column);
    }
    (bits, pivots)
}

/// sum over the windows of 2^(pivots in the window) - 1
pub fn additions(pivots: &[usize], columns: usize, k: usize) -> usize {
    let inside = |window: usize| pivots.iter().filter(|&&pivot| pivot / k == window).count();
    (0..=columns / k).map(|window| (1usize << inside(window)) - 1).sum()
}

pub fn beside_identity(matrix: &Bits) -> Bits {
    let size = matrix.len();
    let unit = |row: usize| (0..size).map(move |column| u8::from(row == column));
    matrix.iter().enumerate().map(|(row, list)| list.iter().copied().chain(unit(row)).collect()).collect()
}

pub fn product(left: &Bits, right: &Bits) -> Bits {
    let columns = right.first().map_or(0, Vec::len);
    let sum = |row: &Vec<u8>| {
        let mut total = vec![0; columns];
        for (factor, other) in row.iter().zip(right) {
            if *factor == 1 {
                total.iter_mut().zip(other).for_each(|(bit, added)| *bit ^= added);
            }
        }
        total
    };
    left.iter().map(sum).collect()
}

pub fn identity(size: usize) -> Bits {
    (0..size).map(|row| (0..size).map(|column| u8::from(row == column)).collect()).collect()
}

pub fn inverse(matrix: &Bits) -> Option<Bits> {
    let size = matrix.len();
    let (both, pivots) = reduced(&beside_identity(matrix), 2 * size);
    let full = pivots.iter().take(size).copied().eq(0..size);
    full.then(|| both.iter().map(|row| row[size..].to_vec()).collect())
}

/// all images tried, for few and short blocks
pub fn agreed_by_images(packets: &Bits, n: usize, p: usize) -> Agreed {
    let block = |image: usize, b: usize| image >> (b * p) & ((1 << p) - 1);
    let number = |bits: &[u8]| bits.iter().rev().fold(0, |value, &bit| value * 2 + usize::from(bit));
    let meets = |image: usize, packet: &Vec<u8>| {
        let sum = (0..n).filter(|&b| packet[b] == 1).fold(0, |sum, b| sum ^ block(image, b));
        sum == number(&packet[n..])
    };
    let all: Vec<usize> = (0..1 << (n * p)).filter(|&image| packets.iter().all(|packet| meets(image, packet))).collect();
    let first = *all.first()?;
    let same = |b: usize| all.iter().all(|&image| block(image, b) == block(first, b));
    let bits = |b: usize| (0..p).map(|i| (block(first, b) >> i & 1) as u8).collect();
    Some((0..n).map(|b| same(b).then(|| bits(b))).collect())
}

/// read off the reduced form: a block is known if some row has that coefficient alone
fn agreed_in(form: &Bits, pivots: &[usize], n: usize) -> Agreed {
    if pivots.iter().any(|&pivot| pivot >= n) {
        return None;
    }
    let mut blocks = vec![None; n];
    for (row, &pivot) in form.iter().zip(pivots) {
        if row[..n].iter().filter(|&&bit| bit == 1).count() == 1 {
            blocks[pivot] = Some(row[n..].to_vec());
        }
    }
    Some(blocks)
}

pub fn agreed_by_reduction(packets: &Bits, n: usize, columns: usize) -> Agreed {
    let (form, pivots) = reduced(packets, columns);
    agreed_in(&form, &pivots, n)
}

/// the packets named, as zeros and ones, if there is a contradiction
pub fn named(packets: &Bits, n: usize, columns: usize) -> Option<Vec<u8>> {
    let (form, pivots) = reduced(&beside_identity(packets), columns + packets.len());
    let row = pivots.iter().position(|&pivot| n <= pivot && pivot < columns)?;
    Some(form[row][columns..].to_vec())
}

/// marks and image of blocks that are known or not
pub fn laid(blocks: &[Option<Vec<u8>>], p: usize) -> (Vec<u8>, Vec<u64>) {
    let marks = blocks.iter().map(|block| u8::from(block.is_some())).collect();
    let contents: Bits = blocks.iter().map(|block| block.clone().unwrap_or_else(|| vec![0; p])).collect();
    (marks, to_words(&contents, p))
}

/// the answer, the marks and the image
type Told = (Answer, Vec<u8>, Vec<u64>);

/// how packets that pass the checks end, and what is told of them unless they contradict each other
pub fn solved(packets: &Bits, columns: usize, n: usize, k: usize) -> (Vec<u64>, Option<Told>) {
    let (form, pivots) = reduced(packets, columns);
    let told = agreed_in(&form, &pivots, n).map(|blocks| {
        let (marks, image) = laid(&blocks, columns - n);
        let known = marks.iter().map(|&mark| usize::from(mark)).sum();
        (Answer::told(&pivots, columns, k, known), marks, image)
    });
    (to_words(&form, columns), told)
}

/// what the reduction answers, and the words that it leaves
pub fn reduction((form, pivots): &Reduced, columns: usize, k: usize) -> (Answer, Vec<u64>) {
    (Answer::told(pivots, columns, k, 0), to_words(form, columns))
}
