//! A matrix in pages that cannot be read: a call that an earlier check than the padding's refuses reads no word of it, however many
//! rows it is told of. One that did would end this program with a fault.

use super::{ensure, Tried};
use crate::count;
use crate::random::Random;
use crate::raw;
use std::ffi::c_void;

extern "C" {
    fn mmap(place: *mut c_void, length: usize, protection: i32, flags: i32, file: i32, offset: i64) -> *mut c_void;
    fn munmap(place: *mut c_void, length: usize) -> i32;
}

const NO_ACCESS: i32 = 0;
const PRIVATE_UNRESERVED: i32 = 0x2 | 0x20 | 0x4000;

/// as many rows of one word as took half a second while their padding was looked at
const MANY: usize = 1 << 27;

/// words that cannot be read or written
struct Unread(*mut u64);

impl Unread {
    fn new() -> Result<Unread, String> {
        let place = unsafe { mmap(std::ptr::null_mut(), MANY * 8, NO_ACCESS, PRIVATE_UNRESERVED, -1, 0) };
        ensure(place as isize != -1, || "no pages".into())?;
        Ok(Unread(place as *mut u64))
    }
}

impl Drop for Unread {
    fn drop(&mut self) {
        unsafe { munmap(self.0 as *mut c_void, MANY * 8) };
    }
}

/// the numbers of a call, how many words it is lent of the matrix, its other buffers and the room, and what it must answer
struct Call {
    rows: usize,
    columns: usize,
    n: usize,
    k: usize,
    words: usize,
    written: usize,
    marks: usize,
    room: usize,
    refusal: u64,
}

/// three packets of 65 columns, 64 of them coefficients, with k = 2: this passes every check but that of the padding
const PASSES: Call = Call { rows: 3, columns: 65, n: 64, k: 2, words: 6, written: 64, marks: 64, room: 8, refusal: 5 };

fn held(what: &str, got: u64, call: &Call) -> Tried {
    ensure(got == call.refusal, || format!("{what}: refusal {got} where {} is due", call.refusal))?;
    count::one();
    Ok(())
}

fn reduce(matrix: &Unread, call: Call) -> Tried {
    let mut room = vec![1; call.room];
    let answer = unsafe {
        let at = room.as_mut_ptr();
        raw::chhayublo_reduce(matrix.0, call.words, call.rows, call.columns, call.k, at, room.len())
    };
    held("reduction", answer.refusal, &call)?;
    ensure(room.iter().all(|&word| word == 1), || "reduction: a refused call wrote to the room".into())
}

fn solve(matrix: &Unread, call: Call) -> Tried {
    let (mut image, mut marks, mut room) = (vec![1; call.written], vec![1; call.marks], vec![1; call.room]);
    let answer = unsafe {
        let (i, b, w) = (image.as_mut_ptr(), marks.as_mut_ptr(), room.as_mut_ptr());
        let (m, words, i_len, b_len, w_len) = (matrix.0, call.words, image.len(), marks.len(), room.len());
        raw::chhayublo_solve(m, words, call.rows, call.columns, call.n, call.k, i, i_len, b, b_len, w, w_len)
    };
    held("solving", answer.refusal, &call)?;
    let kept = image.iter().chain(&room).all(|&word| word == 1) && marks.iter().all(|&mark| mark == 1);
    ensure(kept, || "solving: a refused call wrote to a buffer".into())
}

fn invert(matrix: &Unread, call: Call) -> Tried {
    let (mut result, mut room) = (vec![1; call.written], vec![1; call.room]);
    let got = unsafe {
        let (r, w) = (result.as_mut_ptr(), room.as_mut_ptr());
        raw::chhayublo_invert(matrix.0, call.words, call.rows, call.columns, call.k, r, result.len(), w, room.len())
    };
    held("inverse", got, &call)?;
    ensure(result.iter().chain(&room).all(|&word| word == 1), || "inverse: a refused call wrote to a buffer".into())
}

fn contradiction(matrix: &Unread, call: Call) -> Tried {
    let (mut names, mut room) = (vec![1; call.written], vec![1; call.room]);
    let got = unsafe {
        let (s, w) = (names.as_mut_ptr(), room.as_mut_ptr());
        let (m, words) = (matrix.0, call.words);
        raw::chhayublo_contradiction(m, words, call.rows, call.columns, call.n, call.k, s, names.len(), w, room.len())
    };
    held("contradiction", got.refusal, &call)?;
    ensure(names.iter().chain(&room).all(|&word| word == 1), || "contradiction: a refused call wrote to a buffer".into())
}

/// what reduction and solving refuse alike before they look at the padding
fn common() -> Vec<Call> {
    vec![
        Call { rows: MANY, columns: 1, words: MANY, refusal: 1, ..PASSES },
        Call { columns: 0, refusal: 2, ..PASSES },
        Call { columns: 1025, words: 51, refusal: 2, ..PASSES },
        Call { k: 0, refusal: 3, ..PASSES },
        Call { k: 9, room: 1024, refusal: 3, ..PASSES },
        Call { words: 5, refusal: 4, ..PASSES },
        Call { words: MANY, refusal: 4, ..PASSES },
        Call { room: 7, refusal: 6, ..PASSES },
    ]
}

/// the blocks and the buffers of solving
fn blocks_and_buffers() -> Vec<Call> {
    vec![
        Call { n: 0, refusal: 7, ..PASSES },
        Call { n: 65, refusal: 7, ..PASSES },
        Call { n: usize::MAX, refusal: 7, ..PASSES },
        Call { written: 63, refusal: 13, ..PASSES },
        Call { marks: 65, refusal: 13, ..PASSES },
    ]
}

/// squares of 65 rows, each spoilt in one way
fn squares() -> Vec<Call> {
    let square = |refusal| Call { rows: 65, words: 130, written: 130, room: 207, refusal, ..PASSES };
    vec![
        Call { rows: MANY, words: MANY, ..square(1) },
        Call { columns: 0, ..square(2) },
        Call { rows: 64, ..square(8) },
        Call { k: 9, ..square(3) },
        Call { words: 129, ..square(4) },
        Call { written: 131, ..square(13) },
        Call { room: 206, ..square(6) },
    ]
}

/// lists of three packets, each spoilt in one way
fn lists() -> Vec<Call> {
    let list = |refusal| Call { written: 1, room: 14, refusal, ..PASSES };
    vec![
        Call { rows: MANY, words: MANY, ..list(1) },
        Call { columns: 0, ..list(2) },
        Call { n: 65, ..list(7) },
        Call { rows: 512, columns: 513, words: 4608, written: 8, ..list(11) },
        Call { k: 0, ..list(3) },
        Call { words: 7, ..list(4) },
        Call { written: 2, ..list(13) },
        Call { room: 13, ..list(6) },
    ]
}

pub fn calls(_random: &mut Random) -> Tried {
    let matrix = Unread::new()?;
    common().into_iter().try_for_each(|call| reduce(&matrix, call))?;
    common().into_iter().chain(blocks_and_buffers()).try_for_each(|call| solve(&matrix, call))?;
    squares().into_iter().try_for_each(|call| invert(&matrix, call))?;
    lists().into_iter().try_for_each(|call| contradiction(&matrix, call))
}

/// the row view reads no word at all: it tells where the row stands
pub fn views(_random: &mut Random) -> Tried {
    let matrix = Unread::new()?;
    for (rows, i, expected) in [(3, 2, (4, 2)), (3, 3, (0, 0)), (MANY, 0, (0, 0))] {
        let got = unsafe { raw::chhayublo_row_view(matrix.0, 6, rows, 65, i) };
        ensure((got.start, got.words) == expected, || format!("view of row {i} of {rows}: {got:?}"))?;
        count::one();
    }
    Ok(())
}
