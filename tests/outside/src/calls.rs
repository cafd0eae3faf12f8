//! The matrix calls of the library, each held to the plain model: every field of the answer, every word of every buffer, and the
//! guards around them. An input that the model refuses is tried just the same.

use crate::checks::{self, Numbers};
use crate::count;
use crate::guarded::Guarded;
use crate::plain::{self, Answer, Bits, Reduced};
use crate::raw;

fn same<T: PartialEq + std::fmt::Debug>(what: &str, got: T, expected: T) -> Result<(), String> {
    if got == expected {
        return Ok(());
    }
    let mut text = format!("{what}: got {got:?}, expected {expected:?}");
    text.truncate(400);
    Err(text)
}

fn seen(answer: raw::Answer) -> Answer {
    Answer {
        refusal: answer.refusal,
        rank: answer.rank,
        known: answer.known,
        additions: answer.additions,
        pivots: answer.pivots.to_vec(),
    }
}

/// the room after a call that got past its checks
fn cleared(room: &[u64], needed: u128) -> Vec<u64> {
    let needed = needed as usize;
    (0..room.len()).map(|place| if place < needed { 0 } else { room[place] }).collect()
}

pub fn row_view(numbers: Numbers, matrix: &[u64], i: usize) -> Result<raw::Row, String> {
    let lent = Guarded::new(matrix);
    let got = unsafe { raw::chhayublo_row_view(lent.at(), lent.len(), numbers.rows, numbers.columns, i) };
    let width = plain::words_of(numbers.columns);
    let expected = match checks::view(numbers, matrix, i) {
        0 => raw::Row { start: i * width, words: width },
        _ => raw::Row { start: 0, words: 0 },
    };
    same(&format!("view of row {i}, {numbers:?}"), got, expected)?;
    lent.holds("matrix", matrix)?;
    count::one();
    Ok(got)
}

#[derive(Clone)]
pub struct Reduce {
    pub numbers: Numbers,
    pub matrix: Vec<u64>,
    pub room: Vec<u64>,
}

impl Reduce {
    fn model(&self) -> Reduced {
        plain::reduced(&plain::to_bits(&self.matrix, self.numbers.rows, self.numbers.columns), self.numbers.columns)
    }

    fn expected(&self, known: Option<&Reduced>) -> (Answer, Vec<u64>, Vec<u64>) {
        let x = self.numbers;
        match checks::reduce(x, &self.matrix, self.room.len()) {
            0 => {
                let (answer, form) = match known {
                    Some(reduced) => plain::reduction(reduced, x.columns, x.k),
                    None => plain::reduction(&self.model(), x.columns, x.k),
                };
                (answer, form, cleared(&self.room, x.reduce_room()))
            }
            refusal => (Answer::refused(refusal), self.matrix.clone(), self.room.clone()),
        }
    }

    pub fn check(&self) -> Result<(Answer, Vec<u64>), String> {
        self.check_by(None)
    }

    /// the same by a reduced form that the model has given already, since it is one and the same for every k
    pub fn check_by(&self, known: Option<&Reduced>) -> Result<(Answer, Vec<u64>), String> {
        let x = self.numbers;
        let (mut matrix, mut room) = (Guarded::new(&self.matrix), Guarded::new(&self.room));
        let got =
            unsafe { raw::chhayublo_reduce(matrix.at_mut(), matrix.len(), x.rows, x.columns, x.k, room.at_mut(), room.len()) };
        let (answer, matrix_after, room_after) = self.expected(known);
        same(&format!("reduction, {x:?}"), seen(got), answer.clone())?;
        matrix.holds(&format!("matrix of reduction, {x:?}"), &matrix_after)?;
        room.holds(&format!("room of reduction, {x:?}"), &room_after)?;
        count::one();
        Ok((answer, matrix_after))
    }
}

#[derive(Clone)]
pub struct Invert {
    pub numbers: Numbers,
    pub matrix: Vec<u64>,
    pub result: Vec<u64>,
    pub room: Vec<u64>,
}

impl Invert {
    fn expected(&self) -> (u64, Vec<u64>, Vec<u64>) {
        let x = self.numbers;
        let refusal = checks::invert(x, &self.matrix, self.result.len(), self.room.len());
        if refusal != 0 {
            return (refusal, self.result.clone(), self.room.clone());
        }
        let room = cleared(&self.room, x.invert_room());
        match plain::inverse(&plain::to_bits(&self.matrix, x.rows, x.columns)) {
            Some(inverse) => (0, plain::to_words(&inverse, x.columns), room),
            None => (9, self.result.clone(), room),
        }
    }

    /// the refusal, and the inverse as it stands in the result if there is none
    pub fn check(&self) -> Result<(u64, Option<Bits>), String> {
        let x = self.numbers;
        let matrix = Guarded::new(&self.matrix);
        let (mut result, mut room) = (Guarded::new(&self.result), Guarded::new(&self.room));
        let got = unsafe {
            let (m, r, w) = (matrix.at(), result.at_mut(), room.at_mut());
            raw::chhayublo_invert(m, matrix.len(), x.rows, x.columns, x.k, r, result.len(), w, room.len())
        };
        let (refusal, result_after, room_after) = self.expected();
        same(&format!("inverse, {x:?}"), got, refusal)?;
        matrix.holds(&format!("matrix of inverse, {x:?}"), &self.matrix)?;
        result.holds(&format!("result of inverse, {x:?}"), &result_after)?;
        room.holds(&format!("room of inverse, {x:?}"), &room_after)?;
        count::one();
        let stands = (got == 0).then(|| plain::to_bits(result.content(), x.rows, x.columns));
        Ok((got, stands))
    }
}

#[derive(Clone)]
pub struct Solve {
    pub numbers: Numbers,
    pub packets: Vec<u64>,
    pub image: Vec<u64>,
    pub marks: Vec<u8>,
    pub room: Vec<u64>,
}

/// what solving answered and left behind
#[derive(Clone, Debug, PartialEq)]
pub struct Solved {
    pub answer: Answer,
    pub packets: Vec<u64>,
    pub image: Vec<u64>,
    pub marks: Vec<u8>,
}

impl Solve {
    fn expected(&self) -> (Solved, Vec<u64>) {
        let x = self.numbers;
        let refusal = checks::solve(x, &self.packets, self.image.len(), self.marks.len(), self.room.len());
        let (image, marks) = (self.image.clone(), self.marks.clone());
        if refusal != 0 {
            let answer = Answer::refused(refusal);
            return (Solved { answer, packets: self.packets.clone(), image, marks }, self.room.clone());
        }
        let bits = plain::to_bits(&self.packets, x.rows, x.columns);
        let (packets, told) = plain::solved(&bits, x.columns, x.n, x.k);
        let solved = match told {
            Some((answer, marks, image)) => Solved { answer, packets, image, marks },
            None => Solved { answer: Answer::refused(10), packets, image, marks },
        };
        (solved, cleared(&self.room, x.reduce_room()))
    }

    pub fn check(&self) -> Result<Solved, String> {
        let x = self.numbers;
        let (mut packets, mut image) = (Guarded::new(&self.packets), Guarded::new(&self.image));
        let (mut marks, mut room) = (Guarded::new(&self.marks), Guarded::new(&self.room));
        let got = unsafe {
            let (m, i, b, w) = (packets.at_mut(), image.at_mut(), marks.at_mut(), room.at_mut());
            let (m_len, i_len, b_len, w_len) = (packets.len(), image.len(), marks.len(), room.len());
            raw::chhayublo_solve(m, m_len, x.rows, x.columns, x.n, x.k, i, i_len, b, b_len, w, w_len)
        };
        let (solved, room_after) = self.expected();
        same(&format!("solving, {x:?}"), seen(got), solved.answer.clone())?;
        packets.holds(&format!("packets of solving, {x:?}"), &solved.packets)?;
        image.holds(&format!("image of solving, {x:?}"), &solved.image)?;
        marks.holds(&format!("marks of solving, {x:?}"), &solved.marks)?;
        room.holds(&format!("room of solving, {x:?}"), &room_after)?;
        count::one();
        Ok(solved)
    }
}

#[derive(Clone)]
pub struct Contradict {
    pub numbers: Numbers,
    pub packets: Vec<u64>,
    pub names: Vec<u64>,
    pub room: Vec<u64>,
}

impl Contradict {
    fn expected(&self) -> (raw::Names, Vec<u64>, Vec<u64>) {
        let x = self.numbers;
        let refusal = checks::contradiction(x, &self.packets, self.names.len(), self.room.len());
        if refusal != 0 {
            return (raw::Names { refusal, named: 0 }, self.names.clone(), self.room.clone());
        }
        let room = cleared(&self.room, x.contradiction_room());
        match plain::named(&plain::to_bits(&self.packets, x.rows, x.columns), x.n, x.columns) {
            Some(names) => (raw::Names { refusal: 0, named: 1 }, plain::to_words(&vec![names], x.rows), room),
            None => (raw::Names { refusal: 0, named: 0 }, self.names.clone(), room),
        }
    }

    /// the answer, and the names as they stand
    pub fn check(&self) -> Result<(raw::Names, Vec<u64>), String> {
        let x = self.numbers;
        let packets = Guarded::new(&self.packets);
        let (mut names, mut room) = (Guarded::new(&self.names), Guarded::new(&self.room));
        let got = unsafe {
            let (m, s, w) = (packets.at(), names.at_mut(), room.at_mut());
            raw::chhayublo_contradiction(m, packets.len(), x.rows, x.columns, x.n, x.k, s, names.len(), w, room.len())
        };
        let (answer, names_after, room_after) = self.expected();
        same(&format!("contradiction, {x:?}"), got, answer)?;
        packets.holds(&format!("packets of contradiction, {x:?}"), &self.packets)?;
        names.holds(&format!("names of contradiction, {x:?}"), &names_after)?;
        room.holds(&format!("room of contradiction, {x:?}"), &room_after)?;
        count::one();
        Ok((got, names.content().to_vec()))
    }
}
