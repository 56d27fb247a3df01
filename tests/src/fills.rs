//! One table with a symbol, a number and buffers, both fillers and openers: the calls' answers and every
//! byte that they write must be the second one's, they may change nothing but the front of their buffers,
//! what they write must be a table that checking accepts, and opening what filling wrote restores the
//! table.

use crate::compare::{
    assert_accepted, assert_occurred, lend, lend_out, refusal, shown, shown_answer,
};
use crate::filler::{self, Filled};
use crate::format::{MARK_BYTES, RECORD_BYTES};
use crate::rng::Rng;
use volefleece::raw::{self, Opened};

/// What the library wrote to buffers of so many bytes, or its refusal.
pub fn fill(
    rng: &mut Rng,
    table: &[u8],
    symbol: u64,
    number: u64,
    [room, marks_room]: [usize; 2],
) -> Result<Filled, u64> {
    let (shift, filler) = (rng.index(16), rng.pick(&[0, 1, 255]));
    let mut aside = rng.aside();
    let length = |(answer, _): &(raw::Filled, Vec<u8>)| answer.length;
    let marks_length = |answer: &raw::Filled| match answer.refused {
        0 => MARK_BYTES as u64,
        _ => 0,
    };
    let ((answer, marks), table) = lend_out(rng, room, length, |out| {
        lend_out(&mut aside, marks_room, marks_length, |marks| {
            lend(table, shift, filler, |table| {
                raw::fill(table, symbol, number, out, marks)
            })
        })
    });
    match answer {
        raw::Filled { refused: 0, .. } => Ok(Filled {
            table,
            marks: marks.try_into().expect("as many as were written"),
        }),
        raw::Filled { refused, length: 0 } => Err(refused),
        raw::Filled { .. } => panic!("a refusal with a length: {answer:?}"),
    }
}

/// The table that the library wrote, or its refusal, on a buffer of so many bytes.
pub fn open(
    rng: &mut Rng,
    table: &[u8],
    marks: &[u8],
    symbol: u64,
    number: u64,
    room: usize,
) -> Result<Vec<u8>, u64> {
    let shifts = [rng.index(16), rng.index(16)];
    let filler = rng.pick(&[0, 1, 255]);
    let length = |answer: &Opened| answer.length;
    let (answer, bytes) = lend_out(rng, room, length, |out| {
        lend(table, shifts[0], filler, |table| {
            lend(marks, shifts[1], filler, |marks| {
                raw::open(table, marks, symbol, number, out)
            })
        })
    });
    match answer {
        Opened { refused: 0, .. } => Ok(bytes),
        Opened { refused, length: 0 } => Err(refused),
        Opened { .. } => panic!("a refusal with a length: {answer:?}"),
    }
}

/// How often each answer, 0 or a refusal's number, occurred.
type Answers = [u64; 17];

/// Compares fillings and openings and counts the answers, so that a test can assert what it has reached.
#[derive(Debug)]
pub struct Fills {
    rng: Rng,
    filled: Answers,
    opened: Answers,
    /// How many tables filling wrote with no mark, with one, and with more.
    filled_marks: [u64; 3],
    /// How many tables opening wrote by as many marks; those that filling wrote are not counted.
    opened_marks: [u64; 3],
}

impl Fills {
    /// The seed decides where all is in memory, and the buffers alone.
    pub fn new(seed: u64) -> Self {
        Fills {
            rng: Rng::new(!seed),
            filled: [0; 17],
            opened: [0; 17],
            filled_marks: [0; 3],
            opened_marks: [0; 3],
        }
    }

    /// What both fillers answer on buffers of so many bytes, for the table and for the marks. What is
    /// written is opened again, and must be the table.
    pub fn fill_into(
        &mut self,
        table: &[u8],
        symbol: u64,
        number: u64,
        rooms: [usize; 2],
    ) -> Result<Filled, u64> {
        let second = filler::fill(table, symbol, number, rooms[0], rooms[1]);
        let answer = fill(&mut self.rng, table, symbol, number, rooms);
        assert!(
            answer == second,
            "symbol {symbol}, number {number}, rooms {rooms:?}: the library {}\nnot {}\n{}",
            shown_answer(&answer, shown_filled),
            shown_answer(&second, shown_filled),
            shown(table)
        );
        self.filled[refusal(&answer)] += 1;
        if let Ok(filled) = &answer {
            assert_accepted(table, &filled.table);
            self.filled_marks[count(&filled.marks)] += 1;
            let room = filled.table.len() + self.rng.pick(&[0, 0, 1, RECORD_BYTES]);
            let opened = self.compare_opened(&filled.table, &filled.marks, symbol, number, room);
            assert!(
                opened.as_deref() == Ok(table),
                "symbol {symbol}, number {number}: opening {}\nof {}",
                shown_answer(&opened, |table| shown(table)),
                shown(table)
            );
        }
        answer
    }

    /// The same with room enough, and often with more.
    pub fn fill(&mut self, table: &[u8], symbol: u64, number: u64) -> Result<Filled, u64> {
        let more = [0; 2].map(|_| self.rng.pick(&[0, 0, 1, 72]));
        let rooms = [table.len() + more[0], MARK_BYTES + more[1]];
        self.fill_into(table, symbol, number, rooms)
    }

    /// What both openers answer on a buffer of so many bytes.
    pub fn open_into(
        &mut self,
        table: &[u8],
        marks: &[u8],
        symbol: u64,
        number: u64,
        room: usize,
    ) -> Result<Vec<u8>, u64> {
        let answer = self.compare_opened(table, marks, symbol, number, room);
        self.opened[refusal(&answer)] += 1;
        if let Ok(opened) = &answer {
            assert_accepted(table, opened);
            self.opened_marks[count(marks)] += 1;
        }
        answer
    }

    /// The same with room enough, and often with more.
    pub fn open(
        &mut self,
        table: &[u8],
        marks: &[u8],
        symbol: u64,
        number: u64,
    ) -> Result<Vec<u8>, u64> {
        let room = table.len() + self.rng.pick(&[0, 0, 1, 72]);
        self.open_into(table, marks, symbol, number, room)
    }

    fn compare_opened(
        &mut self,
        table: &[u8],
        marks: &[u8],
        symbol: u64,
        number: u64,
        room: usize,
    ) -> Result<Vec<u8>, u64> {
        let second = filler::open(table, marks, symbol, number, room);
        let answer = open(&mut self.rng, table, marks, symbol, number, room);
        assert!(
            answer == second,
            "symbol {symbol}, number {number}, room {room}, marks {marks:?}: the library {}\nnot {}\n{}",
            shown_answer(&answer, |table| shown(table)),
            shown_answer(&second, |table| shown(table)),
            shown(table)
        );
        answer
    }

    /// Asserts that each of these answers of filling, 0 or a refusal's number, occurred at least so often.
    pub fn assert_filled(&self, least: &[(usize, u64)]) {
        assert_occurred("filling's", &self.filled, least);
    }

    /// The same of opening, apart from what filling wrote.
    pub fn assert_opened(&self, least: &[(usize, u64)]) {
        assert_occurred("opening's", &self.opened, least);
    }

    /// Asserts that filling wrote so many tables with no mark, as many with one, and as many with more.
    pub fn assert_filled_marks(&self, times: u64) {
        let mut marks = self.filled_marks.iter();
        assert!(marks.all(|&written| written >= times), "{self:?}");
    }

    /// The same of the tables that opening wrote.
    pub fn assert_opened_marks(&self, times: u64) {
        let mut marks = self.opened_marks.iter();
        assert!(marks.all(|&written| written >= times), "{self:?}");
    }
}

/// No mark, one, or more.
fn count(marks: &[u8]) -> usize {
    let marks: u32 = marks.iter().map(|byte| byte.count_ones()).sum();
    marks.min(2) as usize
}

fn shown_filled(filled: &Filled) -> String {
    format!("marks {:?} and {}", filled.marks, shown(&filled.table))
}
