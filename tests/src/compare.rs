//! One table, both readers: their answers must agree, and the library must leave the table alone.
//! Whatever is lent to a call, to be read or written, stands between bytes that it may not change.

use crate::format::{BLOCK, LIMIT_IS_TRIANGULAR, PAIRED_SYMBOLS, RECORD_BYTES, VALUE_IS_SYMBOL};
use crate::reader;
use crate::rng::Rng;
use std::fmt::Debug;
use volefleece::raw::{self, Checked};

/// Bytes on both sides of what is lent.
const SIDE: usize = 32;

/// What the second reader answers.
pub fn second_check(table: &[u8]) -> Checked {
    match reader::check(table) {
        Ok(tree) => Checked::accept(tree.records()),
        Err(question) => Checked::refuse(question),
    }
}

/// Makes a call on a copy of the bytes that stands `shift` past a multiple of 16 in memory, with
/// `filler` on both sides, and asserts that no byte of all this has changed.
pub fn lend<A>(bytes: &[u8], shift: usize, filler: u8, call: impl FnOnce(&[u8]) -> A) -> A {
    let mut buffer = vec![filler; SIDE + bytes.len() + SIDE];
    let start = buffer.as_ptr().align_offset(16) + shift;
    let end = start + bytes.len();
    buffer[start..end].copy_from_slice(bytes);
    let before = buffer.clone();
    let answer = call(&buffer[start..end]);
    assert!(buffer == before, "the call changed its input");
    answer
}

/// Makes a call on a buffer of so many bytes anywhere in memory. Gives its answer and the bytes that
/// it wrote, as many from the front as `length` reads off the answer, and asserts that no other byte
/// has changed.
pub fn lend_out<A: Debug>(
    rng: &mut Rng,
    room: usize,
    length: impl FnOnce(&A) -> u64,
    call: impl FnOnce(&mut [u8]) -> A,
) -> (A, Vec<u8>) {
    let start = SIDE + rng.index(16);
    let before = pattern(rng, start + room + SIDE);
    let mut after = before.clone();
    let answer = call(&mut after[start..start + room]);
    let length = usize::try_from(length(&answer)).expect("a small number");
    assert!(length <= room, "{answer:?}, with room for {room}");
    let end = start + length;
    assert!(
        after[..start] == before[..start] && after[end..] == before[end..],
        "{answer:?}, and bytes beside the table have changed"
    );
    (answer, after[start..end].to_vec())
}

/// Bytes of which each differs from the next ones, and from call to call.
fn pattern(rng: &mut Rng, length: usize) -> Vec<u8> {
    let mut byte = rng.byte();
    let step = rng.byte() | 1;
    let next = || {
        byte = byte.wrapping_add(step);
        byte
    };
    std::iter::repeat_with(next).take(length).collect()
}

/// Compares tables and counts the answers, so that a test can assert what it has reached.
pub struct Comparison {
    rng: Rng,
    refused: [u64; 8],
    /// The accepted tables with flag 4.
    triangular: u64,
    /// The accepted tables with a paired symbol, and those that question 7 refuses.
    paired: [u64; 2],
}

impl Comparison {
    /// The seed decides where the tables are in memory alone.
    pub fn new(seed: u64) -> Self {
        Comparison {
            rng: Rng::new(!seed),
            refused: [0; 8],
            triangular: 0,
            paired: [0; 2],
        }
    }

    /// The library's answer, which must be the second reader's.
    pub fn check(&mut self, table: &[u8]) -> Checked {
        let shift = self.rng.index(16);
        let filler = self.rng.pick(&[0, 1, 255]);
        let answer = lend(table, shift, filler, raw::check);
        let second = second_check(table);
        assert!(
            answer == second,
            "the library answers {answer:?}, the second reader {second:?}:\n{}",
            shown(table)
        );
        self.refused[answer.refused as usize] += 1;
        self.triangular += u64::from(answer.refused == 0 && has_flag_4(table));
        self.paired[0] += u64::from(answer.refused == 0 && has_pair(table));
        self.paired[1] += u64::from(answer.refused == 7 && has_pair(table));
        answer
    }

    /// Both answers must also be the one expected by construction.
    pub fn expect(&mut self, table: &[u8], expected: Checked) {
        let answer = self.check(table);
        assert!(
            answer == expected,
            "both readers answer {answer:?}, expected is {expected:?}:\n{}",
            shown(table)
        );
    }

    /// Asserts that each of these answers, 0 or a refusal's number, occurred at least so often.
    pub fn assert_reached(&self, least: &[(usize, u64)]) {
        assert_occurred("checking's", &self.refused, least);
    }

    /// Asserts that so many tables with flag 4 were accepted.
    pub fn assert_triangular(&self, times: u64) {
        assert!(self.triangular >= times, "{}", self.triangular);
    }

    /// Asserts that so many tables with a paired symbol were accepted, and so many refused 7.
    pub fn assert_paired(&self, accepted: u64, refused: u64) {
        let reached = self.paired[0] >= accepted && self.paired[1] >= refused;
        assert!(reached, "{:?}", self.paired);
    }
}

/// Whether a record of the table has flag 4.
pub fn has_flag_4(table: &[u8]) -> bool {
    let mut records = table.chunks_exact(RECORD_BYTES);
    records.any(|record| record[1] & LIMIT_IS_TRIANGULAR != 0)
}

/// Whether a record of the table is a block whose time is a paired symbol.
pub fn has_pair(table: &[u8]) -> bool {
    let mut records = table.chunks_exact(RECORD_BYTES);
    records.any(|record| {
        let is_symbol = record[0] == BLOCK && record[1] & VALUE_IS_SYMBOL != 0;
        is_symbol && PAIRED_SYMBOLS.contains(&u64::from(record[8]))
    })
}

/// Asserts that a table which a call wrote is accepted, with as many records as the one that it was lent.
pub fn assert_accepted(lent: &[u8], written: &[u8]) {
    let accepted = Checked::accept(lent.len() / RECORD_BYTES);
    assert_eq!(raw::check(written), accepted, "{}", shown(written));
}

/// The refusal's number, or 0.
pub fn refusal<A>(answer: &Result<A, u64>) -> usize {
    answer
        .as_ref()
        .err()
        .map_or(0, |&question| question as usize)
}

/// Asserts that each of these answers of a call, 0 or a refusal's number, occurred at least so often.
pub fn assert_occurred(call: &str, answers: &[u64], least: &[(usize, u64)]) {
    for &(refused, times) in least {
        assert!(
            answers[refused] >= times,
            "{call} answer {refused} must occur {times} times; the answers from 0 on occurred {answers:?}"
        );
    }
}

/// What a call wrote, or its refusal.
pub fn shown_answer<A>(answer: &Result<A, u64>, shown: impl Fn(&A) -> String) -> String {
    match answer {
        Ok(written) => format!("writes {}", shown(written)),
        Err(question) => format!("refuses {question}"),
    }
}

/// The table, a record to a line.
pub fn shown(table: &[u8]) -> String {
    let lines = table
        .chunks(RECORD_BYTES)
        .map(|record| format!("{record:?}\n"));
    format!("{} bytes\n{}", table.len(), lines.collect::<String>())
}
