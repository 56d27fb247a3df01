//! One table with an allowance and a buffer, both simplifiers: the call's answer and every byte that it
//! writes must be the second simplifier's, and it may change nothing but the front of its buffer.

use crate::compare::{has_flag_4, has_pair, lend, lend_out, shown};
use crate::reader;
use crate::rng::Rng;
use crate::simplifier::{self, step, Simplified, Trace};
use crate::trees::Tree;
use volefleece::raw;

/// The library's answer with the table that it wrote, or its refusal, on a buffer of so many bytes.
pub fn simplify(
    rng: &mut Rng,
    table: &[u8],
    allowance: u64,
    room: usize,
) -> Result<Simplified, u64> {
    let (shift, filler) = (rng.index(16), rng.pick(&[0, 1, 255]));
    let length = |answer: &raw::Simplified| answer.length;
    let (answer, bytes) = lend_out(rng, room, length, |out| {
        lend(table, shift, filler, |table| {
            raw::simplify(table, allowance, out)
        })
    });
    match answer {
        raw::Simplified {
            refused: 0,
            steps,
            finished: finished @ 0..=1,
            ..
        } => Ok(Simplified {
            bytes,
            steps,
            finished: finished == 1,
        }),
        raw::Simplified {
            refused: 1..,
            length: 0,
            steps: 0,
            finished: 0,
        } => Err(answer.refused),
        _ => panic!("no such answer: {answer:?}"),
    }
}

/// What both simplifiers answer.
#[track_caller]
pub fn agreed(table: &[u8], allowance: u64, room: usize) -> Result<Simplified, u64> {
    Simplifications::new(0).answer(table, allowance, room)
}

/// The first step takes that rule and makes that table.
#[track_caller]
pub fn becomes(before: &[u8], rule: usize, after: &[u8]) {
    let mut tree = read(before);
    let taken = step(&mut tree);
    let table = tree.encode();
    assert!(
        taken == Some(rule) && table == after,
        "rule {taken:?} made of {}this: {}",
        shown(before),
        shown(&table)
    );
    let answer = agreed(before, 1, before.len()).expect("small amounts");
    assert_eq!((answer.steps, &answer.bytes[..]), (1, after));
}

/// No rule fits.
#[track_caller]
pub fn stays(table: &[u8]) {
    let taken = step(&mut read(table));
    assert_eq!(taken, None, "{}", shown(table));
    let answer = agreed(table, u64::MAX, table.len()).expect("small amounts");
    assert!(answer.steps == 0 && answer.finished && answer.bytes == table);
}

/// With steps enough, so many are taken and make that table, which stays.
#[track_caller]
pub fn ends(before: &[u8], steps: u64, after: &[u8]) {
    let expected = Simplified {
        bytes: after.to_vec(),
        steps,
        finished: true,
    };
    let answer = agreed(before, u64::MAX, before.len());
    assert_eq!(answer, Ok(expected), "{}", shown(before));
    stays(after);
}

fn read(table: &[u8]) -> Tree {
    match reader::check(table) {
        Ok(tree) => tree,
        Err(question) => panic!("refused {question}: {}", shown(table)),
    }
}

/// Compares simplifyings and counts the answers, so that a test can assert what it has reached.
#[derive(Debug)]
pub struct Simplifications {
    rng: Rng,
    /// The answers, 0 or a refusal's number.
    refused: [u64; 11],
    finished: u64,
    spent: u64,
    /// The tables written after some steps that have flag 4.
    triangular: u64,
    /// Those that have a paired symbol.
    paired: u64,
    /// How often each rule was on the way of a table that was compared at many allowances.
    rules: [u64; 10],
}

impl Simplifications {
    /// The seed decides where all is in memory, the buffers, and which allowances are taken of many.
    pub fn new(seed: u64) -> Self {
        Simplifications {
            rng: Rng::new(!seed),
            refused: [0; 11],
            finished: 0,
            spent: 0,
            triangular: 0,
            paired: 0,
            rules: [0; 10],
        }
    }

    /// What both simplifiers answer on a buffer of so many bytes.
    pub fn answer(&mut self, table: &[u8], allowance: u64, room: usize) -> Result<Simplified, u64> {
        let second = simplifier::simplify(table, allowance, room);
        self.expect(table, allowance, room, &second);
        second
    }

    /// The same where the answer itself does not matter.
    pub fn compare(&mut self, table: &[u8], allowance: u64, room: usize) {
        drop(self.answer(table, allowance, room));
    }

    /// The library's answer must be this.
    pub fn expect(
        &mut self,
        table: &[u8],
        allowance: u64,
        room: usize,
        expected: &Result<Simplified, u64>,
    ) {
        let answer = simplify(&mut self.rng, table, allowance, room);
        assert!(
            answer == *expected,
            "allowance {allowance}, room {room}: the library {}\nnot {}\n{}",
            shown_answer(&answer),
            shown_answer(expected),
            shown(table)
        );
        if let Ok(made) = &answer {
            self.finished += u64::from(made.finished);
            self.spent += u64::from(!made.finished);
            self.triangular += u64::from(made.steps > 0 && has_flag_4(&made.bytes));
            self.paired += u64::from(made.steps > 0 && has_pair(&made.bytes));
        }
        self.refused[answer.err().unwrap_or(0) as usize] += 1;
    }

    /// Compares a table that is not refused at every allowance from 0 to past the end.
    pub fn compare_all(&mut self, tree: Tree) {
        let trace = self.traced(tree);
        let past = trace.rules.len() as u64 + 2;
        for allowance in (0..=past).chain([u64::MAX]) {
            self.compare_traced(&trace, allowance);
        }
    }

    /// The same at both ends and at some allowances between them.
    pub fn compare_some(&mut self, tree: Tree) {
        let trace = self.traced(tree);
        let end = trace.rules.len() as u64;
        let last = end.saturating_sub(1);
        for allowance in [0, 1, last, end, end + 1, u64::MAX] {
            self.compare_traced(&trace, allowance);
        }
        for _ in 0..3 {
            let allowance = self.rng.within(0..=end);
            self.compare_traced(&trace, allowance);
        }
    }

    fn traced(&mut self, tree: Tree) -> Trace {
        let trace = simplifier::trace(tree);
        for &rule in &trace.rules {
            self.rules[rule] += 1;
        }
        trace
    }

    fn compare_traced(&mut self, trace: &Trace, allowance: u64) {
        let table = &trace.tables[0];
        let room = table.len() + self.rng.pick(&[0, 0, 1, 24, 60]);
        self.expect(table, allowance, room, &Ok(trace.after(allowance)));
    }

    /// Asserts that each of these answers, 0 or a refusal's number, occurred at least so often.
    pub fn assert_reached(&self, least: &[(usize, u64)]) {
        for &(refused, times) in least {
            let occurred = self.refused[refused];
            assert!(occurred >= times, "answer {refused}: {self:?}");
        }
    }

    /// Asserts that so many answers were finished, and as many spent.
    pub fn assert_finished_and_spent(&self, times: u64) {
        assert!(self.finished >= times && self.spent >= times, "{self:?}");
    }

    /// Asserts that so many tables written after some steps had flag 4.
    pub fn assert_triangular(&self, times: u64) {
        assert!(self.triangular >= times, "{self:?}");
    }

    /// Asserts that so many tables written after some steps had a paired symbol.
    pub fn assert_paired(&self, times: u64) {
        assert!(self.paired >= times, "{self:?}");
    }

    /// Asserts that each of these rules was on the way so often.
    pub fn assert_rules(&self, rules: &[usize], times: u64) {
        let mut rules = rules.iter();
        assert!(rules.all(|&rule| self.rules[rule] >= times), "{self:?}");
    }
}

fn shown_answer(answer: &Result<Simplified, u64>) -> String {
    match answer {
        Ok(simplified) => format!(
            "takes {} steps, finished {}: {}",
            simplified.steps,
            simplified.finished,
            shown(&simplified.bytes)
        ),
        Err(question) => format!("refuses {question}"),
    }
}
