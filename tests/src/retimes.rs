//! One table with a retiming and values, both previewers and committers: the calls' answers and every byte
//! of the lent table must be the second one's, and nothing beside it may change. What commit leaves is a
//! table that checking accepts, committing back restores it, and preview's quotes are the figure call's
//! for both tables.

use crate::compare::{assert_accepted, assert_occurred, lend_out, refusal, shown, shown_answer};
use crate::evaluator::Quoted;
use crate::format::{BLOCK, MOST_TIME, RECORD_BYTES, VALUE_IS_SYMBOL};
use crate::quotes;
use crate::retimer::{self, Previewed, Retiming};
use crate::rng::Rng;
use volefleece::raw::{self, Committed};

/// The library's quotes, or its refusal, from a lent table and lent values.
pub fn preview(
    rng: &mut Rng,
    table: &[u8],
    retiming: Retiming,
    values: &[u64],
) -> Result<Previewed, u64> {
    let Retiming { record, old, new } = retiming;
    let answer = quotes::lend_all(rng, table, values, |table, values| {
        raw::preview(table, record, old, new, values)
    });
    let quoted = |figure, branch| Quoted { figure, branch };
    match answer {
        raw::Previewed { refused: 0, .. } => Ok(Previewed {
            before: quoted(answer.before, answer.branch_before),
            after: quoted(answer.after, answer.branch_after),
        }),
        raw::Previewed {
            refused,
            before: 0,
            branch_before: 0,
            after: 0,
            branch_after: 0,
        } => Err(refused),
        raw::Previewed { .. } => panic!("a refusal with a figure or branch: {answer:?}"),
    }
}

/// The table as the library leaves it where it was lent, or its refusal, which must leave it alone.
pub fn commit(rng: &mut Rng, table: &[u8], retiming: Retiming) -> Result<Vec<u8>, u64> {
    let Retiming { record, old, new } = retiming;
    let whole = table.len() as u64;
    let (answer, left) = lend_out(
        rng,
        table.len(),
        |_| whole,
        |lent| {
            lent.copy_from_slice(table);
            raw::commit(lent, record, old, new)
        },
    );
    match answer {
        Committed { refused: 0, length } if length == whole => Ok(left),
        Committed {
            refused: 1..,
            length: 0,
        } => {
            assert!(left == table, "{answer:?}, and the table has changed");
            Err(answer.refused)
        }
        Committed { .. } => panic!("no such answer: {answer:?}"),
    }
}

/// How often each answer, 0 or a refusal's number, occurred.
type Answers = [u64; 18];

/// Compares retimings and counts the answers, so that a test can assert what it has reached.
#[derive(Debug)]
pub struct Retimes {
    rng: Rng,
    previewed: Answers,
    committed: Answers,
    /// Previews refused 10: for the old tree alone, for the new one alone, and where both are.
    too_large: [u64; 3],
    /// Previews whose second figure is lower than the first, the same, and higher.
    figures: [u64; 3],
    /// Those whose branches differ.
    branches: u64,
}

impl Retimes {
    /// The seed decides where all is in memory alone.
    pub fn new(seed: u64) -> Self {
        Retimes {
            rng: Rng::new(!seed),
            previewed: [0; 18],
            committed: [0; 18],
            too_large: [0; 3],
            figures: [0; 3],
            branches: 0,
        }
    }

    /// What both previewers answer, which must be what the figure call does for the table and for the one
    /// that commit leaves.
    pub fn preview(
        &mut self,
        table: &[u8],
        retiming: Retiming,
        values: &[u64],
    ) -> Result<Previewed, u64> {
        let answer = preview(&mut self.rng, table, retiming, values);
        let second = retimer::preview(table, retiming, values);
        let lent = || format!("{retiming:?}, values {values:?}, {}", shown(table));
        assert!(
            answer == second,
            "the library previews {answer:?}, not {second:?}: {}",
            lent()
        );
        let figures = self.figures(table, retiming, values);
        let quoted = figures.and_then(|[before, after]| {
            let (before, after) = (before?, after?);
            Ok(Previewed { before, after })
        });
        assert!(
            answer == quoted,
            "the preview is {answer:?}, the figures are {quoted:?}: {}",
            lent()
        );
        self.count(answer, figures.ok());
        answer
    }

    /// The figure call's answers for the table and for the one that commit leaves.
    fn figures(
        &mut self,
        table: &[u8],
        retiming: Retiming,
        values: &[u64],
    ) -> Result<[Result<Quoted, u64>; 2], u64> {
        let left = commit(&mut self.rng, table, retiming)?;
        Ok([table, &left].map(|table| quotes::figure(&mut self.rng, table, values)))
    }

    fn count(&mut self, answer: Result<Previewed, u64>, figures: Option<[Result<Quoted, u64>; 2]>) {
        self.previewed[refusal(&answer)] += 1;
        if let Ok(Previewed { before, after }) = answer {
            let moved = after.figure.cmp(&before.figure) as isize;
            self.figures[(1 + moved) as usize] += 1;
            self.branches += u64::from(after.branch != before.branch);
        }
        match figures.map(|both| both.map(|figure| figure == Err(10))) {
            Some([true, false]) => self.too_large[0] += 1,
            Some([false, true]) => self.too_large[1] += 1,
            Some([true, true]) => self.too_large[2] += 1,
            _ => {}
        }
    }

    /// The table as both committers leave it. Committing back must restore it, and committing again, where
    /// the block no longer has the old time, must change nothing.
    pub fn commit(&mut self, table: &[u8], retiming: Retiming) -> Result<Vec<u8>, u64> {
        let answer = self.compare_committed(table, retiming);
        self.committed[refusal(&answer)] += 1;
        if let Ok(left) = &answer {
            assert_accepted(table, left);
            assert_time_alone(table, left, retiming);
            let back = self.compare_committed(left, retiming.back());
            assert!(
                back.as_deref() == Ok(table),
                "{retiming:?}: committing back {}\nof {}",
                shown_answer(&back, |table| shown(table)),
                shown(table)
            );
            if retiming.old != retiming.new {
                assert_eq!(self.compare_committed(left, retiming), Err(17));
            }
        }
        answer
    }

    fn compare_committed(&mut self, table: &[u8], retiming: Retiming) -> Result<Vec<u8>, u64> {
        let second = retimer::commit(table, retiming);
        let answer = commit(&mut self.rng, table, retiming);
        assert!(
            answer == second,
            "{retiming:?}: the library {}\nnot {}\n{}",
            shown_answer(&answer, |table| shown(table)),
            shown_answer(&second, |table| shown(table)),
            shown(table)
        );
        answer
    }

    /// Both calls: a preview is refused for the table or the retiming exactly as a commit is.
    pub fn retime(
        &mut self,
        table: &[u8],
        retiming: Retiming,
        values: &[u64],
    ) -> Result<Previewed, u64> {
        drop(self.commit(table, retiming));
        self.preview(table, retiming, values)
    }

    /// Asserts that each of these answers of previewing, 0 or a refusal's number, occurred at least so often.
    pub fn assert_previewed(&self, least: &[(usize, u64)]) {
        assert_occurred("previewing's", &self.previewed, least);
    }

    /// The same of committing, apart from what was committed back and again.
    pub fn assert_committed(&self, least: &[(usize, u64)]) {
        assert_occurred("committing's", &self.committed, least);
    }

    /// Asserts that so many previews were refused 10 for the old tree alone, as many for the new one alone,
    /// and as many where both are.
    pub fn assert_too_large(&self, times: u64) {
        let mut too_large = self.too_large.iter();
        assert!(too_large.all(|&refused| refused >= times), "{self:?}");
    }

    /// Asserts that so many previews have a lower figure behind, as many the same, as many a higher one, and
    /// as many another branch.
    pub fn assert_moved(&self, times: u64) {
        let mut moved = self.figures.iter().chain([&self.branches]);
        assert!(moved.all(|&previews| previews >= times), "{self:?}");
    }
}

/// The eight bytes of the block's time are the new one's, and no other byte has changed.
fn assert_time_alone(table: &[u8], left: &[u8], retiming: Retiming) {
    let mut expected = table.to_vec();
    let at = RECORD_BYTES * retiming.record as usize + 8;
    expected[at..at + 8].copy_from_slice(&retiming.new.to_le_bytes());
    assert!(
        left == expected,
        "{retiming:?} of {}leaves {}",
        shown(table),
        shown(left)
    );
}

// Random retimings.

/// A record's value, whatever it means.
pub fn value(record: &[u8]) -> u64 {
    let mut bytes = [0; 8];
    bytes.copy_from_slice(&record[8..16]);
    u64::from_le_bytes(bytes)
}

pub fn is_plain_block(record: &[u8]) -> bool {
    record[0] == BLOCK && record[1] & VALUE_IS_SYMBOL == 0
}

/// The plain blocks of any bytes, each by its record and time.
pub fn plain_blocks(table: &[u8]) -> Vec<(u64, u64)> {
    let records = (0..).zip(table.chunks_exact(RECORD_BYTES));
    records
        .filter(|(_, record)| is_plain_block(record))
        .map(|(at, record)| (at, value(record)))
        .collect()
}

/// How many sorts of new times there are.
pub const TIMES: usize = 7;

/// A new time of that sort: 0, the old one, about it, small, the ceiling, any, and past the ceiling.
pub fn new_time(rng: &mut Rng, sort: usize, old: u64) -> u64 {
    match sort {
        0 => 0,
        1 => old,
        2 => rng.pick(&[old + 1, old.saturating_sub(1)]).min(MOST_TIME),
        3 => rng.within(0..=20),
        4 => MOST_TIME,
        5 => rng.within(0..=MOST_TIME),
        _ => rng.pick(&[MOST_TIME + 1, MOST_TIME + 1, 1 << 40, 1 << 63, u64::MAX]),
    }
}

/// A retiming of any bytes: as a rule of some block by the time that it has, and at times of any record.
pub fn any(rng: &mut Rng, table: &[u8]) -> Retiming {
    let records = (table.len() / RECORD_BYTES) as u64;
    let blocks = plain_blocks(table);
    let (record, mut old) = match rng.index(6) {
        0 => (rng.within(0..=records + 1), rng.within(0..=31)),
        _ if blocks.is_empty() => (rng.within(0..=records), 0),
        _ => rng.pick(&blocks),
    };
    if rng.once_in(8) {
        old ^= 1 << rng.index(64);
    }
    let sort = rng.index(TIMES);
    let new = new_time(rng, sort, old.min(MOST_TIME));
    Retiming { record, old, new }
}
