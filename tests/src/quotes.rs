//! One table with values, both evaluators: the answers of the figure and list calls must be the
//! second evaluator's, and neither call may change anything but the front of the list's buffer.

use crate::compare::{assert_occurred, has_flag_4, has_pair, lend, refusal, shown};
use crate::evaluator::{self, Pair, Quoted};
use crate::format::LIST_ROOM;
use crate::rng::Rng;
use std::ops::RangeInclusive;
use volefleece::raw::{self, Figure, Listed};

/// Numbers on both sides of what is lent, which no answer may depend on.
const SIDE: usize = 4;

/// The library's figure and branch, or its refusal, from a lent table and lent values.
pub fn figure(rng: &mut Rng, table: &[u8], values: &[u64]) -> Result<Quoted, u64> {
    let answer = lend_all(rng, table, values, raw::figure);
    match answer {
        Figure {
            refused: 0,
            figure,
            branch,
        } => Ok(Quoted { figure, branch }),
        Figure {
            refused,
            figure: 0,
            branch: 0,
        } => Err(refused),
        Figure { .. } => panic!("a refusal with a figure or branch: {answer:?}"),
    }
}

/// What the figure call answers, which must be what the second evaluator does.
#[track_caller]
pub fn agreed(table: &[u8], values: &[u64]) -> Result<Quoted, u64> {
    let answer = figure(&mut Rng::new(0), table, values);
    let second = evaluator::figure(table, values);
    assert_eq!(answer, second, "{}", shown_quote(table, values));
    answer
}

/// The library's pairs or refusal, on a buffer of so many numbers.
pub fn list(rng: &mut Rng, table: &[u8], values: &[u64], room: usize) -> Result<Vec<Pair>, u64> {
    let before: Vec<u64> = (0..SIDE + room + SIDE).map(|_| rng.number()).collect();
    let mut after = before.clone();
    let out = &mut after[SIDE..SIDE + room];
    let answer = lend_all(rng, table, values, |table, values| {
        raw::list(table, values, out)
    });
    let pairs = match answer {
        Listed { refused: 0, pairs } => usize::try_from(pairs).expect("a small number"),
        Listed { pairs: 0, .. } => 0,
        Listed { .. } => panic!("a refusal with pairs: {answer:?}"),
    };
    let written = SIDE..SIDE + 2 * pairs;
    assert!(
        written.end <= SIDE + room,
        "{answer:?}, with room for {room}"
    );
    assert!(
        after[..SIDE] == before[..SIDE] && after[written.end..] == before[written.end..],
        "{answer:?}, and numbers beside the pairs have changed"
    );
    match answer.refused {
        0 => Ok(after[written]
            .chunks_exact(2)
            .map(|pair| (pair[0], pair[1]))
            .collect()),
        refused => Err(refused),
    }
}

/// Lends both anywhere in memory, between random fillers.
pub fn lend_all<A>(
    rng: &mut Rng,
    table: &[u8],
    values: &[u64],
    call: impl FnOnce(&[u8], &[u64]) -> A,
) -> A {
    let shift = rng.index(16);
    let byte = rng.pick(&[0, 1, 255]);
    let number = rng.pick(&[0, 1, u64::MAX]);
    lend(table, shift, byte, |table| {
        lend_numbers(values, number, |values| call(table, values))
    })
}

fn lend_numbers<A>(numbers: &[u64], filler: u64, call: impl FnOnce(&[u64]) -> A) -> A {
    let side = [filler; SIDE];
    let lent = [&side, numbers, &side].concat();
    let before = lent.clone();
    let answer = call(&lent[SIDE..SIDE + numbers.len()]);
    assert!(lent == before, "the call changed the values");
    answer
}

/// What both calls answer.
pub struct Quote {
    pub quoted: Result<Quoted, u64>,
    pub list: Result<Vec<Pair>, u64>,
}

impl Quote {
    /// The figure call's answer without the branch.
    pub fn figure(&self) -> Result<u64, u64> {
        self.quoted.map(|quoted| quoted.figure)
    }
}

/// How often each answer, 0 or a refusal's number, occurred.
type Answers = [u64; 15];

/// Compares quotes and counts the answers, so that a test can assert what it has reached.
pub struct Quotes {
    rng: Rng,
    figures: Answers,
    lists: Answers,
    /// The figures and refusals of tables with flag 4.
    triangular: Answers,
    /// Those of tables with a paired symbol.
    paired: Answers,
    /// How many figures had that branch.
    branches: [u64; 256],
    /// How many lists had so many pairs; those refused had none.
    pairs: [u64; 257],
}

impl Quotes {
    /// The seed decides where all is in memory, and the buffers alone.
    pub fn new(seed: u64) -> Self {
        Quotes {
            rng: Rng::new(!seed),
            figures: [0; 15],
            lists: [0; 15],
            triangular: [0; 15],
            paired: [0; 15],
            branches: [0; 256],
            pairs: [0; 257],
        }
    }

    /// Both calls' answers, which must be the second evaluator's.
    pub fn compare(&mut self, table: &[u8], values: &[u64]) -> Quote {
        let room = self.rng.pick(&[LIST_ROOM, LIST_ROOM + 1, 2 * LIST_ROOM]);
        self.compare_with_room(table, values, room)
    }

    /// The same with a list's buffer of so many numbers.
    pub fn compare_with_room(&mut self, table: &[u8], values: &[u64], room: usize) -> Quote {
        let quoted = figure(&mut self.rng, table, values);
        let second = evaluator::figure(table, values);
        assert!(
            quoted == second,
            "the library answers {quoted:?}, the second evaluator {second:?}\n{}",
            shown_quote(table, values)
        );
        let list = list(&mut self.rng, table, values, room);
        let second = evaluator::list(table, values, room);
        assert!(
            list == second,
            "the library's list is {list:?},\nthe second evaluator's {second:?}, room {room}\n{}",
            shown_quote(table, values)
        );
        self.figures[refusal(&quoted)] += 1;
        self.lists[refusal(&list)] += 1;
        self.triangular[refusal(&quoted)] += u64::from(has_flag_4(table));
        self.paired[refusal(&quoted)] += u64::from(has_pair(table));
        if let Ok(quoted) = quoted {
            self.branches[quoted.branch as usize] += 1;
        }
        self.pairs[list.as_ref().map_or(0, Vec::len)] += 1;
        Quote { quoted, list }
    }

    /// Asserts that each of these answers of both calls, 0 or a refusal's number, occurred at least
    /// so often.
    pub fn assert_reached(&self, least: &[(usize, u64)]) {
        assert_occurred("figure", &self.figures, least);
        assert_occurred("list", &self.lists, least);
    }

    /// The same of the list call alone.
    pub fn assert_lists(&self, least: &[(usize, u64)]) {
        assert_occurred("list", &self.lists, least);
    }

    /// The same of the figure call on tables with flag 4.
    pub fn assert_triangular(&self, least: &[(usize, u64)]) {
        assert_occurred("flag 4's figure", &self.triangular, least);
    }

    /// The same of the figure call on tables with a paired symbol.
    pub fn assert_paired(&self, least: &[(usize, u64)]) {
        assert_occurred("a paired symbol's figure", &self.paired, least);
    }

    /// Asserts that so many figures had each of these branches.
    pub fn assert_branches(&self, branches: impl IntoIterator<Item = usize>, times: u64) {
        for branch in branches {
            assert!(
                self.branches[branch] >= times,
                "branch {branch} must occur {times} times; all: {:?}",
                self.branches
            );
        }
    }

    /// Asserts that so many lists had a number of pairs in that range.
    pub fn assert_pairs(&self, range: RangeInclusive<usize>, times: u64) {
        let reached: u64 = self.pairs[range.clone()].iter().sum();
        assert!(
            reached >= times,
            "{range:?} pairs must occur {times} times, and occurred {reached}; all: {:?}",
            self.pairs
        );
    }
}

fn shown_quote(table: &[u8], values: &[u64]) -> String {
    format!("values {values:?}\n{}", shown(table))
}
