//! Tables with long shared second children: a choice of sequences of two, which rule 8 compares.

use crate::simplify::takes_steps;
use volefleece::raw;
use volefleece_tests::format::MOST_RECORDS;
use volefleece_tests::rng::Rng;
use volefleece_tests::trees::{self, Kind, Tree};

/// How many alternatives there are, and how many records each second child has.
const SHAPES: [(usize, usize); 6] = [(2, 60), (2, 160), (3, 160), (4, 120), (6, 60), (6, 80)];

/// The records of what stands behind the choice, where that is simplified, and of the root.
const BEHIND: usize = 100;

/// What the second children have in common, and where there is something to simplify.
#[derive(Clone, Copy, PartialEq, Eq)]
enum Seconds {
    /// They are equal, so that rule 8 fits at once. Then the one that is left takes steps.
    Same,
    /// They differ in the last record of the last of them, and each takes steps.
    Nearly,
    /// They differ in the same, and the steps are all made behind the choice.
    Behind,
}

/// Some tables of one kind.
pub struct Shared {
    pub name: &'static str,
    pub tables: Vec<Vec<u8>>,
}

/// So many tables of each kind that take some steps, the same in every run.
pub fn kinds(tables: usize) -> impl Iterator<Item = Shared> {
    let kinds = SHAPES.into_iter().flat_map(|shape| {
        [Seconds::Same, Seconds::Nearly, Seconds::Behind].map(|seconds| (shape, seconds))
    });
    kinds
        .filter(|&(shape, seconds)| {
            seconds != Seconds::Behind || records(shape) + BEHIND < MOST_RECORDS
        })
        .map(move |(shape, seconds)| Shared {
            name: seconds.name(),
            tables: random_tables(tables, shape, seconds),
        })
}

/// The records of the choice.
fn records((alternatives, records): (usize, usize)) -> usize {
    1 + alternatives * (2 + records)
}

fn random_tables(count: usize, shape: (usize, usize), seconds: Seconds) -> Vec<Vec<u8>> {
    let mut rng = Rng::new(records(shape) as u64);
    let random = || seconds.tree(&mut rng, shape).encode();
    let tables = std::iter::repeat_with(random)
        .filter(|table| raw::check(table).refused == 0)
        .filter(|table| takes_steps(table, 10));
    tables.take(count).collect()
}

impl Seconds {
    fn name(self) -> &'static str {
        match self {
            Seconds::Same => "shared",
            Seconds::Nearly => "nearly",
            Seconds::Behind => "behind",
        }
    }

    fn tree(self, rng: &mut Rng, (alternatives, records): (usize, usize)) -> Tree {
        let inner = match self {
            Seconds::Behind => finished(records - 2),
            _ => trees::redundant(rng, records - 2).unlimited().unpaired(),
        };
        // A choice, as the sequence around it would take a sequence in.
        let second = Tree::new(Kind::Choice, vec![inner, Tree::symbol_block(16)]);
        // No time is 0, as rule 5 would drop it.
        let pair = |place| {
            let first = Tree::block(1 + place as u64);
            Tree::new(Kind::Sequence, vec![first, second.clone()])
        };
        let mut pairs: Vec<Tree> = (0..alternatives).map(pair).collect();
        if self != Seconds::Same {
            pairs[alternatives - 1].children[1].children[1] = Tree::symbol_block(17);
        }
        let choice = Tree::new(Kind::Choice, pairs);
        match self {
            Seconds::Behind => {
                // In a choice, as the root would take a sequence in.
                let inner = trees::redundant(rng, BEHIND - 3).unlimited().unpaired();
                let behind = Tree::new(Kind::Choice, vec![inner, Tree::symbol_block(16)]);
                Tree::new(Kind::Sequence, vec![choice, behind])
            }
            _ => choice,
        }
    }
}

/// A sequence of so many records, seven or more, that no rule fits: of choices of two symbols, the last of
/// up to four.
fn finished(records: usize) -> Tree {
    let choice = |symbols| Tree::new(Kind::Choice, vec![Tree::symbol_block(16); symbols]);
    let last = 2 + (records - 4) % 3;
    let mut children = vec![choice(2); (records - 2 - last) / 3];
    children.push(choice(last));
    Tree::new(Kind::Sequence, children)
}
