//! Document 01's runs with CR 7's charges, for small trees only: every way of passing the nodes in
//! order, block by block, told apart by how often the limited nodes were passed and which blocks of
//! paired symbols were. This knows nothing of lists.

use crate::format::*;
use crate::trees::{Amount, Kind, Tree};
use std::collections::BTreeMap;

/// The cost of the dearest admitted run, or none where no run is admitted. The time grows with the
/// product of the limits and of the bounds, and doubles with each paired symbol's block.
pub fn dearest(tree: &Tree, values: &[u64]) -> Option<u64> {
    let mut search = Search {
        values,
        limits: Vec::new(),
        paired: Vec::new(),
    };
    search.collect(tree, 0, &mut Vec::new());
    let runs = search.pass(tree, 0, search.start());
    runs.into_values().max()
}

/// Where the ways lead, and the most that it can have cost to come there. Other ways that lead to the
/// same need no telling apart.
type Ways = BTreeMap<State, u64>;

/// What has happened in a run so far.
#[derive(Clone, PartialEq, Eq, PartialOrd, Ord)]
struct State {
    /// How often each limited node was passed in the current pass of the loop that its limit names.
    counts: Vec<u64>,
    /// Which of the blocks of paired symbols were passed.
    passed: Vec<bool>,
}

struct Search<'v> {
    values: &'v [u64],
    limits: Vec<NamedLimit>,
    /// The records of the blocks whose symbols are paired.
    paired: Vec<usize>,
}

/// A limit with its places in the table.
struct NamedLimit {
    node: usize,
    /// The record of the named loop, or none for the whole run.
    names: Option<usize>,
    most: u64,
}

impl Search<'_> {
    /// Collects limits and paired symbols. `around` holds the records of the loops around the node, from
    /// the outermost on.
    fn collect(&mut self, tree: &Tree, record: usize, around: &mut Vec<usize>) {
        if let Some(limit) = tree.limit {
            self.limits.push(NamedLimit {
                node: record,
                names: match limit.names {
                    WHOLE_RUN => None,
                    names => Some(around[around.len() - usize::from(names)]),
                },
                most: self.number(limit.amount),
            });
        }
        if matches!(tree.kind, Kind::Block(Amount::Symbol(24..=31))) {
            self.paired.push(record);
        }
        for (place, (child, below)) in children(tree, record).enumerate() {
            let is_body = matches!(tree.kind, Kind::Loop(_)) && place == 0;
            if is_body {
                around.push(record);
            }
            self.collect(child, below, around);
            if is_body {
                around.pop();
            }
        }
    }

    fn number(&self, amount: Amount) -> u64 {
        match amount {
            Amount::Plain(number) => number,
            Amount::Symbol(symbol) => self.values[symbol as usize],
            Amount::Triangular(symbol) => rounds(self.values[symbol as usize]),
        }
    }

    /// Nothing has been passed, at no cost.
    fn start(&self) -> Ways {
        let state = State {
            counts: vec![0; self.limits.len()],
            passed: vec![false; self.paired.len()],
        };
        Ways::from([(state, 0)])
    }

    /// The ways after one pass of a node that these led to.
    fn pass(&self, tree: &Tree, record: usize, before: Ways) -> Ways {
        let before = self.counted(record, before);
        let mut below = children(tree, record);
        match tree.kind {
            Kind::Block(time) => self.charged(record, time, before),
            Kind::Sequence => below.fold(before, |ways, (child, at)| self.pass(child, at, ways)),
            Kind::Choice => below
                .map(|(child, at)| self.pass(child, at, before.clone()))
                .fold(Ways::new(), either),
            Kind::Loop(bound) => {
                let body = below.next().expect("a body");
                let (exit, at) = below.next().expect("an exit");
                let passes = self.up_to(self.number(bound), body, before);
                self.pass(exit, at, self.left(record, passes))
            }
        }
    }

    /// The ways with one more pass of the node counted, if it is limited, as far as that is admitted.
    fn counted(&self, record: usize, before: Ways) -> Ways {
        let Some(place) = self.limits.iter().position(|limit| limit.node == record) else {
            return before;
        };
        let mut ways = Ways::new();
        for (mut state, cost) in before {
            state.counts[place] += 1;
            if state.counts[place] <= self.limits[place].most {
                keep_dearest(&mut ways, state, cost);
            }
        }
        ways
    }

    /// The ways with a pass of the block charged: its time, or of a paired symbol the first value where
    /// this block was not passed before in the run, and else the later one.
    fn charged(&self, record: usize, time: Amount, before: Ways) -> Ways {
        let place = self.paired.iter().position(|&block| block == record);
        let mut ways = Ways::new();
        for (mut state, cost) in before {
            let mut charge = self.number(time);
            if let (Some(place), Amount::Symbol(symbol)) = (place, time) {
                if state.passed[place] {
                    charge = self.values[symbol as usize + LATER];
                }
                state.passed[place] = true;
            }
            keep_dearest(&mut ways, state, cost + charge);
        }
        ways
    }

    /// Up to so many passes of the body.
    fn up_to(&self, bound: u64, (body, record): (&Tree, usize), before: Ways) -> Ways {
        let mut exactly = before;
        let mut ways = exactly.clone();
        for _ in 0..bound {
            exactly = self.pass(body, record, exactly);
            ways = either(ways, exactly.clone());
        }
        ways
    }

    /// The ways once the loop is left: the limits that name it count afresh in its next pass.
    fn left(&self, record: usize, passes: Ways) -> Ways {
        let mut ways = Ways::new();
        for (mut state, cost) in passes {
            for (count, limit) in state.counts.iter_mut().zip(&self.limits) {
                if limit.names == Some(record) {
                    *count = 0;
                }
            }
            keep_dearest(&mut ways, state, cost);
        }
        ways
    }
}

/// How often document 000's inner loop goes round: for i from 1 to n, for j from i to n.
fn rounds(n: u64) -> u64 {
    (1..=n).map(|i| (i..=n).count() as u64).sum()
}

/// The children with their records.
fn children(tree: &Tree, record: usize) -> impl Iterator<Item = (&Tree, usize)> {
    tree.children.iter().scan(record + 1, |next, child| {
        let record = *next;
        *next += child.records();
        Some((child, record))
    })
}

fn either(mut ways: Ways, others: Ways) -> Ways {
    for (state, cost) in others {
        keep_dearest(&mut ways, state, cost);
    }
    ways
}

fn keep_dearest(ways: &mut Ways, state: State, cost: u64) {
    let dearest = ways.entry(state).or_insert(cost);
    *dearest = cost.max(*dearest);
}
