//! Random trees with much to simplify: lists of the kind of the list above, lists of one child, zeros,
//! loops that are never passed, choices whose alternatives end alike but for addresses, and all of this
//! with limits and symbols here and there, some of them paired.

use super::addresses::put_addresses;
use super::pairs::{at_times_paired, drop_heavy_pairs, put_weights};
use super::random::{capacity, pad, random_parts, sequence_or_choice, spine, split};
use super::triangles::{flip_first_triangle, often_triangular};
use super::{Amount, Amounts, Kind, Limit, Tree};
use crate::format::*;
use crate::rng::Rng;
use std::ops::RangeInclusive;

/// A tree of exactly that many records that questions 1 to 7 accept, of small amounts.
pub fn redundant(rng: &mut Rng, records: usize) -> Tree {
    let depth = rng.size(5..=MOST_DEPTH);
    let loops = rng.size(0..=MOST_LOOPS);
    let above = sequence_or_choice(rng);
    let tree = Growth::new(rng, loops).limited_node(records, depth, 0, above);
    finished(rng, tree)
}

/// A sequence or choice of about 255 children, some of them lists of its own kind, so that these fit
/// or just do not fit into it.
pub fn crowded(rng: &mut Rng) -> Tree {
    let kind = sequence_or_choice(rng);
    let mut growth = Growth::new(rng, 0);
    let mut children: Vec<Tree> = (0..growth.rng.size(248..=254))
        .map(|_| growth.limited_node(1, 1, 0, kind))
        .collect();
    while children.len() < MOST_CHILDREN && !growth.rng.once_in(5) {
        let records = growth.rng.size(2..=8);
        let place = growth.rng.size(0..=children.len());
        children.insert(place, growth.list(records, 3, 0, kind));
    }
    finished(rng, Tree::new(kind, children))
}

/// A choice of sequences of two that end in equal loops with a limit inside, so that nothing reaches
/// out of them but at times a paired symbol, or at times in loops that differ by flag 4 alone.
pub fn ending_in_loops(rng: &mut Rng) -> Tree {
    let mut growth = Growth {
        rng,
        loops: 2,
        symbols: 2,
        limits: 4,
    };
    let kind = Kind::Loop(growth.amount(3, COUNT_SYMBOLS));
    let [mut body, exit] = [0; 2].map(|_| growth.node(1, 1, 1, kind));
    let Limit { amount, .. } = growth.limit(1);
    body.limit = Some(Limit { names: 1, amount });
    let second = Tree::new(kind, vec![body, exit]);
    let mut pairs = Vec::new();
    for _ in 0..growth.rng.size(2..=4) {
        let records = growth.rng.size(1..=4);
        let first = growth.limited_node(records, 5, 0, Kind::Sequence);
        pairs.push(Tree::new(Kind::Sequence, vec![first, second.clone()]));
    }
    if growth.rng.once_in(3) {
        flip_first_triangle(&mut pairs[growth.rng.index(2)].children[1]);
    }
    let mut choice = Tree::new(Kind::Choice, pairs);
    if growth.rng.once_in(2) {
        choice.limit = Some(growth.limit(0));
    }
    finished(rng, choice)
}

/// How a tree is grown. A chance is one in so many, and none at all if this is 0.
struct Growth<'r> {
    rng: &'r mut Rng,
    /// The most loops around a node.
    loops: usize,
    /// The chance that an amount is a symbol.
    symbols: u64,
    /// The chance that a node has a limit.
    limits: u64,
}

impl<'r> Growth<'r> {
    fn new(rng: &'r mut Rng, loops: usize) -> Self {
        let symbols = rng.pick(&[0, 2, 2, 3, 3, 5, 9, 20]);
        let limits = rng.pick(&[0, 2, 4, 8, 20, 60]);
        Growth {
            rng,
            loops,
            symbols,
            limits,
        }
    }

    fn happens(&mut self, chance: u64) -> bool {
        chance > 0 && self.rng.once_in(chance)
    }

    /// A node of so many records, at most that deep, with `around` loops around it, under a node of
    /// the kind `above`.
    fn limited_node(&mut self, records: usize, depth: usize, around: usize, above: Kind) -> Tree {
        let mut node = self.node(records, depth, around, above);
        if self.happens(self.limits) {
            node.limit = Some(self.limit(around));
        }
        node
    }

    fn node(&mut self, records: usize, depth: usize, around: usize, above: Kind) -> Tree {
        if records == 1 {
            let time = self.amount(9, TIME_SYMBOLS);
            let time = at_times_paired(self.rng, time);
            return Tree::new(Kind::Block(time), Vec::new());
        }
        let most = capacity(depth - 1);
        let may_loop = around < self.loops && (3..=1 + 2 * most).contains(&records);
        // With this depth every part of such a choice has all the room that it can want.
        let may_end_alike = records >= 7 && depth >= 5;
        match self.rng.index(9) {
            0..=2 if may_loop => self.repeat(records, depth, around),
            3 | 4 if may_end_alike => self.ending_alike(records, depth, around),
            5 | 6 if is_list(above) => self.list(records, depth, around, above),
            _ => {
                let kind = sequence_or_choice(self.rng);
                self.list(records, depth, around, kind)
            }
        }
    }

    fn list(&mut self, records: usize, depth: usize, around: usize, kind: Kind) -> Tree {
        let parts = random_parts(self.rng, records - 1, capacity(depth - 1));
        let children = parts
            .into_iter()
            .map(|part| self.limited_node(part, depth - 1, around, kind));
        Tree::new(kind, children.collect())
    }

    fn repeat(&mut self, records: usize, depth: usize, around: usize) -> Tree {
        let kind = Kind::Loop(self.amount(3, COUNT_SYMBOLS));
        let parts = split(self.rng, records - 1, LOOP_CHILDREN, capacity(depth - 1));
        let body = self.limited_node(parts[0], depth - 1, around + 1, kind);
        let exit = self.limited_node(parts[1], depth - 1, around, kind);
        Tree::new(kind, vec![body, exit])
    }

    /// A choice of sequences of two whose second children are equal, and at times not quite.
    fn ending_alike(&mut self, records: usize, depth: usize, around: usize) -> Tree {
        let below = records - 1;
        let alternatives = self.rng.size(2..=4.min(below / 3));
        let most = self.rng.pick(&[1, 1, 6, MOST_RECORDS]);
        let size = self.rng.size(1..=most.min(below / alternatives - 2));
        let second = self.limited_node(size, depth - 2, around, Kind::Sequence);
        let left = below - alternatives * (1 + size);
        let firsts = split(self.rng, left, alternatives, MOST_RECORDS);
        let mut pairs: Vec<Tree> = firsts
            .into_iter()
            .map(|records| self.limited_node(records, depth - 2, around, Kind::Sequence))
            .map(|first| Tree::new(Kind::Sequence, vec![first, second.clone()]))
            .collect();
        if self.rng.once_in(5) {
            let other = &mut pairs[self.rng.index(alternatives)];
            match self.rng.index(3) {
                0 => other.limit = Some(self.limit(around)),
                1 => other.children.swap(0, 1),
                _ => other.children[1] = self.node(size, depth - 2, around, Kind::Sequence),
            }
        }
        // Nor are they equal where one has flag 4 and the other not.
        if self.rng.aside().once_in(4) {
            flip_first_triangle(&mut pairs[0].children[1]);
        }
        Tree::new(Kind::Choice, pairs)
    }

    /// A limit that names one of the loops around, the innermost as a rule, or the run.
    fn limit(&mut self, around: usize) -> Limit {
        let names = match self.rng.index(6) {
            0..=2 if around > 0 => 1,
            3 | 4 if around > 0 => self.rng.size(1..=around) as u8,
            _ => WHOLE_RUN,
        };
        let amount = self.amount(3, COUNT_SYMBOLS);
        let amount = often_triangular(self.rng, amount);
        Limit { names, amount }
    }

    fn amount(&mut self, most: u64, symbols: RangeInclusive<u64>) -> Amount {
        if self.happens(self.symbols) {
            // Few of them, so that equal ones meet.
            return Amount::Symbol(symbols.start() + self.rng.within(0..=2));
        }
        let zero = self.rng.once_in(3);
        Amount::Plain(if zero { 0 } else { self.rng.within(1..=most) })
    }
}

fn is_list(kind: Kind) -> bool {
    matches!(kind, Kind::Sequence | Kind::Choice)
}

/// The tree with addresses, and without the limits and then the paired symbols that are past question
/// 7's weight.
fn finished(rng: &Rng, mut tree: Tree) -> Tree {
    let mut left = MOST_WEIGHT;
    drop_heavy_limits(&mut tree, 0, &mut left);
    drop_heavy_pairs(&mut tree, &mut left);
    put_addresses(rng, &mut tree);
    tree
}

fn drop_heavy_limits(node: &mut Tree, around: usize, left: &mut u64) {
    if let Some(limit) = node.limit {
        let inside = match limit.names {
            WHOLE_RUN => around,
            names => usize::from(names) - 1,
        };
        match left.checked_sub(1 << inside) {
            Some(less) => *left = less,
            None => node.limit = None,
        }
    }
    let is_loop = matches!(node.kind, Kind::Loop(_));
    for (place, child) in node.children.iter_mut().enumerate() {
        let is_body = is_loop && place == 0;
        drop_heavy_limits(child, around + usize::from(is_body), left);
    }
}

/// A tree as deep as question 5 lets pass, with small numbers, so that rules fit at many depths.
pub fn deepest(rng: &mut Rng) -> Tree {
    const FEW: Amounts = Amounts {
        time: 3,
        bound: 1,
        limit: 2,
        symbols: 5,
    };
    let loops = rng.size(0..=8);
    let mut tree = spine(rng, 32, loops);
    let records = tree.records() + rng.size(0..=20);
    pad(rng, &mut tree, records);
    let wanted = rng.pick(&[0, 3, 30, 255]);
    put_weights(rng, &mut tree, wanted);
    FEW.set(rng, &mut tree);
    tree
}
