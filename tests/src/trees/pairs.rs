//! Blocks of paired symbols, and values for both of their numbers.

use super::random::put_limits;
use super::{Amount, Kind, Tree};
use crate::format::*;
use crate::rng::Rng;

/// How far behind a symbol of one value the paired one stands that takes its place, or gives way to it.
const BEHIND: u64 = 8;

impl Tree {
    /// The paired symbol that is this block's time, if it is one.
    pub fn paired_symbol(&self) -> Option<u64> {
        match self.kind {
            Kind::Block(Amount::Symbol(symbol)) => {
                PAIRED_SYMBOLS.contains(&symbol).then_some(symbol)
            }
            _ => None,
        }
    }

    /// How many blocks have a paired symbol as their time.
    pub fn pairs(&self) -> usize {
        let here = usize::from(self.paired_symbol().is_some());
        here + self.children.iter().map(Tree::pairs).sum::<usize>()
    }

    /// The same tree with a symbol of one value in place of each paired one.
    pub fn unpaired(&self) -> Tree {
        let mut tree = self.clone();
        tree.visit_mut(&mut drop_pair);
        tree
    }
}

/// Puts paired symbols on random blocks and then limits on random nodes of a tree without either, up to
/// the wanted weight, and answers the weight reached: less only where every node has a limit.
pub fn put_weights(rng: &mut Rng, tree: &mut Tree, wanted: u64) -> u64 {
    let share = match rng.index(3) {
        0 => 0,
        1 => wanted.min(rng.within(0..=9)),
        _ => rng.within(0..=wanted),
    };
    let of_pairs = put_pairs(rng, tree, share);
    of_pairs + put_limits(rng, tree, wanted - of_pairs)
}

/// Puts paired symbols on random blocks, up to the wanted weight, and answers the weight reached: less
/// only where each other block would weigh too much.
pub fn put_pairs(rng: &mut Rng, tree: &mut Tree, wanted: u64) -> u64 {
    let mut blocks = Vec::new();
    collect_blocks(tree, 0, &mut blocks);
    rng.shuffle(&mut blocks);
    // Few symbols as a rule, so that blocks share one.
    let symbols = rng.pick(&[[24, 24], [25, 26], [27, 29], [24, 31], [30, 31]]);
    let mut left = wanted;
    for (block, around) in blocks {
        if let Some(less) = left.checked_sub(1 << around) {
            block.kind = Kind::Block(Amount::Symbol(rng.within(symbols[0]..=symbols[1])));
            left = less;
        }
    }
    wanted - left
}

/// The blocks, each with how many loops are around it.
fn collect_blocks<'t>(tree: &'t mut Tree, around: usize, blocks: &mut Vec<(&'t mut Tree, usize)>) {
    if tree.children.is_empty() {
        blocks.push((tree, around));
        return;
    }
    let is_loop = matches!(tree.kind, Kind::Loop(_));
    for (place, child) in tree.children.iter_mut().enumerate() {
        let is_body = is_loop && place == 0;
        collect_blocks(child, around + usize::from(is_body), blocks);
    }
}

/// A block's time: where it is a symbol, at times a paired one. It is drawn aside, so that a tree whose
/// paired symbols are taken off is the same as if there were none.
pub(super) fn at_times_paired(rng: &Rng, time: Amount) -> Amount {
    match time {
        Amount::Symbol(symbol) if rng.aside().once_in(4) => Amount::Symbol(symbol + BEHIND),
        _ => time,
    }
}

/// The time, or for a paired symbol one that has one value.
pub(super) fn single(time: Amount) -> Amount {
    match time {
        Amount::Symbol(symbol) if PAIRED_SYMBOLS.contains(&symbol) => {
            Amount::Symbol(symbol - BEHIND)
        }
        _ => time,
    }
}

fn drop_pair(node: &mut Tree) {
    if let Kind::Block(time) = &mut node.kind {
        *time = single(*time);
    }
}

/// Takes the paired symbols off that are past the weight that is left.
pub(super) fn drop_heavy_pairs(tree: &mut Tree, left: &mut u64) {
    let mut blocks = Vec::new();
    collect_blocks(tree, 0, &mut blocks);
    for (block, around) in blocks {
        if block.paired_symbol().is_some() {
            match left.checked_sub(1 << around) {
                Some(less) => *left = less,
                None => drop_pair(block),
            }
        }
    }
}

/// Raises each first value to its later one where that is larger, so that question 14 lets the values
/// pass.
pub fn lift_firsts(values: &mut [u64]) {
    for first in PAIRED_SYMBOLS.map(|symbol| symbol as usize) {
        values[first] = values[first].max(values[first + LATER]);
    }
}

/// Makes one of the later values larger than its first, which question 14 refuses.
pub fn put_past_first(rng: &mut Rng, values: &mut [u64]) {
    let first = rng.within(PAIRED_SYMBOLS) as usize;
    values[first] = values[first].min(MOST_TIME - 1);
    let past = rng.pick(&[1, 1, 5, MOST_TIME]);
    values[first + LATER] = (values[first] + past).min(MOST_TIME);
}
