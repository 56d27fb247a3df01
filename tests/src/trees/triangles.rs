//! Limits that are triangular numbers, by flag 4, and values for their symbols.

use super::{Amount, Kind, Tree};
use crate::format::*;
use crate::rng::Rng;

impl Tree {
    /// The symbols that stand under flag 4, in the order of the records.
    pub fn triangles(&self) -> Vec<u64> {
        let mut symbols = Vec::new();
        if let Some(Amount::Triangular(symbol)) = self.limit.map(|limit| limit.amount) {
            symbols.push(symbol);
        }
        for child in &self.children {
            symbols.extend(child.triangles());
        }
        symbols
    }

    /// The symbols that are bounds, or limits themselves.
    pub fn plain_counts(&self) -> Vec<u64> {
        let mut symbols = Vec::new();
        if let Kind::Loop(Amount::Symbol(symbol)) = self.kind {
            symbols.push(symbol);
        }
        if let Some(Amount::Symbol(symbol)) = self.limit.map(|limit| limit.amount) {
            symbols.push(symbol);
        }
        for child in &self.children {
            symbols.extend(child.plain_counts());
        }
        symbols
    }
}

/// A limit's amount: where it is a symbol, often the triangular number of that. It is drawn aside, so
/// that a tree whose flag 4 is taken off is the same as if there were none.
pub(super) fn often_triangular(rng: &Rng, amount: Amount) -> Amount {
    match amount {
        Amount::Symbol(symbol) if rng.aside().once_in(2) => Amount::Triangular(symbol),
        _ => amount,
    }
}

/// Gives most counts a small value or one about the most that flag 4 allows, and few or some of them
/// one past it.
pub fn put_about_1000(rng: &mut Rng, values: &mut [u64]) {
    let past = rng.pick(&[5, 40]);
    for symbol in COUNT_SYMBOLS {
        let value = &mut values[symbol as usize];
        *value = match rng.index(4) {
            0 => *value,
            1 => rng.within(0..=9),
            _ if rng.once_in(past) => MOST_TRIANGULAR + 1,
            _ => rng.pick(&[MOST_TRIANGULAR - 1, MOST_TRIANGULAR]),
        };
    }
}

/// Takes flag 4 off: the symbols themselves are the limits.
pub fn drop_triangles(tree: &mut Tree) {
    if let Some(limit) = &mut tree.limit {
        if let Amount::Triangular(symbol) = limit.amount {
            limit.amount = Amount::Symbol(symbol);
        }
    }
    tree.children.iter_mut().for_each(drop_triangles);
}

/// Sets flag 4 of the first limit that is a symbol, or takes it off if it is set. Answers whether
/// there is such a limit.
pub(super) fn flip_first_triangle(tree: &mut Tree) -> bool {
    if let Some(limit) = &mut tree.limit {
        let flipped = match limit.amount {
            Amount::Plain(_) => None,
            Amount::Symbol(symbol) => Some(Amount::Triangular(symbol)),
            Amount::Triangular(symbol) => Some(Amount::Symbol(symbol)),
        };
        if let Some(amount) = flipped {
            limit.amount = amount;
            return true;
        }
    }
    tree.children.iter_mut().any(flip_first_triangle)
}
