//! Times, bounds and limits for random trees, and values for their symbols, up to given sizes.

use super::pairs::single;
use super::triangles::often_triangular;
use super::{Amount, Kind, Tree};
use crate::format::*;
use crate::rng::Rng;
use std::ops::RangeInclusive;

/// The largest plain numbers of a tree, and how common its symbols are.
#[derive(Clone, Copy, Debug)]
pub struct Amounts {
    pub time: u64,
    pub bound: u64,
    pub limit: u64,
    /// One amount in so many is a symbol; none is if this is 0.
    pub symbols: u64,
}

impl Amounts {
    pub const SMALL: Amounts = Amounts {
        time: 9,
        bound: 3,
        limit: 3,
        symbols: 4,
    };

    /// Figures on both sides of the ceiling.
    pub const MIDDLING: Amounts = Amounts {
        time: 10_000_000,
        bound: 200,
        limit: 1_000,
        symbols: 4,
    };

    /// Gives every node of a tree another time, bound and limit. Which loops the limits name stays, and
    /// where there are symbols at all, which blocks have paired ones and which of them.
    pub fn set(&self, rng: &mut Rng, tree: &mut Tree) {
        let is_paired = tree.paired_symbol().is_some();
        match &mut tree.kind {
            Kind::Block(time) => {
                let other = single(self.amount(rng, self.time, TIME_SYMBOLS));
                if !is_paired || self.symbols == 0 {
                    *time = other;
                }
            }
            Kind::Loop(bound) => *bound = self.amount(rng, self.bound, COUNT_SYMBOLS),
            Kind::Sequence | Kind::Choice => {}
        }
        if let Some(limit) = &mut tree.limit {
            let amount = self.amount(rng, self.limit, COUNT_SYMBOLS);
            limit.amount = often_triangular(rng, amount);
        }
        for child in &mut tree.children {
            self.set(rng, child);
        }
    }

    fn amount(&self, rng: &mut Rng, most: u64, symbols: RangeInclusive<u64>) -> Amount {
        if self.symbols > 0 && rng.once_in(self.symbols) {
            Amount::Symbol(rng.within(symbols))
        } else {
            Amount::Plain(plain(rng, most))
        }
    }

    /// Values of the same sizes, the later ones at most their first. These are drawn aside, so that the
    /// others are the same as if there were none.
    pub fn values(&self, rng: &mut Rng) -> Vec<u64> {
        let mut values: Vec<u64> = (0..FORMER_VALUES as u64)
            .map(|symbol| {
                if TIME_SYMBOLS.contains(&symbol) {
                    plain(rng, self.time)
                } else {
                    let most = rng.pick(&[self.bound, self.limit]);
                    plain(rng, most)
                }
            })
            .collect();
        let mut aside = rng.aside();
        for symbol in PAIRED_SYMBOLS {
            let first = values[symbol as usize];
            values.push(plain(&mut aside, first));
        }
        values
    }
}

/// Any number up to that one, and often an end.
fn plain(rng: &mut Rng, most: u64) -> u64 {
    match rng.index(10) {
        0 => 0,
        1 => most,
        _ => rng.within(0..=most),
    }
}
