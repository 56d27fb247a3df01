//! Random trees of any of the other generators.

use super::{crowded, deepest, ending_in_loops, redundant, within_limits, Amounts, Tree};
use crate::rng::Rng;

/// A tree that is accepted, of any sort: small and large, some of them of the most records or the deepest.
pub fn of_any_sort(rng: &mut Rng) -> Tree {
    let most = rng.pick(&[4, 12, 40, 100, 200]);
    let records = rng.size(1..=most);
    match rng.index(12) {
        0 => crowded(rng),
        1 => ending_in_loops(rng),
        2 => deepest(rng),
        3 => {
            let records = rng.pick(&[509, 510, 511, 512]);
            within_limits(rng, records)
        }
        4 | 5 => redundant(rng, records),
        6 => within_limits(rng, records),
        7 | 8 => of_amounts(rng, records, Amounts::MIDDLING),
        _ => of_amounts(rng, records, Amounts::SMALL),
    }
}

/// A tree of exactly that many records that is accepted, of such amounts.
pub fn of_amounts(rng: &mut Rng, records: usize, amounts: Amounts) -> Tree {
    let mut tree = within_limits(rng, records);
    amounts.set(rng, &mut tree);
    tree
}
