//! Random houses.

use volefleece_tests::damage;
use volefleece_tests::faults;
use volefleece_tests::noise;
use volefleece_tests::programs::values_file;
use volefleece_tests::rng::Rng;
use volefleece_tests::trees::{self, Amounts};

/// Figures on both sides of the ceiling.
const MIDDLING: Amounts = Amounts {
    time: 10_000_000,
    bound: 200,
    limit: 1_000,
    symbols: 3,
};

/// A table that is accepted. Its new amounts may be too many paired symbols, and then there is another.
pub fn accepted(rng: &mut Rng) -> Vec<u8> {
    loop {
        let records = rng.size(1..=60);
        let mut tree = trees::within_limits(rng, records);
        MIDDLING.set(rng, &mut tree);
        let table = tree.encode();
        if volefleece::check(&table).is_ok() {
            return table;
        }
    }
}

/// A table that is accepted about every other time.
pub fn table(rng: &mut Rng) -> Vec<u8> {
    let mut table = accepted(rng);
    match rng.index(12) {
        0 => return rng.pick(&noise::KINDS)(rng),
        1 => damage::remove_record(rng, &mut table),
        2 => {
            let record = damage::random_record(rng, &table);
            damage::random_edit(rng).apply(&mut table, record);
        }
        3..=6 => {
            let faults = [rng.within(1..=7)];
            let tree = faults::tree(rng, &faults);
            return faults::table(rng, &tree, &faults);
        }
        _ => {}
    }
    table
}

/// A file of values: none, short, whole, of a wrong length, with a number out of range, or with a later one above its first.
pub fn values(rng: &mut Rng) -> Option<Vec<u8>> {
    let mut values = MIDDLING.values(rng);
    values.truncate(32);
    for first in 24..32 {
        values.push(rng.within(0..=values[first]));
    }
    if rng.once_in(6) {
        let most = rng.pick(&[1_000_001, 1_000_000_000_001, u64::MAX]);
        values[rng.index(40)] = most;
    }
    if rng.once_in(8) {
        let pair = rng.index(8);
        values[32 + pair] = values[24 + pair].saturating_add(1);
    }
    let mut file = values_file(&values);
    match rng.index(10) {
        0 => return None,
        1 => file.truncate(8 * rng.size(0..=40)),
        2 => file.truncate(rng.size(0..=320)),
        3 => file.extend(vec![0; rng.pick(&[1, 8, 300])]),
        _ => {}
    }
    Some(file)
}
