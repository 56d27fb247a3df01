//! The safe calls of the wrapper against the raw ones on the same slices: on random tables, accepted and damaged, with values of all sorts,
//! they answer the same numbers and bytes, and refuse by the same number. The seeds are fixed: every run makes the same tables.

use std::collections::BTreeMap;

use volefleece::{raw, FormerLength, Quote, Refusal};
use volefleece_tests::compare::shown;
use volefleece_tests::damage;
use volefleece_tests::faults;
use volefleece_tests::format::{LIST_ROOM, NO_BRANCH, VALUES};
use volefleece_tests::noise;
use volefleece_tests::retimer::Retiming;
use volefleece_tests::retimes;
use volefleece_tests::rng::Rng;
use volefleece_tests::trees::{self, Amounts, Kind, Tree};

/// Figures on both sides of the ceiling.
const MIDDLING: Amounts = Amounts {
    time: 10_000_000,
    bound: 200,
    limit: 1_000,
    symbols: 3,
};

/// How often each number was answered: that of a refusal, or 0.
type Reached = BTreeMap<u64, u64>;

/// Both calls answer the same, and the answer is counted.
#[track_caller]
fn agree<T: Clone + PartialEq + std::fmt::Debug>(
    reached: &mut Reached,
    table: &[u8],
    safe: Result<T, Refusal>,
    raw: Result<T, u64>,
) -> Option<T> {
    let number = raw.as_ref().err().copied().unwrap_or(0);
    *reached.entry(number).or_default() += 1;
    assert_eq!(safe.map_err(Refusal::number), raw, "{}", shown(table));
    raw.ok()
}

/// A raw call's answer, where it did not refuse.
fn accepted<T>(refused: u64, answer: T) -> Result<T, u64> {
    match refused {
        0 => Ok(answer),
        number => Err(number),
    }
}

#[track_caller]
fn assert_reached(reached: &Reached, least: &[(u64, u64)]) {
    for (number, times) in least {
        let times_reached = reached.get(number).unwrap_or(&0);
        assert!(times_reached >= times, "{number} of {reached:?}");
    }
}

/// A tree that is accepted, with much to simplify, or many children, or middling amounts.
fn tree(rng: &mut Rng) -> Tree {
    let records = rng.size(1..=60);
    match rng.index(8) {
        0 => trees::crowded(rng),
        1 | 2 => trees::redundant(rng, records),
        _ => {
            let mut tree = trees::within_limits(rng, records);
            MIDDLING.set(rng, &mut tree);
            tree
        }
    }
}

/// A table that is accepted about two times in three.
fn table(rng: &mut Rng) -> Vec<u8> {
    let mut table = tree(rng).encode();
    match rng.index(9) {
        0 => {
            let bits = rng.size(1..=4);
            damage::flip_bits(rng, &mut table, bits);
        }
        1 => return rng.pick(&noise::KINDS)(rng),
        2 | 3 => {
            let faults = [rng.within(1..=7)];
            let tree = faults::tree(rng, &faults);
            return faults::table(rng, &tree, &faults);
        }
        _ => {}
    }
    table
}

/// Values in range or one of them not, some about the most of a triangular number, a later one past its
/// first, and not always 40.
fn values(rng: &mut Rng) -> Vec<u64> {
    let mut values = MIDDLING.values(rng);
    trees::put_about_1000(rng, &mut values);
    if rng.once_in(6) {
        trees::put_past_first(rng, &mut values);
    }
    match rng.index(12) {
        0 => values[rng.index(VALUES)] = rng.pick(&[1_000_001, 1_000_000_000_001, u64::MAX]),
        1 => values.truncate(rng.index(VALUES)),
        2 => values.resize(VALUES + rng.size(1..=40), 0),
        _ => {}
    }
    values
}

#[test]
fn check() {
    let (mut rng, mut reached) = (Rng::new(1), Reached::new());
    for _ in 0..6_000 {
        let table = table(&mut rng);
        let answer = raw::check(&table);
        let safe = volefleece::check(&table).map(|records| records as u64);
        let raw = accepted(answer.refused, answer.records);
        agree(&mut reached, &table, safe, raw);
    }
    let refused = (1..=7).map(|number| (number, 50));
    let least: Vec<_> = refused.chain([(0, 3_000)]).collect();
    assert_reached(&reached, &least);
}

#[test]
fn figure() {
    let (mut rng, mut reached) = (Rng::new(2), Reached::new());
    let mut branches = Reached::new();
    for _ in 0..6_000 {
        let (table, values) = (table(&mut rng), values(&mut rng));
        let answer = raw::figure(&table, &values);
        let safe = volefleece::figure(&table, &values)
            .map(|quote| (quote.figure, quote.branch.map(u64::from)));
        let branch = (answer.branch != NO_BRANCH).then_some(answer.branch);
        let raw = accepted(answer.refused, (answer.figure, branch));
        if agree(&mut reached, &table, safe, raw).is_some() {
            *branches.entry(answer.branch).or_default() += 1;
        }
    }
    let refused = [9, 10, 13, 14].map(|number| (number, 100));
    assert_reached(&reached, &[&refused[..], &[(0, 1_000)]].concat());
    assert_reached(&branches, &[(NO_BRANCH, 500), (0, 50), (1, 50)]);
    assert!(branches.len() >= 50, "{branches:?}");
}

/// The last branch that there can be, and the number after it that stands for none.
#[test]
fn the_last_branch() {
    let dearer = |child| Tree::block(if child == 254 { 9 } else { 7 });
    let choice = Tree::new(Kind::Choice, (0..255).map(dearer).collect());
    for (tree, branch) in [(choice, Some(254)), (Tree::block(9), None)] {
        let quote = volefleece::figure(&tree.encode(), &[0; VALUES]);
        assert_eq!(quote, Ok(Quote { figure: 9, branch }));
    }
}

#[test]
fn list() {
    let (mut rng, mut reached) = (Rng::new(3), Reached::new());
    let mut lengths = Reached::new();
    for _ in 0..6_000 {
        let (table, values) = (table(&mut rng), values(&mut rng));
        let mut room = [0; LIST_ROOM];
        let answer = raw::list(&table, &values, &mut room);
        let pairs = room.chunks_exact(2).take(answer.pairs as usize);
        let pairs = pairs.map(|pair| (pair[0], (pair[1] != 0).then_some(pair[1])));
        let pairs: Vec<_> = pairs.collect();
        let safe = volefleece::list(&table, &values).map(|list| {
            let pairs = list.iter();
            pairs
                .map(|members| (members.value, members.count))
                .collect()
        });
        let raw = accepted(answer.refused, pairs);
        if let Some(pairs) = agree(&mut reached, &table, safe, raw) {
            *lengths.entry(pairs.len() as u64).or_default() += 1;
        }
    }
    let refused = [9, 10, 13, 14].map(|number| (number, 100));
    assert_reached(&reached, &[&refused[..], &[(0, 1_000)]].concat());
    assert_reached(&lengths, &[(1, 400), (2, 100), (3, 30), (4, 10), (5, 5)]);
}

#[test]
fn simplify() {
    let (mut rng, mut reached) = (Rng::new(4), Reached::new());
    let mut endings = BTreeMap::new();
    for _ in 0..2_500 {
        let table = table(&mut rng);
        for allowance in [0, 1, 5, u64::MAX] {
            let mut room = vec![0; table.len()];
            let answer = raw::simplify(&table, allowance, &mut room);
            room.truncate(answer.length as usize);
            let safe = volefleece::simplify(&table, allowance)
                .map(|answer| (answer.table, answer.steps, u64::from(answer.finished)));
            let raw = accepted(answer.refused, (room, answer.steps, answer.finished));
            if let Some((_, steps, finished)) = agree(&mut reached, &table, safe, raw) {
                let ending = (allowance, steps == allowance, finished);
                *endings.entry(ending).or_insert(0) += 1;
            }
        }
    }
    let refused = [1, 2, 3, 4, 5, 6, 7, 10].map(|number| (number, 100));
    assert_reached(&reached, &[&refused[..], &[(0, 4_000)]].concat());
    for allowance in [0, 1, 5] {
        for finished in [0, 1] {
            let times = endings.get(&(allowance, true, finished)).unwrap_or(&0);
            assert!(*times >= 10, "{allowance} {finished} {endings:?}");
        }
    }
    assert!(endings[&(u64::MAX, false, 1)] >= 1_000, "{endings:?}");
}

#[test]
fn graft() {
    let (mut rng, mut reached) = (Rng::new(5), Reached::new());
    for _ in 0..6_000 {
        let symbol = match rng.index(8) {
            0 => rng.pick(&[0, 15, 24, 31, 32, 256 + 16, u64::MAX]),
            _ => rng.within(16..=23),
        };
        let mut host = table(&mut rng);
        if rng.once_in(2) {
            let mut tree = tree(&mut rng);
            trees::put_symbol(&mut rng, &mut tree, symbol.clamp(16, 23), 1);
            host = tree.encode();
        }
        // Most that are accepted have a paired symbol, which is refused.
        let sent = match rng.index(3) {
            0 => table(&mut rng),
            _ => tree(&mut rng).unpaired().encode(),
        };
        let mut room = vec![0; volefleece::MOST_TABLE];
        let answer = raw::graft(&host, &sent, symbol, &mut room);
        room.truncate(answer.length as usize);
        let raw = accepted(answer.refused, room);
        let safe = volefleece::graft(&host, &sent, symbol);
        agree(&mut reached, &host, safe, raw);
    }
    let refused = [1, 2, 3, 4, 5, 6, 7, 11, 12].map(|number| (number, 50));
    assert_reached(&reached, &[&refused[..], &[(0, 1_000)]].concat());
}

/// A symbol and a number that are often in range, and a small number as a rule, which plain fields have too.
fn symbol_and_number(rng: &mut Rng) -> (u64, u64) {
    let symbol = match rng.index(8) {
        0 => rng.pick(&[24, 31, 32, 256 + 16, u64::MAX]),
        _ => rng.within(0..=23),
    };
    let number = match rng.index(8) {
        0 => rng.pick(&[1_000_001, 1_000_000_000_001, u64::MAX]),
        1 => rng.pick(&[1_000_000, 1_000_000_000_000]),
        _ => rng.within(0..=9),
    };
    (symbol, number)
}

#[test]
fn fill() {
    let (mut rng, mut reached) = (Rng::new(7), Reached::new());
    let mut marked = 0;
    for _ in 0..6_000 {
        let table = table(&mut rng);
        let (symbol, number) = symbol_and_number(&mut rng);
        let (mut room, mut marks) = (vec![0; table.len()], [0; volefleece::MARK_BYTES]);
        let answer = raw::fill(&table, symbol, number, &mut room, &mut marks);
        let raw = accepted(answer.refused, (room, marks));
        let safe =
            volefleece::fill(&table, symbol, number).map(|filled| (filled.table, filled.marks));
        if let Some((_, marks)) = agree(&mut reached, &table, safe, raw) {
            assert_eq!(answer.length, table.len() as u64);
            marked += u64::from(marks != [0; volefleece::MARK_BYTES]);
        }
    }
    let refused = [1, 2, 3, 4, 5, 6, 7, 15].map(|number| (number, 50));
    assert_reached(&reached, &[&refused[..], &[(0, 1_000)]].concat());
    assert!(marked >= 300, "{marked}");
}

#[test]
fn open() {
    let (mut rng, mut reached) = (Rng::new(8), Reached::new());
    let mut marked = 0;
    for _ in 0..6_000 {
        let mut table = table(&mut rng);
        let (symbol, number) = symbol_and_number(&mut rng);
        // What filling wrote, or any marks of the first records, or marks of any length.
        let mut marks = vec![0; volefleece::MARK_BYTES];
        match rng.index(8) {
            0 => marks[0] = rng.byte() & rng.byte(),
            1 => marks.resize(rng.size(0..=256), 0),
            _ => {
                if let Ok(filled) = volefleece::fill(&table, symbol, number) {
                    (table, marks) = (filled.table, filled.marks.to_vec());
                }
            }
        }
        let mut room = vec![0; table.len()];
        let answer = raw::open(&table, &marks, symbol, number, &mut room);
        let raw = accepted(answer.refused, room);
        let safe = volefleece::open(&table, &marks, symbol, number);
        if agree(&mut reached, &table, safe, raw).is_some() {
            assert_eq!(answer.length, table.len() as u64);
            marked += u64::from(marks.iter().any(|&byte| byte != 0));
        }
    }
    let refused = [1, 2, 3, 4, 5, 6, 7, 15, 16].map(|number| (number, 50));
    assert_reached(&reached, &[&refused[..], &[(0, 1_000)]].concat());
    assert!(marked >= 300, "{marked}");
}

#[test]
fn preview() {
    let (mut rng, mut reached) = (Rng::new(9), Reached::new());
    // By whether the figures differ, and the branches.
    let mut moved = [0; 2];
    for _ in 0..10_000 {
        let (table, values) = (table(&mut rng), values(&mut rng));
        let Retiming { record, old, new } = retimes::any(&mut rng, &table);
        let answer = raw::preview(&table, record, old, new, &values);
        let quote = |figure, branch| {
            let branch = (branch != NO_BRANCH).then_some(branch as u8);
            Quote { figure, branch }
        };
        let quotes = [
            quote(answer.before, answer.branch_before),
            quote(answer.after, answer.branch_after),
        ];
        let safe = volefleece::preview(&table, record, old, new, &values)
            .map(|preview| [preview.before, preview.after]);
        let raw = accepted(answer.refused, quotes);
        if let Some([before, after]) = agree(&mut reached, &table, safe, raw) {
            moved[0] += u64::from(before.figure != after.figure);
            moved[1] += u64::from(before.branch != after.branch);
        }
    }
    let refused = [1, 2, 3, 4, 5, 6, 7, 17, 9, 13, 14, 10].map(|number| (number, 50));
    assert_reached(&reached, &[&refused[..], &[(0, 1_000)]].concat());
    assert!(moved[0] >= 300 && moved[1] >= 50, "{moved:?}");
}

#[test]
fn commit() {
    let (mut rng, mut reached) = (Rng::new(10), Reached::new());
    let mut changed = 0;
    for _ in 0..6_000 {
        let table = table(&mut rng);
        let Retiming { record, old, new } = retimes::any(&mut rng, &table);
        let [mut of_raw, mut of_safe] = [table.clone(), table.clone()];
        let answer = raw::commit(&mut of_raw, record, old, new);
        let raw = accepted(answer.refused, ());
        let safe = volefleece::commit(&mut of_safe, record, old, new);
        if agree(&mut reached, &table, safe, raw).is_some() {
            assert_eq!(answer.length, table.len() as u64);
            changed += u64::from(of_raw != table);
        }
        assert_eq!(of_safe, of_raw);
    }
    let refused = [1, 2, 3, 4, 5, 6, 7, 17].map(|number| (number, 50));
    assert_reached(&reached, &[&refused[..], &[(0, 1_000)]].concat());
    assert!(changed >= 500, "{changed}");
}

#[test]
fn convert() {
    let (mut rng, mut reached) = (Rng::new(6), Reached::new());
    for _ in 0..3_000 {
        let records = rng.size(0..=520);
        let past = rng.pick(&[0, 0, 0, 1, 8, 15]);
        let old: Vec<u8> = (0..16 * records + past).map(|_| rng.byte()).collect();
        let mut room = vec![0; volefleece::MOST_TABLE];
        let answer = raw::convert(&old, &mut room);
        room.truncate(answer.length as usize);
        let raw = accepted(answer.refused, room);
        let safe = volefleece::convert(&old).map_err(|FormerLength| Refusal::Length);
        agree(&mut reached, &old, safe, raw);
    }
    assert_reached(&reached, &[(0, 1_000), (1, 1_000)]);
}
