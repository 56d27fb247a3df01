//! The simplifying call against plain Rust.

use crate::quote::{quotes, LIMITS, SIZES};
use crate::shared::{self, Shared};
use volefleece::raw;
use volefleece_tests::format::{MOST_RECORDS, RECORD_BYTES};
use volefleece_tests::rng::Rng;
use volefleece_tests::simplifier::{self, Simplified};
use volefleece_tests::timing::{each, median, microseconds};
use volefleece_tests::trees::{self, Amount, Kind, Tree};

const TABLES: usize = 16;
const REPETITIONS: usize = 31;

const HEADING: &str = "
                                 |          simplify
records trees       steps   left |      lib     Rust ratio";

pub fn measure() {
    println!(
        "Microseconds a call with steps enough, medians of {REPETITIONS} repetitions over {TABLES} tables, the"
    );
    println!(
        "library's time by plain Rust's, and the medians of the steps taken and the records left. The"
    );
    println!(
        "trees are those above by their limits, some with much to simplify, some of zeros, which go one at"
    );
    println!(
        "a step, and choices of two to six alternatives with long second children: shared, nearly shared,"
    );
    println!(
        "and nearly shared with all steps behind them. The library's buffer is used again and not cleared;"
    );
    println!("plain Rust makes a new table.");
    println!("{HEADING}");
    for records in SIZES {
        for limits in LIMITS {
            let quotes = quotes(TABLES, records, limits).into_iter();
            let tables: Vec<Vec<u8>> = quotes.map(|quote| quote.table).collect();
            measure_tables(records, limits.name(), &tables);
        }
        measure_tables(records, "redundant", &redundant(records));
        measure_tables(records, "zeros", &zeros(records));
    }
    for Shared { name, tables } in shared::kinds(TABLES) {
        measure_tables(tables[0].len() / RECORD_BYTES, name, &tables);
    }
}

/// Tables of so many records that take some steps, the same in every run.
pub fn redundant(records: usize) -> Vec<Vec<u8>> {
    let mut rng = Rng::new(records as u64);
    let random = || {
        let mut tree = trees::redundant(&mut rng, records).unpaired();
        trees::drop_triangles(&mut tree);
        tree.encode()
    };
    let tables = std::iter::repeat_with(random);
    let tables = tables.filter(|table| takes_steps(table, records as u64 / 8));
    tables.take(TABLES).collect()
}

/// Does simplifying take so many steps at the least?
pub fn takes_steps(table: &[u8], steps: u64) -> bool {
    second(table).steps >= steps
}

/// Tables of so many records that take nearly as many steps. There cannot be more, as every step leaves
/// fewer records, but for a limited block alone.
pub fn zeros(records: usize) -> Vec<Vec<u8>> {
    let mut rng = Rng::new(records as u64);
    let blocks = records - 3;
    let mut table = || {
        // A choice, as a sequence would take its sequences in.
        let children =
            [blocks / 2, blocks.div_ceil(2)].map(|blocks| zeros_and_a_symbol(&mut rng, blocks));
        Tree::new(Kind::Choice, children.into()).encode()
    };
    (0..TABLES).map(|_| table()).collect()
}

/// A sequence of so many blocks. The symbol, at a random place, keeps it from becoming a block at once.
fn zeros_and_a_symbol(rng: &mut Rng, blocks: usize) -> Tree {
    let mut children = vec![Tree::block(0); blocks];
    children[rng.index(blocks)].kind = Kind::Block(Amount::Symbol(16));
    Tree::new(Kind::Sequence, children)
}

fn measure_tables(records: usize, name: &str, tables: &[Vec<u8>]) {
    let simplified: Vec<Simplified> = tables.iter().map(|table| agreed(table)).collect();
    let steps = median(simplified.iter().map(|table| table.steps).collect());
    let left = median(simplified.iter().map(|table| table.bytes.len()).collect()) / RECORD_BYTES;
    let times = times(tables);
    let [library, rust] = times[..] else {
        panic!("one time for each call");
    };
    println!(
        "{records:7} {name:10} {steps:6} {left:6} | {library:8.2} {rust:8.2} {:5.2}",
        library / rust
    );
}

/// What both answer.
fn agreed(table: &[u8]) -> Simplified {
    let second = second(table);
    let mut out = vec![0; table.len()];
    let answer = raw::simplify(table, u64::MAX, &mut out);
    assert_eq!((answer.refused, answer.steps), (0, second.steps));
    assert_eq!(out[..answer.length as usize], second.bytes);
    second
}

fn second(table: &[u8]) -> Simplified {
    simplifier::simplify(table, u64::MAX, table.len()).expect("small amounts")
}

/// The library's and plain Rust's time for a table.
fn times(tables: &[Vec<u8>]) -> Vec<f64> {
    let mut out = [0; MOST_RECORDS * RECORD_BYTES];
    let calls = vec![
        each(tables, |table| raw::simplify(table, u64::MAX, &mut out)),
        each(tables, |table| second(table)),
    ];
    microseconds(REPETITIONS, tables.len(), calls)
}
