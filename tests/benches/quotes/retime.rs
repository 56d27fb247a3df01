//! The previewing and committing calls against plain Rust, and by the calls that they stand for: a check,
//! and two figures.

use crate::quote::{quotes, Limits, Quote, SIZES};
use std::cell::{Cell, RefCell};
use volefleece::raw;
use volefleece_tests::retimer::{self, Retiming};
use volefleece_tests::retimes::plain_blocks;
use volefleece_tests::rng::Rng;
use volefleece_tests::timing::{each, microseconds};

const TABLES: usize = 16;
const REPETITIONS: usize = 301;

const LIMITS: [Limits; 3] = [Limits::None, Limits::Many, Limits::Long];

const HEADING: &str = "
               | check |           commit           | figure |           preview
records limits |   lib |    lib   Rust ratio  check |    lib |    lib   Rust ratio figures";

pub fn measure() {
    println!(
        "Microseconds a call, medians of {REPETITIONS} repetitions over {TABLES} tables, the library's time by"
    );
    println!(
        "plain Rust's, a commit's by that of a check and a preview's by that of two figures of the same"
    );
    println!(
        "table. One block of each is retimed, any of them, and each commit takes the one before back. The"
    );
    println!("library writes into the table; plain Rust makes a new one.");
    println!("{HEADING}");
    for records in SIZES {
        for limits in LIMITS {
            measure_tables(records, limits);
        }
    }
}

/// A table whose block is retimed back and forth, and values.
struct Lent {
    table: RefCell<Vec<u8>>,
    next: Cell<Retiming>,
    values: Vec<u64>,
}

impl Lent {
    /// A table that has a block to retime, both of whose figures there are.
    fn new(rng: &mut Rng, quote: Quote) -> Option<Lent> {
        let Quote { table, values, .. } = quote;
        let blocks = plain_blocks(&table);
        if blocks.is_empty() {
            return None;
        }
        let (record, old) = rng.pick(&blocks);
        let new = old + rng.within(1..=100);
        let next = Retiming { record, old, new };
        assert_agreed(&table, next, &values);
        Some(Lent {
            table: RefCell::new(table),
            next: Cell::new(next),
            values,
        })
    }

    fn commit(&self) -> raw::Committed {
        let next = self.next.get();
        self.next.set(next.back());
        raw::commit(
            &mut self.table.borrow_mut(),
            next.record,
            next.old,
            next.new,
        )
    }

    fn preview(&self) -> raw::Previewed {
        let Retiming { record, old, new } = self.next.get();
        raw::preview(&self.table.borrow(), record, old, new, &self.values)
    }
}

/// Both preview and commit the same.
fn assert_agreed(table: &[u8], retiming: Retiming, values: &[u64]) {
    let Retiming { record, old, new } = retiming;
    let second = retimer::preview(table, retiming, values).expect("small amounts");
    let answer = raw::preview(table, record, old, new, values);
    let figures = [answer.before, answer.after];
    assert_eq!(answer.refused, 0);
    assert_eq!(figures, [second.before.figure, second.after.figure]);
    let mut left = table.to_vec();
    assert_eq!(raw::commit(&mut left, record, old, new).refused, 0);
    assert_eq!(Ok(left), retimer::commit(table, retiming));
}

/// Tables of so many records, the same in every run.
fn tables(records: usize, limits: Limits) -> Vec<Lent> {
    let mut rng = Rng::new(records as u64);
    let quotes = quotes(TABLES, records, limits).into_iter();
    quotes
        .filter_map(|quote| Lent::new(&mut rng, quote))
        .collect()
}

fn measure_tables(records: usize, limits: Limits) {
    let tables = tables(records, limits);
    assert_eq!(tables.len(), TABLES, "every table has a block");
    let second_commit = || {
        each(&tables, |lent| {
            retimer::commit(&lent.table.borrow(), lent.next.get())
        })
    };
    let second_preview = || {
        each(&tables, |lent| {
            retimer::preview(&lent.table.borrow(), lent.next.get(), &lent.values)
        })
    };
    // A call right behind another of the library's is faster, by what that one leaves in the caches. So
    // the two that are compared come behind the same call of plain Rust.
    let calls = vec![
        second_commit(),
        each(&tables, |lent| raw::check(&lent.table.borrow())),
        second_commit(),
        each(&tables, Lent::commit),
        second_preview(),
        each(&tables, |lent| {
            raw::figure(&lent.table.borrow(), &lent.values)
        }),
        second_preview(),
        each(&tables, Lent::preview),
    ];
    let times = microseconds(REPETITIONS, tables.len(), calls);
    let [_, check, committed, commit, _, figure, previewed, preview] = times[..] else {
        panic!("one time for each call");
    };
    println!(
        "{records:7} {:6} | {check:5.2} | {commit:6.2} {committed:6.2} {:5.2} {:6.2} | {figure:6.2} | {preview:6.2} {previewed:6.2} {:5.2} {:7.2}",
        limits.name(),
        commit / committed,
        commit / check,
        preview / previewed,
        preview / (2.0 * figure)
    );
}
