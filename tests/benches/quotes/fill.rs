//! The filling and opening calls against plain Rust, and by the check of the same tables.

use crate::quote::SIZES;
use volefleece::raw;
use volefleece_tests::filler;
use volefleece_tests::format::{MARK_BYTES, MOST_RECORDS, MOST_WEIGHT, RECORD_BYTES};
use volefleece_tests::rng::Rng;
use volefleece_tests::timing::{each, median, microseconds};
use volefleece_tests::trees;

const TABLES: usize = 16;
const REPETITIONS: usize = 301;

/// The number that is filled in.
const NUMBER: u64 = 3;
const LONGEST: usize = MOST_RECORDS * RECORD_BYTES;

const HEADING: &str = "
                       | check |            fill            |            open
records fields   marks |   lib |    lib   Rust ratio  check |    lib   Rust ratio  check";

pub fn measure() {
    println!(
        "Microseconds a call, medians of {REPETITIONS} repetitions over {TABLES} tables, the library's time by"
    );
    println!(
        "plain Rust's, and by its own check of the same table. The symbol is in no field, in one, in so many"
    );
    println!(
        "blocks as are a quarter of the records, or in about half of the bounds and limits, and the marks"
    );
    println!(
        "are their medians. All tables have limits. What filling wrote is opened. The library's buffers are"
    );
    println!("used again and not cleared; plain Rust makes a new table.");
    println!("{HEADING}");
    for records in SIZES {
        for fields in FIELDS {
            measure_tables(records, fields);
        }
    }
}

/// The fields that the symbol is in.
#[derive(Clone, Copy, PartialEq, Eq)]
enum Fields {
    None,
    /// One block's time.
    One,
    /// The times of so many blocks as are a quarter of the records.
    Times,
    /// About half of the bounds, and of as many limits as question 7 lets through.
    Counts,
}

const FIELDS: [Fields; 4] = [Fields::None, Fields::One, Fields::Times, Fields::Counts];

impl Fields {
    fn name(self) -> &'static str {
        match self {
            Fields::None => "none",
            Fields::One => "one",
            Fields::Times => "times",
            Fields::Counts => "counts",
        }
    }

    /// The symbol that is filled.
    fn symbol(self) -> u64 {
        match self {
            Fields::Counts => 3,
            _ => 16,
        }
    }

    /// A table of so many records with the symbol in these fields.
    fn table(self, rng: &mut Rng, records: usize) -> Vec<u8> {
        let mut tree = trees::without_limits(rng, records);
        trees::put_limits(rng, &mut tree, MOST_WEIGHT);
        trees::drop_triangles(&mut tree);
        let places = match self {
            Fields::One => 1,
            Fields::Times => records / 4,
            _ => 0,
        };
        trees::put_symbol(rng, &mut tree, 16, places);
        let mut table = tree.encode();
        if self == Fields::Counts {
            put_count(rng, &mut table, self.symbol());
        }
        table
    }
}

/// Gives the symbol to about half of the bounds and limits.
fn put_count(rng: &mut Rng, table: &mut [u8], symbol: u64) {
    for record in table.chunks_exact_mut(RECORD_BYTES) {
        if record[0] == 3 && rng.once_in(2) {
            record[1] |= 1;
            record[8..16].copy_from_slice(&symbol.to_le_bytes());
        }
        if record[3] != 0 && rng.once_in(2) {
            record[1] |= 2;
            record[4..8].copy_from_slice(&symbol.to_le_bytes()[..4]);
        }
    }
}

/// A table, and what filling makes of it.
struct Lent {
    open: Vec<u8>,
    filled: filler::Filled,
}

/// Tables of so many records, the same in every run.
fn tables(records: usize, fields: Fields) -> Vec<Lent> {
    let mut rng = Rng::new(records as u64);
    let mut lent = || {
        let open = fields.table(&mut rng, records);
        let filled = agreed(&open, fields.symbol());
        Lent { open, filled }
    };
    (0..TABLES).map(|_| lent()).collect()
}

/// What both write.
fn agreed(table: &[u8], symbol: u64) -> filler::Filled {
    let length = table.len();
    let second = filler::fill(table, symbol, NUMBER, length, MARK_BYTES).expect("room for both");
    let (mut out, mut marks) = (vec![0; length], [0; MARK_BYTES]);
    let answer = raw::fill(table, symbol, NUMBER, &mut out, &mut marks);
    assert_eq!((answer.refused, answer.length), (0, length as u64));
    assert_eq!((&out, marks), (&second.table, second.marks));
    let answer = raw::open(&second.table, &marks, symbol, NUMBER, &mut out);
    assert_eq!((answer.refused, &out[..]), (0, table));
    second
}

fn measure_tables(records: usize, fields: Fields) {
    let symbol = fields.symbol();
    let tables = tables(records, fields);
    let (mut out, mut marks) = ([0; LONGEST], [0; MARK_BYTES]);
    let mut opened = [0; LONGEST];
    let calls = vec![
        each(&tables, |lent| raw::check(&lent.open)),
        each(&tables, |lent| {
            raw::fill(&lent.open, symbol, NUMBER, &mut out, &mut marks)
        }),
        each(&tables, |lent| {
            filler::fill(&lent.open, symbol, NUMBER, LONGEST, MARK_BYTES)
        }),
        each(&tables, |lent| {
            let filled = &lent.filled;
            raw::open(&filled.table, &filled.marks, symbol, NUMBER, &mut opened)
        }),
        each(&tables, |lent| {
            let filled = &lent.filled;
            filler::open(&filled.table, &filled.marks, symbol, NUMBER, LONGEST)
        }),
    ];
    let times = microseconds(REPETITIONS, tables.len(), calls);
    let [check, fill, filled, open, opened] = times[..] else {
        panic!("one time for each call");
    };
    print!(
        "{records:7} {:6} {:7} | {check:5.2} ",
        fields.name(),
        median_marks(&tables)
    );
    for (library, rust) in [(fill, filled), (open, opened)] {
        let ratios = [library / rust, library / check];
        print!(
            "| {library:6.2} {rust:6.2} {:5.2} {:6.2} ",
            ratios[0], ratios[1]
        );
    }
    println!();
}

fn median_marks(tables: &[Lent]) -> u32 {
    let marks = tables.iter().map(|lent| {
        let bytes = lent.filled.marks.iter();
        bytes.map(|byte| byte.count_ones()).sum()
    });
    median(marks.collect())
}
