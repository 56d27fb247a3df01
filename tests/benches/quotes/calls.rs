//! The calls against plain Rust.

use crate::quote::{quotes, Limits, Quote, LIMITS, SIZES};
use volefleece::raw;
use volefleece_tests::evaluator::{self, Quoted};
use volefleece_tests::format::LIST_ROOM;
use volefleece_tests::reader;
use volefleece_tests::timing::{each, median, microseconds};

const TABLES: usize = 16;
const REPETITIONS: usize = 301;

const HEADING: &str = "
                          |        check        |        figure       |         list        |      evaluation
records limits      pairs |    lib   Rust ratio |    lib   Rust ratio |    lib   Rust ratio |    lib   Rust ratio";

pub fn measure() {
    println!(
        "Microseconds a call, medians of {REPETITIONS} repetitions over {TABLES} tables, and the"
    );
    println!(
        "library's time by plain Rust's. Both start from bytes. The list's buffer is used again"
    );
    println!(
        "and not cleared; plain Rust makes a new list. Evaluation leaves checking out: it is the"
    );
    println!("figure call less the check, by the second evaluator on a tree that is read already.");
    println!("{HEADING}");
    for records in SIZES {
        for limits in LIMITS.into_iter().chain([Limits::Paired]) {
            let quotes = quotes(TABLES, records, limits);
            assert_agreed(&quotes);
            print!(
                "{records:7} {:10} {:6} ",
                limits.name(),
                median_pairs(&quotes)
            );
            print_times(&times(&quotes));
        }
    }
}

fn assert_agreed(quotes: &[Quote]) {
    for quote in quotes {
        let answer = raw::figure(&quote.table, &quote.values);
        let Quoted { figure, branch } = quote.quoted;
        assert_eq!(
            (answer.refused, answer.figure, answer.branch),
            (0, figure, branch)
        );
        let answer = raw::list(&quote.table, &quote.values, &mut [0; LIST_ROOM]);
        assert_eq!((answer.refused, answer.pairs), (0, quote.pairs as u64));
    }
}

fn median_pairs(quotes: &[Quote]) -> usize {
    median(quotes.iter().map(|quote| quote.pairs).collect())
}

/// The library's and plain Rust's check, figure and list, and the second evaluator alone.
fn times(quotes: &[Quote]) -> Vec<f64> {
    let mut out = [0; LIST_ROOM];
    let calls = vec![
        each(quotes, |q| raw::check(&q.table)),
        each(quotes, |q| reader::check(&q.table)),
        each(quotes, |q| raw::figure(&q.table, &q.values)),
        each(quotes, |q| evaluator::figure(&q.table, &q.values)),
        each(quotes, |q| raw::list(&q.table, &q.values, &mut out)),
        each(quotes, |q| evaluator::list(&q.table, &q.values, LIST_ROOM)),
        each(quotes, |q| evaluator::evaluate(&q.tree, &q.values)),
    ];
    microseconds(REPETITIONS, quotes.len(), calls)
}

fn print_times(times: &[f64]) {
    let &[check, read, figure, quoted, list, listed, evaluated] = times else {
        panic!("one time for each call");
    };
    let columns = [
        (check, read),
        (figure, quoted),
        (list, listed),
        (figure - check, evaluated),
    ];
    for (library, rust) in columns {
        print!("| {library:6.2} {rust:6.2} {:5.2} ", library / rust);
    }
    println!();
}
