//! The triangular numbers, 0 to 500,500: what the program prints, the library's constant table, and the
//! limits that both calls keep, each against the rule.

use std::fs;
use volefleece_tests::commands::file;
use volefleece_tests::quotes;
use volefleece_tests::tables::*;

fn read(path: &str) -> String {
    fs::read_to_string(file(path)).unwrap_or_else(|error| panic!("{path}: {error}"))
}

/// The sums of all numbers up to 0, 1 and so on.
fn by_rule() -> Vec<u64> {
    let sums = (0..=1_000).scan(0, |sum, number| {
        *sum += number;
        Some(*sum)
    });
    sums.collect()
}

/// What the program prints, one number a line.
fn printed() -> Vec<u64> {
    let text = read("crates/triangles/stdout");
    let number = |line: &str| {
        let is_decimal = line == "0" || !line.starts_with('0');
        assert!(is_decimal, "{line:?}");
        line.parse().unwrap_or_else(|_| panic!("{line:?}"))
    };
    assert!(text.ends_with('\n'), "the last line has no end");
    text.lines().map(number).collect()
}

/// The table of the library.
fn constant() -> Vec<u64> {
    let text = read("crates/triangular/src/lib.rt");
    let (_, rest) = text
        .split_once("static TRIANGULAR: [u32; 1001] = [")
        .expect("the table");
    let (numbers, _) = rest.split_once("];").expect("its end");
    let numbers = numbers.split(',').map(str::trim);
    let numbers = numbers.filter(|number| !number.is_empty());
    let parse = |number: &str| {
        let digits = number.replace('_', "");
        digits.parse().unwrap_or_else(|_| panic!("{number:?}"))
    };
    numbers.map(parse).collect()
}

#[track_caller]
fn same(numbers: &[u64], expected: &[u64]) {
    assert_eq!((numbers.len(), expected.len()), (1_001, 1_001));
    for (at, (number, expected)) in numbers.iter().zip(expected).enumerate() {
        assert_eq!(number, expected, "entry {at}");
    }
}

#[test]
fn the_rule_starts_and_ends_as_document_02_says() {
    let numbers = by_rule();
    assert_eq!(numbers[..5], [0, 1, 3, 6, 10]);
    assert_eq!((numbers[10], numbers[1_000]), (55, 500_500));
    let by_product = |number: u64| number * (number + 1) / 2;
    same(&numbers, &(0..=1_000).map(by_product).collect::<Vec<_>>());
}

#[test]
fn the_program_prints_the_rules_numbers() {
    same(&printed(), &by_rule());
}

#[test]
fn the_constant_table_is_what_the_program_prints() {
    let constant = constant();
    same(&constant, &printed());
    same(&constant, &by_rule());
}

/// Loop 1,000,000 of C(1/T@1 | 0), T being the triangular number of symbol 6, has T as its figure.
#[test]
fn every_entry_is_a_figure() {
    let body = choice(&[triangular_limited(block(1), 6, 1), block(0)]);
    let table = repeat(1_000_000, body, block(0));
    let mut figures = Vec::new();
    let mut values = [0; 40];
    for value in 0..=1_000 {
        values[6] = value;
        let quoted = quotes::agreed(&table, &values);
        figures.push(quoted.expect("at most a million").figure);
    }
    same(&figures, &printed());
    values[6] = 1_001;
    assert_eq!(quotes::agreed(&table, &values), Err(13));
}
