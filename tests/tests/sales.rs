//! The sales desk's program as a process: its arguments, its two files and its one line, against the
//! second simplifier. The program is `../target/bin/sales`, built by `./build`, or the one that
//! `VOLEFLEECE_SALES` names.

use std::ffi::{OsStr, OsString};
use std::os::unix::ffi::OsStringExt;
use std::os::unix::fs::symlink;
use volefleece_tests::cases::cases;
use volefleece_tests::compare::{has_flag_4, has_pair, shown};
use volefleece_tests::faults;
use volefleece_tests::programs::{sample, simplified_workshop, Folder, NONE, TREE, VALUES};
use volefleece_tests::rng::Rng;
use volefleece_tests::simplifier::{simplify, Simplified};
use volefleece_tests::tables::*;
use volefleece_tests::trees;

const SALES: &str = "sales";
const SIMPLE: &str = "simple.tab";

/// What may stand in simple.tab before.
const OLD: &[u8] = b"old";

fn with_tree(table: &[u8]) -> Folder {
    Folder::with_tree(SALES, table)
}

/// It answers what the second simplifier does with that allowance, and leaves the tree as it was.
#[track_caller]
fn expect<A: AsRef<OsStr>>(folder: &Folder, arguments: &[A], allowance: u64) {
    let tree = folder.read(TREE);
    let table = tree.clone().unwrap_or_default();
    let answer = simplify(&table, allowance, table.len());
    let written = folder.run(arguments);
    assert_eq!(written.error, "", "{}", shown(&table));
    assert_eq!(written.output, line(&answer), "{}", shown(&table));
    let simple = answer.ok().map(|made| made.bytes);
    assert_eq!(folder.read(SIMPLE), simple, "{}", shown(&table));
    assert_eq!(folder.read(TREE), tree);
}

fn line(answer: &Result<Simplified, u64>) -> String {
    match answer {
        Ok(made) => {
            let ending = if made.finished { "finished" } else { "spent" };
            let bytes = made.bytes.len();
            format!("simplified {bytes} steps {} {ending}\n", made.steps)
        }
        Err(question) => format!("refused {question}\n"),
    }
}

/// ((5, X), 0, C(3/n@255 | 2 | 1), 4, (6)), which takes five steps.
fn five_steps() -> Vec<u8> {
    sequence(&[
        sequence(&[block(5), symbol_block(16)]),
        block(0),
        choice(&[symbol_limited(block(3), 1, 255), block(2), block(1)]),
        block(4),
        sequence(&[block(6)]),
    ])
}

// Arguments.

#[test]
fn without_an_argument_there_is_no_end() {
    let folder = with_tree(&five_steps());
    expect(&folder, &NONE, u64::MAX);
    let simple = folder.read(SIMPLE).expect("a simple tree");
    let again = with_tree(&simple);
    let written = again.run(&NONE);
    let unchanged = format!("simplified {} steps 0 finished\n", simple.len());
    assert_eq!(written.output, unchanged);
    assert_eq!(again.read(SIMPLE), Some(simple));
}

#[test]
fn the_argument_is_the_allowance() {
    let table = five_steps();
    assert_eq!(
        simplify(&table, u64::MAX, 12_288).map(|made| made.steps),
        Ok(5)
    );
    for allowance in (0..=7).chain([10, 1_000, u64::MAX - 1, u64::MAX]) {
        let folder = with_tree(&table);
        expect(&folder, &[allowance.to_string()], allowance);
    }
}

#[test]
fn leading_zeros_change_nothing() {
    let folder = with_tree(&five_steps());
    expect(&folder, &["00"], 0);
    expect(&folder, &["003"], 3);
    expect(&folder, &["018446744073709551615"], u64::MAX);
    // Linux passes arguments of up to 131,071 bytes.
    expect(&folder, &["0".repeat(131_070) + "2"], 2);
}

#[test]
fn other_arguments_are_refused() {
    let words = [
        "",
        "-1",
        "-0",
        "+1",
        " 1",
        "1 ",
        "1\n",
        "1.0",
        "1e3",
        "0x10",
        "1_000",
        "1,000",
        "one",
        "/",
        ":",
        "\u{661}",
        "18446744073709551616",
        "18446744073709551620",
        "28446744073709551615",
        "99999999999999999999",
        "100000000000000000000",
        "184467440737095516150",
        "00018446744073709551616",
    ];
    let long = ["9".repeat(1_000), "9".repeat(131_071)];
    let bytes = OsString::from_vec(vec![b'1', 0xff]);
    let words = words.iter().map(OsString::from);
    let long = long.iter().map(OsString::from);
    for word in words.chain(long).chain([bytes]) {
        expect_refused(&[word]);
    }
}

#[test]
fn more_arguments_are_refused() {
    expect_refused(&["1", "2"]);
    expect_refused(&["1", ""]);
    expect_refused(&["", ""]);
    expect_refused(&["1", "2", "3"]);
}

/// Nothing is written, with or without an old file.
#[track_caller]
fn expect_refused<A: AsRef<OsStr>>(arguments: &[A]) {
    let folder = with_tree(&five_steps());
    folder.expect_complaint(arguments, "");
    assert_eq!(folder.read(SIMPLE), None);
    folder.write(SIMPLE, OLD);
    folder.expect_complaint(arguments, "");
    assert_eq!(folder.read(SIMPLE).as_deref(), Some(OLD));
}

// Files.

#[test]
fn a_missing_tree_is_empty() {
    let folder = Folder::new(SALES);
    let written = folder.run(&NONE);
    assert_eq!(written.output, "refused 1\n");
    assert_eq!(written.error, "");
    assert_eq!(folder.read(SIMPLE), None);
    assert!(!folder.path(TREE).exists());
}

#[test]
fn a_tree_that_cannot_be_read_is_told() {
    let folder = Folder::new(SALES);
    folder.put_folder(TREE);
    folder.expect_complaint(&NONE, "tree.tab: ");
    assert_eq!(folder.read(SIMPLE), None);
}

#[test]
fn a_simple_tree_takes_the_place_of_an_old_one() {
    for length in [0, 1, 24, 72, 100_000] {
        let folder = with_tree(&five_steps());
        folder.write(SIMPLE, &vec![7; length]);
        expect(&folder, &NONE, u64::MAX);
    }
}

#[test]
fn the_tree_may_be_the_simple_tree() {
    let folder = Folder::new(SALES);
    folder.write(SIMPLE, &five_steps());
    symlink(SIMPLE, folder.path(TREE)).expect("a new link");
    let answer = simplify(&five_steps(), 2, 12_288);
    let written = folder.run(&["2"]);
    assert_eq!(written.output, line(&answer));
    assert_eq!(folder.read(SIMPLE), answer.ok().map(|made| made.bytes));
}

// Refusals.

/// It is refused so, with every allowance, and there is no simple tree then.
#[track_caller]
fn refused(question: u64, table: &[u8]) {
    assert_eq!(simplify(table, 0, table.len()), Err(question));
    for old in [None, Some(OLD)] {
        for arguments in [&[][..], &["0"], &["1"]] {
            let folder = with_tree(table);
            if let Some(old) = old {
                folder.write(SIMPLE, old);
            }
            let written = folder.run(arguments);
            assert_eq!(written.output, format!("refused {question}\n"));
            assert_eq!(written.error, "");
            assert_eq!(folder.names(), [TREE]);
        }
    }
}

#[test]
fn refusals_leave_no_file() {
    refused(1, &[]);
    refused(1, &block(7)[..23]);
    refused(1, &[&block(7)[..], &[0]].concat());
    refused(2, &[4; 24]);
    refused(3, &block(1_000_000_000_001));
    refused(4, &[block(1), block(2)].concat());
    refused(5, &in_loops(9, 1, block(1)));
    refused(6, &limited(block(1), 1, 1));
    refused(7, &in_loops(8, 1, limited(block(1), 1, 255)));
    refused(10, &sequence(&[block(1_000_000_000_000), block(1)]));
}

/// The flag moves with its limit, and no value of its symbol is asked for.
#[test]
fn triangular_limits_are_kept() {
    let limit = |node| triangular_limited(node, 15, 255);
    let folder = with_tree(&sequence(&[limit(sequence(&[block(5)])), block(0)]));
    folder.write(VALUES, &[255; 320]);
    let written = folder.run(&NONE);
    assert_eq!(written.output, "simplified 24 steps 3 finished\n");
    assert_eq!(folder.read(SIMPLE), Some(limit(block(5))));
}

/// A second child with a paired symbol is not shared, as one with another symbol is.
#[test]
fn paired_symbols_are_kept() {
    let ways = |symbol| {
        let pair = |time| sequence(&[block(time), symbol_block(symbol)]);
        choice(&[pair(5), pair(4)])
    };
    for symbol in 24..=31 {
        let folder = with_tree(&ways(symbol));
        let written = folder.run(&NONE);
        assert_eq!(written.output, "simplified 168 steps 0 finished\n");
        assert_eq!(folder.read(SIMPLE), Some(ways(symbol)));
    }
    let folder = with_tree(&ways(23));
    let written = folder.run(&NONE);
    assert_eq!(written.output, "simplified 72 steps 2 finished\n");
}

/// Question 10 is put with every value 0.
#[test]
fn values_are_not_read() {
    let times = [16, 24, 31].map(symbol_block);
    let tree = [vec![block(1_000_000_000_000)], times.to_vec()].concat();
    let folder = with_tree(&sequence(&tree));
    folder.write(VALUES, &[255; 320]);
    expect(&folder, &NONE, u64::MAX);
    assert_eq!(folder.read(VALUES), Some(vec![255; 320]));
}

#[test]
fn long_files_are_refused_1() {
    let longest = long(512);
    assert_eq!(longest.len(), 12_288);
    let folder = with_tree(&longest);
    expect(&folder, &NONE, u64::MAX);
    refused(1, &long(513));
    for longer in [1, 23, 24, 25, 100_000] {
        refused(1, &[&longest[..], &vec![0; longer]].concat());
    }
}

// Many tables.

#[test]
fn the_workshops_sample_becomes_the_houses_but_for_addresses() {
    let folder = with_tree(&sample("workshop", TREE));
    let written = folder.run(&NONE);
    assert_eq!(written.output, "simplified 288 steps 7 finished\n");
    assert_eq!(folder.read(SIMPLE), Some(simplified_workshop()));
}

#[test]
fn cases_are_simplified() {
    for case in cases() {
        let folder = with_tree(&case.table);
        println!("case {}", case.name);
        expect(&folder, &["0"], 0);
        expect(&folder, &["1"], 1);
        expect(&folder, &NONE, u64::MAX);
    }
}

#[test]
fn random_tables_are_simplified() {
    let mut rng = Rng::new(401);
    let (mut spent, mut triangular, mut paired) = (0, 0, 0);
    for _ in 0..400 {
        let records = rng.size(1..=60);
        let table = trees::redundant(&mut rng, records).encode();
        let steps = simplify(&table, u64::MAX, table.len()).map_or(0, |made| made.steps);
        let allowance = rng.within(0..=steps + 1);
        spent += u64::from(allowance < steps);
        let folder = with_tree(&table);
        expect(&folder, &[allowance.to_string()], allowance);
        expect(&folder, &NONE, u64::MAX);
        let simple = folder.read(SIMPLE).expect("small amounts");
        triangular += u64::from(has_flag_4(&simple));
        paired += u64::from(has_pair(&simple));
    }
    assert!(spent > 100, "{spent} allowances were spent");
    assert!(triangular > 50, "{triangular} have flag 4");
    assert!(paired > 50, "{paired} have a paired symbol");
}

#[test]
fn random_tables_with_faults_are_refused() {
    let mut rng = Rng::new(402);
    for round in 0..140 {
        let question = 1 + round % 7;
        let tree = faults::tree(&mut rng, &[question]);
        let table = faults::table(&mut rng, &tree, &[question]);
        refused(question, &table);
    }
}
