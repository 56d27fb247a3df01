//! `volefleece fill` and `open`: what is filled returns, is quoted as the open tree with that number, and what is refused is told. How the
//! two files are replaced two_files.rs has.

mod common;

use std::fs;
use std::os::unix::fs::symlink;

use common::*;
use volefleece::{ceiling, Refusal};
use volefleece_command::marks::{marked, Field};
use volefleece_command::table::{nodes, Amount};
use volefleece_tests::programs::{project, sample, Folder, TREE, VALUES};
use volefleece_tests::rng::Rng;
use volefleece_tests::tables::*;
use volefleece_tests::trees;

const OUT: &str = "out.tab";
const OUT_TEXT: &str = "out.txt";
const MARKS: &str = "marks";
const HOUSES: [&str; 5] = ["house", "workshop", "entrance", "cipher", "chain"];

fn fill<'a>(tree: &'a str, set: &'a str, out: &'a str) -> [&'a str; 8] {
    ["fill", tree, "--set", set, "-o", out, "--marks", MARKS]
}

fn open<'a>(tree: &'a str, set: &'a str, out: &'a str) -> [&'a str; 8] {
    ["open", tree, "--marks", MARKS, "--set", set, "-o", out]
}

/// Marks of these records' values and limits.
fn marks(values: &[usize], limits: &[usize]) -> Vec<u8> {
    let mut marks = vec![0; 128];
    for record in values {
        marks[record / 4] |= 1 << (2 * (record % 4));
    }
    for record in limits {
        marks[record / 4] |= 2 << (2 * (record % 4));
    }
    marks
}

// What returns.

/// Every symbol that a tree uses and that can be filled.
fn fillable(tree: &[u8]) -> Vec<u64> {
    let is_used = |symbol: &u64| {
        let filled = volefleece::fill(tree, *symbol, 0);
        filled.is_ok_and(|filled| filled.marks != [0; 128])
    };
    (0..32).filter(is_used).collect()
}

/// All sample trees, each in its folder with its names.
fn sample_trees() -> Vec<Folder> {
    let mut folders: Vec<Folder> = HOUSES.into_iter().map(house).collect();
    let supplier = folder();
    supplier.write(TREE_TEXT, &sample("supplier", TREE_TEXT));
    let make = ["make", TREE_TEXT, "-o", TREE];
    ends(supplier.command().args(make), 0);
    folders.push(supplier);
    folders
}

#[test]
fn every_sample_returns() {
    let mut filled = 0;
    for folder in sample_trees() {
        let table = folder.read(TREE).expect("a table");
        let shown = ends(folder.command().args(["show", "."]), 0).output;
        for symbol in fillable(&table) {
            for number in [0, 40, ceiling(symbol as usize)] {
                let set = format!("{symbol}={number}");
                ends(folder.command().args(fill(".", &set, OUT)), 0);
                assert_ne!(folder.read(OUT).as_ref(), Some(&table));
                let kept = folder.read(MARKS);
                ends(folder.command().args(open(OUT, &set, "again.tab")), 0);
                assert_eq!(folder.read("again.tab").as_ref(), Some(&table));
                ends(folder.command().args(fill(".", &set, OUT_TEXT)), 0);
                assert_eq!(folder.read(MARKS), kept);
                ends(folder.command().args(open(OUT_TEXT, &set, "again.txt")), 0);
                let again = folder.read("again.txt").expect("a text");
                assert_eq!(String::from_utf8(again).expect("text"), shown);
                filled += 1;
            }
        }
    }
    assert!(filled >= 30, "{filled}");
}

/// In its own place, which loses nothing as long as the marks are kept.
#[test]
fn a_tree_is_filled_and_opened_in_its_place() {
    let folder = house("house");
    answers(
        &folder,
        &fill(TREE, "cards=40", TREE),
        "filled 288 marked 1\n",
    );
    assert_eq!(folder.read(TREE), Some(sample("chain", TREE)));
    answers(
        &folder,
        &open(TREE, "cards=40", TREE),
        "opened 288 marked 1\n",
    );
    assert_eq!(folder.read(TREE), Some(sample("house", TREE)));
}

/// One after the other, each with its own marks, and opened in whatever order.
#[test]
fn several_symbols_return() {
    let folder = house("house");
    let call = |word: &str, tree: &str, set: &str, marks: &str, out: &str| {
        let arguments = [word, tree, "--set", set, "--marks", marks, "-o", out];
        ends(folder.command().args(arguments), 0);
    };
    call("fill", TREE, "cards=40", "cards.marks", "a.tab");
    // The same number, so that the marks alone tell them apart.
    call("fill", "a.tab", "retries=40", "retries.marks", "b.tab");
    call("open", "b.tab", "cards=40", "cards.marks", "c.tab");
    call("open", "c.tab", "retries=40", "retries.marks", "d.tab");
    assert_eq!(folder.read("d.tab"), folder.read(TREE));
}

/// The marks that are counted and hinted at are the fields that had the symbol, and no others.
#[test]
fn marks_are_read_as_the_library_writes_them() {
    let mut rng = Rng::new(1);
    let mut found = [0; 2];
    for _ in 0..2_000 {
        let records = rng.size(1..=512);
        let table = trees::within_limits(&mut rng, records).encode();
        for symbol in fillable(&table) {
            let filled = volefleece::fill(&table, symbol, 7).expect("a filled table");
            let symbol = Some(Amount::Symbol(symbol));
            let nodes = nodes(&table).into_iter().enumerate();
            let fields = nodes.flat_map(|(record, node)| {
                let limit = node.limit.map(|limit| limit.amount);
                let value = (node.value() == symbol).then_some((record, Field::Value));
                let limit = (limit == symbol).then_some((record, Field::Limit));
                value.into_iter().chain(limit)
            });
            let fields: Vec<(usize, Field)> = fields.collect();
            assert_eq!(marked(&filled.marks).collect::<Vec<_>>(), fields);
            for (_, field) in fields {
                found[field as usize] += 1;
            }
        }
    }
    assert!(found.into_iter().all(|times| times > 1_000), "{found:?}");
    assert_eq!(marked(&[255; 128]).count(), 1_024);
    assert_eq!(marked(&[]).count(), 0);
}

// The sample, and quotes.

#[test]
fn the_chain_is_the_house_filled() {
    let folder = house("house");
    answers(
        &folder,
        &fill(".", "cards=40", OUT),
        "filled 288 marked 1\n",
    );
    assert_eq!(folder.read(OUT), Some(sample("chain", TREE)));
    assert_eq!(folder.read(MARKS), Some(sample("chain", "cards.marks")));
    assert_eq!(folder.read(MARKS), Some(marks(&[2], &[])));
    let said = fs::read_to_string(project().join("samples/chain/chain.txt")).expect("a text");
    let examples = said
        .lines()
        .filter_map(|line| line.strip_prefix("    volefleece "));
    let examples: Vec<&str> = examples.collect();
    assert_eq!(examples.len(), 2, "{said}");
    assert!(examples[0].starts_with("fill samples/house --set cards=40 "));
    assert!(examples[1]
        .starts_with("open samples/chain --marks samples/chain/cards.marks --set cards=40 "));
    assert!(said.contains(" 210910 with 3 retries."), "{said}");
}

/// The figure and the branch are those of the open tree with that value, or so is the refusal; and the count is not told any more.
#[test]
fn a_filled_tree_is_quoted_as_the_open_one() {
    let (mut figures, mut refused) = (0, 0);
    for name in HOUSES {
        let open = house(name);
        for symbol in fillable(&sample(name, TREE)) {
            for number in [0, 7, 500, ceiling(symbol as usize)] {
                let set = format!("{symbol}={number}");
                let filled = house(name);
                ends(filled.command().args(fill(".", &set, TREE)), 0);
                for form in ["--line", "--json"] {
                    let line = |folder: &Folder, set: &[&str]| {
                        let quote = ["quote", ".", form];
                        let output = folder.command().args(quote).args(set).output();
                        String::from_utf8(output.expect("it runs").stdout).expect("text")
                    };
                    let [of_open, of_filled] = [line(&open, &["--set", &set]), line(&filled, &[])];
                    if form == "--line" {
                        assert_eq!(of_filled, of_open, "{name} {set}");
                        *(if of_open.starts_with("figure ") {
                            &mut figures
                        } else {
                            &mut refused
                        }) += 1;
                    } else {
                        let symbol = format!("\"symbol\":{symbol},");
                        assert!(!of_filled.contains(&symbol), "{of_filled}");
                    }
                }
            }
        }
    }
    assert!(figures > 20 && refused > 2, "{figures} {refused}");
}

// By name and by number.

#[test]
fn a_symbol_goes_by_its_name_or_its_number() {
    let folder = house("house");
    folder.write("other.txt", b"symbol 0 doors\n");
    let expected = volefleece::fill(&sample("house", TREE), 0, 40).expect("a filled table");
    for (set, names) in [
        ("cards=40", &[][..]),
        ("0=40", &[]),
        ("count-0=40", &[]),
        (" cards = 040 ", &[]),
        ("doors=40", &["--names", "other.txt"]),
    ] {
        let arguments = [&fill(TREE, set, OUT)[..], names].concat();
        answers(&folder, &arguments, "filled 288 marked 1\n");
        assert_eq!(folder.read(OUT).as_ref(), Some(&expected.table));
        let arguments = [&open(OUT, set, "again.tab")[..], names].concat();
        answers(&folder, &arguments, "opened 288 marked 1\n");
        assert_eq!(folder.read("again.tab"), folder.read(TREE));
    }
}

#[test]
fn a_wrong_setting_is_told() {
    let folder = house("cipher");
    let names = folder.names();
    for (set, why) in [
        ("cards", "expected NAME=NUMBER, as cards=40"),
        ("door=4", "--set door=4: no symbol is called door (names here: cards, cipher)"),
        ("=4", "no symbol is called "),
        ("1.5=4", "no symbol is called 1.5"),
        ("cards=", "--set cards=: expected a number from 0 to 1000000"),
        ("cards=x", "expected a number from 0 to 1000000"),
        ("cards=-1", "expected a number from 0 to 1000000"),
        ("cards=99999999999999999999", "expected a number from 0 to 1000000"),
        ("16=1.5", "expected a number from 0 to 1000000000000"),
        // First and later, and a comma between thousands.
        ("cipher=9,4", "expected one number from 0 to 1000000000000: symbols 24 to 31 alone have a later one, and cannot be filled"),
        ("cards=1,000", "expected one number from 0 to 1000000: "),
    ] {
        for arguments in [fill(TREE, set, OUT), open(TREE, set, OUT)] {
            folder.write(MARKS, &marks(&[], &[]));
            let written = ends(folder.command().args(arguments), 2);
            assert_eq!(written.output, "");
            assert!(written.error.contains(why), "{why}: {}", written.error);
            remove(&folder, MARKS);
        }
    }
    for word in ["fill", "open"] {
        let needed = [word, TREE, "-o", OUT, "--marks", MARKS];
        let written = ends(folder.command().args(needed), 2);
        assert!(written.error.contains("--set"), "{}", written.error);
        let twice = ["--set", "cards=4", "--set", "16=4"];
        let written = ends(folder.command().args(needed).args(twice), 2);
        assert!(
            written.error.contains("more than once"),
            "{}",
            written.error
        );
        let needed = [word, TREE, "-o", OUT, "--set", "cards=4"];
        let written = ends(folder.command().args(needed), 2);
        assert!(written.error.contains("--marks"), "{}", written.error);
    }
    assert_eq!(folder.names(), names);
}

// A symbol that is not used.

#[test]
fn a_symbol_that_is_not_used_is_told() {
    let folder = house("house");
    let written = ends(folder.command().args(fill(TREE, "count-5=40", OUT)), 0);
    assert_eq!(written.output, "filled 288 marked 0\n");
    let note = "count-5 is set, and this tree does not use it: it is written as it is, and nothing is marked\n";
    assert_eq!(written.error, note);
    assert_eq!(folder.read(OUT), folder.read(TREE));
    assert_eq!(folder.read(MARKS), Some(vec![0; 128]));
    let written = ends(folder.command().args(open(TREE, "5=40", OUT)), 0);
    assert_eq!(written.output, "opened 288 marked 0\n");
    assert_eq!(
        written.error,
        "marks marks nothing: the tree is written as it is\n"
    );
    assert_eq!(folder.read(OUT), folder.read(TREE));
    // Marks of nothing may be written again.
    ends(folder.command().args(fill(TREE, "count-5=40", OUT)), 0);
    ends(
        folder.command().args([
            "fill",
            TREE,
            "--set",
            "5=4",
            "-o",
            OUT,
            "--marks",
            "/dev/null",
        ]),
        0,
    );
}

/// A tree that is filled twice in its own place would lose the marks that open it.
#[test]
fn marks_do_not_give_way_to_none() {
    let folder = house("house");
    ends(folder.command().args(fill(TREE, "cards=40", TREE)), 0);
    let (filled, kept) = (folder.read(TREE), folder.read(MARKS));
    let why = "marks: cards is set, and this tree does not use it: what is there, perhaps its marks, would be lost";
    complains(&folder, &fill(TREE, "cards=40", TREE), &[why]);
    complains(&folder, &fill(TREE, "cards=40", OUT), &[why]);
    assert_eq!((folder.read(TREE), folder.read(MARKS)), (filled, kept));
    assert_eq!(folder.read(OUT), None);
    ends(folder.command().args(open(TREE, "cards=40", TREE)), 0);
    assert_eq!(folder.read(TREE), Some(sample("house", TREE)));
}

// Hints.

/// It is refused with exactly this hint, and writes nothing.
#[track_caller]
fn hints(folder: &Folder, arguments: &[&str], refusal: Refusal, hint: &str) {
    let names = folder.names();
    let written = ends(folder.command().args(arguments), 1);
    assert_eq!(written.output, format!("{refusal}\nhint: {hint}\n"));
    assert_eq!(written.error, "");
    assert_eq!(folder.names(), names);
}

const TREE_OF_ALL: &str = "\
symbol 0 cards
symbol 1 retries
symbol 2 steps
symbol 16 radio
symbol 24 cipher

sequence
  block 40 at most 40 per run
  choice at most cards per run
    block radio at most triangular retries per run address 0x4a0
    block cipher
  loop 40
    body block 7 at most triangular steps per run
    exit block 40 address 0x4b0
  loop cards
    body block 1 at most triangular steps per run
    exit block 1
";

/// The text, and its table with the same names.
fn tree_of_all() -> Folder {
    let folder = folder();
    folder.write("all.txt", TREE_OF_ALL.as_bytes());
    ends(
        folder.command().args(["make", "all.txt", "-o", "all.tab"]),
        0,
    );
    let names: String = TREE_OF_ALL
        .lines()
        .take(5)
        .map(|line| format!("{line}\n"))
        .collect();
    folder.write(NAMES, names.as_bytes());
    folder
}

/// A record of that tree, in its table and on its line.
fn places(record: usize) -> [String; 2] {
    let address = match record {
        3 => ", address 0x4a0",
        7 => ", address 0x4b0",
        _ => "",
    };
    let byte = 24 * record;
    [
        format!("all.tab: record {record} (byte {byte}{address})"),
        format!("all.txt:{}", 7 + record),
    ]
}

#[test]
fn of_question_15_the_clause() {
    let folder = tree_of_all();
    folder.write(MARKS, &marks(&[], &[]));
    let says = |set: &str, hint: &str| {
        for tree in ["all.tab", "all.txt"] {
            for arguments in [fill(tree, set, OUT), open(tree, set, OUT)] {
                hints(&folder, &arguments, Refusal::FilledSymbol, hint);
            }
        }
    };
    let two = "has a first and a later value, and one number is put";
    says("cipher=4", &format!("cipher {two}"));
    says("31=99999999999999", &format!("time-31 {two}"));
    says("32=4", "there is no symbol 32: the last is 31");
    says(
        "18446744073709551615=4",
        "there is no symbol 18446744073709551615: the last is 31",
    );
    says(
        "cards=1000001",
        "cards is 1000001, and at most 1000000 is allowed",
    );
    says(
        "15=1000001",
        "count-15 is 1000001, and at most 1000000 is allowed",
    );
    says(
        "radio=1000000000001",
        "radio is 1000000000001, and at most 1000000000000 is allowed",
    );
    says(
        "23=18446744073709551615",
        "time-23 is 18446744073709551615, and at most 1000000000000 is allowed",
    );
}

/// The first of them, whatever the number.
#[test]
fn of_question_15_the_record_under_flag_4() {
    let folder = tree_of_all();
    folder.write(MARKS, &marks(&[], &[]));
    for (name, record) in [("retries", 3), ("steps", 6)] {
        for (tree, place) in ["all.tab", "all.txt"].into_iter().zip(places(record)) {
            let hint =
                format!("{place}: its limit is triangular {name}, and a plain number is put");
            for number in ["4", "1000001"] {
                let set = format!("{name}={number}");
                for arguments in [fill(tree, &set, OUT), open(tree, &set, OUT)] {
                    hints(&folder, &arguments, Refusal::FilledSymbol, &hint);
                }
            }
        }
    }
}

#[test]
fn of_question_16_the_length() {
    let folder = tree_of_all();
    for (length, words) in [
        (0, "0"),
        (127, "127"),
        (129, "more than 128"),
        (4096, "more than 128"),
    ] {
        folder.write(MARKS, &vec![255; length]);
        let hint = format!("marks has {words} bytes, and marks have 128");
        hints(
            &folder,
            &open("all.tab", "cards=40", OUT),
            Refusal::Marks,
            &hint,
        );
    }
}

#[test]
fn of_question_16_a_mark_past_the_last_record() {
    let folder = tree_of_all();
    // The tree has records 0 to 10.
    for (record, bytes) in [
        (11, marks(&[11], &[])),
        (11, marks(&[], &[11])),
        (511, marks(&[], &[511])),
        (12, marks(&[12, 13], &[])),
    ] {
        folder.write(MARKS, &bytes);
        let hint = format!("marks marks record {record}, and the tree has 11 records, from 0 on");
        hints(
            &folder,
            &open("all.tab", "cards=40", OUT),
            Refusal::Marks,
            &hint,
        );
    }
    folder.write("one.tab", &block(40));
    let hint = "marks marks record 12, and the tree has 1 record, from 0 on";
    hints(
        &folder,
        &open("one.tab", "radio=40", OUT),
        Refusal::Marks,
        hint,
    );
}

/// Its record or line, the field and what stands there; of several the first, in the order of records, value before limit.
#[test]
fn of_question_16_the_first_wrong_mark() {
    let folder = tree_of_all();
    let says = |values: &[usize], limits: &[usize], set: &str, record: usize, what: &str| {
        folder.write(MARKS, &marks(values, limits));
        for (tree, place) in ["all.tab", "all.txt"].into_iter().zip(places(record)) {
            let hint = format!("{place}: {what}");
            hints(&folder, &open(tree, set, OUT), Refusal::Marks, &hint);
        }
    };
    says(
        &[0],
        &[],
        "cards=40",
        0,
        "its value is marked, and this sequence has none",
    );
    says(
        &[2],
        &[2],
        "cards=40",
        2,
        "its value is marked, and this choice has none",
    );
    says(
        &[],
        &[0],
        "cards=40",
        0,
        "its limit is marked, and this sequence has none",
    );
    says(
        &[],
        &[4],
        "cards=40",
        4,
        "its limit is marked, and this block has none",
    );
    says(
        &[1],
        &[],
        "cards=40",
        1,
        "its time 40 is marked, and cards is a count",
    );
    says(
        &[],
        &[1],
        "radio=40",
        1,
        "its limit 40 is marked, and radio is a time",
    );
    says(
        &[5],
        &[],
        "radio=40",
        5,
        "its bound 40 is marked, and radio is a time",
    );
    says(
        &[5],
        &[],
        "cards=41",
        5,
        "its bound 40 is marked, and is not 41",
    );
    says(
        &[7],
        &[],
        "radio=41",
        7,
        "its time 40 is marked, and is not 41",
    );
    says(
        &[],
        &[1],
        "cards=0",
        1,
        "its limit 40 is marked, and is not 0",
    );
    says(
        &[3],
        &[],
        "radio=40",
        3,
        "its time radio is marked, and is no plain number",
    );
    says(
        &[4],
        &[],
        "17=40",
        4,
        "its time cipher is marked, and is no plain number",
    );
    says(
        &[8],
        &[],
        "cards=40",
        8,
        "its bound cards is marked, and is no plain number",
    );
    says(
        &[],
        &[2],
        "cards=0",
        2,
        "its limit cards is marked, and is no plain number",
    );
    says(
        &[],
        &[3],
        "cards=1",
        3,
        "its limit triangular retries is marked, and is no plain number",
    );
    // After what is right.
    says(
        &[5, 8],
        &[1, 9],
        "cards=40",
        8,
        "its bound cards is marked, and is no plain number",
    );
    says(
        &[1, 7, 9],
        &[],
        "radio=40",
        9,
        "its time 1 is marked, and is not 40",
    );
    says(
        &[1],
        &[1],
        "radio=40",
        1,
        "its limit 40 is marked, and radio is a time",
    );
    says(
        &[1],
        &[1],
        "cards=40",
        1,
        "its time 40 is marked, and cards is a count",
    );
}

/// What the hints call right the library opens.
#[test]
fn all_that_is_marked_right_is_opened() {
    let folder = tree_of_all();
    folder.write(MARKS, &marks(&[5], &[1]));
    answers(
        &folder,
        &open("all.txt", "cards=40", OUT_TEXT),
        "opened 264 marked 2\n",
    );
    let opened = TREE_OF_ALL
        .replace("at most 40", "at most cards")
        .replace("loop 40", "loop cards");
    let out = String::from_utf8(folder.read(OUT_TEXT).expect("a text")).expect("text");
    let nodes = |text: &str| text.split_once("\n\n").expect("a header").1.to_owned();
    assert_eq!(nodes(&out), nodes(&opened));
    folder.write(MARKS, &marks(&[1, 7], &[]));
    answers(
        &folder,
        &open("all.tab", "radio=40", OUT),
        "opened 264 marked 2\n",
    );
}

// Files that are told.

#[test]
fn marks_have_a_file_of_their_own() {
    let folder = house("house");
    folder.write("other.names", b"symbol 0 doors\n");
    put(&folder, "in/tree.tab", block(7));
    symlink("tree.tab", folder.path("link")).expect("a link");
    let names = folder.names();
    let fill = |tree, marks| {
        [
            "fill",
            tree,
            "--names",
            "other.names",
            "--set",
            "0=4",
            "-o",
            OUT,
            "--marks",
            marks,
        ]
    };
    let why =
        "marks would take a tree's place or that of its values or names; give them another name";
    for tree in [TREE, "."] {
        for marks in [
            TREE,
            "link",
            "./tree.tab",
            VALUES,
            "in/tree.tab",
            "new/values.tab",
            "other.names",
        ] {
            complains(&folder, &fill(tree, marks), &[&format!("{marks}: {why}")]);
        }
        let text = "a name that ends in .txt is a text's, and this is to hold bytes";
        for marks in ["marks.txt", NAMES, TREE_TEXT] {
            complains(&folder, &fill(tree, marks), &[&format!("{marks}: {text}")]);
            let open = ["open", tree, "--set", "0=4", "-o", OUT, "--marks", marks];
            complains(&folder, &open, &[&format!("{marks}: {text}")]);
        }
    }
    assert_eq!(folder.names(), names);
    assert_eq!(folder.read(TREE), Some(sample("house", TREE)));
}

#[test]
fn an_opened_tree_leaves_its_marks() {
    let folder = house("chain");
    folder.write(MARKS, &sample("chain", "cards.marks"));
    symlink(MARKS, folder.path("link")).expect("a link");
    for out in [MARKS, "./marks", "link"] {
        let why = format!("{out}: the tree would take the place of the marks");
        complains(&folder, &open(".", "cards=40", out), &[&why]);
    }
    assert_eq!(folder.read(MARKS), Some(sample("chain", "cards.marks")));
}
