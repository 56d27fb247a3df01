//! `volefleece draw`: the picture is that of the tree, its names and the branch that the library answers for the counts, wherever these
//! come from. What a picture shows is tested by draw.rs.

mod common;
#[allow(dead_code)]
#[path = "draw/xml.rs"]
mod xml;

use common::*;
use volefleece::{ceiling, Refusal};
use volefleece_command::draw::svg;
use volefleece_command::names::Names;
use volefleece_command::text::names::parse;
use volefleece_tests::programs::{sample, values_file, Folder, TREE, VALUES};
use volefleece_tests::tables::*;

const PICTURE: &str = "picture.svg";
/// A tree in a folder of its own, so that nothing lies beside it.
const ALONE: &str = "alone/tree.tab";
const ALONE_TEXT: &str = "alone/tree.txt";
const SIX: u64 = 6;

fn names(text: &[u8]) -> Names {
    let mut names = Names::default();
    let text = std::str::from_utf8(text).expect("text");
    parse(text, &mut names).expect("names");
    names
}

/// The picture that it draws of this, with what it says beside it.
#[track_caller]
fn draw(folder: &Folder, arguments: &[&str]) -> (String, String) {
    let mut command = folder.command();
    command.args(["draw", "-o", PICTURE]).args(arguments);
    let written = ends(&mut command, 0);
    let picture = folder.read(PICTURE).expect("a picture");
    let picture = String::from_utf8(picture).expect("text");
    let records = picture.matches("<title>record ").count();
    assert_eq!(written.output, format!("drew {records} records\n"));
    remove(folder, PICTURE);
    (picture, written.error)
}

/// It draws that table, which has no paired symbols, with those names and that branch, and has nothing to add.
#[track_caller]
fn draws(folder: &Folder, arguments: &[&str], table: &[u8], names: &Names, branch: Option<usize>) {
    let (picture, error) = draw(folder, arguments);
    let expected = svg(table, names, None, branch);
    assert!(picture == expected, "{arguments:?} {branch:?}\n{picture}");
    assert_eq!(error, "");
    assert_eq!(picture.contains("sets the quote"), branch.is_some());
}

/// The branch that the library answers for these values, where those after them count the most.
fn branch(table: &[u8], values: &[u64]) -> Option<usize> {
    let quote = volefleece::figure(table, &all_values(values)).expect("a figure");
    quote.branch.map(usize::from)
}

/// A choice of six, each with a time of its own, from symbol 16 on.
fn six() -> Vec<u8> {
    let child = |child| match child % 2 {
        0 => sequence(&[block(5), symbol_block(16 + child), block(child)]),
        _ => symbol_block(16 + child),
    };
    choice(&(0..SIX).map(child).collect::<Vec<_>>())
}

/// Values by which that child of the six sets the figure.
fn dearest(child: u64) -> Vec<u64> {
    let times = (0..SIX).map(|other| if other == child { 9_000 } else { 100 });
    [0; 16].into_iter().chain(times).collect()
}

fn values_text(child: u64) -> String {
    let values = dearest(child);
    let lines = (16..16 + SIX as usize).map(|symbol| format!("time-{symbol} {}\n", values[symbol]));
    lines.collect()
}

fn settings(child: u64) -> Vec<String> {
    let lines = values_text(child);
    let settings = lines.lines().map(|line| line.replace(' ', "="));
    settings
        .flat_map(|setting| ["--set".into(), setting])
        .collect()
}

// The branch.

#[test]
fn of_a_sample_house() {
    for (name, marked) in [("entrance", Some(1)), ("house", None)] {
        let folder = house(name);
        let (table, names) = (sample(name, TREE), names(&sample(name, NAMES)));
        draws(&folder, &["."], &table, &names, marked);
    }
}

/// Each child of the root in turn, by every way to give counts.
#[test]
fn of_the_counts_wherever_they_come_from() {
    let table = six();
    for child in 0..SIX {
        let folder = folder();
        let (bytes, text) = (values_file(&dearest(child)), values_text(child));
        put(&folder, ALONE, &table);
        put(&folder, "bytes/tree.tab", &table);
        put(&folder, "bytes/values.tab", &bytes);
        put(&folder, "text/tree.tab", &table);
        put(&folder, "text/values.txt", &text);
        put(&folder, "counts.tab", &bytes);
        put(&folder, "counts.txt", &text);
        let marked = branch(&table, &dearest(child));
        assert_eq!(marked, Some(child as usize));
        let set = settings(child);
        let set: Vec<&str> = set.iter().map(String::as_str).collect();
        for arguments in [
            &["bytes"][..],
            &["text"],
            &[ALONE, "--values", "counts.tab"],
            &[ALONE, "--values", "counts.txt"],
            &["alone", "--values", "counts.tab"],
            &[&[ALONE], &set[..]].concat(),
            &[&["alone"], &set[..]].concat(),
        ] {
            draws(&folder, arguments, &table, &Names::default(), marked);
        }
    }
}

/// A file that is named comes before the house's own, and what is set before both.
#[test]
fn of_the_counts_that_come_first() {
    let (folder, table) = (folder(), six());
    folder.write(TREE, &table);
    folder.write(VALUES, &values_file(&dearest(2)));
    put(&folder, "counts.tab", values_file(&dearest(3)));
    let set = ["--set", "time-20=10000", "--set", "21=20000"];
    let values = ["--values", "counts.tab"];
    for (arguments, child) in [
        (vec!["."], 2),
        ([&["."], &values[..]].concat(), 3),
        ([&["."], &values[..], &set[..2]].concat(), 4),
        ([&["."], &values[..], &set].concat(), 5),
        ([&["."], &set[..]].concat(), 5),
        (vec![".", "--set", "16=9100"], 0),
    ] {
        draws(&folder, &arguments, &table, &Names::default(), Some(child));
    }
}

/// More records than a picture of a usual house has.
#[test]
fn of_more_than_300_records() {
    let part = |blocks| sequence(&vec![block(3); blocks]);
    let many = sequence(&[part(200), part(150)]);
    let table = choice(&[block(9), many, block(7), block(8)]);
    let folder = folder();
    folder.write(TREE, &table);
    let (picture, _) = draw(&folder, &[".", "--set", "0=1"]);
    assert!(picture == svg(&table, &Names::default(), None, Some(1)));
    let picture = xml::parse(&picture).expect("a picture");
    for (name, id) in [("g", "record-"), ("path", "to-")] {
        let marked = picture.named(name).filter(|one| one.has_class("marked"));
        let records = marked.map(|one| one.id().strip_prefix(id).expect("a record").parse());
        let mut records: Vec<usize> = records.map(|record| record.expect("a number")).collect();
        records.sort_unstable();
        assert!(records.into_iter().eq(2..355), "{name}");
    }
}

// Names.

#[test]
fn with_the_names_of_a_file() {
    let table = six();
    let folder = folder();
    let beside = b"house Beside\nsymbol 16 radio\nbranch 2 third\n";
    let other = b"house Other\nsymbol 17 bolt\nsymbol 18 motor\nbranch 2 the third\n";
    put(&folder, ALONE, &table);
    put(&folder, "alone/values.tab", values_file(&dearest(2)));
    put(&folder, "alone/names.txt", beside);
    put(&folder, "other.txt", other);
    let named = ["--names", "other.txt"];
    let set = ["--set", "motor=9001"];
    let values = ["--values", "alone/values.tab"];
    draws(&folder, &["alone"], &table, &names(beside), Some(2));
    draws(&folder, &[ALONE], &table, &names(beside), None);
    for arguments in [
        [&["alone"], &named[..]].concat(),
        [&["alone"], &named[..], &set].concat(),
        [&[ALONE], &named[..], &values].concat(),
    ] {
        draws(&folder, &arguments, &table, &names(other), Some(2));
    }
    draws(
        &folder,
        &[ALONE, "--names", "other.txt"],
        &table,
        &names(other),
        None,
    );
}

/// Those of a tree's text, and those of a text of values.
#[test]
fn with_the_names_of_texts() {
    let folder = folder();
    let header = "symbol 16 radio\nbranch 1 by radio\n";
    let table = choice(&[block(9), symbol_block(16), symbol_block(17)]);
    let text = format!("{header}choice\n  block 9\n  block radio\n  block time-17\n");
    put(&folder, ALONE_TEXT, text);
    let of_values = "symbol 17 bolt\n";
    put(
        &folder,
        "counts.txt",
        format!("{of_values}radio 50\nbolt 40\n"),
    );
    let both = names((header.to_owned() + of_values).as_bytes());
    let arguments = [ALONE_TEXT, "--values", "counts.txt"];
    draws(&folder, &arguments, &table, &both, Some(1));
    draws(
        &folder,
        &[ALONE_TEXT],
        &table,
        &names(header.as_bytes()),
        None,
    );
}

// First and later.

/// What stands in the boxes of a picture's blocks with a paired symbol, a line each.
fn pairs(picture: &str) -> Vec<String> {
    let picture = xml::parse(picture).expect("a picture");
    let boxes = picture.named("g").filter(|group| group.has_class("block"));
    let lines = boxes.map(|block| {
        let texts = block.named("text").filter(|text| text.has_class("pair"));
        texts.map(|text| text.text.as_str()).collect::<Vec<_>>()
    });
    let lines = lines.filter(|lines| !lines.is_empty());
    lines.map(|lines| lines.join(" ")).collect()
}

/// By every way to give counts, or none; a tree that is refused with them is drawn with them all the same, but not with wrong ones.
#[test]
fn both_numbers_stand_on_a_paired_block() {
    let folder = house("cipher");
    put(&folder, ALONE, sample("cipher", TREE));
    put(&folder, "counts.tab", sample("cipher", VALUES));
    put(
        &folder,
        "counts.txt",
        "symbol 24 cipher\ncipher 70000 500\n",
    );
    let both = "first 60000 cycles, later 9000 cycles";
    for (arguments, words) in [
        (&["."][..], both),
        (&[ALONE, "--values", "counts.tab"], both),
        (
            &[ALONE, "--values", "counts.txt"],
            "first 70000 cycles, later 500 cycles",
        ),
        (
            &[ALONE, "--set", "24=8,3"],
            "first 8 cycles, later 3 cycles",
        ),
        (
            &[".", "--set", "cipher=8"],
            "first 8 cycles, later 8 cycles (as the first)",
        ),
        (
            &[ALONE, "--set", "0=1"],
            "first 1000000000000 cycles (not given), later 1000000000000 cycles (as the first)",
        ),
        (&[ALONE], "first and later"),
        (&[".", "--set", "cipher=3,8"], "first and later"),
    ] {
        let (picture, _) = draw(&folder, arguments);
        assert_eq!(pairs(&picture), [words; 2], "{arguments:?}");
    }
    let (picture, error) = draw(&folder, &[".", "--set", "cipher=3,8"]);
    assert_eq!(pairs(&picture), ["first and later"; 2]);
    let refusal = Refusal::LaterValue;
    let hint = "cipher is first 3 cycles, later 8 cycles, and later at most 3 is allowed";
    let told = format!("no branch is marked: {refusal}\nhint: {hint}\n");
    assert_eq!(error, told);
    assert_eq!(pairs(&draw(&house("entrance"), &["."]).0), [""; 0]);
}

// No branch, and what is said.

#[test]
fn without_counts_nothing_is_marked() {
    let (folder, table) = (folder(), six());
    put(&folder, ALONE, &table);
    put(&folder, "empty.tab", []);
    put(&folder, "empty.txt", "# Nothing.\n");
    for arguments in [
        &["alone"][..],
        &[ALONE],
        &[ALONE, "--values", "empty.tab"],
        &[ALONE, "--values", "empty.txt"],
    ] {
        draws(&folder, arguments, &table, &Names::default(), None);
    }
}

/// A time that is absent is the largest, so that its child is marked.
#[test]
fn absent_counts_are_named() {
    let children = [16, 17, 18].map(symbol_block);
    let table = choice(&[&children[..], &[symbol_repeat(3, block(1), block(0))]].concat());
    let folder = folder();
    put(&folder, ALONE, &table);
    put(&folder, "alone/names.txt", "symbol 17 bolt\n");
    let bolt = "bolt is not given and counts 1000000000000\n";
    let count = "count-3 is not given and counts 1000000\n";
    for (settings, absent) in [
        (&["16=1", "18=2"][..], &[count, bolt][..]),
        (&["16=1", "18=2", "3=4"], &[bolt]),
        (&["16=1", "18=2", "bolt=5"], &[count]),
        (&["16=1", "18=2", "bolt=5", "count-3=4"], &[]),
    ] {
        let set = settings.iter().flat_map(|&setting| ["--set", setting]);
        let arguments: Vec<&str> = [ALONE].into_iter().chain(set).collect();
        let (picture, error) = draw(&folder, &arguments);
        assert_eq!(error, absent.concat());
        let mut values = [1_000_000; 19];
        (values[16], values[18]) = (1, 2);
        values[17] = if absent.contains(&bolt) {
            ceiling(17)
        } else {
            5
        };
        values[3] = if absent.contains(&count) {
            ceiling(3)
        } else {
            4
        };
        let marked = branch(&table, &values);
        assert!(picture == svg(&table, &names(b"symbol 17 bolt\n"), None, marked));
    }
}

/// The tree is accepted, so that it is drawn all the same.
#[test]
fn a_refused_figure_is_told_and_nothing_is_marked() {
    let folder = folder();
    let dear = [vec![0; 16], vec![1_000_000_000_000]].concat();
    let two = sequence(&[symbol_block(16), symbol_block(16)]);
    let limited = triangular_limited(block(1), 0, 255);
    let triangular = "count-0 is 1001, and its triangular number is a limit";
    let above = "count-1 is 1000001, and at most 1000000 is allowed";
    let length = "the file of values has 9 bytes; expected a multiple of 8, at most 320";
    let large = "with these values a part of the tree takes more than 1000000000000 cycles";
    for (child, values, refusal, hint) in [
        (&two, values_file(&dear), Refusal::Ceiling, large),
        (
            &limited,
            values_file(&[1_001]),
            Refusal::TriangularNumber,
            triangular,
        ),
        (
            &two,
            values_file(&[&[0, 1_000_001], &[0; 15][..]].concat()),
            Refusal::Values,
            above,
        ),
        (&two, vec![1; 9], Refusal::Values, length),
    ] {
        let table = choice(&[block(1), child.clone()]);
        put(&folder, ALONE, &table);
        put(&folder, "counts.tab", &values);
        let (picture, error) = draw(&folder, &[ALONE, "--values", "counts.tab"]);
        assert!(
            picture == svg(&table, &Names::default(), None, None),
            "{refusal}"
        );
        assert_eq!(
            error,
            format!("no branch is marked: {refusal}\nhint: {hint}\n")
        );
    }
}

// The legend.

/// What stands at each kind's sign, on the line of its word.
#[test]
fn the_legend_says_of_each_kind_what_it_passes() {
    let (picture, _) = draw(&house("entrance"), &["."]);
    let picture = xml::parse(&picture).expect("a picture");
    let mut groups = picture.named("g");
    let legend = groups.find(|group| group.id() == "legend");
    let legend = legend.expect("a legend");
    let meaning = |kind: &str| {
        let sign = legend.named("g").find(|group| group.has_class(kind));
        let word = sign.and_then(|sign| sign.named("text").next());
        let word = word.expect("a sign with its word");
        assert_eq!(word.text, kind);
        let mut beside = legend.named("text");
        let beside = beside.find(|text| text.number("y") == word.number("y"));
        beside.expect("a meaning").text.as_str()
    };
    for (kind, words) in [
        ("block", "takes so many cycles"),
        ("sequence", "passes all its children, from top to bottom"),
        ("choice", "passes one of its children"),
        (
            "loop",
            "passes its body at most so many times, then its exit (dashed)",
        ),
    ] {
        assert_eq!(meaning(kind), words);
    }
}
