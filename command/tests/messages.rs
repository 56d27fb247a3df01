//! Every line of a wrong text is told, with its place and what was expected there.

use volefleece_command::names::Names;
use volefleece_command::text::{self, Problems};

/// What is wrong, a line each.
fn told<T: std::fmt::Debug>(read: Result<T, Problems>) -> Vec<String> {
    let problems = read.expect_err("a wrong text");
    problems.iter().map(ToString::to_string).collect()
}

#[track_caller]
fn tree(text: &str, expected: &[&str]) {
    assert_eq!(
        told(text::tree::parse(text, &mut Names::default())),
        expected,
        "{text}"
    );
}

#[track_caller]
fn values(text: &str, expected: &[&str]) {
    assert_eq!(
        told(text::values::parse(text, &mut Names::default())),
        expected,
        "{text}"
    );
}

#[track_caller]
fn names(text: &str, expected: &[&str]) {
    assert_eq!(
        told(text::names::parse(text, &mut Names::default())),
        expected,
        "{text}"
    );
}

const KIND: &str = "expected \"block\", \"sequence\", \"choice\" or \"loop\"";
const TIME: &str = "expected a time from 0 to 1000000000000 or the name of one (symbols 16 to 31)";
const COUNT: &str = "expected a count from 0 to 1000000 or the name of one (symbols 0 to 15)";
const HEADER: &str = "expected \"symbol\", \"branch\" or \"house\" and a name";
const LIMIT: &str =
    "expected \"at most\" and a limit, \"address\" and an address, or the end of the line";
const ADDRESS: &str = "expected 0x and 1 to 8 hexadecimal digits";
const LOOPS: &str =
    "expected 1 for the innermost loop around the node, 2 for the next one outward, up to 8";

#[test]
fn no_node() {
    for text in ["", "\n\n", "# nothing\n", "symbol 0 cards\n"] {
        tree(text, &["1:1: expected a node, and there is none"]);
    }
}

#[test]
fn kinds() {
    tree("blok 7", &[&format!("1:1: {KIND}, found \"blok\"")]);
    tree("Block 7", &[&format!("1:1: {KIND}, found \"Block\"")]);
    tree(
        "loop 3\n  body\n  exit",
        &[
            &format!("2:7: {KIND}, and the line ends"),
            &format!("3:7: {KIND}, and the line ends"),
        ],
    );
    tree("7", &[&format!("1:1: {KIND}, found \"7\"")]);
}

#[test]
fn times_and_counts() {
    tree("block", &[&format!("1:6: {TIME}, and the line ends")]);
    for wrong in [
        "x",
        "1000000000001",
        "-1",
        "+1",
        "1.5",
        "1,000",
        "0x10",
        "99999999999999999999",
        "count-3",
        "٣",
    ] {
        tree(
            &format!("block {wrong}"),
            &[&format!("1:7: {TIME}, found \"{wrong}\"")],
        );
    }
    for wrong in ["x", "1000001", "-1", "time-16", "count-16", "time-3"] {
        let text = format!("loop {wrong}\n  body block 1\n  exit block 1");
        tree(&text, &[&format!("1:6: {COUNT}, found \"{wrong}\"")]);
    }
    tree(
        "symbol 0 cards\nblock cards",
        &[&format!("2:7: {TIME}, found \"cards\"")],
    );
    tree(
        "symbol 16 radio\nloop radio\n  body block radio\n  exit block 0",
        &[&format!("2:6: {COUNT}, found \"radio\"")],
    );
}

#[test]
fn limits() {
    tree(
        "block 7 most 3",
        &[&format!("1:9: {LIMIT}, found \"most\"")],
    );
    tree(
        "sequence 3\n  block 1",
        &[&format!("1:10: {LIMIT}, found \"3\"")],
    );
    tree("block 7 at 3", &["1:12: expected \"most\", found \"3\""]);
    tree(
        "block 7 at",
        &["1:11: expected \"most\", and the line ends"],
    );
    tree(
        "block 7 at most",
        &[&format!("1:16: {COUNT}, and the line ends")],
    );
    tree(
        "block 7 at most 1000001 per run",
        &[&format!("1:17: {COUNT}, found \"1000001\"")],
    );
    tree(
        "block 7 at most 3",
        &["1:18: expected \"per\", and the line ends"],
    );
    tree(
        "block 7 at most 3 per",
        &["1:22: expected \"run\" or \"loop\" and its number, and the line ends"],
    );
    tree(
        "block 7 at most 3 per pass",
        &["1:23: expected \"run\" or \"loop\" and its number, found \"pass\""],
    );
}

#[test]
fn what_limits_name() {
    for wrong in ["0", "9", "x", "255"] {
        tree(
            &format!("block 7 at most 3 per loop {wrong}"),
            &[&format!("1:28: {LOOPS}, found \"{wrong}\"")],
        );
    }
    tree(
        "block 7 at most 3 per loop",
        &[&format!("1:27: {LOOPS}, and the line ends")],
    );
    tree(
        "block 7 at most 3 per run 2",
        &["1:27: expected \"address\" and an address, or the end of the line, found \"2\""],
    );
    let name = "expected the name of a count (symbols 0 to 15)";
    tree(
        "block 7 at most triangular 3 per run",
        &[&format!("1:28: {name}, found \"3\"")],
    );
    tree(
        "block 7 at most triangular time-16 per run",
        &[&format!("1:28: {name}, found \"time-16\"")],
    );
}

#[test]
fn addresses() {
    for wrong in [
        "x",
        "1184",
        "4a0",
        "0x",
        "0x123456789",
        "0x000000001",
        "0X4a0",
        "0x4g0",
        "0x-1",
        "0x+1",
        "0x4a0,",
        "0x４",
    ] {
        for (line, column) in [
            ("block 7 address", 17),
            ("block 7 at most 3 per run address", 35),
        ] {
            tree(
                &format!("{line} {wrong}"),
                &[&format!("1:{column}: {ADDRESS}, found \"{wrong}\"")],
            );
        }
    }
    tree(
        "block 7 address",
        &[&format!("1:16: {ADDRESS}, and the line ends")],
    );
    tree(
        "block 7 0x4a0",
        &[&format!("1:9: {LIMIT}, found \"0x4a0\"")],
    );
    tree(
        "sequence adress 0x4a0\n  block 1 address 4a0\n  loop 3 address 0x4a0 at most 3 per run\n    body block 1\n    exit block 1 address 0x1 0x2",
        &[
            &format!("1:10: {LIMIT}, found \"adress\""),
            &format!("2:19: {ADDRESS}, found \"4a0\""),
            "3:24: expected the end of the line, found \"at\"",
            "5:30: expected the end of the line, found \"0x2\"",
        ],
    );
}

#[test]
fn indents() {
    tree(
        "sequence\n\tblock 1",
        &["2:2: expected spaces alone before the first word"],
    );
    tree(
        "sequence\n    block 1\n  block 2",
        &["3:3: expected the indent of a line above, found one of 2"],
    );
    tree(
        "block 1\nblock 2\nblock 3",
        &[
            "2:1: expected one root, and this is a second",
            "3:1: expected one root, and this is a second",
        ],
    );
}

#[test]
fn children() {
    tree(
        "block 1\n  block 2\n  block 3",
        &[
            "2:3: expected an indent of at most 0: a block has nothing below it",
            "3:3: expected an indent of at most 0: a block has nothing below it",
        ],
    );
    for kind in ["sequence", "choice"] {
        tree(
            kind,
            &["1:1: expected at least one node below it, further in"],
        );
        let many: String = (0..257).map(|_| "  block 1\n").collect();
        let text = format!("{kind}\n{many}");
        tree(
            &text,
            &[
                "257:3: expected at most 255 children, and this is one more",
                "258:3: expected at most 255 children, and this is one more",
            ],
        );
        let text = format!("{kind}\n  body block 1\n  exit block 2");
        let alone = "expected a kind: \"body\" and \"exit\" stand in loops alone";
        tree(&text, &[&format!("2:3: {alone}"), &format!("3:3: {alone}")]);
    }
    tree(
        "exit block 1",
        &["1:1: expected a kind: \"body\" and \"exit\" stand in loops alone"],
    );
}

#[test]
fn loops() {
    let body = "expected \"body\": a loop's body comes first";
    let exit = "expected \"exit\": a loop's exit comes after its body";
    tree(
        "loop 3",
        &["1:1: expected a body and an exit below it, further in"],
    );
    tree(
        "loop 3\n  body block 1",
        &["1:1: expected an exit below it, after its body"],
    );
    tree(
        "loop 3\n  block 1\n  block 2",
        &[&format!("2:3: {body}"), &format!("3:3: {exit}")],
    );
    tree(
        "loop 3\n  exit block 1\n  body block 2",
        &[&format!("2:3: {body}"), &format!("3:3: {exit}")],
    );
    let more = "expected nothing more: a loop has a body and an exit";
    tree(
        "loop 3\n  body block 1\n  exit block 2\n  block 3\n  exit block 4",
        &[&format!("4:3: {more}"), &format!("5:3: {more}")],
    );
}

/// A wrong line hides nothing that is wrong on the lines around it, and its own children are judged by its kind.
#[test]
fn every_line_is_told() {
    let text = "symbol 77 x\nsequence\n  loop x at most 3 per loop 9\n    block 7\n    exit blok 3\n  block 1 at most\nsymbol 1 late\nblock 9 9\n";
    tree(
        text,
        &[
            "1:8: expected a symbol's number, 0 to 31, found \"77\"",
            &format!("3:29: {LOOPS}, found \"9\""),
            "4:5: expected \"body\": a loop's body comes first",
            &format!("5:10: {KIND}, found \"blok\""),
            &format!("6:18: {COUNT}, and the line ends"),
            "7:1: expected a node: names stand before the first one",
            "8:1: expected one root, and this is a second",
            &format!("8:9: {LIMIT}, found \"9\""),
        ],
    );
}

#[test]
fn headers() {
    names("cards 40", &[&format!("1:1: {HEADER}, found \"cards\"")]);
    names(
        "symbol",
        &["1:7: expected a symbol's number, 0 to 31, and the line ends"],
    );
    names(
        "symbol 32 x",
        &["1:8: expected a symbol's number, 0 to 31, found \"32\""],
    );
    names(
        "branch 255 x",
        &["1:8: expected a child's number, 0 to 254, found \"255\""],
    );
    for text in ["symbol 3", "branch 3", "house"] {
        names(
            text,
            &[&format!(
                "1:{}: expected a name, and the line ends",
                text.len() + 1
            )],
        );
    }
    names(
        "symbol 3 card count",
        &["1:15: expected the end of the line, found \"count\""],
    );
}

/// A wrong line of a name is told there, and not wherever the name is used.
#[test]
fn a_wrong_name_is_told_once() {
    let symbol = "1:8: expected a symbol's number, 0 to 31, found \"32\"";
    let nodes = "sequence\n  block x at most x per run\n  loop x at most triangular x per run\n    body block y\n    exit block 1";
    let other = format!("5:16: {TIME}, found \"y\"");
    tree(&format!("symbol 32 x\n{nodes}"), &[symbol, &other]);
    values(
        "symbol 32 x\nx 7\ncount-0 1000001",
        &[
            symbol,
            "3:9: expected a number from 0 to 1000000, found \"1000001\"",
        ],
    );
    values(
        "symbol 32 x\nx abc\nx 7 8\nx 7 abc\nx 7 8 9",
        &[
            symbol,
            "2:3: expected a number from 0 to 1000000000000, found \"abc\"",
            "4:5: expected a number from 0 to 1000000000000, found \"abc\"",
            "5:7: expected the end of the line, found \"9\"",
        ],
    );
    // Nor does one that another symbol has, or a name that there is not, excuse anything.
    values(
        "symbol 0 x\nsymbol 1 x\nx 1000001",
        &[
            "2:10: symbol 0 is called x already",
            "3:3: expected a number from 0 to 1000000, found \"1000001\"",
        ],
    );
    tree(
        "symbol 32\nblock",
        &[symbol, &format!("2:6: {TIME}, and the line ends")],
    );
    let found = format!("2:7: {TIME}, found \"at\"");
    tree("symbol 32 at\nblock at most 1 per run", &[symbol, &found]);
}

#[test]
fn names_that_are_none() {
    let letters = "is no name: a letter comes first, then letters, digits, - and _";
    for wrong in ["3", "-x", "a.b", "a/b", "_x", "a=b", "\"x\""] {
        names(
            &format!("symbol 3 {wrong}"),
            &[&format!("1:10: \"{wrong}\" {letters}")],
        );
    }
    for word in [
        "address",
        "at",
        "block",
        "body",
        "branch",
        "choice",
        "exit",
        "house",
        "loop",
        "most",
        "per",
        "run",
        "sequence",
        "symbol",
        "triangular",
    ] {
        names(
            &format!("symbol 3 {word}"),
            &[&format!(
                "1:10: \"{word}\" is a word of the text form and no name"
            )],
        );
    }
    names(
        "branch 3 a\u{7}b\nhouse \u{1b}[2J",
        &[
            "1:10: \"a\\u{7}b\" is no name: it has signs that cannot be printed",
            "2:7: \"\\u{1b}[2J\" is no name: it has signs that cannot be printed",
        ],
    );
}

#[test]
fn names_that_contradict() {
    names(
        "symbol 3 x\nsymbol 4 x",
        &["2:10: symbol 3 is called x already"],
    );
    // What is contradicted keeps its first name, so that the lines after it are judged by that.
    names(
        "symbol 0 x\nsymbol 0 y\nsymbol 1 x",
        &[
            "2:10: symbol 0 is called both x and y",
            "3:10: symbol 0 is called x already",
        ],
    );
    names(
        "symbol 3 time-16",
        &["1:10: symbol 16 is called time-16 already"],
    );
    names(
        "symbol 3 x\nsymbol 3 y",
        &["2:10: symbol 3 is called both x and y"],
    );
    names(
        "branch 3 x\nbranch 3 y z",
        &["2:10: branch 3 is called both x and y z"],
    );
    names(
        "house x\nhouse y",
        &["2:7: the house is called both x and y"],
    );
}

#[test]
fn values_of_symbols() {
    values(
        "cards 40",
        &[&format!(
            "1:1: {HEADER}, or a symbol's name and its value, found \"cards\""
        )],
    );
    values(
        "count-0",
        &["1:8: expected a number from 0 to 1000000, and the line ends"],
    );
    values(
        "count-0 1000001",
        &["1:9: expected a number from 0 to 1000000, found \"1000001\""],
    );
    values(
        "time-16 1000000000001",
        &["1:9: expected a number from 0 to 1000000000000, found \"1000000000001\""],
    );
    values(
        "count-0 = 40",
        &["1:9: expected a number from 0 to 1000000, found \"=\""],
    );
    let one = "expected the end of the line (symbols 24 to 31 alone have a later number)";
    for name in ["count-0", "time-16", "time-23"] {
        let column = name.len() + 5;
        values(
            &format!("{name} 40 50\n{name} 7"),
            &[
                &format!("1:{column}: {one}, found \"50\""),
                &format!("2:1: {name} has a value already"),
            ],
        );
    }
    values(
        "symbol 0 cards\ncards 1\ncards 1\ncount-0 2",
        &[
            "3:1: cards has a value already",
            "4:1: count-0 has a value already",
        ],
    );
    values(
        "x 1\ny 2",
        &[
            &format!("1:1: {HEADER}, or a symbol's name and its value, found \"x\""),
            &format!("2:1: {HEADER}, or a symbol's name and its value, found \"y\""),
        ],
    );
}

#[test]
fn later_values() {
    for name in ["time-24", "time-31"] {
        values(
            &format!("{name} 40 50 60"),
            &["1:15: expected the end of the line, found \"60\""],
        );
        for wrong in ["x", "-1", "1000000000001", "=", "50,"] {
            values(
                &format!("{name} 40 {wrong}"),
                &[&format!(
                    "1:12: expected a number from 0 to 1000000000000, found \"{wrong}\""
                )],
            );
        }
        values(
            &format!("{name} 40, 50"),
            &["1:9: expected a number from 0 to 1000000000000, found \"40,\""],
        );
        values(
            &format!("{name} 40 x\n{name} 40 50"),
            &[
                "1:12: expected a number from 0 to 1000000000000, found \"x\"",
                &format!("2:1: {name} has a value already"),
            ],
        );
    }
    values(
        "symbol 24 x\nx 4 3\ntime-24 5\nx 6 2",
        &[
            "3:1: time-24 has a value already",
            "4:1: x has a value already",
        ],
    );
    // A later value has no name of its own.
    values(
        "time-32 5",
        &[&format!(
            "1:1: {HEADER}, or a symbol's name and its value, found \"time-32\""
        )],
    );
}

/// What a text may have besides: comments, empty lines, any deeper indent, another system's line ends, names that are given twice alike,
/// addresses in capitals or with zeros before them.
#[test]
fn right_texts() {
    let plain =
        "sequence\n  block 1\n  choice\n    block 2 address 0xabc\n    block time-16 at most count-0 per run address 0xabcdef01\n";
    let same = "# a tree\r\nsymbol 0 cards # the count\r\nsymbol 0 cards\r\n\r\n   sequence\r\n         block 1 address 0x0\r\n\r\n         choice # here\r\n          block 2   address  0x00000ABC\r\n          block   time-16  at most cards per run address 0xABCdef01# there\r\n";
    let read = |text| text::tree::parse(text, &mut Names::default()).expect("a tree");
    assert_eq!(read(plain).table, read(same).table);
    assert_eq!(read(plain).lines, [1, 2, 3, 4, 5]);
    assert_eq!(read(same).lines, [5, 6, 8, 9, 10]);
}
