//! `volefleece quote`: a house's files, names and settings, and its line against the desk program's.

mod common;

use common::*;
use serde_json::{json, Value};
use volefleece::Refusal;
use volefleece_tests::programs::{sample, values_file, written, Folder, TREE, VALUES};
use volefleece_tests::rng::Rng;
use volefleece_tests::tables::*;

/// The sample entrance: what its files hold, and what is said of it.
const ENTRANCE_TEXT: &str = "\
choice
  loop cards
    body block 340
    exit block 60
  sequence
    block 1200
    block radio
";
const ENTRANCE_VALUES: &str = "cards 40\nretries 3\nradio 90000\n";
const ENTRANCE_LINES: &str = "\
house Lakeside, the side entrance
figure 91200 cycles
branch radio (child 1 of the choice at the root: sequence)
count cards 40
time radio 90000 cycles
";

const QUOTE: [&str; 2] = ["quote", "."];

fn with_set<'a>(settings: &[&'a str]) -> Vec<&'a str> {
    let set = settings.iter().flat_map(|&setting| ["--set", setting]);
    QUOTE.into_iter().chain(set).collect()
}

fn json_of(folder: &Folder, status: i32) -> Value {
    let written = ends(folder.command().args(QUOTE).arg("--json"), status);
    assert_eq!(written.output.lines().count(), 1);
    serde_json::from_str(&written.output).expect("JSON")
}

// What is said.

#[test]
fn a_house_in_lines() {
    answers(&house("entrance"), &QUOTE, ENTRANCE_LINES);
    answers(
        &house("house"),
        &QUOTE,
        "house Lakeside\nfigure 210910 cycles\nbranch none (no choice at the root)\n\
         count cards 40\ncount retries 3\ntime radio 90000 cycles\n",
    );
}

#[test]
fn a_house_without_names() {
    let folder = house("entrance");
    remove(&folder, NAMES);
    let title = folder.path("").file_name().expect("a name").to_owned();
    let lines = format!(
        "house {}\nfigure 91200 cycles\nbranch sequence (child 1 of the choice at the root)\n\
         count count-0 40\ntime time-16 90000 cycles\n",
        title.to_str().expect("text")
    );
    answers(&folder, &QUOTE, &lines);
}

#[test]
fn the_desks_line_alone() {
    let line = ["quote", ".", "--line"];
    answers(&house("entrance"), &line, "figure 91200 branch 1\n");
    answers(&house("house"), &line, "figure 210910 branch 255\n");
    let folder = house("house");
    folder.write(VALUES, &[0; 7]);
    let written = ends(folder.command().args(line), 1);
    assert_eq!(written.output, "refused 9\n");
}

#[test]
fn the_same_as_json() {
    let count = |symbol, name, value| json!({"symbol": symbol, "name": name, "value": value, "given": true});
    let counts = [count(0, "cards", 40), count(16, "radio", 90_000)];
    let entrance = json!({
        "house": "Lakeside, the side entrance",
        "figure": 91_200,
        "branch": {"child": 1, "name": "radio", "node": "sequence"},
        "counts": counts,
    });
    assert_eq!(json_of(&house("entrance"), 0), entrance);
    let folder = house("house");
    folder.write(TREE, &symbol_repeat(1, block(7), block(0)));
    folder.write(VALUES, &values_file(&[40]));
    let absent = json!({"symbol": 1, "name": "retries", "value": 1_000_000, "given": false});
    let expected =
        json!({"house": "Lakeside", "figure": 7_000_000, "branch": null, "counts": [absent]});
    assert_eq!(json_of(&folder, 0), expected);
}

#[test]
fn a_refusal_as_json() {
    let folder = house("entrance");
    folder.write(VALUES, &values_file(&[1_000_001]));
    let refused = json!({
        "refused": 9,
        "reason": Refusal::Values.reason(),
        "hint": "cards is 1000001, and at most 1000000 is allowed",
    });
    assert_eq!(json_of(&folder, 1), refused);
    folder.write(TREE, &[]);
    assert_eq!(json_of(&folder, 1)["refused"], 1);
}

#[test]
fn a_refusal_has_its_reason_and_a_hint() {
    for (values, hint) in [
        (vec![0; 9], "the file of values has 9 bytes"),
        (vec![0; 1_000], "the file of values has more than 320 bytes"),
        (values_file(&[0, 1_000_001]), "retries is 1000001"),
    ] {
        let folder = house("house");
        folder.write(VALUES, &values);
        let said = refuses(&folder, &QUOTE, 9);
        assert!(said.contains(&format!("\nhint: {hint}")), "{said}");
    }
    let folder = house("house");
    folder.write(TREE, &triangular_limited(block(1), 0, 255));
    folder.write(VALUES, &values_file(&[1_001]));
    let said = refuses(&folder, &QUOTE, 13);
    assert!(said.contains("\nhint: cards is 1001"), "{said}");
}

// First and later.

/// What is said of the sample whose cipher has two numbers.
const CIPHER_LINES: &str = "\
house Lakeside, the back door
figure 485860 cycles
branch none (no choice at the root)
count cards 40
time cipher first 60000 cycles, later 9000 cycles
";

fn cipher_lines(figure: u64, cipher: &str) -> String {
    let lines = CIPHER_LINES.replace("485860", &figure.to_string());
    lines.replace("first 60000 cycles, later 9000 cycles", cipher)
}

#[test]
fn two_numbers_in_lines() {
    let folder = house("cipher");
    answers(&folder, &QUOTE, CIPHER_LINES);
    answers(
        &folder,
        &["quote", ".", "--line"],
        "figure 485860 branch 255\n",
    );
    // What the file ends before is the first number again, with it, and without any the most.
    folder.write(VALUES, &sample("cipher", VALUES)[..256]);
    let one = cipher_lines(
        2_474_860,
        "first 60000 cycles, later 60000 cycles (as the first)",
    );
    answers(&folder, &QUOTE, &one);
    folder.write(
        TREE,
        &choice(&[block(7), limited(symbol_block(24), 0, 255)]),
    );
    folder.write(VALUES, &values_file(&[]));
    let said = ends(folder.command().args(QUOTE), 0);
    let most = "1000000000000 cycles";
    let line = format!("\ntime cipher first {most} (not given), later {most} (as the first)\n");
    assert!(said.output.ends_with(&line), "{}", said.output);
    let note = "cipher is not given and counts 1000000000000\n";
    assert_eq!(said.error, note);
}

#[test]
fn two_numbers_as_json() {
    let folder = house("cipher");
    let count = |first: u64, given, later: u64, later_given| {
        json!({
            "symbol": 24, "name": "cipher", "first": first, "given": given, "later": later, "later_given": later_given,
        })
    };
    let cards = json!({"symbol": 0, "name": "cards", "value": 40, "given": true});
    let json = json_of(&folder, 0);
    assert_eq!(
        json["counts"],
        json!([cards, count(60_000, true, 9_000, true)])
    );
    assert_eq!(json["figure"], 485_860);
    folder.write(VALUES, &sample("cipher", VALUES)[..256]);
    let json = json_of(&folder, 0);
    assert_eq!(json["counts"][1], count(60_000, true, 60_000, false));
    folder.write(TREE, &choice(&[limited(symbol_block(24), 0, 255)]));
    folder.write(VALUES, &[]);
    let most = 1_000_000_000_000;
    let json = json_of(&folder, 0);
    assert_eq!(json["counts"], json!([count(most, false, most, false)]));
}

/// One number means both, whatever was given before, and the last setting of a symbol counts.
#[test]
fn settings_have_both_numbers_or_one() {
    let folder = house("cipher");
    for (settings, figure, words) in [
        (
            &["cipher=50000,8000"][..],
            426_860,
            "first 50000 cycles, later 8000 cycles",
        ),
        (
            &["24=50000,8000"],
            426_860,
            "first 50000 cycles, later 8000 cycles",
        ),
        (
            &[" time-24 = 50000 , 8000 "],
            426_860,
            "first 50000 cycles, later 8000 cycles",
        ),
        (
            &["cipher=50000"],
            2_064_860,
            "first 50000 cycles, later 50000 cycles (as the first)",
        ),
        (
            &["cipher=50000,50000"],
            2_064_860,
            "first 50000 cycles, later 50000 cycles",
        ),
        (
            &["cipher=50000,0"],
            114_860,
            "first 50000 cycles, later 0 cycles",
        ),
        (
            &["cipher=1,1", "cipher=50000"],
            2_064_860,
            "first 50000 cycles, later 50000 cycles (as the first)",
        ),
        (
            &["cipher=50000", "24=50000,8000"],
            426_860,
            "first 50000 cycles, later 8000 cycles",
        ),
    ] {
        answers(&folder, &with_set(settings), &cipher_lines(figure, words));
    }
}

#[test]
fn wrong_settings_of_two_numbers_are_told() {
    let folder = house("cipher");
    let both =
        "expected a number from 0 to 1000000000000, or a first and a later one, as 90000,40000";
    for wrong in [
        "",
        ",",
        "5,",
        ",5",
        "5,x",
        "x,5",
        "5,-1",
        "5,4,3",
        "5 4",
        "5;4",
        "1000000000001",
        "5,1000000000001", // Thousands, most likely.
        "60,000",
        "1,000,000",
        "5,00",
        "5,04",
    ] {
        let told = format!("--set cipher={wrong}: {both}");
        complains(&folder, &with_set(&[&format!("cipher={wrong}")]), &[&told]);
    }
    let one = "expected one number: symbols 24 to 31 alone have a later one";
    for wrong in ["cards=40,30", "cards=1,000", "16=5,4", "23=,"] {
        let told = format!("--set {wrong}: {one}");
        complains(&folder, &with_set(&[wrong]), &[&told]);
    }
    for last in ["24=5,4", "31=5,4"] {
        ends(folder.command().args(with_set(&[last])), 0);
    }
    complains(
        &folder,
        &with_set(&["32=4"]),
        &["no symbol is called 32 (names here: cards, cipher)"],
    );
}

/// Whichever pair it is, used or not, and wherever it comes from.
#[test]
fn a_later_number_above_its_first_is_refused_with_both() {
    let folder = house("cipher");
    for symbol in 24..32 {
        let name = match symbol {
            24 => "cipher".into(),
            symbol => format!("time-{symbol}"),
        };
        let hint = format!(
            "\nhint: {name} is first 5 cycles, later 6 cycles, and later at most 5 is allowed\n"
        );
        let set = format!("{symbol}=5,6");
        let said = refuses(&folder, &with_set(&[&set]), 14);
        assert!(said.ends_with(&hint), "{said}");
        ends(
            folder.command().args(with_set(&[&set.replace('6', "5")])),
            0,
        );
        let mut values = [0; 40];
        (values[symbol], values[symbol + 8]) = (5, 6);
        folder.write("other.tab", &values_file(&values));
        let said = ends(folder.command().args(["values", "show", "other.tab"]), 1).output;
        assert!(said.starts_with("# refused 14: "), "{said}");
        assert!(said.contains(&hint.replace("\nhint", "\n# hint")), "{said}");
        assert!(said.contains(&format!("\n{name} 5 6\n")), "{said}");
        folder.write("other.txt", format!("time-{symbol} 5 6\n").as_bytes());
        let make = ["values", "make", "other.txt", "-o", "made.tab"];
        assert!(refuses(&folder, &make, 14).ends_with(&hint));
        assert_eq!(folder.read("made.tab"), None);
    }
    // Of two pairs the first.
    let said = refuses(&folder, &with_set(&["30=1,2", "26=3,4"]), 14);
    assert!(
        said.contains("\nhint: time-26 is first 3 cycles, later 4 "),
        "{said}"
    );
    // Question 9 comes before, of a later number too, and 13, but not 10.
    let mut values = [0; 40];
    values[33] = 1_000_000_000_001;
    folder.write(VALUES, &values_file(&values));
    let said = refuses(&folder, &QUOTE, 9);
    let hint = "\nhint: the later value of time-25 is 1000000000001, and at most 1000000000000 is allowed\n";
    assert!(said.ends_with(hint), "{said}");
    let past = sequence(&[block(1_000_000_000_000), block(1)]);
    folder.write(VALUES, &values_file(&[1_001]));
    folder.write(TREE, &triangular_limited(past.clone(), 0, 255));
    refuses(&folder, &with_set(&["24=5,6"]), 13);
    folder.write(TREE, &past);
    refuses(&folder, &with_set(&["24=5,6"]), 14);
    refuses(&folder, &with_set(&["24=5,5"]), 10);
}

/// A text with one number beside a file with both alike says the same.
#[test]
fn one_number_in_a_text_agrees_with_two_in_a_file() {
    let folder = house("cipher");
    let numbers = |later| all_values(&[&[40][..], &[0; 23], &[60_000], &[0; 7], &[later]].concat());
    let zeros: String = (1..24)
        .chain(25..32)
        .map(|symbol| match symbol {
            0..16 => format!("count-{symbol} 0\n"),
            _ => format!("time-{symbol} 0\n"),
        })
        .collect();
    folder.write(
        VALUES_TEXT,
        format!("{zeros}cards 40\ncipher 60000\n").as_bytes(),
    );
    folder.write(VALUES, &values_file(&numbers(60_000)));
    let one = "first 60000 cycles, later 60000 cycles (as the first)";
    answers(&folder, &QUOTE, &cipher_lines(2_474_860, one));
    folder.write(VALUES, &values_file(&numbers(59_999)));
    let differ = "values.tab and values.txt hold different values";
    complains(&folder, &QUOTE, &[differ]);
    folder.write(
        VALUES_TEXT,
        format!("{zeros}cards 40\ncipher 60000 59999\n").as_bytes(),
    );
    ends(folder.command().args(QUOTE), 0);
}

#[test]
fn swapped_counts_are_seen() {
    let folder = house("house");
    let said = ends(folder.command().args(QUOTE), 0).output;
    let mut values = sample("house", VALUES);
    (0..8).for_each(|byte| values.swap(byte, 8 + byte));
    folder.write(VALUES, &values);
    let swapped = ends(folder.command().args(QUOTE), 0).output;
    assert!(said.contains("count cards 40\ncount retries 3\n"));
    assert!(swapped.contains("count cards 3\ncount retries 40\n"));
    assert!(!swapped.contains("figure 210910 "));
}

/// Only those that the tree uses are named, whichever way the answer is wanted.
#[test]
fn absent_counts_are_named_and_count_high() {
    let folder = house("entrance");
    folder.write(VALUES, &[]);
    let notes =
        "cards is not given and counts 1000000\nradio is not given and counts 1000000000000\n";
    for way in [
        &QUOTE[..],
        &["quote", ".", "--line"],
        &["quote", ".", "--json"],
    ] {
        let written = ends(folder.command().args(way), 1);
        assert_eq!(written.error, notes);
        assert!(written.output.contains("10"), "{}", written.output);
    }
    let written = ends(folder.command().args(with_set(&["radio=90000"])), 0);
    assert_eq!(
        written.error,
        notes.lines().next().expect("a line").to_owned() + "\n"
    );
    assert!(written
        .output
        .contains("figure 340000060 cycles\nbranch card "));
    assert!(written
        .output
        .contains("count cards 1000000 (not given)\ntime radio 90000 cycles\n"));
    remove(&folder, VALUES);
    assert_eq!(ends(folder.command().args(QUOTE), 1).error, notes);
}

// Settings.

#[test]
fn settings_override_by_name_and_by_number() {
    let folder = house("entrance");
    for (settings, figure, branch) in [
        (&["cards=268"][..], 91_200, "radio"),
        (&["cards=269"], 91_520, "card"),
        (&["0=269"], 91_520, "card"),
        (&["count-0=269"], 91_520, "card"),
        (&[" cards = 269 "], 91_520, "card"),
        (&["cards=269", "radio=100000"], 101_200, "radio"),
        (&["cards=1", "0=269"], 91_520, "card"),
        (&["cards=1000000"], 340_000_060, "card"),
    ] {
        let said = ends(folder.command().args(with_set(settings)), 0);
        let start = format!("figure {figure} cycles\nbranch {branch} ");
        assert!(said.output.contains(&start), "{settings:?} {}", said.output);
        assert_eq!(said.error, "");
    }
    let said = ends(folder.command().args(with_set(&["retries=9", "31=0"])), 0);
    assert_eq!(said.output, ENTRANCE_LINES);
    let unused = "is set, and this tree does not use it\n";
    assert_eq!(said.error, format!("retries {unused}time-31 {unused}"));
}

#[test]
fn wrong_settings_are_told() {
    let folder = house("entrance");
    for (setting, words) in [
        (
            "card=4",
            &["--set card=4: no symbol is called card", "cards"][..],
        ),
        ("32=4", &["no symbol is called 32"]),
        ("=4", &["--set =4"]),
        (
            "cards=",
            &["--set cards=: expected a number from 0 to 1000000"],
        ),
        ("cards=1000001", &["from 0 to 1000000"]),
        ("cards=-1", &["from 0 to 1000000"]),
        ("cards=+1", &["from 0 to 1000000"]),
        ("cards=4x", &["from 0 to 1000000"]),
        ("cards=4=5", &["from 0 to 1000000"]),
        ("radio=1000000000001", &["from 0 to 1000000000000"]),
        (
            "radio=99999999999999999999999",
            &["from 0 to 1000000000000"],
        ),
    ] {
        complains(&folder, &with_set(&[setting]), words);
    }
    let written = ends(folder.command().args(with_set(&["cards"])), 2);
    assert!(
        written.error.contains("expected NAME=NUMBER"),
        "{}",
        written.error
    );
}

// Files.

#[test]
fn both_forms_give_the_same() {
    for (tree, values) in [(true, false), (false, true), (true, true)] {
        for alone in [false, true] {
            let folder = house("entrance");
            if tree {
                folder.write(TREE_TEXT, ENTRANCE_TEXT.as_bytes());
                alone.then(|| remove(&folder, TREE));
            }
            if values {
                // As the table has them: nothing is absent before the radio.
                let zeros: String = (2..16)
                    .map(|symbol| format!("count-{symbol} 0\n"))
                    .collect();
                folder.write(
                    VALUES_TEXT,
                    (ENTRANCE_VALUES.to_owned() + &zeros).as_bytes(),
                );
                alone.then(|| remove(&folder, VALUES));
            }
            answers(&folder, &QUOTE, ENTRANCE_LINES);
        }
    }
}

#[test]
fn forms_that_contradict_are_told() {
    let folder = house("entrance");
    folder.write(TREE_TEXT, ENTRANCE_TEXT.replace("340", "341").as_bytes());
    let words = [
        "tree.tab and tree.txt hold different trees",
        "remove one",
        "volefleece make",
    ];
    complains(&folder, &QUOTE, &words);
    let folder = house("entrance");
    folder.write(VALUES_TEXT, b"cards 41\n");
    let words = [
        "values.tab and values.txt hold different values",
        "volefleece values make",
    ];
    complains(&folder, &QUOTE, &words);
}

#[test]
fn missing_files() {
    let folder = house("entrance");
    complains(&folder, &["quote", "none"], &["volefleece: none: "]);
    complains(&folder, &["quote", TREE], &["volefleece: tree.tab: "]);
    remove(&folder, TREE);
    let said = refuses(&folder, &QUOTE, 1);
    assert!(
        said.contains("\nhint: . has no tree.tab and no tree.txt\n"),
        "{said}"
    );
}

/// Even where the tree alone would be refused.
#[test]
fn files_that_cannot_be_read_are_told() {
    for file in [TREE, TREE_TEXT, VALUES, VALUES_TEXT, NAMES] {
        let folder = folder();
        folder.put_folder(file);
        complains(&folder, &QUOTE, &[&format!("volefleece: ./{file}: ")]);
    }
    let file = format!("{TREE}: expected a house, which is a folder ");
    complains(&house("house"), &["quote", TREE], &[&file]);
    let file = format!("{TREE}: expected a folder with houses below it");
    complains(&house("house"), &["quotes", TREE], &[&file]);
    for (file, line) in [(TREE_TEXT, 2), (VALUES_TEXT, 1), (NAMES, 3)] {
        let folder = folder();
        let lines = "\n".repeat(line - 1);
        folder.write(file, &[lines.as_bytes(), b"\xff"].concat());
        complains(
            &folder,
            &QUOTE,
            &[&format!(
                "./{file}:{line}:1: expected text in UTF-8, without U+FFFD, found"
            )],
        );
    }
}

/// What is found is shown without signs that a terminal would obey, and not at any length.
#[test]
fn what_is_found_is_shown_in_signs() {
    let folder = folder();
    let long = "x".repeat(99);
    folder.write(TREE_TEXT, format!("bl\x1b]0;ock\n{long}\n").as_bytes());
    let written = ends(folder.command().args(QUOTE), 2);
    assert!(
        written.error.contains("found \"bl\\u{1b}]0;ock\""),
        "{}",
        written.error
    );
    let cut = format!("found \"{}..\"", "x".repeat(60));
    assert!(written.error.contains(&cut), "{}", written.error);
    // A table in place of a text is told at once.
    folder.write(TREE_TEXT, &block(7));
    let table = format!("./{TREE_TEXT}: expected a text, and this has bytes of 0, as a table has");
    complains(&folder, &QUOTE, &[&table]);
}

/// The hint of refusal 10 asks for what would help.
#[test]
fn a_quote_that_is_too_large_has_its_reason() {
    let large = "a part of the tree takes more than 1000000000000 cycles";
    for (text, values, hint) in [
        ("block 1000000000000", "", large.to_string()),
        (
            "block time-17",
            "time-17 1000000000000",
            format!("with these values {large}"),
        ),
        // Whatever the absent one is given.
        (
            "block time-17\n  block time-16",
            "time-17 1000000000000",
            format!("with these values {large}"),
        ),
        (
            "block time-17\n  block time-16",
            "time-17 1",
            "what is not given counts high; give a value to time-16".into(),
        ),
        (
            "block time-24\n  block time-25",
            "time-25 1",
            "what is not given counts high; give a value to time-24".into(),
        ),
    ] {
        let folder = folder();
        folder.write(
            TREE_TEXT,
            format!("sequence\n  block 1\n  {text}\n").as_bytes(),
        );
        folder.write(VALUES_TEXT, values.as_bytes());
        let said = refuses(&folder, &QUOTE, 10);
        assert!(said.ends_with(&format!("\nhint: {hint}\n")), "{said}");
    }
    let folder = folder();
    for (symbol, hint) in [
        ("", large.to_string()),
        ("  block time-17\n", format!("with every value 0 {large}")),
    ] {
        let text = format!("sequence\n  block 1000000000000\n  block 1\n{symbol}");
        folder.write(TREE_TEXT, text.as_bytes());
        let said = refuses(&folder, &["simplify", ".", "-o", "out.tab"], 10);
        assert!(said.ends_with(&format!("\nhint: {hint}\n")), "{said}");
    }
}

/// Bytes that are no UTF-8 hide no other wrong line, and in a comment they are nobody's business.
#[test]
fn lines_that_are_no_text_are_told_with_the_others() {
    let folder = folder();
    let text = b"house T\xfcr # 1\nsymbol 1 T\xfcr\nsequence # T\xfcr\n  blok 1\n  block \xfc\n";
    folder.write(TREE_TEXT, text);
    let written = ends(folder.command().args(QUOTE), 2);
    let lines = [
        "1:7: expected text in UTF-8, without U+FFFD, found \"T\u{fffd}r # 1\"",
        "2:10: expected text in UTF-8, without U+FFFD, found \"T\u{fffd}r\"",
        "4:3: expected \"block\", \"sequence\", \"choice\" or \"loop\", found \"blok\"",
        "5:9: expected text in UTF-8, without U+FFFD, found \"\u{fffd}\"",
    ];
    let told = lines.map(|line| format!("volefleece: ./{TREE_TEXT}:{line}\n"));
    assert_eq!(written.error, told.concat());
}

#[test]
fn every_line_that_is_wrong_is_told() {
    let folder = house("entrance");
    folder.write(VALUES_TEXT, b"cards many\ndoors 4\ncards 4\ncards 5\n");
    let places = [
        "./values.txt:1:7: ",
        "./values.txt:2:1: ",
        "./values.txt:4:1: ",
    ];
    complains(&folder, &QUOTE, &places);
}

// Names.

#[test]
fn names_come_from_headers_too() {
    let names = String::from_utf8(sample("entrance", NAMES)).expect("text");
    for (of_tree, of_values) in [(&names[..], ""), ("", &names), (&names, &names)] {
        let folder = house("entrance");
        remove(&folder, NAMES);
        let tree = if of_tree.is_empty() {
            ENTRANCE_TEXT
                .replace("cards", "count-0")
                .replace("radio", "time-16")
        } else {
            of_tree.to_owned() + ENTRANCE_TEXT
        };
        folder.write(TREE_TEXT, tree.as_bytes());
        remove(&folder, VALUES);
        let values = ENTRANCE_VALUES;
        folder.write(VALUES_TEXT, (of_values.to_owned() + values).as_bytes());
        answers(&folder, &QUOTE, ENTRANCE_LINES);
    }
}

#[test]
fn names_that_contradict_are_told() {
    for (header, place) in [
        (
            "symbol 0 tags\n",
            "1:10: symbol 0 is called both cards and tags",
        ),
        ("symbol 2 cards\n", "1:10: symbol 0 is called cards already"),
        (
            "branch 1 wire\n",
            "1:10: branch 1 is called both radio and wire",
        ),
        ("house Seaside\n", "1:7: the house is called both"),
        ("\nsymbol 3 loop\n", "2:10: \"loop\" is a word"),
        ("symbol 3 3a\n", "1:10: \"3a\" is no name"),
    ] {
        let folder = house("entrance");
        folder.write(TREE_TEXT, (header.to_owned() + ENTRANCE_TEXT).as_bytes());
        complains(&folder, &QUOTE, &[&format!("./tree.txt:{place}")]);
        remove(&folder, TREE_TEXT);
        folder.write(VALUES_TEXT, header.as_bytes());
        complains(&folder, &QUOTE, &[&format!("./values.txt:{place}")]);
    }
}

// The desk's line.

#[test]
fn random_houses_have_the_desks_line() {
    let mut rng = Rng::new(701);
    let mut answered = [0; 15];
    for _ in 0..480 {
        let folder = Folder::new("desk");
        folder.write(TREE, &random::table(&mut rng));
        if let Some(values) = random::values(&mut rng) {
            folder.write(VALUES, &values);
        }
        let desks = written(&mut folder.command()).output;
        let refused = desks.strip_prefix("refused ");
        let refused = refused.map_or(0, |number| number.trim().parse().expect("a number"));
        let mut command = command_in(&folder);
        let line = ends(
            command.args(["quote", ".", "--line"]),
            i32::from(refused > 0),
        );
        assert_eq!(line.output, desks);
        answered[refused] += 1;
    }
    // No buffer is too short here, and nothing is grafted.
    let reached = |number: usize| matches!(number, 8 | 11 | 12) || answered[number] > 3;
    assert!((0..15).all(reached), "{answered:?}");
}
