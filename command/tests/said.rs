//! What the command says of names, counts and numbers of records, and the texts that it writes. The seeds are fixed: every run makes the
//! same tables.

mod common;

use common::*;
use volefleece::ceiling;
use volefleece_tests::format::RECORD_BYTES;
use volefleece_tests::programs::{sample, values_file, Folder, TREE, VALUES};
use volefleece_tests::rng::Rng;
use volefleece_tests::tables::*;
use volefleece_tests::trees;

const OTHER: &str = "other.txt";
const OUT: &str = "out.tab";
const OUT_TEXT: &str = "out.txt";

/// Other names than the sample house's.
const OTHER_NAMES: &[u8] = b"house Other\nsymbol 0 doors\nsymbol 1 tries\nsymbol 16 antenna\n";
const SAMPLE_NAMES: [&str; 4] = ["Lakeside", "cards", "retries", "radio"];

/// The sample house, with other names in another file.
fn house_and_other_names() -> Folder {
    let folder = house("house");
    folder.write(OTHER, OTHER_NAMES);
    folder
}

/// What is said of the sample house, with the other names in place of its own.
fn renamed(said: &str) -> String {
    let others = ["Other", "doors", "tries", "antenna"];
    let names = SAMPLE_NAMES.iter().zip(others);
    names.fold(said.into(), |said, (name, other)| said.replace(name, other))
}

/// It makes a table of this text, which says how many records that has.
#[track_caller]
fn made(folder: &Folder, arguments: &[&str]) -> Vec<u8> {
    let mut command = folder.command();
    let written = ends(
        command.arg("make").args(arguments).args(["-o", "made.tab"]),
        0,
    );
    let table = folder.read("made.tab").expect("a table");
    let said = match table.len() / RECORD_BYTES {
        1 => "made 1 record\n".into(),
        records => format!("made {records} records\n"),
    };
    assert_eq!(written.output, said);
    table
}

fn output(folder: &Folder, arguments: &[&str]) -> String {
    ends(folder.command().args(arguments), 0).output
}

fn text(folder: &Folder, name: &str) -> String {
    let bytes = folder.read(name).expect("a file");
    String::from_utf8(bytes).expect("text")
}

// Names.

const HOUSE_TEXT: &str = "\
# Loop 1 is the innermost loop around a node, loop 2 the next one outward.
house Lakeside
symbol 0 cards
symbol 1 retries
symbol 16 radio

sequence
  block 1200
  loop cards
    body sequence
      block 340
      choice
        block radio at most 2 per loop 1
        block 25
    exit block 60
  loop retries
    body block 5000
    exit block 100
";

#[test]
fn show_names_what_a_file_names() {
    let folder = house_and_other_names();
    for tree in [TREE, "."] {
        answers(&folder, &["show", tree], HOUSE_TEXT);
        let arguments = ["show", tree, "--names", OTHER];
        answers(&folder, &arguments, &renamed(HOUSE_TEXT));
    }
    folder.write("shown.txt", renamed(HOUSE_TEXT).as_bytes());
    let arguments = ["shown.txt", "--names", OTHER];
    assert_eq!(Some(made(&folder, &arguments)), folder.read(TREE));
}

/// The workshop's tree has addresses, the house's none.
const WORKSHOP_NODES: &str = "
sequence address 0x8000400
  block 700 address 0x8000400
  sequence address 0x800041c
    block 500 address 0x800041c
    block 0 address 0x8000440
  loop cards address 0x8000448
    body sequence address 0x800044c
      sequence address 0x800044c
        block 340 address 0x800044c
      choice address 0x8000470
        block radio at most 2 per loop 1 address 0x8000474
        block 25 address 0x8000480
        block 10 address 0x800048c
    exit sequence address 0x8000494
      block 20 address 0x8000494
      block 40 address 0x80004a0
  loop retries address 0x80004b0
    body block 5000 address 0x80004b4
    exit loop 0 address 0x80004d0
      body block 7 address 0x80004d4
      exit block 100 address 0x80004e0
";

#[test]
fn show_tells_addresses_last() {
    let folder = house("workshop");
    let shown = output(&folder, &["show", TREE]);
    assert!(shown.ends_with(WORKSHOP_NODES), "{shown}");
    folder.write("shown.txt", shown.as_bytes());
    assert_eq!(made(&folder, &["shown.txt"]), sample("workshop", TREE));
}

#[test]
fn check_names_what_a_file_names() {
    let folder = house_and_other_names();
    let said = "accepted\nrecords 12\ndepth 5\nsymbol 0 cards\nsymbol 1 retries\nsymbol 16 radio\n";
    for tree in [TREE, "."] {
        answers(&folder, &["check", tree], said);
        let arguments = ["check", tree, "--names", OTHER];
        answers(&folder, &arguments, &renamed(said));
    }
    put(&folder, "alone/tree.txt", renamed(HOUSE_TEXT));
    answers(&folder, &["check", "alone/tree.txt"], &renamed(said));
    put(
        &folder,
        "alone/tree.tab",
        folder.read(TREE).expect("a table"),
    );
    remove(&folder, "alone/tree.txt");
    let plain = said
        .replace("cards", "count-0")
        .replace("retries", "count-1");
    let plain = plain.replace("radio", "time-16");
    answers(&folder, &["check", "alone"], &plain);
}

/// The same text is another table with other names, and none without.
#[test]
fn make_takes_the_names_of_a_file() {
    let folder = folder();
    let nodes = "loop cards\n  body block radio\n  exit block 9 at most triangular cards per run\n";
    let table = |count: u32, time| {
        let exit = triangular_limited(block(9), count, 255);
        symbol_repeat(count.into(), symbol_block(time), exit)
    };
    folder.write("nodes.txt", nodes.as_bytes());
    folder.write(OTHER, b"symbol 13 cards\nsymbol 31 radio\n");
    complains(
        &folder,
        &["make", "nodes.txt", "-o", OUT],
        &["nodes.txt:1:"],
    );
    assert_eq!(
        made(&folder, &["nodes.txt", "--names", OTHER]),
        table(13, 31)
    );
    folder.write(NAMES, b"symbol 9 cards\nsymbol 16 radio\n");
    assert_eq!(made(&folder, &["nodes.txt"]), table(9, 16));
    assert_eq!(
        made(&folder, &["nodes.txt", "--names", OTHER]),
        table(13, 31)
    );
}

/// The last child that a root choice can have is called by its name, and each of some others by its own.
#[test]
fn each_branch_has_its_name() {
    let folder = folder();
    let mut names = String::from("house H\n");
    for child in 0..255 {
        names += &format!("branch {child} way {child}\n");
    }
    folder.write(NAMES, names.as_bytes());
    for child in [0, 1, 2, 5, 200, 201, 254] {
        let mut children = vec![block(7); 255];
        children[child] = symbol_block(16);
        folder.write(TREE, &choice(&children));
        let set = ["quote", ".", "--set", "16=9"];
        let said = format!(
            "house H\nfigure 9 cycles\nbranch way {child} (child {child} of the choice at the root: block time-16)\n\
             time time-16 9 cycles\n"
        );
        answers(&folder, &set, &said);
        let json = output(&folder, &[&set[..], &["--json"]].concat());
        let json: serde_json::Value = serde_json::from_str(&json).expect("JSON");
        let name = format!("way {child}");
        let branch = serde_json::json!({"child": child, "name": name, "node": "block time-16"});
        assert_eq!(json["branch"], branch);
    }
}

/// Reception reads a branch, and has no use for its address.
#[test]
fn a_branch_goes_without_its_address() {
    let folder = folder();
    let child = limited(addressed(symbol_block(16), 0x4a0), 9, 255);
    folder.write(TREE, &choice(&[child]));
    folder.write(NAMES, b"house H\n");
    let words = "block time-16 at most 9 per run";
    let said = output(&folder, &["quote", ".", "--set", "16=5"]);
    assert!(
        said.contains(&format!("\nbranch {words} (child 0 ")),
        "{said}"
    );
    let said = output(&folder, &["quote", ".", "--set", "16=5", "--json"]);
    let json: serde_json::Value = serde_json::from_str(&said).expect("JSON");
    assert_eq!(json["branch"]["node"], words);
}

/// A child of the root is meant, whatever stands at the same place below others.
#[test]
fn a_branch_without_a_name_has_its_own_words() {
    let folder = folder();
    folder.write(NAMES, b"house H\nsymbol 16 radio\nbranch 4 named\n");
    let few = choice(&[block(1), block(2), block(3), block(4)]);
    for (child, words) in [
        (symbol_block(16), "block radio"),
        (sequence(&[symbol_block(16), block(0)]), "sequence"),
        (
            limited(symbol_repeat(0, block(0), symbol_block(16)), 9, 255),
            "loop count-0 at most 9 per run",
        ),
    ] {
        for place in 0..4 {
            let mut children = vec![few.clone(); 4];
            children[place] = child.clone();
            folder.write(TREE, &choice(&children));
            let said = output(&folder, &["quote", ".", "--set", "16=50", "--set", "0=3"]);
            let expected = format!(
                "\nfigure 50 cycles\nbranch {words} (child {place} of the choice at the root)\n"
            );
            assert!(said.contains(&expected), "{said}");
        }
    }
}

// Texts of trees.

/// The text that it writes is made into the very table that it writes, and it says the same of both.
#[track_caller]
fn writes_both(folder: &Folder, arguments: &[&str]) -> String {
    let said = [OUT, OUT_TEXT].map(|out| output(folder, &[arguments, &["-o", out]].concat()));
    assert_eq!(said[0], said[1]);
    let (table, text) = (folder.read(OUT).expect("a table"), text(folder, OUT_TEXT));
    assert_ne!(text.as_bytes(), table);
    put(folder, "alone/out.txt", &text);
    assert_eq!(made(folder, &["alone/out.txt"]), table, "{text}");
    text
}

#[test]
fn a_text_of_a_simplified_tree_makes_its_table() {
    let mut rng = Rng::new(1);
    let folder = folder();
    let names = (0..32).map(|symbol| format!("symbol {symbol} name{symbol}\n"));
    folder.write(NAMES, names.collect::<String>().as_bytes());
    for _ in 0..20 {
        let records = rng.size(1..=40);
        let tree = trees::redundant(&mut rng, records);
        folder.write("in.tab", &tree.encode());
        for steps in ["0", "3", "1000000"] {
            let text = writes_both(&folder, &["simplify", "in.tab", "--steps", steps]);
            assert!(text.contains("symbol 16 name16\n"), "{text}");
        }
    }
}

/// The symbols keep their names and the house its own, whereas the root's children may be others then.
#[test]
fn a_simplified_text_has_no_branches() {
    let folder = folder();
    let inner = choice(&[symbol_block(16), symbol_block(17)]);
    folder.write("in.tab", &choice(&[inner, symbol_block(18)]));
    let names = "house H\nsymbol 16 radio\nsymbol 18 bolt\n";
    folder.write(OTHER, format!("{names}branch 1 by bolt\n").as_bytes());
    let text = writes_both(&folder, &["simplify", "in.tab", "--names", OTHER]);
    let expected = "house H\nsymbol 16 radio\nsymbol 17 time-17\nsymbol 18 bolt\n\n\
                    choice\n  block radio\n  block time-17\n  block bolt\n";
    assert_eq!(text, expected);
}

/// A host, a tree that is sent with names of its own, and other names for the host.
fn host_and_sent() -> Folder {
    let folder = folder();
    put(
        &folder,
        "host/tree.tab",
        choice(&[symbol_block(16), block(5)]),
    );
    put(
        &folder,
        "host/names.txt",
        "symbol 16 radio\nsymbol 17 bolt\nbranch 0 by radio\n",
    );
    put(
        &folder,
        "sent/tree.tab",
        symbol_repeat(2, symbol_block(17), block(1)),
    );
    put(
        &folder,
        "sent/names.txt",
        "house Sent\nsymbol 2 tries\nsymbol 17 bolt\nsymbol 16 idle\nbranch 0 sent\n",
    );
    put(
        &folder,
        OTHER,
        "house Other\nsymbol 16 antenna\nsymbol 2 tries\n",
    );
    folder
}

/// The names are the host's, and the sent tree's for the symbols that it uses and the host does not name.
#[test]
fn a_text_of_a_graft_makes_its_table_and_has_the_names() {
    let folder = host_and_sent();
    let nodes = |tries: &str, bolt: &str| {
        format!(
            "\nchoice\n  loop 1\n    body loop {tries}\n      body block {bolt}\n      exit block 1\n    \
             exit block 0\n  block 5\n"
        )
    };
    let graft = |symbol, names: &[&'static str]| {
        let arguments = ["graft", "host", "sent", "--symbol", symbol];
        writes_both(&folder, &[&arguments, names].concat())
    };
    let header = "symbol 2 tries\nsymbol 16 radio\nsymbol 17 bolt\nbranch 0 by radio\n";
    let expected = header.to_owned() + &nodes("tries", "bolt");
    assert_eq!(graft("radio", &[]), expected);
    assert_eq!(graft("16", &[]), expected);
    let header = "house Other\nsymbol 2 tries\nsymbol 16 antenna\nsymbol 17 bolt\n";
    let expected = header.to_owned() + &nodes("tries", "bolt");
    assert_eq!(graft("antenna", &["--names", OTHER]), expected);
}

#[test]
fn a_text_of_a_random_graft_makes_its_table() {
    let mut rng = Rng::new(2);
    let folder = folder();
    for _ in 0..20 {
        let [mut host, mut sent] = [0; 2].map(|_| {
            let records = rng.size(1..=20);
            trees::grow(&mut rng, records, 10, 3)
        });
        trees::put_symbol(&mut rng, &mut host, 20, 2);
        trees::drop_symbol(&mut sent, 20);
        folder.write("host.tab", &host.encode());
        folder.write("sent.tab", &sent.encode());
        writes_both(
            &folder,
            &["graft", "host.tab", "sent.tab", "--symbol", "20"],
        );
    }
}

/// The names are those of the open tree: nothing moves, and what opens the tree again finds the symbol by its name.
#[test]
fn a_text_of_a_filled_tree_makes_its_table_and_has_the_names() {
    let folder = folder();
    folder.write(
        "in.tab",
        &choice(&[
            symbol_repeat(0, symbol_block(16), block(1)),
            symbol_block(17),
        ]),
    );
    let names = "house H\nsymbol 0 cards\nsymbol 16 radio\n";
    let branches = "branch 1 by bolt\n";
    folder.write(OTHER, format!("{names}{branches}").as_bytes());
    let fill = |set| {
        [
            "fill", "in.tab", "--names", OTHER, "--set", set, "--marks", "marks",
        ]
    };
    let nodes = |bound, bolt| {
        format!(
            "\nchoice\n  loop {bound}\n    body block radio\n    exit block 1\n  block {bolt}\n"
        )
    };
    let filled = writes_both(&folder, &fill("cards=40"));
    let header = format!("{names}symbol 17 time-17\n{branches}");
    assert_eq!(filled, header.clone() + &nodes("40", "time-17"));
    put(&folder, "filled/tree.txt", filled);
    // By the name in the text itself, which is the only one here.
    let open = ["open", "filled", "--set", "cards=40", "--marks", "marks"];
    let opened = writes_both(&folder, &open);
    assert_eq!(opened, header + &nodes("cards", "time-17"));
    assert_eq!(folder.read(OUT), folder.read("in.tab"));
    // A symbol without a name has its plain one, once it is used.
    let filled = writes_both(&folder, &fill("17=9"));
    let header = format!("{names}{branches}");
    assert_eq!(filled, header + &nodes("cards", "9"));
}

// Numbers.

#[test]
fn made_says_the_records_of_every_length() {
    let folder = folder();
    let wide = |blocks| sequence(&vec![block(7); blocks]);
    for table in [block(0), wide(1), wide(10), wide(255), long(511), long(512)] {
        folder.write("in.tab", &table);
        folder.write("in.txt", output(&folder, &["show", "in.tab"]).as_bytes());
        assert_eq!(made(&folder, &["in.txt"]), table);
    }
}

#[test]
fn simplified_says_bytes_and_steps() {
    let folder = folder();
    let children = (16..32).map(|symbol| sequence(&[symbol_block(symbol)]));
    let table = choice(&children.collect::<Vec<_>>());
    folder.write("in.tab", &table);
    for (steps, ending) in [
        (0, "spent"),
        (4, "spent"),
        (12, "spent"),
        (1_000, "finished"),
    ] {
        let simplified = volefleece::simplify(&table, steps).expect("a table");
        assert_eq!(simplified.finished, ending == "finished");
        let (bytes, taken) = (simplified.table.len(), simplified.steps);
        let said = format!("simplified {bytes} steps {taken} {ending}\n");
        let steps = steps.to_string();
        answers(
            &folder,
            &["simplify", "in.tab", "-o", OUT, "--steps", &steps],
            &said,
        );
    }
}

/// A line of a count or a time, where so many counts are given. Every other paired symbol is set to both its numbers.
fn quoted(symbol: usize, given: usize) -> String {
    let value = 100 + symbol;
    match symbol {
        16..24 => format!("time time-{symbol} {value} cycles\n"),
        24.. => {
            let later = match symbol % 2 {
                0 => format!("later {symbol} cycles"),
                _ => format!("later {value} cycles (as the first)"),
            };
            format!("time time-{symbol} first {value} cycles, {later}\n")
        }
        _ if symbol < given => format!("count count-{symbol} {value}\n"),
        _ => format!("count count-{symbol} 1000000 (not given)\n"),
    }
}

/// All of them are used, as bounds and as times.
#[test]
fn quote_tells_counts_from_times() {
    let folder = folder();
    let repeats = (0..16).map(|symbol| symbol_repeat(symbol, block(0), block(0)));
    let blocks = (16..32).map(symbol_block);
    folder.write(TREE, &sequence(&repeats.chain(blocks).collect::<Vec<_>>()));
    folder.write(NAMES, b"house H\n");
    let values: Vec<u64> = (100..132).collect();
    let figure: u64 = values[16..].iter().sum();
    let set: Vec<String> = (16..32)
        .map(|symbol| match symbol {
            24.. if symbol % 2 == 0 => format!("--set={symbol}={},{symbol}", values[symbol]),
            _ => format!("--set={symbol}={}", values[symbol]),
        })
        .collect();
    for given in [32, 16, 8, 5, 0] {
        folder.write(VALUES, &values_file(&values[..given]));
        let start =
            format!("house H\nfigure {figure} cycles\nbranch none (no choice at the root)\n");
        let lines = (0..32).map(|symbol| quoted(symbol, given));
        let written = ends(folder.command().args(["quote", "."]).args(&set), 0);
        assert_eq!(written.output, start + &lines.collect::<String>());
        let written = ends(folder.command().args(["quote", "."]), i32::from(given < 32));
        assert_eq!(written.error.lines().count(), 32 - given);
    }
}

/// The members alone stand on standard output; which times are counted first and later, and how, is said beside them.
#[test]
fn list_says_what_is_first_and_later() {
    let folder = house("cipher");
    let listed = |arguments: &[&str], output: &str, error: &str| {
        let written = ends(folder.command().args(["list", "."]).args(arguments), 0);
        assert_eq!(written.output, output);
        assert_eq!(written.error, error);
    };
    let line = "time cipher first 60000 cycles, later 9000 cycles\n";
    listed(&[], "485860 once\n383860 for ever\n", line);
    let line = "time cipher first 60000 cycles, later 60000 cycles (as the first)\n";
    listed(&["--set", "cipher=60000"], "2474860 for ever\n", line);
    // Those that the tree uses, each on its line.
    let blocks = [31, 24, 16, 24, 26].map(symbol_block);
    folder.write(TREE, &sequence(&blocks));
    let set = ["--set=16=1", "--set=24=5,4", "--set=26=3", "--set=31=9,0"];
    let lines = "time cipher first 5 cycles, later 4 cycles\n\
                 time time-26 first 3 cycles, later 3 cycles (as the first)\n\
                 time time-31 first 9 cycles, later 0 cycles\n";
    listed(&set, "23 once\n12 for ever\n", lines);
}

/// Those that have two numbers are named so.
#[test]
fn check_tells_what_is_first_and_later() {
    let folder = house("cipher");
    let said = "accepted\nrecords 8\ndepth 4\nsymbol 0 cards\nsymbol 24 cipher (first and later)\n";
    answers(&folder, &["check", "."], said);
    folder.write(TREE, &sequence(&[16, 23, 24, 31].map(symbol_block)));
    remove(&folder, NAMES);
    let said = "accepted\nrecords 5\ndepth 2\nsymbol 16 time-16\nsymbol 23 time-23\n\
                symbol 24 time-24 (first and later)\nsymbol 31 time-31 (first and later)\n";
    answers(&folder, &["check", "."], said);
}

#[test]
fn list_prints_counts_as_they_are() {
    let folder = folder();
    for count in [2, 999, 1_000, 1_001, 65_536, 999_999, 1_000_000] {
        folder.write(TREE, &limited(block(7), count, 255));
        answers(
            &folder,
            &["list", "."],
            &format!("7 {count} times\n0 for ever\n"),
        );
        folder.write(TREE, &symbol_limited(block(7), 3, 255));
        let set = format!("3={count}");
        let said = format!("7 {count} times\n0 for ever\n");
        answers(&folder, &["list", ".", "--set", &set], &said);
    }
    folder.write(TREE, &triangular_limited(block(7), 3, 255));
    for (count, triangular) in [(2, 3), (45, 1_035), (1_000, 500_500)] {
        let set = format!("3={count}");
        let said = format!("7 {triangular} times\n0 for ever\n");
        answers(&folder, &["list", ".", "--set", &set], &said);
    }
    folder.write(TREE, &limited(block(7), 1, 255));
    answers(&folder, &["list", "."], "7 once\n0 for ever\n");
}

// Values.

/// Values are made of a text that gives each of these symbols its own number; those before the last one that it leaves out are named.
#[track_caller]
fn makes_values(folder: &Folder, given: &[usize], named: &[&str], name: impl Fn(usize) -> String) {
    let lines = given
        .iter()
        .map(|&symbol| format!("{} {symbol}\n", name(symbol)));
    folder.write("in.txt", lines.collect::<String>().as_bytes());
    let arguments = [&["values", "make", "in.txt", "-o", OUT], named].concat();
    let written = ends(folder.command().args(arguments), 0);

    let mut values: Vec<u64> = Vec::new();
    let mut notes = String::new();
    for symbol in 0..given.last().map_or(0, |last| last + 1) {
        if given.contains(&symbol) {
            values.push(symbol as u64);
        } else {
            values.push(ceiling(symbol));
            notes += &format!(
                "{} is not given and counts {}\n",
                name(symbol),
                ceiling(symbol)
            );
        }
    }
    assert_eq!(written.error, notes);
    assert_eq!(written.output, format!("made {} values\n", values.len()));
    assert_eq!(folder.read(OUT), Some(values_file(&values)));
}

#[test]
fn values_make_names_each_that_is_not_given() {
    let folder = folder();
    let mut rng = Rng::new(3);
    folder.write(NAMES, b"symbol 3 cards\nsymbol 20 radio\n");
    folder.write(OTHER, b"symbol 3 doors\nsymbol 21 bolt\n");
    let plain = |symbol| match symbol {
        0..16 => format!("count-{symbol}"),
        _ => format!("time-{symbol}"),
    };
    for round in 0..12 {
        let often = rng.pick(&[1, 2, 8, 32]);
        // The last one at times, so that all the others are before it.
        let mut is_given = |symbol| symbol == 31 && round % 3 == 0 || rng.once_in(often);
        let given: Vec<usize> = (0..32).filter(|&symbol| is_given(symbol)).collect();
        makes_values(&folder, &given, &[], |symbol| match symbol {
            3 => "cards".into(),
            20 => "radio".into(),
            _ => plain(symbol),
        });
        makes_values(
            &folder,
            &given,
            &["--names", OTHER],
            |symbol| match symbol {
                3 => "doors".into(),
                21 => "bolt".into(),
                _ => plain(symbol),
            },
        );
    }
}

/// Its table has a number for each, whereas the text still tells which were left out.
#[test]
fn a_text_beside_its_table_tells_what_is_not_given() {
    let folder = folder();
    folder.write(TREE, &symbol_repeat(0, symbol_block(16), block(0)));
    folder.write(VALUES_TEXT, b"time-16 5\n");
    ends(
        folder
            .command()
            .args(["values", "make", VALUES_TEXT, "-o", VALUES]),
        0,
    );
    let written = ends(folder.command().args(["quote", "."]), 0);
    let lines = "\ncount count-0 1000000 (not given)\ntime time-16 5 cycles\n";
    assert!(written.output.ends_with(lines), "{}", written.output);
    assert_eq!(written.error, "count-0 is not given and counts 1000000\n");
}

/// What stands in the file for a later number that the text does not give is its first; nothing is said of that, which the text says.
#[test]
fn a_later_value_is_made_where_one_follows() {
    let folder = folder();
    let made = |text: &str, values: &[u64], notes: &str| {
        folder.write("in.txt", text.as_bytes());
        let make = ["values", "make", "in.txt", "-o", OUT];
        let written = ends(folder.command().args(make), 0);
        assert_eq!(written.output, format!("made {} values\n", values.len()));
        assert_eq!(written.error, notes);
        assert_eq!(folder.read(OUT), Some(values_file(values)));
    };
    let zeros: String = (0..16)
        .map(|symbol| format!("count-{symbol} 0\n"))
        .chain((16..24).map(|symbol| format!("time-{symbol} 0\n")))
        .collect();
    let most = 1_000_000_000_000;
    let start = |rest: &[u64]| [&[0; 24][..], rest].concat();
    made(&format!("{zeros}time-24 5\n"), &start(&[5]), "");
    let absent: String = (26..32)
        .map(|symbol| format!("time-{symbol} is not given and counts {most}\n"))
        .collect();
    made(
        &format!("{zeros}time-24 5\ntime-25 7 3\n"),
        &start(&[5, 7, most, most, most, most, most, most, 5, 3]),
        &absent,
    );
    // And that returns, with as many numbers as the file has.
    let shown = output(&folder, &["values", "show", OUT]);
    let last = format!("time-24 5 5\ntime-25 7 3\ntime-26 {most}\n");
    assert!(shown.contains(&last), "{shown}");
    folder.write("shown.txt", shown.as_bytes());
    let make = ["values", "make", "shown.txt", "-o", "again.tab"];
    answers(&folder, &make, "made 34 values\n");
    assert_eq!(folder.read("again.tab"), folder.read(OUT));
}

// Houses far below.

#[test]
fn quotes_finds_houses_at_every_depth() {
    let folder = folder();
    let mut said = String::new();
    for depth in 1..=12 {
        let house = vec!["in"; depth].join("/");
        put(
            &folder,
            &format!("all/{house}/tree.tab"),
            block(depth as u64),
        );
        said += &format!("{house}: figure {depth} branch 255\n");
    }
    answers(&folder, &["quotes", "all"], &said);
}
