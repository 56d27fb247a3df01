//! Hints as the command prints them: the file, the record or the line, and the words of the very table that was refused. Which record and
//! words these are is tested by hints.rs. The seeds are fixed: every run makes the same tables.

mod common;

use common::*;
use volefleece::Refusal;
use volefleece_command::hint;
use volefleece_command::names::Names;
use volefleece_command::text::tree::print;
use volefleece_tests::faults;
use volefleece_tests::format::RECORD_BYTES;
use volefleece_tests::programs::{values_file, Folder, TREE, VALUES};
use volefleece_tests::rng::Rng;
use volefleece_tests::tables::*;
use volefleece_tests::trees;

const BAD: &str = "bad.tab";
const BAD_TEXT: &str = "bad.txt";
const GOOD: &str = "good.tab";
const OUT: &str = "out.tab";

/// A table that is refused by exactly that number, with its hint's record and words.
struct Refused {
    table: Vec<u8>,
    refusal: Refusal,
    record: usize,
    what: String,
}

impl Refused {
    fn random(rng: &mut Rng, number: u64) -> Self {
        let tree = faults::tree(rng, &[number]);
        let table = faults::table(rng, &tree, &[number]);
        let refusal = volefleece::check(&table).expect_err("a fault");
        assert_eq!(refusal.number(), number);
        let hint = hint::find(&table, refusal).expect("a hint");
        Refused {
            table,
            refusal,
            record: hint.record,
            what: hint.what,
        }
    }

    /// What is said of it as that file.
    fn said(&self, file: &str) -> String {
        let byte = self.record * RECORD_BYTES;
        let address = &self.table[byte + 16..byte + 20];
        let address = match u32::from_le_bytes(address.try_into().expect("four bytes")) {
            0 => String::new(),
            address => format!(", address {address:#x}"),
        };
        self.said_at(&format!(
            "{file}: record {} (byte {byte}{address})",
            self.record
        ))
    }

    fn said_at(&self, place: &str) -> String {
        format!("{}\nhint: {place}: {}\n", self.refusal, self.what)
    }

    /// Its text with other lines before and between those of its records, and the line of its hint's.
    fn text(&self, rng: &mut Rng) -> (String, usize) {
        let printed = print(&self.table, &Names::default());
        let mut lines = Vec::new();
        let mut at = Vec::new();
        for line in printed.lines().filter(|line| !line.starts_with("symbol ")) {
            for _ in 0..rng.index(3) {
                lines.push(rng.pick(&["", "# Words.", "  # Words."]));
            }
            lines.push(line);
            if !line.is_empty() && !line.starts_with('#') {
                at.push(lines.len());
            }
        }
        assert_eq!(at.len() * RECORD_BYTES, self.table.len());
        (lines.join("\n"), at[self.record])
    }
}

/// It is refused, says exactly this and writes no file.
#[track_caller]
fn says(folder: &Folder, arguments: &[&str], said: &str) {
    let written = ends(folder.command().args(arguments), 1);
    assert_eq!(written.output, said, "{arguments:?}");
    assert_eq!(written.error, "");
    assert_eq!(folder.read(OUT), None);
}

/// The lines of a refused table: what is said of it, and then its records.
#[track_caller]
fn shows(folder: &Folder, file: &str, said: &str, records: usize) {
    let written = ends(folder.command().args(["show", file]), 1);
    let commented: String = said.lines().map(|line| format!("# {line}\n")).collect();
    let lines = written.output.strip_prefix(&commented);
    let lines = lines.unwrap_or_else(|| panic!("{said}{}", written.output));
    let numbers = lines.lines().map(|line| line.rsplit_once(" # record "));
    let numbers = numbers.map(|parts| parts.expect("a record's number").1.to_owned());
    let expected = (0..records).map(|record| record.to_string());
    assert!(numbers.eq(expected), "{lines}");
}

fn graft<'a>(host: &'a str, sent: &'a str) -> [&'a str; 7] {
    ["graft", host, sent, "--symbol", "16", "-o", OUT]
}

/// A refused tree is told before a symbol that cannot be filled and marks that are none.
fn fill(tree: &str) -> [&str; 8] {
    ["fill", tree, "--set", "24=4", "--marks", "marks", "-o", OUT]
}

fn open(tree: &str) -> [&str; 8] {
    ["open", tree, "--set", "24=4", "--marks", GOOD, "-o", OUT]
}

/// Likewise before a record that is not there.
const RETIME: [&str; 9] = [
    "retime", ".", "--record", "512", "--from", "7", "--to", "8", "--commit",
];

#[test]
fn of_a_table_its_record_and_byte() {
    let mut rng = Rng::new(1);
    let folder = folder();
    folder.write(GOOD, &symbol_block(16));
    let (mut records, mut addressed) = (Vec::new(), 0);
    for round in 0..24 {
        let refused = Refused::random(&mut rng, 2 + round % 6);
        let said = refused.said(BAD);
        folder.write(BAD, &refused.table);
        folder.write(TREE, &refused.table);
        says(&folder, &["check", BAD], &said);
        says(&folder, &["simplify", BAD, "-o", OUT], &said);
        says(&folder, &graft(BAD, GOOD), &said);
        says(&folder, &graft(GOOD, BAD), &said);
        says(&folder, &fill(BAD), &said);
        says(&folder, &open(BAD), &said);
        for command in ["quote", "list", "contract"] {
            says(&folder, &[command, "."], &refused.said("./tree.tab"));
        }
        says(&folder, &RETIME, &refused.said("./tree.tab"));
        says(&folder, &["draw", BAD, "-o", "out.svg"], &said);
        shows(&folder, BAD, &said, refused.table.len() / RECORD_BYTES);
        records.push(refused.record);
        addressed += usize::from(said.contains(", address 0x"));
    }
    records.sort_unstable();
    records.dedup();
    assert!(records.len() >= 15, "{records:?}");
    assert!((5..=20).contains(&addressed), "{addressed}");
}

#[test]
fn of_a_record_its_address() {
    let folder = folder();
    let fields = Refusal::Fields;
    for (address, words) in [
        (0, ""),
        (1, ", address 0x1"),
        (0x0800_04a0, ", address 0x80004a0"),
        (u32::MAX, ", address 0xffffffff"),
    ] {
        let mut bad = addressed(block(7), address);
        bad[23] = 0;
        let others = addressed(block(7), 5);
        folder.write(BAD, &addressed(sequence(&[others, bad]), 6));
        let what = "byte 23 is 0 and can only be 255";
        let said = format!("{fields}\nhint: {BAD}: record 2 (byte 48{words}): {what}\n");
        says(&folder, &["check", BAD], &said);
    }
}

/// Among others, after the house's name; and as JSON.
#[test]
fn of_a_house_beside_its_line() {
    let mut rng = Rng::new(4);
    let folder = folder();
    put(&folder, "all/a/tree.tab", block(7));
    for number in 2..=7 {
        let refused = Refused::random(&mut rng, number);
        put(&folder, "all/b/tree.tab", &refused.table);
        let said = refused.said("all/b/tree.tab");
        let (line, hint) = said.trim_end().split_once('\n').expect("two lines");
        let written = ends(folder.command().args(["quotes", "all"]), 1);
        assert_eq!(
            written.output,
            format!("a: figure 7 branch 255\nb: {line}\n")
        );
        assert_eq!(written.error, format!("b: {hint}\n"));
        let written = ends(folder.command().args(["quote", "all/b", "--json"]), 1);
        let json: serde_json::Value = serde_json::from_str(&written.output).expect("JSON");
        assert_eq!(json["hint"], hint.trim_start_matches("hint: "));
    }
}

/// Of two refused trees the host is named, and the hint is of its table.
#[test]
fn of_a_graft_the_refused_tree() {
    let mut rng = Rng::new(2);
    let folder = folder();
    for number in 2..=7 {
        let [host, sent] = [number, 9 - number].map(|number| Refused::random(&mut rng, number));
        folder.write("host.tab", &host.table);
        folder.write("sent.tab", &sent.table);
        says(
            &folder,
            &graft("host.tab", "sent.tab"),
            &host.said("host.tab"),
        );
        says(
            &folder,
            &graft("sent.tab", "host.tab"),
            &sent.said("sent.tab"),
        );
    }
}

/// Texts are refused 5, 6 and 7 alone, beside 1: the other questions' faults have no text.
#[test]
fn of_a_text_its_line() {
    let mut rng = Rng::new(3);
    let folder = folder();
    folder.write(GOOD, &symbol_block(16));
    for round in 0..15 {
        let refused = Refused::random(&mut rng, 5 + round % 3);
        let (text, line) = refused.text(&mut rng);
        let said = refused.said_at(&format!("{BAD_TEXT}:{line}"));
        folder.write(BAD_TEXT, text.as_bytes());
        folder.write(TREE_TEXT, text.as_bytes());
        says(&folder, &["make", BAD_TEXT, "-o", OUT], &said);
        says(&folder, &["check", BAD_TEXT], &said);
        says(&folder, &["simplify", BAD_TEXT, "-o", OUT], &said);
        says(&folder, &graft(BAD_TEXT, GOOD), &said);
        says(&folder, &graft(GOOD, BAD_TEXT), &said);
        says(&folder, &fill(BAD_TEXT), &said);
        says(&folder, &open(BAD_TEXT), &said);
        let of_house = refused.said_at(&format!("./{TREE_TEXT}:{line}"));
        says(&folder, &["quote", "."], &of_house);
        says(&folder, &RETIME, &of_house);
        shows(&folder, BAD_TEXT, &said, refused.table.len() / RECORD_BYTES);
    }
}

// Lengths.

fn of_length(hint: &str) -> String {
    format!("{}\nhint: {hint}\n", Refusal::Length)
}

#[test]
fn of_a_length_its_bytes() {
    let folder = folder();
    let more = "more than 12288 bytes";
    for (bytes, has) in [
        (0, "0 bytes"),
        (16, "16 bytes"),
        (23, "23 bytes"),
        (25, "25 bytes"),
        (8_192, "8192 bytes"),
        (12_287, "12287 bytes"),
        (12_289, more),
        (12_312, more),
        (20_000, more),
    ] {
        folder.write(BAD, &vec![4; bytes]);
        folder.write(TREE, &vec![4; bytes]);
        let said = of_length(&format!("{BAD} has {has}"));
        says(&folder, &["check", BAD], &said);
        says(&folder, &["simplify", BAD, "-o", OUT], &said);
        says(&folder, &graft(BAD, BAD), &said);
        let of_house = of_length(&format!("./{TREE} has {has}"));
        says(&folder, &["quote", "."], &of_house);
        says(&folder, &["check", "."], &of_house);
    }
}

/// A former table is told as one, whether its length is that of a table too or not; one that was never accepted is not, nor is a text.
#[test]
fn of_a_former_table_what_makes_a_table_of_it() {
    let mut rng = Rng::new(5);
    let folder = folder();
    let is_former =
        "is a former table, with 16 bytes a record: `volefleece convert` makes a table of it";
    let mut refusals = [0; 2];
    for records in (1..=16).chain([511, 512]) {
        let tree = trees::within_limits(&mut rng, records);
        let former = tree.encode_former();
        let refusal = volefleece::check(&former).expect_err("a former table");
        refusals[refusal.number() as usize - 1] += 1;
        folder.write(BAD, &former);
        folder.write(TREE, &former);
        let said = format!("{refusal}\nhint: {BAD} {is_former}\n");
        says(&folder, &["check", BAD], &said);
        says(&folder, &["find", BAD, "0x0"], &said);
        let of_house = format!("{refusal}\nhint: ./{TREE} {is_former}\n");
        says(&folder, &["quote", "."], &of_house);
        let mut damaged = former.clone();
        damaged[0] = 9;
        folder.write(BAD, &damaged);
        let written = ends(folder.command().args(["check", BAD]), 1);
        assert!(!written.output.contains("former"), "{}", written.output);
    }
    // Every third length is that of a table too.
    assert_eq!(refusals, [13, 5]);
    // One that would be accepted still, if its symbol were not paired since, was accepted too.
    for (symbol, limit, is_told) in [(24, 0, true), (16, 255, false), (24, 255, false)] {
        let heavy = in_loops(
            8,
            1,
            limited(symbol_block(symbol), u32::from(limit > 0), limit),
        );
        let former = heavy
            .chunks_exact(RECORD_BYTES)
            .flat_map(|record| &record[..16]);
        folder.write(BAD, &former.copied().collect::<Vec<u8>>());
        let written = ends(folder.command().args(["check", BAD]), 1);
        let told = written
            .output
            .ends_with(&format!("\nhint: {BAD} {is_former}\n"));
        assert_eq!(told, is_told, "{}", written.output);
    }
}

#[test]
fn the_longest_table_is_read_whole() {
    let folder = folder();
    folder.write(TREE, &long(512));
    let accepted = "accepted\nrecords 512\ndepth 3\nsymbol 16 time-16\n";
    answers(&folder, &["check", TREE], accepted);
    answers(&folder, &["check", "."], accepted);
}

#[test]
fn of_no_tree_the_folder() {
    let folder = folder();
    folder.put_folder("house");
    let said = of_length("house has no tree.tab and no tree.txt");
    says(&folder, &["quote", "house"], &said);
    says(&folder, &["check", "house"], &said);
}

/// The line is that of the first node past the most.
#[test]
fn of_a_long_text_the_line_of_its_513th_node() {
    let folder = folder();
    for nodes in [513, 514] {
        let printed = print(&long(nodes), &Names::default());
        let header = printed
            .lines()
            .take_while(|line| !line.starts_with("sequence"));
        let header = header.count();
        // Three lines more before the nodes, and two between the first two of them.
        let text = format!("# One.\n# Two.\n# Three.\n{printed}");
        let text = text.replacen("sequence\n", "sequence\n\n# Words.\n", 1);
        let line = 3 + header + 2 + 513;
        folder.write(BAD_TEXT, text.as_bytes());
        let said =
            format!("{BAD_TEXT}:{line}: the text has {nodes} nodes, and a table has at most 512");
        says(&folder, &["check", BAD_TEXT], &of_length(&said));
        says(&folder, &["make", BAD_TEXT, "-o", OUT], &of_length(&said));
    }
}

// Values.

/// Each count is used, one of them as a triangular number, and all are larger than that one may be.
#[test]
fn of_question_13_the_triangular_symbol() {
    let folder = folder();
    for symbol in 0..16 {
        let plain = (0..16).filter(|&other| other != symbol);
        let mut children: Vec<_> = plain
            .map(|other| match other % 2 {
                0 => symbol_limited(block(0), other, 255),
                _ => symbol_repeat(other.into(), block(0), block(0)),
            })
            .collect();
        children.insert(7, triangular_limited(symbol_block(16), symbol, 255));
        folder.write(TREE, &sequence(&children));
        let values = (0..17).map(|symbol| 1_001 + symbol);
        folder.write(VALUES, &values_file(&values.collect::<Vec<_>>()));
        let said = format!(
            "{}\nhint: count-{symbol} is {}, and its triangular number is a limit\n",
            Refusal::TriangularNumber,
            1_001 + symbol
        );
        for command in ["quote", "list"] {
            says(&folder, &[command, "."], &said);
        }
        let set = format!("{symbol}=1000");
        ends(folder.command().args(["quote", ".", "--set", &set]), 0);
    }
}

/// Whichever pair it is, and whatever asks for the figure.
#[test]
fn of_question_14_both_numbers() {
    let folder = folder();
    folder.write(TREE, &block(7));
    for symbol in 24..32 {
        let mut values = vec![9; 40];
        (values[symbol], values[symbol + 8]) = (500, 501);
        folder.write(VALUES, &values_file(&values));
        let refusal = Refusal::LaterValue;
        let hint = format!(
            "hint: time-{symbol} is first 500 cycles, later 501 cycles, and later at most 500 is allowed"
        );
        for command in ["quote", "list", "contract"] {
            says(&folder, &[command, "."], &format!("{refusal}\n{hint}\n"));
        }
        let written = ends(folder.command().args(["quotes", "."]), 1);
        assert_eq!(written.output, format!(".: {refusal}\n"));
        assert_eq!(written.error, format!(".: {hint}\n"));
        let written = ends(folder.command().args(["quote", ".", "--json"]), 1);
        let json: serde_json::Value = serde_json::from_str(&written.output).expect("JSON");
        assert_eq!(json["refused"], 14);
        assert_eq!(json["hint"], hint.trim_start_matches("hint: "));
        values[symbol + 8] = 500;
        folder.write(VALUES, &values_file(&values));
        ends(folder.command().args(["quote", "."]), 0);
    }
}

// What a graft replaces.

#[test]
fn of_question_11_the_symbol_or_the_record_that_has_it() {
    let folder = folder();
    let host = "symbol 3 cards\nsymbol 16 radio\nsymbol 24 cipher\nsequence\n  block radio\n  block cipher\n";
    folder.write("host.txt", host.as_bytes());
    folder.write(GOOD, &block(7));
    let says_of = |symbol: &str, sent: &str, hint: &str| {
        let graft = ["graft", "host.txt", sent, "--symbol", symbol, "-o", OUT];
        let said = format!("{}\nhint: {hint}\n", Refusal::ReplacedSymbol);
        says(&folder, &graft, &said);
    };
    says_of("cards", GOOD, "cards is a count, and a time is replaced");
    says_of("15", GOOD, "count-15 is a count, and a time is replaced");
    let two = "has a first and a later value";
    let figure = "and a sent tree has one figure";
    says_of("cipher", GOOD, &format!("cipher {two}, {figure}"));
    for symbol in 25..32 {
        let hint = format!("time-{symbol} {two}, {figure}");
        says_of(&symbol.to_string(), GOOD, &hint);
    }
    // In the sent tree, the first block that is in the way.
    let own = addressed(symbol_block(16), 0x4a0);
    let children = [symbol_block(17), own, symbol_block(25), symbol_block(16)];
    folder.write(BAD, &sequence(&children));
    let place = format!("{BAD}: record 2 (byte 48, address 0x4a0)");
    says_of("radio", BAD, &format!("{place}: radio is what is replaced"));
    let place = format!("{BAD}: record 1 (byte 24)");
    says_of("17", BAD, &format!("{place}: time-17 is what is replaced"));
    let place = format!("{BAD}: record 3 (byte 72)");
    says_of("20", BAD, &format!("{place}: time-25 {two}"));
    let text = "symbol 24 code\n# Words.\nloop 3\n  body block code\n  exit block time-31\n";
    folder.write(BAD_TEXT, text.as_bytes());
    says_of("radio", BAD_TEXT, &format!("{BAD_TEXT}:4: code {two}"));
    says_of("cipher", BAD_TEXT, &format!("cipher {two}, {figure}"));
    // Paired symbols of the host are in nobody's way.
    let graft = ["graft", "host.txt", GOOD, "--symbol", "radio", "-o", OUT];
    ends(folder.command().args(graft), 0);
}

// The records of a refused table.

#[test]
fn a_refused_table_has_its_records_numbers_and_names() {
    let folder = house("house");
    let body = triangular_limited(symbol_block(16), 1, 1);
    let mut kind = addressed(block(7), 0x4a0);
    kind[0] = 9;
    let mut filler = block(7);
    filler[20] = 254;
    let exit = addressed(symbol_block(17), 0x4b0);
    let children = [symbol_repeat(0, addressed(body, 0x4a8), exit), kind, filler];
    let table = sequence(&children);
    folder.write(BAD, &table);
    let hint = hint::find(&table, Refusal::Fields).expect("a hint");
    let expected = format!(
        "# {}\n# hint: {BAD}: record 4 (byte 96, address 0x4a0): {}\n\
         sequence # record 0\n\
         \x20 loop cards # record 1\n\
         \x20   body block radio at most triangular retries per loop 1 address 0x4a8 # record 2\n\
         \x20   exit block time-17 address 0x4b0 # record 3\n\
         \x20 bytes 09 00 00 00 00 00 00 00 07 00 00 00 00 00 00 00 a0 04 00 00 ff ff ff ff # record 4\n\
         \x20 bytes 00 00 00 00 00 00 00 00 07 00 00 00 00 00 00 00 00 00 00 00 fe ff ff ff # record 5\n",
        Refusal::Fields,
        hint.what
    );
    let written = ends(folder.command().args(["show", BAD]), 1);
    assert_eq!(written.output, expected);
    folder.write(
        "other.txt",
        b"symbol 0 doors\nsymbol 1 tries\nsymbol 16 antenna\nsymbol 17 bolt\n",
    );
    let named = ["cards", "retries", "radio", "time-17"];
    let others = ["doors", "tries", "antenna", "bolt"];
    let renamed = named.iter().zip(others);
    let expected = renamed.fold(expected, |text, (name, other)| text.replace(name, other));
    let written = ends(
        folder.command().args(["show", BAD, "--names", "other.txt"]),
        1,
    );
    assert_eq!(written.output, expected);
}
