//! docs/FORMAT.md against the library: every example on the page is put to the calls and programs that
//! it names and must answer what the page says, and so must both trees of every rule.

use std::ffi::OsStr;
use std::process::Command;
use volefleece::raw;
use volefleece_tests::compare::shown;
use volefleece_tests::notation;
use volefleece_tests::programs::{Folder, FORMER, NONE, TREE, VALUES};
use volefleece_tests::reader;
use volefleece_tests::simplifier;

const PAGE: &str = include_str!("../../docs/FORMAT.md");

const DESK: &str = "desk";
const SALES: &str = "sales";
const READDRESS: &str = "readdress";
const SIMPLE: &str = "simple.tab";
const MARKS: &str = "marks";

/// What is wrong with the page.
type Wrong = String;

// The page.

/// A fenced block, under the last heading before it.
#[derive(Clone)]
struct Example {
    heading: &'static str,
    /// Without remarks and blank ends.
    lines: Vec<String>,
}

/// The texts of the command, which its own tests read.
const TEXTS: [&str; 3] = ["names", "tree", "values"];

/// The page holds no other blocks.
fn examples() -> Vec<Example> {
    let mut examples = Vec::new();
    let mut heading = "";
    let mut lines = PAGE.lines();
    while let Some(line) = lines.next() {
        if line.starts_with('#') {
            heading = line.trim_start_matches('#').trim();
        } else if let Some(fence) = line.trim_start().strip_prefix("```") {
            let block = lines.by_ref().take_while(|line| *line != "```");
            let lines = block.map(without_remark).collect();
            if !TEXTS.contains(&fence) {
                assert_eq!(fence, "example", "under {heading}");
                examples.push(Example { heading, lines });
            }
        }
    }
    examples
}

fn without_remark(line: &str) -> String {
    line.split(';').next().unwrap_or(line).trim().to_string()
}

// Examples.

/// What an example may lend, by the names that it may have.
const LENT: [&str; 8] = ["table", "host", TREE, "sent", VALUES, SIMPLE, FORMER, MARKS];

#[derive(Default)]
struct Lent {
    /// The table, or a graft's host.
    table: Vec<u8>,
    sent: Vec<u8>,
    /// A table of 16-byte records.
    former: Vec<u8>,
    values_file: Vec<u8>,
    /// What a table is opened by.
    marks: Vec<u8>,
    /// What the last run of `sales` wrote.
    simple: Option<Vec<u8>>,
}

/// What a line of an example is.
enum Line<'t> {
    /// The name of bytes, and their tree where it is given.
    Name(&'t str, &'t str),
    /// Some of those bytes.
    Bytes(&'t str),
    /// A shell's command that writes files.
    Command(&'t str),
    /// A call and its answer.
    Call(&'t str, &'t str),
}

fn read(line: &str) -> Line<'_> {
    if let Some(command) = line.strip_prefix("$ ") {
        return Line::Command(command);
    }
    match line.split_once(':') {
        None => Line::Bytes(line),
        Some((name, tree)) if LENT.contains(&name) => Line::Name(name, tree.trim()),
        Some((call, answer)) => Line::Call(call, answer.trim()),
    }
}

fn run(example: &Example) -> Result<(), Wrong> {
    let mut lent = Lent::default();
    // What no call has been lent yet: bytes are on the page for a call.
    let mut unused = Vec::new();
    let mut lines = example.lines.iter().map(|line| read(line)).peekable();
    while let Some(line) = lines.next() {
        match line {
            Line::Name(name, tree) => {
                let mut written = Vec::new();
                while let Some(&Line::Bytes(line)) = lines.peek() {
                    written.push(line);
                    lines.next();
                }
                if unused.contains(&name) {
                    return Err(format!("no call has the first {name}"));
                }
                unused.push(name);
                lend(&mut lent, name, bytes(name, tree, &written)?)?;
            }
            Line::Bytes(line) => return Err(format!("bytes without a name: {line}")),
            Line::Command(command) => obey(&mut lent, command),
            Line::Call(call, said) => {
                unused.clear();
                put(&mut lent, call, said).map_err(|wrong| format!("{call}: {said}: {wrong}"))?;
            }
        }
    }
    unused.retain(|name| *name != SIMPLE);
    match unused.pop() {
        None => Ok(()),
        Some(name) => Err(format!("no call has the last {name}")),
    }
}

fn lend(lent: &mut Lent, name: &str, bytes: Vec<u8>) -> Result<(), Wrong> {
    match name {
        SIMPLE if lent.simple.as_ref() == Some(&bytes) => {}
        SIMPLE => return Err(format!("{SIMPLE} is {:?}", lent.simple)),
        VALUES => lent.values_file = bytes,
        FORMER => lent.former = bytes,
        MARKS => lent.marks = bytes,
        "sent" => lent.sent = bytes,
        _ => lent.table = bytes,
    }
    Ok(())
}

/// Runs the command where the desk program would run, and lends what it has written.
fn obey(lent: &mut Lent, command: &str) {
    let folder = Folder::new(DESK);
    let mut shell = Command::new("sh");
    shell.args(["-c", command]).current_dir(folder.path(""));
    assert!(shell.status().expect("a shell").success(), "{command}");
    lent.table = folder.read(TREE).unwrap_or_default();
    lent.values_file = folder.read(VALUES).unwrap_or_default();
}

/// Bytes given as a tree, as lines of bytes, or as both.
fn bytes(name: &str, tree: &str, lines: &[&str]) -> Result<Vec<u8>, Wrong> {
    let mut bytes = Vec::new();
    for line in lines {
        bytes.extend(hexadecimal(line)?);
    }
    if tree.is_empty() {
        return Ok(bytes);
    }
    let parsed = notation::tree(tree)?;
    let table = match name {
        FORMER => parsed.encode_former(),
        _ => parsed.encode(),
    };
    if lines.is_empty() || table == bytes {
        Ok(table)
    } else {
        Err(format!("{tree} is {}not {}", shown(&table), shown(&bytes)))
    }
}

/// `00 ff` or `8 x 00 ff`.
fn hexadecimal(line: &str) -> Result<Vec<u8>, Wrong> {
    let (times, digits) = match line.split_once(" x ") {
        Some((times, digits)) => (number(times)?, digits),
        None => (1, line),
    };
    let byte = |word: &str| match word.len() {
        2 => u8::from_str_radix(word, 16).map_err(|_| format!("{word} is no byte: {line}")),
        _ => Err(format!("{word} is no byte: {line}")),
    };
    let bytes: Result<Vec<u8>, Wrong> = digits.split_whitespace().map(byte).collect();
    Ok(bytes?.repeat(times as usize))
}

fn number(word: &str) -> Result<u64, Wrong> {
    word.parse().map_err(|_| format!("{word} is no number"))
}

// Calls.

/// What a call is lent besides tables.
struct Options {
    values: Vec<u64>,
    room: Option<usize>,
    marks_room: Option<usize>,
    allowance: Option<u64>,
}

impl Options {
    /// A buffer for a table.
    fn buffer(&self) -> Vec<u8> {
        vec![0; self.room.unwrap_or(12_288)]
    }
}

/// `value 0 is 40`, `39 values`, `room 511`, `marks room 127`, `allowance 1`.
fn options<'t>(words: impl Iterator<Item = &'t str>) -> Result<Options, Wrong> {
    let mut options = Options {
        values: vec![0; 40],
        room: None,
        marks_room: None,
        allowance: None,
    };
    for option in words {
        match option.split(' ').collect::<Vec<_>>()[..] {
            ["value", symbol, "is", value] => {
                options.values[number(symbol)? as usize] = number(value)?;
            }
            [count, "values"] => options.values.resize(number(count)? as usize, 0),
            ["room", room] => options.room = Some(number(room)? as usize),
            ["marks", "room", room] => options.marks_room = Some(number(room)? as usize),
            ["allowance", allowance] => options.allowance = Some(number(allowance)?),
            _ => return Err(format!("{option} is no option")),
        }
    }
    Ok(options)
}

/// Makes the call, which must answer what is said.
fn put(lent: &mut Lent, call: &str, said: &str) -> Result<(), Wrong> {
    let mut words = call.split(", ");
    let name = words.next().unwrap_or(call);
    let options = options(words)?;
    match name {
        "check" => same(said, check(lent)),
        "figure" => same(said, figure(lent, &options)),
        "list" => same(said, list(lent, &options)),
        "simplify" => simplify(lent, &options, said),
        "convert" => convert(lent, &options, said),
        DESK => same(said, desk(lent)),
        SALES => same(said, sales(lent, &options)),
        READDRESS => readdress(lent, said),
        _ => match name.split(' ').collect::<Vec<_>>()[..] {
            ["graft", symbol] => graft(lent, number(symbol)?, &options, said),
            ["fill", symbol, "with", with] => {
                fill(lent, number(symbol)?, number(with)?, &options, said)
            }
            ["open", symbol, "with", with] => {
                open(lent, number(symbol)?, number(with)?, &options, said)
            }
            [retiming @ ("preview" | "commit"), record, "from", old, "to", new] => {
                let numbers = [number(record)?, number(old)?, number(new)?];
                match retiming {
                    "preview" => same(said, preview(lent, numbers, &options)),
                    _ => commit(lent, numbers, said),
                }
            }
            _ => Err(format!("{name} is no call")),
        },
    }
}

fn same(said: &str, answer: String) -> Result<(), Wrong> {
    if said == answer {
        Ok(())
    } else {
        Err(format!("the answer is {answer}"))
    }
}

fn refused(question: u64) -> String {
    format!("refused {question}")
}

fn check(lent: &Lent) -> String {
    match raw::check(&lent.table) {
        raw::Checked {
            refused: 0,
            records,
        } => format!("accepted {records}"),
        answer => refused(answer.refused),
    }
}

fn figure(lent: &Lent, options: &Options) -> String {
    match raw::figure(&lent.table, &options.values) {
        raw::Figure {
            refused: 0,
            figure,
            branch,
        } => quoted(figure, branch),
        answer => refused(answer.refused),
    }
}

/// The figure, and its branch unless that is 255.
fn quoted(figure: u64, branch: u64) -> String {
    match branch {
        255 => figure.to_string(),
        _ => format!("{figure} branch {branch}"),
    }
}

fn list(lent: &Lent, options: &Options) -> String {
    let mut out = vec![0; options.room.unwrap_or(512)];
    let answer = raw::list(&lent.table, &options.values, &mut out);
    if answer.refused != 0 {
        return refused(answer.refused);
    }
    let pairs = out.chunks(2).take(answer.pairs as usize);
    let pairs = pairs.map(|pair| format!("{} {}", pair[0], pair[1]));
    pairs.collect::<Vec<_>>().join(", ")
}

/// Said is a refusal, or `steps 1 spent TREE`.
fn simplify(lent: &Lent, options: &Options, said: &str) -> Result<(), Wrong> {
    let mut out = options.buffer();
    let allowance = options.allowance.unwrap_or(u64::MAX);
    let answer = raw::simplify(&lent.table, allowance, &mut out);
    if answer.refused != 0 {
        return same(said, refused(answer.refused));
    }
    let ending = ["spent", "finished"][answer.finished as usize];
    let start = format!("steps {} {ending} ", answer.steps);
    let tree = said.strip_prefix(&start).ok_or(start)?;
    same_table(tree, &out[..answer.length as usize])
}

fn graft(lent: &Lent, symbol: u64, options: &Options, said: &str) -> Result<(), Wrong> {
    let mut out = options.buffer();
    let answer = raw::graft(&lent.table, &lent.sent, symbol, &mut out);
    same_written(said, answer.refused, &out[..answer.length as usize])
}

/// Said is a refusal, or `TREE marks 01 02` without the last bytes of 0, or `TREE marks none`.
fn fill(lent: &Lent, symbol: u64, with: u64, options: &Options, said: &str) -> Result<(), Wrong> {
    let mut out = options.buffer();
    let mut marks = vec![0; options.marks_room.unwrap_or(128)];
    let answer = raw::fill(&lent.table, symbol, with, &mut out, &mut marks);
    if answer.refused != 0 {
        return same(said, refused(answer.refused));
    }
    let end = marks.iter().rposition(|byte| *byte != 0);
    let written = match end {
        None => "none".to_string(),
        Some(end) => {
            let bytes = marks[..=end].iter().map(|byte| format!("{byte:02x}"));
            bytes.collect::<Vec<_>>().join(" ")
        }
    };
    let (tree, said) = said.split_once(" marks ").ok_or("no marks")?;
    same(said, written)?;
    same_table(tree, &out[..answer.length as usize])
}

fn open(lent: &Lent, symbol: u64, with: u64, options: &Options, said: &str) -> Result<(), Wrong> {
    let mut out = options.buffer();
    let answer = raw::open(&lent.table, &lent.marks, symbol, with, &mut out);
    same_written(said, answer.refused, &out[..answer.length as usize])
}

/// `7 branch 0, then 9 branch 1`.
fn preview(lent: &Lent, [record, old, new]: [u64; 3], options: &Options) -> String {
    let answer = raw::preview(&lent.table, record, old, new, &options.values);
    if answer.refused != 0 {
        return refused(answer.refused);
    }
    let before = quoted(answer.before, answer.branch_before);
    let after = quoted(answer.after, answer.branch_after);
    format!("{before}, then {after}")
}

/// Said is a refusal, or the tree that the table then has, which is what later calls are lent.
fn commit(lent: &mut Lent, [record, old, new]: [u64; 3], said: &str) -> Result<(), Wrong> {
    let answer = raw::commit(&mut lent.table, record, old, new);
    same_written(said, answer.refused, &lent.table[..answer.length as usize])
}

fn convert(lent: &Lent, options: &Options, said: &str) -> Result<(), Wrong> {
    let mut out = options.buffer();
    let answer = raw::convert(&lent.former, &mut out);
    same_written(said, answer.refused, &out[..answer.length as usize])
}

/// Said is a refusal, or the written tree.
fn same_written(said: &str, number: u64, written: &[u8]) -> Result<(), Wrong> {
    match number {
        0 => same_table(said, written),
        question => same(said, refused(question)),
    }
}

fn same_table(tree: &str, written: &[u8]) -> Result<(), Wrong> {
    if notation::tree(tree)?.encode() == written {
        Ok(())
    } else {
        Err(format!("written was {}", shown(written)))
    }
}

// Programs.

fn desk(lent: &Lent) -> String {
    let folder = Folder::with_tree(DESK, &lent.table);
    folder.write(VALUES, &lent.values_file);
    line(&folder, &NONE)
}

fn sales(lent: &mut Lent, options: &Options) -> String {
    let folder = Folder::with_tree(SALES, &lent.table);
    let arguments: Vec<String> = options.allowance.iter().map(u64::to_string).collect();
    let line = line(&folder, &arguments);
    lent.simple = folder.read(SIMPLE);
    line
}

/// Said is the tree of the file that the program writes, or `nothing`. It prints nothing either.
fn readdress(lent: &Lent, said: &str) -> Result<(), Wrong> {
    let folder = Folder::new(READDRESS);
    folder.write(FORMER, &lent.former);
    let written = folder.run(&NONE);
    assert_eq!(written.output + &written.error, "");
    match folder.read(TREE) {
        None => same(said, "nothing".into()),
        Some(table) => same_table(said, &table),
    }
}

/// The one line that the program prints there.
fn line<A: AsRef<OsStr>>(folder: &Folder, arguments: &[A]) -> String {
    let written = folder.run(arguments);
    assert_eq!(written.error, "");
    let line = written.output.strip_suffix('\n');
    line.expect("a line").to_string()
}

#[test]
fn every_example_answers_so() {
    for example in examples() {
        if let Err(wrong) = run(&example) {
            panic!("under {}: {wrong}", example.heading);
        }
    }
}

/// Each answer matters: with a digit more, or without its branch, the example is wrong.
#[test]
fn a_wrong_answer_shows() {
    let (mut changed, mut cut) = (0, 0);
    let shows = |example: &Example, at: usize, line: String| {
        let mut wrong = example.clone();
        wrong.lines[at] = line;
        assert!(run(&wrong).is_err(), "{}", wrong.lines[at]);
    };
    for example in examples() {
        for at in 0..example.lines.len() {
            if let Line::Call(call, said) = read(&example.lines[at]) {
                shows(&example, at, format!("{call}: {said}0"));
                changed += 1;
                for (branch, _) in said.match_indices(" branch ") {
                    shows(&example, at, format!("{call}: {}", &said[..branch]));
                    cut += 1;
                }
            }
        }
    }
    assert!(changed >= 60 && cut >= 10, "{changed}, {cut}");
}

#[test]
fn every_question_has_an_example() {
    let examples = examples();
    for question in 1..=17 {
        let start = format!("{question}. ");
        let refusal = format!(": {}", refused(question));
        let shows_it = examples.iter().any(|Example { heading, lines }| {
            heading.starts_with(&start) && lines.iter().any(|line| line.ends_with(&refusal))
        });
        assert!(shows_it, "question {question}");
    }
}

// Rules.

/// The numbered rules, each on one line.
fn rules() -> Vec<String> {
    let section = PAGE.split("### The nine rules\n").nth(1);
    let section = section.and_then(|text| text.split("\n#").next());
    let mut rules = Vec::new();
    for line in section.expect("the rules").lines() {
        if line.starts_with(|first: char| first.is_ascii_digit()) {
            rules.push(line.to_string());
        } else if let Some(rule) = rules.last_mut() {
            *rule = format!("{rule} {}", line.trim());
        }
    }
    rules
}

#[derive(Debug)]
enum Fate {
    /// One step makes this of it.
    Becomes(Vec<u8>),
    /// No rule fits.
    Stays,
}

/// Every table of a rule that becomes another or stays. Other tables there are none.
fn fates(rule: &str) -> Vec<(Vec<u8>, Fate)> {
    let encode = |text| match notation::tree(text) {
        Ok(tree) => tree.encode(),
        Err(wrong) => panic!("{rule}: {wrong}"),
    };
    // Every second part stands between backticks.
    let parts: Vec<&str> = rule.split('`').collect();
    let mut fates = Vec::new();
    let mut at = 1;
    while at < parts.len() {
        let before = encode(parts[at]);
        if parts[at + 1].trim() == "becomes" {
            fates.push((before, Fate::Becomes(encode(parts[at + 2]))));
            at += 4;
        } else {
            assert!(parts[at + 1].starts_with(" stays"), "{rule}");
            fates.push((before, Fate::Stays));
            at += 2;
        }
    }
    fates
}

/// What the simplifying call makes of the table with that allowance, and in how many steps.
fn steps(table: &[u8], allowance: u64) -> (u64, Vec<u8>) {
    let mut out = vec![0; table.len()];
    let answer = raw::simplify(table, allowance, &mut out);
    assert_eq!(answer.refused, 0, "{}", shown(table));
    out.truncate(answer.length as usize);
    (answer.steps, out)
}

/// The rule of the table's first step, by the second simplifier.
fn first_rule(table: &[u8]) -> Option<usize> {
    let tree = reader::check(table);
    simplifier::step(&mut tree.expect("an accepted table"))
}

#[test]
fn every_rule_takes_one_step() {
    let rules = rules();
    assert_eq!(rules.len(), 9);
    for (rule, text) in (1..).zip(&rules) {
        assert!(text.starts_with(&format!("{rule}. ")), "{text}");
        let mut fitted = 0;
        for (before, fate) in fates(text) {
            println!("{text}\n{}{fate:?}", shown(&before));
            match fate {
                Fate::Becomes(after) => {
                    assert_eq!(steps(&before, 1), (1, after));
                    assert_eq!(first_rule(&before), Some(rule));
                    fitted += 1;
                }
                Fate::Stays => assert_eq!(steps(&before, u64::MAX), (0, before)),
            }
        }
        assert!(fitted > 0, "{text}");
    }
}

// The notation.

#[test]
fn what_is_no_tree_is_told() {
    let wrong = [
        "",
        "7 8",
        "()",
        "(7",
        "7)",
        "C7",
        "C(7, 8)",
        "(7 | 8)",
        "X",
        "Y16",
        "-7",
        "loop",
        "loop 3 7",
        "loop 3 of",
        "7/1",
        "7/1@",
        "7/1@256",
        "T0",
        "loop T0 of 7",
        "7/T@1",
        "7/T-1@1",
        "7/X@1",
        "7/1@1/2@2",
        "{7/1@1}/2@2",
        "{7",
        "exit 7",
        "7 exit 8",
        "7[",
        "7[]",
        "7[4a0",
        "7[4a0 4b0]",
        "7[x]",
        "7[-1]",
        "7[100000000]",
        "7[4a0][4b0]",
        "{7[4a0]}[4b0]",
        "7[4a0]/2@1",
        "[4a0]",
    ];
    for text in wrong {
        assert!(notation::tree(text).is_err(), "{text}");
    }
}
