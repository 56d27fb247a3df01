//! `volefleece check`, `list`, `simplify`, `graft`, `fill`, `open` and `retime` say what the library's calls answer, on random tables.

mod common;

use std::collections::BTreeSet;

use common::*;
use volefleece::{Members, Refusal};
use volefleece_tests::programs::{Folder, TREE, VALUES};
use volefleece_tests::rng::Rng;
use volefleece_tests::trees::{self, Amount, Kind, Tree};

const OUT: &str = "out.tab";
const MARKS: &str = "marks";

/// How often each answer, 0 or a refusal's number, was compared.
#[derive(Default)]
struct Answers([u64; 18]);

impl Answers {
    /// The command says this, and writes this file where there is one, or refuses as the call does and writes none.
    fn compare(
        &mut self,
        folder: &Folder,
        arguments: &[&str],
        answer: Result<(String, Option<&[u8]>), Refusal>,
    ) {
        let status = i32::from(answer.is_err());
        let said = ends(folder.command().args(arguments), status).output;
        let refused = answer.as_ref().err().map_or(0, |refusal| refusal.number());
        self.0[refused as usize] += 1;
        match answer {
            Ok((output, file)) => {
                assert_eq!(said, output);
                assert!(folder.read(OUT).as_deref() == file, "another file");
            }
            Err(refusal) => {
                let mut lines = said.lines();
                assert_eq!(lines.next(), Some(&refusal.to_string()[..]));
                if matches!(refusal, Refusal::FilledSymbol | Refusal::Marks) {
                    // Each of their clauses has a hint.
                    assert!(lines.next().is_some_and(|line| line.starts_with("hint: ")));
                }
                assert_eq!(folder.read(OUT), None);
            }
        }
    }

    fn assert_reached(&self, refusals: &[usize]) {
        let mut reached = refusals.iter().map(|&refusal| self.0[refusal]);
        assert!(reached.all(|times| times > 1), "{:?}", self.0);
    }
}

fn depth(tree: &Tree) -> usize {
    1 + tree.children.iter().map(depth).max().unwrap_or(0)
}

/// The symbols of a tree's values and limits.
fn symbols(tree: &Tree, found: &mut BTreeSet<u64>) {
    let value = match tree.kind {
        Kind::Block(amount) | Kind::Loop(amount) => Some(amount),
        Kind::Sequence | Kind::Choice => None,
    };
    for amount in value
        .into_iter()
        .chain(tree.limit.map(|limit| limit.amount))
    {
        if let Amount::Symbol(symbol) | Amount::Triangular(symbol) = amount {
            found.insert(symbol);
        }
    }
    tree.children.iter().for_each(|child| symbols(child, found));
}

#[test]
fn check_says_what_the_tree_has() {
    let mut rng = Rng::new(901);
    let folder = folder();
    for _ in 0..100 {
        let records = rng.size(1..=100);
        let tree = trees::within_limits(&mut rng, records);
        folder.write(TREE, &tree.encode());
        let mut found = BTreeSet::new();
        symbols(&tree, &mut found);
        let lines = found.iter().map(|symbol| match symbol {
            0..16 => format!("symbol {symbol} count-{symbol}\n"),
            16..24 => format!("symbol {symbol} time-{symbol}\n"),
            _ => format!("symbol {symbol} time-{symbol} (first and later)\n"),
        });
        let lines: String = lines.collect();
        let said = format!(
            "accepted\nrecords {records}\ndepth {}\n{lines}",
            depth(&tree)
        );
        answers(&folder, &["check", TREE], &said);
    }
}

#[test]
fn check_refuses_what_the_call_refuses() {
    let mut rng = Rng::new(902);
    let mut answers = Answers::default();
    let folder = folder();
    for _ in 0..200 {
        let table = random::table(&mut rng);
        folder.write(TREE, &table);
        if let Err(refusal) = volefleece::check(&table) {
            answers.compare(&folder, &["check", TREE], Err(refusal));
        } else {
            ends(folder.command().args(["check", TREE]), 0);
        }
    }
    answers.assert_reached(&[1, 2, 3, 4, 5, 6, 7]);
}

/// What a file of values says to the call; of a wrong length, nothing that it takes.
fn numbers(file: &[u8]) -> Vec<u64> {
    if file.len() > 320 || file.len() % 8 != 0 {
        return Vec::new();
    }
    let bytes = file.chunks(8);
    let numbers = bytes.map(|bytes| u64::from_le_bytes(bytes.try_into().expect("eight bytes")));
    all_values(&numbers.collect::<Vec<u64>>())
}

fn shown(members: &Members) -> String {
    match members.count {
        None => format!("{} for ever\n", members.value),
        Some(1) => format!("{} once\n", members.value),
        Some(count) => format!("{} {count} times\n", members.value),
    }
}

#[test]
fn list_says_what_the_call_answers() {
    let mut rng = Rng::new(903);
    let mut answers = Answers::default();
    let mut members = 0;
    for _ in 0..200 {
        let folder = folder();
        let table = random::table(&mut rng);
        folder.write(TREE, &table);
        let values = random::values(&mut rng);
        if let Some(values) = &values {
            folder.write(VALUES, values);
        }
        let list = volefleece::list(&table, &numbers(&values.unwrap_or_default()));
        members += list.as_ref().map_or(0, |list| list.len() - 1);
        let said = list.map(|list| (list.iter().map(shown).collect(), None));
        answers.compare(&folder, &["list", "."], said);
    }
    answers.assert_reached(&[0, 1, 2, 3, 4, 5, 6, 7, 9, 10, 13, 14]);
    assert!(members > 20, "{members}");
}

#[test]
fn simplify_writes_what_the_call_writes() {
    let mut rng = Rng::new(904);
    let mut answers = Answers::default();
    let (mut finished, mut spent) = (0, 0);
    for _ in 0..400 {
        let folder = folder();
        let mut table = random::table(&mut rng);
        if rng.once_in(2) {
            table = trees::redundant(&mut rng, 40).encode();
        }
        folder.write(TREE, &table);
        let steps = rng.pick(&[0, 1, 5, u64::MAX]);
        let simplified = volefleece::simplify(&table, steps);
        let said = simplified.as_ref().map(|made| {
            finished += u64::from(made.finished);
            spent += u64::from(!made.finished);
            let ending = if made.finished { "finished" } else { "spent" };
            let line = format!(
                "simplified {} steps {} {ending}\n",
                made.table.len(),
                made.steps
            );
            (line, Some(&made.table[..]))
        });
        let steps = steps.to_string();
        let mut arguments = vec!["simplify", TREE, "-o", OUT];
        if steps != u64::MAX.to_string() {
            arguments.extend(["--steps", &steps]);
        }
        answers.compare(&folder, &arguments, said.map_err(|&refusal| refusal));
    }
    answers.assert_reached(&[0, 1, 2, 3, 4, 5, 6, 7, 10]);
    assert!(finished > 10 && spent > 10, "{finished}, {spent}");
}

/// Gives the blocks that have a paired symbol another one.
fn unpair(table: &mut [u8]) {
    let records = table.chunks_exact_mut(24);
    let blocks = records.filter(|record| record[0] == 0 && record[1] & 1 > 0);
    for block in blocks.filter(|block| (24..32).contains(&block[8])) {
        block[8] -= 8;
    }
}

#[test]
fn graft_writes_what_the_call_writes() {
    let mut rng = Rng::new(905);
    let mut answers = Answers::default();
    let mut grown = 0;
    for round in 0..300 {
        let folder = folder();
        let mut tables = [random::accepted(&mut rng), random::accepted(&mut rng)];
        match rng.index(6) {
            0 => tables = [random::table(&mut rng), random::table(&mut rng)],
            1 => tables[rng.index(2)] = random::table(&mut rng),
            _ => {}
        }
        // As a supplier would send it, most often.
        if !rng.once_in(4) {
            unpair(&mut tables[1]);
        }
        // Near the longest, so that some are too long.
        if round % 10 == 0 {
            tables[1] = trees::without_limits(&mut rng, 500).encode();
        }
        folder.write(TREE, &tables[0]);
        folder.write("sent.tab", &tables[1]);
        let symbol = rng.within(14..=25);
        let grafted = volefleece::graft(&tables[0], &tables[1], symbol);
        grown += u64::from(
            grafted
                .as_ref()
                .is_ok_and(|table| table.len() > tables[0].len()),
        );
        let said = grafted.as_ref().map(|table| {
            let line = format!("grafted {}\n", table.len());
            (line, Some(&table[..]))
        });
        let symbol = symbol.to_string();
        let arguments = ["graft", TREE, "sent.tab", "--symbol", &symbol, "-o", OUT];
        answers.compare(&folder, &arguments, said.map_err(|&refusal| refusal));
    }
    answers.assert_reached(&[0, 1, 2, 3, 4, 5, 6, 7, 11, 12]);
    assert!(grown > 10, "{grown}");
}

/// A symbol, most often one that the table has, and a number, rarely out of range.
fn symbol_and_number(rng: &mut Rng, table: &[u8]) -> (u64, u64) {
    let mut symbols = vec![0, 16, 23];
    for record in table.chunks_exact(24) {
        let has = |flag| record[1] & flag != 0;
        symbols.extend(has(1).then_some(u64::from(record[8])));
        symbols.extend(has(2).then_some(u64::from(record[4])));
    }
    let symbol = match rng.index(10) {
        0 => rng.pick(&[24, 31, 32, u64::MAX]),
        _ => rng.pick(&symbols),
    };
    let number = match rng.index(8) {
        0 => rng.pick(&[1_000_000, 1_000_001, 1_000_000_000_001, u64::MAX]),
        _ => rng.within(0..=50),
    };
    (symbol, number)
}

#[test]
fn fill_writes_what_the_call_writes() {
    let mut rng = Rng::new(906);
    let mut answers = Answers::default();
    let mut marked = 0;
    for _ in 0..400 {
        let folder = folder();
        let table = random::table(&mut rng);
        folder.write(TREE, &table);
        let (symbol, number) = symbol_and_number(&mut rng, &table);
        let filled = volefleece::fill(&table, symbol, number);
        let said = filled.as_ref().map(|filled| {
            let marks: u32 = filled.marks.iter().map(|byte| byte.count_ones()).sum();
            marked += marks;
            let line = format!("filled {} marked {marks}\n", filled.table.len());
            (line, Some(&filled.table[..]))
        });
        let set = format!("{symbol}={number}");
        let arguments = ["fill", TREE, "--set", &set, "-o", OUT, "--marks", MARKS];
        answers.compare(&folder, &arguments, said.map_err(|&refusal| refusal));
        let marks = filled.ok().map(|filled| filled.marks.to_vec());
        assert!(folder.read(MARKS) == marks, "other marks");
    }
    answers.assert_reached(&[0, 1, 2, 3, 4, 5, 6, 7, 15]);
    assert!(marked > 50, "{marked}");
}

/// Of filled tables with their own marks, with some bits turned, and with others; and of tables that were never filled.
#[test]
fn open_writes_what_the_call_writes() {
    let mut rng = Rng::new(907);
    let mut answers = Answers::default();
    let mut returned = 0;
    for _ in 0..400 {
        let folder = folder();
        let lent = random::table(&mut rng);
        let (symbol, number) = symbol_and_number(&mut rng, &lent);
        let filled = volefleece::fill(&lent, symbol, number);
        let (mut table, mut marks) = match &filled {
            Ok(filled) => (filled.table.clone(), filled.marks.to_vec()),
            Err(_) => (lent.clone(), vec![0; 128]),
        };
        match rng.index(8) {
            0 => marks[rng.index(128)] ^= 1 << rng.index(8),
            1 => marks[rng.index(4)] ^= 1 << rng.index(8),
            2 => marks.resize(rng.pick(&[0, 64, 127, 129, 256]), 0),
            3 => table.clone_from(&lent),
            _ => {}
        }
        folder.write(TREE, &table);
        folder.write(MARKS, &marks);
        let opened = volefleece::open(&table, &marks, symbol, number);
        returned += u64::from(opened.as_ref() == Ok(&lent) && table != lent);
        let said = opened.as_ref().map(|opened| {
            let marks: u32 = marks.iter().map(|byte| byte.count_ones()).sum();
            let line = format!("opened {} marked {marks}\n", opened.len());
            (line, Some(&opened[..]))
        });
        let set = format!("{symbol}={number}");
        let arguments = ["open", TREE, "--marks", MARKS, "--set", &set, "-o", OUT];
        answers.compare(&folder, &arguments, said.map_err(|&refusal| refusal));
    }
    answers.assert_reached(&[0, 1, 2, 3, 4, 5, 6, 7, 15, 16]);
    assert!(returned > 10, "{returned}");
}

/// A record, most often of a plain block, with its time and a new one; at times any record, another time or one out of range.
fn retiming(rng: &mut Rng, table: &[u8]) -> [u64; 3] {
    let time = |record: usize| {
        let time = table[24 * record + 8..][..8].try_into();
        u64::from_le_bytes(time.expect("eight bytes"))
    };
    let records = 0..table.len() / 24;
    let plain: Vec<usize> = records
        .filter(|record| table[24 * record..][..2] == [0, 0])
        .collect();
    let (record, from) = match rng.index(8) {
        1.. if !plain.is_empty() => {
            let record = rng.pick(&plain);
            (record as u64, time(record))
        }
        _ => (rng.within(0..=70), rng.within(0..=50)),
    };
    let to = match rng.index(8) {
        0 => rng.pick(&[1_000_000_000_001, u64::MAX]),
        1..=3 => rng.pick(&[from, 1_000_000_000_000]),
        _ => rng.within(0..=10_000_000),
    };
    [record, from, to]
}

/// The quote's lines of a figure and its branch.
fn quoted(folder: &Folder) -> Option<[String; 2]> {
    let output = folder.command().args(["quote", "."]).output();
    let said = String::from_utf8(output.expect("it runs").stdout).expect("text");
    let mut lines = said.lines().skip(1).map(String::from);
    Some([lines.next()?, lines.next()?])
}

/// The call's figures, and the lines that `quote` has before and after what is written; of a refusal its line, and the table as it was.
#[test]
fn retime_says_what_the_calls_answer() {
    let mut rng = Rng::new(908);
    let mut reached = Answers::default();
    let (mut moved, mut new_alone) = (0, 0);
    for _ in 0..600 {
        let folder = folder();
        let table = random::table(&mut rng);
        let values = random::values(&mut rng);
        folder.write(TREE, &table);
        if let Some(values) = &values {
            folder.write(VALUES, values);
        }
        let values = numbers(&values.unwrap_or_default());
        let [record, from, to] = retiming(&mut rng, &table);
        let preview = volefleece::preview(&table, record, from, to, &values);
        let numbers = [record, from, to].map(|number| number.to_string());
        let mut arguments = vec!["retime", ".", "--record", &numbers[0]];
        arguments.extend(["--from", &numbers[1], "--to", &numbers[2]]);
        let status = i32::from(preview.is_err());
        let before = quoted(&folder);
        let said = ends(folder.command().args(&arguments), status).output;
        assert_eq!(folder.read(TREE).as_ref(), Some(&table));
        arguments.push("--commit");
        let committed = ends(folder.command().args(&arguments), status).output;
        let refused = preview.as_ref().err().map_or(0, |refusal| refusal.number());
        reached.0[refused as usize] += 1;
        let preview = match preview {
            Err(refusal) => {
                assert_eq!(said.lines().next(), Some(&refusal.to_string()[..]));
                let hint = said.lines().nth(1);
                if refused > 8 {
                    assert!(hint.is_some_and(|line| line.starts_with("hint: ")));
                }
                let is_new = volefleece::figure(&table, &values).is_ok();
                let names_new = said.contains("\nhint: the tree with the new time: ");
                assert_eq!(names_new, refused == 10 && is_new, "{said}");
                new_alone += u64::from(names_new);
                assert_eq!(committed, said);
                assert_eq!(folder.read(TREE), Some(table));
                continue;
            }
            Ok(preview) => preview,
        };
        let mut expected = table.clone();
        volefleece::commit(&mut expected, record, from, to).expect("a table");
        assert_eq!(committed, format!("{said}committed {}\n", table.len()));
        assert_eq!(folder.read(TREE), Some(expected));
        let lines: Vec<&str> = said.lines().collect();
        let start = format!("record {record} from {from} to {to} cycles (block {from}");
        assert!(lines[1].starts_with(&start), "{said}");
        let (old, new) = (preview.before.figure, preview.after.figure);
        let difference = i128::from(new) - i128::from(old);
        let figures = [
            format!("figure before {old} cycles"),
            format!("figure after {new} cycles"),
            format!("difference {difference:+} cycles"),
        ];
        assert_eq!(lines[2..5], figures);
        for (word, quoted, at) in [("before", before, 2), ("after", quoted(&folder), 3)] {
            let [figure, branch] = quoted.expect("a quote");
            let told = format!("{word} ");
            assert_eq!(lines[at].replace(&told, ""), figure);
            assert_eq!(lines[at + 3].replacen(&told, "", 1), branch);
        }
        moved += u64::from(difference != 0);
    }
    reached.assert_reached(&[0, 1, 2, 3, 4, 5, 6, 7, 9, 10, 13, 14, 17]);
    assert!(moved > 10 && new_alone > 5, "{moved} {new_alone}");
}
