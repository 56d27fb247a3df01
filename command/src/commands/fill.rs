//! `volefleece fill` and `open`: a number in place of a symbol throughout a tree, and the symbol back again by the marks of where it stood.

use std::fs;
use std::path::Path;

use volefleece::{ceiling, Refusal, FIRST_PAIRED, FIRST_TIME, MARK_BYTES, SYMBOLS};

use crate::cli::{Fill, Open, Source};
use crate::failure::{note, Failure, Outcome};
use crate::files;
use crate::house::{self, Setting};
use crate::marks::{marked, Field};
use crate::names::{class, Names};
use crate::table::{self, is_paired, Amount, Kind, Node};
use crate::text::digits;
use crate::tree::{self, Tree};
use crate::words::{amount_words, counted, kind_word, TWO_VALUES};

/// The marks are replaced first. What is ended between the two leaves the tree open, also where OUT is the tree itself, and filling it again
/// mends all.
pub fn fill(arguments: &Fill) -> Outcome<String> {
    let (marks, output) = (&arguments.marks, &arguments.output);
    expect_marks_apart(marks, &arguments.source)?;
    let asked = Asked::read(&arguments.source, &arguments.setting)?;
    let filled = volefleece::fill(&asked.tree.table, asked.symbol, asked.number);
    let filled = filled.map_err(|refusal| asked.refused(refusal))?;
    let fields = marked(&filled.marks).count();
    if fields == 0 {
        let unused = format!("{} is set, and this tree does not use it", asked.name());
        expect_no_marks_at(marks, &unused)?;
        note(&format!(
            "{unused}: it is written as it is, and nothing is marked"
        ));
    }
    let said = format!("filled {} marked {fields}", filled.table.len());
    let contents = Tree::from_answer(filled.table, asked.tree.names).contents(output);
    files::replace_both([(marks, &filled.marks), (output, &contents)], said)
}

pub fn open(arguments: &Open) -> Outcome<String> {
    let (path, output) = (&arguments.marks, &arguments.output);
    files::expect_bytes_at(path)?;
    if files::is_same(path, output) {
        let message = "the tree would take the place of the marks";
        return Err(Failure::Problem(format!("{}: {message}", output.display())));
    }
    let asked = Asked::read(&arguments.source, &arguments.setting)?;
    let marks = files::read(path, MARK_BYTES)?;
    let opened = volefleece::open(&asked.tree.table, &marks, asked.symbol, asked.number);
    let opened = opened.map_err(|refusal| match refusal {
        Refusal::Marks => Failure::Refused {
            refusal,
            hint: asked.marks_fault(path, &marks),
        },
        refusal => asked.refused(refusal),
    })?;
    let fields = marked(&marks).count();
    if fields == 0 {
        let file = path.display();
        note(&format!(
            "{file} marks nothing: the tree is written as it is"
        ));
    }
    let said = format!("opened {} marked {fields}", opened.len());
    Tree::from_answer(opened, asked.tree.names).write(output, said)
}

/// Refuses to write marks in place of what is read, or of any house's tree or values by their names.
fn expect_marks_apart(marks: &Path, source: &Source) -> Outcome {
    files::expect_bytes_at(marks)?;
    let in_folder = [tree::TABLE, tree::TEXT].map(|name| source.tree.join(name));
    let read = [&source.tree].into_iter().chain(&in_folder);
    let mut read = read.chain(&source.names);
    let is_houses = house::FILES.iter().any(|name| marks.ends_with(name));
    if !is_houses && !read.any(|read| files::is_same(marks, read)) {
        return Ok(());
    }
    let message =
        "marks would take a tree's place or that of its values or names; give them another name";
    Err(Failure::Problem(format!("{}: {message}", marks.display())))
}

/// Refuses to replace marks by none. A tree that is filled in its own place has the symbol no more, and is lost open without its marks: so
/// filling it a second time, perhaps after a kill, must leave them.
fn expect_no_marks_at(path: &Path, unused: &str) -> Outcome {
    let is_file = fs::metadata(path).is_ok_and(|found| found.is_file());
    if !is_file || files::read(path, MARK_BYTES)?.iter().all(|&byte| byte == 0) {
        return Ok(());
    }
    let file = path.display();
    Err(Failure::Problem(format!(
        "{file}: {unused}: what is there, perhaps its marks, would be lost"
    )))
}

/// A tree, and the symbol and number that are set for it.
struct Asked {
    tree: Tree,
    symbol: u64,
    number: u64,
}

impl Asked {
    fn read(source: &Source, setting: &Setting) -> Outcome<Self> {
        let tree = Tree::read(&source.tree, source.names.as_deref())?;
        let Setting { name, value } = setting;
        let (symbol, number) = numbers(setting, &tree.names)
            .map_err(|why| Failure::Problem(format!("--set {name}={value}: {why}")))?;
        Ok(Asked {
            tree,
            symbol,
            number,
        })
    }

    fn name(&self) -> String {
        self.tree.names.symbol(place(self.symbol))
    }

    /// A refusal of the tree, or of the symbol and its number, with what a reader may look at first.
    fn refused(&self, refusal: Refusal) -> Failure {
        match refusal {
            Refusal::FilledSymbol => Failure::Refused {
                refusal,
                hint: self.symbol_fault(),
            },
            refusal => self.tree.refused(refusal),
        }
    }

    /// What question 15 says no to: the symbol itself, the first record that has it under flag 4, or the number.
    fn symbol_fault(&self) -> Option<String> {
        let (symbol, number, name) = (place(self.symbol), self.number, self.name());
        if symbol >= SYMBOLS {
            let (symbol, last) = (self.symbol, SYMBOLS - 1);
            return Some(format!("there is no symbol {symbol}: the last is {last}"));
        }
        if is_paired(symbol) {
            return Some(format!("{name} {TWO_VALUES}, and one number is put"));
        }
        let triangular = Some(Amount::Triangular(self.symbol));
        let nodes = table::nodes(&self.tree.table);
        let limit = |node: &Node| node.limit.map(|limit| limit.amount);
        if let Some(record) = nodes.iter().position(|node| limit(node) == triangular) {
            let place = self.tree.place(record);
            return Some(format!(
                "{place}: its limit is triangular {name}, and a plain number is put"
            ));
        }
        let most = ceiling(symbol);
        (number > most).then(|| format!("{name} is {number}, and at most {most} is allowed"))
    }

    /// What question 16 says no to: the length, or the first mark that stands wrong.
    fn marks_fault(&self, path: &Path, marks: &[u8]) -> Option<String> {
        let file = path.display();
        if marks.len() != MARK_BYTES {
            let length = match marks.len() {
                length if length > MARK_BYTES => format!("more than {MARK_BYTES}"),
                length => length.to_string(),
            };
            return Some(format!(
                "{file} has {length} bytes, and marks have {MARK_BYTES}"
            ));
        }
        let nodes = table::nodes(&self.tree.table);
        let records = counted(nodes.len(), "record");
        marked(marks).find_map(|(record, field)| match nodes.get(record) {
            None => Some(format!(
                "{file} marks record {record}, and the tree has {records}, from 0 on"
            )),
            Some(node) => {
                let what = self.mark_fault(node, field)?;
                Some(format!("{}: {what}", self.tree.place(record)))
            }
        })
    }

    /// What is wrong with a mark on that field of a node.
    fn mark_fault(&self, node: &Node, field: Field) -> Option<String> {
        let (word, amount) = match field {
            Field::Value => (value_word(node.kind), node.value()),
            Field::Limit => ("limit", node.limit.map(|limit| limit.amount)),
        };
        let Some(amount) = amount else {
            let kind = kind_word(node.kind);
            return Some(format!("its {word} is marked, and this {kind} has none"));
        };
        // A block's time is the one field for times.
        let is_for_time = matches!((field, node.kind), (Field::Value, Kind::Block(_)));
        let symbol = place(self.symbol);
        let why = match amount {
            _ if is_for_time != (symbol >= FIRST_TIME) => {
                format!("{} is a {}", self.name(), class(symbol))
            }
            Amount::Plain(found) if found == self.number => return None,
            Amount::Plain(_) => format!("is not {}", self.number),
            Amount::Symbol(_) | Amount::Triangular(_) => "is no plain number".into(),
        };
        let words = amount_words(amount, &self.tree.names);
        Some(format!("its {word} {words} is marked, and {why}"))
    }
}

/// The symbol and the number that are set, or what was expected. Whether there is such a symbol, and what it may stand for, is the library's
/// to say.
fn numbers(setting: &Setting, names: &Names) -> Result<(u64, u64), String> {
    let Setting { name, value } = setting;
    let symbol = match digits(name, u64::MAX) {
        Some(symbol) => symbol,
        None => names.find_or_number(name)? as u64,
    };
    let most = ceiling(place(symbol));
    let number = digits(value, u64::MAX).ok_or_else(|| match value.contains(',') {
        false => format!("expected a number from 0 to {most}"),
        true => format!(
            "expected one number from 0 to {most}: symbols {FIRST_PAIRED} to {} alone have a later one, and cannot be filled",
            SYMBOLS - 1
        ),
    })?;
    Ok((symbol, number))
}

/// A symbol's place among the symbols, past their end where it is none.
fn place(symbol: u64) -> usize {
    usize::try_from(symbol).unwrap_or(usize::MAX)
}

/// What a kind's value is called.
fn value_word(kind: Kind) -> &'static str {
    match kind {
        Kind::Block(_) => "time",
        Kind::Loop(_) => "bound",
        Kind::Sequence | Kind::Choice => "value",
    }
}
