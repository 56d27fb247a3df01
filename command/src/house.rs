//! A house: a folder with a tree, counts and names.

use std::io::{self, BufRead, IsTerminal, Write};
use std::path::Path;

use volefleece::{ceiling, Quote, Refusal, FIRST_PAIRED, MOST_TRIANGULAR, SYMBOLS};

use crate::counts::Counts;
use crate::failure::{note, Failure, Outcome};
use crate::files;
use crate::names::class;
use crate::table::{self, is_paired, Amount, Kind, Node};
use crate::text::digits;
use crate::tree::{self, read_names, Tree};
use crate::words::{on_one_line, unaddressed_words, unit, value_words};

const TABLE: &str = "values.tab";
const TEXT: &str = "values.txt";

/// A folder with one of these files is a house.
pub const FILES: [&str; 4] = [tree::TABLE, tree::TEXT, TABLE, TEXT];

/// A house as its folder has it, with what the caller sets.
#[derive(Clone, Debug)]
pub struct House {
    pub tree: Tree,
    pub counts: Counts,
    /// What the house is called: by its names, or as its folder.
    pub title: String,
}

/// A number that is set for a symbol, as `cards=40`, or both of a paired one, as `radio=90000,40000`.
#[derive(Clone, Debug)]
pub struct Setting {
    pub name: String,
    pub value: String,
}

impl std::str::FromStr for Setting {
    type Err = &'static str;

    fn from_str(text: &str) -> Result<Self, Self::Err> {
        let (name, value) = text
            .split_once('=')
            .ok_or("expected NAME=NUMBER, as cards=40")?;
        Ok(Setting {
            name: name.trim().into(),
            value: value.trim().into(),
        })
    }
}

impl House {
    /// The house of a folder. Its names come from the file that is named, or else from names.txt there.
    pub fn read(folder: &Path, names: Option<&Path>) -> Outcome<Self> {
        let house = "a house, which is a folder with its tree, values and names";
        files::expect_folder(folder, house)?;
        if let Err(error) = std::fs::read_dir(folder) {
            return Err(Failure::file(folder, &error));
        }
        let mut tree = Tree::read_from(folder, read_names(names, folder)?)?;
        let counts = read_counts(folder, &mut tree)?;
        let title = title(folder, &tree);
        Ok(House {
            tree,
            counts,
            title,
        })
    }

    /// Sets a symbol, by its name or its number, and answers which.
    pub fn set(&mut self, setting: &Setting) -> Outcome<usize> {
        let Setting { name, value } = setting;
        let wrong = |why: String| Failure::Problem(format!("--set {name}={value}: {why}"));
        let symbol = self.tree.names.find_or_number(name).map_err(wrong)?;
        let (first, later) = numbers(symbol, value).map_err(wrong)?;
        self.counts.set(symbol, first, later);
        Ok(symbol)
    }

    /// What a symbol is, its name, and what it counts.
    pub fn count_line(&self, symbol: usize) -> String {
        let (class, name) = (class(symbol), self.tree.names.symbol(symbol));
        format!("{class} {name} {}", value_words(symbol, &self.counts))
    }

    /// The same of each symbol that the tree uses, a line each.
    pub fn count_lines(&self, nodes: &[Node]) -> String {
        let symbols = table::symbols(nodes).into_iter();
        symbols
            .map(|symbol| format!("{}\n", self.count_line(symbol)))
            .collect()
    }

    /// Says which of these symbols, that were set, the tree has no use for.
    pub fn note_unused(&self, nodes: &[Node], set: &[usize]) {
        let used = table::symbols(nodes);
        for &symbol in set.iter().filter(|symbol| !used.contains(symbol)) {
            let name = self.tree.names.symbol(symbol);
            note(&format!("{name} is set, and this tree does not use it"));
        }
    }

    /// Drops the branches' names where they name a child that the root choice has not: they are another tree's. Says so.
    pub fn drop_wrong_branches(&mut self, nodes: &[Node]) -> Option<String> {
        let last = self.tree.names.last_branch()?;
        let children = match nodes[0].kind {
            Kind::Choice => usize::from(nodes[0].children),
            _ => 0,
        };
        if last < children {
            return None;
        }
        self.tree.names = self.tree.names.without_branches();
        Some(format!(
            "branch {last} has a name, and no choice at the root has such a child: branches go without names"
        ))
    }

    /// Asks for the values that the tree uses and nothing gives, on a terminal; elsewhere says that they count high.
    pub fn complete(&mut self, nodes: &[Node], ask: bool) -> Outcome {
        for symbol in self.absent(nodes) {
            let name = self.tree.names.symbol(symbol);
            if ask && io::stdin().is_terminal() && io::stderr().is_terminal() {
                let (first, later) = ask_for(&name, symbol, most(symbol, nodes))?;
                self.counts.set(symbol, first, later);
            } else {
                note(&not_given(&name, symbol));
            }
        }
        Ok(())
    }

    /// The symbols that the tree uses and nothing gives; none where the values are refused whatever these are given.
    pub fn absent(&self, nodes: &[Node]) -> Vec<usize> {
        if self.counts.refusal().is_some() {
            return Vec::new();
        }
        let mut symbols = table::symbols(nodes);
        symbols.retain(|&symbol| self.counts.given(symbol).is_none());
        symbols
    }

    /// The figure and its branch, or why there is none.
    pub fn quote(&self) -> Outcome<Quote> {
        volefleece::figure(&self.tree.table, &self.counts.lent())
            .map_err(|refusal| self.refused(refusal))
    }

    /// A refusal of this house's tree and counts, with what a reader may look at first.
    pub fn refused(&self, refusal: Refusal) -> Failure {
        let hint = match refusal {
            Refusal::Values | Refusal::LaterValue => self.counts.fault(refusal, &self.tree.names),
            Refusal::TriangularNumber => self.wrong_triangular(),
            Refusal::Ceiling => Some(self.too_large()),
            _ => return self.tree.refused(refusal),
        };
        Failure::Refused { refusal, hint }
    }

    /// What makes a quote too large: what is not given, if the library quotes the tree without it.
    fn too_large(&self) -> String {
        let absent = self.absent(&table::nodes(&self.tree.table));
        let mut low = self.counts.clone();
        absent.iter().for_each(|&symbol| low.set(symbol, 0, None));
        if volefleece::figure(&self.tree.table, &low.lent()).is_err() {
            return self.tree.too_large("these values");
        }
        let names: Vec<String> = absent
            .iter()
            .map(|&symbol| self.tree.names.symbol(symbol))
            .collect();
        format!(
            "what is not given counts high; give a value to {}",
            names.join(", ")
        )
    }

    fn wrong_triangular(&self) -> Option<String> {
        let nodes = table::nodes(&self.tree.table);
        let values = self.counts.values();
        let symbol = table::symbols(&nodes)
            .into_iter()
            .find(|&symbol| values[symbol] > most(symbol, &nodes))?;
        let name = self.tree.names.symbol(symbol);
        Some(format!(
            "{name} is {}, and its triangular number is a limit",
            values[symbol]
        ))
    }

    /// The branch that sets a quote of this house, by its name and its child's words.
    pub fn branch_words(&self, branch: Option<u8>) -> String {
        let Some(branch) = branch else {
            return "none (no choice at the root)".into();
        };
        let child = format!("child {branch} of the choice at the root");
        match self.branch_said(branch) {
            (Some(name), words) => format!("{name} ({child}: {words})"),
            (None, words) => format!("{words} ({child})"),
        }
    }

    /// The branch by its child's name, if it has one, and by the child's own words: names may be of another tree.
    pub fn branch_said(&self, branch: u8) -> (Option<&str>, String) {
        let child = usize::from(branch);
        let records = table::records(&self.tree.table);
        let (places, _) = table::places(&records);
        let at = places
            .iter()
            .position(|place| place.parent == Some((0, child)));
        let node = at
            .and_then(|at| records[at].node())
            .expect("a child of the root");
        let names = &self.tree.names;
        (names.branch(child), unaddressed_words(&node, names))
    }
}

/// A folder's values.tab or values.txt, or both, where they say the same; neither gives none.
fn read_counts(folder: &Path, tree: &mut Tree) -> Outcome<Counts> {
    let text = folder.join(TEXT);
    let table = files::read_if_there(&folder.join(TABLE), Counts::MOST_BYTES)?;
    let table = table.map(|bytes| Counts::from_bytes(&bytes));
    let from_text = files::read_text_if_there(&text)?;
    let from_text = from_text
        .map(|read| Counts::from_text(&text, &read, &mut tree.names))
        .transpose()?;
    match (table, from_text) {
        (Some(table), Some(counts)) if table.lent() != counts.lent() => Err(Failure::Problem(format!(
            "{}: {TABLE} and {TEXT} hold different values: remove one, or make {TABLE} from {TEXT} by `volefleece values make`",
            folder.display()
        ))),
        (_, Some(counts)) | (Some(counts), None) => Ok(counts),
        (None, None) => Ok(Counts::default()),
    }
}

fn title(folder: &Path, tree: &Tree) -> String {
    let name = || {
        let path = folder
            .canonicalize()
            .unwrap_or_else(|_| folder.to_path_buf());
        let name = path.file_name().unwrap_or(path.as_os_str());
        on_one_line(&name.to_string_lossy())
    };
    tree.names.house().map_or_else(name, String::from)
}

/// The largest value of a symbol in this tree: one whose triangular number is a limit has a lower ceiling.
fn most(symbol: usize, nodes: &[Node]) -> u64 {
    let triangular = Some(Amount::Triangular(symbol as u64));
    let limits = nodes
        .iter()
        .map(|node| node.limit.map(|limit| limit.amount));
    if limits.into_iter().any(|amount| amount == triangular) {
        MOST_TRIANGULAR
    } else {
        ceiling(symbol)
    }
}

/// What is said of a value that is not given.
pub fn not_given(name: &str, symbol: usize) -> String {
    format!("{name} is not given and counts {}", ceiling(symbol))
}

/// The number that a setting has for a symbol, and the later one where it has both, or what was expected.
fn numbers(symbol: usize, value: &str) -> Result<(u64, Option<u64>), String> {
    let most = ceiling(symbol);
    let (first, later) = match value.split_once(',') {
        None => (value, None),
        Some((first, later)) => (first.trim(), Some(later.trim())),
    };
    if !is_paired(symbol) && later.is_some() {
        let (least, most) = (FIRST_PAIRED, SYMBOLS - 1);
        return Err(format!(
            "expected one number: symbols {least} to {most} alone have a later one"
        ));
    }
    let both = match is_paired(symbol) {
        false => "",
        true => ", or a first and a later one, as 90000,40000",
    };
    let expected = || format!("expected a number from 0 to {most}{both}");
    // The zeros of 90,000 are no later number: it would be read as 90, then 0.
    let later_digits = |later: &str| {
        let has_zeros = later.len() > 1 && later.starts_with('0');
        digits(later, most).filter(|_| !has_zeros)
    };
    let first = digits(first, most).ok_or_else(expected)?;
    let later = later.map(|later| later_digits(later).ok_or_else(expected));
    Ok((first, later.transpose()?))
}

/// Asks for a symbol's number; for a paired one's first, then for its later one, which is the first where none is typed.
fn ask_for(name: &str, symbol: usize, most: u64) -> Outcome<(u64, Option<u64>)> {
    let unit = unit(symbol);
    let paired = is_paired(symbol);
    let first = if paired { " first" } else { "" };
    let prompt = format!("{name}{first} (0 to {most}{unit}): ");
    let please = format!("a number from 0 to {most}, please");
    let first = ask(name, &prompt, &please, |line| digits(line, most))?;
    if !paired {
        return Ok((first, None));
    }
    let prompt = format!("{name} later (0 to {first}{unit}, {first} if nothing is typed): ");
    let please = format!("a number from 0 to {first}, please: later is at most the first");
    let later = ask(name, &prompt, &please, |line| match line {
        "" => Some(None),
        line => digits(line, first).map(Some),
    })?;
    Ok((first, later))
}

/// Asks until a line is typed that can be read so. Whole lines are read, so that the terminal itself tells the end of input and an interrupt.
fn ask<T>(name: &str, prompt: &str, please: &str, read: impl Fn(&str) -> Option<T>) -> Outcome<T> {
    let mut input = io::stdin().lock();
    loop {
        let _ = write!(io::stderr(), "{prompt}");
        let mut line = Vec::new();
        let got = input.read_until(b'\n', &mut line);
        if got.is_err() || line.is_empty() {
            note("");
            let message = format!("{name}: no number was typed; --set {name}=NUMBER gives one");
            return Err(Failure::Problem(message));
        }
        match read(String::from_utf8_lossy(&line).trim()) {
            Some(typed) => return Ok(typed),
            None => note(please),
        }
    }
}
