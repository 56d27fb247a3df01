//! What people call a tree's symbols, the children of its root choice and the house itself.

use std::collections::{BTreeMap, BTreeSet};

use volefleece::{FIRST_TIME, SYMBOLS};

use crate::text::{digits, no_utf8};

/// The names of one tree. A symbol without a name has a plain one, `count-3` or `time-16`.
#[derive(Clone, Debug, Default, PartialEq, Eq)]
pub struct Names {
    symbols: BTreeMap<usize, String>,
    branches: BTreeMap<usize, String>,
    house: Option<String>,
    /// Names of a text whose own lines are wrong.
    excused: BTreeSet<String>,
}

/// What a name is of.
#[derive(Clone, Copy, Debug, PartialEq, Eq)]
pub enum Named {
    Symbol(usize),
    /// A child of the root choice, counted from 0.
    Branch(usize),
    House,
}

/// The words that a text has a meaning for, which are no symbol's name.
const WORDS: [&str; 15] = [
    "address",
    "at",
    "block",
    "body",
    "branch",
    "choice",
    "exit",
    "house",
    "loop",
    "most",
    "per",
    "run",
    "sequence",
    "symbol",
    "triangular",
];

impl Names {
    /// Names something, if that has no other name.
    pub fn add(&mut self, named: Named, name: &str) -> Result<(), String> {
        if name.chars().any(char::is_control) {
            return Err(format!(
                "{name:?} is no name: it has signs that cannot be printed"
            ));
        }
        if let Some(fault) = no_utf8(name) {
            return Err(fault);
        }
        let old = match named {
            Named::Symbol(symbol) => {
                self.may_be_called(symbol, name)?;
                self.symbols.entry(symbol).or_insert_with(|| name.into())
            }
            Named::Branch(child) => self.branches.entry(child).or_insert_with(|| name.into()),
            Named::House => self.house.get_or_insert_with(|| name.into()),
        };
        if old == name {
            Ok(())
        } else {
            Err(format!("{} is called both {old} and {name}", shown(named)))
        }
    }

    fn may_be_called(&self, symbol: usize, name: &str) -> Result<(), String> {
        if !is_word(name) {
            return Err(format!(
                "\"{name}\" is no name: a letter comes first, then letters, digits, - and _"
            ));
        }
        if WORDS.contains(&name) {
            return Err(format!("\"{name}\" is a word of the text form and no name"));
        }
        match self.find(name) {
            Some(other) if other != symbol => {
                Err(format!("symbol {other} is called {name} already"))
            }
            _ => Ok(()),
        }
    }

    /// Remembers a name whose own line is wrong, unless it is none or a symbol has it.
    pub fn excuse(&mut self, name: &str) {
        if is_word(name) && !WORDS.contains(&name) && self.find(name).is_none() {
            self.excused.insert(name.into());
        }
    }

    /// Whether a name that is no symbol's would be one, were its own line not wrong.
    pub fn is_excused(&self, name: &str) -> bool {
        self.excused.contains(name)
    }

    /// Takes in what another tree calls these symbols, which must not contradict what they are called here.
    pub fn take(&mut self, other: &Names, symbols: &[usize]) -> Result<(), String> {
        let named = symbols
            .iter()
            .filter_map(|symbol| other.symbols.get_key_value(symbol));
        for (&symbol, name) in named {
            self.add(Named::Symbol(symbol), name)?;
        }
        Ok(())
    }

    /// The last child of the root choice that has a name.
    pub fn last_branch(&self) -> Option<usize> {
        self.branches.keys().next_back().copied()
    }

    pub fn without_branches(&self) -> Names {
        Names {
            branches: BTreeMap::new(),
            ..self.clone()
        }
    }

    pub fn symbol(&self, symbol: usize) -> String {
        self.symbols
            .get(&symbol)
            .cloned()
            .unwrap_or_else(|| plain_name(symbol))
    }

    pub fn branch(&self, child: usize) -> Option<&str> {
        self.branches.get(&child).map(String::as_str)
    }

    pub fn house(&self) -> Option<&str> {
        self.house.as_deref()
    }

    /// The symbol of that name, given or plain.
    pub fn find(&self, name: &str) -> Option<usize> {
        let given = self.symbols.iter().find(|(_, given)| *given == name);
        given
            .map(|(&symbol, _)| symbol)
            .or_else(|| by_plain_name(name))
    }

    /// The symbol of that number or name, or which names there are.
    pub fn find_or_number(&self, symbol: &str) -> Result<usize, String> {
        let number = digits(symbol, SYMBOLS as u64 - 1).map(|number| number as usize);
        let found = number.or_else(|| self.find(symbol));
        found.ok_or_else(|| {
            let names: Vec<&str> = self.symbols.values().map(String::as_str).collect();
            let names = match &names[..] {
                [] => "none has a name here, but each its number".into(),
                names => format!("names here: {}", names.join(", ")),
            };
            format!("no symbol is called {symbol} ({names})")
        })
    }

    /// The lines of a text's header: the house, these symbols and all others that have names, and the branches.
    pub fn header(&self, symbols: &[usize]) -> Vec<String> {
        let symbols: BTreeSet<usize> = symbols.iter().chain(self.symbols.keys()).copied().collect();
        let house = self.house.iter().map(|name| format!("house {name}"));
        let symbols = symbols
            .iter()
            .map(|&symbol| format!("symbol {symbol} {}", self.symbol(symbol)));
        let branches = self
            .branches
            .iter()
            .map(|(child, name)| format!("branch {child} {name}"));
        house.chain(symbols).chain(branches).collect()
    }
}

/// What a name is of, as a text's header says it.
pub fn shown(named: Named) -> String {
    match named {
        Named::Symbol(symbol) => format!("symbol {symbol}"),
        Named::Branch(child) => format!("branch {child}"),
        Named::House => "the house".into(),
    }
}

/// What a symbol stands for.
pub fn class(symbol: usize) -> &'static str {
    if symbol < FIRST_TIME {
        "count"
    } else {
        "time"
    }
}

fn plain_name(symbol: usize) -> String {
    format!("{}-{symbol}", class(symbol))
}

fn by_plain_name(name: &str) -> Option<usize> {
    let (_, number) = name.rsplit_once('-')?;
    let symbol = number.parse().ok().filter(|&symbol| symbol < SYMBOLS)?;
    (plain_name(symbol) == name).then_some(symbol)
}

fn is_word(name: &str) -> bool {
    let mut letters = name.chars();
    letters.next().is_some_and(char::is_alphabetic)
        && letters.all(|letter| letter.is_alphanumeric() || letter == '-' || letter == '_')
}
