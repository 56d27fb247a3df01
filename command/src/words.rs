//! The words for a node and for a symbol's value, the same wherever they are said.

use volefleece::FIRST_TIME;

use crate::counts::Counts;
use crate::names::Names;
use crate::table::{Amount, Kind, Limit, Node, Scope};

/// A node's line without what it is to its parent.
pub fn node_words(node: &Node, names: &Names) -> String {
    let words = unaddressed_words(node, names);
    match address_words(node.address) {
        None => words,
        Some(address) => format!("{words} {address}"),
    }
}

/// An address where there is one.
pub fn address_words(address: u32) -> Option<String> {
    (address != 0).then(|| format!("address {address:#x}"))
}

/// A node's line without its address either, for those who do not read the firmware.
pub fn unaddressed_words(node: &Node, names: &Names) -> String {
    let kind = kind_words(node.kind, names);
    match node.limit {
        None => kind,
        Some(limit) => format!("{kind} {}", limit_words(limit, names)),
    }
}

/// A kind with its value.
pub fn kind_words(kind: Kind, names: &Names) -> String {
    let word = kind_word(kind);
    match kind {
        Kind::Block(value) | Kind::Loop(value) => format!("{word} {}", amount_words(value, names)),
        Kind::Sequence | Kind::Choice => word.into(),
    }
}

/// The kinds by their numbers.
pub const KINDS: [&str; 4] = ["block", "sequence", "choice", "loop"];

pub fn kind_word(kind: Kind) -> &'static str {
    KINDS[usize::from(kind.number())]
}

pub fn limit_words(limit: Limit, names: &Names) -> String {
    let most = amount_words(limit.amount, names);
    match limit.scope {
        Scope::Run => format!("at most {most} per run"),
        Scope::Loop(number) => format!("at most {most} per loop {number}"),
    }
}

/// A time, a bound or a limit's number.
pub fn amount_words(amount: Amount, names: &Names) -> String {
    // A refused table may have symbols that there are not.
    let name = |symbol| names.symbol(usize::try_from(symbol).unwrap_or(usize::MAX));
    match amount {
        Amount::Plain(number) => number.to_string(),
        Amount::Symbol(symbol) => name(symbol),
        Amount::Triangular(symbol) => format!("triangular {}", name(symbol)),
    }
}

/// What is said of a paired symbol, or of a block that has it, where no values are given.
pub const PAIRED: &str = "first and later";

/// What is said of a paired symbol where one that is not was wanted.
pub const TWO_VALUES: &str = "has a first and a later value";

/// What a symbol counts, of a paired one first and later, and what of that nobody gives.
pub fn value_words(symbol: usize, counts: &Counts) -> String {
    let (value, unit) = (counts.values()[symbol], unit(symbol));
    let given = match counts.given(symbol) {
        Some(_) => "",
        None => " (not given)",
    };
    let value = format!("{value}{unit}{given}");
    let Some(later) = counts.later_value(symbol) else {
        return value;
    };
    let given = match counts.given_later(symbol) {
        Some(_) => "",
        None => " (as the first)",
    };
    format!("first {value}, later {later}{unit}{given}")
}

/// What stands behind a symbol's value.
pub fn unit(symbol: usize) -> &'static str {
    if symbol < FIRST_TIME {
        ""
    } else {
        " cycles"
    }
}

/// A folder's name without line ends and other signs that move what is printed.
pub fn on_one_line(name: &str) -> String {
    let sign = |sign: char| match sign {
        '\\' => "\\\\".into(),
        sign if sign.is_control() => sign.escape_debug().to_string(),
        sign => sign.to_string(),
    };
    name.chars().map(sign).collect()
}

/// A number of things.
pub fn counted(number: usize, thing: &str) -> String {
    let ending = if number == 1 { "" } else { "s" };
    format!("{number} {thing}{ending}")
}
