//! Which record shows why a table was refused: a hint for its reader, found apart from the library.

use std::ops::Range;

use volefleece::{ceiling, Refusal, FIRST_TIME, RECORD_BYTES, SYMBOLS};

use crate::table::{
    places, records, Amount, Ending, Kind, Node, Place, Record, Scope, BLOCK, FILLER, LOOP,
    MOST_LOOPS,
};
use crate::words::KINDS;

/// A record that shows what was refused, the first of them.
#[derive(Clone, Debug, PartialEq, Eq)]
pub struct Hint {
    /// Counted from 0.
    pub record: usize,
    /// What is wrong with it.
    pub what: String,
}

const MOST_DEPTH: usize = 32;
const MOST_WEIGHT: u64 = 255;

/// The hint for a table that the library refused so; none for a refusal that no one record shows.
pub fn find(table: &[u8], refusal: Refusal) -> Option<Hint> {
    let records = records(table);
    match refusal {
        Refusal::Fields => first(records.into_iter().map(field_fault)),
        Refusal::Numbers => {
            let nodes = records.into_iter().map(Record::node);
            first(nodes.map(|node| number_fault(node?)))
        }
        Refusal::Shape => shape_fault(&records),
        Refusal::Depth => first(places(&records).0.into_iter().map(depth_fault)),
        Refusal::NamedLoop => {
            let scopes = scopes(&records).into_iter();
            first(scopes.map(|(place, scope)| naming_fault(place, scope?)))
        }
        Refusal::Weight => weight_fault(&records),
        _ => None,
    }
}

/// The first record that has a fault, of what each has.
fn first(faults: impl Iterator<Item = Option<String>>) -> Option<Hint> {
    let mut faults = faults.enumerate();
    faults.find_map(|(record, fault)| fault.map(|what| Hint { record, what }))
}

/// Which field is not as listed, the first of them in the order of the bytes.
fn field_fault(record: Record) -> Option<String> {
    let Some(kind) = KINDS.get(usize::from(record.kind)) else {
        let kind = record.kind;
        return Some(format!(
            "kind {kind} is none of 0 block, 1 sequence, 2 choice, 3 loop"
        ));
    };
    flags_fault(record, kind)
        .or_else(|| children_fault(record, kind))
        .or_else(|| limit_fault(record))
        .or_else(|| {
            let value = record.value;
            let is_unused = !has_value(record) && value > 0;
            is_unused.then(|| format!("a {kind} has the value {value} and can only have 0"))
        })
        .or_else(|| filler_fault(record))
}

fn has_value(record: Record) -> bool {
    matches!(record.kind, BLOCK | LOOP)
}

fn flags_fault(record: Record, kind: &str) -> Option<String> {
    let flags = record.flags;
    let has = |flag| flags & flag != 0;
    if flags > 1 + 2 + 4 {
        Some(format!(
            "byte 1 is {flags}, which is no sum of the flags 1, 2 and 4"
        ))
    } else if has(1) && !has_value(record) {
        Some(format!(
            "a {kind} cannot have flag 1 (the value is a symbol)"
        ))
    } else if has(2) && record.names == 0 {
        Some("flag 2 (the limit is a symbol) stands without a limit (byte 3 is 0)".into())
    } else if has(4) && !has(2) {
        Some("flag 4 (the limit is triangular) stands without flag 2".into())
    } else {
        None
    }
}

fn children_fault(record: Record, kind: &str) -> Option<String> {
    let (allowed, are_allowed) = match record.kind {
        BLOCK => ("none", record.children == 0),
        LOOP => ("2, body and exit", record.children == 2),
        _ => ("1 to 255", record.children > 0),
    };
    let children = counted(record.children, "child", "children");
    (!are_allowed).then(|| format!("a {kind} has {children} and must have {allowed}"))
}

/// What is wrong with byte 3, or with a limit where that says that there is none.
fn limit_fault(record: Record) -> Option<String> {
    let (names, limit) = (record.names, record.limit);
    match names {
        0 if limit > 0 => Some(format!(
            "a limit of {limit} stands without a loop that it names (byte 3 is 0)"
        )),
        0..=MOST_LOOPS | 255 => None,
        _ => Some(format!(
            "byte 3 is {names}, which is none of 0 (no limit), 1 to 8 (a loop around) and 255 (the whole run)"
        )),
    }
}

/// Which of a record's last bytes is wrong, the first of them.
fn filler_fault(record: Record) -> Option<String> {
    let at = (0..FILLER.len()).find(|&at| record.filler[at] != FILLER[at])?;
    let (byte, found) = (RECORD_BYTES - FILLER.len() + at, record.filler[at]);
    let right = FILLER[at];
    Some(format!("byte {byte} is {found} and can only be {right}"))
}

/// Which number is out of range, the first of them in the order of the bytes.
fn number_fault(node: Node) -> Option<String> {
    let counts = 0..FIRST_TIME;
    let limit = node
        .limit
        .and_then(|limit| amount_fault("limit", limit.amount, &counts));
    limit.or_else(|| match node.kind {
        Kind::Block(time) => amount_fault("time", time, &(FIRST_TIME..SYMBOLS)),
        Kind::Loop(bound) => amount_fault("bound", bound, &counts),
        Kind::Sequence | Kind::Choice => None,
    })
}

/// What is wrong with a number that goes by that name, and may be one of those symbols or what these may stand for.
fn amount_fault(name: &str, amount: Amount, symbols: &Range<usize>) -> Option<String> {
    match amount {
        Amount::Plain(number) => {
            let most = ceiling(symbols.start);
            (number > most).then(|| format!("{name} {number} is above {most}"))
        }
        Amount::Symbol(symbol) | Amount::Triangular(symbol) => {
            let is = match usize::try_from(symbol) {
                Ok(allowed) if symbols.contains(&allowed) => return None,
                Ok(count) if count < FIRST_TIME => "is a count",
                Ok(time) if time < SYMBOLS => "is a time",
                _ => "does not exist",
            };
            let (least, most) = (symbols.start, symbols.end - 1);
            Some(format!(
                "{name} symbol {symbol} {is}, and a {name}'s symbol is one of {least} to {most}"
            ))
        }
    }
}

fn shape_fault(records: &[Record]) -> Option<Hint> {
    let (record, what) = match places(records).1 {
        Ending::Whole => return None,
        Ending::Before(record) => (record, "the tree ends before this record".into()),
        Ending::Wanting(record, missing) => {
            let children = records[record].children;
            let has = usize::from(children) - missing;
            let wanted = counted(children, "child", "children");
            let what = format!("wants {wanted} and has {has} when the table ends");
            (record, what)
        }
    };
    Some(Hint { record, what })
}

fn depth_fault(place: Place) -> Option<String> {
    let Place { depth, loops, .. } = place;
    if depth > MOST_DEPTH {
        Some(format!(
            "stands at depth {depth}, and {MOST_DEPTH} is the most"
        ))
    } else if loops > usize::from(MOST_LOOPS) {
        Some(format!(
            "has {loops} loops around it, and {MOST_LOOPS} is the most"
        ))
    } else {
        None
    }
}

/// Where each record stands and, if it has a limit, in what that counts.
fn scopes(records: &[Record]) -> Vec<(Place, Option<Scope>)> {
    let scope = |record: &Record| Some(record.node()?.limit?.scope);
    let places = places(records).0.into_iter();
    places.zip(records.iter().map(scope)).collect()
}

fn naming_fault(place: Place, scope: Scope) -> Option<String> {
    let loops = place.loops;
    match scope {
        Scope::Loop(number) if usize::from(number) > loops => Some(format!(
            "its limit names loop {number}, counted outward, and {} (a loop is around its body, not its exit)",
            match loops {
                0 => "no loop is around it".into(),
                1 => "1 loop is around it".into(),
                loops => format!("{loops} loops are around it"),
            }
        )),
        _ => None,
    }
}

/// Where limits and paired symbols, from the first record on, begin to weigh too much.
fn weight_fault(records: &[Record]) -> Option<Hint> {
    let mut sum = 0_u64;
    let places = places(records).0.into_iter();
    first(places.zip(records).map(|(place, record)| {
        let node = record.node()?;
        let limit = node.limit.map(|limit| weight(limit.scope, place));
        // As a limit in the whole run would, beside its own.
        let paired = node.paired_symbol().map(|_| weight(Scope::Run, place));
        for weight in limit.into_iter().chain(paired) {
            sum = sum.saturating_add(weight);
        }
        let words = match (limit, paired) {
            (None, None) => return None,
            (Some(limit), None) => format!("its limit weighs {limit} and brings"),
            (None, Some(paired)) => format!("its paired symbol weighs {paired} and brings"),
            (Some(limit), Some(paired)) => {
                format!("its limit weighs {limit}, its paired symbol {paired}, and both bring")
            }
        };
        (sum > MOST_WEIGHT)
            .then(|| format!("{words} the sum of weights to {sum}, above {MOST_WEIGHT}"))
    }))
}

/// What a limit weighs that counts in this.
fn weight(scope: Scope, place: Place) -> u64 {
    let inside = match scope {
        Scope::Loop(number) => u32::from(number) - 1,
        Scope::Run => u32::try_from(place.loops).expect("fewer than a table's records"),
    };
    2_u64.saturating_pow(inside)
}

fn counted(number: u8, one: &str, many: &str) -> String {
    format!("{number} {}", if number == 1 { one } else { many })
}
