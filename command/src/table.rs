//! A table's records as nodes, and where each stands in the tree. This reads and writes the format; whether a table is accepted is the
//! library's to say.

use std::iter::successors;

use volefleece::RECORD_BYTES;

pub const BLOCK: u8 = 0;
pub const SEQUENCE: u8 = 1;
pub const CHOICE: u8 = 2;
pub const LOOP: u8 = 3;

const VALUE_IS_SYMBOL: u8 = 1;
const LIMIT_IS_SYMBOL: u8 = 2;
const LIMIT_IS_TRIANGULAR: u8 = 4;
const NO_LIMIT: u8 = 0;
const WHOLE_RUN: u8 = 255;
/// The last bytes of every record.
pub const FILLER: [u8; 4] = [255; 4];

/// The most loops that a limit can count outward.
pub const MOST_LOOPS: u8 = 8;

/// A record's fields, whatever they hold.
#[derive(Clone, Copy, Debug, PartialEq, Eq)]
pub struct Record {
    pub kind: u8,
    pub flags: u8,
    pub children: u8,
    /// Byte 3, the loop that the limit names.
    pub names: u8,
    pub limit: u32,
    pub value: u64,
    pub address: u32,
    pub filler: [u8; 4],
}

/// A time, a bound or a limit.
#[derive(Clone, Copy, Debug, PartialEq, Eq)]
pub enum Amount {
    Plain(u64),
    Symbol(u64),
    /// The triangular number of a symbol, which limits alone may be.
    Triangular(u64),
}

#[derive(Clone, Copy, Debug, PartialEq, Eq)]
pub enum Kind {
    Block(Amount),
    Sequence,
    Choice,
    Loop(Amount),
}

impl Kind {
    /// Byte 0 of its record.
    pub fn number(self) -> u8 {
        match self {
            Kind::Block(_) => BLOCK,
            Kind::Sequence => SEQUENCE,
            Kind::Choice => CHOICE,
            Kind::Loop(_) => LOOP,
        }
    }
}

/// In what a limit counts passes.
#[derive(Clone, Copy, Debug, PartialEq, Eq)]
pub enum Scope {
    /// A pass of that loop around the node, counted outward from 1.
    Loop(u8),
    Run,
}

#[derive(Clone, Copy, Debug, PartialEq, Eq)]
pub struct Limit {
    pub amount: Amount,
    pub scope: Scope,
}

/// A record whose fields are as question 2 wants them. Its numbers may be out of range.
#[derive(Clone, Copy, Debug, PartialEq, Eq)]
pub struct Node {
    pub kind: Kind,
    pub children: u8,
    pub limit: Option<Limit>,
    /// Where it stands in the firmware, or 0.
    pub address: u32,
}

/// The records of a table; what is left at its end and is no whole record is no part of them.
pub fn records(table: &[u8]) -> Vec<Record> {
    table.chunks_exact(RECORD_BYTES).map(Record::read).collect()
}

/// The nodes of a table that the library accepts.
pub fn nodes(table: &[u8]) -> Vec<Node> {
    let records = records(table).into_iter();
    records
        .map(|record| record.node().expect("an accepted table's record"))
        .collect()
}

impl Record {
    fn read(bytes: &[u8]) -> Self {
        let four = |at: usize| bytes[at..at + 4].try_into().expect("four bytes");
        let [kind, flags, children, names] = four(0);
        Record {
            kind,
            flags,
            children,
            names,
            limit: u32::from_le_bytes(four(4)),
            value: u64::from_le_bytes(bytes[8..16].try_into().expect("eight bytes")),
            address: u32::from_le_bytes(four(16)),
            filler: four(20),
        }
    }

    pub fn bytes(self) -> [u8; RECORD_BYTES] {
        let mut bytes = [0; RECORD_BYTES];
        bytes[..4].copy_from_slice(&[self.kind, self.flags, self.children, self.names]);
        bytes[4..8].copy_from_slice(&self.limit.to_le_bytes());
        bytes[8..16].copy_from_slice(&self.value.to_le_bytes());
        bytes[16..20].copy_from_slice(&self.address.to_le_bytes());
        bytes[20..].copy_from_slice(&self.filler);
        bytes
    }

    /// The node with these fields, where they are a node's: exactly where it has these bytes again.
    pub fn node(self) -> Option<Node> {
        let value = match self.flags & VALUE_IS_SYMBOL {
            0 => Amount::Plain(self.value),
            _ => Amount::Symbol(self.value),
        };
        let kind = match self.kind {
            BLOCK => Kind::Block(value),
            SEQUENCE => Kind::Sequence,
            CHOICE => Kind::Choice,
            LOOP => Kind::Loop(value),
            _ => return None,
        };
        let node = Node {
            kind,
            children: self.children,
            limit: self.limit()?,
            address: self.address,
        };
        (node.has_its_children() && node.record() == self).then_some(node)
    }

    /// The limit, if byte 3 says what it names or that there is none.
    fn limit(self) -> Option<Option<Limit>> {
        let number = u64::from(self.limit);
        let amount = match self.flags & (LIMIT_IS_SYMBOL | LIMIT_IS_TRIANGULAR) {
            0 => Amount::Plain(number),
            LIMIT_IS_SYMBOL => Amount::Symbol(number),
            _ => Amount::Triangular(number),
        };
        let scope = match self.names {
            NO_LIMIT => return Some(None),
            WHOLE_RUN => Scope::Run,
            1..=MOST_LOOPS => Scope::Loop(self.names),
            _ => return None,
        };
        Some(Some(Limit { amount, scope }))
    }
}

impl Node {
    /// A node that has as yet no children, and neither limit nor address.
    pub fn new(kind: Kind) -> Self {
        Node {
            kind,
            children: 0,
            limit: None,
            address: 0,
        }
    }

    fn has_its_children(self) -> bool {
        match self.kind {
            Kind::Block(_) => self.children == 0,
            Kind::Sequence | Kind::Choice => self.children > 0,
            Kind::Loop(_) => self.children == 2,
        }
    }

    /// The value, where the kind has one.
    pub fn value(self) -> Option<Amount> {
        match self.kind {
            Kind::Block(value) | Kind::Loop(value) => Some(value),
            Kind::Sequence | Kind::Choice => None,
        }
    }

    /// The record of this node. A limit does not exceed its field.
    pub fn record(self) -> Record {
        let (value, value_flags) = self.value().map_or((0, 0), |amount| match amount {
            Amount::Plain(number) => (number, 0),
            Amount::Symbol(symbol) | Amount::Triangular(symbol) => (symbol, VALUE_IS_SYMBOL),
        });
        let (limit, limit_flags) = self.limit.map_or((0, 0), |limit| match limit.amount {
            Amount::Plain(number) => (number, 0),
            Amount::Symbol(symbol) => (symbol, LIMIT_IS_SYMBOL),
            Amount::Triangular(symbol) => (symbol, LIMIT_IS_SYMBOL | LIMIT_IS_TRIANGULAR),
        });
        Record {
            kind: self.kind.number(),
            flags: value_flags | limit_flags,
            children: self.children,
            names: match self.limit.map(|limit| limit.scope) {
                None => NO_LIMIT,
                Some(Scope::Loop(number)) => number,
                Some(Scope::Run) => WHOLE_RUN,
            },
            limit: u32::try_from(limit).expect("a limit that fits its field"),
            value,
            address: self.address,
            filler: FILLER,
        }
    }

    /// The symbol of a block that has a first and a later value.
    pub fn paired_symbol(self) -> Option<usize> {
        match self.kind {
            Kind::Block(Amount::Symbol(symbol)) => usize::try_from(symbol)
                .ok()
                .filter(|&symbol| is_paired(symbol)),
            _ => None,
        }
    }

    /// The symbols that the node has, as its value and as its limit.
    pub fn symbols(self) -> impl Iterator<Item = usize> {
        let limit = self.limit.map(|limit| limit.amount);
        [self.value(), limit]
            .into_iter()
            .flatten()
            .filter_map(|amount| match amount {
                Amount::Plain(_) => None,
                Amount::Symbol(symbol) | Amount::Triangular(symbol) => usize::try_from(symbol).ok(),
            })
    }
}

/// Where a record stands.
#[derive(Clone, Copy, Debug, PartialEq, Eq)]
pub struct Place {
    /// The record of the node that this one is a child of, and which of its children it is, counted from 0; none for the root.
    pub parent: Option<(usize, usize)>,
    /// The root's is 1.
    pub depth: usize,
    /// How many loops are around the node: those whose bodies hold it.
    pub loops: usize,
}

/// How the records end, as a tree.
#[derive(Clone, Copy, Debug, PartialEq, Eq)]
pub enum Ending {
    Whole,
    /// The tree ends before that record.
    Before(usize),
    /// The table ends while that record, the innermost such, still wants so many children.
    Wanting(usize, usize),
}

/// Where each record of the tree at the table's front stands, and how it ends.
pub fn places(records: &[Record]) -> (Vec<Place>, Ending) {
    let mut places: Vec<Place> = Vec::with_capacity(records.len());
    // The records that want children still, the innermost last, each with how many it has.
    let mut open: Vec<(usize, usize)> = Vec::new();
    for at in 0..records.len() {
        let place = match open.last_mut() {
            None if at > 0 => return (places, Ending::Before(at)),
            None => Place {
                parent: None,
                depth: 1,
                loops: 0,
            },
            Some((parent, children)) => {
                let is_body = records[*parent].kind == LOOP && *children == 0;
                let around = &places[*parent];
                let place = Place {
                    parent: Some((*parent, *children)),
                    depth: around.depth + 1,
                    loops: around.loops + usize::from(is_body),
                };
                *children += 1;
                place
            }
        };
        places.push(place);
        open.push((at, 0));
        while open
            .last()
            .is_some_and(|&(at, has)| has == usize::from(records[at].children))
        {
            open.pop();
        }
    }
    let ending = match open.last() {
        None if records.is_empty() => Ending::Before(0),
        None => Ending::Whole,
        Some(&(at, has)) => Ending::Wanting(at, usize::from(records[at].children) - has),
    };
    (places, ending)
}

/// The records from the root down to the parent of that one.
pub fn way_down(places: &[Place], record: usize) -> Vec<usize> {
    let parent = |record: &usize| places[*record].parent.map(|(parent, _)| parent);
    let mut way: Vec<usize> = successors(parent(&record), parent).collect();
    way.reverse();
    way
}

/// The symbols that nodes use, in order.
pub fn symbols(nodes: &[Node]) -> Vec<usize> {
    let mut symbols: Vec<usize> = nodes.iter().flat_map(|node| node.symbols()).collect();
    symbols.sort_unstable();
    symbols.dedup();
    symbols
}

/// Whether a symbol has a first and a later value.
pub fn is_paired(symbol: usize) -> bool {
    volefleece::later(symbol).is_some()
}

/// The paired symbols that nodes use, in order.
pub fn paired_symbols(nodes: &[Node]) -> Vec<usize> {
    let mut symbols = symbols(nodes);
    symbols.retain(|&symbol| is_paired(symbol));
    symbols
}

/// The records of a table with a plain time in place of each paired symbol, so that they weigh what they did before symbols were paired.
pub fn unpaired(table: &[u8]) -> Vec<u8> {
    let plain = |record: Record| match record.node() {
        Some(node) if node.paired_symbol().is_some() => {
            let kind = Kind::Block(Amount::Plain(0));
            Node { kind, ..node }.record().bytes()
        }
        _ => record.bytes(),
    };
    records(table).into_iter().flat_map(plain).collect()
}
