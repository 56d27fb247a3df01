//! A plain tree and its encoder. The type shuts out little: numbers may be out of range, and limits
//! may name anything.

mod addresses;
mod amounts;
mod pairs;
mod places;
mod random;
mod redundant;
mod sorts;
mod triangles;

use crate::format::*;
pub use amounts::Amounts;
pub use pairs::{lift_firsts, put_pairs, put_past_first, put_weights};
pub use places::{deepest_block, drop_symbol, put_symbol};
pub use random::{
    about_question_5, grow, loops_around, pad, put_limits, spine, within_limits, without_limits,
};
pub use redundant::{crowded, deepest, ending_in_loops, redundant};
pub use sorts::{of_amounts, of_any_sort};
pub use triangles::{drop_triangles, put_about_1000};

#[derive(Clone, Copy, Debug, PartialEq, Eq)]
pub enum Amount {
    Plain(u64),
    Symbol(u64),
    /// The triangular number of a symbol, which limits alone may be.
    Triangular(u64),
}

#[derive(Clone, Copy, Debug, PartialEq, Eq)]
pub struct Limit {
    /// Byte 3, never 0.
    pub names: u8,
    pub amount: Amount,
}

#[derive(Clone, Copy, Debug, PartialEq, Eq)]
pub enum Kind {
    Block(Amount),
    Sequence,
    Choice,
    Loop(Amount),
}

#[derive(Clone, Debug, PartialEq, Eq)]
pub struct Tree {
    pub kind: Kind,
    pub limit: Option<Limit>,
    pub address: u32,
    /// Of a loop: its body, then its exit.
    pub children: Vec<Tree>,
}

impl Tree {
    /// A node without a limit, at address 0.
    pub fn new(kind: Kind, children: Vec<Tree>) -> Self {
        Tree {
            kind,
            limit: None,
            address: 0,
            children,
        }
    }

    /// A block of a plain time.
    pub fn block(time: u64) -> Self {
        Tree::new(Kind::Block(Amount::Plain(time)), Vec::new())
    }

    /// A block whose time is a symbol.
    pub fn symbol_block(symbol: u64) -> Self {
        Tree::new(Kind::Block(Amount::Symbol(symbol)), Vec::new())
    }

    pub fn records(&self) -> usize {
        1 + self.children.iter().map(Tree::records).sum::<usize>()
    }

    /// The same tree without its limits.
    pub fn unlimited(&self) -> Tree {
        let mut tree = self.clone();
        tree.visit_mut(&mut |node| node.limit = None);
        tree
    }

    /// The node at a record, counted from 0.
    pub fn node_mut(&mut self, record: usize) -> &mut Tree {
        if record == 0 {
            return self;
        }
        let mut before = 1;
        for child in &mut self.children {
            let records = child.records();
            if record < before + records {
                return child.node_mut(record - before);
            }
            before += records;
        }
        panic!("the tree has no record {record} more");
    }

    pub fn encode(&self) -> Vec<u8> {
        let mut table = Vec::with_capacity(self.records() * RECORD_BYTES);
        self.visit(&mut |node| {
            table.extend(node.fields());
            table.extend(node.address.to_le_bytes());
            table.extend(FILLER);
        });
        table
    }

    /// The tree as a former table, which has no addresses.
    pub fn encode_former(&self) -> Vec<u8> {
        let mut table = Vec::with_capacity(self.records() * FORMER_RECORD_BYTES);
        self.visit(&mut |node| table.extend(node.fields()));
        table
    }

    /// Visits every node in the order of the records.
    fn visit(&self, visit: &mut impl FnMut(&Tree)) {
        visit(self);
        for child in &self.children {
            child.visit(visit);
        }
    }

    pub(crate) fn visit_mut(&mut self, visit: &mut impl FnMut(&mut Tree)) {
        visit(self);
        for child in &mut self.children {
            child.visit_mut(visit);
        }
    }

    /// The record's bytes before its address.
    fn fields(&self) -> [u8; FORMER_RECORD_BYTES] {
        let nothing = Amount::Plain(0);
        let (kind, value) = match self.kind {
            Kind::Block(time) => (BLOCK, time),
            Kind::Sequence => (SEQUENCE, nothing),
            Kind::Choice => (CHOICE, nothing),
            Kind::Loop(bound) => (LOOP, bound),
        };
        let (names, limit) = match self.limit {
            None => (NO_LIMIT, nothing),
            Some(limit) => (limit.names, limit.amount),
        };

        let mut fields = [0; FORMER_RECORD_BYTES];
        fields[0] = kind;
        fields[1] = value_flags(value) | limit_flags(limit);
        fields[2] = u8::try_from(self.children.len()).expect("at most 255 children");
        fields[3] = names;
        let limit = u32::try_from(number(limit)).expect("a limit of 32 bits");
        fields[4..8].copy_from_slice(&limit.to_le_bytes());
        fields[8..].copy_from_slice(&number(value).to_le_bytes());
        fields
    }
}

/// What the amount's field holds.
fn number(amount: Amount) -> u64 {
    match amount {
        Amount::Plain(number) | Amount::Symbol(number) | Amount::Triangular(number) => number,
    }
}

fn value_flags(value: Amount) -> u8 {
    match value {
        Amount::Plain(_) => 0,
        Amount::Symbol(_) => VALUE_IS_SYMBOL,
        Amount::Triangular(_) => panic!("no value is triangular"),
    }
}

fn limit_flags(limit: Amount) -> u8 {
    match limit {
        Amount::Plain(_) => 0,
        Amount::Symbol(_) => LIMIT_IS_SYMBOL,
        Amount::Triangular(_) => LIMIT_IS_SYMBOL | LIMIT_IS_TRIANGULAR,
    }
}
