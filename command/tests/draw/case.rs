//! A tree, what its picture is drawn from, and what the picture should have of each node.

use std::ops::Range;

use super::picture::Picture;
use super::xml;
use volefleece_command::counts::Counts;
use volefleece_command::draw::svg;
use volefleece_command::names::Names;
use volefleece_tests::trees::{Amount, Kind, Tree};

/// A tree with what its picture is drawn from.
pub struct Case {
    pub tree: Tree,
    pub names: Names,
    pub counts: Option<Counts>,
    pub branch: Option<usize>,
}

/// A node of a tree as its picture should have it.
pub struct Expected<'t> {
    pub tree: &'t Tree,
    pub parent: Option<(usize, usize)>,
    pub depth: usize,
    /// Of its subtree.
    pub records: Range<usize>,
}

impl Case {
    pub fn plain(tree: Tree) -> Self {
        Case {
            tree,
            names: Names::default(),
            counts: None,
            branch: None,
        }
    }

    pub fn draw(&self) -> Picture {
        let table = self.tree.encode();
        assert_eq!(volefleece::check(&table), Ok(self.tree.records()));
        let svg = svg(&table, &self.names, self.counts.as_ref(), self.branch);
        Picture::read(&xml::parse(&svg).expect("well-formed XML"))
    }

    pub fn expected(&self) -> Vec<Expected<'_>> {
        let mut expected = Vec::new();
        expect(&self.tree, None, 1, &mut expected);
        expected
    }

    /// The records of the branch that should be marked.
    pub fn marked(&self) -> Range<usize> {
        let is_branch = |node: &&Expected| {
            let child = node.parent.filter(|&(parent, _)| parent == 0);
            self.tree.kind == Kind::Choice
                && child.is_some_and(|(_, child)| Some(child) == self.branch)
        };
        let expected = self.expected();
        let branch = expected.iter().find(is_branch);
        branch.map_or(0..0, |node| node.records.clone())
    }

    /// A node's words: its branch's, its own, its paired symbol's, its limit's and its address.
    pub fn words(&self, node: &Expected) -> String {
        let branch = match node.parent {
            Some((0, child)) if self.tree.kind == Kind::Choice => match self.names.branch(child) {
                Some(name) => format!("branch {child} {name}"),
                None if self.branch == Some(child) => format!("branch {child}"),
                None => String::new(),
            },
            _ => String::new(),
        };
        let kind = match node.tree.kind {
            Kind::Block(time) => format!("block {}", self.amount(time)),
            Kind::Sequence => "sequence".into(),
            Kind::Choice => "choice".into(),
            Kind::Loop(bound) => format!("loop {}", self.amount(bound)),
        };
        let pair = paired(node.tree).map_or(String::new(), |symbol| self.pair(symbol));
        let limit = node.tree.limit.map_or(String::new(), |limit| {
            let scope = match limit.names {
                255 => "run".into(),
                number => format!("loop {number}"),
            };
            format!("at most {} per {scope}", self.amount(limit.amount))
        });
        let address = match node.tree.address {
            0 => String::new(),
            address => format!("address 0x{address:x}"),
        };
        [branch, kind, pair, limit, address].join(" ")
    }

    /// What a paired symbol counts first and later.
    fn pair(&self, symbol: usize) -> String {
        let Some(counts) = &self.counts else {
            return "first and later".into();
        };
        match (counts.given(symbol), counts.given_later(symbol)) {
            (Some(first), Some(later)) => format!("first {first} cycles, later {later} cycles"),
            (Some(first), None) => {
                format!("first {first} cycles, later {first} cycles (as the first)")
            }
            (None, _) => {
                let most = "1000000000000 cycles";
                format!("first {most} (not given), later {most} (as the first)")
            }
        }
    }

    fn amount(&self, amount: Amount) -> String {
        match amount {
            Amount::Plain(number) => number.to_string(),
            Amount::Symbol(symbol) => self.names.symbol(symbol as usize),
            Amount::Triangular(symbol) => {
                format!("triangular {}", self.names.symbol(symbol as usize))
            }
        }
    }
}

/// The paired symbol of a block.
pub fn paired(tree: &Tree) -> Option<usize> {
    match tree.kind {
        Kind::Block(Amount::Symbol(symbol @ 24..)) => Some(symbol as usize),
        _ => None,
    }
}

fn expect<'t>(
    tree: &'t Tree,
    parent: Option<(usize, usize)>,
    depth: usize,
    expected: &mut Vec<Expected<'t>>,
) {
    let record = expected.len();
    expected.push(Expected {
        tree,
        parent,
        depth,
        records: record..record + tree.records(),
    });
    for (place, child) in tree.children.iter().enumerate() {
        expect(child, Some((record, place)), depth + 1, expected);
    }
}
