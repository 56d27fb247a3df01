//! What is measured: random tables that every call accepts.

use volefleece_tests::evaluator::{self, Quoted};
use volefleece_tests::format::{COUNT_SYMBOLS, MOST_CHILDREN, MOST_DEPTH, MOST_WEIGHT, WHOLE_RUN};
use volefleece_tests::rng::Rng;
use volefleece_tests::trees::{self, Amount, Amounts, Kind, Limit, Tree};

pub const SIZES: [usize; 4] = [64, 128, 256, 512];

/// What limits a tree has. None has flag 4, and none a paired symbol, but for the one kind each.
#[derive(Clone, Copy, PartialEq, Eq)]
pub enum Limits {
    None,
    /// On a few nodes.
    Few,
    /// On as many nodes as question 7 lets through.
    Many,
    /// The same, half of them triangular numbers.
    Triangular,
    /// In the run, on as many blocks as question 7 lets through, without loops: long lists.
    Long,
    /// The same with the blocks side by side, so that every child is joined to a long list.
    Flat,
    /// None, but paired symbols on as many blocks as question 7 lets through.
    Paired,
}

/// Those that a build from before paired symbols can be measured on too.
pub const LIMITS: [Limits; 6] = [
    Limits::None,
    Limits::Few,
    Limits::Many,
    Limits::Triangular,
    Limits::Long,
    Limits::Flat,
];

impl Limits {
    pub fn name(self) -> &'static str {
        match self {
            Limits::None => "none",
            Limits::Few => "few",
            Limits::Many => "many",
            Limits::Triangular => "triangular",
            Limits::Long => "long",
            Limits::Flat => "flat",
            Limits::Paired => "paired",
        }
    }

    fn random_tree(self, rng: &mut Rng, records: usize) -> Tree {
        match self {
            Limits::None => trees::without_limits(rng, records),
            Limits::Few => limited_tree(rng, records, 8),
            Limits::Many | Limits::Triangular => limited_tree(rng, records, MOST_WEIGHT),
            Limits::Long => with_limited_blocks(trees::grow(rng, records, MOST_DEPTH, 0)),
            Limits::Flat => with_limited_blocks(flat_tree(rng, records)),
            Limits::Paired => paired_tree(rng, records),
        }
    }
}

fn limited_tree(rng: &mut Rng, records: usize, weight: u64) -> Tree {
    let mut tree = trees::without_limits(rng, records);
    trees::put_limits(rng, &mut tree, weight);
    tree
}

fn paired_tree(rng: &mut Rng, records: usize) -> Tree {
    let mut tree = trees::without_limits(rng, records);
    trees::put_pairs(rng, &mut tree, MOST_WEIGHT);
    tree
}

/// A sequence or choice of blocks, and where they are too many, of another one.
pub fn flat_tree(rng: &mut Rng, records: usize) -> Tree {
    let mut children = vec![Tree::block(0); (records - 1).min(MOST_CHILDREN)];
    if records - 1 > MOST_CHILDREN {
        children[0] = flat_tree(rng, records - MOST_CHILDREN);
    }
    Tree::new(rng.pick(&[Kind::Sequence, Kind::Choice]), children)
}

fn with_limited_blocks(mut tree: Tree) -> Tree {
    let mut left = MOST_WEIGHT;
    limit_blocks(&mut tree, &mut left);
    tree
}

/// Limits the first blocks, so many of them, in the run.
fn limit_blocks(tree: &mut Tree, left: &mut u64) {
    if tree.children.is_empty() && *left > 0 {
        tree.limit = Some(Limit {
            names: WHOLE_RUN,
            amount: Amount::Plain(0),
        });
        *left -= 1;
    }
    for child in &mut tree.children {
        limit_blocks(child, left);
    }
}

/// Makes half of the limits triangular numbers.
fn put_triangles(rng: &mut Rng, tree: &mut Tree) {
    if let Some(limit) = &mut tree.limit {
        if rng.once_in(2) {
            limit.amount = Amount::Triangular(rng.within(COUNT_SYMBOLS));
        }
    }
    for child in &mut tree.children {
        put_triangles(rng, child);
    }
}

pub struct Quote {
    pub tree: Tree,
    pub table: Vec<u8>,
    pub values: Vec<u64>,
    pub quoted: Quoted,
    pub pairs: usize,
}

/// Small enough for `lp_solve`, which reckons in floating point.
const AMOUNTS: Amounts = Amounts {
    time: 1_000,
    bound: 10,
    limit: 1_000,
    symbols: 8,
};

/// So many quotes on tables of so many records, the same in every run.
pub fn quotes(count: usize, records: usize, limits: Limits) -> Vec<Quote> {
    let mut rng = Rng::new(records as u64);
    let accepted = std::iter::from_fn(|| Some(random(&mut rng, records, limits))).flatten();
    accepted.take(count).collect()
}

/// A random quote, unless its figure is 0 or too large.
fn random(rng: &mut Rng, records: usize, limits: Limits) -> Option<Quote> {
    let mut tree = limits.random_tree(rng, records);
    AMOUNTS.set(rng, &mut tree);
    trees::drop_triangles(&mut tree);
    if limits == Limits::Triangular {
        put_triangles(rng, &mut tree);
    }
    let values = AMOUNTS.values(rng);
    let root = evaluator::evaluate(&tree, &values).ok()?;
    let quoted = root.quoted();
    (1..1_000_000_000).contains(&quoted.figure).then(|| Quote {
        table: tree.encode(),
        tree,
        values,
        quoted,
        pairs: root.list.into_pairs().len(),
    })
}
