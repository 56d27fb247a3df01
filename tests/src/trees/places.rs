//! The blocks of one time symbol, which are the places of a graft.

use super::{Amount, Kind, Tree};
use crate::rng::Rng;

impl Tree {
    /// How many blocks have that symbol as their time.
    pub fn places(&self, symbol: u64) -> usize {
        let here = self.kind == Kind::Block(Amount::Symbol(symbol));
        let below: usize = self.children.iter().map(|child| child.places(symbol)).sum();
        usize::from(here) + below
    }

    /// How many nodes there are from this one down to its deepest, both counted.
    pub fn depth(&self) -> usize {
        1 + self.children.iter().map(Tree::depth).max().unwrap_or(0)
    }
}

/// Gives that symbol to so many random blocks, to all if there are no more, and takes it from others.
pub fn put_symbol(rng: &mut Rng, tree: &mut Tree, symbol: u64, places: usize) {
    drop_symbol(tree, symbol);
    let mut blocks = Vec::new();
    collect_blocks(tree, &mut blocks);
    rng.shuffle(&mut blocks);
    for block in blocks.into_iter().take(places) {
        block.kind = Kind::Block(Amount::Symbol(symbol));
    }
}

fn collect_blocks<'t>(tree: &'t mut Tree, blocks: &mut Vec<&'t mut Tree>) {
    if tree.children.is_empty() {
        blocks.push(tree);
        return;
    }
    for child in &mut tree.children {
        collect_blocks(child, blocks);
    }
}

/// Gives the blocks of that symbol another one, which stands for times as well.
pub fn drop_symbol(tree: &mut Tree, symbol: u64) {
    if tree.kind == Kind::Block(Amount::Symbol(symbol)) {
        tree.kind = Kind::Block(Amount::Symbol(symbol ^ 1));
    }
    for child in &mut tree.children {
        drop_symbol(child, symbol);
    }
}

/// The first of the deepest blocks.
pub fn deepest_block(tree: &mut Tree) -> &mut Tree {
    let below = tree.depth() - 1;
    let mut children = tree.children.iter();
    match children.position(|child| child.depth() == below) {
        Some(place) => deepest_block(&mut tree.children[place]),
        None => tree,
    }
}
