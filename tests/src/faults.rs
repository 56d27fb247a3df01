//! Tables that fail given questions, each in a place of its own and in random order: first the tree
//! for questions 5 and 7, then its table for 1 to 4 and 6. Values that fail question 9.

use crate::damage::{self, Edit};
use crate::rng::Rng;
use crate::trees::{self, Amount, Kind, Limit, Tree};

/// A sequence of small trees that every question accepts, and of those that fail questions 5 and 7.
pub fn tree(rng: &mut Rng, faults: &[u64]) -> Tree {
    let mut children = Vec::new();
    for _ in 0..4 {
        let size = rng.size(1..=10);
        let mut child = trees::grow(rng, size, 10, 4);
        let wanted = rng.within(0..=60);
        trees::put_weights(rng, &mut child, wanted);
        children.push(child);
    }
    if faults.contains(&5) {
        let (depth, loops) = rng.pick(&[(32, 3), (12, 9)]);
        children.push(trees::spine(rng, depth, loops));
    }
    if faults.contains(&7) {
        children.push(rng.pick(&[heavy_tree, heavy_pair])(8));
    }
    rng.shuffle(&mut children);
    Tree::new(Kind::Sequence, children)
}

/// A whole-run limit under so many loops: 7 give it weight 128, and 8 weight 256.
pub fn heavy_tree(loops: usize) -> Tree {
    let amount = Amount::Plain(1);
    let mut tree = Tree::block(7);
    tree.limit = Some(Limit { names: 255, amount });
    in_loops(loops, tree)
}

/// A block whose limit is the triangular number of that symbol, whose value may fail question 13.
pub fn triangular_block(symbol: u64) -> Tree {
    let amount = Amount::Triangular(symbol);
    let mut block = Tree::block(7);
    block.limit = Some(Limit { names: 255, amount });
    block
}

/// A block of a paired symbol under so many loops, which weighs as much.
pub fn heavy_pair(loops: usize) -> Tree {
    in_loops(loops, Tree::symbol_block(24))
}

fn in_loops(loops: usize, tree: Tree) -> Tree {
    let once = Kind::Loop(Amount::Plain(1));
    (0..loops).fold(tree, |body, _| Tree::new(once, vec![body, Tree::block(5)]))
}

/// The tree's table made to fail the others of these questions. Some block is left for each.
pub fn table(rng: &mut Rng, tree: &Tree, faults: &[u64]) -> Vec<u8> {
    let around = trees::loops_around(tree);
    let mut table = tree.encode();
    let mut blocks: Vec<usize> = (0..around.len())
        .filter(|&record| table[record * 24] == 0 && around[record] < 8)
        .collect();
    rng.shuffle(&mut blocks);
    for &question in faults {
        match question {
            1 => fail_length(rng, &mut table),
            2 | 3 | 6 => {
                let block = blocks.pop().expect("a block for each");
                for edit in block_fault(rng, question, around[block]) {
                    edit.apply(&mut table, block);
                }
            }
            4 => fail_tree(rng, &mut table),
            _ => {}
        }
    }
    table
}

/// What makes a block with so many loops around it fail that question.
fn block_fault(rng: &mut Rng, question: u64, around: usize) -> Vec<Edit> {
    match (question, rng.index(5)) {
        (2, 0) => vec![Edit::Kind(4)],
        (2, 1) => vec![Edit::Flags(rng.pick(&[4, 5, 8, 12, 128]))],
        (2, 2) => vec![Edit::Children(1)],
        (2, 3) => vec![Edit::Filler(rng.index(4), rng.pick(&[0, 127, 254]))],
        (2, _) => vec![Edit::Names(9)],
        (3, 0) => {
            let past = rng.pick(&[16, 31, 32, 1_000, u32::MAX]);
            vec![Edit::Flags(6), Edit::Names(255), Edit::Limit(past)]
        }
        (3, 1) => vec![Edit::Value(u64::MAX)],
        (3, _) => vec![Edit::Value(1_000_000_000_001)],
        _ => vec![Edit::Names(around as u8 + 1)],
    }
}

fn fail_length(rng: &mut Rng, table: &mut Vec<u8>) {
    if rng.once_in(2) {
        table.resize(table.len() + rng.size(1..=23), 0);
    } else {
        damage::add_blocks(table, 512);
    }
}

fn fail_tree(rng: &mut Rng, table: &mut Vec<u8>) {
    let children = table[2];
    match rng.index(3) {
        0 => damage::add_blocks(table, 1),
        1 => Edit::Children(children - 1).apply(table, 0),
        _ => Edit::Children(children + 1).apply(table, 0),
    }
}

/// Makes values fail question 9: there are too few, too many, or some past their ceilings.
pub fn spoil(rng: &mut Rng, values: &mut Vec<u64>) {
    match rng.index(4) {
        0 => values.truncate(rng.pick(&[0, 1, 16, 31, 32, 33, 38, 39])),
        1 => values.resize(rng.pick(&[41, 42, 64, 100]), 0),
        _ => {
            for _ in 0..rng.pick(&[1, 1, 1, 3]) {
                let at = rng.index(40);
                let ceiling = if at < 16 {
                    1_000_000
                } else {
                    1_000_000_000_000
                };
                values[at] = rng.pick(&[ceiling + 1, 2 * ceiling, 1 << 63, u64::MAX]);
            }
        }
    }
}
