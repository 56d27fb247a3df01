//! The second grafter: CR 1 of document 02 with CR 6's addresses and CR 7's paired symbols, written
//! apart from the library and in its own way. The loop around the sent table is made once, and a copy of
//! it stands in for every block of the symbol. It is plain Rust, fast enough to be measured against the
//! library.

use crate::format::*;
use crate::reader;
use crate::trees::{Amount, Kind, Tree};

/// Grafting into a buffer of so many bytes: questions 1 to 7 of the host, then of the sent table, then
/// 11, 12 and 8, then the written table.
pub fn graft(host: &[u8], sent: &[u8], symbol: u64, out_len: usize) -> Result<Vec<u8>, u64> {
    let mut tree = reader::check(host)?;
    let sent = reader::check(sent)?;
    if !SINGLE_SYMBOLS.contains(&symbol) || sent.places(symbol) > 0 || sent.pairs() > 0 {
        return Err(11);
    }
    let graft = in_new_loop(sent);
    // A graft has the block's own record and some more. They are counted before any is made, as there
    // may be far too many.
    let more = tree.places(symbol) * (graft.records() - 1);
    if tree.records() + more > MOST_RECORDS {
        return Err(12);
    }
    put(&graft, &mut tree, symbol);
    match reader::check_tree(&tree) {
        Ok(()) => {}
        Err(5 | 7) => return Err(12),
        Err(question) => panic!("both tables pass question {question}, and so does the result"),
    }
    let table = tree.encode();
    if out_len < table.len() {
        return Err(8);
    }
    Ok(table)
}

/// A loop of bound 1 around the sent table, with a zero block at address 0 as exit. The sent table's
/// whole-run limits name that loop.
fn in_new_loop(mut sent: Tree) -> Tree {
    name_new_loop(&mut sent, 0);
    Tree::new(Kind::Loop(Amount::Plain(1)), vec![sent, Tree::block(0)])
}

/// `around` counts the sent table's own loops around the node. The new loop is the next one outward.
fn name_new_loop(node: &mut Tree, around: u8) {
    match &mut node.limit {
        Some(limit) if limit.names == WHOLE_RUN => limit.names = around + 1,
        _ => {}
    }
    match (node.kind, &mut node.children[..]) {
        (Kind::Loop(_), [body, exit]) => {
            name_new_loop(body, around + 1);
            name_new_loop(exit, around);
        }
        (_, children) => {
            for child in children {
                name_new_loop(child, around);
            }
        }
    }
}

/// Replaces every block of the symbol by the graft, with the block's limit and address on it.
fn put(graft: &Tree, node: &mut Tree, symbol: u64) {
    if node.kind == Kind::Block(Amount::Symbol(symbol)) {
        node.kind = graft.kind;
        node.children = graft.children.clone();
        return;
    }
    for child in &mut node.children {
        put(graft, child, symbol);
    }
}
