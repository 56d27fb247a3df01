//! `volefleece find`.

use super::Answer;
use crate::cli::Find;
use crate::failure::Outcome;
use crate::text;
use crate::tree::Tree;

/// Every record with that address, or that there is none.
pub fn run(arguments: &Find) -> Outcome<Answer> {
    let Find { source, address } = arguments;
    let tree = Tree::read(&source.tree, source.names.as_deref())?;
    let nodes = tree.check()?.into_iter().enumerate();
    let found = nodes.filter(|(_, node)| node.address == *address);
    let found: Vec<usize> = found.map(|(record, _)| record).collect();
    if found.is_empty() {
        return Ok(Answer {
            text: format!("no record has the address {address:#x}\n"),
            status: 1,
        });
    }
    Ok(text::tree::print_ways(&tree.table, &tree.names, &found).into())
}
