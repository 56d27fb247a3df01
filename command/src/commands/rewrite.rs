//! `volefleece simplify` and `graft`: the calls that write a tree.

use volefleece::{Refusal, FIRST_TIME};

use crate::cli::{Graft, Simplify};
use crate::failure::{note, Failure, Outcome};
use crate::names::Names;
use crate::table::{self, Node};
use crate::tree::Tree;
use crate::words::TWO_VALUES;

pub fn simplify(arguments: &Simplify) -> Outcome<String> {
    let source = &arguments.source;
    let tree = Tree::read(&source.tree, source.names.as_deref())?;
    let simplified = volefleece::simplify(&tree.table, arguments.steps);
    let simplified = simplified.map_err(|refusal| tree.refused(refusal))?;
    let length = simplified.table.len();
    let ending = if simplified.finished {
        "finished"
    } else {
        "spent"
    };
    let mut names = tree.names.clone();
    if simplified.steps > 0 && names.last_branch().is_some() {
        // Children move, so that the branches' names would be wrong.
        names = names.without_branches();
        note("the branches' names are not those of the simplified tree's children: beside it, names.txt must not have them");
    }
    let said = format!("simplified {length} steps {} {ending}", simplified.steps);
    Tree::from_answer(simplified.table, names).write(&arguments.output, said)
}

pub fn graft(arguments: &Graft) -> Outcome<String> {
    let host = Tree::read(&arguments.host, arguments.names.as_deref())?;
    let sent = Tree::read(&arguments.sent, None)?;
    let name = &arguments.symbol;
    let symbol = host.names.find_or_number(name);
    let symbol = symbol.map_err(|why| Failure::Problem(format!("--symbol {name}: {why}")))?;
    // The host's questions come first, then the sent table's, and a hint is of the one that is refused.
    host.check()?;
    let nodes = sent.check()?;
    let table = volefleece::graft(&host.table, &sent.table, symbol as u64);
    let table = table.map_err(|refusal| Failure::Refused {
        refusal,
        hint: match refusal {
            Refusal::ReplacedSymbol => symbol_fault(symbol, &host.names, &sent, &nodes),
            _ => None,
        },
    })?;
    let used = table::symbols(&nodes);
    let mut names = host.names.clone();
    names.take(&sent.names, &used).map_err(|why| {
        let advice = "host and sent tree must mean the same by a symbol that the sent tree uses";
        Failure::Problem(format!("{}: {why}: {advice}", arguments.sent.display()))
    })?;
    let length = table.len();
    let said = format!("grafted {length}");
    Tree::from_answer(table, names).write(&arguments.output, said)
}

/// What question 11 says no to: the symbol itself, or the first block of the sent tree that has it or a paired one.
fn symbol_fault(symbol: usize, names: &Names, sent: &Tree, nodes: &[Node]) -> Option<String> {
    let name = names.symbol(symbol);
    if symbol < FIRST_TIME {
        return Some(format!("{name} is a count, and a time is replaced"));
    }
    if table::is_paired(symbol) {
        return Some(format!(
            "{name} {TWO_VALUES}, and a sent tree has one figure"
        ));
    }
    let mut uses = nodes.iter().enumerate();
    uses.find_map(|(record, node)| {
        let what = match node.paired_symbol() {
            Some(paired) => format!("{} {TWO_VALUES}", sent.names.symbol(paired)),
            None if node.symbols().any(|used| used == symbol) => {
                format!("{name} is what is replaced")
            }
            None => return None,
        };
        Some(format!("{}: {what}", sent.place(record)))
    })
}
