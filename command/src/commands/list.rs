//! `volefleece list`.

use super::quote;
use crate::cli::Counted;
use crate::failure::{note, Outcome};
use crate::table::paired_symbols;

/// The list of the root, from the largest value down. What is counted first and later is said besides, since the list falls by that alone
/// where nothing has a limit.
pub fn run(counted: &Counted) -> Outcome<String> {
    let (house, nodes) = quote::complete(counted, true)?;
    let list = volefleece::list(&house.tree.table, &house.counts.lent());
    let list = list.map_err(|refusal| house.refused(refusal))?;
    for symbol in paired_symbols(&nodes) {
        note(&house.count_line(symbol));
    }
    let lines = list.iter().map(|members| match members.count {
        Some(1) => format!("{} once\n", members.value),
        Some(count) => format!("{} {count} times\n", members.value),
        None => format!("{} for ever\n", members.value),
    });
    Ok(lines.collect())
}
