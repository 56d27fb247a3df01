//! `volefleece contract`: the page that the renting house reads. The same tree, counts and names give the same page.

use sha2::{Digest, Sha256};
use volefleece::VALUES;

use super::quote;
use crate::cli::Counted;
use crate::counts::bytes_of;
use crate::failure::Outcome;
use crate::table::paired_symbols;

/// What the figure promises, as proved of the library's call: that no admitted run costs more, and that it is the method's.
const PROMISE: &str = "\
No opening that this tree admits with these counts keeps the lock's processor awake for more cycles than the figure.
The figure is exactly what the published method gives for this tree and these counts, no lower and no higher.
";

/// What two numbers mean, where a time on the page has them.
const TWO_NUMBERS: &str = "\
Where a time has a first and a later number, the first pass of a step in an opening costs the first, and each further pass of that step the later one.
Two steps of the same time have a first pass each.
";

pub fn run(counted: &Counted) -> Outcome<String> {
    let quoted = quote::quote(counted, true)?;
    let house = &quoted.house;
    let values = bytes_of(&house.counts.values());
    let paired = match &paired_symbols(&quoted.nodes)[..] {
        [] => "",
        _ => TWO_NUMBERS,
    };
    Ok(format!(
        "Waking figure for one opening\n\n{}\n{paired}{PROMISE}\ntree sha256 {} (the table's bytes)\ncounts sha256 {} (all {VALUES} values, 8 bytes each)\nvolefleece {}\n",
        quoted.lines(),
        digest(&house.tree.table),
        digest(&values),
        env!("CARGO_PKG_VERSION"),
    ))
}

fn digest(bytes: &[u8]) -> String {
    let digest = Sha256::digest(bytes);
    digest.iter().map(|byte| format!("{byte:02x}")).collect()
}
