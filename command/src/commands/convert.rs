//! `volefleece convert`.

use std::path::Path;

use volefleece::{FormerLength, MOST_TABLE, RECORD_BYTES};

use super::Answer;
use crate::cli::Convert;
use crate::failure::{note, Failure, Outcome};
use crate::files;
use crate::names::Names;
use crate::tree::{length_words, was_accepted, Tree};
use crate::words::counted;

/// Why a table that was accepted once is refused now: only question 7 can be the one.
const NOW_PAIRED: &str = "the former table was accepted: its symbols of 24 to 31 have a first and a later value now, and each block with one weighs as a limit per run does";

/// Makes a table of a former one. One that is refused later is made all the same, as the program in Rattle makes it, and told; but no table that is
/// accepted as it is gives way to that.
pub fn run(arguments: &Convert) -> Outcome<Answer> {
    let Convert { old, output } = arguments;
    files::expect_bytes_at(old)?;
    files::expect_bytes_at(output)?;
    let former = files::read(old, MOST_TABLE)?;
    let table = match volefleece::convert(&former) {
        Ok(table) => table,
        Err(refusal) => return Ok(refused(refusal, old, &former)),
    };
    let needless = needless(old, &former);
    if let Some(needless) = needless.as_ref().filter(|_| files::is_same(old, output)) {
        return Err(Failure::Problem(format!("{needless}, and would be lost")));
    }
    let made = Tree::from_file(output, table, Names::default());
    let records = made.table.len() / RECORD_BYTES;
    let said = made.write(output, format!("made {}", counted(records, "record")))?;
    if let Err(refused) = made.check() {
        note(&format!("made, but no call accepts it: {refused}"));
        if was_accepted(&made.table) {
            note(NOW_PAIRED);
        }
    }
    needless.iter().for_each(|line| note(line));
    Ok(said.into())
}

fn refused(refusal: FormerLength, old: &Path, former: &[u8]) -> Answer {
    let length = || format!("{} has {}", old.display(), length_words(former));
    let hint = needless(old, former).unwrap_or_else(length);
    Answer {
        text: format!("{refusal}\nhint: {hint}\n"),
        status: 1,
    }
}

/// That a table is no former one.
fn needless(old: &Path, former: &[u8]) -> Option<String> {
    volefleece::check(former).ok()?;
    Some(format!(
        "{} needs no converting: `volefleece check` accepts it as it is",
        old.display()
    ))
}
