//! `volefleece check`, `show`, `make` and `values`.

use std::path::Path;

use volefleece::SYMBOLS;

use super::Answer;
use crate::cli::{Made, Source};
use crate::counts::Counts;
use crate::failure::{note, Failure, Outcome};
use crate::files;
use crate::house::not_given;
use crate::names::Names;
use crate::table;
use crate::text;
use crate::tree::{read_names, Tree};
use crate::words::{counted, PAIRED};

pub fn check(source: &Source) -> Outcome<String> {
    let tree = Tree::read(&source.tree, source.names.as_deref())?;
    let nodes = tree.check()?;
    let (places, _) = table::places(&table::records(&tree.table));
    let depth = places
        .iter()
        .map(|place| place.depth)
        .max()
        .unwrap_or_default();
    let mut lines = format!("accepted\nrecords {}\ndepth {depth}\n", nodes.len());
    for symbol in table::symbols(&nodes) {
        let paired = match table::is_paired(symbol) {
            false => String::new(),
            true => format!(" ({PAIRED})"),
        };
        lines += &format!("symbol {symbol} {}{paired}\n", tree.names.symbol(symbol));
    }
    Ok(lines)
}

/// A table as text, or, where it is refused, as far as it can be read.
pub fn show(source: &Source) -> Outcome<Answer> {
    let tree = Tree::read(&source.tree, source.names.as_deref())?;
    match tree.check() {
        Ok(_) => Ok(text::tree::print(&tree.table, &tree.names).into()),
        Err(refused) => Ok(Answer {
            text: text::tree::print_refused(&tree.table, &tree.names, &refused),
            status: refused.status(),
        }),
    }
}

pub fn make(made: &Made) -> Outcome<String> {
    files::expect_bytes_at(&made.output)?;
    let tree = Tree::read_text(&made.text, made.names.as_deref())?;
    let said = format!("made {}", counted(tree.check()?.len(), "record"));
    files::replace(&made.output, &tree.table, said)
}

/// Values as text, or, where they are refused, as far as they can be read.
pub fn show_values(values: &Path, names: Option<&Path>) -> Outcome<Answer> {
    let mut names = read_names(names, files::folder_of(values))?;
    let counts = Counts::read(values, &mut names)?;
    Ok(match accept(&counts, &names) {
        Ok(()) => text::values::print(&counts, &names).into(),
        Err(refused) => Answer {
            text: text::values::print_refused(&counts, &names, &refused),
            status: refused.status(),
        },
    })
}

pub fn make_values(made: &Made) -> Outcome<String> {
    files::expect_bytes_at(&made.output)?;
    let path = &made.text;
    let mut names = read_names(made.names.as_deref(), files::folder_of(path))?;
    let counts = Counts::from_text(path, &files::read_text(path)?, &mut names)?;
    accept(&counts, &names)?;
    let bytes = counts.bytes();
    let values = bytes.len() / 8;
    // A later value that is not given counts its first, as the text has it.
    let symbols = 0..values.min(SYMBOLS);
    for symbol in symbols.filter(|&symbol| counts.given(symbol).is_none()) {
        note(&not_given(&names.symbol(symbol), symbol));
    }
    let said = format!("made {}", counted(values, "value"));
    files::replace(&made.output, &bytes, said)
}

fn accept(counts: &Counts, names: &Names) -> Outcome {
    counts.refusal().map_or(Ok(()), |refusal| {
        let hint = counts.fault(refusal, names);
        Err(Failure::Refused { refusal, hint })
    })
}
