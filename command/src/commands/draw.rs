//! `volefleece draw`.

use crate::cli::{Draw, Source};
use crate::counts::Counts;
use crate::draw;
use crate::failure::{note, Outcome};
use crate::files;
use crate::house::House;
use crate::table::Node;
use crate::tree::Tree;
use crate::words::counted;

pub fn run(arguments: &Draw) -> Outcome<String> {
    let Source { tree, names } = &arguments.source;
    let read = [Some(tree), names.as_ref(), arguments.values.as_ref()];
    files::expect_picture_at(&arguments.output, read.into_iter().flatten())?;
    let mut house = house(arguments)?;
    let set = arguments.settings.apply(&mut house)?;
    let nodes = house.tree.check()?;
    house.note_unused(&nodes, &set);
    house
        .drop_wrong_branches(&nodes)
        .iter()
        .for_each(|line| note(line));
    let branch = branch(&mut house, &nodes)?;
    let counts = Some(&house.counts).filter(|counts| counts.any() && counts.refusal().is_none());
    let picture = draw::svg(&house.tree.table, &house.tree.names, counts, branch);
    let said = format!("drew {}", counted(nodes.len(), "record"));
    files::replace(&arguments.output, picture.as_bytes(), said)
}

/// A folder is a house. A file is a tree, and the counts are those of a file that is named.
fn house(arguments: &Draw) -> Outcome<House> {
    let (path, names) = (&arguments.source.tree, arguments.source.names.as_deref());
    let mut house = if path.is_dir() {
        House::read(path, names)?
    } else {
        House {
            tree: Tree::read(path, names)?,
            counts: Counts::default(),
            title: String::new(),
        }
    };
    if let Some(values) = &arguments.values {
        house.counts = Counts::read(values, &mut house.tree.names)?;
    }
    Ok(house)
}

/// The child of the root choice that sets the quote, where counts are given and the library quotes the tree with them.
fn branch(house: &mut House, nodes: &[Node]) -> Outcome<Option<usize>> {
    if !house.counts.any() && house.counts.refusal().is_none() {
        return Ok(None);
    }
    house.complete(nodes, false)?;
    match house.quote() {
        Ok(quote) => Ok(quote.branch.map(usize::from)),
        Err(refused) => {
            note(&format!("no branch is marked: {refused}"));
            Ok(None)
        }
    }
}
