//! What stands in a node's box: the words of the text form.

use super::layout::Size;
use super::text::{cells, wrapped, CELL};
use crate::counts::Counts;
use crate::names::Names;
use crate::table::Node;
use crate::words::{address_words, kind_words, limit_words, value_words, PAIRED};

pub const LINE_HEIGHT: usize = 16;
/// From a box's edge to its text. A choice's points and a loop's ends take up the sides.
pub const SIDE_PADDING: usize = 12;
pub const TOP_PADDING: usize = 4;

/// Room for a limit with any number or plain name, so that only long names are broken.
const MOST_CELLS: usize = 38;

/// The lines of a box.
pub struct Label {
    pub lines: Vec<Line>,
}

pub struct Line {
    pub text: String,
    /// The class that the line is styled by; none for what a node is.
    pub class: Option<&'static str>,
}

impl Label {
    /// The label of a node, that of a branch with the branch's number and name, that of a paired symbol with what it counts first and later.
    pub fn new(node: &Node, names: &Names, counts: Option<&Counts>, branch: Option<usize>) -> Self {
        let branch = branch.map(|child| (Some("branch"), branch_words(child, names)));
        let what = (None, kind_words(node.kind, names));
        let pair = node.paired_symbol().map(|symbol| {
            let values = counts.map(|counts| value_words(symbol, counts));
            (Some("pair"), values.unwrap_or_else(|| PAIRED.into()))
        });
        let limit = node
            .limit
            .map(|limit| (Some("limit"), limit_words(limit, names)));
        let address = address_words(node.address).map(|words| (Some("address"), words));
        let parts = branch.into_iter().chain([what]).chain(pair);
        let parts = parts.chain(limit).chain(address);
        let lines = parts.flat_map(|(class, text)| {
            let lines = wrapped(&text, MOST_CELLS).into_iter();
            lines.map(move |text| Line { text, class })
        });
        Label {
            lines: lines.collect(),
        }
    }

    /// The size of the box.
    pub fn size(&self) -> Size {
        let widest = self.lines.iter().map(|line| cells(&line.text)).max();
        Size {
            width: widest.unwrap_or(0) * CELL + 2 * SIDE_PADDING,
            height: self.lines.len() * LINE_HEIGHT + 2 * TOP_PADDING,
        }
    }
}

/// A branch as a text's header has it.
pub fn branch_words(child: usize, names: &Names) -> String {
    match names.branch(child) {
        None => format!("branch {child}"),
        Some(name) => format!("branch {child} {name}"),
    }
}
