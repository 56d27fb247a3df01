//! What stands above the tree: what it is of, and what the shapes mean.

use super::label::{branch_words, SIDE_PADDING};
use super::layout::{Frame, MARGIN};
use super::shapes::{self, HALF_SMALL_LETTER};
use super::text::{cells, wrapped, HEADING_CELL, SMALL_CELL};
use crate::names::Names;
use crate::table::{Amount, Kind, Node, Place};

/// Lines of the head are broken at about the legend's width.
const HEADING_CELLS: usize = 46;
const REMARK_CELLS: usize = 66;

const HEADING_HEIGHT: usize = 22;
const REMARK_HEIGHT: usize = 16;
/// From where letters stand down to their line's bottom.
const DESCENT: usize = 5;
/// The samples are all as wide as the longest of their words needs, so that the meanings stand in a column.
const SAMPLE_WIDTH: usize = "sequence".len() * SMALL_CELL + 2 * SIDE_PADDING;
const SAMPLE_HEIGHT: usize = 18;
/// From a sample to the one below it, and to what it means.
const SAMPLE_GAP: usize = 4;
const MEANING_GAP: usize = 14;

const MEANINGS: [(Kind, &str); 4] = [
    (Kind::Block(Amount::Plain(0)), "takes so many cycles"),
    (
        Kind::Sequence,
        "passes all its children, from top to bottom",
    ),
    (Kind::Choice, "passes one of its children"),
    (
        Kind::Loop(Amount::Plain(0)),
        "passes its body at most so many times, then its exit (dashed)",
    ),
];

const LIMITS: [&str; 2] = [
    "at most 3 per loop 1: no more than 3 passes in one pass of the innermost loop around; loop 2 is the next one outward",
    "at most 3 per run: no more than 3 passes in the whole run",
];

const PAIRS: &str =
    "first and later: a block's first pass in the run takes the first number, each other pass of that block the later one";

/// What stands above the tree, and how far it reaches.
pub struct Head {
    pub title: String,
    pub elements: Vec<String>,
    pub right: usize,
    pub bottom: usize,
}

/// The head of a picture in which that child of the root is marked.
pub fn head(nodes: &[Node], places: &[Place], names: &Names, marked: Option<usize>) -> Head {
    let mut head = Head {
        title: title(places, names),
        elements: Vec::new(),
        right: 0,
        bottom: MARGIN,
    };
    head.add_heading();
    head.elements.push("<g id=\"legend\">".into());
    for (kind, meaning) in MEANINGS {
        head.add_sample(kind, meaning);
    }
    if nodes.iter().any(|node| node.limit.is_some()) {
        for remark in LIMITS {
            head.add_remark("small", remark);
        }
    }
    if nodes.iter().any(|node| node.paired_symbol().is_some()) {
        head.add_remark("small", PAIRS);
    }
    if let Some(child) = marked {
        let branch = branch_words(child, names);
        head.add_remark(
            "small mark",
            &format!("red and bold: {branch} sets the quote"),
        );
    }
    head.elements.push("</g>".into());
    head
}

fn title(places: &[Place], names: &Names) -> String {
    let records = places.len();
    let plural = if records == 1 { "" } else { "s" };
    let deepest = places.iter().map(|place| place.depth).max().unwrap_or(0);
    let name = names.house().unwrap_or("tree");
    format!("{name}: {records} record{plural}, {deepest} deep")
}

impl Head {
    fn add_heading(&mut self) {
        for line in wrapped(&self.title, HEADING_CELLS) {
            self.bottom += HEADING_HEIGHT;
            self.add_text(
                MARGIN,
                self.bottom - DESCENT,
                "heading",
                HEADING_CELL,
                &line,
            );
        }
        self.bottom += SAMPLE_GAP;
    }

    fn add_sample(&mut self, kind: Kind, meaning: &str) {
        let frame = Frame {
            x: MARGIN,
            y: self.bottom,
            width: SAMPLE_WIDTH,
            height: SAMPLE_HEIGHT,
        };
        self.elements.push(shapes::sample(kind, &frame));
        let (x, y) = (
            frame.right() + MEANING_GAP,
            frame.middle() + HALF_SMALL_LETTER,
        );
        self.add_text(x, y, "small", SMALL_CELL, meaning);
        self.bottom = frame.bottom() + SAMPLE_GAP;
    }

    fn add_remark(&mut self, class: &str, remark: &str) {
        for line in wrapped(remark, REMARK_CELLS) {
            self.bottom += REMARK_HEIGHT;
            self.add_text(MARGIN, self.bottom - DESCENT, class, SMALL_CELL, &line);
        }
    }

    fn add_text(&mut self, x: usize, y: usize, class: &str, cell: usize, text: &str) {
        self.right = self.right.max(x + cells(text) * cell);
        self.elements.push(shapes::text(x, y, Some(class), text));
    }
}
