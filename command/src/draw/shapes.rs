//! The picture's elements.

use super::label::{Label, LINE_HEIGHT, SIDE_PADDING, TOP_PADDING};
use super::layout::{Frame, COLUMN_GAP};
use super::text::escaped;
use crate::table::Kind;
use crate::words::kind_word;

/// From the top of a line to where its letters stand.
const BASELINE: usize = 12;
/// From the middle of small letters down to where they stand.
pub const HALF_SMALL_LETTER: usize = 4;
/// How far a choice's points stand out.
const POINT: usize = 9;
/// The round corners of a sequence, and the round ends of a loop: half a box of one line.
const CORNER: usize = 5;
const ROUND_END: usize = 12;
/// From a column to the vertical part of the lines that leave it.
const TRUNK: usize = 14;
/// The radius of a line's bends.
const BEND: usize = 6;
/// From a line's bend to the word on it, and from the line up to it.
const WORD_LEFT: usize = 6;
const WORD_UP: usize = 5;

/// A node's box with its label. It can be linked to by its record, and shows that where it is pointed at.
pub fn node(record: usize, kind: Kind, label: &Label, frame: &Frame, marked: bool) -> String {
    let class = with_mark(kind_word(kind), marked);
    let outline = outline(kind, frame);
    let lines = label.lines.iter().enumerate().map(|(place, line)| {
        let y = frame.y + TOP_PADDING + place * LINE_HEIGHT + BASELINE;
        text(frame.x + SIDE_PADDING, y, line.class, &line.text)
    });
    let lines: String = lines.collect();
    format!("<g id=\"record-{record}\" class=\"{class}\"><title>record {record}</title>{outline}{lines}</g>")
}

/// A small box of the legend with the kind's word.
pub fn sample(kind: Kind, frame: &Frame) -> String {
    let word = kind_word(kind);
    let outline = outline(kind, frame);
    let y = frame.middle() + HALF_SMALL_LETTER;
    let text = text(frame.x + SIDE_PADDING, y, Some("small"), word);
    format!("<g class=\"{word}\">{outline}{text}</g>")
}

/// A shape for each kind, so that they differ without colour too.
fn outline(kind: Kind, frame: &Frame) -> String {
    match kind {
        Kind::Block(_) => rectangle(frame, 0),
        Kind::Sequence => rectangle(frame, CORNER),
        Kind::Choice => hexagon(frame),
        Kind::Loop(_) => rectangle(frame, ROUND_END),
    }
}

fn rectangle(frame: &Frame, radius: usize) -> String {
    format!("<rect {} rx=\"{radius}\"/>", place(frame))
}

fn place(frame: &Frame) -> String {
    let Frame {
        x,
        y,
        width,
        height,
    } = frame;
    format!("x=\"{x}\" y=\"{y}\" width=\"{width}\" height=\"{height}\"")
}

fn hexagon(frame: &Frame) -> String {
    let (left, right) = (frame.x, frame.right());
    let (top, middle, bottom) = (frame.y, frame.middle(), frame.bottom());
    let (from, to) = (left + POINT, right - POINT);
    format!(
        "<polygon points=\"{left},{middle} {from},{top} {to},{top} {right},{middle} {to},{bottom} {from},{bottom}\"/>"
    )
}

/// A line of text that begins there.
pub fn text(x: usize, y: usize, class: Option<&str>, content: &str) -> String {
    let class = class.map_or(String::new(), |class| format!(" class=\"{class}\""));
    let content = escaped(content);
    format!("<text x=\"{x}\" y=\"{y}\"{class}>{content}</text>")
}

/// The ground under a marked subtree.
pub fn band(frame: &Frame) -> String {
    format!("<rect class=\"band\" {}/>", place(frame))
}

/// A line from a parent to a child.
pub struct Link<'f> {
    /// The child's record.
    pub record: usize,
    pub from: &'f Frame,
    pub to: &'f Frame,
    /// What the child is of a loop, body or exit.
    pub part: Option<&'static str>,
    /// Whether it begins at the parent's box, or where another child's line first bends: what is drawn twice looks bolder.
    pub has_stem: bool,
    pub marked: bool,
}

impl Link<'_> {
    pub fn draw(&self) -> String {
        let record = self.record;
        let part = self.part.map_or(String::new(), |part| format!(" {part}"));
        let class = with_mark(&format!("link{part}"), self.marked);
        let path = self.path();
        let word = self.part.map_or(String::new(), |part| {
            let (x, y) = (self.trunk() + WORD_LEFT, self.to.middle() - WORD_UP);
            text(x, y, Some("small"), part)
        });
        format!("<path id=\"to-{record}\" class=\"{class}\" d=\"{path}\"/>{word}")
    }

    /// Where the line goes up or down, the same for all children of a node.
    fn trunk(&self) -> usize {
        self.to.x - COLUMN_GAP + TRUNK
    }

    /// To the right, up or down the trunk and to the right again, with round bends.
    fn path(&self) -> String {
        let trunk = self.trunk();
        let (y, end) = (self.from.middle(), self.to.middle());
        let bend = BEND.min(y.abs_diff(end) / 2);
        let (before, after) = (trunk - bend, trunk + bend);
        let start = if self.has_stem {
            self.from.right()
        } else {
            trunk - BEND
        };
        let x = self.to.x;
        if y == end {
            return format!("M{start} {y}H{x}");
        }
        let (leave, arrive) = if y < end {
            (y + bend, end - bend)
        } else {
            (y - bend, end + bend)
        };
        format!("M{start} {y}H{before}Q{trunk} {y} {trunk} {leave}V{arrive}Q{trunk} {end} {after} {end}H{x}")
    }
}

fn with_mark(class: &str, marked: bool) -> String {
    let mark = if marked { " marked" } else { "" };
    format!("{class}{mark}")
}
