//! A tree as a picture, from left to right: a column for each depth, a row for each leaf, a parent beside the middle of its children.

mod head;
mod label;
mod layout;
mod shapes;
mod text;

use std::ops::Range;

use crate::counts::Counts;
use crate::names::Names;
use crate::table::{self, Kind, Node, Place};
use head::Head;
use label::Label;
use layout::{Frame, MARGIN, ROW_GAP};
use shapes::Link;

/// Between the legend and the tree.
const HEAD_GAP: usize = 20;

const STYLE: &str = "\
text{font-family:'DejaVu Sans Mono','Liberation Mono',Menlo,Consolas,monospace;font-size:13px;fill:#111827}
.heading{font-size:16px;font-weight:bold}
.small{font-size:11px;fill:#374151}
.branch{font-weight:bold}
.limit{fill:#5b21b6}
.pair{fill:#1d4ed8}
.address{fill:#374151}
.block rect{fill:#f3f4f6;stroke:#4b5563}
.sequence rect{fill:#dbeafe;stroke:#1d4ed8}
.choice polygon{fill:#fef3c7;stroke:#b45309}
.loop rect{fill:#dcfce7;stroke:#15803d}
.mark{fill:#be123c;font-weight:bold}
.link{fill:none;stroke:#9ca3af;stroke-width:2}
.exit{stroke-dasharray:5 4}
.band{fill:#fff1f2}
.marked rect,.marked polygon{stroke:#be123c;stroke-width:2.5}
.link.marked{stroke:#be123c;stroke-width:3}";

/// The picture of a table that the library accepts, as an SVG file's text. `branch` is the child of the root choice that sets the quote,
/// where counts are given.
pub fn svg(table: &[u8], names: &Names, counts: Option<&Counts>, branch: Option<usize>) -> String {
    let nodes = table::nodes(table);
    let (places, _) = table::places(&table::records(table));
    let mark = branch.and_then(|child| Mark::find(&nodes, &places, child));
    let labels = labels(&nodes, &places, names, counts, mark.as_ref());
    let head = head::head(&nodes, &places, names, mark.as_ref().map(|mark| mark.child));

    let sizes: Vec<_> = labels.iter().map(Label::size).collect();
    let frames = layout::frames(&sizes, &places, head.bottom + HEAD_GAP);
    let (width, height) = page(&head, &frames);
    let drawing = Drawing {
        nodes,
        places,
        labels,
        frames,
        mark,
    };

    let mut lines = opening(width, height, &head.title);
    lines.extend(head.elements);
    lines.extend(drawing.band());
    lines.extend(drawing.links());
    lines.extend(drawing.boxes());
    lines.push("</svg>\n".into());
    lines.join("\n")
}

fn opening(width: usize, height: usize, title: &str) -> Vec<String> {
    vec![
        format!(
            "<svg xmlns=\"http://www.w3.org/2000/svg\" width=\"{width}\" height=\"{height}\" viewBox=\"0 0 {width} {height}\">"
        ),
        format!("<title>{}</title>", text::escaped(title)),
        format!("<style>{STYLE}</style>"),
        format!("<rect width=\"{width}\" height=\"{height}\" fill=\"#ffffff\"/>"),
    ]
}

/// The width and height that hold the head and the tree.
fn page(head: &Head, frames: &[Frame]) -> (usize, usize) {
    let right = frames.iter().map(Frame::right).max().unwrap_or(0);
    let bottom = frames.iter().map(Frame::bottom).max().unwrap_or(0);
    (head.right.max(right) + MARGIN, bottom + MARGIN)
}

/// The branch that sets the quote.
struct Mark {
    child: usize,
    /// All records of its subtree, which stand one after the other.
    records: Range<usize>,
}

impl Mark {
    fn find(nodes: &[Node], places: &[Place], child: usize) -> Option<Self> {
        let record_of = |child| {
            let mut places = places.iter();
            places.position(|place| place.parent == Some((0, child)))
        };
        if nodes[0].kind != Kind::Choice {
            return None;
        }
        let first = record_of(child)?;
        let end = record_of(child + 1).unwrap_or(places.len());
        Some(Mark {
            child,
            records: first..end,
        })
    }
}

fn labels(
    nodes: &[Node],
    places: &[Place],
    names: &Names,
    counts: Option<&Counts>,
    mark: Option<&Mark>,
) -> Vec<Label> {
    let root_is_choice = nodes[0].kind == Kind::Choice;
    let marked = mark.map(|mark| mark.child);
    let lines_of = |(node, place): (&Node, &Place)| {
        let child = match place.parent {
            Some((0, child)) if root_is_choice => Some(child),
            _ => None,
        };
        // A branch without a name needs its number only where the legend speaks of it.
        let branch = child.filter(|&child| Some(child) == marked || names.branch(child).is_some());
        Label::new(node, names, counts, branch)
    };
    nodes.iter().zip(places).map(lines_of).collect()
}

/// Everything about the tree that is drawn, record by record.
struct Drawing {
    nodes: Vec<Node>,
    places: Vec<Place>,
    labels: Vec<Label>,
    frames: Vec<Frame>,
    mark: Option<Mark>,
}

impl Drawing {
    fn is_marked(&self, record: usize) -> bool {
        let mark = self.mark.as_ref();
        mark.is_some_and(|mark| mark.records.contains(&record))
    }

    /// A ground under the marked subtree, so that it is found where the whole picture is seen at once.
    fn band(&self) -> Option<String> {
        let mark = self.mark.as_ref()?;
        let frames = &self.frames[mark.records.clone()];
        let left = frames[0].x - ROW_GAP / 2;
        let top = frames.iter().map(|frame| frame.y).min()? - ROW_GAP / 2;
        let right = frames.iter().map(Frame::right).max()? + ROW_GAP / 2;
        let bottom = frames.iter().map(Frame::bottom).max()? + ROW_GAP / 2;
        let band = Frame {
            x: left,
            y: top,
            width: right - left,
            height: bottom - top,
        };
        Some(shapes::band(&band))
    }

    /// The lines from parents to children. Marked ones come last, since at the root they share a stretch with others.
    fn links(&self) -> Vec<String> {
        let records = 0..self.nodes.len();
        let (marked, plain): (Vec<_>, Vec<_>) = records.partition(|&record| self.is_marked(record));
        let records = plain.into_iter().chain(marked);
        records.filter_map(|record| self.link(record)).collect()
    }

    fn link(&self, record: usize) -> Option<String> {
        let (parent, child) = self.places[record].parent?;
        let part = match (self.nodes[parent].kind, child) {
            (Kind::Loop(_), 0) => Some("body"),
            (Kind::Loop(_), _) => Some("exit"),
            _ => None,
        };
        let marked = self.is_marked(record);
        let link = Link {
            record,
            from: &self.frames[parent],
            to: &self.frames[record],
            part,
            has_stem: child == 0 || marked && parent == 0,
            marked,
        };
        Some(link.draw())
    }

    fn boxes(&self) -> impl Iterator<Item = String> + '_ {
        (0..self.nodes.len()).map(|record| {
            let (kind, label) = (self.nodes[record].kind, &self.labels[record]);
            let mark = self.is_marked(record);
            shapes::node(record, kind, label, &self.frames[record], mark)
        })
    }
}
