//! Where each box stands. A subtree has the height of its rows to itself, and a depth its column, so that no two boxes meet.

use crate::table::Place;

/// Around the whole picture.
pub const MARGIN: usize = 24;
/// Between boxes of a column.
pub const ROW_GAP: usize = 8;
/// Between columns: room for the lines' vertical part and for the words on them.
pub const COLUMN_GAP: usize = 54;

/// How far a parent is moved so that the line to a child is straight.
const CLOSE: usize = 12;

/// A box's size. Heights are even, and so is the gap: halves are whole.
#[derive(Clone, Copy)]
pub struct Size {
    pub width: usize,
    pub height: usize,
}

impl Size {
    /// The height with the gap to the next box.
    fn row(self) -> usize {
        self.height + ROW_GAP
    }
}

/// A box's place, by its upper left corner.
#[derive(Clone, Copy)]
pub struct Frame {
    pub x: usize,
    pub y: usize,
    pub width: usize,
    pub height: usize,
}

impl Frame {
    pub fn right(&self) -> usize {
        self.x + self.width
    }

    pub fn bottom(&self) -> usize {
        self.y + self.height
    }

    pub fn middle(&self) -> usize {
        self.y + self.height / 2
    }
}

/// The frames of boxes of these sizes, from that height down.
pub fn frames(sizes: &[Size], places: &[Place], top: usize) -> Vec<Frame> {
    let rows = rows(sizes, places, top);
    let middles = middles(sizes, places, &rows);
    let lefts = lefts(sizes, places);
    let frame = |record: usize| {
        let Size { width, height } = sizes[record];
        Frame {
            x: lefts[places[record].depth],
            y: middles[record] - height / 2,
            width,
            height,
        }
    };
    (0..sizes.len()).map(frame).collect()
}

/// The rows that a subtree has to itself.
#[derive(Clone, Copy)]
struct Rows {
    top: usize,
    height: usize,
}

fn rows(sizes: &[Size], places: &[Place], top: usize) -> Vec<Rows> {
    let below = children_heights(sizes, places);
    // Where the next child of each record begins.
    let mut next = vec![top; sizes.len()];
    let mut rows = Vec::with_capacity(sizes.len());
    for (record, place) in places.iter().enumerate() {
        let height = sizes[record].row().max(below[record]);
        let top = match place.parent {
            None => top,
            Some((parent, _)) => next[parent],
        };
        if let Some((parent, _)) = place.parent {
            next[parent] += height;
        }
        // Children that are lower than the box stand beside its middle.
        next[record] = top + (height - below[record]) / 2;
        rows.push(Rows { top, height });
    }
    rows
}

/// The height that each record's children take together. A record comes before its children, so they are added from the end.
fn children_heights(sizes: &[Size], places: &[Place]) -> Vec<usize> {
    let mut below = vec![0; sizes.len()];
    for (record, place) in places.iter().enumerate().rev() {
        if let Some((parent, _)) = place.parent {
            below[parent] += sizes[record].row().max(below[record]);
        }
    }
    below
}

/// The height at which each box has its middle: that of its children, but inside the subtree's own rows.
fn middles(sizes: &[Size], places: &[Place], rows: &[Rows]) -> Vec<usize> {
    let mut middles = vec![0; sizes.len()];
    // The children's middles of each record, the last child's first.
    let mut below: Vec<Vec<usize>> = vec![Vec::new(); sizes.len()];
    for (record, place) in places.iter().enumerate().rev() {
        let Rows { top, height } = rows[record];
        let half = sizes[record].row() / 2;
        let middle = middle_of(&below[record])
            .unwrap_or(top + height / 2)
            .clamp(top + half, top + height - half);
        if let Some((parent, _)) = place.parent {
            below[parent].push(middle);
        }
        middles[record] = middle;
    }
    middles
}

/// The height between the first and the last of these, or that of one close to it, whose line is straight then.
fn middle_of(heights: &[usize]) -> Option<usize> {
    let middle = (heights.first()? + heights.last()?) / 2;
    let nearest = heights
        .iter()
        .min_by_key(|height| height.abs_diff(middle))?;
    let is_close = nearest.abs_diff(middle) <= CLOSE;
    Some(if is_close { *nearest } else { middle })
}

/// The left edge of the column of each depth, which is as wide as its widest box.
fn lefts(sizes: &[Size], places: &[Place]) -> Vec<usize> {
    let deepest = places.iter().map(|place| place.depth).max().unwrap_or(0);
    let mut widths = vec![0; deepest + 1];
    for (size, place) in sizes.iter().zip(places) {
        widths[place.depth] = widths[place.depth].max(size.width);
    }
    // The root's depth is 1: nothing stands at 0, which has no gap either.
    let mut lefts = vec![MARGIN; 2];
    for depth in 2..=deepest {
        lefts.push(lefts[depth - 1] + widths[depth - 1] + COLUMN_GAP);
    }
    lefts
}
