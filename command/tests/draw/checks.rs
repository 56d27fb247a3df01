//! What must hold of every picture.

use super::case::{paired, Case, Expected};
use super::picture::{squeezed, Area, Link, Picture};
use volefleece_tests::trees::Kind;

/// How far the stroke of a box or of a line reaches to each side.
const EDGE: f64 = 1.5;

/// Puts every question to a case's picture.
pub fn check(case: &Case) -> Picture {
    let picture = case.draw();
    check_title(case, &picture);
    check_nodes(case, &picture);
    check_marks(case, &picture);
    check_legend(case, &picture);
    check_order(case, &picture);
    check_links(case, &picture);
    check_room(&picture);
    check_crossings(&picture);
    picture
}

fn check_title(case: &Case, picture: &Picture) {
    assert_eq!(squeezed(&picture.title), squeezed(&picture.heading));
    assert!(picture.title.contains(&case.tree.records().to_string()));
    let name = case.names.house();
    assert!(name.is_none_or(|name| picture.title.starts_with(name)));
}

/// Every record has one box with its words, in the shape of its kind.
fn check_nodes(case: &Case, picture: &Picture) {
    let expected = case.expected();
    assert_eq!(picture.nodes.len(), expected.len());
    for (node, expected) in picture.nodes.iter().zip(&expected) {
        assert_eq!(node.label(), squeezed(&case.words(expected)));
        let (kind, shape) = match expected.tree.kind {
            Kind::Block(_) => ("block", "corners of 0"),
            Kind::Sequence => ("sequence", "corners of 5"),
            Kind::Choice => ("choice", "points"),
            Kind::Loop(_) => ("loop", "corners of 12"),
        };
        let kind = if node.marked {
            format!("{kind} marked")
        } else {
            kind.into()
        };
        assert_eq!((&node.classes, node.shape.as_str()), (&kind, shape));
    }
}

/// Exactly the branch is marked, with the lines in it and to it and the ground under it.
fn check_marks(case: &Case, picture: &Picture) {
    let marked = case.marked();
    for (record, node) in picture.nodes.iter().enumerate() {
        assert_eq!(node.marked, marked.contains(&record), "record {record}");
        let on_band = picture.band.is_some_and(|band| band.overlaps(&node.area));
        assert_eq!(on_band, node.marked, "record {record}");
    }
    for (place, link) in picture.links.iter().enumerate() {
        assert_eq!(
            link.marked,
            marked.contains(&(place + 1)),
            "line to {}",
            place + 1
        );
    }
    // The line to the branch is over those that it shares a stretch with.
    assert!(picture.drawn_marks.is_sorted());
}

/// The legend has a sample of each kind, and says what a mark, a limit, and first and later mean where there are any.
fn check_legend(case: &Case, picture: &Picture) {
    assert_eq!(picture.samples.len(), 4);
    let lines = picture.loose.iter();
    let legend: String = lines.map(|text| squeezed(&text.content)).collect();
    let has_limits = case.tree != case.tree.unlimited();
    assert_eq!(legend.contains("atmost3perrun:"), has_limits);
    let has_pairs = case
        .expected()
        .iter()
        .any(|node| paired(node.tree).is_some());
    assert_eq!(legend.contains("firstandlater:"), has_pairs);
    let is_marked = !case.marked().is_empty();
    assert_eq!(legend.contains("setsthequote"), is_marked);
    if let Some(child) = case.branch.filter(|_| is_marked) {
        let name = case.names.branch(child).unwrap_or("");
        let words = format!("bold: branch {child} {name} sets the quote");
        assert!(legend.contains(&squeezed(&words)), "{legend}");
    }
}

/// A column for each depth, children from top to bottom and their parent beside their middle.
fn check_order(case: &Case, picture: &Picture) {
    let expected = case.expected();
    let deepest = expected.iter().map(|node| node.depth).max().unwrap_or(0);
    let mut columns: Vec<Option<Area>> = vec![None; deepest + 1];
    for (node, expected) in picture.nodes.iter().zip(&expected) {
        let column = columns[expected.depth].get_or_insert(node.area);
        assert_eq!(column.left, node.area.left);
        column.right = column.right.max(node.area.right);
    }
    let columns: Vec<Area> = columns.into_iter().flatten().collect();
    assert!(columns.windows(2).all(|pair| pair[0].right < pair[1].left));

    for (record, node) in picture.nodes.iter().enumerate() {
        let is_child = |child: &Expected| child.parent.is_some_and(|(parent, _)| parent == record);
        let drawn = picture.nodes.iter().zip(&expected);
        let children = drawn.filter(|(_, child)| is_child(child));
        let middles: Vec<f64> = children.map(|(child, _)| child.area.middle()).collect();
        assert!(middles.windows(2).all(|pair| pair[0] < pair[1]));
        if let (Some(first), Some(last)) = (middles.first(), middles.last()) {
            let away = (node.area.middle() - (first + last) / 2.0).abs();
            // A box that is higher than its children cannot always stand at their middle.
            let most = f64::max(13.0, node.area.height() / 2.0 + 8.0);
            assert!(away <= most, "record {record}");
        }
    }
}

/// A line from each parent to each child; of a loop's, body and exit have their words and only the exit's is dashed.
fn check_links(case: &Case, picture: &Picture) {
    let expected = case.expected();
    assert_eq!(picture.links.len(), expected.len() - 1);
    for (place, link) in picture.links.iter().enumerate() {
        let record = place + 1;
        let (parent, child) = expected[record].parent.expect("a parent");
        let (from, to) = (picture.nodes[parent].area, picture.nodes[record].area);
        assert_eq!(link.points.last(), Some(&(to.left, to.middle())));
        let start = link.points[0];
        assert_eq!(start.1, from.middle());
        if child == 0 {
            assert_eq!(start.0, from.right);
        } else {
            assert!(on_stem(start, &picture.links[parent]), "line to {record}");
        }
        let part = match (expected[parent].tree.kind, child) {
            (Kind::Loop(_), 0) => Some("body"),
            (Kind::Loop(_), _) => Some("exit"),
            _ => None,
        };
        assert_eq!(picture.words_before(record), Vec::from_iter(part));
        assert_eq!(link.classes.contains("exit"), part == Some("exit"));
    }
}

/// Whether a line begins on the first stretch of the line to its eldest brother, which is the next record after their parent.
fn on_stem((x, _): (f64, f64), eldest: &Link) -> bool {
    (eldest.points[0].0..=eldest.points[1].0).contains(&x)
}

/// Everything has its place on the page: boxes and texts apart from each other, and labels inside their boxes.
fn check_room(picture: &Picture) {
    for node in &picture.nodes {
        for text in &node.texts {
            assert!(node.area.holds(&text.area), "{}", text.content);
        }
        let lines: Vec<Area> = node.texts.iter().map(|text| text.area).collect();
        assert_apart(&lines);
    }
    let nodes = picture.nodes.iter().map(|node| &node.area);
    let boxes = nodes.chain(&picture.samples).map(wider);
    let outside: Vec<Area> = picture.outside().map(|text| text.area).collect();
    // The others are the samples' words.
    assert_eq!(outside.len(), picture.loose.len() - picture.samples.len());
    let areas: Vec<Area> = boxes.chain(outside).collect();
    assert_apart(&areas);
    let mut drawn = areas.iter().chain(&picture.band);
    assert!(drawn.all(|area| picture.page.holds(area)));
}

fn assert_apart(areas: &[Area]) {
    for (place, area) in areas.iter().enumerate() {
        for other in &areas[place + 1..] {
            assert!(!area.overlaps(other), "{area:?} {other:?}");
        }
    }
}

fn wider(area: &Area) -> Area {
    Area {
        left: area.left - EDGE,
        top: area.top - EDGE,
        right: area.right + EDGE,
        bottom: area.bottom + EDGE,
    }
}

/// No line runs through a box or a text.
fn check_crossings(picture: &Picture) {
    let nodes = picture.nodes.iter().map(|node| node.area);
    let texts = picture.loose.iter().map(|text| text.area);
    let areas: Vec<Area> = nodes.chain(texts).collect();
    for segment in picture.links.iter().flat_map(Link::segments) {
        let crossed = areas.iter().find(|area| area.overlaps(&along(&segment)));
        assert_eq!(crossed, None, "{segment:?}");
    }
}

/// A line's area, up to the boxes that it joins.
fn along(segment: &Area) -> Area {
    let is_level = segment.top == segment.bottom;
    let (side, up) = if is_level { (0.0, EDGE) } else { (EDGE, 0.0) };
    Area {
        left: segment.left - side,
        top: segment.top - up,
        right: segment.right + side,
        bottom: segment.bottom + up,
    }
}
