//! A table as text.

use volefleece::{MOST_TABLE, RECORD_BYTES};

use crate::failure::Failure;
use crate::names::Names;
use crate::table::{self, Kind, Node, Place, Record, Scope};
use crate::words::node_words;

/// The text of a table that the library accepts, which gives its bytes back.
pub fn print(table: &[u8], names: &Names) -> String {
    let records = table::records(table);
    let nodes = table::nodes(table);
    let (places, _) = table::places(&records);
    let mut lines = Vec::new();
    let names_a_loop =
        |node: &Node| matches!(node.limit.map(|limit| limit.scope), Some(Scope::Loop(_)));
    if nodes.iter().any(names_a_loop) {
        lines.push(
            "# Loop 1 is the innermost loop around a node, loop 2 the next one outward.".into(),
        );
    }
    lines.extend(names.header(&table::symbols(&nodes)));
    if !lines.is_empty() {
        lines.push(String::new());
    }
    for (place, node) in places.iter().zip(&nodes) {
        let line = node_line(&records, place, node, names);
        lines.push(format!("{}{line}", indent(place)));
    }
    whole(&lines)
}

/// Some records of a table that the library accepts: of each its number and line, and below that the lines from the root down to it.
pub fn print_ways(table: &[u8], names: &Names, found: &[usize]) -> String {
    let records = table::records(table);
    let nodes = table::nodes(table);
    let (places, _) = table::places(&records);
    let line = |at: usize| node_line(&records, &places[at], &nodes[at], names);
    let mut lines = Vec::new();
    for &at in found {
        lines.push(format!("record {at}: {}", line(at)));
        for above in table::way_down(&places, at) {
            let indent = indent(&places[above]);
            lines.push(format!("  {indent}{} # record {above}", line(above)));
        }
    }
    whole(&lines)
}

/// A table that the library refuses, as far as it can be read: the refusal, then each record by its number, as a node where it is one.
pub fn print_refused(table: &[u8], names: &Names, failure: &Failure) -> String {
    let records = table::records(table);
    let (places, _) = table::places(&records);
    let mut lines = Vec::new();
    for (at, record) in records.iter().enumerate() {
        let place = places.get(at);
        let before = place.map_or(String::new(), |place| indent(place) + role(&records, place));
        let words = match record.node() {
            Some(node) => node_words(&node, names),
            None => hexadecimal(&record.bytes()),
        };
        lines.push(format!("{before}{words} # record {at}"));
    }
    let left = &table[records.len() * RECORD_BYTES..];
    if table.len() > MOST_TABLE {
        lines.push("# More follows.".into());
    } else if !left.is_empty() {
        lines.push(format!("{} # no whole record", hexadecimal(left)));
    }
    failure.commented() + &whole(&lines)
}

/// The line of a node without its indent.
fn node_line(records: &[Record], place: &Place, node: &Node, names: &Names) -> String {
    format!("{}{}", role(records, place), node_words(node, names))
}

fn whole(lines: &[String]) -> String {
    lines.iter().map(|line| format!("{line}\n")).collect()
}

fn indent(place: &Place) -> String {
    "  ".repeat(place.depth - 1)
}

/// What a loop's child is to it.
fn role(records: &[Record], place: &Place) -> &'static str {
    let is_loop = |parent: usize| matches!(records[parent].node(), Some(node) if matches!(node.kind, Kind::Loop(_)));
    match place.parent {
        Some((parent, 0)) if is_loop(parent) => "body ",
        Some((parent, 1)) if is_loop(parent) => "exit ",
        _ => "",
    }
}

fn hexadecimal(bytes: &[u8]) -> String {
    let bytes: Vec<String> = bytes.iter().map(|byte| format!("{byte:02x}")).collect();
    format!("bytes {}", bytes.join(" "))
}
