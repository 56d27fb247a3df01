//! A tree as text: a node on each line, its children below it and further in.

mod node;
mod print;

use super::header;
use super::lines::{lines, Line, Problem, Problems, Word};
use crate::names::Names;
use crate::table::{Kind, Node};

pub use print::{print, print_refused, print_ways};

/// The most children that a record can have.
const MOST_CHILDREN: usize = 255;

const IN_LOOPS_ALONE: &str = "expected a kind: \"body\" and \"exit\" stand in loops alone";

/// A text's table, which the library has yet to accept, and the line of each of its records.
#[derive(Clone, Debug, PartialEq, Eq)]
pub struct Parsed {
    pub table: Vec<u8>,
    pub lines: Vec<usize>,
}

/// A child's part in its loop.
#[derive(Clone, Copy, Debug, PartialEq, Eq)]
enum Role {
    Body,
    Exit,
}

/// A line's node, what stands before it on its line, and how many children it has so far.
struct Entry<'t> {
    first: Word<'t>,
    role: Option<Role>,
    /// None where the line does not say its kind.
    node: Option<Node>,
    children: usize,
}

/// The table of a text, or all that is wrong with it. Its names are taken in beside those that are known.
pub fn parse(text: &str, names: &mut Names) -> Result<Parsed, Problems> {
    let mut outline = Outline::default();
    for mut line in lines(text) {
        let first = line.peek();
        if !header::begins(&first) {
            outline.add(&mut line, names);
        } else if outline.entries.is_empty() {
            outline
                .problems
                .extend(header::read(&mut line, names).err());
        } else {
            let problem = first.problem("expected a node: names stand before the first one");
            outline.problems.push(problem);
        }
    }
    outline.finish()
}

/// The nodes read so far.
#[derive(Default)]
struct Outline<'t> {
    entries: Vec<Entry<'t>>,
    /// The entries from the root to the last one, each with its indent.
    open: Vec<(usize, usize)>,
    problems: Problems,
}

impl<'t> Outline<'t> {
    /// Reads a node's line. What is wrong with it is kept, and the lines after it are read as if it were right.
    fn add(&mut self, line: &mut Line<'t>, names: &Names) {
        let first = line.peek();
        let (indent, wrong_indent) = line.indent();
        let role = role(line);
        let (node, problem) = node::read(line, names);
        self.open_at(indent, &first, role);
        self.problems
            .extend(wrong_indent.into_iter().chain(problem));
        self.entries.push(Entry {
            first,
            role,
            node,
            children: 0,
        });
    }

    /// Finds the node that the next one is a child of, by its indent.
    fn open_at(&mut self, indent: usize, first: &Word, role: Option<Role>) {
        let mut sibling = None;
        while let Some(&(entry, within)) = self.open.last() {
            if within < indent {
                break;
            }
            sibling = Some((entry, within));
            self.open.pop();
        }
        match (sibling, self.open.last()) {
            (Some((_, within)), _) if within != indent => {
                let message = format!("expected the indent of a line above, found one of {indent}");
                self.problems.push(first.problem(message));
            }
            (Some(_), None) => self
                .problems
                .push(first.problem("expected one root, and this is a second")),
            _ => {}
        }
        if let Some(&(parent, within)) = self.open.last() {
            self.add_child(parent, within, first, role);
        }
        self.open.push((self.entries.len(), indent));
    }

    /// Takes in a child of a node, whose line has that indent.
    fn add_child(&mut self, parent: usize, indent: usize, first: &Word, role: Option<Role>) {
        let parent = &mut self.entries[parent];
        let before = parent.children;
        parent.children += 1;
        let Some(node) = parent.node else { return };
        let problem = match (node.kind, before, role) {
            (Kind::Block(_), ..) => {
                let message =
                    format!("expected an indent of at most {indent}: a block has nothing below it");
                self.problems.push(first.problem(message));
                return;
            }
            (Kind::Loop(_), 0, Some(Role::Body)) | (Kind::Loop(_), 1, Some(Role::Exit)) => return,
            (Kind::Loop(_), 0, _) => "expected \"body\": a loop's body comes first",
            (Kind::Loop(_), 1, _) => "expected \"exit\": a loop's exit comes after its body",
            (Kind::Loop(_), ..) => "expected nothing more: a loop has a body and an exit",
            (Kind::Sequence | Kind::Choice, MOST_CHILDREN.., _) => {
                "expected at most 255 children, and this is one more"
            }
            (Kind::Sequence | Kind::Choice, _, Some(_)) => IN_LOOPS_ALONE,
            _ => return,
        };
        self.problems.push(first.problem(problem));
    }

    fn finish(mut self) -> Result<Parsed, Problems> {
        for entry in &self.entries {
            self.problems.extend(entry.wants());
        }
        if let Some(root) = self.entries.first().filter(|root| root.role.is_some()) {
            self.problems.push(root.first.problem(IN_LOOPS_ALONE));
        }
        if self.entries.is_empty() && self.problems.is_empty() {
            let (line, column) = (1, 1);
            let message = "expected a node, and there is none".into();
            self.problems.push(Problem {
                line,
                column,
                message,
            });
        }
        if !self.problems.is_empty() {
            self.problems
                .sort_by_key(|problem| (problem.line, problem.column));
            return Err(self.problems);
        }
        let nodes = self.entries.iter().filter_map(Entry::node);
        Ok(Parsed {
            table: nodes.flat_map(|node| node.record().bytes()).collect(),
            lines: self.entries.iter().map(|entry| entry.first.line).collect(),
        })
    }
}

impl Entry<'_> {
    /// The node with its children.
    fn node(&self) -> Option<Node> {
        let children = u8::try_from(self.children).ok()?;
        self.node.map(|node| Node { children, ..node })
    }

    /// What is missing below the node.
    fn wants(&self) -> Option<Problem> {
        let wants = match (self.node?.kind, self.children) {
            (Kind::Sequence | Kind::Choice, 0) => "expected at least one node below it, further in",
            (Kind::Loop(_), 0) => "expected a body and an exit below it, further in",
            (Kind::Loop(_), 1) => "expected an exit below it, after its body",
            _ => return None,
        };
        Some(self.first.problem(wants))
    }
}

fn role(line: &mut Line) -> Option<Role> {
    if line.take("body") {
        Some(Role::Body)
    } else if line.take("exit") {
        Some(Role::Exit)
    } else {
        None
    }
}
