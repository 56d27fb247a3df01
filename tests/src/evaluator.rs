//! The second evaluator: document 01's evaluation and questions 8 to 10, and questions 13 and 14, the
//! branch and the paired symbols of document 02, written apart from the library and in its own way. A
//! named loop is its level, and a sequence or choice joins the lists of all its children at once. It is
//! plain Rust, fast enough to be measured against the library.

use crate::format::*;
use crate::reader;
use crate::trees::{Amount, Kind, Limit, Tree};
use std::cmp::Reverse;

/// A value and how often it stands in a list. The last pair's count is 0, meaning for ever.
pub type Pair = (u64, u64);

/// What the figure call answers.
#[derive(Clone, Copy, Debug, PartialEq, Eq)]
pub struct Quoted {
    pub figure: u64,
    /// The root choice's child that sets the figure, counted from 0, or `NO_BRANCH`.
    pub branch: u64,
}

/// The figure call: questions 1 to 7, 9, 13, 14 and 10, then the figure and its branch.
pub fn figure(table: &[u8], values: &[u64]) -> Result<Quoted, u64> {
    let tree = reader::check(table)?;
    let root = evaluate(&tree, values)?;
    Ok(root.quoted())
}

/// The list call on a buffer of so many numbers: questions 1 to 9, 13, 14 and 10, then the pairs.
pub fn list(table: &[u8], values: &[u64], room: usize) -> Result<Vec<Pair>, u64> {
    let tree = reader::check(table)?;
    if room < LIST_ROOM {
        return Err(8);
    }
    let root = evaluate(&tree, values)?;
    Ok(root.list.into_pairs())
}

/// Questions 9, 13, 14 and 10, then the root's list.
pub fn evaluate(tree: &Tree, values: &[u64]) -> Result<Evaluated, u64> {
    if !are_values(values, VALUES) {
        return Err(9);
    }
    if !fits_flag_4(tree, values) {
        return Err(13);
    }
    if !are_laters_low(values) {
        return Err(14);
    }
    evaluate_at(tree, 0, values)
}

/// The same of a former tree with 32 values, from before CR 7 of document 02: every symbol stood for one
/// number, the same at each pass, as a plain block's time is.
pub fn evaluate_former(tree: &Tree, values: &[u64]) -> Result<Evaluated, u64> {
    if !are_values(values, FORMER_VALUES) {
        return Err(9);
    }
    if !fits_flag_4(tree, values) {
        return Err(13);
    }
    evaluate_at(&with_plain_pairs(tree, values), 0, values)
}

fn with_plain_pairs(tree: &Tree, values: &[u64]) -> Tree {
    let mut tree = tree.clone();
    tree.visit_mut(&mut |node| {
        if let Some(symbol) = node.paired_symbol() {
            node.kind = Kind::Block(Amount::Plain(values[symbol as usize]));
        }
    });
    tree
}

/// Question 9: are there exactly so many values, numbers 0 to 15 at most 1,000,000 and those from 16 on
/// at most 1,000,000,000,000?
fn are_values(values: &[u64], count: usize) -> bool {
    values.len() == count && (0..).zip(values).all(|(at, &value)| value <= ceiling(at))
}

fn ceiling(value: u64) -> u64 {
    if COUNT_SYMBOLS.contains(&value) {
        MOST_COUNT
    } else {
        MOST_TIME
    }
}

/// Question 13: is the value of each symbol that stands under flag 4 in this tree at most 1,000?
fn fits_flag_4(tree: &Tree, values: &[u64]) -> bool {
    let fits = match tree.limit.map(|limit| limit.amount) {
        Some(Amount::Triangular(symbol)) => values[symbol as usize] <= MOST_TRIANGULAR,
        _ => true,
    };
    let mut children = tree.children.iter();
    fits && children.all(|child| fits_flag_4(child, values))
}

/// Question 14: is each later value, used or not, at most its first?
fn are_laters_low(values: &[u64]) -> bool {
    let mut firsts = PAIRED_SYMBOLS.map(|symbol| symbol as usize);
    firsts.all(|first| values[first + LATER] <= values[first])
}

/// A node's value.
#[derive(Clone, Debug, PartialEq, Eq)]
pub struct Evaluated {
    pub list: List,
    /// The level of the named loop: 0 is the whole run, 1 the outermost loop around the node, and
    /// so on inward. The innermost of some loops is thus the largest level.
    pub level: usize,
    /// Of a choice: the child with the largest first member, the earliest of equal ones. No other node
    /// has one.
    pub branch: Option<usize>,
}

impl Evaluated {
    /// What the figure call answers where this is the root's value.
    pub fn quoted(&self) -> Quoted {
        Quoted {
            figure: self.list.first(),
            branch: self.branch.map_or(NO_BRANCH, |place| place as u64),
        }
    }
}

/// The value of a node that has so many loops around it, or 10, question 10's refusal. The values
/// have passed questions 9, 13 and 14.
pub fn evaluate_at(tree: &Tree, around: usize, values: &[u64]) -> Result<Evaluated, u64> {
    let before_limit = match tree.kind {
        Kind::Block(time) => branchless(passed_for_ever(tree, number(time, values), values), 0),
        Kind::Sequence => join(&children(tree, around, values)?, added),
        Kind::Choice => {
            let children = children(tree, around, values)?;
            Evaluated {
                branch: first_largest(&children),
                ..join(&children, taken_together)
            }
        }
        Kind::Loop(bound) => {
            let body = evaluate_at(&tree.children[0], around + 1, values)?;
            let exit = evaluate_at(&tree.children[1], around, values)?;
            let passes = passes(body, number(bound, values), around + 1);
            join(&[passes, exit], added)
        }
    };
    if before_limit.list.first() > MOST_TIME {
        return Err(10);
    }
    Ok(match tree.limit {
        None => before_limit,
        Some(limit) => limited(before_limit, limit, around, values),
    })
}

/// A block's list: its time for ever, or of a paired symbol the first value and then the later one for
/// ever.
fn passed_for_ever(block: &Tree, time: u64, values: &[u64]) -> List {
    match block.paired_symbol() {
        None => List::constant(time),
        Some(symbol) => List::once_then(time, values[symbol as usize + LATER]),
    }
}

fn children(tree: &Tree, around: usize, values: &[u64]) -> Result<Vec<Evaluated>, u64> {
    let mut children = Vec::with_capacity(tree.children.len());
    for child in &tree.children {
        children.push(evaluate_at(child, around, values)?);
    }
    Ok(children)
}

/// The value of what is no choice.
fn branchless(list: List, level: usize) -> Evaluated {
    Evaluated {
        list,
        level,
        branch: None,
    }
}

/// A sequence's value, and a choice's but for its branch. It names the innermost loop named by any
/// child, even where the list is constant.
fn join(children: &[Evaluated], lists: fn(&[Evaluated]) -> List) -> Evaluated {
    let level = children.iter().map(|child| child.level).max().unwrap_or(0);
    branchless(lists(children), level)
}

/// The first place of the largest first member. The children's own limits are in their lists.
fn first_largest(children: &[Evaluated]) -> Option<usize> {
    let mut firsts = children.iter().map(|child| child.list.first());
    let largest = firsts.clone().max()?;
    firsts.position(|first| first == largest)
}

/// What the passes of a loop's body add up to. `this` is the loop's own level.
fn passes(body: Evaluated, bound: u64, this: usize) -> Evaluated {
    if body.level == this {
        branchless(List::constant(body.list.first_sum(bound)), 0)
    } else {
        branchless(body.list.grouped(bound), body.level)
    }
}

fn limited(node: Evaluated, limit: Limit, around: usize, values: &[u64]) -> Evaluated {
    let level = match limit.names {
        WHOLE_RUN => 0,
        // 1 is the innermost loop around the node, whose level is the number of those loops.
        names => around + 1 - usize::from(names),
    };
    Evaluated {
        list: node.list.cut(number(limit.amount, values)),
        level: node.level.max(level),
        ..node
    }
}

fn number(amount: Amount, values: &[u64]) -> u64 {
    match amount {
        Amount::Plain(number) => number,
        Amount::Symbol(symbol) => values[symbol as usize],
        Amount::Triangular(symbol) => triangular(values[symbol as usize]),
    }
}

/// 0, 1, 3, 6 and so on.
fn triangular(number: u64) -> u64 {
    number * (number + 1) / 2
}

/// An endless list that never rises.
///
/// Members are at most 1,000,000,000,000 wherever question 10 has said yes, so a sum of 255 of them
/// or of the 1,000,000 in a group is below 2 to the power of 60.
#[derive(Clone, Debug, PartialEq, Eq)]
pub struct List {
    /// The runs of equal members before the endless one. Their values fall strictly and are above
    /// `rest`; no count is 0.
    runs: Vec<Run>,
    /// The value of every member after the runs.
    rest: u64,
}

#[derive(Clone, Copy, Debug, PartialEq, Eq)]
struct Run {
    value: u64,
    count: u64,
}

impl List {
    fn constant(value: u64) -> Self {
        List {
            runs: Vec::new(),
            rest: value,
        }
    }

    /// One member, and those after it, which are no larger.
    fn once_then(first: u64, rest: u64) -> Self {
        let once = Run {
            value: first,
            count: 1,
        };
        List {
            runs: if first > rest { vec![once] } else { Vec::new() },
            rest,
        }
    }

    pub fn first(&self) -> u64 {
        self.runs.first().map_or(self.rest, |run| run.value)
    }

    /// The pairs that the list call writes.
    pub fn into_pairs(self) -> Vec<Pair> {
        let runs = self.runs.into_iter().map(|run| (run.value, run.count));
        runs.chain([(self.rest, 0)]).collect()
    }

    /// The sum of the first members, so many of them.
    fn first_sum(&self, members: u64) -> u64 {
        let mut left = members;
        let mut sum = 0;
        for run in &self.runs {
            let taken = run.count.min(left);
            sum += taken * run.value;
            left -= taken;
        }
        sum + left * self.rest
    }

    /// The sums of the groups of so many members.
    fn grouped(&self, size: u64) -> List {
        if size == 0 {
            return List::constant(0);
        }
        let mut groups = Groups {
            size,
            full: Vec::with_capacity(2 * self.runs.len()),
            members: 0,
            sum: 0,
        };
        for &run in &self.runs {
            groups.add(run);
        }
        groups.into_list(self.rest)
    }

    /// The first members, so many of them, and 0 after.
    fn cut(mut self, members: u64) -> List {
        let mut left = members;
        for run in &mut self.runs {
            run.count = run.count.min(left);
            left -= run.count;
        }
        self.runs.retain(|run| run.count > 0);
        if left > 0 && self.rest > 0 {
            self.runs.push(Run {
                value: self.rest,
                count: left,
            });
        }
        self.rest = 0;
        self
    }
}

/// The groups of `size` members that some runs make.
///
/// The sums of neighbouring runs of groups differ: a group of unlike members is below the one before
/// it and above the one after it.
struct Groups {
    size: u64,
    full: Vec<Run>,
    /// The members of the group that is not yet full, and their sum.
    members: u64,
    sum: u64,
}

impl Groups {
    fn add(&mut self, Run { value, count }: Run) {
        let mut left = count;
        if self.members > 0 {
            let taken = left.min(self.size - self.members);
            self.members += taken;
            self.sum += taken * value;
            left -= taken;
            if self.members < self.size {
                return;
            }
            self.push(self.sum, 1);
        }
        if left >= self.size {
            self.push(self.size * value, left / self.size);
        }
        self.members = left % self.size;
        self.sum = self.members * value;
    }

    fn push(&mut self, value: u64, count: u64) {
        self.full.push(Run { value, count });
    }

    fn into_list(mut self, rest: u64) -> List {
        if self.members > 0 {
            let missing = self.size - self.members;
            self.push(self.sum + missing * rest, 1);
        }
        List {
            runs: self.full,
            rest: self.size * rest,
        }
    }
}

/// The lists added place by place: the sum falls wherever one of them does, by as much as they fall
/// there together.
fn added(nodes: &[Evaluated]) -> List {
    let mut falls = Vec::new();
    for List { runs, rest } in nodes.iter().map(|node| &node.list) {
        let mut place = 0;
        for (at, run) in runs.iter().enumerate() {
            place += run.count;
            let next = runs.get(at + 1).map_or(*rest, |next| next.value);
            falls.push((place, run.value - next));
        }
    }
    falls.sort_unstable_by_key(|&(place, _)| place);

    let mut runs: Vec<Run> = Vec::with_capacity(falls.len());
    let mut value = nodes.iter().map(|node| node.list.first()).sum();
    let mut reached = 0;
    for (place, fall) in falls {
        if place > reached {
            let count = place - reached;
            runs.push(Run { value, count });
            reached = place;
        }
        value -= fall;
    }
    List { runs, rest: value }
}

/// The lists' members taken together, largest first. No member below the largest that repeats for
/// ever is ever reached.
fn taken_together(nodes: &[Evaluated]) -> List {
    let lists = nodes.iter().map(|node| &node.list);
    let rest = lists.clone().map(|list| list.rest).max().unwrap_or(0);
    let mut runs: Vec<Run> = lists
        .flat_map(|list| list.runs.iter().copied())
        .filter(|run| run.value > rest)
        .collect();
    runs.sort_unstable_by_key(|run| Reverse(run.value));
    runs.dedup_by(|later, earlier| {
        let equal = later.value == earlier.value;
        if equal {
            earlier.count += later.count;
        }
        equal
    });
    List { runs, rest }
}
