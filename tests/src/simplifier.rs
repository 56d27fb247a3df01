//! The second simplifier: document 01's nine rules and its steps under an allowance, with the addresses
//! of CR 6 of document 02 and the paired symbols of CR 7, written apart from the library and in its own
//! way. A block that a rule makes has address 0, and a node that stays keeps its own. Every step learns in
//! one pass what the rules ask of the subtrees, then looks for the earliest record where one fits. It is
//! plain Rust, fast enough to be measured against the library.

use crate::evaluator;
use crate::format::*;
use crate::reader;
use crate::trees::{Amount, Kind, Tree};
use std::mem;

/// What simplifying answers and writes.
#[derive(Clone, Debug, PartialEq, Eq)]
pub struct Simplified {
    /// The written table.
    pub bytes: Vec<u8>,
    pub steps: u64,
    /// Whether no rule fits the written table.
    pub finished: bool,
}

/// Simplifying with an allowance of steps into a buffer of so many bytes: questions 1 to 8, then 10
/// with every value 0, then the steps.
pub fn simplify(table: &[u8], allowance: u64, out_len: usize) -> Result<Simplified, u64> {
    let mut tree = reader::check(table)?;
    if out_len < table.len() {
        return Err(8);
    }
    evaluator::evaluate(&tree, &ZEROS)?;
    let mut steps = 0;
    while steps < allowance && step(&mut tree).is_some() {
        steps += 1;
    }
    let bytes = tree.encode();
    // With allowance left it was a lack of rules that ended the steps.
    let finished = steps < allowance || step(&mut tree).is_none();
    Ok(Simplified {
        bytes,
        steps,
        finished,
    })
}

/// Every value 0, the later ones too.
const ZEROS: [u64; VALUES] = [0; VALUES];

/// Every table on the way to where no rule fits: the tree's own first, then one for each step.
#[derive(Clone, Debug)]
pub struct Trace {
    pub tables: Vec<Vec<u8>>,
    /// The rule of each step.
    pub rules: Vec<usize>,
}

impl Trace {
    /// What simplifying answers with that allowance.
    pub fn after(&self, allowance: u64) -> Simplified {
        let end = self.rules.len() as u64;
        let steps = allowance.min(end);
        Simplified {
            bytes: self.tables[steps as usize].clone(),
            steps,
            finished: steps == end,
        }
    }
}

pub fn trace(mut tree: Tree) -> Trace {
    let mut trace = Trace {
        tables: vec![tree.encode()],
        rules: Vec::new(),
    };
    while let Some(rule) = step(&mut tree) {
        trace.tables.push(tree.encode());
        trace.rules.push(rule);
    }
    trace
}

/// Takes a step, at the earliest record where a rule fits, and answers which rule it was: the lowest
/// that fits there. The tree has passed the questions.
pub fn step(tree: &mut Tree) -> Option<usize> {
    let facts = facts(tree);
    if become_the_figure(tree, &facts) {
        return Some(1);
    }
    step_from(tree, &facts)
}

/// A step at this node or one below. The facts are the node's, then those of the nodes below.
fn step_from(node: &mut Tree, facts: &[Facts]) -> Option<usize> {
    // Rule 1 aside, no rule speaks of blocks.
    if node.children.is_empty() {
        return None;
    }
    if let Some(place) = RULES.iter().position(|rule| rule(node, facts)) {
        return Some(2 + place);
    }
    let mut rest = &facts[1..];
    for child in &mut node.children {
        let rule = step_from(child, rest);
        if rule.is_some() {
            return rule;
        }
        rest = &rest[rest[0].records..];
    }
    None
}

/// A rule changes the node if it fits, and answers whether it did.
type Rule = fn(&mut Tree, &[Facts]) -> bool;

/// Rules 2 to 9.
const RULES: [Rule; 8] = [
    take_in_a_list,
    become_the_only_child,
    become_a_block,
    drop_a_zero,
    add_blocks,
    keep_the_largest_block,
    share_the_second_child,
    become_the_exit,
];

// What the rules ask.

/// What is known of a node's subtree. Loops are counted as byte 3 counts them, from the node outward.
#[derive(Clone, Copy, Debug)]
struct Facts {
    records: usize,
    is_symbol_free: bool,
    /// The outermost loop outside the subtree that a limit below the top names: 0 where there is
    /// none, 255 for the whole run.
    reach_below: u8,
    /// The same with the top's own limit. A block of a paired symbol is open: as if it had one in the run.
    reach: u8,
    /// The loop that the list names.
    names: u8,
}

impl Facts {
    /// No limit in the subtree names the whole run or a loop outside, and no block in it has a paired
    /// symbol.
    fn is_closed(&self) -> bool {
        self.reach == NO_LIMIT
    }

    /// Learns of a child, which may be the body of this loop.
    fn add(&mut self, child: &Facts, is_body: bool) {
        let (mut reach, mut names) = (child.reach, child.names);
        if is_body {
            reach = from_outside(reach, NO_LIMIT);
            names = from_outside(names, WHOLE_RUN);
        }
        self.records += child.records;
        self.is_symbol_free &= child.is_symbol_free;
        self.reach_below = self.reach_below.max(reach);
        self.names = self.names.min(names);
    }
}

/// The facts of every node, in the order of the records.
fn facts(tree: &Tree) -> Vec<Facts> {
    let mut facts = Vec::new();
    collect(tree, &mut facts);
    facts
}

/// Adds the facts of the node and of all below.
fn collect(node: &Tree, facts: &mut Vec<Facts>) {
    let mut known = Facts {
        records: 1,
        is_symbol_free: !has_symbol(node),
        reach_below: NO_LIMIT,
        reach: NO_LIMIT,
        names: WHOLE_RUN,
    };
    let place = facts.len();
    facts.push(known);
    for (at, child) in node.children.iter().enumerate() {
        let below = facts.len();
        collect(child, facts);
        known.add(&facts[below], at == 0 && is_loop(node));
    }
    known.reach = known.reach_below;
    if let Some(limit) = node.limit {
        known.reach = known.reach.max(limit.names);
        known.names = known.names.min(limit.names);
    }
    if node.paired_symbol().is_some() {
        known.reach = WHOLE_RUN;
    }
    facts[place] = known;
}

/// What a loop's body names, counted from the loop itself, which becomes `this`.
fn from_outside(names: u8, this: u8) -> u8 {
    match names {
        NO_LIMIT | WHOLE_RUN => names,
        1 => this,
        _ => names - 1,
    }
}

/// Whether the node itself has a symbol.
fn has_symbol(node: &Tree) -> bool {
    let is_symbol = |amount| !matches!(amount, Amount::Plain(_));
    let value_is_symbol = match node.kind {
        Kind::Block(amount) | Kind::Loop(amount) => is_symbol(amount),
        Kind::Sequence | Kind::Choice => false,
    };
    value_is_symbol || node.limit.is_some_and(|limit| is_symbol(limit.amount))
}

fn is_loop(node: &Tree) -> bool {
    matches!(node.kind, Kind::Loop(_))
}

fn is_sequence_or_choice(node: &Tree) -> bool {
    matches!(node.kind, Kind::Sequence | Kind::Choice)
}

/// The time of an unlimited plain block.
fn plain_time(node: &Tree) -> Option<u64> {
    match (node.kind, node.limit) {
        (Kind::Block(Amount::Plain(time)), None) => Some(time),
        _ => None,
    }
}

// The rules.

/// Rule 1: a symbol-free table becomes one unlimited block of its figure, unless it is that already,
/// its address aside.
fn become_the_figure(root: &mut Tree, facts: &[Facts]) -> bool {
    let fits = facts[0].is_symbol_free && plain_time(root).is_none();
    if fits {
        *root = Tree::block(first_member(root));
    }
    fits
}

/// The first member of a subtree without symbols, whose limits name loops in it or the whole run.
fn first_member(node: &Tree) -> u64 {
    let evaluated = evaluator::evaluate_at(node, 0, &ZEROS);
    let evaluated = evaluated.expect("question 10 says yes, and steps keep it so");
    evaluated.list.first()
}

/// Rule 2: an unlimited child sequence of a sequence (choice of a choice) gives way to its children,
/// if the count remains at most 255. The first child that meets all this is taken.
fn take_in_a_list(node: &mut Tree, _: &[Facts]) -> bool {
    if !is_sequence_or_choice(node) {
        return false;
    }
    let others = node.children.len() - 1;
    let first = node.children.iter().position(|child| {
        child.kind == node.kind
            && child.limit.is_none()
            && others + child.children.len() <= MOST_CHILDREN
    });
    if let Some(place) = first {
        let below = mem::take(&mut node.children[place].children);
        node.children.splice(place..=place, below);
    }
    first.is_some()
}

/// Rule 3: a sequence or choice of one child becomes the child, if at most one of the two has a
/// limit, which remains.
fn become_the_only_child(node: &mut Tree, _: &[Facts]) -> bool {
    let fits = is_sequence_or_choice(node)
        && node.children.len() == 1
        && (node.limit.is_none() || node.children[0].limit.is_none());
    if fits {
        let mut child = node.children.remove(0);
        child.limit = child.limit.or(node.limit);
        *node = child;
    }
    fits
}

/// Rule 4: a symbol-free node, not a block, whose children are each closed once limits naming that
/// node itself are set aside, becomes a block of its first member before its own limit, keeping that
/// limit.
fn become_a_block(node: &mut Tree, facts: &[Facts]) -> bool {
    // Limits below that name the node itself do not reach past it.
    let fits = facts[0].is_symbol_free && facts[0].reach_below == NO_LIMIT;
    if fits {
        let limit = node.limit.take();
        *node = Tree::block(first_member(node));
        node.limit = limit;
    }
    fits
}

/// Rule 5: in a sequence or choice of at least two children, the first unlimited plain block of time
/// 0 goes.
fn drop_a_zero(node: &mut Tree, _: &[Facts]) -> bool {
    if !is_sequence_or_choice(node) || node.children.len() < 2 {
        return false;
    }
    let mut times = node.children.iter().map(plain_time);
    let first = times.position(|time| time == Some(0));
    if let Some(place) = first {
        node.children.remove(place);
    }
    first.is_some()
}

/// Rule 6: in a sequence, two or more unlimited plain blocks become one of their sum, as first
/// child.
fn add_blocks(node: &mut Tree, _: &[Facts]) -> bool {
    let fits = node.kind == Kind::Sequence && has_two_plain_blocks(node);
    if fits {
        let sum = node.children.iter().filter_map(plain_time).sum();
        replace_plain_blocks(node, 0, sum);
    }
    fits
}

/// Rule 7: in a choice, two or more unlimited plain blocks become the largest, at the first one's
/// place.
fn keep_the_largest_block(node: &mut Tree, _: &[Facts]) -> bool {
    let fits = node.kind == Kind::Choice && has_two_plain_blocks(node);
    if fits {
        let times = || node.children.iter().map(plain_time);
        let first = times().take_while(Option::is_none).count();
        let largest = times().flatten().fold(0, u64::max);
        replace_plain_blocks(node, first, largest);
    }
    fits
}

fn has_two_plain_blocks(node: &Tree) -> bool {
    node.children.iter().filter_map(plain_time).nth(1).is_some()
}

/// Puts one block for all unlimited plain ones, at a place that has none of them before it.
fn replace_plain_blocks(node: &mut Tree, place: usize, time: u64) {
    node.children.retain(|child| plain_time(child).is_none());
    node.children.insert(place, Tree::block(time));
}

/// Rule 8: a choice of at least two unlimited two-child sequences with byte-equal, closed second
/// children, compared without addresses, becomes a sequence of a choice of the first children and the
/// first one's second child; the choice's limit and address go to the sequence.
fn share_the_second_child(node: &mut Tree, facts: &[Facts]) -> bool {
    let fits = node.kind == Kind::Choice
        && node.children.len() >= 2
        && node.children.iter().all(is_unlimited_pair)
        && first_pairs_second(facts).is_closed()
        && are_seconds_same(&node.children);
    if fits {
        let second = node.children[0].children.remove(1);
        let pairs = node.children.drain(..);
        let firsts = pairs.map(|mut pair| pair.children.remove(0)).collect();
        // Limit and address stay where they are, as the choice itself is turned into the sequence.
        node.kind = Kind::Sequence;
        node.children = vec![Tree::new(Kind::Choice, firsts), second];
    }
    fits
}

fn is_unlimited_pair(node: &Tree) -> bool {
    node.kind == Kind::Sequence && node.limit.is_none() && node.children.len() == 2
}

/// The facts of the second child of a choice's first child, a sequence of two.
fn first_pairs_second(choice: &[Facts]) -> Facts {
    let first = &choice[2..];
    first[first[0].records]
}

/// Trees are the same where their bytes are, those of addresses aside.
fn are_seconds_same(pairs: &[Tree]) -> bool {
    let mut seconds = pairs.iter().map(|pair| &pair.children[1]);
    seconds.all(|second| second.is_same(&pairs[0].children[1]))
}

/// Rule 9: an unlimited loop of plain bound 0, whose body's list names this loop or the whole run,
/// becomes its exit.
fn become_the_exit(node: &mut Tree, facts: &[Facts]) -> bool {
    let fits = node.kind == Kind::Loop(Amount::Plain(0))
        && node.limit.is_none()
        && matches!(facts[1].names, 1 | WHOLE_RUN);
    if fits {
        *node = node.children.remove(1);
    }
    fits
}
