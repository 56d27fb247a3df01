//! Random trees whose size, depth, loops and weight are known by construction.

use super::addresses::put_addresses;
use super::pairs::{put_weights, single};
use super::triangles::often_triangular;
use super::{Amount, Kind, Limit, Tree};
use crate::format::*;
use crate::rng::Rng;
use std::ops::RangeInclusive;

/// A tree of exactly that many records that every question accepts, often with paired symbols and limits
/// up to the full weight.
pub fn within_limits(rng: &mut Rng, records: usize) -> Tree {
    let mut tree = without_limits(rng, records);
    let weight = match rng.index(4) {
        0 => 0,
        1 => MOST_WEIGHT,
        _ => rng.within(1..=MOST_WEIGHT),
    };
    put_weights(rng, &mut tree, weight);
    tree
}

/// A tree without limits and paired symbols of exactly that many records, grown at random or, where it
/// can be, along a spine with many loops.
pub fn without_limits(rng: &mut Rng, records: usize) -> Tree {
    if (9..=200).contains(&records) && rng.once_in(2) {
        let depth = rng.size(5..=MOST_DEPTH.min(records.div_ceil(2)));
        let loops = rng.size(3..=MOST_LOOPS.min(depth - 2));
        let mut tree = spine(rng, depth, loops);
        pad(rng, &mut tree, records);
        tree
    } else {
        let depth = rng.size(3..=MOST_DEPTH);
        let loops = rng.size(0..=MOST_LOOPS);
        grow(rng, records, depth, loops)
    }
}

/// A tree about as deep, and with about as many loops around a node, as question 5 allows; with both numbers.
pub fn about_question_5(rng: &mut Rng) -> (Tree, usize, usize) {
    let depth = rng.size(29..=35);
    let loops = rng.size(6..=10);
    let mut tree = spine(rng, depth, loops);
    let size = tree.records() + rng.size(0..=20);
    pad(rng, &mut tree, size);
    let weight = rng.within(0..=MOST_WEIGHT);
    put_weights(rng, &mut tree, weight);
    (tree, depth, loops)
}

/// A tree without limits and paired symbols of exactly that many records, at most that deep, with at most
/// that many loops around any node.
pub fn grow(rng: &mut Rng, records: usize, depth: usize, loops: usize) -> Tree {
    assert!((1..=capacity(depth)).contains(&records), "no such tree");
    let mut tree = node(rng, records, depth, loops);
    put_addresses(rng, &mut tree);
    tree
}

/// A node of such a tree, and all below it.
fn node(rng: &mut Rng, records: usize, depth: usize, loops: usize) -> Tree {
    if records == 1 {
        return block(rng);
    }
    let below = records - 1;
    let most = capacity(depth - 1);
    let may_loop = loops > 0 && (LOOP_CHILDREN..=LOOP_CHILDREN * most).contains(&below);
    if may_loop && rng.once_in(3) {
        let parts = split(rng, below, LOOP_CHILDREN, most);
        let body = node(rng, parts[0], depth - 1, loops - 1);
        let exit = node(rng, parts[1], depth - 1, loops);
        return Tree::new(Kind::Loop(count(rng)), vec![body, exit]);
    }
    let parts = random_parts(rng, below, most);
    let children = parts
        .into_iter()
        .map(|part| node(rng, part, depth - 1, loops))
        .collect();
    Tree::new(sequence_or_choice(rng), children)
}

/// How many records a table has room for in a tree of that depth.
pub(super) fn capacity(depth: usize) -> usize {
    match depth {
        0 => 0,
        1 => 1,
        _ => MOST_RECORDS.min(1 + MOST_CHILDREN * capacity(depth - 1)),
    }
}

/// A few children as a rule, and at times as many as can be.
pub(super) fn random_parts(rng: &mut Rng, total: usize, most: usize) -> Vec<usize> {
    let fewest = total.div_ceil(most);
    let many = total.min(MOST_CHILDREN);
    let few = many.min(fewest + 3);
    let parts = match rng.index(8) {
        0 => many,
        1 => rng.size(fewest..=many),
        _ => rng.size(fewest..=few),
    };
    split(rng, total, parts, most)
}

/// Splits a total into parts of 1 to `most`, in random order.
pub(super) fn split(rng: &mut Rng, total: usize, parts: usize, most: usize) -> Vec<usize> {
    let mut left = total;
    let mut sizes = Vec::with_capacity(parts);
    for later in (0..parts).rev() {
        let fewest = left.saturating_sub(later * most).max(1);
        let size = rng.size(fewest..=most.min(left - later));
        sizes.push(size);
        left -= size;
    }
    rng.shuffle(&mut sizes);
    sizes
}

/// How a spine goes on from a node to the next one below.
#[derive(Clone, Copy)]
enum Step {
    Body,
    Exit,
    List,
}

/// A tree without limits and paired symbols that is exactly that deep and has exactly that many loops
/// around its deepest node, and no more around any other. The depth is at least the loops and 2, so that
/// some step is a list, and there are at most two records for each step below the root.
pub fn spine(rng: &mut Rng, depth: usize, loops: usize) -> Tree {
    let steps = spine_steps(rng, depth, loops);
    let end = block(rng);
    let mut tree = steps
        .into_iter()
        .rev()
        .fold(end, |below, step| step_above(rng, step, below));
    put_addresses(rng, &mut tree);
    tree
}

/// The steps of a spine, from the root on.
fn spine_steps(rng: &mut Rng, depth: usize, loops: usize) -> Vec<Step> {
    let mut steps = vec![Step::List; depth - 1];
    steps[..loops].fill(Step::Body);
    rng.shuffle(&mut steps);
    let (mut bodies, mut lists) = (0, 0);
    for step in &mut steps {
        match step {
            Step::Body => bodies += 1,
            // A loop left by its exit has a body too, which must not have more loops around it.
            _ if lists > 0 && bodies < loops && rng.once_in(4) => *step = Step::Exit,
            _ => lists += 1,
        }
    }
    steps
}

fn step_above(rng: &mut Rng, step: Step, below: Tree) -> Tree {
    match step {
        Step::Body => {
            let exit = block(rng);
            Tree::new(Kind::Loop(count(rng)), vec![below, exit])
        }
        Step::Exit => {
            let body = block(rng);
            Tree::new(Kind::Loop(count(rng)), vec![body, below])
        }
        Step::List => {
            let mut list = Tree::new(sequence_or_choice(rng), vec![below]);
            let siblings = rng.size(0..=1);
            put_blocks(rng, &mut list, siblings);
            list
        }
    }
}

/// Puts blocks into the sequences and choices, up to that many records in all, and gives all nodes
/// other addresses. Neither the depth nor the loops around change.
pub fn pad(rng: &mut Rng, tree: &mut Tree, records: usize) {
    let mut missing = records.saturating_sub(tree.records());
    for _ in 0..100 {
        pad_once(rng, tree, &mut missing);
        if missing == 0 {
            return put_addresses(rng, tree);
        }
    }
    panic!("no room for {missing} more blocks");
}

fn pad_once(rng: &mut Rng, tree: &mut Tree, missing: &mut usize) {
    for child in &mut tree.children {
        pad_once(rng, child, missing);
    }
    if matches!(tree.kind, Kind::Sequence | Kind::Choice) {
        let room = MOST_CHILDREN - tree.children.len();
        let blocks = rng.size(0..=room.min(*missing));
        put_blocks(rng, tree, blocks);
        *missing -= blocks;
    }
}

fn put_blocks(rng: &mut Rng, list: &mut Tree, blocks: usize) {
    for _ in 0..blocks {
        let place = rng.size(0..=list.children.len());
        list.children.insert(place, block(rng));
    }
}

/// Puts limits on random nodes of a tree without limits, up to the wanted weight, and answers the
/// weight reached: less only where every node has a limit.
pub fn put_limits(rng: &mut Rng, tree: &mut Tree, wanted: u64) -> u64 {
    let around = loops_around(tree);
    let mut order: Vec<usize> = (0..around.len()).collect();
    rng.shuffle(&mut order);
    let mut limits = vec![None; around.len()];
    let mut left = wanted;
    for node in order {
        if let Some((names, weight)) = fitting_name(rng, around[node], left) {
            let amount = count(rng);
            let amount = often_triangular(rng, amount);
            limits[node] = Some(Limit { names, amount });
            left -= weight;
        }
    }
    set_limits(tree, &mut limits.into_iter());
    wanted - left
}

/// A name for byte 3 and its weight, which is at most `left`. The heaviest are taken often, so that
/// small trees reach large weights.
fn fitting_name(rng: &mut Rng, around: usize, left: u64) -> Option<(u8, u64)> {
    let loops = (1..=around).map(|names| (names as u8, 1 << (names - 1)));
    let fitting: Vec<(u8, u64)> = loops
        .chain([(WHOLE_RUN, 1 << around)])
        .filter(|&(_, weight)| weight <= left)
        .collect();
    match fitting.last() {
        None => None,
        Some(&heaviest) if rng.once_in(3) => Some(heaviest),
        Some(_) => Some(rng.pick(&fitting)),
    }
}

fn set_limits(tree: &mut Tree, limits: &mut impl Iterator<Item = Option<Limit>>) {
    tree.limit = limits.next().expect("one for each node");
    for child in &mut tree.children {
        set_limits(child, limits);
    }
}

/// The number of loops around each node, in the order of the records.
pub fn loops_around(tree: &Tree) -> Vec<usize> {
    let mut around = Vec::new();
    collect_loops(tree, 0, &mut around);
    around
}

fn collect_loops(tree: &Tree, loops: usize, around: &mut Vec<usize>) {
    around.push(loops);
    for (place, child) in tree.children.iter().enumerate() {
        let is_body = matches!(tree.kind, Kind::Loop(_)) && place == 0;
        collect_loops(child, loops + usize::from(is_body), around);
    }
}

pub(super) fn sequence_or_choice(rng: &mut Rng) -> Kind {
    rng.pick(&[Kind::Sequence, Kind::Choice])
}

fn block(rng: &mut Rng) -> Tree {
    let time = single(amount(rng, MOST_TIME, TIME_SYMBOLS));
    Tree::new(Kind::Block(time), Vec::new())
}

/// A bound or a limit.
fn count(rng: &mut Rng) -> Amount {
    amount(rng, MOST_COUNT, COUNT_SYMBOLS)
}

fn amount(rng: &mut Rng, most: u64, symbols: RangeInclusive<u64>) -> Amount {
    match rng.index(8) {
        0 => Amount::Plain(0),
        1 => Amount::Plain(most),
        2 | 3 => Amount::Plain(rng.within(0..=40)),
        4 | 5 => Amount::Plain(rng.within(0..=most)),
        _ => Amount::Symbol(rng.within(symbols)),
    }
}
