//! The second evaluator itself: document 01's cases, triangular numbers, lists written out member by
//! member, the branches of choices, and the runs that a figure covers, with paired symbols charged as
//! they are passed. The library is not called.

use volefleece_tests::cases::{self, cases};
use volefleece_tests::evaluator::{self, evaluate_at, Evaluated, List};
use volefleece_tests::members;
use volefleece_tests::rng::Rng;
use volefleece_tests::runs;
use volefleece_tests::tables::*;
use volefleece_tests::trees::{self, Amount, Amounts, Kind, Limit, Tree};

#[test]
fn cases_have_the_lists_of_document_01() {
    for case in cases() {
        let list = evaluator::list(&case.table, &cases::VALUES, 512);
        assert_eq!(list, case.answer, "case {}", case.name);
        let quoted = evaluator::figure(&case.table, &cases::VALUES);
        assert_eq!(quoted, case.quoted(), "case {}", case.name);
    }
}

#[test]
fn triangular_limits_are_sums_of_all_numbers_up_to_the_value() {
    let table = triangular_limited(block(7), 3, 255);
    let mut values = [0; 40];
    assert_eq!(evaluator::list(&table, &values, 512), Ok(vec![(0, 0)]));
    let mut sum = 0;
    for number in 1..=1_000 {
        sum += number;
        values[3] = number;
        let list = evaluator::list(&table, &values, 512);
        assert_eq!(list, Ok(vec![(7, sum), (0, 0)]));
    }
    assert_eq!(sum, 500_500);
    for past in [1_001, 1_000_000] {
        values[3] = past;
        assert_eq!(evaluator::list(&table, &values, 512), Err(13));
        assert_eq!(evaluator::figure(&table, &values), Err(13));
    }
}

// Lists member by member.

const TINY: Amounts = Amounts {
    time: 12,
    bound: 3,
    limit: 5,
    symbols: 5,
};

#[test]
fn every_node_has_its_members_its_named_loop_and_its_branch() {
    let mut rng = Rng::new(101);
    // How often a loop of each level, or the whole run, was named.
    let mut named = [0; 4];
    // How often each of the first children was the branch, and how often an equal one came after it.
    let mut branches = [0; 5];
    let mut ties = 0;
    let (mut triangular, mut paired) = (0, 0);
    for _ in 0..20_000 {
        let mut tree = tiny_tree(&mut rng, 40);
        TINY.set(&mut rng, &mut tree);
        let values = TINY.values(&mut rng);
        let around = trees::loops_around(&tree);
        for (record, &around) in around.iter().enumerate() {
            let node = tree.node_mut(record);
            let value = compare_members(node, around, &values).expect("small numbers");
            named[value.level] += 1;
            assert_eq!(value.branch.is_some(), node.kind == Kind::Choice);
            if let Some(branch) = value.branch {
                branches[branch.min(4)] += 1;
                ties += u64::from(is_tied(node, around, &values));
            }
        }
        triangular += tree.triangles().len();
        paired += tree.pairs();
    }
    assert!(named.iter().all(|&times| times > 1_000), "{named:?}");
    assert!(branches.iter().all(|&times| times > 200), "{branches:?}");
    assert!(ties > 1_000, "{ties}");
    assert!(triangular > 10_000, "{triangular}");
    assert!(paired > 10_000, "{paired}");
}

/// Whether more than one child of a choice has the largest first member.
fn is_tied(choice: &Tree, around: usize, values: &[u64]) -> bool {
    let firsts = choice.children.iter().map(|child| {
        let value = evaluate_at(child, around, values);
        value.expect("small numbers").list.first()
    });
    let firsts: Vec<u64> = firsts.collect();
    let largest = firsts.iter().max();
    firsts
        .iter()
        .filter(|&first| Some(first) == largest)
        .count()
        > 1
}

/// A tree of few records with at most 3 loops around a node, and paired symbols and limits up to that
/// weight.
fn tiny_tree(rng: &mut Rng, weight: u64) -> Tree {
    let mut tree = if rng.once_in(4) {
        let records = rng.size(1..=12);
        trees::grow(rng, records, 8, 3)
    } else {
        let loops = rng.size(1..=3);
        let lists = rng.size(1..=3);
        let mut tree = trees::spine(rng, 1 + loops + lists, loops);
        let records = tree.records() + rng.size(0..=4);
        trees::pad(rng, &mut tree, records);
        tree
    };
    let wanted = rng.within(0..=weight);
    trees::put_weights(rng, &mut tree, wanted);
    tree
}

/// The node's value by the second evaluator, or its refusal. The third one's members, named loop and
/// branch are the same.
fn compare_members(node: &Tree, around: usize, values: &[u64]) -> Result<Evaluated, u64> {
    const MEMBERS: usize = 20;
    let second = evaluate_at(node, around, values);
    let third = members::front(node, MEMBERS, values);
    assert_eq!(second.is_ok(), third.is_ok(), "{node:?}");
    let (second, third) = (second?, third?);
    let level = match third.names {
        255 => 0,
        names => around + 1 - usize::from(names),
    };
    assert_eq!(second.level, level, "{node:?}");
    assert_eq!(second.branch, third.branch, "{node:?}");
    assert_eq!(
        first_members(&second.list, MEMBERS),
        third.members,
        "{node:?}"
    );
    Ok(second)
}

fn first_members(list: &List, members: usize) -> Vec<u64> {
    let pairs = list.clone().into_pairs();
    let runs = pairs.into_iter().map(|(value, count)| {
        let count = if count == 0 { members } else { count as usize };
        vec![value; count.min(members)]
    });
    runs.flatten().take(members).collect()
}

#[test]
fn question_10_is_put_to_every_node() {
    const LARGE: Amounts = Amounts {
        time: 300_000_000_000,
        ..TINY
    };
    let mut rng = Rng::new(102);
    let (mut answered, mut refused) = (0, 0);
    for _ in 0..40_000 {
        let mut tree = tiny_tree(&mut rng, 20);
        LARGE.set(&mut rng, &mut tree);
        let values = LARGE.values(&mut rng);
        match compare_members(&tree, 0, &values) {
            Ok(_) => answered += 1,
            Err(question) => {
                assert_eq!(question, 10);
                refused += 1;
            }
        }
    }
    assert!(answered > 5_000 && refused > 5_000, "{answered}, {refused}");
}

// Runs.

const FEW: Amounts = Amounts {
    time: 9,
    bound: 3,
    limit: 3,
    symbols: 6,
};

fn figure(tree: &Tree, values: &[u64]) -> u64 {
    let root = evaluator::evaluate(tree, values).expect("small numbers");
    root.list.first()
}

#[test]
fn no_admitted_run_costs_more_than_the_figure() {
    let mut rng = Rng::new(103);
    let (mut none, mut below, mut equal) = (0, 0, 0);
    let mut triangular = 0;
    // Those below and those equal with a paired symbol whose values differ and which is limited, or has
    // a limit above or beside it.
    let mut paired = [0; 2];
    for _ in 0..40_000 {
        let mut tree = tiny_tree(&mut rng, 9);
        FEW.set(&mut rng, &mut tree);
        let values = FEW.values(&mut rng);
        let figure = figure(&tree, &values);
        let is_both = is_falling(&tree, &values) && tree != tree.unlimited();
        match runs::dearest(&tree, &values) {
            None => none += 1,
            Some(cost) if cost < figure => {
                below += 1;
                paired[0] += u64::from(is_both);
            }
            Some(cost) => {
                assert_eq!(cost, figure, "{tree:?}, {values:?}");
                equal += 1;
                triangular += tree.triangles().len();
                paired[1] += u64::from(is_both);
            }
        }
    }
    assert!(paired.iter().all(|&times| times > 500), "{paired:?}");
    let reached = [none, below, equal];
    assert!(reached.iter().all(|&times| times > 1_000), "{reached:?}");
    assert!(triangular > 2_000, "{triangular}");
}

/// Whether a block of the tree has a paired symbol whose later value is below its first.
fn is_falling(tree: &Tree, values: &[u64]) -> bool {
    let here = tree.paired_symbol().is_some_and(|symbol| {
        let first = symbol as usize;
        values[first + 8] < values[first]
    });
    here || tree.children.iter().any(|child| is_falling(child, values))
}

#[test]
fn without_limits_some_run_costs_the_figure() {
    let mut rng = Rng::new(104);
    // Those with paired symbols, those whose figure is lower than if each pass cost the first value, and
    // those whose figure is higher than if each cost the later one.
    let (mut paired, mut lower, mut higher) = (0, 0, 0);
    for _ in 0..40_000 {
        let mut tree = tiny_tree(&mut rng, 0);
        let weight = rng.within(0..=24);
        trees::put_pairs(&mut rng, &mut tree, weight);
        FEW.set(&mut rng, &mut tree);
        let values = FEW.values(&mut rng);
        let dearest = runs::dearest(&tree, &values);
        let figure = figure(&tree, &values);
        assert_eq!(dearest, Some(figure), "{tree:?}, {values:?}");
        paired += u64::from(tree.pairs() > 0);
        lower += u64::from(figure < constant_figure(&tree, &values, 0));
        higher += u64::from(figure > constant_figure(&tree, &values, 8));
    }
    let reached = [paired, lower, higher];
    assert!(reached.iter().all(|&times| times > 5_000), "{reached:?}");
}

/// The figure where each paired symbol has one of its values, the one so far behind its first, at every
/// pass.
fn constant_figure(tree: &Tree, values: &[u64], behind: usize) -> u64 {
    let mut constant = values.to_vec();
    for first in 24..=31 {
        let value = values[first + behind];
        (constant[first], constant[first + 8]) = (value, value);
    }
    figure(tree, &constant)
}

#[test]
fn limits_on_innermost_loops_beside_unlimited_children_are_exact() {
    let mut rng = Rng::new(105);
    let (mut lowered, mut triangular) = (0, 0);
    for _ in 0..60_000 {
        let mut tree = tiny_tree(&mut rng, 0);
        FEW.set(&mut rng, &mut tree);
        let values = FEW.values(&mut rng);
        let unlimited = figure(&tree, &values);
        put_innermost_limits(&mut rng, &mut tree, 0);
        let limited = figure(&tree, &values);
        let dearest = runs::dearest(&tree, &values);
        assert_eq!(dearest, Some(limited), "{tree:?}, {values:?}");
        lowered += u64::from(limited < unlimited);
        triangular += u64::from(limited < unlimited && !tree.triangles().is_empty());
    }
    assert!(lowered > 1_000, "{lowered}");
    assert!(triangular > 500, "{triangular}");
}

/// Limits some children of choices inside loops, each in its innermost loop, and leaves one child of
/// each choice without.
fn put_innermost_limits(rng: &mut Rng, tree: &mut Tree, around: usize) {
    let is_choice = tree.kind == Kind::Choice;
    let is_loop = matches!(tree.kind, Kind::Loop(_));
    let unlimited = rng.index(tree.children.len().max(1));
    for (place, child) in tree.children.iter_mut().enumerate() {
        if is_choice && around > 0 && place != unlimited && rng.once_in(2) {
            let count = rng.within(0..=2);
            let amount = rng.pick(&[Amount::Plain(count), Amount::Triangular(count)]);
            child.limit = Some(Limit { names: 1, amount });
        }
        let is_body = is_loop && place == 0;
        put_innermost_limits(rng, child, around + usize::from(is_body));
    }
}
