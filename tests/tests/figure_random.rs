//! `vf_figure` and `vf_list` on random trees, values and buffers, against the second evaluator and,
//! where an answer is known by construction, against that. Each test asserts that it has reached what
//! it is for, so that none passes idly. The seeds are fixed: every run makes the same tables.

use volefleece_tests::evaluator::{evaluate, evaluate_at, Quoted};
use volefleece_tests::faults;
use volefleece_tests::noise;
use volefleece_tests::quotes::Quotes;
use volefleece_tests::reader;
use volefleece_tests::rng::Rng;
use volefleece_tests::trees::{self, Amount, Amounts, Kind, Limit, Tree};

const CEILING: u64 = 1_000_000_000_000;

/// Figures far below the ceiling, with runs and groups of a few members.
const SMALL: Amounts = Amounts {
    time: 20,
    bound: 4,
    limit: 7,
    symbols: 4,
};

/// Figures on both sides of the ceiling.
const MIDDLING: Amounts = Amounts {
    time: 10_000_000,
    bound: 200,
    limit: 1_000,
    symbols: 5,
};

/// Many different times and long runs.
const LONG_RUNS: Amounts = Amounts {
    time: 1_000_000,
    bound: 9,
    limit: 100_000,
    symbols: 100,
};

/// Few different numbers, 0 among them, so that children of a choice are often equal.
const FEW: Amounts = Amounts {
    time: 3,
    bound: 2,
    limit: 2,
    symbols: 4,
};

/// Everything up to its ceiling.
const LARGE: Amounts = Amounts {
    time: 1_000_000_000_000,
    bound: 1_000_000,
    limit: 1_000_000,
    symbols: 3,
};

fn start(seed: u64) -> (Rng, Quotes) {
    (Rng::new(seed), Quotes::new(seed))
}

/// Mostly small, at times of a few hundred records.
fn records(rng: &mut Rng) -> usize {
    let most = rng.pick(&[6, 15, 15, 15, 40, 40, 40, 80, 80, 200]);
    rng.size(1..=most)
}

/// A tree with limits of any weight, of such amounts.
fn good_tree(rng: &mut Rng, amounts: Amounts) -> Tree {
    let records = records(rng);
    let mut tree = trees::within_limits(rng, records);
    if rng.once_in(2) {
        keep_low_limits(&mut tree);
    }
    amounts.set(rng, &mut tree);
    tree
}

/// Leaves limits on small subtrees alone, as those on large ones cut the lists short.
fn keep_low_limits(tree: &mut Tree) {
    if tree.records() > 4 {
        tree.limit = None;
    }
    tree.children.iter_mut().for_each(keep_low_limits);
}

// Trees that questions 1 to 7 accept.

#[test]
fn trees_of_small_amounts() {
    let (mut rng, mut quotes) = start(201);
    let mut named = Named::default();
    let (mut same, mut lower) = (0, 0);
    for round in 0..100_000 {
        let tree = good_tree(&mut rng, SMALL);
        let values = SMALL.values(&mut rng);
        let quote = quotes.compare(&tree.encode(), &values);
        let branch = quote.quoted.expect("small amounts").branch;
        assert_eq!(branch == 255, tree.kind != Kind::Choice);
        if round % 4 == 0 {
            let unlimited = evaluate(&tree.unlimited(), &values).expect("small amounts");
            if quote.figure() == Ok(unlimited.list.first()) {
                same += 1;
            } else {
                lower += 1;
            }
            named.count(&tree, 0, &values);
        }
    }
    assert!(lower > 5_000 && same > 1_000, "{lower}, {same}");
    named.assert_reached();
    quotes.assert_pairs(1..=1, 20_000);
    quotes.assert_pairs(2..=2, 5_000);
    quotes.assert_pairs(3..=9, 5_000);
    quotes.assert_pairs(10..=99, 1_000);
    quotes.assert_branches((0..=3).chain([255]), 1_000);
    quotes.assert_triangular(&[(0, 30_000)]);
    quotes.assert_paired(&[(0, 40_000)]);
}

/// What the bodies of loops name.
#[derive(Debug, Default)]
struct Named {
    run: u64,
    outer: u64,
    this: u64,
    /// The loops of each level, from the outermost on.
    levels: [u64; 9],
}

impl Named {
    fn count(&mut self, tree: &Tree, around: usize, values: &[u64]) {
        for (place, child) in tree.children.iter().enumerate() {
            let is_body = matches!(tree.kind, Kind::Loop(_)) && place == 0;
            if is_body {
                let body = evaluate_at(child, around + 1, values).expect("small amounts");
                match body.level {
                    0 => self.run += 1,
                    this if this == around + 1 => self.this += 1,
                    _ => self.outer += 1,
                }
                self.levels[body.level] += 1;
            }
            self.count(child, around + usize::from(is_body), values);
        }
    }

    fn assert_reached(&self) {
        let kinds = [self.run, self.outer, self.this];
        assert!(kinds.iter().all(|&times| times > 2_000), "{self:?}");
        let levels = &self.levels[1..];
        assert!(levels.iter().all(|&times| times > 50), "{self:?}");
    }
}

#[test]
fn trees_of_middling_amounts() {
    let (mut rng, mut quotes) = start(202);
    for _ in 0..50_000 {
        let tree = good_tree(&mut rng, MIDDLING);
        let values = MIDDLING.values(&mut rng);
        quotes.compare(&tree.encode(), &values);
    }
    quotes.assert_reached(&[(0, 20_000), (10, 5_000)]);
    quotes.assert_pairs(10..=99, 1_000);
    quotes.assert_pairs(100..=256, 20);
    quotes.assert_triangular(&[(0, 10_000), (10, 2_000)]);
    quotes.assert_paired(&[(0, 10_000), (10, 2_000)]);
}

#[test]
fn trees_of_long_runs() {
    let (mut rng, mut quotes) = start(203);
    for _ in 0..80_000 {
        let tree = good_tree(&mut rng, LONG_RUNS);
        let values = LONG_RUNS.values(&mut rng);
        quotes.compare(&tree.encode(), &values);
    }
    quotes.assert_pairs(2..=2, 2_000);
    quotes.assert_pairs(3..=9, 2_000);
    quotes.assert_pairs(10..=99, 1_000);
    quotes.assert_pairs(100..=256, 20);
}

#[test]
fn trees_of_large_amounts() {
    let (mut rng, mut quotes) = start(204);
    for _ in 0..50_000 {
        let records = rng.size(1..=8);
        let mut tree = trees::within_limits(&mut rng, records);
        LARGE.set(&mut rng, &mut tree);
        let mut values = LARGE.values(&mut rng);
        if rng.once_in(2) {
            trees::put_about_1000(&mut rng, &mut values);
        }
        quotes.compare(&tree.encode(), &values);
    }
    quotes.assert_reached(&[(0, 10_000), (10, 10_000)]);
    quotes.assert_triangular(&[(0, 2_000), (10, 2_000), (13, 5_000)]);
    quotes.assert_paired(&[(0, 2_000), (10, 2_000)]);
}

#[test]
fn values_at_their_ceilings() {
    let (mut rng, mut quotes) = start(205);
    for _ in 0..40_000 {
        let tree = good_tree(&mut rng, SMALL);
        let mut values = SMALL.values(&mut rng);
        for _ in 0..rng.size(1..=3) {
            let at = rng.index(40);
            values[at] = if at < 16 { 1_000_000 } else { CEILING };
        }
        // A later one at its ceiling is past its first as a rule.
        if rng.once_in(2) {
            trees::lift_firsts(&mut values);
        }
        quotes.compare(&tree.encode(), &values);
    }
    quotes.assert_reached(&[(0, 10_000), (10, 3_000)]);
    quotes.assert_triangular(&[(0, 5_000), (10, 1_000), (13, 1_000)]);
    quotes.assert_paired(&[(0, 5_000), (10, 1_000), (14, 1_000)]);
}

#[test]
fn lists_of_many_pairs() {
    let (mut rng, mut quotes) = start(206);
    for _ in 0..6_000 {
        let tree = many_pairs(&mut rng);
        let values = LONG_RUNS.values(&mut rng);
        quotes.compare(&tree.encode(), &values);
    }
    quotes.assert_pairs(10..=99, 500);
    quotes.assert_pairs(100..=199, 500);
    quotes.assert_pairs(200..=256, 100);
    quotes.assert_pairs(250..=256, 10);
}

/// Loops around a tree with as many whole-run limits on its blocks as there may be.
fn many_pairs(rng: &mut Rng) -> Tree {
    let loops = rng.pick(&[0, 0, 1, 1, 2, 3, 4]);
    let weight = 1 << loops;
    let mut left = rng.pick(&[255, 255, 200, 100]) / weight;
    let mut tree = wide_tree(rng, left);
    limit_blocks(rng, &mut tree, &mut left);
    for _ in 0..loops {
        let bound = Amount::Plain(rng.within(2..=20));
        let exit = Tree::block(rng.within(0..=20));
        tree = Tree::new(Kind::Loop(bound), vec![tree, exit]);
    }
    tree
}

/// A sequence or choice with so many blocks, some of them in lists of their own.
fn wide_tree(rng: &mut Rng, blocks: usize) -> Tree {
    let kinds = [Kind::Sequence, Kind::Choice];
    let mut children = Vec::new();
    let most = rng.pick(&[1, 60, 255]);
    let mut left = blocks;
    while left > 0 {
        let few = rng.size(1..=left.min(most));
        left -= few;
        children.push(Tree::new(rng.pick(&kinds), vec![Tree::block(1); few]));
    }
    Tree::new(rng.pick(&kinds), children)
}

fn limit_blocks(rng: &mut Rng, tree: &mut Tree, left: &mut usize) {
    if matches!(tree.kind, Kind::Block(_)) && *left > 0 {
        tree.kind = Kind::Block(Amount::Plain(rng.within(1..=1_000_000)));
        let amount = Amount::Plain(rng.within(1..=100_000));
        tree.limit = Some(Limit { names: 255, amount });
        *left -= 1;
    }
    for child in &mut tree.children {
        limit_blocks(rng, child, left);
    }
}

#[test]
fn largest_tables() {
    let (mut rng, mut quotes) = start(207);
    let mut widest = 0;
    for round in 0..3_000 {
        let mut tree = trees::without_limits(&mut rng, 512);
        let wanted = rng.within(0..=255);
        trees::put_weights(&mut rng, &mut tree, wanted);
        if round % 2 == 0 {
            keep_low_limits(&mut tree);
        }
        let amounts = [SMALL, MIDDLING, LONG_RUNS][round % 3];
        amounts.set(&mut rng, &mut tree);
        widest += u64::from(has_255_children(&tree));
        let values = amounts.values(&mut rng);
        quotes.compare(&tree.encode(), &values);
    }
    assert!(widest > 100, "{widest}");
    quotes.assert_reached(&[(0, 1_000), (10, 100)]);
    quotes.assert_pairs(1..=1, 100);
    quotes.assert_pairs(10..=99, 200);
    quotes.assert_pairs(100..=256, 5);
    quotes.assert_triangular(&[(0, 800), (10, 200)]);
    quotes.assert_paired(&[(0, 500), (10, 100)]);
}

fn has_255_children(tree: &Tree) -> bool {
    tree.children.len() == 255 || tree.children.iter().any(has_255_children)
}

#[test]
fn deepest_tables() {
    let (mut rng, mut quotes) = start(208);
    for round in 0..12_000 {
        let loops = rng.size(0..=8);
        let mut tree = trees::spine(&mut rng, 32, loops);
        let size = tree.records() + rng.size(0..=40);
        trees::pad(&mut rng, &mut tree, size);
        let wanted = rng.within(0..=255);
        trees::put_weights(&mut rng, &mut tree, wanted);
        let amounts = [SMALL, MIDDLING][round % 2];
        amounts.set(&mut rng, &mut tree);
        let values = amounts.values(&mut rng);
        quotes.compare(&tree.encode(), &values);
    }
    quotes.assert_reached(&[(0, 5_000), (10, 500)]);
    quotes.assert_pairs(2..=256, 1_000);
    quotes.assert_triangular(&[(0, 4_000), (10, 1_000)]);
    quotes.assert_paired(&[(0, 3_000), (10, 500)]);
}

// Question 10.

#[test]
fn question_10_at_the_root() {
    let (mut rng, mut quotes) = start(209);
    for _ in 0..20_000 {
        let tree = good_tree(&mut rng, SMALL);
        let values = SMALL.values(&mut rng);
        let over = rng.within(0..=1);
        let root = around_ceiling(&mut rng, &tree, 0, &values, over);
        let table = root.encode();
        if reader::check(&table).is_ok() {
            let quote = quotes.compare(&table, &values);
            assert_eq!(quote.figure(), if over > 0 { Err(10) } else { Ok(CEILING) });
        }
    }
    quotes.assert_reached(&[(0, 8_000), (10, 8_000)]);
}

#[test]
fn question_10_at_nodes_that_do_not_reach_the_root() {
    let (mut rng, mut quotes) = start(210);
    let mut inner = 0;
    for _ in 0..60_000 {
        let mut tree = good_tree(&mut rng, SMALL);
        let values = SMALL.values(&mut rng);
        let around = trees::loops_around(&tree);
        let record = rng.index(around.len());
        let over = rng.within(0..=1);

        let node = tree.node_mut(record);
        let ceiling = around_ceiling(&mut rng, node, around[record], &values, over);
        *node = hidden(&mut rng, ceiling, around[record]);
        let table = tree.encode();
        if reader::check(&table).is_ok() {
            let quote = quotes.compare(&table, &values);
            assert_eq!(quote.figure().err(), (over > 0).then_some(10));
            inner += u64::from(record > 0);
        }
    }
    assert!(inner > 30_000, "{inner}");
    quotes.assert_reached(&[(0, 20_000), (10, 20_000)]);
}

/// A tree that holds this node and whose first member is the ceiling and `over`.
fn around_ceiling(rng: &mut Rng, node: &Tree, around: usize, values: &[u64], over: u64) -> Tree {
    let evaluated = evaluate_at(node, around, values).expect("small amounts");
    let first = evaluated.list.first();
    if first >= over && rng.once_in(2) {
        let rest = Tree::block(CEILING - first + over);
        return Tree::new(Kind::Sequence, vec![node.clone(), rest]);
    }
    let bound = rng.within(1..=1_000_000);
    let body = Tree::block(CEILING / bound);
    let exit = Tree::block(CEILING % bound + over);
    let passes = Tree::new(Kind::Loop(Amount::Plain(bound)), vec![body, exit]);
    Tree::new(Kind::Choice, vec![node.clone(), passes])
}

/// The tree with a limit of 0, or as a body that is never passed: either way its list becomes 0.
fn hidden(rng: &mut Rng, mut tree: Tree, around: usize) -> Tree {
    if rng.once_in(3) {
        return Tree::new(Kind::Loop(Amount::Plain(0)), vec![tree, Tree::block(0)]);
    }
    tree.limit = Some(Limit {
        names: if around > 0 { 1 } else { 255 },
        amount: Amount::Plain(0),
    });
    tree
}

// Branches.

/// What the root choices of a test were like.
#[derive(Debug, Default)]
struct Branches {
    /// More than one child had the largest first member, and of these the largest was 0.
    tied: u64,
    tied_at_0: u64,
    /// A child would have been the branch but for its own limit.
    limited: u64,
    /// The figure was 0 by the root's own limit.
    root_limited: u64,
    /// Other values had another branch.
    moved: u64,
}

impl Branches {
    /// The branch of a root choice, which the figures of its children must bear out: each child of the
    /// root is a table of its own, and its figure the child's first member after its limit.
    fn compare(&mut self, quotes: &mut Quotes, root: &Tree, values: &[u64]) -> u64 {
        let mut quoted = |tree: &Tree| {
            let quote = quotes.compare(&tree.encode(), values);
            quote.quoted.expect("small amounts")
        };
        let Quoted { figure, branch } = quoted(root);
        let firsts: Vec<u64> = root.children.iter().map(|c| quoted(c).figure).collect();
        let largest = firsts[branch as usize];
        let (before, after) = firsts.split_at(branch as usize);
        let is_first = before.iter().all(|&first| first < largest);
        let is_largest = after.iter().all(|&first| first <= largest);
        assert!(is_first && is_largest, "{branch} of {firsts:?}, {root:?}");
        assert!(figure == largest || figure == 0 && root.limit.is_some());

        let is_tied = after.iter().filter(|&&first| first == largest).count() > 1;
        self.tied += u64::from(is_tied);
        self.tied_at_0 += u64::from(is_tied && largest == 0);
        self.root_limited += u64::from(figure < largest);
        let mut unlimited = root.clone();
        for child in &mut unlimited.children {
            child.limit = None;
        }
        self.limited += u64::from(quoted(&unlimited).branch != branch);
        branch
    }

    fn assert_met(&self, times: u64) {
        let met = [
            self.tied,
            self.tied_at_0,
            self.limited,
            self.root_limited,
            self.moved,
        ];
        assert!(met.iter().all(|&met| met >= times), "{self:?}");
    }
}

/// A choice of a few trees, most of them blocks.
fn root_choice(rng: &mut Rng) -> Tree {
    let children = (0..rng.size(1..=9)).map(|_| {
        let records = rng.pick(&[1, 1, 1, 2, 3, 6]);
        trees::grow(rng, records, 5, 3)
    });
    let mut root = Tree::new(Kind::Choice, children.collect());
    let wanted = rng.within(0..=20);
    trees::put_weights(rng, &mut root, wanted);
    FEW.set(rng, &mut root);
    root
}

#[test]
fn root_choices_with_many_ties() {
    let (mut rng, mut quotes) = start(218);
    let mut branches = Branches::default();
    for _ in 0..30_000 {
        let root = root_choice(&mut rng);
        let [one, other] = [(); 2].map(|()| {
            let values = FEW.values(&mut rng);
            branches.compare(&mut quotes, &root, &values)
        });
        branches.moved += u64::from(one != other);
    }
    branches.assert_met(3_000);
    quotes.assert_branches(0..=8, 500);
}

#[test]
fn root_choices_of_up_to_255_children() {
    let (mut rng, mut quotes) = start(219);
    for _ in 0..20_000 {
        let count = rng.pick(&[255, 255, 254, 100]);
        let mut children: Vec<Tree> = (0..count).map(|_| Tree::block(rng.within(0..=8))).collect();
        let nines = [(); 3].map(|()| rng.index(count));
        let nines = &nines[..rng.size(1..=3)];
        for &place in nines {
            children[place] = Tree::block(9);
        }
        let root = Tree::new(Kind::Choice, children);
        let quote = quotes.compare(&root.encode(), &[0; 40]);
        let (figure, branch) = (9, nines.iter().fold(count, |one, &two| one.min(two)) as u64);
        assert_eq!(quote.quoted, Ok(Quoted { figure, branch }));
    }
    quotes.assert_branches(0..=254, 10);
}

// Triangular limits and question 13.

#[test]
fn values_about_1000() {
    let (mut rng, mut quotes) = start(215);
    for round in 0..40_000 {
        let amounts = [SMALL, MIDDLING][round % 2];
        let tree = good_tree(&mut rng, amounts);
        let mut values = amounts.values(&mut rng);
        trees::put_about_1000(&mut rng, &mut values);
        let quote = quotes.compare(&tree.encode(), &values);
        assert_eq!(quote.figure() == Err(13), is_past_1000(&tree, &values));
    }
    quotes.assert_triangular(&[(0, 10_000), (10, 1_000), (13, 1_500)]);
}

/// Whether a symbol that stands under flag 4 has a value past 1,000.
fn is_past_1000(tree: &Tree, values: &[u64]) -> bool {
    let mut symbols = tree.triangles().into_iter();
    symbols.any(|symbol| values[symbol as usize] > 1_000)
}

#[test]
fn symbols_under_flag_4_and_elsewhere() {
    let (mut rng, mut quotes) = start(216);
    // With flag 4 in the table: passed although a count elsewhere is past 1,000; passed and refused by
    // a symbol that is used both ways, at its end.
    let (mut elsewhere, mut at_end, mut past_end) = (0, 0, 0);
    for _ in 0..40_000 {
        let mut tree = good_tree(&mut rng, SMALL);
        let mut symbols: [u64; 16] = std::array::from_fn(|symbol| symbol as u64);
        rng.shuffle(&mut symbols);
        // The first stands under flag 4 alone, the last only elsewhere.
        let symbols = [symbols[0], symbols[1], symbols[2]];
        share_symbols(&mut rng, &mut tree, symbols);
        let mut values = SMALL.values(&mut rng);
        for symbol in symbols {
            values[symbol as usize] =
                rng.pick(&[0, 1, 2, 3, 7, 999, 1_000, 1_000, 1_001, 1_000_000]);
        }
        let quote = quotes.compare(&tree.encode(), &values);
        assert_eq!(quote.figure() == Err(13), is_past_1000(&tree, &values));

        let [first, both, last] = symbols.map(|symbol| values[symbol as usize]);
        let plain = tree.plain_counts();
        let is_both = tree.triangles().contains(&symbols[1]) && plain.contains(&symbols[1]);
        if tree.triangles().is_empty() {
            continue;
        }
        elsewhere +=
            u64::from(quote.figure().is_ok() && last > 1_000 && plain.contains(&symbols[2]));
        at_end += u64::from(is_both && quote.figure().is_ok() && both == 1_000);
        past_end += u64::from(is_both && first <= 1_000 && both == 1_001);
    }
    let reached = [elsewhere, at_end, past_end];
    assert!(reached.iter().all(|&times| times > 500), "{reached:?}");
    quotes.assert_triangular(&[(0, 5_000), (13, 2_000)]);
}

/// Gives limits under flag 4 the first or second of these symbols, and other counts the second or
/// third.
fn share_symbols(rng: &mut Rng, tree: &mut Tree, symbols: [u64; 3]) {
    if let Kind::Loop(Amount::Symbol(symbol)) = &mut tree.kind {
        *symbol = rng.pick(&symbols[1..]);
    }
    match tree.limit.as_mut().map(|limit| &mut limit.amount) {
        Some(Amount::Symbol(symbol)) => *symbol = rng.pick(&symbols[1..]),
        Some(Amount::Triangular(symbol)) => *symbol = rng.pick(&symbols[..2]),
        _ => {}
    }
    for child in &mut tree.children {
        share_symbols(rng, child, symbols);
    }
}

#[test]
fn raising_a_symbol_under_flag_4_never_lowers_a_figure() {
    let (mut rng, mut quotes) = start(217);
    let (mut same, mut higher) = (0, 0);
    for _ in 0..30_000 {
        let tree = good_tree(&mut rng, SMALL);
        let symbols = tree.triangles();
        if symbols.is_empty() {
            continue;
        }
        let symbol = rng.pick(&symbols) as usize;
        let table = tree.encode();
        let mut values = SMALL.values(&mut rng);
        let low = quotes.compare(&table, &values);
        let low = low.figure().expect("small amounts");
        values[symbol] += rng.pick(&[1, 1, 2, 5, 30, 990]);
        values[symbol] = values[symbol].min(1_000);
        // It may be a bound as well, and the figure too large then.
        match quotes.compare(&table, &values).figure() {
            Ok(high) => {
                assert!(high >= low, "{low}, {high}");
                same += u64::from(high == low);
                higher += u64::from(high > low);
            }
            Err(question) => assert_eq!(question, 10),
        }
        values[symbol] = 1_001;
        assert_eq!(quotes.compare(&table, &values).figure(), Err(13));
    }
    assert!(same > 5_000 && higher > 1_000, "{same}, {higher}");
    quotes.assert_triangular(&[(13, 10_000)]);
}

// Questions 8 and 9, and the order of all.

#[test]
fn wrong_values_are_refused_9() {
    let (mut rng, mut quotes) = start(211);
    for _ in 0..40_000 {
        let tree = good_tree(&mut rng, MIDDLING);
        let mut values = SMALL.values(&mut rng);
        faults::spoil(&mut rng, &mut values);
        let quote = quotes.compare(&tree.encode(), &values);
        assert_eq!((quote.figure(), quote.list), (Err(9), Err(9)));
    }
}

#[test]
fn buffers_of_every_length() {
    let (mut rng, mut quotes) = start(212);
    for _ in 0..40_000 {
        let tree = good_tree(&mut rng, SMALL);
        let values = SMALL.values(&mut rng);
        let room = match rng.index(4) {
            0 => rng.pick(&[510, 511, 512, 513]),
            1 => rng.size(512..=1_100),
            _ => rng.size(0..=600),
        };
        let quote = quotes.compare_with_room(&tree.encode(), &values, room);
        assert_eq!(quote.list.err(), (room < 512).then_some(8));
    }
    quotes.assert_lists(&[(0, 10_000), (8, 10_000)]);
}

#[test]
fn of_many_faults_the_first_answers() {
    let (mut rng, mut quotes) = start(213);
    for _ in 0..80_000 {
        let often = rng.within(1..=10);
        let order = [1, 2, 3, 4, 5, 6, 7, 8, 9, 13, 14, 10].into_iter();
        let faults: Vec<u64> = order.filter(|_| rng.once_in(often)).collect();
        let table = faulty_table(&mut rng, &faults);
        let mut values = SMALL.values(&mut rng);
        if faults.contains(&13) {
            values[PAST_1000] = rng.pick(&[1_001, 1_002, 1_000_000]);
        }
        if faults.contains(&14) {
            trees::put_past_first(&mut rng, &mut values);
        }
        if faults.contains(&9) {
            faults::spoil(&mut rng, &mut values);
        }
        let room = if faults.contains(&8) {
            rng.pick(&[0, 100, 511])
        } else {
            rng.pick(&[512, 513, 1_000])
        };
        let quote = quotes.compare_with_room(&table, &values, room);
        assert_eq!(quote.list.err(), faults.first().copied());
        let mut put = faults.into_iter().filter(|&question| question != 8);
        assert_eq!(quote.quoted.err(), put.next(), "no question 8");
    }
    let answers = [0, 1, 2, 3, 4, 5, 6, 7, 9, 10, 13, 14];
    quotes.assert_reached(&answers.map(|answer| (answer, 1_000)));
    quotes.assert_paired(&[(0, 500), (7, 300), (9, 300), (14, 300)]);
    quotes.assert_lists(&[(8, 1_000)]);
}

/// The symbol whose value fails question 13.
const PAST_1000: usize = 11;

/// A table of small amounts that fails these of questions 1 to 7 and 10, and 13 with that value. Question
/// 14 asks for the values alone.
fn faulty_table(rng: &mut Rng, faults: &[u64]) -> Vec<u8> {
    let mut tree = faults::tree(rng, faults);
    SMALL.set(rng, &mut tree);
    let mut more = Vec::new();
    if faults.contains(&10) {
        more.push(around_ceiling(rng, &Tree::block(0), 0, &[0; 40], 1));
    }
    if faults.contains(&13) {
        more.push(faults::triangular_block(PAST_1000 as u64));
    }
    for node in more {
        let place = rng.size(0..=tree.children.len());
        tree.children.insert(place, node);
    }
    faults::table(rng, &tree, faults)
}

#[test]
fn noise_of_good_records() {
    let (mut rng, mut quotes) = start(214);
    for _ in 0..20_000 {
        let table = noise::first_tree(&mut rng);
        let mut values = LARGE.values(&mut rng);
        if rng.once_in(2) {
            trees::put_about_1000(&mut rng, &mut values);
        }
        if rng.once_in(8) {
            trees::put_past_first(&mut rng, &mut values);
        }
        quotes.compare(&table, &values);
    }
    quotes.assert_reached(&[(0, 10_000), (4, 500), (5, 100), (6, 1_000), (10, 1_000)]);
    quotes.assert_triangular(&[(0, 300), (10, 100), (13, 500)]);
    quotes.assert_paired(&[(0, 500), (7, 10), (10, 300), (14, 100)]);
}
