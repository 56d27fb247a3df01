//! The second simplifier on random tables: every step is the one that document 01 wants, allowances
//! count steps, and the tables on the way meet demand 3, for which the library checks and quotes them.
//! Each test asserts that it has reached what it is for. The seeds are fixed.

use std::ops::Range;
use volefleece::raw::{self, Checked, Figure};
use volefleece_tests::compare::{has_flag_4, has_pair, shown};
use volefleece_tests::fits;
use volefleece_tests::rng::Rng;
use volefleece_tests::simplifier::{simplify, trace, Trace};
use volefleece_tests::trees::{self, Amount, Amounts, Kind, Tree};

const ZEROS: [u64; 40] = [0; 40];

/// Mostly small, at times of a hundred records.
fn records(rng: &mut Rng) -> usize {
    let most = rng.pick(&[4, 8, 12, 12, 20, 20, 40, 100]);
    rng.size(1..=most)
}

// Steps.

#[test]
fn every_step_is_the_lowest_rule_at_the_earliest_record() {
    let mut rng = Rng::new(301);
    // How often each rule was taken at the root, and below, and at a node whose limit has flag 4.
    let mut taken = [[0; 10]; 2];
    let mut triangular = [0; 10];
    // And how often what rule 8 shares has it, and how often it is at other addresses elsewhere.
    let (mut shared, mut apart) = (0, 0);
    // How often a step was taken with a paired symbol at or below its node, by its rule.
    let mut paired = [0; 10];
    for round in 0..36_000 {
        let records = records(&mut rng);
        let tree = match round % 6 {
            0 => trees::ending_in_loops(&mut rng),
            _ => trees::redundant(&mut rng, records),
        };
        let Trace { tables, rules } = trace(tree);
        for (pair, &rule) in tables.windows(2).zip(&rules) {
            let Some((record, lowest)) = fits::first(&pair[0]) else {
                panic!("no rule fits {}", shown(&pair[0]));
            };
            assert_eq!(rule, lowest, "record {record} of {}", shown(&pair[0]));
            assert_changed_at(record, &pair[0], &pair[1]);
            taken[record.min(1)][rule] += 1;
            triangular[rule] += u64::from(has_flag_4(&pair[0][24 * record..][..24]));
            let Range { start, end } = fits::subtree(&pair[0], record);
            paired[rule] += u64::from(has_pair(&pair[0][24 * start..24 * end]));
            if rule == 8 {
                let one = record + 1;
                let other = fits::subtree(&pair[0], one).end;
                let seconds = [one, other].map(|record| second_child(&pair[0], record));
                assert!(!has_pair(seconds[0]), "{}", shown(&pair[0]));
                shared += u64::from(has_flag_4(seconds[0]));
                apart += u64::from(seconds[0] != seconds[1]);
            }
        }
        let last = &tables[rules.len()];
        assert_eq!(fits::first(last), None, "{}", shown(last));
    }
    // At the root, rule 1 fits wherever rule 4 does.
    let root = [1, 2, 3, 5, 6, 7, 8, 9].map(|rule| taken[0][rule]);
    assert!(root.iter().all(|&times| times > 500), "{taken:?}");
    let below = &taken[1][2..];
    assert!(below.iter().all(|&times| times > 1_000), "{taken:?}");
    // The others want no symbol there, or no limit.
    let lists = [2, 3, 5, 6, 7, 8].map(|rule| triangular[rule]);
    assert!(lists.iter().all(|&times| times > 100), "{triangular:?}");
    let others = [1, 4, 9].map(|rule| triangular[rule]);
    assert_eq!(others, [0; 3]);
    assert!(shared > 500 && apart > 2_000, "{shared}, {apart}");
    // Rules 1 and 4 want no symbol at all.
    let others = [2, 3, 5, 6, 7, 8, 9].map(|rule| paired[rule]);
    assert!(others.iter().all(|&times| times > 200), "{paired:?}");
    assert_eq!([1, 4].map(|rule| paired[rule]), [0; 2]);
}

/// The second child of the sequence of two at that record.
fn second_child(table: &[u8], record: usize) -> &[u8] {
    let first = fits::subtree(table, record + 1);
    let second = fits::subtree(table, first.end);
    &table[24 * second.start..24 * second.end]
}

/// Neither what is before the subtree of that record has changed nor what is after it, but the
/// subtree has.
fn assert_changed_at(record: usize, before: &[u8], after: &[u8]) {
    let subtree = fits::subtree(before, record);
    let (left, right) = (24 * subtree.start, before.len() - 24 * subtree.end);
    assert!(
        before != after
            && before[..left] == after[..left]
            && before[before.len() - right..] == after[after.len() - right..],
        "record {record} of {}",
        both(before, after)
    );
}

#[test]
fn every_allowance_takes_as_many_single_steps() {
    let mut rng = Rng::new(302);
    let mut ends = [0; 20];
    for _ in 0..15_000 {
        let records = rng.size(1..=24);
        let tree = trees::redundant(&mut rng, records);
        let trace = trace(tree);
        let end = trace.rules.len();
        ends[end.min(19)] += 1;
        let table = &trace.tables[0];
        for allowance in (0..=end as u64 + 2).chain([u64::MAX]) {
            let answer = simplify(table, allowance, table.len());
            assert_eq!(answer, Ok(trace.after(allowance)), "{}", shown(table));
        }
    }
    assert!(ends[..10].iter().all(|&times| times > 200), "{ends:?}");
}

// Figures.

/// Holds the tables on the way from a tree against demand 3, and counts what it has met.
#[derive(Debug, Default)]
struct Demand3 {
    /// How often each rule was taken.
    rules: [u64; 10],
    /// How often a desk got a figure from the tree, how often with flag 4 in it, and how often none.
    figures: u64,
    triangular: u64,
    without: u64,
    /// How often of these a value was past 1,000 under flag 4.
    past_1000: u64,
    /// How often a desk got a figure from a tree with a paired symbol, and how often another desk's with
    /// raised values was higher.
    paired: u64,
    paired_higher: u64,
    /// How often another desk's figure with raised values was the same, and how often higher.
    same: u64,
    higher: u64,
}

impl Demand3 {
    /// The tree's simplifying is not refused.
    fn compare(&mut self, rng: &mut Rng, tree: Tree, desks: &[Vec<u64>]) {
        let trace = trace(tree);
        for &rule in &trace.rules {
            self.rules[rule] += 1;
        }
        for pair in trace.tables.windows(2) {
            assert!(pair[1].len() <= pair[0].len(), "{}", shown(&pair[0]));
        }
        for values in desks {
            self.compare_figures(rng, &trace.tables, values);
        }
    }

    fn compare_figures(&mut self, rng: &mut Rng, tables: &[Vec<u8>], values: &[u64]) {
        let Some(reception) = figure(&tables[0], values) else {
            self.without += 1;
            self.past_1000 += u64::from(raw::figure(&tables[0], values).refused == 13);
            return;
        };
        self.figures += 1;
        self.triangular += u64::from(has_flag_4(&tables[0]));
        let is_paired = has_pair(&tables[0]);
        self.paired += u64::from(is_paired);
        for table in some_of(rng, tables) {
            let accepted = Checked::accept(table.len() / 24);
            assert_eq!(raw::check(table), accepted, "{}", shown(table));
            let sales = figure(table, values);
            assert_eq!(sales, Some(reception), "{}", both(&tables[0], table));
            if let Some(sales) = figure(table, &raised(rng, values)) {
                assert!(sales >= reception, "{}", both(&tables[0], table));
                self.same += u64::from(sales == reception);
                self.higher += u64::from(sales > reception);
                self.paired_higher += u64::from(is_paired && sales > reception);
            }
        }
    }

    fn assert_reached(&self, times: u64) {
        let rules = &self.rules[1..];
        assert!(rules.iter().all(|&taken| taken >= times), "{self:?}");
        let figures = [self.figures, self.without, self.same, self.higher];
        assert!(figures.iter().all(|&met| met >= times), "{self:?}");
    }

    /// Figures of trees with a paired symbol, and higher ones with raised values.
    fn assert_paired(&self, figures: u64, higher: u64) {
        let met = self.paired >= figures && self.paired_higher >= higher;
        assert!(met, "{self:?}");
    }

    /// Figures with flag 4, and refusals 13.
    fn assert_triangular(&self, figures: u64, refused: u64) {
        let met = self.triangular >= figures && self.past_1000 >= refused;
        assert!(met, "{self:?}");
    }
}

/// The library's figure, unless it is too large, or a value is for flag 4 or a later one.
fn figure(table: &[u8], values: &[u64]) -> Option<u64> {
    match raw::figure(table, values) {
        Figure {
            refused: 0, figure, ..
        } => Some(figure),
        Figure {
            refused: 10 | 13 | 14,
            ..
        } => None,
        answer => panic!("{answer:?}: {}", shown(table)),
    }
}

/// All of them if they are few, else some and the last.
fn some_of<'t>(rng: &mut Rng, tables: &'t [Vec<u8>]) -> Vec<&'t Vec<u8>> {
    if tables.len() <= 20 {
        return tables.iter().collect();
    }
    let last = tables.last().expect("the tree's own at least");
    let some = (0..5).map(|_| &tables[rng.index(tables.len())]);
    some.chain([last]).collect()
}

fn both(before: &[u8], after: &[u8]) -> String {
    format!("{}and after: {}", shown(before), shown(after))
}

fn ceiling(value: usize) -> u64 {
    if value < 16 {
        1_000_000
    } else {
        1_000_000_000_000
    }
}

/// Values of which none is lower, and now and then a later one higher than its first.
fn raised(rng: &mut Rng, values: &[u64]) -> Vec<u64> {
    let often = rng.within(1..=6);
    let most = rng.pick(&[1, 3, 1_000]);
    let mut values = values.to_vec();
    for (symbol, value) in values.iter_mut().enumerate() {
        if rng.once_in(often) {
            *value = ceiling(symbol).min(*value + rng.within(0..=most));
        }
    }
    if !rng.once_in(20) {
        trees::lift_firsts(&mut values);
    }
    values
}

/// No value, small ones, and one or more at its ceiling or, of counts, at that of flag 4.
fn desks(rng: &mut Rng) -> [Vec<u64>; 3] {
    const SMALL: Amounts = Amounts {
        time: 9,
        bound: 3,
        limit: 3,
        symbols: 0,
    };
    let mut large = SMALL.values(rng);
    for _ in 0..rng.size(1..=3) {
        let symbol = rng.pick(&[0, 0, 16, 24]) + rng.index(3);
        large[symbol] = ceiling(symbol);
        if symbol < 16 {
            large[symbol] = rng.pick(&[999, 1_000, 1_000, 1_001, ceiling(symbol)]);
        }
    }
    [ZEROS.to_vec(), SMALL.values(rng), large]
}

#[test]
fn small_tables_keep_their_figures() {
    let mut rng = Rng::new(303);
    let mut demand = Demand3::default();
    for _ in 0..60_000 {
        let records = records(&mut rng);
        let tree = trees::redundant(&mut rng, records);
        let desks = desks(&mut rng);
        demand.compare(&mut rng, tree, &desks);
    }
    demand.assert_reached(5_000);
    demand.assert_triangular(10_000, 1_000);
    demand.assert_paired(10_000, 5_000);
}

#[test]
fn largest_tables_keep_their_figures() {
    let mut rng = Rng::new(304);
    let mut demand = Demand3::default();
    for _ in 0..1_200 {
        let tree = trees::redundant(&mut rng, 512);
        let desks = desks(&mut rng);
        demand.compare(&mut rng, tree, &desks);
    }
    demand.assert_reached(120);
    demand.assert_triangular(1_000, 100);
    demand.assert_paired(500, 500);
}

#[test]
fn crowded_lists_keep_their_figures() {
    let mut rng = Rng::new(305);
    let mut demand = Demand3::default();
    let (mut full, mut over) = (0, 0);
    for _ in 0..1_000 {
        let tree = trees::crowded(&mut rng);
        let nested = |child: &&Tree| child.kind == tree.kind && child.limit.is_none();
        if let Some(list) = tree.children.iter().find(nested) {
            let count = tree.children.len() - 1 + list.children.len();
            full += u64::from(count == 255);
            over += u64::from(count > 255);
        }
        let desks = desks(&mut rng);
        demand.compare(&mut rng, tree, &desks);
    }
    assert!(full > 50 && over > 50, "{full}, {over}");
    demand.assert_triangular(1_000, 100);
}

#[test]
fn deepest_tables_keep_their_figures() {
    let mut rng = Rng::new(306);
    let mut demand = Demand3::default();
    for _ in 0..4_000 {
        let tree = trees::deepest(&mut rng);
        let desks = desks(&mut rng);
        demand.compare(&mut rng, tree, &desks);
    }
    let deep = [2, 3, 4, 5, 6, 7, 9].map(|rule| demand.rules[rule]);
    assert!(deep.iter().all(|&taken| taken > 300), "{demand:?}");
    demand.assert_triangular(3_000, 50);
    demand.assert_paired(2_000, 500);
}

#[test]
fn tables_that_are_too_large_get_no_figure_at_any_desk() {
    let mut rng = Rng::new(307);
    let mut demand = Demand3::default();
    let mut refused = 0;
    for _ in 0..40_000 {
        let records = records(&mut rng);
        let mut tree = trees::redundant(&mut rng, records);
        enlarge(&mut tree);
        let table = tree.encode();
        let desks = desks(&mut rng);
        match simplify(&table, 0, table.len()) {
            Ok(_) => demand.compare(&mut rng, tree, &desks),
            Err(question) => {
                assert_eq!(question, 10);
                refused += 1;
                for values in desks {
                    assert_eq!(figure(&table, &values), None, "{}", shown(&table));
                    let raised = raised(&mut rng, &values);
                    assert_eq!(figure(&table, &raised), None, "{}", shown(&table));
                }
            }
        }
    }
    assert!(refused > 5_000, "{refused}");
    demand.assert_reached(300);
    demand.assert_triangular(5_000, 300);
}

/// Makes times so large that few of them reach the ceiling.
fn enlarge(tree: &mut Tree) {
    if let Kind::Block(Amount::Plain(time)) = &mut tree.kind {
        *time *= 100_000_000_000;
    }
    tree.children.iter_mut().for_each(enlarge);
}
