//! Which branch sets a figure, on hand-written tables: ties in every place, limits of children and of
//! the root, one child and 255, choices below the root, values that move the branch, and simplifying,
//! which does not keep it. All numbers here are literals.

use volefleece::raw::{self, Figure};
use volefleece_tests::compare::shown;
use volefleece_tests::evaluator::{self, Pair, Quoted};
use volefleece_tests::quotes;
use volefleece_tests::rng::Rng;
use volefleece_tests::simplifications::simplify;
use volefleece_tests::tables::*;

const ZEROS: [u64; 40] = [0; 40];

/// Both evaluators answer this figure with this branch, these symbols having these values and all others
/// 0.
#[track_caller]
fn expect_at(symbols: &[(usize, u64)], table: &[u8], figure: u64, branch: u64) {
    let mut values = ZEROS;
    for &(symbol, value) in symbols {
        values[symbol] = value;
    }
    let answer = quotes::agreed(table, &values);
    assert_eq!(answer, Ok(Quoted { figure, branch }), "{}", shown(table));
}

#[track_caller]
fn expect(table: &[u8], figure: u64, branch: u64) {
    expect_at(&[], table, figure, branch);
}

/// A choice of blocks.
fn blocks(times: &[u64]) -> Vec<u8> {
    let blocks: Vec<_> = times.iter().map(|&time| block(time)).collect();
    choice(&blocks)
}

/// The tree with a limit in the run.
fn most(limit: u32, tree: Vec<u8>) -> Vec<u8> {
    limited(tree, limit, 255)
}

// The largest child, and ties.

#[test]
fn the_largest_child_is_the_branch() {
    for children in 1..=8 {
        for largest in 0..children {
            let mut times = vec![5; children];
            times[largest] = 9;
            expect(&blocks(&times), 9, largest as u64);
            // Rising and falling ones beside it.
            let mut times: Vec<u64> = (0..children as u64).collect();
            times[largest] = 9;
            expect(&blocks(&times), 9, largest as u64);
            times.reverse();
            expect(&blocks(&times), 9, (children - 1 - largest) as u64);
        }
    }
}

#[test]
fn of_two_equal_children_the_earlier_is_the_branch() {
    for children in 2..=8 {
        for first in 0..children {
            for second in first + 1..children {
                let mut times = vec![5; children];
                (times[first], times[second]) = (9, 9);
                expect(&blocks(&times), 9, first as u64);
                // Where one of the two is larger, it is that one.
                times[first] = 10;
                expect(&blocks(&times), 10, first as u64);
                (times[first], times[second]) = (9, 10);
                expect(&blocks(&times), 10, second as u64);
            }
        }
    }
}

#[test]
fn where_all_children_are_equal_the_first_is_the_branch() {
    for children in 1..=8 {
        for time in [0, 1, 9, 1_000_000_000_000] {
            expect(&blocks(&vec![time; children]), time, 0);
        }
    }
}

/// Every choice of up to five such children.
#[test]
fn small_choices_all_together() {
    let children = [
        (block(0), 0),
        (block(1), 1),
        (block(2), 2),
        (most(0, block(2)), 0),
        (most(1, block(2)), 2),
    ];
    let mut seen = [0; 5];
    for count in 1..=5_u32 {
        for number in 0..5_usize.pow(count) {
            let digits = (0..count).map(|at| number / 5_usize.pow(at) % 5);
            let (tables, firsts): (Vec<_>, Vec<_>) = digits.map(|at| children[at].clone()).unzip();
            let mut branch = 0;
            for place in 1..firsts.len() {
                if firsts[place] > firsts[branch] {
                    branch = place;
                }
            }
            expect(&choice(&tables), firsts[branch], branch as u64);
            seen[branch] += 1;
        }
    }
    assert_eq!(seen.iter().sum::<u64>(), 5 + 25 + 125 + 625 + 3_125);
    assert!(seen.iter().all(|&times| times > 10), "{seen:?}");
}

/// First members alone are compared, however the lists go on and whatever they come from.
#[test]
fn children_of_any_kind_tie() {
    let nines = [
        block(9),
        most(1, block(9)),
        sequence(&[block(4), block(5)]),
        repeat(3, block(3), block(0)),
        repeat(0, block(100), block(9)),
        most(2, choice(&[block(8), block(9)])),
        choice(&[most(1, block(9)), most(7, block(8))]),
        symbol_repeat(0, block(3), block(0)),
        x(),
    ];
    let values = [(0, 3), (16, 9)];
    for first in &nines {
        for second in &nines {
            let pair = [first.clone(), second.clone()];
            expect_at(&values, &choice(&pair), 9, 0);
            let [first, second] = pair;
            let beside = [block(8), first, block(8), second];
            expect_at(&values, &choice(&beside), 9, 1);
        }
    }
    expect(&choice(&[block(8), most(1, block(9))]), 9, 1);
    expect(&choice(&[most(1_000_000, block(8)), block(9)]), 9, 1);
}

// Limits.

#[test]
fn a_childs_own_limit_comes_first() {
    expect(&choice(&[most(0, block(100)), block(5)]), 5, 1);
    expect(&choice(&[block(5), most(0, block(100))]), 5, 0);
    expect(&choice(&[most(1, block(100)), block(5)]), 100, 0);
    expect(&choice(&[block(5), most(1, block(100))]), 100, 1);
    // With its limit of 0 it is one of several zeros.
    expect(&choice(&[most(0, block(100)), block(0)]), 0, 0);
    expect(&choice(&[block(0), most(0, block(100))]), 0, 0);
    let limited = [
        block(100),
        x(),
        sequence(&[block(60), block(40)]),
        choice(&[block(1), block(100)]),
        repeat(100, block(1), block(0)),
        repeat(0, block(1), block(100)),
    ];
    for child in limited {
        let beside = |child| choice(&[block(3), child, block(5), block(4)]);
        expect_at(&[(16, 100)], &beside(child.clone()), 100, 1);
        expect_at(&[(16, 100)], &beside(most(1, child.clone())), 100, 1);
        expect_at(&[(16, 100)], &beside(most(0, child)), 5, 2);
    }
    // So does a limit further down.
    let inside = sequence(&[most(0, block(100)), block(3)]);
    expect(&choice(&[inside, block(5)]), 5, 1);
}

#[test]
fn children_that_are_all_limited_to_0() {
    for children in [1, 2, 3, 100, 255] {
        let children: Vec<_> = (1..=children).map(|time| most(0, block(time))).collect();
        expect(&choice(&children), 0, 0);
    }
}

#[test]
fn a_childs_limit_may_be_a_symbol() {
    for child in [
        symbol_limited(block(100), 0, 255),
        triangular_limited(block(100), 0, 255),
    ] {
        let table = choice(&[block(5), child, block(6)]);
        expect_at(&[(0, 0)], &table, 6, 2);
        expect_at(&[(0, 1)], &table, 100, 1);
        expect_at(&[(0, 1_000)], &table, 100, 1);
    }
}

#[test]
fn the_roots_own_limit_keeps_the_branch() {
    for (times, branch) in [
        (&[9][..], 0),
        (&[9, 5], 0),
        (&[5, 9, 7], 1),
        (&[5, 9, 9], 1),
        (&[5, 7, 9], 2),
        (&[1, 2, 3, 4, 5, 9], 5),
    ] {
        let root = blocks(times);
        expect(&most(0, root.clone()), 0, branch);
        for limit in [1, 2, 1_000_000] {
            expect(&most(limit, root.clone()), 9, branch);
        }
        for root in [
            symbol_limited(root.clone(), 0, 255),
            triangular_limited(root, 0, 255),
        ] {
            expect_at(&[(0, 0)], &root, 0, branch);
            expect_at(&[(0, 1)], &root, 9, branch);
        }
    }
    // Limits of 0 on the children and the root.
    let children = [most(0, block(9)), block(3), most(1, block(5))];
    expect(&most(0, choice(&children)), 0, 2);
    expect(&most(1, choice(&children)), 5, 2);
}

// One child, and 255.

#[test]
fn an_only_child_is_the_branch() {
    expect(&blocks(&[7]), 7, 0);
    expect(&blocks(&[0]), 0, 0);
    expect(&choice(&[most(0, block(7))]), 0, 0);
    expect(&most(0, blocks(&[7])), 0, 0);
    expect(&choice(&[sequence(&[block(3), block(4)])]), 7, 0);
}

#[test]
fn each_of_255_children_may_be_the_branch() {
    for place in 0..255 {
        let mut times = vec![1; 255];
        times[place] = 2;
        expect(&blocks(&times), 2, place as u64);
        // An equal one at the end makes no difference.
        times[254] = 2;
        expect(&blocks(&times), 2, place as u64);
    }
    let rising: Vec<u64> = (1..=255).collect();
    expect(&blocks(&rising), 255, 254);
    expect(&most(0, blocks(&rising)), 0, 254);
    let falling: Vec<u64> = (1..=255).rev().collect();
    expect(&blocks(&falling), 255, 0);
}

#[test]
fn the_last_child_of_the_longest_choice() {
    // 255 children of two records, which are 511 with the root's.
    let mut children = vec![sequence(&[block(7)]); 254];
    children.push(choice(&[block(8)]));
    expect(&choice(&children), 8, 254);
    children[253] = limited(repeat(2, block(4), block(0)), 1, 255);
    let table = choice(&children);
    assert_eq!(table.len(), 512 * 24);
    expect(&table, 8, 253);
}

// Roots that are no choice, and choices below the root.

#[test]
fn a_root_that_is_no_choice_has_no_branch() {
    expect(&block(7), 7, 255);
    expect(&block(0), 0, 255);
    expect_at(&[(16, 3)], &x(), 3, 255);
    expect(&sequence(&[block(3), block(4)]), 7, 255);
    expect(&repeat(3, block(3), block(4)), 13, 255);
    expect(&repeat(0, block(3), block(4)), 4, 255);
    for limit in [0, 1] {
        let seven = 7 * u64::from(limit);
        expect(&most(limit, block(7)), seven, 255);
        expect(&most(limit, sequence(&[block(7)])), seven, 255);
        expect(&most(limit, repeat(7, block(1), block(0))), seven, 255);
    }
}

#[test]
fn sequences_and_loops_pass_no_branch_on() {
    let inner = || blocks(&[5, 9, 7]);
    for sequences in 1..=30 {
        expect(&in_sequences(sequences, inner()), 9, 255);
    }
    expect(&sequence(&[inner(), block(0)]), 9, 255);
    expect(&sequence(&[block(0), inner()]), 9, 255);
    expect(&sequence(&[inner(), inner()]), 18, 255);
    expect(&repeat(1, inner(), block(0)), 9, 255);
    expect(&repeat(3, inner(), block(0)), 27, 255);
    expect(&repeat(0, block(0), inner()), 9, 255);
    expect(&repeat(1, inner(), inner()), 18, 255);
    expect(&in_loops(8, 1, inner()), 9, 255);
    // Nor does one below the root choice.
    expect(&choice(&[sequence(&[inner()])]), 9, 0);
    expect(&choice(&[repeat(1, inner(), block(0))]), 9, 0);
}

#[test]
fn a_choice_in_the_root_choice_counts_as_one_child() {
    expect(&choice(&[blocks(&[5, 9, 7])]), 9, 0);
    expect(
        &choice(&[block(1), blocks(&[2, 3, 9]), block(4), block(4)]),
        9,
        1,
    );
    expect(&choice(&[blocks(&[1, 9]), block(9)]), 9, 0);
    expect(&choice(&[blocks(&[9, 9]), block(10)]), 10, 1);
    expect(
        &choice(&[block(1), block(1), block(1), blocks(&[9, 1])]),
        9,
        3,
    );
    let sum = sequence(&[blocks(&[1, 6]), blocks(&[3, 2])]);
    expect(&choice(&[block(8), sum.clone()]), 9, 1);
    expect(&choice(&[block(9), sum]), 9, 0);
    let passes = repeat(2, blocks(&[1, 1, 5]), block(0));
    expect(&choice(&[block(9), block(9), passes]), 10, 2);
    let nested = (0..29).fold(blocks(&[1, 1, 9]), |inner, _| choice(&[block(3), inner]));
    expect(&nested, 9, 1);
}

// Values.

#[test]
fn values_move_the_branch() {
    let table = choice(&[x(), y(), block(50)]);
    for (of_x, of_y, figure, branch) in [
        (0, 0, 50, 2),
        (49, 49, 50, 2),
        (50, 0, 50, 0),
        (0, 50, 50, 1),
        (50, 50, 50, 0),
        (50, 51, 51, 1),
        (51, 51, 51, 0),
        (52, 51, 52, 0),
        (51, 1_000_000_000_000, 1_000_000_000_000, 1),
    ] {
        expect_at(&[(16, of_x), (17, of_y)], &table, figure, branch);
    }
}

#[test]
fn counts_move_the_branch() {
    // 340 cycles for each card and 60 at the end, or the radio.
    let table = choice(&[symbol_repeat(0, block(340), block(60)), x()]);
    expect_at(&[(0, 264), (16, 90_000)], &table, 90_000, 1);
    expect_at(&[(0, 265), (16, 90_000)], &table, 90_160, 0);
    expect_at(&[(0, 2), (16, 740)], &table, 740, 0);
    expect_at(&[(0, 2), (16, 741)], &table, 741, 1);
    // The triangular numbers of 3, 4 and 5 are 6, 10 and 15.
    let often = choice(&[triangular_limited(block(1), 0, 1), block(0)]);
    let table = choice(&[block(10), repeat(100, often, block(0))]);
    expect_at(&[(0, 3)], &table, 10, 0);
    expect_at(&[(0, 4)], &table, 10, 0);
    expect_at(&[(0, 5)], &table, 15, 1);
}

// Refusals and lists.

/// Each number beside a refusal's is 0.
#[test]
fn a_refusal_has_neither_figure_nor_branch() {
    let root = |child| choice(&[block(7), child, block(9)]);
    let good = root(block(8));
    expect(&good, 9, 2);
    let past = repeat(1_000_000, block(1_000_000), block(1));
    let mut values = ZEROS;
    (values[0], values[39]) = (1_001, 1);
    let low = ZEROS;
    for (refused, table, values) in [
        (1, good[..71].to_vec(), &values[..]),
        (2, root(vec![4; 24]), &values),
        (3, root(block(1_000_000_000_001)), &values),
        (4, [good.clone(), block(8)].concat(), &values),
        (5, root(in_loops(9, 3, block(8))), &values),
        (6, root(limited(block(8), 1, 1)), &values),
        (7, root(in_loops(8, 3, most(1, block(8)))), &values),
        (9, good.clone(), &values[..39]),
        (13, root(triangular_limited(block(8), 0, 255)), &values),
        (14, good, &values),
        (10, root(past), &low),
    ] {
        let nothing = Figure {
            refused,
            figure: 0,
            branch: 0,
        };
        assert_eq!(raw::figure(&table, values), nothing, "{}", shown(&table));
    }
}

/// Both evaluators' list.
#[track_caller]
fn listed(table: &[u8], pairs: &[Pair]) {
    let list = quotes::list(&mut Rng::new(0), table, &ZEROS, 512);
    assert_eq!(list, Ok(pairs.to_vec()), "{}", shown(table));
    assert_eq!(evaluator::list(table, &ZEROS, 512), list);
}

/// The list is the same in whatever order the children come; the branch follows its child.
#[test]
fn lists_have_no_branch() {
    let children = [
        most(1, block(9)),
        block(5),
        most(2, block(7)),
        most(0, block(8)),
    ];
    for order in orders(4) {
        let ordered: Vec<_> = order.iter().map(|&at| children[at].clone()).collect();
        let table = choice(&ordered);
        let nine = order.iter().position(|&at| at == 0);
        let branch = nine.expect("it is there") as u64;
        expect(&table, 9, branch);
        listed(&table, &[(9, 1), (7, 2), (5, 0)]);
        let none = most(0, table.clone());
        expect(&none, 0, branch);
        listed(&none, &[(0, 0)]);
        let two = most(2, table);
        expect(&two, 9, branch);
        listed(&two, &[(9, 1), (7, 1), (0, 0)]);
    }
}

/// All orders of so many numbers from 0.
fn orders(count: usize) -> Vec<Vec<usize>> {
    if count == 0 {
        return vec![Vec::new()];
    }
    let with_last = |order: Vec<usize>| {
        (0..count).map(move |place| {
            let mut order = order.clone();
            order.insert(place, count - 1);
            order
        })
    };
    orders(count - 1).into_iter().flat_map(with_last).collect()
}

// Simplifying.

/// Makes one step, after which no rule fits, of a table with X at 9 and Y at 4. The figure is the same
/// before and after, the branch is not.
#[track_caller]
fn steps(table: &[u8], figure: u64, before: u64, after: u64) {
    let made = simplify(&mut Rng::new(0), table, u64::MAX, table.len());
    let made = made.expect("small amounts");
    assert_eq!((made.steps, made.finished), (1, true), "{}", shown(table));
    let values = [(16, 9), (17, 4)];
    expect_at(&values, table, figure, before);
    expect_at(&values, &made.bytes, figure, after);
}

/// Sales and reception share figures, not branches.
#[test]
fn simplifying_keeps_the_figure_and_not_the_branch() {
    // Rule 5 makes C(X | 3) of C(0 | X | 3).
    steps(&choice(&[block(0), x(), block(3)]), 9, 1, 0);
    // Rule 7 makes C(2 | X) of C(1 | 2 | X).
    steps(&choice(&[block(1), block(2), x()]), 9, 2, 1);
    // Rule 2 makes C(Y | X | 3) of C(C(Y | X) | 3).
    steps(&choice(&[choice(&[y(), x()]), block(3)]), 9, 0, 1);
    // Rule 3 makes X of C(X).
    steps(&choice(&[x()]), 9, 0, 255);
    // Rule 1 makes 9 of C(3 | 9).
    steps(&blocks(&[3, 9]), 9, 1, 255);
    // Rule 8 makes (C(5 | Y), X) of C((5, X) | (Y, X)).
    let sums = [sequence(&[block(5), x()]), sequence(&[y(), x()])];
    steps(&choice(&sums), 14, 0, 255);
}
