//! `vf_figure` and `vf_list` on hand-written tables: document 01's cases, each rule of evaluation,
//! triangular limits, questions 8 to 10, 13 and 14 at and past their ends, and the order of all. All
//! numbers here are literals. Which branch sets a figure is in `branch.rs`, and what paired symbols do in
//! `paired.rs`; here the branch is the second evaluator's alone.

use volefleece::raw::{self, Checked, Figure, Listed};
use volefleece_tests::cases::{self, cases};
use volefleece_tests::compare::{lend, shown};
use volefleece_tests::evaluator::{self, Pair, Quoted};
use volefleece_tests::quotes;
use volefleece_tests::rng::Rng;
use volefleece_tests::tables::*;

const CEILING: u64 = 1_000_000_000_000;
const ZEROS: [u64; 40] = [0; 40];

/// The library and the second evaluator both answer this list or refusal, and its figure.
#[track_caller]
fn expect(table: &[u8], values: &[u64], room: usize, answer: Result<&[Pair], u64>) {
    let mut rng = Rng::new(0);
    let answer = answer.map(<[Pair]>::to_vec);
    let list = quotes::list(&mut rng, table, values, room);
    assert_eq!(list, answer, "the library's list: {}", shown(table));
    let list = evaluator::list(table, values, room);
    assert_eq!(list, answer, "the second list: {}", shown(table));
    if answer == Err(8) {
        return;
    }
    let first = answer.map(|pairs| pairs[0].0);
    let figure = quotes::agreed(table, values).map(|quoted| quoted.figure);
    assert_eq!(figure, first, "both figures: {}", shown(table));
}

#[track_caller]
fn listed(table: &[u8], pairs: &[Pair]) {
    expect(table, &ZEROS, 512, Ok(pairs));
}

/// The list is constant.
#[track_caller]
fn figure(table: &[u8], figure: u64) {
    listed(table, &[(figure, 0)]);
}

#[track_caller]
fn refused(question: u64, table: &[u8]) {
    expect(table, &ZEROS, 512, Err(question));
}

/// A block that has its time in so many passes of the run and else costs nothing.
fn run_block(time: u64, limit: u32) -> Vec<u8> {
    limited(block(time), limit, 255)
}

// Document 01's cases.

#[test]
fn cases_have_the_lists_of_document_01() {
    for case in cases() {
        let answer = case.answer.as_deref().map_err(|&question| question);
        println!("case {}", case.name);
        expect(&case.table, &cases::VALUES, 512, answer);
        assert_eq!(quotes::agreed(&case.table, &cases::VALUES), case.quoted());
    }
}

#[test]
fn cases_j_and_k_follow_their_symbol() {
    let j = sequence(&[block(5), symbol_block(16), block(4)]);
    let shared = |time| sequence(&[block(time), symbol_block(16)]);
    let k = choice(&[shared(5), shared(4)]);
    for time in [0, 1, 1_000_001, CEILING - 9] {
        let mut values = ZEROS;
        values[16] = time;
        expect(&j, &values, 512, Ok(&[(9 + time, 0)]));
        expect(&k, &values, 512, Ok(&[(5 + time, 0)]));
    }
}

// Symbols.

/// Values that all differ, none of them 0, the later ones each 1 below their first.
fn distinct_values() -> [u64; 40] {
    std::array::from_fn(|at| match at {
        0..32 => 3 + 2 * at as u64,
        _ => 2 + 2 * (at as u64 - 8),
    })
}

#[test]
fn each_symbol_has_its_value() {
    let values = distinct_values();
    for symbol in 0..=15 {
        let value = 3 + 2 * u64::from(symbol);
        let bound = symbol_repeat(symbol.into(), block(1), block(0));
        expect(&bound, &values, 512, Ok(&[(value, 0)]));
        let limit = symbol_limited(block(1), symbol, 255);
        expect(&limit, &values, 512, Ok(&[(1, value), (0, 0)]));
        let both = symbol_limited(symbol_repeat(15, block(1), block(0)), symbol, 255);
        expect(&both, &values, 512, Ok(&[(33, value), (0, 0)]));
        // 3 has the triangular number 6, 5 has 15, and so on.
        let limit = triangular_limited(block(1), symbol, 255);
        let triangular = value * (value + 1) / 2;
        expect(&limit, &values, 512, Ok(&[(1, triangular), (0, 0)]));
    }
    for symbol in 16..=23 {
        let value = 3 + 2 * symbol;
        expect(&symbol_block(symbol), &values, 512, Ok(&[(value, 0)]));
        let both = symbol_limited(symbol_block(symbol), 2, 255);
        expect(&both, &values, 512, Ok(&[(value, 7), (0, 0)]));
        let both = triangular_limited(symbol_block(symbol), 2, 255);
        expect(&both, &values, 512, Ok(&[(value, 28), (0, 0)]));
    }
    for symbol in 24..=31 {
        let (first, later) = (3 + 2 * symbol, 2 + 2 * symbol);
        let pairs = [(first, 1), (later, 0)];
        expect(&symbol_block(symbol), &values, 512, Ok(&pairs));
        let both = symbol_limited(symbol_block(symbol), 2, 255);
        let pairs = [(first, 1), (later, 6), (0, 0)];
        expect(&both, &values, 512, Ok(&pairs));
        let both = triangular_limited(symbol_block(symbol), 2, 255);
        let pairs = [(first, 1), (later, 27), (0, 0)];
        expect(&both, &values, 512, Ok(&pairs));
    }
}

#[test]
fn a_plain_number_is_no_symbol() {
    let values = distinct_values();
    for number in 0..=40 {
        expect(&block(number), &values, 512, Ok(&[(number, 0)]));
        let bound = repeat(number, block(1), block(0));
        expect(&bound, &values, 512, Ok(&[(number, 0)]));
    }
    let limit = sequence(&[run_block(1, 5), symbol_block(16)]);
    expect(&limit, &values, 512, Ok(&[(36, 5), (35, 0)]));
}

// Limits.

#[test]
fn a_limit_keeps_the_first_members() {
    listed(&run_block(5, 3), &[(5, 3), (0, 0)]);
    listed(&run_block(5, 1_000_000), &[(5, 1_000_000), (0, 0)]);
    listed(&run_block(5, 0), &[(0, 0)]);
    listed(&run_block(0, 3), &[(0, 0)]);

    let falling = || choice(&[run_block(9, 2), run_block(7, 2), block(4)]);
    let falling_for = |limit| limited(falling(), limit, 255);
    listed(&falling(), &[(9, 2), (7, 2), (4, 0)]);
    listed(&falling_for(0), &[(0, 0)]);
    listed(&falling_for(1), &[(9, 1), (0, 0)]);
    listed(&falling_for(2), &[(9, 2), (0, 0)]);
    listed(&falling_for(3), &[(9, 2), (7, 1), (0, 0)]);
    listed(&falling_for(4), &[(9, 2), (7, 2), (0, 0)]);
    listed(&falling_for(5), &[(9, 2), (7, 2), (4, 1), (0, 0)]);
}

#[test]
fn a_limit_past_the_last_member_above_0_changes_nothing() {
    let falling = || sequence(&[run_block(9, 2), run_block(7, 5)]);
    for limit in [5, 6, 1_000_000] {
        let limited = limited(falling(), limit, 255);
        listed(&limited, &[(16, 2), (7, 3), (0, 0)]);
    }
}

#[test]
fn limits_on_loops_count_whole_passes() {
    let passes = limited(repeat(3, run_block(5, 4), block(1)), 2, 255);
    listed(&passes, &[(16, 1), (6, 1), (0, 0)]);
}

// Triangular limits.

/// Zeros, but for these symbols.
fn values_of(symbols: &[(usize, u64)]) -> [u64; 40] {
    let mut values = ZEROS;
    for &(symbol, value) in symbols {
        values[symbol] = value;
    }
    values
}

/// The constant list of that table where symbol 0 has that value.
#[track_caller]
fn figure_at(table: &[u8], value: u64, figure: u64) {
    expect(table, &values_of(&[(0, value)]), 512, Ok(&[(figure, 0)]));
}

#[test]
fn a_triangular_limit_keeps_so_many_members() {
    for (value, kept) in [
        (1, 1),
        (2, 3),
        (3, 6),
        (4, 10),
        (10, 55),
        (999, 499_500),
        (1_000, 500_500),
    ] {
        let values = values_of(&[(0, value)]);
        let on_block = triangular_limited(block(5), 0, 255);
        expect(&on_block, &values, 512, Ok(&[(5, kept), (0, 0)]));
        let on_list = triangular_limited(sequence(&[block(5), block(2)]), 0, 255);
        expect(&on_list, &values, 512, Ok(&[(7, kept), (0, 0)]));
        let on_loop = triangular_limited(repeat(3, block(5), block(2)), 0, 255);
        expect(&on_loop, &values, 512, Ok(&[(17, kept), (0, 0)]));
        let plain = run_block(5, kept as u32);
        expect(&plain, &values, 512, Ok(&[(5, kept), (0, 0)]));
    }
    listed(&triangular_limited(block(5), 0, 255), &[(0, 0)]);
}

/// Document 000's example: for i from 1 to 10, and in it for j from i to 10. The block in the inner
/// loop has the annotation (Leaf(b), l_outer, 55), which is a limit of 55 and byte 3 = 2 here. Both
/// loops have bound 10, so that without the limit the block would count 100 times.
#[test]
fn document_000s_triangular_loop_passes_its_block_55_times() {
    let example = |block| in_loops(2, 10, block);
    let time = 7;
    figure(&example(block(time)), 100 * time);
    figure(&example(limited(block(time), 55, 2)), 55 * time);
    let by_symbol = example(triangular_limited(block(time), 0, 2));
    figure_at(&by_symbol, 10, 55 * time);
    // A round less of both loops, or one more where the bounds stay 10.
    figure_at(&by_symbol, 9, 45 * time);
    figure_at(&by_symbol, 11, 66 * time);
    // The inner loop's own limit is never reached.
    let inner = example(triangular_limited(block(time), 0, 1));
    figure_at(&inner, 10, 100 * time);
    // Where the block is one of two ways, the other 45 passes take the other.
    let ways = |limited| example(choice(&[limited, block(2)]));
    let (plain, by_symbol) = (limited(block(7), 55, 2), triangular_limited(block(7), 0, 2));
    figure(&ways(plain), 55 * 7 + 45 * 2);
    figure_at(&ways(by_symbol), 10, 55 * 7 + 45 * 2);
    figure(&ways(block(7)), 100 * 7);
}

/// The same with every bound and the limit from one symbol: the card search.
#[test]
fn a_triangular_loop_of_any_size() {
    let inner = symbol_repeat(0, triangular_limited(block(7), 0, 2), block(0));
    let table = symbol_repeat(0, inner, block(3));
    for (cards, passes) in [
        (0, 0),
        (1, 1),
        (2, 3),
        (10, 55),
        (100, 5_050),
        (1_000, 500_500),
    ] {
        figure_at(&table, cards, 7 * passes + 3);
    }
}

#[test]
fn a_symbol_may_be_a_limit_both_ways() {
    let both = sequence(&[
        triangular_limited(block(5), 3, 255),
        symbol_limited(block(2), 3, 255),
        triangular_limited(block(1), 4, 255),
    ]);
    let values = values_of(&[(3, 4), (4, 3)]);
    expect(&both, &values, 512, Ok(&[(8, 4), (6, 2), (5, 4), (0, 0)]));
}

#[test]
fn raising_a_triangular_symbol_never_lowers_a_figure() {
    let ways = |names| choice(&[triangular_limited(block(9), 0, names), block(4)]);
    let tables = [
        in_loops(1, 1_000_000, ways(1)),
        in_loops(2, 700, ways(2)),
        in_loops(2, 700, ways(1)),
        in_loops(2, 700, ways(255)),
        in_loops(1, 40, triangular_limited(ways(1), 0, 1)),
        symbol_repeat(0, ways(1), triangular_limited(block(8), 0, 255)),
    ];
    for table in tables {
        let mut figures = Vec::new();
        for value in 0..=1_000 {
            let quoted = quotes::agreed(&table, &values_of(&[(0, value)]));
            figures.push(quoted.expect("small amounts").figure);
        }
        assert!(figures.is_sorted(), "{figures:?}");
        assert!(figures[0] < figures[1_000], "{figures:?}");
        expect(&table, &values_of(&[(0, 1_001)]), 512, Err(13));
    }
}

// Sequences and choices.

#[test]
fn sequences_add_place_by_place() {
    listed(
        &sequence(&[run_block(5, 2), run_block(3, 2)]),
        &[(8, 2), (0, 0)],
    );
    listed(
        &sequence(&[run_block(5, 2), run_block(3, 3)]),
        &[(8, 2), (3, 1), (0, 0)],
    );
    listed(
        &sequence(&[run_block(5, 3), run_block(3, 2)]),
        &[(8, 2), (5, 1), (0, 0)],
    );
    listed(
        &sequence(&[run_block(5, 3), block(1), run_block(3, 2), run_block(2, 3)]),
        &[(11, 2), (8, 1), (1, 0)],
    );
}

#[test]
fn choices_take_members_together() {
    listed(
        &choice(&[run_block(5, 2), run_block(3, 2)]),
        &[(5, 2), (3, 2), (0, 0)],
    );
    listed(
        &choice(&[run_block(3, 2), block(1), run_block(5, 2)]),
        &[(5, 2), (3, 2), (1, 0)],
    );
    let first = || choice(&[run_block(9, 1), run_block(4, 3)]);
    let second = || choice(&[run_block(6, 2), run_block(2, 1)]);
    listed(
        &choice(&[first(), second()]),
        &[(9, 1), (6, 2), (4, 3), (2, 1), (0, 0)],
    );
}

#[test]
fn equal_members_of_a_choice_all_count() {
    let five = |limit| run_block(5, limit);
    listed(&choice(&[five(2), five(3)]), &[(5, 5), (0, 0)]);
    listed(&choice(&[five(2), five(3), five(4)]), &[(5, 9), (0, 0)]);
    listed(&choice(&[five(2), block(5)]), &[(5, 0)]);
    listed(&choice(&[block(5), five(2)]), &[(5, 0)]);
    listed(&choice(&[five(2), block(4), five(2)]), &[(5, 4), (4, 0)]);
    let falling = || choice(&[run_block(7, 1), run_block(5, 2)]);
    listed(&choice(&[falling(), falling()]), &[(7, 2), (5, 4), (0, 0)]);
}

#[test]
fn members_below_an_endless_one_are_never_reached() {
    listed(
        &choice(&[run_block(9, 1), run_block(3, 5), block(4)]),
        &[(9, 1), (4, 0)],
    );
    listed(
        &choice(&[block(4), run_block(4, 5), run_block(3, 5)]),
        &[(4, 0)],
    );
    figure(&choice(&[block(4), block(6), block(5)]), 6);
}

#[test]
fn a_list_of_one_child_is_the_childs() {
    for list in [sequence, choice] {
        listed(&list(&[run_block(5, 2)]), &[(5, 2), (0, 0)]);
        figure(&list(&[block(5)]), 5);
    }
}

// Loops.

#[test]
fn loops_sum_groups() {
    let body = || choice(&[run_block(10, 5), block(1)]);
    let repeated = |bound| repeat(bound, body(), block(0));
    listed(&repeated(1), &[(10, 5), (1, 0)]);
    listed(&repeated(2), &[(20, 2), (11, 1), (2, 0)]);
    listed(&repeated(3), &[(30, 1), (21, 1), (3, 0)]);
    listed(&repeated(4), &[(40, 1), (13, 1), (4, 0)]);
    listed(&repeated(5), &[(50, 1), (5, 0)]);
    listed(&repeated(6), &[(51, 1), (6, 0)]);
    listed(&repeated(1_000_000), &[(1_000_045, 1), (1_000_000, 0)]);
}

#[test]
fn long_runs_make_many_groups() {
    let repeated = |bound| repeat(bound, run_block(5, 1_000_000), block(1));
    listed(&repeated(1), &[(6, 1_000_000), (1, 0)]);
    listed(&repeated(2), &[(11, 500_000), (1, 0)]);
    listed(&repeated(3), &[(16, 333_333), (6, 1), (1, 0)]);
    listed(&repeated(1_000_000), &[(5_000_001, 1), (1, 0)]);
    let both = choice(&vec![run_block(5, 1_000_000); 127]);
    listed(
        &repeat(3, both, block(0)),
        &[(15, 42_333_333), (5, 1), (0, 0)],
    );
}

#[test]
fn a_group_may_span_several_runs() {
    let falling = [
        run_block(9, 1),
        run_block(7, 1),
        run_block(5, 3),
        run_block(2, 4),
    ];
    let repeated = |bound| repeat(bound, choice(&falling), block(0));
    listed(
        &repeated(2),
        &[(16, 1), (10, 1), (7, 1), (4, 1), (2, 1), (0, 0)],
    );
    listed(&repeated(3), &[(21, 1), (12, 1), (6, 1), (0, 0)]);
    listed(&repeated(4), &[(26, 1), (11, 1), (2, 1), (0, 0)]);
    listed(&repeated(7), &[(35, 1), (4, 1), (0, 0)]);
    listed(&repeated(9), &[(39, 1), (0, 0)]);
}

#[test]
fn exits_are_added_place_by_place() {
    figure(&repeat(2, block(5), block(3)), 13);
    listed(&repeat(2, block(5), run_block(3, 2)), &[(13, 2), (10, 0)]);
    listed(
        &repeat(2, run_block(5, 3), run_block(3, 2)),
        &[(13, 1), (8, 1), (0, 0)],
    );
}

#[test]
fn loops_of_bound_0_are_their_exits() {
    figure(&repeat(0, block(9), block(4)), 4);
    listed(
        &repeat(0, run_block(9, 3), run_block(4, 2)),
        &[(4, 2), (0, 0)],
    );
    figure(&repeat(0, limited(block(9), 1, 1), block(4)), 4);
    figure(&repeat(5, repeat(0, block(9), block(4)), block(0)), 20);
}

// Named loops.

/// C(10/1@k | 0), which names the loop k.
fn ten_once(names: u8) -> Vec<u8> {
    choice(&[limited(block(10), 1, names), block(0)])
}

#[test]
fn a_limit_holds_in_each_pass_of_its_loop() {
    // Loops of 2, 3, 5 and 7 passes: each loop outside the named one multiplies.
    for (names, ten_times) in [(1, 2 * 3 * 5), (2, 2 * 3), (3, 2), (4, 1)] {
        let mut tree = ten_once(names);
        for bound in [7, 5, 3, 2] {
            tree = repeat(bound, tree, block(0));
        }
        figure(&tree, 10 * ten_times);
    }
    let run = in_loops(4, 3, ten_once(255));
    listed(&run, &[(10, 1), (0, 0)]);
}

#[test]
fn the_innermost_named_loop_is_taken_for_all() {
    // The limit in the outer loop counts as one in the inner, so the 10s come in each of its passes.
    let both = sequence(&[ten_once(1), ten_once(2)]);
    figure(&in_loops(2, 3, both), 60);
    let both = choice(&[ten_once(1), ten_once(2)]);
    figure(&in_loops(2, 3, both), 60);
    // Alone the one in the outer loop comes once.
    figure(&in_loops(2, 3, ten_once(2)), 10);
    // The order of the children does not matter.
    figure(&in_loops(2, 3, sequence(&[ten_once(2), ten_once(1)])), 60);
    figure(
        &in_loops(2, 3, sequence(&[ten_once(2), ten_once(1), block(0)])),
        60,
    );
}

#[test]
fn a_limit_names_no_further_out_than_its_node() {
    // The node names the inner loop already, the limit on it the outer one or the run.
    for names in [2, 255] {
        let inner = limited(ten_once(1), 1, names);
        figure(&in_loops(2, 3, inner), 30);
    }
    // And the other way round.
    for names in [2, 255] {
        let inner = limited(ten_once(names), 1, 1);
        figure(&in_loops(2, 3, inner), 30);
    }
}

#[test]
fn constant_lists_name_their_loop() {
    // Each first child's list is constant, and names the innermost loop all the same.
    let constant = [
        limited(block(0), 3, 1),
        limited(block(9), 0, 1),
        choice(&[limited(block(4), 1, 1), block(4)]),
        choice(&[limited(block(3), 5, 1), block(4)]),
    ];
    for (constant, time) in constant.into_iter().zip([0, 0, 4, 4]) {
        let body = sequence(&[constant, ten_once(2)]);
        figure(&in_loops(2, 3, body), 3 * (10 + 3 * time));
    }
}

#[test]
fn constant_bodies_name_their_loop() {
    // The body of the innermost loop is constant and names the loop around it.
    let constant = choice(&[limited(block(4), 1, 2), block(4)]);
    let inner = repeat(3, constant, block(0));
    let body = sequence(&[inner, ten_once(255)]);
    figure(&in_loops(2, 3, body), 3 * (10 + 3 * 12));
}

#[test]
fn a_loop_of_bound_0_keeps_the_outer_loop_it_names() {
    let nothing = |names| repeat(0, limited(block(9), 1, names), block(0));
    let body = |names, ten| sequence(&[nothing(names), ten_once(ten)]);
    // The inner of two loops is named beside the run: its first sum comes in each pass.
    figure(&in_loops(2, 2, body(2, 255)), 20);
    // The loop of bound 0 itself is named, which is nothing to those around it.
    listed(&in_loops(2, 2, body(1, 255)), &[(10, 1), (0, 0)]);
    figure(&in_loops(2, 2, body(1, 1)), 20);
    figure(&in_loops(2, 2, body(1, 2)), 10);
}

#[test]
fn a_loop_that_is_named_names_the_whole_run() {
    // Once its first sum is kept, the loop's list is constant for the loops around it.
    let inner = repeat(3, ten_once(1), block(0));
    let body = sequence(&[inner, ten_once(255)]);
    listed(&in_loops(1, 3, body), &[(40, 1), (30, 0)]);
}

#[test]
fn an_exit_counts_from_outside_its_loop() {
    // The exit names the loop around the loop that it leaves.
    let inner = repeat(2, block(1), ten_once(1));
    figure(&in_loops(2, 3, inner.clone()), 3 * (10 + 3 * 2));
    listed(&repeat(2, block(1), ten_once(255)), &[(12, 1), (2, 0)]);
    // Beside it the body's name is counted from outside too.
    let inner = repeat(2, ten_once(2), ten_once(1));
    figure(&in_loops(2, 3, inner), 3 * 20);
    let inner = repeat(2, ten_once(3), ten_once(1));
    figure(&in_loops(2, 3, inner), 3 * 20);
}

#[test]
fn all_eight_loops_can_be_named() {
    for names in 1..=8 {
        let tree = in_loops(8, 2, ten_once(names));
        figure(&tree, 10 << (8 - names));
    }
}

// Question 10.

#[test]
fn sums_past_the_ceiling_are_refused_10() {
    figure(&block(CEILING), CEILING);
    figure(&sequence(&[block(CEILING), block(0)]), CEILING);
    refused(10, &sequence(&[block(CEILING), block(1)]));
    refused(10, &sequence(&[block(1), block(CEILING)]));
    refused(10, &sequence(&vec![block(CEILING); 255]));
    figure(&choice(&vec![block(CEILING); 255]), CEILING);
    figure(&repeat(1, block(CEILING), block(0)), CEILING);
    refused(10, &repeat(1, block(CEILING), block(1)));
    refused(10, &repeat(2, block(CEILING), block(0)));
    figure(&repeat(0, block(CEILING), block(CEILING)), CEILING);
}

#[test]
fn loops_past_the_ceiling_are_refused_10() {
    figure(&repeat(1_000_000, block(1_000_000), block(0)), CEILING);
    refused(10, &repeat(1_000_000, block(1_000_000), block(1)));
    refused(10, &repeat(1_000_000, block(1_000_001), block(0)));
    figure(
        &repeat(999_999, block(1_000_000), block(1_000_000)),
        CEILING,
    );
    refused(10, &repeat(999_999, block(1_000_000), block(1_000_001)));
    figure(&in_loops(2, 1_000, block(1_000_000)), CEILING);
    figure(&in_loops(2, 1_000_000, block(1)), CEILING);
    refused(10, &in_loops(2, 1_000_000, block(2)));
}

#[test]
fn no_sum_wraps_round_to_an_answer() {
    for loops in 1..=8 {
        for time in [CEILING, 1 << 39, 1 << 32, 1_000_001] {
            refused(10, &in_loops(loops, 1_000_000, block(time)));
        }
        // Powers of 2, whose products have nothing but zeros in the low bits.
        refused(10, &in_loops(loops, 1 << 19, block(1 << 39)));
        let wide = sequence(&vec![block(CEILING); 255]);
        refused(10, &in_loops(loops, 1_000_000, wide));
    }
    // The same where the body's list falls.
    refused(10, &in_loops(1, 1 << 19, run_block(1 << 39, 1_000_000)));
    refused(
        10,
        &in_loops(1, 1 << 19, limited(block(1 << 39), 1 << 19, 1)),
    );
}

#[test]
fn falling_lists_are_summed_as_they_fall() {
    let body = |after| choice(&[limited(block(CEILING), 1, 1), block(after)]);
    figure(&repeat(1_000_000, body(0), block(0)), CEILING);
    refused(10, &repeat(1_000_000, body(0), block(1)));
    refused(10, &repeat(1_000_000, body(1), block(0)));
    figure(&repeat(1, body(1), block(0)), CEILING);
    let body = choice(&[run_block(999_999, 3), block(1_000_000)]);
    figure(&repeat(1_000_000, body, block(0)), CEILING);
    let body = choice(&[run_block(1_000_001, 3), block(1_000_000)]);
    refused(10, &repeat(1_000_000, body, block(0)));
}

/// Each of a sequence, a choice and a loop at the ceiling and past it, with nothing above it yet.
fn at_and_past_the_ceiling() -> [(Vec<u8>, Vec<u8>); 4] {
    let sum = |time| sequence(&[block(CEILING - 5), block(time)]);
    let passes = |exit| repeat(1_000_000, block(1_000_000), block(exit));
    let long = |bound| repeat(bound, block(1_000_000), block(1_000_000));
    [
        (sum(5), sum(6)),
        (choice(&[block(3), sum(5)]), choice(&[block(3), sum(6)])),
        (passes(0), passes(1)),
        (long(999_999), long(1_000_000)),
    ]
}

#[test]
fn question_10_comes_before_a_nodes_own_limit() {
    for (at, past) in at_and_past_the_ceiling() {
        listed(&limited(at.clone(), 1, 255), &[(CEILING, 1), (0, 0)]);
        listed(&limited(at, 0, 255), &[(0, 0)]);
        refused(10, &limited(past.clone(), 1, 255));
        refused(10, &limited(past, 0, 255));
    }
}

#[test]
fn question_10_is_put_to_nodes_that_add_nothing_to_the_root() {
    for (at, past) in at_and_past_the_ceiling() {
        let answers = |table: fn(Vec<u8>) -> Vec<u8>| {
            figure(&table(at.clone()), 7);
            refused(10, &table(past.clone()));
        };
        answers(|node| sequence(&[limited(node, 0, 255), block(7)]));
        answers(|node| sequence(&[block(7), limited(node, 0, 255)]));
        answers(|node| choice(&[limited(node, 0, 255), block(7)]));
        answers(|node| choice(&[block(7), limited(node, 0, 255)]));
        answers(|node| repeat(0, node, block(7)));
        answers(|node| repeat(3, limited(node, 0, 1), block(7)));
        answers(|node| repeat(7, block(1), limited(node, 0, 255)));
        answers(|node| {
            let zero = limited(sequence(&[node]), 0, 1);
            in_sequences(5, repeat(7, choice(&[block(1), zero]), block(0)))
        });
    }
}

#[test]
fn question_10_is_put_with_the_values() {
    let time = sequence(&[symbol_block(23), block(1)]);
    let bound = symbol_repeat(0, block(1_000_000), block(1));
    let mut values = ZEROS;
    values[0] = 999_999;
    values[23] = CEILING - 1;
    expect(&time, &values, 512, Ok(&[(CEILING, 0)]));
    expect(&bound, &values, 512, Ok(&[(CEILING - 999_999, 0)]));
    values[0] = 1_000_000;
    values[23] = CEILING;
    expect(&time, &values, 512, Err(10));
    expect(&bound, &values, 512, Err(10));
}

// Question 9.

/// Every value at its ceiling.
fn ceilings() -> [u64; 40] {
    std::array::from_fn(|at| if at < 16 { 1_000_000 } else { CEILING })
}

#[test]
fn other_numbers_of_values_are_refused_9() {
    for length in (0..=39).chain(41..=48).chain([64, 296, 65_576]) {
        expect(&block(7), &vec![0; length], 512, Err(9));
    }
    expect(&block(7), &[], 512, Err(9));
    expect(&block(7), &[0; 40], 512, Ok(&[(7, 0)]));
}

#[test]
fn each_value_has_its_ceiling() {
    let used = [
        sequence(&(16..=31).map(symbol_block).collect::<Vec<_>>()),
        choice(
            &(0..=15)
                .map(|symbol| symbol_repeat(symbol, block(1), block(0)))
                .collect::<Vec<_>>(),
        ),
    ];
    expect(&block(7), &ceilings(), 512, Ok(&[(7, 0)]));
    for at in 0..40 {
        let ceiling = ceilings()[at];
        let mut values = ZEROS;
        if at >= 32 {
            // Its first, which it may not exceed.
            values[at - 8] = ceiling;
        }
        values[at] = ceiling;
        expect(&block(7), &values, 512, Ok(&[(7, 0)]));
        let over = [ceiling + 1, 1 << 40, 1 << 63, (1 << 32) + 1, u64::MAX];
        for value in over.into_iter().filter(|&value| value > ceiling) {
            values[at] = value;
            for table in [&block(7), &used[0], &used[1]] {
                expect(table, &values, 512, Err(9));
            }
        }
    }
}

// Question 13.

#[test]
fn values_past_1000_are_refused_13_under_flag_4() {
    for symbol in 0..=15 {
        let kinds = [
            block(7),
            symbol_block(16),
            sequence(&[block(7)]),
            choice(&[block(7)]),
            repeat(1, block(7), block(0)),
            symbol_repeat(symbol.into(), block(7), block(0)),
        ];
        for node in kinds {
            let table = triangular_limited(node, symbol, 255);
            let answer =
                |value| quotes::agreed(&table, &values_of(&[(symbol as usize, value)])).err();
            assert_eq!([999, 1_000].map(answer), [None, None]);
            for value in [1_001, 1_256, 65_536, 66_536, 1_000_000] {
                let values = values_of(&[(symbol as usize, value)]);
                expect(&table, &values, 512, Err(13));
            }
        }
    }
}

#[test]
fn other_symbols_are_not_asked() {
    // Symbol 0 is a limit by flag 4, symbols 1 and 2 are a limit and a bound, and 3 is not used.
    let limits = choice(&[
        triangular_limited(block(9), 0, 1),
        symbol_limited(block(8), 1, 1),
        block(1),
    ]);
    let table = symbol_repeat(2, limits, block(0));
    let high = |low| {
        let mut values = ceilings();
        values[0] = low;
        values
    };
    // 500,500 times 9, and 8 for the rest of a million.
    let at_most = 500_500 * 9 + 499_500 * 8;
    expect(&table, &high(1_000), 512, Ok(&[(at_most, 0)]));
    expect(&table, &high(0), 512, Ok(&[(8_000_000, 0)]));
    expect(&table, &high(1_001), 512, Err(13));
    // Without flag 4 no symbol is asked, and with it each one that has it.
    let none = choice(&[symbol_limited(block(9), 0, 1), block(1)]);
    let none = symbol_repeat(2, none, block(0));
    expect(&none, &ceilings(), 512, Ok(&[(9_000_000, 0)]));
    let two = |first, second| {
        let blocks = [(7, 0), (6, 1)].map(|(time, of)| triangular_limited(block(time), of, 255));
        let values = values_of(&[(0, first), (1, second), (2, 1_000_000)]);
        (choice(&blocks), values)
    };
    for (first, second) in [(1_001, 5), (5, 1_001), (1_001, 1_001)] {
        let (table, values) = two(first, second);
        expect(&table, &values, 512, Err(13));
    }
    let (table, values) = two(1_000, 1);
    expect(&table, &values, 512, Ok(&[(7, 500_500), (6, 1), (0, 0)]));
}

/// One place under flag 4 is enough, wherever the symbol stands besides.
#[test]
fn a_symbol_used_both_ways_is_asked() {
    let plain: [fn() -> Vec<u8>; 2] = [
        || symbol_limited(block(1), 5, 255),
        || symbol_repeat(5, block(1), block(0)),
    ];
    for plain in plain {
        let triangular = || triangular_limited(block(1), 5, 255);
        for table in [
            sequence(&[plain(), triangular()]),
            sequence(&[triangular(), plain()]),
        ] {
            assert!(quotes::agreed(&table, &values_of(&[(5, 1_000)])).is_ok());
            expect(&table, &values_of(&[(5, 1_001)]), 512, Err(13));
        }
        // Without that place it is not.
        assert!(quotes::agreed(&plain(), &values_of(&[(5, 1_001)])).is_ok());
    }
}

#[test]
fn question_13_is_put_to_nodes_that_add_nothing_to_the_root() {
    let tables: [fn(Vec<u8>) -> Vec<u8>; 5] = [
        |node| sequence(&[limited(sequence(&[node]), 0, 255), block(7)]),
        |node| choice(&[node, block(7)]),
        |node| repeat(0, node, block(7)),
        |node| repeat(7, block(1), limited(sequence(&[node]), 0, 255)),
        |node| in_sequences(5, sequence(&[block(7), repeat(0, node, block(0))])),
    ];
    for table in tables {
        let table = table(triangular_limited(block(0), 9, 255));
        expect(&table, &values_of(&[(9, 1_000)]), 512, Ok(&[(7, 0)]));
        expect(&table, &values_of(&[(9, 1_001)]), 512, Err(13));
    }
}

#[test]
fn question_13_comes_after_9_and_before_10() {
    let past = repeat(1_000_000, block(1_000_000), block(1));
    let table = sequence(&[past, triangular_limited(block(7), 0, 255)]);
    expect(&table, &values_of(&[(0, 1_000)]), 512, Err(10));
    expect(&table, &values_of(&[(0, 1_001)]), 512, Err(13));
    expect(&table, &values_of(&[(0, 1_000_001)]), 512, Err(9));
    // Another symbol's value, one that no node has, and the wrong number of values.
    for at in [1, 15, 16, 31, 32, 39] {
        let mut values = values_of(&[(0, 1_001)]);
        values[at] = CEILING + 1;
        expect(&table, &values, 512, Err(9));
    }
    expect(&table, &values_of(&[(0, 1_001)])[..39], 512, Err(9));
    // The list call's buffer comes before both.
    expect(&table, &values_of(&[(0, 1_001)]), 511, Err(8));
    expect(&table, &values_of(&[(0, 1_000_001)]), 511, Err(8));
}

#[test]
fn checking_does_not_ask_question_13() {
    let table = triangular_limited(block(7), 0, 255);
    expect(&table, &ceilings(), 512, Err(13));
    assert_eq!(raw::check(&table), Checked::accept(1));
}

// Question 8.

#[test]
fn lists_want_room_for_512_numbers() {
    let table = sequence(&[run_block(5, 2), block(7)]);
    for room in [0, 1, 2, 4, 6, 64, 256, 510, 511] {
        expect(&table, &ZEROS, room, Err(8));
    }
    for room in [512, 513, 514, 1_024, 4_096, 8_192] {
        expect(&table, &ZEROS, room, Ok(&[(12, 2), (7, 0)]));
    }
    // Which the figure call does not ask for.
    assert_eq!(
        raw::figure(&table, &ZEROS),
        Figure {
            refused: 0,
            figure: 12,
            branch: 255
        }
    );
}

// The order of the questions.

/// A child of the root that makes the table fail that question, or none.
fn fault(question: u64) -> Vec<u8> {
    match question {
        1 => [block(7), vec![0; 8]].concat(),
        2 => vec![4; 24],
        3 => block(CEILING + 1),
        4 => [block(7), block(7)].concat(),
        5 => in_loops(9, 3, block(7)),
        6 => limited(block(7), 1, 1),
        7 => in_loops(8, 3, limited(block(7), 1, 255)),
        10 => repeat(1_000_000, block(1_000_000), block(1)),
        13 => triangular_limited(block(7), 15, 255),
        _ => block(7),
    }
}

/// The questions in the order in which they are put.
const ORDER: [u64; 12] = [1, 2, 3, 4, 5, 6, 7, 8, 9, 13, 14, 10];

/// Both calls' refusals of a table, values and a buffer that fail these questions.
#[track_caller]
fn expect_first(faults: &[u64]) {
    let children: Vec<_> = faults.iter().map(|&question| fault(question)).collect();
    let table = sequence(&children);
    let mut values = if faults.contains(&9) {
        [CEILING; 40]
    } else {
        ZEROS
    };
    if faults.contains(&13) {
        values[15] = 1_001;
    }
    if faults.contains(&14) {
        (values[31], values[39]) = (5, 6);
    }
    let room = if faults.contains(&8) { 511 } else { 512 };
    let mut rng = Rng::new(0);

    let mut put = ORDER.iter().filter(|&question| faults.contains(question));
    let first = put.clone().next().expect("a fault");
    let list = quotes::list(&mut rng, &table, &values, room);
    assert_eq!(list, Err(*first), "{faults:?}");
    assert_eq!(evaluator::list(&table, &values, room), list, "{faults:?}");

    let quoted = quotes::agreed(&table, &values);
    match put.find(|&&question| question != 8) {
        Some(&first) => assert_eq!(quoted, Err(first), "{faults:?}"),
        None => {
            let figure = 7 * children.len() as u64;
            let branch = 255;
            assert_eq!(quoted, Ok(Quoted { figure, branch }));
        }
    }
}

#[test]
fn the_first_question_that_fails_answers() {
    for (at, &first) in ORDER.iter().enumerate() {
        expect_first(&[first]);
        for (at, &second) in ORDER.iter().enumerate().skip(at + 1) {
            expect_first(&[first, second]);
            expect_first(&[second, first]);
            for &third in &ORDER[at + 1..] {
                expect_first(&[first, second, third]);
                expect_first(&[third, second, first]);
            }
        }
    }
}

#[test]
fn bad_tables_are_refused_whatever_the_values() {
    let bad = fault(6);
    for length in [0, 1, 32, 39, 41] {
        expect(&bad, &vec![u64::MAX; length], 512, Err(6));
        expect(&bad, &vec![u64::MAX; length], 0, Err(6));
        expect(&[], &vec![u64::MAX; length], 0, Err(1));
    }
    expect(&block(7), &[], 0, Err(8));
}

// The largest tables.

#[test]
fn a_list_of_256_pairs() {
    let blocks: Vec<_> = (1..=255).map(|time| run_block(time, time as u32)).collect();
    let mut pairs: Vec<Pair> = (1..=255).rev().map(|time| (time, time)).collect();
    pairs.push((0, 0));
    listed(&choice(&blocks), &pairs);

    // The blocks end one after the other: the sum of those left falls by 1, then 2 and so on.
    let mut left = 255 * 256 / 2;
    let mut pairs = Vec::new();
    for time in 1..=255 {
        pairs.push((left, 1));
        left -= time;
    }
    pairs.push((0, 0));
    listed(&sequence(&blocks), &pairs);
}

#[test]
fn a_list_of_255_pairs_under_a_loop() {
    // 131 is prime, so that each of the 127 blocks ends inside a group, which is a pair of its own.
    let blocks: Vec<_> = (1..=127).map(|time| run_block(time, 1_000)).collect();
    let member = |place: u64| 127_u64.saturating_sub(place / 1_000);
    let sum = |group: u64| (131 * group..131 * (group + 1)).map(member).sum();
    let sums: Vec<u64> = (0..1_000).map(sum).collect();
    let runs = sums.chunk_by(|one, next| one == next);
    let mut pairs: Vec<Pair> = runs.map(|run| (run[0], run.len() as u64)).collect();
    assert_eq!(pairs.len(), 255);
    pairs[254] = (0, 0);
    listed(&repeat(131, choice(&blocks), block(0)), &pairs);
}

#[test]
fn tables_of_512_records() {
    let wide = sequence(
        &[
            vec![choice(&vec![block(9); 255]), sequence(&[block(8)])],
            vec![block(7); 253],
        ]
        .concat(),
    );
    assert_eq!(wide.len(), 12_288);
    figure(&wide, 9 + 8 + 253 * 7);
}

#[test]
fn tables_of_depth_32() {
    figure(&in_sequences(31, block(7)), 7);
    figure(&in_loops(8, 2, in_sequences(23, block(7))), 7 << 8);
    let exits = (0..31).fold(block(7), |exit, _| repeat(2, block(1), exit));
    figure(&exits, 7 + 31 * 2);
    let falling = in_loops(7, 2, in_sequences(23, run_block(7, 200)));
    listed(&falling, &[(7 * 128, 1), (7 * 72, 1), (0, 0)]);
}

// The lent bytes and numbers.

#[test]
fn every_place_in_memory_serves() {
    let good = sequence(&[run_block(5, 2), block(7)]);
    let bad = fault(10);
    for shift in 0..16 {
        for filler in [0, 1, 255] {
            let figure = |table: &[u8]| raw::figure(table, &ZEROS);
            let accepted = Figure {
                refused: 0,
                figure: 12,
                branch: 255,
            };
            assert_eq!(lend(&good, shift, filler, figure), accepted);
            let refused = Figure {
                refused: 10,
                figure: 0,
                branch: 0,
            };
            assert_eq!(lend(&bad, shift, filler, figure), refused);
            let mut out = [99; 512];
            let list = |table: &[u8]| raw::list(table, &ZEROS, &mut out);
            let accepted = Listed {
                refused: 0,
                pairs: 2,
            };
            assert_eq!(lend(&good, shift, filler, list), accepted);
            assert_eq!(out[..5], [12, 2, 7, 0, 99]);
        }
    }
}

#[test]
fn empty_slices_serve() {
    let refused = |refused| Figure {
        refused,
        figure: 0,
        branch: 0,
    };
    assert_eq!(raw::figure(&[], &[]), refused(1));
    assert_eq!(raw::figure(&block(7), &[]), refused(9));
    let refused = |refused| Listed { refused, pairs: 0 };
    assert_eq!(raw::list(&[], &[], &mut []), refused(1));
    assert_eq!(raw::list(&block(7), &[], &mut []), refused(8));
    assert_eq!(raw::list(&block(7), &[], &mut [0; 512]), refused(9));
}

#[test]
fn calls_keep_nothing_of_earlier_ones() {
    let mut rng = Rng::new(1);
    let tables = [
        sequence(&[run_block(5, 2), block(7)]),
        choice(&[block(5), block(7)]),
        choice(&[run_block(9, 2), block(7), block(9)]),
        fault(10),
        block(CEILING),
        fault(6),
    ];
    for _ in 0..200 {
        let table = &tables[rng.index(tables.len())];
        let figure = quotes::figure(&mut rng, table, &ZEROS);
        assert_eq!(figure, evaluator::figure(table, &ZEROS));
        let list = quotes::list(&mut rng, table, &ZEROS, 512);
        assert_eq!(list, evaluator::list(table, &ZEROS, 512));
    }
}
