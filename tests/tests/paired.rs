//! Paired symbols, 24 to 31, which have a first value and a later one, on hand-written tables and at
//! random: lists, runs, question 7's weight, question 14, the number of values, simplifying, grafting and
//! converted tables. The answers are the library's and the second implementation's. All numbers here are
//! literals. The seeds are fixed: every run makes the same tables.

use volefleece::raw::{self, Checked};
use volefleece::Refusal;
use volefleece_tests::compare::{shown, Comparison};
use volefleece_tests::converter::converted;
use volefleece_tests::evaluator::{self, Pair};
use volefleece_tests::grafts::Grafts;
use volefleece_tests::quotes::{self, Quotes};
use volefleece_tests::reader;
use volefleece_tests::rng::Rng;
use volefleece_tests::runs;
use volefleece_tests::simplifications::{agreed, becomes, ends, stays};
use volefleece_tests::tables::*;
use volefleece_tests::trees::{self, Amounts, Kind, Tree};

const CEILING: u64 = 1_000_000_000_000;
const ZEROS: [u64; 40] = [0; 40];

/// Zeros, but that these symbols have these first and later values.
fn values_of(pairs: &[(usize, u64, u64)]) -> [u64; 40] {
    let mut values = ZEROS;
    for &(symbol, first, later) in pairs {
        (values[symbol], values[symbol + 8]) = (first, later);
    }
    values
}

/// Symbol 24 costs 5 and then 3, symbol 25 costs 70 and then 20.
fn values() -> [u64; 40] {
    values_of(&[(24, 5, 3), (25, 70, 20)])
}

/// A block of symbol 24.
fn x() -> Vec<u8> {
    symbol_block(24)
}

/// A block of symbol 25.
fn y() -> Vec<u8> {
    symbol_block(25)
}

/// Both evaluators answer this list or refusal, and its figure.
#[track_caller]
fn expect(table: &[u8], values: &[u64], answer: Result<&[Pair], u64>) {
    let answer = answer.map(<[Pair]>::to_vec);
    let list = quotes::list(&mut Rng::new(0), table, values, 512);
    assert_eq!(list, answer, "the library's list: {}", shown(table));
    let list = evaluator::list(table, values, 512);
    assert_eq!(list, answer, "the second list: {}", shown(table));
    let first = answer.map(|pairs| pairs[0].0);
    let figure = quotes::agreed(table, values).map(|quoted| quoted.figure);
    assert_eq!(figure, first, "both figures: {}", shown(table));
}

#[track_caller]
fn listed(table: &[u8], pairs: &[Pair]) {
    expect(table, &values(), Ok(pairs));
}

#[track_caller]
fn refused(question: u64, table: &[u8], values: &[u64]) {
    expect(table, values, Err(question));
}

/// The figure is this, and some run costs as much.
#[track_caller]
fn reached(table: &[u8], figure: u64) {
    let quoted = quotes::agreed(table, &values()).map(|quoted| quoted.figure);
    assert_eq!(quoted, Ok(figure), "{}", shown(table));
    assert_eq!(dearest(table), Some(figure), "{}", shown(table));
}

/// The figure is this, and the dearest run costs less: that.
#[track_caller]
fn covered(table: &[u8], figure: u64, cost: u64) {
    let quoted = quotes::agreed(table, &values()).map(|quoted| quoted.figure);
    assert_eq!(quoted, Ok(figure), "{}", shown(table));
    assert_eq!(dearest(table), Some(cost), "{}", shown(table));
    assert!(cost < figure);
}

fn dearest(table: &[u8]) -> Option<u64> {
    let tree = reader::check(table).expect("a small table");
    runs::dearest(&tree, &values())
}

// Lists.

#[test]
fn a_block_has_its_first_value_once_and_then_the_later_one() {
    for symbol in 24..=31 {
        let block = symbol_block(symbol);
        let at = |first, later| values_of(&[(symbol as usize, first, later)]);
        expect(&block, &at(5, 3), Ok(&[(5, 1), (3, 0)]));
        expect(&block, &at(5, 4), Ok(&[(5, 1), (4, 0)]));
        expect(&block, &at(5, 5), Ok(&[(5, 0)]));
        expect(&block, &at(5, 0), Ok(&[(5, 1), (0, 0)]));
        expect(&block, &at(0, 0), Ok(&[(0, 0)]));
        expect(&block, &at(CEILING, 0), Ok(&[(CEILING, 1), (0, 0)]));
        expect(&block, &at(CEILING, CEILING), Ok(&[(CEILING, 0)]));
        // No other symbol's value is asked for.
        let mut others: [u64; 40] = std::array::from_fn(|at| if at < 32 { 100 } else { 90 });
        (others[symbol as usize], others[symbol as usize + 8]) = (5, 3);
        expect(&block, &others, Ok(&[(5, 1), (3, 0)]));
    }
    for symbol in 16..=23 {
        let mut values = values();
        values[symbol] = 9;
        expect(&symbol_block(symbol as u64), &values, Ok(&[(9, 0)]));
    }
}

#[test]
fn a_limit_counts_the_first_pass() {
    listed(&limited(x(), 0, 255), &[(0, 0)]);
    listed(&limited(x(), 1, 255), &[(5, 1), (0, 0)]);
    listed(&limited(x(), 2, 255), &[(5, 1), (3, 1), (0, 0)]);
    listed(&limited(x(), 9, 255), &[(5, 1), (3, 8), (0, 0)]);
    let equal = values_of(&[(24, 5, 5)]);
    expect(&limited(x(), 9, 255), &equal, Ok(&[(5, 9), (0, 0)]));
}

#[test]
fn sequences_and_choices_take_both_values() {
    listed(&sequence(&[x(), y()]), &[(75, 1), (23, 0)]);
    listed(&sequence(&[x(), block(2)]), &[(7, 1), (5, 0)]);
    listed(&choice(&[x(), y()]), &[(70, 1), (20, 0)]);
    listed(&choice(&[x(), block(4)]), &[(5, 1), (4, 0)]);
    listed(&choice(&[x(), block(5)]), &[(5, 0)]);
    listed(
        &choice(&[limited(y(), 2, 255), x()]),
        &[(70, 1), (20, 1), (5, 1), (3, 0)],
    );
}

#[test]
fn loops_group_the_first_pass_with_later_ones() {
    listed(&repeat(0, x(), block(2)), &[(2, 0)]);
    listed(&repeat(1, x(), block(0)), &[(5, 1), (3, 0)]);
    listed(&repeat(4, x(), block(0)), &[(14, 1), (12, 0)]);
    // The list names the run: the first pass comes once in all the passes of both loops.
    listed(&in_loops(2, 3, x()), &[(29, 1), (27, 0)]);
    listed(&in_loops(8, 1, block(1)), &[(1, 0)]);
    listed(&repeat(2, block(1), x()), &[(7, 1), (5, 0)]);
    listed(&repeat(2, y(), limited(x(), 1, 255)), &[(95, 1), (40, 0)]);
}

/// Beside a limit that names a loop, the list of both names that loop, and the first value counts in each
/// of its passes.
#[test]
fn a_named_loop_repeats_the_first_value() {
    let once = choice(&[limited(block(10), 1, 1), block(0)]);
    let both = sequence(&[x(), once]);
    let table = in_loops(2, 3, both);
    listed(&table, &[(3 * (5 + 3 + 3 + 10), 0)]);
    covered(&table, 63, 3 * 10 + 5 + 8 * 3);
    // So it does where the limit is on the block itself.
    let table = in_loops(2, 2, limited(x(), 2, 1));
    listed(&table, &[(2 * (5 + 3), 0)]);
    covered(&table, 16, 5 + 3 * 3);
}

// Runs, and the figures that they reach.

/// Each block of a symbol has a first pass of its own.
#[test]
fn the_first_value_is_charged_to_each_block() {
    reached(&sequence(&[x(), x()]), 10);
    reached(&sequence(&[x(), x(), x()]), 15);
    reached(&repeat(2, sequence(&[x(), x()]), block(0)), 16);
    reached(&repeat(3, choice(&[x(), x()]), block(0)), 5 + 5 + 3);
    reached(&choice(&[x(), x()]), 5);
    reached(&repeat(1, x(), x()), 10);
    reached(&repeat(0, x(), x()), 5);
}

/// The first pass in the run, not in a pass of some loop.
#[test]
fn the_first_value_is_charged_once_in_the_run() {
    reached(&repeat(4, x(), block(0)), 5 + 3 * 3);
    reached(&in_loops(2, 3, x()), 5 + 8 * 3);
    reached(&in_loops(3, 2, x()), 5 + 7 * 3);
    reached(&repeat(2, repeat(0, block(1), x()), block(0)), 5 + 3);
}

#[test]
fn limit_free_figures_are_reached() {
    reached(&repeat(3, choice(&[x(), block(4)]), block(0)), 5 + 4 + 4);
    reached(&repeat(3, choice(&[y(), x()]), block(1)), 70 + 20 + 20 + 1);
    let ways = choice(&[sequence(&[x(), y()]), sequence(&[y(), block(1)])]);
    reached(&repeat(3, ways, x()), 75 + 71 + 23 + 5);
}

#[test]
fn limits_on_paired_blocks_cover_all_runs() {
    reached(
        &repeat(3, choice(&[limited(y(), 1, 1), x()]), block(0)),
        70 + 5 + 3,
    );
    reached(
        &repeat(3, choice(&[limited(y(), 2, 255), x()]), block(0)),
        70 + 20 + 5,
    );
    reached(
        &repeat(9, choice(&[limited(x(), 2, 1), block(0)]), block(0)),
        8,
    );
}

// The weight.

#[track_caller]
fn accepted(table: &[u8]) {
    Comparison::new(0).expect(table, Checked::accept(table.len() / 24));
}

#[track_caller]
fn too_heavy(table: &[u8]) {
    Comparison::new(0).expect(table, Checked::refuse(7));
}

/// A sequence of so many children like this one.
fn row(children: usize, child: &[u8]) -> Vec<u8> {
    match children {
        0..=255 => sequence(&vec![child.to_vec(); children]),
        _ => sequence(&[row(255, child), row(children - 255, child)]),
    }
}

#[test]
fn a_paired_block_weighs_as_a_limit_in_the_run() {
    for symbol in 24..=31 {
        let block = symbol_block(symbol);
        accepted(&row(255, &block));
        too_heavy(&row(256, &block));
        for loops in 1..=7 {
            // 2, 4, 8 and so on up to 128 each.
            let most = 255 >> loops;
            accepted(&in_loops(loops, 1, row(most, &block)));
            too_heavy(&in_loops(loops, 1, row(most + 1, &block)));
        }
        too_heavy(&in_loops(8, 1, block));
    }
    for symbol in 16..=23 {
        accepted(&row(500, &symbol_block(symbol)));
        accepted(&in_loops(8, 1, row(400, &symbol_block(symbol))));
    }
    // Nor do plain times of these numbers weigh, nor bounds and limits.
    accepted(&row(500, &block(24)));
    accepted(&in_loops(8, 31, block(31)));
    accepted(&row(255, &limited(block(7), 24, 255)));
}

/// Whatever limit it has besides.
#[test]
fn a_paired_block_weighs_beside_its_own_limit() {
    for limit in [limited, symbol_limited, triangular_limited] {
        accepted(&row(127, &limit(x(), 1, 255)));
        accepted(&sequence(&[row(127, &limit(x(), 1, 255)), x()]));
        accepted(&sequence(&[
            row(127, &limit(x(), 1, 255)),
            limit(block(7), 1, 255),
        ]));
        too_heavy(&row(128, &limit(x(), 1, 255)));
        // 1 for the limit, and 2 for the run.
        accepted(&in_loops(1, 1, row(85, &limit(x(), 1, 1))));
        too_heavy(&in_loops(1, 1, row(86, &limit(x(), 1, 1))));
        // 2 and 8, then 8 and 8.
        accepted(&in_loops(3, 1, row(25, &limit(x(), 1, 2))));
        too_heavy(&in_loops(3, 1, row(26, &limit(x(), 1, 2))));
        accepted(&in_loops(3, 1, row(15, &limit(x(), 1, 255))));
        too_heavy(&in_loops(3, 1, row(16, &limit(x(), 1, 255))));
        // 64 and 128 are not too much, 128 and 128 are.
        accepted(&in_loops(7, 1, limit(x(), 1, 7)));
        too_heavy(&in_loops(7, 1, limit(x(), 1, 255)));
    }
}

#[test]
fn an_exit_is_outside_its_loop() {
    accepted(&in_loops(7, 1, repeat(1, block(1), x())));
    too_heavy(&in_loops(7, 1, repeat(1, x(), block(1))));
}

/// Each of 127 sequences has two members of its own before its limit ends it, which weighs 1 as its paired
/// block does. One more limit makes all 256 pairs that there is room for.
#[test]
fn a_list_of_256_pairs() {
    let values = values_of(&[(24, 1, 0)]);
    let mut children = Vec::new();
    let mut pairs = vec![(1_000, 1)];
    for time in (1..=127).rev() {
        children.push(limited(sequence(&[block(4 * time), x()]), 3, 255));
        pairs.extend([(4 * time + 1, 1), (4 * time, 2)]);
    }
    pairs.push((0, 0));
    children.push(limited(block(1_000), 1, 255));
    assert_eq!(pairs.len(), 256);
    expect(&choice(&children), &values, Ok(&pairs));
    // With one more of these it would have too many, and is too heavy.
    children.push(limited(block(2_000), 1, 255));
    refused(7, &choice(&children), &values);
}

#[test]
fn question_7_comes_after_6_and_before_8() {
    let heavy = in_loops(8, 1, x());
    let both = sequence(&[heavy.clone(), limited(block(7), 1, 1)]);
    refused(6, &both, &values());
    refused(7, &heavy, &[]);
    assert_eq!(quotes::list(&mut Rng::new(0), &heavy, &[], 0), Err(7));
    assert_eq!(agreed(&heavy, 0, 0), Err(7));
}

// The values.

#[test]
fn only_40_values_are_enough() {
    for table in [block(7), x(), symbol_block(16)] {
        for length in [0, 24, 31, 32, 33, 38, 39, 41, 48, 72] {
            refused(9, &table, &vec![0; length]);
        }
        expect(
            &table,
            &[0; 40],
            Ok(&[(if table == block(7) { 7 } else { 0 }, 0)]),
        );
    }
}

/// For any pair, whether the table uses it or not.
#[test]
fn later_values_past_their_first_are_refused_14() {
    for first in 24..=31 {
        let used = symbol_block(first);
        let other = symbol_block(if first == 24 { 25 } else { 24 });
        let first = first as usize;
        for table in [used, other, block(7), symbol_block(16), in_loops(2, 3, y())] {
            for (one, later) in [(0, 0), (5, 5), (5, 0), (CEILING, CEILING)] {
                let answer = quotes::agreed(&table, &values_of(&[(first, one, later)]));
                assert!(matches!(answer, Ok(_) | Err(10)), "{answer:?}");
            }
            for (one, later) in [(0, 1), (5, 6), (0, CEILING), (CEILING - 1, CEILING)] {
                refused(14, &table, &values_of(&[(first, one, later)]));
            }
        }
        // Each is held against its own first, and no other.
        let mut values = ZEROS;
        values[24..32].fill(9);
        values[first] = 5;
        values[first + 8] = 6;
        refused(14, &block(7), &values);
        values[first + 8] = 5;
        expect(&block(7), &values, Ok(&[(7, 0)]));
    }
}

#[test]
fn question_14_comes_after_9_and_13_and_before_10() {
    let past = repeat(1_000_000, block(1_000_000), block(1));
    let table = sequence(&[past, triangular_limited(block(7), 0, 255)]);
    let mut values = ZEROS;
    refused(10, &table, &values);
    values[39] = 1;
    refused(14, &table, &values);
    values[0] = 1_001;
    refused(13, &table, &values);
    for at in [0, 15, 16, 31, 32, 39] {
        let mut values = values;
        values[at] = CEILING + 1;
        refused(9, &table, &values);
    }
    refused(9, &table, &values[..39]);
    refused(9, &table, &values[..32]);
    // The list call's buffer comes before all of them.
    assert_eq!(quotes::list(&mut Rng::new(0), &table, &values, 511), Err(8));
}

/// Values with one number of a pair higher and the other lower are not none lower: either may lower a
/// figure.
#[test]
fn both_numbers_of_a_pair_count() {
    let figure = |table: &[u8], first, later| {
        let answer = quotes::agreed(table, &values_of(&[(24, first, later)]));
        answer.expect("small amounts").figure
    };
    let often = repeat(4, x(), block(0));
    assert_eq!(figure(&often, 5, 3), 14);
    assert_eq!(figure(&often, 6, 0), 6);
    assert_eq!(figure(&often, 5, 4), 17);
    assert_eq!(figure(&often, 6, 3), 15);
    // A lower first and a higher later value.
    assert_eq!(figure(&x(), 5, 3), 5);
    assert_eq!(figure(&x(), 4, 4), 4);
}

#[test]
fn later_values_may_be_too_large_for_a_figure() {
    let twice = repeat(2, x(), block(0));
    let at = |first, later| values_of(&[(24, first, later)]);
    let ceiling = [(CEILING, 1), (0, 0)];
    expect(&twice, &at(CEILING, 0), Ok(&ceiling));
    refused(10, &twice, &at(CEILING, 1));
    refused(10, &sequence(&[x(), x()]), &at(CEILING, 0));
    // What no first member has is not asked.
    let late = choice(&[x(), block(CEILING - 1)]);
    let pairs = [(CEILING, 1), (CEILING - 1, 0)];
    expect(&late, &at(CEILING, 0), Ok(&pairs));
}

// Simplifying.

#[test]
fn rule_8_does_not_share_a_paired_symbol() {
    let ways = |second: Vec<u8>| {
        choice(&[
            sequence(&[block(5), second.clone()]),
            sequence(&[block(4), second]),
        ])
    };
    let kept = sequence(&[block(5), symbol_block(16)]);
    ends(&ways(symbol_block(16)), 2, &kept);
    for symbol in 24..=31 {
        stays(&ways(symbol_block(symbol)));
    }
    let inside: [fn(Vec<u8>) -> Vec<u8>; 7] = [
        |node| choice(&[node, symbol_block(17)]),
        |node| choice(&[symbol_block(17), node]),
        |node| repeat(2, node, block(0)),
        |node| symbol_repeat(0, block(7), node),
        |node| repeat(2, limited(node, 1, 1), block(0)),
        |node| repeat(2, choice(&[symbol_limited(node, 0, 1), block(1)]), block(0)),
        |node| limited(node, 3, 255),
    ];
    for inside in inside {
        stays(&ways(inside(x())));
    }
    // Whole-run limits aside, each of these is shared where the symbol is none of the paired ones.
    for inside in &inside[..6] {
        let table = ways(inside(symbol_block(23)));
        let shared = sequence(&[choice(&[block(5), block(4)]), inside(symbol_block(23))]);
        becomes(&table, 8, &shared);
    }
}

/// Sharing it would make two blocks one, and their two first passes one.
#[test]
fn sharing_a_paired_symbol_would_quote_too_low() {
    let values = values_of(&[(24, 100, 10)]);
    let ways = choice(&[sequence(&[block(5), x()]), sequence(&[block(4), x()])]);
    expect(
        &repeat(2, ways, block(0)),
        &values,
        Ok(&[(209, 1), (30, 0)]),
    );
    let shared = sequence(&[choice(&[block(5), block(4)]), x()]);
    expect(
        &repeat(2, shared, block(0)),
        &values,
        Ok(&[(120, 1), (30, 0)]),
    );
}

#[test]
fn rule_8_shares_behind_paired_first_children() {
    let second = || symbol_block(16);
    let table = choice(&[sequence(&[x(), second()]), sequence(&[y(), second()])]);
    becomes(&table, 8, &sequence(&[choice(&[x(), y()]), second()]));
}

#[test]
fn other_rules_take_paired_blocks_as_symbols() {
    stays(&x());
    stays(&limited(x(), 1, 255));
    stays(&sequence(&[x(), x()]));
    stays(&choice(&[x(), x()]));
    stays(&repeat(3, x(), block(0)));
    becomes(
        &sequence(&[sequence(&[x(), y()]), x()]),
        2,
        &sequence(&[x(), y(), x()]),
    );
    becomes(&choice(&[x()]), 3, &x());
    becomes(&limited(sequence(&[x()]), 2, 255), 3, &limited(x(), 2, 255));
    becomes(&sequence(&[x(), block(0)]), 5, &sequence(&[x()]));
    becomes(
        &sequence(&[block(5), x(), block(4)]),
        6,
        &sequence(&[block(9), x()]),
    );
    becomes(
        &choice(&[x(), block(5), block(4)]),
        7,
        &choice(&[x(), block(5)]),
    );
    // Its list names the whole run.
    becomes(&repeat(0, x(), block(4)), 9, &block(4));
    becomes(&repeat(0, sequence(&[x(), y()]), y()), 9, &y());
}

#[test]
fn simplifying_takes_both_values_as_0() {
    for symbol in 24..=31 {
        let table = sequence(&[block(CEILING), symbol_block(symbol)]);
        let answer = agreed(&table, u64::MAX, table.len());
        assert_eq!(answer.map(|made| made.steps), Ok(0));
        let past = sequence(&[block(CEILING), symbol_block(symbol), block(1)]);
        assert_eq!(agreed(&past, u64::MAX, past.len()), Err(10));
    }
}

// Grafting.

#[test]
fn paired_symbols_are_refused_11() {
    let mut grafts = Grafts::new(0);
    let mut put = |host: &[u8], sent: &[u8], symbol| grafts.answer(host, sent, symbol, 12_288);
    let host = sequence(&(16..=31).map(symbol_block).collect::<Vec<_>>());
    for symbol in 24..=31 {
        // As the replaced one, in the host or not.
        assert_eq!(put(&host, &block(7), symbol), Err(11));
        assert_eq!(put(&block(7), &block(7), symbol), Err(11));
        // In the sent table, put somewhere or not.
        let sent: [fn(Vec<u8>) -> Vec<u8>; 6] = [
            |node| node,
            |node| limited(node, 1, 255),
            |node| sequence(&[block(1), node]),
            |node| choice(&[node, block(1)]),
            |node| repeat(0, node, block(1)),
            |node| repeat(1, block(1), node),
        ];
        for sent in sent.map(|sent| sent(symbol_block(symbol))) {
            assert_eq!(put(&host, &sent, 16), Err(11));
            assert_eq!(put(&block(7), &sent, 16), Err(11));
        }
    }
    for symbol in 16..=23 {
        assert!(put(&host, &block(24), symbol).is_ok());
        assert!(put(&host, &repeat(31, block(1), block(0)), symbol).is_ok());
    }
}

#[test]
fn question_11_comes_after_both_tables_1_to_7() {
    let mut grafts = Grafts::new(0);
    let host = symbol_block(16);
    for (question, table) in (1..).zip(refused_tables()) {
        for symbol in [16, 24] {
            for room in [0, 12_288] {
                assert_eq!(grafts.answer(&host, &table, symbol, room), Err(question));
                assert_eq!(grafts.answer(&table, &x(), symbol, room), Err(question));
            }
        }
    }
    let heavy = in_loops(8, 1, x());
    assert_eq!(grafts.answer(&host, &heavy, 16, 12_288), Err(7));
    assert_eq!(grafts.answer(&heavy, &heavy, 24, 12_288), Err(7));
    // And before 12 and 8.
    let deepest = in_sequences(31, symbol_block(16));
    assert_eq!(grafts.answer(&deepest, &x(), 16, 0), Err(11));
    assert_eq!(grafts.answer(&deepest, &block(7), 24, 0), Err(11));
    assert_eq!(grafts.answer(&deepest, &block(7), 16, 0), Err(12));
}

#[test]
fn hosts_keep_their_paired_symbols() {
    let mut grafts = Grafts::new(0);
    let host = |node| repeat(3, sequence(&[x(), choice(&[node, y()])]), x());
    let sent = limited(block(30), 1, 255);
    let put = repeat(1, limited(block(30), 1, 1), block(0));
    let written = grafts.answer(&host(symbol_block(16)), &sent, 16, 12_288);
    assert_eq!(written.as_ref(), Ok(&host(put)));
    // 70, 30 and 30 by the second way and the first, and 5, 3 and 3, then 5.
    let figure = |table: &[u8], value| {
        let mut values = values();
        values[16] = value;
        quotes::agreed(table, &values).map(|quoted| quoted.figure)
    };
    assert_eq!(figure(&host(symbol_block(16)), 30), Ok(130 + 11 + 5));
    assert_eq!(figure(&written.expect("written"), 0), Ok(130 + 11 + 5));
}

/// The host's paired blocks weigh in the result as they do in the host.
#[test]
fn the_result_may_be_too_heavy() {
    let mut grafts = Grafts::new(0);
    let limits = |limits| row(limits, &limited(block(7), 1, 255));
    for pairs in [1, 100, 250] {
        let host = sequence(&[row(pairs, &x()), symbol_block(16)]);
        let mut put = |sent: &[u8]| grafts.answer(&host, sent, 16, 12_288);
        assert!(put(&limits(255 - pairs)).is_ok());
        assert_eq!(put(&limits(256 - pairs)), Err(12));
    }
}

// Converted tables.

#[test]
fn a_converted_table_has_its_former_figure_where_both_values_are_equal() {
    let once = choice(&[limited(block(10), 1, 1), block(0)]);
    let table = in_loops(2, 3, sequence(&[x(), once, choice(&[x(), y()])]));
    let tree = reader::check(&table).expect("a small table");
    let old = tree.encode_former();
    assert_eq!(converted(&old).as_deref(), Some(&table[..]));
    let mut values = values_of(&[(24, 5, 5), (25, 70, 70)]);
    let former = evaluator::evaluate_former(&tree, &values[..32]);
    let former = former.expect("small amounts").quoted();
    assert_eq!(former.figure, 3 * (3 * 75 + 10));
    assert_eq!(quotes::agreed(&table, &values), Ok(former));
    values[33] = 69;
    let lower = quotes::agreed(&table, &values).expect("small amounts");
    assert_eq!(lower.figure, former.figure - 3 * 2);
}

#[test]
fn former_tables_with_many_paired_symbols_are_refused_7() {
    for (pairs, refused) in [(255, 0), (256, 7), (400, 7)] {
        let table = row(pairs, &x());
        let former: Vec<u8> = table.chunks(24).flat_map(|r| r[..16].to_vec()).collect();
        assert!(reader::check_former(&former).is_ok());
        let mut out = vec![0; table.len()];
        assert_eq!(raw::convert(&former, &mut out).refused, 0);
        assert_eq!(out, table);
        assert_eq!(raw::check(&out).refused, refused);
    }
}

// The wrapper.

#[test]
fn the_wrapper_knows_which_symbols_are_paired() {
    assert_eq!((volefleece::SYMBOLS, volefleece::VALUES), (32, 40));
    assert_eq!(volefleece::FIRST_PAIRED, 24);
    for symbol in (0..24).chain(32..50).chain([usize::MAX]) {
        assert_eq!(volefleece::later(symbol), None);
    }
    for symbol in 24..32 {
        assert_eq!(volefleece::later(symbol), Some(symbol + 8));
    }
    for value in 0..40 {
        let most = if value < 16 { 1_000_000 } else { CEILING };
        assert_eq!(volefleece::ceiling(value), most);
    }
    let past = values_of(&[(31, 5, 6)]);
    let refusal = volefleece::figure(&block(7), &past).expect_err("a later value is too large");
    assert_eq!(refusal, Refusal::LaterValue);
    assert_eq!(refusal.number(), 14);
    assert_eq!(volefleece::list(&block(7), &past), Err(refusal));
    let list = volefleece::list(&x(), &values()).expect("one block");
    let list: Vec<_> = list.iter().map(|pair| (pair.value, pair.count)).collect();
    assert_eq!(list, [(5, Some(1)), (3, None)]);
}

// Many tables.

const SMALL: Amounts = Amounts {
    time: 20,
    bound: 4,
    limit: 7,
    symbols: 3,
};

fn start(seed: u64) -> (Rng, Quotes) {
    (Rng::new(seed), Quotes::new(seed))
}

/// A tree of few or some records with paired symbols on some of its blocks.
fn paired_tree(rng: &mut Rng) -> Tree {
    let most = rng.pick(&[3, 6, 15, 40, 100]);
    let records = rng.size(1..=most);
    let mut tree = trees::without_limits(rng, records);
    let wanted = rng.pick(&[1, 2, 5, 30, 255]);
    let weight = trees::put_pairs(rng, &mut tree, wanted);
    let wanted = rng.pick(&[0, 1, 3, 30, 255]).min(255 - weight);
    trees::put_limits(rng, &mut tree, wanted);
    SMALL.set(rng, &mut tree);
    tree
}

#[test]
fn raising_any_value_never_lowers_a_figure() {
    let (mut rng, mut quotes) = start(801);
    // How often raising each value left the figure, and how often it raised it.
    let (mut same, mut higher) = ([0; 40], [0; 40]);
    for _ in 0..60_000 {
        let table = paired_tree(&mut rng).encode();
        let mut values = SMALL.values(&mut rng);
        let at = match rng.index(2) {
            0 => rng.index(32),
            _ => 32 + rng.index(8),
        };
        let more = rng.pick(&[1, 1, 2, 10, 100]);
        // So that a later value stays below its first, as a rule.
        if at >= 32 && !rng.once_in(4) {
            values[at - 8] += more;
        }
        let low = quotes.compare(&table, &values);
        let low = low.figure().expect("small amounts");
        values[at] += more;
        match quotes.compare(&table, &values).figure() {
            Ok(high) => {
                assert!(high >= low, "value {at}: {low}, {high}, {}", shown(&table));
                let counts = if high > low { &mut higher } else { &mut same };
                counts[at] += 1;
            }
            // A later one may be past its first now.
            Err(question) => assert_eq!(question, 14),
        }
    }
    let reached = |counts: &[u64], times| counts.iter().all(|&count| count >= times);
    assert!(reached(&same, 100), "{same:?}");
    assert!(reached(&higher, 15), "{higher:?}");
    quotes.assert_paired(&[(0, 50_000), (14, 3_000)]);
}

/// Where both values of each pair are equal, a paired symbol is as a block of that time, for figure, branch
/// and list.
#[test]
fn equal_values_are_one_number() {
    let (mut rng, mut quotes) = start(802);
    for _ in 0..30_000 {
        let tree = paired_tree(&mut rng);
        let mut values = SMALL.values(&mut rng);
        values.copy_within(24..32, 32);
        let paired = quotes.compare(&tree.encode(), &values);
        let plain = quotes.compare(&with_plain_times(&tree, &values).encode(), &values);
        assert_eq!(paired.quoted, plain.quoted, "{tree:?}");
        assert_eq!(paired.list, plain.list, "{tree:?}");
    }
    quotes.assert_paired(&[(0, 20_000)]);
    quotes.assert_pairs(2..=256, 2_000);
}

/// The tree with the first value in place of each paired symbol.
fn with_plain_times(tree: &Tree, values: &[u64]) -> Tree {
    let mut plain = tree.clone();
    if let Some(symbol) = tree.paired_symbol() {
        plain.kind = Tree::block(values[symbol as usize]).kind;
    }
    for child in &mut plain.children {
        *child = with_plain_times(child, values);
    }
    plain
}

/// A figure lies between those with the later values alone and with the first ones alone, as which absent
/// later ones count.
#[test]
fn figures_lie_between_those_of_either_value() {
    let (mut rng, mut quotes) = start(803);
    let (mut above, mut below) = (0, 0);
    for _ in 0..30_000 {
        let table = paired_tree(&mut rng).encode();
        let both = SMALL.values(&mut rng);
        let (mut low, mut high) = (both.clone(), both.clone());
        low.copy_within(32..40, 24);
        high.copy_within(24..32, 32);
        let [low, figure, high] = [low, both, high].map(|values| {
            let quote = quotes.compare(&table, &values);
            quote.figure().expect("small amounts")
        });
        assert!(low <= figure && figure <= high, "{low}, {figure}, {high}");
        above += u64::from(low < figure);
        below += u64::from(figure < high);
    }
    assert!(above > 10_000 && below > 3_000, "{above}, {below}");
}

/// Small trees whose runs can all be tried, by the library's figure.
#[test]
fn no_run_costs_more_than_the_figure_and_without_limits_one_costs_as_much() {
    const FEW: Amounts = Amounts {
        time: 9,
        bound: 3,
        limit: 3,
        symbols: 6,
    };
    let (mut rng, mut quotes) = start(804);
    let (mut free, mut limited, mut below) = (0, 0, 0);
    for round in 0..30_000 {
        let records = rng.size(1..=9);
        let mut tree = trees::grow(&mut rng, records, 6, 3);
        let weight = rng.within(1..=20);
        trees::put_pairs(&mut rng, &mut tree, weight);
        if round % 2 == 0 {
            let weight = rng.within(1..=6);
            trees::put_limits(&mut rng, &mut tree, weight);
        }
        FEW.set(&mut rng, &mut tree);
        let values = FEW.values(&mut rng);
        let quote = quotes.compare(&tree.encode(), &values);
        let figure = quote.figure().expect("small amounts");
        let dearest = runs::dearest(&tree, &values);
        if tree == tree.unlimited() {
            assert_eq!(dearest, Some(figure), "{tree:?}, {values:?}");
            free += u64::from(tree.kind != Kind::Sequence && tree.children.len() > 1);
        } else if let Some(cost) = dearest {
            assert!(cost <= figure, "{tree:?}, {values:?}");
            limited += 1;
            below += u64::from(cost < figure);
        }
    }
    let reached = [free, limited, below];
    assert!(reached.iter().all(|&times| times > 100), "{reached:?}");
    quotes.assert_paired(&[(0, 20_000)]);
}

/// Choices whose equal second children hold a paired symbol keep their figure in a loop, which is often
/// lower where the second child is shared.
#[test]
fn open_second_children_are_never_shared() {
    let mut rng = Rng::new(805);
    let (mut steps, mut lower) = (0, 0);
    for _ in 0..5_000 {
        let size = rng.size(1..=6);
        let mut second = trees::grow(&mut rng, size, 5, 2);
        if trees::put_pairs(&mut rng, &mut second, 1) == 0 {
            continue;
        }
        SMALL.set(&mut rng, &mut second);
        let second = second.encode();
        let pair = |time| sequence(&[block(time), second.clone()]);
        let table = choice(&[pair(5), pair(4)]);
        let made = agreed(&table, u64::MAX, table.len()).expect("small amounts");
        steps += made.steps;

        let mut values = SMALL.values(&mut rng);
        values[24..32].iter_mut().for_each(|value| *value += 9);
        let twice = |table: Vec<u8>| {
            let quoted = quotes::agreed(&repeat(2, table, block(0)), &values);
            quoted.expect("small amounts").figure
        };
        let shared = sequence(&[choice(&[block(5), block(4)]), second.clone()]);
        let figure = twice(table.clone());
        assert_eq!(twice(made.bytes), figure, "{}", shown(&table));
        lower += u64::from(twice(shared) < figure);
    }
    assert!(steps > 1_000 && lower > 1_000, "{steps}, {lower}");
}
