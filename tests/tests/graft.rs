//! `vf_graft` and the second grafter on hand-written tables: what stands in a block's place, what the
//! sent table's limits name there, figures and branches, the new questions at and past their ends, and
//! the order of all. All numbers here are literals.

use volefleece::raw::{self, Grafted};
use volefleece_tests::compare::shown;
use volefleece_tests::evaluator::Quoted;
use volefleece_tests::grafter;
use volefleece_tests::grafts::{writes, Grafts};
use volefleece_tests::quotes;
use volefleece_tests::records::{record, SEVEN, X, ZERO};
use volefleece_tests::tables::*;

const CEILING: u64 = 1_000_000_000_000;

/// What both grafters answer for symbol 16, with room for any table.
#[track_caller]
fn graft(host: &[u8], sent: &[u8]) -> Result<Vec<u8>, u64> {
    graft_for(host, sent, 16)
}

/// The same for any symbol.
#[track_caller]
fn graft_for(host: &[u8], sent: &[u8], symbol: u64) -> Result<Vec<u8>, u64> {
    Grafts::new(0).answer(host, sent, symbol, 12_288)
}

/// Both grafters write a table of so many records.
#[track_caller]
fn writes_records(host: &[u8], sent: &[u8], records: usize) {
    let length = graft(host, sent).map(|written| written.len());
    assert_eq!(length, Ok(records * 24));
}

#[track_caller]
fn refuses(question: u64, host: &[u8], sent: &[u8]) {
    assert_eq!(graft(host, sent), Err(question));
}

/// The tree with a limit of 1 on its top.
fn once(tree: Vec<u8>, names: u8) -> Vec<u8> {
    limited(tree, 1, names)
}

/// What a graft puts around a tree.
fn put(tree: Vec<u8>) -> Vec<u8> {
    repeat(1, tree, block(0))
}

// Byte by byte.

#[test]
fn a_block_becomes_a_loop() {
    let put = record([3, 0, 2, 0, 0, 0, 0, 0, 1, 0, 0, 0, 0, 0, 0, 0]);
    writes(&X, &SEVEN, &[put, SEVEN, ZERO].concat());
}

#[test]
fn the_loop_has_the_blocks_limit() {
    // 5, a million, symbol 5 and its triangular number.
    let host = record([0, 1, 0, 255, 5, 0, 0, 0, 16, 0, 0, 0, 0, 0, 0, 0]);
    let put = record([3, 0, 2, 255, 5, 0, 0, 0, 1, 0, 0, 0, 0, 0, 0, 0]);
    writes(&host, &SEVEN, &[put, SEVEN, ZERO].concat());
    let host = record([0, 1, 0, 255, 64, 66, 15, 0, 16, 0, 0, 0, 0, 0, 0, 0]);
    let put = record([3, 0, 2, 255, 64, 66, 15, 0, 1, 0, 0, 0, 0, 0, 0, 0]);
    writes(&host, &SEVEN, &[put, SEVEN, ZERO].concat());
    let host = record([0, 3, 0, 255, 5, 0, 0, 0, 16, 0, 0, 0, 0, 0, 0, 0]);
    let put = record([3, 2, 2, 255, 5, 0, 0, 0, 1, 0, 0, 0, 0, 0, 0, 0]);
    writes(&host, &SEVEN, &[put, SEVEN, ZERO].concat());
    let host = record([0, 7, 0, 255, 5, 0, 0, 0, 16, 0, 0, 0, 0, 0, 0, 0]);
    let put = record([3, 6, 2, 255, 5, 0, 0, 0, 1, 0, 0, 0, 0, 0, 0, 0]);
    writes(&host, &SEVEN, &[put, SEVEN, ZERO].concat());
}

#[test]
fn limits_of_the_run_name_the_loop() {
    // 7, four times in the run.
    let sent = record([0, 0, 0, 255, 4, 0, 0, 0, 7, 0, 0, 0, 0, 0, 0, 0]);
    let put = record([3, 0, 2, 0, 0, 0, 0, 0, 1, 0, 0, 0, 0, 0, 0, 0]);
    let named = record([0, 0, 0, 1, 4, 0, 0, 0, 7, 0, 0, 0, 0, 0, 0, 0]);
    writes(&X, &sent, &[put, named, ZERO].concat());
    // The triangular number of symbol 4 as often.
    let sent_6 = record([0, 6, 0, 255, 4, 0, 0, 0, 7, 0, 0, 0, 0, 0, 0, 0]);
    let named_6 = record([0, 6, 0, 1, 4, 0, 0, 0, 7, 0, 0, 0, 0, 0, 0, 0]);
    writes(&X, &sent_6, &[put, named_6, ZERO].concat());
    // The block's own limit still names the run.
    let host = record([0, 1, 0, 255, 5, 0, 0, 0, 16, 0, 0, 0, 0, 0, 0, 0]);
    let put = record([3, 0, 2, 255, 5, 0, 0, 0, 1, 0, 0, 0, 0, 0, 0, 0]);
    writes(&host, &sent, &[put, named, ZERO].concat());
}

#[test]
fn limits_in_a_body_count_its_loop_and_those_in_an_exit_do_not() {
    // Loop 3 of C(10/1@255 | 5/2@1), with the exit 4 limited by symbol 6 and the loop by 9, in the run.
    let sent = [
        [3, 0, 2, 255, 9, 0, 0, 0, 3, 0, 0, 0, 0, 0, 0, 0],
        [2, 0, 2, 0, 0, 0, 0, 0, 0, 0, 0, 0, 0, 0, 0, 0],
        [0, 0, 0, 255, 1, 0, 0, 0, 10, 0, 0, 0, 0, 0, 0, 0],
        [0, 0, 0, 1, 2, 0, 0, 0, 5, 0, 0, 0, 0, 0, 0, 0],
        [0, 2, 0, 255, 6, 0, 0, 0, 4, 0, 0, 0, 0, 0, 0, 0],
    ];
    // Sequence of X, limited by 8 in the run, and 7.
    let host = [
        [1, 0, 2, 0, 0, 0, 0, 0, 0, 0, 0, 0, 0, 0, 0, 0],
        [0, 1, 0, 255, 8, 0, 0, 0, 16, 0, 0, 0, 0, 0, 0, 0],
        [0, 0, 0, 0, 0, 0, 0, 0, 7, 0, 0, 0, 0, 0, 0, 0],
    ];
    let written = [
        [1, 0, 2, 0, 0, 0, 0, 0, 0, 0, 0, 0, 0, 0, 0, 0],
        [3, 0, 2, 255, 8, 0, 0, 0, 1, 0, 0, 0, 0, 0, 0, 0],
        [3, 0, 2, 1, 9, 0, 0, 0, 3, 0, 0, 0, 0, 0, 0, 0],
        [2, 0, 2, 0, 0, 0, 0, 0, 0, 0, 0, 0, 0, 0, 0, 0],
        [0, 0, 0, 2, 1, 0, 0, 0, 10, 0, 0, 0, 0, 0, 0, 0],
        [0, 0, 0, 1, 2, 0, 0, 0, 5, 0, 0, 0, 0, 0, 0, 0],
        [0, 2, 0, 1, 6, 0, 0, 0, 4, 0, 0, 0, 0, 0, 0, 0],
        [0, 0, 0, 0, 0, 0, 0, 0, 0, 0, 0, 0, 0, 0, 0, 0],
        [0, 0, 0, 0, 0, 0, 0, 0, 7, 0, 0, 0, 0, 0, 0, 0],
    ];
    writes(
        &host.map(record).concat(),
        &sent.map(record).concat(),
        &written.map(record).concat(),
    );
}

#[test]
fn the_second_grafter_alone() {
    let put = record([3, 0, 2, 0, 0, 0, 0, 0, 1, 0, 0, 0, 0, 0, 0, 0]);
    let written = [put, SEVEN, ZERO].concat();
    assert_eq!(grafter::graft(&X, &SEVEN, 16, 72), Ok(written.clone()));
    assert_eq!(grafter::graft(&X, &SEVEN, 16, 100), Ok(written));
    assert_eq!(grafter::graft(&X, &SEVEN, 17, 24), Ok(X.to_vec()));
    assert_eq!(grafter::graft(&X, &SEVEN, 16, 71), Err(8));
    assert_eq!(grafter::graft(&X, &X, 16, 72), Err(11));
    assert_eq!(grafter::graft(&X, &SEVEN, 32, 72), Err(11));
    let deep = in_sequences(31, block(7));
    assert_eq!(grafter::graft(&X, &deep, 17, 24), Ok(X.to_vec()));
    assert_eq!(grafter::graft(&X, &deep, 16, 12_288), Err(12));
    assert_eq!(grafter::graft(&X, &[], 32, 0), Err(1));
    assert_eq!(grafter::graft(&[], &deep, 32, 0), Err(1));
}

// The host.

#[test]
fn every_place_is_taken() {
    let sent = choice(&[block(7), once(y(), 255)]);
    let put = || put(choice(&[block(7), once(y(), 1)]));
    let hosts: [fn(Vec<u8>) -> Vec<u8>; 8] = [
        |place| place,
        |place| sequence(&[place, block(1), block(2)]),
        |place| sequence(&[block(1), place, block(2)]),
        |place| choice(&[block(1), block(2), place]),
        |place| repeat(3, place, block(1)),
        |place| repeat(3, block(1), place),
        |place| sequence(&[choice(&[place]), repeat(2, in_sequences(3, y()), y())]),
        |place| repeat(2, y(), sequence(&[y(), in_loops(2, 3, place)])),
    ];
    for host in hosts {
        writes(&host(x()), &sent, &host(put()));
    }
    let many = |place: &dyn Fn() -> Vec<u8>| {
        let list = choice(&[place(), place(), block(3), place()]);
        sequence(&[place(), repeat(2, list, place()), once(place(), 255)])
    };
    writes(&many(&x), &sent, &many(&put));
}

#[test]
fn the_hosts_limits_stay() {
    let sent = once(block(7), 255);
    let put = || put(once(block(7), 1));
    // On the block, naming each loop around it in turn, and the run.
    for names in [1, 2, 3, 4, 5, 6, 7] {
        let host = |place| in_loops(7, 3, sequence(&[block(1), limited(place, 9, names)]));
        writes(&host(x()), &sent, &host(put()));
        for limit in [symbol_limited, triangular_limited] {
            let host = |place| in_loops(7, 3, limit(place, 9, names));
            writes(&host(x()), &sent, &host(put()));
        }
    }
    // Above it, beside it and below.
    let host = |place| {
        let body = once(sequence(&[place, triangular_limited(y(), 3, 1)]), 255);
        let exit = symbol_limited(block(2), 3, 255);
        triangular_limited(repeat(3, body, exit), 3, 255)
    };
    writes(&host(x()), &sent, &host(put()));
}

#[test]
fn an_eighth_loop_around_the_block_leaves_no_room() {
    let host = |loops| in_loops(loops, 1, once(x(), loops as u8));
    writes(&host(7), &block(7), &in_loops(7, 1, once(put(block(7)), 7)));
    refuses(12, &host(8), &block(7));
}

#[test]
fn a_host_without_the_symbol_is_written_as_it_is() {
    let hosts = [
        block(7),
        block(16),
        y(),
        symbol_block(31),
        limited(y(), 16, 255),
        repeat(16, block(16), y()),
        symbol_repeat(15, symbol_limited(y(), 0, 1), once(block(16), 255)),
        triangular_limited(y(), 15, 255),
        in_loops(8, 16, block(1)),
        in_sequences(31, y()),
    ];
    for host in &hosts {
        for sent in [block(7), once(y(), 255), in_loops(8, 1, block(1))] {
            writes(host, &sent, host);
        }
    }
    // The sent table may be of any size, as it is put nowhere.
    for sent in [in_sequences(31, block(1)), in_loops(7, 1, once(y(), 255))] {
        writes(&y(), &sent, &y());
    }
    let largest = long(512);
    assert_eq!(graft_for(&largest, &block(7), 17), Ok(largest.clone()));
    assert_eq!(graft_for(&block(7), &largest, 17), Ok(block(7)));
}

#[test]
fn each_symbol_is_replaced_alone() {
    let symbols = || (16..=31).map(symbol_block);
    let host = sequence(&symbols().collect::<Vec<_>>());
    for symbol in 16..=23 {
        let sent = once(symbol_block(if symbol == 16 { 23 } else { 16 }), 255);
        let put = put(limited(sent.clone(), 1, 1));
        let mut children: Vec<_> = symbols().collect();
        children[symbol as usize - 16] = put;
        let expected = sequence(&children);
        assert_eq!(graft_for(&host, &sent, symbol), Ok(expected));
    }
}

// The sent table.

#[test]
fn the_sent_tables_other_fields_stay() {
    let sent = |limit: fn(Vec<u8>) -> Vec<u8>| {
        let body = choice(&[limit(y()), sequence(&[block(CEILING), symbol_block(23)])]);
        symbol_repeat(3, symbol_limited(body, 15, 1), limited(y(), 1_000_000, 255))
    };
    let mut expected = sent(|node| once(node, 2));
    // The exit's limit, in the last record.
    let last = expected.len() - 24;
    expected[last + 3] = 1;
    writes(&x(), &sent(|node| once(node, 255)), &put(expected));
}

#[test]
fn limits_under_every_number_of_own_loops() {
    for loops in 0..=7 {
        let sent = |names| in_loops(loops, 3, limited(y(), 5, names));
        writes(&x(), &sent(255), &put(sent(loops as u8 + 1)));
        for limit in [symbol_limited, triangular_limited] {
            let sent = |names| in_loops(loops, 3, in_sequences(9, limit(y(), 5, names)));
            writes(&x(), &sent(255), &put(sent(loops as u8 + 1)));
        }
    }
    refuses(7, &x(), &in_loops(8, 3, limited(y(), 5, 255)));
    refuses(7, &block(7), &in_loops(8, 3, limited(y(), 5, 255)));
}

#[test]
fn limits_on_every_kind_of_node() {
    let kinds: [fn() -> Vec<u8>; 5] = [
        || block(3),
        y,
        || sequence(&[block(1), block(2)]),
        || choice(&[block(1), y()]),
        || repeat(3, block(1), block(2)),
    ];
    for node in kinds {
        writes(&x(), &once(node(), 255), &put(once(node(), 1)));
        let sent = |names| repeat(2, block(5), once(node(), names));
        writes(&x(), &sent(255), &put(sent(1)));
        let sent = |names| repeat(2, once(node(), names), block(5));
        writes(&x(), &sent(255), &put(sent(2)));
        let sent = |names| repeat(2, triangular_limited(node(), 5, names), block(5));
        writes(&x(), &sent(255), &put(sent(2)));
        // One that names an own loop stays.
        writes(&x(), &sent(1), &put(sent(1)));
    }
}

#[test]
fn own_loops_are_those_whose_bodies_hold_the_node() {
    // The exit of an exit, of a loop in a body, and a body in an exit.
    let exits = |names| repeat(3, block(1), repeat(3, block(2), once(y(), names)));
    writes(&x(), &exits(255), &put(exits(1)));
    let exit_in_body = |names| repeat(3, repeat(3, block(2), once(y(), names)), block(1));
    writes(&x(), &exit_in_body(255), &put(exit_in_body(2)));
    let body_in_exit = |names| repeat(3, block(1), repeat(3, once(y(), names), block(2)));
    writes(&x(), &body_in_exit(255), &put(body_in_exit(2)));
    // Limits that name own loops stay, whatever the number.
    for names in 1..=7 {
        let sent = in_loops(7, 3, sequence(&[block(1), once(y(), names)]));
        writes(&x(), &sent, &put(sent.clone()));
    }
}

#[test]
fn a_graft_may_be_grafted() {
    let first = graft(&sequence(&[x(), y()]), &once(block(7), 255));
    let first = first.expect("two small tables");
    let put_first = put(once(block(7), 1));
    assert_eq!(first, sequence(&[put_first.clone(), y()]));
    // Now in place of the other symbol, with the first still in the sent table.
    let again = graft_for(&first, &once(x(), 255), 17);
    let put_again = put(once(x(), 1));
    assert_eq!(again, Ok(sequence(&[put_first.clone(), put_again])));
    // And as the sent table, where its own new loop counts among its loops.
    let sent = sequence(&[put_first, once(y(), 255)]);
    let sent_again = sequence(&[put(once(block(7), 1)), once(y(), 1)]);
    writes(&x(), &sent, &put(sent_again));
}

// Figures and branches, with symbol 17 at 20 and all others 0.

/// Checks the sent table's figure, and gives the host's answer with it, which must be the written table's
/// too, figure and branch.
#[track_caller]
fn quoted(host: &[u8], sent: &[u8], sent_figure: u64) -> Result<Quoted, u64> {
    let mut values = [0; 40];
    values[17] = 20;
    assert_eq!(figure_of(sent, &values), Ok(sent_figure));
    values[16] = sent_figure;
    let quoted = quotes::agreed(host, &values);
    let written = graft(host, sent).expect("two small tables");
    // It has no block of symbol 16.
    for value in [0, sent_figure, CEILING] {
        values[16] = value;
        assert_eq!(quotes::agreed(&written, &values), quoted);
    }
    quoted
}

#[track_caller]
fn figures(host: &[u8], sent: &[u8], sent_figure: u64, figure: Result<u64, u64>) {
    let quoted = quoted(host, sent, sent_figure);
    assert_eq!(quoted.map(|quoted| quoted.figure), figure);
}

#[track_caller]
fn branches(host: &[u8], sent: &[u8], sent_figure: u64, figure: u64, branch: u64) {
    let quoted = quoted(host, sent, sent_figure);
    assert_eq!(quoted, Ok(Quoted { figure, branch }));
}

/// What both evaluators answer.
#[track_caller]
fn figure_of(table: &[u8], values: &[u64]) -> Result<u64, u64> {
    quotes::agreed(table, values).map(|quoted| quoted.figure)
}

#[test]
fn each_pass_of_the_loop_is_a_run_of_the_sent_table() {
    let sent = choice(&[once(block(10), 255), block(4)]);
    figures(&x(), &sent, 10, Ok(10));
    figures(&sequence(&[x(), x()]), &sent, 10, Ok(20));
    // It would be 18 if the limit still named the run, and then 90.
    figures(&in_loops(1, 3, x()), &sent, 10, Ok(30));
    let sent = repeat(2, choice(&[once(block(10), 255), block(4)]), y());
    figures(&in_loops(1, 3, x()), &sent, 34, Ok(102));
}

#[test]
fn the_blocks_limit_holds_of_the_whole_sent_table() {
    let sent = repeat(2, choice(&[once(block(10), 255), block(4)]), block(0));
    let body = |names| choice(&[once(x(), names), block(5)]);
    figures(&repeat(3, body(1), block(0)), &sent, 14, Ok(24));
    figures(&in_loops(2, 3, body(1)), &sent, 14, Ok(72));
    figures(&in_loops(2, 3, body(2)), &sent, 14, Ok(54));
    figures(&in_loops(2, 3, limited(x(), 2, 2)), &sent, 14, Ok(28));
    figures(&limited(x(), 0, 255), &sent, 14, Ok(0));
}

/// A child keeps its place when it is replaced, and the sent table's own branch is not passed on.
#[test]
fn the_branch_is_the_hosts() {
    let host = choice(&[block(4), x(), block(6), y()]);
    branches(&host, &block(21), 21, 21, 1);
    branches(&host, &block(20), 20, 20, 1);
    branches(&host, &block(19), 19, 20, 3);
    branches(&host, &limited(block(30), 0, 255), 0, 20, 3);
    let sent = choice(&[block(5), y(), block(30), block(30)]);
    branches(&host, &sent, 30, 30, 1);
    branches(&limited(host.clone(), 0, 255), &sent, 30, 0, 1);
    branches(&sequence(&[host]), &sent, 30, 30, 255);
    branches(&x(), &sent, 30, 30, 255);
    branches(&choice(&[x()]), &sent, 30, 30, 0);
    let limited_x = choice(&[block(4), limited(x(), 0, 255), block(6)]);
    branches(&limited_x, &sent, 30, 6, 2);
    // Where the symbol stands in two children, both rise.
    let both = choice(&[block(25), sequence(&[x(), block(1)]), x()]);
    branches(&both, &block(3), 3, 25, 0);
    branches(&both, &sent, 30, 31, 1);
}

#[test]
fn figures_past_the_ceiling() {
    let at_ceiling = repeat(1_000_000, block(1_000_000), block(0));
    figures(&x(), &at_ceiling, CEILING, Ok(CEILING));
    figures(&sequence(&[x(), y()]), &at_ceiling, CEILING, Err(10));
    figures(&in_loops(1, 2, x()), &at_ceiling, CEILING, Err(10));
    figures(&limited(x(), 0, 255), &at_ceiling, CEILING, Ok(0));
    // Where the sent table has no figure, neither has the written one, whatever the host's passes.
    let past = sequence(&[block(CEILING), block(1)]);
    let values = [0; 40];
    assert_eq!(figure_of(&past, &values), Err(10));
    for host in [x(), limited(x(), 0, 255), repeat(0, x(), block(3))] {
        assert!(figure_of(&host, &values).is_ok());
        let written = graft(&host, &past).expect("two small tables");
        assert_eq!(figure_of(&written, &values), Err(10));
    }
    // Unless it is put nowhere.
    let written = graft(&y(), &past).expect("two small tables");
    assert_eq!(figure_of(&written, &values), Ok(0));
}

/// Grafting is lent no values. Those of the desks may be past 1,000 in either table, and are then in the
/// written one.
#[test]
fn grafting_does_not_ask_question_13() {
    let host = choice(&[triangular_limited(x(), 0, 255), y()]);
    let sent = choice(&[triangular_limited(block(30), 1, 255), block(10)]);
    let written = graft(&host, &sent).expect("two small tables");
    let put = put(choice(&[triangular_limited(block(30), 1, 1), block(10)]));
    let expected = choice(&[triangular_limited(put, 0, 255), y()]);
    assert!(written == expected, "{}", shown(&written));
    for (of_host, of_sent, figure) in [
        (1_000, 1_000, Ok(30)),
        (1_000, 0, Ok(20)),
        (0, 1_000, Ok(20)),
        (1_001, 1_000, Err(13)),
        (1_000, 1_001, Err(13)),
    ] {
        let mut values = [0; 40];
        (values[0], values[1], values[17]) = (of_host, of_sent, 20);
        assert_eq!(figure_of(&written, &values), figure);
        let sent_figure = figure_of(&sent, &values);
        let host_figure = sent_figure.and_then(|figure| {
            values[16] = figure;
            figure_of(&host, &values)
        });
        assert_eq!(host_figure, figure);
    }
}

// Question 11.

#[test]
fn symbols_other_than_16_to_23_are_refused_11() {
    let host = sequence(&(16..=31).map(symbol_block).collect::<Vec<_>>());
    for symbol in 16..=23 {
        assert!(graft_for(&host, &block(7), symbol).is_ok());
    }
    for symbol in [0, 1, 7, 15, 24, 25, 30, 31, 32, 33, 39, 48, 255] {
        assert_eq!(graft_for(&host, &block(7), symbol), Err(11));
        assert_eq!(graft_for(&block(7), &block(7), symbol), Err(11));
    }
    // With some of the low bytes alone these would be in range.
    for symbol in [256 + 16, 65_536 + 23, (1 << 32) + 20, (1 << 63) + 16] {
        assert_eq!(graft_for(&host, &block(7), symbol), Err(11));
    }
    for symbol in [16 << 8, 16 << 32, 23 << 56, u64::MAX, u64::MAX - 15] {
        assert_eq!(graft_for(&host, &block(7), symbol), Err(11));
    }
}

#[test]
fn a_sent_table_with_the_symbol_is_refused_11() {
    let sent = [
        x(),
        once(x(), 255),
        sequence(&[block(1), x()]),
        choice(&[y(), sequence(&[x(), y()]), y()]),
        repeat(0, x(), block(1)),
        repeat(3, block(1), x()),
    ];
    for sent in sent {
        refuses(11, &x(), &sent);
        refuses(11, &block(7), &sent);
        assert_eq!(graft_for(&x(), &sent, 18), Ok(x()));
    }
    // The number alone is not the symbol.
    let plain = repeat(16, limited(block(16), 16, 1), limited(y(), 16, 255));
    assert!(graft(&x(), &plain).is_ok());
}

// Question 12.

#[test]
fn results_of_512_and_513_records() {
    // The host's other records, the loop, the sent table and the exit.
    let host = symbol_block(17);
    let writes_records = |host: &[u8], sent: &[u8], records: usize| {
        let length = graft_for(host, sent, 17).map(|written| written.len());
        assert_eq!(length, Ok(records * 24));
    };
    writes_records(&host, &long(509), 511);
    writes_records(&host, &long(510), 512);
    assert_eq!(graft_for(&host, &long(511), 17), Err(12));
    assert_eq!(graft_for(&host, &long(512), 17), Err(12));
    let host = sequence(&[long(300), host]);
    writes_records(&host, &sequence(&vec![block(1); 208]), 512);
    let past = sequence(&vec![block(1); 209]);
    assert_eq!(graft_for(&host, &past, 17), Err(12));
}

#[test]
fn results_of_many_places() {
    // So many times one record becomes three.
    writes_records(&sequence(&vec![x(); 170]), &block(7), 511);
    refuses(12, &sequence(&vec![x(); 171]), &block(7));
    refuses(12, &sequence(&vec![x(); 255]), &block(7));
    // A record in 16 bits, and more than that.
    refuses(12, &sequence(&vec![x(); 128]), &long_of_y(511));
    refuses(12, &sequence(&vec![x(); 255]), &long_of_y(512));
    let most = sequence(&[sequence(&vec![x(); 254]), sequence(&vec![x(); 255])]);
    refuses(12, &most, &long_of_y(512));
}

/// A tree of so many records without symbol 16.
fn long_of_y(records: usize) -> Vec<u8> {
    let wide = |children| sequence(&vec![y(); children]);
    sequence(&[wide(255), wide(records - 258)])
}

#[test]
fn results_32_and_33_deep() {
    for depth in 1..=31 {
        let host = in_sequences(depth - 1, x());
        let sent = |below: usize| in_sequences(below - 1, block(7));
        writes(
            &host,
            &sent(32 - depth),
            &in_sequences(depth - 1, put(sent(32 - depth))),
        );
        refuses(12, &host, &sent(33 - depth));
    }
    refuses(12, &in_sequences(31, x()), &block(7));
    // What is deep elsewhere does no harm.
    let deep = in_sequences(30, block(3));
    writes_records(&sequence(&[deep.clone(), x()]), &block(7), 35);
    writes_records(&x(), &in_sequences(30, block(3)), 33);
    refuses(12, &sequence(&[block(3), x()]), &deep);
}

#[test]
fn results_with_8_and_9_loops() {
    for around in 0..=7 {
        let host = |place| in_loops(around, 1, place);
        let sent = |loops| in_loops(loops, 1, block(7));
        writes(&host(x()), &sent(7 - around), &host(put(sent(7 - around))));
        refuses(12, &host(x()), &sent(8 - around));
    }
    refuses(12, &in_loops(8, 1, x()), &block(7));
    // Loops that the place is not in, and those that hold nothing of their own but an exit.
    let beside = sequence(&[in_loops(8, 1, block(1)), x()]);
    writes_records(&beside, &in_loops(7, 1, block(7)), 35);
    let exits = |exit| (0..9).fold(exit, |exit, _| repeat(1, block(1), exit));
    writes(&exits(x()), &exits(y()), &exits(put(exits(y()))));
}

#[test]
fn results_of_weight_255_and_256() {
    // Whole-run limits without loops, each of weight 1.
    let light = |limits| vec![once(block(7), 255); limits];
    let host = |limits, places| sequence(&[vec![x(); places], light(limits)].concat());
    for (limits, places, sent) in [(253, 1, 2), (5, 1, 250), (55, 2, 100), (0, 85, 3)] {
        let sent = sequence(&light(sent));
        assert!(graft(&host(limits, places), &sent).is_ok());
        refuses(12, &host(limits + 1, places), &sent);
    }
    // One of weight 128, in the sent table or twice.
    let heavy = in_loops(7, 3, once(block(7), 255));
    assert!(graft(&host(127, 1), &heavy).is_ok());
    refuses(12, &host(128, 1), &heavy);
    refuses(12, &host(0, 2), &heavy);
    refuses(12, &sequence(&[heavy.clone(), x()]), &heavy);
    // A limit on the block is counted as it was.
    let limited_place = |limits| sequence(&[vec![once(x(), 255)], light(limits)].concat());
    assert!(graft(&limited_place(126), &heavy).is_ok());
    refuses(12, &limited_place(127), &heavy);
    // Loops around the place add nothing to the sent table's weight.
    let inside = in_loops(4, 3, sequence(&vec![x(); 31]));
    let sent = repeat(3, sequence(&light(4)), block(0));
    assert!(graft(&inside, &sent).is_ok());
    let inside = in_loops(4, 3, sequence(&vec![x(); 32]));
    refuses(12, &inside, &sent);
}

// The order of the questions, and what is lent.

/// A table that fails that question alone.
fn failing(question: u64) -> Vec<u8> {
    match question {
        1 => vec![],
        2 => [&[4], &block(7)[1..]].concat(),
        3 => block(CEILING + 1),
        4 => [block(7), block(7)].concat(),
        5 => in_sequences(32, block(7)),
        6 => once(block(7), 1),
        _ => in_loops(8, 3, once(block(7), 255)),
    }
}

#[test]
fn questions_are_put_in_order() {
    let mut grafts = Grafts::new(0);
    let good = sequence(&[x(), block(0)]);
    // Hosts that no sent table fits into: too deep, too long and with too many loops.
    let full = [
        in_sequences(31, x()),
        sequence(&vec![x(); 255]),
        in_loops(8, 1, x()),
    ];
    let all = || full.iter().chain([&good]);
    for sent in 1..=7 {
        let table = failing(sent);
        for host in 1..=7 {
            let answer = grafts.answer(&failing(host), &table, 0, 0);
            assert_eq!(answer, Err(host));
        }
        for host in all() {
            assert_eq!(grafts.answer(host, &table, 0, 0), Err(sent));
            assert_eq!(grafts.answer(host, &table, 16, 12_288), Err(sent));
        }
    }
    for host in 1..=7 {
        let table = failing(host);
        assert_eq!(grafts.answer(&table, &block(7), 16, 12_288), Err(host));
        assert_eq!(grafts.answer(&table, &x(), 16, 0), Err(host));
        assert_eq!(grafts.answer(&table, &block(7), 0, 0), Err(host));
    }
    for host in all() {
        for room in [0, 12_288] {
            assert_eq!(grafts.answer(host, &x(), 16, room), Err(11));
            assert_eq!(grafts.answer(host, &block(7), 32, room), Err(11));
            assert_eq!(grafts.answer(host, &block(7), 24, room), Err(11));
            assert_eq!(grafts.answer(host, &symbol_block(24), 16, room), Err(11));
        }
    }
    for host in &full {
        for room in [0, 12_288] {
            assert_eq!(grafts.answer(host, &block(7), 16, room), Err(12));
        }
    }
    // This one is written, in 5 records.
    assert_eq!(grafts.answer(&good, &block(7), 16, 0), Err(8));
    assert_eq!(grafts.answer(&good, &block(7), 16, 119), Err(8));
    assert!(grafts.answer(&good, &block(7), 16, 120).is_ok());
    assert!(grafts.answer(&good, &block(7), 16, 121).is_ok());
}

#[test]
fn question_8_asks_for_the_results_length() {
    let mut grafts = Grafts::new(0);
    let host = sequence(&[x(), block(0)]);
    assert_eq!(grafts.answer(&host, &block(7), 16, 72), Err(8));
    // A host without the symbol wants its own length alone, however long the sent table.
    assert_eq!(grafts.answer(&host, &long_of_y(512), 18, 72), Ok(host));
}

#[test]
fn nothing_lent() {
    let refused = |refused| Grafted { refused, length: 0 };
    let mut out = [7; 24];
    for symbol in [16, 0] {
        assert_eq!(raw::graft(&[], &[], symbol, &mut []), refused(1));
        assert_eq!(raw::graft(&[], &SEVEN, symbol, &mut out), refused(1));
        assert_eq!(raw::graft(&SEVEN, &[], symbol, &mut out), refused(1));
    }
    assert_eq!(raw::graft(&SEVEN, &SEVEN, 16, &mut []), refused(8));
    assert_eq!(raw::graft(&X, &SEVEN, 16, &mut out), refused(8));
    assert_eq!(out, [7; 24]);
    let written = Grafted {
        refused: 0,
        length: 24,
    };
    let answer = raw::graft(&SEVEN, &SEVEN, 16, &mut out);
    assert_eq!((answer, out), (written, SEVEN));
}

#[test]
fn one_table_may_be_lent_twice() {
    let mut out = [9; 96];
    let answer = raw::graft(&X, &X, 16, &mut out);
    assert_eq!((answer.refused, answer.length), (11, 0));
    assert_eq!(out, [9; 96]);
    let answer = raw::graft(&X, &X, 17, &mut out);
    assert_eq!((answer.refused, answer.length), (0, 24));
    assert_eq!(out[..24], X);
    assert_eq!(out[24..], [9; 72]);
    // The sent table is the host's last record.
    let host = sequence(&[x(), block(7)]);
    let mut out = [9; 144];
    let answer = raw::graft(&host, &host[48..], 16, &mut out);
    assert_eq!((answer.refused, answer.length), (0, 120));
    assert_eq!(out[..120], sequence(&[put(block(7)), block(7)]));
    assert_eq!(out[120..], [9; 24]);
}
