//! `vf_check` on hand-written tables: document 01's cases, every condition inside questions 1 to 7
//! at and past its end, with document 02's flag 4, and the order of the questions. All numbers here
//! are literals.

use volefleece::raw::{self, Checked};
use volefleece_tests::compare::{lend, second_check, shown};
use volefleece_tests::records::*;

/// So many loops, each the body of the one before and the innermost one around `inner`. All exits
/// are blocks.
fn in_bodies(loops: usize, inner: &[Record]) -> Vec<Record> {
    [&vec![LOOP; loops], inner, &vec![BLOCK; loops]].concat()
}

/// So many loops, each the exit of the one before, and `inner` the exit of the last.
fn in_exits(loops: usize, inner: &[Record]) -> Vec<Record> {
    [&[LOOP, BLOCK].repeat(loops), inner].concat()
}

/// So many sequences, each the only child of the one before, around `inner`.
fn in_sequences(sequences: usize, inner: &[Record]) -> Vec<Record> {
    [&vec![sequence(1); sequences], inner].concat()
}

#[track_caller]
fn expect(table: &[u8], expected: Checked) {
    assert_eq!(raw::check(table), expected, "the library: {}", shown(table));
    assert_eq!(
        second_check(table),
        expected,
        "the second reader: {}",
        shown(table)
    );
}

#[track_caller]
fn accepted(records: &[Record]) {
    expect(&table(records), Checked::accept(records.len()));
}

#[track_caller]
fn refused(question: u64, records: &[Record]) {
    refused_bytes(question, &table(records));
}

#[track_caller]
fn refused_bytes(question: u64, table: &[u8]) {
    expect(table, Checked::refuse(question));
}

// Document 01's cases.

#[test]
fn trees_of_the_starred_cases_are_accepted() {
    let block = |time| (0, 0, 0, 0, 0, time);
    let repeat = |bound| (3, 0, 2, 0, 0, bound);
    let limited = |time, limit, names| (0, 0, 0, names, limit, time);
    let symbol = (0, 1, 0, 0, 0, 16);

    let a = [block(7)];
    let b = [repeat(0), block(9), block(4)];
    accepted(&a);
    accepted(&b);
    for limit in [1, 0] {
        let body = [choice(2), limited(10, limit, 1), block(5)];
        let c_and_d = [&[repeat(3)], &body[..], &[block(0)]].concat();
        accepted(&c_and_d);
    }
    for k in [2, 1] {
        let inner = [choice(2), limited(10, 1, k), block(0)];
        let inner = [&[sequence(3), block(5)], &inner[..], &[block(15)]].concat();
        let inner = [&[repeat(3)], &inner[..], &[block(5)]].concat();
        let body = [&[sequence(2), block(5)], &inner[..]].concat();
        let e_and_f = [&[repeat(3)], &body[..], &[block(5)]].concat();
        accepted(&e_and_f);
    }
    let shared = [choice(2), limited(10, 1, 1), block(0)];
    let first = [&[sequence(2), block(5)], &shared[..]].concat();
    let second = [&[sequence(2), block(4)], &shared[..]].concat();
    let h = [&[repeat(2), choice(2)], &first[..], &second, &[block(0)]].concat();
    accepted(&h);
    let zero = [choice(2), limited(0, 1, 1), block(4)];
    let ten = [choice(2), limited(10, 1, 2), block(0)];
    let body = [&[sequence(2)], &zero[..], &ten].concat();
    let i = [&[repeat(3), repeat(3)], &body[..], &[block(0), block(0)]].concat();
    accepted(&i);
    let j = [sequence(3), block(5), symbol, block(4)];
    accepted(&j);
    let k = [
        choice(2),
        sequence(2),
        block(5),
        symbol,
        sequence(2),
        block(4),
        symbol,
    ];
    accepted(&k);
}

#[test]
fn case_l_a_time_above_the_ceiling() {
    accepted(&[(0, 0, 0, 0, 0, 1_000_000_000_000)]);
    refused(3, &[(0, 0, 0, 0, 0, 1_000_000_000_001)]);
    accepted(&[
        (3, 0, 2, 0, 0, 1_000_000),
        (0, 0, 0, 0, 0, 1_000_000),
        (0, 0, 0, 0, 0, 1),
    ]);
}

#[test]
fn case_m_one_limit_under_loops() {
    accepted(&in_bodies(7, &[limited(255)]));
    refused(7, &in_bodies(8, &[limited(255)]));
    refused(5, &in_bodies(9, &[limited(255)]));
    refused(5, &in_bodies(9, &[BLOCK]));
}

#[test]
fn case_n_lengths() {
    refused_bytes(1, &[]);
    refused_bytes(1, &[0; 12_312]);
}

// Question 1.

#[test]
fn lengths_that_are_no_multiple_are_refused_1() {
    for length in (0..=96).filter(|length| length % 24 != 0) {
        refused_bytes(1, &vec![0; length]);
    }
    for length in [8_192, 12_264 + 12, 12_287, 12_289, 12_300, 12_311] {
        refused_bytes(1, &vec![0; length]);
    }
}

#[test]
fn lengths_past_512_records_are_refused_1() {
    // The low 16 bits of the last two alone would be in range.
    for length in [12_312, 24_576, 65_544, 196_608 + 24, 196_608 + 12_288] {
        refused_bytes(1, &vec![0; length]);
    }
}

#[test]
fn tables_of_512_records_are_accepted() {
    let wide = [
        vec![sequence(255), choice(255)],
        vec![BLOCK; 255],
        vec![sequence(1)],
        vec![BLOCK; 254],
    ]
    .concat();
    assert_eq!(wide.len(), 512);
    accepted(&wide);
    refused(1, &[&wide[..], &[BLOCK]].concat());
    refused(4, &wide[..511]);
}

#[test]
fn raw_bytes_are_little_endian() {
    // A block of time 0x0102, limited to 0x0304 passes in the run.
    let block = |limit: [u8; 4], time: [u8; 8]| {
        let rest = [0, 0, 0, 0, 255, 255, 255, 255];
        [&[0, 0, 0, 255], &limit[..], &time, &rest].concat()
    };
    let good = block([4, 3, 0, 0], [2, 1, 0, 0, 0, 0, 0, 0]);
    expect(&good, Checked::accept(1));
    // These would be in range if they were read the other way round.
    refused_bytes(3, &block([0, 0, 3, 4], [2, 1, 0, 0, 0, 0, 0, 0]));
    refused_bytes(3, &block([4, 3, 0, 0], [0, 0, 0, 0, 0, 0, 1, 2]));
}

// Question 2.

#[test]
fn kinds_past_3_are_refused_2() {
    for kind in [4, 5, 127, 128, 255] {
        refused(2, &[(kind, 0, 0, 0, 0, 0)]);
        refused(2, &[(kind, 0, 1, 0, 0, 0), BLOCK]);
        refused(2, &[(kind, 0, 2, 0, 0, 0), BLOCK, BLOCK]);
    }
}

/// Each flags byte there is on that record: those listed are accepted, and all others refused 2.
#[track_caller]
fn flags_listed(listed: &[u8], record: Record, below: &[Record]) {
    let (kind, _, children, names, limit, value) = record;
    for flags in 0..=255 {
        let record = (kind, flags, children, names, limit, value);
        // A loop is around it, for byte 3 to name.
        let records = in_bodies(1, &[&[record], below].concat());
        if listed.contains(&flags) {
            accepted(&records);
        } else {
            refused(2, &records);
        }
    }
}

#[test]
fn flags_that_are_not_listed_are_refused_2() {
    let both = [BLOCK, BLOCK];
    for names in [1, 255] {
        flags_listed(&[0, 1, 2, 3, 6, 7], (0, 0, 0, names, 1, 16), &[]);
        flags_listed(&[0, 2, 6], (1, 0, 2, names, 1, 0), &both);
        flags_listed(&[0, 2, 6], (2, 0, 2, names, 1, 0), &both);
        flags_listed(&[0, 1, 2, 3, 6, 7], (3, 0, 2, names, 1, 15), &both);
    }
}

#[test]
fn flags_2_and_4_without_a_limit_are_refused_2() {
    let both = [BLOCK, BLOCK];
    flags_listed(&[0, 1], (0, 0, 0, 0, 0, 16), &[]);
    flags_listed(&[0], (1, 0, 2, 0, 0, 0), &both);
    flags_listed(&[0], (2, 0, 2, 0, 0, 0), &both);
    flags_listed(&[0, 1], (3, 0, 2, 0, 0, 15), &both);
}

#[test]
fn wrong_numbers_of_children_are_refused_2() {
    refused(2, &[(0, 0, 1, 0, 0, 7), BLOCK]);
    refused(2, &[(0, 0, 2, 0, 0, 7), BLOCK, BLOCK]);
    refused(2, &[(0, 0, 255, 0, 0, 7)]);
    refused(2, &[sequence(0)]);
    refused(2, &[choice(0)]);
    refused(2, &[sequence(2), BLOCK, choice(0)]);
    for children in [0, 1, 3, 255] {
        let mut records = vec![(3, 0, children, 0, 0, 3)];
        records.resize(1 + usize::from(children), BLOCK);
        refused(2, &records);
    }
}

#[test]
fn every_number_of_children_of_a_list_is_accepted() {
    for children in 1..=255 {
        for top in [sequence(children), choice(children)] {
            let mut records = vec![top];
            records.resize(1 + usize::from(children), BLOCK);
            accepted(&records);
        }
    }
}

#[test]
fn byte_3_of_9_to_254_is_refused_2() {
    for names in 9..=254 {
        refused(2, &[limited(names)]);
        refused(2, &[(0, 0, 0, names, 0, 7)]);
        refused(2, &[(1, 0, 1, names, 0, 0), BLOCK]);
        refused(2, &[(2, 0, 1, names, 0, 0), BLOCK]);
        refused(2, &[(3, 0, 2, names, 0, 3), BLOCK, BLOCK]);
        refused(2, &in_bodies(8, &[limited(names)]));
    }
}

#[test]
fn a_limit_where_byte_3_is_0_is_refused_2() {
    for limit in [1, 1 << 8, 1 << 16, 1_000_000, 1_000_001, 1 << 24, u32::MAX] {
        refused(2, &[(0, 0, 0, 0, limit, 7)]);
        refused(2, &[(0, 1, 0, 0, limit, 16)]);
        refused(2, &[(1, 0, 1, 0, limit, 0), BLOCK]);
        refused(2, &[(2, 0, 1, 0, limit, 0), BLOCK]);
        refused(2, &[(3, 0, 2, 0, limit, 3), BLOCK, BLOCK]);
    }
}

#[test]
fn a_value_in_a_sequence_or_choice_is_refused_2() {
    for byte in 0..8 {
        for kind in [1, 2] {
            refused(2, &[(kind, 0, 1, 0, 0, 1 << (8 * byte)), BLOCK]);
            refused(2, &[(kind, 0, 1, 255, 1, 128 << (8 * byte)), BLOCK]);
        }
    }
}

// Question 3.

#[test]
fn times_past_the_ceiling_are_refused_3() {
    for time in [
        0,
        1,
        31,
        32,
        1_000_001,
        1 << 32,
        999_999_999_999,
        1_000_000_000_000,
    ] {
        accepted(&[(0, 0, 0, 0, 0, time)]);
        accepted(&[(0, 2, 0, 255, 15, time)]);
    }
    for time in [
        1_000_000_000_001,
        1 << 40,
        1 << 48,
        1 << 56,
        1 << 63,
        u64::MAX,
    ] {
        refused(3, &[(0, 0, 0, 0, 0, time)]);
        refused(3, &[(0, 2, 0, 255, 15, time)]);
    }
}

#[test]
fn bounds_past_the_ceiling_are_refused_3() {
    for bound in [0, 1, 15, 16, 999_999, 1_000_000] {
        accepted(&[(3, 0, 2, 0, 0, bound), BLOCK, BLOCK]);
        accepted(&[(3, 2, 2, 255, 15, bound), BLOCK, BLOCK]);
    }
    for bound in [
        1_000_001,
        1 << 32,
        (1 << 32) + 3,
        1_000_000_000_000,
        1 << 63,
        u64::MAX,
    ] {
        refused(3, &[(3, 0, 2, 0, 0, bound), BLOCK, BLOCK]);
        refused(3, &[(3, 2, 2, 255, 15, bound), BLOCK, BLOCK]);
    }
}

#[test]
fn limits_past_the_ceiling_are_refused_3() {
    for limit in [0, 1, 15, 16, 999_999, 1_000_000] {
        each_kind_with_limit(0, limit, accepted);
    }
    for limit in [1_000_001, 1 << 24, 1 << 31, u32::MAX] {
        each_kind_with_limit(0, limit, |records| refused(3, records));
    }
}

#[test]
fn limit_symbols_past_15_are_refused_3() {
    // The limit is the symbol itself, or its triangular number.
    for flags in [2, 6] {
        for symbol in 0..=15 {
            each_kind_with_limit(flags, symbol, accepted);
        }
        let larger = [256, 1_000, 65_536, 1_000_000, 1 << 24, u32::MAX];
        for symbol in (16..=32).chain(larger) {
            each_kind_with_limit(flags, symbol, |records| refused(3, records));
        }
    }
}

fn each_kind_with_limit(flags: u8, limit: u32, expect: impl Fn(&[Record])) {
    expect(&[(0, flags, 0, 255, limit, 7)]);
    expect(&[(0, flags | 1, 0, 255, limit, 16)]);
    expect(&[(1, flags, 1, 255, limit, 0), BLOCK]);
    expect(&[(2, flags, 1, 255, limit, 0), BLOCK]);
    expect(&[(3, flags, 2, 255, limit, 3), BLOCK, BLOCK]);
    expect(&[(3, flags | 1, 2, 255, limit, 3), BLOCK, BLOCK]);
    expect(&[LOOP, (0, flags, 0, 1, limit, 7), BLOCK]);
}

#[test]
fn time_symbols_outside_16_to_31_are_refused_3() {
    for symbol in 16..=31 {
        accepted(&[(0, 1, 0, 0, 0, symbol)]);
        accepted(&[(0, 3, 0, 255, 15, symbol)]);
    }
    for symbol in [
        0,
        1,
        14,
        15,
        32,
        33,
        256 + 16,
        (1 << 32) + 16,
        (1 << 56) + 16,
        u64::MAX,
    ] {
        refused(3, &[(0, 1, 0, 0, 0, symbol)]);
        refused(3, &[(0, 3, 0, 255, 15, symbol)]);
    }
}

#[test]
fn bound_symbols_past_15_are_refused_3() {
    for symbol in 0..=15 {
        accepted(&[(3, 1, 2, 0, 0, symbol), BLOCK, BLOCK]);
        accepted(&[(3, 3, 2, 255, 15, symbol), BLOCK, BLOCK]);
    }
    for symbol in [16, 17, 31, 32, 256, 1 << 32, 1 << 56, u64::MAX] {
        refused(3, &[(3, 1, 2, 0, 0, symbol), BLOCK, BLOCK]);
        refused(3, &[(3, 3, 2, 255, 15, symbol), BLOCK, BLOCK]);
    }
}

// Question 4.

#[test]
fn records_that_form_no_single_tree_are_refused_4() {
    refused(4, &[sequence(1)]);
    refused(4, &[choice(255)]);
    refused(4, &[LOOP]);
    refused(4, &[LOOP, BLOCK]);
    refused(4, &[sequence(2), BLOCK]);
    refused(4, &[sequence(1), sequence(1)]);
    refused(4, &[sequence(2), sequence(2), BLOCK, BLOCK]);

    refused(4, &[BLOCK, BLOCK]);
    refused(4, &[BLOCK, sequence(1), BLOCK]);
    refused(4, &[sequence(1), BLOCK, BLOCK]);
    refused(4, &[LOOP, BLOCK, BLOCK, BLOCK]);
    refused(4, &vec![BLOCK; 512]);
    refused(4, &vec![sequence(1); 512]);
    refused(4, &vec![sequence(255); 512]);
}

// Question 5.

#[test]
fn depth_33_is_refused_5() {
    accepted(&in_sequences(31, &[BLOCK]));
    refused(5, &in_sequences(32, &[BLOCK]));
    refused(5, &in_sequences(511, &[BLOCK]));
    accepted(&in_sequences(30, &[LOOP, BLOCK, BLOCK]));
    refused(5, &in_sequences(31, &[LOOP, BLOCK, BLOCK]));
}

#[test]
fn every_child_counts_for_the_depth() {
    for child in 0..3 {
        let deep = |sequences| {
            let mut records = vec![choice(3)];
            for other in 0..3 {
                let below = if other == child { sequences } else { 0 };
                records.extend(in_sequences(below, &[BLOCK]));
            }
            records
        };
        accepted(&deep(30));
        refused(5, &deep(31));
    }
}

#[test]
fn nine_loops_around_a_node_are_refused_5() {
    accepted(&in_bodies(8, &[BLOCK]));
    accepted(&in_bodies(8, &in_sequences(23, &[BLOCK])));
    refused(5, &in_bodies(8, &in_sequences(24, &[BLOCK])));
    refused(5, &in_bodies(9, &[BLOCK]));
    refused(5, &in_sequences(10, &in_bodies(9, &[BLOCK])));
}

#[test]
fn loops_in_exits_are_not_around() {
    accepted(&in_exits(31, &[BLOCK]));
    refused(5, &in_exits(32, &[BLOCK]));
    // Here the last loop's body has 8 loops around it, then 9.
    accepted(&in_bodies(7, &in_exits(3, &[LOOP, BLOCK, BLOCK])));
    refused(5, &in_bodies(8, &in_exits(3, &[BLOCK])));
    accepted(&in_exits(3, &in_bodies(8, &[BLOCK])));
    refused(5, &in_exits(3, &in_bodies(9, &[BLOCK])));
}

// Question 6.

#[test]
fn byte_3_past_the_loops_around_is_refused_6() {
    for loops in 0..=8 {
        for names in 1..=8 {
            let records = in_bodies(usize::from(loops), &[limited(names)]);
            if names <= loops {
                accepted(&records);
            } else {
                refused(6, &records);
            }
        }
    }
}

#[test]
fn an_exit_is_outside_its_loop() {
    refused(6, &[LOOP, BLOCK, limited(1)]);
    refused(6, &[LOOP, BLOCK, sequence(2), BLOCK, limited(1)]);
    refused(6, &in_exits(4, &[limited(1)]));
    refused(6, &in_bodies(1, &[LOOP, BLOCK, limited(2)]));
    accepted(&in_bodies(1, &[LOOP, BLOCK, limited(1)]));
    accepted(&in_bodies(1, &[LOOP, limited(2), BLOCK]));
    accepted(&[LOOP, BLOCK, limited(255)]);
}

#[test]
fn a_loop_is_not_around_itself() {
    let limited_loop = |names| (3, 0, 2, names, 1, 3);
    refused(6, &[limited_loop(1), BLOCK, BLOCK]);
    accepted(&in_bodies(1, &[limited_loop(1), BLOCK, BLOCK]));
    refused(6, &in_bodies(1, &[limited_loop(2), BLOCK, BLOCK]));
}

#[test]
fn loops_of_siblings_are_not_around() {
    refused(6, &[sequence(2), LOOP, BLOCK, BLOCK, limited(1)]);
    refused(6, &[choice(2), limited(1), LOOP, BLOCK, BLOCK]);
    accepted(&[sequence(2), LOOP, limited(1), BLOCK, limited(255)]);
}

#[test]
fn limits_of_sequences_and_choices_name_loops_too() {
    for kind in [1, 2] {
        refused(6, &[(kind, 0, 1, 1, 0, 0), BLOCK]);
        accepted(&[LOOP, (kind, 0, 1, 1, 0, 0), BLOCK, BLOCK]);
        refused(6, &[LOOP, (kind, 0, 1, 2, 0, 0), BLOCK, BLOCK]);
    }
}

// Question 7.

#[test]
fn weights_past_255_are_refused_7() {
    let blocks = vec![limited(255); 255];
    accepted(&[&[sequence(255)], &blocks[..]].concat());
    refused(7, &[&[(1, 0, 255, 255, 1, 0)], &blocks[..]].concat());
}

#[test]
fn each_name_has_its_weight() {
    // Under 7 loops names 1 to 7 weigh 1 to 64 and the whole run 128, in all 255.
    let mut inner = vec![choice(8)];
    inner.extend([1, 2, 3, 4, 5, 6, 7, 255].map(limited));
    accepted(&in_bodies(7, &inner));
    // One more limit, wherever it is, is too much.
    inner[0] = (2, 0, 8, 1, 0, 0);
    refused(7, &in_bodies(7, &inner));
    inner[0] = choice(9);
    for last in 1..=7 {
        refused(7, &in_bodies(7, &[&inner[..], &[limited(last)]].concat()));
    }
    let mut at_root = in_bodies(7, &[&[choice(8)], &inner[1..]].concat());
    at_root[0] = (3, 0, 2, 255, 0, 3);
    refused(7, &at_root);
}

#[test]
fn one_name_repeated_up_to_the_weight() {
    for names in 1..=8 {
        let weight = 1 << (names - 1);
        let most = 255 / weight;
        let repeated = |limits: usize| {
            let inner = [vec![sequence(limits as u8)], vec![limited(names); limits]].concat();
            in_bodies(8, &inner)
        };
        accepted(&repeated(most));
        if most < 255 {
            refused(7, &repeated(most + 1));
        }
    }
}

#[test]
fn loops_left_by_their_exits_add_no_weight() {
    accepted(&in_exits(20, &[limited(255)]));
    accepted(&in_bodies(7, &in_exits(5, &[limited(255)])));
    accepted(&in_exits(5, &in_bodies(7, &[limited(255)])));
    accepted(&in_bodies(4, &in_exits(5, &in_bodies(4, &[limited(8)]))));
    let heavy = in_bodies(4, &in_exits(5, &in_bodies(4, &[limited(255)])));
    refused(7, &heavy);
}

#[test]
fn a_limit_weighs_the_same_whatever_it_is() {
    let numbers = [(0, 0), (0, 1), (0, 1_000_000)];
    let symbols = [(2, 0), (2, 15), (6, 0), (6, 15)];
    for (flags, limit) in numbers.into_iter().chain(symbols) {
        let block = (0, flags, 0, 255, limit, 0);
        accepted(&in_bodies(7, &[sequence(2), block, BLOCK]));
        refused(7, &in_bodies(7, &[sequence(2), block, block]));
    }
}

#[test]
fn weights_do_not_wrap() {
    // 256 limits of 256 each: 65,536.
    let inner = [vec![(1, 0, 255, 255, 1, 0)], vec![limited(255); 255]].concat();
    refused(7, &in_bodies(8, &inner));
    // 2 limits of 128 each: 256.
    refused(7, &in_bodies(8, &[sequence(2), limited(8), limited(8)]));
}

// The order of the questions.

/// A child of the root that makes the table fail that question, or none if it is 8.
fn fault(question: u64) -> Vec<u8> {
    match question {
        1 => [table(&[BLOCK]), vec![0; 8]].concat(),
        2 => table(&[(4, 0, 0, 0, 0, 0)]),
        3 => table(&[(0, 0, 0, 0, 0, 1_000_000_000_001)]),
        4 => table(&[BLOCK, BLOCK]),
        5 => table(&in_bodies(9, &[BLOCK])),
        6 => table(&[limited(1)]),
        7 => table(&in_bodies(8, &[limited(255)])),
        _ => table(&[BLOCK]),
    }
}

fn faults(first: u64, second: u64) -> Vec<u8> {
    [table(&[sequence(2)]), fault(first), fault(second)].concat()
}

#[test]
fn the_lower_question_answers_wherever_it_fails() {
    for low in 1..=7 {
        for high in low + 1..=8 {
            refused_bytes(low, &faults(low, high));
            refused_bytes(low, &faults(high, low));
        }
    }
}

#[test]
fn records_that_fail_two_questions_answer_the_lower() {
    refused(2, &[(0, 0, 1, 0, 0, u64::MAX), BLOCK]);
    refused(2, &[(0, 2, 0, 0, 16, 7)]);
    refused(2, &[(0, 6, 0, 0, 16, 7)]);
    refused(2, &[(0, 4, 0, 255, 16, 7)]);
    refused(2, &[(0, 4, 0, 1, 1, 7)]);
    refused(2, &[(4, 0, 1, 0, 0, 0)]);
    refused(3, &[(0, 0, 0, 1, 1_000_001, 7)]);
    refused(3, &[(0, 6, 0, 1, 16, 7)]);
    refused(3, &[(3, 0, 2, 0, 0, 1_000_001)]);
    refused(4, &[limited(1), BLOCK]);
    refused(4, &vec![sequence(1); 40]);
    refused(5, &in_sequences(32, &[limited(1)]));
    refused(5, &in_bodies(9, &[limited(255)]));
    refused(6, &in_bodies(7, &[sequence(2), limited(8), limited(8)]));
}

#[test]
fn a_table_past_512_records_is_refused_1_whatever_it_holds() {
    refused_bytes(1, &[255; 12_312]);
    refused(1, &vec![sequence(1); 513]);
    refused_bytes(1, &[255; 23]);
}

// The lent bytes.

#[test]
fn every_place_in_memory_serves() {
    let good = table(&in_bodies(8, &[limited(8)]));
    let bad = table(&in_bodies(7, &[limited(8)]));
    for shift in 0..16 {
        for filler in [0, 1, 255] {
            assert_eq!(lend(&good, shift, filler, raw::check), Checked::accept(17));
            assert_eq!(lend(&bad, shift, filler, raw::check), Checked::refuse(6));
        }
    }
}

#[test]
fn empty_slices_are_refused_1() {
    let refused = Checked::refuse(1);
    assert_eq!(raw::check(&[]), refused);
    assert_eq!(raw::check(&Vec::new()), refused);
    for shift in 0..16 {
        assert_eq!(lend(&[], shift, 0, raw::check), refused);
    }
}

#[test]
fn constant_tables_serve() {
    static TABLE: [u8; 24] = [
        0, 0, 0, 0, 0, 0, 0, 0, 7, 0, 0, 0, 0, 0, 0, 0, 0, 0, 0, 0, 255, 255, 255, 255,
    ];
    assert_eq!(raw::check(&TABLE), Checked::accept(1));
}
