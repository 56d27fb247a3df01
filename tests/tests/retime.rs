//! `vf_preview`, `vf_commit` and the second previewer and committer on hand-written tables: which bytes are
//! written and which stay, question 17 at and past each of its ends, the order of all questions, figures
//! and branches before and after, and commits one after the other. All numbers here are literals.

use volefleece::raw::{self, Committed, Figure};
use volefleece_tests::evaluator::Quoted;
use volefleece_tests::fenced::{Fenced, PAGE};
use volefleece_tests::records::{record, SEVEN, ZERO};
use volefleece_tests::retimer::{self, Previewed, Retiming};
use volefleece_tests::retimes::Retimes;
use volefleece_tests::tables::*;

const MILLION: u64 = 1_000_000;
const CEILING: u64 = 1_000_000_000_000;
const ZEROS: [u64; 40] = [0; 40];

fn of(record: u64, old: u64, new: u64) -> Retiming {
    Retiming { record, old, new }
}

/// The table as both committers leave it. It is committed back and again.
#[track_caller]
fn commit(table: &[u8], record: u64, old: u64, new: u64) -> Result<Vec<u8>, u64> {
    Retimes::new(0).commit(table, of(record, old, new))
}

/// What both previewers answer, which is what the figure call does for both tables.
#[track_caller]
fn preview(
    table: &[u8],
    record: u64,
    old: u64,
    new: u64,
    values: &[u64],
) -> Result<Previewed, u64> {
    Retimes::new(0).preview(table, of(record, old, new), values)
}

/// Both committers leave that table.
#[track_caller]
fn commits(table: &[u8], record: u64, old: u64, new: u64, left: &[u8]) {
    assert_eq!(commit(table, record, old, new), Ok(left.to_vec()));
}

/// Both previewers answer these figures, of a root that is no choice.
#[track_caller]
fn previews(table: &[u8], record: u64, old: u64, new: u64, figures: [u64; 2]) {
    let [before, after] = figures.map(|figure| (figure, 255));
    assert_eq!(
        preview(table, record, old, new, &ZEROS),
        Ok(both(before, after))
    );
}

/// Figures and branches before and after.
fn both(before: (u64, u64), after: (u64, u64)) -> Previewed {
    let quoted = |(figure, branch)| Quoted { figure, branch };
    Previewed {
        before: quoted(before),
        after: quoted(after),
    }
}

/// Both calls refuse 17.
#[track_caller]
fn refuses(table: &[u8], record: u64, old: u64, new: u64) {
    assert_eq!(commit(table, record, old, new), Err(17));
    assert_eq!(preview(table, record, old, new, &ZEROS), Err(17));
}

/// Neither does.
#[track_caller]
fn accepts(table: &[u8], record: u64, old: u64, new: u64) {
    assert!(commit(table, record, old, new).is_ok());
    assert!(preview(table, record, old, new, &ZEROS).is_ok());
}

fn values_of(pairs: &[(usize, u64)]) -> [u64; 40] {
    let mut values = ZEROS;
    for &(at, value) in pairs {
        values[at] = value;
    }
    values
}

// Byte by byte.

/// A block of these bytes of time.
fn timed(time: [u8; 8]) -> [u8; 24] {
    let mut fields = [0; 16];
    fields[8..].copy_from_slice(&time);
    record(fields)
}

#[test]
fn a_time_is_written() {
    for (time, bytes) in [
        (0, [0; 8]),
        (9, [9, 0, 0, 0, 0, 0, 0, 0]),
        (258, [2, 1, 0, 0, 0, 0, 0, 0]),
        (16_777_216, [0, 0, 0, 1, 0, 0, 0, 0]),
        (4_328_719_365, [5, 4, 3, 2, 1, 0, 0, 0]),
        (999_999_999_999, [255, 15, 165, 212, 232, 0, 0, 0]),
        (CEILING, [0, 16, 165, 212, 232, 0, 0, 0]),
    ] {
        commits(&SEVEN, 0, 7, time, &timed(bytes));
        commits(&timed(bytes), 0, time, 7, &SEVEN);
        commits(&timed(bytes), 0, time, 0, &ZERO);
        previews(&SEVEN, 0, 7, time, [7, time]);
        previews(&timed(bytes), 0, time, 7, [time, 7]);
    }
}

/// Its limit, with byte 3 and the flags, its address and the last four bytes.
#[test]
fn the_blocks_other_fields_stay() {
    for (flags, limit) in [
        (0, [64, 66, 15]),
        (0, [0, 0, 0]),
        (2, [9, 0, 0]),
        (6, [9, 0, 0]),
    ] {
        let [low, middle, high] = limit;
        let limit = |time| {
            let limit = [0, flags, 0, 255, low, middle, high, 0];
            let mut fields = [0; 16];
            fields[..8].copy_from_slice(&limit);
            fields[8] = time;
            let mut block = record(fields);
            block[16..20].copy_from_slice(&[1, 2, 3, 4]);
            block
        };
        commits(&limit(7), 0, 7, 9, &limit(9));
        commits(&limit(7), 0, 7, 0, &limit(0));
    }
    let address = |time| addressed(block(time), u32::MAX);
    commits(&address(7), 0, 7, CEILING, &address(CEILING));
    let address = |time| addressed(limited(block(time), 1_000_000, 255), 0x0800_1234);
    commits(&address(CEILING), 0, CEILING, 1, &address(1));
}

#[test]
fn the_other_records_stay() {
    let table = |time: u64| {
        let first = addressed(limited(block(7), 2, 1), 0x0800_0000);
        let body = choice(&[first, addressed(block(time), 0x0800_0004), x(), block(7)]);
        let exit = sequence(&[symbol_block(24), block(time), block(7)]);
        limited(repeat(7, body, exit), 7, 255)
    };
    // Of the loop, the choice and its four, and the sequence and its three, these have that time.
    let [old, new] = [table(5), table(8)];
    let once = commit(&old, 3, 5, 8).expect("a block of 5");
    assert_ne!(once, new);
    commits(&once, 8, 5, 8, &new);
    for record in [2, 5, 9] {
        let left = commit(&old, record, 7, 70).expect("a block of 7");
        let at = 24 * record as usize + 8;
        assert_eq!((left[at], old[at]), (70, 7));
        assert_eq!((&left[..at], &left[at + 1..]), (&old[..at], &old[at + 1..]));
    }
}

/// A sequence of two sequences of blocks, 512 records in all.
fn longest(blocks: [u64; 2]) -> Vec<u8> {
    let [first, second] = blocks;
    sequence(&[
        sequence(&vec![block(first); 255]),
        sequence(&vec![block(second); 254]),
    ])
}

#[test]
fn every_record_of_the_longest_table() {
    let table = longest([7, 8]);
    assert_eq!(table.len(), 12_288);
    for record in 0..512 {
        let at = 24 * record;
        let old = match record {
            0 | 1 | 257 => {
                refuses(&table, record as u64, 0, 9);
                refuses(&table, record as u64, 7, 9);
                continue;
            }
            2..=256 => 7,
            _ => 8,
        };
        let mut left = table.clone();
        left[at + 8] = 9;
        commits(&table, record as u64, old, 9, &left);
        refuses(&table, record as u64, 15 - old, 9);
    }
    let figure = 255 * 7 + 254 * 8;
    previews(&table, 2, 7, 9, [figure, figure + 2]);
    previews(&table, 511, 8, 9, [figure, figure + 1]);
}

#[test]
fn the_second_committer_alone() {
    let table = sequence(&[block(7), x(), repeat(3, block(7), block(0))]);
    let commit = |record, old, new| retimer::commit(&table, of(record, old, new));
    let with =
        |first, body, exit| sequence(&[block(first), x(), repeat(3, block(body), block(exit))]);
    assert_eq!(commit(1, 7, 9), Ok(with(9, 7, 0)));
    assert_eq!(commit(4, 7, 9), Ok(with(7, 9, 0)));
    assert_eq!(commit(5, 0, CEILING), Ok(with(7, 7, CEILING)));
    assert_eq!(commit(1, 7, 7), Ok(table.clone()));
    assert_eq!(commit(1, 8, 9), Err(17));
    assert_eq!(commit(1, 7, CEILING + 1), Err(17));
    assert_eq!(commit(0, 0, 9), Err(17));
    assert_eq!(commit(2, 16, 9), Err(17));
    assert_eq!(commit(3, 3, 9), Err(17));
    assert_eq!(commit(6, 0, 9), Err(17));
    assert_eq!(commit(u64::MAX, 7, 9), Err(17));
    assert_eq!(retimer::commit(&table[1..], of(1, 7, 9)), Err(1));
    assert_eq!(
        retimer::commit(&[block(7), x()].concat(), of(0, 7, 9)),
        Err(4)
    );
}

#[test]
fn the_second_previewer_alone() {
    let table = choice(&[block(7), x(), repeat(3, block(2), block(0))]);
    let values = values_of(&[(16, 8)]);
    let preview = |record, old, new| retimer::preview(&table, of(record, old, new), &values);
    assert_eq!(preview(1, 7, 9), Ok(both((8, 1), (9, 0))));
    assert_eq!(preview(1, 7, 8), Ok(both((8, 1), (8, 0))));
    assert_eq!(preview(4, 2, 3), Ok(both((8, 1), (9, 2))));
    assert_eq!(preview(4, 2, CEILING), Err(10));
    assert_eq!(preview(1, 8, 9), Err(17));
    assert_eq!(preview(1, 7, CEILING + 1), Err(17));
    assert_eq!(preview(2, 16, 9), Err(17));
    let few = retimer::preview(&table, of(1, 7, 9), &values[..39]);
    assert_eq!(few, Err(9));
    let none = retimer::preview(&[], of(1, 7, 9), &values);
    assert_eq!(none, Err(1));
}

// Question 17: the block.

#[test]
fn a_block_in_any_place_is_retimed() {
    let tables: [fn(Vec<u8>) -> Vec<u8>; 8] = [
        |place| place,
        |place| sequence(&[place, block(5)]),
        |place| repeat(3, place, block(5)),
        |place| sequence(&[block(5), place, block(5)]),
        |place| choice(&[x(), place]),
        |place| repeat(3, block(5), place),
        |place| in_sequences(31, place),
        |place| in_loops(8, 2, place),
    ];
    for (table, record) in tables.into_iter().zip([0, 1, 1, 2, 2, 2, 31, 8]) {
        commits(&table(block(7)), record, 7, 9, &table(block(9)));
        accepts(&table(block(7)), record, 7, 9);
        for other in 0..40 {
            if other != record {
                refuses(&table(block(7)), other, 7, 9);
            }
        }
    }
}

/// A symbol is no plain time, though its number be the old one, or its value.
#[test]
fn blocks_of_symbols_are_refused_17() {
    for symbol in 16..=31 {
        let table = symbol_block(symbol);
        for old in [symbol, 0, 1, symbol - 16, 40] {
            refuses(&table, 0, old, 9);
            refuses(&table, 0, old, old);
        }
        let values = [40; 40];
        assert_eq!(preview(&table, 0, 40, 9, &values), Err(17));
        assert_eq!(preview(&table, 0, symbol, 9, &values), Err(17));
        // With a limit, that is plain, a symbol, or a symbol's triangular number.
        for table in [
            limited(table.clone(), 7, 255),
            symbol_limited(table.clone(), 7, 255),
            triangular_limited(table, 7, 255),
        ] {
            refuses(&table, 0, symbol, 9);
            refuses(&table, 0, 7, 9);
        }
        // The same number as a plain time may be retimed, whatever the limit is.
        accepts(&block(symbol), 0, symbol, 9);
        accepts(&symbol_limited(block(symbol), 7, 255), 0, symbol, 9);
        accepts(&triangular_limited(block(symbol), 7, 255), 0, symbol, 9);
    }
}

#[test]
fn other_nodes_are_refused_17() {
    for top in [sequence, choice] {
        for table in [
            top(&[block(7)]),
            limited(top(&[block(7)]), 3, 255),
            addressed(top(&[block(7), block(7), block(7)]), 3),
        ] {
            for old in [0, 1, 3, 7] {
                refuses(&table, 0, old, 9);
                refuses(&table, 0, old, old);
            }
            accepts(&table, 1, 7, 9);
        }
    }
    // A loop's bound, plain or not, and its limit.
    for bound in [0, 1, 3, 16, MILLION] {
        let table = repeat(bound, block(7), block(7));
        for old in [bound, 0, 7] {
            refuses(&table, 0, old, 9);
            refuses(&table, 0, old, old);
        }
        refuses(&limited(table, 5, 255), 0, 5, 9);
    }
    for symbol in 0..=15 {
        let table = symbol_repeat(symbol, block(7), block(7));
        for old in [symbol, 0, 7] {
            refuses(&table, 0, old, 9);
        }
    }
}

/// A limit is no time.
#[test]
fn a_limit_of_the_old_time_is_passed_by() {
    let table = limited(block(7), 5, 255);
    refuses(&table, 0, 5, 9);
    commits(&table, 0, 7, 5, &limited(block(5), 5, 255));
    commits(
        &limited(block(5), 5, 255),
        0,
        5,
        9,
        &limited(block(9), 5, 255),
    );
}

#[test]
fn stale_times_are_refused_17() {
    let table = sequence(&[block(7), block(8), block(CEILING - 100)]);
    for (record, time) in [(1, 7), (2, 8), (3, CEILING - 100)] {
        accepts(&table, record, time, 9);
        for bit in 0..64 {
            refuses(&table, record, time ^ (1 << bit), 9);
        }
        refuses(&table, record, time - 1, 9);
        refuses(&table, record, time + 1, 9);
        refuses(&table, record, 0, 9);
        // What it is to have.
        refuses(&table, record, 9, 9);
    }
    // Another block's.
    for (record, time) in [(1, 8), (2, 7), (3, 7), (1, CEILING - 100)] {
        refuses(&table, record, time, 9);
    }
}

#[test]
fn old_times_past_the_ceiling_are_refused_17() {
    for old in [CEILING + 1, 1 << 40, 1 << 63, u64::MAX] {
        for time in [0, 7, CEILING] {
            refuses(&block(time), 0, old, 9);
            refuses(&block(time), 0, old, old);
            refuses(&block(time), 0, old, time);
        }
    }
    commits(&block(CEILING), 0, CEILING, 0, &block(0));
}

#[test]
fn records_past_the_last_are_refused_17() {
    let [short, long] = [block(7), longest([7, 7])];
    let [pair, many] = [1, 169].map(|blocks| sequence(&vec![block(7); blocks]));
    for (table, records) in [(&short, 1), (&pair, 2), (&many, 170), (&long, 512)] {
        accepts(table, records - 1, 7, 9);
        let past = [records, records + 1, 511, 512, 513, 1_000];
        for record in past.into_iter().filter(|&record| record >= records) {
            refuses(table, record, 7, 9);
            refuses(table, record, 0, 9);
            refuses(table, record, 0, 0);
        }
        // With some of the low bytes alone these would be the last block's.
        for more in [256, 512, 1 << 16, 1 << 32, 1 << 63] {
            refuses(table, records - 1 + more, 7, 9);
        }
        // Their bytes begin, by a product of 64 bits, where the last block's do.
        for times in 1..8 {
            refuses(table, records - 1 + times * (1 << 61), 7, 9);
        }
        for record in [u64::MAX, u64::MAX - 1, u64::MAX / 24, u64::MAX / 24 + 1] {
            refuses(table, record, 7, 9);
        }
    }
}

// Question 17: the new time.

#[test]
fn new_times_up_to_the_ceiling() {
    let table = sequence(&[limited(block(7), 0, 255), block(0)]);
    for new in [0, 1, 6, 7, 8, MILLION, MILLION + 1, CEILING - 1, CEILING] {
        let left = sequence(&[limited(block(new), 0, 255), block(0)]);
        commits(&table, 1, 7, new, &left);
        previews(&table, 1, 7, new, [0, 0]);
    }
    for new in [CEILING + 1, 1 << 40, CEILING << 8, 1 << 63, u64::MAX] {
        refuses(&table, 1, 7, new);
    }
    // With some of the low bytes alone these would be in range.
    for high in 40..64 {
        refuses(&table, 1, 7, (1 << high) + 9);
    }
}

#[test]
fn the_old_time_may_be_the_new_one() {
    for time in [0, 7, CEILING - 1, CEILING] {
        commits(&block(time), 0, time, time, &block(time));
        previews(&block(time), 0, time, time, [time, time]);
    }
    let table = choice(&[block(7), block(7)]);
    commits(&table, 2, 7, 7, &table);
    let same = preview(&table, 2, 7, 7, &ZEROS);
    assert_eq!(same, Ok(both((7, 0), (7, 0))));
}

// The order of the questions.

#[test]
fn questions_1_to_7_come_first() {
    for (question, table) in (1..).zip(refused_tables()) {
        for (record, old, new) in [
            (0, 1, 9),
            (0, 7, 9),
            (1, 1, 1),
            (8, 1, 9),
            (600, 7, 9),
            (0, 1, CEILING + 1),
            (u64::MAX, u64::MAX, u64::MAX),
        ] {
            assert_eq!(commit(&table, record, old, new), Err(question));
            for values in [&ZEROS[..], &[], &[u64::MAX; 40]] {
                let answer = preview(&table, record, old, new, values);
                assert_eq!(answer, Err(question));
            }
        }
    }
    // The time that is too large is not mended by the new one.
    let time = CEILING + 1;
    assert_eq!(commit(&block(time), 0, time, 7), Err(3));
    assert_eq!(preview(&block(time), 0, time, 7, &ZEROS), Err(3));
}

/// The questions that values alone may fail: each of them, any two, and all, in their order.
const OF_VALUES: [&[u64]; 7] = [
    &[9],
    &[13],
    &[14],
    &[9, 13],
    &[9, 14],
    &[13, 14],
    &[9, 13, 14],
];
const NONE: &[u64] = &[];

/// Values that fail these questions with the table below.
fn desks(questions: &[u64]) -> [u64; 40] {
    let mut values = ZEROS;
    for question in questions {
        match question {
            9 => values[5] = MILLION + 1,
            13 => values[4] = 1_001,
            _ => values[33] = 1,
        }
    }
    values
}

/// A sequence of blocks of these times, a limit under flag 4 and a paired symbol.
fn faulty(times: [u64; 2]) -> Vec<u8> {
    let [first, second] = times.map(block);
    let triangle = triangular_limited(block(0), 4, 255);
    sequence(&[first, second, triangle, symbol_block(24)])
}

#[test]
fn question_17_comes_before_those_of_the_figure() {
    for questions in [NONE].into_iter().chain(OF_VALUES) {
        let values = desks(questions);
        // The figures fit or not.
        for times in [[7, 7], [CEILING, CEILING]] {
            let table = faulty(times);
            for (record, old, new) in [
                (1, 8, 9),
                (0, 0, 9),
                (3, 4, 9),
                (4, 24, 9),
                (5, 0, 9),
                (1, times[0], CEILING + 1),
            ] {
                let answer = preview(&table, record, old, new, &values);
                assert_eq!(answer, Err(17));
                assert_eq!(preview(&table, record, old, new, &values[..39]), Err(17));
                assert_eq!(preview(&table, record, old, new, &[]), Err(17));
            }
        }
    }
}

#[test]
fn question_9_comes_before_13_14_and_10_of_both_trees() {
    for questions in OF_VALUES {
        let values = desks(questions);
        for (times, new) in [
            ([7, 7], 9),
            ([7, CEILING], 0),
            ([7, CEILING - 7], 8),
            ([CEILING, 1], CEILING),
        ] {
            let answer = preview(&faulty(times), 1, times[0], new, &values);
            assert_eq!(answer, Err(questions[0]));
            // Commit asks for no values.
            let left = commit(&faulty(times), 1, times[0], new);
            assert_eq!(left, Ok(faulty([new, times[1]])));
        }
    }
    let accepted = faulty([7, 7]);
    for values in [&[][..], &[0; 39], &[0; 41], &[0; 32], &[u64::MAX; 40]] {
        assert_eq!(preview(&accepted, 1, 7, 9, values), Err(9));
        let too_large = preview(&faulty([CEILING, 1]), 1, CEILING, 9, values);
        assert_eq!(too_large, Err(9));
    }
}

#[test]
fn question_10_is_asked_of_both_trees() {
    let sum = |times: [u64; 2]| sequence(&times.map(block));
    // The old tree's, whether the new one fits or not.
    for new in [0, 7, CEILING - 7, CEILING - 6, CEILING] {
        let table = sum([CEILING, 7]);
        assert_eq!(preview(&table, 1, CEILING, new, &ZEROS), Err(10));
        assert_eq!(commit(&table, 1, CEILING, new), Ok(sum([new, 7])));
    }
    // The new tree's.
    for (new, answer) in [
        (CEILING - 8, Ok(CEILING - 1)),
        (CEILING - 7, Ok(CEILING)),
        (CEILING - 6, Err(10)),
        (CEILING, Err(10)),
    ] {
        let table = sum([7, 7]);
        let preview = preview(&table, 1, 7, new, &ZEROS);
        assert_eq!(preview, answer.map(|after| both((14, 255), (after, 255))));
        assert_eq!(commit(&table, 1, 7, new), Ok(sum([new, 7])));
    }
    // Of an inner node, which the root does not show.
    let never = |time| repeat(0, sequence(&[block(time), block(1)]), block(3));
    assert_eq!(preview(&never(7), 2, 7, CEILING, &ZEROS), Err(10));
    assert_eq!(preview(&never(CEILING), 2, CEILING, 7, &ZEROS), Err(10));
    previews(&never(7), 2, 7, CEILING - 1, [3, 3]);
    let limit = |time| limited(sequence(&[block(time), block(1)]), 0, 255);
    assert_eq!(preview(&limit(7), 1, 7, CEILING, &ZEROS), Err(10));
    previews(&limit(7), 1, 7, CEILING - 1, [0, 0]);
    // By the values.
    let table = sequence(&[block(7), x()]);
    let values = values_of(&[(16, CEILING - 8)]);
    let fits = preview(&table, 1, 7, 8, &values);
    assert_eq!(fits, Ok(both((CEILING - 1, 255), (CEILING, 255))));
    assert_eq!(preview(&table, 1, 7, 9, &values), Err(10));
}

// What is lent, and what is answered.

#[test]
fn a_refusal_stands_alone() {
    let tall = sequence(&[block(7), block(CEILING)]);
    let pair = choice(&[block(7), block(9)]);
    let wrong = [1; 40];
    for (table, (record, old, new), values, question) in [
        (&pair[1..], (1, 7, 8), &ZEROS[..], 1),
        (&pair[..24], (0, 0, 8), &ZEROS, 4),
        (&pair[..], (1, 9, 8), &ZEROS, 17),
        (&pair, (0, 0, 8), &ZEROS, 17),
        (&pair, (3, 9, 8), &ZEROS, 17),
        (&pair, (1, 7, CEILING + 1), &ZEROS, 17),
        (&pair, (1, 7, 8), &wrong[..39], 9),
        (&tall, (1, 7, 8), &wrong, 10),
    ] {
        let answer = raw::preview(table, record, old, new, values);
        let expected = raw::Previewed {
            refused: question,
            before: 0,
            branch_before: 0,
            after: 0,
            branch_after: 0,
        };
        assert_eq!(answer, expected);
        let mut lent = table.to_vec();
        let answer = raw::commit(&mut lent, record, old, new);
        let expected = Committed {
            refused: question,
            length: 0,
        };
        // Commit does not ask for the values and figures.
        if question != 9 && question != 10 {
            assert_eq!((answer, &lent[..]), (expected, table));
        }
    }
}

#[test]
fn an_answer_has_all_its_numbers() {
    let table = choice(&[block(9), block(7), block(8)]);
    let answer = raw::preview(&table, 1, 9, 4, &ZEROS);
    let expected = raw::Previewed {
        refused: 0,
        before: 9,
        branch_before: 0,
        after: 8,
        branch_after: 2,
    };
    assert_eq!(answer, expected);
    let mut lent = table.clone();
    let answer = raw::commit(&mut lent, 1, 9, 4);
    let length = 96;
    assert_eq!(answer, Committed { refused: 0, length });
    assert_eq!(lent, choice(&[block(4), block(7), block(8)]));
    let figure = raw::figure(&lent, &ZEROS);
    let expected = Figure {
        refused: 0,
        figure: 8,
        branch: 2,
    };
    assert_eq!(figure, expected);
}

/// Tables that begin right behind a fence, and that end right before one: neither call reads or writes
/// outside, also where there is no such record.
#[test]
fn nothing_outside_is_read_or_written() {
    let most = PAGE / 24;
    let bytes = std::array::from_fn(|at| at as u8);
    for blocks in [0, 1, 5, most - 1] {
        let table = match blocks {
            0 => block(7),
            _ => sequence(&vec![block(7); blocks]),
        };
        for start in [0, PAGE - table.len()] {
            let end = start + table.len();
            let mut fenced = Fenced::new(&bytes);
            fenced.bytes_mut()[start..end].copy_from_slice(&table);
            let before = fenced.bytes().to_vec();
            let last = blocks as u64;
            let lent = &mut fenced.bytes_mut()[start..end];
            for (record, refused) in [(last, 0), (last + 1, 17), (last + 1_000, 17)] {
                for (old, new) in [(7, 9), (9, 7)] {
                    let preview = raw::preview(lent, record, old, new, &ZEROS);
                    assert_eq!(preview.refused, if old == 9 { 17 } else { refused });
                }
                assert_eq!(raw::commit(lent, record, 7, 9).refused, refused);
                let back = if refused == 0 { 0 } else { 17 };
                assert_eq!(raw::commit(lent, record, 9, 7).refused, back);
            }
            assert_eq!(fenced.bytes(), before);
        }
    }
}

#[test]
fn nothing_lent() {
    for (record, old, new) in [(0, 0, 0), (0, 7, 9), (u64::MAX, 7, CEILING + 1)] {
        assert_eq!(raw::commit(&mut [], record, old, new).refused, 1);
        assert_eq!(raw::preview(&[], record, old, new, &[]).refused, 1);
        assert_eq!(raw::preview(&[], record, old, new, &ZEROS).refused, 1);
    }
    assert_eq!(raw::preview(&SEVEN, 0, 7, 9, &[]).refused, 9);
    assert_eq!(raw::preview(&SEVEN, 0, 8, 9, &[]).refused, 17);
}

// Commits one after the other.

#[test]
fn commits_in_a_row_and_back() {
    let times = [7, 8, 0, CEILING, 9, 7, 6];
    let mut table = block(7);
    for pair in times.windows(2) {
        let &[old, new] = pair else { unreachable!() };
        table = commit(&table, 0, old, new).expect("its time");
        assert_eq!(table, block(new));
        // All the others are stale.
        for &time in times.iter().filter(|&&time| time != new) {
            refuses(&table, 0, time, 5);
        }
    }
    for pair in times.windows(2).rev() {
        let &[old, new] = pair else { unreachable!() };
        table = commit(&table, 0, new, old).expect("its time");
    }
    assert_eq!(table, block(7));
}

#[test]
fn two_blocks_in_either_order() {
    let table = |first, second| {
        let list = choice(&[block(first), x()]);
        repeat(3, list, addressed(block(second), 77))
    };
    let (first, second) = (of(2, 7, 70), of(4, 8, 80));
    let start = table(7, 8);
    for order in [[first, second], [second, first]] {
        let mut retimes = Retimes::new(0);
        let mut put = |table: &[u8], retiming| retimes.commit(table, retiming).expect("its time");
        let once = put(&start, order[0]);
        let twice = put(&once, order[1]);
        assert_eq!(twice, table(70, 80));
        // Back in either order.
        for back in [[0, 1], [1, 0]] {
            let once = put(&twice, order[back[0]].back());
            assert_ne!(once, start);
            assert_eq!(put(&once, order[back[1]].back()), start);
        }
    }
    // Two that had one time, and the same new one.
    let table = sequence(&[block(7), block(7)]);
    let once = commit(&table, 1, 7, 9).expect("its time");
    assert_eq!(once, sequence(&[block(9), block(7)]));
    refuses(&once, 1, 7, 9);
    commits(&once, 2, 7, 9, &sequence(&[block(9), block(9)]));
}

/// Of two workshops that read the same table, the second's time is stale.
#[test]
fn the_second_of_two_is_refused() {
    let table = sequence(&[block(340), block(60)]);
    let first = commit(&table, 1, 340, 400).expect("its time");
    refuses(&first, 1, 340, 300);
    refuses(&first, 1, 340, 340);
    refuses(&first, 1, 340, 400);
    commits(&first, 1, 400, 300, &sequence(&[block(300), block(60)]));
}

// Figures and branches.

#[test]
fn figures_before_and_after() {
    // Document 01's cases A to F.
    previews(&block(7), 0, 7, 9, [7, 9]);
    let never = repeat(0, block(9), block(4));
    previews(&never, 1, 9, 1_000, [4, 4]);
    previews(&never, 2, 4, 5, [4, 5]);
    let body = choice(&[limited(block(10), 1, 1), block(5)]);
    let case_c = repeat(3, body, block(0));
    previews(&case_c, 2, 10, 11, [20, 21]);
    previews(&case_c, 2, 10, 4, [20, 15]);
    previews(&case_c, 3, 5, 6, [20, 22]);
    previews(&case_c, 3, 5, 10, [20, 30]);
    previews(&case_c, 4, 0, 7, [20, 27]);
    let example = |names| {
        let miss = choice(&[limited(block(10), 1, names), block(0)]);
        let inner = repeat(3, sequence(&[block(5), miss, block(15)]), block(5));
        repeat(3, sequence(&[block(5), inner]), block(5))
    };
    // The first miss in the run of the outer loop, or in each of the inner one.
    previews(&example(2), 7, 10, 20, [225, 235]);
    previews(&example(1), 7, 10, 20, [245, 275]);
    previews(&example(2), 5, 5, 6, [225, 234]);
    // The last is the outer loop's exit.
    previews(&example(2), 11, 5, 0, [225, 220]);
}

/// The sample house's tree: the block that each card costs.
#[test]
fn the_cards_block_is_retimed() {
    let asks = choice(&[limited(x(), 2, 1), block(25)]);
    let cards = symbol_repeat(0, sequence(&[block(340), asks]), block(60));
    let retries = symbol_repeat(1, block(5_000), block(100));
    let table = sequence(&[block(1_200), cards, retries]);
    let values = values_of(&[(0, 40), (1, 3), (16, 90_000)]);
    let figure = 210_910;
    for (new, after) in [(400, figure + 2_400), (340, figure), (0, figure - 13_600)] {
        let answer = preview(&table, 4, 340, new, &values);
        assert_eq!(answer, Ok(both((figure, 255), (after, 255))));
    }
    // Two of the forty cards ask the radio.
    let answer = preview(&table, 7, 25, 26, &values);
    assert_eq!(answer, Ok(both((figure, 255), (figure + 38, 255))));
}

#[test]
fn branches_before_and_after() {
    let table = choice(&[block(7), block(9), sequence(&[block(4), block(4)])]);
    let quoted = |record, old, new| preview(&table, record, old, new, &ZEROS);
    // From the second to the first, to the third, and where it is.
    assert_eq!(quoted(1, 7, 10), Ok(both((9, 1), (10, 0))));
    assert_eq!(quoted(2, 9, 6), Ok(both((9, 1), (8, 2))));
    assert_eq!(quoted(4, 4, 6), Ok(both((9, 1), (10, 2))));
    assert_eq!(quoted(5, 4, 6), Ok(both((9, 1), (10, 2))));
    assert_eq!(quoted(2, 9, 8), Ok(both((9, 1), (8, 1))));
    assert_eq!(quoted(2, 9, 50), Ok(both((9, 1), (50, 1))));
    assert_eq!(quoted(1, 7, 0), Ok(both((9, 1), (9, 1))));
    // Of equal ones the earliest, before and after.
    assert_eq!(quoted(1, 7, 9), Ok(both((9, 1), (9, 0))));
    assert_eq!(quoted(4, 4, 5), Ok(both((9, 1), (9, 1))));
    assert_eq!(quoted(1, 7, 8), Ok(both((9, 1), (9, 1))));
    let ties = choice(&[block(5), block(5), block(5)]);
    let quoted = |record, new| preview(&ties, record, 5, new, &ZEROS);
    assert_eq!(quoted(1, 4), Ok(both((5, 0), (5, 1))));
    assert_eq!(quoted(1, 6), Ok(both((5, 0), (6, 0))));
    assert_eq!(quoted(3, 6), Ok(both((5, 0), (6, 2))));
    assert_eq!(quoted(2, 4), Ok(both((5, 0), (5, 0))));
    // The last of 255 children.
    let wide = choice(&vec![block(5); 255]);
    let last = preview(&wide, 255, 5, 6, &ZEROS);
    assert_eq!(last, Ok(both((5, 0), (6, 254))));
    // An inner choice is no root.
    let inner = sequence(&[choice(&[block(7), block(9)])]);
    previews(&inner, 2, 7, 10, [9, 10]);
}

/// First and later values of a paired symbol beside the block.
#[test]
fn paired_symbols_beside_the_block() {
    let body = choice(&[symbol_block(24), block(20)]);
    let table = repeat(3, body, block(0));
    let values = values_of(&[(24, 60), (32, 9)]);
    for (new, after) in [(8, 60 + 9 + 9), (9, 78), (30, 60 + 30 + 30), (70, 210)] {
        let answer = preview(&table, 3, 20, new, &values);
        assert_eq!(answer, Ok(both((100, 255), (after, 255))));
    }
}
