//! `vf_fill`, `vf_open` and the second filler and opener on hand-written tables: what is filled and what
//! stays, where the marks stand, the new questions at and past their ends, the order of all, buffers,
//! figures and branches. All numbers here are literals.

use volefleece::raw::{self, Filled, Opened};
use volefleece_tests::evaluator::Quoted;
use volefleece_tests::filler;
use volefleece_tests::fills::Fills;
use volefleece_tests::quotes;
use volefleece_tests::records::{record, SEVEN, X, ZERO};
use volefleece_tests::tables::*;

const MILLION: u64 = 1_000_000;
const CEILING: u64 = 1_000_000_000_000;
const NO_MARKS: [u8; 128] = [0; 128];

/// What both fillers answer, with room enough. What they write is opened again.
#[track_caller]
fn fill(table: &[u8], symbol: u64, number: u64) -> Result<filler::Filled, u64> {
    Fills::new(0).fill(table, symbol, number)
}

/// What both openers answer, with room enough.
#[track_caller]
fn open(table: &[u8], marks: &[u8], symbol: u64, number: u64) -> Result<Vec<u8>, u64> {
    Fills::new(0).open(table, marks, symbol, number)
}

/// Marks whose first bytes are these.
fn marks(first: &[u8]) -> [u8; 128] {
    let mut marks = NO_MARKS;
    marks[..first.len()].copy_from_slice(first);
    marks
}

/// The mark of that record's value alone, by its byte and bit.
fn value_mark(record: usize) -> [u8; 128] {
    let mut marks = NO_MARKS;
    marks[record / 4] = [1, 4, 16, 64][record % 4];
    marks
}

/// The mark of its limit.
fn limit_mark(record: usize) -> [u8; 128] {
    let mut marks = NO_MARKS;
    marks[record / 4] = [2, 8, 32, 128][record % 4];
    marks
}

/// Both fillers write that table and these marks.
#[track_caller]
fn fills(table: &[u8], symbol: u64, number: u64, filled: &[u8], marks: [u8; 128]) {
    let expected = filler::Filled {
        table: filled.to_vec(),
        marks,
    };
    assert_eq!(fill(table, symbol, number), Ok(expected));
}

#[track_caller]
fn refuses_to_fill(question: u64, table: &[u8], symbol: u64, number: u64) {
    assert_eq!(fill(table, symbol, number), Err(question));
}

#[track_caller]
fn refuses_to_open(question: u64, table: &[u8], marks: &[u8], symbol: u64, number: u64) {
    assert_eq!(open(table, marks, symbol, number), Err(question));
}

// Byte by byte.

#[test]
fn a_time_is_filled() {
    fills(&X, 16, 7, &SEVEN, marks(&[1]));
    fills(&X, 16, 0, &ZERO, marks(&[1]));
    let most = record([0, 0, 0, 0, 0, 0, 0, 0, 0, 16, 165, 212, 232, 0, 0, 0]);
    fills(&X, 16, CEILING, &most, marks(&[1]));
}

#[test]
fn a_bound_is_filled() {
    let open = record([3, 1, 2, 0, 0, 0, 0, 0, 5, 0, 0, 0, 0, 0, 0, 0]);
    for (number, bytes) in [
        (0, [0, 0, 0]),
        (5, [5, 0, 0]),
        (258, [2, 1, 0]),
        (MILLION, [64, 66, 15]),
    ] {
        let [low, middle, high] = bytes;
        let plain = record([3, 0, 2, 0, 0, 0, 0, 0, low, middle, high, 0, 0, 0, 0, 0]);
        let [table, filled] = [open, plain].map(|top| [top, SEVEN, ZERO].concat());
        fills(&table, 5, number, &filled, marks(&[1]));
    }
}

#[test]
fn a_limit_is_filled() {
    let open = record([0, 2, 0, 255, 5, 0, 0, 0, 7, 0, 0, 0, 0, 0, 0, 0]);
    let zero = record([0, 0, 0, 255, 0, 0, 0, 0, 7, 0, 0, 0, 0, 0, 0, 0]);
    fills(&open, 5, 0, &zero, marks(&[2]));
    let most = record([0, 0, 0, 255, 64, 66, 15, 0, 7, 0, 0, 0, 0, 0, 0, 0]);
    fills(&open, 5, MILLION, &most, marks(&[2]));
    // On a sequence, which has no value of its own, and on a choice.
    for kind in [1, 2] {
        let open = record([kind, 2, 1, 255, 5, 0, 0, 0, 0, 0, 0, 0, 0, 0, 0, 0]);
        let plain = record([kind, 0, 1, 255, 9, 0, 0, 0, 0, 0, 0, 0, 0, 0, 0, 0]);
        let [table, filled] = [open, plain].map(|top| [top, SEVEN].concat());
        fills(&table, 5, 9, &filled, marks(&[2]));
    }
}

/// The other flag stays, and flag 4 with it.
#[test]
fn one_field_of_two_is_filled() {
    let both = record([0, 3, 0, 255, 5, 0, 0, 0, 16, 0, 0, 0, 0, 0, 0, 0]);
    let time = record([0, 2, 0, 255, 5, 0, 0, 0, 9, 0, 0, 0, 0, 0, 0, 0]);
    let limit = record([0, 1, 0, 255, 9, 0, 0, 0, 16, 0, 0, 0, 0, 0, 0, 0]);
    fills(&both, 16, 9, &time, marks(&[1]));
    fills(&both, 5, 9, &limit, marks(&[2]));
    let triangular = record([0, 7, 0, 255, 5, 0, 0, 0, 16, 0, 0, 0, 0, 0, 0, 0]);
    let filled = record([0, 6, 0, 255, 5, 0, 0, 0, 9, 0, 0, 0, 0, 0, 0, 0]);
    fills(&triangular, 16, 9, &filled, marks(&[1]));
    // A loop's bound and limit, of two symbols and of one.
    let below = [SEVEN, ZERO].concat();
    let with = |top: [u8; 24]| [&top[..], &below].concat();
    let two = with(record([3, 3, 2, 255, 5, 0, 0, 0, 6, 0, 0, 0, 0, 0, 0, 0]));
    let bound = with(record([3, 2, 2, 255, 5, 0, 0, 0, 9, 0, 0, 0, 0, 0, 0, 0]));
    let limit = with(record([3, 1, 2, 255, 9, 0, 0, 0, 6, 0, 0, 0, 0, 0, 0, 0]));
    fills(&two, 6, 9, &bound, marks(&[1]));
    fills(&two, 5, 9, &limit, marks(&[2]));
    let one = with(record([3, 3, 2, 255, 6, 0, 0, 0, 6, 0, 0, 0, 0, 0, 0, 0]));
    let filled = with(record([3, 0, 2, 255, 9, 0, 0, 0, 9, 0, 0, 0, 0, 0, 0, 0]));
    fills(&one, 6, 9, &filled, marks(&[3]));
    let triangular = with(record([3, 7, 2, 255, 5, 0, 0, 0, 6, 0, 0, 0, 0, 0, 0, 0]));
    let filled = with(record([3, 6, 2, 255, 5, 0, 0, 0, 9, 0, 0, 0, 0, 0, 0, 0]));
    fills(&triangular, 6, 9, &filled, marks(&[1]));
}

#[test]
fn a_field_is_opened() {
    assert_eq!(open(&SEVEN, &marks(&[1]), 16, 7), Ok(X.to_vec()));
    assert_eq!(open(&SEVEN, &NO_MARKS, 16, 7), Ok(SEVEN.to_vec()));
    // A number of five bytes gives way to a symbol of one.
    let most = record([0, 0, 0, 0, 0, 0, 0, 0, 0, 16, 165, 212, 232, 0, 0, 0]);
    assert_eq!(open(&most, &marks(&[1]), 16, CEILING), Ok(X.to_vec()));
    let plain = record([0, 0, 0, 255, 64, 66, 15, 0, 7, 0, 0, 0, 0, 0, 0, 0]);
    let limit = record([0, 2, 0, 255, 5, 0, 0, 0, 7, 0, 0, 0, 0, 0, 0, 0]);
    assert_eq!(open(&plain, &marks(&[2]), 5, MILLION), Ok(limit.to_vec()));
    // One of two fields, and both.
    let below = [SEVEN, ZERO].concat();
    let with = |top: [u8; 24]| [&top[..], &below].concat();
    let table = with(record([3, 0, 2, 255, 9, 0, 0, 0, 9, 0, 0, 0, 0, 0, 0, 0]));
    let bound = with(record([3, 1, 2, 255, 9, 0, 0, 0, 6, 0, 0, 0, 0, 0, 0, 0]));
    let limit = with(record([3, 2, 2, 255, 6, 0, 0, 0, 9, 0, 0, 0, 0, 0, 0, 0]));
    let both = with(record([3, 3, 2, 255, 6, 0, 0, 0, 6, 0, 0, 0, 0, 0, 0, 0]));
    assert_eq!(open(&table, &marks(&[1]), 6, 9), Ok(bound.clone()));
    assert_eq!(open(&table, &marks(&[2]), 6, 9), Ok(limit));
    assert_eq!(open(&table, &marks(&[3]), 6, 9), Ok(both.clone()));
    // What is open already stays so.
    assert_eq!(open(&bound, &NO_MARKS, 6, 9), Ok(bound.clone()));
    assert_eq!(open(&bound, &marks(&[2]), 6, 9), Ok(both));
    // Beside another symbol, and beside flag 4 of another.
    let table = with(record([3, 2, 2, 255, 5, 0, 0, 0, 9, 0, 0, 0, 0, 0, 0, 0]));
    let opened = with(record([3, 3, 2, 255, 5, 0, 0, 0, 6, 0, 0, 0, 0, 0, 0, 0]));
    assert_eq!(open(&table, &marks(&[1]), 6, 9), Ok(opened));
    let table = with(record([3, 6, 2, 255, 5, 0, 0, 0, 9, 0, 0, 0, 0, 0, 0, 0]));
    let opened = with(record([3, 7, 2, 255, 5, 0, 0, 0, 6, 0, 0, 0, 0, 0, 0, 0]));
    assert_eq!(open(&table, &marks(&[1]), 6, 9), Ok(opened));
}

#[test]
fn the_second_filler_alone() {
    let filled = |table: &[u8], marks| filler::Filled {
        table: table.to_vec(),
        marks,
    };
    let seven = filled(&SEVEN, marks(&[1]));
    assert_eq!(filler::fill(&X, 16, 7, 24, 128), Ok(seven.clone()));
    assert_eq!(filler::fill(&X, 16, 7, 100, 200), Ok(seven));
    assert_eq!(filler::fill(&X, 17, 7, 24, 128), Ok(filled(&X, NO_MARKS)));
    assert_eq!(filler::fill(&X, 16, 7, 23, 128), Err(8));
    assert_eq!(filler::fill(&X, 16, 7, 24, 127), Err(8));
    assert_eq!(filler::fill(&X, 24, 7, 24, 128), Err(15));
    assert_eq!(filler::fill(&X, 32, 7, 24, 128), Err(15));
    assert_eq!(filler::fill(&X, 16, CEILING + 1, 24, 128), Err(15));
    assert_eq!(filler::fill(&X, 15, MILLION + 1, 24, 128), Err(15));
    assert_eq!(filler::fill(&[], 32, 7, 0, 0), Err(1));
    let limit = triangular_limited(x(), 3, 255);
    assert_eq!(filler::fill(&limit, 3, 7, 24, 128), Err(15));
    assert!(filler::fill(&limit, 4, 7, 24, 128).is_ok());
}

#[test]
fn the_second_opener_alone() {
    let value = marks(&[1]);
    assert_eq!(filler::open(&SEVEN, &value, 16, 7, 24), Ok(X.to_vec()));
    assert_eq!(filler::open(&SEVEN, &value, 16, 7, 100), Ok(X.to_vec()));
    assert_eq!(filler::open(&SEVEN, &value, 16, 7, 23), Err(8));
    assert_eq!(filler::open(&SEVEN, &value, 24, 7, 24), Err(15));
    assert_eq!(filler::open(&SEVEN, &value, 16, CEILING + 1, 24), Err(15));
    assert_eq!(filler::open(&SEVEN, &value, 16, 8, 24), Err(16));
    assert_eq!(filler::open(&SEVEN, &value, 15, 7, 24), Err(16));
    assert_eq!(filler::open(&SEVEN, &marks(&[2]), 16, 7, 24), Err(16));
    assert_eq!(filler::open(&SEVEN, &marks(&[4]), 16, 7, 24), Err(16));
    assert_eq!(filler::open(&SEVEN, &marks(&[0, 1]), 16, 7, 24), Err(16));
    assert_eq!(filler::open(&X, &value, 16, 16, 24), Err(16));
    assert_eq!(filler::open(&SEVEN, &value[..127], 16, 7, 24), Err(16));
    assert_eq!(filler::open(&SEVEN, &[0; 129], 16, 7, 24), Err(16));
}

// Where the marks stand.

/// The first five records, in two bytes of marks, low bits first.
#[test]
fn marks_of_the_first_records() {
    let values = [[1, 0], [4, 0], [16, 0], [64, 0], [0, 1]];
    let limits = [[2, 0], [8, 0], [32, 0], [128, 0], [0, 2]];
    let loops = in_loops(5, 3, block(7));
    for place in 0..5 {
        let mut bound = loops.clone();
        bound[24 * place + 1] = 1;
        bound[24 * place + 8] = 9;
        fills(&bound, 9, 3, &loops, marks(&values[place]));
        let mut limit = loops.clone();
        limit[24 * place + 3] = 255;
        limit[24 * place + 4] = 40;
        let filled = limit.clone();
        limit[24 * place + 1] = 2;
        limit[24 * place + 4] = 9;
        fills(&limit, 9, 40, &filled, marks(&limits[place]));
    }
    let all = (0..5).fold(block(7), |body, _| {
        symbol_limited(symbol_repeat(9, body, block(0)), 9, 255)
    });
    let filled = (0..5).fold(block(7), |body, _| {
        limited(repeat(3, body, block(0)), 3, 255)
    });
    fills(&all, 9, 3, &filled, marks(&[255, 3]));
}

/// A sequence of two sequences of blocks, 512 records in all.
fn longest() -> Vec<u8> {
    sequence(&[
        sequence(&vec![block(7); 255]),
        sequence(&vec![block(7); 254]),
    ])
}

#[test]
fn marks_of_every_record_of_the_longest_table() {
    let plain = longest();
    assert_eq!(plain.len(), 12_288);
    for record in 0..512 {
        let at = 24 * record;
        if plain[at] == 0 {
            let mut time = plain.clone();
            time[at + 1] = 1;
            time[at + 8] = 20;
            fills(&time, 20, 7, &plain, value_mark(record));
        }
        let mut filled = plain.clone();
        filled[at + 3] = 255;
        filled[at + 4] = 7;
        let mut limit = filled.clone();
        limit[at + 1] = 2;
        limit[at + 4] = 0;
        fills(&limit, 0, 7, &filled, limit_mark(record));
    }
    assert_eq!(value_mark(511)[127], 64);
    assert_eq!(limit_mark(511)[127], 128);
}

#[test]
fn marks_of_all_blocks_of_the_longest_table() {
    let children = |count, child: fn() -> Vec<u8>| {
        let children: Vec<_> = (0..count).map(|_| child()).collect();
        sequence(&children)
    };
    let table = |child| sequence(&[children(255, child), children(254, child)]);
    let mut all = [0b0101_0101; 128];
    // The root, the first sequence and the second, which is record 257.
    all[0] -= 1 + 4;
    all[64] -= 4;
    fills(&table(x), 16, 7, &table(|| block(7)), all);
}

// The table.

#[test]
fn every_field_is_filled() {
    let tables: [fn(Vec<u8>) -> Vec<u8>; 7] = [
        |place| place,
        |place| sequence(&[place, block(1), block(2)]),
        |place| choice(&[block(1), block(2), place]),
        |place| repeat(3, place, block(1)),
        |place| repeat(3, block(1), place),
        |place| sequence(&[choice(&[place]), repeat(2, in_sequences(3, y()), y())]),
        |place| repeat(2, y(), sequence(&[y(), in_loops(2, 3, place)])),
    ];
    for table in tables {
        for (symbol, open, plain) in [
            (16, x(), block(5)),
            (3, symbol_limited(y(), 3, 255), limited(y(), 5, 255)),
            (3, symbol_repeat(3, y(), block(1)), repeat(5, y(), block(1))),
        ] {
            let filled = fill(&table(open), symbol, 5).expect("a small table");
            assert_eq!(filled.table, table(plain));
            let marks: u32 = filled.marks.iter().map(|byte| byte.count_ones()).sum();
            assert_eq!(marks, 1);
        }
    }
    // Bounds and limits of one symbol, in all places at once.
    let many = |bound: &dyn Fn(Vec<u8>) -> Vec<u8>, limit: &dyn Fn(Vec<u8>) -> Vec<u8>| {
        let list = limit(choice(&[limit(x()), bound(y()), block(3)]));
        limit(sequence(&[limit(bound(list)), bound(limit(block(3)))]))
    };
    let open = many(&|body| symbol_repeat(3, body, block(3)), &|node| {
        symbol_limited(node, 3, 255)
    });
    let plain = many(&|body| repeat(3, body, block(3)), &|node| {
        limited(node, 3, 255)
    });
    // The limits of records 0, 1, 2, 3 and 10, and the bounds of 1, 4 and 9.
    let marked = [2 + 8 + 32 + 128 + 4, 1, 32 + 4];
    fills(&open, 3, 3, &plain, marks(&marked));
}

#[test]
fn each_symbol_is_filled_alone() {
    let times = || (16..=31).map(symbol_block);
    let table = sequence(&times().collect::<Vec<_>>());
    for symbol in 16..=23 {
        let mut children: Vec<_> = times().collect();
        children[symbol as usize - 16] = block(90);
        let record = symbol as usize - 15;
        fills(&table, symbol, 90, &sequence(&children), value_mark(record));
    }
    let bounds = || (0..=15).map(|symbol| symbol_repeat(symbol, y(), block(symbol)));
    let limits = || (0..=15).map(|symbol| symbol_limited(y(), symbol, 255));
    let [of_bounds, of_limits]: [Vec<_>; 2] = [bounds().collect(), limits().collect()];
    for symbol in 0..16 {
        let mut children = of_bounds.clone();
        children[symbol] = repeat(90, y(), block(symbol as u64));
        let [table, filled] = [&of_bounds, &children].map(|children| choice(children));
        fills(
            &table,
            symbol as u64,
            90,
            &filled,
            value_mark(1 + 3 * symbol),
        );
        let mut children = of_limits.clone();
        children[symbol] = limited(y(), 90, 255);
        let [table, filled] = [&of_limits, &children].map(|children| choice(children));
        fills(&table, symbol as u64, 90, &filled, limit_mark(1 + symbol));
    }
}

#[test]
fn a_symbol_that_is_not_used_leaves_no_mark() {
    let tables = [
        block(7),
        block(3),
        block(16),
        y(),
        symbol_block(24),
        limited(y(), 3, 255),
        limited(y(), 16, 255),
        repeat(3, block(16), y()),
        repeat(16, block(3), y()),
        symbol_repeat(4, symbol_limited(y(), 2, 1), limited(block(16), 3, 255)),
        triangular_limited(y(), 15, 255),
        in_loops(8, 3, block(16)),
        in_sequences(31, y()),
        longest(),
    ];
    for table in &tables {
        for symbol in [3, 16, 0, 14, 20, 23] {
            fills(table, symbol, 3, table, NO_MARKS);
            fills(table, symbol, 16, table, NO_MARKS);
        }
    }
}

/// A field that had the number before has no mark, and stays plain.
#[test]
fn plain_fields_of_the_number_stay_plain() {
    let table = sequence(&[block(9), x(), block(9), x()]);
    let nines = sequence(&vec![block(9); 4]);
    fills(&table, 16, 9, &nines, marks(&[0b0001_0000, 0b0000_0001]));
    let restored = open(&nines, &marks(&[0b0001_0000, 1]), 16, 9);
    assert_eq!(restored, Ok(table));
    // By other marks others are opened.
    let other = sequence(&[x(), block(9), block(9), x()]);
    assert_eq!(open(&nines, &marks(&[0b0000_0100, 1]), 16, 9), Ok(other));
    let all = sequence(&[x(), x(), x(), x()]);
    assert_eq!(open(&nines, &marks(&[0b0101_0100, 1]), 16, 9), Ok(all));
    // A bound, a limit and a time of the number.
    let body = || limited(block(3), 3, 1);
    let table = symbol_repeat(2, body(), block(3));
    fills(&table, 2, 3, &repeat(3, body(), block(3)), marks(&[1]));
    let limit = repeat(3, symbol_limited(block(3), 2, 1), block(3));
    let plain = repeat(3, body(), block(3));
    assert_eq!(open(&plain, &marks(&[8]), 2, 3), Ok(limit));
}

#[test]
fn addresses_stay() {
    let table = |time, bound: fn(Vec<u8>, Vec<u8>) -> Vec<u8>, limit: fn(Vec<u8>) -> Vec<u8>| {
        let first = addressed(limit(time), u32::MAX);
        let list = addressed(choice(&[first, addressed(block(9), 1)]), 0x0800_04a0);
        addressed(limit(bound(list, addressed(y(), 0xff00))), 0x1234_5678)
    };
    let bound: fn(Vec<u8>, Vec<u8>) -> Vec<u8> = |body, exit| symbol_repeat(3, body, exit);
    let limit: fn(Vec<u8>) -> Vec<u8> = |node| symbol_limited(node, 3, 255);
    let filled = table(block(9), bound, limit);
    fills(&table(x(), bound, limit), 16, 9, &filled, marks(&[16]));
    let filled = table(
        x(),
        |body, exit| repeat(9, body, exit),
        |node| limited(node, 9, 255),
    );
    fills(&table(x(), bound, limit), 3, 9, &filled, marks(&[32 + 3]));
}

/// Filled and opened one after the other, in either order.
#[test]
fn two_symbols_may_be_filled() {
    let table = symbol_repeat(3, sequence(&[x(), symbol_limited(y(), 3, 1)]), x());
    let first = fill(&table, 3, 9).expect("a small table");
    let both = fill(&first.table, 16, 9).expect("a small table");
    let expected = repeat(9, sequence(&[block(9), limited(y(), 9, 1)]), block(9));
    assert_eq!(both.table, expected);
    assert_eq!(first.marks, marks(&[1 + 128]));
    assert_eq!(both.marks, marks(&[16, 1]));
    let other = open(&both.table, &first.marks, 3, 9).expect("marks that stand");
    assert_eq!(
        fill(&table, 16, 9).map(|filled| filled.table),
        Ok(other.clone())
    );
    assert_eq!(open(&other, &both.marks, 16, 9), Ok(table));
    // The marks of one are no marks of the other.
    refuses_to_open(16, &both.table, &first.marks, 16, 9);
    refuses_to_open(16, &both.table, &both.marks, 3, 9);
    // Another symbol may take the place of the one that was filled.
    let renamed = symbol_repeat(5, sequence(&[x(), symbol_limited(y(), 5, 1)]), x());
    assert_eq!(open(&first.table, &first.marks, 5, 9), Ok(renamed));
}

// Question 15.

/// A table in which each symbol that may be filled has a field, and a plain table.
fn both_tables() -> [Vec<u8>; 2] {
    let times = (16..=31).map(symbol_block);
    let bounds = (0..=15).map(|symbol| symbol_repeat(symbol, block(1), block(2)));
    let all: Vec<_> = times.chain(bounds).collect();
    [sequence(&all), block(7)]
}

/// Both calls refuse 15, the opening without a mark.
#[track_caller]
fn refuses_15(table: &[u8], symbol: u64, number: u64) {
    refuses_to_fill(15, table, symbol, number);
    refuses_to_open(15, table, &NO_MARKS, symbol, number);
    refuses_to_open(15, table, &marks(&[1]), symbol, number);
}

/// Neither does.
#[track_caller]
fn asks_no_more(table: &[u8], symbol: u64, number: u64) {
    assert!(fill(table, symbol, number).is_ok());
    assert_eq!(open(table, &NO_MARKS, symbol, number), Ok(table.to_vec()));
}

#[test]
fn symbols_other_than_0_to_23_are_refused_15() {
    for table in both_tables() {
        for symbol in 0..=23 {
            asks_no_more(&table, symbol, 5);
        }
        for symbol in 24..=40 {
            refuses_15(&table, symbol, 5);
            refuses_15(&table, symbol, 0);
        }
        // With some of the low bytes alone these would be in range.
        for symbol in [48, 255, 256, 256 + 16, 65_536 + 23, (1 << 32) + 20, 1 << 63] {
            refuses_15(&table, symbol, 5);
        }
        for symbol in [16 << 8, 16 << 32, 23 << 56, u64::MAX, u64::MAX - 15] {
            refuses_15(&table, symbol, 5);
        }
    }
}

#[test]
fn numbers_past_the_symbols_range_are_refused_15() {
    for table in both_tables() {
        for symbol in 0..=15 {
            for number in [0, 1, 999_999, MILLION] {
                asks_no_more(&table, symbol, number);
            }
            for number in [MILLION + 1, 1 << 20, 1 << 32, CEILING, CEILING + 1] {
                refuses_15(&table, symbol, number);
            }
            // The low bytes alone would be in range.
            for number in [(1 << 32) + 5, (1 << 40) + MILLION, 1 << 63, u64::MAX] {
                refuses_15(&table, symbol, number);
            }
        }
        for symbol in 16..=23 {
            for number in [0, MILLION, MILLION + 1, 1 << 32, CEILING - 1, CEILING] {
                asks_no_more(&table, symbol, number);
            }
            for number in [CEILING + 1, 1 << 40, (1 << 48) + 5, 1 << 63, u64::MAX] {
                refuses_15(&table, symbol, number);
            }
        }
    }
}

#[test]
fn a_symbol_under_flag_4_is_refused_15() {
    let tables: [fn(Vec<u8>) -> Vec<u8>; 6] = [
        |place| place,
        |place| sequence(&[block(1), place]),
        |place| choice(&[place, y()]),
        |place| repeat(3, place, block(1)),
        |place| repeat(3, block(1), in_sequences(20, place)),
        |place| sequence(&[longest()[24..24 * 257].to_vec(), place]),
    ];
    for table in tables {
        for symbol in [0, 3, 15] {
            let triangular = |symbol| table(triangular_limited(x(), symbol, 255));
            refuses_15(&triangular(symbol), u64::from(symbol), 5);
            // Of another symbol, and of the same one without the flag.
            asks_no_more(&triangular(symbol), u64::from(symbol ^ 1), 5);
            asks_no_more(&triangular(symbol), 16, 5);
            let plain = table(symbol_limited(x(), symbol, 255));
            asks_no_more(&plain, u64::from(symbol), 5);
        }
    }
    // Used without the flag too, before it and behind it; and both of one loop.
    let twice = [
        sequence(&[symbol_limited(x(), 3, 255), triangular_limited(x(), 3, 255)]),
        sequence(&[triangular_limited(x(), 3, 255), symbol_limited(x(), 3, 255)]),
        symbol_repeat(3, triangular_limited(x(), 3, 1), block(1)),
        triangular_limited(symbol_repeat(3, x(), block(1)), 3, 255),
    ];
    for table in &twice {
        refuses_15(table, 3, 5);
        asks_no_more(table, 2, 5);
        asks_no_more(table, 16, 5);
    }
    // Filling one symbol leaves flag 4 of another, whose number may be that of the plain one.
    let table = triangular_limited(symbol_repeat(4, x(), block(1)), 3, 255);
    let filled = triangular_limited(repeat(3, x(), block(1)), 3, 255);
    fills(&table, 4, 3, &filled, marks(&[1]));
}

// Question 16, each of its clauses.

#[test]
fn marks_of_other_lengths_are_refused_16() {
    let table = sequence(&[block(7), block(8)]);
    for length in [0, 1, 24, 64, 127, 129, 192, 256, 12_288] {
        refuses_to_open(16, &table, &vec![0; length], 16, 7);
    }
    assert_eq!(open(&table, &[0; 128], 16, 7), Ok(table.clone()));
    // Cut off or longer behind a mark that stands.
    let mut standing = marks(&[4]).to_vec();
    assert!(open(&table, &standing, 16, 7).is_ok());
    refuses_to_open(16, &table, &standing[..127], 16, 7);
    refuses_to_open(16, &table, &standing[..1], 16, 7);
    standing.push(0);
    refuses_to_open(16, &table, &standing, 16, 7);
}

#[test]
fn marks_past_the_last_record_are_refused_16() {
    // Tables of 1 to 9 records, and of the most.
    let short = (0..=8).map(|children| match children {
        0 => block(7),
        _ => sequence(&vec![block(7); children]),
    });
    let [most, less] = [255, 254].map(|children| {
        sequence(&[
            sequence(&vec![block(7); 254]),
            sequence(&vec![block(7); children]),
        ])
    });
    for table in short.chain([most, less]) {
        let records = table.len() / 24;
        assert!(open(&table, &value_mark(records - 1), 16, 7).is_ok());
        for past in records..512 {
            refuses_to_open(16, &table, &value_mark(past), 16, 7);
            refuses_to_open(16, &table, &limit_mark(past), 16, 7);
            refuses_to_open(16, &table, &limit_mark(past), 3, 7);
        }
    }
    // Beside a mark that stands.
    refuses_to_open(16, &block(7), &marks(&[1 + 4]), 16, 7);
    refuses_to_open(16, &block(7), &marks(&[1, 1]), 16, 7);
    assert!(open(&block(7), &marks(&[1]), 16, 7).is_ok());
}

#[test]
fn marks_on_symbols_are_refused_16() {
    // The field's bytes are the number's, but its flag says what they are.
    for symbol in [16, 17, 23, 24, 31] {
        let table = symbol_block(symbol);
        refuses_to_open(16, &table, &marks(&[1]), 16, symbol);
        refuses_to_open(16, &table, &marks(&[1]), 17, symbol);
    }
    for symbol in [0, 3, 15] {
        let table = symbol_repeat(symbol, block(1), block(2));
        refuses_to_open(16, &table, &marks(&[1]), symbol, symbol);
        refuses_to_open(16, &table, &marks(&[1]), 5, symbol);
        let table = symbol_limited(block(1), symbol as u32, 255);
        refuses_to_open(16, &table, &marks(&[2]), symbol, symbol);
        refuses_to_open(16, &table, &marks(&[2]), 5, symbol);
        let table = triangular_limited(block(1), symbol as u32, 255);
        refuses_to_open(16, &table, &marks(&[2]), 5, symbol);
        // Nor is it the triangular number's.
        let number = symbol * (symbol + 1) / 2;
        refuses_to_open(16, &table, &marks(&[2]), 5, number);
    }
}

#[test]
fn marks_on_other_numbers_are_refused_16() {
    for number in [0, 1, 255, 256, 65_536, 1 << 24, 1 << 32, 0xe6_d4a5_1000] {
        let table = block(number);
        assert!(open(&table, &marks(&[1]), 16, number).is_ok());
        // Each differs in one byte alone.
        for other in (0..5).map(|byte| number ^ (1 << (8 * byte))) {
            refuses_to_open(16, &table, &marks(&[1]), 16, other);
        }
    }
    for number in [0, 1, 255, 256, 65_536, 900_000] {
        let bound = repeat(number, block(1), block(2));
        let limit = limited(block(1), number as u32, 255);
        assert!(open(&bound, &marks(&[1]), 3, number).is_ok());
        assert!(open(&limit, &marks(&[2]), 3, number).is_ok());
        for other in [1, 1 << 8, 1 << 16].map(|bit| number ^ bit) {
            refuses_to_open(16, &bound, &marks(&[1]), 3, other);
            refuses_to_open(16, &limit, &marks(&[2]), 3, other);
        }
    }
    // The other field has it.
    let table = limited(repeat(5, block(1), block(2)), 6, 255);
    assert!(open(&table, &marks(&[1]), 3, 5).is_ok());
    assert!(open(&table, &marks(&[2]), 3, 6).is_ok());
    refuses_to_open(16, &table, &marks(&[1]), 3, 6);
    refuses_to_open(16, &table, &marks(&[2]), 3, 5);
    refuses_to_open(16, &table, &marks(&[3]), 3, 5);
    refuses_to_open(16, &table, &marks(&[3]), 3, 6);
}

#[test]
fn marks_where_the_symbol_is_not_allowed_are_refused_16() {
    for symbol in 0..=15 {
        refuses_to_open(16, &block(7), &marks(&[1]), symbol, 7);
        let table = limited(block(7), 7, 255);
        refuses_to_open(16, &table, &marks(&[1]), symbol, 7);
        refuses_to_open(16, &table, &marks(&[3]), symbol, 7);
        assert!(open(&table, &marks(&[2]), symbol, 7).is_ok());
        let table = limited(repeat(7, block(7), block(7)), 7, 255);
        assert!(open(&table, &marks(&[3]), symbol, 7).is_ok());
        refuses_to_open(16, &table, &marks(&[3 + 4]), symbol, 7);
    }
    for symbol in 16..=23 {
        assert!(open(&block(7), &marks(&[1]), symbol, 7).is_ok());
        let table = limited(block(7), 7, 255);
        assert!(open(&table, &marks(&[1]), symbol, 7).is_ok());
        refuses_to_open(16, &table, &marks(&[2]), symbol, 7);
        refuses_to_open(16, &table, &marks(&[3]), symbol, 7);
        let table = limited(repeat(7, block(7), block(7)), 7, 255);
        assert!(open(&table, &marks(&[4 + 16]), symbol, 7).is_ok());
        for mark in [1, 2, 3] {
            refuses_to_open(16, &table, &marks(&[mark]), symbol, 7);
            refuses_to_open(16, &table, &marks(&[mark + 4 + 16]), symbol, 7);
        }
    }
}

/// Bytes that must be 0 are no plain field of 0.
#[test]
fn marks_on_no_field_are_refused_16() {
    for symbol in [0, 15, 16, 23] {
        for top in [sequence, choice] {
            let table = top(&[block(0)]);
            refuses_to_open(16, &table, &marks(&[1]), symbol, 0);
            let table = limited(table, 0, 255);
            refuses_to_open(16, &table, &marks(&[1]), symbol, 0);
        }
        for table in [
            block(0),
            repeat(0, block(0), block(0)),
            sequence(&[block(0)]),
        ] {
            refuses_to_open(16, &table, &marks(&[2]), symbol, 0);
        }
    }
    // A limit of 0 is one.
    let limit = limited(sequence(&[block(0)]), 0, 255);
    let opened = symbol_limited(sequence(&[block(0)]), 4, 255);
    assert_eq!(open(&limit, &marks(&[2]), 4, 0), Ok(opened));
}

// The order of the questions, and what is lent.

/// A table that fails that question alone.
fn failing(question: u64) -> Vec<u8> {
    match question {
        1 => vec![],
        2 => [&[4], &block(7)[1..]].concat(),
        3 => block(CEILING + 1),
        4 => [block(7), block(7)].concat(),
        5 => in_sequences(32, block(7)),
        6 => limited(block(7), 1, 1),
        _ => in_loops(8, 3, limited(block(7), 1, 255)),
    }
}

#[test]
fn questions_1_to_7_come_first() {
    let mut fills = Fills::new(0);
    for question in 1..=7 {
        let table = failing(question);
        let past = marks(&[0, 1]);
        for symbol in [16, 24] {
            for rooms in [[0, 0], [table.len(), 0], [0, 128], [12_288, 128]] {
                let answer = fills.fill_into(&table, symbol, 7, rooms);
                assert_eq!(answer, Err(question));
            }
            for marks in [&NO_MARKS[..], &past, &past[..127]] {
                for room in [0, 12_288] {
                    let answer = fills.open_into(&table, marks, symbol, 7, room);
                    assert_eq!(answer, Err(question));
                }
            }
        }
    }
    // And in their order: of any two that fail, the first answers.
    for (first, second) in [(2, 3), (2, 4), (3, 4), (3, 6), (5, 6), (5, 7), (6, 7)] {
        let table = match first {
            2 | 3 => sequence(&[failing(first), failing(second)]),
            _ => sequence(&[failing(second), failing(first)]),
        };
        refuses_to_fill(first, &table, 16, 7);
        refuses_to_open(first, &table, &NO_MARKS, 16, 7);
    }
    refuses_to_fill(1, &[4; 23], 16, 7);
    refuses_to_open(1, &[4; 23], &NO_MARKS, 16, 7);
}

#[test]
fn question_8_comes_before_15_and_15_before_16() {
    let mut fills = Fills::new(0);
    let table = sequence(&[x(), triangular_limited(block(7), 3, 255)]);
    for (symbol, number) in [
        (24, 7),
        (32, 7),
        (3, 7),
        (16, CEILING + 1),
        (4, MILLION + 1),
    ] {
        for rooms in [[71, 128], [72, 127], [71, 127], [0, 0], [12_288, 0]] {
            assert_eq!(fills.fill_into(&table, symbol, number, rooms), Err(8));
        }
        assert_eq!(fills.fill_into(&table, symbol, number, [72, 128]), Err(15));
        for marks in [&NO_MARKS[..], &marks(&[1]), &marks(&[0, 1]), &[0; 127], &[]] {
            let mut open = |room| fills.open_into(&table, marks, symbol, number, room);
            assert_eq!(open(71), Err(8));
            assert_eq!(open(0), Err(8));
            assert_eq!(open(72), Err(15));
            assert_eq!(open(100), Err(15));
        }
    }
    // Marks that are lent to be read are question 16's.
    for marks in [&marks(&[1])[..], &marks(&[0, 1]), &[0; 127], &[0; 129], &[]] {
        let mut open = |room| fills.open_into(&table, marks, 16, 7, room);
        assert_eq!(open(71), Err(8));
        assert_eq!(open(72), Err(16));
    }
    assert_eq!(fills.open_into(&table, &NO_MARKS, 16, 7, 71), Err(8));
    assert_eq!(fills.open_into(&table, &NO_MARKS, 16, 7, 72), Ok(table));
}

#[test]
fn question_8_asks_for_both_lengths() {
    let mut fills = Fills::new(0);
    for table in [x(), sequence(&[x(), block(7)]), longest()] {
        let length = table.len();
        // Whether the symbol is used or not.
        for symbol in [16, 17, 0] {
            for rooms in [
                [length, 128],
                [length + 1, 129],
                [length, 200],
                [13_000, 128],
            ] {
                assert!(fills.fill_into(&table, symbol, 7, rooms).is_ok());
            }
            for rooms in [
                [length - 1, 128],
                [length, 127],
                [length - 24, 200],
                [0, 128],
            ] {
                assert_eq!(fills.fill_into(&table, symbol, 7, rooms), Err(8));
            }
            let mut open = |room| fills.open_into(&table, &NO_MARKS, symbol, 7, room);
            for room in [length, length + 1, 13_000] {
                assert_eq!(open(room), Ok(table.clone()));
            }
            for room in [length - 1, length - 24, 0] {
                assert_eq!(open(room), Err(8));
            }
        }
    }
}

#[test]
fn only_the_front_of_each_buffer_is_written() {
    let (mut out, mut written) = ([9; 48], [9; 200]);
    let answer = raw::fill(&X, 16, 7, &mut out, &mut written);
    let length = 24;
    assert_eq!(answer, Filled { refused: 0, length });
    assert_eq!((&out[..24], &out[24..]), (&SEVEN[..], &[9; 24][..]));
    assert_eq!(written[..128], marks(&[1]));
    assert_eq!(written[128..], [9; 72]);

    let mut out = [9; 48];
    let answer = raw::open(&SEVEN, &marks(&[1]), 16, 7, &mut out);
    assert_eq!(answer, Opened { refused: 0, length });
    assert_eq!((&out[..24], &out[24..]), (&X[..], &[9; 24][..]));
}

#[test]
fn a_refusal_writes_nothing() {
    let (mut out, mut written) = ([9; 48], [9; 200]);
    let mut fill = |table: &[u8], symbol, number, room, marks_room| {
        let buffers = (&mut out[..room], &mut written[..marks_room]);
        let answer = raw::fill(table, symbol, number, buffers.0, buffers.1);
        assert_eq!(answer.length, 0);
        assert_eq!((out, written), ([9; 48], [9; 200]));
        answer.refused
    };
    assert_eq!(fill(&X[..23], 16, 7, 48, 200), 1);
    assert_eq!(fill(&failing(3), 16, 7, 48, 200), 3);
    assert_eq!(fill(&X, 16, 7, 23, 200), 8);
    assert_eq!(fill(&X, 16, 7, 48, 127), 8);
    assert_eq!(fill(&X, 24, 7, 48, 200), 15);
    assert_eq!(fill(&X, 16, CEILING + 1, 48, 200), 15);
    let mut open = |table: &[u8], marks: &[u8], symbol, room| {
        let answer = raw::open(table, marks, symbol, 7, &mut out[..room]);
        assert_eq!(answer.length, 0);
        assert_eq!(out, [9; 48]);
        answer.refused
    };
    assert_eq!(open(&SEVEN[..23], &marks(&[1]), 16, 48), 1);
    assert_eq!(open(&failing(3), &marks(&[1]), 16, 48), 3);
    assert_eq!(open(&SEVEN, &marks(&[1]), 16, 23), 8);
    assert_eq!(open(&SEVEN, &marks(&[1]), 24, 48), 15);
    assert_eq!(open(&SEVEN, &marks(&[1, 1]), 16, 48), 16);
    assert_eq!(open(&SEVEN, &marks(&[1])[..127], 16, 48), 16);
    // The last record's mark alone does not stand: the others are not opened either.
    let table = sequence(&[block(7), block(8)]);
    let mut out = [9; 72];
    let answer = raw::open(&table, &marks(&[4 + 16]), 16, 7, &mut out);
    assert_eq!((answer.refused, out), (16, [9; 72]));
}

#[test]
fn nothing_lent() {
    let (mut out, mut written) = ([9; 24], [9; 128]);
    for symbol in [16, 24] {
        assert_eq!(raw::fill(&[], symbol, 7, &mut [], &mut []).refused, 1);
        let answer = raw::fill(&[], symbol, 7, &mut out, &mut written);
        assert_eq!(answer.refused, 1);
        assert_eq!(raw::open(&[], &[], symbol, 7, &mut []).refused, 1);
        assert_eq!(raw::open(&[], &NO_MARKS, symbol, 7, &mut out).refused, 1);
        assert_eq!(raw::fill(&X, symbol, 7, &mut out, &mut []).refused, 8);
        assert_eq!(raw::fill(&X, symbol, 7, &mut [], &mut written).refused, 8);
        assert_eq!(raw::open(&X, &NO_MARKS, symbol, 7, &mut []).refused, 8);
        assert_eq!(raw::open(&X, &[], symbol, 7, &mut []).refused, 8);
    }
    assert_eq!(raw::open(&X, &[], 16, 7, &mut out).refused, 16);
    assert_eq!((out, written), ([9; 24], [9; 128]));
}

// Figures and branches.

/// The filled table's answer, which must be the open one's with the symbol set to the number, whatever
/// value it is lent for the symbol.
#[track_caller]
fn quoted(table: &[u8], symbol: u64, number: u64, values: &[u64; 40]) -> Result<Quoted, u64> {
    let filled = fill(table, symbol, number).expect("a small table");
    let at = symbol as usize;
    let mut set = *values;
    set[at] = number;
    let quoted = quotes::agreed(table, &set);
    let most = if symbol < 16 { MILLION } else { CEILING };
    for value in [values[at], 0, 1, number, most] {
        let mut lent = *values;
        lent[at] = value;
        assert_eq!(quotes::agreed(&filled.table, &lent), quoted);
    }
    quoted
}

#[track_caller]
fn figures(table: &[u8], symbol: u64, number: u64, values: &[u64; 40], figure: Result<u64, u64>) {
    let quoted = quoted(table, symbol, number, values);
    assert_eq!(quoted.map(|quoted| quoted.figure), figure);
}

fn values_of(pairs: &[(usize, u64)]) -> [u64; 40] {
    let mut values = [0; 40];
    for &(at, value) in pairs {
        values[at] = value;
    }
    values
}

/// Document 02's chain: the cards are fixed, the radio and the retries stay open.
#[test]
fn the_card_count_is_fixed() {
    let asks = choice(&[limited(x(), 2, 1), block(25)]);
    let cards = symbol_repeat(0, sequence(&[block(340), asks]), block(60));
    let retries = symbol_repeat(1, block(5_000), block(100));
    let table = sequence(&[block(1_200), cards, retries]);
    let values = values_of(&[(0, 7), (1, 3), (16, 90_000)]);
    figures(&table, 0, 40, &values, Ok(210_910));
    figures(&table, 0, 0, &values, Ok(1_200 + 60 + 15_100));
    figures(
        &table,
        1,
        3,
        &values_of(&[(0, 40), (16, 90_000)]),
        Ok(210_910),
    );
    figures(
        &table,
        16,
        90_000,
        &values_of(&[(0, 40), (1, 3)]),
        Ok(210_910),
    );
    figures(
        &table,
        2,
        40,
        &values_of(&[(0, 40), (1, 3), (16, 90_000)]),
        Ok(210_910),
    );
}

#[test]
fn the_branch_is_the_open_tables() {
    let table = choice(&[block(4), x(), symbol_repeat(3, block(2), block(0)), y()]);
    let values = values_of(&[(17, 20), (3, 1)]);
    let branches = |symbol, number, figure, branch| {
        let answer = quoted(&table, symbol, number, &values);
        assert_eq!(answer, Ok(Quoted { figure, branch }));
    };
    branches(16, 21, 21, 1);
    branches(16, 20, 20, 1);
    branches(16, 19, 20, 3);
    branches(3, 9, 20, 3);
    branches(3, 10, 20, 2);
    branches(3, 11, 22, 2);
    branches(17, 4, 4, 0);
    branches(17, 5, 5, 3);
}

#[test]
fn limits_are_filled_and_count() {
    let body = choice(&[symbol_limited(block(10), 3, 1), block(4)]);
    let table = repeat(5, body, block(0));
    for (number, figure) in [(0, 20), (1, 26), (4, 44), (5, 50), (MILLION, 50)] {
        figures(&table, 3, number, &values_of(&[(3, 2)]), Ok(figure));
    }
    let table = symbol_repeat(3, symbol_limited(block(10), 3, 255), block(1));
    for (number, figure) in [(0, 1), (1, 11), (1_000, 10_001), (MILLION, 10_000_001)] {
        figures(&table, 3, number, &values_of(&[(3, 2)]), Ok(figure));
    }
}

/// All questions about the values are put to the filled table as to the open one, whichever fails.
#[test]
fn refusals_are_the_open_tables() {
    let triangular = triangular_limited(block(7), 4, 255);
    let table = sequence(&[
        symbol_repeat(3, x(), block(0)),
        triangular,
        symbol_block(24),
    ]);
    let values = [(4, 5), (16, 10), (24, 30), (32, 20)];
    let with = |changed: (usize, u64)| values_of(&[&values[..], &[changed]].concat());
    figures(&table, 3, 9, &with((5, 0)), Ok(90 + 7 + 30));
    figures(&table, 3, 9, &with((5, MILLION + 1)), Err(9));
    figures(&table, 3, 9, &with((39, CEILING + 1)), Err(9));
    figures(&table, 3, 9, &with((4, 1_001)), Err(13));
    figures(&table, 3, 9, &with((32, 31)), Err(14));
    figures(&table, 3, 9, &with((33, 1)), Err(14));
    figures(&table, 3, 9, &with((16, CEILING)), Err(10));
    figures(&table, 3, 1, &with((16, CEILING)), Err(10));
    figures(&table, 3, 0, &with((16, CEILING)), Ok(37));
    figures(&table, 16, CEILING, &with((3, 1)), Err(10));
    figures(&table, 16, CEILING, &with((3, 0)), Ok(37));
    figures(&table, 16, CEILING - 37, &with((3, 1)), Ok(CEILING));
    figures(&table, 16, CEILING - 36, &with((3, 1)), Err(10));
    // Two of them at once.
    let mut values = with((4, 1_001));
    values[33] = 1;
    figures(&table, 3, 9, &values, Err(13));
    values[5] = MILLION + 1;
    figures(&table, 3, 9, &values, Err(9));
}

/// A filled table is asked for the value of its symbol, as for all others, though nothing uses it.
#[test]
fn the_symbols_own_value_is_still_asked() {
    let filled = fill(&x(), 16, 7).expect("a small table").table;
    let past = values_of(&[(16, CEILING + 1)]);
    assert_eq!(quotes::agreed(&filled, &past), Err(9));
    assert_eq!(quotes::agreed(&x(), &past), Err(9));
}

/// With the symbol set to the number, an opened table is quoted like the lent one.
#[test]
fn an_opened_table_is_quoted_alike() {
    let table = repeat(5, choice(&[limited(block(5), 5, 1), y()]), block(5));
    let values = |symbol, other| {
        let mut values = values_of(&[(17, other)]);
        values[symbol] = 5;
        values
    };
    for (symbol, marks) in [
        (3, marks(&[1])),
        (3, marks(&[1 + 32])),
        (16, marks(&[16])),
        (16, marks(&[16, 1])),
    ] {
        let opened = open(&table, &marks, symbol, 5).expect("marks that stand");
        for other in [0, 4, 5, 6, CEILING] {
            let values = values(symbol as usize, other);
            let quoted = quotes::agreed(&table, &values);
            assert_eq!(quotes::agreed(&opened, &values), quoted);
        }
    }
}
