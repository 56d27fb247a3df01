//! `vf_fill` and `vf_open` on random tables, symbols, numbers, marks and buffers, byte for byte against the
//! second filler and opener and, where an answer is known by construction, against that. Whatever is filled
//! is opened again. Each test asserts that it has reached what it is for. The seeds are fixed: every run
//! makes the same tables.

use volefleece_tests::compare::{has_flag_4, has_pair, shown};
use volefleece_tests::damage;
use volefleece_tests::faults;
use volefleece_tests::fills::Fills;
use volefleece_tests::noise;
use volefleece_tests::quotes;
use volefleece_tests::rng::Rng;
use volefleece_tests::simplifications;
use volefleece_tests::trees::{self, Amounts, Tree};

const MILLION: u64 = 1_000_000;
const CEILING: u64 = 1_000_000_000_000;
const NO_MARKS: [u8; 128] = [0; 128];

fn start(seed: u64) -> (Rng, Fills) {
    (Rng::new(seed), Fills::new(seed))
}

/// A tree that is accepted, of any sort. Half of them are without flag 4, which shuts a symbol out.
fn tree(rng: &mut Rng) -> Tree {
    let mut tree = trees::of_any_sort(rng);
    if rng.once_in(2) {
        trees::drop_triangles(&mut tree);
    }
    tree
}

fn ceiling(symbol: u64) -> u64 {
    if symbol < 16 {
        MILLION
    } else {
        CEILING
    }
}

/// A number that may stand for the symbol: a small one, so that some plain field has it, an end or any.
fn number(rng: &mut Rng, symbol: u64) -> u64 {
    match rng.index(8) {
        0 => 0,
        1 => ceiling(symbol),
        2 => rng.within(0..=ceiling(symbol)),
        3 => rng.within(0..=31),
        _ => rng.within(0..=4),
    }
}

// Fields, by their places: twice the record, and one more for its limit.

/// What a mark stands on, at a place.
#[derive(Clone, Copy, Debug, PartialEq, Eq)]
enum Under {
    /// A plain field of the number in which the symbol is allowed.
    Field,
    /// A sequence or choice has no value, and not every node a limit.
    Nothing,
    Symbol,
    OtherNumber,
    /// The number, but in a field for the other symbols.
    OtherField,
}

fn under(table: &[u8], place: usize, symbol: u64, number: u64) -> Under {
    let record = &table[24 * (place / 2)..][..24];
    let (is_field, flag, bytes) = match place % 2 {
        0 => (matches!(record[0], 0 | 3), 1, &record[8..16]),
        _ => (record[3] != 0, 2, &record[4..8]),
    };
    let is_time = flag == 1 && record[0] == 0;
    let bytes = bytes.iter().rev();
    let held = bytes.fold(0, |held, &byte| held << 8 | u64::from(byte));
    if !is_field {
        Under::Nothing
    } else if record[1] & flag != 0 {
        Under::Symbol
    } else if held != number {
        Under::OtherNumber
    } else if is_time != (symbol >= 16) {
        Under::OtherField
    } else {
        Under::Field
    }
}

/// The places at which a mark would stand on that.
fn places(table: &[u8], symbol: u64, number: u64, wanted: Under) -> Vec<usize> {
    let all = 0..table.len() / 12;
    all.filter(|&place| under(table, place, symbol, number) == wanted)
        .collect()
}

/// The marks of these places.
fn marks(places: &[usize]) -> [u8; 128] {
    let mut marks = NO_MARKS;
    for place in places {
        marks[place / 8] |= 1 << (place % 8);
    }
    marks
}

/// Gives the number to some of the fields in which the symbol is allowed, and at times to others that may
/// have it.
fn put_number(rng: &mut Rng, table: &mut [u8], symbol: u64, number: u64) {
    let often = rng.pick(&[1, 2, 4, 10]);
    let anywhere = number <= MILLION && rng.once_in(2);
    for record in table.chunks_exact_mut(24) {
        let is_time = record[0] == 0;
        let has_value = matches!(record[0], 0 | 3) && (anywhere || is_time == (symbol >= 16));
        if has_value && rng.once_in(often) {
            record[1] &= !1;
            record[8..16].copy_from_slice(&number.to_le_bytes());
        }
        let has_limit = record[3] != 0 && (anywhere || symbol < 16);
        if has_limit && rng.once_in(often) {
            record[1] &= !6;
            record[4..8].copy_from_slice(&number.to_le_bytes()[..4]);
        }
    }
}

/// The table with the symbol at these places, byte by byte.
fn opened(table: &[u8], places: &[usize], symbol: u64) -> Vec<u8> {
    let mut table = table.to_vec();
    for place in places {
        let record = &mut table[24 * (place / 2)..][..24];
        if place % 2 == 0 {
            record[1] |= 1;
            record[8..16].copy_from_slice(&symbol.to_le_bytes());
        } else {
            record[1] |= 2;
            record[4..8].copy_from_slice(&symbol.to_le_bytes()[..4]);
        }
    }
    table
}

/// The table with the number in some of the fields in which the symbol is allowed, and the symbol in others.
fn with_symbol(rng: &mut Rng, table: &[u8], symbol: u64, number: u64) -> Vec<u8> {
    let mut table = table.to_vec();
    put_number(rng, &mut table, symbol, number);
    let standing = places(&table, symbol, number, Under::Field);
    opened(&table, &some(rng, standing), symbol)
}

/// Some of these, in their order.
fn some(rng: &mut Rng, places: Vec<usize>) -> Vec<usize> {
    let often = rng.pick(&[1, 2, 5, 1_000]);
    let places = places.into_iter();
    places.filter(|_| rng.once_in(often)).collect()
}

// Filling.

#[test]
fn every_symbol_of_tables_of_any_sort() {
    let (mut rng, mut fills) = start(601);
    let mut reached = Reached::default();
    for _ in 0..2_500 {
        let lent = tree(&mut rng).encode();
        for symbol in 0..=32 {
            let number = number(&mut rng, symbol);
            let table = match rng.index(3) {
                0 if symbol <= 23 => with_symbol(&mut rng, &lent, symbol, number),
                _ => lent.clone(),
            };
            let answer = fills.fill(&table, symbol, number);
            let is_refused = symbol > 23 || is_under_flag_4(&table, symbol);
            assert_eq!(answer.as_ref().err(), is_refused.then_some(&15));
            if let Ok(filled) = answer {
                reached.count(&table, &filled.marks, symbol, number);
            }
        }
    }
    // Nine of the symbols are refused with every table, and others under flag 4.
    fills.assert_filled(&[(0, 50_000), (15, 9 * 2_500 + 1_000)]);
    fills.assert_filled_marks(5_000);
    reached.assert_all(300);
}

/// Where the marks of filled tables stood.
#[derive(Debug, Default)]
struct Reached {
    /// The times, the bounds, and the limits on blocks, sequences, choices and loops.
    fields: [u64; 6],
    /// The marks by the two bits of each of the four records in a byte.
    bits: [u64; 8],
    /// Those of a loop's bound and limit together.
    both: u64,
    /// Those at an address other than 0.
    addresses: u64,
    /// Those of the last four records of a table of 512.
    last: [u64; 4],
    /// The tables in which each symbol had a mark.
    symbols: [u64; 24],
    /// Tables with a mark, and flag 4 or a paired symbol elsewhere.
    triangular: u64,
    paired: u64,
    /// Tables with a mark, and a plain field of the number beside it that may have the symbol.
    plain: u64,
}

impl Reached {
    fn count(&mut self, table: &[u8], marks: &[u8; 128], symbol: u64, number: u64) {
        let is_marked = |place: usize| marks[place / 8] >> (place % 8) & 1 == 1;
        let marked: Vec<usize> = (0..1_024).filter(|&place| is_marked(place)).collect();
        if marked.is_empty() {
            return;
        }
        for &place in &marked {
            let record = place / 2;
            let kind = usize::from(table[24 * record]);
            let field = match (place % 2, kind) {
                (0, 0) => 0,
                (0, _) => 1,
                _ => 2 + kind,
            };
            self.fields[field] += 1;
            self.bits[place % 8] += 1;
            self.both += u64::from(place % 2 == 0 && is_marked(place + 1));
            self.addresses += u64::from(table[24 * record + 16..][..4] != [0; 4]);
            if table.len() == 12_288 && record >= 508 {
                self.last[record - 508] += 1;
            }
        }
        self.symbols[symbol as usize] += 1;
        self.triangular += u64::from(has_flag_4(table));
        self.paired += u64::from(has_pair(table));
        let plain = places(table, symbol, number, Under::Field);
        self.plain += u64::from(!plain.is_empty());
    }

    fn assert_all(&self, times: u64) {
        let counts = [
            &self.fields[..],
            &self.bits,
            &[
                self.both,
                self.addresses,
                self.triangular,
                self.paired,
                self.plain,
            ],
            &self.symbols,
        ];
        let counts = counts.concat();
        assert!(counts.iter().all(|&count| count >= times), "{self:?}");
        assert!(self.last.iter().all(|&count| count > 0), "{self:?}");
    }
}

#[test]
fn symbols_and_numbers_are_read_whole() {
    let (mut rng, mut fills) = start(602);
    // By symbol and number: neither is refused, one of them is, both are.
    let mut refused = [[0; 2]; 2];
    for _ in 0..30_000 {
        let mut tree = tree(&mut rng);
        trees::drop_triangles(&mut tree);
        let table = tree.encode();
        let base = rng.within(0..=23);
        let symbol = match rng.index(6) {
            // With some of the bytes alone these would be the table's.
            0 => base + (1 << rng.within(5..=63)),
            1 => base << (8 * rng.within(1..=7)),
            2 => rng.pick(&[23, 24, 31, 32, 39, 40, 255, 256, u64::MAX, u64::MAX - 15]),
            _ => base,
        };
        let most = ceiling(symbol);
        let number = match rng.index(6) {
            0 => rng.within(0..=9) + (1 << rng.within(20..=63)),
            1 => rng.number(),
            2 => most + 1,
            3 => most,
            _ => rng.within(0..=most),
        };
        let faults = [symbol > 23, number > most];
        let expected = faults.contains(&true).then_some(15);
        let filled = fills.fill(&table, symbol, number);
        assert_eq!(filled.err(), expected, "{symbol} {number}");
        let answer = fills.open(&table, &NO_MARKS, symbol, number);
        assert_eq!(answer, expected.map_or(Ok(table), Err), "{symbol} {number}");
        refused[usize::from(faults[0])][usize::from(faults[1])] += 1;
    }
    let mut counts = refused.iter().flatten();
    assert!(counts.all(|&count| count > 3_000), "{refused:?}");
}

#[test]
fn two_symbols_in_either_order() {
    let (mut rng, mut fills) = start(603);
    let mut marked = 0;
    for _ in 0..10_000 {
        let table = tree(&mut rng).encode();
        let symbols = [rng.within(0..=23), rng.within(0..=23)];
        let numbers = symbols.map(|symbol| number(&mut rng, symbol));
        if symbols[0] == symbols[1] {
            continue;
        }
        let mut both = |first: usize| {
            let second = 1 - first;
            let once = fills.fill(&table, symbols[first], numbers[first])?;
            let twice = fills.fill(&once.table, symbols[second], numbers[second])?;
            Ok((twice.table, [once.marks, twice.marks]))
        };
        let [one_way, other_way] = [0, 1].map(&mut both);
        let Ok((filled, marks)) = one_way else {
            assert_eq!(other_way, Err::<_, u64>(15));
            continue;
        };
        assert_eq!(other_way, Ok((filled.clone(), [marks[1], marks[0]])));
        marked += u64::from(!marks.contains(&NO_MARKS));
        // The first that was filled may be the first that is opened.
        for order in [[0, 1], [1, 0]] {
            let restored = order.into_iter().try_fold(filled.clone(), |table, at| {
                fills.open(&table, &marks[at], symbols[at], numbers[at])
            });
            assert_eq!(restored, Ok(table.clone()));
        }
    }
    fills.assert_filled(&[(0, 20_000), (15, 500)]);
    fills.assert_opened_marks(2_000);
    assert!(marked > 500, "{marked}");
}

// Opening.

#[test]
fn fields_that_may_be_opened() {
    let (mut rng, mut fills) = start(604);
    let (mut again, mut figures) = (0, 0);
    for _ in 0..40_000 {
        let symbol = rng.within(0..=23);
        let number = number(&mut rng, symbol);
        let mut table = tree(&mut rng).encode();
        put_number(&mut rng, &mut table, symbol, number);
        let standing = places(&table, symbol, number, Under::Field);
        let marked = some(&mut rng, standing);
        let marks = marks(&marked);
        let answer = fills.open(&table, &marks, symbol, number);
        if answer == Err(15) {
            assert!(is_under_flag_4(&table, symbol), "{}", shown(&table));
            continue;
        }
        let open = opened(&table, &marked, symbol);
        assert_eq!(answer.as_ref(), Ok(&open));
        // Where the table did not use the symbol, filling writes it again, and these marks.
        if places_of(&table, symbol) == 0 {
            let filled = fills.fill(&open, symbol, number).expect("the same symbol");
            assert_eq!((filled.table, filled.marks), (table.clone(), marks));
            again += u64::from(!marked.is_empty());
        }
        let mut values = Amounts::SMALL.values(&mut rng);
        values[symbol as usize] = number;
        let quoted = quotes::figure(&mut rng, &open, &values);
        assert_eq!(quoted, quotes::figure(&mut rng, &table, &values));
        figures += u64::from(quoted.is_ok() && !marked.is_empty());
    }
    fills.assert_opened(&[(0, 25_000), (15, 500)]);
    fills.assert_opened_marks(3_000);
    assert!(again > 5_000 && figures > 5_000, "{again}, {figures}");
}

/// Is the symbol a limit's under flag 4?
fn is_under_flag_4(table: &[u8], symbol: u64) -> bool {
    let mut records = table.chunks_exact(24);
    records.any(|record| record[1] & 4 != 0 && u64::from(record[4]) == symbol)
}

/// How many fields have the symbol.
fn places_of(table: &[u8], symbol: u64) -> usize {
    let records = table.chunks_exact(24);
    let fields =
        records.flat_map(|record| [(record[1] & 1, record[8]), (record[1] & 2, record[4])]);
    fields
        .filter(|&(flag, byte)| flag != 0 && u64::from(byte) == symbol)
        .count()
}

/// How marks are damaged.
#[derive(Clone, Copy, Debug)]
enum Damage {
    Length,
    PastTheLast,
    On(Under),
}

const DAMAGES: [Damage; 6] = [
    Damage::Length,
    Damage::PastTheLast,
    Damage::On(Under::Nothing),
    Damage::On(Under::Symbol),
    Damage::On(Under::OtherNumber),
    Damage::On(Under::OtherField),
];

#[test]
fn one_mark_that_does_not_stand() {
    let (mut rng, mut fills) = start(605);
    // With no mark that stands beside it, and with some.
    let mut reached = [[0; 2]; DAMAGES.len()];
    for round in 0..60_000 {
        let at = round % DAMAGES.len();
        let symbol = rng.within(0..=23);
        let mut number = number(&mut rng, symbol);
        let mut tree = tree(&mut rng);
        trees::drop_triangles(&mut tree);
        let mut table = tree.encode();
        if matches!(DAMAGES[at], Damage::On(Under::Symbol)) && rng.once_in(2) {
            // The bytes of such a field may be the number's.
            number = rng.within(0..=31);
        }
        put_number(&mut rng, &mut table, symbol, number);
        let standing = places(&table, symbol, number, Under::Field);
        let mut marked = some(&mut rng, standing);
        let beside = usize::from(!marked.is_empty());
        let mut bytes = marks(&marked).to_vec();
        match DAMAGES[at] {
            Damage::Length => {
                let any = rng.size(0..=300);
                let length = rng.pick(&[0, 1, 127, 129, 256, any]);
                bytes.resize(length, 0);
                if length == 128 {
                    continue;
                }
            }
            Damage::PastTheLast if table.len() == 12_288 => continue,
            Damage::PastTheLast => {
                let first = table.len() / 12;
                let most = rng.pick(&[first, first + 1, first | 7, 1_023]);
                marked.push(rng.size(first..=most));
                bytes = marks(&marked).to_vec();
            }
            Damage::On(wanted) => {
                let places = places(&table, symbol, number, wanted);
                if places.is_empty() {
                    continue;
                }
                marked.push(rng.pick(&places));
                bytes = marks(&marked).to_vec();
            }
        }
        assert_eq!(fills.open(&table, &bytes, symbol, number), Err(16));
        reached[at][beside] += 1;
    }
    let mut counts = reached.iter().flatten();
    assert!(counts.all(|&count| count > 1_000), "{reached:?}");
}

#[test]
fn marks_with_some_bits_flipped() {
    let (mut rng, mut fills) = start(606);
    for _ in 0..25_000 {
        let symbol = rng.within(0..=23);
        let number = number(&mut rng, symbol);
        let table = tree(&mut rng).encode();
        let table = with_symbol(&mut rng, &table, symbol, number);
        let Ok(filled) = fills.fill(&table, symbol, number) else {
            continue;
        };
        let mut marks = filled.marks;
        // Bits of the records that there are, as a rule.
        let bytes = (table.len() / 96).max(1);
        let bits = rng.pick(&[0, 1, 1, 1, 2, 5]);
        match rng.index(8) {
            0 => damage::flip_bits(&mut rng, &mut marks, bits),
            1 => marks.fill_with(|| rng.byte()),
            _ => damage::flip_bits(&mut rng, &mut marks[..bytes], bits),
        }
        // Or with another symbol or number, which they may not stand for.
        let (symbol, number) = match rng.index(4) {
            0 => (rng.within(0..=23), number),
            1 => (symbol, number ^ (1 << rng.index(19))),
            _ => (symbol, number),
        };
        drop(fills.open(&filled.table, &marks, symbol, number));
    }
    fills.assert_opened(&[(0, 3_000), (15, 500), (16, 10_000)]);
    fills.assert_opened_marks(500);
}

// Buffers, and the order of the questions.

#[test]
fn buffers_of_every_length() {
    let (mut rng, mut fills) = start(607);
    // By what is too short: nothing, the table's buffer, that of the marks, both.
    let mut reached = [0; 4];
    for _ in 0..30_000 {
        let mut tree = tree(&mut rng);
        trees::drop_triangles(&mut tree);
        let symbol = rng.within(0..=23);
        let number = number(&mut rng, symbol);
        let table = with_symbol(&mut rng, &tree.encode(), symbol, number);
        let length = table.len();
        let room = match rng.index(3) {
            0 => rng.pick(&[0, 1, 24, length - 24, length - 1]),
            1 => rng.pick(&[length, length + 1, length + 24, 12_288]),
            _ => rng.size(0..=2 * length),
        };
        let marks_room = match rng.index(3) {
            0 => rng.pick(&[0, 1, 64, 126, 127]),
            1 => rng.pick(&[128, 129, 200, 1_024]),
            _ => rng.size(0..=256),
        };
        let is_short = [room < length, marks_room < 128];
        let answer = fills.fill_into(&table, symbol, number, [room, marks_room]);
        assert_eq!(answer.err(), is_short.contains(&true).then_some(8));
        let answer = fills.open_into(&table, &NO_MARKS, symbol, number, room);
        assert_eq!(answer.err(), is_short[0].then_some(8));
        reached[usize::from(is_short[0]) + 2 * usize::from(is_short[1])] += 1;
    }
    assert!(reached.iter().all(|&times| times > 3_000), "{reached:?}");
    fills.assert_filled_marks(1_000);
}

/// The questions in their order. The last is opening's alone.
const QUESTIONS: [u64; 10] = [1, 2, 3, 4, 5, 6, 7, 8, 15, 16];

#[test]
fn of_any_two_faults_the_first_answers() {
    let (mut rng, mut fills) = start(608);
    for first in QUESTIONS {
        for second in QUESTIONS.into_iter().filter(|&second| second > first) {
            for _ in 0..200 {
                expect_first(&mut rng, &mut fills, &[first, second]);
            }
        }
    }
    fills.assert_filled(&[1, 2, 3, 4, 5, 6, 7, 8, 15].map(|answer| (answer, 200)));
    fills.assert_opened(&[1, 2, 3, 4, 5, 6, 7, 8, 15].map(|answer| (answer, 200)));
}

#[test]
fn of_many_faults_the_first_answers() {
    let (mut rng, mut fills) = start(609);
    for _ in 0..30_000 {
        let often = rng.within(1..=20);
        let questions = QUESTIONS.into_iter();
        let faults: Vec<u64> = questions.filter(|_| rng.once_in(often)).collect();
        expect_first(&mut rng, &mut fills, &faults);
    }
    let answers = [0, 1, 2, 3, 4, 5, 6, 7, 8, 15];
    fills.assert_filled(&answers.map(|answer| (answer, 500)));
    fills.assert_opened(&answers.map(|answer| (answer, 500)));
    fills.assert_opened(&[(16, 500)]);
}

/// Makes both calls so that they fail these questions, and expects the number of the first.
fn expect_first(rng: &mut Rng, fills: &mut Fills, faults: &[u64]) {
    let mut tree = faults::tree(rng, faults);
    let symbol = rng.pick(&free_symbols(&tree));
    let (symbol, number) = if faults.contains(&15) {
        fail_symbol(rng, &mut tree, symbol)
    } else {
        (symbol, number(rng, symbol))
    };
    let table = faults::table(rng, &tree, faults);
    let length = table.len();
    let rooms = match rng.index(3) {
        _ if !faults.contains(&8) => [length + rng.pick(&[0, 1, 100]), 128 + rng.index(2)],
        0 => [length - 1, 128],
        1 => [length, rng.index(128)],
        _ => [length / 2, 127],
    };
    let marks = match rng.index(3) {
        _ if !faults.contains(&16) => NO_MARKS.to_vec(),
        0 => vec![0; rng.pick(&[0, 127, 129, 256])],
        1 => marks(&[rng.size(1_000..=1_023)]).to_vec(),
        // The root is a sequence.
        _ => marks(&[0]).to_vec(),
    };
    let answer = fills.fill_into(&table, symbol, number, rooms);
    let mut of_filling = faults.iter().filter(|&&question| question != 16);
    assert_eq!(answer.err().as_ref(), of_filling.next(), "{faults:?}");
    // What is 8 of the marks' buffer has no meaning to opening.
    let room = if faults.contains(&8) {
        length - 1
    } else {
        rooms[0]
    };
    let answer = fills.open_into(&table, &marks, symbol, number, room);
    assert_eq!(answer.err().as_ref(), faults.first(), "{faults:?}");
}

/// The symbols that question 15 lets pass.
fn free_symbols(tree: &Tree) -> Vec<u64> {
    let triangles = tree.triangles();
    let symbols = 0..=23;
    symbols
        .filter(|symbol| !triangles.contains(symbol))
        .collect()
}

/// A symbol and a number that question 15 refuses: one of them is out of range, or the symbol is used under
/// flag 4 in one of the root's children.
fn fail_symbol(rng: &mut Rng, tree: &mut Tree, symbol: u64) -> (u64, u64) {
    match rng.index(3) {
        0 => {
            let past = rng.pick(&[24, 31, 32, 256 + symbol, u64::MAX]);
            (past, rng.within(0..=9))
        }
        1 => {
            let most = ceiling(symbol);
            (symbol, rng.pick(&[most + 1, u64::MAX, most + (1 << 40)]))
        }
        _ => {
            let symbol = rng.within(0..=15);
            let place = rng.size(0..=tree.children.len());
            tree.children
                .insert(place, faults::triangular_block(symbol));
            (symbol, number(rng, symbol))
        }
    }
}

// Damaged tables and noise.

#[test]
fn damaged_tables() {
    let (mut rng, mut fills) = start(610);
    for _ in 0..40_000 {
        let mut table = tree(&mut rng).encode();
        damage::any(&mut rng, &mut table);
        fill_and_open(&mut rng, &mut fills, &table);
    }
    let answers = [
        (0, 3_000),
        (1, 3_000),
        (2, 3_000),
        (3, 500),
        (4, 3_000),
        (6, 500),
        (7, 50),
    ];
    fills.assert_filled(&answers);
    fills.assert_opened(&answers);
    fills.assert_filled_marks(500);
    fills.assert_opened(&[(15, 500), (16, 500)]);
}

/// Fills any bytes, and opens them by any marks, of the fields that there are or not.
fn fill_and_open(rng: &mut Rng, fills: &mut Fills, table: &[u8]) {
    let symbol = match rng.index(12) {
        0 => rng.pick(&[24, 31, 32, u64::MAX]),
        // Noise has these alone.
        1..=5 => rng.pick(&[0, 15, 16, 23]),
        _ => rng.within(0..=23),
    };
    let number = number(rng, symbol.min(23));
    drop(fills.fill(table, symbol, number));
    let whole = &table[..table.len().min(12_288) / 24 * 24];
    let standing = places(whole, symbol, number, Under::Field);
    let mut bytes = marks(&some(rng, standing));
    if rng.once_in(4) {
        damage::flip_bits(rng, &mut bytes, 1);
    }
    drop(fills.open(table, &bytes, symbol, number));
}

#[test]
fn noise_of_every_kind() {
    let (mut rng, mut fills) = start(611);
    for _ in 0..40_000 {
        let table = rng.pick(&noise::KINDS)(&mut rng);
        fill_and_open(&mut rng, &mut fills, &table);
    }
    let answers = [
        (0, 1_500),
        (1, 2_000),
        (2, 2_000),
        (4, 2_000),
        (5, 50),
        (6, 300),
    ];
    fills.assert_filled(&answers);
    fills.assert_opened(&answers);
    fills.assert_filled(&[(15, 500)]);
    fills.assert_filled_marks(50);
    fills.assert_opened(&[(15, 500), (16, 300)]);
}

// Figures and branches.

/// Holds filled tables against what is promised of their figures, branches and refusals, and counts what
/// it has met.
#[derive(Debug, Default)]
struct Promise {
    /// The figures of filled tables.
    figures: u64,
    /// Those that are higher and lower than with the symbol's own value, and those of another branch.
    higher: u64,
    lower: u64,
    moved: u64,
    /// Those that are refused 10 with the symbol's own value, and the refusals 10 that are not.
    again: u64,
    too_large: u64,
    /// Refusals 9, 13, 14 and 10.
    refused: [u64; 4],
    /// The figures of filled tables with flag 4, and with a paired symbol.
    triangular: u64,
    paired: u64,
}

impl Promise {
    /// The symbol's own value is any in range.
    fn compare(&mut self, rng: &mut Rng, lent: &Lent, filled: &[u8], values: &[u64]) {
        let mut set = values.to_vec();
        if let Some(value) = set.get_mut(lent.symbol as usize) {
            *value = lent.number;
        }
        let quoted = quotes::figure(rng, filled, values);
        let of_open = quotes::figure(rng, &lent.table, &set);
        assert_eq!(quoted, of_open, "{values:?} {}", shown(filled));
        match (quoted, quotes::figure(rng, &lent.table, values)) {
            (Ok(quoted), Ok(own)) => {
                self.higher += u64::from(quoted.figure > own.figure);
                self.lower += u64::from(quoted.figure < own.figure);
                self.moved += u64::from(quoted.branch != own.branch);
            }
            (Ok(_), own) => self.again += u64::from(own == Err(10)),
            (quoted, own) => self.too_large += u64::from(quoted == Err(10) && own.is_ok()),
        }
        if quoted.is_ok() {
            self.figures += 1;
            self.triangular += u64::from(has_flag_4(filled));
            self.paired += u64::from(has_pair(filled));
        }
        for (question, times) in [9, 13, 14, 10].into_iter().zip(&mut self.refused) {
            *times += u64::from(quoted == Err(question));
        }
    }

    fn assert_met(&self, times: u64) {
        let counts = [
            self.figures,
            self.higher,
            self.lower,
            self.moved,
            self.again,
            self.too_large,
            self.triangular,
            self.paired,
        ];
        let mut counts = counts.iter().chain(&self.refused);
        assert!(counts.all(|&met| met >= times), "{self:?}");
    }
}

/// What is filled.
struct Lent {
    table: Vec<u8>,
    symbol: u64,
    number: u64,
}

#[test]
fn figures_with_many_values() {
    let (mut rng, mut fills) = start(612);
    let mut promise = Promise::default();
    for round in 0..30_000 {
        let amounts = [Amounts::SMALL, Amounts::MIDDLING][round % 2];
        let records = rng.size(1..=40);
        let tree = trees::of_amounts(&mut rng, records, amounts);
        let symbol = match used_symbols(&tree) {
            symbols if !symbols.is_empty() && !rng.once_in(8) => rng.pick(&symbols),
            _ => rng.within(0..=23),
        };
        let own = amounts.values(&mut rng)[symbol as usize];
        let any = number(&mut rng, symbol);
        let lent = Lent {
            table: tree.encode(),
            symbol,
            number: rng.pick(&[own, own, any]),
        };
        let Ok(filled) = fills.fill(&lent.table, symbol, lent.number) else {
            continue;
        };
        for mut values in desks(&mut rng, amounts, symbol as usize) {
            let any = rng.within(0..=ceiling(symbol));
            let in_range = rng.pick(&[0, 1, lent.number, any, ceiling(symbol)]);
            if rng.once_in(2) && values.len() > symbol as usize {
                values[symbol as usize] = in_range;
            }
            promise.compare(&mut rng, &lent, &filled.table, &values);
        }
    }
    promise.assert_met(300);
    fills.assert_filled_marks(1_000);
}

/// The symbols that some field has, paired ones aside, and that no limit has under flag 4.
fn used_symbols(tree: &Tree) -> Vec<u64> {
    let table = tree.encode();
    let mut symbols = free_symbols(tree);
    symbols.retain(|&symbol| places_of(&table, symbol) > 0);
    symbols
}

/// Values of these amounts, counts about flag 4's ceiling, some values at theirs, one of them past it but
/// not the symbol's, and too few or too many.
fn desks(rng: &mut Rng, amounts: Amounts, symbol: usize) -> [Vec<u64>; 5] {
    let mut about_1000 = amounts.values(rng);
    trees::put_about_1000(rng, &mut about_1000);
    let mut high = amounts.values(rng);
    for _ in 0..rng.size(1..=6) {
        let at = rng.index(40);
        high[at] = ceiling(at as u64);
    }
    if !rng.once_in(8) {
        trees::lift_firsts(&mut high);
    }
    let mut past = high.clone();
    let at = (symbol + rng.size(1..=39)) % 40;
    past[at] = ceiling(at as u64) + 1;
    let mut others = amounts.values(rng);
    others.resize(rng.pick(&[0, 16, 24, 32, 39, 41, 48]), 0);
    [amounts.values(rng), about_1000, high, past, others]
}

/// Sales may simplify what it has filled.
#[test]
fn filled_tables_simplified() {
    let (mut rng, mut fills) = start(613);
    let (mut shorter, mut figures) = (0, 0);
    for _ in 0..8_000 {
        let records = rng.size(1..=30);
        let tree = trees::redundant(&mut rng, records);
        let symbols = used_symbols(&tree);
        if symbols.is_empty() {
            continue;
        }
        let symbol = rng.pick(&symbols);
        let number = rng.within(0..=9);
        let table = tree.encode();
        let filled = fills.fill(&table, symbol, number).expect("a free symbol");
        let mut simplified = |table: &[u8]| {
            let answer = simplifications::simplify(&mut rng, table, u64::MAX, table.len());
            answer.expect("small amounts").bytes
        };
        let [of_open, of_filled] = [&table, &filled.table].map(|table| simplified(table));
        shorter += u64::from(of_filled.len() < of_open.len());
        let mut values = Amounts::SMALL.values(&mut rng);
        let figure = |values: &[u64], table: &[u8]| {
            let quoted = quotes::agreed(table, values);
            quoted.expect("small amounts").figure
        };
        let of_filled = figure(&values, &of_filled);
        values[symbol as usize] = number;
        assert_eq!(of_filled, figure(&values, &table));
        figures += u64::from(of_filled > 0);
    }
    assert!(shorter > 1_000 && figures > 3_000, "{shorter}, {figures}");
}
