//! `vf_convert` and the second converter on former tables, which have records of 16 bytes: what is
//! written, which lengths and buffers are refused, and that a former table that was accepted is no table
//! now, while the one it becomes has its tree and, where each later value equals its first, its answers,
//! unless its paired symbols weigh too much. The seeds are fixed: every run makes the same tables.

use volefleece::raw::{self, Checked, Converted};
use volefleece_tests::compare::{lend, lend_out, shown, Comparison};
use volefleece_tests::converter::converted;
use volefleece_tests::damage;
use volefleece_tests::evaluator::{self, Evaluated};
use volefleece_tests::faults;
use volefleece_tests::noise;
use volefleece_tests::quotes;
use volefleece_tests::reader;
use volefleece_tests::rng::Rng;
use volefleece_tests::tables::{addressed, block, sequence};
use volefleece_tests::trees::{self, Amounts, Tree};

/// Room for any table.
const ROOM: usize = 12_288;

/// The table that the library wrote, or its refusal, on a buffer of so many bytes.
fn convert(rng: &mut Rng, old: &[u8], room: usize) -> Result<Vec<u8>, u64> {
    let (shift, filler) = (rng.index(16), rng.pick(&[0, 1, 255]));
    let length = |answer: &Converted| answer.length;
    let (answer, bytes) = lend_out(rng, room, length, |out| {
        lend(old, shift, filler, |old| raw::convert(old, out))
    });
    match answer {
        Converted { refused: 0, .. } => Ok(bytes),
        Converted { refused, length: 0 } => Err(refused),
        Converted { .. } => panic!("a refusal with a length: {answer:?}"),
    }
}

/// What both converters answer.
#[track_caller]
fn agreed(rng: &mut Rng, old: &[u8], room: usize) -> Result<Vec<u8>, u64> {
    let second = match converted(old) {
        None => Err(1),
        Some(table) if room < table.len() => Err(8),
        Some(table) => Ok(table),
    };
    let answer = convert(rng, old, room);
    assert!(answer == second, "{} bytes, room {room}", old.len());
    answer
}

fn random_bytes(rng: &mut Rng, length: usize) -> Vec<u8> {
    (0..length).map(|_| rng.byte()).collect()
}

// What is written.

#[test]
fn each_record_gets_address_0() {
    let old = [
        [1, 2, 3, 4, 5, 6, 7, 8, 9, 10, 11, 12, 13, 14, 15, 16],
        [2, 0, 2, 255, 9, 0, 0, 0, 0, 0, 0, 0, 0, 0, 0, 0],
        [255; 16],
    ];
    let new = [
        [
            1, 2, 3, 4, 5, 6, 7, 8, 9, 10, 11, 12, 13, 14, 15, 16, 0, 0, 0, 0, 255, 255, 255, 255,
        ],
        [
            2, 0, 2, 255, 9, 0, 0, 0, 0, 0, 0, 0, 0, 0, 0, 0, 0, 0, 0, 0, 255, 255, 255, 255,
        ],
        [
            255, 255, 255, 255, 255, 255, 255, 255, 255, 255, 255, 255, 255, 255, 255, 255, 0, 0,
            0, 0, 255, 255, 255, 255,
        ],
    ];
    let mut rng = Rng::new(0);
    for records in 1..=3 {
        let (old, new) = (old[..records].concat(), new[..records].concat());
        assert_eq!(agreed(&mut rng, &old, new.len()), Ok(new.clone()));
        assert_eq!(agreed(&mut rng, &old, ROOM), Ok(new));
    }
}

#[test]
fn bytes_of_a_right_length_pass_through() {
    let mut rng = Rng::new(701);
    for records in 1..=512 {
        for _ in 0..4 {
            let old = random_bytes(&mut rng, 16 * records);
            let new = agreed(&mut rng, &old, ROOM).expect("a right length");
            assert_eq!(new.len(), 24 * records);
            let fields = new.chunks(24).flat_map(|record| &record[..16]);
            assert!(fields.eq(&old));
        }
    }
}

// Lengths and buffers.

#[test]
fn lengths_at_every_end() {
    let mut rng = Rng::new(702);
    for (length, written) in [
        (0, Err(1)),
        (1, Err(1)),
        (15, Err(1)),
        (16, Ok(24)),
        (17, Err(1)),
        (24, Err(1)),
        (32, Ok(48)),
        (48, Ok(72)),
        (8_176, Ok(12_264)),
        (8_191, Err(1)),
        (8_192, Ok(12_288)),
        (8_193, Err(1)),
        (8_208, Err(1)),
        (12_288, Err(1)),
        // The low 16 bits of these alone would be in range.
        (65_536 + 16, Err(1)),
        (65_536 + 8_192, Err(1)),
    ] {
        for old in [vec![0; length], random_bytes(&mut rng, length)] {
            let answer = agreed(&mut rng, &old, ROOM);
            assert_eq!(answer.map(|new| new.len()), written, "{length}");
        }
    }
}

#[test]
fn every_length() {
    let mut rng = Rng::new(703);
    let old = random_bytes(&mut rng, 8_300);
    let mut written = 0;
    for length in 0..=8_300 {
        written += usize::from(agreed(&mut rng, &old[..length], ROOM).is_ok());
    }
    assert_eq!(written, 512);
}

#[test]
fn buffers_that_are_too_short_are_refused_8() {
    let mut rng = Rng::new(704);
    for records in (1..=40).chain([341, 342, 511, 512]) {
        let old = random_bytes(&mut rng, 16 * records);
        let length = 24 * records;
        for room in [0, 1, 16 * records, length - 8, length - 1] {
            assert_eq!(agreed(&mut rng, &old, room), Err(8));
        }
        for room in [length, length + 1, length + 24, ROOM + 100] {
            assert!(agreed(&mut rng, &old, room).is_ok());
        }
    }
    // The length is asked first.
    for length in [0, 15, 17, 8_208] {
        assert_eq!(agreed(&mut rng, &vec![0; length], 0), Err(1));
    }
}

// Former tables and their answers.

/// A tree of so many records that was accepted, and what its limits and paired symbols weigh together now,
/// which may be too much.
fn former_tree(rng: &mut Rng, records: usize) -> (Tree, u64) {
    let mut tree = trees::without_limits(rng, records);
    let wanted = rng.pick(&[0, 3, 30, 250, 255]);
    let of_limits = trees::put_limits(rng, &mut tree, wanted);
    let wanted = match rng.index(4) {
        0 => 0,
        1 => 255 - of_limits,
        2 => 256 - of_limits,
        _ => rng.within(0..=2_000),
    };
    let of_pairs = trees::put_pairs(rng, &mut tree, wanted);
    (tree, of_limits + of_pairs)
}

/// Mostly small, at times of a few hundred records.
fn records(rng: &mut Rng) -> usize {
    let most = rng.pick(&[3, 6, 15, 40, 100, 512]);
    rng.size(1..=most)
}

/// A table that was accepted is refused by its length, or by the bytes that stand where those behind an
/// address do now: they are a former limit, and no limit is 255 four times.
fn assert_no_table(comparison: &mut Comparison, old: &[u8]) {
    let is_whole = old.len().is_multiple_of(24);
    comparison.expect(old, Checked::refuse(if is_whole { 2 } else { 1 }));
}

#[test]
fn no_former_table_passes() {
    let mut rng = Rng::new(705);
    let mut comparison = Comparison::new(705);
    for round in 0..40_000 {
        let records = records(&mut rng);
        let mut tree = match round % 2 {
            0 => former_tree(&mut rng, records).0,
            _ => trees::redundant(&mut rng, records),
        };
        // Large limits, where a limit stands.
        if rng.once_in(2) {
            Amounts::MIDDLING.set(&mut rng, &mut tree);
        }
        let old = tree.encode_former();
        assert_eq!(reader::check_former(&old), Ok(tree.unaddressed()));
        assert_no_table(&mut comparison, &old);
        // Nor is a table a former one.
        assert!(reader::check_former(&tree.encode()).is_err());
    }
    comparison.assert_reached(&[(1, 10_000), (2, 10_000)]);
}

/// A table of two records that are three former ones as question 2 wants them. The second of these is a
/// block with a limit in the run, which is 255 four times, and no limit may be.
#[test]
fn what_stands_behind_an_address_was_no_limit() {
    let table = addressed(sequence(&[block(0)]), 255 << 24);
    Comparison::new(0).expect(&table, Checked::accept(2));
    assert_eq!(table[16..24], [0, 0, 0, 255, 255, 255, 255, 255]);
    assert_eq!(reader::check_former(&table), Err(3));
}

#[test]
fn accepted_tables_stay_accepted_with_their_tree_unless_they_weigh_too_much() {
    let mut rng = Rng::new(706);
    let mut comparison = Comparison::new(706);
    let (mut full, mut over_by_1) = (0, 0);
    for round in 0..40_000 {
        let records = records(&mut rng);
        let (tree, weight) = match round % 2 {
            0 => former_tree(&mut rng, records),
            _ => (trees::redundant(&mut rng, records), 0),
        };
        let old = tree.encode_former();
        assert_eq!(reader::check_former(&old), Ok(tree.unaddressed()));
        let new = agreed(&mut rng, &old, ROOM).expect("a right length");
        assert!(new == tree.unaddressed().encode(), "{}", shown(&new));
        full += u64::from(weight == 255);
        over_by_1 += u64::from(weight == 256);
        if weight > 255 {
            comparison.expect(&new, Checked::refuse(7));
        } else {
            comparison.expect(&new, Checked::accept(records));
            assert_eq!(reader::check(&new), Ok(tree.unaddressed()));
        }
    }
    comparison.assert_paired(10_000, 1_500);
    assert!(full > 500 && over_by_1 > 500, "{full}, {over_by_1}");
}

#[test]
fn figures_branches_and_lists_are_the_former_ones() {
    let mut rng = Rng::new(707);
    let mut answers = [0; 15];
    // The figures of tables with paired symbols, and those of them that lower later values lower.
    let (mut paired, mut lower) = (0, 0);
    for round in 0..60_000 {
        let amounts = [Amounts::SMALL, Amounts::MIDDLING][round % 2];
        let records = records(&mut rng).min(100);
        let (mut tree, weight) = former_tree(&mut rng, records);
        amounts.set(&mut rng, &mut tree);
        let mut values = amounts.values(&mut rng);
        trees::put_about_1000(&mut rng, &mut values);
        let laters = values.split_off(32);
        match rng.index(30) {
            0 => values[rng.index(16)] = 1_000_001,
            1 => values.truncate(31),
            _ => {}
        }

        let old = tree.encode_former();
        let root = reader::check_former(&old).expect("a tree that was accepted");
        let root = evaluator::evaluate_former(&root, &values);
        let new = agreed(&mut rng, &old, ROOM).expect("a right length");
        let quoted = root
            .as_ref()
            .map(Evaluated::quoted)
            .map_err(|&number| number);
        let list = root.map(|root| root.list.into_pairs());
        let equal_laters = [&values[..], &values[24..]].concat();
        let figure = quotes::figure(&mut rng, &new, &equal_laters);
        let pairs = quotes::list(&mut rng, &new, &equal_laters, 512);
        answers[figure.err().unwrap_or(0) as usize] += 1;
        if weight > 255 {
            assert_eq!((figure, pairs), (Err(7), Err(7)));
            continue;
        }
        assert_eq!((figure, pairs), (quoted, list), "{}", shown(&new));
        // With lower later values the figure is no higher.
        if let Ok(former) = quoted {
            let values = [&values[..], &laters].concat();
            let figure = quotes::figure(&mut rng, &new, &values);
            let figure = figure.expect("none of the values is higher").figure;
            assert!(figure <= former.figure, "{}", shown(&new));
            paired += u64::from(tree.pairs() > 0);
            lower += u64::from(figure < former.figure);
        }
    }
    let reached = [0, 7, 9, 10, 13].map(|answer| answers[answer]);
    assert!(reached.iter().all(|&times| times > 500), "{answers:?}");
    assert!(paired > 3_000 && lower > 1_000, "{paired}, {lower}");
}

/// The former table of these records: what stands before their addresses.
fn former(table: &[u8]) -> Vec<u8> {
    let records = table.chunks_exact(24);
    records.flat_map(|record| &record[..16]).copied().collect()
}

/// Or 7, by the paired symbols.
#[test]
fn refusals_are_the_former_ones() {
    let mut rng = Rng::new(708);
    let mut comparison = Comparison::new(708);
    let mut too_heavy = 0;
    for round in 0..40_000 {
        let old = match round % 3 {
            0 => {
                let faults: Vec<u64> = (2..=7).filter(|_| rng.once_in(4)).collect();
                let tree = faults::tree(&mut rng, &faults);
                former(&faults::table(&mut rng, &tree, &faults))
            }
            1 => former(&rng.pick(&noise::KINDS)(&mut rng)),
            _ => {
                let records = records(&mut rng);
                let mut old = former_tree(&mut rng, records).0.encode_former();
                let bits = rng.size(1..=2);
                damage::flip_bits(&mut rng, &mut old, bits);
                old
            }
        };
        let expected = match reader::check_former(&old) {
            Ok(tree) if reader::check_tree(&tree) == Err(7) => {
                too_heavy += 1;
                Checked::refuse(7)
            }
            Ok(tree) => Checked::accept(tree.records()),
            Err(question) => Checked::refuse(question),
        };
        match agreed(&mut rng, &old, ROOM) {
            Ok(new) => comparison.expect(&new, expected),
            Err(question) => assert_eq!(expected, Checked::refuse(question)),
        }
    }
    comparison.assert_reached(&[0, 2, 3, 4, 5, 6, 7].map(|answer| (answer, 300)));
    assert!(too_heavy > 300, "{too_heavy}");
}
