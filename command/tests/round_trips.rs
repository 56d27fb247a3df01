//! What is shown as text and made again is the same, byte for byte: hundreds of thousands of accepted tables, and of values.

use std::collections::BTreeSet;

use volefleece_command::counts::Counts;
use volefleece_command::names::{Named, Names};
use volefleece_command::{table, text};
use volefleece_tests::format::RECORD_BYTES;
use volefleece_tests::rng::Rng;
use volefleece_tests::trees;

/// Names of all sorts, of some symbols.
fn names(rng: &mut Rng) -> Names {
    let words = [
        "cards",
        "retries",
        "x",
        "Zähler",
        "カード",
        "a-b_c",
        "loops",
        "T0",
        "count",
    ];
    let mut names = Names::default();
    for symbol in 0..32 {
        if rng.once_in(2) {
            let name = format!("{}{symbol}", rng.pick(&words));
            names.add(Named::Symbol(symbol), &name).expect("a name");
        }
    }
    if rng.once_in(2) {
        let (child, name) = (rng.index(255), "the card reader, at the door");
        names.add(Named::Branch(child), name).expect("a name");
        names.add(Named::House, "Lakeside 4").expect("a name");
    }
    names
}

#[track_caller]
fn returns(table: &[u8], names: &Names) {
    let shown = text::tree::print(table, names);
    let mut read = Names::default();
    let parsed = text::tree::parse(&shown, &mut read);
    let parsed = parsed.unwrap_or_else(|problems| panic!("{problems:?}\n{shown}"));
    assert_eq!(parsed.table, table, "{shown}");
    // Only plain names may be lost, and those are the same again.
    assert_eq!(text::tree::print(&parsed.table, &read), shown);
    let node_lines = shown.lines().rev().take(parsed.lines.len()).count();
    assert_eq!(node_lines * RECORD_BYTES, table.len());
}

#[test]
fn trees_return() {
    let mut rng = Rng::new(1);
    let (mut tables, mut records, mut limited, mut triangular) = (0, 0, 0, 0);
    let mut addresses = BTreeSet::new();
    while tables < 200_000 {
        let most = rng.pick(&[3, 8, 8, 15, 30]);
        let size = rng.size(1..=most);
        let table = trees::within_limits(&mut rng, size).encode();
        assert_eq!(volefleece::check(&table), Ok(size));
        returns(&table, &names(&mut rng));
        tables += 1;
        records += size;
        let nodes = table::nodes(&table);
        limited += nodes.iter().filter(|node| node.limit.is_some()).count();
        let records = table.chunks(RECORD_BYTES);
        triangular += records.clone().filter(|record| record[1] & 4 != 0).count();
        addresses.extend(records.map(|record| record[16..20].to_vec()));
    }
    assert!(
        records > 1_000_000 && limited > 100_000 && triangular > 10_000,
        "{records} {limited} {triangular}"
    );
    assert!(addresses.len() > 50_000, "{}", addresses.len());
    let ends = [[0; 4], [255; 4]];
    assert!(ends.iter().all(|end| addresses.contains(&end[..])));
}

#[test]
fn large_trees_return() {
    let mut rng = Rng::new(2);
    for size in (200..=512).cycle().take(2_000) {
        let table = trees::within_limits(&mut rng, size).encode();
        returns(&table, &names(&mut rng));
    }
}

/// The record's bytes are those of what it is read as. Whether that is a node, which is exactly where question 2 accepts it.
#[track_caller]
fn is_node(record: &[u8; RECORD_BYTES]) -> bool {
    let fields = table::records(record)[0];
    assert_eq!(&fields.bytes(), record);
    let is_node = fields.node().is_some();
    let question = volefleece::check(record)
        .err()
        .map_or(0, |refusal| refusal.number());
    assert_eq!(is_node, question != 2, "{record:?}");
    is_node
}

/// Every record that question 2 accepts is the node's that it is read as, and no other is read as a node: over all kinds, flags, children
/// and loops that are near.
#[test]
fn nodes_are_what_question_2_accepts() {
    let near = [0, 1, 2, 3, 4, 5, 6, 7, 8, 9, 254, 255];
    let (mut read, mut refused) = (0, 0);
    for kind in near {
        for flags in near {
            for children in near {
                for names in near {
                    for (limit, value) in [(0, 0), (1, 0), (0, 1), (1, 1), (u8::MAX, u8::MAX)] {
                        let mut record = [0; RECORD_BYTES];
                        record[..5].copy_from_slice(&[kind, flags, children, names, limit]);
                        record[15] = value;
                        record[20..].fill(255);
                        let is_node = is_node(&record);
                        read += usize::from(is_node);
                        refused += usize::from(!is_node);
                    }
                }
            }
        }
    }
    assert!(read > 500 && refused > 50_000, "{read} {refused}");
}

/// The same over all that a record's last four bytes may each be; before them any address will do.
#[test]
fn nodes_have_last_bytes_of_255() {
    for byte in 16..RECORD_BYTES {
        for value in 0..=u8::MAX {
            let mut record = [0; RECORD_BYTES];
            record[20..].fill(255);
            record[byte] = value;
            assert_eq!(is_node(&record), byte < 20 || value == 255, "{record:?}");
        }
    }
}

/// A value for that place in a file, in range.
fn value(rng: &mut Rng, place: usize) -> u64 {
    let most = volefleece::ceiling(place);
    match rng.index(4) {
        0 => 0,
        1 => most,
        _ => rng.within(0..=most),
    }
}

/// Of every length: with later values for all pairs, for some of them, for none, and without some of the first ones.
#[test]
fn values_return() {
    let mut rng = Rng::new(3);
    let mut lengths = [0; 41];
    for _ in 0..100_000 {
        let given = rng.index(41);
        let values: Vec<u64> = (0..given).map(|place| value(&mut rng, place)).collect();
        let bytes: Vec<u8> = values
            .iter()
            .flat_map(|value| value.to_le_bytes())
            .collect();
        let shown = text::values::print(&Counts::from_bytes(&bytes), &names(&mut rng));
        let mut read = Names::default();
        let counts = text::values::parse(&shown, &mut read)
            .unwrap_or_else(|problems| panic!("{problems:?}\n{shown}"));
        assert_eq!(counts.bytes(), bytes, "{shown}");
        assert_eq!(text::values::print(&counts, &read), shown);
        lengths[given] += 1;
    }
    assert!(lengths.iter().all(|&times| times > 1_000), "{lengths:?}");
}

/// Values that a text leaves out count the most, as absent ones do, and later ones as their first, also where a file has to hold something
/// in their place.
#[test]
fn values_left_out_count_the_most() {
    let mut rng = Rng::new(4);
    let (mut written, mut absent) = (0, 0);
    for _ in 0..20_000 {
        let mut counts = Counts::default();
        let mut expected = [0; 40];
        let mut last = 0;
        for symbol in 0..32 {
            let given = rng.once_in(3).then(|| value(&mut rng, symbol));
            let paired = given.is_some() && symbol >= 24 && rng.once_in(2);
            let later = paired.then(|| value(&mut rng, symbol + 8));
            expected[symbol] = given.unwrap_or(if symbol < 16 {
                1_000_000
            } else {
                1_000_000_000_000
            });
            if symbol >= 24 {
                expected[symbol + 8] = later.unwrap_or(expected[symbol]);
            }
            if let Some(given) = given {
                counts.set(symbol, given, later);
                last = last.max(symbol + 1).max(later.map_or(0, |_| symbol + 9));
            }
        }
        let shown = text::values::print(&counts, &names(&mut rng));
        let read = text::values::parse(&shown, &mut Names::default()).expect("values");
        assert_eq!(read, counts);
        assert_eq!(counts.lent(), expected);
        // No longer than what is given needs.
        let bytes = counts.bytes();
        assert_eq!(bytes.len(), 8 * last);
        assert_eq!(Counts::from_bytes(&bytes).lent(), expected);
        let single = (24..32).filter(|&symbol| counts.given_later(symbol).is_none());
        for symbol in single {
            *(if symbol + 8 < last {
                &mut written
            } else {
                &mut absent
            }) += 1;
        }
    }
    assert!(written > 10_000 && absent > 10_000, "{written} {absent}");
}

/// One number for a paired symbol says both, and as much as the same number twice.
#[test]
fn one_number_means_both() {
    let read = |text: &str| text::values::parse(text, &mut Names::default()).expect("values");
    let [one, two] = ["time-24 90000\n", "time-24 90000 90000\n"].map(read);
    assert_eq!(one.lent(), two.lent());
    assert_eq!(one.lent()[32], 90_000);
    assert_eq!(one.bytes().len(), 8 * 25);
    assert_eq!(two.bytes().len(), 8 * 33);
    assert_eq!(read("time-24 90000 40000\n").lent()[32], 40_000);
    // And takes back what was given apart before.
    let mut counts = read("time-24 90000 40000\n");
    counts.set(24, 90_000, None);
    assert_eq!(counts, one);
}
