//! Firmware addresses, CR 6 of document 02: the records that hold them, what each rule and a graft do
//! with them on hand-written tables, and that nothing else of an answer depends on them. The seeds are
//! fixed: every run makes the same tables.

use volefleece::raw::{self, Checked};
use volefleece_tests::compare::{shown, Comparison};
use volefleece_tests::faults;
use volefleece_tests::grafts::{self, writes};
use volefleece_tests::noise;
use volefleece_tests::notation;
use volefleece_tests::quotes;
use volefleece_tests::reader;
use volefleece_tests::rng::Rng;
use volefleece_tests::simplifications::{self, becomes, ends, stays, Simplifications};
use volefleece_tests::simplifier;
use volefleece_tests::tables::*;
use volefleece_tests::trees::{self, Amounts, Kind, Tree};

/// The tree with that address on its top.
fn at(address: u32, tree: Vec<u8>) -> Vec<u8> {
    addressed(tree, address)
}

// Records.

/// A table with every kind of node, in 9 records.
fn every_kind() -> Vec<u8> {
    let body = choice(&[limited(x(), 2, 1), block(25)]);
    sequence(&[repeat(3, body, block(60)), symbol_repeat(0, y(), block(1))])
}

#[track_caller]
fn answers(table: &[u8], answer: Checked) {
    Comparison::new(0).expect(table, answer);
}

#[test]
fn any_number_is_an_address() {
    let bits = (0..32).map(|bit| 1 << bit);
    for address in bits.chain([0, u32::MAX, 0x0800_04a0]) {
        let mut table = every_kind();
        for record in table.chunks_exact_mut(24) {
            record[16..20].copy_from_slice(&address.to_le_bytes());
        }
        answers(&table, Checked::accept(9));
        assert_eq!(reader::check(&table).map(|tree| tree.encode()), Ok(table));
    }
}

#[test]
fn bytes_20_to_23_are_each_255_or_refused_2() {
    let table = every_kind();
    for record in 0..9 {
        for byte in 20..=23 {
            for filler in 0..=254 {
                let mut table = table.clone();
                table[24 * record + byte] = filler;
                answers(&table, Checked::refuse(2));
            }
        }
    }
}

#[test]
fn the_bytes_behind_an_address_are_asked_by_question_2() {
    let wrong = |mut record: Vec<u8>| {
        record[23] = 254;
        record
    };
    answers(&wrong(block(7))[..23], Checked::refuse(1));
    // And before a number out of range, a record too many, one too deep and one that names no loop.
    answers(&wrong(block(1_000_000_000_001)), Checked::refuse(2));
    let past = sequence(&[block(1_000_000_000_001), wrong(block(7))]);
    answers(&past, Checked::refuse(2));
    answers(&[block(7), wrong(block(7))].concat(), Checked::refuse(2));
    answers(&in_sequences(32, wrong(block(7))), Checked::refuse(2));
    answers(&wrong(limited(block(7), 1, 1)), Checked::refuse(2));
}

/// Case N's longer length, and what was that before.
#[test]
fn lengths_of_512_records_and_more() {
    answers(&[0; 12_312], Checked::refuse(1));
    answers(&[0; 8_208], Checked::refuse(2));
    answers(&block(0).repeat(342), Checked::refuse(4));
    answers(&block(0).repeat(512), Checked::refuse(4));
    answers(&block(0).repeat(513), Checked::refuse(1));
}

/// The second implementation's own bytes.
#[test]
fn the_lowest_byte_of_an_address_comes_first() {
    let mut tree = Tree::block(7);
    tree.address = 0x0403_0201;
    assert_eq!(tree.encode()[16..], [1, 2, 3, 4, 255, 255, 255, 255]);
    assert_eq!(tree.encode(), at(0x0403_0201, block(7)));
    assert_eq!(reader::check(&tree.encode()), Ok(tree));
}

/// docs/FORMAT.md's notation has it in brackets, behind the limit.
#[test]
fn an_address_stands_last_in_the_notation() {
    let written = |text: &str| notation::tree(text).map(|tree| tree.encode());
    let x = || limited(x(), 2, 1);
    assert_eq!(written("7[4a0]"), Ok(at(0x4a0, block(7))));
    assert_eq!(written("{7/2@255}[ffffffff]"), written("7/2@255[ffffffff]"));
    let body = at(1, sequence(&[at(0x4a0, x()), at(3, block(5))]));
    let tree = at(2, repeat(3, body, at(4, block(0))));
    let text = "{loop 3 of (X16/2@1[4a0], 5[3])[1] exit 0[4]}[2]";
    assert_eq!(written(text), Ok(tree));
    for wrong in [
        "7[4a0]/2@255",
        "{7[1]}[2]",
        "7[]",
        "7[1",
        "7[g]",
        "7[100000000]",
    ] {
        assert!(written(wrong).is_err(), "{wrong}");
    }
}

// The rules.

#[test]
fn rule_1_passes_a_lone_block_by_and_writes_0() {
    for address in [0, 1, 0x0800_04a0, u32::MAX] {
        stays(&at(address, block(7)));
        stays(&at(address, block(0)));
        becomes(&at(address, limited(block(7), 3, 255)), 1, &block(7));
        becomes(&at(address, sequence(&[at(9, block(7))])), 1, &block(7));
        let passes = repeat(3, at(address, block(2)), at(5, block(1)));
        becomes(&passes, 1, &block(7));
    }
}

#[test]
fn rule_2_keeps_the_addresses_of_what_is_taken_in() {
    for list in [sequence, choice] {
        let inner = at(2, list(&[at(3, y()), at(4, block(1))]));
        becomes(
            &at(1, list(&[at(5, x()), inner, at(6, y())])),
            2,
            &at(
                1,
                list(&[at(5, x()), at(3, y()), at(4, block(1)), at(6, y())]),
            ),
        );
    }
}

#[test]
fn rule_3_keeps_the_childs_address() {
    for list in [sequence, choice] {
        for address in [0, 2] {
            let child = || at(address, symbol_repeat(0, at(3, x()), at(4, y())));
            becomes(&at(1, list(&[child()])), 3, &child());
            // A limit that moves leaves its address behind, and one that stays does not get another.
            for limit in [limited, symbol_limited, triangular_limited] {
                let limit = |tree| limit(tree, 5, 255);
                becomes(&limit(at(1, list(&[child()]))), 3, &limit(child()));
                becomes(&at(1, list(&[limit(child())])), 3, &limit(child()));
            }
        }
    }
}

#[test]
fn rule_4_writes_0() {
    let beside_x = |child| at(1, sequence(&[at(2, x()), child]));
    let choice = || at(3, choice(&[at(4, block(5)), at(5, block(4))]));
    becomes(&beside_x(choice()), 4, &beside_x(block(5)));
    let limit = |tree| limited(tree, 6, 255);
    becomes(&beside_x(limit(choice())), 4, &beside_x(limit(block(5))));
    let passes = at(3, repeat(3, at(4, block(5)), at(5, block(4))));
    becomes(&beside_x(passes), 4, &beside_x(block(19)));
}

#[test]
fn rule_5_keeps_the_other_addresses() {
    for list in [sequence, choice] {
        for address in [0, 9] {
            let zero = at(address, block(0));
            becomes(
                &at(1, list(&[at(2, x()), zero, at(3, y())])),
                5,
                &at(1, list(&[at(2, x()), at(3, y())])),
            );
        }
    }
}

#[test]
fn rules_6_and_7_write_0() {
    let list = |list: fn(&[Vec<u8>]) -> Vec<u8>| {
        let blocks = [at(2, x()), at(3, block(5)), at(4, y()), at(5, block(9))];
        at(1, list(&blocks))
    };
    becomes(
        &list(sequence),
        6,
        &at(1, sequence(&[block(14), at(2, x()), at(4, y())])),
    );
    becomes(
        &list(choice),
        7,
        &at(1, choice(&[at(2, x()), block(9), at(4, y())])),
    );
}

#[test]
fn rule_8_keeps_the_first_second_child_and_the_choices_address() {
    let firsts = || [at(1, x()), at(2, y()), at(3, block(5))];
    let seconds = [at(4, x()), at(5, x()), at(6, x())];
    let pairs = firsts().into_iter().zip(&seconds);
    let pairs: Vec<_> = pairs
        .map(|(first, second)| at(7, sequence(&[first, second.clone()])))
        .collect();
    let shared = at(8, sequence(&[choice(&firsts()), at(4, x())]));
    becomes(&at(8, choice(&pairs)), 8, &shared);
    // The limit goes to the sequence, which has the choice's address.
    for limit in [limited, symbol_limited, triangular_limited] {
        let limit = |tree| limit(tree, 5, 255);
        let pairs = at(8, choice(&pairs));
        becomes(&limit(pairs), 8, &limit(shared.clone()));
    }
}

/// A closed tree of 7 records, each at an address of its own.
fn closed() -> Vec<u8> {
    let body = choice(&[limited(x(), 2, 1), y()]);
    let mut tree = sequence(&[repeat(3, body, block(60)), y()]);
    for (record, number) in tree.chunks_exact_mut(24).zip(1..) {
        record[16] = number;
    }
    tree
}

/// The choice of two sequences that end so, and what rule 8 makes of it.
fn two_ends(one: &[u8], other: &[u8]) -> (Vec<u8>, Vec<u8>) {
    let pair = |first, second: &[u8]| sequence(&[first, second.to_vec()]);
    let pairs = choice(&[pair(x(), one), pair(y(), other)]);
    (pairs, sequence(&[choice(&[x(), y()]), one.to_vec()]))
}

#[test]
fn rule_8_compares_every_record_without_its_address() {
    let one = closed();
    for record in 0..7 {
        for byte in 16..20 {
            let mut other = one.clone();
            other[24 * record + byte] ^= 128;
            for [one, other] in [[&one, &other], [&other, &one]] {
                let (pairs, shared) = two_ends(one, other);
                becomes(&pairs, 8, &shared);
            }
        }
    }
}

#[test]
fn rule_8_still_compares_every_other_byte() {
    let one = closed();
    let mut compared = 0;
    for record in 0..7 {
        for byte in 0..16 {
            let mut other = one.clone();
            other[24 * record + byte] ^= 1;
            // Where the one is accepted in the other's place, the two are no longer the same.
            let (pairs, _) = two_ends(&one, &other);
            if let Ok(mut tree) = reader::check(&pairs) {
                let rule = simplifier::step(&mut tree);
                assert_ne!(rule, Some(8), "record {record}, byte {byte}");
                simplifications::agreed(&pairs, u64::MAX, pairs.len()).expect("small amounts");
                compared += 1;
            }
        }
    }
    assert!(compared > 15, "{compared}");
}

#[test]
fn rule_9_keeps_the_exits_address() {
    for address in [0, 4] {
        let exit = || at(address, sequence(&[at(5, x()), at(6, y())]));
        becomes(&at(1, repeat(0, at(2, x()), exit())), 9, &exit());
    }
}

/// Case K, with addresses.
#[test]
fn steps_one_after_the_other() {
    let k = at(
        1,
        choice(&[
            at(2, sequence(&[at(3, block(5)), at(4, x())])),
            at(5, sequence(&[at(6, block(4)), at(7, x())])),
        ]),
    );
    ends(&k, 2, &at(1, sequence(&[block(5), at(4, x())])));
}

// Grafting.

#[test]
fn a_grafts_loop_has_the_blocks_address() {
    let put = |address, tree| at(address, repeat(1, tree, block(0)));
    let seven = || at(9, block(7));
    writes(&at(1, x()), &seven(), &put(1, seven()));
    writes(&at(u32::MAX, x()), &seven(), &put(u32::MAX, seven()));
    writes(&x(), &seven(), &put(0, seven()));
    // With its limit, and in each place its own.
    for limit in [limited, symbol_limited, triangular_limited] {
        let host = |one, other| {
            let body = sequence(&[at(3, limit(one, 5, 1)), at(4, y())]);
            at(1, repeat(3, body, at(2, limit(other, 6, 255))))
        };
        let written = host(put(0, seven()), put(0, seven()));
        writes(&host(x(), x()), &seven(), &written);
    }
}

#[test]
fn sent_records_keep_their_addresses() {
    // The limits on the run name the new loop then.
    let sent = |names: [u8; 3]| {
        let [top, body, exit] = names;
        let body = at(2, choice(&[at(3, limited(y(), 1, body)), at(4, block(5))]));
        let exit = at(5, limited(block(4), 6, exit));
        limited(at(1, repeat(3, body, exit)), 9, top)
    };
    let put = at(7, repeat(1, sent([1, 2, 1]), block(0)));
    let host = |place| at(6, sequence(&[place, at(8, y())]));
    writes(&host(at(7, x())), &sent([255; 3]), &host(put));
}

// What does not depend on addresses.

/// The table with other addresses, all of them or some.
fn readdressed(rng: &mut Rng, table: &[u8]) -> Vec<u8> {
    let often = rng.pick(&[1, 1, 3]);
    let mut table = table.to_vec();
    for record in table.chunks_exact_mut(24) {
        if rng.once_in(often) {
            let any = rng.number() as u32;
            let address = rng.pick(&[0, 1, u32::MAX, any]);
            record[16..20].copy_from_slice(&address.to_le_bytes());
        }
    }
    table
}

/// The table with address 0 at every record.
fn unaddressed(mut table: Vec<u8>) -> Vec<u8> {
    for record in table.chunks_exact_mut(24) {
        record[16..20].fill(0);
    }
    table
}

/// How often each answer, 0 or a refusal's number, was the same with other addresses.
#[derive(Debug, Default)]
struct Same([u64; 15]);

impl Same {
    /// Counts the answer that both tables have.
    fn count<A: PartialEq>(&mut self, answers: [Result<A, u64>; 2], table: &[u8]) {
        assert!(answers[0] == answers[1], "{}", shown(table));
        let refused = answers[0].as_ref().err();
        self.0[refused.map_or(0, |&question| question as usize)] += 1;
    }

    fn assert_reached(&self, answers: &[usize], times: u64) {
        let reached = |&answer: &usize| self.0[answer] >= times;
        assert!(answers.iter().all(reached), "{self:?}");
    }
}

fn records(rng: &mut Rng) -> usize {
    let most = rng.pick(&[4, 12, 40, 100]);
    rng.size(1..=most)
}

/// Accepted, with faults, or noise.
fn any_table(rng: &mut Rng, round: usize) -> Vec<u8> {
    match round % 3 {
        0 => {
            let records = records(rng);
            trees::within_limits(rng, records).encode()
        }
        1 => {
            let faults: Vec<u64> = (1..=7).filter(|_| rng.once_in(4)).collect();
            let tree = faults::tree(rng, &faults);
            faults::table(rng, &tree, &faults)
        }
        _ => rng.pick(&noise::KINDS)(rng),
    }
}

#[test]
fn checking_asks_for_no_address() {
    let mut rng = Rng::new(601);
    let mut same = Same::default();
    for round in 0..60_000 {
        let table = any_table(&mut rng, round);
        let other = readdressed(&mut rng, &table);
        let answers = [&table, &other].map(|table| match raw::check(table) {
            Checked {
                refused: 0,
                records,
            } => Ok(records),
            Checked { refused, .. } => Err(refused),
        });
        same.count(answers, &table);
    }
    same.assert_reached(&[0, 1, 2, 3, 4, 5, 6, 7], 500);
}

#[test]
fn figures_branches_and_lists_do_not_depend_on_addresses() {
    let mut rng = Rng::new(602);
    let (mut figures, mut lists) = (Same::default(), Same::default());
    for round in 0..60_000 {
        let amounts = [Amounts::SMALL, Amounts::MIDDLING][round % 2];
        let records = records(&mut rng);
        let mut tree = trees::within_limits(&mut rng, records);
        amounts.set(&mut rng, &mut tree);
        let table = tree.encode();
        let other = readdressed(&mut rng, &table);
        let mut values = amounts.values(&mut rng);
        trees::put_about_1000(&mut rng, &mut values);
        if rng.once_in(20) {
            values[15] = 1_000_001;
        }
        if rng.once_in(20) {
            trees::put_past_first(&mut rng, &mut values);
        }
        let tables = [&table, &other];
        let answers = tables.map(|table| quotes::figure(&mut rng, table, &values));
        figures.count(answers, &table);
        let room = rng.pick(&[511, 512, 512, 512]);
        let answers = tables.map(|table| quotes::list(&mut rng, table, &values, room));
        lists.count(answers, &table);
    }
    figures.assert_reached(&[0, 9, 10, 13, 14], 500);
    lists.assert_reached(&[0, 8, 9, 10, 13, 14], 500);
}

#[test]
fn simplifying_writes_the_same_but_for_addresses() {
    let mut rng = Rng::new(603);
    let mut same = Same::default();
    let (mut steps, mut kept) = (0, 0);
    for round in 0..60_000 {
        let tree = match round % 4 {
            0 => trees::ending_in_loops(&mut rng),
            _ => {
                let records = records(&mut rng);
                trees::redundant(&mut rng, records)
            }
        };
        let table = tree.encode();
        let other = readdressed(&mut rng, &table);
        let allowance = rng.pick(&[0, 1, 3, u64::MAX]);
        let room = table.len() - usize::from(rng.once_in(20));
        let answers = [&table, &other].map(|table| {
            let answer = simplifications::simplify(&mut rng, table, allowance, room);
            answer.map(|mut made| {
                let bytes = unaddressed(made.bytes.clone());
                kept += u64::from(made.steps > 0 && made.bytes != bytes);
                steps += made.steps;
                made.bytes = bytes;
                made
            })
        });
        same.count(answers, &table);
    }
    same.assert_reached(&[0, 8], 1_000);
    assert!(steps > 100_000 && kept > 20_000, "{steps}, {kept}");
}

#[test]
fn grafting_writes_the_same_but_for_addresses() {
    let mut rng = Rng::new(604);
    let mut same = Same::default();
    for _ in 0..60_000 {
        let [host, sent] = [0; 2].map(|_| {
            let records = records(&mut rng);
            let mut tree = trees::within_limits(&mut rng, records);
            Amounts::SMALL.set(&mut rng, &mut tree);
            tree
        });
        // Else most sent tables would be refused for a paired symbol.
        let sent = if rng.once_in(8) {
            sent
        } else {
            sent.unpaired()
        };
        let (host, sent) = (host.encode(), sent.encode());
        let symbol = rng.within(15..=24);
        let room = rng.pick(&[12_288, 12_288, 12_288, host.len()]);
        let others = [&host, &sent].map(|table| readdressed(&mut rng, table));
        let answers = [[&host, &sent], [&others[0], &others[1]]].map(|[host, sent]| {
            let answer = grafts::graft(&mut rng, host, sent, symbol, room);
            answer.map(unaddressed)
        });
        same.count(answers, &host);
    }
    same.assert_reached(&[0, 8, 11, 12], 500);
}

/// Choices whose alternatives end alike but for addresses: rule 8 takes them, and the first one's stay.
#[test]
fn second_children_at_other_addresses_are_shared() {
    let mut rng = Rng::new(605);
    let mut simplifications = Simplifications::new(605);
    let mut shared = 0;
    for _ in 0..10_000 {
        let tree = trees::ending_in_loops(&mut rng);
        simplifications.compare(&tree.encode(), 1, 24 * tree.records());
        let seconds: Vec<&Tree> = tree.children.iter().map(|pair| &pair.children[1]).collect();
        let mut stepped = tree.clone();
        let is_taken = simplifier::step(&mut stepped) == Some(8);
        if is_taken && seconds.iter().any(|second| *second != seconds[0]) {
            assert_eq!(stepped.kind, Kind::Sequence);
            assert_eq!(stepped.address, tree.address);
            assert_eq!(stepped.children[0].address, 0);
            assert_eq!(&stepped.children[1], seconds[0]);
            shared += 1;
        }
    }
    assert!(shared > 2_000, "{shared}");
}
