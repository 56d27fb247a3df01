//! `vf_preview` and `vf_commit` on random tables, records, times and values, against the second previewer
//! and committer and, where an answer is known by construction, against that. Whatever is committed is
//! committed back. Each test asserts that it has reached what it is for. The seeds are fixed: every run
//! makes the same tables.

use volefleece_tests::compare::{has_flag_4, has_pair};
use volefleece_tests::damage;
use volefleece_tests::evaluator::{self, Quoted};
use volefleece_tests::faults;
use volefleece_tests::filler;
use volefleece_tests::noise;
use volefleece_tests::quotes;
use volefleece_tests::retimer::{Previewed, Retiming};
use volefleece_tests::retimes::{
    self, is_plain_block, new_time, plain_blocks, value, Retimes, TIMES,
};
use volefleece_tests::rng::Rng;
use volefleece_tests::trees::{self, Amounts, Kind, Tree};

const CEILING: u64 = 1_000_000_000_000;

fn start(seed: u64) -> (Rng, Retimes) {
    (Rng::new(seed), Retimes::new(seed))
}

// Tables by their records.

/// The table with that time at that record, byte by byte.
fn with_time(table: &[u8], record: u64, time: u64) -> Vec<u8> {
    let mut table = table.to_vec();
    let at = 24 * record as usize + 8;
    table[at..at + 8].copy_from_slice(&time.to_le_bytes());
    table
}

fn any_time(rng: &mut Rng, old: u64) -> u64 {
    let sort = rng.index(TIMES - 1);
    new_time(rng, sort, old)
}

/// Values that are mostly in range: small and middling ones, some at their ceilings.
fn good_values(rng: &mut Rng) -> Vec<u64> {
    let amounts = rng.pick(&[Amounts::SMALL, Amounts::SMALL, Amounts::MIDDLING]);
    amounts.values(rng)
}

// Every record.

#[test]
fn every_record_of_tables_of_any_sort() {
    let (mut rng, mut retimes) = start(701);
    let mut reached = Reached::default();
    for _ in 0..300 {
        let tree = trees::of_any_sort(&mut rng);
        let table = tree.encode();
        let places = places(&tree);
        for (at, record) in table.chunks_exact(24).enumerate() {
            let old = value(record);
            let sort = rng.index(TIMES);
            let retiming = Retiming {
                record: at as u64,
                old,
                new: new_time(&mut rng, sort, old),
            };
            let is_refused = !is_plain_block(record) || retiming.new > CEILING;
            let answer = retimes.commit(&table, retiming);
            assert_eq!(answer.err(), is_refused.then_some(17));
            if rng.once_in(3) {
                let values = good_values(&mut rng);
                let answer = retimes.preview(&table, retiming, &values);
                assert_eq!(answer == Err(17), is_refused);
            }
            reached.count(record, places[at], sort);
            reached.last += u64::from(at == 511);
        }
    }
    retimes.assert_committed(&[(0, 8_000), (17, 10_000)]);
    retimes.assert_previewed(&[(0, 1_500), (10, 300), (17, 3_000)]);
    reached.assert_all(100);
}

/// By record, where its node stands: the root, a child of a sequence or choice, a loop's body or exit.
fn places(tree: &Tree) -> Vec<usize> {
    let mut places = vec![0];
    for (at, child) in tree.children.iter().enumerate() {
        let mut below = self::places(child);
        below[0] = match tree.kind {
            Kind::Sequence => 1,
            Kind::Choice => 2,
            _ => 3 + at,
        };
        places.extend(below);
    }
    places
}

/// What the records were that a test retimed.
#[derive(Debug, Default)]
struct Reached {
    /// The plain blocks by their places.
    places: [u64; 5],
    /// Those without a limit, and with one that is plain, a symbol, and a symbol's triangular number.
    limits: [u64; 4],
    /// Those at an address other than 0.
    addresses: u64,
    /// By the sort of the new time.
    sorts: [u64; TIMES],
    /// The blocks of symbols with one value and with two, the sequences, the choices, and the loops whose
    /// bound is plain and those whose bound is a symbol.
    others: [u64; 6],
    /// The last records of the longest tables.
    last: u64,
}

impl Reached {
    fn count(&mut self, record: &[u8], place: usize, sort: usize) {
        if !is_plain_block(record) {
            let other = match (record[0], record[1] & 1) {
                (0, _) => usize::from(record[8] >= 24),
                (3, flag) => 4 + usize::from(flag),
                (kind, _) => 1 + usize::from(kind),
            };
            self.others[other] += 1;
            return;
        }
        self.places[place] += 1;
        let limit = match (record[3], record[1]) {
            (0, _) => 0,
            (_, 0) => 1,
            (_, 2) => 2,
            _ => 3,
        };
        self.limits[limit] += 1;
        self.addresses += u64::from(record[16..20] != [0; 4]);
        self.sorts[sort] += 1;
    }

    fn assert_all(&self, times: u64) {
        let counts = [
            // A root that is a block is a table by itself.
            &self.places[1..],
            &self.limits,
            &[self.addresses],
            &self.sorts,
            &self.others,
        ];
        let counts = counts.concat();
        assert!(counts.iter().all(|&count| count >= times), "{self:?}");
        assert!(self.places[0] > 3 && self.last > 3, "{self:?}");
    }
}

// Question 17.

#[test]
fn stale_times_change_nothing() {
    let (mut rng, mut retimes) = start(702);
    // By how the old time is wrong.
    let mut reached = [0; 6];
    for _ in 0..6_000 {
        let table = trees::of_any_sort(&mut rng).encode();
        let blocks = plain_blocks(&table);
        if blocks.is_empty() {
            continue;
        }
        let (record, time) = rng.pick(&blocks);
        let new = any_time(&mut rng, time);
        let way = rng.index(reached.len());
        let old = match way {
            0 => time + 1,
            1 => time.wrapping_sub(1),
            2 => time ^ (1 << rng.index(64)),
            // Another block's, the one that it is to have, and its limit.
            3 => rng.pick(&blocks).1,
            4 => new,
            _ => u64::from(table[24 * record as usize + 4]),
        };
        if old == time {
            continue;
        }
        let stale = Retiming { record, old, new };
        let values = good_values(&mut rng);
        assert_eq!(retimes.retime(&table, stale, &values), Err(17));
        reached[way] += 1;
    }
    assert!(reached.iter().all(|&times| times > 300), "{reached:?}");
}

#[test]
fn records_and_times_are_read_whole() {
    let (mut rng, mut retimes) = start(703);
    // By record, old time and new time: which of them are wrong.
    let mut refused = [[[0; 2]; 2]; 2];
    for _ in 0..10_000 {
        let table = trees::of_any_sort(&mut rng).encode();
        let blocks = plain_blocks(&table);
        if blocks.is_empty() {
            continue;
        }
        let (there, time) = rng.pick(&blocks);
        let records = table.len() as u64 / 24;
        let record = match rng.index(8) {
            // With some of the bytes alone these would be the block's, or a product of 64 bits would.
            0 => there + (1 << rng.within(10..=63)),
            1 => there + rng.within(1..=7) * (1 << 61),
            2 => rng.pick(&[records, records + 1, 512, 513, u64::MAX, u64::MAX / 24]),
            3 => rng.number(),
            _ => there,
        };
        let old = match rng.index(4) {
            0 => time + (1 << rng.within(40..=63)),
            _ => time,
        };
        let new = match rng.index(5) {
            0 => rng.within(0..=9) + (1 << rng.within(40..=63)),
            1 => new_time(&mut rng, TIMES - 1, time),
            _ => any_time(&mut rng, time),
        };
        let faults = [record >= records, old != time, new > CEILING];
        let retiming = Retiming { record, old, new };
        let answer = retimes.commit(&table, retiming);
        let left = with_time(&table, there, new);
        let is_refused = faults.contains(&true);
        assert_eq!(answer, if is_refused { Err(17) } else { Ok(left) });
        let values = good_values(&mut rng);
        let answer = retimes.preview(&table, retiming, &values);
        assert_eq!(answer == Err(17), is_refused);
        let [record, old, new] = faults.map(usize::from);
        refused[record][old][new] += 1;
    }
    let mut counts = refused.iter().flatten().flatten();
    assert!(counts.all(|&count| count > 200), "{refused:?}");
}

// Commits one after the other.

#[test]
fn two_blocks_in_either_order() {
    let (mut rng, mut retimes) = start(704);
    let (mut moved, mut stale) = (0, 0);
    for _ in 0..3_000 {
        let table = trees::of_any_sort(&mut rng).encode();
        let mut blocks = plain_blocks(&table);
        if blocks.len() < 2 {
            continue;
        }
        rng.shuffle(&mut blocks);
        let both = [blocks[0], blocks[1]].map(|(record, old)| Retiming {
            record,
            old,
            new: any_time(&mut rng, old),
        });
        let mut put = |table: &[u8], retiming| {
            let left = retimes.commit(table, retiming);
            left.expect("the block's time")
        };
        let [one_way, other_way] = [[0, 1], [1, 0]].map(|order| {
            let once = put(&table, both[order[0]]);
            put(&once, both[order[1]])
        });
        assert_eq!(one_way, other_way);
        // The first that was committed may be the first that is committed back.
        for order in [[0, 1], [1, 0]] {
            let restored = order
                .into_iter()
                .fold(one_way.clone(), |table, at| put(&table, both[at].back()));
            assert_eq!(restored, table);
        }
        moved += u64::from(both.iter().all(|block| block.old != block.new));
        // What was read before is stale.
        if both[0].old != both[0].new {
            assert_eq!(retimes.commit(&one_way, both[0]), Err(17));
            stale += 1;
        }
    }
    assert!(moved > 1_000 && stale > 1_500, "{moved}, {stale}");
}

#[test]
fn one_block_again_and_again() {
    let (mut rng, mut retimes) = start(705);
    let mut chains = 0;
    for _ in 0..1_500 {
        let table = trees::of_any_sort(&mut rng).encode();
        let blocks = plain_blocks(&table);
        if blocks.is_empty() {
            continue;
        }
        let (record, mut old) = rng.pick(&blocks);
        let mut left = table.clone();
        let mut made = Vec::new();
        for _ in 0..4 {
            let new = any_time(&mut rng, old);
            let retiming = Retiming { record, old, new };
            left = retimes.commit(&left, retiming).expect("the block's time");
            assert_eq!(left, with_time(&table, record, new));
            made.push(retiming);
            old = new;
        }
        for retiming in made.into_iter().rev() {
            let back = retimes.commit(&left, retiming.back());
            left = back.expect("the block's time");
        }
        assert_eq!(left, table);
        chains += 1;
    }
    assert!(chains > 1_000, "{chains}");
}

// Figures and branches.

#[test]
fn figures_with_many_values() {
    let (mut rng, mut retimes) = start(706);
    let (mut triangular, mut paired) = (0, 0);
    for round in 0..8_000 {
        let amounts = [Amounts::SMALL, Amounts::MIDDLING][round % 2];
        let records = rng.size(1..=40);
        let tree = trees::of_amounts(&mut rng, records, amounts);
        let table = tree.encode();
        let blocks = plain_blocks(&table);
        if blocks.is_empty() {
            continue;
        }
        for values in desks(&mut rng, amounts) {
            let (record, old) = rng.pick(&blocks);
            let of_amounts = rng.within(0..=2 * amounts.time);
            let any = any_time(&mut rng, old);
            let new = rng.pick(&[of_amounts, of_amounts, any]);
            let retiming = Retiming { record, old, new };
            let answer = retimes.preview(&table, retiming, &values);
            // The way back has the same two quotes, or the same refusal.
            let left = with_time(&table, record, new);
            let back = retimes.preview(&left, retiming.back(), &values);
            let swapped = answer.map(|Previewed { before, after }| Previewed {
                before: after,
                after: before,
            });
            assert_eq!(back, swapped);
            triangular += u64::from(answer.is_ok() && has_flag_4(&table));
            paired += u64::from(answer.is_ok() && has_pair(&table));
        }
    }
    retimes.assert_previewed(&[(0, 8_000), (9, 6_000), (10, 2_000), (13, 300), (14, 1_000)]);
    retimes.assert_moved(200);
    retimes.assert_too_large(100);
    assert!(triangular > 500 && paired > 500, "{triangular}, {paired}");
}

/// Values of these amounts, counts about flag 4's ceiling, a later value past its first, and some that
/// question 9 refuses.
fn desks(rng: &mut Rng, amounts: Amounts) -> [Vec<u64>; 4] {
    let mut desks = [(); 4].map(|()| amounts.values(rng));
    trees::put_about_1000(rng, &mut desks[1]);
    if rng.once_in(4) {
        trees::put_past_first(rng, &mut desks[2]);
    }
    faults::spoil(rng, &mut desks[3]);
    desks
}

/// Root choices of few different times, so that the branch moves and children are equal.
#[test]
fn branches_of_root_choices() {
    let (mut rng, mut retimes) = start(707);
    let few = Amounts {
        time: 3,
        bound: 2,
        limit: 2,
        symbols: 4,
    };
    // Previews whose branch comes earlier, whose branch comes later, and whose figure then is the same.
    let (mut earlier, mut later, mut same) = (0, 0, 0);
    for _ in 0..6_000 {
        let children = rng.size(2..=6);
        let children = (0..children).map(|_| {
            let records = rng.size(1..=6);
            trees::grow(&mut rng, records, 4, 2)
        });
        let mut tree = Tree::new(Kind::Choice, children.collect());
        let wanted = rng.pick(&[0, 5, 60]);
        trees::put_weights(&mut rng, &mut tree, wanted);
        few.set(&mut rng, &mut tree);
        let table = tree.encode();
        let values = few.values(&mut rng);
        for (record, old) in plain_blocks(&table) {
            let new = rng.within(0..=8);
            let retiming = Retiming { record, old, new };
            let answer = retimes.preview(&table, retiming, &values);
            let Previewed { before, after } = answer.expect("small amounts");
            earlier += u64::from(after.branch < before.branch);
            later += u64::from(after.branch > before.branch);
            same += u64::from(after.branch != before.branch && after.figure == before.figure);
        }
    }
    let moved = [earlier, later, same];
    assert!(moved.iter().all(|&times| times > 1_000), "{moved:?}");
    retimes.assert_moved(1_000);
}

/// A sequence of the tree and a block, whose figure the block's times bring to the ceiling or one past it.
#[test]
fn previews_at_the_ceiling() {
    let (mut rng, mut retimes) = start(708);
    for _ in 0..5_000 {
        let records = rng.size(1..=30);
        let tree = trees::of_amounts(&mut rng, records, Amounts::SMALL);
        let values = Amounts::SMALL.values(&mut rng);
        let Ok(evaluated) = evaluator::evaluate(&tree, &values) else {
            continue;
        };
        // The block's time with which the figure is the ceiling.
        let most = CEILING - evaluated.quoted().figure;
        let block = Tree::block(0);
        let root = Tree::new(Kind::Sequence, vec![tree, block]).encode();
        let record = root.len() as u64 / 24 - 1;
        let mut time = |over: bool| match rng.index(3) {
            _ if over => most + 1,
            0 => rng.within(0..=most),
            _ => most,
        };
        for over in [[false, false], [false, true], [true, false], [true, true]] {
            let [old, new] = over.map(&mut time);
            // Where the tree costs nothing, no time is too large.
            if new > CEILING || old > CEILING {
                continue;
            }
            let table = with_time(&root, record, old);
            let retiming = Retiming { record, old, new };
            let answer = retimes.retime(&table, retiming, &values);
            let quoted = |time| Quoted {
                figure: CEILING - most + time,
                branch: 255,
            };
            let expected = Previewed {
                before: quoted(old),
                after: quoted(new),
            };
            let fits = over == [false, false];
            assert_eq!(answer, if fits { Ok(expected) } else { Err(10) });
        }
    }
    retimes.assert_previewed(&[(0, 3_000), (10, 9_000)]);
    retimes.assert_too_large(3_000);
}

/// Retiming the one block that a symbol's number was filled in is filling the new number instead.
#[test]
fn a_filled_time_is_retimed() {
    let (mut rng, mut retimes) = start(709);
    let (mut figures, mut blocks) = (0, 0);
    for _ in 0..4_000 {
        let mut tree = trees::of_any_sort(&mut rng);
        trees::put_symbol(&mut rng, &mut tree, 16, 1);
        if tree.places(16) == 0 {
            continue;
        }
        let open = tree.encode();
        let is_place = |record: &[u8]| record[..2] == [0, 1] && value(record) == 16;
        let mut records = open.chunks_exact(24);
        // With a symbol as its limit too, the block's flags are others.
        let Some(record) = records.position(is_place) else {
            continue;
        };
        let record = record as u64;
        let old = rng.within(0..=50);
        let new = any_time(&mut rng, old);
        let [before, after] = [old, new].map(|time| {
            let filled = filler::fill(&open, 16, time, open.len(), 128);
            filled.expect("a single symbol").table
        });
        let retiming = Retiming { record, old, new };
        assert_eq!(retimes.commit(&before, retiming), Ok(after));
        blocks += 1;
        let mut values = good_values(&mut rng);
        let answer = retimes.preview(&before, retiming, &values);
        if let Ok(Previewed { before, after }) = answer {
            values[16] = old;
            assert_eq!(quotes::figure(&mut rng, &open, &values), Ok(before));
            values[16] = new;
            assert_eq!(quotes::figure(&mut rng, &open, &values), Ok(after));
            figures += 1;
        }
    }
    assert!(blocks > 2_500 && figures > 1_000, "{blocks}, {figures}");
}

// The order of the questions.

/// The questions in their order, 10 for the old tree and then for the new. Commit puts the first eight.
const QUESTIONS: [u64; 13] = [1, 2, 3, 4, 5, 6, 7, 17, 9, 13, 14, 10, 10];
const OF_TABLE: usize = 7;
const RETIMING: usize = 7;
const VALUES: usize = 8;
const TRIANGULAR: usize = 9;
const LATER: usize = 10;
const OLD: usize = 11;
const NEW: usize = 12;

#[test]
fn of_any_two_faults_the_first_answers() {
    let (mut rng, mut retimes) = start(710);
    for first in 0..QUESTIONS.len() {
        for second in first + 1..QUESTIONS.len() {
            for _ in 0..100 {
                expect_first(&mut rng, &mut retimes, &[first, second]);
            }
        }
    }
    retimes.assert_committed(&[0, 1, 2, 3, 4, 5, 6, 7, 17].map(|answer| (answer, 500)));
    let previewed = [1, 2, 3, 4, 5, 6, 7, 17, 9, 13, 14, 10];
    retimes.assert_previewed(&previewed.map(|answer| (answer, 100)));
}

#[test]
fn of_many_faults_the_first_answers() {
    let (mut rng, mut retimes) = start(711);
    for _ in 0..12_000 {
        let often = rng.within(1..=20);
        let places = 0..QUESTIONS.len();
        let faults: Vec<usize> = places.filter(|_| rng.once_in(often)).collect();
        expect_first(&mut rng, &mut retimes, &faults);
    }
    let answers = [0, 1, 2, 3, 4, 5, 6, 7, 17];
    retimes.assert_committed(&answers.map(|answer| (answer, 250)));
    let answers = [0, 1, 2, 3, 4, 5, 6, 7, 17, 9, 13, 14, 10];
    retimes.assert_previewed(&answers.map(|answer| (answer, 250)));
    retimes.assert_too_large(20);
}

/// The symbol whose value fails question 13.
const PAST_1000: usize = 11;

/// Makes both calls so that they fail these questions, given by their places in the order, and expects the
/// number of the first.
fn expect_first(rng: &mut Rng, retimes: &mut Retimes, faults: &[usize]) {
    let of_table: Vec<u64> = faults
        .iter()
        .filter(|&&fault| fault < OF_TABLE)
        .map(|&fault| QUESTIONS[fault])
        .collect();
    let mut tree = faults::tree(rng, &of_table);
    Amounts::SMALL.set(rng, &mut tree);
    if faults.contains(&TRIANGULAR) {
        tree.children
            .push(faults::triangular_block(PAST_1000 as u64));
    }
    // With this beside it, the block's largest time is too large.
    tree.children.push(Tree::block(1));
    rng.shuffle(&mut tree.children);
    let [old, new] = [OLD, NEW].map(|fault| match faults.contains(&fault) {
        true => CEILING,
        false => rng.within(0..=9),
    });
    let place = rng.size(0..=tree.children.len());
    let before = &tree.children[..place];
    let record = 1 + before.iter().map(Tree::records).sum::<usize>() as u64;
    tree.children.insert(place, Tree::block(old));
    let mut retiming = Retiming { record, old, new };
    if faults.contains(&RETIMING) {
        fail_retiming(rng, &tree, &mut retiming);
    }
    let table = faults::table(rng, &tree, &of_table);
    let mut values = Amounts::SMALL.values(rng);
    if faults.contains(&TRIANGULAR) {
        values[PAST_1000] = rng.pick(&[1_001, 1_002, 1_000_000]);
    }
    if faults.contains(&LATER) {
        trees::put_past_first(rng, &mut values);
    }
    if faults.contains(&VALUES) {
        faults::spoil(rng, &mut values);
    }
    let first = |faults: &[usize]| faults.first().map(|&fault| QUESTIONS[fault]);
    let answer = retimes.preview(&table, retiming, &values);
    assert_eq!(answer.err(), first(faults), "{faults:?}");
    let of_commit = faults.partition_point(|&fault| fault <= RETIMING);
    let answer = retimes.commit(&table, retiming);
    assert_eq!(answer.err(), first(&faults[..of_commit]), "{faults:?}");
}

/// Makes the record, the old time or the new one such that question 17 refuses it.
fn fail_retiming(rng: &mut Rng, tree: &Tree, retiming: &mut Retiming) {
    let records = tree.records() as u64;
    match rng.index(4) {
        // The root is a sequence.
        0 => (retiming.record, retiming.old) = (0, 0),
        1 => retiming.record = rng.pick(&[records, records + 1, 600, u64::MAX]),
        2 => retiming.old += rng.pick(&[1, 256, 1 << 40]),
        _ => retiming.new = rng.pick(&[CEILING + 1, 1 << 50, u64::MAX]),
    }
}

// Damaged tables and noise.

#[test]
fn damaged_tables() {
    let (mut rng, mut retimes) = start(712);
    for _ in 0..8_000 {
        let mut table = trees::of_any_sort(&mut rng).encode();
        damage::any(&mut rng, &mut table);
        retime(&mut rng, &mut retimes, &table);
    }
    let answers = [
        (0, 300),
        (1, 800),
        (2, 500),
        (3, 100),
        (4, 1_000),
        (6, 80),
        (7, 10),
        (17, 300),
    ];
    retimes.assert_committed(&answers);
    retimes.assert_previewed(&answers[1..]);
    retimes.assert_previewed(&[(0, 200), (10, 50)]);
}

/// Retimes any bytes.
fn retime(rng: &mut Rng, retimes: &mut Retimes, table: &[u8]) {
    let retiming = retimes::any(rng, table);
    let values = good_values(rng);
    let _ = retimes.retime(table, retiming, &values);
}

#[test]
fn noise_of_every_kind() {
    let (mut rng, mut retimes) = start(713);
    for _ in 0..12_000 {
        let table = rng.pick(&noise::KINDS)(&mut rng);
        retime(&mut rng, &mut retimes, &table);
    }
    let answers = [
        (0, 300),
        (1, 500),
        (2, 500),
        (4, 500),
        (5, 10),
        (6, 80),
        (17, 200),
    ];
    retimes.assert_committed(&answers);
    retimes.assert_previewed(&answers[1..]);
    retimes.assert_previewed(&[(0, 200)]);
}
