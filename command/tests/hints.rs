//! The hints for refused tables: the words of each, on a table made for it, and on damaged tables that hint and words lead a reader right.
//! What the library says of edited copies decides that, and the second reader's trees, so that the search for a hint is not copied here.
//! The seeds are fixed: every run makes the same tables.

use std::collections::BTreeMap;

use volefleece::{check, Refusal};
use volefleece_command::hint::{find, Hint};
use volefleece_tests::compare::shown;
use volefleece_tests::damage::{self, Edit};
use volefleece_tests::faults;
use volefleece_tests::format::RECORD_BYTES;
use volefleece_tests::noise;
use volefleece_tests::reader;
use volefleece_tests::records::*;
use volefleece_tests::rng::Rng;
use volefleece_tests::trees::{self, Tree};

// The words.

/// The library refuses the table so, and the hint is that record with those words.
#[track_caller]
fn hints(refusal: Refusal, records: &[Record], record: usize, what: &str) {
    hints_of(&table(records), refusal, record, what);
}

#[track_caller]
fn hints_of(table: &[u8], refusal: Refusal, record: usize, what: &str) {
    assert_eq!(check(table), Err(refusal), "{}", shown(table));
    let hint = Hint {
        record,
        what: what.into(),
    };
    assert_eq!(find(table, refusal), Some(hint), "{}", shown(table));
}

/// The same for each of these lines, a record and its words: where it stands between good records and one that is refused likewise.
fn hints_of_lines(refusal: Refusal, lines: &str, last: Record) {
    for line in lines.trim().lines() {
        let (record, what) = line.split_once(": ").expect("a record and words");
        let fields = numbers(record);
        let byte = |field: usize| fields[field] as u8;
        let limit = fields[4] as u32;
        let record = (byte(0), byte(1), byte(2), byte(3), limit, fields[5]);
        hints(refusal, &[sequence(3), BLOCK, record, last], 2, what);
    }
}

const FIELDS: &str = "
7 0 0 0 0 0: kind 7 is none of 0 block, 1 sequence, 2 choice, 3 loop
0 9 0 0 0 7: byte 1 is 9, which is no sum of the flags 1, 2 and 4
1 1 1 0 0 0: a sequence cannot have flag 1 (the value is a symbol)
2 3 1 1 0 0: a choice cannot have flag 1 (the value is a symbol)
0 2 0 0 0 7: flag 2 (the limit is a symbol) stands without a limit (byte 3 is 0)
0 6 0 0 0 7: flag 2 (the limit is a symbol) stands without a limit (byte 3 is 0)
0 4 0 255 1 7: flag 4 (the limit is triangular) stands without flag 2
3 5 2 0 0 7: flag 4 (the limit is triangular) stands without flag 2
0 0 3 0 0 7: a block has 3 children and must have none
0 0 1 0 0 7: a block has 1 child and must have none
1 0 0 0 0 0: a sequence has 0 children and must have 1 to 255
2 0 0 0 0 0: a choice has 0 children and must have 1 to 255
3 0 3 0 0 3: a loop has 3 children and must have 2, body and exit
0 0 0 9 1 7: byte 3 is 9, which is none of 0 (no limit), 1 to 8 (a loop around) and 255 (the whole run)
0 2 0 254 1 7: byte 3 is 254, which is none of 0 (no limit), 1 to 8 (a loop around) and 255 (the whole run)
0 0 0 0 5 7: a limit of 5 stands without a loop that it names (byte 3 is 0)
1 0 1 0 0 18446744073709551615: a sequence has the value 18446744073709551615 and can only have 0
2 0 1 1 5 8: a choice has the value 8 and can only have 0
4 8 0 9 0 0: kind 4 is none of 0 block, 1 sequence, 2 choice, 3 loop
2 0 0 9 5 8: a choice has 0 children and must have 1 to 255
";

#[test]
fn words_for_fields() {
    hints_of_lines(Refusal::Fields, FIELDS, (9, 0, 0, 0, 0, 0));
}

/// The first wrong one of a record's last four bytes, where nothing before them is wrong.
#[test]
fn words_for_last_bytes() {
    let good = table(&[sequence(3), BLOCK, BLOCK, BLOCK]);
    for first in 0..4 {
        let mut table = good.clone();
        for byte in first..4 {
            Edit::Filler(byte, byte as u8).apply(&mut table, 2);
        }
        Edit::Filler(0, 0).apply(&mut table, 3);
        let words = format!("byte {} is {first} and can only be 255", 20 + first);
        hints_of(&table, Refusal::Fields, 2, &words);
        Edit::Flags(9).apply(&mut table, 2);
        let words = "byte 1 is 9, which is no sum of the flags 1, 2 and 4";
        hints_of(&table, Refusal::Fields, 2, words);
    }
}

const NUMBERS: &str = "
0 0 0 0 0 1000000000001: time 1000000000001 is above 1000000000000
3 0 2 0 0 1000001: bound 1000001 is above 1000000
1 0 1 255 1000001 0: limit 1000001 is above 1000000
0 1 0 0 0 15: time symbol 15 is a count, and a time's symbol is one of 16 to 31
0 1 0 0 0 32: time symbol 32 does not exist, and a time's symbol is one of 16 to 31
0 1 0 0 0 4294967312: time symbol 4294967312 does not exist, and a time's symbol is one of 16 to 31
3 1 2 0 0 16: bound symbol 16 is a time, and a bound's symbol is one of 0 to 15
3 1 2 0 0 32: bound symbol 32 does not exist, and a bound's symbol is one of 0 to 15
2 2 1 1 31 0: limit symbol 31 is a time, and a limit's symbol is one of 0 to 15
0 6 0 255 16 7: limit symbol 16 is a time, and a limit's symbol is one of 0 to 15
0 7 0 255 55 99: limit symbol 55 does not exist, and a limit's symbol is one of 0 to 15
";

#[test]
fn words_for_numbers() {
    hints_of_lines(Refusal::Numbers, NUMBERS, (0, 0, 0, 0, 0, u64::MAX));
}

#[test]
fn words_for_shapes() {
    let (shape, before) = (Refusal::Shape, "the tree ends before this record");
    hints(shape, &[BLOCK, BLOCK, BLOCK], 1, before);
    hints(shape, &[LOOP, BLOCK, BLOCK, sequence(9)], 3, before);

    let wants = |wanted: &str| format!("wants {wanted} when the table ends");
    hints(shape, &[sequence(1)], 0, &wants("1 child and has 0"));
    let one = [sequence(3), BLOCK];
    hints(shape, &one, 0, &wants("3 children and has 1"));
    // Of two that want children the inner one, and not a later record that has all its own.
    let inner = [sequence(3), BLOCK, LOOP, sequence(1), BLOCK];
    hints(shape, &inner, 2, &wants("2 children and has 1"));
}

#[test]
fn words_for_depth() {
    let deep = "stands at depth 33, and 32 is the most";
    let chain = [vec![sequence(1); 32], vec![BLOCK]].concat();
    hints(Refusal::Depth, &chain, 32, deep);
    let loops = [vec![LOOP; 9], vec![BLOCK; 10]].concat();
    let many = "has 9 loops around it, and 8 is the most";
    hints(Refusal::Depth, &loops, 9, many);
    let both = [vec![sequence(1); 23], loops].concat();
    hints(Refusal::Depth, &both, 32, deep);
}

#[test]
fn words_for_named_loops() {
    let hints = |records: &[Record], record, named: u8, around: &str| {
        let body = "a loop is around its body, not its exit";
        let what = format!(
            "its limit names loop {named}, counted outward, and {around} around it ({body})"
        );
        hints(Refusal::NamedLoop, records, record, &what);
    };
    hints(&[limited(1)], 0, 1, "no loop is");
    let exit = [LOOP, limited(1), limited(1)];
    hints(&exit, 2, 1, "no loop is");
    let body = [LOOP, limited(3), limited(1)];
    hints(&body, 1, 3, "1 loop is");
    let loops = [vec![LOOP; 7], vec![limited(8)], vec![BLOCK; 7]].concat();
    hints(&loops, 7, 8, "7 loops are");
}

#[test]
fn words_for_weights() {
    let whole_run = [vec![LOOP; 8], vec![limited(255)], vec![BLOCK; 8]].concat();
    let what = "its limit weighs 256 and brings the sum of weights to 256, above 255";
    hints(Refusal::Weight, &whole_run, 8, what);
    // 4, 128, 64 and 128 again under 7 loops; the exits' limits come too late to show it.
    let limits = [3, 255, 7, 255].map(limited);
    let body = [&[sequence(4)], &limits[..]].concat();
    let loops = [vec![LOOP; 7], body, vec![limited(255); 7]].concat();
    let what = "its limit weighs 128 and brings the sum of weights to 324, above 255";
    hints(Refusal::Weight, &loops, 11, what);
}

/// A block with a paired symbol weighs as a limit in the whole run does, beside its own limit.
#[test]
fn words_for_weights_of_paired_symbols() {
    let paired = |symbol, names| (0, 1, 0, names, u32::from(names > 0), symbol);
    let in_loops = |loops, body: &[Record]| {
        let body = [&[sequence(body.len() as u8)], body].concat();
        [vec![LOOP; loops], body, vec![BLOCK; loops]].concat()
    };
    for symbol in [24, 31] {
        let what = "its paired symbol weighs 256 and brings the sum of weights to 256, above 255";
        hints(Refusal::Weight, &in_loops(8, &[paired(symbol, 0)]), 9, what);
        let body = [
            paired(symbol, 0),
            limited(7),
            paired(symbol, 0),
            paired(24, 0),
        ];
        let what = "its paired symbol weighs 128 and brings the sum of weights to 320, above 255";
        hints(Refusal::Weight, &in_loops(7, &body), 10, what);
        let body = [limited(255), paired(symbol, 1)];
        let what =
            "its limit weighs 1, its paired symbol 128, and both bring the sum of weights to 257, above 255";
        hints(Refusal::Weight, &in_loops(7, &body), 9, what);
        let body = [paired(symbol, 255)];
        let what =
            "its limit weighs 128, its paired symbol 128, and both bring the sum of weights to 256, above 255";
        hints(Refusal::Weight, &in_loops(7, &body), 8, what);
        // After such a one a limit too many is still a limit.
        let body = [paired(symbol, 0), limited(255)];
        let what = "its limit weighs 128 and brings the sum of weights to 256, above 255";
        hints(Refusal::Weight, &in_loops(7, &body), 9, what);
    }
    assert!(check(&table(&in_loops(8, &[paired(23, 0)]))).is_ok());
    assert!(check(&table(&in_loops(7, &[paired(24, 0)]))).is_ok());
}

#[test]
fn no_hint_where_no_record_shows_it() {
    let bad = [table(&[(7, 0, 0, 0, 0, 0)]), vec![0; 3]].concat();
    assert_eq!(check(&bad), Err(Refusal::Length));
    for refusal in Refusal::ALL {
        let is_shown = (2..=7).contains(&refusal.number());
        assert!(is_shown || find(&bad, refusal).is_none(), "{refusal}");
    }
}

// What a reader agrees with.

/// Judges hints, and counts the answers of the library and the words of the hints.
#[derive(Default)]
struct Judge {
    /// By the refusal's number; 0 for accepted tables.
    answers: [u64; 8],
    /// By the words without their numbers.
    words: BTreeMap<String, u64>,
}

impl Judge {
    fn judge(&mut self, table: &[u8]) {
        let answer = check(table);
        self.answers[answer.map_or_else(|refusal| refusal.number() as usize, |_| 0)] += 1;
        match answer {
            Ok(_) => {
                let hints = Refusal::ALL.map(|refusal| find(table, refusal));
                assert!(
                    hints.iter().all(Option::is_none),
                    "{hints:?}\n{}",
                    shown(table)
                );
            }
            Err(Refusal::Length) => assert_eq!(find(table, Refusal::Length), None),
            Err(refusal) => self.judge_hint(table, refusal),
        }
    }

    fn judge_hint(&mut self, table: &[u8], refusal: Refusal) {
        let Some(hint) = find(table, refusal) else {
            panic!("{refusal}, without a hint\n{}", shown(table));
        };
        let agrees = agrees(table, refusal, &hint);
        assert!(agrees, "{refusal}\n{hint:?}\n{}", shown(table));
        let words = hint
            .what
            .replace(|letter: char| letter.is_ascii_digit(), "");
        *self.words.entry(words).or_default() += 1;
    }

    /// Asserts that each of these answers occurred so often, and so many different words.
    fn assert_reached(&self, answers: &[(usize, u64)], words: usize) {
        for &(answer, times) in answers {
            assert!(self.answers[answer] >= times, "{:?}", self.answers);
        }
        assert!(self.words.len() >= words, "{:#?}", self.words);
    }
}

fn agrees(table: &[u8], refusal: Refusal, hint: &Hint) -> bool {
    let (record, what) = (hint.record, &hint.what);
    match refusal {
        Refusal::Fields | Refusal::Numbers => {
            is_first(table, refusal, record, with_blocks_from)
                && words_lead(
                    &table[record * RECORD_BYTES..][..RECORD_BYTES],
                    refusal,
                    what,
                )
        }
        Refusal::Shape => ends_there(table, record, what),
        Refusal::Depth => is_first_too_deep(table, record, what),
        Refusal::NamedLoop => {
            let names = u64::from(table[record * RECORD_BYTES + 3]);
            let mut words = vec![names, loops_around(table)[record]];
            words.retain(|&number| number > 0);
            is_first(table, refusal, record, without_limits_from) && numbers(what) == words
        }
        Refusal::Weight => {
            let weights = weights(table);
            let (limit, paired) = weights[record];
            let sum = weights[..=record]
                .iter()
                .map(|(limit, paired)| limit + paired);
            let mut words = vec![limit, paired, sum.sum(), 255];
            words.retain(|&number| number > 0);
            is_first(table, refusal, record, without_limits_from)
                && numbers(what) == words
                && what.contains("limit weighs") == (limit > 0)
                && what.contains("paired symbol") == (paired > 0)
        }
        _ => false,
    }
}

/// Makes a table's records harmless, from that one on.
type Harmless = fn(&[u8], usize) -> Vec<u8>;

/// Whether the table is refused so still when the records after that one are harmless, and no more when it is harmless too.
fn is_first(table: &[u8], refusal: Refusal, record: usize, harmless: Harmless) -> bool {
    let [after, too] = [record + 1, record].map(|from| harmless(table, from));
    is_refused(&after, refusal) && !is_refused(&too, refusal)
}

fn is_refused(table: &[u8], refusal: Refusal) -> bool {
    check(table) == Err(refusal)
}

/// The table with blocks in place of the records from that one on.
fn with_blocks_from(table: &[u8], record: usize) -> Vec<u8> {
    let mut blocks = table[..record * RECORD_BYTES].to_vec();
    damage::add_blocks(&mut blocks, damage::records(table) - record);
    blocks
}

/// The table without the limits and paired symbols of the records from that one on.
fn without_limits_from(table: &[u8], record: usize) -> Vec<u8> {
    let mut table = table.to_vec();
    for record in table.chunks_exact_mut(RECORD_BYTES).skip(record) {
        if is_paired(record) {
            record[1] = 0;
            record[8..16].fill(0);
        }
        record[1] &= 1;
        record[3..8].fill(0);
    }
    table
}

fn is_paired(record: &[u8]) -> bool {
    record[0] == 0 && record[1] & 1 > 0 && (24..32).contains(&record[8]) && record[9..16] == [0; 7]
}

/// Whether words lead to what is wrong with a record: mending the field that they name, and what the next words name, ends the refusal;
/// and each of these fields alone, as it was before, brings it back.
fn words_lead(record: &[u8], refusal: Refusal, what: &str) -> bool {
    let mut mended = record.to_vec();
    let mut what = what.to_owned();
    let mut changes = Vec::new();
    while is_refused(&mended, refusal) && changes.len() < 9 {
        let before = mended.clone();
        let Some(edit) = mending(&before, &what) else {
            return false;
        };
        edit.apply(&mut mended, 0);
        changes.push(differences(&before, &mended));
        what = find(&mended, refusal).map_or(String::new(), |hint| hint.what);
    }
    let undone = changes.iter().map(|change| differences(&mended, change));
    let mut undone = undone.map(|record| is_refused(&record, refusal));
    !is_refused(&mended, refusal) && undone.all(|is_refused| is_refused)
}

/// The bits in which records differ; or, of a record and such bits, the other record.
fn differences(record: &[u8], other: &[u8]) -> Vec<u8> {
    let bytes = record.iter().zip(other);
    bytes.map(|(byte, other)| byte ^ other).collect()
}

/// How a reader mends the field that the words name, if it holds what they say.
fn mending(record: &[u8], what: &str) -> Option<Edit> {
    let [kind, flags, children, names] = [0, 1, 2, 3].map(|byte: usize| record[byte]);
    let limit = u32::from_le_bytes(record[4..8].try_into().ok()?);
    let value = u64::from_le_bytes(record[8..16].try_into().ok()?);
    let (a_kind, right) = match kind {
        0 => ("a block", 0),
        1 => ("a sequence", 1),
        2 => ("a choice", 1),
        _ => ("a loop", 2),
    };
    let mendings = [
        (format!("kind {kind} is none of"), Edit::Kind(0)),
        (format!("byte 1 is {flags},"), Edit::Flags(flags & 7)),
        (
            format!("{a_kind} cannot have flag 1"),
            Edit::Flags(flags & !1),
        ),
        ("flag 2 ".into(), Edit::Flags(flags & !2)),
        ("flag 4 ".into(), Edit::Flags(flags & !4)),
        (
            format!("{a_kind} has {children} child"),
            Edit::Children(right),
        ),
        (format!("byte 3 is {names},"), Edit::Names(255)),
        (format!("a limit of {limit} "), Edit::Limit(0)),
        (format!("{a_kind} has the value {value} "), Edit::Value(0)),
        (format!("time {value} is above"), Edit::Value(0)),
        (format!("time symbol {value} "), Edit::Value(16)),
        (format!("bound {value} is above"), Edit::Value(0)),
        (format!("bound symbol {value} "), Edit::Value(0)),
        (format!("limit {limit} is above"), Edit::Limit(0)),
        (format!("limit symbol {limit} "), Edit::Limit(0)),
    ];
    let fillers = [20, 21, 22, 23].map(|byte| {
        let words = format!("byte {byte} is {} and can only be", record[byte]);
        (words, Edit::Filler(byte - 20, 255))
    });
    let mut mendings = mendings.into_iter().chain(fillers);
    mendings.find_map(|(words, edit)| what.starts_with(&words).then_some(edit))
}

/// Whether the records before that one are a whole tree; or else no records before it are, and those from it on would be one if it wanted
/// no more children than the words say that it has.
fn ends_there(table: &[u8], record: usize, what: &str) -> bool {
    let (before, after) = table.split_at(record * RECORD_BYTES);
    if what == "the tree ends before this record" {
        return is_tree(before);
    }
    let [wanted, has] = numbers(what)[..] else {
        return false;
    };
    let top = if has == 0 { BLOCK } else { sequence(has as u8) };
    let with_what_it_has = [self::table(&[top]).as_slice(), &after[RECORD_BYTES..]].concat();
    wanted == u64::from(after[2])
        && wanted > has
        && is_tree(&with_what_it_has)
        && (1..=record).all(|records| !is_tree(&table[..records * RECORD_BYTES]))
}

/// Whether questions 1 to 4 say yes.
fn is_tree(table: &[u8]) -> bool {
    check(table).map_or_else(|refusal| refusal.number() > 4, |_| true)
}

/// Whether the tree down to that record's place is refused 5 and the tree down to the place before is not. Blocks stand for what would
/// come then, and none of them is deeper than the first, or has more loops around it.
fn is_first_too_deep(table: &[u8], record: usize, what: &str) -> bool {
    let is_too_deep = |table: &[u8], place| is_refused(&down_to(table, place), Refusal::Depth);
    let words = if is_too_deep(&with_sequences_for_loops(table), record) {
        "stands at depth 33, and 32 is the most"
    } else {
        "has 9 loops around it, and 8 is the most"
    };
    is_too_deep(table, record) && !is_too_deep(table, record - 1) && what == words
}

/// The records before that one, and blocks for the children that they still want.
fn down_to(table: &[u8], record: usize) -> Vec<u8> {
    let mut table = table[..record * RECORD_BYTES].to_vec();
    let children = table
        .chunks_exact(RECORD_BYTES)
        .map(|record| usize::from(record[2]));
    let children: usize = children.sum();
    damage::add_blocks(&mut table, 1 + children - record);
    table
}

fn with_sequences_for_loops(table: &[u8]) -> Vec<u8> {
    let mut table = table.to_vec();
    for record in table
        .chunks_exact_mut(RECORD_BYTES)
        .filter(|record| record[0] == 3)
    {
        record[0] = 1;
        record[1] &= !1;
        record[8..16].fill(0);
    }
    table
}

/// How many loops are around each record of a table that only questions 6 and 7 refuse, by the second reader's tree.
fn loops_around(table: &[u8]) -> Vec<u64> {
    let tree = reader::check(&without_limits_from(table, 0)).expect("a tree");
    let around = trees::loops_around(&tree).into_iter();
    around.map(|loops| loops as u64).collect()
}

/// What each record's limit weighs, and what its paired symbol.
fn weights(table: &[u8]) -> Vec<(u64, u64)> {
    let weigh = |(record, around): (&[u8], u64)| {
        let run = 1_u64 << around;
        let limit = match record[3] {
            0 => 0,
            255 => run,
            names => 1 << (names - 1),
        };
        (limit, if is_paired(record) { run } else { 0 })
    };
    let records = table.chunks_exact(RECORD_BYTES);
    records.zip(loops_around(table)).map(weigh).collect()
}

/// The numbers in some words.
fn numbers(words: &str) -> Vec<u64> {
    let parts = words.split(|letter: char| !letter.is_ascii_digit());
    parts.filter_map(|part| part.parse().ok()).collect()
}

// Damaged tables.

fn start(seed: u64) -> (Rng, Judge) {
    (Rng::new(seed), Judge::default())
}

/// Mostly small, at times of a few hundred records.
fn records(rng: &mut Rng) -> usize {
    let most = rng.pick(&[6, 15, 15, 40, 40, 100, 300]);
    rng.size(1..=most)
}

fn good_table(rng: &mut Rng) -> Vec<u8> {
    let records = records(rng);
    trees::within_limits(rng, records).encode()
}

fn small_tree(rng: &mut Rng) -> Tree {
    let size = rng.size(1..=24);
    let mut tree = trees::grow(rng, size, 32, 8);
    let wanted = rng.within(0..=255);
    trees::put_limits(rng, &mut tree, wanted);
    tree
}

#[test]
fn each_field_at_its_ends() {
    let (mut rng, mut judge) = start(1);
    let single = damage::field_ends().into_iter().map(|edit| vec![edit]);
    let edits: Vec<Vec<Edit>> = single.chain(damage::joined_ends()).collect();
    for _ in 0..20 {
        let table = small_tree(&mut rng).encode();
        for record in 0..damage::records(&table) {
            for edits in &edits {
                let mut edited = table.clone();
                for edit in edits {
                    edit.apply(&mut edited, record);
                }
                judge.judge(&edited);
            }
        }
    }
    judge.assert_reached(&[(0, 20_000), (2, 90_000), (3, 50_000), (6, 5_000)], 25);
}

#[test]
fn several_fields_and_random_bits() {
    let (mut rng, mut judge) = start(2);
    for _ in 0..45_000 {
        let mut table = good_table(&mut rng);
        let mut flipped = table.clone();
        for _ in 0..rng.size(1..=4) {
            let record = damage::random_record(&mut rng, &table);
            damage::random_edit(&mut rng).apply(&mut table, record);
        }
        judge.judge(&table);
        let bits = rng.pick(&[1, 1, 2, 3, 8]);
        damage::flip_bits(&mut rng, &mut flipped, bits);
        judge.judge(&flipped);
    }
    judge.assert_reached(&[(0, 5_000), (2, 50_000), (3, 10_000), (6, 2_000)], 25);
}

#[test]
fn records_too_many_and_too_few() {
    let (mut rng, mut judge) = start(3);
    for round in 0..50_000 {
        let mut table = good_table(&mut rng);
        let record = damage::random_record(&mut rng, &table);
        match round % 6 {
            0 => damage::swap_records(&mut rng, &mut table),
            1 => damage::duplicate_record(&mut rng, &mut table),
            2 => damage::remove_record(&mut rng, &mut table),
            3 => damage::add_blocks(&mut table, 1 + record % 16),
            4 => table.truncate((record + 1) * RECORD_BYTES),
            _ => Edit::Children(rng.pick(&damage::CHILDREN)).apply(&mut table, record),
        }
        judge.judge(&table);
    }
    judge.assert_reached(&[(0, 5_000), (2, 5_000), (4, 30_000)], 12);
}

#[test]
fn trees_about_the_limits_of_question_5() {
    let (mut rng, mut judge) = start(4);
    for _ in 0..25_000 {
        let (tree, ..) = trees::about_question_5(&mut rng);
        judge.judge(&tree.encode());
    }
    judge.assert_reached(&[(0, 5_000), (5, 15_000)], 2);
}

#[test]
fn limits_that_name_no_loop_or_weigh_too_much() {
    let (mut rng, mut judge) = start(5);
    for _ in 0..30_000 {
        let size = rng.size(10..=120);
        let mut tree = trees::without_limits(&mut rng, size);
        let wanted = rng.pick(&[255, 256, 257, 300, 2_000]);
        trees::put_limits(&mut rng, &mut tree, wanted);
        let mut table = tree.encode();
        judge.judge(&table);
        for _ in 0..rng.size(1..=3) {
            let record = rng.index(size);
            Edit::Names(rng.within(1..=8) as u8).apply(&mut table, record);
        }
        judge.judge(&table);
    }
    judge.assert_reached(&[(0, 20_000), (6, 25_000), (7, 9_000)], 4);
}

/// With limits beside them and without, on the same blocks and on others.
#[test]
fn paired_symbols_that_weigh_too_much() {
    let (mut rng, mut judge) = start(8);
    for _ in 0..20_000 {
        let size = rng.size(10..=120);
        let mut tree = trees::without_limits(&mut rng, size);
        let wanted = rng.pick(&[0, 100, 240]);
        trees::put_limits(&mut rng, &mut tree, wanted);
        let mut table = tree.encode();
        let often = rng.within(1..=5);
        for record in table.chunks_exact_mut(RECORD_BYTES) {
            if record[0] == 0 && rng.once_in(often) {
                record[1] |= 1;
                record[8..16].copy_from_slice(&rng.within(24..=31).to_le_bytes());
            }
        }
        judge.judge(&table);
    }
    judge.assert_reached(&[(0, 3_000), (7, 5_000)], 3);
}

#[test]
fn of_many_faults_those_of_the_lowest_number() {
    let (mut rng, mut judge) = start(6);
    for _ in 0..30_000 {
        let often = rng.within(1..=6);
        let faults: Vec<u64> = (2..=7).filter(|_| rng.once_in(often)).collect();
        let tree = faults::tree(&mut rng, &faults);
        judge.judge(&faults::table(&mut rng, &tree, &faults));
    }
    judge.assert_reached(&[0, 2, 3, 4, 5, 6, 7].map(|answer| (answer, 1_000)), 15);
}

#[test]
fn noise_of_every_kind() {
    let (mut rng, mut judge) = start(7);
    for _ in 0..4_000 {
        for kind in noise::KINDS {
            judge.judge(&kind(&mut rng));
        }
    }
    let least = [(0, 5_000), (1, 2_000), (2, 5_000), (4, 4_000), (6, 1_000)];
    judge.assert_reached(&least, 25);
}
