//! `vf_check` on random, damaged and noisy tables, against the second reader and, where a table's
//! answer is known by construction, against that. Each test asserts that it has reached the answers
//! it is for, so that none passes idly. The seeds are fixed: every run makes the same tables.

use volefleece::raw::Checked;
use volefleece_tests::compare::Comparison;
use volefleece_tests::damage::{self, Edit};
use volefleece_tests::faults;
use volefleece_tests::noise;
use volefleece_tests::reader;
use volefleece_tests::rng::Rng;
use volefleece_tests::trees::{self, Kind, Tree};

fn start(seed: u64) -> (Rng, Comparison) {
    (Rng::new(seed), Comparison::new(seed))
}

/// Mostly small, at times of a few hundred records.
fn records(rng: &mut Rng) -> usize {
    let most = rng.pick(&[6, 15, 15, 40, 40, 40, 100, 300]);
    rng.size(1..=most)
}

fn good_tree(rng: &mut Rng) -> Tree {
    let records = records(rng);
    trees::within_limits(rng, records)
}

fn good_table(rng: &mut Rng) -> Vec<u8> {
    good_tree(rng).encode()
}

// Trees at the limits, their answers known by construction.

#[test]
fn trees_within_limits_are_accepted() {
    let (mut rng, mut comparison) = start(1);
    for _ in 0..40_000 {
        let tree = good_tree(&mut rng);
        let table = tree.encode();
        comparison.expect(&table, Checked::accept(tree.records()));
        assert!(reader::check(&table) == Ok(tree), "read back");
    }
    comparison.assert_triangular(15_000);
    comparison.assert_paired(15_000, 0);
}

#[test]
fn largest_tables_are_accepted_and_one_record_more_is_refused_1() {
    let (mut rng, mut comparison) = start(2);
    for round in 0..1_500 {
        let mut tree = largest_tree(&mut rng, round);
        let wanted = rng.within(0..=255);
        trees::put_weights(&mut rng, &mut tree, wanted);
        let mut table = tree.encode();
        comparison.expect(&table, Checked::accept(512));

        damage::drop_records(&mut table, 1);
        comparison.expect(&table, Checked::refuse(4));
        damage::add_blocks(&mut table, 2);
        comparison.expect(&table, Checked::refuse(1));
    }
}

/// A tree of 512 records: wide, deep or mixed.
fn largest_tree(rng: &mut Rng, round: usize) -> Tree {
    match round % 3 {
        0 => {
            let wide = Tree::new(Kind::Choice, vec![Tree::block(7); 255]);
            let narrow = Tree::new(Kind::Sequence, vec![Tree::block(8)]);
            let mut children = [vec![wide, narrow], vec![Tree::block(9); 253]].concat();
            rng.shuffle(&mut children);
            Tree::new(Kind::Sequence, children)
        }
        1 => {
            let loops = rng.size(0..=8);
            let mut tree = trees::spine(rng, 32, loops);
            trees::pad(rng, &mut tree, 512);
            tree
        }
        _ => {
            let depth = rng.size(3..=32);
            let loops = rng.size(0..=8);
            trees::grow(rng, 512, depth, loops)
        }
    }
}

#[test]
fn trees_at_the_limits_of_question_5() {
    let (mut rng, mut comparison) = start(3);
    for _ in 0..30_000 {
        let (tree, depth, loops) = trees::about_question_5(&mut rng);
        let expected = if depth <= 32 && loops <= 8 {
            Checked::accept(tree.records())
        } else {
            Checked::refuse(5)
        };
        comparison.expect(&tree.encode(), expected);
    }
    comparison.assert_reached(&[(0, 5_000), (5, 5_000)]);
}

#[test]
fn trees_at_the_limits_of_question_6() {
    let (mut rng, mut comparison) = start(4);
    for _ in 0..30_000 {
        let size = records(&mut rng);
        let mut tree = trees::without_limits(&mut rng, size);
        // Light enough that one more limit of weight 128 does no harm.
        let wanted = rng.within(0..=127);
        trees::put_weights(&mut rng, &mut tree, wanted);
        let around = trees::loops_around(&tree);
        let mut table = tree.encode();

        let node = rng.index(size);
        let outermost = around[node] as u8;
        if outermost > 0 {
            Edit::Names(outermost).apply(&mut table, node);
            comparison.expect(&table, Checked::accept(size));
        }
        if outermost < 8 {
            let past = outermost + 1;
            let further = rng.within(u64::from(past)..=8) as u8;
            let names = rng.pick(&[past, past, further]);
            Edit::Names(names).apply(&mut table, node);
            comparison.expect(&table, Checked::refuse(6));
        }
    }
    comparison.assert_reached(&[(0, 10_000), (6, 10_000)]);
}

#[test]
fn trees_at_the_limits_of_question_7() {
    let (mut rng, mut comparison) = start(5);
    let (mut full, mut over_by_1) = (0, 0);
    for _ in 0..30_000 {
        let size = rng.size(20..=150);
        let mut tree = trees::without_limits(&mut rng, size);
        let wanted = match rng.index(4) {
            0 => 255,
            1 => 256,
            2 => rng.within(250..=262),
            _ => rng.within(1..=2_000),
        };
        let weight = trees::put_weights(&mut rng, &mut tree, wanted);
        full += u64::from(weight == 255);
        over_by_1 += u64::from(weight == 256);
        let expected = if weight <= 255 {
            Checked::accept(size)
        } else {
            Checked::refuse(7)
        };
        comparison.expect(&tree.encode(), expected);
    }
    comparison.assert_reached(&[(0, 5_000), (7, 5_000)]);
    comparison.assert_paired(3_000, 3_000);
    assert!(full >= 3_000 && over_by_1 >= 3_000, "{full}, {over_by_1}");
}

// The order of the questions.

#[test]
fn of_many_faults_the_lowest_number_answers() {
    let (mut rng, mut comparison) = start(6);
    for _ in 0..40_000 {
        let often = rng.within(1..=6);
        let faults: Vec<u64> = (1..=7).filter(|_| rng.once_in(often)).collect();
        let tree = faults::tree(&mut rng, &faults);
        let table = faults::table(&mut rng, &tree, &faults);
        let expected = match faults.first() {
            Some(&lowest) => Checked::refuse(lowest),
            None => Checked::accept(damage::records(&table)),
        };
        comparison.expect(&table, expected);
    }
    comparison.assert_reached(&[0, 1, 2, 3, 4, 5, 6, 7].map(|answer| (answer, 1_000)));
    comparison.assert_paired(500, 500);
}

// Damaged tables.

#[test]
fn each_field_at_its_ends() {
    let (mut rng, mut comparison) = start(7);
    let edits = damage::field_ends();
    for round in 0..80 {
        let table = small_table(&mut rng, round);
        for record in 0..damage::records(&table) {
            for &edit in &edits {
                compare_edited(&mut comparison, &table, record, &[edit]);
            }
        }
    }
    comparison.assert_reached(&[(0, 5_000), (2, 5_000), (3, 3_000), (4, 300), (6, 1_000)]);
    comparison.assert_triangular(10_000);
}

#[test]
fn flags_with_values_and_limits_at_their_ends() {
    let (mut rng, mut comparison) = start(8);
    let edits = damage::joined_ends();
    for round in 0..24 {
        let table = small_table(&mut rng, round);
        for record in 0..damage::records(&table) {
            for edits in &edits {
                compare_edited(&mut comparison, &table, record, edits);
            }
        }
    }
    comparison.assert_reached(&[(0, 5_000), (2, 5_000), (3, 3_000), (6, 1_000)]);
    comparison.assert_triangular(10_000);
}

/// A tree of a few records, on some rounds one with 8 loops.
fn small_table(rng: &mut Rng, round: usize) -> Vec<u8> {
    let mut tree = if round.is_multiple_of(4) {
        trees::spine(rng, 11, 8)
    } else {
        let size = rng.size(1..=24);
        trees::grow(rng, size, 32, 8)
    };
    let wanted = rng.within(0..=255);
    trees::put_weights(rng, &mut tree, wanted);
    tree.encode()
}

fn compare_edited(comparison: &mut Comparison, table: &[u8], record: usize, edits: &[Edit]) {
    let mut edited = table.to_vec();
    for edit in edits {
        edit.apply(&mut edited, record);
    }
    comparison.check(&edited);
}

#[test]
fn several_fields_of_several_records() {
    let (mut rng, mut comparison) = start(9);
    for _ in 0..40_000 {
        let mut table = good_table(&mut rng);
        for _ in 0..rng.size(1..=4) {
            let record = damage::random_record(&mut rng, &table);
            damage::random_edit(&mut rng).apply(&mut table, record);
        }
        comparison.check(&table);
    }
    comparison.assert_reached(&[(0, 1_000), (2, 5_000), (3, 1_000)]);
}

#[test]
fn truncated_tables_are_refused_1_or_4() {
    let (mut rng, mut comparison) = start(10);
    for _ in 0..1_500 {
        let table = good_table(&mut rng);
        for missing in 1..=23 {
            let part = &table[..table.len() - missing];
            comparison.expect(part, Checked::refuse(1));
        }
        for left in last_few(damage::records(&table)) {
            let refused = if left == 0 { 1 } else { 4 };
            comparison.expect(&table[..left * 24], Checked::refuse(refused));
        }
    }
    comparison.assert_reached(&[(1, 5_000), (4, 5_000)]);
}

/// Up to 16 numbers below that one.
fn last_few(records: usize) -> std::ops::Range<usize> {
    records.saturating_sub(16)..records
}

#[test]
fn extended_tables_are_refused_1_or_4() {
    let (mut rng, mut comparison) = start(11);
    for _ in 0..5_000 {
        let mut table = good_table(&mut rng);
        let odd = rng.size(1..=23);
        let odd_table = [&table[..], &vec![0; odd]].concat();
        comparison.expect(&odd_table, Checked::refuse(1));

        let again = [&table[..], &table[..]].concat();
        let refused = if again.len() > 12_288 { 1 } else { 4 };
        comparison.expect(&again, Checked::refuse(refused));

        let most = 512 - damage::records(&table);
        let blocks = rng.size(1..=most);
        damage::add_blocks(&mut table, blocks);
        comparison.expect(&table, Checked::refuse(4));
        damage::add_blocks(&mut table, most - blocks + 1);
        comparison.expect(&table, Checked::refuse(1));
    }
    comparison.assert_reached(&[(1, 5_000), (4, 5_000)]);
}

#[test]
fn records_swapped_duplicated_and_removed() {
    let (mut rng, mut comparison) = start(12);
    for round in 0..60_000 {
        let mut table = good_table(&mut rng);
        match round % 3 {
            0 => damage::swap_records(&mut rng, &mut table),
            1 => damage::duplicate_record(&mut rng, &mut table),
            _ => damage::remove_record(&mut rng, &mut table),
        }
        comparison.check(&table);
    }
    comparison.assert_reached(&[(0, 5_000), (4, 5_000), (6, 1_000)]);
}

#[test]
fn child_counts_off_by_one_are_refused_2_or_4() {
    let (mut rng, mut comparison) = start(13);
    for _ in 0..40_000 {
        let mut table = good_table(&mut rng);
        let record = damage::random_record(&mut rng, &table);
        let (kind, children) = (table[record * 24], table[record * 24 + 2]);
        let wrong = if rng.once_in(2) {
            children.wrapping_add(1)
        } else {
            children.wrapping_sub(1)
        };
        Edit::Children(wrong).apply(&mut table, record);
        let is_list = kind == 1 || kind == 2;
        let refused = if is_list && wrong != 0 { 4 } else { 2 };
        comparison.expect(&table, Checked::refuse(refused));
    }
    comparison.assert_reached(&[(2, 5_000), (4, 5_000)]);
}

#[test]
fn random_bit_flips() {
    let (mut rng, mut comparison) = start(14);
    for _ in 0..60_000 {
        let mut table = good_table(&mut rng);
        let bits = rng.pick(&[1, 1, 1, 2, 3, 8]);
        damage::flip_bits(&mut rng, &mut table, bits);
        comparison.check(&table);
    }
    comparison.assert_reached(&[(0, 5_000), (2, 5_000), (3, 5_000), (4, 300)]);
}

// Noise.

#[test]
fn raw_noise() {
    let (mut rng, mut comparison) = start(15);
    for _ in 0..4_000 {
        comparison.check(&noise::bytes(&mut rng));
        comparison.check(&noise::whole_records(&mut rng));
    }
    comparison.assert_reached(&[(1, 3_000), (2, 1_000)]);
}

#[test]
fn noise_of_small_bytes() {
    let (mut rng, mut comparison) = start(16);
    for _ in 0..60_000 {
        comparison.check(&noise::small_bytes(&mut rng));
    }
    comparison.assert_reached(&[(0, 1_000), (2, 5_000), (3, 100), (4, 1_000), (6, 100)]);
}

#[test]
fn noise_of_good_records() {
    let (mut rng, mut comparison) = start(17);
    for _ in 0..20_000 {
        comparison.check(&noise::good_records(&mut rng));
        comparison.check(&noise::first_tree(&mut rng));
    }
    comparison.assert_reached(&[(0, 1_000), (4, 1_000), (5, 100), (6, 1_000), (7, 10)]);
    comparison.assert_triangular(1_000);
    comparison.assert_paired(1_000, 10);
}
