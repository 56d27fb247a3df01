//! The desk program as a process: its two files and its one line, against the second evaluator. The
//! program is `../target/bin/desk`, built by `./build`, or the one that `VOLEFLEECE_DESK` names.

use volefleece_tests::cases::{self, cases};
use volefleece_tests::compare::shown;
use volefleece_tests::evaluator::{self, Quoted};
use volefleece_tests::faults;
use volefleece_tests::programs::{
    complains, sample, values_file, written, Folder, FORMER, NONE, TREE, VALUES,
};
use volefleece_tests::reader;
use volefleece_tests::rng::Rng;
use volefleece_tests::tables::*;
use volefleece_tests::trees::{self, Amounts, Kind, Tree};

const DESK: &str = "desk";

/// Figures on both sides of the ceiling.
const MIDDLING: Amounts = Amounts {
    time: 10_000_000,
    bound: 200,
    limit: 1_000,
    symbols: 3,
};

/// Symbols everywhere, and figures below the ceiling as long as few values are absent.
const SMALL: Amounts = Amounts {
    time: 1_000,
    bound: 20,
    limit: 20,
    symbols: 1,
};

/// Zeros enough for a file of 41 values, which is too long.
const TOO_LONG: [u8; 328] = [0; 328];

fn with_files(tree: &[u8], values: &[u8]) -> Folder {
    let folder = Folder::with_tree(DESK, tree);
    folder.write(VALUES, values);
    folder
}

/// It writes exactly this line.
#[track_caller]
fn says(folder: &Folder, line: &str) {
    let written = folder.run(&NONE);
    assert_eq!(written.error, "");
    assert_eq!(written.output, format!("{line}\n"));
}

/// It writes this line on these files, and leaves them as they were.
#[track_caller]
fn quotes(tree: &[u8], values: &[u8], line: &str) {
    let folder = with_files(tree, values);
    says(&folder, line);
    assert_eq!(folder.read(TREE).as_deref(), Some(tree));
    assert_eq!(folder.read(VALUES).as_deref(), Some(values));
}

/// It answers what the second evaluator does, which is returned.
#[track_caller]
fn expect(tree: &[u8], values: &[u8]) -> Result<Quoted, u64> {
    println!("values {values:?}\n{}", shown(tree));
    let answer = match numbers(values) {
        Some(numbers) => evaluator::figure(tree, &numbers),
        None => reader::check(tree).and(Err(9)),
    };
    quotes(tree, values, &line(answer));
    answer
}

/// The 40 values of a file, unless its length is refused: those that it leaves out at their ceilings, but
/// for later ones, which equal their first.
fn numbers(values: &[u8]) -> Option<[u64; 40]> {
    let mut numbers = ceilings();
    let (whole, rest) = values.as_chunks();
    if whole.len() > numbers.len() || !rest.is_empty() {
        return None;
    }
    for (number, &bytes) in numbers.iter_mut().zip(whole) {
        *number = u64::from_le_bytes(bytes);
    }
    for absent in whole.len().max(32)..40 {
        numbers[absent] = numbers[absent - 8];
    }
    Some(numbers)
}

fn line(answer: Result<Quoted, u64>) -> String {
    match answer {
        Ok(Quoted { figure, branch }) => format!("figure {figure} branch {branch}"),
        Err(question) => format!("refused {question}"),
    }
}

/// A tree whose figure is its only symbol's value, the first of a paired one.
fn only_symbol(symbol: u64) -> Vec<u8> {
    match symbol {
        0..16 => symbol_repeat(symbol, block(1), block(0)),
        _ => symbol_block(symbol),
    }
}

/// A tree whose figure is the first value of a paired symbol and its later one together, of which a figure
/// that is past the ceiling is refused.
fn passed_twice(symbol: u64) -> Vec<u8> {
    repeat(2, symbol_block(symbol), block(0))
}

/// The line for that figure.
fn line_of(figure: u64) -> String {
    match figure {
        ..=1_000_000_000_000 => format!("figure {figure} branch 255"),
        _ => "refused 10".into(),
    }
}

/// What 40 absent values count.
fn ceilings() -> [u64; 40] {
    let mut ceilings = [1_000_000; 40];
    ceilings[16..].fill(1_000_000_000_000);
    ceilings
}

// Samples.

#[test]
fn the_sample_houses_figure() {
    let (tree, values) = (sample("house", TREE), sample("house", VALUES));
    quotes(&tree, &values, "figure 210910 branch 255");
}

/// The radio takes 91,200 cycles; the cards take 340 each, and 60.
#[test]
fn the_sample_entrances_branch() {
    let (tree, values) = (sample("entrance", TREE), sample("entrance", VALUES));
    quotes(&tree, &values, "figure 91200 branch 1");
    for (cards, line) in [
        (268_u64, "figure 91200 branch 1"),
        (269, "figure 91520 branch 0"),
    ] {
        let values = [&cards.to_le_bytes()[..], &values[8..]].concat();
        quotes(&tree, &values, line);
    }
}

#[test]
fn the_workshops_tree_has_the_houses_figure_before_and_after() {
    let (tree, values) = (sample("workshop", TREE), sample("workshop", VALUES));
    quotes(&tree, &values, "figure 210910 branch 255");
    let sales = Folder::with_tree("sales", &tree);
    sales.run(&NONE);
    let simple = sales.read("simple.tab").expect("a simple tree");
    quotes(&simple, &values, "figure 210910 branch 255");
}

// Files.

#[test]
fn a_missing_tree_is_empty() {
    let folder = Folder::new(DESK);
    says(&folder, "refused 1");
    folder.write(VALUES, &TOO_LONG[..320]);
    says(&folder, "refused 1");
    assert!(!folder.path(TREE).exists());
}

#[test]
fn other_lengths_of_values_are_refused_9() {
    for length in [
        1, 4, 7, 9, 15, 191, 193, 247, 249, 255, 257, 263, 265, 311, 313,
    ] {
        quotes(&block(7), &TOO_LONG[..length], "refused 9");
    }
    for length in [319, 321, 322, 324, 327, 328] {
        quotes(&block(7), &TOO_LONG[..length], "refused 9");
    }
    for length in [336, 384, 512, 640, 65_536 + 320, 100_000] {
        quotes(&block(7), &vec![0; length], "refused 9");
    }
    for length in (0..=320).step_by(8) {
        quotes(&block(7), &TOO_LONG[..length], "figure 7 branch 255");
    }
}

#[test]
fn long_trees_are_refused_1() {
    let values = [0; 320];
    let longest = long(512);
    quotes(&longest, &values, "figure 1 branch 255");
    quotes(&long(513), &values, "refused 1");
    quotes(&long(514), &values, "refused 1");
    for longer in [1, 23, 24, 25, 100_000] {
        let table = [&longest[..], &vec![0; longer]].concat();
        quotes(&table, &values, "refused 1");
    }
}

/// Three records of 16 bytes have the length of two of 24.
#[test]
fn former_tables_are_refused() {
    quotes(&Tree::block(7).encode_former(), &[], "refused 1");
    let blocks = vec![Tree::block(7), Tree::block(8)];
    let three = Tree::new(Kind::Sequence, blocks).encode_former();
    quotes(&three, &[], "refused 2");
}

#[test]
fn a_file_that_cannot_be_read_is_told() {
    let folder = Folder::new(DESK);
    folder.put_folder(TREE);
    folder.expect_complaint(&NONE, "tree.tab: ");
    folder.write(VALUES, &[0; 320]);
    folder.expect_complaint(&NONE, "tree.tab: ");
}

/// Even where the tree alone would be refused.
#[test]
fn values_that_cannot_be_read_are_told() {
    for tree in [block(7), block(7)[..23].to_vec(), Vec::new()] {
        let folder = Folder::with_tree(DESK, &tree);
        folder.put_folder(VALUES);
        folder.expect_complaint(&NONE, "values.tab: ");
    }
    let folder = Folder::new(DESK);
    folder.put_folder(VALUES);
    folder.expect_complaint(&NONE, "values.tab: ");
}

/// A read that fails at the start, or at the file's end, whatever the next one would give.
#[test]
fn a_failed_read_is_told() {
    let folder = with_files(&block(7), &[0; 320]);
    for (call, file) in [(1, TREE), (2, TREE), (3, VALUES), (4, VALUES)] {
        let mut command = folder.command_failing(&format!("read {call} 5"));
        complains(&mut command, &format!("{file}: "));
    }
}

#[test]
fn files_may_come_in_parts() {
    let (tree, values) = (sample("house", TREE), sample("house", VALUES));
    let folder = with_files(&tree, &values);
    for most in [1, 7, 100] {
        let written = written(&mut folder.command_moving(most));
        assert_eq!(written.error, "");
        assert_eq!(written.output, "figure 210910 branch 255\n");
    }
}

// Branches.

#[test]
fn a_root_choices_child_is_named() {
    for place in [0, 1, 9, 10, 99, 100, 253, 254] {
        let mut children = vec![block(3); 255];
        children[place] = block(4);
        let line = format!("figure 4 branch {place}");
        quotes(&choice(&children), &[], &line);
        let zero = format!("figure 0 branch {place}");
        quotes(&limited(choice(&children), 0, 255), &[], &zero);
    }
    quotes(&choice(&[block(3), block(3)]), &[], "figure 3 branch 0");
    let limited = choice(&[limited(block(9), 0, 255), block(3), block(3)]);
    quotes(&limited, &[], "figure 3 branch 1");
    quotes(&sequence(&[limited]), &[], "figure 3 branch 255");
}

#[test]
fn written_and_absent_values_move_the_branch() {
    let tree = choice(&[symbol_block(16), symbol_block(17)]);
    let mut values = [0; 18];
    (values[16], values[17]) = (5, 6);
    let file = values_file(&values);
    quotes(&tree, &file, "figure 6 branch 1");
    quotes(&tree, &file[..8 * 17], "figure 1000000000000 branch 1");
    quotes(&tree, &file[..8 * 16], "figure 1000000000000 branch 0");
    values[17] = 5;
    quotes(&tree, &values_file(&values), "figure 5 branch 0");
}

/// Sales and reception share figures, not branches.
#[test]
fn a_simplified_tree_may_have_another_branch() {
    let tree = choice(&[block(0), symbol_block(16), block(3)]);
    let mut values = [0; 40];
    values[16] = 9;
    let values = values_file(&values);
    quotes(&tree, &values, "figure 9 branch 1");
    let sales = Folder::with_tree("sales", &tree);
    sales.run(&NONE);
    let simple = sales.read("simple.tab").expect("a simple tree");
    quotes(&simple, &values, "figure 9 branch 0");
}

// Absent values.

#[test]
fn the_smallest_trees_with_all_values_written() {
    quotes(&block(7), &[0; 320], "figure 7 branch 255");
    quotes(&symbol_block(16), &[0; 320], "figure 0 branch 255");
    quotes(&passed_twice(24), &[0; 320], "figure 0 branch 255");
}

#[test]
fn missing_values_count_their_ceilings() {
    for (tree, line) in [
        (block(7), "figure 7 branch 255"),
        (symbol_block(16), "figure 1000000000000 branch 255"),
        (symbol_block(31), "figure 1000000000000 branch 255"),
        (
            symbol_repeat(0, block(1), block(0)),
            "figure 1000000 branch 255",
        ),
        (
            symbol_repeat(15, block(3), block(2)),
            "figure 3000002 branch 255",
        ),
        (
            repeat(5, symbol_limited(block(2), 3, 1), block(0)),
            "figure 10 branch 255",
        ),
    ] {
        let folder = Folder::with_tree(DESK, &tree);
        says(&folder, line);
        assert!(!folder.path(VALUES).exists());
        quotes(&tree, &[], line);
    }
}

#[test]
fn every_number_of_values_may_be_written() {
    // The later values are each 1 below their first.
    let written: [u64; 40] = std::array::from_fn(|at| match at {
        0..32 => 1 + at as u64,
        _ => at as u64 - 8,
    });
    for count in 0..=40 {
        let low = values_file(&written[..count]);
        let high = values_file(&ceilings()[..count]);
        for (symbol, value) in written[..32].iter().enumerate() {
            let tree = only_symbol(symbol as u64);
            let ceiling = format!("figure {} branch 255", ceilings()[symbol]);
            if symbol < count {
                quotes(&tree, &low, &format!("figure {value} branch 255"));
                quotes(&tree, &high, &ceiling);
            } else {
                quotes(&tree, &low, &ceiling);
            }
        }
        for first in 24..32 {
            let numbers = [&written[..count], &ceilings()[count..]].concat();
            let later = if first + 8 < count { first + 8 } else { first };
            let line = line_of(numbers[first] + numbers[later]);
            quotes(&passed_twice(first as u64), &low, &line);
        }
    }
}

/// Each of these lengths at the ends of the firsts and the laters, symbol 24 and 31 being 5 and their later
/// values 3.
#[test]
fn an_absent_later_value_is_its_first() {
    let mut values = [0; 40];
    for (first, later) in [(24, 32), (31, 39)] {
        (values[first], values[later]) = (5, 3);
    }
    let file = values_file(&values);
    for (length, of_24, of_31) in [
        (0, "refused 10", "refused 10"),
        (8, "refused 10", "refused 10"),
        (192, "refused 10", "refused 10"),
        (200, "figure 10 branch 255", "refused 10"),
        (248, "figure 10 branch 255", "refused 10"),
        (256, "figure 10 branch 255", "figure 10 branch 255"),
        (264, "figure 8 branch 255", "figure 10 branch 255"),
        (312, "figure 8 branch 255", "figure 10 branch 255"),
        (320, "figure 8 branch 255", "figure 8 branch 255"),
    ] {
        quotes(&passed_twice(24), &file[..length], of_24);
        quotes(&passed_twice(31), &file[..length], of_31);
    }
    for length in [191, 255, 263, 319] {
        quotes(&passed_twice(24), &file[..length], "refused 9");
    }
    for more in [&[0][..], &[0; 8]] {
        let longer = [&file[..], more].concat();
        quotes(&passed_twice(24), &longer, "refused 9");
    }
    // Of an absent first the later one is as high: two passes are past the ceiling, and one is at it.
    let once = only_symbol(31);
    quotes(&once, &file[..248], "figure 1000000000000 branch 255");
    let none = repeat(0, symbol_block(31), block(4));
    quotes(&none, &file[..248], "figure 4 branch 255");
}

/// A written later value may be past its first, in a pair that the tree has no block of too. An absent one
/// is not.
#[test]
fn later_values_past_their_first_are_refused_14() {
    for first in 24..32 {
        let mut values = [0; 40];
        values[first] = 5;
        values[first + 8] = 5;
        let tree = passed_twice(first as u64);
        quotes(&tree, &values_file(&values), "figure 10 branch 255");
        values[first + 8] = 6;
        let file = values_file(&values);
        for tree in [tree, block(7), symbol_block(16)] {
            quotes(&tree, &file, "refused 14");
            quotes(&tree, &file[..8 * (first + 9)], "refused 14");
        }
        let line = "figure 7 branch 255";
        quotes(&block(7), &file[..8 * (first + 8)], line);
    }
}

#[test]
fn the_last_value_written_may_be_0_or_too_large() {
    for count in 1..=40 {
        let last = count - 1;
        let tree = match last {
            0..32 => only_symbol(last as u64),
            // The first pass is at the ceiling.
            _ => passed_twice(last as u64 - 8),
        };
        let mut values = ceilings();
        values[last] = 0;
        let figure = if last < 32 { 0 } else { ceilings()[last] };
        quotes(&tree, &values_file(&values[..count]), &line_of(figure));
        values[last] = ceilings()[last] + 1;
        quotes(&tree, &values_file(&values[..count]), "refused 9");
    }
}

#[test]
fn absent_values_may_be_too_large_for_a_figure() {
    let count = |time| symbol_repeat(0, block(time), block(0));
    quotes(&count(1_000_000), &[], "figure 1000000000000 branch 255");
    quotes(&count(1_000_001), &[], "refused 10");
    quotes(
        &count(1_000_001),
        &values_file(&[999_999]),
        "figure 999999999999 branch 255",
    );
    for [one, other] in [[22, 23], [30, 31]] {
        let times = sequence(&[symbol_block(one), symbol_block(other)]);
        let (before_one, before_other) = (8 * one as usize, 8 * other as usize);
        let zeros = values_file(&[0; 40]);
        quotes(&times, &zeros[..before_one], "refused 10");
        let ceiling = "figure 1000000000000 branch 255";
        quotes(&times, &zeros[..before_other], ceiling);
        quotes(&times, &zeros, "figure 0 branch 255");
        let and_one = sequence(&[symbol_block(other), block(1)]);
        quotes(&and_one, &zeros[..before_other], "refused 10");
        quotes(&and_one, &zeros, "figure 1 branch 255");
    }
}

/// An absent count is 1,000,000, which is past 1,000.
#[test]
fn absent_values_under_flag_4_are_refused_13() {
    for symbol in 0..16 {
        let body = choice(&[triangular_limited(block(1), symbol as u32, 1), block(0)]);
        let tree = repeat(1_000_000, body, block(0));
        let folder = Folder::with_tree(DESK, &tree);
        says(&folder, "refused 13");
        let mut values = ceilings();
        values[symbol] = 1_000;
        for written in 0..=symbol {
            quotes(&tree, &values_file(&values[..written]), "refused 13");
        }
        for written in symbol + 1..=40 {
            quotes(
                &tree,
                &values_file(&values[..written]),
                "figure 500500 branch 255",
            );
        }
    }
}

#[test]
fn only_values_under_flag_4_are_asked() {
    // Symbols 1 and 2 are a limit and a bound, and may be absent.
    let ways = [
        triangular_limited(block(3), 0, 1),
        symbol_limited(block(2), 1, 1),
    ];
    let tree = symbol_repeat(2, choice(&ways), block(0));
    quotes(&tree, &values_file(&[10]), "figure 2000055 branch 255");
    quotes(&tree, &values_file(&[10, 20]), "figure 205 branch 255");
    quotes(
        &tree,
        &values_file(&[1_000, 0, 1_000_000]),
        "figure 1501500 branch 255",
    );
    quotes(&tree, &values_file(&[1_001, 0, 0]), "refused 13");
    quotes(&tree, &[], "refused 13");
}

// Questions.

#[test]
fn a_bad_trees_number_comes_before_the_values() {
    let too_large = values_file(&[1_000_001]);
    for (question, tree) in (1..).zip(refused_tables()) {
        let line = format!("refused {question}");
        for values in [
            &[][..],
            &TOO_LONG[..1],
            &TOO_LONG[..321],
            &TOO_LONG[..328],
            &too_large,
        ] {
            quotes(&tree, values, &line);
        }
    }
}

#[test]
fn too_large_values_are_refused_9() {
    for (symbol, most) in [
        (0, 1_000_000),
        (15, 1_000_000),
        (16, 1_000_000_000_000),
        (31, 1_000_000_000_000),
        (32, 1_000_000_000_000),
        (39, 1_000_000_000_000),
    ] {
        let mut values = [0; 40];
        if symbol >= 32 {
            values[symbol - 8] = most;
        }
        values[symbol] = most;
        quotes(&block(7), &values_file(&values), "figure 7 branch 255");
        for larger in [most + 1, u64::MAX] {
            values[symbol] = larger;
            quotes(&block(7), &values_file(&values), "refused 9");
        }
    }
}

#[test]
fn questions_13_and_14_come_after_9_and_before_10() {
    let past = sequence(&[block(1_000_000_000_000), block(1)]);
    let tree = sequence(&[past, triangular_limited(block(1), 0, 255)]);
    let mut values = [0; 40];
    quotes(&tree, &values_file(&values), "refused 10");
    values[39] = 1;
    quotes(&tree, &values_file(&values), "refused 14");
    values[0] = 1_001;
    let file = values_file(&values);
    quotes(&tree, &file, "refused 13");
    quotes(&tree, &file[..8], "refused 13");
    quotes(&tree, &file[..7], "refused 9");
    quotes(&tree, &[&file[..], &[0]].concat(), "refused 9");
    quotes(&tree, &file[..312], "refused 13");
    values[31] = u64::MAX;
    quotes(&tree, &values_file(&values), "refused 9");
    quotes(&tree, &values_file(&[1_000_001]), "refused 9");
}

#[test]
fn question_10_comes_last() {
    let tree = sequence(&[block(1_000_000_000_000), symbol_block(16)]);
    let mut values = [0; 40];
    quotes(
        &tree,
        &values_file(&values),
        "figure 1000000000000 branch 255",
    );
    values[16] = 1;
    let file = values_file(&values);
    quotes(&tree, &file, "refused 10");
    quotes(&tree, &[&file[..], &[0]].concat(), "refused 9");
    values[31] = u64::MAX;
    quotes(&tree, &values_file(&values), "refused 9");
}

// Many tables.

#[test]
fn cases_are_quoted() {
    for case in cases() {
        println!("case {}", case.name);
        let answer = expect(&case.table, &values_file(&cases::VALUES));
        assert_eq!(answer, case.quoted());
    }
}

#[test]
fn random_tables_are_quoted() {
    let mut rng = Rng::new(501);
    let (mut figures, mut triangular, mut too_large, mut past_1000) = (0, 0, 0, 0);
    let (mut first_branch, mut later_branch) = (0, 0);
    let (mut paired, mut past_first) = (0, 0);
    for _ in 0..600 {
        let records = rng.size(1..=60);
        let mut tree = trees::within_limits(&mut rng, records);
        MIDDLING.set(&mut rng, &mut tree);
        let absent = rng.pick(&[0, 0, 8, 16, 24, 40]);
        let count = 40 - rng.size(0..=absent);
        let mut values = MIDDLING.values(&mut rng);
        if rng.once_in(2) {
            trees::put_about_1000(&mut rng, &mut values);
        }
        if rng.once_in(8) {
            trees::put_past_first(&mut rng, &mut values);
        }
        let values = values_file(&values[..count]);
        match expect(&tree.encode(), &values) {
            Ok(Quoted { figure, branch }) => {
                figures += u64::from(figure > 0);
                triangular += u64::from(figure > 0 && !tree.triangles().is_empty());
                paired += u64::from(figure > 0 && tree.pairs() > 0);
                first_branch += u64::from(branch == 0);
                later_branch += u64::from((1..255).contains(&branch));
            }
            Err(10) => too_large += 1,
            Err(14) => past_first += 1,
            Err(question) => {
                assert_eq!(question, 13);
                past_1000 += 1;
            }
        }
    }
    assert!(figures > 100 && too_large > 20, "{figures}, {too_large}");
    let flag_4 = triangular > 50 && past_1000 > 20;
    assert!(flag_4, "{triangular}, {past_1000}");
    let pairs = paired > 50 && past_first > 20;
    assert!(pairs, "{paired}, {past_first}");
    let branches = first_branch > 20 && later_branch > 20;
    assert!(branches, "{first_branch}, {later_branch}");
}

#[test]
fn random_tables_with_faults_are_refused() {
    let mut rng = Rng::new(502);
    for round in 0..210 {
        let question = 1 + round % 7;
        let tree = faults::tree(&mut rng, &[question]);
        let table = faults::table(&mut rng, &tree, &[question]);
        let length = rng.size(0..=340);
        assert_eq!(expect(&table, &vec![0; length]), Err(question));
    }
}

/// As their tree is, whatever addresses it had. With former values, of which the later ones are absent, they
/// are quoted as they were, unless their paired symbols weigh too much.
#[test]
fn random_former_tables_are_quoted_once_converted() {
    let mut rng = Rng::new(505);
    let (mut figures, mut paired, mut too_heavy) = (0, 0, 0);
    for _ in 0..300 {
        let records = rng.size(1..=60);
        let mut tree = trees::within_limits(&mut rng, records).unpaired();
        let wanted = rng.pick(&[0, 3, 300, 1_000]);
        trees::put_pairs(&mut rng, &mut tree, wanted);
        MIDDLING.set(&mut rng, &mut tree);
        let folder = Folder::new("readdress");
        folder.write(FORMER, &tree.encode_former());
        folder.run(&NONE);
        let table = folder.read(TREE).expect("converted");
        let values = MIDDLING.values(&mut rng);
        let answer = expect(&table, &values_file(&values));
        assert_eq!(answer, evaluator::figure(&tree.encode(), &values));
        figures += u64::from(answer.is_ok());

        let former = evaluator::evaluate_former(&tree, &values[..32]);
        let answer = expect(&table, &values_file(&values[..32]));
        if answer == Err(7) {
            too_heavy += 1;
        } else {
            assert_eq!(answer, former.map(|root| root.quoted()));
            paired += u64::from(answer.is_ok() && tree.pairs() > 0);
        }
    }
    let reached = [figures, paired, too_heavy];
    assert!(reached.iter().all(|&times| times > 30), "{reached:?}");
}

#[test]
fn random_lengths_of_values() {
    let mut rng = Rng::new(503);
    let mut refused = 0;
    for _ in 0..200 {
        let symbol = rng.within(0..=39);
        let tree = match symbol {
            0..=31 => only_symbol(symbol),
            _ => passed_twice(symbol - 8),
        };
        let length = rng.size(0..=50) * rng.pick(&[1, 8]);
        let values = values_file(&MIDDLING.values(&mut rng).repeat(2));
        refused += u64::from(expect(&tree, &values[..length]) == Err(9));
    }
    assert!((50..=150).contains(&refused), "{refused}");
}

#[test]
fn leaving_values_out_never_lowers_a_quote() {
    let mut rng = Rng::new(504);
    let (mut same, mut higher) = (0, 0);
    for _ in 0..600 {
        let records = rng.size(1..=4);
        let mut tree = trees::within_limits(&mut rng, records);
        SMALL.set(&mut rng, &mut tree);
        let tree = tree.encode();
        let values = values_file(&SMALL.values(&mut rng));
        let written = rng.size(0..=40);
        let fewer = rng.size(0..=written);
        let long = expect(&tree, &values[..8 * written]);
        if let (Ok(long), Ok(short)) = (long, expect(&tree, &values[..8 * fewer])) {
            let (long, short) = (long.figure, short.figure);
            assert!(long <= short, "{long}, {short}");
            same += u64::from(long == short);
            higher += u64::from(long < short);
        }
    }
    assert!(same > 50 && higher > 50, "{same}, {higher}");
}
