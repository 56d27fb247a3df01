//! Pictures of random trees and of trees at the limits, read back: everything is there once, nothing overlaps or is cut off, and what is
//! marked is the branch. The seeds are fixed: every run draws the same pictures.

#[path = "draw/case.rs"]
mod case;
#[path = "draw/checks.rs"]
mod checks;
#[path = "draw/picture.rs"]
mod picture;
#[path = "draw/xml.rs"]
mod xml;

use case::Case;
use checks::check;
use picture::{squeezed, Node};
use volefleece_command::counts::Counts;
use volefleece_command::names::{Named, Names};
use volefleece_tests::reader;
use volefleece_tests::rng::Rng;
use volefleece_tests::trees::{self, Amount, Kind, Limit, Tree};

/// Letters that names may have: Latin, Greek, Cyrillic, Chinese, Japanese, Korean, Arabic and Indian ones.
const LETTERS: [char; 12] = [
    'a', 'W', 'm', 'é', 'Ω', 'ж', '無', '線', 'カ', '한', 'ب', 'ह',
];

/// A name of that many letters. The number keeps it apart from others.
fn word(rng: &mut Rng, letters: usize, number: usize) -> String {
    let letters = (0..letters).map(|_| rng.pick(&LETTERS));
    letters.chain(number.to_string().chars()).collect()
}

/// Names for some symbols and branches, short as a rule and at times very long.
fn random_names(rng: &mut Rng) -> Names {
    let mut names = Names::default();
    for number in 0..32 {
        let most = rng.pick(&[4, 12, 12, 40, 300]);
        let letters = rng.size(1..=most);
        let name = word(rng, letters, number);
        let branch = format!(
            "{} & <{name}> \"{}\"",
            word(rng, 3, number),
            word(rng, 9, number)
        );
        if rng.once_in(2) {
            add(&mut names, Named::Symbol(number), &name);
        }
        if rng.once_in(3) {
            add(&mut names, Named::Branch(number), &branch);
        }
    }
    if rng.once_in(2) {
        add(&mut names, Named::House, "Müller & Söhne's <\"alte\"> 倉庫");
    }
    names
}

fn add(names: &mut Names, named: Named, name: &str) {
    names.add(named, name).expect("a name");
}

/// Counts for some of the paired symbols, first and later or one for both, up to the longest numbers.
fn random_counts(rng: &mut Rng) -> Counts {
    let mut counts = Counts::default();
    for symbol in 24..32 {
        let first = rng.pick(&[0, 9, 60_000, 1_000_000_000_000]);
        let later = rng.within(0..=first);
        match rng.index(3) {
            0 => counts.set(symbol, first, Some(later)),
            1 => counts.set(symbol, first, None),
            _ => {}
        }
    }
    counts
}

fn random_case(rng: &mut Rng, tree: Tree) -> Case {
    let branch = rng.index(tree.children.len().max(1));
    Case {
        branch: rng.once_in(2).then_some(branch),
        names: random_names(rng),
        counts: rng.once_in(2).then(|| random_counts(rng)),
        tree,
    }
}

#[test]
fn random_trees() {
    let mut rng = Rng::new(1);
    let (mut marked, mut limited, mut addressed) = (0, 0, 0);
    let mut paired = [0; 2];
    for _ in 0..250 {
        let most = rng.pick(&[6, 20, 20, 60, 150]);
        let records = rng.size(1..=most);
        let tree = trees::within_limits(&mut rng, records);
        let case = random_case(&mut rng, tree);
        check(&case);
        marked += usize::from(!case.marked().is_empty());
        limited += usize::from(case.tree != case.tree.unlimited());
        addressed += usize::from(case.tree != case.tree.unaddressed());
        let is_paired = case
            .expected()
            .iter()
            .any(|node| case::paired(node.tree).is_some());
        paired[usize::from(case.counts.is_some())] += usize::from(is_paired);
    }
    assert!(paired.iter().all(|&times| times >= 20), "{paired:?}");
    assert!(
        marked >= 30 && limited >= 120 && (120..250).contains(&addressed),
        "{marked} {limited} {addressed}"
    );
}

#[test]
fn trees_of_all_the_records_there_can_be() {
    let mut rng = Rng::new(2);
    for round in 0..6 {
        let mut tree = match round % 3 {
            0 => widest(),
            1 => deepest(&mut rng, 512),
            _ => {
                let depth = rng.size(5..=32);
                trees::grow(&mut rng, 512, depth, 8)
            }
        };
        trees::put_limits(&mut rng, &mut tree, 255);
        check(&random_case(&mut rng, tree));
    }
}

/// Nodes of 255 children, one of them the root.
fn widest() -> Tree {
    let wide = Tree::new(Kind::Sequence, vec![Tree::symbol_block(16); 255]);
    let pair = Tree::new(Kind::Choice, vec![Tree::block(1_000_000_000_000)]);
    let children = [vec![wide, pair], vec![Tree::block(9); 253]].concat();
    Tree::new(Kind::Choice, children)
}

/// A tree that is 32 deep, with 8 loops around its deepest node.
fn deepest(rng: &mut Rng, records: usize) -> Tree {
    let mut tree = trees::spine(rng, 32, 8);
    trees::pad(rng, &mut tree, records);
    tree
}

#[test]
fn every_branch_of_a_root_choice_can_be_marked() {
    let mut rng = Rng::new(3);
    for _ in 0..20 {
        let branches = (0..5).map(|_| {
            let records = rng.size(1..=12);
            trees::within_limits(&mut rng, records)
        });
        let tree = Tree::new(Kind::Choice, branches.collect());
        for branch in 0..5 {
            let case = Case {
                branch: Some(branch),
                names: random_names(&mut rng),
                counts: None,
                tree: tree.clone(),
            };
            assert_eq!(case.marked().len(), tree.children[branch].records());
            check(&case);
        }
    }
}

#[test]
fn nothing_is_marked_where_there_is_no_such_branch() {
    let children = vec![Tree::block(1), Tree::block(2)];
    for (kind, branch) in [(Kind::Sequence, 0), (Kind::Choice, 2), (Kind::Choice, 254)] {
        let case = Case {
            branch: Some(branch),
            ..Case::plain(Tree::new(kind, children.clone()))
        };
        assert!(case.marked().is_empty());
        check(&case);
    }
}

#[test]
fn long_names_and_large_numbers_make_boxes_higher_and_not_much_wider() {
    let mut names = Names::default();
    add(&mut names, Named::Symbol(0), &"r".repeat(5_000));
    add(&mut names, Named::Symbol(16), &"無線".repeat(500));
    add(&mut names, Named::Branch(1), &"by radio ".repeat(50));
    add(&mut names, Named::House, &"Lindenstraße".repeat(50));
    let mut block = Tree::symbol_block(16);
    block.limit = Some(Limit {
        names: 1,
        amount: Amount::Triangular(0),
    });
    let exit = Tree::block(1_000_000_000_000);
    let repeat = Tree::new(Kind::Loop(Amount::Symbol(0)), vec![block, exit]);
    let tree = Tree::new(Kind::Choice, vec![Tree::block(7), repeat]);
    let picture = check(&Case {
        tree,
        names,
        counts: None,
        branch: Some(1),
    });
    assert!(picture.page.right < 1_000.0, "{:?}", picture.page);
}

#[test]
fn letters_that_xml_cannot_hold_are_replaced() {
    let mut case = Case::plain(Tree::new(Kind::Choice, vec![Tree::block(7)]));
    add(&mut case.names, Named::Branch(0), "a\u{fffe}b\u{ffff}c");
    let label = case.draw().nodes[1].label();
    assert_eq!(label, "branch0a\u{fffd}b\u{fffd}cblock7");
}

/// A sample's tree, with the names that its text has for its symbols.
fn sample(folder: &str) -> Case {
    let file = format!(
        "{}/../samples/{folder}/tree.tab",
        env!("CARGO_MANIFEST_DIR")
    );
    let table = std::fs::read(file).expect("a sample");
    let mut case = Case::plain(reader::check(&table).expect("an accepted sample"));
    for (symbol, name) in [(0, "cards"), (1, "retries"), (16, "radio"), (24, "cipher")] {
        add(&mut case.names, Named::Symbol(symbol), name);
    }
    case
}

#[test]
fn sample_house() {
    let picture = check(&sample("house"));
    let labels: Vec<String> = picture.nodes.iter().map(Node::label).collect();
    let expected = [
        "sequence",
        "block 1200",
        "loop cards",
        "sequence",
        "block 340",
        "choice",
        "block radio at most 2 per loop 1",
        "block 25",
        "block 60",
        "loop retries",
        "block 5000",
        "block 100",
    ];
    assert_eq!(labels, expected.map(squeezed));
    assert_eq!(picture.title, "tree: 12 records, 5 deep");
}

#[test]
fn sample_workshop_with_its_addresses() {
    let picture = check(&sample("workshop"));
    let node = &picture.nodes[10];
    let lines: Vec<&str> = node
        .texts
        .iter()
        .map(|text| text.content.as_str())
        .collect();
    let expected = ["block radio", "at most 2 per loop 1", "address 0x8000474"];
    assert_eq!(lines, expected);
}

#[test]
fn sample_entrance_with_the_branch_that_sets_its_quote() {
    let mut case = sample("entrance");
    case.branch = Some(1);
    add(&mut case.names, Named::Branch(1), "by radio");
    add(&mut case.names, Named::House, "Oak Street 12");
    let picture = check(&case);
    let nodes = picture.nodes.iter().enumerate();
    let marked: Vec<usize> = nodes
        .filter(|(_, node)| node.marked)
        .map(|(record, _)| record)
        .collect();
    assert_eq!(marked, [4, 5, 6]);
    assert_eq!(picture.nodes[4].label(), "branch1byradiosequence");
    assert_eq!(picture.title, "Oak Street 12: 7 records, 3 deep");
}

/// Both numbers stand on each block that has the symbol, or that there are two.
#[test]
fn sample_cipher_with_its_first_and_later_numbers() {
    let mut counts = Counts::default();
    counts.set(24, 60_000, Some(9_000));
    let mut alone = Counts::default();
    alone.set(24, 60_000, None);
    let mut other = Counts::default();
    other.set(0, 40, None);
    for (counts, words) in [
        (None, "first and later"),
        (Some(counts), "first 60000 cycles, later 9000 cycles"),
        (
            Some(alone),
            "first 60000 cycles, later 60000 cycles (as the first)",
        ),
        (
            Some(other),
            "first 1000000000000 cycles (not given), later 1000000000000 cycles (as the first)",
        ),
    ] {
        let picture = check(&Case {
            counts,
            ..sample("cipher")
        });
        let labels: Vec<String> = picture.nodes.iter().map(Node::label).collect();
        let cipher = format!("block cipher {words}");
        let expected = [
            "sequence",
            "block 1200",
            &cipher,
            "loop cards",
            "sequence",
            "block 340",
            &cipher,
            "block 60",
        ];
        assert_eq!(labels, expected.map(squeezed));
    }
}
