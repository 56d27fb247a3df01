//! The texts on docs/FORMAT.md are those of the sample house, both ways.

use volefleece_command::counts::Counts;
use volefleece_command::names::Names;
use volefleece_command::text;

const PAGE: &str = include_str!("../../docs/FORMAT.md");
const NAMES: &str = include_str!("../../samples/house/names.txt");
const TREE: &[u8] = include_bytes!("../../samples/house/tree.tab");
const VALUES: &[u8] = include_bytes!("../../samples/house/values.tab");

/// The page's block of that kind, the only one.
fn block(kind: &str) -> &'static str {
    let fence = format!("```{kind}\n");
    let (before, after) = PAGE.split_once(&fence).expect("a block");
    assert!(!after.contains(&fence), "{before}");
    after.split_once("```").expect("its end").0
}

/// The names on the page without the house, as a text's header has them.
fn names() -> Names {
    let mut names = Names::default();
    let symbols = block("names").split_once('\n').expect("a line").1;
    text::names::parse(symbols, &mut names).expect("names");
    names
}

#[test]
fn the_names() {
    assert_eq!(block("names"), NAMES);
}

#[test]
fn the_tree() {
    let parsed = text::tree::parse(block("tree"), &mut Names::default()).expect("a tree");
    assert_eq!(parsed.table, TREE);
    let shown = text::tree::print(TREE, &names());
    // What is shown begins with a comment about loops besides.
    let (comment, shown) = shown.split_once('\n').expect("a line");
    assert!(comment.starts_with("# Loop 1 is "));
    assert_eq!(shown, block("tree"));
}

#[test]
fn the_values() {
    let counts = text::values::parse(block("values"), &mut Names::default()).expect("values");
    assert_eq!(counts.bytes(), VALUES);
    assert_eq!(
        text::values::print(&Counts::from_bytes(VALUES), &names()),
        block("values")
    );
}
