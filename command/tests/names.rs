//! Names and the trees that they are of: one that moved or is of another tree must not mislead.

mod common;

use common::*;
use volefleece_tests::programs::{Folder, TREE};

/// A choice whose first child simplifying takes out.
const TEXT: &str = "\
symbol 0 cards
symbol 16 radio
branch 0 off
branch 1 card
branch 2 by radio

choice
  block 0
  loop cards
    body block 5
    exit block 0
  block radio
";
const SET: [&str; 4] = ["--set", "cards=2", "--set", "radio=90"];

fn quoted(folder: &Folder, status: i32) -> (String, String) {
    let said = ends(folder.command().args(["quote", "."]).args(SET), status);
    let branch = said.output.lines().find(|line| line.starts_with("branch "));
    (branch.unwrap_or_default().into(), said.error)
}

/// The original's names beside a simplified tree: they name a child more than it has.
#[test]
fn names_of_another_tree_are_dropped() {
    let folder = folder();
    folder.write(TREE_TEXT, TEXT.as_bytes());
    let branch = "branch by radio (child 2 of the choice at the root: block radio)";
    assert_eq!(quoted(&folder, 0), (branch.into(), String::new()));
    let said = ends(folder.command().args(["simplify", ".", "-o", TREE]), 0);
    let note = "the branches' names are not those of the simplified tree's children: beside it, names.txt must not have them\n";
    assert_eq!(said.error, note);
    folder.write(NAMES, TEXT.split("\n\n").next().expect("names").as_bytes());
    remove(&folder, TREE_TEXT);
    let branch = "branch block radio (child 1 of the choice at the root)";
    let note = "branch 2 has a name, and no choice at the root has such a child: branches go without names\n";
    assert_eq!(quoted(&folder, 0), (branch.into(), note.into()));
    let said = ends(folder.command().args(["quotes", "."]), 0);
    assert!(said.error.contains(&format!(".: {note}")), "{}", said.error);
}

#[test]
fn branches_are_named_of_choices_alone() {
    let folder = folder();
    folder.write(
        TREE_TEXT,
        b"symbol 0 cards\nsymbol 16 radio\nbranch 0 card\nblock radio\n",
    );
    let (branch, error) = quoted(&folder, 0);
    assert_eq!(branch, "branch none (no choice at the root)");
    assert!(error.contains("branch 0 has a name"), "{error}");
}

#[test]
fn what_is_simplified_has_no_branches_names() {
    let folder = folder();
    folder.write(TREE_TEXT, TEXT.as_bytes());
    ends(folder.command().args(["simplify", ".", "-o", "out.txt"]), 0);
    let out = String::from_utf8(folder.read("out.txt").expect("a text")).expect("text");
    assert!(
        out.contains("symbol 16 radio\n") && !out.contains("branch"),
        "{out}"
    );
}

/// Where no step is taken, no child has moved.
#[test]
fn what_no_step_changed_keeps_its_branches_names() {
    let folder = folder();
    folder.write(TREE_TEXT, TEXT.as_bytes());
    let simplify = ["simplify", ".", "-o", "out.txt", "--steps", "0"];
    let said = ends(folder.command().args(simplify), 0);
    assert_eq!(said.error, "");
    assert_eq!(folder.read("out.txt"), folder.read(TREE_TEXT));
}

/// A name of more than one word goes to the end of its line, whatever stands there.
#[test]
fn names_may_have_a_number_sign() {
    let folder = folder();
    let text = "house Unit #5\nbranch 0 #1, the door\n\nchoice\n  block 7\n";
    folder.write(TREE_TEXT, text.as_bytes());
    answers(&folder, &["show", "."], text);
    folder.write(
        TREE_TEXT,
        text.replace("block 7", "block 7 # a note").as_bytes(),
    );
    answers(&folder, &["show", "."], text);
    let said = ends(folder.command().args(["quote", "."]), 0).output;
    let lines = "house Unit #5\nfigure 7 cycles\nbranch #1, the door (child 0 ";
    assert!(said.starts_with(lines), "{said}");
}

const GRAFT: [&str; 6] = ["graft", "host.txt", "sent.txt", "--symbol", "radio", "-o"];

/// Two makers that mean different things by one symbol would swap them unseen.
#[test]
fn a_graft_does_not_mix_meanings() {
    let folder = folder();
    folder.write("host.txt", TEXT.as_bytes());
    folder.write(
        "sent.txt",
        b"symbol 0 retries\nloop retries\n  body block 3\n  exit block 0\n",
    );
    let out = [&GRAFT[..], &["out.tab"]].concat();
    complains(
        &folder,
        &out,
        &["sent.txt: symbol 0 is called both cards and retries: "],
    );
    assert_eq!(folder.read("out.tab"), None);
    // What the library refuses is refused, whatever the names.
    folder.write("sent.txt", b"symbol 16 antenna\nblock antenna\n");
    refuses(&folder, &out, 11);
    // A name of a symbol that the sent tree does not use says nothing of the whole.
    folder.write("sent.txt", b"symbol 0 retries\nblock 3\n");
    ends(folder.command().args(&out), 0);
}

#[test]
fn a_graft_keeps_the_names_of_both() {
    let folder = folder();
    folder.write("host.txt", TEXT.as_bytes());
    folder.write(
        "sent.txt",
        b"symbol 17 antenna\nsymbol 18 idle\nbranch 0 no\nblock antenna\n",
    );
    ends(folder.command().args(GRAFT).arg("out.txt"), 0);
    let out = String::from_utf8(folder.read("out.txt").expect("a text")).expect("text");
    let header = "symbol 0 cards\nsymbol 16 radio\nsymbol 17 antenna\nbranch 0 off\nbranch 1 card\nbranch 2 by radio\n\n";
    assert!(out.starts_with(header), "{out}");
    assert!(out.contains("body block antenna"), "{out}");
}
