//! Bytes and texts, each where its name says so.

mod common;

use common::*;
use volefleece_tests::programs::{values_file, TREE, VALUES};
use volefleece_tests::tables::*;

/// A table under a text's name would be read as a text.
#[test]
fn bytes_are_not_written_to_a_text() {
    let folder = folder();
    folder.write(TREE_TEXT, b"block 7\n");
    folder.write(VALUES_TEXT, b"count-0 7\n");
    for (words, out) in [
        (&["make", TREE_TEXT][..], TREE_TEXT),
        (&["make", TREE_TEXT], "other.txt"),
        (&["values", "make", VALUES_TEXT], VALUES_TEXT),
    ] {
        let before = folder.read(out);
        let message = format!("{out}: a name that ends in .txt is a text's");
        complains(&folder, &[words, &["-o", out]].concat(), &[&message]);
        assert_eq!(folder.read(out), before);
    }
}

/// The tree, where it stands, would be lost.
#[test]
fn a_picture_is_not_written_to_a_tree() {
    let folder = house("house");
    let before = folder.read(TREE);
    for out in [TREE, TREE_TEXT] {
        let message = format!("{out}: a picture would take a tree's place ");
        complains(&folder, &["draw", ".", "-o", out], &[&message]);
    }
    for (way, out) in [
        (&["draw", "tree.bin"][..], "tree.bin"),
        (&["draw", ".", "--values", "values.bin"], "values.bin"),
        (&["draw", ".", "--names", "names.list"], "names.list"),
    ] {
        folder.write("tree.bin", &block(7));
        folder.write("values.bin", &values_file(&[4]));
        folder.write("names.list", b"symbol 0 cards\n");
        let before = folder.read(out);
        let message = format!("{out}: a picture would take a tree's place ");
        complains(&folder, &[way, &["-o", out]].concat(), &[&message]);
        assert_eq!(folder.read(out), before);
    }
    assert_eq!(folder.read(TREE), before);
    assert_eq!(folder.read(TREE_TEXT), None);
}

#[test]
fn a_text_of_values_is_shown_too() {
    let folder = folder();
    folder.write(VALUES_TEXT, b"symbol 3 tries\n# few\n  tries   7\n");
    answers(
        &folder,
        &["values", "show", VALUES_TEXT],
        "symbol 3 tries\n\ntries 7\n",
    );
}

#[test]
fn values_that_are_refused_have_a_hint_and_are_shown() {
    let folder = house("house");
    let show = ["values", "show", VALUES];
    for (bytes, hint, last) in [
        (
            vec![0; 9],
            "the file of values has 9 bytes; expected a multiple of 8, at most 320",
            "cards 0\nbytes # no value of its own\n",
        ),
        (
            vec![0; 321],
            "the file of values has more than 320 bytes; expected a multiple of 8, at most 320",
            "time-31 0 0\nbytes # no value of its own\n",
        ),
        (
            vec![0; 328],
            "the file of values has more than 320 bytes; expected a multiple of 8, at most 320",
            "time-31 0 0\nbytes # no value of its own\n",
        ),
        (
            values_file(&[0, 1_000_001]),
            "retries is 1000001, and at most 1000000 is allowed",
            "cards 0\nretries 1000001\n",
        ),
    ] {
        folder.write(VALUES, &bytes);
        let said = ends(folder.command().args(show), 1).output;
        assert!(said.starts_with("# refused 9: "), "{said}");
        assert!(said.contains(&format!("\n# hint: {hint}\n")), "{said}");
        assert!(said.ends_with(last), "{said}");
    }
    folder.write(VALUES, &[0; 320]);
    let said = ends(folder.command().args(show), 0).output;
    assert!(said.ends_with("time-30 0 0\ntime-31 0 0\n"), "{said}");
    // A picture is drawn all the same, and says why no branch is marked.
    folder.write(VALUES, &[0; 3]);
    let draw = ["draw", TREE, "--values", VALUES, "-o", "out.svg"];
    let said = ends(folder.command().args(draw), 0);
    assert!(
        said.error.starts_with("no branch is marked: refused 9: "),
        "{}",
        said.error
    );
}

/// The mark that some editors begin a text with.
#[test]
fn a_byte_order_mark_is_passed_over() {
    let folder = folder();
    folder.write(
        TREE_TEXT,
        "\u{feff}symbol 16 radio\nblock radio\n".as_bytes(),
    );
    answers(
        &folder,
        &["show", TREE_TEXT],
        "symbol 16 radio\n\nblock radio\n",
    );
}

/// What is cut off a table that is too long is not shown as its end.
#[test]
fn a_table_that_is_too_long_is_shown_in_part() {
    let folder = folder();
    folder.write(TREE, &block(7).repeat(600));
    let said = ends(folder.command().args(["show", TREE]), 1);
    assert!(
        said.output
            .ends_with("block 7 # record 511\n# More follows.\n"),
        "{}",
        said.output
    );
}
