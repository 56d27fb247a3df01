//! `volefleece convert`: the table of a former one, against a second converter and the program in Rattle. The seeds are fixed: every run
//! makes the same tables.

mod common;

use common::*;
use volefleece::Refusal;
use volefleece_tests::converter::converted;
use volefleece_tests::programs::{sample, written, Folder, TREE};
use volefleece_tests::reader;
use volefleece_tests::rng::Rng;
use volefleece_tests::tables::*;
use volefleece_tests::trees;

const OLD: &str = "old.tab";
const CONVERT: [&str; 4] = ["convert", OLD, "-o", TREE];
const NOW_PAIRED: &str = "the former table was accepted: its symbols of 24 to 31 have a first and a later value now, and each block with one weighs as a limit per run does\n";

fn made(records: usize) -> String {
    match records {
        1 => "made 1 record\n".into(),
        records => format!("made {records} records\n"),
    }
}

#[test]
fn a_former_table_of_every_tree() {
    let mut rng = Rng::new(1);
    let folder = folder();
    for records in (1..=40).chain([511, 512]) {
        let tree = trees::within_limits(&mut rng, records);
        folder.write(OLD, &tree.encode_former());
        answers(&folder, &CONVERT, &made(records));
        assert_eq!(folder.read(TREE), Some(tree.unaddressed().encode()));
        assert_eq!(folder.read(OLD), Some(tree.encode_former()));
    }
}

/// In its own place, and then as it was quoted before.
#[test]
fn the_house() {
    let folder = house("house");
    let tree = sample("house", TREE);
    let former = reader::check(&tree).expect("a tree").encode_former();
    folder.write(TREE, &former);
    let quote = ["quote", ".", "--line"];
    answers(&folder, &["convert", TREE, "-o", TREE], "made 12 records\n");
    assert_eq!(folder.read(TREE), Some(tree));
    answers(&folder, &quote, "figure 210910 branch 255\n");
}

/// Where the length is none of a former table nothing is written.
#[test]
fn lengths() {
    let longer = vec![7; 20_000];
    for bytes in [
        0, 1, 8, 15, 16, 17, 24, 32, 48, 8_176, 8_191, 8_192, 8_193, 8_208, 12_288, 20_000,
    ] {
        for before in [None, Some(&longer[..]), Some(&[])] {
            let folder = folder();
            let old = vec![0; bytes];
            folder.write(OLD, &old);
            if let Some(before) = before {
                folder.write(TREE, before);
            }
            let mut names = folder.names();
            let table = converted(&old);
            let status = i32::from(table.is_none());
            let said = ends(folder.command().args(CONVERT), status);
            if table.is_some() {
                assert_eq!(said.output, made(bytes / 16));
                assert_eq!(folder.read(TREE), table);
                names = vec![OLD.into(), TREE.into()];
            } else {
                let has = match bytes {
                    20_000 => "more than 12288".into(),
                    bytes => bytes.to_string(),
                };
                let refused =
                    "refused 1: the length is not a multiple of 16 from 16 to 8,192".to_owned();
                assert_eq!(
                    said.output,
                    refused + &format!("\nhint: {OLD} has {has} bytes\n")
                );
                assert_eq!(said.error, "");
                assert_eq!(folder.read(TREE).as_deref(), before);
            }
            assert_eq!(folder.names(), names);
        }
    }
}

/// Kinds and flags pass through as they are, and what `check` says of them is told.
#[test]
fn what_no_call_accepts_is_made_all_the_same() {
    let mut rng = Rng::new(2);
    let folder = folder();
    let mut refusals = [0; 8];
    for round in 0..100 {
        let old = match round % 4 {
            0 => {
                let records = rng.size(1..=512);
                (0..records * 16).map(|_| rng.byte()).collect()
            }
            _ => {
                let faulty = random::table(&mut rng);
                let fields = faulty.chunks_exact(24).flat_map(|record| &record[..16]);
                fields.copied().collect::<Vec<u8>>()
            }
        };
        let Some(table) = converted(&old) else {
            continue;
        };
        folder.write(OLD, &old);
        let said = ends(folder.command().args(CONVERT), 0);
        assert_eq!(said.output, made(old.len() / 16));
        assert!(folder.read(TREE) == Some(table.clone()), "other bytes");
        let refusal = volefleece::check(&table).err();
        refusals[refusal.map_or(0, |refusal| refusal.number() as usize)] += 1;
        let told = match refusal {
            None => String::new(),
            Some(_) => {
                let check = ends(folder.command().args(["check", TREE]), 1).output;
                let told = format!("made, but no call accepts it: {check}");
                match reader::check_former(&old) {
                    Ok(_) => told + NOW_PAIRED,
                    Err(_) => told,
                }
            }
        };
        assert_eq!(said.error, told);
    }
    let reached = [0, 2, 3, 4, 5, 6, 7];
    assert!(
        reached.iter().all(|&refusal| refusals[refusal] > 0),
        "{refusals:?}"
    );
}

/// A table that was accepted before symbols were paired, and weighs too much since.
#[test]
fn a_table_that_was_accepted_once_is_told() {
    let folder = folder();
    for (body, refusal) in [
        (symbol_block(24), Some("its paired symbol weighs 256 and brings the sum of weights to 256")),
        (
            limited(symbol_block(31), 3, 1),
            Some("its limit weighs 1, its paired symbol 256, and both bring the sum of weights to 257"),
        ),
        (symbol_block(23), None),
    ] {
        let table = in_loops(8, 1, body);
        let old = table.chunks_exact(24).flat_map(|record| &record[..16]);
        folder.write(OLD, &old.copied().collect::<Vec<u8>>());
        let said = ends(folder.command().args(CONVERT), 0);
        assert_eq!(said.output, made(17));
        assert_eq!(folder.read(TREE), Some(table));
        let told = refusal.map(|what| {
            let place = format!("{TREE}: record 8 (byte 192)");
            let refused = Refusal::Weight;
            let told = format!("made, but no call accepts it: {refused}\nhint: {place}: {what}, above 255\n");
            told + NOW_PAIRED
        });
        assert_eq!(said.error, told.unwrap_or_default());
    }
    // One that its limits alone make too heavy was never accepted.
    let table = in_loops(8, 1, limited(symbol_block(24), 3, 255));
    let old = table.chunks_exact(24).flat_map(|record| &record[..16]);
    folder.write(OLD, &old.copied().collect::<Vec<u8>>());
    let said = ends(folder.command().args(CONVERT), 0);
    assert!(said.error.contains("refused 7: "), "{}", said.error);
    assert!(!said.error.contains("was accepted"), "{}", said.error);
}

/// The program leaves the same tree.tab in its folder, whatever old.tab holds.
#[test]
fn the_program_writes_the_same() {
    let mut rng = Rng::new(3);
    let (mut replaced, mut kept) = (0, 0);
    for round in 0..60 {
        let length = match round % 3 {
            0 => rng.size(0..=9_000),
            _ => 16 * rng.size(0..=530),
        };
        let old: Vec<u8> = (0..length).map(|_| rng.byte()).collect();
        let [program, command] = [Folder::new("readdress"), folder()];
        for folder in [&program, &command] {
            folder.write(OLD, &old);
            folder.write(TREE, b"before");
        }
        assert_eq!(written(&mut program.command()).output, "");
        let status = i32::from(converted(&old).is_none());
        ends(command.command().args(CONVERT), status);
        let table = command.read(TREE).expect("a table");
        assert!(program.read(TREE).as_ref() == Some(&table), "other bytes");
        *(if table == b"before" {
            &mut kept
        } else {
            &mut replaced
        }) += 1;
    }
    assert!(replaced >= 20 && kept >= 15, "{replaced} {kept}");
}

#[test]
fn a_table_that_needs_no_converting_is_told() {
    let folder = folder();
    folder.write(OLD, &block(7));
    let told = format!("{OLD} needs no converting: `volefleece check` accepts it as it is\n");
    let said = refuses(&folder, &CONVERT, 1);
    assert!(said.ends_with(&format!("\nhint: {told}")), "{said}");
    assert_eq!(folder.read(TREE), None);
    // Its length is that of a former table too.
    folder.write(OLD, &sequence(&[block(7)]));
    let said = ends(folder.command().args(CONVERT), 0);
    assert_eq!(said.output, "made 3 records\n");
    assert!(said.error.ends_with(&format!("\n{told}")), "{}", said.error);
    // Nor is it lost where it stands itself.
    let lost = told.replace("as it is\n", "as it is, and would be lost");
    complains(&folder, &["convert", OLD, "-o", OLD], &[&lost]);
    assert_eq!(folder.read(OLD), Some(sequence(&[block(7)])));
}

#[test]
fn a_text_is_no_table() {
    let folder = folder();
    folder.write(OLD, &FORMER_BLOCK);
    folder.write(TREE_TEXT, b"block 7\n");
    let message = format!("{TREE_TEXT}: a name that ends in .txt is a text's");
    complains(&folder, &["convert", TREE_TEXT, "-o", TREE], &[&message]);
    complains(&folder, &["convert", OLD, "-o", TREE_TEXT], &[&message]);
    assert_eq!(folder.read(TREE), None);
    assert_eq!(folder.read(TREE_TEXT).as_deref(), Some(&b"block 7\n"[..]));
}
