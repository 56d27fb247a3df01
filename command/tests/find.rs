//! `volefleece find`: every record with an address, its line, and the lines from the root down to it. The seeds are fixed: every run makes
//! the same trees.

mod common;

use common::*;
use volefleece_command::names::Names;
use volefleece_command::text::tree::print;
use volefleece_tests::format::RECORD_BYTES;
use volefleece_tests::programs::TREE;
use volefleece_tests::rng::Rng;
use volefleece_tests::tables::*;
use volefleece_tests::trees;

const RADIO: &str = "\
record 10: block radio at most 2 per loop 1 address 0x8000474
  sequence address 0x8000400 # record 0
    loop cards address 0x8000448 # record 5
      body sequence address 0x800044c # record 6
        choice address 0x8000470 # record 9
";

#[test]
fn a_block_of_the_workshop() {
    let folder = house("workshop");
    for tree in [TREE, "."] {
        for address in ["0x8000474", "0x08000474"] {
            answers(&folder, &["find", tree, address], RADIO);
        }
    }
    let text = ends(folder.command().args(["show", TREE]), 0).output;
    put(&folder, "text/tree.txt", text);
    answers(&folder, &["find", "text/tree.txt", "0x8000474"], RADIO);
    answers(&folder, &["find", "text", "0x8000474"], RADIO);
    folder.write("other.txt", b"symbol 0 doors\nsymbol 16 antenna\n");
    let renamed = RADIO.replace("cards", "doors").replace("radio", "antenna");
    let find = ["find", TREE, "0x8000474", "--names", "other.txt"];
    answers(&folder, &find, &renamed);
}

/// Of several records all, the root among them, and what each is to its loop.
#[test]
fn all_records_with_an_address() {
    let folder = folder();
    let exit = addressed(block(1), u32::MAX);
    let root = addressed(repeat(3, block(7), exit), u32::MAX);
    folder.write(TREE, &root);
    let said = "\
record 0: loop 3 address 0xffffffff
record 2: exit block 1 address 0xffffffff
  loop 3 address 0xffffffff # record 0
";
    for address in ["0xffffffff", "0xFFFFffff"] {
        answers(&folder, &["find", TREE, address], said);
    }
    let said = "record 1: body block 7\n  loop 3 address 0xffffffff # record 0\n";
    answers(&folder, &["find", TREE, "0x0"], said);
}

#[test]
fn none_ends_with_1() {
    let folder = folder();
    folder.write(TREE, &addressed(block(7), 0x4a0));
    for (address, said) in [("0x4a1", "0x4a1"), ("0x000000", "0x0"), ("0xA0", "0xa0")] {
        let written = ends(folder.command().args(["find", TREE, address]), 1);
        assert_eq!(
            written.output,
            format!("no record has the address {said}\n")
        );
        assert_eq!(written.error, "");
    }
}

/// The lines above one of a text that stand further and further out, the root's first, each with its number.
fn above(lines: &[&str], record: usize) -> Vec<usize> {
    let indent = |line: usize| lines[line].len() - lines[line].trim_start().len();
    let mut way = vec![record];
    for line in (0..record).rev() {
        if indent(line) < indent(*way.last().expect("a line")) {
            way.push(line);
        }
    }
    way.remove(0);
    way.reverse();
    way
}

/// The lines are those of the text, whose indents say what is above what.
#[test]
fn random_trees() {
    let mut rng = Rng::new(1);
    let folder = folder();
    let (mut several, mut deepest, mut none) = (0, 0, 0);
    for round in 0..150 {
        let records = rng.size(1..=60);
        let table = trees::within_limits(&mut rng, records).encode();
        let addresses = table.chunks(RECORD_BYTES).map(|record| {
            let address = record[16..20].try_into().expect("four bytes");
            u32::from_le_bytes(address)
        });
        let addresses: Vec<u32> = addresses.collect();
        let mut address = rng.pick(&addresses);
        if round % 10 == 0 {
            address ^= 0x10;
        }
        let text = print(&table, &Names::default());
        let lines: Vec<&str> = text.lines().collect();
        let lines = &lines[lines.len() - records..];

        let mut said = String::new();
        let found: Vec<usize> = (0..records)
            .filter(|&record| addresses[record] == address)
            .collect();
        for &record in &found {
            said += &format!("record {record}: {}\n", lines[record].trim_start());
            let way = above(lines, record);
            deepest = deepest.max(way.len());
            for line in way {
                said += &format!("  {} # record {line}\n", lines[line]);
            }
        }
        several += usize::from(found.len() > 1);
        none += usize::from(found.is_empty());
        folder.write(TREE, &table);
        let find = ["find", TREE, &format!("{address:#x}")];
        if found.is_empty() {
            ends(folder.command().args(find), 1);
        } else {
            answers(&folder, &find, &said);
        }
    }
    assert!(
        several >= 40 && deepest >= 8 && none >= 5,
        "{several} {deepest} {none}"
    );
}
