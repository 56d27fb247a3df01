//! The examples on README.md's first pages are what the command prints, and its version is the library's.

use std::path::Path;
use std::{env, fs, process};

use assert_cmd::Command;
use volefleece_tests::programs::{project, Folder};

const README: &str = include_str!("../../README.md");

/// The indented lines of README.md, without their indent, in blocks.
fn blocks() -> Vec<String> {
    let lines: Vec<&str> = README.lines().collect();
    let blocks = lines.split(|line| !line.starts_with("    "));
    let block = |lines: &[&str]| {
        lines
            .iter()
            .map(|line| format!("{}\n", &line[4..]))
            .collect()
    };
    blocks
        .filter(|lines| !lines.is_empty())
        .map(block)
        .collect()
}

/// A line on the page, and the block after it, which is what the command prints for it.
#[track_caller]
fn printed(line: &str) {
    let blocks = blocks();
    let at = blocks
        .iter()
        .position(|block| *block == format!("{line}\n"));
    let expected = &blocks[at.expect("the line on the page") + 1];
    let words = line.replace("./quote", "volefleece quote");
    let mut command = Command::cargo_bin("volefleece").expect("the command");
    command.current_dir("..").args(words.split(' ').skip(1));
    command
        .assert()
        .success()
        .stdout(expected.clone())
        .stderr("");
}

#[test]
fn a_first_quote() {
    printed("./quote samples/house --set cards=40 --set retries=3");
}

#[test]
fn a_choice() {
    printed("./quote samples/entrance");
}

#[test]
fn first_and_later() {
    printed("./quote samples/cipher");
}

#[test]
fn a_block_by_its_address() {
    printed("volefleece find samples/workshop 0x8000474");
}

/// Calls on the page from this line on, each in a block before what it prints, in a copy of the samples, which is returned.
#[track_caller]
fn printed_from(line: &str, calls: usize) -> Folder {
    let blocks = blocks();
    let start = blocks
        .iter()
        .position(|block| block.starts_with(&format!("{line}\n")));
    let called = &blocks[start.expect("the first call")..][..2 * calls];
    let command = Path::new(env!("CARGO_BIN_EXE_volefleece"));
    let folder = Folder::of(command.into());
    folder.put_folder("target");
    let mut copy = process::Command::new("cp");
    copy.arg("-r")
        .arg(project().join("samples"))
        .arg(folder.path(""));
    assert!(copy.status().expect("it runs").success());
    let mut paths = vec![command.parent().expect("a folder").to_path_buf()];
    paths.extend(env::split_paths(&env::var_os("PATH").expect("a path")));
    for called in called.chunks(2) {
        let mut shell = Command::new("sh");
        shell.args(["-ec", &called[0]]).current_dir(folder.path(""));
        shell.env("PATH", env::join_paths(&paths).expect("paths"));
        shell
            .assert()
            .success()
            .stdout(called[1].clone())
            .stderr("");
    }
    folder
}

#[test]
fn a_chain() {
    let folder = printed_from("mkdir target/chain", 3);
    let read = |name| fs::read(folder.path(name)).expect("a file");
    assert_eq!(
        read("target/chain/open.tab"),
        read("samples/house/tree.tab")
    );
}

#[test]
fn a_new_time() {
    let folder = printed_from("mkdir target/retimed", 2);
    let read = |house| fs::read(folder.path(house).join("tree.tab")).expect("a file");
    let (old, new) = (read("samples/workshop"), read("target/retimed"));
    let changed: Vec<usize> = (0..504).filter(|&at| old[at] != new[at]).collect();
    // 340 is 0x154, and 400 is 0x190.
    assert_eq!((changed, new[200]), (vec![200], 0x90));
}

#[test]
fn one_version() {
    let library = include_str!("../../scripts/volefleece.pc.in");
    let version = library
        .lines()
        .find_map(|line| line.strip_prefix("Version: "));
    assert_eq!(version, Some(env!("CARGO_PKG_VERSION")));
    let wrapper = include_str!("../../volefleece-rs/Cargo.toml");
    let line = format!("version = \"{}\"", env!("CARGO_PKG_VERSION"));
    assert!(wrapper.lines().any(|found| found == line), "{wrapper}");
}
