//! `volefleece retime`: both quotes, the block by its record or its address, what is refused, and the table that is written or stays.

mod common;

use std::fs::{self, File, Permissions};
use std::io::Write;
use std::os::fd::AsRawFd;
use std::os::unix::fs::{chown, symlink, MetadataExt, PermissionsExt};
use std::os::unix::process::ExitStatusExt;
use std::process::{Command, Stdio};
use std::thread;

use common::*;
use volefleece::Refusal;
use volefleece_tests::programs::{restrict, sample, values_file, Folder, TREE, VALUES};
use volefleece_tests::tables::*;

/// The block that reads a card in the sample house.
const RECORD: usize = 4;
const CARD: [&str; 8] = retime("4", "340", "400");
const COMMIT: [&str; 9] = commit("4", "340", "400");
const BACK: [&str; 9] = commit("4", "400", "340");
const SAID: &str = "\
house Lakeside
record 4 from 340 to 400 cycles (block 340)
figure before 210910 cycles
figure after 213310 cycles
difference +2400 cycles
branch before none (no choice at the root)
branch after none (no choice at the root)
count cards 40
count retries 3
time radio 90000 cycles
";

const fn retime<'a>(record: &'a str, from: &'a str, to: &'a str) -> [&'a str; 8] {
    [
        "retime", ".", "--record", record, "--from", from, "--to", to,
    ]
}

const fn commit<'a>(record: &'a str, from: &'a str, to: &'a str) -> [&'a str; 9] {
    let [word, house, named, record, old, from, new, to] = retime(record, from, to);
    [word, house, named, record, old, from, new, to, "--commit"]
}

/// A table with another time in one record.
fn with_time(mut table: Vec<u8>, record: usize, time: u64) -> Vec<u8> {
    table[24 * record + 8..][..8].copy_from_slice(&time.to_le_bytes());
    table
}

/// The sample house's table with the new time.
fn retimed() -> Vec<u8> {
    with_time(sample("house", TREE), RECORD, 400)
}

/// Each file with its bytes, and what tells whether it was written anew.
fn files(folder: &Folder) -> Vec<(String, Option<Vec<u8>>, u64, i64)> {
    let names = folder.names().into_iter();
    names
        .map(|name| {
            let found = fs::metadata(folder.path(&name)).expect("a file");
            let bytes = folder.read(&name);
            (name, bytes, found.ino(), found.mtime_nsec())
        })
        .collect()
}

/// It ends so, and leaves every file alone.
#[track_caller]
fn leaves_all(folder: &Folder, arguments: &[&str], status: i32) -> (String, String) {
    let before = files(folder);
    let written = ends(folder.command().args(arguments), status);
    assert_eq!(files(folder), before);
    (written.output, written.error)
}

/// It is refused with exactly this hint, whether it is to be written or not.
#[track_caller]
fn hints(folder: &Folder, arguments: &[&str], refusal: Refusal, hint: &str) {
    for more in [&[][..], &["--commit"]] {
        let said = leaves_all(folder, &[arguments, more].concat(), 1);
        assert_eq!(said, (format!("{refusal}\nhint: {hint}\n"), String::new()));
    }
}

/// It has a problem, which is told, and leaves every file alone.
#[track_caller]
fn stays(folder: &Folder, command: &mut Command, told: &str) {
    let before = files(folder);
    let written = ends(command, 2);
    assert_eq!(written.output, "");
    assert_eq!(written.error, format!("volefleece: {told}\n"));
    assert_eq!(files(folder), before);
}

// Both quotes.

#[test]
fn a_preview_shows_both_quotes_and_changes_nothing() {
    let folder = house("house");
    let said = leaves_all(&folder, &CARD, 0);
    assert_eq!(said, (SAID.into(), String::new()));
}

#[test]
fn the_difference_has_its_sign() {
    let folder = house("house");
    for (to, figure, difference) in [
        ("0", 197_310, "-13600"),
        ("339", 210_870, "-40"),
        ("340", 210_910, "+0"),
        ("341", 210_950, "+40"),
    ] {
        let (said, _) = leaves_all(&folder, &retime("4", "340", to), 0);
        let lines = format!(
            "\nfigure before 210910 cycles\nfigure after {figure} cycles\ndifference {difference} cycles\n"
        );
        assert!(said.contains(&lines), "{said}");
    }
}

#[test]
fn counts_are_set_as_for_a_quote() {
    let folder = house("house");
    remove(&folder, VALUES);
    let set = ["--set", "cards=10", "--set", "radio=7", "--set", "9=3"];
    let (said, notes) = leaves_all(&folder, &[&CARD[..], &set].concat(), 0);
    assert!(said.contains("\ndifference +600 cycles\n"), "{said}");
    let counts = "\ncount cards 10\ncount retries 1000000 (not given)\ntime radio 7 cycles\n";
    assert!(said.ends_with(counts), "{said}");
    let expected = "count-9 is set, and this tree does not use it\n\
                    retries is not given and counts 1000000\n";
    assert_eq!(notes, expected);
}

/// Each by its name and in the words of its own tree.
#[test]
fn the_branch_moves() {
    let folder = house("entrance");
    let (said, _) = leaves_all(&folder, &retime("2", "340", "3000"), 0);
    let lines = "\
figure before 91200 cycles
figure after 120060 cycles
difference +28860 cycles
branch before radio (child 1 of the choice at the root: sequence)
branch after card (child 0 of the choice at the root: loop cards)
";
    assert!(said.contains(lines), "{said}");
    folder.write(TREE, &choice(&[block(5), block(7)]));
    remove(&folder, NAMES);
    let (said, _) = leaves_all(&folder, &retime("1", "5", "9"), 0);
    let lines = "\
branch before block 7 (child 1 of the choice at the root)
branch after block 9 (child 0 of the choice at the root)
";
    assert!(said.ends_with(lines), "{said}");
}

#[test]
fn the_block_has_its_words() {
    let folder = house("house");
    let block = addressed(limited(block(7), 3, 255), 0x4a0);
    folder.write(TREE, &sequence(&[block]));
    let (said, _) = leaves_all(&folder, &retime("1", "7", "8"), 0);
    let line = "\nrecord 1 from 7 to 8 cycles (block 7 at most 3 per run address 0x4a0)\n";
    assert!(said.contains(line), "{said}");
}

// The block by its address.

fn by_address<'a>(address: &'a str, from: &'a str) -> [&'a str; 8] {
    [
        "retime",
        ".",
        "--address",
        address,
        "--from",
        from,
        "--to",
        "1",
    ]
}

/// Sequences with the same address are in nobody's way.
#[test]
fn one_block_alone_goes_by_its_address() {
    let folder = house("workshop");
    for (address, record, time) in [
        ("0x800044c", "8", "340"),
        ("0x8000400", "1", "700"),
        ("0x080004E0", "20", "100"),
    ] {
        let found = leaves_all(&folder, &by_address(address, time), 0);
        let named = leaves_all(&folder, &retime(record, time, "1"), 0);
        assert_eq!(found, named);
        assert!(named.0.contains(&format!("\nrecord {record} from ")));
    }
    let radio = format!(
        "./tree.tab: record 10 (byte 240, address 0x8000474): {}",
        "its time is the symbol radio, to which --set gives a number"
    );
    let by_address = by_address("0x8000474", "7");
    hints(&folder, &by_address, Refusal::RetimedBlock, &radio);
}

#[test]
fn no_block_with_an_address_ends_with_1() {
    let folder = house("workshop");
    // Of no record, and of a loop.
    for (address, said) in [("0x08000401", "0x8000401"), ("0x8000448", "0x8000448")] {
        let arguments = by_address(address, "7");
        for more in [&[][..], &["--commit"]] {
            let found = leaves_all(&folder, &[&arguments, more].concat(), 1);
            let said = format!("no block has the address {said}\n");
            assert_eq!(found, (said, String::new()));
        }
    }
}

#[test]
fn several_blocks_with_an_address_are_named() {
    let folder = folder();
    let there = |tree| addressed(tree, 0x4a0);
    let mut children = vec![there(block(7)), block(7), there(sequence(&[block(7)]))];
    children.push(there(symbol_block(16)));
    folder.write(TREE, &there(choice(&children)));
    let why = "--address 0x4a0: more than one block has it; --record names one, 1 or 5";
    stays(
        &folder,
        folder.command().args(by_address("0x4a0", "7")),
        why,
    );
    children.push(there(block(8)));
    folder.write(TREE, &choice(&children));
    stays(
        &folder,
        folder.command().args(by_address("0x4a0", "7")),
        &format!("{why} or 6"),
    );
}

// Numbers.

#[test]
fn wrong_numbers_are_told() {
    let folder = house("house");
    let [record, time] = ["511", "1000000000000"].map(|most| format!("from 0 to {most}"));
    for wrong in [
        "",
        "x",
        "-1",
        "+1",
        "1.5",
        "1,000",
        "0x10",
        "18446744073709551616",
    ] {
        for (option, expected) in [("record", &record), ("from", &time), ("to", &time)] {
            let arguments = ["record", "from", "to"].map(|name| {
                let right = if name == "record" { "4" } else { "340" };
                format!("--{name}={}", if name == option { wrong } else { right })
            });
            let mut command = folder.command();
            let written = ends(command.args(["retime", "."]).args(arguments), 2);
            let told = format!("'{wrong}' for '--{option} ");
            let expected = format!(": expected a number {expected}\n");
            assert!(written.error.contains(&told), "{}", written.error);
            assert!(written.error.contains(&expected), "{}", written.error);
        }
    }
}

#[test]
fn one_block_is_wanted() {
    let folder = house("house");
    let times = ["--from", "340", "--to", "400"];
    for (named, told) in [
        (&[][..], "<--record <N>|--address <ADDRESS>>"),
        (
            &["--record", "4", "--address", "0x0"],
            "cannot be used with",
        ),
        (&["--record", "4", "--record", "4"], "more than once"),
        (&["--address", "4a0"], "expected 0x and 1 to 8 hexadecimal"),
    ] {
        let mut command = folder.command();
        let command = command.args(["retime", "."]).args(times).args(named);
        let written = ends(command, 2);
        assert!(written.error.contains(told), "{}", written.error);
    }
}

// Refusals.

const TEXT: &str = "\
symbol 16 radio
# Words.
sequence # More.
  block 340 address 0x4a0

  loop 3
    body block   7 # Seven.
    exit block radio
  block time-24
  choice
    block 1
";

#[test]
fn of_question_17_the_clause() {
    let folder = folder();
    folder.write(NAMES, b"symbol 16 radio\n");
    put(&folder, "text/tree.txt", TEXT);
    ends(
        folder.command().args(["make", "text/tree.txt", "-o", TREE]),
        0,
    );
    // The lines of the text's records.
    let lines = [3, 4, 6, 7, 8, 9, 10, 11];
    let says = |record: usize, from: &str, to: &str, hint: &str| {
        let record_named = record.to_string();
        let arguments = retime(&record_named, from, to);
        let address = if record == 1 { ", address 0x4a0" } else { "" };
        let byte = record.saturating_mul(24);
        let place = format!("./tree.tab: record {record} (byte {byte}{address}): ");
        let of_table = hint.replace("HERE: ", &place);
        hints(&folder, &arguments, Refusal::RetimedBlock, &of_table);
        let mut of_text = arguments;
        of_text[1] = "text";
        let line = lines.get(record).copied().unwrap_or_default();
        let hint = hint.replace("HERE: ", &format!("text/tree.txt:{line}: "));
        hints(&folder, &of_text, Refusal::RetimedBlock, &hint);
    };
    says(1, "341", "400", "HERE: its time is 340, not 341");
    says(3, "3", "1000000000001", "HERE: its time is 7, not 3");
    let symbol =
        |name| format!("HERE: its time is the symbol {name}, to which --set gives a number");
    says(4, "16", "400", &symbol("radio"));
    says(5, "24", "400", &symbol("time-24"));
    for (record, kind) in [(0, "sequence"), (2, "loop"), (6, "choice")] {
        let hint = format!("HERE: this is a {kind}, and blocks alone have a time");
        says(record, "3", "400", &hint);
    }
    let most = "and at most 1000000000000 is allowed";
    for to in ["1000000000001", "18446744073709551615"] {
        says(1, "340", to, &format!("the new time is {to}, {most}"));
    }
    let records = "the tree has 8 records, from 0 on";
    for record in [8, 511, 512, usize::MAX] {
        let hint = format!("there is no record {record}: {records}");
        says(record, "340", "400", &hint);
    }
}

/// The tree's questions come first, then 17, then those about values.
#[test]
fn questions_keep_their_order() {
    let folder = house("house");
    folder.write(TREE, &[sample("house", TREE), block(0)].concat());
    for arguments in [&retime("99", "7", "8")[..], &commit("4", "340", "400")] {
        refuses(&folder, arguments, 4);
    }
    let past = sequence(&[block(1_000_000_000_000), block(1)]);
    let later = [&[0; 24][..], &[5], &[0; 7], &[6]].concat();
    for (tree, values, number) in [
        (sequence(&[block(7), block(1)]), vec![0; 9], 9),
        (
            triangular_limited(sequence(&[block(7), block(1)]), 0, 255),
            values_file(&[1_001]),
            13,
        ),
        (sequence(&[block(7), block(1)]), values_file(&later), 14),
        (past, values_file(&[]), 10),
    ] {
        folder.write(TREE, &tree);
        folder.write(VALUES, &values);
        for more in [&[][..], &["--commit"]] {
            let before = files(&folder);
            let stale = [&retime("2", "2", "8"), more].concat();
            refuses(&folder, &stale, 17);
            let right = [&retime("2", "1", "8"), more].concat();
            let said = refuses(&folder, &right, number);
            assert!(said.contains("\nhint: "), "{said}");
            assert_eq!(files(&folder), before);
        }
    }
}

/// It says of which tree, and nothing is written whose quotes cannot be shown.
#[test]
fn of_question_10_the_tree() {
    let folder = house("house");
    let large = "a part of the tree takes more than 1000000000000 cycles";
    let [old, new] = ["the tree as it is: ", "the tree with the new time: "];
    let ceiling = Refusal::Ceiling;
    let most = "1000000000000";
    let hint = format!("{new}with these values {large}");
    hints(&folder, &retime("4", "340", most), ceiling, &hint);
    folder.write(TREE, &sequence(&[block(1_000_000_000_000), block(1)]));
    // Also where the new tree would have a figure.
    for to in ["0", "2"] {
        let hint = format!("{old}{large}");
        hints(&folder, &retime("2", "1", to), ceiling, &hint);
    }
    folder.write(TREE, &sequence(&[block(1_000_000_000_000), block(0)]));
    let hint = format!("{new}{large}");
    hints(&folder, &retime("2", "0", "1"), ceiling, &hint);
    // A count that is not given, with the new time alone.
    folder.write(TREE, &symbol_repeat(2, block(1_000_000), block(0)));
    remove(&folder, VALUES);
    let hint = format!("{new}what is not given counts high; give a value to count-2");
    let arguments = retime("1", "1000000", "1000001");
    let (said, _) = leaves_all(&folder, &arguments, 1);
    assert_eq!(said, format!("{ceiling}\nhint: {hint}\n"));
}

// The table that is written.

#[test]
fn a_commit_writes_eight_bytes_and_back() {
    let folder = house("house");
    let mut others = files(&folder);
    others.retain(|(name, ..)| name != TREE);
    let said = format!("{SAID}committed 288\n");
    for _ in 0..2 {
        answers(&folder, &COMMIT, &said);
        assert_eq!(folder.read(TREE), Some(retimed()));
        let back = ends(folder.command().args(BACK), 0).output;
        assert!(back.contains("\ndifference -2400 cycles\n"), "{back}");
        assert!(back.ends_with("\ncommitted 288\n"), "{back}");
        assert_eq!(folder.read(TREE), Some(sample("house", TREE)));
    }
    let mut left = files(&folder);
    left.retain(|(name, ..)| name != TREE);
    assert_eq!(left, others);
    // All bytes of a time.
    let numbers = ["1000000000000", "72057594037"];
    folder.write(TREE, &block(1_000_000_000_000));
    ends(
        folder.command().args(commit("0", numbers[0], numbers[1])),
        0,
    );
    assert_eq!(folder.read(TREE), Some(block(72_057_594_037)));
    ends(
        folder.command().args(commit("0", numbers[1], numbers[0])),
        0,
    );
    assert_eq!(folder.read(TREE), Some(block(1_000_000_000_000)));
}

#[test]
fn the_same_time_is_written_again() {
    let folder = house("house");
    let said = ends(folder.command().args(commit("4", "340", "340")), 0).output;
    assert!(said.contains("\ndifference +0 cycles\n"), "{said}");
    assert!(said.ends_with("\ncommitted 288\n"), "{said}");
    assert_eq!(folder.read(TREE), Some(sample("house", TREE)));
}

/// Whoever still has the old time in mind learns the new one.
#[test]
fn a_second_commit_is_refused() {
    let folder = house("house");
    ends(folder.command().args(COMMIT), 0);
    let hint = "./tree.tab: record 4 (byte 96): its time is 400, not 340";
    hints(&folder, &CARD, Refusal::RetimedBlock, hint);
    assert_eq!(folder.read(TREE), Some(retimed()));
}

/// Printed anew it would lose its comments and its layout: its line is named instead.
#[test]
fn a_text_is_shown_and_not_written() {
    let folder = folder();
    folder.write(TREE_TEXT, TEXT.as_bytes());
    let set = ["--set", "radio=5", "--set", "24=5"];
    for beside in [false, true] {
        if beside {
            let make = ["make", TREE_TEXT, "-o", TREE];
            ends(folder.command().args(make), 0);
        }
        let arguments = [&retime("3", "7", "9")[..], &set].concat();
        let (said, _) = leaves_all(&folder, &arguments, 0);
        assert!(said.contains("\ndifference +6 cycles\n"), "{said}");
        let mut command = folder.command();
        stays(
            &folder,
            command.args(arguments).arg("--commit"),
            "./tree.txt:7: --commit writes tables, and this is a text: change 7 to 9 in this line, and make tree.tab of it if there is one",
        );
    }
}

#[test]
fn mode_and_owner_stay() {
    for mode in [0o600, 0o604, 0o444] {
        let folder = house("house");
        let tree = folder.path(TREE);
        fs::set_permissions(&tree, Permissions::from_mode(mode)).expect("set");
        // Only root may give a file away.
        let owner = match chown(&tree, Some(65_534), Some(65_533)) {
            Ok(()) => Some((65_534, 65_533)),
            Err(_) => None,
        };
        ends(folder.command_in_shell("umask 27;", "").args(COMMIT), 0);
        let found = fs::metadata(&tree).expect("a file");
        assert_eq!(found.permissions().mode() & 0o777, mode);
        if let Some(owner) = owner {
            assert_eq!((found.uid(), found.gid()), owner);
        }
        assert_eq!(folder.read(TREE), Some(retimed()));
    }
}

/// Its file is replaced where that is.
#[test]
fn a_link_stays_a_link() {
    let folder = house("house");
    put(&folder, "far/file", sample("house", TREE));
    remove(&folder, TREE);
    symlink("far/file", folder.path(TREE)).expect("a link");
    ends(folder.command().args(COMMIT), 0);
    assert_eq!(folder.read("far/file"), Some(retimed()));
    assert!(fs::read_link(folder.path(TREE)).is_ok());
    assert_eq!(fs::read_dir(folder.path("far")).expect("it").count(), 1);
    assert_eq!(folder.names().len(), 4);
}

#[test]
fn a_folder_that_is_shut_is_told() {
    let folder = house("house");
    fs::set_permissions(folder.path(""), Permissions::from_mode(0o555)).expect("set");
    let mut command = folder.command();
    restrict(&mut command).args(COMMIT);
    let told = "./tree.tab: cannot be written: Permission denied (os error 13) at path";
    let before = files(&folder);
    let written = ends(&mut command, 2);
    assert_eq!(written.output, "");
    assert!(written.error.contains(told), "{}", written.error);
    assert_eq!(files(&folder), before);
    fs::set_permissions(folder.path(""), Permissions::from_mode(0o755)).expect("set");
}

// What is no plain file.

#[test]
fn a_pipe_is_read_and_not_written() {
    let folder = house("house");
    remove(&folder, TREE);
    let made = Command::new("mkfifo").arg(folder.path(TREE)).status();
    assert!(made.expect("it runs").success());
    for (arguments, status) in [(&CARD[..], 0), (&COMMIT, 2)] {
        let pipe = folder.path(TREE);
        let writer = thread::spawn(move || {
            let mut pipe = File::options().write(true).open(pipe).expect("a pipe");
            pipe.write_all(&sample("house", TREE)).expect("written");
        });
        let written = ends(folder.command().args(arguments), status);
        writer.join().expect("it is read");
        let told = "./tree.tab: stays as it is: it is no plain file, ";
        assert_eq!(
            written.error.contains(told),
            status == 2,
            "{}",
            written.error
        );
        assert_eq!(written.output.is_empty(), status == 2);
    }
}

/// What is printed there would follow the table.
#[test]
fn standard_output_is_not_the_tree() {
    let folder = house("house");
    let mut command = folder.command_in_shell("", ">>tree.tab");
    let told = "./tree.tab: stays as it is: it is no plain file, or standard output goes there";
    stays(&folder, command.args(COMMIT), told);
}

// Failures.

/// Each of these calls fails in turn. Until the table is replaced it stays as it was; what fails later leaves the new one.
#[test]
fn a_failed_call_leaves_the_old_table() {
    for (call, number, words) in CALLS {
        let mut told = 0;
        for which in 1.. {
            let folder = house("house");
            let before = files(&folder);
            let mut command = folder.command_failing(&format!("{call} {which} {number}"));
            let output = command.args(COMMIT).output().expect("it runs");
            let error = String::from_utf8_lossy(&output.stderr);
            if output.status.success() || error.contains("standard output") {
                assert_eq!(folder.read(TREE), Some(retimed()));
                assert_eq!(folder.names().len(), before.len());
                break;
            }
            assert_eq!(
                (output.status.code(), &output.stdout[..]),
                (Some(2), &b""[..])
            );
            assert!(error.contains(words), "{error}");
            told += usize::from(error.contains("./tree.tab: cannot be written: "));
            assert_eq!(files(&folder), before);
        }
        assert!(told > 0, "{call}");
    }
}

#[test]
fn a_kill_leaves_a_whole_table() {
    let (mut old, mut new) = (0, 0);
    for (call, ..) in CALLS {
        for which in 1.. {
            let folder = house("house");
            let mut command = folder.command_failing(&format!("{call} {which} 0"));
            let status = command.args(COMMIT).stdout(Stdio::null()).status();
            let status = status.expect("it runs");
            if status.success() {
                break;
            }
            assert_eq!(status.signal(), Some(libc::SIGKILL));
            // The next one is not in its way, whichever it finds.
            if folder.read(TREE) == Some(sample("house", TREE)) {
                old += 1;
                ends(folder.command().args(COMMIT), 0);
            } else {
                new += 1;
                ends(folder.command().args(BACK), 0);
                ends(folder.command().args(COMMIT), 0);
            }
            assert_eq!(folder.read(TREE), Some(retimed()));
        }
    }
    assert!(old > 5 && new > 0, "{old} {new}");
}

/// The lines come last, and what they say is done.
#[test]
fn lines_that_cannot_be_written_leave_the_new_table() {
    for behind in [">/dev/full", "1</dev/null"] {
        let folder = house("house");
        let mut command = folder.command_in_shell("", behind);
        let written = ends(command.args(COMMIT), 2);
        let told = "standard output cannot be written";
        assert!(written.error.contains(told), "{}", written.error);
        assert_eq!(folder.read(TREE), Some(retimed()));
    }
}

// Several at once. What changes while counts are typed, terminal.rs has.

#[test]
fn a_table_that_another_holds_stays() {
    let folder = house("house");
    let held = File::open(folder.path(TREE)).expect("a table");
    // SAFETY: the file is open, and no memory is handed over.
    let locked = unsafe { libc::flock(held.as_raw_fd(), libc::LOCK_EX) };
    assert_eq!(locked, 0);
    let told = "./tree.tab: stays as it is: another program holds it";
    stays(&folder, folder.command().args(COMMIT), told);
    // A preview waits for nobody.
    answers(&folder, &CARD, SAID);
    drop(held);
    ends(folder.command().args(COMMIT), 0);
}

/// Each changes its own block until that is done: were one's table written over another's, a block would have an old time again.
#[test]
fn no_commit_is_lost() {
    const BLOCKS: usize = 6;
    const TIMES: usize = 40;
    let folder = folder();
    folder.write(TREE, &sequence(&vec![block(0); BLOCKS]));
    let commits = |record: usize| {
        let mut refused = 0;
        for time in 0..TIMES {
            let numbers = [record, time, time + 1].map(|number| number.to_string());
            let [record, from, to] = numbers.each_ref().map(String::as_str);
            loop {
                let output = folder.command().args(commit(record, from, to)).output();
                let output = output.expect("it runs");
                if output.status.success() {
                    break;
                }
                let error = String::from_utf8_lossy(&output.stderr);
                assert!(error.contains(": stays as it is: "), "{output:?}");
                refused += 1;
            }
        }
        refused
    };
    let refused: usize = thread::scope(|scope| {
        let threads: Vec<_> = (1..=BLOCKS)
            .map(|record| scope.spawn(move || commits(record)))
            .collect();
        threads
            .into_iter()
            .map(|thread| thread.join().expect("done"))
            .sum()
    });
    let expected = sequence(&vec![block(TIMES as u64); BLOCKS]);
    assert_eq!(folder.read(TREE), Some(expected));
    assert_eq!(folder.names(), [TREE]);
    assert!(refused > 0, "none met another");
}
