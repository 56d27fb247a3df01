//! Files that the command writes: replaced whole or not at all, and with nothing beside them, whatever fails. What a failing call is, the
//! tests' `preload/calls.rs` says.

mod common;

use std::fs::{self, Permissions};
use std::os::unix::fs::{chown, symlink, MetadataExt, PermissionsExt};
use std::os::unix::process::ExitStatusExt;
use std::process::{Command, Stdio};

use common::*;
use volefleece_tests::programs::{sample, Folder, TREE};
use volefleece_tests::tables::*;

const OUT: &str = "out";
const OLD: &[u8] = b"old";

/// Every way to write a file, without the file's name. What filling writes to two files two_files.rs has.
const WAYS: [&[&str]; 10] = [
    &["make", "tree.txt", "-o"],
    &["values", "make", "values.txt", "-o"],
    &["simplify", "tree.tab", "-o"],
    &["graft", "tree.tab", "sent.tab", "--symbol", "radio", "-o"],
    &["convert", "former.tab", "-o"],
    &["draw", "tree.tab", "-o"],
    // A house: its files, its names and its counts.
    &["draw", ".", "--set", "cards=4", "--set", "radio=9", "-o"],
    &[
        "open",
        "filled.tab",
        "--marks",
        "marks",
        "--set",
        "0=4",
        "-o",
    ],
    &[
        "fill",
        "tree.tab",
        "--set",
        "0=4",
        "--marks",
        "/dev/null",
        "-o",
    ],
    &[
        "fill",
        "tree.tab",
        "--set",
        "0=4",
        "-o",
        "/dev/null",
        "--marks",
    ],
];

const READ: [&str; 8] = [
    "filled.tab",
    "former.tab",
    "marks",
    NAMES,
    "sent.tab",
    TREE,
    TREE_TEXT,
    VALUES_TEXT,
];
const TEXT: &str = "choice\n  loop cards\n    body block 340\n    exit loop 0\n      body block 1\n      exit block radio\n  block 7\n";

/// The text's table.
fn table() -> Vec<u8> {
    let exit = repeat(0, block(1), symbol_block(16));
    choice(&[symbol_repeat(0, block(340), exit), block(7)])
}

/// A folder with all that is read, and an old file.
fn with_files(old: Option<&[u8]>) -> Folder {
    let folder = folder();
    folder.write(TREE, &table());
    folder.write(NAMES, &sample("workshop", NAMES));
    folder.write("sent.tab", &block(7));
    folder.write("former.tab", &FORMER_BLOCK);
    let filled = volefleece::fill(&table(), 0, 4).expect("a filled table");
    folder.write("filled.tab", &filled.table);
    folder.write("marks", &filled.marks);
    folder.write(TREE_TEXT, TEXT.as_bytes());
    folder.write(VALUES_TEXT, b"cards 40\nretries 3\n");
    if let Some(old) = old {
        folder.write(OUT, old);
    }
    folder
}

/// What a way writes where nothing fails.
fn new(way: &[&str]) -> Vec<u8> {
    let folder = with_files(None);
    ends(folder.command().args(way).arg(OUT), 0);
    folder.read(OUT).expect("a file")
}

/// The file has these bytes, or is not there, and nothing has come beside it.
#[track_caller]
fn holds(folder: &Folder, bytes: Option<&[u8]>) {
    assert!(folder.read(OUT).as_deref() == bytes, "other bytes");
    let mut names = folder.names();
    names.retain(|name| name != OUT);
    assert_eq!(names, READ);
}

// What stands there before.

#[test]
fn a_file_is_replaced_or_made() {
    for way in WAYS {
        let new = new(way);
        for old in [Some(OLD), Some(&[7; 100_000]), Some(&new)] {
            let folder = with_files(old);
            let written = ends(folder.command().args(way).arg(OUT), 0);
            assert_eq!(written.output.lines().count(), 1);
            holds(&folder, Some(&new));
        }
    }
}

#[test]
fn a_new_files_mode_is_narrowed_by_the_mask_alone() {
    for way in WAYS {
        for (mask, mode) in [("0", 0o666), ("22", 0o644), ("77", 0o600)] {
            let folder = with_files(None);
            let mask = format!("umask {mask};");
            let mut command = folder.command_in_shell(&mask, "");
            ends(command.args(way).arg(OUT), 0);
            assert_eq!(mode_of(&folder, OUT), mode, "{mask}");
        }
    }
}

#[test]
fn an_old_files_mode_is_kept() {
    for way in WAYS {
        for mode in [0o600, 0o604, 0o755, 0o444] {
            let folder = with_files(Some(OLD));
            let permissions = Permissions::from_mode(mode);
            fs::set_permissions(folder.path(OUT), permissions).expect("set");
            ends(
                folder.command_in_shell("umask 27;", "").args(way).arg(OUT),
                0,
            );
            assert_eq!(mode_of(&folder, OUT), mode);
        }
    }
}

/// Only root may give a file to its owner, so for others there is nothing to see.
#[test]
fn an_old_files_owner_is_kept() {
    for way in WAYS {
        let folder = with_files(Some(OLD));
        if chown(folder.path(OUT), Some(65_534), Some(65_533)).is_err() {
            return;
        }
        ends(folder.command().args(way).arg(OUT), 0);
        let found = fs::metadata(folder.path(OUT)).expect("a file");
        assert_eq!((found.uid(), found.gid()), (65_534, 65_533));
    }
}

fn mode_of(folder: &Folder, name: &str) -> u32 {
    let metadata = fs::metadata(folder.path(name)).expect("a file");
    metadata.permissions().mode() & 0o777
}

/// Its file is replaced, or made, where that is.
#[test]
fn a_link_stays_a_link() {
    for way in WAYS {
        let new = new(way);
        for old in [None, Some(OLD)] {
            let folder = with_files(None);
            folder.put_folder("far");
            let file = folder.path("far/file");
            if let Some(old) = old {
                fs::write(&file, old).expect("written");
            }
            symlink("file", folder.path("far/link")).expect("a link");
            symlink("far/link", folder.path(OUT)).expect("a link");
            ends(folder.command().args(way).arg(OUT), 0);
            assert_eq!(fs::read(&file).expect("a file"), new);
            for link in [OUT, "far/link"] {
                assert!(fs::read_link(folder.path(link)).is_ok(), "{link}");
            }
            assert_eq!(fs::read_dir(folder.path("far")).expect("it").count(), 2);
        }
    }
}

#[test]
fn what_cannot_be_written_is_told() {
    for way in WAYS {
        let folder = with_files(None);
        folder.put_folder("folder");
        symlink(OUT, folder.path("out2")).expect("a link");
        symlink("out2", folder.path(OUT)).expect("a link");
        let names = folder.names();
        for (out, why) in [
            ("folder", "Is a directory"),
            ("none/out", "No such file"),
            ("tree.txt/out", "Not a directory"),
            ("/dev/full/out", "Not a directory"),
            (OUT, "links"),
        ] {
            let arguments = [way, &[out]].concat();
            complains(
                &folder,
                &arguments,
                &[&format!("{out}: cannot be written: "), why],
            );
            assert_eq!(folder.names(), names);
        }
    }
}

#[test]
fn a_device_that_takes_nothing_is_told() {
    for way in WAYS {
        let arguments = [way, &["/dev/full"][..]].concat();
        let words = format!("/dev/full: cannot be written: {NO_SPACE}");
        complains(&with_files(None), &arguments, &[&words]);
    }
}

/// Others write there too, before and after it, and who reads finds nothing between.
#[test]
fn standard_output_is_written_as_it_stands() {
    for way in WAYS {
        let new = new(way);
        let folder = with_files(None);
        let mut piped = folder.command();
        let piped = piped
            .args(way)
            .arg("/dev/stdout")
            .output()
            .expect("it runs");
        assert!(piped.status.success());
        assert!(piped.stdout == new, "other bytes");
        let script = "{ echo before; \"$@\"; echo after; } >out";
        let mut shell = Command::new("sh");
        shell.args(["-c", script, "sh", VOLEFLEECE]).args(way);
        shell.arg("/dev/stdout").current_dir(folder.path(""));
        assert!(shell
            .stderr(Stdio::null())
            .status()
            .expect("it runs")
            .success());
        let expected = [b"before\n", &new[..], b"after\n"].concat();
        holds(&folder, Some(&expected));
    }
}

// Failures.

/// Each of these calls fails in turn. Until the file is replaced it stays as it was; what fails later leaves the new one.
#[test]
fn a_failed_call_changes_nothing() {
    for way in WAYS {
        let new = new(way);
        for (call, number, words) in CALLS {
            for old in [None, Some(OLD)] {
                let mut told = 0;
                for which in 1.. {
                    let folder = with_files(old);
                    let mut command = folder.command_failing(&format!("{call} {which} {number}"));
                    let output = command.args(way).arg(OUT).output().expect("it runs");
                    let error = String::from_utf8_lossy(&output.stderr);
                    if output.status.success() || error.contains("standard output") {
                        holds(&folder, Some(&new));
                        break;
                    }
                    assert_eq!(output.status.code(), Some(2));
                    assert_eq!(output.stdout, b"");
                    assert!(error.contains(words), "{error}");
                    told += usize::from(error.contains("out: cannot be written: "));
                    holds(&folder, old);
                }
                // A new file keeps no mode.
                let needless = call == "fchmod" && old.is_none();
                assert_eq!(told, usize::from(!needless), "{call} {way:?}");
            }
        }
    }
}

/// A write that takes a part, and then one that fails.
#[test]
fn a_limit_on_the_files_length_is_told() {
    let folder = with_files(Some(OLD));
    let long = format!("sequence\n{}", "  block 1\n".repeat(200));
    folder.write("long.txt", long.as_bytes());
    let names = folder.names();
    let mut command = folder.command_in_shell("trap '' XFSZ; ulimit -f 1;", "");
    let written = ends(command.args(["make", "long.txt", "-o", OUT]), 2);
    assert!(
        written
            .error
            .contains("out: cannot be written: File too large"),
        "{}",
        written.error
    );
    assert_eq!(folder.read(OUT).as_deref(), Some(OLD));
    assert_eq!(folder.names(), names);
}

#[test]
fn parts_are_put_together() {
    for way in WAYS {
        let folder = with_files(Some(OLD));
        ends(folder.command_moving(15).args(way).arg(OUT), 0);
        holds(&folder, Some(&new(way)));
    }
}

/// A kill at any of these calls leaves the old file or the new one, and the next run is not in its way.
#[test]
fn a_kill_leaves_a_whole_file() {
    for way in WAYS {
        let new = new(way);
        for (call, ..) in CALLS {
            let mut left = Vec::new();
            for which in 1.. {
                let folder = with_files(Some(OLD));
                let mut command = folder.command_failing(&format!("{call} {which} 0"));
                let status = command
                    .args(way)
                    .arg(OUT)
                    .stdout(Stdio::null())
                    .stderr(Stdio::null())
                    .status()
                    .expect("it runs");
                if status.success() {
                    break;
                }
                assert_eq!(status.signal(), Some(libc::SIGKILL));
                left.push(folder.read(OUT).expect("a file"));
                ends(folder.command().args(way).arg(OUT), 0);
                assert!(folder.read(OUT).as_ref() == Some(&new), "other bytes");
            }
            let (old, replaced): (Vec<_>, Vec<_>) = left.iter().partition(|&bytes| bytes == OLD);
            assert!(!old.is_empty(), "{call} {way:?}");
            assert!(
                replaced.into_iter().all(|bytes| *bytes == new),
                "{call} {way:?}"
            );
        }
    }
}

/// Who may not read the old file may not read the new one at any time.
#[test]
fn what_is_being_written_has_the_old_files_mode() {
    let folder = with_files(Some(OLD));
    fs::set_permissions(folder.path(OUT), Permissions::from_mode(0o600)).expect("set");
    let mut command = folder.command_failing("write 1 0");
    let status = command.args(WAYS[0]).arg(OUT).status().expect("it runs");
    assert_eq!(status.signal(), Some(libc::SIGKILL));
    let left = &folder.names()[0];
    assert_eq!(mode_of(&folder, &format!("{left}/new")), 0o600);
}

/// The line comes last, and what it would say is done.
#[test]
fn a_line_that_cannot_be_written_leaves_the_new_file() {
    for way in WAYS {
        let folder = with_files(Some(OLD));
        let mut command = folder.command_in_shell("", ">/dev/full");
        let written = ends(command.args(way).arg(OUT), 2);
        assert!(
            written.error.contains("standard output cannot be written"),
            "{}",
            written.error
        );
        holds(&folder, Some(&new(way)));
    }
}

// Refusals and problems.

#[test]
fn nothing_is_written_without_an_answer() {
    for way in WAYS {
        let folder = with_files(Some(OLD));
        for file in [TREE, TREE_TEXT, VALUES_TEXT, "former.tab", "filled.tab"] {
            folder.write(file, b"loop\n");
        }
        let output = folder
            .command()
            .args(way)
            .arg(OUT)
            .output()
            .expect("it runs");
        assert!(
            matches!(output.status.code(), Some(1 | 2)),
            "{}",
            output.status
        );
        holds(&folder, Some(OLD));
    }
}
