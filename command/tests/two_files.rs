//! The two files that filling writes: each replaced whole, and neither where one of them cannot be. What a failing call is, the tests'
//! `preload/calls.rs` says.

mod common;

use std::fs::{self, Permissions};
use std::os::unix::fs::{chown, symlink, PermissionsExt};
use std::os::unix::process::ExitStatusExt;
use std::process::Stdio;

use common::*;
use volefleece::Filled;
use volefleece_tests::programs::{restrict, sample, Folder, TREE};

const OUT: &str = "out";
const MARKS: &str = "marks";
const FILL: [&str; 4] = ["fill", TREE, "--set", "cards=40"];
const OLD: [&[u8]; 2] = [b"old tree", b"old marks"];

/// The arguments, with these places for the tree and its marks.
fn fill<'a>(out: &'a str, marks: &'a str) -> Vec<&'a str> {
    [&FILL[..], &["-o", out, "--marks", marks]].concat()
}

fn filled() -> Filled {
    volefleece::fill(&sample("house", TREE), 0, 40).expect("a filled table")
}

fn with_old([out, marks]: [Option<&[u8]>; 2]) -> Folder {
    let folder = house("house");
    for (name, old) in [(OUT, out), (MARKS, marks)] {
        if let Some(old) = old {
            folder.write(name, old);
        }
    }
    folder
}

/// Every way in which the two files may be there before.
fn olds() -> [[Option<&'static [u8]>; 2]; 4] {
    let [out, marks] = OLD.map(Some);
    [[None, None], [out, None], [None, marks], [out, marks]]
}

fn found(folder: &Folder) -> [Option<Vec<u8>>; 2] {
    [OUT, MARKS].map(|name| folder.read(name))
}

/// Both files are as they were, and nothing has come beside them.
#[track_caller]
fn unchanged(folder: &Folder, old: [Option<&[u8]>; 2]) {
    assert_eq!(found(folder), old.map(|old| old.map(<[u8]>::to_vec)));
    assert_eq!(folder.names(), with_old(old).names());
}

/// Both files are new, and nothing else is.
#[track_caller]
fn replaced(folder: &Folder) {
    let Filled { table, marks } = filled();
    assert_eq!(found(folder), [Some(table), Some(marks.to_vec())]);
    assert_eq!(folder.names(), with_old(OLD.map(Some)).names());
}

#[test]
fn both_are_replaced_or_made() {
    for old in olds() {
        let folder = with_old(old);
        answers(&folder, &fill(OUT, MARKS), "filled 288 marked 1\n");
        replaced(&folder);
    }
}

#[test]
fn each_keeps_its_mode() {
    let folder = with_old(OLD.map(Some));
    let mode = |name| {
        let found = fs::metadata(folder.path(name)).expect("a file");
        found.permissions().mode() & 0o777
    };
    for (name, mode) in [(OUT, 0o604), (MARKS, 0o440)] {
        fs::set_permissions(folder.path(name), Permissions::from_mode(mode)).expect("set");
    }
    ends(folder.command().args(fill(OUT, MARKS)), 0);
    assert_eq!((mode(OUT), mode(MARKS)), (0o604, 0o440));
}

// One file twice.

#[test]
fn one_file_is_not_both() {
    for old in olds() {
        let folder = with_old(old);
        folder.put_folder("in");
        symlink("../out", folder.path("in/link")).expect("a link");
        symlink(".", folder.path("here")).expect("a link");
        let names = folder.names();
        for (out, marks) in [
            (OUT, OUT),
            (OUT, "./out"),
            (OUT, "in/../out"),
            (OUT, "here/out"),
            (OUT, "in/link"),
            ("in/link", OUT),
            ("here/in/link", "in/link"),
            ("/dev/null", "/dev/null"),
            ("/dev/stdout", "/dev/stdout"),
            ("/dev/stdout", "/proc/self/fd/1"),
        ] {
            let why = format!("{marks} and {out} are one file, and two are to be written");
            complains(&folder, &fill(out, marks), &[&why]);
            assert_eq!(found(&folder), old.map(|old| old.map(<[u8]>::to_vec)));
            assert_eq!(folder.names(), names);
        }
    }
    // Two names of one file, though each could be given another.
    let folder = with_old([Some(OLD[0]), None]);
    fs::hard_link(folder.path(OUT), folder.path(MARKS)).expect("a second name");
    complains(&folder, &fill(OUT, MARKS), &["marks and out are one file"]);
    unchanged(&folder, [Some(OLD[0]), Some(OLD[0])]);
}

// Places that cannot be written.

#[test]
fn where_one_cannot_be_written_neither_changes() {
    for old in olds() {
        for (wrong, why) in [
            ("none/file", "No such file"),
            ("names.txt/file", "Not a directory"),
            ("in", "Is a directory"),
            ("loop", "links"),
            ("/dev/full", "No space left on device"),
            ("/proc/version/file", "Not a directory"),
        ] {
            let folder = with_old(old);
            folder.put_folder("in");
            symlink("loop", folder.path("loop")).expect("a link");
            let names = folder.names();
            for arguments in [fill(wrong, MARKS), fill(OUT, wrong)] {
                let told = format!("{wrong}: cannot be written: ");
                complains(&folder, &arguments, &[&told, why]);
                assert_eq!(found(&folder), old.map(|old| old.map(<[u8]>::to_vec)));
                assert_eq!(folder.names(), names);
            }
        }
    }
}

/// A folder in which nothing may be made, or in which another's file may not be replaced.
#[test]
fn without_permission_neither_changes() {
    for mode in [0o555, 0o1777] {
        let folder = with_old(OLD.map(Some));
        fs::set_permissions(folder.path(""), Permissions::from_mode(0o777)).expect("set");
        put(&folder, "shut/file", OLD[0]);
        fs::set_permissions(folder.path("shut"), Permissions::from_mode(mode)).expect("set");
        let owner = chown(folder.path("shut/file"), Some(65_533), None);
        if mode == 0o1777 && owner.is_err() {
            // Only root may give a file away, and without that it may be replaced.
            return;
        }
        let names = folder.names();
        for arguments in [fill("shut/file", MARKS), fill(OUT, "shut/file")] {
            let mut command = folder.command();
            let written = ends(restrict(&mut command).args(arguments), 2);
            let told = "shut/file: cannot be written: ";
            assert!(written.error.contains(told), "{}", written.error);
            assert_eq!(found(&folder), OLD.map(|old| Some(old.to_vec())));
            assert_eq!(folder.read("shut/file").as_deref(), Some(OLD[0]));
            assert_eq!(folder.names(), names);
        }
        fs::set_permissions(folder.path("shut"), Permissions::from_mode(0o755)).expect("set");
        assert_eq!(fs::read_dir(folder.path("shut")).expect("it").count(), 1);
    }
}

/// Marks that stand there come back as they were, also where no second name could be given to them.
#[test]
fn marks_come_back() {
    for restricted in [false, true] {
        let folder = with_old([None, Some(OLD[1])]);
        fs::set_permissions(folder.path(""), Permissions::from_mode(0o777)).expect("set");
        fs::set_permissions(folder.path(MARKS), Permissions::from_mode(0o644)).expect("set");
        let failing = format!("rename 2 {}", libc::EACCES);
        let mut command = folder.command_failing(&failing);
        if restricted {
            // Another's file that may be read alone.
            restrict(&mut command);
        }
        let written = ends(command.args(fill(OUT, MARKS)), 2);
        assert_eq!(
            written.error,
            "volefleece: out: cannot be written: Permission denied (os error 13)\n"
        );
        unchanged(&folder, [None, Some(OLD[1])]);
        let found = fs::metadata(folder.path(MARKS)).expect("a file");
        assert_eq!(found.permissions().mode() & 0o777, 0o644);
    }
}

/// It is told, and what stood there is kept.
#[test]
fn marks_that_cannot_come_back_are_told() {
    for (old, call) in [(None, "unlink 1"), (Some(OLD[1]), "rename 2")] {
        let folder = with_old([None, old]);
        let mut command = folder.command_failing(&format!("{call} {}", libc::EIO));
        let written = ends(command.args(fill("/dev/full", MARKS)), 2);
        let lines: Vec<&str> = written.error.lines().collect();
        let first = "volefleece: /dev/full: cannot be written: No space left on device";
        assert!(lines[0].starts_with(first), "{}", written.error);
        let second = "volefleece: marks: is written already, and cannot be taken back: Input/output error (os error 5)";
        let kept = lines[1].strip_prefix(second).expect("a second line");
        assert_eq!(folder.read(MARKS), Some(filled().marks.to_vec()));
        let kept = kept.strip_prefix("; what it was is ");
        let kept = kept.map(|kept| folder.read(kept).expect("the old marks"));
        assert_eq!(kept.as_deref(), old);
    }
}

// Failures and kills.

/// Each of these calls fails in turn, for either file: then both stay as they were, and what fails later leaves both new.
#[test]
fn a_failed_call_changes_neither() {
    for (call, number, _) in CALLS {
        for old in olds() {
            let mut told = [false; 2];
            for which in 1.. {
                let folder = with_old(old);
                let mut command = folder.command_failing(&format!("{call} {which} {number}"));
                let output = command.args(fill(OUT, MARKS)).output().expect("it runs");
                let error = String::from_utf8_lossy(&output.stderr);
                if output.status.success() || error.contains("standard output") {
                    replaced(&folder);
                    break;
                }
                assert_eq!(output.status.code(), Some(2));
                assert_eq!(output.stdout, b"");
                for (told, name) in told.iter_mut().zip([OUT, MARKS]) {
                    *told |= error.contains(&format!("{name}: cannot be written: "));
                }
                unchanged(&folder, old);
            }
            // A new file keeps no mode.
            let needed = old.map(|old| call != "fchmod" || old.is_some());
            assert_eq!(told, needed, "{call} {old:?}");
        }
    }
}

#[test]
fn parts_are_put_together() {
    for old in olds() {
        let folder = with_old(old);
        ends(folder.command_moving(15).args(fill(OUT, MARKS)), 0);
        replaced(&folder);
    }
}

/// A kill leaves each file whole. The tree is not filled before its marks are there, and the next run has both.
#[test]
fn a_kill_leaves_no_filled_tree_without_its_marks() {
    let Filled { table, marks } = filled();
    for (call, ..) in CALLS {
        for old in olds() {
            let mut between = 0;
            for which in 1.. {
                let folder = with_old(old);
                let mut command = folder.command_failing(&format!("{call} {which} 0"));
                let command = command.args(fill(OUT, MARKS)).stdout(Stdio::null());
                let status = command.status().expect("it runs");
                if status.success() {
                    break;
                }
                assert_eq!(status.signal(), Some(libc::SIGKILL));
                let old = old.map(|old| old.map(<[u8]>::to_vec));
                let new = [Some(table.clone()), Some(marks.to_vec())];
                let found = found(&folder);
                if found == [old[0].clone(), new[1].clone()] {
                    between += 1;
                } else {
                    assert!(found == old || found == new, "{call} {which}");
                }
                ends(folder.command().args(fill(OUT, MARKS)), 0);
                assert_eq!(self::found(&folder), new);
            }
            if call == "rename" {
                assert_eq!(between, 1, "{old:?}");
            }
        }
    }
}

/// In its own place a tree is never lost: a kill leaves it open, or filled beside its marks, and a second run spoils neither.
#[test]
fn a_kill_leaves_a_tree_in_its_place_that_can_be_opened() {
    let Filled { table, marks } = filled();
    let (mut open, mut shut) = (0, 0);
    for call in ["rename", "fsync", "open64", "write"] {
        for which in 1.. {
            let folder = with_old([None, Some(OLD[1])]);
            let mut command = folder.command_failing(&format!("{call} {which} 0"));
            let command = command.args(fill(TREE, MARKS)).stdout(Stdio::null());
            let status = command.status().expect("it runs");
            if status.success() {
                break;
            }
            assert_eq!(status.signal(), Some(libc::SIGKILL));
            let is_open = folder.read(TREE) == Some(sample("house", TREE));
            *(if is_open { &mut open } else { &mut shut }) += 1;
            ends(
                folder.command().args(fill(TREE, MARKS)),
                if is_open { 0 } else { 2 },
            );
            assert_eq!(folder.read(TREE).as_ref(), Some(&table));
            assert_eq!(folder.read(MARKS), Some(marks.to_vec()));
        }
    }
    assert!(open > 5 && shut > 0, "{open} {shut}");
}

// What is no plain file.

/// What a reader of a pipe has cannot be taken back; a plain file beside it is.
#[test]
fn what_is_written_directly_goes_beside_a_file() {
    let Filled { table, marks } = filled();
    let folder = with_old(OLD.map(Some));
    let run = |arguments: &[&str]| folder.command().args(arguments).output().expect("it runs");
    let piped = run(&fill("/dev/stdout", MARKS));
    assert!(piped.status.success());
    assert_eq!(piped.stdout, table);
    assert_eq!(piped.stderr, b"filled 288 marked 1\n");
    assert_eq!(folder.read(MARKS), Some(marks.to_vec()));
    folder.write(MARKS, OLD[1]);
    let piped = run(&fill(OUT, "/dev/stdout"));
    assert!(piped.status.success());
    assert_eq!(piped.stdout, marks);
    assert_eq!(piped.stderr, b"filled 288 marked 1\n");
    assert_eq!(folder.read(OUT), Some(table));
    folder.write(OUT, OLD[0]);
    // A standard output that takes nothing.
    for arguments in [fill("/dev/stdout", MARKS), fill(OUT, "/dev/stdout")] {
        let mut command = folder.command_in_shell("", ">/dev/full");
        let written = ends(command.args(arguments), 2);
        let told = "/dev/stdout: cannot be written: No space left on device";
        assert!(written.error.contains(told), "{}", written.error);
        unchanged(&folder, OLD.map(Some));
    }
}

/// The line comes last, and what it would say is done.
#[test]
fn a_line_that_cannot_be_written_leaves_both_new() {
    let folder = with_old(OLD.map(Some));
    let mut command = folder.command_in_shell("", ">/dev/full");
    let written = ends(command.args(fill(OUT, MARKS)), 2);
    let told = "standard output cannot be written";
    assert!(written.error.contains(told), "{}", written.error);
    replaced(&folder);
}

#[test]
fn a_refusal_changes_neither() {
    for old in olds() {
        let folder = with_old(old);
        refuses(
            &folder,
            &["fill", TREE, "--set", "24=4", "-o", OUT, "--marks", MARKS],
            15,
        );
        unchanged(&folder, old);
    }
}
