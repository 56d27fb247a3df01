//! The command as a process, each in a folder of its own. No file of tests uses all of this.
#![allow(dead_code)]

pub mod random;

use std::fs;
use std::os::unix::process::CommandExt;
use std::process::{Command, Stdio};

use assert_cmd::assert::OutputAssertExt;
use volefleece_tests::programs::{sample, Folder, Written, TREE, VALUES};

pub const VOLEFLEECE: &str = env!("CARGO_BIN_EXE_volefleece");

pub const NAMES: &str = "names.txt";
pub const TREE_TEXT: &str = "tree.txt";
pub const VALUES_TEXT: &str = "values.txt";

/// A former table: a block of 7 cycles.
pub const FORMER_BLOCK: [u8; 16] = [0, 0, 0, 0, 0, 0, 0, 0, 7, 0, 0, 0, 0, 0, 0, 0];

/// The calls on the way to a new file, each with an error and its words.
pub const CALLS: [(&str, i32, &str); 6] = [
    ("mkdir", libc::ENOSPC, NO_SPACE),
    ("open64", libc::EACCES, "Permission denied"),
    ("write", libc::ENOSPC, NO_SPACE),
    ("fchmod", libc::EPERM, "Operation not permitted"),
    ("fsync", libc::EIO, "Input/output error"),
    ("rename", libc::EACCES, "Permission denied"),
];
pub const NO_SPACE: &str = "No space left on device";

/// An empty folder for the command to run in.
pub fn folder() -> Folder {
    Folder::of(VOLEFLEECE.into())
}

/// The command in another program's folder.
pub fn command_in(folder: &Folder) -> Command {
    let mut command = Command::new(VOLEFLEECE);
    command.current_dir(folder.path("")).stdin(Stdio::null());
    command
}

/// A folder that is a sample house.
pub fn house(name: &str) -> Folder {
    let folder = folder();
    for file in [TREE, VALUES, NAMES] {
        folder.write(file, &sample(name, file));
    }
    folder
}

/// All values where these alone are given: the others count the most, and later ones as their first.
pub fn all_values(given: &[u64]) -> Vec<u64> {
    let mut values = given.to_vec();
    for place in values.len()..40 {
        values.push(match place {
            0..16 => 1_000_000,
            16..32 => 1_000_000_000_000,
            _ => values[place - 8],
        });
    }
    values
}

/// Writes a file and makes the folders above it.
pub fn put(folder: &Folder, name: &str, bytes: impl AsRef<[u8]>) {
    let path = folder.path(name);
    fs::create_dir_all(path.parent().expect("a folder")).expect("folders");
    fs::write(path, bytes).expect("written");
}

pub fn remove(folder: &Folder, name: &str) {
    fs::remove_file(folder.path(name)).expect("removed");
}

/// The seconds after which a command is ended, so that none keeps its test waiting for ever.
const MOST_SECONDS: u32 = 60;

/// Runs it to its end with that exit status.
#[track_caller]
pub fn ends(command: &mut Command, status: i32) -> Written {
    let in_time = || {
        // SAFETY: alarm may be called between fork and exec, and stays set.
        unsafe { libc::alarm(MOST_SECONDS) };
        Ok(())
    };
    // SAFETY: the closure makes that one call.
    unsafe { command.pre_exec(in_time) };
    let assert = command.assert().code(status);
    let output = assert.get_output();
    let text = |bytes: &[u8]| String::from_utf8(bytes.to_vec()).expect("text");
    Written {
        output: text(&output.stdout),
        error: text(&output.stderr),
    }
}

/// It answers exactly this and has nothing to add.
#[track_caller]
pub fn answers(folder: &Folder, arguments: &[&str], output: &str) {
    let written = ends(folder.command().args(arguments), 0);
    assert_eq!(written.output, output);
    assert_eq!(written.error, "");
}

/// It refuses by that number on standard output, which is returned.
#[track_caller]
pub fn refuses(folder: &Folder, arguments: &[&str], number: u64) -> String {
    let written = ends(folder.command().args(arguments), 1);
    let start = format!("refused {number}: ");
    assert!(written.output.starts_with(&start), "{}", written.output);
    written.output
}

/// It has no answer and says why on standard error: each line begins with its name, and all these words are there.
#[track_caller]
pub fn complains(folder: &Folder, arguments: &[&str], words: &[&str]) {
    let written = ends(folder.command().args(arguments), 2);
    assert_eq!(written.output, "");
    let mut lines = written.error.lines().peekable();
    assert!(lines.peek().is_some(), "nothing is said");
    assert!(
        lines.all(|line| line.starts_with("volefleece: ")),
        "{}",
        written.error
    );
    for word in words {
        assert!(written.error.contains(word), "{word}: {}", written.error);
    }
}
