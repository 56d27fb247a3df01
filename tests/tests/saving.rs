//! simple.tab as the sales desk's program leaves it, and tree.tab as `readdress` does: replaced whole or not at all, and with nothing beside it, whatever
//! fails and however many programs run at once; and simple.tab gone after a refusal. `preload/calls.rs` says what a failing call is.

use std::fs::{self, Permissions};
use std::os::unix::fs::{symlink, MetadataExt, PermissionsExt};
use std::os::unix::process::ExitStatusExt;
use std::process::{Child, Command, Stdio};
use std::thread;
use std::time::Duration;
use volefleece_tests::converter::converted;
use volefleece_tests::programs::{
    complains, copy_program, restrict, written, Folder, FORMER, TREE,
};
use volefleece_tests::rng::Rng;
use volefleece_tests::simplifier::simplify;
use volefleece_tests::tables::*;

const SALES: &str = "sales";
const SIMPLE: &str = "simple.tab";

/// What may stand in the file before.
const OLD: &[u8] = b"old";

/// A program that writes a file.
struct Saver {
    program: &'static str,
    argument: Option<&'static str>,
    /// The file that it reads, and what is there.
    source: &'static str,
    read: Vec<u8>,
    /// The file that it writes, what is there then, and what it prints.
    file: &'static str,
    new: Vec<u8>,
    line: String,
}

fn savers() -> [Saver; 2] {
    [sales(), readdress()]
}

fn sales() -> Saver {
    let new = simple(3);
    Saver {
        program: SALES,
        argument: Some("3"),
        source: TREE,
        read: tree(),
        file: SIMPLE,
        line: format!("simplified {} steps 3 spent\n", new.len()),
        new,
    }
}

/// As long as the tree. What the records hold makes no difference.
fn readdress() -> Saver {
    let former: Vec<u8> = (0..tree().len() / 24 * 16).map(|at| at as u8).collect();
    Saver {
        program: "readdress",
        argument: None,
        source: FORMER,
        new: converted(&former).expect("a former table's length"),
        read: former,
        file: TREE,
        line: String::new(),
    }
}

/// Longer than a block of a file, and many steps from its simplest.
fn tree() -> Vec<u8> {
    let parts: Vec<Vec<u8>> = (0..100)
        .map(|time| sequence(&[choice(&[block(time), symbol_block(16)])]))
        .collect();
    sequence(&parts)
}

fn simple(allowance: u64) -> Vec<u8> {
    let made = simplify(&tree(), allowance, tree().len());
    made.expect("accepted").bytes
}

/// One with nothing to write: it removes the file.
fn refused() -> Saver {
    Saver {
        read: sequence(&[block(1_000_000_000_000), block(1)]),
        line: "refused 10\n".into(),
        ..sales()
    }
}

impl Saver {
    /// A folder with what it reads, and with that file before.
    fn folder(&self, old: Option<&[u8]>) -> Folder {
        let folder = Folder::new(self.program);
        folder.write(self.source, &self.read);
        if let Some(old) = old {
            folder.write(self.file, old);
        }
        folder
    }

    /// It ends well, with its line alone.
    #[track_caller]
    fn runs(&self, mut command: Command) {
        let written = written(command.args(self.argument));
        assert_eq!(written.error, "");
        assert_eq!(written.output, self.line);
    }

    /// It says what is wrong with a file.
    #[track_caller]
    fn complains(&self, mut command: Command, file: &str) {
        complains(command.args(self.argument), &format!("{file}: "));
    }

    #[track_caller]
    fn is_killed(&self, mut command: Command) {
        let output = command.args(self.argument).output().expect("it starts");
        assert_eq!(output.status.signal(), Some(9));
        assert_eq!(String::from_utf8_lossy(&output.stdout), "");
    }

    /// The file has these bytes, a regular one, or is none, and only what the program reads is beside it.
    #[track_caller]
    fn left(&self, folder: &Folder, bytes: Option<&[u8]>) {
        assert!(folder.read(self.file).as_deref() == bytes, "other bytes");
        let mut names = vec![self.source];
        if bytes.is_some() {
            let metadata = fs::symlink_metadata(folder.path(self.file));
            assert!(metadata.expect("a file").is_file());
            names.push(self.file);
        }
        names.sort();
        assert_eq!(folder.names(), names);
    }

    /// As a run that ends well leaves it.
    #[track_caller]
    fn saved(&self, folder: &Folder) {
        self.left(folder, Some(&self.new));
    }
}

// What stands there before.

#[test]
fn nothing_is_left_beside() {
    for saver in savers() {
        for old in [None, Some(OLD), Some(&[7; 100_000])] {
            let folder = saver.folder(old);
            saver.runs(folder.command());
            saver.saved(&folder);
        }
    }
}

#[test]
fn a_link_is_replaced() {
    for saver in savers() {
        for place in ["other.tab", "missing/other.tab", "/dev/full"] {
            let folder = saver.folder(None);
            folder.write("other.tab", OLD);
            symlink(place, folder.path(saver.file)).expect("a new link");
            saver.runs(folder.command());
            assert_eq!(folder.read("other.tab").as_deref(), Some(OLD));
            fs::remove_file(folder.path("other.tab")).expect("removed");
            saver.saved(&folder);
        }
    }
}

#[test]
fn a_folder_of_that_name_is_told() {
    for saver in [sales(), refused(), readdress()] {
        let folder = saver.folder(None);
        folder.put_folder(saver.file);
        let names = folder.names();
        saver.complains(folder.command(), saver.file);
        assert!(folder.path(saver.file).is_dir());
        assert_eq!(folder.names(), names);
    }
}

/// The program is a copy that any user can reach.
#[test]
fn a_folder_that_cannot_be_written_is_told() {
    for saver in [sales(), refused(), readdress()] {
        let folder = saver.folder(Some(OLD));
        let program = folder.path("program");
        copy_program(folder.command().get_program().as_ref(), &program);
        let mut command = Command::new(&program);
        command.current_dir(folder.path("")).stdin(Stdio::null());
        restrict(&mut command);
        let set = |mode| fs::set_permissions(folder.path(""), Permissions::from_mode(mode));
        set(0o555).expect("set");
        saver.complains(command, saver.file);
        set(0o755).expect("set");
        fs::remove_file(program).expect("removed");
        saver.left(&folder, Some(OLD));
    }
}

/// The mode is the one that any new file has.
#[test]
fn the_mode_is_narrowed_by_the_mask_alone() {
    for saver in savers() {
        for (mask, mode) in [("0", 0o666), ("22", 0o644), ("27", 0o640), ("77", 0o600)] {
            let folder = saver.folder(Some(OLD));
            let mask = format!("umask {mask};");
            saver.runs(folder.command_in_shell(&mask, ""));
            let metadata = fs::metadata(folder.path(saver.file)).expect("a file");
            assert_eq!(metadata.mode() & 0o777, mode, "{mask}");
        }
    }
}

// Failures.

#[test]
fn a_failed_call_changes_nothing() {
    for saver in savers() {
        for call in ["write 1 28", "fsync 1 5", "rename 1 13"] {
            for old in [None, Some(OLD)] {
                let folder = saver.folder(old);
                saver.complains(folder.command_failing(call), saver.file);
                saver.left(&folder, old);
            }
        }
    }
}

/// By then the file is synced, so what a close says is lost and nothing else.
#[test]
fn a_failed_close_is_not_seen() {
    for saver in savers() {
        for old in [None, Some(OLD)] {
            let folder = saver.folder(old);
            saver.runs(folder.command_failing("close 2 5"));
            saver.saved(&folder);
        }
    }
}

/// A write that takes a part, and then one that fails.
#[test]
fn a_limit_on_the_files_length_is_told() {
    for saver in savers() {
        assert!(saver.new.len() > 2_048);
        let folder = saver.folder(Some(OLD));
        let command = folder.command_in_shell("trap '' XFSZ; ulimit -f 1;", "");
        saver.complains(command, saver.file);
        saver.left(&folder, Some(OLD));
    }
}

#[test]
fn parts_are_put_together() {
    for saver in savers() {
        for most in [1, 15, 1_000] {
            let folder = saver.folder(Some(OLD));
            saver.runs(folder.command_moving(most));
            saver.saved(&folder);
        }
    }
}

/// The file that is written is a new one, also where there is no random number to name it.
#[test]
fn a_name_that_is_taken_is_not_written() {
    const NO_RANDOM: &str = "getentropy 1 38";
    for saver in savers() {
        let taken = format!("{}.0", saver.file);
        let folder = saver.folder(Some(OLD));
        saver.runs(folder.command_failing(NO_RANDOM));
        saver.saved(&folder);
        folder.write(&taken, OLD);
        saver.complains(folder.command_failing(NO_RANDOM), saver.file);
        assert_eq!(folder.read(&taken).as_deref(), Some(OLD));
        fs::remove_file(folder.path(&taken)).expect("removed");
        symlink("other.tab", folder.path(&taken)).expect("a new link");
        saver.complains(folder.command_failing(NO_RANDOM), saver.file);
        assert!(!folder.path("other.tab").exists());
        fs::remove_file(folder.path(&taken)).expect("removed");
        saver.saved(&folder);
    }
}

/// The line comes last, and what it would say is done.
#[test]
fn a_line_that_cannot_be_written_changes_nothing() {
    let saver = sales();
    let folder = saver.folder(Some(OLD));
    saver.complains(folder.command_failing("write 2 5"), "standard output");
    saver.saved(&folder);
    let folder = saver.folder(Some(OLD));
    saver.complains(folder.command_in_shell("", "<&- >&-"), "standard output");
    saver.saved(&folder);
}

#[test]
fn without_standard_error_the_file_is_written() {
    for saver in savers() {
        let folder = saver.folder(Some(OLD));
        let mut command = folder.command_in_shell("", "<&- >&- 2>&-");
        let silent = written(command.args(saver.argument));
        assert_eq!(silent.output + &silent.error, "");
        saver.saved(&folder);
    }
}

// Kills.

/// Before the file is replaced, a kill leaves the old one, and the temporary file.
#[test]
fn a_kill_leaves_the_old_file() {
    for saver in savers() {
        for call in ["write 1 0", "fsync 1 0", "close 2 0", "rename 1 0"] {
            let folder = saver.folder(Some(OLD));
            let before = folder.names();
            saver.is_killed(folder.command_failing(call));
            assert_eq!(folder.read(saver.file).as_deref(), Some(OLD));
            let names = folder.names();
            let added: Vec<&String> = names.iter().filter(|name| !before.contains(name)).collect();
            assert_eq!((added.len(), names.len()), (1, 3), "{names:?}");
            assert!(added[0].starts_with(&format!("{}.", saver.file)));
            // The next run is not in its way.
            saver.runs(folder.command());
            assert_eq!(folder.read(saver.file).as_ref(), Some(&saver.new));
            assert_eq!(folder.names(), names);
        }
    }
}

#[test]
fn a_kill_at_the_line_leaves_the_new_file() {
    let saver = sales();
    let folder = saver.folder(Some(OLD));
    saver.is_killed(folder.command_failing("write 2 0"));
    saver.saved(&folder);
}

#[test]
fn a_kill_at_any_time_leaves_a_whole_file() {
    let mut rng = Rng::new(601);
    for saver in savers() {
        for _ in 0..200 {
            let folder = saver.folder(Some(OLD));
            let mut command = folder.command();
            command.args(saver.argument).stdout(Stdio::null());
            let mut child = command.spawn().expect("it starts");
            thread::sleep(Duration::from_micros(rng.within(0..=4_000)));
            child.kill().expect("killed, or at its end");
            child.wait().expect("ended");
            let found = folder.read(saver.file).expect("a file");
            assert!(found == OLD || found == saver.new, "{} bytes", found.len());
        }
    }
}

// Many at once.

/// Each program says its own line, and who reads meanwhile finds one of the whole files.
#[test]
fn many_programs_at_once() {
    let files: Vec<Vec<u8>> = (0..8).map(|tens| simple(10 * tens)).collect();
    let saver = sales();
    let folder = saver.folder(Some(&files[0]));
    thread::scope(|scope| {
        let running = scope.spawn(|| (0..40).for_each(|_| run_at_once(&folder, &files)));
        let mut reads = 0;
        while !running.is_finished() {
            let found = folder.read(SIMPLE).expect("always there");
            assert!(files.contains(&found), "{} bytes", found.len());
            reads += 1;
        }
        running.join().expect("their own lines");
        assert!(reads > 100, "{reads} reads");
    });
    let last = folder.read(SIMPLE).expect("a file");
    assert!(files.contains(&last));
    saver.left(&folder, Some(&last));
}

/// A program for each of these files, which are what 0, 10, 20 and so on steps leave.
fn run_at_once(folder: &Folder, files: &[Vec<u8>]) {
    let start = |tens: usize| {
        let mut command = folder.command();
        command.arg((10 * tens).to_string()).stdout(Stdio::piped());
        command.stderr(Stdio::piped()).spawn().expect("it starts")
    };
    let children: Vec<Child> = (0..files.len()).map(start).collect();
    for (tens, child) in children.into_iter().enumerate() {
        let output = child.wait_with_output().expect("it ends");
        let bytes = files[tens].len();
        let line = format!("simplified {bytes} steps {} spent\n", 10 * tens);
        assert_eq!(String::from_utf8_lossy(&output.stdout), line);
        assert_eq!(String::from_utf8_lossy(&output.stderr), "");
    }
}

// Refusals.

#[test]
fn a_refusal_removes_an_old_file() {
    for old in [None, Some(OLD)] {
        let folder = refused().folder(old);
        refused().runs(folder.command());
        refused().left(&folder, None);
    }
}

#[test]
fn a_refusal_removes_a_link_alone() {
    let folder = refused().folder(None);
    folder.write("other.tab", OLD);
    symlink("other.tab", folder.path(SIMPLE)).expect("a new link");
    refused().runs(folder.command());
    assert_eq!(folder.names(), ["other.tab", TREE]);
    assert_eq!(folder.read("other.tab").as_deref(), Some(OLD));
}

/// Who reads the line finds no old file.
#[test]
fn the_old_file_is_gone_before_the_line() {
    let folder = refused().folder(Some(OLD));
    refused().is_killed(folder.command_failing("write 1 0"));
    refused().left(&folder, None);
}

#[test]
fn an_old_file_that_cannot_be_removed_is_told() {
    let folder = refused().folder(Some(OLD));
    refused().complains(folder.command_failing("unlink 1 13"), SIMPLE);
    refused().left(&folder, Some(OLD));
}

/// Where it cannot say what is right, it changes no file.
#[test]
fn a_message_alone_changes_nothing() {
    for saver in savers() {
        let folder = saver.folder(Some(OLD));
        for call in ["read 1 5", "read 2 5"] {
            saver.complains(folder.command_failing(call), saver.source);
            saver.left(&folder, Some(OLD));
        }
        let folder = Folder::new(saver.program);
        folder.put_folder(saver.source);
        folder.write(saver.file, OLD);
        saver.complains(folder.command(), saver.source);
        saver.left(&folder, Some(OLD));
    }
    let folder = sales().folder(Some(OLD));
    folder.expect_complaint(&["one"], "sales: ");
    sales().left(&folder, Some(OLD));
}
