//! The program `readdress`, which makes tree.tab of old.tab, as a process and by `./readdress`, against the second converter. How it replaces the file is
//! tested in saving.rs. The program is `../target/bin/readdress`, built by `./build`, or the one that `VOLEFLEECE_READDRESS` names.

use std::fs::{self, Permissions};
use std::os::unix::fs::{symlink, PermissionsExt};
use std::path::Path;
use std::process::Command;
use std::thread;
use volefleece_tests::commands::{put_script, shells, Ended, Repository};
use volefleece_tests::converter::converted;
use volefleece_tests::programs::{complains, restrict, written, Folder, FORMER, NONE, TREE};
use volefleece_tests::rng::Rng;

const READDRESS: &str = "readdress";

/// What is told of another length.
const NOT_WRITTEN: &str =
    "nothing is written: the length of old.tab is not a multiple of 16 from 16 to 8,192\n";

/// About every border of a former table's length.
const LENGTHS: [usize; 14] = [
    0, 15, 16, 17, 24, 32, 48, 8_176, 8_191, 8_192, 8_193, 8_208, 12_288, 20_000,
];

/// A tree.tab that may stand there before, longer than any table.
static LONG: [u8; 20_000] = [7; 20_000];

fn with_files(old: Option<&[u8]>, tree: Option<&[u8]>) -> Folder {
    let folder = Folder::new(READDRESS);
    for (name, bytes) in [(FORMER, old), (TREE, tree)] {
        if let Some(bytes) = bytes {
            folder.write(name, bytes);
        }
    }
    folder
}

/// Both files as a run leaves them, and nothing else: a missing one before is empty.
#[track_caller]
fn left(folder: &Folder, old: Option<&[u8]>, tree: Option<&[u8]>) {
    let new = converted(old.unwrap_or_default()).or(tree.map(Vec::from));
    assert!(folder.read(TREE) == new, "another tree");
    assert!(folder.read(FORMER).as_deref() == old, "another old table");
    let there = [(FORMER, old.is_some()), (TREE, new.is_some())];
    let names = there.into_iter().filter(|(_, is_there)| *is_there);
    let names: Vec<&str> = names.map(|(name, _)| name).collect();
    assert_eq!(folder.names(), names);
}

/// The program prints nothing and does what the second converter does.
#[track_caller]
fn expect(old: Option<&[u8]>, tree: Option<&[u8]>) {
    let folder = with_files(old, tree);
    let written = folder.run(&NONE);
    assert_eq!(written.output + &written.error, "");
    left(&folder, old, tree);
}

fn random_bytes(rng: &mut Rng, length: usize) -> Vec<u8> {
    (0..length).map(|_| rng.byte()).collect()
}

// The program.

#[test]
fn every_length() {
    let mut rng = Rng::new(701);
    for tree in [None, Some(&LONG[..])] {
        expect(None, tree);
        for length in LENGTHS {
            expect(Some(&random_bytes(&mut rng, length)), tree);
        }
    }
}

/// What questions 2 to 7 say of the records makes no difference.
#[test]
fn any_records() {
    let mut rng = Rng::new(702);
    let mut made = 0;
    for _ in 0..300 {
        let past = rng.pick(&[0, 0, 0, 8]);
        let length = 16 * rng.size(0..=520) + past;
        let old = match rng.index(3) {
            0 => vec![rng.pick(&[0, 1, 255]); length],
            _ => random_bytes(&mut rng, length),
        };
        made += u64::from(converted(&old).is_some());
        let before = random_bytes(&mut rng, 100);
        expect(Some(&old), rng.once_in(2).then_some(&before));
    }
    assert!((150..280).contains(&made), "{made}");
}

#[test]
fn the_bytes_of_a_small_table() {
    let old: [u8; 32] = std::array::from_fn(|at| at as u8);
    let folder = with_files(Some(&old), None);
    folder.run(&NONE);
    let new = [
        &old[..16],
        &[0, 0, 0, 0, 255, 255, 255, 255],
        &old[16..],
        &[0, 0, 0, 0, 255, 255, 255, 255],
    ];
    assert_eq!(folder.read(TREE), Some(new.concat()));
}

/// A link to it. The second run finds 24 bytes, which is no former table's length.
#[test]
fn the_old_table_may_be_the_tree() {
    let folder = with_files(None, Some(&[5; 16]));
    symlink(TREE, folder.path(FORMER)).expect("a new link");
    folder.run(&NONE);
    let new = converted(&[5; 16]);
    assert_eq!(folder.read(TREE), new);
    folder.run(&NONE);
    assert_eq!(folder.read(TREE), new);
}

#[test]
fn an_old_table_that_cannot_be_read_is_told() {
    for tree in [None, Some(&LONG[..])] {
        let folder = with_files(None, tree);
        symlink(FORMER, folder.path(FORMER)).expect("a link to itself");
        complains(&mut folder.command(), "old.tab: ");
        fs::remove_file(folder.path(FORMER)).expect("removed");
        left(&folder, None, tree);
    }
}

/// It has nothing to print, so needs no standard output.
#[test]
fn a_closed_output_is_not_told() {
    for old in [&[5; 16][..], &[5; 15]] {
        let folder = with_files(Some(old), Some(&LONG));
        let written = written(&mut folder.command_in_shell("", "<&- >&-"));
        assert_eq!(written.output + &written.error, "");
        left(&folder, Some(old), Some(&LONG));
    }
}

// The command.

/// The command on the folder, run by that shell.
fn by(shell: &Path, copy: &Repository, folder: &Folder) -> Command {
    let mut command = copy.command("started");
    command.arg(shell).arg(copy.path(READDRESS));
    command.arg(folder.path(""));
    command
}

/// A repository in which `started` starts what it is given.
fn repository() -> Repository {
    let copy = Repository::with_real_programs();
    put_script(&copy.path("started"), "exec \"$@\"");
    copy
}

#[track_caller]
fn ended_as(ended: &Ended, is_made: bool) {
    if is_made {
        ended.expect_silence();
    } else {
        ended.expect_told(1, NOT_WRITTEN);
        assert_eq!(ended.error.lines().count(), 1, "{ended:?}");
    }
}

#[test]
fn a_table_made_ends_with_0_and_another_length_with_1() {
    let copy = repository();
    Ended::of(copy.command(READDRESS).arg(copy.path("."))).expect_told(1, NOT_WRITTEN);
    for shell in shells() {
        for tree in [None, Some(&LONG[..])] {
            for length in LENGTHS {
                let old = vec![length as u8; length];
                let folder = with_files(Some(&old), tree);
                let ended = Ended::of(&mut by(&shell, &copy, &folder));
                ended_as(&ended, converted(&old).is_some());
                left(&folder, Some(&old), tree);
            }
        }
    }
}

/// Also where the same bytes were there.
#[test]
fn a_table_made_again_ends_with_0() {
    let copy = repository();
    let old = [5; 16];
    let folder = with_files(Some(&old), None);
    for _ in 0..20 {
        Ended::of(copy.command(READDRESS).arg(folder.path(""))).expect_silence();
        left(&folder, Some(&old), None);
    }
}

/// A link is another file than what it leads to.
#[test]
fn a_link_in_the_trees_place() {
    let copy = repository();
    for place in ["other.tab", "missing.tab", "/dev/null"] {
        for old in [&[5; 16][..], &[5; 15]] {
            let folder = with_files(Some(old), None);
            folder.write("other.tab", &LONG);
            symlink(place, folder.path(TREE)).expect("a new link");
            let ended = Ended::of(copy.command(READDRESS).arg(folder.path("")));
            ended_as(&ended, old.len() == 16);
            assert_eq!(folder.path(TREE).is_symlink(), old.len() == 15);
            assert!(folder.read("other.tab").as_deref() == Some(&LONG[..]));
        }
    }
}

#[test]
fn a_file_that_cannot_be_read_or_written_ends_with_2() {
    let copy = repository();
    let told = |folder: &Folder, start: &str| {
        let ended = Ended::of(copy.command(READDRESS).arg(folder.path("")));
        ended.expect_message(&format!("readdress: {start}"));
    };
    let folder = with_files(None, Some(&LONG));
    folder.put_folder(FORMER);
    told(&folder, "old.tab: ");
    assert!(folder.read(TREE).as_deref() == Some(&LONG[..]));
    let folder = with_files(Some(&[5; 16]), None);
    folder.put_folder(TREE);
    told(&folder, "tree.tab: ");
}

/// Without reading it, it could not be told from the file that takes its place.
#[test]
fn a_tree_that_cannot_be_read_ends_with_2() {
    let copy = repository();
    let folder = with_files(Some(&[5; 15]), Some(&LONG));
    let mut readdress = copy.command(READDRESS);
    readdress.arg(folder.path(""));
    ended_as(&Ended::of(&mut readdress), false);
    let set = |mode| fs::set_permissions(folder.path(TREE), Permissions::from_mode(mode));
    set(0o000).expect("set");
    Ended::of(restrict(&mut readdress)).expect_message("readdress: tree.tab cannot be read\n");
    set(0o644).expect("set");
    left(&folder, Some(&[5; 15]), Some(&LONG));
}

/// A program that does neither, or that ends early or says what it should not.
#[test]
fn a_program_that_does_not_end_well_is_told() {
    for program in [
        "kill -9 $$",
        "exit 3",
        "echo 5 >new; mv new tree.tab; exit 1",
        "echo said",
        "echo why >&2",
    ] {
        let copy = Repository::new(program);
        let folder = with_files(Some(&[5; 16]), None);
        let ended = Ended::of(copy.command(READDRESS).arg(folder.path("")));
        ended.expect_message("readdress: ");
        let last = ended.error.lines().last().expect("a message");
        assert!(last.starts_with("readdress: "), "{last}");
    }
}

/// Of the files that take each other's place none is taken for the one before.
#[test]
fn many_commands_at_once() {
    let copy = repository();
    let old = [5; 8_192];
    let folder = with_files(Some(&old), Some(&LONG));
    Ended::of(copy.command(READDRESS).arg(folder.path(""))).expect_silence();
    thread::scope(|threads| {
        for _ in 0..8 {
            threads.spawn(|| {
                for _ in 0..10 {
                    let ended = Ended::of(copy.command(READDRESS).arg(folder.path("")));
                    ended.expect_silence();
                }
            });
        }
    });
    left(&folder, Some(&old), None);
}

/// What the program says goes nowhere, and the status stays.
#[test]
fn a_command_without_its_descriptors() {
    let copy = repository();
    put_script(&copy.path("started"), "exec \"$@\" <&- >&- 2>&-");
    for shell in shells() {
        for (old, status) in [(&[5; 16][..], 0), (&[5; 15], 1)] {
            let folder = with_files(Some(old), Some(&LONG));
            let ended = Ended::of(&mut by(&shell, &copy, &folder));
            assert_eq!(ended.status, Some(status), "{ended:?}");
            left(&folder, Some(old), Some(&LONG));
        }
    }
}

#[test]
fn the_command_builds_its_program_alone() {
    let copy = repository();
    let folder = with_files(Some(&[5; 16]), None);
    for _ in 0..2 {
        Ended::of(copy.command(READDRESS).arg(folder.path(""))).expect_silence();
        assert_eq!(copy.calls(), ["run readdress"]);
    }
}
