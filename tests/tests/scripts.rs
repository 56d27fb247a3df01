//! The commands `./setup`, `./build`, `./quote`, `./desk`, `./simplify`, `./readdress`, `./install`, `./bench` and `./test`: their arguments, lines and exit
//! statuses, what they build and when, and what is installed. What `./readdress` makes is tested in readdress.rs. Where the real programs are not built from the sources yet, a command builds them first, by `rt`;
//! the command that cargo builds is a stand-in throughout, since these tests need no Rust package.

use std::ffi::OsStr;
use std::fs::{self, File};
use std::io;
use std::os::fd::OwnedFd;
use std::os::unix::ffi::OsStrExt;
use std::os::unix::fs::{symlink, MetadataExt};
use std::os::unix::net::UnixDatagram;
use std::path::Path;
use std::process::Command;
use std::sync::Mutex;
use std::{env, thread};

use volefleece_tests::commands::*;
use volefleece_tests::programs::{sample, simplified_workshop, Folder, FORMER, TREE};
use volefleece_tests::tables::*;

const HOUSE: &str = "figure 210910 branch 255";
const ENTRANCE: &str = "figure 91200 branch 1";
const SIMPLIFIED: &str = "simplified 288 steps 7 finished";

/// A stand-in for a program, and what it says.
const PROGRAM: &str = "echo figure 1 branch 255";
const LINE: &str = "figure 1 branch 255";

/// Held by who has the real `./simplify` make target/workshop anew.
static WORKSHOP: Mutex<()> = Mutex::new(());

/// A folder that holds other folders.
fn room() -> Folder {
    Folder::new("desk")
}

/// Makes a folder whose figure is the number.
fn put_house(path: &Path, figure: u64) {
    fs::create_dir(path).expect("a new folder");
    fs::write(path.join(TREE), block(figure)).expect("written");
}

/// A command of the repository, in the room.
fn real(name: &str, room: &Folder) -> Command {
    let mut command = command(file(name));
    command.current_dir(room.path("."));
    command
}

fn run<A: AsRef<OsStr>>(name: &str, room: &Folder, arguments: &[A]) -> Ended {
    Ended::of(real(name, room).args(arguments))
}

/// A command of the repository on a folder of the room, run by that shell.
fn by(shell: &Path, name: &str, room: &Folder, folder: &OsStr) -> Command {
    let mut command = command(shell);
    command.arg(file(name)).arg(folder);
    command.current_dir(room.path("."));
    command
}

/// As `by`, with descriptors closed.
fn by_closed(shell: &Path, name: &str, room: &Folder, closed: &str) -> Command {
    let mut command = command("sh");
    command.args(["-c", &format!("exec \"$@\" {closed}"), "sh"]);
    command.arg(shell).arg(file(name)).arg("h");
    command.current_dir(room.path("."));
    command
}

// Answers.

#[test]
fn the_samples() {
    let _alone = WORKSHOP.lock();
    let room = room();
    let none: [&str; 0] = [];
    run("desk", &room, &none).expect(0, HOUSE);
    run("desk", &room, &[file("samples/entrance")]).expect(0, ENTRANCE);
    run("simplify", &room, &none).expect(0, SIMPLIFIED);
    let simple = fs::read(file("target/workshop/simple.tab")).expect("written");
    assert_eq!(simple, simplified_workshop());
    let readme = fs::read_to_string(file("README.md")).expect("read");
    for line in [HOUSE, ENTRANCE, SIMPLIFIED] {
        assert!(readme.contains(&format!("\n    {line}\n")), "{line}");
    }
}

#[test]
fn an_answer_ends_with_0_and_a_refusal_with_1() {
    let room = room();
    put_house(&room.path("h"), 7);
    run("desk", &room, &["h"]).expect(0, "figure 7 branch 255");
    run("simplify", &room, &["h"]).expect(0, "simplified 24 steps 0 finished");
    room.write("h/tree.tab", &sample("workshop", TREE));
    run("simplify", &room, &["h", "3"]).expect(0, "simplified 432 steps 3 spent");
    room.write("h/tree.tab", &block(7)[..23]);
    run("desk", &room, &["h"]).expect(1, "refused 1");
    run("simplify", &room, &["h"]).expect(1, "refused 1");
}

#[test]
fn a_message_ends_with_2() {
    let room = room();
    put_house(&room.path("h"), 7);
    for allowance in ["x", "-1", "18446744073709551616", "1 2"] {
        run("simplify", &room, &["h", allowance]).expect_message("a number of steps");
    }
    assert!(!room.path("h/simple.tab").exists());
    fs::create_dir_all(room.path("unreadable/tree.tab")).expect("made");
    for name in ["desk", "simplify"] {
        run(name, &room, &["unreadable"]).expect_message("tree.tab: ");
    }
    fs::create_dir(room.path("h/simple.tab")).expect("made");
    run("simplify", &room, &["h"]).expect_message("simple.tab");
}

// Arguments.

#[test]
fn arguments_are_counted() {
    let copy = Repository::new(PROGRAM);
    for (name, arguments) in [
        ("desk", &["samples/house", "more"][..]),
        ("simplify", &["samples/house", "1", "more"]),
        ("readdress", &[]),
        ("readdress", &["samples/house", "more"]),
        ("install", &[]),
        ("install", &["prefix", "more"]),
        ("bench", &["archive", "more"]),
        ("build", &["more"]),
        ("test", &["more"]),
        ("setup", &["more"]),
    ] {
        let ended = Ended::of(
            copy.command(name)
                .current_dir(copy.path("."))
                .args(arguments),
        );
        ended.expect_message(&format!("usage: ./{name}"));
    }
    assert!(copy.calls().is_empty());
    assert!(!copy.path("prefix").exists());
}

#[test]
fn empty_arguments_are_told() {
    let copy = Repository::new(PROGRAM);
    for (name, arguments) in [
        ("desk", &[""][..]),
        ("simplify", &[""]),
        ("simplify", &["samples/house", ""]),
        ("simplify", &["", "1"]),
        ("readdress", &[""]),
        ("install", &[""]),
        ("bench", &[""]),
    ] {
        let ended = Ended::of(
            copy.command(name)
                .current_dir(copy.path("."))
                .args(arguments),
        );
        ended.expect_message("an argument is empty");
    }
    assert!(copy.calls().is_empty());
}

#[test]
fn usage_is_told() {
    let copy = Repository::new(PROGRAM);
    for name in [
        "desk",
        "simplify",
        "readdress",
        "install",
        "bench",
        "build",
        "test",
        "setup",
    ] {
        let ended = Ended::of(copy.command(name).arg("--help"));
        assert_eq!((ended.status, &*ended.error), (Some(0), ""));
        assert!(ended.output.starts_with(&format!("usage: ./{name}")));
    }
    assert!(copy.calls().is_empty());
}

// Folders.

#[test]
fn cdpath_leads_nowhere() {
    let room = room();
    fs::create_dir(room.path("elsewhere")).expect("made");
    put_house(&room.path("h"), 1);
    put_house(&room.path("elsewhere/h"), 2);
    for shell in shells() {
        let run = |name| {
            let mut command = by(&shell, name, &room, OsStr::new("h"));
            Ended::of(command.env("CDPATH", room.path("elsewhere")))
        };
        run("desk").expect(0, "figure 1 branch 255");
        run("simplify").expect(0, "simplified 24 steps 0 finished");
        fs::remove_file(room.path("h/simple.tab")).expect("written here");
        assert!(!room.path("elsewhere/h/simple.tab").exists());
    }
}

/// Whatever CDPATH, a link or a folder's name say.
#[test]
fn a_command_finds_its_own_folder() {
    let room = room();
    fs::create_dir(room.path("-P")).expect("made");
    fs::create_dir_all(room.path("elsewhere/-P")).expect("made");
    symlink(file("desk"), room.path("-P/link")).expect("linked");
    symlink("-P/link", room.path("link")).expect("linked");
    let run = |shell: &Path, name: &str, folder| {
        let mut command = command(shell);
        command.args(["--", name]).current_dir(folder);
        Ended::of(command.env("CDPATH", room.path("elsewhere")))
    };
    for shell in shells() {
        run(&shell, "link", room.path(".")).expect(0, HOUSE);
        run(&shell, "-P/link", room.path(".")).expect(0, HOUSE);
        run(&shell, "link", room.path("-P")).expect(0, HOUSE);
        run(&shell, "desk", file(".")).expect(0, HOUSE);
    }
    let path = env::var_os("PATH").expect("PATH");
    let folders = [room.path("-P")].into_iter().chain(env::split_paths(&path));
    let path = env::join_paths(folders).expect("a PATH");
    Ended::of(command("sh").args(["-c", "link"]).env("PATH", path)).expect(0, HOUSE);
}

#[test]
fn folders_of_any_name() {
    let room = room();
    put_house(&room.path("old"), 99);
    let names: [&[u8]; 14] = [
        b"-",
        b"-P",
        b"-L",
        b"--",
        b"-e",
        b"a b",
        b" ",
        b"ends\n",
        b"two\nlines",
        b"*",
        b"$HOME",
        b"\\c",
        "t\u{fc}r".as_bytes(),
        b"not text \xff",
    ];
    for (figure, name) in (1..).zip(names.map(OsStr::from_bytes)) {
        put_house(&room.path(".").join(name), figure);
        for shell in shells() {
            let run = |command| {
                let mut command = by(&shell, command, &room, name);
                Ended::of(command.env("OLDPWD", room.path("old")))
            };
            run("desk").expect(0, &format!("figure {figure} branch 255"));
            run("simplify").expect(0, "simplified 24 steps 0 finished");
            let simple = room.path(".").join(name).join("simple.tab");
            fs::remove_file(simple).expect("written there");
        }
    }
    put_house(&room.path("--help"), 50);
    run("desk", &room, &["./--help"]).expect(0, "figure 50 branch 255");
    let path = room.path("-P").canonicalize().expect("a folder");
    run("desk", &room, &[path]).expect(0, "figure 2 branch 255");
}

/// As to any program, not as to a shell's `cd`.
#[test]
fn a_path_through_a_link_leads_on_from_its_target() {
    let room = room();
    put_house(&room.path("other"), 3);
    fs::create_dir(room.path("other/inner")).expect("made");
    symlink("other/inner", room.path("link")).expect("linked");
    run("desk", &room, &["link/.."]).expect(0, "figure 3 branch 255");
}

#[test]
fn a_folder_that_is_not_there_is_told() {
    let room = room();
    room.write("file", b"");
    for name in ["desk", "simplify", "readdress"] {
        for missing in ["missing", "-", "-x", "missing/../here", "file"] {
            run(name, &room, &[missing]).expect_message(&format!("{missing}: no such folder"));
        }
    }
}

// Standard output.

/// Closed, full, and a pipe that nobody reads.
#[test]
fn a_line_that_cannot_be_written_is_told() {
    const TOLD: &str = "standard output cannot be written";
    let room = room();
    put_house(&room.path("h"), 7);
    for shell in shells() {
        for name in ["desk", "simplify"] {
            Ended::of(&mut by_closed(&shell, name, &room, ">&-")).expect_message(TOLD);
            let mut command = by(&shell, name, &room, OsStr::new("h"));
            let full = File::options().write(true).open("/dev/full");
            Ended::of(command.stdout(full.expect("opened"))).expect_message(TOLD);
            let (reader, writer) = io::pipe().expect("a pipe");
            drop(reader);
            Ended::of(command.stdout(writer)).expect_message(TOLD);
        }
    }
}

/// Also where nobody reads the message.
#[test]
fn a_message_that_cannot_be_written_ends_with_2() {
    let room = room();
    for shell in shells() {
        let (reader, writer) = io::pipe().expect("a pipe");
        drop(reader);
        let mut command = by(&shell, "desk", &room, OsStr::new("missing"));
        Ended::of(command.stderr(writer)).expect_message("");
    }
}

/// A socket keeps what each write wrote apart.
#[test]
fn the_line_is_one_write() {
    let room = room();
    put_house(&room.path("h"), 7);
    for shell in shells() {
        for (name, line) in [
            ("desk", "figure 7 branch 255\n"),
            ("simplify", "simplified 24 steps 0 finished\n"),
        ] {
            let (ours, theirs) = UnixDatagram::pair().expect("sockets");
            let mut command = by(&shell, name, &room, OsStr::new("h"));
            let ended = Ended::of(command.stdout(OwnedFd::from(theirs)));
            assert_eq!(ended.status, Some(0));
            ours.set_nonblocking(true).expect("set");
            let mut written = [0; 100];
            let length = ours.recv(&mut written).expect("a write");
            assert_eq!(&written[..length], line.as_bytes());
            assert!(ours.recv(&mut written).is_err(), "a second write");
        }
    }
}

/// A program would open its files as the descriptors that it does not have.
#[test]
fn a_program_has_its_descriptors() {
    let copy = Repository::new(
        "[ -e /proc/self/fd/0 ] && [ -e /proc/self/fd/2 ] && echo figure 1 branch 255",
    );
    put_script(&copy.path("closed"), "exec \"$@\" <&- 2>&-");
    for shell in shells() {
        let mut closed = copy.command("closed");
        Ended::of(closed.arg(shell).arg(copy.path("desk"))).expect(0, LINE);
    }
}

#[test]
fn a_program_that_does_not_answer_is_told() {
    for program in [
        "kill -9 $$",
        "kill -SEGV $$",
        "echo figure 1 branch 255; kill -9 $$",
        "echo figure 1 branch 255; exit 1",
        "printf 'figure 1 branch 255'",
        "echo figure 1 branch 255; echo figure 2 branch 255",
        "echo figure 1",
        "echo sorry",
        "exit 3",
        "printf '\\n'",
    ] {
        let copy = Repository::new(program);
        for name in ["desk", "simplify"] {
            let ended = copy.run(name);
            ended.expect_message("");
            let last = ended.error.lines().last().expect("a message");
            assert!(last.starts_with(&format!("{name}: ")), "{last}");
        }
    }
    let copy = Repository::new("echo 'tree.tab: why' >&2");
    copy.run("desk").expect_message("tree.tab: why\n");
}

// Building.

#[test]
fn what_is_built_needs_no_rt() {
    let _alone = WORKSHOP.lock();
    let room = room();
    let none: [&str; 0] = [];
    run("desk", &room, &none).expect(0, HOUSE);
    run("simplify", &room, &none).expect(0, SIMPLIFIED);
    put_tools(&room.path("tools"));
    let mut desk = real("desk", &room);
    let ended = Ended::of(desk.env("PATH", room.path("tools")));
    ended.expect(0, HOUSE);
    assert_eq!(ended.error, "");
    let mut simplify = real("simplify", &room);
    Ended::of(simplify.env("PATH", room.path("tools"))).expect(0, SIMPLIFIED);
}

#[test]
fn what_is_not_built_needs_rt() {
    let copy = Repository::new(PROGRAM);
    let without = |name| {
        let mut command = copy.command_with(name, &["tools"]);
        let folder = ["install", "readdress"].contains(&name);
        Ended::of(command.args(folder.then_some(copy.path("prefix"))))
    };
    for name in ["desk", "simplify", "readdress", "install"] {
        without(name).expect_message("rt must be on PATH");
    }
    copy.run("desk").expect(0, LINE);
    without("desk").expect(0, LINE);
    put(&copy.path("crates/desk/src/main.rt"), "second");
    without("desk").expect_message("rt must be on PATH");
    assert!(!copy.path("prefix").exists());
}

/// By contents: `rt` is called where a source or the program is another, and not where only times are.
#[test]
fn changes_are_built_once() {
    let copy = Repository::new(PROGRAM);
    let mut calls = 0;
    let mut built = |changed: bool| {
        copy.run("desk").expect(0, LINE);
        calls += usize::from(changed);
        assert_eq!(copy.calls(), vec!["run desk"; calls]);
    };
    let source = copy.path("crates/desk/src/main.rt");
    built(true);
    built(false);
    let written = File::options().append(true).open(&source).expect("opened");
    let time = written
        .metadata()
        .expect("known")
        .modified()
        .expect("a time");
    put(&source, "other");
    written.set_modified(time).expect("set");
    built(true);
    built(false);
    put(&source, "other");
    built(false);
    put(&copy.path("crates/desk/specs/New.antt"), "");
    built(true);
    fs::rename(
        copy.path("crates/desk/specs"),
        copy.path("crates/desk/proofs"),
    )
    .expect("renamed");
    built(true);
    put(&copy.path("crates.txt"), "desk: table\n");
    built(true);
    put(&copy.path("KIT"), "another kit\n");
    built(true);
    for spoilt in ["target/bin/desk", "crates/desk/out/desk"] {
        put_script(&copy.path(spoilt), "echo figure 2 branch 255");
    }
    built(true);
    fs::remove_dir_all(copy.path("target")).expect("removed");
    built(true);
    built(false);
}

#[test]
fn all_that_is_tested_is_built_once() {
    const MADE: [(&str, &str, u32); 5] = [
        ("lib volefleece", "staticlib/libvolefleece.a", 0o644),
        ("lib probes", "staticlib/libprobes.a", 0o644),
        ("run desk", "bin/desk", 0o755),
        ("run sales", "bin/sales", 0o755),
        ("run readdress", "bin/readdress", 0o755),
    ];
    let copy = Repository::new(PROGRAM);
    for _ in 0..2 {
        copy.run("build").expect_told(0, "");
        assert_eq!(copy.calls(), MADE.map(|(call, ..)| call));
    }
    for (_, name, mode) in MADE {
        let made = copy.path("target").join(name);
        let built = copy.path("builds").join(name);
        assert_eq!(
            fs::read(&made).expect("built"),
            fs::read(built).expect("read")
        );
        let metadata = fs::metadata(made).expect("built");
        assert_eq!(metadata.mode() & 0o777, mode, "{name}");
    }
    put(&copy.path("broken"), "");
    put(&copy.path("KIT"), "another kit");
    copy.run("build")
        .expect_message("rt lib failed in crates/volefleece");
}

#[test]
fn a_failed_build_is_told_and_tried_again() {
    let copy = Repository::new(PROGRAM);
    put(&copy.path("broken"), "");
    for calls in 1..3 {
        copy.run("desk")
            .expect_message("rt run failed in crates/desk");
        assert_eq!(copy.calls().len(), calls);
    }
    fs::remove_file(copy.path("broken")).expect("removed");
    copy.run("desk").expect(0, LINE);
}

/// What changes while it is built is not taken for built.
#[test]
fn a_change_during_a_build_is_built() {
    let copy = Repository::new(PROGRAM);
    put_script(
        &copy.path("while-building"),
        "echo more >>crates/desk/src/main.rt",
    );
    copy.run("desk").expect(0, LINE);
    put_script(&copy.path("while-building"), ":");
    for _ in 0..2 {
        copy.run("desk").expect(0, LINE);
        assert_eq!(copy.calls().len(), 2);
    }
}

#[test]
fn commands_build_one_at_a_time() {
    let copy = Repository::new(PROGRAM);
    put_script(&copy.path("while-building"), "sleep 0.3");
    thread::scope(|threads| {
        for name in ["desk", "desk", "simplify", "simplify", "desk"] {
            let copy = &copy;
            threads.spawn(move || copy.run(name).expect(0, LINE));
        }
        for _ in 0..2 {
            threads.spawn(|| assert_eq!(copy.run("quote").status, Some(0)));
        }
    });
    let mut calls = copy.calls();
    calls.sort();
    let built = [
        BUILT_COMMAND,
        FITTED,
        "lib volefleece",
        "run desk",
        "run sales",
    ];
    assert_eq!(calls, built);
}

/// Each has the copy of the sample to itself.
#[test]
fn the_sample_is_simplified_by_one_at_a_time() {
    let copy = Repository::new("sleep 0.1; [ -e tree.tab ] && echo figure 1 branch 255");
    copy.run("simplify").expect(0, LINE);
    thread::scope(|threads| {
        for _ in 0..4 {
            threads.spawn(|| copy.run("simplify").expect(0, LINE));
        }
    });
}

// The command.

/// How `./setup` finds that Debian's packages fit, and how the command is built.
const FITTED: &str = "command: cargo generate-lockfile --offline";
const BUILT_COMMAND: &str = "command: cargo build --release --target-dir target";
/// What a first `./quote` has called.
const BUILT: [&str; 3] = ["lib volefleece", FITTED, BUILT_COMMAND];

/// `./quote` of the copy with arguments.
fn quote(copy: &Repository, arguments: &[&str]) -> Ended {
    Ended::of(copy.command("quote").args(arguments))
}

/// Standard output is the command's alone.
#[test]
fn the_command_gets_the_arguments_unchanged() {
    let copy = Repository::new(PROGRAM);
    put_script(&copy.path("while-building"), "echo building");
    for (arguments, last) in [
        (&["a house"][..], "<a house>"),
        (&["", "--x"], "<><--x>"),
        (
            &["-", "--a b", "", "*", "$HOME", "\\c", "two\nlines", "--"],
            "<-><--a b><><*><$HOME><\\c><two\nlines><-->",
        ),
        (&["-h"], "<-h>"),
        (&["--help"], "<--help>"),
        (&["--", "x"], "<--><x>"),
        (&["--x y", "", "h"], "<--x y><><h>"),
    ] {
        quote(&copy, arguments).expect(0, &format!("<quote>{last}"));
    }
    let house = copy.path(".").canonicalize().expect("a folder");
    let house = house.join("samples/house").display().to_string();
    quote(&copy, &[]).expect(0, &format!("<quote><{house}>"));
}

#[test]
fn a_quote_ends_as_the_command_does() {
    let copy = Repository::new(PROGRAM);
    for ends in [0, 1, 2, 77] {
        put(&copy.path("ends"), &ends.to_string());
        quote(&copy, &["h"]).expect(ends, "<quote><h>");
    }
    put_script(&copy.path("volefleece"), "kill -9 $$");
    put(&copy.path("command/src/main.rs"), "killed");
    assert_eq!(quote(&copy, &["h"]).status, None);
}

/// The command may ask, and is no build's reader.
#[test]
fn the_command_reads_what_a_quote_is_given() {
    let copy = Repository::new(PROGRAM);
    put_script(&copy.path("volefleece"), "cat");
    put_script(&copy.path("while-building"), "cat >&2");
    put(&copy.path("typed"), "typed\n");
    for _ in 0..2 {
        let typed = File::open(copy.path("typed")).expect("opened");
        Ended::of(copy.command("quote").stdin(typed)).expect(0, "typed");
    }
}

/// A quote makes these calls, and the next one none.
#[track_caller]
fn expect_built(copy: &Repository, calls: &[&str]) {
    for calls in [calls, &[]] {
        let before = copy.calls().len();
        quote(copy, &["h"]).expect(0, "<quote><h>");
        assert_eq!(copy.calls()[before..], *calls);
    }
}

/// By contents, as what `rt` builds, and what cargo and `./setup` write there is no source.
#[test]
fn changes_of_the_command_are_built_once() {
    let copy = Repository::new(PROGRAM);
    expect_built(&copy, &BUILT);
    for source in [
        "command/src/main.rs",
        "command/src/new.rs",
        "command/Cargo.toml",
        "volefleece-rs/src/lib.rs",
        "volefleece-rs/build.rs",
    ] {
        put(&copy.path(source), "second");
        expect_built(&copy, &[FITTED, BUILT_COMMAND]);
        put(&copy.path(source), "second");
        expect_built(&copy, &[]);
    }
    for made in [
        "command/Cargo.lock",
        "command/.cargo/config.toml",
        "command/target/debug/volefleece",
        "volefleece-rs/target/debug/made",
    ] {
        put(&copy.path(made), "other");
        expect_built(&copy, &[]);
    }
}

#[test]
fn the_command_is_built_of_the_archive() {
    let copy = Repository::new(PROGRAM);
    let source = copy.path("crates/desk/src/main.rt");
    expect_built(&copy, &BUILT);
    put(&source, "the same archive");
    expect_built(&copy, &["lib volefleece"]);
    put_script(&copy.path("builds/staticlib/libvolefleece.a"), "another");
    put(&source, "another archive");
    expect_built(&copy, &BUILT);
}

#[test]
fn a_command_that_was_not_built_is_replaced() {
    const CLEANED: &str =
        "command: cargo clean --release --package volefleece-command --target-dir target";
    let copy = Repository::new(PROGRAM);
    expect_built(&copy, &BUILT);
    put_script(&copy.path("command/target/release/volefleece"), "spoilt");
    expect_built(&copy, &[FITTED, CLEANED, BUILT_COMMAND]);
    fs::remove_dir_all(copy.path("command/target")).expect("removed");
    expect_built(&copy, &[FITTED, BUILT_COMMAND]);
}

#[test]
fn a_built_command_needs_neither_rt_nor_cargo() {
    let copy = Repository::new(PROGRAM);
    let without = |stand_in: &str| {
        fs::rename(copy.path("stand-ins").join(stand_in), copy.path(stand_in)).expect("moved");
        let ended = quote(&copy, &["h"]);
        fs::rename(copy.path(stand_in), copy.path("stand-ins").join(stand_in)).expect("moved");
        ended
    };
    without("rt").expect_message("rt must be on PATH");
    without("cargo").expect_message("cargo must be on PATH");
    quote(&copy, &["h"]).expect(0, "<quote><h>");
    let mut command = copy.command_with("quote", &["tools"]);
    let ended = Ended::of(command.arg("h"));
    ended.expect(0, "<quote><h>");
    assert_eq!(ended.error, "");
}

#[test]
fn a_command_that_cannot_be_built_is_told_and_tried_again() {
    let copy = Repository::new(PROGRAM);
    put(&copy.path("fails"), "command: build");
    for _ in 0..2 {
        quote(&copy, &["h"]).expect_message("quote: cargo build failed\n");
    }
    fs::remove_file(copy.path("fails")).expect("removed");
    put(&copy.path("unfit"), "");
    quote(&copy, &["h"]).expect_message("setup: ");
    fs::remove_file(copy.path("unfit")).expect("removed");
    let mut command = copy.command("quote");
    let ended = Ended::of(command.arg("h").env("VOLEFLEECE_LIB_DIR", "elsewhere"));
    ended.expect(0, "<quote><h>");
    assert!(!ended.error.contains("elsewhere"), "{ended:?}");
}

// Setting up.

const FETCHED: &str = "command: cargo fetch --quiet";

/// `./setup` of the copy says nothing on standard output and ends well, after these calls.
#[track_caller]
fn expect_set_up(copy: &Repository, calls: &[&str]) -> String {
    let before = copy.calls().len();
    let ended = copy.run("setup");
    assert_eq!(ended.status, Some(0), "{ended:?}");
    assert_eq!(ended.output, "");
    assert_eq!(copy.calls()[before..], *calls);
    ended.error
}

/// Whether cargo is to take Debian's packages, by its configuration and by the lock file.
#[track_caller]
fn expect_debian(copy: &Repository, used: bool) {
    let read = |name| fs::read_to_string(copy.path(name)).ok();
    let written = read("command/.cargo/config.toml");
    assert_eq!(written, used.then(|| read("scripts/debian.toml")).flatten());
    let lock = ["crates.io\n", "Debian\n"][usize::from(used)];
    assert_eq!(read("command/Cargo.lock").as_deref(), Some(lock));
}

#[test]
fn where_nothing_is_missing_setup_does_nothing() {
    let copy = Repository::new(PROGRAM);
    let config = || fs::metadata(copy.path("command/.cargo/config.toml")).expect("written");
    assert_eq!(expect_set_up(&copy, &[FITTED]), "");
    expect_debian(&copy, true);
    let (file, mode) = (config().ino(), config().mode());
    assert_eq!(mode & 0o777, 0o644);
    assert_eq!(expect_set_up(&copy, &[FITTED]), "");
    assert_eq!(config().ino(), file);
    put(&copy.path("command/.cargo/config.toml"), "other");
    assert_eq!(expect_set_up(&copy, &[FITTED]), "");
    expect_debian(&copy, true);
}

#[test]
fn root_installs_what_is_missing_alone() {
    for missing in [&PACKAGES[..1], &PACKAGES[3..5], &PACKAGES[8..], &PACKAGES] {
        let copy = Repository::new(PROGRAM);
        let there = PACKAGES.iter().filter(|package| !missing.contains(package));
        copy.put_packages(&there.copied().collect::<Vec<_>>());
        let missing = missing.join(" ");
        let install = format!("apt-get install -y --no-install-recommends {missing}");
        let told = expect_set_up(&copy, &["apt-get update", &install, FITTED]);
        assert!(told.starts_with(&format!("setup: installing {missing}\n")));
        assert!(told.contains("apt-get at work\n"));
        expect_debian(&copy, true);
        assert_eq!(expect_set_up(&copy, &[FITTED]), "");
    }
}

#[test]
fn others_install_by_sudo_without_a_password() {
    let copy = Repository::new(PROGRAM);
    copy.put_packages(&PACKAGES[1..]);
    put(&copy.path("user"), "1000");
    put(&copy.path("no-password"), "");
    let install = format!("apt-get install -y --no-install-recommends {}", PACKAGES[0]);
    let calls = [
        "sudo -n true",
        "sudo -n apt-get update",
        "apt-get update",
        &format!("sudo -n {install}"),
        &install,
        FITTED,
    ];
    expect_set_up(&copy, &calls);
    expect_debian(&copy, true);
}

/// The message is the command that installs them.
#[test]
fn what_setup_may_not_install_it_names() {
    let copy = Repository::new(PROGRAM);
    copy.put_packages(&PACKAGES[2..]);
    put(&copy.path("user"), "1000");
    let [first, second, ..] = PACKAGES;
    let told = format!("\nsudo apt-get install -y --no-install-recommends {first} {second}\n");
    let refused = || {
        let ended = copy.run("setup");
        ended.expect_message(&told);
        assert!(!ended.error.contains("password"), "{ended:?}");
        assert!(!copy.path("command/.cargo/config.toml").exists());
    };
    refused();
    assert_eq!(copy.calls(), ["sudo -n true", FETCHED]);
    for missing in ["sudo", "apt-get"] {
        fs::remove_file(copy.path("stand-ins").join(missing)).expect("removed");
        refused();
    }
    put(&copy.path("user"), "0");
    refused();
}

#[test]
fn where_debian_has_no_dpkg_all_is_missing() {
    let copy = Repository::new(PROGRAM);
    for name in ["dpkg-query", "apt-get"] {
        fs::remove_file(copy.path("stand-ins").join(name)).expect("removed");
    }
    copy.run("setup").expect_message(&PACKAGES.join(" "));
}

/// Without leave to install, where installing fails, and where the packages do not fit. What was made of Debian's packages goes.
#[test]
fn crates_io_is_the_last_way() {
    let copy = Repository::new(PROGRAM);
    put(&copy.path("crates-io"), "");
    expect_set_up(&copy, &[FITTED]);
    copy.put_packages(&PACKAGES[1..]);
    put(&copy.path("user"), "1000");
    assert_eq!(expect_set_up(&copy, &["sudo -n true", FETCHED]), "");
    expect_debian(&copy, false);

    put(&copy.path("user"), "0");
    put(&copy.path("unreachable"), "");
    let install = format!("apt-get install -y --no-install-recommends {}", PACKAGES[0]);
    expect_set_up(&copy, &["apt-get update", &install, FETCHED]);
    expect_debian(&copy, false);

    copy.put_packages(&PACKAGES);
    expect_set_up(&copy, &[FITTED]);
    expect_debian(&copy, true);
    put(&copy.path("unfit"), "");
    assert_eq!(expect_set_up(&copy, &[FITTED, FETCHED]), "");
    expect_debian(&copy, false);
    fs::remove_file(copy.path("crates-io")).expect("removed");
    copy.run("setup").expect_message("\nno version fits\n");
}

#[test]
fn two_setups_install_once() {
    let copy = Repository::new(PROGRAM);
    copy.put_packages(&PACKAGES[1..]);
    put_script(&copy.path("while-building"), "sleep 0.3");
    thread::scope(|threads| {
        for _ in 0..3 {
            threads.spawn(|| assert_eq!(copy.run("setup").status, Some(0)));
        }
    });
    let calls = copy.calls();
    let installing = calls.iter().filter(|call| *call != FITTED);
    assert_eq!(installing.count(), 2, "{calls:?}");
    expect_debian(&copy, true);
}

// The gate.

#[test]
fn the_gate_ends_with_the_count() {
    let copy = Repository::new(PROGRAM);
    let mut test = copy.command("test");
    for name in ["LIB_DIR", "DESK", "SALES", "READDRESS"] {
        test.env(format!("VOLEFLEECE_{name}"), "elsewhere");
    }
    let ended = Ended::of(&mut test);
    assert_eq!(ended.status, Some(0), "{ended:?}");
    let ran = "tests ran\n".repeat(3);
    assert_eq!(ended.output, format!("proved\n{ran}3 passed, 0 failed\n"));
    // What the command is built with is made ready beside the proofs.
    let is_beside = |call: &String| call == FITTED || call.contains("cargo build");
    let (beside, calls): (Vec<_>, Vec<_>) = copy.calls().into_iter().partition(is_beside);
    assert_eq!(
        calls,
        [
            "version",
            "ci",
            "lib volefleece",
            "lib probes",
            "run desk",
            "run sales",
            "run readdress",
            "tests: cargo test --release --offline",
            "volefleece-rs: cargo test --release --offline",
            "command: cargo test --release --target-dir target"
        ]
    );
    let built = "command: cargo build --release --keep-going --target-dir target";
    assert_eq!(beside, [FITTED, built]);
}

#[test]
fn the_gate_keeps_the_count_back() {
    for (passed, fails) in [
        (0, "tests: test"),
        (1, "volefleece-rs: test"),
        (2, "command: test"),
    ] {
        let copy = Repository::new(PROGRAM);
        put(&copy.path("fails"), fails);
        let ended = copy.run("test");
        assert_eq!(ended.status, Some(101));
        let ran = "tests ran\n".repeat(passed);
        assert_eq!(ended.output, format!("proved\n{ran}"));
    }

    let copy = Repository::new(PROGRAM);
    put(&copy.path("unfit"), "");
    let ended = copy.run("test");
    assert_eq!(ended.status, Some(2));
    assert_eq!(ended.output, "proved\ntests ran\n");
    assert!(ended.error.ends_with("\nno version fits\n"), "{ended:?}");

    for (count, ends) in [("2 passed, 1 failed", "0"), ("3 passed, 0 failed", "1")] {
        let copy = Repository::new(PROGRAM);
        put(&copy.path("ci"), &format!("proved\n{count}\n"));
        put(&copy.path("ci-ends"), ends);
        let ended = copy.run("test");
        assert_eq!(ended.status, Some(1));
        let said = format!("proved\n{count}\nrt ci failed (exit {ends})\n");
        assert_eq!(ended.output, said);
    }

    let copy = Repository::new(PROGRAM);
    let ok = |bad| format!("rt: ok; must-fail edits: 12 refused{bad}; all was done\n");
    put(&copy.path("ci"), &(ok("") + "3 passed, 0 failed\n"));
    assert_eq!(copy.run("test").status, Some(0));
    let bad = ok(", 1 of them only by a limit, 10 bad");
    put(&copy.path("ci"), &format!("{bad}3 passed, 0 failed\n"));
    let ended = copy.run("test");
    assert_eq!(ended.status, Some(1));
    let said = format!("{bad}rt ci found bad must-fail edits\n");
    assert_eq!(ended.output, said);

    let copy = Repository::new(PROGRAM);
    put(&copy.path("crates/stray/src/lib.rt"), "");
    let ended = copy.run("test");
    assert_eq!(ended.status, Some(1));
    assert_eq!(ended.output, "");
    assert_eq!(ended.error, "crates/stray is missing from crates.txt\n");
}

#[test]
fn the_gate_lets_none_build() {
    let copy = Repository::new(PROGRAM);
    put_script(&copy.path("while-building"), "sleep 0.3");
    thread::scope(|threads| {
        threads.spawn(|| assert_eq!(copy.run("test").status, Some(0)));
        threads.spawn(|| copy.run("desk").expect(0, LINE));
    });
    assert!(!copy.calls().contains(&"two at once".to_string()));
}

#[test]
fn the_gate_wants_the_kit_that_the_proofs_are_of() {
    let copy = Repository::new(PROGRAM);
    put(&copy.path("version"), "another kit\n");
    copy.run("test").expect_message("rt version: another kit\n");
    assert_eq!(copy.calls(), ["version"]);
    let ended = Ended::of(&mut copy.command_with("test", &["tools"]));
    ended.expect_message("rt on PATH");
}

#[test]
fn the_benchmarks_are_of_what_is_built() {
    let copy = Repository::new(PROGRAM);
    let benched = "tests: cargo bench --offline --bench quotes";
    let command = "command: cargo bench --bench houses --target-dir target";
    let desk = copy.path("target/bin/desk");
    let ran = format!("tests ran{}\n", desk.display());
    assert_eq!(copy.run("bench").output, ran.repeat(2));
    assert_eq!(
        copy.calls(),
        [
            "lib volefleece",
            "lib probes",
            "run desk",
            benched,
            FITTED,
            BUILT_COMMAND,
            command
        ]
    );
    assert_eq!(copy.run("bench").status, Some(0));
    assert_eq!(copy.calls()[7..], [benched, command]);
}

#[test]
fn the_benchmark_compares_with_the_build_that_is_named() {
    let copy = Repository::new(PROGRAM);
    let desk = copy.path("target/bin/desk");
    put(&copy.path("before.a"), "");
    let bench = |arguments: &[&str]| {
        let mut command = copy.command("bench");
        let command = command.env("VOLEFLEECE_BEFORE", "elsewhere");
        Ended::of(command.current_dir(copy.path(".")).args(arguments))
    };
    let before = copy.path("before.a");
    let ran = |before: &str| format!("tests ran{}{before}\n", desk.display());
    assert_eq!(
        bench(&["before.a"]).output,
        ran(before.to_str().expect("UTF-8"))
    );
    assert_eq!(bench(&[]).output, ran("").repeat(2));
    bench(&["missing.a"]).expect_message("missing.a: no such file");
}

// Installing.

const INSTALLED: [(&str, u32); 14] = [
    ("bin/volefleece", 0o755),
    ("share/bash-completion/completions/volefleece", 0o644),
    ("share/zsh/site-functions/_volefleece", 0o644),
    ("share/fish/vendor_completions.d/volefleece.fish", 0o644),
    ("libexec/volefleece/desk", 0o755),
    ("libexec/volefleece/sales", 0o755),
    ("libexec/volefleece/readdress", 0o755),
    ("libexec/volefleece/commands.sh", 0o644),
    ("bin/volefleece-quote", 0o755),
    ("bin/volefleece-simplify", 0o755),
    ("bin/volefleece-readdress", 0o755),
    ("include/volefleece.h", 0o644),
    ("lib/libvolefleece.a", 0o644),
    ("lib/pkgconfig/volefleece.pc", 0o644),
];

/// How many files a folder and those in it have.
fn count_files(folder: &Path) -> usize {
    fs::read_dir(folder)
        .expect("a folder")
        .map(|entry| entry.expect("an entry").path())
        .map(|path| if path.is_dir() { count_files(&path) } else { 1 })
        .sum()
}

/// All files are in place with their modes, and the command named each.
#[track_caller]
fn expect_installed(ended: &Ended, prefix: &Path) {
    assert_eq!(ended.status, Some(0), "{ended:?}");
    let named: Vec<String> = INSTALLED
        .iter()
        .map(|(name, _)| format!("{}/{name}", prefix.display()))
        .collect();
    assert_eq!(ended.output.lines().collect::<Vec<_>>(), named);
    for (name, mode) in INSTALLED {
        let metadata = fs::metadata(prefix.join(name)).expect("installed");
        assert_eq!(metadata.mode() & 0o777, mode, "{name}");
    }
    assert_eq!(count_files(prefix), INSTALLED.len());
}

/// An installed command in another folder, with a bare environment.
fn installed(prefix: &Path, name: &str, tools: &Path, arguments: &[&str]) -> Ended {
    Ended::of(
        command(prefix.join("bin").join(name))
            .env_clear()
            .env("PATH", tools)
            .current_dir(tools.parent().expect("a folder"))
            .args(arguments),
    )
}

#[test]
fn an_installed_desk_needs_no_kit() {
    let copy = Repository::with_real_programs();
    let room = room();
    let prefix = room.path("a prefix");
    let ended = Ended::of(copy.command("install").arg(&prefix));
    expect_installed(&ended, &prefix);
    let tools = room.path("tools");
    fs::create_dir(&tools).expect("made");
    symlink(find("readlink").expect("a tool"), tools.join("readlink")).expect("linked");
    fs::create_dir(room.path("h")).expect("made");
    room.write("h/tree.tab", &sample("workshop", TREE));
    room.write("h/values.tab", &sample("workshop", "values.tab"));

    let quote = |arguments: &[&str]| installed(&prefix, "volefleece-quote", &tools, arguments);
    let simplify =
        |arguments: &[&str]| installed(&prefix, "volefleece-simplify", &tools, arguments);
    quote(&["h"]).expect(0, HOUSE);
    simplify(&["h"]).expect(0, SIMPLIFIED);
    simplify(&["h", "3"]).expect(0, "simplified 432 steps 3 spent");
    simplify(&["h", "x"]).expect_message("a number of steps");
    quote(&["prefix"]).expect_message("prefix: no such folder");
    quote(&["a prefix"]).expect(1, "refused 1");
    quote(&[""]).expect_message("an argument is empty");
    quote(&[]).expect_message("usage: volefleece-quote DIR\n");
    simplify(&[]).expect_message("usage: volefleece-simplify DIR [ALLOWANCE]\n");
    simplify(&["h", "1", "2"]).expect_message("usage: volefleece-simplify DIR [ALLOWANCE]\n");
    assert_eq!(quote(&["--help"]).status, Some(0));

    let readdress =
        |arguments: &[&str]| installed(&prefix, "volefleece-readdress", &tools, arguments);
    readdress(&["h"]).expect_told(1, "a multiple of 16 from 16 to 8,192");
    fs::write(room.path("h").join(FORMER), &block(7)[..16]).expect("written");
    readdress(&["h"]).expect_silence();
    quote(&["h"]).expect(0, "figure 7 branch 255");
    readdress(&[]).expect_message("usage: volefleece-readdress DIR\n");
    room.write("h/tree.tab", &sample("workshop", TREE));

    fs::rename(&prefix, room.path("moved")).expect("moved");
    symlink(room.path("moved/bin/volefleece-quote"), room.path("link")).expect("linked");
    Ended::of(command(room.path("link")).arg(room.path("h"))).expect(0, HOUSE);
}

/// The completions are what the command prints, and where it prints none nothing is installed.
#[test]
fn the_command_is_installed_with_its_completions() {
    let copy = Repository::new(PROGRAM);
    let install = |prefix: &Path| Ended::of(copy.command("install").arg(prefix));
    let prefix = copy.path("prefix");
    expect_installed(&install(&prefix), &prefix);
    let programs = ["run desk", "run sales", "run readdress"];
    assert_eq!(copy.calls(), [&programs[..], &BUILT].concat());
    let read = |name| fs::read(prefix.join(name)).expect("installed");
    assert_eq!(
        read("bin/volefleece"),
        fs::read(copy.path("volefleece")).expect("read")
    );
    for (name, shell) in [
        (INSTALLED[1].0, "bash"),
        (INSTALLED[2].0, "zsh"),
        (INSTALLED[3].0, "fish"),
    ] {
        assert_eq!(read(name), format!("completes in {shell}\n").into_bytes());
    }
    put(&copy.path("ends"), "2");
    let other = copy.path("other");
    install(&other).expect_message("volefleece completions bash failed");
    assert!(!other.exists());
}

/// What is there is replaced whole and not written to, and a name may be relative.
#[test]
fn installing_again_replaces_files_whole() {
    let copy = Repository::new(PROGRAM);
    let here = copy.path(".").canonicalize().expect("a folder");
    let install = |prefix: &str| Ended::of(copy.command("install").arg(prefix).current_dir(&here));
    for name in ["-P/x y", "plain", "slash/"] {
        let prefix = here.join(name.trim_end_matches('/'));
        expect_installed(&install(name), &prefix);
        for (file, _) in INSTALLED {
            fs::remove_file(prefix.join(file)).expect("removed");
            symlink(copy.path("precious"), prefix.join(file)).expect("linked");
        }
        put(&copy.path("precious"), "precious");
        expect_installed(&install(name), &prefix);
        let precious = fs::read(copy.path("precious")).expect("read");
        assert_eq!(precious, b"precious");
        for (file, _) in INSTALLED {
            fs::remove_file(prefix.join(file)).expect("removed");
            fs::create_dir(prefix.join(file)).expect("made");
            let told = install(name);
            assert_eq!(told.status, Some(2), "{told:?}");
            assert!(told.error.contains(&format!("{file} is a folder")));
            fs::remove_dir(prefix.join(file)).expect("removed");
        }
        expect_installed(&install(name), &prefix);
    }
    for name in ["a\nb", "a\"b", "a$b", "a\\b", "a#b"] {
        install(name).expect_message("a file for pkg-config cannot name this folder");
    }
    install("precious").expect_message("cannot be made");
}

#[test]
fn destdir_is_no_part_of_the_prefix() {
    let copy = Repository::new(PROGRAM);
    let (prefix, destination) = (copy.path("prefix"), copy.path("destination"));
    let mut install = copy.command("install");
    let ended = Ended::of(install.arg(&prefix).env("DESTDIR", &destination));
    let below = prefix.strip_prefix("/").expect("a whole path");
    let place = destination.join(below);
    expect_installed(&ended, &place);
    assert!(!prefix.exists());
    let text = fs::read_to_string(place.join("lib/pkgconfig/volefleece.pc")).expect("read");
    assert_eq!(field(&text, "prefix="), prefix.display().to_string());
}

/// The value of a variable or a field of a file for pkg-config.
fn field(text: &str, start: &str) -> String {
    let mut lines = text.lines();
    let value = lines.find_map(|line| line.strip_prefix(start));
    value
        .unwrap_or_else(|| panic!("{start} in {text}"))
        .to_string()
}

#[test]
fn pkg_config_finds_the_library() {
    let copy = Repository::with_real_programs();
    let room = room();
    let prefix = room.path("with space");
    let ended = Ended::of(copy.command("install").arg(&prefix));
    expect_installed(&ended, &prefix);
    let folder = prefix.join("lib/pkgconfig");
    let text = fs::read_to_string(folder.join("volefleece.pc")).expect("read");
    assert_eq!(field(&text, "prefix="), prefix.display().to_string());
    assert_eq!(field(&text, "includedir="), "${prefix}/include");
    assert_eq!(field(&text, "libdir="), "${prefix}/lib");
    assert_eq!(field(&text, "Name: "), "volefleece");
    assert_eq!(field(&text, "Version: ").split('.').count(), 3);
    assert_eq!(field(&text, "Cflags: "), "-I\"${includedir}\"");
    assert_eq!(field(&text, "Libs: "), "-L\"${libdir}\" -lvolefleece");

    let Some(tool) = find("pkg-config") else {
        return;
    };
    let mut asked = command(tool);
    asked.args(["--cflags", "--libs", "volefleece"]);
    let flags = Ended::of(asked.env("PKG_CONFIG_PATH", &folder)).output;
    room.write(
        "main.c",
        b"#include <volefleece.h>\nint main(void) { return (int)vf_check(0, 0).refused; }\n",
    );
    let compile = format!("exec cc main.c -o main {flags}");
    let compiled = Ended::of(
        command("sh")
            .args(["-c", &compile])
            .current_dir(room.path(".")),
    );
    assert_eq!(compiled.status, Some(0), "{compiled:?}");
    let ran = Ended::of(&mut command(room.path("main")));
    assert_eq!(ran.status, Some(1));
}
