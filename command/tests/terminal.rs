//! The command on a terminal: it asks for counts that nothing gives, and shows how far it is with many houses.

mod common;

use std::fs::File;
use std::io::{ErrorKind, Read, Write};
use std::os::fd::{AsRawFd, FromRawFd, OwnedFd};
use std::os::unix::process::{CommandExt, ExitStatusExt};
use std::process::{Child, ExitStatus, Stdio};
use std::ptr::null_mut;
use std::time::{Duration, Instant};

use common::*;
use volefleece_tests::programs::{sample, values_file, Folder, TREE, VALUES};
use volefleece_tests::tables::*;

const LONGEST: Duration = Duration::from_secs(20);
const CTRL_C: &[u8] = b"\x03";
const CTRL_D: &[u8] = b"\x04";

const CARDS: &str = "cards (0 to 1000000): ";
const RETRIES: &str = "retries (0 to 1000000): ";
const RADIO: &str = "radio (0 to 1000000000000 cycles): ";
const CIPHER: &str = "cipher first (0 to 1000000000000 cycles): ";
const LATER: &str = "cipher later (0 to 60000 cycles, 60000 if nothing is typed): ";
const HOUSE: &str = "\
house Lakeside
figure 210910 cycles
branch none (no choice at the root)
count cards 40
count retries 3
time radio 90000 cycles
";

/// The command on a terminal of its own, and what it has written there.
struct Terminal {
    ours: File,
    child: Child,
    seen: String,
    /// What of that has been waited for.
    passed: usize,
}

/// Which of the command's streams is no terminal.
#[derive(Clone, Copy, PartialEq)]
enum Elsewhere {
    None,
    Input,
    Output,
    Error,
}

fn open_terminal() -> (File, OwnedFd) {
    let (mut ours, mut theirs) = (-1, -1);
    // SAFETY: both numbers are written, and nothing else is handed over.
    let opened =
        unsafe { libc::openpty(&mut ours, &mut theirs, null_mut(), null_mut(), null_mut()) };
    assert_eq!(opened, 0, "no terminal");
    // SAFETY: both are new and have no other owner. No child but the one started here is to hold the terminal.
    unsafe {
        libc::fcntl(ours, libc::F_SETFD, libc::FD_CLOEXEC);
        libc::fcntl(theirs, libc::F_SETFD, libc::FD_CLOEXEC);
        (File::from_raw_fd(ours), OwnedFd::from_raw_fd(theirs))
    }
}

impl Terminal {
    fn start(folder: &Folder, arguments: &[&str], elsewhere: Elsewhere) -> Self {
        let (ours, theirs) = open_terminal();
        let stream = |other| match elsewhere == other {
            true => Stdio::null(),
            false => theirs.try_clone().expect("another").into(),
        };
        let mut command = folder.command();
        command.args(arguments).env("TERM", "xterm");
        command.stdin(stream(Elsewhere::Input));
        command.stdout(stream(Elsewhere::Output));
        command.stderr(stream(Elsewhere::Error));
        let controlling = theirs.as_raw_fd();
        // SAFETY: these calls may be made between fork and exec.
        unsafe {
            command.pre_exec(move || {
                // Tests that a shell has started in the background ignore interrupts, and would pass that on.
                libc::signal(libc::SIGINT, libc::SIG_DFL);
                libc::setsid();
                libc::ioctl(controlling, libc::TIOCSCTTY, 0);
                Ok(())
            });
        }
        let child = command.spawn().expect("it starts");
        Terminal {
            ours,
            child,
            seen: String::new(),
            passed: 0,
        }
    }

    /// Reads on, and says whether there was more before its end.
    fn read(&mut self) -> bool {
        let mut ready = libc::pollfd {
            fd: self.ours.as_raw_fd(),
            events: libc::POLLIN,
            revents: 0,
        };
        // SAFETY: there is one such structure.
        let polled = unsafe { libc::poll(&mut ready, 1, LONGEST.as_millis() as i32) };
        assert_eq!(polled, 1, "it waits after {:?}", self.seen);
        let mut bytes = [0; 4_096];
        match self.ours.read(&mut bytes) {
            // The bar has signs of three bytes, which may come in parts; no test looks at them.
            Ok(count) => self.seen += &String::from_utf8_lossy(&bytes[..count]),
            Err(error) if error.raw_os_error() == Some(libc::EIO) => return false,
            Err(error) => assert_eq!(error.kind(), ErrorKind::Interrupted),
        }
        true
    }

    /// Reads until it has written this after all that was waited for before.
    fn wait_for(&mut self, text: &str) {
        while !self.seen[self.passed..].contains(text) {
            assert!(self.read(), "no {text:?} in {:?}", self.seen);
        }
        let place = self.seen[self.passed..].find(text).expect("there");
        self.passed += place + text.len();
    }

    fn press(&mut self, keys: &[u8]) {
        self.ours.write_all(keys).expect("typed");
    }

    /// Types this line once it is asked so.
    fn answer(&mut self, prompt: &str, line: &str) {
        self.wait_for(prompt);
        self.press(line.as_bytes());
        self.press(b"\r");
    }

    /// Its end, and all that it has written.
    fn finish(mut self) -> (ExitStatus, String) {
        while self.read() {}
        let start = Instant::now();
        loop {
            if let Some(status) = self.child.try_wait().expect("a child") {
                return (status, self.seen.replace("\r\n", "\n"));
            }
            assert!(start.elapsed() < LONGEST, "it does not end");
            std::thread::sleep(Duration::from_millis(1));
        }
    }
}

impl Drop for Terminal {
    fn drop(&mut self) {
        // Of a test that fails; one that has ended is left alone.
        let _ = self.child.kill();
        let _ = self.child.wait();
    }
}

/// The sample house without counts.
fn unknown_house() -> Folder {
    let folder = house("house");
    remove(&folder, VALUES);
    folder
}

fn quote(folder: &Folder) -> Terminal {
    Terminal::start(folder, &["quote", "."], Elsewhere::None)
}

// Asking.

#[test]
fn counts_are_asked_for_by_name_and_range() {
    let folder = unknown_house();
    let mut terminal = quote(&folder);
    terminal.answer(CARDS, "40");
    terminal.answer(RETRIES, "3");
    terminal.answer(RADIO, " 90000 ");
    let (status, seen) = terminal.finish();
    assert_eq!(status.code(), Some(0));
    assert!(seen.ends_with(HOUSE), "{seen}");
    assert!(!seen.contains("not given"), "{seen}");
}

#[test]
fn bad_input_is_asked_again() {
    let folder = house("house");
    folder.write(VALUES, &sample("house", VALUES)[..16]);
    for bad in [
        "",
        "many",
        "-1",
        "+1",
        "1000000000001",
        "1e3",
        "4 5",
        "99999999999999999999",
        "\u{ff11}",
    ] {
        let mut terminal = quote(&folder);
        terminal.answer(RADIO, bad);
        terminal.wait_for("a number from 0 to 1000000000000, please");
        terminal.answer(RADIO, bad);
        terminal.wait_for("please");
        terminal.answer(RADIO, "90000");
        let (status, seen) = terminal.finish();
        assert_eq!(status.code(), Some(0), "{bad:?}");
        assert!(seen.ends_with(HOUSE), "{bad:?} {seen}");
    }
}

/// Both numbers of a paired symbol, one after the other.
#[test]
fn first_and_later_are_asked_for() {
    let folder = house("cipher");
    remove(&folder, VALUES);
    for (typed, figure, later) in [
        ("9000", 485_860, "later 9000 cycles"),
        (" 0 ", 134_860, "later 0 cycles"),
        ("60000", 2_474_860, "later 60000 cycles"),
        ("", 2_474_860, "later 60000 cycles (as the first)"),
        ("  ", 2_474_860, "later 60000 cycles (as the first)"),
    ] {
        let mut terminal = quote(&folder);
        terminal.answer(CARDS, "40");
        terminal.answer(CIPHER, "60000");
        terminal.answer(LATER, typed);
        let (status, seen) = terminal.finish();
        assert_eq!(status.code(), Some(0));
        let figure = format!("\nfigure {figure} cycles\n");
        assert!(seen.contains(&figure), "{seen}");
        let line = format!("\ntime cipher first 60000 cycles, {later}\n");
        assert!(seen.ends_with(&line), "{seen}");
        assert!(!seen.contains("please"), "{seen}");
    }
}

/// A later number above the first would be refused, so that no more is offered; nothing typed is no first number.
#[test]
fn a_later_number_above_the_first_is_asked_again() {
    let folder = house("cipher");
    folder.write(VALUES, &values_file(&[40]));
    for bad in ["60001", "1000000000000", "many", "-1", "4 5", "60000,9000"] {
        let mut terminal = quote(&folder);
        terminal.answer(CIPHER, "");
        terminal.wait_for("a number from 0 to 1000000000000, please\r\n");
        terminal.answer(CIPHER, "60000");
        terminal.answer(LATER, bad);
        terminal.wait_for("a number from 0 to 60000, please: later is at most the first");
        terminal.answer(LATER, "9000");
        let (status, seen) = terminal.finish();
        assert_eq!(status.code(), Some(0), "{bad}");
        assert!(seen.contains("\nfigure 485860 cycles\n"), "{seen}");
    }
}

/// One number that is given says both.
#[test]
fn a_later_number_is_not_asked_for_beside_a_first() {
    let folder = house("cipher");
    folder.write(VALUES, &sample("cipher", VALUES)[..256]);
    let (status, seen) = quote(&folder).finish();
    assert_eq!(status.code(), Some(0));
    let line = "\ntime cipher first 60000 cycles, later 60000 cycles (as the first)\n";
    assert!(seen.ends_with(line) && !seen.contains("typed"), "{seen}");
}

#[test]
fn bytes_that_are_no_text_are_asked_again() {
    let folder = house("house");
    folder.write(VALUES, &sample("house", VALUES)[..16]);
    let mut terminal = quote(&folder);
    terminal.wait_for(RADIO);
    terminal.press(b"\xff\xfe\r");
    terminal.wait_for("please");
    terminal.answer(RADIO, "90000");
    let (status, _) = terminal.finish();
    assert_eq!(status.code(), Some(0));
}

/// A value whose triangular number is a limit is refused above 1,000, so that no more is offered.
#[test]
fn a_triangular_limits_range_is_lower() {
    let folder = house("house");
    folder.write(TREE, &triangular_limited(block(7), 0, 255));
    remove(&folder, VALUES);
    let mut terminal = quote(&folder);
    terminal.answer("cards (0 to 1000): ", "1001");
    terminal.answer("cards (0 to 1000): ", "1000");
    let (status, seen) = terminal.finish();
    assert_eq!(status.code(), Some(0));
    assert!(seen.contains("figure 7 cycles\n"), "{seen}");
}

/// Whatever was typed, these values would be refused.
#[test]
fn nothing_is_asked_for_beside_values_that_are_refused() {
    let folder = house("house");
    for values in [values_file(&[40, 1_000_001]), vec![0; 9]] {
        folder.write(VALUES, &values);
        let (status, seen) = quote(&folder).finish();
        assert_eq!(status.code(), Some(1));
        assert!(seen.starts_with("refused 9: "), "{seen}");
    }
    remove(&folder, VALUES);
    folder.write(VALUES_TEXT, b"time-24 5 6\n");
    let (status, seen) = quote(&folder).finish();
    assert_eq!(status.code(), Some(1));
    assert!(seen.starts_with("refused 14: "), "{seen}");
}

#[test]
fn only_what_is_missing_is_asked_for() {
    let folder = unknown_house();
    let set = ["quote", ".", "--set", "cards=40", "--set", "radio=90000"];
    let mut terminal = Terminal::start(&folder, &set, Elsewhere::None);
    terminal.answer(RETRIES, "3");
    let (status, seen) = terminal.finish();
    assert_eq!(status.code(), Some(0));
    assert_eq!(seen, format!("{RETRIES}3\n{HOUSE}"));
}

/// The page, the list and a preview are of counts too.
#[test]
fn contracts_and_lists_ask_too() {
    let folder = house("house");
    folder.write(VALUES, &values_file(&[40, 3]));
    for (arguments, words) in [
        (&["contract", "."][..], "figure 210910 cycles\n"),
        (&["list", "."], "210910 for ever\n"),
        (&COMMIT[..8], "figure after 213310 cycles\n"),
    ] {
        let mut terminal = Terminal::start(&folder, arguments, Elsewhere::None);
        terminal.answer(RADIO, "90000");
        let (status, seen) = terminal.finish();
        assert_eq!(status.code(), Some(0));
        assert!(seen.contains(words), "{seen}");
    }
}

/// A block that cannot be retimed needs no counts, nor does a text that is not written.
#[test]
fn nothing_is_asked_where_nothing_is_retimed() {
    let folder = unknown_house();
    let mut stale = COMMIT;
    stale[5] = "341";
    let (status, seen) = Terminal::start(&folder, &stale, Elsewhere::None).finish();
    assert_eq!(status.code(), Some(1));
    assert!(seen.starts_with("refused 17: "), "{seen}");
    let text = ends(folder.command().args(["show", TREE]), 0).output;
    folder.write(TREE_TEXT, text.as_bytes());
    let (status, seen) = Terminal::start(&folder, &COMMIT, Elsewhere::None).finish();
    assert_eq!(status.code(), Some(2));
    assert!(seen.starts_with("volefleece: ./tree.txt:11: "), "{seen}");
}

#[test]
fn nothing_is_asked_where_all_is_given() {
    let (status, seen) = quote(&house("house")).finish();
    assert_eq!(status.code(), Some(0));
    assert_eq!(seen, HOUSE);
}

/// A tree that is refused needs no counts.
#[test]
fn nothing_is_asked_for_a_refused_tree() {
    let folder = unknown_house();
    folder.write(TREE, &[&sample("house", TREE)[..], &block(0)].concat());
    let (status, seen) = quote(&folder).finish();
    assert_eq!(status.code(), Some(1));
    assert!(seen.starts_with("refused 4: "), "{seen}");
}

/// Programs read these.
#[test]
fn a_line_and_json_ask_nothing() {
    let folder = house("house");
    folder.write(TREE, &symbol_repeat(0, block(7), block(0)));
    remove(&folder, VALUES);
    for way in ["--line", "--json"] {
        let (status, seen) =
            Terminal::start(&folder, &["quote", ".", way], Elsewhere::None).finish();
        assert_eq!(status.code(), Some(0));
        assert!(
            seen.starts_with("cards is not given and counts 1000000\n"),
            "{seen}"
        );
        assert!(seen.contains("7000000"), "{seen}");
    }
}

#[test]
fn nothing_is_asked_without_a_terminal_to_read_and_to_ask_on() {
    let folder = house("house");
    folder.write(TREE, &symbol_repeat(0, block(7), block(0)));
    remove(&folder, VALUES);
    for elsewhere in [Elsewhere::Input, Elsewhere::Error] {
        let (status, seen) = Terminal::start(&folder, &["quote", "."], elsewhere).finish();
        assert_eq!(status.code(), Some(0));
        assert!(seen.contains("figure 7000000 cycles\n"), "{seen}");
        assert!(!seen.contains(CARDS), "{seen}");
    }
    let mut terminal = Terminal::start(&folder, &["quote", "."], Elsewhere::Output);
    terminal.answer(CARDS, "1");
    assert_eq!(terminal.finish().0.code(), Some(0));
}

// What changes while a count is typed.

const COMMIT: [&str; 9] = [
    "retime", ".", "--record", "4", "--from", "340", "--to", "400", "--commit",
];

/// Commits in a house that has no number for its radio, and has this done before one is typed.
fn commit_while(done: impl FnOnce(&Folder)) -> (Folder, ExitStatus, String) {
    let folder = house("house");
    folder.write(VALUES, &values_file(&[40, 3]));
    let mut terminal = Terminal::start(&folder, &COMMIT, Elsewhere::None);
    terminal.wait_for(RADIO);
    done(&folder);
    terminal.press(b"90000\r");
    let (status, seen) = terminal.finish();
    (folder, status, seen)
}

/// The sample house's tree with another number in one byte.
fn with_byte(at: usize, byte: u8) -> Vec<u8> {
    let mut table = sample("house", TREE);
    table[at] = byte;
    table
}

/// Whatever it is, and whether the file is another then or the same: it stays, and nothing is said as if it had been written.
#[test]
fn a_tree_that_has_changed_is_not_written() {
    let others = [
        // Another block, the same block, an address, more than there was and less.
        with_byte(32, 1),
        with_byte(104, 1),
        with_byte(19, 1),
        [sample("house", TREE), vec![0]].concat(),
        sample("house", TREE)[..287].to_vec(),
        Vec::new(),
    ];
    for other in others {
        for in_place in [true, false] {
            let (folder, status, seen) = commit_while(|folder| {
                if !in_place {
                    remove(folder, TREE);
                }
                folder.write(TREE, &other);
            });
            assert_eq!(status.code(), Some(2));
            let told =
                "\nvolefleece: ./tree.tab: stays as it is: it has changed since it was read\n";
            assert!(seen.ends_with(told), "{seen}");
            assert!(!seen.contains("figure"), "{seen}");
            assert_eq!(folder.read(TREE), Some(other.clone()));
            assert_eq!(folder.names(), [NAMES, TREE, VALUES]);
        }
    }
}

#[test]
fn a_tree_that_is_gone_is_not_made() {
    let (folder, status, seen) = commit_while(|folder| remove(folder, TREE));
    assert_eq!(status.code(), Some(2));
    let told =
        "\nvolefleece: ./tree.tab: cannot be written: No such file or directory (os error 2)\n";
    assert!(seen.ends_with(told), "{seen}");
    assert_eq!(folder.names(), [NAMES, VALUES]);
}

/// The bytes count, not the file that has them.
#[test]
fn a_tree_that_is_the_same_again_is_written() {
    let (folder, status, seen) = commit_while(|folder| {
        remove(folder, TREE);
        folder.write(TREE, &sample("house", TREE));
    });
    assert_eq!(status.code(), Some(0));
    assert!(seen.ends_with("\ncommitted 288\n"), "{seen}");
    let expected = [&sample("house", TREE)[..104], &400_u64.to_le_bytes()].concat();
    assert!(folder.read(TREE).expect("a table").starts_with(&expected));
}

// Ends.

#[test]
fn the_end_of_input_ends_without_a_figure() {
    let folder = unknown_house();
    for before in [0, 1] {
        let mut terminal = quote(&folder);
        (0..before).for_each(|_| terminal.answer(CARDS, "40"));
        terminal.wait_for([CARDS, RETRIES][before]);
        terminal.press(CTRL_D);
        let (status, seen) = terminal.finish();
        assert_eq!(status.code(), Some(2));
        let name = ["cards", "retries"][before];
        let told =
            format!("\nvolefleece: {name}: no number was typed; --set {name}=NUMBER gives one\n");
        assert!(seen.ends_with(&told), "{seen}");
        assert!(!seen.contains("figure"), "{seen}");
    }
}

/// Nor is it an answer to the second question, whose answer may be empty.
#[test]
fn the_end_of_input_is_no_later_number() {
    let folder = house("cipher");
    folder.write(VALUES, &values_file(&[40]));
    let mut terminal = quote(&folder);
    terminal.answer(CIPHER, "60000");
    terminal.wait_for(LATER);
    terminal.press(CTRL_D);
    let (status, seen) = terminal.finish();
    assert_eq!(status.code(), Some(2));
    let told = "\nvolefleece: cipher: no number was typed; --set cipher=NUMBER gives one\n";
    assert!(seen.ends_with(told) && !seen.contains("figure"), "{seen}");
}

#[test]
fn an_interrupt_ends_without_a_figure() {
    let folder = unknown_house();
    for typed in ["", "4"] {
        let mut terminal = quote(&folder);
        terminal.wait_for(CARDS);
        terminal.press(typed.as_bytes());
        terminal.press(CTRL_C);
        let (status, seen) = terminal.finish();
        assert_eq!(status.signal(), Some(libc::SIGINT));
        assert!(!seen.contains("figure"), "{seen}");
    }
}

// How far it is.

#[test]
fn quotes_shows_a_bar_on_a_terminal_alone() {
    let folder = folder();
    for number in 0..20 {
        put(&folder, &format!("{number}/{TREE}"), block(number));
    }
    let lines = ends(folder.command().args(["quotes", "."]), 0);
    assert_eq!(lines.error, "");
    let quotes = |elsewhere| Terminal::start(&folder, &["quotes", "."], elsewhere).finish();
    let (status, seen) = quotes(Elsewhere::None);
    assert_eq!(status.code(), Some(0));
    let (bar, said) = seen.split_at(seen.len() - lines.output.len());
    assert_eq!(said, lines.output);
    assert!(bar.contains("/20"), "{bar}");
    // The bar is gone before the lines come.
    assert!(bar.ends_with("\r\u{1b}[2K"), "{bar:?}");
    let (_, without_lines) = quotes(Elsewhere::Output);
    assert!(without_lines.contains("/20"), "{without_lines}");
    let (_, without_bar) = quotes(Elsewhere::Error);
    assert_eq!(without_bar, lines.output);
}
