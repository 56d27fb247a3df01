//! What the programs write to standard output: one line by one call, or a message where that cannot be written.

use std::fs::OpenOptions;
use std::io::{self, PipeWriter, Read, Write};
use std::os::fd::OwnedFd;
use std::os::unix::net::UnixDatagram;
use std::process::Child;
use std::thread::{self, JoinHandle};
use std::time::Duration;
use volefleece_tests::programs::{complains, Folder};
use volefleece_tests::tables::*;

/// A folder for each kind of line that the programs write, and the line.
fn lines() -> Vec<(Folder, &'static str)> {
    let refused = sequence(&[block(1_000_000_000_000), block(1)]);
    vec![
        (
            Folder::with_tree("desk", &block(7)),
            "figure 7 branch 255\n",
        ),
        (Folder::with_tree("desk", &refused), "refused 10\n"),
        (
            Folder::with_tree("sales", &sequence(&[block(7)])),
            "simplified 24 steps 1 finished\n",
        ),
        (Folder::with_tree("sales", &refused), "refused 10\n"),
    ]
}

fn wait(child: &mut Child) {
    let status = child.wait().expect("it ends");
    assert!(status.success(), "{status}");
}

/// Each write to such a socket is a message of its own.
#[test]
fn a_line_is_one_write() {
    for (folder, line) in lines() {
        let (ours, theirs) = UnixDatagram::pair().expect("two sockets");
        ours.set_nonblocking(true).expect("set");
        let mut command = folder.command();
        command.stdout(OwnedFd::from(theirs));
        wait(&mut command.spawn().expect("it starts"));
        let mut bytes = [0; 1_000];
        let count = ours.recv(&mut bytes).expect("a message");
        assert_eq!(String::from_utf8_lossy(&bytes[..count]), line);
        assert!(ours.recv(&mut bytes).is_err(), "another write");
    }
}

/// Lines of many programs on one pipe come out whole, in some order. The pipe is full while they start, so that all
/// have something to write at once.
#[test]
fn lines_of_many_programs_stay_whole() {
    let lines = lines();
    let houses: Vec<Folder> = (0..100)
        .map(|time| Folder::with_tree("sales", &sequence(&[block(time)])))
        .collect();
    let desks = (0..400).map(|number| lines[number % 2].0.command());
    let sales = houses.iter().map(Folder::command);

    let (mut ours, theirs) = io::pipe().expect("a pipe");
    let filling = fill(theirs.try_clone().expect("a copy"));
    let mut children: Vec<Child> = desks
        .chain(sales)
        .map(|mut command| {
            let output = theirs.try_clone().expect("a copy");
            command.stdout(output).spawn().expect("it starts")
        })
        .collect();
    drop(theirs);
    thread::sleep(Duration::from_millis(500));
    let mut written = String::new();
    ours.read_to_string(&mut written).expect("text");
    children.iter_mut().for_each(wait);
    filling.join().expect("filled");

    let found = |line: &str| written.lines().filter(|&found| found == line).count();
    assert_eq!(found("figure 7 branch 255"), 200);
    assert_eq!(found("refused 10"), 200);
    assert_eq!(found("simplified 24 steps 1 finished"), 100);
    assert_eq!(written.lines().count(), 500 + BLOCKS);
}

/// More than a pipe holds, in blocks of a size that is written whole.
const BLOCKS: usize = 64;

fn fill(mut pipe: PipeWriter) -> JoinHandle<()> {
    let block = ".".repeat(4_095) + "\n";
    thread::spawn(move || (0..BLOCKS).for_each(|_| pipe.write_all(block.as_bytes()).expect("room")))
}

#[test]
fn a_full_disk_is_told() {
    for (folder, _) in lines() {
        let full = OpenOptions::new().write(true).open("/dev/full");
        let mut command = folder.command();
        command.stdout(full.expect("Linux has it"));
        let output = command.output().expect("it starts");
        assert!(output.status.success(), "{}", output.status);
        let error = String::from_utf8_lossy(&output.stderr);
        assert!(error.starts_with("standard output: "), "{error}");
    }
}

#[test]
fn a_closed_output_is_told() {
    for (folder, _) in lines() {
        complains(&mut folder.command_in_shell("", ">&-"), "standard output: ");
        complains(
            &mut folder.command_in_shell("", "<&- >&-"),
            "standard output: ",
        );
    }
}
