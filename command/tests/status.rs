//! How the command ends: 0 answered, 1 refused or not found, 2 used wrongly or a file that cannot be read or written, for each subcommand; and its help.

mod common;

use std::env;
use std::path::Path;
use std::process::Command;

use common::*;
use volefleece_tests::programs::{project, sample, values_file, Folder, TREE, VALUES};
use volefleece_tests::tables::*;

/// Each subcommand, answered in a folder with all that is read.
const ANSWERED: [&[&str]; 21] = [
    &["quote", "."],
    &["quote", ".", "--line"],
    &["quote", ".", "--json"],
    &["quotes", "."],
    &["contract", "."],
    &["list", "."],
    &["check", "tree.tab"],
    &["show", "tree.tab"],
    &["values", "show", "values.tab"],
    &["make", "tree.text", "-o", "out.tab"],
    &["values", "make", "values.text", "-o", "out.tab"],
    &["simplify", "tree.tab", "-o", "out.tab"],
    &[
        "graft", "tree.tab", "sent.tab", "--symbol", "16", "-o", "out.tab",
    ],
    &[
        "fill", "tree.tab", "--set", "0=4", "--marks", "out.bits", "-o", "out.tab",
    ],
    &[
        "open", "shut.tab", "--set", "0=4", "--marks", "in.bits", "-o", "out.tab",
    ],
    &["find", "tree.tab", "0x0"],
    &["convert", "old.tab", "-o", "out.tab"],
    &["draw", ".", "-o", "out.svg"],
    &[
        "retime", ".", "--record", "4", "--from", "340", "--to", "400",
    ],
    &[
        "retime", ".", "--record", "4", "--from", "340", "--to", "340", "--commit",
    ],
    &["completions", "bash"],
];

/// Those that read a tree, and say so where it is refused.
const OF_A_TREE: [&[&str]; 11] = [
    &["quote", "."],
    &["contract", "."],
    &["list", "."],
    &["check", "tree.tab"],
    &["simplify", "tree.tab", "-o", "out.tab"],
    &[
        "graft", "tree.tab", "sent.tab", "--symbol", "16", "-o", "out.tab",
    ],
    &["draw", "tree.tab", "-o", "out.svg"],
    &["find", "tree.tab", "0x0"],
    &[
        "fill", "tree.tab", "--set", "0=4", "--marks", "out.bits", "-o", "out.tab",
    ],
    &[
        "open", "tree.tab", "--set", "0=4", "--marks", "in.bits", "-o", "out.tab",
    ],
    &["retime", ".", "--record", "0", "--from", "7", "--to", "8"],
];

const OF_COUNTS: [&[&str]; 3] = [&["quote", "."], &["contract", "."], &["list", "."]];

fn with_files() -> Folder {
    let folder = house("house");
    folder.write("tree.text", b"block 7\n");
    folder.write("values.text", b"cards 4\n");
    folder.write("sent.tab", &block(7));
    folder.write("old.tab", &FORMER_BLOCK);
    let filled = volefleece::fill(&sample("house", TREE), 0, 4).expect("a filled table");
    folder.write("shut.tab", &filled.table);
    folder.write("in.bits", &filled.marks);
    folder
}

// 0 and 1.

#[test]
fn an_answer_ends_with_0() {
    for arguments in ANSWERED {
        let folder = with_files();
        let written = ends(folder.command().args(arguments), 0);
        assert_ne!(written.output, "", "{arguments:?}");
        assert_eq!(written.error, "", "{arguments:?}");
    }
}

#[test]
fn a_refused_tree_ends_with_1() {
    for (tree, number) in refused_tables().into_iter().zip(1..) {
        let folder = with_files();
        folder.write(TREE, &tree);
        for arguments in OF_A_TREE {
            refuses(&folder, arguments, number);
        }
        let shown = ends(folder.command().args(["show", TREE]), 1).output;
        assert!(
            shown.starts_with(&format!("# refused {number}: ")),
            "{shown}"
        );
        let line = ends(folder.command().args(["quote", ".", "--line"]), 1).output;
        assert_eq!(line, format!("refused {number}\n"));
        let quotes = ends(folder.command().args(["quotes", "."]), 1).output;
        assert!(
            quotes.starts_with(&format!(".: refused {number}: ")),
            "{quotes}"
        );
        let folder = with_files();
        folder.write("sent.tab", &tree);
        refuses(&folder, OF_A_TREE[5], number);
    }
}

#[test]
fn refused_counts_end_with_1() {
    let past = sequence(&[block(1_000_000_000_000), block(1)]);
    let triangular = triangular_limited(block(1), 0, 255);
    // The later value of symbol 24 is above its first.
    let later = [&[0; 24][..], &[5], &[0; 7], &[6]].concat();
    for (tree, values, number) in [
        (block(7), vec![0; 9], 9),
        (block(7), values_file(&[1_000_001]), 9),
        (past.clone(), values_file(&[]), 10),
        (triangular, values_file(&[1_001]), 13),
        (block(7), values_file(&later), 14),
    ] {
        let folder = with_files();
        folder.write(TREE, &tree);
        folder.write(VALUES, &values);
        for arguments in OF_COUNTS {
            refuses(&folder, arguments, number);
        }
        if matches!(number, 9 | 14) {
            let shown = ends(folder.command().args(["values", "show", VALUES]), 1);
            let start = format!("# refused {number}: ");
            assert!(shown.output.starts_with(&start), "{}", shown.output);
        }
    }
    let folder = with_files();
    folder.write(TREE, &past);
    refuses(&folder, &["simplify", TREE, "-o", "out.tab"], 10);
}

#[test]
fn a_refused_graft_ends_with_1() {
    let graft = |symbol| {
        [
            "graft", TREE, "sent.tab", "--symbol", symbol, "-o", "out.tab",
        ]
    };
    let folder = with_files();
    for symbol in ["cards", "15", "24", "31"] {
        refuses(&folder, &graft(symbol), 11);
    }
    for symbol in [16, 24, 31] {
        folder.write("sent.tab", &symbol_block(symbol));
        refuses(&folder, &graft("radio"), 11);
    }
    folder.write("sent.tab", &in_sequences(31, block(1)));
    refuses(&folder, &graft("radio"), 12);
}

/// All of it comes after the questions to the tree, and the marks after the symbol and its number.
#[test]
fn a_refused_filling_ends_with_1() {
    let fill = |set| {
        [
            "fill", TREE, "--set", set, "--marks", "out.bits", "-o", "out.tab",
        ]
    };
    let open = |tree, marks, set| {
        [
            "open", tree, "--set", set, "--marks", marks, "-o", "out.tab",
        ]
    };
    let folder = with_files();
    let names = folder.names();
    for set in [
        "24=4",
        "31=4",
        "32=4",
        "cards=1000001",
        "radio=1000000000001",
    ] {
        refuses(&folder, &fill(set), 15);
        refuses(&folder, &open("shut.tab", "in.bits", set), 15);
        refuses(&folder, &open("shut.tab", "tree.text", set), 15);
    }
    for set in ["cards=5", "retries=5", "radio=4"] {
        refuses(&folder, &open("shut.tab", "in.bits", set), 16);
    }
    refuses(&folder, &open(TREE, "in.bits", "cards=4"), 16);
    refuses(&folder, &open("shut.tab", "tree.text", "cards=4"), 16);
    assert_eq!(folder.names(), names);
    folder.write(TREE, &triangular_limited(block(7), 0, 255));
    refuses(&folder, &fill("cards=4"), 15);
}

/// What a text cannot say is no refusal: its lines are told instead.
#[test]
fn a_refused_text_ends_with_1() {
    let sequences: String = (0..32)
        .map(|depth| format!("{}sequence\n", " ".repeat(depth)))
        .collect();
    let limits = "  block 1 at most 1 per run\n".repeat(252);
    let loops = "  loop 1\n    body loop 1\n      body block 1 at most 1 per run\n      exit block 1\n    exit block 1\n";
    for (text, number) in [
        (
            format!(
                "sequence\n{}",
                "  sequence\n    block 1\n".repeat(255) + "  block 1\n"
            ),
            0,
        ),
        (
            format!(
                "sequence\n  sequence\n{}",
                "    sequence\n      block 1\n".repeat(255) + "  block 1\n"
            ),
            1,
        ),
        (format!("{sequences}{}block 1\n", " ".repeat(32)), 5),
        ("block 1 at most 3 per loop 1\n".into(), 6),
        (format!("sequence\n{limits}{loops}"), 7),
    ] {
        let folder = with_files();
        folder.write("tree.text", text.as_bytes());
        let make = ["make", "tree.text", "-o", "out.tab"];
        match number {
            0 => complains(
                &folder,
                &make,
                &["tree.text:512:3: expected at most 255 children"],
            ),
            _ => drop(refuses(&folder, &make, number)),
        }
        assert_eq!(folder.read("out.tab"), None);
    }
}

// 2.

#[test]
fn wrong_use_ends_with_2() {
    let folder = with_files();
    ends(&mut folder.command(), 2);
    ends(folder.command().arg("qoute"), 2);
    ends(folder.command().arg("values"), 2);
    ends(folder.command().args(["quote", ".", "--line", "--json"]), 2);
    ends(
        folder
            .command()
            .args(["simplify", TREE, "-o", "out.tab", "--steps", "-1"]),
        2,
    );
    ends(folder.command().args(["completions", "none"]), 2);
    for wrong in ["4a0", "0X4a0", "0x", "1184", "0x100000000", ""] {
        let written = ends(folder.command().args(["find", TREE, wrong]), 2);
        let told = "expected 0x and 1 to 8 hexadecimal digits";
        assert!(written.error.contains(told), "{}", written.error);
    }
    for arguments in ANSWERED {
        for more in ["--nonsense", "too-many"] {
            let written = ends(folder.command().args(arguments).arg(more), 2);
            assert_eq!(written.output, "");
            assert!(written.error.contains(more), "{}", written.error);
        }
        let fewer = arguments
            .iter()
            .take_while(|argument| !argument.contains(['.', '-']) && **argument != "bash");
        ends(folder.command().args(fewer), 2);
    }
    assert_eq!(folder.names(), with_files().names());
    let graft = [
        "graft", TREE, "sent.tab", "--symbol", "door", "-o", "out.tab",
    ];
    complains(
        &folder,
        &graft,
        &["--symbol door: no symbol is called door (names here: "],
    );
}

#[test]
fn a_file_that_cannot_be_read_ends_with_2() {
    for arguments in ANSWERED {
        for (at, file) in arguments.iter().enumerate() {
            let is_read = file.contains('.') && arguments[at - 1] != "-o" && *file != "out.bits";
            if !is_read {
                continue;
            }
            let mut arguments = arguments.to_vec();
            arguments[at] = "none";
            complains(&with_files(), &arguments, &["none: No such file"]);
            if *file != "." {
                let folder = with_files();
                remove(&folder, file);
                folder.put_folder(file);
                arguments[at] = file;
                // A folder stands for the tree in it, which here is none.
                match *file {
                    "tree.tab" | "sent.tab" | "shut.tab" => {
                        drop(ends(folder.command().args(arguments), 1))
                    }
                    _ => complains(&folder, &arguments, &[&format!("{file}: Is a directory")]),
                }
            }
        }
    }
}

#[test]
fn names_that_cannot_be_read_end_with_2() {
    for arguments in ANSWERED {
        if [
            "check", "show", "make", "values", "simplify", "graft", "fill", "open", "draw", "find",
        ]
        .contains(&arguments[0])
        {
            let arguments = [arguments, &["--names", "none.txt"]].concat();
            complains(&with_files(), &arguments, &["none.txt: No such file"]);
        }
    }
    let draw = ["draw", TREE, "-o", "out.svg", "--values"];
    for values in ["none.txt", "none.tab"] {
        complains(&with_files(), &[&draw[..], &[values]].concat(), &[values]);
    }
}

#[test]
fn a_file_that_cannot_be_written_ends_with_2() {
    for arguments in ANSWERED {
        if let Some((_, before)) = arguments.split_last().filter(|_| arguments.contains(&"-o")) {
            let arguments = [before, &["none/out.new"]].concat();
            complains(
                &with_files(),
                &arguments,
                &["none/out.new: cannot be written: No such file"],
            );
        }
    }
}

#[test]
fn standard_output_that_cannot_be_written_ends_with_2() {
    let help: [&[&str]; 3] = [&["--help"], &["quote", "--help"], &["--version"]];
    for arguments in ANSWERED.into_iter().chain(help) {
        for (behind, why) in [
            (">/dev/full", "No space left on device"),
            ("1</dev/null", "Bad file descriptor"),
        ] {
            let folder = with_files();
            let mut command = folder.command_in_shell("", behind);
            let written = ends(command.args(arguments), 2);
            let told = format!("volefleece: standard output cannot be written: {why}");
            assert!(
                written.error.contains(&told),
                "{arguments:?} {}",
                written.error
            );
        }
    }
}

/// What cannot be said changes nothing else.
#[test]
fn a_closed_standard_error_changes_nothing() {
    let folder = with_files();
    let run = |arguments: &[&str], status| {
        for behind in ["2>&-", "2>/dev/full"] {
            let mut command = folder.command_in_shell("", behind);
            ends(command.args(arguments), status);
        }
    };
    ANSWERED.iter().for_each(|arguments| run(arguments, 0));
    run(&["quote", "none"], 2);
    run(&["quote"], 2);
    remove(&folder, VALUES);
    run(&["quote", ".", "--line"], 1);
    folder.write(TREE, &block(7));
    run(&["quotes", "."], 0);
}

// Help.

const SUBCOMMANDS: [&[&str]; 17] = [
    &["quote"],
    &["quotes"],
    &["contract"],
    &["list"],
    &["check"],
    &["show"],
    &["make"],
    &["values", "show"],
    &["values", "make"],
    &["find"],
    &["convert"],
    &["draw"],
    &["simplify"],
    &["graft"],
    &["fill"],
    &["open"],
    &["retime"],
];

fn help(arguments: &[&str]) -> String {
    let folder = folder();
    let long = ends(folder.command().args(arguments).arg("--help"), 0);
    let short = ends(folder.command().args(arguments).arg("-h"), 0);
    assert_eq!(long.output, short.output);
    assert_eq!(long.error, "");
    long.output
}

#[test]
fn help_names_every_subcommand_and_status() {
    let top = help(&[]) + &help(&["values"]);
    for arguments in SUBCOMMANDS {
        let name = format!("\n  {} ", arguments.last().expect("a name"));
        assert!(top.contains(&name), "{name}");
    }
    assert!(
        top.contains("0 answered, 1 refused or not found, 2 "),
        "{top}"
    );
    let version = ends(folder().command().arg("--version"), 0).output;
    assert_eq!(
        version,
        concat!("volefleece ", env!("CARGO_PKG_VERSION"), "\n")
    );
}

/// In a copy of the repository's samples, so that what they write stays out of it.
#[test]
fn every_example_runs_as_printed() {
    for arguments in SUBCOMMANDS {
        let help = help(arguments);
        let example = help
            .split("Example:\n  ")
            .nth(1)
            .expect("an example")
            .trim_end();
        let start = format!("volefleece {} ", arguments.join(" "));
        assert!(example.starts_with(&start), "{example}");
        let folder = with_files();
        let copy = Command::new("cp")
            .arg("-r")
            .arg(project().join("samples"))
            .arg(folder.path(""))
            .status();
        assert!(copy.expect("it runs").success());
        folder.write(VALUES_TEXT, b"cards 4\n");
        let mut paths = vec![Path::new(VOLEFLEECE)
            .parent()
            .expect("a folder")
            .to_path_buf()];
        paths.extend(env::split_paths(&env::var_os("PATH").expect("a path")));
        let mut shell = Command::new("sh");
        shell.args(["-ec", example]).current_dir(folder.path(""));
        let written = ends(shell.env("PATH", env::join_paths(paths).expect("paths")), 0);
        assert_eq!(written.error, "", "{example}");
        assert_eq!(
            written.output.is_empty(),
            example.contains('>'),
            "{example}"
        );
    }
}
