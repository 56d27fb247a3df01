//! `volefleece quotes`: a line for each house below a folder. `volefleece contract`: the same page for the same house.

mod common;

use std::ffi::CString;
use std::fs;
use std::os::unix::fs::{symlink, MetadataExt, PermissionsExt};
use std::os::unix::process::CommandExt;
use std::process::Command;
use std::sync::atomic::{AtomicBool, Ordering};
use std::thread;

use common::*;
use volefleece::Refusal;
use volefleece_tests::programs::{
    copy_program, sample, values_file, Folder, Written, TREE, VALUES,
};
use volefleece_tests::rng::Rng;
use volefleece_tests::tables::*;

const QUOTES: [&str; 2] = ["quotes", "."];

/// What a house's line is compared with: `quote --line`, its status, and the branch's name and words.
struct Single {
    line: String,
    status: i32,
}

/// The house's own line. A refusal has its reason behind the number, an answer the branch's name and the child's words.
fn single(folder: &Folder, house: &str) -> Single {
    let quote = |way: &str| {
        let mut command = folder.command();
        command
            .args(["quote", house, way])
            .output()
            .expect("it runs")
    };
    let text = |bytes: Vec<u8>| String::from_utf8(bytes).expect("text");
    let line = quote("--line");
    let status = line.status.code().expect("an end");
    let facts = serde_json::from_slice(&quote("--json").stdout);
    let facts: serde_json::Value = facts.unwrap_or_default();
    let line = text(line.stdout).trim_end().to_owned();
    let line = match status {
        0 => match ["name", "node"].map(|key| facts["branch"][key].as_str()) {
            [Some(name), Some(node)] if name != node => format!("{line} {name} ({node})"),
            [Some(name), _] => format!("{line} {name}"),
            _ => line,
        },
        1 => format!("{line}: {}", facts["reason"].as_str().expect("a reason")),
        _ => "cannot be read".into(),
    };
    Single { line, status }
}

/// Houses of every kind, most in folders of folders: accepted, refused, not to be read, and as text.
fn put_house(folder: &Folder, rng: &mut Rng, house: &str) {
    let put = |name: &str, bytes: &[u8]| put(folder, &format!("{house}/{name}"), bytes);
    match rng.index(12) {
        0 => put(TREE_TEXT, b"choice\n  block 7\n  block time-16\n"),
        1 => put(TREE_TEXT, b"choice\n  blok 7\n"),
        2 => {
            put(TREE, &block(7));
            fs::create_dir(folder.path(&format!("{house}/{VALUES}"))).expect("a folder");
        }
        3 => {
            for file in [TREE, VALUES, NAMES] {
                put(file, &sample("entrance", file));
            }
        }
        4 => put(TREE, &random::table(rng)),
        _ => {
            put(TREE, &random::table(rng));
            if let Some(values) = random::values(rng) {
                put(VALUES, &values);
            }
        }
    }
}

/// A thousand houses, in the order in which they are quoted.
fn many_houses() -> (Folder, Vec<String>) {
    let folder = folder();
    let mut rng = Rng::new(801);
    let mut houses = Vec::new();
    for number in 0..1_000 {
        let place = rng.pick(&["", "east/", "west side/", "west side/2/", "west side/10/"]);
        let house = format!("{place}house {number:03}");
        put_house(&folder, &mut rng, &house);
        houses.push(house);
        if rng.once_in(10) {
            put(&folder, &format!("{place}no house {number}/note.txt"), "");
        }
    }
    // A house may have houses below it.
    put_house(&folder, &mut rng, "house 500/below");
    houses.push("house 500/below".into());
    houses.sort_by(|left, right| left.split('/').cmp(right.split('/')));
    (folder, houses)
}

fn quotes(folder: &Folder, status: i32) -> Written {
    ends(folder.command().args(QUOTES), status)
}

#[test]
fn a_thousand_houses_in_order() {
    let (folder, houses) = many_houses();
    let said = quotes(&folder, 2);
    let again = quotes(&folder, 2);
    assert_eq!(said.output, again.output);
    assert_eq!(said.error, again.error);
    let lines: Vec<&str> = said.output.lines().collect();
    assert_eq!(lines.len(), houses.len());
    let mut statuses = [0; 3];
    for (number, (house, line)) in houses.iter().zip(lines).enumerate() {
        let said = line.strip_prefix(&format!("{house}: ")).expect(line);
        if number % 6 == 0 {
            let single = single(&folder, house);
            assert_eq!(said, single.line, "{house}");
            statuses[single.status as usize] += 1;
        }
    }
    assert!(statuses.iter().all(|&times| times > 10), "{statuses:?}");
}

/// Houses whose cipher has two numbers: both given, one for both, the later above the first, and neither.
#[test]
fn first_and_later_below_a_folder() {
    let folder = folder();
    for house in ["above", "both", "neither", "one"] {
        for file in [TREE, NAMES] {
            put(&folder, &format!("{house}/{file}"), sample("cipher", file));
        }
    }
    let values = sample("cipher", VALUES);
    put(&folder, "above/values.txt", "cards 40\ncipher 5 6\n");
    put(&folder, "both/values.tab", &values);
    put(&folder, "neither/values.txt", "cards 1\n");
    put(&folder, "one/values.tab", &values[..256]);
    let said = quotes(&folder, 1);
    let (later, ceiling) = (Refusal::LaterValue, Refusal::Ceiling);
    let lines = format!(
        "above: {later}\nboth: figure 485860 branch 255\nneither: {ceiling}\none: figure 2474860 branch 255\n"
    );
    assert_eq!(said.output, lines);
    let notes =
        "above: hint: cipher is first 5 cycles, later 6 cycles, and later at most 5 is allowed\n\
                 neither: cipher is not given and counts 1000000000000\n\
                 neither: hint: what is not given counts high; give a value to cipher\n";
    assert_eq!(said.error, notes);
}

/// Whatever the number of processors that quote at once.
#[test]
fn threads_change_nothing() {
    let (folder, _) = many_houses();
    let said = quotes(&folder, 2);
    for threads in ["1", "5"] {
        let mut command = folder.command();
        let alone = ends(command.args(QUOTES).env("RAYON_NUM_THREADS", threads), 2);
        assert_eq!(said.output, alone.output);
        assert_eq!(said.error, alone.error);
    }
}

#[test]
fn the_status_is_the_worst_houses() {
    let folder = folder();
    put(&folder, &format!("good/{TREE}"), block(7));
    answers(&folder, &QUOTES, "good: figure 7 branch 255\n");
    put(&folder, &format!("bad/{TREE}"), "");
    let said = quotes(&folder, 1);
    let refused = "bad: refused 1: the length is not a multiple of 24 from 24 to 12,288\n";
    let both = format!("{refused}good: figure 7 branch 255\n");
    assert_eq!(said.output, both);
    assert!(said.error.starts_with("bad: hint: "), "{}", said.error);
    put(&folder, &format!("worse/{TREE_TEXT}"), "tree\n");
    let said = quotes(&folder, 2);
    assert_eq!(said.output, format!("{both}worse: cannot be read\n"));
    assert!(
        said.error.contains("./worse/tree.txt:1:1: "),
        "{}",
        said.error
    );
    complains(&folder, &["quotes", "none"], &["none: "]);
    complains(
        &folder,
        &["quotes", &format!("good/{TREE}")],
        &["expected a folder with houses below it"],
    );
}

#[test]
fn a_house_is_called_as_its_folder() {
    let folder = folder();
    for name in [
        " spaces  here",
        "L'Aquila \"2\"",
        "\u{e9}t\u{e9}",
        "two\nlines",
        "back\\slash",
    ] {
        put(&folder, &format!("{name}/{TREE}"), block(7));
    }
    put(&folder, TREE, block(8));
    let said = quotes(&folder, 0).output;
    let mut names = [
        " spaces  here",
        "L'Aquila \"2\"",
        "\u{e9}t\u{e9}",
        "two\\nlines",
        "back\\\\slash",
    ];
    names.sort();
    let lines = names.map(|name| format!("{name}: figure 7 branch 255\n"));
    assert_eq!(said, format!(".: figure 8 branch 255\n{}", lines.concat()));
}

/// A link to a folder may lead back up, so that it is not followed.
#[test]
fn links_to_folders_are_no_houses() {
    let folder = folder();
    put(&folder, &format!("house/{TREE}"), block(7));
    symlink("..", folder.path("house/up")).expect("a link");
    symlink("house", folder.path("other")).expect("a link");
    let said = quotes(&folder, 0);
    assert_eq!(said.output, "house: figure 7 branch 255\n");
    let told = ["./house/up", "./other"]
        .map(|link| format!("{link}: a link to a folder, which is not followed\n"));
    assert_eq!(said.error, told.concat());
}

#[test]
fn absent_counts_are_named() {
    let folder = folder();
    put(
        &folder,
        &format!("house/{TREE}"),
        symbol_repeat(0, block(7), block(0)),
    );
    put(&folder, &format!("house/{NAMES}"), "symbol 0 cards\n");
    let said = quotes(&folder, 0);
    assert_eq!(said.output, "house: figure 7000000 branch 255\n");
    assert_eq!(said.error, "house: cards is not given and counts 1000000\n");
}

/// A blank that counts too high is named beside the refusal.
#[test]
fn absent_counts_of_a_refused_house_are_named() {
    let folder = folder();
    put(
        &folder,
        &format!("house/{TREE}"),
        sequence(&[symbol_block(16), block(1)]),
    );
    put(&folder, &format!("house/{NAMES}"), "symbol 16 radio\n");
    let said = quotes(&folder, 1);
    assert!(
        said.output.starts_with("house: refused 10: "),
        "{}",
        said.output
    );
    let told = "\
house: radio is not given and counts 1000000000000
house: hint: what is not given counts high; give a value to radio
";
    assert_eq!(said.error, told);
}

/// A replacement makes its file there, and a kill may leave it.
#[test]
fn a_file_in_the_making_is_no_house() {
    let folder = folder();
    put(&folder, &format!("house/{TREE}"), block(7));
    put(
        &folder,
        &format!("house/.volefleece-AbCdEf/{TREE}"),
        block(8),
    );
    answers(&folder, &QUOTES, "house: figure 7 branch 255\n");
}

#[test]
fn a_folder_that_is_removed_meanwhile_is_no_house() {
    let folder = folder();
    put(&folder, &format!("house/{TREE}"), block(7));
    let passing: Vec<_> = (0..50)
        .map(|number| folder.path(&format!("house/{number}")))
        .collect();
    let done = AtomicBool::new(false);
    thread::scope(|scope| {
        scope.spawn(|| {
            while !done.load(Ordering::Relaxed) {
                for below in &passing {
                    fs::create_dir(below).expect("made");
                }
                for below in &passing {
                    fs::remove_dir(below).expect("removed");
                }
            }
        });
        let all = (0..100).all(|_| {
            let said = folder.command().args(QUOTES).output();
            said.is_ok_and(|said| {
                said.stdout == b"house: figure 7 branch 255\n" && said.stderr.is_empty()
            })
        });
        done.store(true, Ordering::Relaxed);
        assert!(all);
    });
}

/// Root may read everywhere, so for root the command runs as another user, from a copy that this user can reach.
#[test]
fn a_folder_that_cannot_be_read_is_told() {
    let folder = folder();
    put(&folder, &format!("house/{TREE}"), block(7));
    folder.put_folder("shut");
    let set = |mode| fs::set_permissions(folder.path("shut"), fs::Permissions::from_mode(mode));
    let program = folder.path("volefleece");
    copy_program(VOLEFLEECE.as_ref(), &program);
    let mut command = Command::new(program);
    command.current_dir(folder.path("")).args(QUOTES);
    if fs::metadata("/proc/self").expect("Linux has it").uid() == 0 {
        command.uid(65_534).gid(65_534);
    }
    set(0).expect("set");
    let said = ends(&mut command, 2);
    set(0o755).expect("set");
    let lines = "house: figure 7 branch 255\nshut: cannot be read\n";
    assert_eq!(said.output, lines);
    assert!(
        said.error.starts_with("./shut: Permission denied"),
        "{}",
        said.error
    );
}

#[test]
fn a_folder_without_houses_is_told() {
    let folder = folder();
    folder.put_folder("empty");
    let said = quotes(&folder, 2);
    assert_eq!(said.output, "");
    let message = "volefleece: .: there is no house in it or below it\n";
    assert_eq!(said.error, message);
}

/// Values without a tree are a house's whose tree is missing, and not passed over.
#[test]
fn a_house_without_a_tree_is_refused() {
    let folder = folder();
    put(&folder, "house/values.tab", [0; 8]);
    let said = quotes(&folder, 1);
    assert!(
        said.output.starts_with("house: refused 1: "),
        "{}",
        said.output
    );
    let hint = "house: hint: ./house has no tree.tab and no tree.txt\n";
    assert_eq!(said.error, hint);
}

/// A pipe that nobody writes to would keep the other houses waiting.
#[test]
fn a_pipe_is_no_house_file() {
    let folder = folder();
    put(&folder, &format!("good/{TREE}"), block(7));
    folder.put_folder("pipe");
    let path = folder.path(&format!("pipe/{TREE}"));
    let path = CString::new(path.into_os_string().into_encoded_bytes()).expect("a path");
    // SAFETY: the path ends with a zero and is only read.
    assert_eq!(unsafe { libc::mkfifo(path.as_ptr(), 0o600) }, 0);
    let said = quotes(&folder, 2);
    let lines = "good: figure 7 branch 255\npipe: cannot be read\n";
    assert_eq!(said.output, lines);
    assert_eq!(said.error, "./pipe/tree.tab: no plain file\n");
}

// The page.

#[track_caller]
fn page(folder: &Folder, arguments: &[&str]) -> String {
    let mut command: Command = folder.command();
    ends(command.args(["contract", "."]).args(arguments), 0).output
}

const ENTRANCE_PAGE: &str = "\
Waking figure for one opening

house Lakeside, the side entrance
figure 91200 cycles
branch radio (child 1 of the choice at the root: sequence)
count cards 40
time radio 90000 cycles

No opening that this tree admits with these counts keeps the lock's processor awake for more cycles than the figure.
The figure is exactly what the published method gives for this tree and these counts, no lower and no higher.

tree sha256 c08cbb6ea3451c30c816f725f9e5295953c514d013217ee203edb720eebf039a (the table's bytes)
counts sha256 148139dd81a86fb8ff59ec1d3948a3984938eb184eff5d93361b211a1313ca60 (all 40 values, 8 bytes each)
";

/// With a time that has two numbers, and what that means.
const CIPHER_PAGE: &str = "\
Waking figure for one opening

house Lakeside, the back door
figure 485860 cycles
branch none (no choice at the root)
count cards 40
time cipher first 60000 cycles, later 9000 cycles

Where a time has a first and a later number, the first pass of a step in an opening costs the first, and each further pass of that step the later one.
Two steps of the same time have a first pass each.
No opening that this tree admits with these counts keeps the lock's processor awake for more cycles than the figure.
The figure is exactly what the published method gives for this tree and these counts, no lower and no higher.

tree sha256 5d17474f529f2216d99800170333b0eabfda85197a725d705122b1f36a6f1c1c (the table's bytes)
counts sha256 6d01053b94d0264d9ca7dfa8b776ac1f0331556a7d2a36feb1aabb10ed345286 (all 40 values, 8 bytes each)
";

#[test]
fn the_page_word_by_word() {
    let version = env!("CARGO_PKG_VERSION");
    for (name, page) in [("entrance", ENTRANCE_PAGE), ("cipher", CIPHER_PAGE)] {
        let expected = format!("{page}volefleece {version}\n");
        answers(&house(name), &["contract", "."], &expected);
    }
}

#[test]
fn a_page_says_all_that_was_quoted() {
    let folder = house("entrance");
    let page = page(&folder, &[]);
    let quote = ends(folder.command().args(["quote", "."]), 0).output;
    assert!(page.contains(&format!("\n\n{quote}\n")), "{page}");
    let sum = |file: &str| {
        let output = Command::new("sha256sum").arg(folder.path(file)).output();
        let output = output.expect("it runs").stdout;
        String::from_utf8(output).expect("text")[..64].to_owned()
    };
    assert!(
        page.contains(&format!("\ntree sha256 {} (", sum(TREE))),
        "{page}"
    );
    // Of all 40 values, also those that the file leaves out.
    let mut values = vec![0; 40];
    values[17..].fill(1_000_000_000_000);
    (values[0], values[1], values[16]) = (40, 3, 90_000);
    folder.write("all", &values_file(&values));
    assert!(
        page.contains(&format!("\ncounts sha256 {} (", sum("all"))),
        "{page}"
    );
    assert!(
        page.ends_with(concat!("\nvolefleece ", env!("CARGO_PKG_VERSION"), "\n")),
        "{page}"
    );
}

#[test]
fn the_same_inputs_give_the_same_page() {
    let first = page(&house("entrance"), &[]);
    // Another folder, and the same in the other form.
    assert_eq!(page(&house("entrance"), &[]), first);
    assert_eq!(page(&house("entrance"), &["--set", "cards=40"]), first);
    let folder = house("entrance");
    let text = ends(folder.command().args(["show", "."]), 0).output;
    folder.write(TREE_TEXT, text.as_bytes());
    for file in [TREE, NAMES] {
        remove(&folder, file);
    }
    assert_eq!(page(&folder, &[]), first);
}

#[test]
fn each_input_changes_the_page() {
    let mut pages = vec![page(&house("entrance"), &[])];
    for setting in [
        "cards=41",
        "radio=90001",
        "retries=4",
        "31=0",
        "30=5",
        "30=5,4",
        "31=5,4",
    ] {
        pages.push(page(&house("entrance"), &["--set", setting]));
    }
    let tree = sample("entrance", TREE);
    // The card's time, which does not set the figure.
    let other = [&tree[..56], &341_u64.to_le_bytes(), &tree[64..]].concat();
    // Nor does where it stands in the firmware.
    let moved = addressed(tree, 0x4a0);
    let names = String::from_utf8(sample("entrance", NAMES)).expect("text");
    let renamed = |from, to| names.replace(from, to).into_bytes();
    for (file, bytes) in [
        (TREE, other),
        (TREE, moved),
        (NAMES, renamed("symbol 0 cards", "symbol 0 tags")),
        (NAMES, renamed("branch 1 radio", "branch 1 wireless")),
        (NAMES, renamed("Lakeside", "Seaside")),
    ] {
        let folder = house("entrance");
        folder.write(file, &bytes);
        pages.push(page(&folder, &[]));
    }
    let count = pages.len();
    pages.sort();
    pages.dedup();
    assert_eq!(pages.len(), count);
}
