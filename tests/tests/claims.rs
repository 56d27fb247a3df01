//! docs/CLAIMS.md lists the definitions that a reader must believe, and which need not be. Both are found again here, from the contracts
//! of the outside calls and what they cite.

use std::collections::{BTreeMap, BTreeSet};
use std::fs;
use std::path::Path;
use volefleece_tests::commands::file;

/// What demands 1 to 3 are stated of.
const DEMANDS: [(&str, &[&str]); 2] = [
    ("quoting", &["check", "figure", "list"]),
    ("simplifying", &["simplify", "both_desks"]),
];

/// The other outside calls.
const OTHERS: [(&str, &[&str]); 7] = [
    (
        "volefleece",
        &[
            "vf_check",
            "vf_figure",
            "vf_list",
            "vf_simplify",
            "vf_graft",
            "vf_fill",
            "vf_open",
            "vf_preview",
            "vf_commit",
            "vf_convert",
            "vf_both_desks",
        ],
    ),
    ("graft", &["graft"]),
    ("fill", &["fill", "open"]),
    ("retime", &["preview", "commit"]),
    ("former", &["convert"]),
    ("deskfiles", &["quote_files"]),
    ("arguments", &["allowance_of"]),
];

fn read(path: &str) -> String {
    fs::read_to_string(file(path)).unwrap_or_else(|error| panic!("{path}: {error}"))
}

/// The files of every crate in its folder of that name, as the crate's name and the file's without its ending.
fn files_in(part: &str) -> Vec<(String, String)> {
    let mut found = Vec::new();
    for entry in fs::read_dir(file("crates")).expect("crates") {
        let path = entry.expect("a crate").path();
        let Ok(files) = fs::read_dir(path.join(part)) else {
            continue;
        };
        let files = files.map(|file| file.expect("a file").path());
        let name = |path: &Path| {
            path.file_stem()
                .and_then(|stem| stem.to_str())
                .map(str::to_string)
        };
        for file in files.filter(|file| file.is_file()) {
            found.push((name(&path).expect("a name"), name(&file).expect("a name")));
        }
    }
    found
}

/// The names that each module is asked for, by the `use` lines of a file of Rattle or antt. A list of names may go over several lines.
fn imports(text: &str) -> Vec<(String, BTreeSet<String>)> {
    let mut found = Vec::new();
    for part in text.split("use Rattle.").skip(1) {
        let (module, rest) = part.split_once(".{").expect("names in braces");
        let (names, _) = rest.split_once('}').expect("names in braces");
        found.push((module.to_string(), words(names)));
    }
    found
}

fn words(text: &str) -> BTreeSet<String> {
    text.split(|c: char| !(c.is_alphanumeric() || c == '_' || c == '⧺' || c == '▸'))
        .filter(|word| !word.is_empty())
        .map(str::to_string)
        .collect()
}

/// The file of a module of definitions or laws, below crates/. A type that the code declares has none, and the kit's are not here.
fn file_of(module: &str) -> Option<String> {
    let (name, rest) = module.split_once('.').expect("a crate's module");
    let elsewhere = name == "std" || rest.starts_with("specs.declared.");
    (!elsewhere).then(|| format!("{name}/{}.antt", rest.replace('.', "/")))
}

/// The files of definitions that a call's contract names.
fn cited_by(name: &str, function: &str) -> BTreeSet<String> {
    let code = read(&format!("crates/{name}/src/lib.rt"));
    let start = format!("fn {function}(");
    let (_, rest) = code.split_once(&start).expect("the function");
    let (contract, _) = rest.split_once("\n{\n").expect("the body");
    let named = words(contract);
    imports(&code)
        .into_iter()
        .filter(|(_, names)| !names.is_disjoint(&named))
        .filter_map(|(module, _)| file_of(&module))
        .collect()
}

/// These files and all that they lean on.
fn closed(mut open: Vec<String>) -> BTreeSet<String> {
    let mut seen = BTreeSet::new();
    while let Some(file) = open.pop() {
        let text = read(&format!("crates/{file}"));
        if seen.insert(file) {
            open.extend(
                imports(&text)
                    .iter()
                    .filter_map(|(module, _)| file_of(module)),
            );
        }
    }
    seen
}

fn cited(calls: &[(&str, &[&str])]) -> BTreeSet<String> {
    let all = calls
        .iter()
        .flat_map(|(name, functions)| functions.iter().flat_map(|f| cited_by(name, f)));
    closed(all.collect())
}

/// Its lines but for comments, imports and blank ones.
fn lines(file: &str) -> usize {
    let counts = |line: &&str| {
        let line = line.trim_start();
        !(line.is_empty()
            || line.starts_with("--")
            || line.starts_with("use ")
            || line.starts_with("pub use "))
    };
    read(&format!("crates/{file}"))
        .lines()
        .filter(counts)
        .count()
}

/// The rows of CLAIMS' tables of files below that heading: file and lines.
fn listed(heading: &str) -> BTreeMap<String, usize> {
    let claims = read("docs/CLAIMS.md");
    let (_, rest) = claims.split_once(heading).expect("the heading");
    let section = rest.split("\n#").next().expect("a section");
    let rows = section.lines().filter_map(|line| {
        let mut cells = line.strip_prefix("| ")?.split(" | ");
        let file = format!("{}.antt", cells.next()?);
        Some((file, cells.next()?.parse().ok()?))
    });
    rows.collect()
}

fn with_lines(files: BTreeSet<String>) -> BTreeMap<String, usize> {
    files
        .into_iter()
        .map(|file| (lines(&file), file))
        .filter(|&(lines, _)| 0 < lines)
        .map(|(lines, file)| (file, lines))
        .collect()
}

#[test]
fn claims_lists_what_the_demands_cite() {
    assert_eq!(
        with_lines(cited(&DEMANDS)),
        listed("### For the three demands\n")
    );
}

#[test]
fn claims_lists_what_the_other_calls_cite() {
    let demands = cited(&DEMANDS);
    let more = cited(&OTHERS).difference(&demands).cloned().collect();
    assert_eq!(with_lines(more), listed("### For the other calls\n"));
}

#[test]
fn claims_and_readme_add_the_lines_up() {
    let files = listed("### For the three demands\n");
    let sum: usize = files.values().sum();
    let said = format!("{sum} lines in all");
    assert!(read("docs/CLAIMS.md").contains(&said), "{said}");
    let said = format!("{sum} lines in {} files", files.len());
    let readme = read("README.md");
    let words: Vec<_> = readme.split_whitespace().collect();
    assert!(words.join(" ").contains(&said), "{said}");
}

/// The files of definitions of every crate, below crates/; `Lib` and `Laws` list modules, and `Nodes` gathers declared names.
fn definitions() -> BTreeSet<String> {
    let files = files_in("specs").into_iter();
    files
        .filter(|(_, stem)| !["Lib", "Laws", "Nodes"].contains(&stem.as_str()))
        .map(|(name, stem)| format!("{name}/specs/{stem}.antt"))
        .collect()
}

#[test]
fn claims_names_every_other_definition() {
    let claims = read("docs/CLAIMS.md");
    let (_, section) = claims
        .split_once("### Not to be believed\n")
        .expect("the heading");
    let section = section.split("\n#").next().expect("a section");
    let (whole, single) = section.split_once(';').expect("whole crates first");
    let all: BTreeSet<_> = cited(&DEMANDS).union(&cited(&OTHERS)).cloned().collect();
    for file in definitions().difference(&all) {
        let (name, stem) = file.split_once("/specs/").expect("a path");
        let stem = stem.trim_end_matches(".antt");
        let named = format!("`{name}`");
        let found = whole.contains(&named)
            || stem == "Cases"
            || single
                .split(';')
                .any(|part| part.contains(stem) && part.contains(&named));
        assert!(found, "{file}");
    }
}

#[test]
fn claims_names_every_edit_that_must_fail() {
    let claims = words(&read("docs/CLAIMS.md"));
    for (name, label) in files_in("must-fail") {
        assert!(claims.contains(&label), "{name}: {label}");
    }
}

#[test]
fn no_definition_to_believe_leans_on_a_law() {
    let files = cited(&DEMANDS).into_iter().chain(cited(&OTHERS));
    let is_law = |file: &String| file.contains("/Laws/") || file.contains("/proofs/");
    let laws: Vec<_> = files.filter(is_law).collect();
    assert!(laws.is_empty(), "{laws:?}");
}
