//! `volefleece quotes`: every house below a folder.

use std::fs;
use std::io;
use std::path::{Path, PathBuf};

use indicatif::{ParallelProgressIterator, ProgressBar};
use rayon::prelude::*;

use super::{quote, Answer};
use crate::failure::{note, Failure, Outcome};
use crate::files;
use crate::house::{self, not_given, House};
use crate::tree;
use crate::words::on_one_line;

/// What is said of one house: its line, what to add on standard error, and the exit status that it alone would have.
struct Said {
    line: String,
    notes: Vec<String>,
    status: u8,
}

pub fn run(folder: &Path) -> Outcome<Answer> {
    let houses = houses(folder)?;
    // Drawn on a terminal alone.
    let progress = ProgressBar::new(houses.len() as u64);
    let said: Vec<Said> = houses
        .par_iter()
        .progress_with(progress.clone())
        .map(|house| say(folder, house))
        .collect();
    progress.finish_and_clear();
    let notes = said.iter().flat_map(|said| &said.notes);
    notes.for_each(|line| note(line));
    let statuses = said.iter().map(|said| said.status);
    Ok(Answer {
        text: said.iter().map(|said| said.line.as_str()).collect(),
        status: statuses.max().unwrap_or_default(),
    })
}

/// The houses at or below a folder, in order. What cannot be read may be one, and is told in its place.
fn houses(folder: &Path) -> Outcome<Vec<PathBuf>> {
    files::expect_folder(folder, "a folder with houses below it")?;
    let mut found = Found::default();
    let mut left = vec![folder.to_path_buf()];
    while let Some(below) = left.pop() {
        match fs::read_dir(&below).and_then(Iterator::collect::<Result<Vec<_>, _>>) {
            Err(error) if below == folder => return Err(Failure::file(folder, &error)),
            // It was removed meanwhile.
            Err(error) if error.kind() == io::ErrorKind::NotFound => {}
            Err(_) => found.houses.push(below),
            Ok(entries) => left.extend(found.add(below, &entries)),
        }
    }
    found.links.sort();
    for link in &found.links {
        let link = on_one_line(&link.to_string_lossy());
        note(&format!(
            "{link}: a link to a folder, which is not followed"
        ));
    }
    if found.houses.is_empty() {
        let message = format!("{}: there is no house in it or below it", folder.display());
        return Err(Failure::Problem(message));
    }
    found.houses.sort();
    Ok(found.houses)
}

/// What was found below a folder.
#[derive(Default)]
struct Found {
    houses: Vec<PathBuf>,
    /// Links to folders, which could lead round in a circle.
    links: Vec<PathBuf>,
}

impl Found {
    /// Takes in a folder with what is in it, and answers the folders below.
    fn add(&mut self, folder: PathBuf, entries: &[fs::DirEntry]) -> Vec<PathBuf> {
        let mut below = Vec::new();
        for entry in entries.iter().filter(|entry| !files::is_making(entry)) {
            let Ok(kind) = entry.file_type() else {
                continue;
            };
            if kind.is_dir() {
                below.push(entry.path());
            } else if kind.is_symlink() && entry.path().is_dir() {
                self.links.push(entry.path());
            }
        }
        if has_house(entries) {
            self.houses.push(folder);
        }
        below
    }
}

fn has_house(entries: &[fs::DirEntry]) -> bool {
    let is_one = |entry: &fs::DirEntry| house::FILES.iter().any(|name| entry.file_name() == *name);
    entries.iter().any(is_one)
}

fn say(root: &Path, folder: &Path) -> Said {
    let below = folder.strip_prefix(root).unwrap_or(folder);
    let name = if below == Path::new("") {
        Path::new(".")
    } else {
        below
    };
    let name = on_one_line(&name.to_string_lossy());
    let mut notes = Vec::new();
    let (line, status) = match quote_house(folder, &name, &mut notes) {
        Ok(line) => (line, 0),
        Err(Failure::Refused { refusal, hint }) => {
            notes.extend(hint.map(|hint| format!("{name}: hint: {hint}")));
            (refusal.to_string(), 1)
        }
        Err(Failure::Problem(problem)) => {
            notes.extend(problem.lines().map(String::from));
            ("cannot be read".into(), 2)
        }
    };
    Said {
        line: format!("{name}: {line}\n"),
        notes,
        status,
    }
}

/// A pipe or a device could keep the whole run waiting.
fn expect_files(folder: &Path) -> Outcome {
    for name in house::FILES.into_iter().chain([tree::NAMES]) {
        let path = folder.join(name);
        if fs::metadata(&path).is_ok_and(|found| !found.is_file()) {
            return Err(Failure::Problem(format!(
                "{}: no plain file",
                path.display()
            )));
        }
    }
    Ok(())
}

fn quote_house(folder: &Path, name: &str, notes: &mut Vec<String>) -> Outcome<String> {
    expect_files(folder)?;
    let mut house = House::read(folder, None)?;
    let nodes = house.tree.check()?;
    notes.extend(
        house
            .drop_wrong_branches(&nodes)
            .map(|line| format!("{name}: {line}")),
    );
    for symbol in house.absent(&nodes) {
        notes.push(format!(
            "{name}: {}",
            not_given(&house.tree.names.symbol(symbol), symbol)
        ));
    }
    let quote = house.quote()?;
    let branch = quote.branch.map(|branch| match house.branch_said(branch) {
        (Some(name), words) => format!(" {name} ({words})"),
        (None, words) => format!(" {words}"),
    });
    let line = quote::line(&quote);
    Ok(format!("{}{}", line.trim_end(), branch.unwrap_or_default()))
}
