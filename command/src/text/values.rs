//! Values as text: a symbol's name and its value on each line; for a paired one its first value and, where it is given, its later one.

use volefleece::{ceiling, FIRST_PAIRED, MOST_TIME, SYMBOLS};

use super::header;
use super::lines::{lines, number, Line, Problem, Problems};
use crate::counts::Counts;
use crate::failure::Failure;
use crate::names::Names;
use crate::table::is_paired;

/// The values that a text gives. Its names are taken in beside those that are known.
pub fn parse(text: &str, names: &mut Names) -> Result<Counts, Problems> {
    let mut counts = Counts::default();
    let mut problems = Vec::new();
    for mut line in lines(text) {
        let read = if header::begins(&line.peek()) {
            header::read(&mut line, names)
        } else {
            value(&mut line, names, &mut counts)
        };
        problems.extend(read.err());
    }
    if problems.is_empty() {
        Ok(counts)
    } else {
        Err(problems)
    }
}

fn value(line: &mut Line, names: &Names, counts: &mut Counts) -> Result<(), Problem> {
    let name = line.next();
    let symbol = names.find(name.text);
    let expected = || {
        Problem::expected(
            &name,
            &format!("{}, or a symbol's name and its value", header::EXPECTED),
        )
    };
    if symbol.is_none() && !names.is_excused(name.text) {
        return Err(expected());
    }
    let most = symbol.map_or(MOST_TIME, ceiling);
    let first = number_to(line, most)?;
    let later = later(line, symbol, most);
    if let Some(symbol) = symbol {
        if counts.given(symbol).is_some() {
            return Err(name.problem(format!("{} has a value already", name.text)));
        }
        let later = later.as_ref().ok().copied().flatten();
        counts.set(symbol, first, later);
    }
    later.and_then(|_| line.want_end())
}

/// The second number of a line, which a paired symbol may have, and one whose name is wrong where it is given.
fn later(line: &mut Line, symbol: Option<usize>, most: u64) -> Result<Option<u64>, Problem> {
    match symbol {
        _ if line.peek().text.is_empty() => Ok(None),
        Some(symbol) if !is_paired(symbol) => {
            let (first, last) = (FIRST_PAIRED, SYMBOLS - 1);
            let expected = format!(
                "the end of the line (symbols {first} to {last} alone have a later number)"
            );
            Err(Problem::expected(&line.next(), &expected))
        }
        _ => number_to(line, most).map(Some),
    }
}

fn number_to(line: &mut Line, most: u64) -> Result<u64, Problem> {
    let word = line.next();
    let expected = || Problem::expected(&word, &format!("a number from 0 to {most}"));
    number(&word, most).ok_or_else(expected)
}

/// Values that the library refuses, as far as they can be read: the refusal, then each value.
pub fn print_refused(counts: &Counts, names: &Names, failure: &Failure) -> String {
    let more = if counts.has_wrong_length() {
        "bytes # no value of its own\n"
    } else {
        ""
    };
    failure.commented() + &print(counts, names) + more
}

/// The text of these values, which gives them back if each is in range.
pub fn print(counts: &Counts, names: &Names) -> String {
    let given = (0..SYMBOLS).filter_map(|symbol| {
        let numbers = [counts.given(symbol)?].into_iter();
        let numbers = numbers.chain(counts.given_later(symbol));
        Some(numbers.fold(names.symbol(symbol), |line, number| {
            format!("{line} {number}")
        }))
    });
    let given: Vec<String> = given.collect();
    let mut lines = names.header(&[]);
    if !lines.is_empty() && !given.is_empty() {
        lines.push(String::new());
    }
    lines.extend(given);
    lines.iter().map(|line| format!("{line}\n")).collect()
}
