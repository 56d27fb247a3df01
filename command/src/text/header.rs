//! The names at the beginning of a text: `symbol 0 cards`, `branch 1 radio`, `house Lakeside`.

use volefleece::SYMBOLS;

use super::lines::{number, Line, Problem, Word};
use crate::names::{Named, Names};

/// The largest number of a root choice's child.
const MOST_BRANCH: u64 = 254;

/// How a line of the header begins.
pub const EXPECTED: &str = "\"symbol\", \"branch\" or \"house\" and a name";

/// Whether a line that begins so is one of the header's.
pub fn begins(first: &Word) -> bool {
    matches!(first.text, "symbol" | "branch" | "house")
}

/// Takes in the name of a line that is one of the header's. A symbol's name is one word, another name the rest of the line, `#` included.
pub fn read(line: &mut Line, names: &mut Names) -> Result<(), Problem> {
    match line.next().text {
        "symbol" => symbol(line, names),
        "branch" => {
            let child = index(line, MOST_BRANCH, "a child's number")?;
            add(&line.rest(), Named::Branch(child), names)
        }
        _ => add(&line.rest(), Named::House, names),
    }
}

/// What is wrong here is told once, and not again wherever the name is used.
fn symbol(line: &mut Line, names: &mut Names) -> Result<(), Problem> {
    let symbol = index(line, SYMBOLS as u64 - 1, "a symbol's number");
    let word = line.next();
    let added = symbol.and_then(|symbol| add(&word, Named::Symbol(symbol), names));
    if added.is_err() {
        names.excuse(word.text);
    }
    added.and_then(|()| line.want_end())
}

fn index(line: &mut Line, most: u64, what: &str) -> Result<usize, Problem> {
    let word = line.next();
    let number = number(&word, most);
    let expected = || Problem::expected(&word, &format!("{what}, 0 to {most}"));
    number.map(|number| number as usize).ok_or_else(expected)
}

fn add(name: &Word, named: Named, names: &mut Names) -> Result<(), Problem> {
    if name.text.is_empty() {
        return Err(Problem::expected(name, "a name"));
    }
    names.add(named, name.text).map_err(|why| name.problem(why))
}
