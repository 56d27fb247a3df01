//! Names alone, as a text's header has them.

use super::header;
use super::lines::{lines, Problem, Problems};
use crate::names::Names;

/// Takes in the names of a text that has nothing else.
pub fn parse(text: &str, names: &mut Names) -> Result<(), Problems> {
    let mut problems = Vec::new();
    for mut line in lines(text) {
        let first = line.peek();
        let read = if header::begins(&first) {
            header::read(&mut line, names)
        } else {
            Err(Problem::expected(&first, header::EXPECTED))
        };
        problems.extend(read.err());
    }
    if problems.is_empty() {
        Ok(())
    } else {
        Err(problems)
    }
}
