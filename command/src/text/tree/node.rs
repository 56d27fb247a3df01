//! A node's line, after what it is to its parent.

use volefleece::{FIRST_TIME, MOST_COUNT, MOST_TIME};

use super::super::lines::{self, number, Line, Problem, Word};
use crate::names::Names;
use crate::table::{Amount, Kind, Limit, Node, Scope, MOST_LOOPS};

/// A line's node, as yet without children, and what is wrong with the line first. The kind is there where it can be read, so that the
/// lines below can be judged too.
pub fn read(line: &mut Line, names: &Names) -> (Option<Node>, Option<Problem>) {
    let mut node = match kind(line) {
        Ok(kind) => Node::new(kind),
        Err(problem) => return (None, Some(problem)),
    };
    let read = rest(line, names, &mut node);
    (Some(node), read.err())
}

fn kind(line: &mut Line) -> Result<Kind, Problem> {
    let word = line.next();
    match word.text {
        "block" => Ok(Kind::Block(Amount::Plain(0))),
        "sequence" => Ok(Kind::Sequence),
        "choice" => Ok(Kind::Choice),
        "loop" => Ok(Kind::Loop(Amount::Plain(0))),
        _ => {
            let expected = "\"block\", \"sequence\", \"choice\" or \"loop\"";
            Err(Problem::expected(&word, expected))
        }
    }
}

/// What follows the kind: the value, the limit and the address.
fn rest(line: &mut Line, names: &Names, node: &mut Node) -> Result<(), Problem> {
    match &mut node.kind {
        Kind::Block(value) => *value = time(line, names)?,
        Kind::Loop(value) => *value = count(line, names)?,
        Kind::Sequence | Kind::Choice => {}
    }
    node.limit = limit(line, names)?;
    node.address = address(line)?;
    line.want_end()
}

fn time(line: &mut Line, names: &Names) -> Result<Amount, Problem> {
    let word = line.next();
    let symbol = names.find(word.text).filter(|&symbol| symbol >= FIRST_TIME);
    let amount = number(&word, MOST_TIME).map(Amount::Plain);
    let amount = amount.or(symbol.map(|symbol| Amount::Symbol(symbol as u64)));
    amount.or(excused(&word, names)).ok_or_else(|| {
        Problem::expected(
            &word,
            &format!("a time from 0 to {MOST_TIME} or the name of one (symbols 16 to 31)"),
        )
    })
}

fn count(line: &mut Line, names: &Names) -> Result<Amount, Problem> {
    let word = line.next();
    let plain = number(&word, MOST_COUNT).map(Amount::Plain);
    let amount = plain.or(count_symbol(&word, names).map(Amount::Symbol));
    amount.or(excused(&word, names)).ok_or_else(|| {
        Problem::expected(
            &word,
            &format!("a count from 0 to {MOST_COUNT} or the name of one (symbols 0 to 15)"),
        )
    })
}

/// Any amount, for a name that is wrong where it is given: no table is made of the text.
fn excused(word: &Word, names: &Names) -> Option<Amount> {
    names.is_excused(word.text).then_some(Amount::Plain(0))
}

fn count_symbol(word: &Word, names: &Names) -> Option<u64> {
    let symbol = names.find(word.text).filter(|&symbol| symbol < FIRST_TIME);
    symbol.map(|symbol| symbol as u64)
}

const ADDRESS_OR_END: &str = "\"address\" and an address, or the end of the line";

/// `at most 3 per loop 1`, `at most triangular retries per run`, or nothing.
fn limit(line: &mut Line, names: &Names) -> Result<Option<Limit>, Problem> {
    match line.peek().text {
        "" | "address" => return Ok(None),
        "at" => {}
        _ => {
            let expected = format!("\"at most\" and a limit, {ADDRESS_OR_END}");
            return Err(Problem::expected(&line.next(), &expected));
        }
    }
    line.want("at most")?;
    let amount = if line.take("triangular") {
        let word = line.next();
        let symbol = count_symbol(&word, names).map(Amount::Triangular);
        let symbol = symbol.or(excused(&word, names));
        symbol.ok_or_else(|| Problem::expected(&word, "the name of a count (symbols 0 to 15)"))?
    } else {
        count(line, names)?
    };
    line.want("per")?;
    let scope = scope(line)?;
    Ok(Some(Limit { amount, scope }))
}

/// `address 0x4a0`, or nothing, which is 0.
fn address(line: &mut Line) -> Result<u32, Problem> {
    if line.peek().text.is_empty() {
        return Ok(0);
    }
    if !line.take("address") {
        return Err(Problem::expected(&line.next(), ADDRESS_OR_END));
    }
    let word = line.next();
    lines::address(word.text).ok_or_else(|| Problem::expected(&word, lines::ADDRESS))
}

fn scope(line: &mut Line) -> Result<Scope, Problem> {
    let word = line.next();
    match word.text {
        "run" => Ok(Scope::Run),
        "loop" => {
            let word = line.next();
            let loops = number(&word, MOST_LOOPS.into()).filter(|&loops| loops > 0);
            let expected =
                "1 for the innermost loop around the node, 2 for the next one outward, up to 8";
            let loops = loops.ok_or_else(|| Problem::expected(&word, expected))?;
            Ok(Scope::Loop(loops as u8))
        }
        _ => Err(Problem::expected(
            &word,
            "\"run\" or \"loop\" and its number",
        )),
    }
}
