//! The second filler and opener: CR 8 of document 02, written apart from the library and in its own way.
//! Both walk over the tree's fields, two for each node, and a mark is a bit that has its field's place.
//! They are plain Rust, fast enough to be measured against the library.

use crate::format::*;
use crate::reader;
use crate::trees::{Amount, Kind, Tree};

/// What filling writes.
#[derive(Clone, Debug, PartialEq, Eq)]
pub struct Filled {
    pub table: Vec<u8>,
    pub marks: [u8; MARK_BYTES],
}

/// Filling into buffers of so many bytes: questions 1 to 7, 8 and 15, then the written table, in which
/// every field of the symbol has the number, and its marks.
pub fn fill(
    table: &[u8],
    symbol: u64,
    number: u64,
    out_len: usize,
    marks_len: usize,
) -> Result<Filled, u64> {
    let mut tree = reader::check(table)?;
    if out_len < table.len() || marks_len < MARK_BYTES {
        return Err(8);
    }
    if !is_fillable(&tree, symbol, number) {
        return Err(15);
    }
    let mut marks = [0; MARK_BYTES];
    let mut place = 0;
    tree.visit_mut(&mut |node| {
        for field in fields(node) {
            match field {
                Some(Field { amount, .. }) if *amount == Amount::Symbol(symbol) => {
                    *amount = Amount::Plain(number);
                    marks[place / 8] |= 1 << (place % 8);
                }
                _ => {}
            }
            place += 1;
        }
    });
    let table = tree.encode();
    Ok(Filled { table, marks })
}

/// Opening into a buffer of so many bytes: questions 1 to 7, 8, 15 and 16, then the written table, in
/// which every marked field has the symbol.
pub fn open(
    table: &[u8],
    marks: &[u8],
    symbol: u64,
    number: u64,
    out_len: usize,
) -> Result<Vec<u8>, u64> {
    let mut tree = reader::check(table)?;
    if out_len < table.len() {
        return Err(8);
    }
    if !is_fillable(&tree, symbol, number) {
        return Err(15);
    }
    if marks.len() != MARK_BYTES {
        return Err(16);
    }
    let mut marks = marks
        .iter()
        .flat_map(|byte| (0..8).map(move |bit| byte >> bit & 1 == 1));
    let mut all_stand = true;
    tree.visit_mut(&mut |node| {
        for (field, is_marked) in fields(node).into_iter().zip(marks.by_ref()) {
            match field {
                _ if !is_marked => {}
                Some(field) if field.may_open(symbol, number) => {
                    *field.amount = Amount::Symbol(symbol)
                }
                _ => all_stand = false,
            }
        }
    });
    // What is left lies past the last record.
    if !all_stand || marks.any(|is_marked| is_marked) {
        return Err(16);
    }
    Ok(tree.encode())
}

/// Question 15: has the symbol one value, is it under flag 4 nowhere in this tree, and is the number in
/// its range?
fn is_fillable(tree: &Tree, symbol: u64, number: u64) -> bool {
    let most = match symbol {
        _ if COUNT_SYMBOLS.contains(&symbol) => MOST_COUNT,
        _ if SINGLE_SYMBOLS.contains(&symbol) => MOST_TIME,
        _ => return false,
    };
    number <= most && !tree.triangles().contains(&symbol)
}

/// A time, bound or limit, and which symbols are allowed in it.
struct Field<'t> {
    amount: &'t mut Amount,
    is_time: bool,
}

impl Field<'_> {
    /// Question 16, of a field that is marked: is it plain, has it that number, and is the symbol allowed
    /// in it?
    fn may_open(&self, symbol: u64, number: u64) -> bool {
        let is_allowed = TIME_SYMBOLS.contains(&symbol) == self.is_time;
        *self.amount == Amount::Plain(number) && is_allowed
    }
}

/// A node's value and its limit, where it has them.
fn fields(node: &mut Tree) -> [Option<Field<'_>>; 2] {
    let value = match &mut node.kind {
        Kind::Block(time) => Some((time, true)),
        Kind::Loop(bound) => Some((bound, false)),
        Kind::Sequence | Kind::Choice => None,
    };
    let limit = node.limit.as_mut().map(|limit| (&mut limit.amount, false));
    [value, limit].map(|field| field.map(|(amount, is_time)| Field { amount, is_time }))
}
