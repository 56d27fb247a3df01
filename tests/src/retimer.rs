//! The second previewer and committer: CR 9 of document 02, written apart from the library and in its own
//! way. The tree is read and walked to the record, and the new tree is quoted or encoded whole. They are
//! plain Rust, fast enough to be measured against the library.

use crate::evaluator::{evaluate, Quoted};
use crate::format::MOST_TIME;
use crate::reader;
use crate::trees::{Amount, Kind, Tree};

/// A block's time to be changed.
#[derive(Clone, Copy, Debug, PartialEq, Eq)]
pub struct Retiming {
    /// The block's record, counted from 0.
    pub record: u64,
    pub old: u64,
    pub new: u64,
}

impl Retiming {
    /// What takes it back.
    pub fn back(self) -> Self {
        Retiming {
            old: self.new,
            new: self.old,
            ..self
        }
    }
}

/// What preview answers.
#[derive(Clone, Copy, Debug, PartialEq, Eq)]
pub struct Previewed {
    pub before: Quoted,
    pub after: Quoted,
}

/// Previewing: questions 1 to 7 and 17, then 9, 13, 14 and 10 for the old tree and for the new, then the
/// figures and branches of both.
pub fn preview(table: &[u8], retiming: Retiming, values: &[u64]) -> Result<Previewed, u64> {
    let old = reader::check(table)?;
    let mut new = old.clone();
    retime(&mut new, retiming)?;
    let before = evaluate(&old, values)?.quoted();
    let after = evaluate(&new, values)?.quoted();
    Ok(Previewed { before, after })
}

/// Committing: questions 1 to 7 and 17, then the bytes that the lent table has.
pub fn commit(table: &[u8], retiming: Retiming) -> Result<Vec<u8>, u64> {
    let mut tree = reader::check(table)?;
    retime(&mut tree, retiming)?;
    Ok(tree.encode())
}

/// Question 17: is there a plain-time block with that old time, and is the new time in range? Then the
/// block has the new one.
fn retime(tree: &mut Tree, retiming: Retiming) -> Result<(), u64> {
    let Retiming { record, old, new } = retiming;
    let mut records = 0..;
    let mut found = false;
    tree.visit_mut(&mut |node| {
        let is_there = records.next() == Some(record);
        if is_there && node.kind == Kind::Block(Amount::Plain(old)) {
            node.kind = Kind::Block(Amount::Plain(new));
            found = true;
        }
    });
    if found && new <= MOST_TIME {
        Ok(())
    } else {
        Err(17)
    }
}
