//! Safe calls of the proved volefleece library, which quotes the most processor cycles a battery door lock can stay awake for one opening.
//!
//! A table is 24-byte records and values are 40 numbers; docs/FORMAT.md has all of it. Each call answers what its contract in
//! crates/volefleece promises, or the first question that says no as a [`Refusal`]. A call wants less than 192 KiB of stack, as measured
//! (docs/BENCHMARKS.md).
//!
//! ```
//! /// A record without a limit, at address 0.
//! fn record(kind: u8, flags: u8, children: u8, value: u8) -> [u8; volefleece::RECORD_BYTES] {
//!     let mut record = [0; volefleece::RECORD_BYTES];
//!     (record[0], record[1], record[2], record[8]) = (kind, flags, children, value);
//!     record[20..].fill(255);
//!     record
//! }
//!
//! // A choice of two blocks: 7 cycles, and symbol 16.
//! let table = [record(2, 0, 2, 0), record(0, 0, 0, 7), record(0, 1, 0, 16)].concat();
//! let mut values = [0; volefleece::VALUES];
//! values[16] = 90;
//!
//! let quote = volefleece::figure(&table, &values)?;
//! assert_eq!(quote.figure, 90);
//! assert_eq!(quote.branch, Some(1));
//! # Ok::<(), volefleece::Refusal>(())
//! ```

#![warn(missing_docs)]

mod refusal;

#[allow(missing_docs)]
pub mod raw;

pub use refusal::{FormerLength, Refusal};

/// The bytes of a record.
pub const RECORD_BYTES: usize = 24;
/// The bytes of the longest table.
pub const MOST_TABLE: usize = 12_288;
/// How many symbols there are.
pub const SYMBOLS: usize = 32;
/// How many values a quoting call wants: one for each symbol, then the later ones of the paired symbols.
pub const VALUES: usize = 40;
/// The first symbol that stands for a time; those before it stand for counts, as bounds and limits.
pub const FIRST_TIME: usize = 16;
/// The first symbol that is paired: it and those after it have a first value, for the first pass of a block in a run, and a later one, for its
/// other passes.
pub const FIRST_PAIRED: usize = 24;
/// The largest count, which an absent one counts as.
pub const MOST_COUNT: u64 = 1_000_000;
/// The largest time, which an absent one counts as.
pub const MOST_TIME: u64 = 1_000_000_000_000;
/// The largest value whose triangular number may be a limit.
pub const MOST_TRIANGULAR: u64 = 1_000;

/// The bytes of marks: two bits for each record of the longest table.
pub const MARK_BYTES: usize = 128;

/// The numbers that a list's buffer has room for.
const LIST_ROOM: usize = 512;
/// The branch of a figure whose root is no choice.
const NO_BRANCH: u64 = 255;

/// The largest number that a value may be, of a symbol or, from 32 on, of a later value.
pub fn ceiling(value: usize) -> u64 {
    if value < FIRST_TIME {
        MOST_COUNT
    } else {
        MOST_TIME
    }
}

/// Which value is a symbol's later one, for the later passes of a block in a run: none unless it is paired.
///
/// ```
/// assert_eq!(volefleece::later(volefleece::FIRST_PAIRED), Some(volefleece::SYMBOLS));
/// assert_eq!(volefleece::later(16), None);
/// ```
pub fn later(symbol: usize) -> Option<usize> {
    let paired = (FIRST_PAIRED..SYMBOLS).contains(&symbol);
    paired.then(|| symbol + (SYMBOLS - FIRST_PAIRED))
}

/// What a table's tree costs under some values.
#[derive(Clone, Copy, Debug, PartialEq, Eq)]
pub struct Quote {
    /// The most cycles that one opening can take.
    pub figure: u64,
    /// The child of the root choice that sets the figure, the earliest of equal ones, counted from 0; none if the root is no choice.
    pub branch: Option<u8>,
}

/// Members of a list that have the same value.
#[derive(Clone, Copy, Debug, PartialEq, Eq)]
pub struct Members {
    /// Their value.
    pub value: u64,
    /// How many they are; none if they go on for ever.
    pub count: Option<u64>,
}

/// A simplified table.
#[derive(Clone, Debug, PartialEq, Eq)]
pub struct Simplified {
    /// The table after the steps.
    pub table: Vec<u8>,
    /// How many steps were taken.
    pub steps: u64,
    /// No rule fits the table; otherwise the allowance is used and one does.
    pub finished: bool,
}

/// A table with a number in place of a symbol.
#[derive(Clone, Debug, PartialEq, Eq)]
pub struct Filled {
    /// The table with the number.
    pub table: Vec<u8>,
    /// Which fields had the symbol: of each record in order two bits, the lowest first, for its value and for its limit.
    pub marks: [u8; MARK_BYTES],
}

/// What a new time of one block makes of a table's quote.
#[derive(Clone, Copy, Debug, PartialEq, Eq)]
pub struct Preview {
    /// The table's quote.
    pub before: Quote,
    /// The quote of the table with the new time, which [`commit`] would leave.
    pub after: Quote,
}

/// Puts questions 1 to 7 to a table, and answers how many records it has.
///
/// ```
/// let mut block = [0; volefleece::RECORD_BYTES];
/// assert_eq!(volefleece::check(&block), Err(volefleece::Refusal::Fields));
/// block[20..].fill(255);
/// assert_eq!(volefleece::check(&block), Ok(1));
/// ```
pub fn check(table: &[u8]) -> Result<usize, Refusal> {
    let answer = raw::check(table);
    accepted(answer.refused)?;
    Ok(length(answer.records))
}

/// Puts questions 1 to 7, 9, 13, 14 and 10, and answers the figure and the branch that sets it.
///
/// ```
/// let mut block = [0; volefleece::RECORD_BYTES];
/// block[8] = 7;
/// block[20..].fill(255);
/// let quote = volefleece::figure(&block, &[0; volefleece::VALUES])?;
/// assert_eq!((quote.figure, quote.branch), (7, None));
/// # Ok::<(), volefleece::Refusal>(())
/// ```
pub fn figure(table: &[u8], values: &[u64]) -> Result<Quote, Refusal> {
    let answer = raw::figure(table, values);
    accepted(answer.refused)?;
    Ok(quote(answer.figure, answer.branch))
}

/// Puts questions 1 to 7, 9, 13, 14 and 10, and answers the root's list: values falling, the last for ever.
///
/// ```
/// // A block of 7 cycles, which passes at most 3 times in a run.
/// let mut block = [0; volefleece::RECORD_BYTES];
/// (block[3], block[4], block[8]) = (255, 3, 7);
/// block[20..].fill(255);
/// let list = volefleece::list(&block, &[0; volefleece::VALUES])?;
/// let pairs: Vec<_> = list.iter().map(|members| (members.value, members.count)).collect();
/// assert_eq!(pairs, [(7, Some(3)), (0, None)]);
/// # Ok::<(), volefleece::Refusal>(())
/// ```
pub fn list(table: &[u8], values: &[u64]) -> Result<Vec<Members>, Refusal> {
    let mut room = [0; LIST_ROOM];
    let answer = raw::list(table, values, &mut room);
    accepted(answer.refused)?;
    let pairs = room.chunks_exact(2).take(length(answer.pairs));
    let members = pairs.map(|pair| Members {
        value: pair[0],
        count: (pair[1] != 0).then_some(pair[1]),
    });
    Ok(members.collect())
}

/// Puts questions 1 to 7, then 10 with every value 0, and answers what at most so many steps of simplification make of the table.
///
/// ```
/// // A sequence of two blocks, 5 and 4 cycles.
/// let mut records = [[0; volefleece::RECORD_BYTES]; 3];
/// (records[0][0], records[0][2], records[1][8], records[2][8]) = (1, 2, 5, 4);
/// records.iter_mut().for_each(|record| record[20..].fill(255));
/// let table = records.concat();
/// let simplified = volefleece::simplify(&table, u64::MAX)?;
/// assert_eq!(simplified.table[8], 9);
/// assert_eq!((simplified.steps, simplified.finished), (1, true));
/// # Ok::<(), volefleece::Refusal>(())
/// ```
pub fn simplify(table: &[u8], allowance: u64) -> Result<Simplified, Refusal> {
    let mut room = vec![0; table.len()];
    let answer = raw::simplify(table, allowance, &mut room);
    accepted(answer.refused)?;
    room.truncate(length(answer.length));
    Ok(Simplified {
        table: room,
        steps: answer.steps,
        finished: answer.finished == 1,
    })
}

/// Puts questions 1 to 7 to the host and then to the sent table, then 11 and 12, and answers the host with the sent table in place of
/// every block whose time is that symbol.
///
/// ```
/// let mut sent = [0; volefleece::RECORD_BYTES];
/// sent[20..].fill(255);
/// let mut host = sent;
/// (host[1], host[8]) = (1, 16);
/// let grafted = volefleece::graft(&host, &sent, 16)?;
/// assert_eq!(volefleece::check(&grafted), Ok(3));
/// # Ok::<(), volefleece::Refusal>(())
/// ```
pub fn graft(host: &[u8], sent: &[u8], symbol: u64) -> Result<Vec<u8>, Refusal> {
    let mut room = vec![0; MOST_TABLE];
    let answer = raw::graft(host, sent, symbol, &mut room);
    accepted(answer.refused)?;
    room.truncate(length(answer.length));
    Ok(room)
}

/// Puts questions 1 to 7 and 15, and answers the table with the plain number in every field that has the symbol.
///
/// ```
/// // A block whose time is symbol 16.
/// let mut block = [0; volefleece::RECORD_BYTES];
/// (block[1], block[8]) = (1, 16);
/// block[20..].fill(255);
/// let filled = volefleece::fill(&block, 16, 90)?;
/// assert_eq!((filled.table[1], filled.table[8], filled.marks[0]), (0, 90, 1));
/// assert_eq!(volefleece::open(&filled.table, &filled.marks, 16, 90)?, block);
/// # Ok::<(), volefleece::Refusal>(())
/// ```
pub fn fill(table: &[u8], symbol: u64, number: u64) -> Result<Filled, Refusal> {
    let mut room = vec![0; table.len()];
    let mut marks = [0; MARK_BYTES];
    let answer = raw::fill(table, symbol, number, &mut room, &mut marks);
    accepted(answer.refused)?;
    Ok(Filled { table: room, marks })
}

/// Puts questions 1 to 7, 15 and 16, and answers the table with the symbol in each marked field. Of a table and marks that [`fill`] answered
/// it is the table that was filled.
///
/// ```
/// // A block of 90 cycles; record 0's value is marked.
/// let mut block = [0; volefleece::RECORD_BYTES];
/// block[8] = 90;
/// block[20..].fill(255);
/// let mut marks = [0; volefleece::MARK_BYTES];
/// marks[0] = 1;
/// let opened = volefleece::open(&block, &marks, 16, 90)?;
/// assert_eq!((opened[1], opened[8]), (1, 16));
/// assert_eq!(volefleece::open(&block, &marks, 16, 91), Err(volefleece::Refusal::Marks));
/// # Ok::<(), volefleece::Refusal>(())
/// ```
pub fn open(table: &[u8], marks: &[u8], symbol: u64, number: u64) -> Result<Vec<u8>, Refusal> {
    let mut room = vec![0; table.len()];
    let answer = raw::open(table, marks, symbol, number, &mut room);
    accepted(answer.refused)?;
    Ok(room)
}

/// Puts questions 1 to 7 and 17, then those of [`figure`] to the table and to the one with the new time, and answers both quotes. The block is
/// the record of that number, counted from 0, and its time must be the old one. Nothing changes.
///
/// ```
/// // A block of 7 cycles.
/// let mut block = [0; volefleece::RECORD_BYTES];
/// block[8] = 7;
/// block[20..].fill(255);
/// let values = [0; volefleece::VALUES];
/// let preview = volefleece::preview(&block, 0, 7, 9, &values)?;
/// assert_eq!((preview.before.figure, preview.after.figure), (7, 9));
/// let stale = volefleece::preview(&block, 0, 8, 9, &values);
/// assert_eq!(stale, Err(volefleece::Refusal::RetimedBlock));
/// # Ok::<(), volefleece::Refusal>(())
/// ```
pub fn preview(
    table: &[u8],
    record: u64,
    old: u64,
    new: u64,
    values: &[u64],
) -> Result<Preview, Refusal> {
    let answer = raw::preview(table, record, old, new, values);
    accepted(answer.refused)?;
    Ok(Preview {
        before: quote(answer.before, answer.branch_before),
        after: quote(answer.after, answer.branch_after),
    })
}

/// Puts questions 1 to 7 and 17, and writes the new time into the table, where the block at that record still has the old one. No other byte
/// changes, and none where it is refused; committing back restores the table.
///
/// ```
/// // A block of 7 cycles.
/// let mut block = [0; volefleece::RECORD_BYTES];
/// block[8] = 7;
/// block[20..].fill(255);
/// volefleece::commit(&mut block, 0, 7, 9)?;
/// assert_eq!(block[8], 9);
/// assert_eq!(volefleece::commit(&mut block, 0, 7, 9), Err(volefleece::Refusal::RetimedBlock));
/// # Ok::<(), volefleece::Refusal>(())
/// ```
pub fn commit(table: &mut [u8], record: u64, old: u64, new: u64) -> Result<(), Refusal> {
    accepted(raw::commit(table, record, old, new).refused)
}

/// Puts question 1 as it was for former tables, whose records had 16 bytes, and answers the former table's records with address 0.
///
/// ```
/// // A block of 7 cycles.
/// let mut old = [0; 16];
/// old[8] = 7;
/// let table = volefleece::convert(&old)?;
/// assert_eq!(volefleece::check(&table), Ok(1));
/// assert_eq!(volefleece::figure(&table, &[0; volefleece::VALUES]).unwrap().figure, 7);
/// # Ok::<(), volefleece::FormerLength>(())
/// ```
pub fn convert(old: &[u8]) -> Result<Vec<u8>, FormerLength> {
    let mut room = vec![0; MOST_TABLE];
    let answer = raw::convert(old, &mut room);
    // With room for the longest table it refuses for the length alone.
    if answer.refused != 0 {
        return Err(FormerLength);
    }
    room.truncate(length(answer.length));
    Ok(room)
}

/// A figure with its branch as the library answers it.
fn quote(figure: u64, branch: u64) -> Quote {
    let branch = (branch != NO_BRANCH).then_some(branch as u8);
    Quote { figure, branch }
}

/// Whether a call was not refused. That it refuses by no other number is proved.
fn accepted(refused: u64) -> Result<(), Refusal> {
    match refused {
        0 => Ok(()),
        number => Err(Refusal::from_number(number).expect("a question's number")),
    }
}

fn length(number: u64) -> usize {
    usize::try_from(number).expect("no longer than what was lent")
}
