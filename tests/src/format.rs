//! The numbers of the tree table, document 01's and those that document 02 adds. The hand-written
//! tests use plain literals instead, so that a slip here shows.

use std::ops::RangeInclusive;

pub const RECORD_BYTES: usize = 24;
/// The bytes of a record before its address, which was all of it in a former table.
pub const FORMER_RECORD_BYTES: usize = 16;
/// The bytes of a record behind its address.
pub const FILLER: [u8; 4] = [255; 4];
pub const MOST_RECORDS: usize = 512;

pub const BLOCK: u8 = 0;
pub const SEQUENCE: u8 = 1;
pub const CHOICE: u8 = 2;
pub const LOOP: u8 = 3;

pub const VALUE_IS_SYMBOL: u8 = 1;
pub const LIMIT_IS_SYMBOL: u8 = 2;
/// The limit is the triangular number of its symbol. This flag stands beside the one before alone.
pub const LIMIT_IS_TRIANGULAR: u8 = 4;

pub const MOST_CHILDREN: usize = 255;
pub const LOOP_CHILDREN: usize = 2;

pub const NO_LIMIT: u8 = 0;
pub const WHOLE_RUN: u8 = 255;

/// The ceiling of bounds and limits.
pub const MOST_COUNT: u64 = 1_000_000;
pub const MOST_TIME: u64 = 1_000_000_000_000;
pub const COUNT_SYMBOLS: RangeInclusive<u64> = 0..=15;
pub const TIME_SYMBOLS: RangeInclusive<u64> = 16..=31;
/// The time symbols that have one value.
pub const SINGLE_SYMBOLS: RangeInclusive<u64> = 16..=23;
/// The time symbols that have two, the first at the symbol's own number and the later one behind it.
pub const PAIRED_SYMBOLS: RangeInclusive<u64> = 24..=31;
/// How far behind the first value the later one stands.
pub const LATER: usize = 8;

/// The ceiling of a value whose triangular number is a limit.
pub const MOST_TRIANGULAR: u64 = 1_000;

pub const MOST_DEPTH: usize = 32;
pub const MOST_LOOPS: usize = 8;
pub const MOST_WEIGHT: u64 = 255;

/// The bytes of a filling's marks: two bits for each record of the longest table.
pub const MARK_BYTES: usize = 128;

/// The branch of a figure whose root is no choice: no child has this number.
pub const NO_BRANCH: u64 = 255;

/// How many values a quoting call wants: one for each symbol, then the later ones.
pub const VALUES: usize = 40;
/// How many it wanted before there were later ones.
pub const FORMER_VALUES: usize = 32;
/// The numbers of 64 bits that a list's buffer must have room for.
pub const LIST_ROOM: usize = 512;
