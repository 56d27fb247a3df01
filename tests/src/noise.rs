//! Tables that are no tree's encoding, from raw bytes to records that only lack a common plan.

use crate::format::*;
use crate::rng::Rng;

/// Longer than any table that question 1 lets through.
const LONGEST: usize = 13_500;

/// Every kind, those the more often that get furthest.
pub const KINDS: [fn(&mut Rng) -> Vec<u8>; 7] = [
    bytes,
    whole_records,
    small_bytes,
    good_records,
    first_tree,
    first_tree,
    first_tree,
];

pub fn bytes(rng: &mut Rng) -> Vec<u8> {
    let length = rng.size(0..=LONGEST);
    (0..length).map(|_| rng.byte()).collect()
}

/// Raw bytes of some whole records, often a single one, as a rule with the right bytes behind their
/// addresses, so that question 2 lets some through.
pub fn whole_records(rng: &mut Rng) -> Vec<u8> {
    let most = rng.pick(&[1, 4, LONGEST / RECORD_BYTES]);
    let length = rng.size(0..=most) * RECORD_BYTES;
    let bytes = (0..length).map(|_| rng.byte()).collect();
    often_filled(rng, bytes)
}

/// The table with the right bytes behind its addresses, and at times as it was.
fn often_filled(rng: &mut Rng, mut table: Vec<u8>) -> Vec<u8> {
    if !rng.once_in(8) {
        for record in table.chunks_exact_mut(RECORD_BYTES) {
            record[20..].copy_from_slice(&FILLER);
        }
    }
    table
}

/// Mostly zeros, the rest small, but for what is behind the addresses as a rule.
pub fn small_bytes(rng: &mut Rng) -> Vec<u8> {
    let most = rng.pick(&[3, 8, 40]);
    let length = rng.size(1..=most) * RECORD_BYTES;
    let zeros = rng.within(4..=40);
    let bytes = (0..length).map(|_| small_byte(rng, zeros)).collect();
    often_filled(rng, bytes)
}

fn small_byte(rng: &mut Rng, zeros: u64) -> u8 {
    if rng.once_in(zeros) {
        rng.within(1..=7) as u8
    } else {
        0
    }
}

/// Some number of records that questions 2 and 3 accept.
pub fn good_records(rng: &mut Rng) -> Vec<u8> {
    let most = rng.pick(&[3, 10, 100, MOST_RECORDS]);
    let mix = Mix::new(rng);
    let records = rng.size(1..=most);
    (0..records).flat_map(|_| good_record(rng, &mix)).collect()
}

/// Records that questions 2 and 3 accept, up to where the first tree ends or the table is full.
pub fn first_tree(rng: &mut Rng) -> Vec<u8> {
    let mix = Mix::new(rng);
    let mut table = Vec::new();
    let mut missing = 1;
    while missing > 0 && table.len() < MOST_RECORDS * RECORD_BYTES {
        let record = good_record(rng, &mix);
        missing = missing - 1 + usize::from(record[2]);
        table.extend(record);
    }
    table
}

/// What the records of one table are like.
struct Mix {
    /// Blocks in a hundred records.
    blocks: u64,
    /// One record in so many has a limit.
    limits: u64,
    /// One limit in so many names a loop.
    named: u64,
}

impl Mix {
    fn new(rng: &mut Rng) -> Self {
        Mix {
            blocks: rng.within(40..=60),
            limits: rng.within(1..=20),
            named: rng.within(1..=20),
        }
    }
}

/// A record that questions 2 and 3 accept.
fn good_record(rng: &mut Rng, mix: &Mix) -> [u8; RECORD_BYTES] {
    let mut record = [0; RECORD_BYTES];
    let kind = if rng.within(1..=100) <= mix.blocks {
        BLOCK
    } else {
        rng.pick(&[SEQUENCE, CHOICE, LOOP, LOOP])
    };
    let (children, value) = match kind {
        BLOCK => (0, rng.pick(&[0, 16, 23, 24])),
        LOOP => (LOOP_CHILDREN as u8, rng.pick(&[0, 15])),
        _ => (rng.pick(&[1, 1, 2, 3]), 0),
    };
    record[0] = kind;
    record[1] = flag(rng, VALUE_IS_SYMBOL, value > 0);
    record[2] = children;
    record[8] = value;
    if rng.once_in(mix.limits) {
        record[1] |= rng.pick(&[0, LIMIT_IS_SYMBOL, LIMIT_IS_SYMBOL | LIMIT_IS_TRIANGULAR]);
        record[3] = names(rng, mix);
        record[4] = rng.within(COUNT_SYMBOLS) as u8;
    }
    let address = rng.number() as u32;
    record[16..20].copy_from_slice(&address.to_le_bytes());
    record[20..].copy_from_slice(&FILLER);
    record
}

/// Byte 3 of a limit. The innermost loops are the likeliest to be there.
fn names(rng: &mut Rng, mix: &Mix) -> u8 {
    if rng.once_in(mix.named) {
        rng.pick(&[1, 1, 1, 2, 2, 3, 4, 5, 6, 7, 8])
    } else {
        WHOLE_RUN
    }
}

fn flag(rng: &mut Rng, flag: u8, allowed: bool) -> u8 {
    if allowed && rng.once_in(2) {
        flag
    } else {
        0
    }
}
