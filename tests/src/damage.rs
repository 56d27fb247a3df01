//! Edits of an encoded table, each small and most of them harmful.

use crate::format::*;
use crate::rng::Rng;
use crate::trees::Tree;

pub fn records(table: &[u8]) -> usize {
    table.len() / RECORD_BYTES
}

pub fn random_record(rng: &mut Rng, table: &[u8]) -> usize {
    rng.index(records(table))
}

/// One small edit of any kind, most of them harmful.
pub fn any(rng: &mut Rng, table: &mut Vec<u8>) {
    match rng.index(6) {
        0 => {
            let record = random_record(rng, table);
            random_edit(rng).apply(table, record);
        }
        1 => flip_bits(rng, table, 1),
        2 => swap_records(rng, table),
        3 => duplicate_record(rng, table),
        4 => remove_record(rng, table),
        _ => {
            let length = rng.size(0..=table.len() + 30);
            table.resize(length, 0);
        }
    }
}

/// One field of a record set to a number.
#[derive(Clone, Copy, Debug)]
pub enum Edit {
    Kind(u8),
    Flags(u8),
    Children(u8),
    Names(u8),
    Limit(u32),
    Value(u64),
    Address(u32),
    /// A byte of those behind the address, counted from 0.
    Filler(usize, u8),
}

impl Edit {
    pub fn apply(self, table: &mut [u8], record: usize) {
        let at = record * RECORD_BYTES;
        let record = &mut table[at..at + RECORD_BYTES];
        match self {
            Edit::Kind(kind) => record[0] = kind,
            Edit::Flags(flags) => record[1] = flags,
            Edit::Children(children) => record[2] = children,
            Edit::Names(names) => record[3] = names,
            Edit::Limit(limit) => record[4..8].copy_from_slice(&limit.to_le_bytes()),
            Edit::Value(value) => record[8..16].copy_from_slice(&value.to_le_bytes()),
            Edit::Address(address) => record[16..20].copy_from_slice(&address.to_le_bytes()),
            Edit::Filler(byte, filler) => record[20 + byte] = filler,
        }
    }
}

pub const KINDS: [u8; 6] = [0, 1, 2, 3, 4, 255];
pub const FLAGS: [u8; 13] = [0, 1, 2, 3, 4, 5, 6, 7, 8, 10, 14, 128, 255];
pub const CHILDREN: [u8; 6] = [0, 1, 2, 3, 254, 255];
pub const NAMES: [u8; 12] = [0, 1, 2, 3, 4, 5, 6, 7, 8, 9, 254, 255];

/// The ends of the limit's ranges, and numbers whose low bytes alone would be in range.
pub const LIMITS: [u32; 13] = [
    0,
    1,
    15,
    16,
    31,
    32,
    256,
    65_536,
    999_999,
    1_000_000,
    1_000_001,
    1 << 24,
    u32::MAX,
];

/// The ends of the value's ranges, and numbers whose low bytes alone would be in range.
pub const VALUES: [u64; 25] = [
    0,
    1,
    15,
    16,
    23,
    24,
    31,
    32,
    39,
    40,
    256,
    256 + 16,
    999_999,
    1_000_000,
    1_000_001,
    1 << 32,
    (1 << 32) + 16,
    999_999_999_999,
    1_000_000_000_000,
    1_000_000_000_001,
    1 << 40,
    1 << 48,
    1 << 56,
    1 << 63,
    u64::MAX,
];

/// Any number is an address: both ends, and one in each byte.
pub const ADDRESSES: [u32; 6] = [0, 1, 1 << 8, 1 << 16, 1 << 24, u32::MAX];

/// What may not stand behind an address, and at last what may.
pub const FILLERS: [u8; 5] = [0, 1, 127, 254, 255];

/// Each field at and just past each of its ends.
pub fn field_ends() -> Vec<Edit> {
    let mut edits = Vec::new();
    edits.extend(KINDS.map(Edit::Kind));
    edits.extend(FLAGS.map(Edit::Flags));
    edits.extend(CHILDREN.map(Edit::Children));
    edits.extend(NAMES.map(Edit::Names));
    edits.extend(LIMITS.map(Edit::Limit));
    edits.extend(VALUES.map(Edit::Value));
    edits.extend(ADDRESSES.map(Edit::Address));
    for byte in 0..FILLER.len() {
        edits.extend(FILLERS.map(|filler| Edit::Filler(byte, filler)));
    }
    edits
}

/// Flags decide how a value or limit is read, and byte 3 whether there is a limit: these fields at
/// their ends together.
pub fn joined_ends() -> Vec<Vec<Edit>> {
    let mut edits = Vec::new();
    for flags in [0, 1, 2, 3, 4, 5, 6, 7, 8].map(Edit::Flags) {
        for value in VALUES.map(Edit::Value) {
            edits.push(vec![flags, value]);
        }
        for names in [0, 1, 255].map(Edit::Names) {
            for limit in LIMITS.map(Edit::Limit) {
                edits.push(vec![flags, names, limit]);
            }
        }
    }
    edits
}

pub fn random_edit(rng: &mut Rng) -> Edit {
    match rng.index(8) {
        0 => Edit::Kind(rng.pick(&KINDS)),
        1 => Edit::Flags(rng.pick(&FLAGS)),
        2 => Edit::Children(rng.pick(&CHILDREN)),
        3 => Edit::Names(rng.pick(&NAMES)),
        4 => Edit::Limit(rng.pick(&LIMITS)),
        5 => Edit::Value(rng.pick(&VALUES)),
        6 => Edit::Address(rng.pick(&ADDRESSES)),
        _ => Edit::Filler(rng.index(FILLER.len()), rng.pick(&FILLERS)),
    }
}

pub fn swap_records(rng: &mut Rng, table: &mut [u8]) {
    let first = random_record(rng, table) * RECORD_BYTES;
    let second = random_record(rng, table) * RECORD_BYTES;
    for byte in 0..RECORD_BYTES {
        table.swap(first + byte, second + byte);
    }
}

pub fn duplicate_record(rng: &mut Rng, table: &mut Vec<u8>) {
    let from = random_record(rng, table) * RECORD_BYTES;
    let to = rng.size(0..=records(table)) * RECORD_BYTES;
    let record = table[from..from + RECORD_BYTES].to_vec();
    table.splice(to..to, record);
}

pub fn remove_record(rng: &mut Rng, table: &mut Vec<u8>) {
    let at = random_record(rng, table) * RECORD_BYTES;
    table.drain(at..at + RECORD_BYTES);
}

pub fn drop_records(table: &mut Vec<u8>, records: usize) {
    table.truncate(table.len().saturating_sub(records * RECORD_BYTES));
}

/// Adds blocks of time 0 at the end.
pub fn add_blocks(table: &mut Vec<u8>, blocks: usize) {
    table.extend(Tree::block(0).encode().repeat(blocks));
}

pub fn flip_bits(rng: &mut Rng, table: &mut [u8], bits: usize) {
    for _ in 0..bits {
        let byte = rng.index(table.len());
        table[byte] ^= 1 << rng.index(8);
    }
}
