//! Tables record by record, whatever their fields hold, from plain literals.

/// Kind, flags, children, byte 3, limit, value. The address is 0.
pub type Record = (u8, u8, u8, u8, u32, u64);

pub const BLOCK: Record = (0, 0, 0, 0, 0, 7);
pub const LOOP: Record = (3, 0, 2, 0, 0, 3);

pub fn sequence(children: u8) -> Record {
    (1, 0, children, 0, 0, 0)
}

pub fn choice(children: u8) -> Record {
    (2, 0, children, 0, 0, 0)
}

/// A block with a limit of 1 and that byte 3.
pub fn limited(names: u8) -> Record {
    (0, 0, 0, names, 1, 7)
}

pub fn table(records: &[Record]) -> Vec<u8> {
    let mut table = Vec::new();
    for &(kind, flags, children, names, limit, value) in records {
        table.extend([kind, flags, children, names]);
        table.extend(limit.to_le_bytes());
        table.extend(value.to_le_bytes());
        table.extend([0, 0, 0, 0, 255, 255, 255, 255]);
    }
    table
}

// A record's bytes.

/// A block of symbol 16.
pub const X: [u8; 24] = record([0, 1, 0, 0, 0, 0, 0, 0, 16, 0, 0, 0, 0, 0, 0, 0]);
pub const SEVEN: [u8; 24] = record([0, 0, 0, 0, 0, 0, 0, 0, 7, 0, 0, 0, 0, 0, 0, 0]);
pub const ZERO: [u8; 24] = record([0; 16]);

/// The record with these bytes at its front, at address 0.
pub const fn record(fields: [u8; 16]) -> [u8; 24] {
    let mut record = [255; 24];
    let mut at = 0;
    while at < 20 {
        record[at] = if at < 16 { fields[at] } else { 0 };
        at += 1;
    }
    record
}
