//! Marks: which fields of a tree had the symbol that was filled. They are read here to be counted and for hints; what they open is the
//! library's to say.

/// A field of a record that may hold a symbol.
#[derive(Clone, Copy, Debug, PartialEq, Eq)]
pub enum Field {
    Value,
    Limit,
}

const FIELDS: [Field; 2] = [Field::Value, Field::Limit];
const RECORDS_A_BYTE: usize = 4;

/// The marked fields, each with its record, in order.
pub fn marked(marks: &[u8]) -> impl Iterator<Item = (usize, Field)> + '_ {
    let records = 0..RECORDS_A_BYTE * marks.len();
    let fields = records.flat_map(|record| FIELDS.map(|field| (record, field)));
    fields.filter(|&(record, field)| {
        let bit = FIELDS.len() * (record % RECORDS_A_BYTE) + field as usize;
        marks[record / RECORDS_A_BYTE] >> bit & 1 == 1
    })
}
