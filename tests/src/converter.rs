//! The second converter: what CR 6 of document 02 says of the small program, written apart from the
//! library.

use crate::format::FILLER;

/// The table of a former one, every record of 16 bytes with address 0 behind it; none where the length
/// fails the former question 1, a multiple of 16 from 16 to 8,192.
pub fn converted(old: &[u8]) -> Option<Vec<u8>> {
    let has_length = matches!(old.len(), 16..=8_192) && old.len().is_multiple_of(16);
    let renew = |record: &[u8]| [record, &[0; 4], &FILLER].concat();
    has_length.then(|| old.chunks(16).flat_map(renew).collect())
}
