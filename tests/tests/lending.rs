//! What callers may lend: null pointers to nothing, and the same bytes to many threads.

use std::ptr::{null, null_mut};
use std::thread;

use volefleece::raw;
use volefleece_tests::programs::{sample, TREE, VALUES};
use volefleece_tests::tables::*;

const ZEROS: [u64; 40] = [0; 40];

/// A null pointer in the place of the table, of the values and of the buffer, alone and together.
#[test]
fn null_with_length_0_lends_nothing() {
    let (no_table, no_values) = ((null(), 0), (null(), 0));
    let table = block(7);
    let one = (table.as_ptr(), table.len());
    let zeros = (ZEROS.as_ptr(), ZEROS.len());

    // SAFETY: null pointers are lent with length 0, the others with their slices' lengths.
    unsafe {
        assert_eq!(raw::vf_check(no_table.0, no_table.1).refused, 1);

        for ((table, table_len), (values, values_len), refused) in [
            (no_table, no_values, 1),
            (no_table, zeros, 1),
            (one, no_values, 9),
            (one, zeros, 0),
        ] {
            let answer = raw::vf_figure(table, table_len, values, values_len);
            assert_eq!(answer.refused, refused);
            let mut list = [5; 512];
            let room = (list.as_mut_ptr(), list.len());
            for ((out, out_len), room_refused) in [((null_mut(), 0), 8), (room, refused)] {
                let answer = raw::vf_list(table, table_len, values, values_len, out, out_len);
                assert_eq!(answer.refused, if refused == 1 { 1 } else { room_refused });
            }
        }
    }
}

#[test]
fn null_with_length_0_lends_nothing_to_write_to() {
    let no_table = (null(), 0);
    let table = block(7);
    let one = (table.as_ptr(), table.len());
    let former = [0; 16];
    let mut buffer = [5; 12_288];
    let room = (buffer.as_mut_ptr(), buffer.len());

    // SAFETY: as above.
    unsafe {
        for (out, out_len, refused) in [(null_mut(), 0, 8), (room.0, room.1, 0)] {
            let simplify = |(table, len)| raw::vf_simplify(table, len, 5, out, out_len).refused;
            assert_eq!(simplify(no_table), 1);
            assert_eq!(simplify(one), refused);
            let graft = |(host, host_len), (sent, sent_len)| {
                raw::vf_graft(host, host_len, sent, sent_len, 20, out, out_len).refused
            };
            assert_eq!(graft(no_table, no_table), 1);
            assert_eq!(graft(no_table, one), 1);
            assert_eq!(graft(one, no_table), 1);
            assert_eq!(graft(one, one), refused);
            let convert = |(old, len)| raw::vf_convert(old, len, out, out_len).refused;
            assert_eq!(convert(no_table), 1);
            assert_eq!(convert((former.as_ptr(), former.len())), refused);
        }
    }
}

/// The same of filling, which writes to two buffers, and of opening, which reads what the second then holds.
#[test]
fn null_with_length_0_lends_no_marks() {
    let no_table = (null(), 0);
    let table = symbol_block(16);
    let one = (table.as_ptr(), table.len());
    let (mut buffer, mut marked) = ([5; 24], [5; 128]);
    let nowhere = (null_mut(), 0);
    let room = (buffer.as_mut_ptr(), buffer.len());
    let marks = (marked.as_mut_ptr(), marked.len());

    // SAFETY: as above.
    unsafe {
        for ((out, out_len), (marks, marks_len), refused) in [
            (nowhere, nowhere, 8),
            (nowhere, marks, 8),
            (room, nowhere, 8),
            (room, marks, 0),
        ] {
            let fill = |(table, len)| {
                raw::vf_fill(table, len, 16, 7, out, out_len, marks, marks_len).refused
            };
            assert_eq!(fill(no_table), 1);
            assert_eq!(fill(one), refused);
        }
        assert_eq!((buffer[8], marked[0]), (7, 1));

        let filled = buffer;
        let one = (filled.as_ptr(), filled.len());
        for ((out, out_len), (marks, marks_len), refused) in [
            (nowhere, (null(), 0), 8),
            (nowhere, (marked.as_ptr(), 128), 8),
            (room, (null(), 0), 16),
            (room, (marked.as_ptr(), 128), 0),
        ] {
            let open = |(table, len)| {
                raw::vf_open(table, len, marks, marks_len, 16, 7, out, out_len).refused
            };
            assert_eq!(open(no_table), 1);
            assert_eq!(open(one), refused);
        }
        assert_eq!(buffer[..], table);
    }
}

/// The same of previewing, and of committing, which writes to the table itself.
#[test]
fn null_with_length_0_lends_nothing_to_retime() {
    let mut table = block(7);
    let zeros = (ZEROS.as_ptr(), ZEROS.len());

    // SAFETY: as above.
    unsafe {
        let one = (table.as_mut_ptr(), table.len());
        for ((table, len), (values, values_len), refused) in [
            ((null_mut(), 0), (null(), 0), 1),
            ((null_mut(), 0), zeros, 1),
            (one, (null(), 0), 9),
            (one, zeros, 0),
        ] {
            let preview = |record, old| {
                raw::vf_preview(table, len, record, old, 9, values, values_len).refused
            };
            assert_eq!(preview(0, 7), refused);
            let at_first = if refused == 1 { 1 } else { 17 };
            assert_eq!(preview(0, 8), at_first);
            assert_eq!(preview(1, 7), at_first);
        }
        for (record, old) in [(0, 7), (0, 0), (u64::MAX, 7)] {
            let answer = raw::vf_commit(null_mut(), 0, record, old, 9);
            assert_eq!((answer.refused, answer.length), (1, 0));
        }
        let answer = raw::vf_commit(one.0, one.1, 0, 7, 9);
        assert_eq!((answer.refused, answer.length), (0, 24));
    }
    assert_eq!(table, block(9));
}

/// Eight threads read the same tables and values, each with a buffer of its own.
#[test]
fn threads_may_call_at_once() {
    let tree = sample("workshop", TREE);
    let file = sample("workshop", VALUES);
    let mut numbers = [0; 40];
    for (number, &bytes) in numbers.iter_mut().zip(file.as_chunks().0) {
        *number = u64::from_le_bytes(bytes);
    }
    let sent = block(90_000);
    let former = [7; 8_192];
    let call_all = || {
        let mut list = [0; 512];
        let (mut simple, mut whole, mut made) = ([0; 12_288], [0; 12_288], [0; 12_288]);
        let (mut filled, mut opened, mut marks) = ([0; 12_288], [0; 12_288], [0; 128]);
        let mut retimed = tree.clone();
        let answers = (
            raw::check(&tree),
            raw::figure(&tree, &numbers),
            raw::list(&tree, &numbers, &mut list),
            raw::simplify(&tree, u64::MAX, &mut simple),
            raw::graft(&tree, &sent, 16, &mut whole),
            raw::fill(&tree, 0, 40, &mut filled, &mut marks),
            raw::open(&filled[..tree.len()], &marks, 0, 40, &mut opened),
            raw::preview(&tree, 8, 340, 400, &numbers),
            raw::commit(&mut retimed, 8, 340, 400),
            raw::convert(&former, &mut made),
        );
        assert_eq!(opened[..tree.len()], tree);
        (answers, list, simple, whole, filled, marks, retimed, made)
    };
    let alone = call_all();
    let quoted = alone.0 .1;
    assert_eq!((quoted.figure, quoted.branch), (210_910, 255));
    let previewed = alone.0 .7;
    assert_eq!((previewed.before, previewed.after), (210_910, 213_310));
    thread::scope(|threads| {
        for _ in 0..8 {
            threads.spawn(|| (0..200).for_each(|_| assert!(call_all() == alone)));
        }
    });
}
