//! The calls as C has them: what `include/volefleece.h` declares, and each call on slices, with its numbers as they are. Nothing checks
//! these declarations against their source, so they stay few and plain.

/// The answer of `vf_check`.
#[repr(C)]
#[derive(Clone, Copy, Debug, PartialEq, Eq)]
pub struct Checked {
    /// The number of the first question answered "no", or 0.
    pub refused: u64,
    /// The number of records of an accepted table, or 0.
    pub records: u64,
}

impl Checked {
    pub fn accept(records: usize) -> Self {
        Checked {
            refused: 0,
            records: records as u64,
        }
    }

    pub fn refuse(question: u64) -> Self {
        Checked {
            refused: question,
            records: 0,
        }
    }
}

/// The answer of `vf_figure`.
#[repr(C)]
#[derive(Clone, Copy, Debug, PartialEq, Eq)]
pub struct Figure {
    /// The number of the first question answered "no", or 0.
    pub refused: u64,
    /// The figure, or 0 with a refusal.
    pub figure: u64,
    /// The root choice's child that sets the figure, counted from 0, 255 if the root is no choice, or 0 with a refusal.
    pub branch: u64,
}

/// The answer of `vf_list`.
#[repr(C)]
#[derive(Clone, Copy, Debug, PartialEq, Eq)]
pub struct Listed {
    /// The number of the first question answered "no", or 0.
    pub refused: u64,
    /// How many pairs were written, or 0 with a refusal.
    pub pairs: u64,
}

/// The answer of `vf_simplify`.
#[repr(C)]
#[derive(Clone, Copy, Debug, PartialEq, Eq)]
pub struct Simplified {
    /// The number of the first question answered "no", or 0.
    pub refused: u64,
    /// How many bytes the written table has, or 0 with a refusal.
    pub length: u64,
    /// How many steps were taken, or 0 with a refusal.
    pub steps: u64,
    /// 1 if no rule fits the written table, 0 if one does, and 0 with a refusal.
    pub finished: u64,
}

/// The answer of `vf_graft`.
#[repr(C)]
#[derive(Clone, Copy, Debug, PartialEq, Eq)]
pub struct Grafted {
    /// The number of the first question answered "no", or 0.
    pub refused: u64,
    /// How many bytes the written table has, or 0 with a refusal.
    pub length: u64,
}

/// The answer of `vf_fill`.
#[repr(C)]
#[derive(Clone, Copy, Debug, PartialEq, Eq)]
pub struct Filled {
    /// The number of the first question answered "no", or 0.
    pub refused: u64,
    /// How many bytes the written table has, or 0 with a refusal.
    pub length: u64,
}

/// The answer of `vf_open`.
#[repr(C)]
#[derive(Clone, Copy, Debug, PartialEq, Eq)]
pub struct Opened {
    /// The number of the first question answered "no", or 0.
    pub refused: u64,
    /// How many bytes the written table has, or 0 with a refusal.
    pub length: u64,
}

/// The answer of `vf_preview`.
#[repr(C)]
#[derive(Clone, Copy, Debug, PartialEq, Eq)]
pub struct Previewed {
    /// The number of the first question answered "no", or 0.
    pub refused: u64,
    /// The table's figure, or 0 with a refusal.
    pub before: u64,
    /// Its branch, as `vf_figure` answers it, or 0 with a refusal.
    pub branch_before: u64,
    /// The figure of the table that `vf_commit` would leave, or 0 with a refusal.
    pub after: u64,
    /// Its branch, or 0 with a refusal.
    pub branch_after: u64,
}

/// The answer of `vf_commit`.
#[repr(C)]
#[derive(Clone, Copy, Debug, PartialEq, Eq)]
pub struct Committed {
    /// The number of the first question answered "no", or 0.
    pub refused: u64,
    /// How many bytes the table has, or 0 with a refusal.
    pub length: u64,
}

/// The answer of `vf_convert`.
#[repr(C)]
#[derive(Clone, Copy, Debug, PartialEq, Eq)]
pub struct Converted {
    /// The number of the first question answered "no", or 0.
    pub refused: u64,
    /// How many bytes the written table has, or 0 with a refusal.
    pub length: u64,
}

extern "C" {
    pub fn vf_check(table: *const u8, table_len: usize) -> Checked;

    pub fn vf_figure(
        table: *const u8,
        table_len: usize,
        values: *const u64,
        values_len: usize,
    ) -> Figure;

    pub fn vf_list(
        table: *const u8,
        table_len: usize,
        values: *const u64,
        values_len: usize,
        out: *mut u64,
        out_len: usize,
    ) -> Listed;

    pub fn vf_simplify(
        table: *const u8,
        table_len: usize,
        allowance: u64,
        out: *mut u8,
        out_len: usize,
    ) -> Simplified;

    pub fn vf_graft(
        host: *const u8,
        host_len: usize,
        sent: *const u8,
        sent_len: usize,
        symbol: u64,
        out: *mut u8,
        out_len: usize,
    ) -> Grafted;

    pub fn vf_fill(
        table: *const u8,
        table_len: usize,
        symbol: u64,
        number: u64,
        out: *mut u8,
        out_len: usize,
        marks: *mut u8,
        marks_len: usize,
    ) -> Filled;

    pub fn vf_open(
        table: *const u8,
        table_len: usize,
        marks: *const u8,
        marks_len: usize,
        symbol: u64,
        number: u64,
        out: *mut u8,
        out_len: usize,
    ) -> Opened;

    pub fn vf_preview(
        table: *const u8,
        table_len: usize,
        record: u64,
        old_time: u64,
        new_time: u64,
        values: *const u64,
        values_len: usize,
    ) -> Previewed;

    pub fn vf_commit(
        table: *mut u8,
        table_len: usize,
        record: u64,
        old_time: u64,
        new_time: u64,
    ) -> Committed;

    pub fn vf_convert(
        old_table: *const u8,
        old_len: usize,
        out: *mut u8,
        out_len: usize,
    ) -> Converted;
}

/// Puts questions 1 to 7 to a table.
pub fn check(table: &[u8]) -> Checked {
    // SAFETY: the pointer and the length are those of a live slice, which the call only reads.
    unsafe { vf_check(table.as_ptr(), table.len()) }
}

/// Puts questions 1 to 7, 9, 13, 14 and 10 and answers the figure and its branch.
pub fn figure(table: &[u8], values: &[u64]) -> Figure {
    // SAFETY: the pointers and lengths are those of live slices, which the call only reads.
    unsafe { vf_figure(table.as_ptr(), table.len(), values.as_ptr(), values.len()) }
}

/// Puts questions 1 to 9, 13, 14 and 10 and writes the root's list.
pub fn list(table: &[u8], values: &[u64], out: &mut [u64]) -> Listed {
    // SAFETY: the pointers and lengths are those of live slices, and only the one that is lent mutably is written.
    unsafe {
        vf_list(
            table.as_ptr(),
            table.len(),
            values.as_ptr(),
            values.len(),
            out.as_mut_ptr(),
            out.len(),
        )
    }
}

/// Puts questions 1 to 8, then 10 with every value 0, and writes what at most so many steps make of the table.
pub fn simplify(table: &[u8], allowance: u64, out: &mut [u8]) -> Simplified {
    // SAFETY: the pointers and lengths are those of live slices, and only the one that is lent mutably is written.
    unsafe {
        vf_simplify(
            table.as_ptr(),
            table.len(),
            allowance,
            out.as_mut_ptr(),
            out.len(),
        )
    }
}

/// Puts questions 1 to 7 to the host and then to the sent table, then 11, 12 and 8, and writes the host with the sent table in place of
/// the symbol.
pub fn graft(host: &[u8], sent: &[u8], symbol: u64, out: &mut [u8]) -> Grafted {
    // SAFETY: the pointers and lengths are those of live slices, and only the one that is lent mutably is written.
    unsafe {
        vf_graft(
            host.as_ptr(),
            host.len(),
            sent.as_ptr(),
            sent.len(),
            symbol,
            out.as_mut_ptr(),
            out.len(),
        )
    }
}

/// Puts questions 1 to 8, then 15, and writes the table with the number in every field that has the symbol, and 128 bytes of marks.
pub fn fill(table: &[u8], symbol: u64, number: u64, out: &mut [u8], marks: &mut [u8]) -> Filled {
    // SAFETY: the pointers and lengths are those of live slices, and only those that are lent mutably are written.
    unsafe {
        vf_fill(
            table.as_ptr(),
            table.len(),
            symbol,
            number,
            out.as_mut_ptr(),
            out.len(),
            marks.as_mut_ptr(),
            marks.len(),
        )
    }
}

/// Puts questions 1 to 8, then 15 and 16, and writes the table with the symbol in each marked field.
pub fn open(table: &[u8], marks: &[u8], symbol: u64, number: u64, out: &mut [u8]) -> Opened {
    // SAFETY: the pointers and lengths are those of live slices, and only the one that is lent mutably is written.
    unsafe {
        vf_open(
            table.as_ptr(),
            table.len(),
            marks.as_ptr(),
            marks.len(),
            symbol,
            number,
            out.as_mut_ptr(),
            out.len(),
        )
    }
}

/// Puts questions 1 to 7 and 17, then a figure call's to the table and to the one with the new time at that record, and answers both
/// figures and branches.
pub fn preview(
    table: &[u8],
    record: u64,
    old_time: u64,
    new_time: u64,
    values: &[u64],
) -> Previewed {
    // SAFETY: the pointers and lengths are those of live slices, which the call only reads.
    unsafe {
        vf_preview(
            table.as_ptr(),
            table.len(),
            record,
            old_time,
            new_time,
            values.as_ptr(),
            values.len(),
        )
    }
}

/// Puts questions 1 to 7 and 17 and writes the new time into the table.
pub fn commit(table: &mut [u8], record: u64, old_time: u64, new_time: u64) -> Committed {
    // SAFETY: the pointer and the length are those of a live slice that is lent mutably.
    unsafe { vf_commit(table.as_mut_ptr(), table.len(), record, old_time, new_time) }
}

/// Puts question 1 as it was for 16-byte records, then 8, and writes the former table with address 0 in every record.
pub fn convert(old: &[u8], out: &mut [u8]) -> Converted {
    // SAFETY: the pointers and lengths are those of live slices, and only the one that is lent mutably is written.
    unsafe { vf_convert(old.as_ptr(), old.len(), out.as_mut_ptr(), out.len()) }
}
