//! The archive's calls as C declares them in `include/tablegull.h`.
//!
//! The safe calls at the root of this crate are the ones to use.

use std::mem::{offset_of, size_of};

/// What every call of the archive returns.
#[repr(C)]
#[derive(Clone, Copy, Debug, PartialEq, Eq)]
pub struct Answer {
    /// 0, or the number of the refusal.
    pub number: u32,
    /// 0, or the block or line that the refusal names.
    pub place: u64,
    /// 0 if refused, else what the call says.
    pub count: u64,
}

// The header's layout. Nothing compares the two declarations, and in another
// layout every field would be read from where the archive has not put it.
const _: () = {
    assert!(size_of::<Answer>() == 24);
    assert!(offset_of!(Answer, number) == 0);
    assert!(offset_of!(Answer, place) == 8);
    assert!(offset_of!(Answer, count) == 16);
};

extern "C" {
    /// Reads a sheet; count: its lines.
    pub fn tablegull_read(sheet: *const u8, len: usize) -> Answer;

    /// Seals a sheet; count: its blocks.
    pub fn tablegull_seal(sheet: *mut u8, len: usize) -> Answer;

    /// Writes one line's report; count: 16.
    pub fn tablegull_line_report(
        sheet: *const u8,
        len: usize,
        line: u64,
        out: *mut u8,
        out_len: usize,
    ) -> Answer;

    /// Writes all lines' reports; count: the bytes written.
    pub fn tablegull_report(sheet: *const u8, len: usize, out: *mut u8, out_len: usize) -> Answer;

    /// Writes impossible lines, and weight and chains with repeats left out;
    /// count: 3.
    pub fn tablegull_totals(sheet: *const u8, len: usize, out: *mut u64, out_len: usize) -> Answer;

    /// Runs the program twice and compares; count: 3.
    pub fn tablegull_two_runs(
        sheet: *const u8,
        len: usize,
        start: *const u64,
        start_len: usize,
        out: *mut u64,
        out_len: usize,
    ) -> Answer;

    /// Writes the numbers of variables and clauses; count: 2.
    pub fn tablegull_clause_counts(
        sheet: *const u8,
        len: usize,
        out: *mut u64,
        out_len: usize,
    ) -> Answer;

    /// Writes one line's clauses; count: the numbers written.
    pub fn tablegull_line_clauses(
        sheet: *const u8,
        len: usize,
        line: u64,
        out: *mut i32,
        out_len: usize,
    ) -> Answer;

    /// Writes one part of the clause file; count: the bytes written.
    pub fn tablegull_clause_text(
        sheet: *const u8,
        len: usize,
        part: u64,
        out: *mut u8,
        out_len: usize,
    ) -> Answer;

    /// Writes one part of the report as text; count: the bytes written.
    pub fn tablegull_report_text(
        sheet: *const u8,
        len: usize,
        part: u64,
        out: *mut u8,
        out_len: usize,
    ) -> Answer;

    /// Writes the joined sheet of two; count: the bytes written.
    pub fn tablegull_join(
        first: *const u8,
        first_len: usize,
        second: *const u8,
        second_len: usize,
        names: *const u64,
        names_len: usize,
        out: *mut u8,
        out_len: usize,
    ) -> Answer;

    /// Replaces the difference that a line states; count: 0.
    pub fn tablegull_change(sheet: *mut u8, len: usize, line: u64, difference: u64) -> Answer;

    /// Writes all lines' reports as they would be after a change; count: the bytes
    /// written.
    pub fn tablegull_trial(
        sheet: *const u8,
        len: usize,
        line: u64,
        difference: u64,
        out: *mut u8,
        out_len: usize,
    ) -> Answer;

    /// Makes the changes of a list, line and difference in turn, and writes a reply for
    /// each pair; count: the pairs.
    pub fn tablegull_change_all(
        sheet: *mut u8,
        len: usize,
        pairs: *const u64,
        pairs_len: usize,
        replies: *mut u8,
        replies_len: usize,
    ) -> Answer;

    /// Writes the index: for each word how many lines use it, and these lines; count:
    /// the numbers written.
    pub fn tablegull_index(sheet: *const u8, len: usize, out: *mut u16, out_len: usize) -> Answer;

    /// Replaces the difference that a line states, and renews the report by the index;
    /// count: 0.
    pub fn tablegull_change_indexed(
        sheet: *mut u8,
        len: usize,
        index: *const u16,
        index_len: usize,
        report: *mut u8,
        report_len: usize,
        line: u64,
        difference: u64,
    ) -> Answer;
}
