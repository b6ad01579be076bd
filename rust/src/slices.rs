//! The archive's calls over slices: each writes into what it is lent, and answers
//! what the header calls count.
//!
//! The calls at the root of this crate are made of these; they are for callers
//! that hold the buffers themselves.

use crate::{ffi, Refusal};

fn outcome(answer: ffi::Answer) -> Result<usize, Refusal> {
    if answer.number == 0 {
        debug_assert_eq!(answer.place, 0, "success has place 0");
        Ok(answer.count as usize)
    } else {
        debug_assert_eq!(answer.count, 0, "a refusal has count 0");
        Err(Refusal {
            number: answer.number,
            place: answer.place,
        })
    }
}

// In every call below the pointers and lengths come from slices. A slice's
// pointer is aligned and never null, its length is true, and Rust's borrowing
// keeps a slice that is written apart from all the others: just what the
// header asks of a caller.

/// Reads a sheet and answers its number of lines.
pub fn read(sheet: &[u8]) -> Result<usize, Refusal> {
    // SAFETY: pointer and length are one slice's.
    outcome(unsafe { ffi::tablegull_read(sheet.as_ptr(), sheet.len()) })
}

/// Seals a sheet: asks all questions but the one about checks, then writes the
/// checks. Answers the number of blocks.
///
/// Sealing alone refuses a word XORed with itself, by number 23: nearly always
/// that is a slip in an operand. A sheet that has been sealed with such a line
/// still passes all other calls, and sealing it afresh leaves its bytes.
pub fn seal(sheet: &mut [u8]) -> Result<usize, Refusal> {
    // SAFETY: pointer and length are one slice's, borrowed for writing.
    outcome(unsafe { ffi::tablegull_seal(sheet.as_mut_ptr(), sheet.len()) })
}

/// Writes one line's report: a byte 0 impossible, 1 certain, 2 halves or
/// 3 counted; a zero byte; chains (16 bits); weight in sixteenths (32 bits);
/// N (64 bits), little-endian. Answers 16.
pub fn line_report(sheet: &[u8], line: usize, out: &mut [u8]) -> Result<usize, Refusal> {
    // SAFETY: each pointer and length are one slice's, and `out` is borrowed
    // for writing.
    outcome(unsafe {
        ffi::tablegull_line_report(
            sheet.as_ptr(),
            sheet.len(),
            line as u64,
            out.as_mut_ptr(),
            out.len(),
        )
    })
}

/// Writes the reports of all lines in order, 16 bytes each. Answers the number
/// of bytes written.
pub fn report(sheet: &[u8], out: &mut [u8]) -> Result<usize, Refusal> {
    // SAFETY: each pointer and length are one slice's, and `out` is borrowed
    // for writing.
    outcome(unsafe {
        ffi::tablegull_report(sheet.as_ptr(), sheet.len(), out.as_mut_ptr(), out.len())
    })
}

/// Writes the sheet's totals: impossible lines, the others' weight in
/// sixteenths of a bit, chains. A line that repeats an earlier one adds no
/// weight and no chains. Answers 3.
pub fn totals(sheet: &[u8], out: &mut [u64]) -> Result<usize, Refusal> {
    // SAFETY: each pointer and length are one slice's, and `out` is borrowed
    // for writing.
    outcome(unsafe {
        ffi::tablegull_totals(sheet.as_ptr(), sheet.len(), out.as_mut_ptr(), out.len())
    })
}

/// Runs the program on the starting words and on the starting words XOR the
/// input differences. Writes 1, 0, 0 if the two runs follow the trail, else 0
/// with the first line and its lowest bit where they disagree. Answers 3.
pub fn two_runs(sheet: &[u8], start: &[u64], out: &mut [u64]) -> Result<usize, Refusal> {
    // SAFETY: each pointer and length are one slice's, and `out` is borrowed
    // for writing.
    outcome(unsafe {
        ffi::tablegull_two_runs(
            sheet.as_ptr(),
            sheet.len(),
            start.as_ptr(),
            start.len(),
            out.as_mut_ptr(),
            out.len(),
        )
    })
}

/// Writes the numbers of the sheet's variables and clauses. Answers 2.
pub fn clause_counts(sheet: &[u8], out: &mut [u64]) -> Result<usize, Refusal> {
    // SAFETY: each pointer and length are one slice's, and `out` is borrowed
    // for writing.
    outcome(unsafe {
        ffi::tablegull_clause_counts(sheet.as_ptr(), sheet.len(), out.as_mut_ptr(), out.len())
    })
}

/// Writes one line's clauses, each followed by 0. Answers the count of numbers
/// written, at most [`MAX_LINE_CLAUSES`](crate::MAX_LINE_CLAUSES).
pub fn line_clauses(sheet: &[u8], line: usize, out: &mut [i32]) -> Result<usize, Refusal> {
    // SAFETY: each pointer and length are one slice's, and `out` is borrowed
    // for writing.
    outcome(unsafe {
        ffi::tablegull_line_clauses(
            sheet.as_ptr(),
            sheet.len(),
            line as u64,
            out.as_mut_ptr(),
            out.len(),
        )
    })
}

/// Writes one part of the clause file. Part 0 is the header's line, part 1 + k
/// has the clauses of line k, and parts 0 to L, one after the other, are the
/// file. Answers the number of bytes written, at most
/// [`MAX_CLAUSE_TEXT`](crate::MAX_CLAUSE_TEXT).
pub fn clause_text_part(sheet: &[u8], part: usize, out: &mut [u8]) -> Result<usize, Refusal> {
    // SAFETY: each pointer and length are one slice's, and `out` is borrowed
    // for writing.
    outcome(unsafe {
        ffi::tablegull_clause_text(
            sheet.as_ptr(),
            sheet.len(),
            part as u64,
            out.as_mut_ptr(),
            out.len(),
        )
    })
}

/// Writes one part of the report as text. Part k is line k's line, part L has
/// the totals, and parts 0 to L, one after the other, are the report. Answers
/// the number of bytes written, at most
/// [`MAX_REPORT_TEXT`](crate::MAX_REPORT_TEXT).
pub fn report_text_part(sheet: &[u8], part: usize, out: &mut [u8]) -> Result<usize, Refusal> {
    // SAFETY: each pointer and length are one slice's, and `out` is borrowed
    // for writing.
    outcome(unsafe {
        ffi::tablegull_report_text(
            sheet.as_ptr(),
            sheet.len(),
            part as u64,
            out.as_mut_ptr(),
            out.len(),
        )
    })
}

/// Writes the joined sheet: the first's inputs and lines, then the second's
/// lines with operands renumbered. `names` has for each input of the second the
/// word of the first that it is. Lines that XOR a word with itself are kept.
/// Answers the number of bytes written, at most [`MAX_SHEET`](crate::MAX_SHEET).
pub fn join(first: &[u8], second: &[u8], names: &[u64], out: &mut [u8]) -> Result<usize, Refusal> {
    // SAFETY: each pointer and length are one slice's, and `out` is borrowed
    // for writing.
    outcome(unsafe {
        ffi::tablegull_join(
            first.as_ptr(),
            first.len(),
            second.as_ptr(),
            second.len(),
            names.as_ptr(),
            names.len(),
            out.as_mut_ptr(),
            out.len(),
        )
    })
}

/// Replaces the difference that a line states, and renews the check of the line's
/// block. No other byte changes, and the sheet can be read afterwards. Answers 0.
///
/// A difference that does not fit the sheet's width is refused by 14, at the line.
pub fn change(sheet: &mut [u8], line: usize, difference: u64) -> Result<usize, Refusal> {
    // SAFETY: pointer and length are one slice's, borrowed for writing.
    outcome(unsafe {
        ffi::tablegull_change(sheet.as_mut_ptr(), sheet.len(), line as u64, difference)
    })
}

/// Writes the reports of all lines in order, 16 bytes each, that the sheet would
/// have if [`change`] put this difference into this line. Answers the number of
/// bytes written.
pub fn trial(sheet: &[u8], line: usize, difference: u64, out: &mut [u8]) -> Result<usize, Refusal> {
    // SAFETY: each pointer and length are one slice's, and `out` is borrowed
    // for writing.
    outcome(unsafe {
        ffi::tablegull_trial(
            sheet.as_ptr(),
            sheet.len(),
            line as u64,
            difference,
            out.as_mut_ptr(),
            out.len(),
        )
    })
}

/// Makes the changes of a list in order. `pairs` holds line, difference, line,
/// difference, and so on; a last number with no partner is no pair. Writes a byte for
/// each pair into `replies`: 0 where the change was made, else the number of the
/// refusal that [`change`] would give it, 17 or 14; that pair is skipped. Answers the
/// number of pairs.
///
/// More than [`MAX_CHANGES`](crate::MAX_CHANGES) pairs are refused by 24, and fewer
/// replies than pairs by 25: then nothing is changed, and no reply written.
pub fn change_all(sheet: &mut [u8], pairs: &[u64], replies: &mut [u8]) -> Result<usize, Refusal> {
    // SAFETY: each pointer and length are one slice's, and `sheet` and `replies` are
    // borrowed for writing.
    outcome(unsafe {
        ffi::tablegull_change_all(
            sheet.as_mut_ptr(),
            sheet.len(),
            pairs.as_ptr(),
            pairs.len(),
            replies.as_mut_ptr(),
            replies.len(),
        )
    })
}

/// Writes the sheet's index: for each word, the inputs first and then the lines' words,
/// how many lines name it as a used operand, and these lines, ascending. A line that
/// names a word twice is there once. Answers the count of numbers written, at most
/// [`MAX_INDEX`](crate::MAX_INDEX).
pub fn index(sheet: &[u8], out: &mut [u16]) -> Result<usize, Refusal> {
    // SAFETY: each pointer and length are one slice's, and `out` is borrowed
    // for writing.
    outcome(unsafe {
        ffi::tablegull_index(sheet.as_ptr(), sheet.len(), out.as_mut_ptr(), out.len())
    })
}

/// Changes a difference as [`change`] does, and renews the report that is kept beside
/// the sheet: it is then what [`report`] writes of the changed sheet. The index stays
/// as it is, and is the changed sheet's own too. Answers 0.
///
/// Where `index` is not just what [`index`] writes of the sheet, or `report` not just
/// what [`report`] does, the call is refused by 26, whatever the line and the
/// difference are; and then nothing is written.
pub fn change_indexed(
    sheet: &mut [u8],
    index: &[u16],
    report: &mut [u8],
    line: usize,
    difference: u64,
) -> Result<usize, Refusal> {
    // SAFETY: each pointer and length are one slice's, and `sheet` and `report` are
    // borrowed for writing.
    outcome(unsafe {
        ffi::tablegull_change_indexed(
            sheet.as_mut_ptr(),
            sheet.len(),
            index.as_ptr(),
            index.len(),
            report.as_mut_ptr(),
            report.len(),
            line as u64,
            difference,
        )
    })
}
