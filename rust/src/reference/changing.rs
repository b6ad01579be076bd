//! Changing the difference that a line states, one or many, and trying a change.

use super::sheet::{self, Record, Sheet};
use super::{ask_room, refuse, refuse_unless, LineReport};
use crate::{Refusal, LINE_REPORT, MAX_CHANGES};

/// Puts a difference in the place of the one that a line states.
pub(super) fn change(bytes: &mut [u8], line: usize, difference: u64) -> Result<(), Refusal> {
    let sheet = Sheet::read(bytes)?;
    let difference = Bounds::of(&sheet).ask(line, difference)?;
    sheet::write_difference(bytes, line, difference);
    Ok(())
}

/// Makes the changes of a list in order, and answers how many pairs it has.
///
/// The sheet is read just once: a changed sheet is again an accepted one, and has the
/// bounds that it had.
pub(super) fn change_all(
    bytes: &mut [u8],
    pairs: &[u64],
    replies: &mut [u8],
) -> Result<usize, Refusal> {
    let bounds = Bounds::of(&Sheet::read(bytes)?);
    // A last number with no partner is left out.
    let pairs = pairs.chunks_exact(2);
    let count = pairs.len();
    refuse_unless(count <= MAX_CHANGES, 24, 0)?;
    refuse_unless(count <= replies.len(), 25, 0)?;
    for (pair, reply) in pairs.zip(replies) {
        let (line, difference) = (pair[0] as usize, pair[1]);
        *reply = match bounds.ask(line, difference) {
            Ok(difference) => {
                sheet::exchange_difference(bytes, line, difference);
                0
            }
            Err(refusal) => refusal.number as u8,
        };
    }
    Ok(count)
}

/// Writes the reports that the lines would have after a change, and answers how
/// many bytes these are.
///
/// No copy is changed: a report hangs on the line's own record and on the
/// differences of the words that it names.
pub(super) fn trial(
    bytes: &[u8],
    line: usize,
    difference: u64,
    out: &mut [u8],
) -> Result<usize, Refusal> {
    let sheet = Sheet::read(bytes)?;
    let difference = Bounds::of(&sheet).ask(line, difference)?;
    let need = LINE_REPORT * sheet.line_count();
    let out = ask_room(out, need)?;

    let tried = Tried {
        sheet,
        line,
        difference,
    };
    let reports = out.chunks_exact_mut(LINE_REPORT);
    for ((number, record), report) in sheet.records().enumerate().zip(reports) {
        tried.report(number, record).write(report);
    }
    Ok(need)
}

/// A sheet that has been read, as it would be with another difference in a line.
pub(super) struct Tried<'a> {
    pub sheet: Sheet<'a>,
    pub line: usize,
    pub difference: u32,
}

impl Tried<'_> {
    /// The report that a line would have, by its record as it stands in the sheet.
    pub(super) fn report(&self, line: usize, mut record: Record) -> LineReport {
        let changed_word = self.sheet.input_count() + self.line;
        let difference_of = |word: u16| {
            if usize::from(word) == changed_word {
                self.difference
            } else {
                self.sheet.difference(word)
            }
        };
        if line == self.line {
            record.difference = self.difference;
        }
        self.sheet.report_by(&record, difference_of)
    }
}

/// What a change is asked by, which no change changes.
#[derive(Clone, Copy)]
pub(super) struct Bounds {
    lines: usize,
    mask: u32,
}

impl Bounds {
    pub(super) fn of(sheet: &Sheet) -> Bounds {
        Bounds {
            lines: sheet.line_count(),
            mask: sheet.mask(),
        }
    }

    /// Is the line number below L? 17. Is the difference below 2^n? 14, place: the
    /// line. Answers the difference, which fits 32 bits then.
    pub(super) fn ask(self, line: usize, difference: u64) -> Result<u32, Refusal> {
        refuse_unless(line < self.lines, 17, 0)?;
        match u32::try_from(difference) {
            Ok(difference) if difference <= self.mask => Ok(difference),
            _ => refuse(14, line),
        }
    }
}
