//! Which lines use a word, and a change of a difference that goes by it.

use std::iter;

use super::changing::{Bounds, Tried};
use super::sheet::{self, Sheet, MAX_INPUTS};
use super::{ask_room, refuse_unless};
use crate::{Refusal, LINE_REPORT, MAX_INDEX, MAX_LINES};

const MAX_WORDS: usize = MAX_INPUTS + MAX_LINES;

/// Writes the index of a sheet, and answers how many numbers that are.
pub(super) fn index(bytes: &[u8], out: &mut [u16]) -> Result<usize, Refusal> {
    let sheet = Sheet::read(bytes)?;
    let users = Users::of(sheet);
    let need = users.index_length();
    users.write_index(ask_room(out, need)?);
    Ok(need)
}

/// Puts a difference in the place of the one that a line states, and the reports that
/// follow from it in the place of theirs.
///
/// A report hangs on the line's own record and on the differences of the words that it
/// names: so the line's own is renewed, and those of the lines that use its word.
pub(super) fn change_indexed(
    bytes: &mut [u8],
    index: &[u16],
    report: &mut [u8],
    line: usize,
    difference: u64,
) -> Result<(), Refusal> {
    let sheet = Sheet::read(bytes)?;
    let own = is_index_of(sheet, index) && is_report_of(sheet, report);
    refuse_unless(own, 26, 0)?;
    let difference = Bounds::of(&sheet).ask(line, difference)?;

    let tried = Tried {
        sheet,
        line,
        difference,
    };
    let users = users_in(index, sheet.input_count() + line);
    for renewed in iter::once(line).chain(users) {
        let place = LINE_REPORT * renewed..LINE_REPORT * (renewed + 1);
        let renewed = tried.report(renewed, sheet.record(renewed));
        renewed.write(&mut report[place]);
    }
    sheet::exchange_difference(bytes, line, difference);
    Ok(())
}

/// How many lines use each word of a sheet.
struct Users<'a> {
    sheet: Sheet<'a>,
    counts: [u16; MAX_WORDS],
}

impl<'a> Users<'a> {
    fn of(sheet: Sheet<'a>) -> Users<'a> {
        let mut counts = [0; MAX_WORDS];
        for record in sheet.records() {
            record
                .words()
                .for_each(|word| counts[usize::from(word)] += 1);
        }
        Users { sheet, counts }
    }

    /// Of the words that the sheet has.
    fn counts(&self) -> &[u16] {
        &self.counts[..self.sheet.input_count() + self.sheet.line_count()]
    }

    fn index_length(&self) -> usize {
        let uses = self.counts().iter().map(|&count| usize::from(count));
        self.counts().len() + uses.sum::<usize>()
    }

    /// Writes the index over the whole of `out`, which must have just its length.
    fn write_index(&self, out: &mut [u16]) {
        // Where the next user of a word goes. Users come by rising lines, so that those
        // of each word come so too.
        let mut places = [0; MAX_WORDS];
        let mut start = 0;
        for (place, &count) in places.iter_mut().zip(self.counts()) {
            out[usize::from(start)] = count;
            *place = start + 1;
            start += 1 + count;
        }
        for (line, record) in (0..).zip(self.sheet.records()) {
            record.words().for_each(|word| {
                let place = &mut places[usize::from(word)];
                out[usize::from(*place)] = line;
                *place += 1;
            });
        }
    }
}

fn is_index_of(sheet: Sheet, index: &[u16]) -> bool {
    let users = Users::of(sheet);
    let mut own = [0; MAX_INDEX];
    let own = &mut own[..users.index_length()];
    users.write_index(own);
    index == own
}

fn is_report_of(sheet: Sheet, report: &[u8]) -> bool {
    let lent = report.chunks_exact(LINE_REPORT);
    report.len() == LINE_REPORT * sheet.line_count()
        && (0..)
            .zip(lent)
            .all(|(line, lent)| lent == sheet.line_report(line).bytes())
}

/// The users of a word, by the index of a sheet that has the word.
fn users_in(index: &[u16], word: usize) -> impl Iterator<Item = usize> + '_ {
    let mut rest = index;
    for _ in 0..word {
        rest = &rest[1 + usize::from(rest[0])..];
    }
    let users = &rest[1..=usize::from(rest[0])];
    users.iter().map(|&line| usize::from(line))
}
