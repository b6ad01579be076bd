//! Joining two trails.

use super::sheet::{self, Record, Sheet};
use super::{ask_room, refuse_unless};
use crate::{Refusal, MAX_LINES};

/// Writes the joined sheet of two and answers its length.
pub(super) fn join(
    first: &[u8],
    second: &[u8],
    names: &[u64],
    out: &mut [u8],
) -> Result<usize, Refusal> {
    let first = Sheet::read(first)?;
    let second = Sheet::read(second)?;
    refuse_unless(first.width() == second.width(), 20, 0)?;
    refuse_unless(names_fit(&first, &second, names), 21, 0)?;
    let lines = first.line_count() + second.line_count();
    refuse_unless(lines <= MAX_LINES, 22, 0)?;
    let length = sheet::length(lines);
    let out = ask_room(out, length)?;
    let renumbering = Renumbering {
        names,
        words_of_first: word_count(&first) as u16,
    };
    let added = second.records().map(|record| renumbering.record(record));
    first.write_with_more_lines(added, lines, out);
    Ok(length)
}

/// Has the list one name for each input of the second sheet, each a word of the
/// first, none twice, and each with its input's difference?
fn names_fit(first: &Sheet, second: &Sheet, names: &[u64]) -> bool {
    names.len() == second.input_count()
        && names.iter().all(|&name| name < word_count(first) as u64)
        && (1..names.len()).all(|later| !names[..later].contains(&names[later]))
        && names
            .iter()
            .zip(second.input_differences())
            .all(|(&name, difference)| first.difference(name as u16) == difference)
}

/// The inputs and the words that the lines make.
fn word_count(sheet: &Sheet) -> usize {
    sheet.input_count() + sheet.line_count()
}

/// The numbers that the second sheet's words have in the joined sheet.
struct Renumbering<'a> {
    /// The words that are the inputs.
    names: &'a [u64],
    /// Where the words of the lines start.
    words_of_first: u16,
}

impl Renumbering<'_> {
    fn word(&self, word: u16) -> u16 {
        match self.names.get(usize::from(word)) {
            Some(&name) => name as u16,
            None => self.words_of_first + word - self.names.len() as u16,
        }
    }

    /// An operand that the kind does not use stays 0.
    fn record(&self, mut record: Record) -> Record {
        record.first = self.word(record.first);
        if record.names_two_words() {
            record.second = self.word(record.second);
        }
        record
    }
}
