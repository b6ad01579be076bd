//! The trail checker in plain Rust, written from documents 01 and 02; all but
//! joining, question 23, the texts, changes and the index from these alone.
//!
//! The calls have the signatures and the order of refusals of the archive's
//! calls in the module `slices`. They share no code with the archive, so that
//! the two can be held against each other.
//!
//! [`Sheet`] reads once and answers many times, for programs that go through
//! all lines.

mod changing;
mod clauses;
mod indexing;
mod joining;
mod line_report;
mod runs;
mod sheet;
mod texts;

pub use clauses::ClauseCounts;
pub use line_report::{LineReport, Sixteenths, Totals, WholeBits};
pub use runs::Disagreement;
pub use sheet::Sheet;

use crate::{Refusal, LINE_REPORT};

/// Reads a sheet and answers its number of lines.
pub fn read(sheet: &[u8]) -> Result<usize, Refusal> {
    Ok(Sheet::read(sheet)?.line_count())
}

/// Seals a sheet: asks all questions but the one about checks, then writes the
/// checks. Answers the number of blocks.
///
/// Sealing alone refuses a word XORed with itself, by number 23.
pub fn seal(sheet: &mut [u8]) -> Result<usize, Refusal> {
    sheet::seal(sheet)
}

/// Writes one line's report, 16 bytes. Answers 16.
pub fn line_report(sheet: &[u8], line: usize, out: &mut [u8]) -> Result<usize, Refusal> {
    let sheet = Sheet::read(sheet)?;
    ask_line(&sheet, line)?;
    let out = ask_room(out, LINE_REPORT)?;
    sheet.line_report(line).write(out);
    Ok(LINE_REPORT)
}

/// Writes the reports of all lines in order, 16 bytes each. Answers the number
/// of bytes written.
pub fn report(sheet: &[u8], out: &mut [u8]) -> Result<usize, Refusal> {
    let sheet = Sheet::read(sheet)?;
    let need = LINE_REPORT * sheet.line_count();
    let out = ask_room(out, need)?;
    for (line, bytes) in out.chunks_exact_mut(LINE_REPORT).enumerate() {
        sheet.line_report(line).write(bytes);
    }
    Ok(need)
}

/// Writes the sheet's totals: impossible lines, the others' weight in
/// sixteenths of a bit, chains. A line that repeats an earlier one adds no
/// weight and no chains. Answers 3.
pub fn totals(sheet: &[u8], out: &mut [u64]) -> Result<usize, Refusal> {
    let sheet = Sheet::read(sheet)?;
    let out = ask_room(out, 3)?;
    let totals = sheet.totals();
    let Sixteenths(weight) = totals.weight;
    out.copy_from_slice(&[
        totals.impossible.into(),
        weight.into(),
        totals.chains.into(),
    ]);
    Ok(3)
}

/// Runs the program on the starting words and on the starting words XOR the
/// input differences. Writes 1, 0, 0 if the two runs follow the trail, else 0
/// with the first line and its lowest bit where they disagree. Answers 3.
pub fn two_runs(sheet: &[u8], start: &[u64], out: &mut [u64]) -> Result<usize, Refusal> {
    let sheet = Sheet::read(sheet)?;
    let out = ask_room(out, 3)?;
    let answer = match sheet.two_runs(start)? {
        None => [1, 0, 0],
        Some(Disagreement { line, bit }) => [0, line as u64, bit.into()],
    };
    out.copy_from_slice(&answer);
    Ok(3)
}

/// Writes the numbers of the sheet's variables and clauses. Answers 2.
pub fn clause_counts(sheet: &[u8], out: &mut [u64]) -> Result<usize, Refusal> {
    let sheet = Sheet::read(sheet)?;
    let out = ask_room(out, 2)?;
    let counts = sheet.clause_counts();
    out.copy_from_slice(&[counts.variables as u64, counts.clauses as u64]);
    Ok(2)
}

/// Writes one line's clauses, each followed by 0. Answers the count of numbers
/// written.
pub fn line_clauses(sheet: &[u8], line: usize, out: &mut [i32]) -> Result<usize, Refusal> {
    let sheet = Sheet::read(sheet)?;
    ask_line(&sheet, line)?;
    let need = sheet.line_clauses_len(line);
    let out = ask_room(out, need)?;
    sheet.line_clauses(line, out);
    Ok(need)
}

/// Writes one part of the clause file: part 0 is the header's line, part 1 + k
/// has the clauses of line k. Answers the number of bytes written.
pub fn clause_text_part(sheet: &[u8], part: usize, out: &mut [u8]) -> Result<usize, Refusal> {
    let sheet = Sheet::read(sheet)?;
    ask_part(&sheet, part)?;
    write_text(&sheet.clause_text_part(part), out)
}

/// Writes one part of the report as text: part k is line k's line, part L has
/// the totals. Answers the number of bytes written.
pub fn report_text_part(sheet: &[u8], part: usize, out: &mut [u8]) -> Result<usize, Refusal> {
    let sheet = Sheet::read(sheet)?;
    ask_part(&sheet, part)?;
    write_text(&sheet.report_text_part(part), out)
}

/// Writes the joined sheet: the first's inputs and lines, then the second's
/// lines with operands renumbered. `names` has for each input of the second the
/// word of the first that it is. Answers the number of bytes written.
pub fn join(first: &[u8], second: &[u8], names: &[u64], out: &mut [u8]) -> Result<usize, Refusal> {
    joining::join(first, second, names, out)
}

/// Replaces the difference that a line states, and renews the check of the line's
/// block. Answers 0.
pub fn change(sheet: &mut [u8], line: usize, difference: u64) -> Result<usize, Refusal> {
    changing::change(sheet, line, difference)?;
    Ok(0)
}

/// Writes the reports of all lines in order, 16 bytes each, that the sheet would
/// have if [`change`] put this difference into this line. Answers the number of
/// bytes written.
pub fn trial(sheet: &[u8], line: usize, difference: u64, out: &mut [u8]) -> Result<usize, Refusal> {
    changing::trial(sheet, line, difference, out)
}

/// Makes the changes of a list in order: line, difference, line, difference, and so
/// on. Writes a reply for each pair, 0 or the number of the refusal that [`change`]
/// would give it; a refused pair is skipped. Answers the number of pairs.
pub fn change_all(sheet: &mut [u8], pairs: &[u64], replies: &mut [u8]) -> Result<usize, Refusal> {
    changing::change_all(sheet, pairs, replies)
}

/// Writes the sheet's index: for each word how many lines name it as a used operand,
/// and these lines, ascending. Answers the count of numbers written.
pub fn index(sheet: &[u8], out: &mut [u16]) -> Result<usize, Refusal> {
    indexing::index(sheet, out)
}

/// Changes a difference as [`change`] does, and renews the report that is kept beside
/// the sheet. Index and report have to be the sheet's own. Answers 0.
pub fn change_indexed(
    sheet: &mut [u8],
    index: &[u16],
    report: &mut [u8],
    line: usize,
    difference: u64,
) -> Result<usize, Refusal> {
    indexing::change_indexed(sheet, index, report, line, difference)?;
    Ok(0)
}

/// Is the line number below L? 17
fn ask_line(sheet: &Sheet, line: usize) -> Result<(), Refusal> {
    refuse_unless(line < sheet.line_count(), 17, 0)
}

/// Is the part of a text at most L? 17
fn ask_part(sheet: &Sheet, part: usize) -> Result<(), Refusal> {
    refuse_unless(part <= sheet.line_count(), 17, 0)
}

fn write_text(text: &str, out: &mut [u8]) -> Result<usize, Refusal> {
    let out = ask_room(out, text.len())?;
    out.copy_from_slice(text.as_bytes());
    Ok(text.len())
}

/// Is the output buffer long enough for this very answer? 18
fn ask_room<T>(out: &mut [T], need: usize) -> Result<&mut [T], Refusal> {
    match out.get_mut(..need) {
        Some(room) => Ok(room),
        None => refuse(18, 0),
    }
}

fn refuse_unless(yes: bool, number: u32, place: usize) -> Result<(), Refusal> {
    if yes {
        Ok(())
    } else {
        refuse(number, place)
    }
}

fn refuse<T>(number: u32, place: usize) -> Result<T, Refusal> {
    Err(Refusal {
        number,
        place: place as u64,
    })
}
