//! Tablegull checks differential trails through additions, subtractions,
//! rotations, shifts and XORs.
//!
//! A sheet is a program of at most 248 lines together with the XOR difference
//! expected of every word. The calls at the root of this crate hand sheets to
//! the proved archive `libtablegull.a`:
//!
//! | call | what it does | what it answers |
//! | --- | --- | --- |
//! | `read` | asks all questions about a sheet | its lines |
//! | `seal` | writes the blocks' checks | its blocks |
//! | `line_report` | one line's report | a [`LineReport`] |
//! | `reports` | all lines' reports | a [`LineReport`] for each line |
//! | `totals` | impossible lines, weight in sixteenths, chains; repeated lines cost once | [`Totals`] |
//! | `two_runs` | runs a starting value along the trail | [`Runs`] |
//! | `clause_counts` | variables and clauses of the sheet | [`ClauseCounts`] |
//! | `line_clauses` | one line's clauses for a SAT solver | its numbers |
//! | `clause_text` | the clauses as a DIMACS file | its text |
//! | `report_text` | all reports and the totals as text | the text |
//! | `clause_text_part`, `report_text_part` | a part of these texts: they have one more than the sheet has lines | its text |
//! | `join` | joins the trails of two sheets | the joined sheet's bytes |
//! | `change` | replaces the difference that a line states | nothing |
//! | `trial` | all lines' reports as a change would make them | a [`LineReport`] for each line |
//! | `change_all` | makes up to 64 changes in order | for each what `change` would answer |
//! | `index` | which lines use each word | an [`Index`] |
//! | `change_indexed` | replaces a line's difference, and renews by the index the reports that are kept beside the sheet | nothing |
//!
//! A call that is refused returns a [`Refusal`], and leaves every byte of a
//! sheet as it was. The module `slices` has the same calls, for texts those for a
//! part, over buffers that the caller holds: they write from the start of the lent
//! buffer and leave the rest, and on a refusal all of it. Into a sheet itself write
//! only `seal`, its checks, and `change`, `change_all` and `change_indexed`, a line's
//! difference and its block's check for each change; into the report that it is lent
//! `change_indexed` writes the line's report and those of the lines that use its word.
//!
//! A word XORed with itself is refused by `seal` alone. Sheets that have been
//! sealed with such a line can still be read and used.
//!
//! The calls are there when the build has found the archive: in the folder that
//! `TABLEGULL_LIB` names, or else in `../target/staticlib`.
//!
//! [`mod@reference`] has the calls of `slices` in plain Rust, written from documents
//! 01 and 02 (all but joining, question 23, the texts, changes and the index from
//! these alone), and sharing no code with the archive; the tests hold the two against
//! each other. [`builder`] makes sheets.
//!
//! Programs, all with `cargo run --release --bin NAME`:
//!
//! - `bench` times the archive beside the reference;
//! - `reference_report` and `reference_clauses` print document 01's texts of
//!   the sheet on standard input, by the reference;
//! - `solution SHEET` takes a SAT solver's output back to the sheet: the
//!   starting value, and whether it follows the trail.

#![warn(missing_docs)]

use std::fmt;

mod answers;
pub mod builder;
#[cfg(has_archive)]
pub mod ffi;
pub mod reference;
#[cfg(has_archive)]
pub mod slices;
pub mod text;

pub use answers::{ClauseCounts, Index, LineReport, Runs, Sixteenths, Totals, WholeBits};

/// Bytes of the longest sheet.
pub const MAX_SHEET: usize = 4608;

/// Lines of the longest sheet.
pub const MAX_LINES: usize = 248;

/// Bytes of one line's report.
pub const LINE_REPORT: usize = 16;

/// Numbers of the longest list of one line's clauses.
pub const MAX_LINE_CLAUSES: usize = 4944;

/// Bytes that are enough for any part of a clause file.
pub const MAX_CLAUSE_TEXT: usize = 34608;

/// Bytes that are enough for any part of a report's text.
pub const MAX_REPORT_TEXT: usize = 64;

/// Pairs of the longest list of changes.
pub const MAX_CHANGES: usize = 64;

/// Numbers of the longest index.
pub const MAX_INDEX: usize = 752;

/// The first question about a call's input whose answer is no.
#[derive(Clone, Copy, Debug, PartialEq, Eq, Hash)]
pub struct Refusal {
    /// The question's number, 1 to 26.
    pub number: u32,
    /// The block or line at which the answer is no; 0 where none is named.
    pub place: u64,
}

impl Refusal {
    /// The question that was answered no.
    pub fn question(self) -> &'static str {
        match self.number {
            1 => "Is the length a multiple of 512 from 1,024 to 4,608?",
            2 => "Is each block's check right?",
            3 => "Are the four mark bytes there?",
            4 => "Is the width n from 2 to 32?",
            5 => "Is the input count m from 1 to 8?",
            6 => {
                "Is the line count L from 1 to 248, with just as many line blocks as L needs at \
                 31 each?"
            }
            7 => "Are the first m input differences below 2^n, the others 0?",
            8 => "Are the header's remaining bytes before its check zero?",
            9 => "Is the kind 1 to 9?",
            10 => "Is each used operand an earlier word?",
            11 => "For kinds 5 and 9, do the operands name different words?",
            12 => "For kinds 3, 4, 7 and 8, is the amount 1 to n-1?",
            13 => "For kinds 2 and 6, is the constant below 2^n?",
            14 => "Is the difference below 2^n?",
            15 => "Are the record's zero field and unused fields zero?",
            16 => "Are records past L and the 12 bytes zero in every line block?",
            17 => "Is the line number below L, or in the calls for texts the part at most L?",
            18 => "Is the output buffer long enough for this very answer?",
            19 => "Are there exactly m starting words, each below 2^n?",
            20 => "Have the two sheets the same width?",
            21 => {
                "Has the list one name for each input of the second sheet, each a word of the \
                 first, none twice, and each with its input's difference?"
            }
            22 => "Have the two sheets at most 248 lines together?",
            23 => "In sealing, for kind 1, do the operands name different words?",
            24 => "Has the list of changes at most 64 pairs?",
            25 => "Has the reply buffer a byte for each pair of the list?",
            26 => "Are index and report the sheet's own, each at its exact length?",
            _ => "no question has this number",
        }
    }
}

impl fmt::Display for Refusal {
    fn fmt(&self, f: &mut fmt::Formatter<'_>) -> fmt::Result {
        write!(f, "refused {} {}", self.number, self.place)
    }
}

impl std::error::Error for Refusal {}

// In the calls below the buffer is long enough for the answer, so that 18 and 25
// are never the refusal.

/// Reads a sheet and answers its number of lines.
#[cfg(has_archive)]
pub fn read(sheet: &[u8]) -> Result<usize, Refusal> {
    slices::read(sheet)
}

/// Seals a sheet: asks all questions but the one about checks, then writes the
/// checks. Answers the number of blocks.
///
/// Sealing alone refuses a word XORed with itself, by number 23: nearly always
/// that is a slip in an operand. A sheet that has been sealed with such a line
/// still passes all other calls, and sealing it afresh leaves its bytes.
#[cfg(has_archive)]
pub fn seal(sheet: &mut [u8]) -> Result<usize, Refusal> {
    slices::seal(sheet)
}

/// One line's report.
#[cfg(has_archive)]
pub fn line_report(sheet: &[u8], line: usize) -> Result<LineReport, Refusal> {
    let mut bytes = [0; LINE_REPORT];
    slices::line_report(sheet, line, &mut bytes)?;
    Ok(LineReport::from_bytes(&bytes).expect("the archive writes one of four reports"))
}

/// The reports of all lines, in order.
#[cfg(has_archive)]
pub fn reports(sheet: &[u8]) -> Result<Vec<LineReport>, Refusal> {
    let mut bytes = [0; MAX_LINES * LINE_REPORT];
    let count = slices::report(sheet, &mut bytes)?;
    Ok(reports_of_bytes(&bytes[..count]))
}

/// The reports that a report buffer spells.
#[cfg(has_archive)]
fn reports_of_bytes(bytes: &[u8]) -> Vec<LineReport> {
    bytes
        .chunks_exact(LINE_REPORT)
        .map(|line| {
            let line = line.try_into().expect("a chunk of that length");
            LineReport::from_bytes(line).expect("the archive writes one of four reports")
        })
        .collect()
}

/// The sheet's totals. A line that repeats an earlier one adds no weight and no
/// chains.
#[cfg(has_archive)]
pub fn totals(sheet: &[u8]) -> Result<Totals, Refusal> {
    let mut words = [0; 3];
    slices::totals(sheet, &mut words)?;
    let [impossible, weight, chains] = words;
    Ok(Totals {
        impossible,
        weight: Sixteenths(weight),
        chains,
    })
}

/// Runs the program on the starting words and on the starting words XOR the
/// input differences.
#[cfg(has_archive)]
pub fn two_runs(sheet: &[u8], start: &[u64]) -> Result<Runs, Refusal> {
    let mut words = [0; 3];
    slices::two_runs(sheet, start, &mut words)?;
    let [follows, line, bit] = words;
    Ok(if follows == 1 {
        Runs::Follow
    } else {
        Runs::Disagree {
            line: line as usize,
            bit: bit as u32,
        }
    })
}

/// The numbers of the sheet's variables and clauses.
#[cfg(has_archive)]
pub fn clause_counts(sheet: &[u8]) -> Result<ClauseCounts, Refusal> {
    let mut words = [0; 2];
    slices::clause_counts(sheet, &mut words)?;
    let [variables, clauses] = words;
    Ok(ClauseCounts { variables, clauses })
}

/// One line's clauses, each followed by 0.
#[cfg(has_archive)]
pub fn line_clauses(sheet: &[u8], line: usize) -> Result<Vec<i32>, Refusal> {
    let mut numbers = vec![0; MAX_LINE_CLAUSES];
    let count = slices::line_clauses(sheet, line, &mut numbers)?;
    numbers.truncate(count);
    Ok(numbers)
}

/// One part of the clause file. Part 0 is the header's line, part 1 + k has the
/// clauses of line k. A part past L is refused by 17.
///
/// ```
/// use tablegull::builder::{Line, SheetBuilder};
///
/// let mut sheet = SheetBuilder::new(2, &[1]);
/// sheet.line(Line::add_constant(0, 1, 3));
/// let bytes = sheet.seal()?;
/// assert_eq!(tablegull::clause_text_part(&bytes, 0)?, "p cnf 6 16\n");
/// assert!(tablegull::clause_text_part(&bytes, 1)?.starts_with("1 3 0\n-1 -3 0\n"));
/// assert_eq!(tablegull::clause_text_part(&bytes, 2).unwrap_err().number, 17);
/// # Ok::<(), tablegull::Refusal>(())
/// ```
#[cfg(has_archive)]
pub fn clause_text_part(sheet: &[u8], part: usize) -> Result<String, Refusal> {
    let mut bytes = vec![0; MAX_CLAUSE_TEXT];
    let length = slices::clause_text_part(sheet, part, &mut bytes)?;
    bytes.truncate(length);
    Ok(ascii(bytes))
}

/// One part of the report as text. Part k is line k's line: its number, its
/// report's name, weight in sixteenths, chains and N. Part L is `total` with
/// impossible lines, weight and chains. A part past L is refused by 17.
///
/// ```
/// use tablegull::builder::{Line, SheetBuilder};
///
/// let mut sheet = SheetBuilder::new(2, &[1]);
/// sheet.line(Line::add_constant(0, 1, 3));
/// let bytes = sheet.seal()?;
/// assert_eq!(tablegull::report_text_part(&bytes, 0)?, "0 counted 0 1 4\n");
/// assert_eq!(tablegull::report_text_part(&bytes, 1)?, "total 0 0 1\n");
/// assert_eq!(tablegull::report_text_part(&bytes, 2).unwrap_err().number, 17);
/// # Ok::<(), tablegull::Refusal>(())
/// ```
#[cfg(has_archive)]
pub fn report_text_part(sheet: &[u8], part: usize) -> Result<String, Refusal> {
    let mut bytes = vec![0; MAX_REPORT_TEXT];
    let length = slices::report_text_part(sheet, part, &mut bytes)?;
    bytes.truncate(length);
    Ok(ascii(bytes))
}

/// The sheet's clauses as a DIMACS file. The longest has over six million bytes;
/// [`clause_text_part`] gives it in parts.
///
/// ```
/// use tablegull::builder::{Line, SheetBuilder};
///
/// let mut sheet = SheetBuilder::new(2, &[1]);
/// sheet.line(Line::add_constant(0, 1, 3));
/// let text = tablegull::clause_text(&sheet.seal()?)?;
/// let expected = "\
/// p cnf 6 16
/// 1 3 0
/// -1 -3 0
/// 1 -5 0
/// -1 5 0
/// 2 5 -4 0
/// 2 -5 4 0
/// -2 5 4 0
/// -2 -5 -4 0
/// -1 -3 0
/// 1 3 0
/// -1 -6 0
/// 1 6 0
/// 2 6 4 0
/// 2 -6 -4 0
/// -2 6 -4 0
/// -2 -6 4 0
/// ";
/// assert_eq!(text, expected);
/// # Ok::<(), tablegull::Refusal>(())
/// ```
#[cfg(has_archive)]
pub fn clause_text(sheet: &[u8]) -> Result<String, Refusal> {
    joined_parts(sheet, |part| clause_text_part(sheet, part))
}

/// All reports and the totals as text.
///
/// ```
/// use tablegull::builder::{Line, SheetBuilder};
///
/// let mut sheet = SheetBuilder::new(2, &[1]);
/// sheet.line(Line::add_constant(0, 1, 3));
/// let text = tablegull::report_text(&sheet.seal()?)?;
/// assert_eq!(text, "0 counted 0 1 4\ntotal 0 0 1\n");
/// # Ok::<(), tablegull::Refusal>(())
/// ```
#[cfg(has_archive)]
pub fn report_text(sheet: &[u8]) -> Result<String, Refusal> {
    joined_parts(sheet, |part| report_text_part(sheet, part))
}

/// Parts 0 to L of a text of this sheet.
#[cfg(has_archive)]
fn joined_parts(
    sheet: &[u8],
    part_text: impl Fn(usize) -> Result<String, Refusal>,
) -> Result<String, Refusal> {
    let lines = read(sheet)?;
    (0..=lines).map(part_text).collect()
}

#[cfg(has_archive)]
fn ascii(bytes: Vec<u8>) -> String {
    String::from_utf8(bytes).expect("the archive writes ASCII")
}

/// The joined sheet: the first's inputs and lines, then the second's lines with
/// operands renumbered. `names` has for each input of the second the word of the
/// first that it is. Lines that XOR a word with itself are kept.
///
/// A refusal by one of questions 1 to 16 does not tell which sheet it is about:
/// it is the first if `read` refuses the first, else the second.
#[cfg(has_archive)]
pub fn join(first: &[u8], second: &[u8], names: &[u64]) -> Result<Vec<u8>, Refusal> {
    let mut sheet = vec![0; MAX_SHEET];
    let length = slices::join(first, second, names, &mut sheet)?;
    sheet.truncate(length);
    Ok(sheet)
}

/// Replaces the difference that a line states, and renews the check of the line's
/// block. No other byte changes, and the sheet can be read afterwards: it is used
/// like any other.
///
/// Where there is no such line the call is refused by 17. A difference that is not
/// below 2^n is refused by 14, at the line. A sheet that has such a difference
/// itself is refused by 14 too: then `read` refuses the sheet.
///
/// ```
/// use tablegull::builder::{Line, SheetBuilder};
/// use tablegull::LineReport;
///
/// let mut sheet = SheetBuilder::new(4, &[1]);
/// let turned = sheet.line(Line::rotate_left(0, 1, 2));
/// sheet.line(Line::rotate_left(turned, 1, 8));
/// let mut bytes = sheet.seal()?;
/// assert_eq!(tablegull::line_report(&bytes, 1)?, LineReport::Impossible);
///
/// tablegull::change(&mut bytes, 1, 4)?;
/// assert_eq!(tablegull::line_report(&bytes, 1)?, LineReport::Certain);
///
/// assert_eq!(tablegull::change(&mut bytes, 2, 4).unwrap_err().number, 17);
/// let too_large = tablegull::change(&mut bytes, 1, 16).unwrap_err();
/// assert_eq!((too_large.number, too_large.place), (14, 1));
/// # Ok::<(), tablegull::Refusal>(())
/// ```
#[cfg(has_archive)]
pub fn change(sheet: &mut [u8], line: usize, difference: u64) -> Result<(), Refusal> {
    slices::change(sheet, line, difference)?;
    Ok(())
}

/// The reports of all lines, in order, that the sheet would have if [`change`] put
/// this difference into this line. It is refused where the change would be.
///
/// ```
/// use tablegull::builder::{Line, SheetBuilder};
/// use tablegull::LineReport::{Certain, Impossible};
///
/// let mut sheet = SheetBuilder::new(4, &[1]);
/// let turned = sheet.line(Line::rotate_left(0, 1, 2));
/// sheet.line(Line::rotate_left(turned, 1, 8));
/// let bytes = sheet.seal()?;
/// assert_eq!(tablegull::reports(&bytes)?, [Certain, Impossible]);
///
/// // In the second line 4 mends the trail. In the first one it does not: the second
/// // could happen then, and the first could not.
/// assert_eq!(tablegull::trial(&bytes, 1, 4)?, [Certain, Certain]);
/// assert_eq!(tablegull::trial(&bytes, 0, 4)?, [Impossible, Certain]);
/// # Ok::<(), tablegull::Refusal>(())
/// ```
#[cfg(has_archive)]
pub fn trial(sheet: &[u8], line: usize, difference: u64) -> Result<Vec<LineReport>, Refusal> {
    let mut bytes = [0; MAX_LINES * LINE_REPORT];
    let count = slices::trial(sheet, line, difference, &mut bytes)?;
    Ok(reports_of_bytes(&bytes[..count]))
}

/// Makes the changes of a list, each a line and its new difference, in order. The sheet
/// and the replies are those of [`change`] called once for each pair: a pair that it
/// would refuse is skipped and answered by that refusal, and the last pair applied to a
/// line wins.
///
/// The call itself is refused if reading refuses the sheet, and by 24 for more than
/// [`MAX_CHANGES`] pairs: then no change is made.
///
/// ```
/// use tablegull::builder::{Line, SheetBuilder};
/// use tablegull::LineReport::{Certain, Impossible};
///
/// let mut sheet = SheetBuilder::new(4, &[1]);
/// let turned = sheet.line(Line::rotate_left(0, 1, 4));
/// sheet.line(Line::rotate_left(turned, 1, 1));
/// let mut bytes = sheet.seal()?;
/// assert_eq!(tablegull::reports(&bytes)?, [Impossible, Impossible]);
///
/// // 16 is not below 2^4, so line 1 keeps the 4 that it got before.
/// let replies = tablegull::change_all(&mut bytes, &[(0, 2), (1, 4), (1, 16)])?;
/// assert_eq!(replies[..2], [Ok(()), Ok(())]);
/// let too_large = replies[2].unwrap_err();
/// assert_eq!((too_large.number, too_large.place), (14, 1));
/// assert_eq!(tablegull::reports(&bytes)?, [Certain, Certain]);
/// # Ok::<(), tablegull::Refusal>(())
/// ```
#[cfg(has_archive)]
pub fn change_all(
    sheet: &mut [u8],
    pairs: &[(usize, u64)],
) -> Result<Vec<Result<(), Refusal>>, Refusal> {
    let numbers: Vec<u64> = pairs
        .iter()
        .flat_map(|&(line, difference)| [line as u64, difference])
        .collect();
    let mut replies = [0; MAX_CHANGES];
    let count = slices::change_all(sheet, &numbers, &mut replies)?;
    let replies = pairs.iter().zip(&replies[..count]);
    Ok(replies
        .map(|(&(line, _), &reply)| reply_to_change(line, reply))
        .collect())
}

/// What [`change`] answers where a list of changes has this reply.
#[cfg(has_archive)]
fn reply_to_change(line: usize, reply: u8) -> Result<(), Refusal> {
    let refused = |number, place| Err(Refusal { number, place });
    match reply {
        0 => Ok(()),
        14 => refused(14, line as u64),
        number => refused(number.into(), 0),
    }
}

/// Which lines use each word of the sheet.
///
/// A line uses its first operand, and its second one if it XORs, adds or subtracts two
/// words. A line that names a word twice is one of its users once.
///
/// ```
/// use tablegull::builder::{Line, SheetBuilder};
///
/// let mut sheet = SheetBuilder::new(4, &[1, 0]);
/// let sum = sheet.line(Line::add(0, 1, 1));
/// sheet.line(Line::rotate_left(sum, 1, 2));
/// sheet.line(Line::xor(sum, 0, 0));
/// let index = tablegull::index(&sheet.seal()?)?;
/// assert_eq!(index.users(0), Some(&[0, 2][..]));
/// assert_eq!(index.users(sum), Some(&[1, 2][..]));
/// // For each of the five words the number of lines, and then the lines.
/// assert_eq!(index.0, [2, 0, 2, 1, 0, 2, 1, 2, 0, 0]);
/// # Ok::<(), tablegull::Refusal>(())
/// ```
#[cfg(has_archive)]
pub fn index(sheet: &[u8]) -> Result<Index, Refusal> {
    let mut numbers = vec![0; MAX_INDEX];
    let count = slices::index(sheet, &mut numbers)?;
    numbers.truncate(count);
    Ok(Index(numbers))
}

/// Changes a difference as [`change`] does, and renews the reports that are kept beside
/// the sheet: they are then what [`reports`] answers of the changed sheet. The index
/// stays as it is, and both can be handed to the next call.
///
/// Index and reports have to be the sheet's own, as [`index`] and [`reports`] answer
/// them. Where one is not, as may be after a change by another call, 26 is the refusal.
/// Then come 17 and 14, as of [`change`]. A refusal leaves sheet and reports as they are.
///
/// ```
/// use tablegull::builder::{Line, SheetBuilder};
/// use tablegull::LineReport::{Certain, Impossible};
///
/// let mut sheet = SheetBuilder::new(4, &[1]);
/// let turned = sheet.line(Line::rotate_left(0, 1, 4));
/// sheet.line(Line::rotate_left(turned, 1, 4));
/// let mut bytes = sheet.seal()?;
/// let index = tablegull::index(&bytes)?;
/// let mut reports = tablegull::reports(&bytes)?;
/// assert_eq!(reports, [Impossible, Impossible]);
///
/// // Line 1 uses the word of line 0.
/// tablegull::change_indexed(&mut bytes, &index, &mut reports, 0, 2)?;
/// assert_eq!(reports, [Certain, Certain]);
///
/// tablegull::change(&mut bytes, 1, 8)?;
/// let other = tablegull::change_indexed(&mut bytes, &index, &mut reports, 1, 4);
/// assert_eq!(other.unwrap_err().number, 26);
/// # Ok::<(), tablegull::Refusal>(())
/// ```
#[cfg(has_archive)]
pub fn change_indexed(
    sheet: &mut [u8],
    index: &Index,
    reports: &mut [LineReport],
    line: usize,
    difference: u64,
) -> Result<(), Refusal> {
    let lent = reports.iter().copied();
    let mut bytes: Vec<u8> = lent.flat_map(LineReport::to_bytes).collect();
    slices::change_indexed(sheet, &index.0, &mut bytes, line, difference)?;
    reports.copy_from_slice(&reports_of_bytes(&bytes));
    Ok(())
}
