//! The two texts of a sheet: what each part has to be by lists, reports and
//! totals, and the calls with every lent byte looked at.

use super::lending::written;
use super::{implementations, Calls, Random, REFERENCE};
use tablegull::{Refusal, MAX_CLAUSE_TEXT, MAX_REPORT_TEXT};

/// One of the two texts.
#[derive(Clone, Copy, Debug, PartialEq, Eq)]
pub enum Text {
    Clauses,
    Report,
}

pub const TEXTS: [Text; 2] = [Text::Clauses, Text::Report];

impl Text {
    /// Bytes that are enough for any part.
    pub fn most(self) -> usize {
        match self {
            Text::Clauses => MAX_CLAUSE_TEXT,
            Text::Report => MAX_REPORT_TEXT,
        }
    }
}

impl Calls {
    /// What a part of a text has to be, by this implementation's other calls, or
    /// the refusal of a call that is lent room enough.
    pub fn part_by_other_calls(
        &self,
        text: Text,
        sheet: &[u8],
        part: usize,
    ) -> Result<String, Refusal> {
        let lines = (self.read)(sheet)?;
        if part > lines {
            return refused(17);
        }
        Ok(match (text, part) {
            (Text::Clauses, 0) => self.clause_header(sheet),
            (Text::Clauses, _) => self.clause_lines(sheet, part - 1),
            (Text::Report, _) if part < lines => self.report_line(sheet, part),
            (Text::Report, _) => self.total_line(sheet),
        })
    }

    /// A whole text of an accepted sheet, by this implementation's other calls.
    pub fn text_by_other_calls(&self, text: Text, sheet: &[u8]) -> String {
        (0..=(self.read)(sheet).unwrap())
            .map(|part| self.part_by_other_calls(text, sheet, part).unwrap())
            .collect()
    }

    fn clause_header(&self, sheet: &[u8]) -> String {
        let mut counts = [0; 2];
        (self.clause_counts)(sheet, &mut counts).unwrap();
        let [variables, clauses] = counts;
        format!("p cnf {variables} {clauses}\n")
    }

    fn clause_lines(&self, sheet: &[u8], line: usize) -> String {
        let mut text = String::new();
        for clause in self.clauses(sheet, line) {
            for literal in clause {
                text += &format!("{literal} ");
            }
            text += "0\n";
        }
        text
    }

    fn report_line(&self, sheet: &[u8], line: usize) -> String {
        let report = self.report_of(sheet, line);
        let name = ["impossible", "certain", "halves", "counted"][usize::from(report.number)];
        let (weight, chains, count) = (report.weight, report.chains, report.count);
        format!("{line} {name} {weight} {chains} {count}\n")
    }

    fn total_line(&self, sheet: &[u8]) -> String {
        let [impossible, weight, chains] = self.sheet_totals(sheet);
        format!("total {impossible} {weight} {chains}\n")
    }

    /// Has a part written into a piece of a longer buffer, and answers what was
    /// written there. No other byte may have changed, and none of the sheet.
    pub fn text_part(
        &self,
        text: Text,
        sheet: &[u8],
        part: usize,
        room: usize,
    ) -> Result<Vec<u8>, Refusal> {
        let call = match text {
            Text::Clauses => self.clause_text_part,
            Text::Report => self.report_text_part,
        };
        let read_only = sheet.to_vec();
        let case = || format!("{}: {text:?}, part {part}, room {room}", self.name);
        let answer = written(case, room, |out| call(sheet, part, out));
        assert!(sheet == read_only, "{}: the sheet was written", case());
        answer
    }

    /// A whole text of an accepted sheet: its parts, one after the other, each
    /// into as much room as any needs.
    pub fn joined_text(&self, text: Text, sheet: &[u8]) -> String {
        let parts = 0..=(self.read)(sheet).unwrap();
        let bytes: Vec<u8> = parts
            .flat_map(|part| self.text_part(text, sheet, part, text.most()).unwrap())
            .collect();
        String::from_utf8(bytes).unwrap()
    }

    /// Holds the call for a part to what it has to come to.
    pub fn check_text_part(
        &self,
        text: Text,
        sheet: &[u8],
        part: usize,
        room: usize,
        wanted: &Result<String, Refusal>,
    ) {
        let answer = self.text_part(text, sheet, part, room);
        let wanted = match wanted {
            Ok(wanted) if wanted.len() > room => refused(18),
            Ok(wanted) => Ok(wanted.as_bytes()),
            Err(refusal) => Err(*refusal),
        };
        let case = || format!("{}: {text:?}, part {part}, room {room}", self.name);
        match (answer, wanted) {
            (Ok(answer), Ok(wanted)) => {
                let differs = (0..answer.len().max(wanted.len()))
                    .find(|&at| answer.get(at) != wanted.get(at));
                if let Some(at) = differs {
                    panic!(
                        "{}: byte {at}: {:?}, wanted {:?}",
                        case(),
                        shown_from(&answer, at),
                        shown_from(wanted, at)
                    );
                }
            }
            (answer, wanted) => {
                let (answer, wanted) = (answer.map(|text| text.len()), wanted.map(<[u8]>::len));
                assert_eq!(answer, wanted, "{}", case());
            }
        }
    }
}

fn refused<T>(number: u32) -> Result<T, Refusal> {
    Err(Refusal { number, place: 0 })
}

/// Some bytes from a place on, to be printed.
fn shown_from(bytes: &[u8], at: usize) -> String {
    let rest = bytes.get(at..).unwrap_or(&[]);
    String::from_utf8_lossy(&rest[..rest.len().min(24)]).into_owned()
}

/// Holds all implementations to what a part has to be by the reference's other
/// calls, or to the refusal. The rooms are about the part's length: any that is
/// too short, short by one, exact, longer, and as much as any part needs.
pub fn check_part(random: &mut Random, text: Text, sheet: &[u8], part: usize) {
    let wanted = REFERENCE.part_by_other_calls(text, sheet, part);
    let rooms = match &wanted {
        Ok(wanted) => {
            let length = wanted.len();
            assert!(length <= text.most(), "{text:?}, part {part}: {length}");
            vec![
                random.below(length),
                length - 1,
                length,
                length + 1 + random.below(40),
                text.most(),
            ]
        }
        Err(_) => vec![0, random.below(100), text.most()],
    };
    for calls in implementations() {
        for &room in &rooms {
            calls.check_text_part(text, sheet, part, room, &wanted);
        }
    }
}

/// A part that there is not in a text of so many lines: the next ones, and those
/// whose low bits are the number of a part that there is.
pub fn part_past(random: &mut Random, lines: usize) -> usize {
    let there = random.below(lines + 1);
    match random.below(8) {
        0 => lines + 1,
        1 => lines + 2 + random.below(300),
        2 => there | 1 << random.pick(&[8, 9, 16, 31, 32, 33, 48, 63]),
        3 => usize::MAX - there,
        4 => usize::MAX - random.below(2),
        5 => 1 << random.pick(&[8, 16, 32, 63]),
        6 => lines + 1 + (random.next() >> 1 >> random.below(63)) as usize,
        _ => there + random.pick(&[256, 1 << 16, 1 << 32]),
    }
}
