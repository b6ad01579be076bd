//! The index of a sheet, and a change that is lent index and report: plain models of
//! both, the calls with every lent byte looked at, and what may be lent at random.

use super::changing::{apart, Change};
use super::lending::{rewritten, written};
use super::{implementations, Calls, Program, Random, REFERENCE};
use tablegull::Refusal;

/// What is kept beside a sheet.
#[derive(Clone, Debug, PartialEq, Eq)]
pub struct Kept {
    pub index: Vec<u16>,
    pub report: Vec<u8>,
}

impl Kept {
    /// An accepted sheet's own: the index by going through all lines for each word, and
    /// the reference's report.
    pub fn of(sheet: &[u8]) -> Kept {
        Kept {
            index: Program::parse(sheet).index(),
            report: REFERENCE.whole_report(sheet),
        }
    }
}

/// A sheet after a change, and the report that was kept beside it.
#[derive(Clone, Debug, PartialEq, Eq)]
pub struct Changed {
    pub sheet: Vec<u8>,
    pub report: Vec<u8>,
}

type Outcome = Result<Changed, Refusal>;

/// Holds what a change came to against what it has to come to, and where they are not
/// the same says in what.
pub fn assert_same(answer: &Outcome, expected: &Outcome, case: impl Fn() -> String) {
    assert_eq!(answer.as_ref().err(), expected.as_ref().err(), "{}", case());
    if let (Ok(answer), Ok(expected)) = (answer, expected) {
        let places = apart(&answer.sheet, &expected.sheet);
        assert!(places.is_empty(), "{}: sheet, bytes {places:?}", case());
        let places = apart(&answer.report, &expected.report);
        assert!(places.is_empty(), "{}: report, bytes {places:?}", case());
    }
}

/// What a change comes to that is lent these, by the plain model of a change and by
/// making index and report anew.
pub fn outcome(sheet: &[u8], lent: &Kept, change: Change) -> Outcome {
    (REFERENCE.read)(sheet)?;
    if *lent != Kept::of(sheet) {
        return Err(Refusal {
            number: 26,
            place: 0,
        });
    }
    let sheet = change.outcome(sheet)?;
    let report = REFERENCE.whole_report(&sheet);
    Ok(Changed { sheet, report })
}

impl Calls {
    /// The report of an accepted sheet, at its exact length.
    pub fn whole_report(&self, sheet: &[u8]) -> Vec<u8> {
        let mut report = vec![0; 3968];
        let length = (self.report)(sheet, &mut report).unwrap();
        report.truncate(length);
        report
    }

    /// What the call for the index writes into so much room. The sheet is left whole.
    pub fn indexed(&self, sheet: &[u8], room: usize) -> Result<Vec<u16>, Refusal> {
        let read_only = sheet.to_vec();
        let case = || format!("{}: index, room {room}", self.name);
        let answer = written(case, room, |out| (self.index)(sheet, out));
        assert!(sheet == read_only, "{}: the sheet was written", case());
        answer
    }

    /// Changes a copy of a sheet, and renews a copy of the report. The index is left as
    /// it is; a refusal writes nothing.
    pub fn changed_indexed(&self, sheet: &[u8], lent: &Kept, change: Change) -> Outcome {
        let case = || format!("{}: {change:?}", self.name);
        let (line, difference) = (change.line, change.difference);
        // An index ends with 0, as no line uses the last word: of one that is too short
        // the rest stands behind it.
        let around = [&[1], &lent.index[..], &[0, 0]].concat();
        let index = &around[1..1 + lent.index.len()];
        let mut report = Vec::new();
        let (answer, copy) = rewritten(case, sheet, |copy| {
            let call = |out: &mut [u8]| (self.change_indexed)(copy, index, out, line, difference);
            let (answer, renewed) = rewritten(case, &lent.report, call);
            report = renewed;
            answer
        });
        assert!(index == lent.index, "{}: the index was written", case());
        match answer {
            Ok(count) => assert_eq!(count, 0, "{}", case()),
            Err(_) => assert!(
                copy == sheet && report == lent.report,
                "{}: a refusal that wrote",
                case()
            ),
        }
        answer.map(|_| Changed {
            sheet: copy,
            report,
        })
    }
}

/// What the call for the index comes to in so much room. All implementations are held
/// to going through all lines for each word.
pub fn indexed(sheet: &[u8], room: usize) -> Result<Vec<u16>, Refusal> {
    let expected = (REFERENCE.read)(sheet).and_then(|_| {
        let index = Program::parse(sheet).index();
        if room < index.len() {
            return Err(Refusal {
                number: 18,
                place: 0,
            });
        }
        Ok(index)
    });
    for calls in implementations() {
        let answer = calls.indexed(sheet, room);
        assert_eq!(answer, expected, "{}: room {room}", calls.name);
    }
    expected
}

/// What a change comes to that is lent these. All implementations are held to it, to
/// their own plain change, and to their own index and report of the changed sheet.
pub fn changed_indexed(sheet: &[u8], lent: &Kept, change: Change) -> Outcome {
    let expected = outcome(sheet, lent, change);
    for calls in implementations() {
        let case = || format!("{}: {change:?}", calls.name);
        let answer = calls.changed_indexed(sheet, lent, change);
        assert_same(&answer, &expected, case);
        let Ok(changed) = answer else { continue };
        let plain = calls.changed(sheet, change);
        assert!(plain == Ok(changed.sheet.clone()), "{}: plain", case());
        let report = calls.whole_report(&changed.sheet);
        assert!(changed.report == report, "{}: report afresh", case());
        let index = calls.indexed(&changed.sheet, lent.index.len());
        assert_eq!(index.as_ref(), Ok(&lent.index), "{}: index", case());
    }
    expected
}

/// Rooms about the need, and any.
pub fn random_room_of_index(random: &mut Random, need: usize) -> usize {
    match random.below(8) {
        0 | 1 => need - 1,
        2 => random.below(need),
        3 => need + 1 + random.below(40),
        4 => 752,
        5 => random.below(1000),
        _ => need,
    }
}

/// Makes what is kept beside a sheet another's: mostly, as some of this may leave it as
/// it was.
pub fn spoil(random: &mut Random, kept: &mut Kept) {
    match random.below(3) {
        0 => spoil_index(random, &mut kept.index),
        1 => spoil_report(random, &mut kept.report),
        _ => {
            spoil_index(random, &mut kept.index);
            spoil_report(random, &mut kept.report);
        }
    }
}

fn spoil_index(random: &mut Random, index: &mut Vec<u16>) {
    let (at, other) = (random.below(index.len()), random.below(index.len()));
    match random.below(9) {
        0 => index.truncate(index.len() - 1),
        1 => index.truncate(at),
        2 => index.push(0),
        3 => index.push(random.below(9) as u16),
        4 => index[at] ^= 1 << random.below(16),
        5 => index[at] = index[at].wrapping_add(1),
        6 => index[at] = index[at].wrapping_sub(1),
        7 => index.swap(at, other),
        _ => {
            index.remove(at);
        }
    }
}

fn spoil_report(random: &mut Random, report: &mut Vec<u8>) {
    let (at, other) = (random.below(report.len()), random.below(report.len()));
    let (length, line, other_line) = (report.len(), at / 16 * 16, other / 16 * 16);
    match random.below(8) {
        0 => report.truncate(length - 1),
        1 => report.truncate(length - 16),
        2 => report.truncate(at),
        3 => report.push(0),
        4 => report.extend([0; 16]),
        5 => report[line] = random.below(4) as u8,
        6 => report.copy_within(line..line + 16, other_line),
        _ => report[at] ^= 1 << random.below(8),
    }
}
