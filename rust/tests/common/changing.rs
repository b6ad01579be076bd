//! Changing a stated difference and trying a change: a plain model of both, the
//! calls with every lent byte looked at, and changes at random.

use super::lending::{rewritten, written};
use super::texts::part_past;
use super::{implementations, record, Calls, Program, Random, REFERENCE};
use tablegull::Refusal;

/// A difference for a line.
#[derive(Clone, Copy, Debug)]
pub struct Change {
    pub line: usize,
    pub difference: u64,
}

impl Change {
    /// What changing a sheet comes to. It is taken apart into a program, and the
    /// sheet of the changed program is made anew.
    pub fn outcome(&self, sheet: &[u8]) -> Result<Vec<u8>, Refusal> {
        (REFERENCE.read)(sheet)?;
        let mut program = Program::parse(sheet);
        let Some(step) = program.steps.get_mut(self.line) else {
            return Err(Refusal {
                number: 17,
                place: 0,
            });
        };
        if self.difference >= 1 << program.width {
            return Err(Refusal {
                number: 14,
                place: self.line as u64,
            });
        }
        step.difference = self.difference as u32;
        Ok(program.sheet())
    }

    /// The bytes of a sheet that may be other ones afterwards: those of the line's
    /// difference and those of its block's check.
    pub fn places(&self) -> Vec<usize> {
        let (field, check) = (record(self.line) + 12, 512 * (1 + self.line / 31) + 508);
        (field..field + 4).chain(check..check + 4).collect()
    }
}

/// Where two sheets of one length have different bytes.
pub fn apart(one: &[u8], other: &[u8]) -> Vec<usize> {
    assert_eq!(one.len(), other.len());
    (0..one.len()).filter(|&at| one[at] != other[at]).collect()
}

impl Calls {
    /// Changes a copy of a sheet, and answers the copy. A change writes the line's
    /// difference and its block's check, and a refusal nothing.
    pub fn changed(&self, sheet: &[u8], change: Change) -> Result<Vec<u8>, Refusal> {
        let case = || format!("{}: {change:?}", self.name);
        let call = |copy: &mut [u8]| (self.change)(copy, change.line, change.difference);
        let (answer, copy) = rewritten(case, sheet, call);
        let mut stray = apart(sheet, &copy);
        if let Ok(count) = answer {
            assert_eq!(count, 0, "{}", case());
            stray.retain(|place| !change.places().contains(place));
        }
        assert!(stray.is_empty(), "{}: bytes {stray:?}", case());
        answer.map(|_| copy)
    }

    /// Tries a change, and answers what was written into so much room. The sheet is
    /// left whole.
    pub fn tried(&self, sheet: &[u8], change: Change, room: usize) -> Result<Vec<u8>, Refusal> {
        let read_only = sheet.to_vec();
        let case = || format!("{}: {change:?}, room {room}", self.name);
        let call = |out: &mut [u8]| (self.trial)(sheet, change.line, change.difference, out);
        let answer = written(case, room, call);
        assert!(sheet == read_only, "{}: the sheet was written", case());
        answer
    }

    /// The report of a sheet in so much room.
    fn reported(&self, sheet: &[u8], room: usize) -> Result<Vec<u8>, Refusal> {
        let case = || format!("{}: report, room {room}", self.name);
        written(case, room, |out| (self.report)(sheet, out))
    }
}

/// What a change comes to. All implementations are held to it, and have to accept
/// the changed sheet.
pub fn changed(sheet: &[u8], change: Change) -> Result<Vec<u8>, Refusal> {
    let expected = change.outcome(sheet);
    for calls in implementations() {
        let name = calls.name;
        let answer = calls.changed(sheet, change);
        assert_eq!(
            answer.as_ref().err(),
            expected.as_ref().err(),
            "{name}: {change:?}"
        );
        assert!(answer == expected, "{name}: {change:?}: other bytes");
        if let Ok(changed) = answer {
            assert_eq!((calls.read)(&changed), (calls.read)(sheet), "{name}");
        }
    }
    expected
}

/// What a trial in so much room comes to. All implementations are held to it, and
/// to their own report of a copy that they have changed.
pub fn tried(sheet: &[u8], change: Change, room: usize) -> Result<Vec<u8>, Refusal> {
    let report_of_changed = |calls: &Calls, changed: Result<Vec<u8>, Refusal>| {
        changed.and_then(|changed| calls.reported(&changed, room))
    };
    let expected = report_of_changed(&REFERENCE, change.outcome(sheet));
    for calls in implementations() {
        let case = || format!("{}: {change:?}, room {room}", calls.name);
        let answer = calls.tried(sheet, change, room);
        assert_eq!(answer, expected, "{}", case());
        let by_copy = report_of_changed(&calls, calls.changed(sheet, change));
        assert_eq!(answer, by_copy, "{}: by a copy", case());
    }
    expected
}

/// A change of a sheet with so many lines: often of the first or of the last one,
/// at times of one that there is not, or by a difference that does not fit.
pub fn random_change(random: &mut Random, width: u32, lines: usize) -> Change {
    let line = match random.below(8) {
        0 => 0,
        1 => lines - 1,
        // A text has one part more than there are lines.
        2 => part_past(random, lines - 1),
        _ => random.below(lines),
    };
    let difference = match random.below(6) {
        0 => difference_past(random, width),
        _ => random.difference(width).into(),
    };
    Change { line, difference }
}

/// A difference that does not fit a width; of most the low bits do.
pub fn difference_past(random: &mut Random, width: u32) -> u64 {
    let fits = u64::from(random.difference(width));
    match random.below(6) {
        0 => 1 << width,
        1 => 1 << width | fits,
        2 => 1 << random.pick(&[32, 33, 48, 63]) | fits,
        3 => u64::MAX,
        4 => u64::MAX << width | fits,
        _ => (random.next() >> random.below(32)).max(1 << width),
    }
}

/// Rooms about the need, and any.
pub fn random_room(random: &mut Random, lines: usize) -> usize {
    let need = 16 * lines;
    match random.below(8) {
        0 => need - 1,
        1 => need - 16,
        2 => random.below(need),
        3 => need + 1 + random.below(40),
        4 => 3968,
        5 => random.below(5000),
        _ => need,
    }
}
