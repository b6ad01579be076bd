//! Sealing: what it comes to by what reading comes to, the call with every lent
//! byte looked at, random sheets to be sealed, and a count of what they were.

use super::damage::{damage_a_field, damage_a_line, xor_a_word_with_itself};
use super::lending::rewritten;
use super::{
    disturb, random_shape, write_checks, Calls, Outcome, Program, Random, Step, REFERENCE,
};
use tablegull::Refusal;

impl Calls {
    /// What reading comes to if the checks are right.
    pub fn read_with_checks(&self, sheet: &[u8]) -> Outcome {
        let mut bytes = sheet.to_vec();
        write_checks(&mut bytes);
        (self.read)(&bytes)
    }

    /// What sealing has to come to: it asks what reading asks but for the checks,
    /// and directly after 11 whether the line XORs a word with itself.
    pub fn sealing_by_reading(&self, sheet: &[u8]) -> Outcome {
        let read = self.read_with_checks(sheet);
        if let Err(refusal @ Refusal { number: ..9, .. }) = read {
            return Err(refusal);
        }
        let steps = Program::parse(sheet).steps;
        let lines_past_11 = match read {
            Err(refusal @ Refusal { number: ..12, .. }) => refusal.place as usize,
            Err(refusal @ Refusal { number: ..16, .. }) => refusal.place as usize + 1,
            _ => steps.len(),
        };
        let found = steps[..lines_past_11]
            .iter()
            .position(Step::xors_a_word_with_itself);
        match found {
            Some(line) => Err(Refusal {
                number: 23,
                place: line as u64,
            }),
            None => read.map(|_| sheet.len() / 512),
        }
    }

    /// Seals a copy that is a part of a longer buffer. Success writes the checks
    /// and no other byte, a refusal none at all.
    pub fn sealed(&self, sheet: &[u8]) -> Outcome {
        let (answer, sealed) = rewritten(|| self.name.into(), sheet, self.seal);
        let mut expected = sheet.to_vec();
        if answer.is_ok() {
            write_checks(&mut expected);
        }
        assert!(sealed == expected, "{}: {answer:?}, bytes", self.name);
        answer
    }
}

/// A random sheet, sealed or not. Mostly a word is XORed with itself, at times
/// with a fault in the same line, in another line, or anywhere.
pub fn random_sheet_to_seal(random: &mut Random) -> Vec<u8> {
    let (mut program, _) = random_shape(random);
    if random.one_in(2) {
        disturb(random, &mut program);
    }
    let lines = program.steps.len();
    let mut bytes = program.sheet();
    for _ in 0..random.pick(&[0, 1, 1, 2]) {
        let line = match random.below(4) {
            0 => lines - 1,
            _ => random.below(lines),
        };
        let other = random.below(lines);
        xor_a_word_with_itself(random, &mut bytes, line);
        match random.below(4) {
            0 => damage_a_line(random, &mut bytes, line),
            1 => damage_a_line(random, &mut bytes, other),
            _ => {}
        }
    }
    if random.one_in(3) {
        damage_a_field(random, &mut bytes);
    }
    if random.one_in(32) {
        let length = bytes.len();
        bytes.resize(random.pick(&[0, 512, length - 1, length + 512, 5120]), 0);
    }
    match random.below(3) {
        0 => write_checks(&mut bytes),
        1 => bytes
            .chunks_exact_mut(512)
            .for_each(|block| block[508..].fill(0)),
        _ => {}
    }
    bytes
}

/// How often each number was reading's refusal; 0 is for what was accepted.
type ByNumber = [usize; 17];

/// How often reading came to each number, with right checks: by where the first
/// line is that XORs a word with itself.
#[derive(Debug, Default)]
pub struct Met {
    /// The header was refused.
    header: ByNumber,
    /// There is no such line.
    none: ByNumber,
    /// It comes before the line that reading refuses, or reading refuses none.
    before: ByNumber,
    /// It is the line that reading refuses.
    same: ByNumber,
    /// It comes after the line that reading refuses.
    after: ByNumber,
}

impl Met {
    pub fn count(&mut self, sheet: &[u8]) {
        let (number, refused) = match REFERENCE.read_with_checks(sheet) {
            Ok(lines) => (0, lines),
            Err(Refusal { number: 16, .. }) => (16, usize::MAX),
            Err(Refusal { number, place }) => (number as usize, place as usize),
        };
        let by_number = if (1..9).contains(&number) {
            &mut self.header
        } else {
            match Program::parse(sheet).word_xored_with_itself() {
                None => &mut self.none,
                Some(line) if line < refused => &mut self.before,
                Some(line) if line == refused => &mut self.same,
                Some(_) => &mut self.after,
            }
        };
        by_number[number] += 1;
    }

    /// Each question was answered no, beside a word XORed with itself and without.
    pub fn assert_all(&self) {
        let assert = |by_number: &ByNumber, numbers: &[usize], times: usize| {
            for &number in numbers {
                assert!(by_number[number] > times, "{number}: {self:?}");
            }
        };
        assert(&self.header, &[1, 3, 4, 5, 6, 7, 8], 20);
        assert(&self.none, &[0, 9, 10, 11, 12, 13, 14, 15, 16], 20);
        // Here sealing refuses by 23 what reading accepts, or refuses by these.
        assert(&self.before, &[0, 9, 10, 11, 12, 13, 14, 15, 16], 100);
        // Sealing gives 23 for 14 and 15, but 10 if the word is not an earlier one.
        assert(&self.same, &[10, 14, 15], 500);
        // Sealing gives these, not 23.
        assert(&self.after, &[9, 10, 11, 12, 13, 14, 15], 100);
    }
}
