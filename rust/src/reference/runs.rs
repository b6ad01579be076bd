//! The run of two starting values.

use super::line_report::{rotate_left, rotate_right, shift_left, shift_right};
use super::refuse_unless;
use super::sheet::{self, Record, Sheet};
use crate::{Refusal, MAX_LINES};

/// Where two runs first differ otherwise than stated.
#[derive(Clone, Copy, Debug, PartialEq, Eq)]
pub struct Disagreement {
    /// The first line.
    pub line: usize,
    /// The lowest bit in it.
    pub bit: u32,
}

/// Eight inputs and the results of all lines.
const MAX_WORDS: usize = 8 + MAX_LINES;

impl Sheet<'_> {
    /// Runs the program on `start` and on `start` XOR the input differences.
    /// Answers nothing if the runs follow the trail.
    ///
    /// Refuses with 19 unless there are exactly m words, each below 2^n.
    pub fn two_runs(&self, start: &[u64]) -> Result<Option<Disagreement>, Refusal> {
        let mask = self.mask();
        let fits = start.len() == self.input_count() && start.iter().all(|&x| x <= mask.into());
        refuse_unless(fits, 19, 0)?;

        let mut first = [0; MAX_WORDS];
        let mut second = [0; MAX_WORDS];
        for (word, difference) in self.input_differences().enumerate() {
            first[word] = start[word] as u32;
            second[word] = start[word] as u32 ^ difference;
        }
        for (line, record) in self.records().enumerate() {
            let word = self.input_count() + line;
            first[word] = self.result(&record, &first);
            second[word] = self.result(&record, &second);
            let wrong = first[word] ^ second[word] ^ record.difference;
            if wrong != 0 {
                let bit = wrong.trailing_zeros();
                return Ok(Some(Disagreement { line, bit }));
            }
        }
        Ok(None)
    }

    /// The word that a line makes of the words before it.
    fn result(&self, record: &Record, words: &[u32; MAX_WORDS]) -> u32 {
        let first = words[usize::from(record.first)];
        let second = words[usize::from(record.second)];
        let amount = record.amount.into();
        let result = match record.kind {
            sheet::XOR => first ^ second,
            sheet::XOR_CONSTANT => first ^ record.constant,
            sheet::ROTATE_LEFT => rotate_left(first, amount, self.width()),
            sheet::ROTATE_RIGHT => rotate_right(first, amount, self.width()),
            sheet::ADD => first.wrapping_add(second),
            sheet::ADD_CONSTANT => first.wrapping_add(record.constant),
            sheet::SHIFT_LEFT => shift_left(first, amount, self.width()),
            sheet::SHIFT_RIGHT => shift_right(first, amount),
            sheet::SUBTRACT => first.wrapping_sub(second),
            _ => unreachable!("question 9 admits no other kind"),
        };
        result & self.mask()
    }
}
