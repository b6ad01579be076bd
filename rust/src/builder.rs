//! Makes sheets.
//!
//! ```
//! use tablegull::builder::{Line, SheetBuilder};
//!
//! // Two words of 32 bits, the first with a difference in its top bit.
//! let mut sheet = SheetBuilder::new(32, &[0x8000_0000, 0]);
//! let sum = sheet.line(Line::add(0, 1, 0x8000_0000));
//! let turned = sheet.line(Line::rotate_left(sum, 7, 0x40));
//! sheet.line(Line::xor(turned, 0, 0x8000_0040));
//! let bytes = sheet.seal()?;
//! assert_eq!(tablegull::reference::read(&bytes), Ok(3));
//! # Ok::<(), tablegull::Refusal>(())
//! ```

use crate::Refusal;

const BLOCK: usize = 512;
const LINES_IN_BLOCK: usize = 31;
const MARK: [u8; 4] = [0x41, 0x52, 0x58, 0x54];

/// One line of a program with the difference stated for its result.
///
/// Operands are word numbers: the inputs come first, from 0, then the lines'
/// results in order. [`SheetBuilder::line`] answers the number of each result.
#[derive(Clone, Copy, Debug, PartialEq, Eq)]
pub struct Line {
    kind: u8,
    amount: u8,
    first: u16,
    second: u16,
    constant: u32,
    difference: u32,
}

impl Line {
    const NOTHING: Line = Line {
        kind: 0,
        amount: 0,
        first: 0,
        second: 0,
        constant: 0,
        difference: 0,
    };

    /// Kind 1: the XOR of two words. Sealing wants them different.
    pub fn xor(first: u16, second: u16, difference: u32) -> Line {
        Line {
            kind: 1,
            first,
            second,
            difference,
            ..Line::NOTHING
        }
    }

    /// Kind 2: the XOR of a word and a constant.
    pub fn xor_constant(first: u16, constant: u32, difference: u32) -> Line {
        Line {
            kind: 2,
            first,
            constant,
            difference,
            ..Line::NOTHING
        }
    }

    /// Kind 3: a word rotated left by 1 to n-1 places.
    pub fn rotate_left(first: u16, amount: u8, difference: u32) -> Line {
        Line {
            kind: 3,
            amount,
            first,
            difference,
            ..Line::NOTHING
        }
    }

    /// Kind 4: a word rotated right by 1 to n-1 places.
    pub fn rotate_right(first: u16, amount: u8, difference: u32) -> Line {
        Line {
            kind: 4,
            amount,
            first,
            difference,
            ..Line::NOTHING
        }
    }

    /// Kind 5: the sum of two different words.
    pub fn add(first: u16, second: u16, difference: u32) -> Line {
        Line {
            kind: 5,
            first,
            second,
            difference,
            ..Line::NOTHING
        }
    }

    /// Kind 6: the sum of a word and a constant.
    pub fn add_constant(first: u16, constant: u32, difference: u32) -> Line {
        Line {
            kind: 6,
            first,
            constant,
            difference,
            ..Line::NOTHING
        }
    }

    /// Kind 7: a word shifted left by 1 to n-1 places, with zeros filled in.
    pub fn shift_left(first: u16, amount: u8, difference: u32) -> Line {
        Line {
            kind: 7,
            amount,
            first,
            difference,
            ..Line::NOTHING
        }
    }

    /// Kind 8: a word shifted right by 1 to n-1 places, with zeros filled in.
    pub fn shift_right(first: u16, amount: u8, difference: u32) -> Line {
        Line {
            kind: 8,
            amount,
            first,
            difference,
            ..Line::NOTHING
        }
    }

    /// Kind 9: the first of two different words minus the second.
    pub fn subtract(first: u16, second: u16, difference: u32) -> Line {
        Line {
            kind: 9,
            first,
            second,
            difference,
            ..Line::NOTHING
        }
    }

    fn record(&self) -> [u8; 16] {
        let mut record = [0; 16];
        record[0] = self.kind;
        record[1] = self.amount;
        record[2..4].copy_from_slice(&self.first.to_le_bytes());
        record[4..6].copy_from_slice(&self.second.to_le_bytes());
        record[8..12].copy_from_slice(&self.constant.to_le_bytes());
        record[12..16].copy_from_slice(&self.difference.to_le_bytes());
        record
    }
}

/// Collects a program's width, inputs and lines, and makes the sheet of them.
///
/// Nothing is checked on the way: sealing asks the sheet's own questions, and
/// its refusal says what is wrong.
#[derive(Clone, Debug)]
pub struct SheetBuilder {
    width: u8,
    inputs: Vec<u32>,
    lines: Vec<Line>,
}

impl SheetBuilder {
    /// Starts a sheet for words of `width` bits, 2 to 32, with one difference
    /// for each input word, 1 to 8 of them.
    pub fn new(width: u8, input_differences: &[u32]) -> SheetBuilder {
        SheetBuilder {
            width,
            inputs: input_differences.to_vec(),
            lines: Vec::new(),
        }
    }

    /// Adds a line and answers the number of the word it makes.
    pub fn line(&mut self, line: Line) -> u16 {
        let word = self.inputs.len() + self.lines.len();
        self.lines.push(line);
        // A word number that does not fit belongs to a sheet far too long,
        // which sealing refuses.
        u16::try_from(word).unwrap_or(u16::MAX)
    }

    /// The sheet's bytes with all checks zero.
    pub fn unsealed(&self) -> Vec<u8> {
        let line_blocks = self.lines.len().div_ceil(LINES_IN_BLOCK);
        let mut bytes = vec![0; BLOCK * (1 + line_blocks)];
        bytes[..4].copy_from_slice(&MARK);
        bytes[4] = self.width;
        // Counts that do not fit their fields must stay too large.
        bytes[5] = u8::try_from(self.inputs.len()).unwrap_or(u8::MAX);
        let line_count = u16::try_from(self.lines.len()).unwrap_or(u16::MAX);
        bytes[6..8].copy_from_slice(&line_count.to_le_bytes());
        let input_fields = bytes[8..40].chunks_exact_mut(4);
        for (field, difference) in input_fields.zip(&self.inputs) {
            field.copy_from_slice(&difference.to_le_bytes());
        }
        let line_blocks = bytes[BLOCK..].chunks_exact_mut(BLOCK);
        for (block, lines) in line_blocks.zip(self.lines.chunks(LINES_IN_BLOCK)) {
            for (field, line) in block.chunks_exact_mut(16).zip(lines) {
                field.copy_from_slice(&line.record());
            }
        }
        bytes
    }

    /// The sealed sheet, or the first question whose answer is no. Among the
    /// questions is 23: a word XORed with itself is refused.
    ///
    /// The archive seals where it is there, else the reference.
    pub fn seal(&self) -> Result<Vec<u8>, Refusal> {
        #[cfg(not(has_archive))]
        use crate::reference::seal;
        #[cfg(has_archive)]
        use crate::seal;

        let mut bytes = self.unsealed();
        seal(&mut bytes)?;
        Ok(bytes)
    }
}
