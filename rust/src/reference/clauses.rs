//! The trail as clauses.

use super::sheet::{self, Record, Sheet};

/// The counts in the header of a clause file.
#[derive(Clone, Copy, Debug, PartialEq, Eq)]
pub struct ClauseCounts {
    /// All variables of the sheet.
    pub variables: usize,
    /// All clauses of all lines.
    pub clauses: usize,
}

// An output bit as a function of its input bits: bit r of the table is the
// output for row r, whose highest bit is the first input.
const COPY: u32 = 0b10;
const NOT: u32 = 0b01;
const ZERO: u32 = 0b00;
const XOR_OF_TWO: u32 = 0b0110;
const AND: u32 = 0b1000;
const OR: u32 = 0b1110;
const EQUAL: u32 = 0b1001;
const XOR_OF_THREE: u32 = 0b1001_0110;
const MAJORITY: u32 = 0b1110_1000;
const LESS: u32 = 0b0010;
const LESS_THAN_SUM: u32 = 0b1000_1110;

// What is carried out of bit 0 and, given what is carried into them, out of the
// bits above it. What is carried in a subtraction is a borrow: a bit borrows
// where the first word's bit is less than the second's and the borrow together.
const CARRIES: [u32; 2] = [AND, MAJORITY];
const BORROWS: [u32; 2] = [LESS, LESS_THAN_SUM];

impl Sheet<'_> {
    /// The numbers of variables and clauses of the whole sheet.
    pub fn clause_counts(&self) -> ClauseCounts {
        let width = self.width() as usize;
        let words = self.input_count() + self.line_count();
        self.records().fold(
            ClauseCounts {
                variables: width * words,
                clauses: 0,
            },
            |counts, record| ClauseCounts {
                variables: counts.variables + carry_variables(record.kind, width),
                clauses: counts.clauses + clause_count(&record, width),
            },
        )
    }

    /// How many numbers [`Sheet::line_clauses`] writes.
    pub fn line_clauses_len(&self, line: usize) -> usize {
        list_length(&self.record(line), self.width() as usize)
    }

    /// Writes one line's clauses over the whole of `out`, which must have just
    /// the length [`Sheet::line_clauses_len`].
    pub fn line_clauses(&self, line: usize, out: &mut [i32]) {
        let record = self.record(line);
        let result = (self.input_count() + line) as u16;
        let carries = if has_carries(record.kind) {
            self.first_carry(line)
        } else {
            0
        };
        let mut list = List { rest: out };
        for second in [false, true] {
            let run = Run {
                sheet: self,
                second,
                carries: carries + i32::from(second) * (self.width() as i32 - 1),
            };
            run.write(&record, result, &mut list);
        }
        debug_assert!(list.rest.is_empty(), "the length is the list's");
    }

    /// The variable of the carry into bit 1 of a line's first run.
    fn first_carry(&self, line: usize) -> i32 {
        let width = self.width() as usize;
        let words = self.input_count() + self.line_count();
        let before: usize = self
            .records()
            .take(line)
            .map(|record| carry_variables(record.kind, width))
            .sum();
        (width * words + before + 1) as i32
    }
}

/// Whether a line of a kind has carries, or borrows in their place.
fn has_carries(kind: u8) -> bool {
    matches!(kind, sheet::ADD | sheet::ADD_CONSTANT | sheet::SUBTRACT)
}

fn carry_variables(kind: u8, width: usize) -> usize {
    if has_carries(kind) {
        2 * (width - 1)
    } else {
        0
    }
}

// Each output of k input literals has 2^k clauses of k + 1 literals and a 0.
// An addition or subtraction has outputs of all its inputs but the carry at bit
// 0, twice, and of all its inputs at the other bits, twice but at the top; a
// shift has as many outputs of no input as its amount; all that for two runs.

fn clause_count(record: &Record, width: usize) -> usize {
    match record.kind {
        sheet::XOR => 2 * 4 * width,
        sheet::ADD | sheet::SUBTRACT => 2 * (2 * 4 + (2 * width - 3) * 8),
        sheet::ADD_CONSTANT => 2 * (2 * 2 + (2 * width - 3) * 4),
        sheet::SHIFT_LEFT | sheet::SHIFT_RIGHT => {
            let filled = usize::from(record.amount);
            2 * (filled + (width - filled) * 2)
        }
        _ => 2 * 2 * width,
    }
}

fn list_length(record: &Record, width: usize) -> usize {
    match record.kind {
        sheet::XOR => 2 * 16 * width,
        sheet::ADD | sheet::SUBTRACT => 2 * (2 * 16 + (2 * width - 3) * 40),
        sheet::ADD_CONSTANT => 2 * (2 * 6 + (2 * width - 3) * 16),
        sheet::SHIFT_LEFT | sheet::SHIFT_RIGHT => {
            let filled = usize::from(record.amount);
            2 * (filled * 2 + (width - filled) * 6)
        }
        _ => 2 * 6 * width,
    }
}

/// One of the two runs of one line.
struct Run<'a> {
    sheet: &'a Sheet<'a>,
    second: bool,
    /// The variable of the carry into bit 1.
    carries: i32,
}

/// A word's literals in one run.
#[derive(Clone, Copy)]
struct Word {
    /// The variable of bit 0.
    variables: i32,
    /// Ones where the literal is negated.
    negated: u32,
}

impl Word {
    #[inline]
    fn literal(self, bit: u32) -> i32 {
        negate_if(self.variables + bit as i32, self.negated >> bit & 1)
    }
}

impl Run<'_> {
    fn word(&self, word: u16) -> Word {
        let negated = if self.second {
            self.sheet.difference(word)
        } else {
            0
        };
        Word {
            variables: self.sheet.width() as i32 * i32::from(word) + 1,
            negated,
        }
    }

    #[inline]
    fn carry_into(&self, bit: u32) -> i32 {
        self.carries + bit as i32 - 1
    }

    fn write(&self, record: &Record, result: u16, list: &mut List) {
        let width = self.sheet.width();
        let amount = u32::from(record.amount);
        let first = self.word(record.first);
        let result = self.word(result);
        match record.kind {
            sheet::XOR => self.write_xor(first, self.word(record.second), result, list),
            sheet::XOR_CONSTANT => self.write_xor_constant(first, record.constant, result, list),
            sheet::ROTATE_LEFT => self.write_rotation(first, width - amount, result, list),
            sheet::ROTATE_RIGHT => self.write_rotation(first, amount, result, list),
            sheet::ADD => {
                self.write_addition(first, self.word(record.second), result, CARRIES, list)
            }
            sheet::ADD_CONSTANT => {
                self.write_constant_addition(first, record.constant, result, list)
            }
            sheet::SHIFT_LEFT => self.write_shift_left(first, amount, result, list),
            sheet::SHIFT_RIGHT => self.write_shift_right(first, amount, result, list),
            sheet::SUBTRACT => {
                self.write_addition(first, self.word(record.second), result, BORROWS, list)
            }
            _ => unreachable!("question 9 admits no other kind"),
        }
    }

    fn write_xor(&self, first: Word, second: Word, result: Word, list: &mut List) {
        for bit in 0..self.sheet.width() {
            let inputs = [first.literal(bit), second.literal(bit)];
            list.write_output(inputs, result.literal(bit), XOR_OF_TWO);
        }
    }

    fn write_xor_constant(&self, first: Word, constant: u32, result: Word, list: &mut List) {
        for bit in 0..self.sheet.width() {
            let table = if constant >> bit & 1 == 1 { NOT } else { COPY };
            list.write_output([first.literal(bit)], result.literal(bit), table);
        }
    }

    /// Bit i of the result is bit i + right of the word, taken round.
    fn write_rotation(&self, first: Word, right: u32, result: Word, list: &mut List) {
        let width = self.sheet.width();
        for bit in 0..width {
            let from = if bit + right < width {
                bit + right
            } else {
                bit + right - width
            };
            list.write_output([first.literal(from)], result.literal(bit), COPY);
        }
    }

    fn write_shift_left(&self, first: Word, amount: u32, result: Word, list: &mut List) {
        for bit in 0..amount {
            list.write_output([], result.literal(bit), ZERO);
        }
        for bit in amount..self.sheet.width() {
            list.write_output([first.literal(bit - amount)], result.literal(bit), COPY);
        }
    }

    fn write_shift_right(&self, first: Word, amount: u32, result: Word, list: &mut List) {
        let width = self.sheet.width();
        for bit in 0..width - amount {
            list.write_output([first.literal(bit + amount)], result.literal(bit), COPY);
        }
        for bit in width - amount..width {
            list.write_output([], result.literal(bit), ZERO);
        }
    }

    /// An addition or a subtraction, by the tables of what it carries. Inlined,
    /// so that these are constants at every output.
    #[inline(always)]
    fn write_addition(
        &self,
        first: Word,
        second: Word,
        result: Word,
        [out_of_lowest, out_of_others]: [u32; 2],
        list: &mut List,
    ) {
        let top = self.sheet.width() - 1;
        let inputs = [first.literal(0), second.literal(0)];
        list.write_output(inputs, result.literal(0), XOR_OF_TWO);
        list.write_output(inputs, self.carry_into(1), out_of_lowest);
        for bit in 1..=top {
            let inputs = [
                first.literal(bit),
                second.literal(bit),
                self.carry_into(bit),
            ];
            list.write_output(inputs, result.literal(bit), XOR_OF_THREE);
            if bit < top {
                list.write_output(inputs, self.carry_into(bit + 1), out_of_others);
            }
        }
    }

    fn write_constant_addition(&self, first: Word, constant: u32, result: Word, list: &mut List) {
        let top = self.sheet.width() - 1;
        let (sum, carry) = if constant & 1 == 1 {
            (NOT, COPY)
        } else {
            (COPY, ZERO)
        };
        list.write_output([first.literal(0)], result.literal(0), sum);
        list.write_output([first.literal(0)], self.carry_into(1), carry);
        for bit in 1..=top {
            let (sum, carry) = if constant >> bit & 1 == 1 {
                (EQUAL, OR)
            } else {
                (XOR_OF_TWO, AND)
            };
            let inputs = [first.literal(bit), self.carry_into(bit)];
            list.write_output(inputs, result.literal(bit), sum);
            if bit < top {
                list.write_output(inputs, self.carry_into(bit + 1), carry);
            }
        }
    }
}

/// The part of the lent buffer that is still to be written.
struct List<'a> {
    rest: &'a mut [i32],
}

impl List<'_> {
    /// Writes the clauses of one output bit.
    ///
    /// Of the two value rows that share their inputs just one has the wrong
    /// output: so each row of inputs gives one clause, in which the output is
    /// negated where the table has 0.
    #[inline(always)]
    fn write_output<const INPUTS: usize>(
        &mut self,
        inputs: [i32; INPUTS],
        output: i32,
        table: u32,
    ) {
        let clause = INPUTS + 2;
        let (clauses, rest) = std::mem::take(&mut self.rest).split_at_mut(clause << INPUTS);
        self.rest = rest;
        for (row, clause) in (0..).zip(clauses.chunks_exact_mut(clause)) {
            for (place, &input) in inputs.iter().enumerate() {
                clause[place] = negate_if(input, row >> (INPUTS - 1 - place) & 1);
            }
            clause[INPUTS] = negate_if(output, !table >> row & 1);
            clause[INPUTS + 1] = 0;
        }
    }
}

#[inline(always)]
fn negate_if(literal: i32, negate: u32) -> i32 {
    let negate = negate as i32;
    (literal ^ -negate) + negate
}
