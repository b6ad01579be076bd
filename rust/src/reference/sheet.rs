//! The sheet's layout, the questions about it, sealing, and writing with more
//! lines or with another difference.

use std::iter;

use super::{refuse, refuse_unless};
use crate::{Refusal, MAX_LINES, MAX_SHEET};

const BLOCK: usize = 512;
const CHECK: usize = 508;
const LINES_IN_BLOCK: usize = 31;
const RECORD: usize = 16;
const RECORDS_END: usize = LINES_IN_BLOCK * RECORD;
const DIFFERENCE_IN_RECORD: usize = 12;
const MARK: [u8; 4] = [0x41, 0x52, 0x58, 0x54];
pub(super) const MAX_INPUTS: usize = 8;
const INPUTS_START: usize = 8;
const INPUTS_END: usize = INPUTS_START + 4 * MAX_INPUTS;

pub(super) const XOR: u8 = 1;
pub(super) const XOR_CONSTANT: u8 = 2;
pub(super) const ROTATE_LEFT: u8 = 3;
pub(super) const ROTATE_RIGHT: u8 = 4;
pub(super) const ADD: u8 = 5;
pub(super) const ADD_CONSTANT: u8 = 6;
pub(super) const SHIFT_LEFT: u8 = 7;
pub(super) const SHIFT_RIGHT: u8 = 8;
pub(super) const SUBTRACT: u8 = 9;

/// A sheet to which all sixteen questions had the answer yes.
#[derive(Clone, Copy, Debug)]
pub struct Sheet<'a> {
    bytes: &'a [u8],
    width: u32,
    inputs: usize,
    lines: usize,
}

/// A line's record, field by field.
///
/// A line repeats another if their records are equal: the zero field, which is
/// no part of that rule, is zero in every accepted sheet.
#[derive(Clone, Copy, Debug, Default, PartialEq, Eq, PartialOrd, Ord)]
pub(super) struct Record {
    pub kind: u8,
    pub amount: u8,
    pub first: u16,
    pub second: u16,
    zero: u16,
    pub constant: u32,
    pub difference: u32,
}

impl Record {
    fn decode(bytes: &[u8; RECORD]) -> Record {
        let [kind, amount, f0, f1, s0, s1, z0, z1, c0, c1, c2, c3, d0, d1, d2, d3] = *bytes;
        Record {
            kind,
            amount,
            first: u16::from_le_bytes([f0, f1]),
            second: u16::from_le_bytes([s0, s1]),
            zero: u16::from_le_bytes([z0, z1]),
            constant: u32::from_le_bytes([c0, c1, c2, c3]),
            difference: u32::from_le_bytes([d0, d1, d2, d3]),
        }
    }

    fn encode(&self) -> [u8; RECORD] {
        let mut bytes = [0; RECORD];
        bytes[0] = self.kind;
        bytes[1] = self.amount;
        bytes[2..4].copy_from_slice(&self.first.to_le_bytes());
        bytes[4..6].copy_from_slice(&self.second.to_le_bytes());
        bytes[6..8].copy_from_slice(&self.zero.to_le_bytes());
        bytes[8..12].copy_from_slice(&self.constant.to_le_bytes());
        bytes[12..16].copy_from_slice(&self.difference.to_le_bytes());
        bytes
    }

    pub(super) fn names_two_words(&self) -> bool {
        matches!(self.kind, XOR | ADD | SUBTRACT)
    }

    /// The words that a line of an accepted sheet names, each once. A sheet has at most
    /// 256, so that their numbers fit 8 bits. With `for_each` they are gone through
    /// faster than by a loop.
    pub(super) fn words(&self) -> impl Iterator<Item = u8> {
        let has_another = self.names_two_words() && self.second != self.first;
        let another = has_another.then_some(self.second);
        iter::once(self.first).chain(another).map(|word| word as u8)
    }

    fn has_amount(&self) -> bool {
        matches!(
            self.kind,
            ROTATE_LEFT | ROTATE_RIGHT | SHIFT_LEFT | SHIFT_RIGHT
        )
    }

    fn has_constant(&self) -> bool {
        matches!(self.kind, XOR_CONSTANT | ADD_CONSTANT)
    }

    fn unused_fields_are_zero(&self) -> bool {
        self.zero == 0
            && (self.has_amount() || self.amount == 0)
            && (self.names_two_words() || self.second == 0)
            && (self.has_constant() || self.constant == 0)
    }
}

/// The bytes of a sheet of so many lines.
pub(super) fn length(lines: usize) -> usize {
    BLOCK * (1 + lines.div_ceil(LINES_IN_BLOCK))
}

/// The ones below 2^width.
pub(super) fn mask(width: u32) -> u32 {
    u32::MAX >> (32 - width)
}

impl<'a> Sheet<'a> {
    /// Reads a sheet: asks the sixteen questions in their order.
    pub fn read(bytes: &'a [u8]) -> Result<Sheet<'a>, Refusal> {
        ask_length(bytes)?;
        ask_checks(bytes)?;
        read_contents::<false>(bytes)
    }

    /// The width n of the words.
    pub fn width(&self) -> u32 {
        self.width
    }

    /// The number m of input words.
    pub fn input_count(&self) -> usize {
        self.inputs
    }

    /// The number L of lines.
    pub fn line_count(&self) -> usize {
        self.lines
    }

    pub(super) fn mask(&self) -> u32 {
        mask(self.width)
    }

    pub(super) fn record(&self, line: usize) -> Record {
        let bytes = &self.bytes[record_start(line)..];
        Record::decode(bytes.first_chunk().expect("line below L"))
    }

    /// The lines' records in order.
    pub(super) fn records(&self) -> impl Iterator<Item = Record> + 'a {
        line_blocks(self.bytes)
            .flat_map(|block| block[..RECORDS_END].chunks_exact(RECORD))
            .take(self.lines)
            .map(|bytes| Record::decode(bytes.first_chunk().expect("a whole record")))
    }

    /// The stated difference of a word: an input's or a line's.
    pub(super) fn difference(&self, word: u16) -> u32 {
        let word = usize::from(word);
        if word < self.inputs {
            input_difference(self.bytes, word)
        } else {
            self.record(word - self.inputs).difference
        }
    }

    /// The stated differences of the input words.
    pub(super) fn input_differences(&self) -> impl Iterator<Item = u32> + 'a {
        let bytes = self.bytes;
        (0..self.inputs).map(move |word| input_difference(bytes, word))
    }

    /// Writes this sheet with more lines after its own, and with checks, over
    /// the whole of `out`, which must have just the length of a sheet of so many
    /// lines in all.
    pub(super) fn write_with_more_lines(
        &self,
        more: impl Iterator<Item = Record>,
        lines: usize,
        out: &mut [u8],
    ) {
        let (own, rest) = out.split_at_mut(self.bytes.len());
        own.copy_from_slice(self.bytes);
        rest.fill(0);
        out[6..8].copy_from_slice(&(lines as u16).to_le_bytes());
        for (line, record) in (self.lines..).zip(more) {
            let start = record_start(line);
            out[start..start + RECORD].copy_from_slice(&record.encode());
        }
        write_checks(out);
    }

    /// Questions 9 to 15 about one line, and in sealing 23.
    fn ask_line<const SEALING: bool>(&self, record: &Record, line: usize) -> Result<(), Refusal> {
        let made = self.inputs + line;
        let earlier = |word: u16| usize::from(word) < made;
        let mask = self.mask();

        if !(XOR..=SUBTRACT).contains(&record.kind) {
            refuse(9, line)
        } else if !earlier(record.first) || record.names_two_words() && !earlier(record.second) {
            refuse(10, line)
        } else if matches!(record.kind, ADD | SUBTRACT) && record.first == record.second {
            refuse(11, line)
        } else if SEALING && record.kind == XOR && record.first == record.second {
            refuse(23, line)
        } else if record.has_amount() && !(1..self.width).contains(&record.amount.into()) {
            refuse(12, line)
        } else if record.has_constant() && record.constant > mask {
            refuse(13, line)
        } else if record.difference > mask {
            refuse(14, line)
        } else if !record.unused_fields_are_zero() {
            refuse(15, line)
        } else {
            Ok(())
        }
    }

    fn ask_lines<const SEALING: bool>(&self) -> Result<(), Refusal> {
        // A plain loop: the compiler keeps the questions in it. With an iterator's
        // `try_for_each` that hangs on what else the package has, and where it does
        // not, reading takes half as long again.
        for (line, record) in self.records().enumerate() {
            self.ask_line::<SEALING>(&record, line)?;
        }
        Ok(())
    }

    /// Are records past L and the 12 bytes zero in every line block? 16
    fn ask_line_block_rests(&self) -> Result<(), Refusal> {
        let mut lines_left = self.lines;
        for (index, block) in blocks(self.bytes).enumerate().skip(1) {
            let lines = lines_left.min(LINES_IN_BLOCK);
            lines_left -= lines;
            refuse_unless(is_zero(&block[lines * RECORD..CHECK]), 16, index)?;
        }
        Ok(())
    }
}

/// Seals a sheet: writes every block's check once all other questions, and 23,
/// have the answer yes.
pub(super) fn seal(bytes: &mut [u8]) -> Result<usize, Refusal> {
    ask_length(bytes)?;
    read_contents::<true>(bytes)?;
    write_checks(bytes);
    Ok(bytes.len() / BLOCK)
}

fn write_checks(bytes: &mut [u8]) {
    for (index, block) in bytes.chunks_exact_mut(BLOCK).enumerate() {
        write_check(block, index);
    }
}

fn write_check(block: &mut [u8], index: usize) {
    let check = block_check(block, index);
    block[CHECK..].copy_from_slice(&check.to_le_bytes());
}

/// Writes the difference that a line states, and the check of the line's block.
pub(super) fn write_difference(bytes: &mut [u8], line: usize, difference: u32) {
    let start = record_start(line) + DIFFERENCE_IN_RECORD;
    bytes[start..start + 4].copy_from_slice(&difference.to_le_bytes());
    let index = block_of(line);
    write_check(&mut bytes[BLOCK * index..BLOCK * (index + 1)], index);
}

/// The same in a block whose check is right: then the check grows by what the
/// difference grows by. Many lines are changed faster so, as the rest of the block is
/// not added up again for each.
pub(super) fn exchange_difference(bytes: &mut [u8], line: usize, difference: u32) {
    // A block of known length: the compiler sees that both places are in it.
    let block = bytes[BLOCK * block_of(line)..].first_chunk_mut::<BLOCK>();
    let block = block.expect("line below L");
    let start = RECORD * (line % LINES_IN_BLOCK) + DIFFERENCE_IN_RECORD;
    let old = little_endian(&block[start..]);
    let sum = little_endian(&block[CHECK..]);
    let sum = sum.wrapping_add(difference).wrapping_sub(old);
    block[start..start + 4].copy_from_slice(&difference.to_le_bytes());
    block[CHECK..].copy_from_slice(&sum.to_le_bytes());
}

/// Questions 3 to 16, and in sealing 23. The compiler knows which it is, so that
/// reading does not pay for the question that sealing alone asks.
fn read_contents<const SEALING: bool>(bytes: &[u8]) -> Result<Sheet<'_>, Refusal> {
    let sheet = read_header(bytes)?;
    sheet.ask_lines::<SEALING>()?;
    sheet.ask_line_block_rests()?;
    Ok(sheet)
}

/// Questions 3 to 8.
fn read_header(bytes: &[u8]) -> Result<Sheet<'_>, Refusal> {
    let sheet = Sheet {
        bytes,
        width: bytes[4].into(),
        inputs: bytes[5].into(),
        lines: u16::from_le_bytes([bytes[6], bytes[7]]).into(),
    };
    refuse_unless(bytes[..4] == MARK, 3, 0)?;
    refuse_unless((2..=32).contains(&sheet.width), 4, 0)?;
    refuse_unless((1..=MAX_INPUTS).contains(&sheet.inputs), 5, 0)?;
    let needed_blocks = sheet.lines.div_ceil(LINES_IN_BLOCK);
    let lines_fit = (1..=MAX_LINES).contains(&sheet.lines);
    refuse_unless(lines_fit && needed_blocks == line_blocks(bytes).len(), 6, 0)?;
    refuse_unless(input_differences_fit(&sheet), 7, 0)?;
    refuse_unless(is_zero(&bytes[INPUTS_END..CHECK]), 8, 0)?;
    Ok(sheet)
}

fn input_differences_fit(sheet: &Sheet) -> bool {
    let unused = INPUTS_START + 4 * sheet.inputs..INPUTS_END;
    let mask = sheet.mask();
    sheet
        .input_differences()
        .all(|difference| difference <= mask)
        && is_zero(&sheet.bytes[unused])
}

/// Is the length a multiple of 512 from 1,024 to 4,608? 1
fn ask_length(bytes: &[u8]) -> Result<(), Refusal> {
    let length = bytes.len();
    let fits = length.is_multiple_of(BLOCK) && (2 * BLOCK..=MAX_SHEET).contains(&length);
    refuse_unless(fits, 1, 0)
}

/// Is each block's check right? 2
fn ask_checks(bytes: &[u8]) -> Result<(), Refusal> {
    for (index, block) in blocks(bytes).enumerate() {
        let right = block[CHECK..] == block_check(block, index).to_le_bytes();
        refuse_unless(right, 2, index)?;
    }
    Ok(())
}

fn block_check(block: &[u8], index: usize) -> u32 {
    block[..CHECK]
        .chunks_exact(4)
        .map(little_endian)
        .fold(index as u32, u32::wrapping_add)
}

fn blocks(bytes: &[u8]) -> std::slice::ChunksExact<'_, u8> {
    bytes.chunks_exact(BLOCK)
}

fn line_blocks(bytes: &[u8]) -> std::slice::ChunksExact<'_, u8> {
    blocks(&bytes[BLOCK..])
}

/// The index of the block that a line's record is in.
fn block_of(line: usize) -> usize {
    1 + line / LINES_IN_BLOCK
}

/// Where a line's record starts.
fn record_start(line: usize) -> usize {
    BLOCK * block_of(line) + RECORD * (line % LINES_IN_BLOCK)
}

fn input_difference(bytes: &[u8], word: usize) -> u32 {
    little_endian(&bytes[INPUTS_START + 4 * word..])
}

fn little_endian(bytes: &[u8]) -> u32 {
    u32::from_le_bytes(*bytes.first_chunk().expect("four bytes"))
}

/// Joins all bytes instead of stopping at the first one that is not zero:
/// nearly every sheet has only zeros here, and so the loop can go many bytes
/// at a time.
fn is_zero(bytes: &[u8]) -> bool {
    bytes.iter().fold(0, |joined, byte| joined | byte) == 0
}
