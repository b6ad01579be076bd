//! Reading a program's input, and decimal text written fast: a clause file may
//! have over a million numbers.

use std::io::{self, Read, Write};

use crate::MAX_SHEET;

/// Reads a sheet, and of a longer input one byte more: enough to tell that it
/// is too long.
pub fn read_input(input: impl Read) -> io::Result<Vec<u8>> {
    let most = MAX_SHEET + 1;
    let mut bytes = Vec::with_capacity(most);
    input.take(most as u64).read_to_end(&mut bytes)?;
    Ok(bytes)
}

/// Room for the longest number, its sign and the byte after it, with digits
/// put four at a time.
const LONGEST: usize = 32;

/// How many numbers of a clause list are put between two looks at the room.
const CLAUSE_PART: usize = 256;

/// Collects text and hands it on in large pieces.
pub struct TextWriter<W: Write> {
    sink: W,
    bytes: Vec<u8>,
    used: usize,
}

impl<W: Write> TextWriter<W> {
    /// A writer that hands 64 KiB at a time to `sink`.
    pub fn new(sink: W) -> TextWriter<W> {
        TextWriter {
            sink,
            bytes: vec![0; 1 << 16],
            used: 0,
        }
    }

    /// Writes text as it is.
    pub fn text(&mut self, text: &str) -> io::Result<()> {
        for &byte in text.as_bytes() {
            self.make_room(1)?;
            self.put(byte);
        }
        Ok(())
    }

    /// Writes a number and the byte `end` after it.
    pub fn number(&mut self, number: u64, end: u8) -> io::Result<()> {
        self.make_room(LONGEST)?;
        self.used = put_number(&mut self.bytes, self.used, number);
        self.put(end);
        Ok(())
    }

    /// Writes clauses, each with its 0 on a text line of its own.
    pub fn clauses(&mut self, list: &[i32]) -> io::Result<()> {
        for part in list.chunks(CLAUSE_PART) {
            self.make_room(part.len() * LONGEST)?;
            let bytes = &mut self.bytes[..];
            let mut used = self.used;
            for &literal in part {
                // The sign is always put and kept only where it belongs: signs
                // come and go too often for a branch.
                bytes[used] = b'-';
                used += usize::from(literal < 0);
                used = put_number(bytes, used, literal.unsigned_abs().into());
                bytes[used] = if literal == 0 { b'\n' } else { b' ' };
                used += 1;
            }
            self.used = used;
        }
        Ok(())
    }

    /// Hands on everything that was written.
    pub fn flush(&mut self) -> io::Result<()> {
        self.hand_on()?;
        self.sink.flush()
    }

    fn hand_on(&mut self) -> io::Result<()> {
        self.sink.write_all(&self.bytes[..self.used])?;
        self.used = 0;
        Ok(())
    }

    #[inline]
    fn make_room(&mut self, need: usize) -> io::Result<()> {
        if self.bytes.len() - self.used < need {
            self.hand_on()?;
        }
        Ok(())
    }

    #[inline]
    fn put(&mut self, byte: u8) {
        self.bytes[self.used] = byte;
        self.used += 1;
    }
}

/// Puts a number at a place and answers the place after it. Four bytes are
/// written at a time, whatever the number's length: fewer digits are moved to
/// the front, and what is behind them is written over next.
#[inline]
fn put_number(bytes: &mut [u8], at: usize, number: u64) -> usize {
    if number < 10_000 {
        let digits =
            1 + usize::from(number > 9) + usize::from(number > 99) + usize::from(number > 999);
        let zeros_in_front = 4 - digits;
        let text = u32::from_le_bytes(FOUR_DIGITS[number as usize]) >> (8 * zeros_in_front);
        bytes[at..at + 4].copy_from_slice(&text.to_le_bytes());
        at + digits
    } else {
        let at = put_number_before(bytes, at, number / 10_000);
        bytes[at..at + 4].copy_from_slice(&FOUR_DIGITS[(number % 10_000) as usize]);
        at + 4
    }
}

/// Most numbers that are this far up have one digit more than four.
fn put_number_before(bytes: &mut [u8], at: usize, number: u64) -> usize {
    if number < 10 {
        bytes[at] = b'0' + number as u8;
        at + 1
    } else {
        put_number(bytes, at, number)
    }
}

/// The numbers below 10,000 with zeros in front.
static FOUR_DIGITS: [[u8; 4]; 10_000] = four_digits();

const fn four_digits() -> [[u8; 4]; 10_000] {
    let mut all = [[b'0'; 4]; 10_000];
    let mut number = 0;
    while number < all.len() {
        let mut rest = number;
        let mut place = 4;
        while place > 0 {
            place -= 1;
            all[number][place] += (rest % 10) as u8;
            rest /= 10;
        }
        number += 1;
    }
    all
}
