//! Damage to a sheet's bytes.

use super::{record, Random};

/// Mostly among the first: most programs are short.
fn record_in_block(random: &mut Random) -> usize {
    match random.below(3) {
        0 => random.below(31),
        _ => random.below(6),
    }
}

/// A value at or near a bound.
fn value_at_bound(random: &mut Random, bytes: &[u8]) -> u64 {
    let width = u32::from(bytes[4]).clamp(2, 32);
    let words = u64::from(bytes[5]) + u64::from(bytes[6]);
    match random.below(6) {
        0 => 1 << width,
        1 => (1 << width) - 1,
        2 => words.wrapping_sub(random.below(3) as u64),
        3 => random.below(34) as u64,
        // Kinds, and the first numbers past them.
        4 => random.below(12) as u64,
        _ => random.next() >> random.below(64),
    }
}

fn put(bytes: &mut [u8], at: usize, size: usize, value: u64) {
    if let Some(field) = bytes.get_mut(at..at + size) {
        field.copy_from_slice(&value.to_le_bytes()[..size]);
    }
}

/// Puts a value at or near a bound into a field chosen by chance.
pub fn damage_a_field(random: &mut Random, bytes: &mut [u8]) {
    let at_bound = value_at_bound(random, bytes);
    let blocks = bytes.len() / 512;
    let block = 512 * random.below(blocks.max(1));
    let record =
        512 * (1 + random.below(blocks.saturating_sub(1).max(1))) + 16 * record_in_block(random);
    let (at, size) = match random.below(16) {
        0 => (random.below(4), 1),
        1 => (4, 1),
        2 => (5, 1),
        3 => (6, 2),
        4 => (8 + 4 * random.below(8), 4),
        5 => (40 + random.below(468), 1),
        6 => (record, 1),
        7 => (record + 1, 1),
        8 | 9 => (record + 2, 2),
        10 => (record + 4, 2),
        11 => (record + 6, 2),
        12 => (record + 8, 4),
        13 => (record + 12, 4),
        14 => (block + 496 + random.below(12), 1),
        _ => (block + 508, 4),
    };
    put(bytes, at, size, at_bound);
}

/// The same to a field of one line's record. At times the second operand becomes
/// the first instead.
pub fn damage_a_line(random: &mut Random, bytes: &mut [u8], line: usize) {
    let start = record(line);
    let at_bound = value_at_bound(random, bytes);
    match random.below(10) {
        0 => put(bytes, start, 1, at_bound),
        1 => put(bytes, start + 1, 1, at_bound),
        2 => put(bytes, start + 2, 2, at_bound),
        3 => put(bytes, start + 4, 2, at_bound),
        4 => put(bytes, start + 6, 2, at_bound),
        5 | 6 => put(bytes, start + 8, 4, at_bound),
        7 | 8 => put(bytes, start + 12, 4, at_bound),
        _ => bytes.copy_within(start + 2..start + 4, start + 4),
    }
}

/// Makes a line XOR a word with itself, mostly an earlier one.
pub fn xor_a_word_with_itself(random: &mut Random, bytes: &mut [u8], line: usize) {
    let earlier = usize::from(bytes[5]) + line;
    let word = match random.below(8) {
        0 => earlier + random.below(3),
        1 => earlier - 1,
        _ => random.below(earlier),
    };
    let start = record(line);
    put(bytes, start, 2, 1);
    put(bytes, start + 2, 2, word as u64);
    put(bytes, start + 4, 2, word as u64);
    put(bytes, start + 8, 4, 0);
}
