//! Calls that are lent a piece of a longer buffer, so that what they write beside
//! it is seen.

use std::fmt::Debug;

use super::Outcome;
use tablegull::Refusal;

/// What a buffer is filled with before a call.
pub trait Element: Copy + Debug + PartialEq {
    fn of(bits: u64) -> Self;
}

impl Element for u8 {
    fn of(bits: u64) -> u8 {
        bits as u8
    }
}

impl Element for u16 {
    fn of(bits: u64) -> u16 {
        bits as u16
    }
}

impl Element for u64 {
    fn of(bits: u64) -> u64 {
        bits
    }
}

impl Element for i32 {
    fn of(bits: u64) -> i32 {
        bits as i32
    }
}

/// Lends a call so much room, and answers what it has written there from the
/// start. Nothing else may have changed.
pub fn written<T: Element>(
    case: impl Fn() -> String,
    room: usize,
    call: impl FnOnce(&mut [T]) -> Outcome,
) -> Result<Vec<T>, Refusal> {
    let guard = 1 + room % 8;
    let before: Vec<T> = (0..room + 2 * guard)
        .map(|at| T::of((at * 37 + room + 11) as u64))
        .collect();
    let mut lent = before.clone();
    let answer = call(&mut lent[guard..guard + room]);
    let end = guard + answer.unwrap_or(0);
    assert!(lent[..guard] == before[..guard], "{}: before", case());
    assert!(lent[end..] == before[end..], "{}: rest", case());
    answer.map(|_| lent[guard..end].to_vec())
}

/// Lends a call a copy of a sheet to write into. Answers what the call does, and
/// the copy as it is then. No byte around it may have changed.
pub fn rewritten(
    case: impl Fn() -> String,
    sheet: &[u8],
    call: impl FnOnce(&mut [u8]) -> Outcome,
) -> (Outcome, Vec<u8>) {
    let guard = 1 + sheet.len() / 512 % 8;
    let lent = guard..guard + sheet.len();
    let mut bytes = vec![0xa5; sheet.len() + 2 * guard];
    bytes[lent.clone()].copy_from_slice(sheet);
    let answer = call(&mut bytes[lent.clone()]);
    let around = [&bytes[..lent.start], &bytes[lent.end..]].concat();
    assert!(
        around.iter().all(|&byte| byte == 0xa5),
        "{}: around",
        case()
    );
    (answer, bytes[lent].to_vec())
}
