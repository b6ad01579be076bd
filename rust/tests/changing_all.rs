//! Up to sixty-four changes in one call: cases of document 02, by hand.

mod common;

use common::changing::{apart, Change};
use common::changing_all::{numbers, Changed};
use common::{
    example, halves, implementations, record, sheet_of, write_checks, Program, CERTAIN, IMPOSSIBLE,
};
use tablegull::builder::Line;
use tablegull::Refusal;

fn refused<T>(number: u32, place: usize) -> Result<T, Refusal> {
    Err(Refusal {
        number,
        place: place as u64,
    })
}

/// What all implementations make of a list with just as many replies as pairs: the
/// sheet and the replies, or their refusal.
fn changed_all(sheet: &[u8], pairs: &[(u64, u64)]) -> Result<(Vec<u8>, Vec<u8>), Refusal> {
    changed_by(sheet, &numbers(pairs), pairs.len())
}

/// The same of a list's numbers, with so much room for the replies.
fn changed_by(sheet: &[u8], list: &[u64], room: usize) -> Result<(Vec<u8>, Vec<u8>), Refusal> {
    let Changed { sheet, replies } = common::changing_all::changed_all(sheet, list, room)?;
    Ok((sheet, replies))
}

/// So many lines at n = 8, all certain; none names another's word.
fn lines_apart(lines: usize) -> Vec<Line> {
    vec![Line::xor_constant(0, 5, 0x11); lines]
}

fn sheet_apart(lines: usize) -> Vec<u8> {
    sheet_of(8, &[0x11], &lines_apart(lines))
}

/// The sheet of such lines, made anew with other differences in some.
fn sheet_with(lines: usize, others: &[(usize, u32)]) -> Vec<u8> {
    let mut all = lines_apart(lines);
    for &(line, difference) in others {
        all[line] = Line::xor_constant(0, 5, difference);
    }
    sheet_of(8, &[0x11], &all)
}

#[test]
fn the_example_by_hand() {
    let with = |difference, check| {
        let mut sheet = example();
        (sheet[524], sheet[1020]) = (difference, check);
        sheet
    };
    assert!(changed_all(&example(), &[]) == Ok((example(), vec![])));
    assert!(changed_all(&example(), &[(0, 1)]) == Ok((with(1, 9), vec![0])));
    assert!(changed_all(&example(), &[(0, 1), (0, 2)]) == Ok((with(2, 10), vec![0; 2])));
    assert!(changed_all(&example(), &[(0, 1), (0, 3)]) == Ok((example(), vec![0; 2])));
    let some = [(0, 4), (0, 0), (1, 2), (0, 7)];
    assert!(changed_all(&example(), &some) == Ok((with(0, 8), vec![14, 0, 17, 14])));
}

#[test]
fn counts_of_pairs() {
    for lines in [1, 64, 65, 248] {
        let sheet = sheet_apart(lines);
        // The pairs go through the lines as long as there are some left, and then again.
        let line = |pair: usize| pair * 37 % lines;
        let pair = |pair: usize| (line(pair) as u64, 0x20 + pair as u64);
        for count in [0, 1, 2, 31, 32, 33, 62, 63, 64] {
            let pairs: Vec<(u64, u64)> = (0..count).map(pair).collect();
            let others: Vec<(usize, u32)> = (0..count)
                .map(|pair| (line(pair), 0x20 + pair as u32))
                .collect();
            let expected = (sheet_with(lines, &others), vec![0; count]);
            assert!(changed_all(&sheet, &pairs) == Ok(expected), "{count}");
        }
        for count in [65, 66, 127, 128, 129, 256, 320, 1000] {
            let pairs: Vec<(u64, u64)> = (0..count).map(pair).collect();
            assert_eq!(changed_all(&sheet, &pairs), refused(24, 0), "{count}");
        }
    }
}

#[test]
fn a_last_number_is_no_pair() {
    let sheet = sheet_apart(70);
    let pair = |pair: u64| (pair, 0x20 + pair);
    for count in [0, 1, 2, 31, 62, 63, 64] {
        let mut list = numbers(&(0..count).map(pair).collect::<Vec<_>>());
        let pairs = count as usize;
        let expected = changed_by(&sheet, &list, pairs).unwrap();
        // A line, lines that there are not, and a last one that the list has.
        for last in [69, 70, 1 << 32, u64::MAX, 0] {
            list.push(last);
            for room in [pairs, pairs + 1, 64] {
                let answer = changed_by(&sheet, &list, room);
                assert!(answer.as_ref() == Ok(&expected), "{pairs}, {last}");
            }
            if pairs > 0 {
                let answer = changed_by(&sheet, &list, pairs - 1);
                assert_eq!(answer, refused(25, 0), "{pairs}, {last}");
            }
            list.pop();
        }
    }
    // Sixty-five pairs, and a number more.
    for room in [0, 64, 65, 66] {
        assert_eq!(changed_by(&sheet, &[0; 131], room), refused(24, 0));
    }
}

#[test]
fn the_last_pair_applied_to_a_line_wins() {
    for lines in [1, 40] {
        let line = lines - 1;
        let sheet = sheet_apart(lines);
        let own = |differences: &[u64]| -> Vec<(u64, u64)> {
            differences.iter().map(|&one| (line as u64, one)).collect()
        };
        let check = |differences: &[u64], last: u32, replies: &[u8]| {
            let expected = (sheet_with(lines, &[(line, last)]), replies.to_vec());
            let answer = changed_all(&sheet, &own(differences));
            assert!(answer == Ok(expected), "{differences:?}");
        };
        check(&[1, 2], 2, &[0, 0]);
        check(&[2, 1], 1, &[0, 0]);
        check(&[1, 1], 1, &[0, 0]);
        check(&[1, 2, 1], 1, &[0, 0, 0]);
        check(&[1, 2, 0x11], 0x11, &[0, 0, 0]);
        // One that is refused does not win.
        check(&[1, 256], 1, &[0, 14]);
        check(&[1, 2, 256, 257, u64::MAX], 2, &[0, 0, 14, 14, 14]);
        check(&[256, 1, 256, 2, 256], 2, &[14, 0, 14, 0, 14]);
        check(&[256, 257], 0x11, &[14, 14]);
        let falling: Vec<u64> = (0..64).map(|pair| 255 - 3 * pair).collect();
        check(&falling, 255 - 189, &[0; 64]);
    }
}

#[test]
fn lines_in_turns() {
    let sheet = sheet_apart(93);
    // Two lines of one block, and one of another.
    let pairs = [(3, 1), (40, 2), (4, 3), (3, 4), (40, 5), (3, 6)];
    let expected = sheet_with(93, &[(3, 6), (4, 3), (40, 5)]);
    assert!(changed_all(&sheet, &pairs) == Ok((expected, vec![0; 6])));
    // In another order other pairs win.
    let pairs = [(3, 6), (40, 5), (3, 4), (4, 3), (40, 2), (3, 1)];
    let expected = sheet_with(93, &[(3, 1), (4, 3), (40, 2)]);
    assert!(changed_all(&sheet, &pairs) == Ok((expected, vec![0; 6])));
}

#[test]
fn refused_pairs_first_last_and_between() {
    let sheet = sheet_apart(33);
    let good = [(0, 1), (31, 2), (32, 3)];
    let expected = sheet_with(33, &[(0, 1), (31, 2), (32, 3)]);
    for (bad, number) in [
        ((33, 7), 17),
        ((33, 256), 17),
        ((u64::MAX, u64::MAX), 17),
        ((0, 256), 14),
        ((31, u64::MAX), 14),
        ((32, 1 << 32 | 7), 14),
    ] {
        for places in 1..1 << 4 {
            let (mut pairs, mut replies) = (Vec::new(), Vec::new());
            for place in 0..4 {
                if places >> place & 1 == 1 {
                    pairs.push(bad);
                    replies.push(number);
                }
                if let Some(&pair) = good.get(place) {
                    pairs.push(pair);
                    replies.push(0);
                }
            }
            let answer = changed_all(&sheet, &pairs);
            assert!(answer == Ok((expected.clone(), replies)), "{pairs:?}");
        }
    }
}

#[test]
fn all_pairs_refused() {
    let sheet = sheet_apart(31);
    for count in [1, 2, 63, 64] {
        let answer = changed_all(&sheet, &vec![(31, 1); count]);
        assert!(answer == Ok((sheet.clone(), vec![17; count])));
        let answer = changed_all(&sheet, &vec![(30, 256); count]);
        assert!(answer == Ok((sheet.clone(), vec![14; count])));
    }
}

#[test]
fn edges_of_the_room() {
    let sheet = sheet_apart(64);
    for count in [0, 1, 2, 7, 8, 9, 63, 64] {
        let list = numbers(&(0..count).map(|line| (line, 0x44)).collect::<Vec<_>>());
        let pairs = count as usize;
        for room in (0..pairs).filter(|room| *room < 3 || room + 10 > pairs) {
            assert_eq!(changed_by(&sheet, &list, room), refused(25, 0), "{room}");
        }
        let others: Vec<(usize, u32)> = (0..pairs).map(|line| (line, 0x44)).collect();
        let expected = (sheet_with(64, &others), vec![0; pairs]);
        for room in [pairs, pairs + 1, pairs + 7, 64, 65, 100, 1000] {
            let answer = changed_by(&sheet, &list, room);
            assert!(answer.as_ref() == Ok(&expected), "{pairs}, room {room}");
        }
    }
}

/// A room of as many bytes as the list has numbers is more than it needs, and one of as
/// many as there are pairs applied is less.
#[test]
fn the_room_is_for_pairs() {
    let sheet = sheet_apart(2);
    let list = numbers(&[(0, 1), (2, 1), (1, 256), (1, 1)]);
    let expected = (sheet_with(2, &[(0, 1), (1, 1)]), vec![0, 17, 14, 0]);
    for room in [0, 1, 2, 3] {
        assert_eq!(changed_by(&sheet, &list, room), refused(25, 0), "{room}");
    }
    for room in [4, 5, 8, 9] {
        assert!(changed_by(&sheet, &list, room).as_ref() == Ok(&expected));
    }
}

#[test]
fn refusals_come_in_their_order() {
    let in_order = [refused(9, 2), refused(24, 0), refused(25, 0)];
    for faults in 0..1_usize << in_order.len() {
        let has = |fault: usize| faults >> fault & 1 == 1;
        let mut sheet = sheet_apart(41);
        if has(0) {
            sheet[record(2)] = 0;
            write_checks(&mut sheet);
        }
        let count = if has(1) { 65 } else { 64 };
        let room = if has(2) { 63 } else { count };
        // Pairs that would be refused do not come before any of these.
        for pair in [(40, 255), (41, 255), (40, 256)] {
            let list = numbers(&vec![pair; count]);
            let answer = changed_by(&sheet, &list, room).map(|(_, replies)| replies.len());
            let first = faults.trailing_zeros() as usize;
            let expected = in_order.get(first).copied().unwrap_or(Ok(64));
            assert_eq!(answer, expected, "{faults:03b}, {pair:?}");
        }
    }
}

#[test]
fn a_damaged_sheet_comes_first() {
    let good = sheet_apart(40);
    let damages = [
        (1, 0, 3, 0),
        (4, 33, 4, 0),
        (5, 0, 5, 0),
        (6, 63, 6, 0),
        (9, 1, 7, 0),
        (40, 1, 8, 0),
        (record(39), 10, 9, 39),
        (record(39) + 3, 1, 10, 39),
        (record(0) + 9, 1, 13, 0),
        (record(7) + 13, 1, 14, 7),
        (record(7) + 4, 1, 15, 7),
        (record(40), 1, 16, 2),
    ];
    let lists = [0, 1, 2, 64, 65].map(|count| numbers(&vec![(7, 0x11); count]));
    for list in &lists {
        for room in [0, 1, 64, 65] {
            for (at, byte, number, place) in damages {
                let mut bad = good.clone();
                bad[at] = byte;
                let answer = changed_by(&bad, list, room);
                assert_eq!(answer, refused(2, at / 512), "byte {at}");
                write_checks(&mut bad);
                let answer = changed_by(&bad, list, room);
                assert_eq!(answer, refused(number, place), "byte {at}");
            }
            for length in [0, 1, 512, 1023, 1535, 1537, 2048, 4608, 5120] {
                let mut bad = good.clone();
                bad.resize(length, 0);
                write_checks(&mut bad);
                let answer = changed_by(&bad, list, room);
                let is_length = length % 512 == 0 && (1024..=4608).contains(&length);
                let number = if is_length { 6 } else { 1 };
                assert_eq!(answer, refused(number, 0), "{length} bytes");
            }
        }
    }
}

/// A pair does not mend the line that the sheet is refused for, nor a check.
#[test]
fn what_is_refused_is_not_mended() {
    let good = sheet_apart(40);
    let mut bad = good.clone();
    bad[record(33) + 13] = 1;
    write_checks(&mut bad);
    assert_eq!(changed_all(&bad, &[(33, 0)]), refused(14, 33));
    assert_eq!(changed_all(&bad, &[(0, 1), (33, 0)]), refused(14, 33));
    for block in 0..3 {
        let mut bad = good.clone();
        bad[512 * block + 508] ^= 1;
        let pairs: Vec<(u64, u64)> = (0..40).map(|line| (line, 0x11)).collect();
        assert_eq!(changed_all(&bad, &pairs), refused(2, block));
    }
}

#[test]
fn numbers_of_all_sizes() {
    let sheet = sheet_apart(40);
    let large = [
        1 << 8,
        1 << 16,
        1 << 31,
        1 << 32,
        1 << 33,
        1 << 40,
        1 << 48,
        1 << 62,
        1 << 63,
        u64::MAX - 39,
        u64::MAX - 1,
        u64::MAX,
    ];
    let mut pairs = Vec::new();
    let mut replies = Vec::new();
    for number in large {
        // The low bits of most are a line, or a difference that fits.
        let low = if number < u64::MAX - 39 { 5 } else { 0 };
        pairs.extend([(number | low, 0x22), (number | low, number | low)]);
        pairs.extend([(5, number | low), (39, number)]);
        replies.extend([17, 17, 14, 14]);
    }
    assert_eq!(pairs.len(), 48);
    assert!(changed_all(&sheet, &pairs) == Ok((sheet.clone(), replies.clone())));
    // With a pair before them, one after, and one amid them that are applied.
    pairs.insert(0, (0, 255));
    pairs.insert(20, (5, 0x2f));
    pairs.push((39, 0));
    replies.insert(0, 0);
    replies.insert(20, 0);
    replies.push(0);
    let expected = sheet_with(40, &[(0, 255), (5, 0x2f), (39, 0)]);
    assert!(changed_all(&sheet, &pairs) == Ok((expected, replies)));
}

#[test]
fn bounds_of_the_difference_at_every_width() {
    for width in 2..=32 {
        let lines = vec![Line::xor_constant(0, 0, 0); 33];
        let sheet = sheet_of(width, &[0], &lines);
        let most = (1_u64 << width) - 1;
        let pairs = [
            (0, most),
            (30, most + 1),
            (31, most - 1),
            (32, u64::MAX),
            (30, 1),
            (31, 1 << 32),
            (33, most),
            (32, most),
            (32, 2 * most + 1),
        ];
        let mut expected = lines;
        for (line, difference) in [(0, most), (30, 1), (31, most - 1), (32, most)] {
            expected[line] = Line::xor_constant(0, 0, difference as u32);
        }
        let expected = sheet_of(width, &[0], &expected);
        let replies = vec![0, 14, 0, 14, 0, 14, 17, 0, 14];
        assert!(changed_all(&sheet, &pairs) == Ok((expected, replies)));
    }
}

/// The pairs of a list that gives every line of a block, or of two, its own difference.
#[test]
fn whole_blocks() {
    for lines in [31, 32, 62, 63, 248] {
        let sheet = sheet_apart(lines);
        for start in (0..lines).step_by(31) {
            let end = lines.min(start + 62);
            let others: Vec<(usize, u32)> =
                (start..end).map(|line| (line, 255 - line as u32)).collect();
            let mut pairs: Vec<(u64, u64)> = others
                .iter()
                .map(|&(line, difference)| (line as u64, difference.into()))
                .collect();
            let expected = (sheet_with(lines, &others), vec![0; pairs.len()]);
            assert!(changed_all(&sheet, &pairs).as_ref() == Ok(&expected));
            pairs.reverse();
            assert!(changed_all(&sheet, &pairs) == Ok(expected), "{start}");
        }
    }
}

#[test]
fn just_these_bytes_are_written() {
    let lines = vec![Line::xor_constant(0, 1, 0x0101_0101); 248];
    let sheet = sheet_of(32, &[0x0101_0101], &lines);
    // Every byte of a difference grows by 1, and no block has so many of them that a
    // byte of its check becomes the old one again.
    let difference = 0x0202_0202;
    let lines = [0, 30, 31, 33, 100, 217, 246, 247];
    let pairs = lines.map(|line| (line as u64, difference));
    let (changed, replies) = changed_all(&sheet, &pairs).unwrap();
    assert_eq!(replies, [0; 8]);
    let mut places: Vec<usize> = lines
        .into_iter()
        .flat_map(|line| Change { line, difference }.places())
        .collect();
    places.sort();
    places.dedup();
    assert_eq!(apart(&sheet, &changed), places);
}

#[test]
fn checks_pass_2_to_the_32() {
    let most = u64::from(u32::MAX);
    for stated in [0, 1, u32::MAX] {
        let lines = [Line::xor_constant(0, u32::MAX, stated); 62];
        let sheet = sheet_of(32, &[stated], &lines);
        let all = |difference: u64| (0..62).map(move |line| (line, difference));
        for difference in [0, 1, 1 << 31, most - 1, most] {
            let there: Vec<(u64, u64)> = all(difference).collect();
            let (changed, _) = changed_all(&sheet, &there).unwrap();
            let back: Vec<(u64, u64)> = all(stated.into()).collect();
            assert!(changed_all(&changed, &back) == Ok((sheet.clone(), vec![0; 62])));
        }
        // There and back in one call, line by line.
        let to_and_fro: Vec<(u64, u64)> = all(most)
            .zip(all(stated.into()))
            .take(32)
            .flat_map(|(there, back)| [there, back])
            .collect();
        let expected = (sheet.clone(), vec![0; 64]);
        assert!(changed_all(&sheet, &to_and_fro) == Ok(expected));
    }
}

/// Seven rounds of LEA as they are printed, with a misprint, and as corrected.
const LEA_PRINTED: &[u8] = include_bytes!("../../examples/lea7_printed.sheet");
const LEA: &[u8] = include_bytes!("../../examples/lea7.sheet");

#[test]
fn a_misprint_is_mended() {
    let pairs = [(138, 0x0004_0440), (139, 0x0000_8088)];
    let (mended, replies) = changed_all(LEA_PRINTED, &pairs).unwrap();
    assert_eq!(replies, [0, 0]);
    assert!(mended == LEA);
    for calls in implementations() {
        let printed = calls.reports(LEA_PRINTED);
        assert_eq!(printed[138..], [IMPOSSIBLE, CERTAIN], "{}", calls.name);
        let mended = calls.reports(&mended);
        assert_eq!(mended[138..], [halves(3), CERTAIN], "{}", calls.name);
    }
}

#[test]
fn the_same_differences_again() {
    let stated = Program::parse(LEA).steps;
    let pairs: Vec<(u64, u64)> = (0..)
        .zip(&stated)
        .map(|(line, step)| (line, step.difference.into()))
        .collect();
    for list in pairs.chunks(64) {
        let expected = (LEA.to_vec(), vec![0; list.len()]);
        assert!(changed_all(LEA, list) == Ok(expected));
    }
}

/// A list of one pair is the call for one change.
#[test]
fn one_pair() {
    let sheet = sheet_of(8, &[0x11], &lines_apart(40));
    for line in [0, 1, 30, 31, 39, 40, 41, 1 << 32, u64::MAX] {
        for difference in [0, 0x11, 255, 256, 1 << 32 | 3, u64::MAX] {
            let change = Change {
                line: line as usize,
                difference,
            };
            let (expected, reply) = match common::changing::changed(&sheet, change) {
                Ok(changed) => (changed, 0),
                Err(refusal) => (sheet.clone(), refusal.number as u8),
            };
            let answer = changed_all(&sheet, &[(line, difference)]);
            assert!(answer == Ok((expected, vec![reply])), "{change:?}");
        }
    }
}

#[test]
fn words_xored_with_themselves() {
    let lines = [
        Line::xor_constant(0, 5, 1),
        Line::xor(1, 1, 0),
        Line::xor(0, 0, 1),
    ];
    let sheet = sheet_of(8, &[1], &lines);
    let (changed, replies) = changed_all(&sheet, &[(0, 3), (1, 2), (2, 0)]).unwrap();
    assert_eq!(replies, [0; 3]);
    for calls in implementations() {
        let expected = [IMPOSSIBLE, IMPOSSIBLE, CERTAIN];
        assert_eq!(calls.reports(&changed), expected, "{}", calls.name);
        assert_eq!(calls.sealed(&sheet), refused(23, 1), "{}", calls.name);
        assert_eq!(calls.sealed(&changed), refused(23, 1), "{}", calls.name);
    }
}

#[cfg(has_archive)]
mod from_c {
    use super::{numbers, sheet_apart, sheet_with};
    use std::ptr::{null, null_mut};
    use tablegull::ffi::{tablegull_change_all, Answer};

    fn applied(count: u64) -> Answer {
        Answer {
            number: 0,
            place: 0,
            count,
        }
    }

    fn refused(number: u32, place: u64) -> Answer {
        Answer {
            number,
            place,
            count: 0,
        }
    }

    fn change_all(sheet: &mut [u8], pairs: &[u64], replies: &mut [u8]) -> Answer {
        let (bytes, list, out) = (sheet.as_mut_ptr(), pairs.as_ptr(), replies.as_mut_ptr());
        // SAFETY: each pointer and length are one slice's, and those that are written
        // are borrowed for it.
        unsafe { tablegull_change_all(bytes, sheet.len(), list, pairs.len(), out, replies.len()) }
    }

    #[test]
    fn every_part_of_the_answer() {
        let mut sheet = sheet_apart(40);
        let before = sheet.clone();
        let mut replies = [7; 70];
        let list = numbers(&[(0, 255), (40, 255), (39, 256), (39, 2)]);
        for length in 0..4 {
            let answer = change_all(&mut sheet, &list, &mut replies[..length]);
            assert_eq!(answer, refused(25, 0), "{length}");
        }
        for (length, numbers) in [(64, 130), (65, 130), (70, 131), (0, 1000)] {
            let answer = change_all(&mut sheet, &vec![1; numbers], &mut replies[..length]);
            assert_eq!(answer, refused(24, 0), "{length}");
        }
        let answer = change_all(&mut sheet[..1023], &list, &mut replies);
        assert_eq!(answer, refused(1, 0));
        sheet[1024] ^= 1;
        let answer = change_all(&mut sheet, &list, &mut replies);
        assert_eq!(answer, refused(2, 2));
        sheet[1024] ^= 1;
        assert!(sheet == before && replies == [7; 70]);

        assert_eq!(change_all(&mut sheet, &list, &mut replies), applied(4));
        assert_eq!(replies[..5], [0, 17, 14, 0, 7]);
        assert!(replies[4..].iter().all(|&reply| reply == 7));
        assert!(sheet == sheet_with(40, &[(0, 255), (39, 2)]));
        for numbers in [0, 1, 2, 3, 127, 128, 129] {
            let answer = change_all(&mut sheet, &vec![1; numbers], &mut replies);
            assert_eq!(answer, applied(numbers as u64 / 2));
        }
    }

    /// A pointer may be null where the length is 0.
    #[test]
    fn null_pointers() {
        let mut sheet = sheet_apart(40);
        let (before, length) = (sheet.clone(), sheet.len());
        let bytes = sheet.as_mut_ptr();
        let one = [0, 1];
        // SAFETY: no byte is lent.
        let answer = unsafe { tablegull_change_all(null_mut(), 0, null(), 0, null_mut(), 0) };
        assert_eq!(answer, refused(1, 0));
        // SAFETY: the sheet is a vector's, and no other byte is lent.
        let answer = unsafe { tablegull_change_all(bytes, length, null(), 0, null_mut(), 0) };
        assert_eq!(answer, applied(0));
        // SAFETY: the sheet is a vector's, the list an array's, and no reply is lent.
        let answer = unsafe { tablegull_change_all(bytes, length, one.as_ptr(), 2, null_mut(), 0) };
        assert_eq!(answer, refused(25, 0));
        // SAFETY: the sheet is a vector's, the list an array's, and no reply is lent.
        let answer = unsafe { tablegull_change_all(bytes, length, one.as_ptr(), 1, null_mut(), 0) };
        assert_eq!(answer, applied(0));
        assert!(sheet == before);
    }
}
