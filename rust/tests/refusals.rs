//! Every question is asked, in its order, and a refused call changes nothing.

mod common;

use common::{implementations, record, write_checks};
use tablegull::builder::{Line, SheetBuilder};
use tablegull::Refusal;

/// 33 lines of all kinds at n = 20: a full line block and one with two lines.
fn sheet() -> Vec<u8> {
    let mut sheet = SheetBuilder::new(20, &[1, 2, 3]);
    for _ in 0..3 {
        sheet.line(Line::xor(0, 1, 3));
        sheet.line(Line::xor_constant(0, 5, 1));
        sheet.line(Line::rotate_left(1, 19, 1));
        sheet.line(Line::rotate_right(1, 1, 1));
        sheet.line(Line::add(0, 1, 3));
        sheet.line(Line::add_constant(0, 7, 1));
        sheet.line(Line::shift_left(1, 19, 0));
        sheet.line(Line::shift_right(1, 1, 1));
        sheet.line(Line::subtract(1, 0, 3));
    }
    for _ in 0..6 {
        sheet.line(Line::xor(0, 1, 3));
    }
    let mut bytes = sheet.unsealed();
    write_checks(&mut bytes);
    bytes
}

/// A byte's place, the byte to put there, and the refusal that follows: in
/// sealing, and unless it is 23 in reading.
type Damage = (usize, u8, u32, u64);

/// What reading a sheet with these damages, in the order of the questions, comes
/// to.
fn reading(damages: &[Damage]) -> Result<usize, Refusal> {
    let asked = damages.iter().find(|(_, _, number, _)| *number != 23);
    match asked {
        Some(&(_, _, number, place)) => Err(Refusal { number, place }),
        None => Ok(33),
    }
}

/// In the order of the questions: of several of these in one sheet, the one
/// that stands first here is the refusal.
fn damages() -> Vec<Damage> {
    vec![
        (0, 0x40, 3, 0),
        (1, 0, 3, 0),
        (2, 0, 3, 0),
        (3, 0x55, 3, 0),
        (4, 33, 4, 0),
        (5, 9, 5, 0),
        (7, 1, 6, 0),
        (8 + 2, 0x10, 7, 0),
        (8 + 4 * 3, 1, 7, 0),
        (39, 0x80, 7, 0),
        (40, 1, 8, 0),
        (507, 1, 8, 0),
        (record(0), 0, 9, 0),
        (record(0) + 2, 3, 10, 0),
        (record(0) + 4, 3, 10, 0),
        (record(0) + 4, 0, 23, 0),
        (record(0) + 14, 0x10, 14, 0),
        (record(0) + 1, 1, 15, 0),
        (record(0) + 7, 1, 15, 0),
        (record(0) + 8, 1, 15, 0),
        (record(1), 10, 9, 1),
        (record(1) + 3, 1, 10, 1),
        (record(1) + 10, 0x10, 13, 1),
        (record(1) + 15, 1, 14, 1),
        (record(1) + 1, 1, 15, 1),
        (record(1) + 4, 1, 15, 1),
        (record(1) + 6, 1, 15, 1),
        (record(2) + 2, 5, 10, 2),
        (record(2) + 1, 20, 12, 2),
        (record(2) + 5, 1, 15, 2),
        (record(2) + 11, 1, 15, 2),
        (record(3) + 1, 0, 12, 3),
        (record(3) + 14, 0x10, 14, 3),
        (record(3) + 8, 1, 15, 3),
        (record(4) + 4, 7, 10, 4),
        (record(4) + 4, 0, 11, 4),
        (record(4) + 1, 1, 15, 4),
        (record(4) + 9, 1, 15, 4),
        (record(5) + 2, 8, 10, 5),
        (record(5) + 11, 1, 13, 5),
        (record(5) + 1, 1, 15, 5),
        (record(5) + 4, 1, 15, 5),
        (record(6) + 2, 9, 10, 6),
        (record(6) + 1, 20, 12, 6),
        (record(6) + 14, 0x10, 14, 6),
        (record(6) + 4, 1, 15, 6),
        (record(6) + 7, 1, 15, 6),
        (record(6) + 8, 1, 15, 6),
        (record(7) + 3, 1, 10, 7),
        (record(7) + 1, 0, 12, 7),
        (record(7) + 15, 1, 14, 7),
        (record(7) + 5, 1, 15, 7),
        (record(7) + 6, 1, 15, 7),
        (record(7) + 11, 1, 15, 7),
        (record(8) + 2, 11, 10, 8),
        (record(8) + 4, 11, 10, 8),
        (record(8) + 4, 1, 11, 8),
        (record(8) + 14, 0x10, 14, 8),
        (record(8) + 1, 1, 15, 8),
        (record(8) + 6, 1, 15, 8),
        (record(8) + 9, 1, 15, 8),
        (record(9) + 4, 12, 10, 9),
        (record(9) + 2, 1, 23, 9),
        (record(9) + 14, 0x10, 14, 9),
        (record(9) + 11, 1, 15, 9),
        (record(30), 0xff, 9, 30),
        (record(31) + 4, 0, 23, 31),
        (record(31) + 6, 1, 15, 31),
        (record(32), 10, 9, 32),
        (record(32) + 4, 35, 10, 32),
        (record(32) + 4, 0, 23, 32),
        (512 + 496, 1, 16, 1),
        (512 + 507, 1, 16, 1),
        (record(33), 1, 16, 2),
        (record(61) + 15, 1, 16, 2),
        (1024 + 496, 1, 16, 2),
        (1024 + 507, 0x80, 16, 2),
    ]
}

#[test]
fn each_question_has_its_number_and_place() {
    for calls in implementations() {
        assert_eq!((calls.read)(&sheet()), Ok(33));
        for damage in damages() {
            let (at, byte, number, place) = damage;
            let mut bytes = sheet();
            assert_ne!(bytes[at], byte);
            bytes[at] = byte;
            let refused = Err(Refusal { number, place });
            let block = (at / 512) as u64;
            let wrong_check = Err(Refusal {
                number: 2,
                place: block,
            });
            let name = calls.name;
            assert_eq!((calls.read)(&bytes), wrong_check, "{name}, byte {at}");

            let before = bytes.clone();
            assert_eq!((calls.seal)(&mut bytes), refused, "{name}, byte {at}");
            assert_eq!(bytes, before, "{name}, byte {at}");

            write_checks(&mut bytes);
            let before = bytes.clone();
            assert_eq!(
                (calls.read)(&bytes),
                reading(&[damage]),
                "{name}, byte {at}"
            );
            assert_eq!((calls.seal)(&mut bytes), refused, "{name}, byte {at}");
            assert_eq!(bytes, before, "{name}, byte {at}");

            // There is no such line.
            let reading_then_17 = reading(&[damage]).and(Err(Refusal {
                number: 17,
                place: 0,
            }));
            let changed = (calls.change)(&mut bytes, 33, u64::MAX);
            assert_eq!(changed, reading_then_17, "{name}, byte {at}");
            let tried = (calls.trial)(&bytes, 33, u64::MAX, &mut []);
            assert_eq!(tried, reading_then_17, "{name}, byte {at}");

            // There are too many changes.
            let reading_then_24 = reading(&[damage]).and(Err(Refusal {
                number: 24,
                place: 0,
            }));
            let changed = (calls.change_all)(&mut bytes, &[0; 130], &mut []);
            assert_eq!(changed, reading_then_24, "{name}, byte {at}");

            // There is no room for the index, and no index.
            let reading_then = |number| reading(&[damage]).and(Err(Refusal { number, place: 0 }));
            let indexed = (calls.index)(&bytes, &mut []);
            assert_eq!(indexed, reading_then(18), "{name}, byte {at}");
            let changed = (calls.change_indexed)(&mut bytes, &[], &mut [], 33, u64::MAX);
            assert_eq!(changed, reading_then(26), "{name}, byte {at}");
            assert_eq!(bytes, before, "{name}, byte {at}");
        }
    }
}

#[test]
fn of_two_refusals_the_first_is_given() {
    let damages = damages();
    assert!(
        damages.is_sorted_by_key(|&(_, _, number, place)| match number {
            ..9 => (0, 0, number),
            9..=11 => (1, place, number),
            // Directly after 11.
            23 => (1, place, 12),
            12..16 => (1, place, number + 1),
            _ => (2, place, number),
        })
    );
    for calls in implementations() {
        for (index, &first) in damages.iter().enumerate() {
            for &later in &damages[index + 1..] {
                let (at, byte, number, place) = first;
                let (later_at, later_byte, ..) = later;
                // In one place there is room for one of the two.
                if later_at == at {
                    continue;
                }
                let mut bytes = sheet();
                bytes[at] = byte;
                bytes[later_at] = later_byte;
                write_checks(&mut bytes);
                assert_eq!(
                    (calls.read)(&bytes),
                    reading(&[first, later]),
                    "{}, bytes {at} and {later_at}",
                    calls.name
                );
                assert_eq!(
                    (calls.seal)(&mut bytes),
                    Err(Refusal { number, place }),
                    "{}, bytes {at} and {later_at}",
                    calls.name
                );
            }
        }
    }
}

#[test]
fn wrong_checks_are_placed_at_the_first_block() {
    for calls in implementations() {
        for block in 0..3 {
            for at in 508..512 {
                let mut bytes = sheet();
                for later in block..3 {
                    bytes[512 * later + at] ^= 0x40;
                }
                let refused = Err(Refusal {
                    number: 2,
                    place: block as u64,
                });
                assert_eq!((calls.read)(&bytes), refused, "{}", calls.name);
                assert_eq!((calls.seal)(&mut bytes), Ok(3), "{}", calls.name);
                assert_eq!(bytes, sheet(), "{}", calls.name);
            }
        }
    }
}

#[test]
fn a_check_counts_its_block() {
    // Two line blocks that are all alike but for their checks.
    let mut builder = SheetBuilder::new(8, &[0]);
    for _ in 0..62 {
        builder.line(Line::xor(0, 0, 0));
    }
    let mut bytes = builder.unsealed();
    write_checks(&mut bytes);
    let (first, second) = (bytes[512..1024].to_vec(), bytes[1024..].to_vec());
    assert_ne!(first, second);
    for calls in implementations() {
        assert_eq!((calls.read)(&bytes), Ok(62));
        let mut swapped = bytes.clone();
        swapped[512..1024].copy_from_slice(&second);
        swapped[1024..].copy_from_slice(&first);
        let refused = Err(Refusal {
            number: 2,
            place: 1,
        });
        assert_eq!((calls.read)(&swapped), refused, "{}", calls.name);
    }
}

#[test]
fn questions_about_a_call_come_after_the_sheet() {
    let good = sheet();
    let mut bad = sheet();
    bad[record(32)] = 0;
    write_checks(&mut bad);
    let refused = |number, place| Err(Refusal { number, place });
    for calls in implementations() {
        let (report, clauses) = (calls.line_report, calls.line_clauses);
        assert_eq!(report(&bad, 33, &mut []), refused(9, 32));
        assert_eq!(report(&good, 33, &mut []), refused(17, 0));
        assert_eq!(report(&good, usize::MAX, &mut [0; 16]), refused(17, 0));
        assert_eq!(report(&good, 32, &mut [0; 15]), refused(18, 0));
        assert_eq!(report(&good, 32, &mut [0; 16]), Ok(16));

        assert_eq!(clauses(&bad, 33, &mut []), refused(9, 32));
        assert_eq!(clauses(&good, 33, &mut []), refused(17, 0));
        assert_eq!(clauses(&good, 1 << 32, &mut [0; 4944]), refused(17, 0));
        assert_eq!(clauses(&good, 32, &mut []), refused(18, 0));

        let (change, trial) = (calls.change, calls.trial);
        assert_eq!(change(&mut bad.clone(), 33, 1 << 20), refused(9, 32));
        assert_eq!(change(&mut good.clone(), 33, 1 << 20), refused(17, 0));
        assert_eq!(change(&mut good.clone(), 32, 1 << 20), refused(14, 32));
        assert_eq!(change(&mut good.clone(), 32, (1 << 20) - 1), Ok(0));
        assert_eq!(trial(&bad, 33, 1 << 20, &mut []), refused(9, 32));
        assert_eq!(trial(&good, 33, 1 << 20, &mut []), refused(17, 0));
        assert_eq!(trial(&good, 32, 1 << 20, &mut []), refused(14, 32));
        assert_eq!(trial(&good, 32, 3, &mut [0; 33 * 16 - 1]), refused(18, 0));
        assert_eq!(trial(&good, 32, 3, &mut [0; 33 * 16]), Ok(33 * 16));

        let change_all = |sheet: &[u8], numbers: usize, room: usize| {
            (calls.change_all)(&mut sheet.to_vec(), &vec![0; numbers], &mut vec![0; room])
        };
        assert_eq!(change_all(&bad, 130, 0), refused(9, 32));
        assert_eq!(change_all(&good, 130, 0), refused(24, 0));
        assert_eq!(change_all(&good, 130, 65), refused(24, 0));
        assert_eq!(change_all(&good, 129, 63), refused(25, 0));
        assert_eq!(change_all(&good, 129, 64), Ok(64));

        // 3 inputs, 33 lines, and 48 uses: 15 lines have two operands.
        assert_eq!((calls.index)(&bad, &mut []), refused(9, 32));
        assert_eq!((calls.index)(&good, &mut [0; 83]), refused(18, 0));
        assert_eq!((calls.index)(&good, &mut [0; 84]), Ok(84));

        let (mut index, mut report) = ([0; 84], [0; 33 * 16]);
        (calls.index)(&good, &mut index).unwrap();
        (calls.report)(&good, &mut report).unwrap();
        let change_indexed = |sheet: &[u8], index: &[u16], line, difference| {
            let (mut sheet, mut report) = (sheet.to_vec(), report);
            (calls.change_indexed)(&mut sheet, index, &mut report, line, difference)
        };
        let short = &index[..83];
        assert_eq!(change_indexed(&bad, short, 33, 1 << 20), refused(9, 32));
        assert_eq!(change_indexed(&good, short, 33, 1 << 20), refused(26, 0));
        assert_eq!(change_indexed(&good, &index, 33, 1 << 20), refused(17, 0));
        assert_eq!(change_indexed(&good, &index, 32, 1 << 20), refused(14, 32));
        assert_eq!(change_indexed(&good, &index, 32, (1 << 20) - 1), Ok(0));

        for text in [calls.clause_text_part, calls.report_text_part] {
            assert_eq!(text(&bad, 34, &mut []), refused(9, 32));
            assert_eq!(text(&good, 34, &mut []), refused(17, 0));
            assert_eq!(text(&good, usize::MAX, &mut [0; 34608]), refused(17, 0));
            assert_eq!(text(&good, 33, &mut []), refused(18, 0));
        }

        assert_eq!((calls.report)(&bad, &mut []), refused(9, 32));
        assert_eq!((calls.report)(&good, &mut [0; 33 * 16 - 1]), refused(18, 0));
        assert_eq!((calls.report)(&good, &mut [0; 33 * 16]), Ok(33 * 16));

        assert_eq!((calls.totals)(&bad, &mut []), refused(9, 32));
        assert_eq!((calls.totals)(&good, &mut [0; 2]), refused(18, 0));

        assert_eq!((calls.clause_counts)(&bad, &mut []), refused(9, 32));
        assert_eq!((calls.clause_counts)(&good, &mut [0; 1]), refused(18, 0));

        let runs = calls.two_runs;
        assert_eq!(runs(&bad, &[], &mut []), refused(9, 32));
        assert_eq!(runs(&good, &[], &mut [0; 2]), refused(18, 0));
        assert_eq!(runs(&good, &[0; 2], &mut [0; 3]), refused(19, 0));
        assert_eq!(runs(&good, &[0; 4], &mut [0; 3]), refused(19, 0));
        assert_eq!(runs(&good, &[0, 0, 1 << 20], &mut [0; 3]), refused(19, 0));
        assert_eq!(runs(&good, &[1 << 32, 0, 0], &mut [0; 3]), refused(19, 0));
        assert_eq!(runs(&good, &[0, 0, (1 << 20) - 1], &mut [0; 3]), Ok(3));
    }
}

#[test]
fn every_line_measures_its_own_need() {
    let good = sheet();
    // n = 20: kinds 1 to 9 as the outputs' rows give them, worked out by hand.
    // The shifts are by 19 and by 1.
    let needs = [640, 240, 240, 240, 3024, 1208, 88, 232, 3024];
    for calls in implementations() {
        for (line, need) in needs.into_iter().enumerate() {
            let mut out = vec![7; need + 1];
            let short = (calls.line_clauses)(&good, line, &mut out[..need - 1]);
            let refused = Err(Refusal {
                number: 18,
                place: 0,
            });
            assert_eq!(short, refused, "{}, line {line}", calls.name);
            assert!(out.iter().all(|&number| number == 7));
            assert_eq!(
                (calls.line_clauses)(&good, line, &mut out),
                Ok(need),
                "{}, line {line}",
                calls.name
            );
            assert_eq!(out[need], 7);
        }
    }
}

#[test]
fn every_part_of_a_text_measures_its_own_need() {
    let good = sheet();
    for calls in implementations() {
        let (clauses, report) = (calls.clause_text_part, calls.report_text_part);
        // The last line's clauses, 4 for each bit and run, worked out by hand: of
        // digits 131 for the three literals of all bits, of signs and blanks 6
        // and 12 a bit, and 0 and the line's end after each clause.
        let need_of_clauses = 2 * (4 * 131 + 20 * (6 + 12 + 4 * 2));
        for (call, part, need) in [
            (clauses, 0, "p cnf 1062 7080\n".len()),
            (clauses, 33, need_of_clauses),
            (report, 0, "0 certain 0 0 0\n".len()),
            (report, 5, "5 impossible 0 0 0\n".len()),
            (report, 13, "13 halves 32 0 0\n".len()),
            (report, 33, "total 3 64 0\n".len()),
        ] {
            let mut out = vec![7; need + 1];
            let short = call(&good, part, &mut out[..need - 1]);
            let refused = Err(Refusal {
                number: 18,
                place: 0,
            });
            assert_eq!(short, refused, "{}, part {part}", calls.name);
            assert!(out.iter().all(|&byte| byte == 7));
            let answer = call(&good, part, &mut out);
            assert_eq!(answer, Ok(need), "{}, part {part}", calls.name);
            assert_eq!(out[need], 7);
        }
    }
}

#[test]
fn the_builder_hands_refusals_on() {
    let one_line = |width, inputs: &[u32], line| {
        let mut sheet = SheetBuilder::new(width, inputs);
        sheet.line(line);
        sheet.seal().map_err(|refusal| refusal.number)
    };
    let quiet = Line::xor_constant(0, 0, 0);
    assert_eq!(one_line(1, &[0], quiet), Err(4));
    assert_eq!(one_line(8, &[], quiet), Err(5));
    assert_eq!(one_line(8, &[0; 9], quiet), Err(5));
    assert_eq!(one_line(8, &[0; 257], quiet), Err(5));
    assert_eq!(one_line(8, &[256], quiet), Err(7));
    assert_eq!(one_line(8, &[0], Line::xor(0, 1, 0)), Err(10));
    assert_eq!(one_line(8, &[0], Line::add(0, 0, 0)), Err(11));
    assert_eq!(one_line(8, &[0], Line::subtract(0, 0, 0)), Err(11));
    assert_eq!(one_line(8, &[0], Line::xor(0, 0, 0)), Err(23));
    assert_eq!(one_line(8, &[0], Line::xor(0, 0, 256)), Err(23));
    assert_eq!(one_line(8, &[0], Line::rotate_left(0, 8, 0)), Err(12));
    assert_eq!(one_line(8, &[0], Line::rotate_right(0, 0, 0)), Err(12));
    assert_eq!(one_line(8, &[0], Line::shift_left(0, 8, 0)), Err(12));
    assert_eq!(one_line(8, &[0], Line::shift_right(0, 0, 0)), Err(12));
    assert_eq!(one_line(8, &[0], Line::add_constant(0, 256, 0)), Err(13));
    assert_eq!(one_line(8, &[0], Line::xor_constant(0, 0, 256)), Err(14));

    let with_lines = |lines| {
        let mut sheet = SheetBuilder::new(8, &[0]);
        for _ in 0..lines {
            sheet.line(quiet);
        }
        sheet.seal().map_err(|refusal| refusal.number)
    };
    assert_eq!(with_lines(0), Err(1));
    assert!(with_lines(248).is_ok());
    assert_eq!(with_lines(249), Err(1));
    assert_eq!(with_lines(65_536 + 31), Err(1));
}
