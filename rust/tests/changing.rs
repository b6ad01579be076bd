//! Changing a stated difference, and trying a change first: cases of document 02,
//! the order of refusals, and the edges of lines, differences and rooms.

mod common;

use common::changing::{apart, Change};
use common::{
    counted, example, halves, implementations, record, sheet_of, write_checks, Program, Report,
    CERTAIN, IMPOSSIBLE,
};
use tablegull::builder::Line;
use tablegull::Refusal;

fn refused<T>(number: u32, place: usize) -> Result<T, Refusal> {
    Err(Refusal {
        number,
        place: place as u64,
    })
}

/// The changed sheet by all implementations, or their refusal.
fn changed(sheet: &[u8], line: usize, difference: u64) -> Result<Vec<u8>, Refusal> {
    common::changing::changed(sheet, Change { line, difference })
}

/// What all implementations write of a trial into so much room, or their refusal.
fn tried_in(sheet: &[u8], line: usize, difference: u64, room: usize) -> Result<Vec<u8>, Refusal> {
    common::changing::tried(sheet, Change { line, difference }, room)
}

/// The reports of a trial with room for the longest.
fn tried(sheet: &[u8], line: usize, difference: u64) -> Result<Vec<Report>, Refusal> {
    let bytes = tried_in(sheet, line, difference, 3968)?;
    Ok(bytes.chunks(16).map(Report::parse).collect())
}

/// The reports of a sheet, by all implementations.
fn reports(sheet: &[u8]) -> Vec<Report> {
    let all = implementations();
    let mut reports = all.iter().map(|calls| calls.reports(sheet));
    let first = reports.next().expect("the reference is always there");
    assert!(reports.all(|other| other == first));
    first
}

#[test]
fn the_example_by_hand() {
    let mut expected = example();
    expected[524] = 1;
    expected[1020] = 9;
    assert!(changed(&example(), 0, 1) == Ok(expected.clone()));
    assert_eq!(tried(&example(), 0, 1), Ok(vec![IMPOSSIBLE]));
    assert!(changed(&expected, 0, 3) == Ok(example()));
    assert_eq!(tried(&expected, 0, 3), Ok(vec![counted(4, 0, 1)]));
}

/// So many lines at n = 8, all certain; none names another's word.
fn lines_apart(lines: usize) -> Vec<Line> {
    vec![Line::xor_constant(0, 5, 0x11); lines]
}

#[test]
fn lines_at_the_edges_of_blocks() {
    for lines in [1, 2, 30, 31, 32, 61, 62, 63, 217, 218, 247, 248] {
        let sheet = sheet_of(8, &[0x11], &lines_apart(lines));
        let edges = [0, 1, 29, 30, 31, 32, 60, 61, 62, 216, 217, 246, 247];
        for line in edges.into_iter().filter(|&line| line < lines) {
            let mut others = lines_apart(lines);
            others[line] = Line::xor_constant(0, 5, 0x2f);
            let expected = sheet_of(8, &[0x11], &others);
            assert!(changed(&sheet, line, 0x2f) == Ok(expected), "{line}");
            let mut reports = vec![CERTAIN; lines];
            reports[line] = IMPOSSIBLE;
            assert_eq!(tried(&sheet, line, 0x2f), Ok(reports), "{line}");
        }
    }
}

#[test]
fn bounds_of_the_difference_at_every_width() {
    for width in 2..=32 {
        let lines = vec![Line::xor_constant(0, 0, 0); 33];
        let sheet = sheet_of(width, &[0], &lines);
        let most = (1_u64 << width) - 1;
        for line in [0, 30, 31, 32] {
            for difference in [0, 1, most - 1, most] {
                let mut lines = lines.clone();
                lines[line] = Line::xor_constant(0, 0, difference as u32);
                let expected = sheet_of(width, &[0], &lines);
                assert!(changed(&sheet, line, difference) == Ok(expected));
                let mut reports = vec![CERTAIN; 33];
                if difference > 0 {
                    reports[line] = IMPOSSIBLE;
                }
                assert_eq!(tried(&sheet, line, difference), Ok(reports));
            }
            // The low bits of most of these are a difference that fits.
            for difference in [
                most + 1,
                most + 2,
                2 * most + 1,
                1 << 32,
                (1 << 32) + 1,
                (1 << 32) + most,
                1 << 33,
                1 << 40,
                1 << 63,
                u64::MAX - 1,
                u64::MAX,
            ] {
                assert_eq!(changed(&sheet, line, difference), refused(14, line));
                assert_eq!(tried(&sheet, line, difference), refused(14, line));
            }
        }
    }
}

#[test]
fn lines_that_are_not_there() {
    for lines in [1, 31, 33, 248] {
        let sheet = sheet_of(8, &[0x11], &lines_apart(lines));
        let past = [
            lines,
            lines + 1,
            248,
            249,
            255,
            256,
            257,
            usize::MAX - 1,
            usize::MAX,
        ];
        let low_bits_of_a_line = (9..64).flat_map(|bit| [1 << bit, 1 << bit | (lines - 1)]);
        for line in past.into_iter().chain(low_bits_of_a_line) {
            for difference in [0x11, 0x2f, 0x100, u64::MAX] {
                assert_eq!(changed(&sheet, line, difference), refused(17, 0), "{line}");
                assert_eq!(tried(&sheet, line, difference), refused(17, 0), "{line}");
            }
        }
    }
}

/// Seven rounds of LEA as they are printed, with a misprint, and as corrected.
const LEA_PRINTED: &[u8] = include_bytes!("../../examples/lea7_printed.sheet");
const LEA: &[u8] = include_bytes!("../../examples/lea7.sheet");

#[test]
fn the_same_difference_again() {
    let stated = Program::parse(LEA).steps;
    for (line, step) in stated.iter().enumerate() {
        let difference = step.difference.into();
        assert!(changed(LEA, line, difference).unwrap() == LEA, "{line}");
        assert_eq!(tried(LEA, line, difference), Ok(reports(LEA)), "{line}");
    }
}

#[test]
fn a_misprint_is_mended() {
    let printed = reports(LEA_PRINTED);
    assert_eq!(printed[138..], [IMPOSSIBLE, CERTAIN]);
    // The sum can happen with the corrected difference, and the misprinted rotation
    // of it cannot any more.
    let with_sum = tried(LEA_PRINTED, 138, 0x0004_0440).unwrap();
    assert_eq!(with_sum[138..], [halves(3), IMPOSSIBLE]);
    assert_eq!(with_sum[..138], printed[..138]);
    let with_sum = changed(LEA_PRINTED, 138, 0x0004_0440).unwrap();
    let mended = tried(&with_sum, 139, 0x0000_8088).unwrap();
    assert_eq!(mended[138..], [halves(3), CERTAIN]);
    assert!(changed(&with_sum, 139, 0x0000_8088).unwrap() == LEA);
}

/// At n = 4: a line, a difference, the report with it, another difference, and the
/// report with that one.
type ToAndFro = (Line, u64, Report, u64, Report);

#[test]
fn impossible_and_back() {
    let cases: [ToAndFro; 9] = [
        (Line::xor(0, 1, 5), 5, CERTAIN, 4, IMPOSSIBLE),
        (Line::xor_constant(0, 9, 1), 1, CERTAIN, 0, IMPOSSIBLE),
        (Line::rotate_left(3, 1, 1), 1, CERTAIN, 0, IMPOSSIBLE),
        (Line::rotate_right(0, 1, 8), 8, CERTAIN, 0, IMPOSSIBLE),
        (Line::add(0, 2, 1), 1, halves(1), 0, IMPOSSIBLE),
        (
            Line::add_constant(0, 0, 1),
            1,
            counted(16, 0, 1),
            3,
            IMPOSSIBLE,
        ),
        (Line::shift_left(3, 1, 0), 0, CERTAIN, 1, IMPOSSIBLE),
        (Line::shift_right(0, 1, 0), 0, CERTAIN, 8, IMPOSSIBLE),
        (Line::subtract(0, 2, 1), 1, halves(1), 0, IMPOSSIBLE),
    ];
    // Possible with either.
    let more: [ToAndFro; 3] = [
        (
            Line::add_constant(1, 3, 4),
            4,
            counted(4, 32, 1),
            12,
            counted(12, 8, 1),
        ),
        (Line::add(0, 2, 1), 1, halves(1), 15, halves(3)),
        (Line::subtract(2, 0, 15), 15, halves(3), 1, halves(1)),
    ];
    for (line, one, report_of_one, other, report_of_other) in cases.into_iter().chain(more) {
        let sheet = sheet_of(4, &[1, 4, 0, 8], &[line]);
        assert_eq!(reports(&sheet), [report_of_one], "{line:?}");
        assert_eq!(tried(&sheet, 0, other), Ok(vec![report_of_other]));
        let there = changed(&sheet, 0, other).unwrap();
        assert_eq!(reports(&there), [report_of_other], "{line:?}");
        assert_eq!(tried(&there, 0, one), Ok(vec![report_of_one]));
        assert!(changed(&there, 0, one).unwrap() == sheet, "{line:?}");
    }
}

#[test]
fn a_word_that_many_lines_name() {
    // At n = 4: line 0 makes word 2, which differs by 2 as word 0 does.
    let of_word_2 = [
        Line::xor(2, 1, 2),
        Line::xor(1, 2, 2),
        Line::xor_constant(2, 7, 2),
        Line::rotate_left(2, 1, 4),
        Line::rotate_right(2, 1, 1),
        Line::add(2, 1, 2),
        Line::add(1, 2, 2),
        Line::add_constant(2, 0, 2),
        Line::shift_left(2, 2, 8),
        Line::shift_right(2, 1, 1),
        Line::subtract(2, 1, 2),
        Line::subtract(1, 2, 2),
        Line::xor(2, 2, 0),
    ];
    // These name other words, among them one that was made of word 2.
    let of_others = [
        Line::xor(0, 1, 2),
        Line::add(0, 1, 2),
        Line::rotate_left(3, 1, 4),
    ];
    let lines = [&[Line::xor_constant(0, 5, 2)][..], &of_word_2, &of_others].concat();
    let sheet = sheet_of(4, &[2, 0], &lines);

    let (yes, no) = (CERTAIN, IMPOSSIBLE);
    let others = [yes, halves(1), yes];
    let (one, two, all) = (halves(1), halves(2), counted(16, 0, 1));
    let stated = [
        yes, yes, yes, yes, yes, yes, one, one, all, yes, yes, one, one, yes,
    ];
    // By 3, with which the right shift alone drops the wrong bit; and by 6, with
    // which the left shift does, and sums have a carry that is unlike in two bits.
    let with_3 = [no, no, no, no, no, no, no, no, no, no, yes, no, no, yes];
    let with_6 = [no, no, no, no, no, no, two, two, no, yes, no, two, two, yes];
    for (difference, reports_of_word_2) in [(2, stated), (3, with_3), (6, with_6)] {
        let expected = [&reports_of_word_2[..], &others].concat();
        assert_eq!(tried(&sheet, 0, difference).as_ref(), Ok(&expected));
        let changed = changed(&sheet, 0, difference).unwrap();
        assert_eq!(reports(&changed), expected, "{difference}");
    }
}

#[test]
fn a_word_that_every_later_line_names() {
    // Word 1 is line 0's. Each later line can happen as long as it differs by 1.
    let later = (0..247).map(|line| match line % 3 {
        0 => Line::xor_constant(1, line, 1),
        1 => Line::xor(1, 1 + line as u16, 0),
        _ => Line::rotate_left(1, 3, 8),
    });
    let lines: Vec<Line> = [Line::xor_constant(0, 9, 1)]
        .into_iter()
        .chain(later)
        .collect();
    let sheet = sheet_of(8, &[1], &lines);
    assert_eq!(tried(&sheet, 0, 1), Ok(vec![CERTAIN; 248]));
    assert_eq!(tried(&sheet, 0, 3), Ok(vec![IMPOSSIBLE; 248]));
    assert_eq!(reports(&changed(&sheet, 0, 3).unwrap()), [IMPOSSIBLE; 248]);
    // No line names the last one's word.
    let mut expected = vec![CERTAIN; 248];
    expected[247] = IMPOSSIBLE;
    assert_eq!(tried(&sheet, 247, 3), Ok(expected));
}

#[test]
fn just_these_bytes_are_written() {
    let lines = vec![Line::xor_constant(0, 1, 0x0101_0101); 248];
    let sheet = sheet_of(32, &[0x0101_0101], &lines);
    for line in [0, 1, 29, 30, 31, 32, 61, 62, 100, 217, 247] {
        // Every byte of the difference grows by 1, so that every byte of the check
        // becomes another one too.
        let difference = 0x0202_0202;
        let changed = changed(&sheet, line, difference).unwrap();
        let places = Change { line, difference }.places();
        assert_eq!(apart(&sheet, &changed), places, "{line}");
    }
}

#[test]
fn checks_pass_2_to_the_32() {
    let most = u64::from(u32::MAX);
    for (stated, difference) in [(0, most), (u32::MAX, 0), (u32::MAX, most - 1), (1, most)] {
        let line = Line::xor_constant(0, u32::MAX, stated);
        let sheet = sheet_of(32, &[stated], &[line; 62]);
        for line in [0, 30, 31, 61] {
            let there = changed(&sheet, line, difference).unwrap();
            assert!(changed(&there, line, stated.into()).unwrap() == sheet);
        }
    }
}

#[test]
fn edges_of_the_room() {
    for lines in [1, 2, 31, 32, 247, 248] {
        let need = 16 * lines;
        let sheet = sheet_of(8, &[0x11], &lines_apart(lines));
        for room in [0, 1, 15, need - 16, need - 15, need - 1] {
            assert_eq!(tried_in(&sheet, lines - 1, 3, room), refused(18, 0));
        }
        for room in [need, need + 1, need + 15, need + 16, 3968, 5000] {
            let report = tried_in(&sheet, lines - 1, 3, room).unwrap();
            assert_eq!(report.len(), need, "room {room}");
        }
    }
}

#[test]
fn refusals_come_in_their_order() {
    let in_order = [
        refused(9, 2),
        refused(17, 0),
        refused(14, 40),
        refused(18, 0),
    ];
    for faults in 0..1_usize << in_order.len() {
        let has = |fault: usize| faults >> fault & 1 == 1;
        let mut sheet = sheet_of(8, &[0x11], &lines_apart(41));
        if has(0) {
            sheet[record(2)] = 0;
            write_checks(&mut sheet);
        }
        let line = if has(1) { 41 } else { 40 };
        let difference = if has(2) { 256 } else { 255 };
        let room = if has(3) { 16 * 41 - 1 } else { 16 * 41 };
        let expected = |faults: usize, accepted| {
            let first = faults.trailing_zeros() as usize;
            in_order.get(first).copied().unwrap_or(Ok(accepted))
        };
        let answer = tried_in(&sheet, line, difference, room).map(|report| report.len());
        assert_eq!(answer, expected(faults, 16 * 41), "{faults:04b}");
        // A change needs no room.
        let answer = changed(&sheet, line, difference).map(|sheet| sheet.len());
        assert_eq!(answer, expected(faults & 7, 1536), "{faults:04b}");
    }
}

#[test]
fn reading_tells_what_14_was_about() {
    let good = sheet_of(8, &[0x11], &lines_apart(3));
    let mut bad = good.clone();
    bad[record(1) + 13] = 1;
    write_checks(&mut bad);
    // A change of that very line does not mend the sheet.
    for line in [0, 1, 2] {
        assert_eq!(changed(&bad, line, 0), refused(14, 1));
        assert_eq!(tried(&bad, line, 0), refused(14, 1));
    }
    assert_eq!(changed(&good, 1, 256), refused(14, 1));
    for calls in implementations() {
        assert_eq!((calls.read)(&bad), refused(14, 1), "{}", calls.name);
        assert_eq!((calls.read)(&good), Ok(3), "{}", calls.name);
    }
}

#[test]
fn a_wrong_check_is_not_renewed() {
    let good = sheet_of(8, &[0x11], &lines_apart(40));
    for block in 0..3 {
        let mut bad = good.clone();
        bad[512 * block + 509] ^= 0x10;
        for line in [0, 31, 40] {
            assert_eq!(changed(&bad, line, 0x11), refused(2, block));
            assert_eq!(tried(&bad, line, 0x11), refused(2, block));
        }
    }
}

#[test]
fn words_xored_with_themselves() {
    let lines = [
        Line::xor_constant(0, 5, 1),
        Line::xor(1, 1, 0),
        Line::xor(0, 0, 1),
    ];
    let sheet = sheet_of(8, &[1], &lines);
    // Whatever the word's difference is, it has none from itself.
    assert_eq!(
        tried(&sheet, 0, 3),
        Ok(vec![IMPOSSIBLE, CERTAIN, IMPOSSIBLE])
    );
    assert_eq!(tried(&sheet, 2, 0), Ok(vec![CERTAIN; 3]));
    for (line, difference) in [(0, 3), (1, 2), (2, 0)] {
        let changed = changed(&sheet, line, difference).unwrap();
        for calls in implementations() {
            assert_eq!(calls.sealed(&sheet), refused(23, 1), "{}", calls.name);
            assert_eq!(calls.sealed(&changed), refused(23, 1), "{}", calls.name);
        }
    }
}

#[test]
fn a_changed_line_is_a_repeat_or_is_none() {
    let totals = |sheet: &[u8], expected: [u64; 3]| {
        for calls in implementations() {
            assert_eq!(calls.sheet_totals(sheet), expected, "{}", calls.name);
        }
    };
    let copies = sheet_of(4, &[1, 0], &[Line::add(0, 1, 1); 2]);
    totals(&copies, [0, 16, 0]);
    let apart = changed(&copies, 1, 3).unwrap();
    totals(&apart, [0, 16 + 32, 0]);
    let copies_again = changed(&apart, 0, 3).unwrap();
    totals(&copies_again, [0, 32, 0]);
    let impossible = changed(&copies_again, 1, 0).unwrap();
    totals(&impossible, [1, 32, 0]);
    totals(&changed(&impossible, 0, 0).unwrap(), [2, 0, 0]);
}

#[test]
fn a_changed_sheet_is_run() {
    let program = Program::parse(LEA);
    let start = [
        0xa1cc_c3be,
        0x0abf_f964,
        0x2a04_c341,
        0x5cd3_07a7,
        0x80ed_bb1d,
        0x5ff3_b0f7,
        0xc63e_42b6,
        0xf2c0_3263,
    ];
    assert!(program.follows(&start));
    for (line, step) in program.steps.iter().enumerate() {
        let bit = line as u32 % 32;
        let difference = u64::from(step.difference ^ 1 << bit);
        let changed = changed(LEA, line, difference).unwrap();
        for calls in implementations() {
            let expected = [0, line as u64, bit.into()];
            assert_eq!(calls.runs(&changed, &start), expected, "{}", calls.name);
        }
    }
}

#[cfg(has_archive)]
mod from_c {
    use super::{example, reports, sheet_of};
    use std::ptr::{null, null_mut};
    use tablegull::builder::Line;
    use tablegull::ffi::{tablegull_change, tablegull_trial, Answer};

    const CHANGED: Answer = Answer {
        number: 0,
        place: 0,
        count: 0,
    };

    fn refused(number: u32, place: u64) -> Answer {
        Answer {
            number,
            place,
            count: 0,
        }
    }

    fn change(sheet: &mut [u8], line: u64, difference: u64) -> Answer {
        // SAFETY: pointer and length are one slice's, borrowed for writing.
        unsafe { tablegull_change(sheet.as_mut_ptr(), sheet.len(), line, difference) }
    }

    fn trial(sheet: &[u8], line: u64, difference: u64, out: &mut [u8]) -> Answer {
        let (from, to) = (sheet.as_ptr(), out.as_mut_ptr());
        // SAFETY: each pointer and length are one slice's, and `out` is borrowed
        // for writing.
        unsafe { tablegull_trial(from, sheet.len(), line, difference, to, out.len()) }
    }

    #[test]
    fn every_part_of_the_answer() {
        let mut sheet = sheet_of(4, &[1], &[Line::xor_constant(0, 0, 1); 40]);
        let before = sheet.clone();
        let mut out = [7; 16 * 40 + 1];
        for line in [40, 1 << 32, 1 << 32 | 3, u64::MAX] {
            assert_eq!(change(&mut sheet, line, 16), refused(17, 0), "{line}");
            assert_eq!(trial(&sheet, line, 16, &mut []), refused(17, 0), "{line}");
        }
        for line in [0, 31, 39] {
            for difference in [16, 1 << 32, 1 << 32 | 1, u64::MAX] {
                let answer = change(&mut sheet, line, difference);
                assert_eq!(answer, refused(14, line), "{difference}");
                let answer = trial(&sheet, line, difference, &mut []);
                assert_eq!(answer, refused(14, line), "{difference}");
            }
            let short = trial(&sheet, line, 15, &mut out[..16 * 40 - 1]);
            assert_eq!(short, refused(18, 0));
        }
        assert!(sheet == before && out.iter().all(|&byte| byte == 7));

        let count = 16 * 40;
        let answer = trial(&sheet, 39, 15, &mut out);
        assert_eq!(answer, Answer { count, ..CHANGED });
        assert_eq!(out[640], 7);
        assert!(sheet == before);
        assert_eq!(change(&mut sheet, 39, 15), CHANGED);
        let written = out[..640].chunks(16).map(super::Report::parse);
        assert!(written.eq(reports(&sheet)));
    }

    /// A pointer may be null where the length is 0.
    #[test]
    fn null_pointers() {
        let sheet = example();
        // SAFETY: no byte is lent.
        let answer = unsafe { tablegull_change(null_mut(), 0, 0, 0) };
        assert_eq!(answer, refused(1, 0));
        // SAFETY: no byte is lent.
        let answer = unsafe { tablegull_trial(null(), 0, 0, 0, null_mut(), 0) };
        assert_eq!(answer, refused(1, 0));
        for (line, difference, refusal) in [
            (0, 0, refused(18, 0)),
            (0, 4, refused(14, 0)),
            (1, 4, refused(17, 0)),
        ] {
            let (from, length) = (sheet.as_ptr(), sheet.len());
            // SAFETY: the sheet is a slice's, and of the other no byte is lent.
            let answer = unsafe { tablegull_trial(from, length, line, difference, null_mut(), 0) };
            assert_eq!(answer, refusal);
        }
    }
}
