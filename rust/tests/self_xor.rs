//! A word XORed with itself: sealing refuses it, and every other call takes it
//! as it takes any line. Cases of document 02.

mod common;

use common::{halves, implementations, record, write_checks, Calls, Outcome, CERTAIN, IMPOSSIBLE};
use tablegull::builder::{Line, SheetBuilder};
use tablegull::Refusal;

fn refused<T>(number: u32, place: usize) -> Result<T, Refusal> {
    Err(Refusal {
        number,
        place: place as u64,
    })
}

/// These lines at n = 8 with right checks, as a sheet that was sealed earlier.
fn sheet_of(inputs: &[u32], lines: &[Line]) -> Vec<u8> {
    common::sheet_of(8, inputs, lines)
}

/// What sealing comes to, by all implementations: with right checks, with none
/// written and with wrong ones. Its bytes stay as they were if it is refused.
fn sealing(sheet: &[u8]) -> Outcome {
    let mut right = sheet.to_vec();
    write_checks(&mut right);
    let (mut none, mut wrong) = (right.clone(), right.clone());
    for block in none.chunks_exact_mut(512) {
        block[508..].fill(0);
    }
    for block in wrong.chunks_exact_mut(512) {
        block[509] ^= 0x10;
    }
    let outcomes: Vec<Outcome> = implementations()
        .iter()
        .flat_map(|calls| [&right, &none, &wrong].map(|sheet| calls.sealed(sheet)))
        .collect();
    assert!(outcomes.iter().all(|outcome| *outcome == outcomes[0]));
    outcomes[0]
}

/// What reading the sheet with right checks comes to, by all implementations.
fn reading(sheet: &[u8]) -> Outcome {
    let outcomes: Vec<Outcome> = implementations()
        .iter()
        .map(|calls| calls.read_with_checks(sheet))
        .collect();
    assert!(outcomes.iter().all(|outcome| *outcome == outcomes[0]));
    outcomes[0]
}

/// A line that nothing is wrong with, for inputs that do not differ.
fn quiet() -> Line {
    Line::xor_constant(0, 5, 0)
}

#[test]
fn at_every_line_and_of_every_word() {
    for inputs in [1, 2, 8] {
        for line in [0, 1, 2, 29, 30, 31, 32, 61, 62, 123, 216, 217, 246, 247] {
            for lines in [line + 1, 248] {
                let words = inputs + line;
                for word in [0, inputs - 1, inputs, words / 2, words - 1] {
                    // Before line 0 there is no line that made a word.
                    if word >= words {
                        continue;
                    }
                    let mut all = vec![quiet(); lines];
                    all[line] = Line::xor(word as u16, word as u16, 0);
                    let sheet = sheet_of(&vec![0; inputs], &all);
                    assert_eq!(sealing(&sheet), refused(23, line), "word {word}");
                    assert_eq!(reading(&sheet), Ok(lines), "line {line}, word {word}");
                }
            }
        }
    }
}

#[test]
fn whatever_difference_is_stated() {
    for input in [0, 1, 0xff] {
        for difference in [0, 1, 0x80, 0xff] {
            let sheet = sheet_of(&[input], &[Line::xor(0, 0, difference)]);
            assert_eq!(sealing(&sheet), refused(23, 0));
            assert_eq!(reading(&sheet), Ok(1));
        }
    }
}

#[test]
fn at_every_width() {
    for width in 2..=32 {
        let mut sheet = SheetBuilder::new(width, &[0, 0]);
        sheet.line(Line::xor(1, 0, 0));
        assert_eq!(sealing(&sheet.unsealed()), Ok(2));
        sheet.line(Line::xor(1, 1, 0));
        assert_eq!(sealing(&sheet.unsealed()), refused(23, 1));
        assert_eq!(reading(&sheet.unsealed()), Ok(2));
    }
}

#[test]
fn of_two_the_first() {
    let own = |word| Line::xor(word, word, 0);
    for (first, second) in [(0, 1), (0, 247), (30, 31), (3, 4), (246, 247)] {
        let mut lines = vec![quiet(); 248];
        (lines[first], lines[second]) = (own(0), own(1));
        assert_eq!(sealing(&sheet_of(&[0, 0], &lines)), refused(23, first));
    }
    assert_eq!(sealing(&sheet_of(&[0], &[own(0); 248])), refused(23, 0));
    assert_eq!(reading(&sheet_of(&[0], &[own(0); 248])), Ok(248));
}

#[test]
fn a_word_that_is_not_an_earlier_one() {
    for line in [0, 1, 40] {
        // The line's own word, later ones, and one whose low byte is a word.
        for word in [2 + line, 3 + line, 255, 256, 257, u16::MAX] {
            let mut lines = vec![quiet(); 41];
            lines[usize::from(line)] = Line::xor(word, word, 0);
            let sheet = sheet_of(&[0, 0], &lines);
            assert_eq!(sealing(&sheet), refused(10, line.into()), "{word}");
            assert_eq!(reading(&sheet), refused(10, line.into()), "{word}");
        }
    }
}

#[test]
fn different_words_are_sealed() {
    let lines = [
        Line::xor(0, 1, 0),
        Line::xor(1, 0, 0),
        Line::xor_constant(0, 0, 0),
        // Word 4 is always what word 0 is, and word 5 what word 4 is.
        Line::xor(0, 4, 0),
        Line::xor(5, 4, 0),
    ];
    assert_eq!(sealing(&sheet_of(&[0, 0], &lines)), Ok(2));

    // The two numbers are apart in one bit.
    let bits = [1, 2, 4, 8, 16, 32, 64, 128];
    let mut lines = vec![quiet(); 129];
    lines.extend(bits.map(|bit| Line::xor(0, bit, 0)));
    lines.extend(bits.map(|bit| Line::xor(bit, 0, 0)));
    assert_eq!(sealing(&sheet_of(&[0], &lines)), Ok(6));
    for (line, bit) in (129..).zip(bits.into_iter().chain([0; 8])) {
        let mut lines = lines.clone();
        lines[line] = Line::xor(bit, bit, 0);
        assert_eq!(sealing(&sheet_of(&[0], &lines)), refused(23, line));
    }
}

#[test]
fn other_kinds_are_as_they_were() {
    for line in [Line::add(1, 1, 0), Line::subtract(1, 1, 0)] {
        let sheet = sheet_of(&[0, 0], &[quiet(), line]);
        assert_eq!(sealing(&sheet), refused(11, 1));
        assert_eq!(reading(&sheet), refused(11, 1));
    }
    // Where the second operand is not used it is 0, as the first may be.
    let one_operand = |first| {
        [
            Line::xor_constant(first, 3, 0),
            Line::rotate_left(first, 1, 0),
            Line::rotate_right(first, 7, 0),
            Line::add_constant(first, 0, 0),
            Line::shift_left(first, 7, 0),
            Line::shift_right(first, 1, 0),
        ]
    };
    let sheet = sheet_of(&[0, 0], &one_operand(0));
    assert_eq!(sealing(&sheet), Ok(2));
    assert_eq!(reading(&sheet), Ok(6));
    for line in one_operand(1) {
        let mut sheet = sheet_of(&[0, 0], &[line]);
        assert_eq!(sealing(&sheet), Ok(2));
        sheet[record(0) + 4] = 1;
        assert_eq!(sealing(&sheet), refused(15, 0));
        assert_eq!(reading(&sheet), refused(15, 0));
    }
}

/// Bytes of a record of kind 1, what to put there, and the refusal that follows
/// in reading.
const FAULTS_OF_KIND_1: [(usize, u8, u32); 11] = [
    (13, 1, 14),
    (14, 1, 14),
    (15, 0x80, 14),
    (1, 1, 15),
    (1, 8, 15),
    (6, 1, 15),
    (7, 0x80, 15),
    (8, 1, 15),
    // A constant that does not fit is no fault of its own: kind 1 has none.
    (9, 1, 15),
    (11, 0x80, 15),
    (1, 0xff, 15),
];

#[test]
fn a_fault_in_the_same_line() {
    for line in [0, 1, 31, 61] {
        let mut lines = vec![quiet(); 62];
        lines[line] = Line::xor(1, 1, 0);
        let sheet = sheet_of(&[0, 0], &lines);
        for (at, byte, number) in FAULTS_OF_KIND_1 {
            let mut bytes = sheet.clone();
            bytes[record(line) + at] = byte;
            assert_eq!(sealing(&bytes), refused(23, line), "byte {at}");
            assert_eq!(reading(&bytes), refused(number, line), "byte {at}");
            // With different words the fault is sealing's too.
            bytes[record(line) + 4] = 0;
            assert_eq!(sealing(&bytes), refused(number, line), "byte {at}");
        }
        let mut both = sheet.clone();
        both[record(line) + 1] = 1;
        both[record(line) + 13] = 1;
        assert_eq!(sealing(&both), refused(23, line));
        assert_eq!(reading(&both), refused(14, line));
        for (kind, number) in [(0, 9), (10, 9), (255, 9), (5, 11), (9, 11)] {
            let mut bytes = sheet.clone();
            bytes[record(line)] = kind;
            assert_eq!(sealing(&bytes), refused(number, line));
            assert_eq!(reading(&bytes), refused(number, line));
        }
    }
}

/// A line with each fault that a line can have.
fn faulty_lines() -> [(Line, u32); 10] {
    [
        (Line::xor(0, u16::MAX, 0), 10),
        (Line::xor(u16::MAX, u16::MAX, 0), 10),
        (Line::add(0, 0, 0), 11),
        (Line::subtract(1, 1, 0), 11),
        (Line::rotate_left(0, 8, 0), 12),
        (Line::shift_right(0, 0, 0), 12),
        (Line::xor_constant(0, 256, 0), 13),
        (Line::add_constant(0, 256, 0), 13),
        (Line::xor(0, 1, 256), 14),
        (Line::rotate_right(1, 1, 1 << 31), 14),
    ]
}

#[test]
fn a_fault_in_another_line() {
    let own = Line::xor(0, 0, 0);
    for (early, late) in [(0, 1), (0, 61), (30, 31), (3, 7)] {
        let mut lines = vec![quiet(); 62];
        for (faulty, number) in faulty_lines() {
            (lines[early], lines[late]) = (faulty, own);
            let sheet = sheet_of(&[0, 0], &lines);
            assert_eq!(sealing(&sheet), refused(number, early));
            assert_eq!(reading(&sheet), refused(number, early));

            (lines[early], lines[late]) = (own, faulty);
            let sheet = sheet_of(&[0, 0], &lines);
            assert_eq!(sealing(&sheet), refused(23, early), "{number}");
            assert_eq!(reading(&sheet), refused(number, late));
        }
        // No line of the builder's has these faults.
        (lines[early], lines[late]) = (own, own);
        let sheet = sheet_of(&[0, 0], &lines);
        for (at, byte, number) in [(0, 0, 9), (0, 10, 9), (6, 1, 15), (8, 1, 15)] {
            let mut bytes = sheet.clone();
            bytes[record(late) + at] = byte;
            assert_eq!(sealing(&bytes), refused(23, early), "{number}");
            assert_eq!(reading(&bytes), refused(number, late));
            // And before the line, in one that is of another kind.
            bytes[record(late) + at] = sheet[record(late) + at];
            bytes[record(early)..record(early) + 16].fill(0);
            bytes[record(early)] = 3;
            bytes[record(early) + 1] = 1;
            bytes[record(early) + at] = byte;
            assert_eq!(sealing(&bytes), refused(number, early));
            assert_eq!(reading(&bytes), refused(number, early));
        }
    }
}

#[test]
fn questions_before_the_lines_and_after_them() {
    let sheet = sheet_of(&[0, 0], &[quiet(), Line::xor(0, 0, 0)]);
    for (at, byte, number) in [
        (0, 0, 3),
        (4, 1, 4),
        (4, 33, 4),
        (5, 0, 5),
        (5, 9, 5),
        (6, 0, 6),
        (6, 32, 6),
        (9, 1, 7),
        (16, 1, 7),
        (40, 1, 8),
        (507, 1, 8),
    ] {
        let mut bytes = sheet.clone();
        bytes[at] = byte;
        assert_eq!(sealing(&bytes), refused(number, 0), "byte {at}");
    }
    for length in [0, 512, 1023, 1025, 5120] {
        let mut bytes = sheet.clone();
        bytes.resize(length, 0);
        assert_eq!(sealing(&bytes), refused(1, 0), "{length}");
    }
    for at in [record(2), record(30) + 15, 512 + 496, 512 + 507] {
        let mut bytes = sheet.clone();
        bytes[at] = 1;
        assert_eq!(sealing(&bytes), refused(23, 1), "byte {at}");
        assert_eq!(reading(&bytes), refused(16, 1), "byte {at}");
    }
    // Past the last line nothing is XORed.
    let mut bytes = sheet.clone();
    bytes[6] = 1;
    assert_eq!(sealing(&bytes), refused(16, 1));
}

/// A sheet that was sealed earlier, at n = 2: words 0 to 3 are inputs and lines.
fn old_sheet() -> Vec<u8> {
    let mut sheet = SheetBuilder::new(2, &[0b01, 0b10]);
    sheet.line(Line::xor(0, 0, 0));
    sheet.line(Line::add(2, 1, 0b10));
    sheet.line(Line::xor(3, 3, 0));
    sheet.line(Line::xor(2, 2, 0));
    sheet.line(Line::xor(0, 0, 0));
    let mut bytes = sheet.unsealed();
    write_checks(&mut bytes);
    bytes
}

#[test]
fn an_old_sheet_is_reported() {
    let sheet = old_sheet();
    assert_eq!(sealing(&sheet), refused(23, 0));
    let expected = [CERTAIN, halves(0), CERTAIN, CERTAIN, CERTAIN];
    for calls in implementations() {
        let name = calls.name;
        assert_eq!((calls.read)(&sheet), Ok(5), "{name}");
        assert_eq!(calls.reports(&sheet), expected, "{name}");
        for (line, report) in expected.into_iter().enumerate() {
            let mut out = [7; 17];
            assert_eq!((calls.line_report)(&sheet, line, &mut out), Ok(16));
            assert_eq!(common::Report::parse(&out[..16]), report, "{name}");
            assert_eq!(out[16], 7);
        }
        assert_eq!(calls.sheet_totals(&sheet), [0, 0, 0], "{name}");
    }
}

#[test]
fn a_difference_of_a_word_xored_with_itself_is_impossible() {
    let mut sheet = sheet_of(&[1, 2], &[Line::xor(1, 1, 4), Line::xor(0, 0, 0)]);
    for calls in implementations() {
        let name = calls.name;
        assert_eq!(calls.reports(&sheet), [IMPOSSIBLE, CERTAIN], "{name}");
        assert_eq!(calls.sheet_totals(&sheet), [1, 0, 0], "{name}");
        for start in [[0, 0], [0xff, 3]] {
            assert_eq!(calls.runs(&sheet, &start), [0, 0, 2], "{name}");
        }
    }
    // Its repeat is impossible too, and counts.
    sheet.copy_within(record(0)..record(1), record(1));
    write_checks(&mut sheet);
    for calls in implementations() {
        assert_eq!(calls.sheet_totals(&sheet), [2, 0, 0], "{}", calls.name);
    }
}

#[test]
fn an_old_sheet_is_run() {
    let sheet = old_sheet();
    let other_difference = {
        let mut bytes = sheet.clone();
        bytes[record(3) + 12] = 0b10;
        write_checks(&mut bytes);
        bytes
    };
    for calls in implementations() {
        for start in (0..16).map(|start| [start % 4, start / 4]) {
            assert_eq!(calls.runs(&sheet, &start), [1, 0, 0], "{}", calls.name);
            assert_eq!(calls.runs(&other_difference, &start), [0, 3, 1]);
        }
    }
}

#[test]
fn an_old_sheet_has_its_clauses() {
    // Bits of word 0 are variables 1 and 2, of line 0's word 5 and 6. Both
    // operands have the same literal, and it stands in each clause twice.
    let expected: &[&[i32]] = &[
        &[1, 1, -5],
        &[1, -1, 5],
        &[-1, 1, 5],
        &[-1, -1, -5],
        &[2, 2, -6],
        &[2, -2, 6],
        &[-2, 2, 6],
        &[-2, -2, -6],
        // The second run, where bit 0 of word 0 differs.
        &[-1, -1, -5],
        &[-1, 1, 5],
        &[1, -1, 5],
        &[1, 1, -5],
        &[2, 2, -6],
        &[2, -2, 6],
        &[-2, 2, 6],
        &[-2, -2, -6],
    ];
    let sheet = old_sheet();
    for calls in implementations() {
        assert_eq!(calls.clauses(&sheet, 0), expected, "{}", calls.name);
        let mut counts = [0; 2];
        assert_eq!((calls.clause_counts)(&sheet, &mut counts), Ok(2));
        // Seven words and the carries of one line; four lines as above and a sum.
        assert_eq!(counts, [16, 4 * 16 + 2 * 16], "{}", calls.name);
        let all = calls.joined_clauses(&sheet);
        assert_eq!(all.len(), 96, "{}", calls.name);

        // Satisfied by the runs of every start, and by nothing else.
        let satisfied = |assignment: u32| {
            let holds = |&literal: &i32| {
                let value = assignment >> (literal.unsigned_abs() - 1) & 1;
                (value == 1) == (literal > 0)
            };
            all.iter().all(|clause| clause.iter().any(holds))
        };
        let satisfying = (0..1 << 16).filter(|&assignment| satisfied(assignment));
        assert_eq!(satisfying.count(), 16, "{}", calls.name);
    }
}

/// What all implementations join, with room for the longest sheet.
fn joined(first: &[u8], second: &[u8], names: &[u64]) -> Vec<u8> {
    let join = |calls: &Calls| calls.joined(first, second, names, 4608).unwrap();
    let sheets: Vec<Vec<u8>> = implementations().iter().map(join).collect();
    assert!(sheets.iter().all(|sheet| *sheet == sheets[0]));
    sheets[0].clone()
}

#[test]
fn joining_keeps_such_lines() {
    let own = |word| Line::xor(word, word, 0);
    let plain = sheet_of(&[0, 0], &[quiet(), Line::add(0, 1, 0), quiet()]);
    let with_own = sheet_of(&[0, 0], &[quiet(), own(1), own(2)]);

    let in_first = joined(&with_own, &plain, &[3, 0]);
    let lines = [
        quiet(),
        own(1),
        own(2),
        Line::xor_constant(3, 5, 0),
        Line::add(3, 0, 0),
        Line::xor_constant(3, 5, 0),
    ];
    assert!(in_first == sheet_of(&[0, 0], &lines));

    let in_second = joined(&plain, &with_own, &[3, 0]);
    let lines = [
        quiet(),
        Line::add(0, 1, 0),
        quiet(),
        Line::xor_constant(3, 5, 0),
        own(0),
        own(5),
    ];
    assert!(in_second == sheet_of(&[0, 0], &lines));

    let in_both = joined(&with_own, &with_own, &[0, 1]);
    let in_none = joined(&plain, &plain, &[4, 2]);
    for (sheet, sealed) in [
        (&in_first, refused(23, 1)),
        (&in_second, refused(23, 4)),
        (&in_both, refused(23, 1)),
        (&in_none, Ok(2)),
    ] {
        assert_eq!(reading(sheet), Ok(6));
        assert_eq!(sealing(sheet), sealed);
        // The joined sheet has been written with its checks.
        for calls in implementations() {
            assert_eq!((calls.read)(sheet), Ok(6), "{}", calls.name);
        }
    }
    for (first, second) in [(&with_own, &plain), (&plain, &with_own)] {
        for calls in implementations() {
            calls.check_joined(first, second, &joined(first, second, &[3, 0]));
        }
    }
}

#[test]
fn joining_at_the_edges_of_lines() {
    let own = Line::xor(0, 0, 0);
    let with_own = sheet_of(&[0], &[own]);
    let most = sheet_of(&[0], &vec![quiet(); 247]);
    let last = joined(&most, &with_own, &[247]);
    assert_eq!(reading(&last), Ok(248));
    assert_eq!(sealing(&last), refused(23, 247));
    let first = joined(&with_own, &most, &[1]);
    assert_eq!(reading(&first), Ok(248));
    assert_eq!(sealing(&first), refused(23, 0));
}
