//! Which lines use a word, and changes that are lent index and report: cases of
//! document 02, by hand.

mod common;

use common::changing::Change;
use common::indexing::{Changed, Kept};
use common::{
    counted, example, halves, implementations, record, sheet_of, write_checks, Program, Report,
    CERTAIN, IMPOSSIBLE,
};
use tablegull::builder::Line;
use tablegull::{Refusal, MAX_INDEX};

fn refused<T>(number: u32, place: usize) -> Result<T, Refusal> {
    Err(Refusal {
        number,
        place: place as u64,
    })
}

/// What all implementations write of the index into so much room, or their refusal.
fn indexed(sheet: &[u8], room: usize) -> Result<Vec<u16>, Refusal> {
    common::indexing::indexed(sheet, room)
}

/// The index of an accepted sheet, by all implementations.
fn index(sheet: &[u8]) -> Vec<u16> {
    indexed(sheet, MAX_INDEX).unwrap()
}

/// The sheet and the report that all implementations leave of these, or their refusal.
fn changed(sheet: &[u8], lent: &Kept, line: usize, difference: u64) -> Result<Changed, Refusal> {
    common::indexing::changed_indexed(sheet, lent, Change { line, difference })
}

/// The refusal by all implementations, if it is one.
fn refusal(sheet: &[u8], lent: &Kept, line: usize, difference: u64) -> Result<(), Refusal> {
    changed(sheet, lent, line, difference).map(|_| ())
}

/// The reports that a report buffer spells.
fn reports(report: &[u8]) -> Vec<Report> {
    report.chunks(16).map(Report::parse).collect()
}

/// So many lines at n = 8, all certain; none names another's word.
fn lines_apart(lines: usize) -> Vec<Line> {
    vec![Line::xor_constant(0, 5, 0x11); lines]
}

fn sheet_apart(lines: usize) -> Vec<u8> {
    sheet_of(8, &[0x11], &lines_apart(lines))
}

#[test]
fn the_example_by_hand() {
    for room in 0..3 {
        assert_eq!(indexed(&example(), room), refused(18, 0), "room {room}");
    }
    for room in [3, 4, MAX_INDEX, 1000] {
        assert_eq!(indexed(&example(), room), Ok(vec![1, 0, 0]), "room {room}");
    }
    let own = Kept {
        index: vec![1, 0, 0],
        report: vec![3, 0, 1, 0, 0, 0, 0, 0, 4, 0, 0, 0, 0, 0, 0, 0],
    };
    let mut other = example();
    other[524] = 1;
    other[1020] = 9;
    let there = changed(&example(), &own, 0, 1).unwrap();
    assert!(there.sheet == other);
    assert_eq!(there.report, [0; 16]);
    let kept = Kept {
        index: own.index,
        report: there.report,
    };
    let back = changed(&other, &kept, 0, 3).unwrap();
    assert!(back.sheet == example());
    assert_eq!(back.report, own.report);
}

/// The second operand of a kind that has one only is no use of word 0.
#[test]
fn used_operands_of_every_kind() {
    let of_two = [
        Line::xor(2, 1, 0),
        Line::add(2, 1, 0),
        Line::subtract(2, 1, 0),
    ];
    let of_one = [
        Line::xor_constant(2, 1, 0),
        Line::rotate_left(2, 1, 0),
        Line::rotate_right(2, 1, 0),
        Line::add_constant(2, 1, 0),
        Line::shift_left(2, 1, 0),
        Line::shift_right(2, 1, 0),
    ];
    for line in of_two {
        let sheet = sheet_of(4, &[0, 0, 0], &[line]);
        assert_eq!(index(&sheet), [0, 1, 0, 1, 0, 0], "{line:?}");
        assert_eq!(indexed(&sheet, 5), refused(18, 0), "{line:?}");
    }
    for line in of_one {
        let sheet = sheet_of(4, &[0, 0, 0], &[line]);
        assert_eq!(index(&sheet), [0, 0, 1, 0, 0], "{line:?}");
        assert_eq!(indexed(&sheet, 4), refused(18, 0), "{line:?}");
    }
}

#[test]
fn a_word_named_twice_by_one_line() {
    let sheet = sheet_of(4, &[3, 3], &[Line::xor(1, 1, 0)]);
    assert_eq!(index(&sheet), [0, 1, 0, 0]);
    assert_eq!(indexed(&sheet, 3), refused(18, 0));
    assert_eq!(indexed(&sheet, 4), Ok(vec![0, 1, 0, 0]));
    let lines = [
        Line::xor(0, 0, 0),
        Line::xor(1, 1, 0),
        Line::xor(1, 0, 0),
        Line::xor(1, 1, 0),
    ];
    let sheet = sheet_of(4, &[0], &lines);
    assert_eq!(index(&sheet), [2, 0, 2, 3, 1, 2, 3, 0, 0, 0]);
    // Such a line is renewed, once: whatever the word differs by, it has no difference
    // from itself.
    let own = Kept::of(&sheet);
    let there = changed(&sheet, &own, 0, 5).unwrap();
    let (yes, no) = (CERTAIN, IMPOSSIBLE);
    assert_eq!(reports(&own.report), [yes, yes, yes, yes]);
    assert_eq!(reports(&there.report), [no, yes, no, yes]);
    for calls in implementations() {
        assert_eq!(calls.sealed(&sheet), refused(23, 0), "{}", calls.name);
        assert_eq!(calls.sealed(&there.sheet), refused(23, 0), "{}", calls.name);
    }
}

#[test]
fn users_rise_and_words_go_unused() {
    let lines = [
        Line::add(0, 1, 0),
        Line::xor(2, 0, 0),
        Line::rotate_left(2, 1, 0),
        Line::subtract(4, 2, 0),
        Line::xor(2, 2, 0),
        Line::xor_constant(0, 9, 0),
    ];
    let sheet = sheet_of(4, &[0, 0], &lines);
    let by_word: [&[u16]; 8] = [
        &[3, 0, 1, 5],
        &[1, 0],
        &[4, 1, 2, 3, 4],
        &[0],
        &[1, 3],
        &[0],
        &[0],
        &[0],
    ];
    assert_eq!(index(&sheet), by_word.concat());
    // No input is used but the first.
    let sheet = sheet_of(4, &[0; 8], &[Line::rotate_left(0, 1, 0); 2]);
    assert_eq!(index(&sheet), [2, 0, 1, 0, 0, 0, 0, 0, 0, 0, 0, 0]);
}

/// Lines of full sheets, and how many uses each has.
#[test]
fn lengths_of_full_sheets() {
    let of_kind = |kind: usize, first: u16, second: u16| match kind {
        0 => Line::xor(first, second, 0),
        1 => Line::add(first, second, 0),
        2 => Line::subtract(first, second, 0),
        3 => Line::xor(first, first, 0),
        _ => Line::rotate_left(first, 1, 0),
    };
    let cases: [(&[usize], usize); 6] = [
        (&[0], 752),
        (&[1], 752),
        (&[0, 1, 2], 752),
        (&[3], 504),
        (&[3, 4], 504),
        (&[0, 4], 628),
    ];
    for (kinds, length) in cases {
        for reach in [2, 8, 255] {
            // The words before the line, or the first of them.
            let line = |line: u16| {
                let words = reach.min(8 + line);
                let (first, second) = (line * 7 % words, (line * 7 + 1) % words);
                of_kind(kinds[usize::from(line) % kinds.len()], first, second)
            };
            let lines: Vec<Line> = (0..248).map(line).collect();
            let sheet = sheet_of(32, &[0; 8], &lines);
            assert_eq!(indexed(&sheet, length - 1), refused(18, 0), "{kinds:?}");
            let index = indexed(&sheet, length).unwrap();
            assert_eq!(index.len(), length, "{kinds:?}");
            assert_eq!(indexed(&sheet, length + 1), Ok(index), "{kinds:?}");
        }
    }
    assert_eq!(MAX_INDEX, 752);
}

#[test]
fn every_short_room() {
    let lines = [
        Line::add(0, 1, 3),
        Line::xor(2, 2, 0),
        Line::rotate_left(0, 1, 2),
    ];
    let sheet = sheet_of(4, &[1, 2], &lines);
    let expected = vec![2, 0, 2, 1, 0, 1, 1, 0, 0];
    for room in 0..expected.len() {
        assert_eq!(indexed(&sheet, room), refused(18, 0), "room {room}");
    }
    for room in expected.len()..40 {
        assert_eq!(indexed(&sheet, room).as_ref(), Ok(&expected), "room {room}");
    }
}

/// Width, differences, constants and amounts play no part in it, nor do kinds but for
/// their number of operands.
#[test]
fn the_index_knows_operands_alone() {
    let expected = [2, 0, 2, 1, 2, 1, 1, 1, 3, 0, 0];
    for width in [2, 8, 31, 32] {
        for (one, other) in [(0, 0), (0, 1), (1, 0), (3, 2)] {
            let of_one = [
                Line::xor_constant(0, one, other),
                Line::add_constant(0, other, one),
                Line::rotate_left(0, 1, one),
                Line::rotate_right(0, 1, other),
                Line::shift_left(0, 1, one),
                Line::shift_right(0, 1, other),
            ];
            let of_two = [
                Line::xor(0, 1, one),
                Line::add(1, 0, other),
                Line::subtract(0, 1, one),
            ];
            let last = Line::xor_constant(3, other, one);
            for first in of_one {
                for third in of_two {
                    let lines = [first, Line::rotate_left(2, 1, other), third, last];
                    let sheet = sheet_of(width, &[one, other], &lines);
                    assert_eq!(index(&sheet), expected, "{lines:?}");
                }
            }
        }
    }
}

#[test]
fn a_damaged_sheet_comes_before_the_room() {
    let good = sheet_apart(40);
    for (at, byte, number, place) in [
        (1, 0, 3, 0),
        (6, 63, 6, 0),
        (record(39), 10, 9, 39),
        (record(39) + 3, 1, 10, 39),
        (record(7) + 4, 1, 15, 7),
        (record(40), 1, 16, 2),
    ] {
        let mut bad = good.clone();
        bad[at] = byte;
        for room in [0, 1, 80, 81, MAX_INDEX] {
            assert_eq!(indexed(&bad, room), refused(2, at / 512), "byte {at}");
        }
        write_checks(&mut bad);
        for room in [0, 1, 80, 81, MAX_INDEX] {
            assert_eq!(indexed(&bad, room), refused(number, place), "byte {at}");
        }
    }
    assert_eq!(indexed(&good, 80), refused(18, 0));
    assert_eq!(indexed(&good[..1535], 0), refused(1, 0));
    assert_eq!(indexed(&[], 0), refused(1, 0));
}

/// Line 0 makes word 1, and these lines name it; all others name word 0.
#[test]
fn the_line_and_the_users_of_its_word_are_renewed() {
    let all: Vec<usize> = (1..248).collect();
    let sets: [&[usize]; 8] = [
        &[],
        &[1],
        &[247],
        &[1, 2],
        &[30, 31],
        &[100, 247],
        &[1, 61, 62, 100, 246, 247],
        &all,
    ];
    for users in sets {
        let lines: Vec<Line> = (0..248)
            .map(|line| Line::xor_constant(u16::from(users.contains(&line)), 5, 0x11))
            .collect();
        let sheet = sheet_of(8, &[0x11], &lines);
        let own = Kept::of(&sheet);
        let there = changed(&sheet, &own, 0, 0x2f).unwrap();
        let is_renewed = |line: usize| line == 0 || users.contains(&line);
        let expected: Vec<Report> = (0..248)
            .map(|line| {
                if is_renewed(line) {
                    IMPOSSIBLE
                } else {
                    CERTAIN
                }
            })
            .collect();
        assert_eq!(reports(&own.report), [CERTAIN; 248]);
        assert_eq!(reports(&there.report), expected, "{users:?}");
        // With the other difference again it is all as it was.
        let kept = Kept {
            report: there.report,
            ..own.clone()
        };
        let back = changed(&there.sheet, &kept, 0, 0x11).unwrap();
        assert!(back.sheet == sheet && back.report == own.report);
        // No line uses the last one's word.
        let last = changed(&sheet, &own, 247, 0x2f).unwrap();
        let mut expected = [CERTAIN; 248];
        expected[247] = IMPOSSIBLE;
        assert_eq!(reports(&last.report), expected);
    }
}

#[test]
fn users_of_every_kind() {
    // At n = 4: line 0 makes word 2, which differs by 2 as word 0 does.
    let lines = [
        Line::xor_constant(0, 5, 2),
        Line::xor(2, 1, 2),
        Line::xor(1, 2, 2),
        Line::xor_constant(2, 7, 2),
        Line::rotate_left(2, 1, 4),
        Line::rotate_right(2, 1, 1),
        Line::add(2, 1, 2),
        Line::add(1, 2, 2),
        Line::add_constant(2, 0, 2),
        Line::shift_left(2, 2, 8),
        Line::shift_right(2, 1, 1),
        Line::subtract(2, 1, 2),
        Line::subtract(1, 2, 2),
        Line::xor(2, 2, 0),
        // These name other words, among them one that was made of word 2.
        Line::xor(0, 1, 2),
        Line::add(0, 1, 2),
        Line::rotate_left(3, 1, 4),
    ];
    let sheet = sheet_of(4, &[2, 0], &lines);
    let own = Kept::of(&sheet);
    let (yes, no) = (CERTAIN, IMPOSSIBLE);
    let (one, two, all) = (halves(1), halves(2), counted(16, 0, 1));
    let others = [yes, one, yes];
    let stated = [
        yes, yes, yes, yes, yes, yes, one, one, all, yes, yes, one, one, yes,
    ];
    // With 3 the right shift alone drops the wrong bit; with 6 the left shift does, and
    // sums have a carry that is unlike in two bits.
    let with_3 = [no, no, no, no, no, no, no, no, no, no, yes, no, no, yes];
    let with_6 = [no, no, no, no, no, no, two, two, no, yes, no, two, two, yes];
    for (difference, of_word_2) in [(2, stated), (3, with_3), (6, with_6)] {
        let there = changed(&sheet, &own, 0, difference).unwrap();
        let expected = [&of_word_2[..], &others].concat();
        assert_eq!(reports(&there.report), expected, "{difference}");
    }
}

/// What a line's word is used for does not reach further than one line.
#[test]
fn users_of_users_stay() {
    let lines: Vec<Line> = (0..40).map(|word| Line::xor_constant(word, 1, 9)).collect();
    let sheet = sheet_of(8, &[9], &lines);
    let own = Kept::of(&sheet);
    for line in [0, 1, 29, 30, 31, 38, 39] {
        let there = changed(&sheet, &own, line, 8).unwrap();
        let mut expected = vec![CERTAIN; 40];
        expected[line] = IMPOSSIBLE;
        if let Some(user) = expected.get_mut(line + 1) {
            *user = IMPOSSIBLE;
        }
        assert_eq!(reports(&there.report), expected, "{line}");
    }
}

/// Three lines with reports of three sorts, with words named twice and not at all.
fn small_sheet() -> Vec<u8> {
    let lines = [
        Line::add_constant(0, 1, 3),
        Line::add(2, 0, 2),
        Line::xor(2, 2, 0),
    ];
    sheet_of(4, &[1, 4], &lines)
}

/// Changes of the small sheet: each line, one that there is not, and differences that
/// fit or do not.
const CHANGES_OF_SMALL_SHEET: [(usize, u64); 9] = [
    (0, 1),
    (0, 3),
    (1, 2),
    (1, 15),
    (2, 0),
    (2, 16),
    (3, 0),
    (3, 16),
    (usize::MAX, u64::MAX),
];

fn assert_not_own(sheet: &[u8], lent: &Kept, case: impl Fn() -> String) {
    for (line, difference) in CHANGES_OF_SMALL_SHEET {
        let answer = refusal(sheet, lent, line, difference);
        assert_eq!(answer, refused(26, 0), "{}, line {line}", case());
    }
}

#[test]
fn another_index() {
    let sheet = small_sheet();
    let own = Kept::of(&sheet);
    assert_eq!(own.index, [2, 0, 1, 0, 2, 1, 2, 0, 0]);
    let with = |index: Vec<u16>| Kept {
        index,
        ..own.clone()
    };
    for at in 0..own.index.len() {
        let number = own.index[at];
        for bit in 0..16 {
            let mut other = own.clone();
            other.index[at] ^= 1 << bit;
            assert_not_own(&sheet, &other, || format!("number {at}, bit {bit}"));
        }
        for wrong in [number.wrapping_sub(1), number + 1, u16::MAX] {
            let mut other = own.clone();
            other.index[at] = wrong;
            assert_not_own(&sheet, &other, || format!("{wrong} at {at}"));
        }
        let shorter = with(own.index[..at].to_vec());
        assert_not_own(&sheet, &shorter, || format!("{at} numbers"));
    }
    for more in [&[0][..], &[1], &[0, 0], &[0; 743], &own.index] {
        let longer = with([&own.index, more].concat());
        assert_not_own(&sheet, &longer, || format!("{more:?} more"));
    }
    for other in [
        // Users descend, line 2 is there twice, the unused second operand is counted.
        vec![2, 1, 0, 0, 2, 2, 1, 0, 0],
        vec![2, 0, 1, 0, 3, 1, 2, 2, 0, 0],
        vec![3, 0, 0, 1, 0, 2, 1, 2, 0, 0],
        // Without the lines' words, or without the lines.
        vec![2, 0, 1, 0],
        vec![2, 0, 2, 0, 0],
    ] {
        let lent = with(other.clone());
        assert_not_own(&sheet, &lent, || format!("{other:?}"));
    }
}

#[test]
fn another_report() {
    let sheet = small_sheet();
    let own = Kept::of(&sheet);
    let expected = [counted(8, 16, 1), halves(2), CERTAIN];
    assert_eq!(reports(&own.report), expected);
    let with = |report: Vec<u8>| Kept {
        report,
        ..own.clone()
    };
    // Of every line, so too of those that the change would renew anyway.
    for at in 0..own.report.len() {
        for bit in 0..8 {
            let mut other = own.clone();
            other.report[at] ^= 1 << bit;
            assert_not_own(&sheet, &other, || format!("byte {at}, bit {bit}"));
        }
    }
    for length in 0..own.report.len() {
        let shorter = with(own.report[..length].to_vec());
        assert_not_own(&sheet, &shorter, || format!("{length} bytes"));
    }
    for more in [1, 15, 16, 17, 3968 - 48, 3968] {
        let longer = with([&own.report[..], &vec![0; more]].concat());
        assert_not_own(&sheet, &longer, || format!("{more} more"));
    }
    // The report that the changed sheet would have is not its own yet.
    for (line, difference) in [(0, 1), (1, 15), (2, 7)] {
        let there = changed(&sheet, &own, line, difference).unwrap();
        let lent = with(there.report);
        assert_not_own(&sheet, &lent, || format!("after a change of line {line}"));
    }
}

#[test]
fn both_are_anothers() {
    let sheet = small_sheet();
    let own = Kept::of(&sheet);
    let nothing = Kept {
        index: Vec::new(),
        report: Vec::new(),
    };
    assert_not_own(&sheet, &nothing, || "nothing".into());
    let mut other = own.clone();
    other.index[0] += 1;
    other.report[0] += 1;
    assert_not_own(&sheet, &other, || "one of each".into());
    let of_other_sheet = Kept::of(&sheet_apart(3));
    assert_not_own(&sheet, &of_other_sheet, || "another sheet's".into());
}

/// Two sheets that have one report, and of which the indexes are of one length or are
/// not.
#[test]
fn the_index_of_another_sheet_with_the_same_report() {
    let sheets = [
        Line::xor_constant(0, 5, 9),
        Line::xor_constant(1, 5, 9),
        Line::xor(0, 2, 9),
        Line::xor(1, 2, 9),
    ]
    .map(|line| sheet_of(8, &[9, 9, 0], &[line]));
    let own = sheets.each_ref().map(|sheet| Kept::of(sheet));
    assert_eq!(own[0].index.len(), own[1].index.len());
    assert_ne!(own[0].index.len(), own[2].index.len());
    for (one, sheet) in sheets.iter().enumerate() {
        for (other, lent) in own.iter().enumerate() {
            assert_eq!(lent.report, own[one].report);
            assert_eq!(lent.index == own[one].index, one == other);
            let expected = if one == other { Ok(()) } else { refused(26, 0) };
            assert_eq!(refusal(sheet, lent, 0, 8), expected, "{one}, {other}");
        }
    }
}

#[test]
fn the_report_of_another_sheet_with_the_same_index() {
    let sheets = [9, 8].map(|difference| {
        let line = Line::xor_constant(0, 5, difference);
        sheet_of(8, &[9], &[line])
    });
    let own = sheets.each_ref().map(|sheet| Kept::of(sheet));
    assert_eq!(own[0].index, own[1].index);
    for (sheet, lent) in [(0, 1), (1, 0)] {
        assert_eq!(refusal(&sheets[sheet], &own[lent], 0, 3), refused(26, 0));
        assert_eq!(refusal(&sheets[sheet], &own[sheet], 0, 3), Ok(()));
    }
}

#[test]
fn a_plain_change_in_between() {
    let sheet = sheet_of(8, &[9], &[Line::xor_constant(0, 5, 9); 40]);
    let own = Kept::of(&sheet);
    let plain = |sheet: &[u8], difference| {
        let change = Change {
            line: 33,
            difference,
        };
        common::changing::changed(sheet, change).unwrap()
    };
    let other = plain(&sheet, 8);
    for line in [0, 32, 33, 39] {
        assert_eq!(refusal(&sheet, &own, line, 7), Ok(()), "{line}");
        assert_eq!(refusal(&other, &own, line, 7), refused(26, 0), "{line}");
        assert_eq!(refusal(&other, &own, line, 9), refused(26, 0), "{line}");
        // With the report made afresh, and with the change taken back.
        assert_eq!(refusal(&other, &Kept::of(&other), line, 7), Ok(()));
        assert_eq!(refusal(&plain(&other, 9), &own, line, 7), Ok(()));
        // A line that is impossible stays it: the report is still the sheet's own.
        let still_impossible = plain(&other, 10);
        assert_eq!(Kept::of(&still_impossible), Kept::of(&other));
        assert_eq!(
            refusal(&still_impossible, &Kept::of(&other), line, 7),
            Ok(())
        );
    }
}

#[test]
fn refusals_come_in_their_order() {
    let in_order = [
        refused(9, 2),
        refused(26, 0),
        refused(26, 0),
        refused(17, 0),
        refused(14, 40),
    ];
    let good = sheet_apart(41);
    for faults in 0..1_usize << in_order.len() {
        let has = |fault: usize| faults >> fault & 1 == 1;
        let mut sheet = good.clone();
        if has(0) {
            sheet[record(2)] = 0;
            write_checks(&mut sheet);
        }
        let mut lent = Kept::of(&good);
        if has(1) {
            lent.index[41] += 1;
        }
        if has(2) {
            lent.report[16 * 40] ^= 1;
        }
        let line = if has(3) { 41 } else { 40 };
        let difference = if has(4) { 256 } else { 255 };
        let answer = refusal(&sheet, &lent, line, difference);
        let first = faults.trailing_zeros() as usize;
        let expected = in_order.get(first).copied().unwrap_or(Ok(()));
        assert_eq!(answer, expected, "{faults:05b}");
    }
}

#[test]
fn a_damaged_sheet_comes_first() {
    let good = sheet_apart(40);
    let own = Kept::of(&good);
    let none = Kept {
        index: Vec::new(),
        report: Vec::new(),
    };
    let damages = [
        (1, 0, 3, 0),
        (4, 33, 4, 0),
        (5, 0, 5, 0),
        (6, 63, 6, 0),
        (9, 1, 7, 0),
        (40, 1, 8, 0),
        (record(39), 10, 9, 39),
        (record(39) + 3, 1, 10, 39),
        (record(0) + 9, 1, 13, 0),
        (record(7) + 13, 1, 14, 7),
        (record(7) + 4, 1, 15, 7),
        (record(40), 1, 16, 2),
    ];
    for lent in [&own, &none] {
        for (line, difference) in [(0, 0x11), (7, 0), (39, 256), (40, 0)] {
            for (at, byte, number, place) in damages {
                let mut bad = good.clone();
                bad[at] = byte;
                let answer = refusal(&bad, lent, line, difference);
                assert_eq!(answer, refused(2, at / 512), "byte {at}");
                write_checks(&mut bad);
                let answer = refusal(&bad, lent, line, difference);
                assert_eq!(answer, refused(number, place), "byte {at}");
            }
            for length in [0, 1, 512, 1023, 1535, 1537, 2048, 4608, 5120] {
                let mut bad = good.clone();
                bad.resize(length, 0);
                write_checks(&mut bad);
                let is_length = length % 512 == 0 && (1024..=4608).contains(&length);
                let number = if is_length { 6 } else { 1 };
                let answer = refusal(&bad, lent, line, difference);
                assert_eq!(answer, refused(number, 0), "{length} bytes");
            }
        }
    }
}

#[test]
fn lines_and_differences_of_all_sizes() {
    for lines in [1, 31, 33, 248] {
        let sheet = sheet_apart(lines);
        let own = Kept::of(&sheet);
        let past = [lines, lines + 1, 248, 249, 255, 256, usize::MAX];
        let low_bits_of_a_line = (9..64).flat_map(|bit| [1 << bit, 1 << bit | (lines - 1)]);
        for line in past.into_iter().chain(low_bits_of_a_line) {
            for difference in [0x11, 0x100, u64::MAX] {
                let answer = refusal(&sheet, &own, line, difference);
                assert_eq!(answer, refused(17, 0), "{line}");
            }
        }
        for line in [0, lines - 1] {
            // The low bits of most are a difference that fits.
            for bit in 8..64 {
                for difference in [1 << bit, 1 << bit | 0x11, u64::MAX >> (63 - bit)] {
                    let answer = refusal(&sheet, &own, line, difference);
                    assert_eq!(answer, refused(14, line), "{difference}");
                }
            }
        }
    }
}

#[test]
fn bounds_of_the_difference_at_every_width() {
    for width in 2..=32 {
        let sheet = sheet_of(width, &[0], &[Line::xor_constant(0, 0, 0); 33]);
        let own = Kept::of(&sheet);
        let most = (1_u64 << width) - 1;
        for line in [0, 30, 31, 32] {
            for difference in [0, 1, most - 1, most] {
                let there = changed(&sheet, &own, line, difference).unwrap();
                let mut expected = [CERTAIN; 33];
                if difference > 0 {
                    expected[line] = IMPOSSIBLE;
                }
                assert_eq!(reports(&there.report), expected);
            }
            for difference in [most + 1, 2 * most + 1, 1 << 32, u64::MAX] {
                let answer = refusal(&sheet, &own, line, difference);
                assert_eq!(answer, refused(14, line));
            }
        }
    }
}

/// Seven rounds of LEA as they are printed, with a misprint, and as corrected.
const LEA_PRINTED: &[u8] = include_bytes!("../../examples/lea7_printed.sheet");
const LEA: &[u8] = include_bytes!("../../examples/lea7.sheet");

#[test]
fn the_same_difference_again() {
    let own = Kept::of(LEA);
    for (line, step) in Program::parse(LEA).steps.iter().enumerate() {
        let again = changed(LEA, &own, line, step.difference.into()).unwrap();
        assert!(again.sheet == LEA && again.report == own.report, "{line}");
    }
}

#[test]
fn a_misprint_is_mended() {
    let own = Kept::of(LEA_PRINTED);
    assert_eq!(reports(&own.report)[138..], [IMPOSSIBLE, CERTAIN]);
    let there = changed(LEA_PRINTED, &own, 138, 0x0004_0440).unwrap();
    assert_eq!(reports(&there.report)[138..], [halves(3), IMPOSSIBLE]);
    let kept = Kept {
        report: there.report,
        ..own
    };
    let mended = changed(&there.sheet, &kept, 139, 0x0000_8088).unwrap();
    assert_eq!(reports(&mended.report)[138..], [halves(3), CERTAIN]);
    assert!(mended.sheet == LEA);
    assert_eq!(index(LEA), kept.index);
}

#[test]
fn checks_pass_2_to_the_32() {
    let most = u64::from(u32::MAX);
    for (stated, difference) in [(0, most), (u32::MAX, 0), (u32::MAX, most - 1), (1, most)] {
        let line = Line::xor_constant(0, u32::MAX, stated);
        let sheet = sheet_of(32, &[stated], &[line; 62]);
        let own = Kept::of(&sheet);
        for line in [0, 30, 31, 61] {
            let there = changed(&sheet, &own, line, difference).unwrap();
            let kept = Kept::of(&there.sheet);
            let back = changed(&there.sheet, &kept, line, stated.into()).unwrap();
            assert!(back.sheet == sheet && back.report == own.report);
        }
    }
}

#[cfg(has_archive)]
mod from_c {
    use super::{reports, small_sheet, Kept, CERTAIN, IMPOSSIBLE};
    use std::ptr::{null, null_mut};
    use tablegull::ffi::{tablegull_change_indexed, tablegull_index, Answer};

    fn answered(count: u64) -> Answer {
        Answer {
            number: 0,
            place: 0,
            count,
        }
    }

    fn refused(number: u32, place: u64) -> Answer {
        Answer {
            number,
            place,
            count: 0,
        }
    }

    fn index(sheet: &[u8], out: &mut [u16]) -> Answer {
        // SAFETY: each pointer and length are one slice's, and `out` is borrowed for
        // writing.
        unsafe { tablegull_index(sheet.as_ptr(), sheet.len(), out.as_mut_ptr(), out.len()) }
    }

    fn change_indexed(
        sheet: &mut [u8],
        index: &[u16],
        report: &mut [u8],
        line: u64,
        difference: u64,
    ) -> Answer {
        // SAFETY: each pointer and length are one slice's, and those that are written
        // are borrowed for it.
        unsafe {
            tablegull_change_indexed(
                sheet.as_mut_ptr(),
                sheet.len(),
                index.as_ptr(),
                index.len(),
                report.as_mut_ptr(),
                report.len(),
                line,
                difference,
            )
        }
    }

    #[test]
    fn every_part_of_the_answer() {
        let mut sheet = small_sheet();
        let before = sheet.clone();
        let own = Kept::of(&sheet);
        let length = own.index.len();
        let mut numbers = [7; 12];
        for room in 0..length {
            let answer = index(&sheet, &mut numbers[..room]);
            assert_eq!(answer, refused(18, 0), "{room}");
        }
        assert_eq!(numbers, [7; 12]);
        assert_eq!(index(&sheet, &mut numbers), answered(length as u64));
        assert_eq!(numbers[..length], own.index);
        assert!(numbers[length..].iter().all(|&number| number == 7));

        let mut report = own.report.clone();
        for (lent, rest) in [(length - 1, 48), (length + 1, 48), (length, 47), (0, 0)] {
            let (lent, report) = (&numbers[..lent], &mut report[..rest]);
            for (line, difference) in [(2, 7), (3, 7), (2, 16), (u64::MAX, u64::MAX)] {
                let answer = change_indexed(&mut sheet, lent, report, line, difference);
                assert_eq!(answer, refused(26, 0), "{line}");
            }
        }
        let lent = &numbers[..length];
        for line in [3, 1 << 32, 1 << 32 | 1, u64::MAX] {
            let answer = change_indexed(&mut sheet, lent, &mut report, line, 16);
            assert_eq!(answer, refused(17, 0), "{line}");
        }
        for difference in [16, 1 << 32, 1 << 32 | 1, u64::MAX] {
            let answer = change_indexed(&mut sheet, lent, &mut report, 2, difference);
            assert_eq!(answer, refused(14, 2), "{difference}");
        }
        let answer = change_indexed(&mut sheet[..1023], lent, &mut report, 2, 7);
        assert_eq!(answer, refused(1, 0));
        sheet[1020] ^= 1;
        let answer = change_indexed(&mut sheet, lent, &mut report, 2, 7);
        assert_eq!(answer, refused(2, 1));
        sheet[1020] ^= 1;
        assert!(sheet == before && report == own.report);

        let answer = change_indexed(&mut sheet, lent, &mut report, 0, 2);
        assert_eq!(answer, answered(0));
        assert_eq!(reports(&report), [IMPOSSIBLE, IMPOSSIBLE, CERTAIN]);
        let answer = change_indexed(&mut sheet, lent, &mut report, 0, 3);
        assert_eq!(answer, answered(0));
        assert!(sheet == before && report == own.report);
    }

    /// A pointer may be null where the length is 0.
    #[test]
    fn null_pointers() {
        let mut sheet = small_sheet();
        let (before, length) = (sheet.clone(), sheet.len());
        // SAFETY: no byte is lent.
        let answer = unsafe { tablegull_index(null(), 0, null_mut(), 0) };
        assert_eq!(answer, refused(1, 0));
        // SAFETY: the sheet is a vector's, and no number is lent.
        let answer = unsafe { tablegull_index(sheet.as_ptr(), length, null_mut(), 0) };
        assert_eq!(answer, refused(18, 0));
        let bytes = sheet.as_mut_ptr();
        for (bytes, length, refusal) in [
            (null_mut(), 0, refused(1, 0)),
            (bytes, length, refused(26, 0)),
        ] {
            // SAFETY: the sheet is a vector's or has no byte, and nothing else is lent.
            let answer =
                unsafe { tablegull_change_indexed(bytes, length, null(), 0, null_mut(), 0, 0, 0) };
            assert_eq!(answer, refusal);
        }
        assert!(sheet == before);
    }
}
