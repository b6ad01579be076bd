//! Joining two trails: cases of document 02, the order of refusals, and the
//! edges of lines, names and rooms.

mod common;

use common::{implementations, sheet_of, write_checks, Program, Report};
use tablegull::builder::Line;
use tablegull::Refusal;

/// A sheet at n = 8 whose words all differ by 1, one input and these lines.
fn sheet_of_copies(lines: usize) -> Vec<u8> {
    sheet_of(8, &[1], &vec![Line::xor_constant(0, 5, 1); lines])
}

fn refused<T>(number: u32, place: u64) -> Result<T, Refusal> {
    Err(Refusal { number, place })
}

/// What all implementations answer with room for the longest sheet.
fn joined(first: &[u8], second: &[u8], names: &[u64]) -> Result<Vec<u8>, Refusal> {
    joined_in(first, second, names, 4608)
}

fn joined_in(first: &[u8], second: &[u8], names: &[u64], room: usize) -> Result<Vec<u8>, Refusal> {
    let mut answers = implementations()
        .into_iter()
        .map(|calls| (calls, calls.joined(first, second, names, room)));
    let (_, answer) = answers.next().expect("the reference is always there");
    for (calls, other) in answers {
        assert!(other == answer, "{}", calls.name);
    }
    answer
}

#[test]
fn operands_are_renumbered() {
    let first = sheet_of(
        8,
        &[1, 2, 4],
        &[Line::xor(0, 1, 3), Line::rotate_left(2, 1, 8)],
    );
    // Inputs 0, 1 and 2 of the second are words 4, 0 and 3 of the first. Lines
    // of the first end with word 4, so word 3 of the second becomes word 5.
    let second = sheet_of(
        8,
        &[8, 1, 3],
        &[
            Line::xor(0, 1, 9),
            Line::xor_constant(2, 0x80, 3),
            Line::rotate_left(3, 7, 0x84),
            Line::rotate_right(1, 1, 0x80),
            Line::add(2, 3, 10),
            Line::add_constant(0, 9, 8),
            Line::shift_left(6, 3, 0),
            Line::shift_right(9, 2, 0),
            Line::subtract(10, 2, 3),
            Line::xor(1, 1, 0),
        ],
    );
    let expected = sheet_of(
        8,
        &[1, 2, 4],
        &[
            Line::xor(0, 1, 3),
            Line::rotate_left(2, 1, 8),
            Line::xor(4, 0, 9),
            Line::xor_constant(3, 0x80, 3),
            Line::rotate_left(5, 7, 0x84),
            Line::rotate_right(0, 1, 0x80),
            Line::add(3, 5, 10),
            Line::add_constant(4, 9, 8),
            Line::shift_left(8, 3, 0),
            Line::shift_right(11, 2, 0),
            Line::subtract(12, 3, 3),
            Line::xor(0, 0, 0),
        ],
    );
    assert!(joined(&first, &second, &[4, 0, 3]) == Ok(expected));
}

/// XTEA, 27 rounds of seven lines each. Then its first six rounds: the lines that
/// make the round keys, and the others.
const XTEA: &[u8] = include_bytes!("../../examples/xtea27.sheet");
const XTEA_KEYS: &[u8] = include_bytes!("../../examples/xtea6_keys.sheet");
const XTEA_ROUNDS: &[u8] = include_bytes!("../../examples/xtea6_rounds.sheet");

#[test]
fn round_keys_and_rounds_of_xtea() {
    let [whole, keys, rounds] = [XTEA, XTEA_KEYS, XTEA_ROUNDS].map(Program::parse);
    assert_eq!((keys.inputs.len(), keys.steps.len()), (6, 6));
    assert_eq!((rounds.inputs.len(), rounds.steps.len()), (8, 36));
    let names = [0, 1, 6, 7, 8, 9, 10, 11];
    let joined = joined(XTEA_KEYS, XTEA_ROUNDS, &names).unwrap();
    // The whole program's lines in the order of the joined sheet.
    let (of_keys, of_rounds): (Vec<usize>, Vec<usize>) = (0..42).partition(|line| line % 7 == 4);
    let lines = [of_keys, of_rounds].concat();
    for calls in implementations() {
        calls.check_joined(XTEA_KEYS, XTEA_ROUNDS, &joined);
        let reports = calls.reports(XTEA);
        let expected: Vec<Report> = lines.iter().map(|&line| reports[line]).collect();
        assert_eq!(calls.reports(&joined), expected, "{}", calls.name);
    }
    // The joined program makes the words that the whole one makes.
    let start = [1, 2, 3, 4, 5, 6].map(|word| word * 0x1234_5679 % (1 << 32));
    let (of_whole, of_joined) = (whole.run(&start), Program::parse(&joined).run(&start));
    for (place, line) in lines.into_iter().enumerate() {
        assert_eq!(of_joined[6 + place], of_whole[6 + line], "line {line}");
    }
}

#[test]
fn an_input_is_the_last_word_of_the_first() {
    let first = sheet_of(
        8,
        &[1, 2],
        &[Line::add(0, 1, 3), Line::rotate_left(2, 1, 6)],
    );
    let second = sheet_of(8, &[6], &[Line::add_constant(0, 1, 6), Line::xor(0, 1, 0)]);
    let expected = sheet_of(
        8,
        &[1, 2],
        &[
            Line::add(0, 1, 3),
            Line::rotate_left(2, 1, 6),
            Line::add_constant(3, 1, 6),
            Line::xor(3, 4, 0),
        ],
    );
    assert!(joined(&first, &second, &[3]) == Ok(expected));
    assert_eq!(joined(&first, &second, &[4]), refused(21, 0));
}

#[test]
fn edges_of_lines_and_room() {
    for (first, second, length) in [
        (1, 1, 1024),
        (1, 30, 1024),
        (30, 1, 1024),
        (1, 31, 1536),
        (31, 1, 1536),
        (31, 31, 1536),
        (61, 1, 1536),
        (31, 32, 2048),
        (62, 1, 2048),
        (1, 216, 4096),
        (217, 1, 4608),
        (1, 247, 4608),
        (247, 1, 4608),
        (124, 124, 4608),
    ] {
        let expected = sheet_of_copies(first + second);
        let (first, second) = (sheet_of_copies(first), sheet_of_copies(second));
        for room in [length, length + 1, length + 512, 6000] {
            let answer = joined_in(&first, &second, &[0], room).unwrap();
            assert_eq!(answer.len(), length);
            assert!(answer == expected, "{length} bytes");
        }
        for room in [0, 1, length - 512, length - 1] {
            assert_eq!(joined_in(&first, &second, &[0], room), refused(18, 0));
        }
    }
    for (first, second) in [(248, 1), (1, 248), (125, 124), (248, 248)] {
        let (first, second) = (sheet_of_copies(first), sheet_of_copies(second));
        assert_eq!(joined_in(&first, &second, &[0], 0), refused(22, 0));
        assert_eq!(joined_in(&first, &second, &[0], 10_000), refused(22, 0));
    }
}

#[test]
fn both_sheets_are_the_same_bytes() {
    let sheet = sheet_of(
        8,
        &[0x80, 0],
        &[
            Line::add(0, 1, 0x80),
            Line::xor(1, 1, 0),
            Line::xor(2, 3, 0x80),
        ],
    );
    let sheet = &sheet;
    let expected = sheet_of(
        8,
        &[0x80, 0],
        &[
            Line::add(0, 1, 0x80),
            Line::xor(1, 1, 0),
            Line::xor(2, 3, 0x80),
            Line::add(4, 3, 0x80),
            Line::xor(3, 3, 0),
            Line::xor(5, 6, 0x80),
        ],
    );
    assert!(joined(sheet, sheet, &[4, 3]) == Ok(expected));
    assert_eq!(joined(sheet, sheet, &[3, 4]), refused(21, 0));
    // Each input of the second can be the same input of the first.
    let side_by_side = joined(sheet, sheet, &[0, 1]).unwrap();
    let program = Program::parse(&side_by_side);
    assert_eq!(program.steps[3], program.steps[0]);
    assert_eq!(program.steps[4], program.steps[1]);
}

#[test]
fn a_line_that_becomes_a_repeat_costs_once() {
    let sheet = sheet_of(8, &[1, 1], &[Line::add_constant(0, 1, 3)]);
    for (names, totals) in [([0, 1], [0, 16, 1]), ([1, 0], [0, 32, 2])] {
        let answer = joined(&sheet, &sheet, &names).unwrap();
        for calls in implementations() {
            assert_eq!(calls.sheet_totals(&sheet), [0, 16, 1], "{}", calls.name);
            assert_eq!(calls.sheet_totals(&answer), totals, "{}", calls.name);
        }
    }
}

/// At n = 8: words 0 to 4 differ by 1, 2, 3, 3 and 1.
fn sheet_of_five_words() -> Vec<u8> {
    sheet_of(
        8,
        &[1, 2],
        &[
            Line::xor(0, 1, 3),
            Line::xor(1, 0, 3),
            Line::xor_constant(0, 7, 1),
        ],
    )
}

#[test]
fn each_wrong_list_of_names() {
    let first = sheet_of_five_words();
    let second = sheet_of(8, &[3, 3, 1], &[Line::add(0, 1, 0), Line::add(3, 2, 1)]);
    for names in [[2, 3, 0], [3, 2, 0], [2, 3, 4], [3, 2, 4]] {
        assert!(joined(&first, &second, &names).is_ok(), "{names:?}");
    }
    let wrong: &[&[u64]] = &[
        // Too short or too long.
        &[],
        &[2],
        &[2, 3],
        &[2, 3, 0, 4],
        &[2, 3, 0, 4, 1],
        // A word that the first has not. The low bits of some name one.
        &[2, 3, 5],
        &[2, 5, 0],
        &[5, 3, 0],
        &[2, 3, 255],
        &[2, 3, 256],
        &[2, 3, 1 << 16],
        &[2, 3 + (1 << 16), 0],
        &[2, 3, 1 << 32],
        &[2 + (1 << 32), 3, 0],
        &[2, 3 + (1 << 63), 0],
        &[2, 3, u64::MAX],
        // A word twice.
        &[2, 2, 0],
        &[3, 3, 4],
        // A word whose difference is not the input's.
        &[2, 3, 1],
        &[2, 0, 4],
        &[1, 3, 0],
        // Two of these.
        &[5],
        &[2, 3, 0, 5],
        &[2, 2],
        &[2, 3, 0, 0],
        &[0],
        &[2, 3, 1, 0],
        &[5, 5, 0],
        &[5, 3, 1],
        &[2, 3, 2],
        &[0, 0, 4],
    ];
    for names in wrong {
        assert_eq!(joined(&first, &second, names), refused(21, 0), "{names:?}");
    }
}

#[test]
fn a_word_that_is_not_there_has_no_difference() {
    let first = sheet_of_five_words();
    // The records past the last line are zero, as this input's difference is.
    let second = sheet_of(8, &[0], &[Line::xor_constant(0, 1, 0)]);
    for name in 5..40 {
        assert_eq!(joined(&first, &second, &[name]), refused(21, 0), "{name}");
    }
}

#[test]
fn differences_are_compared_in_all_bits() {
    let first = sheet_of(32, &[1 << 7], &[Line::xor_constant(0, 1, 1 << 7)]);
    for bit in 0..32 {
        let second = sheet_of(32, &[1 << 7 ^ 1 << bit], &[Line::xor(0, 0, 0)]);
        for name in [0, 1] {
            assert_eq!(joined(&first, &second, &[name]), refused(21, 0), "{bit}");
        }
    }
    let second = sheet_of(32, &[1 << 7], &[Line::xor(0, 0, 0)]);
    assert!(joined(&first, &second, &[1]).is_ok());
}

/// At n = 8: ten words, and all but word 0 differ by 1.
fn sheet_of_ten_words() -> Vec<u8> {
    sheet_of(8, &[2, 1], &[Line::rotate_right(0, 1, 1); 8])
}

#[test]
fn a_second_sheet_with_one_input() {
    let first = sheet_of_ten_words();
    let second = sheet_of(8, &[1], &[Line::add_constant(0, 1, 1)]);
    for name in 1..10 {
        let answer = joined(&first, &second, &[name]).unwrap();
        assert_eq!(u64::from(Program::parse(&answer).steps[8].first), name);
    }
    assert_eq!(joined(&first, &second, &[0]), refused(21, 0));
    assert_eq!(joined(&first, &second, &[10]), refused(21, 0));
}

#[test]
fn a_second_sheet_with_eight_inputs() {
    let first = sheet_of_ten_words();
    let lines: Vec<Line> = (0..8)
        .map(|input| Line::xor_constant(input, 9, 1))
        .collect();
    let second = sheet_of(8, &[1; 8], &lines);
    let names = [9, 1, 8, 2, 7, 3, 6, 4];
    let answer = joined(&first, &second, &names).unwrap();
    let program = Program::parse(&answer);
    let operands = program.steps[8..].iter().map(|step| step.first.into());
    assert_eq!(operands.collect::<Vec<u64>>(), names);

    // A wrong name at each place: word 0, a word that is not there, and the
    // word of each other place.
    for place in 0..8 {
        let others = (0..8)
            .filter(|&other| other != place)
            .map(|other| names[other]);
        for name in others.chain([0, 10, names[place] + (1 << 32)]) {
            let mut wrong = names;
            wrong[place] = name;
            assert_eq!(joined(&first, &second, &wrong), refused(21, 0), "{wrong:?}");
        }
    }
}

#[test]
fn refusals_come_in_their_order() {
    let in_order = [
        refused(9, 2),
        refused(9, 1),
        refused(20, 0),
        refused(21, 0),
        refused(22, 0),
        refused(18, 0),
    ];
    for faults in 0..1_usize << in_order.len() {
        let has = |fault: usize| faults >> fault & 1 == 1;
        let mut first = sheet_of_copies(3);
        let lines = if has(4) { 246 } else { 245 };
        let width = if has(2) { 9 } else { 8 };
        let mut second = sheet_of(width, &[1], &vec![Line::xor_constant(0, 5, 1); lines]);
        if has(0) {
            first[512 + 16 * 2] = 0;
            write_checks(&mut first);
        }
        if has(1) {
            second[512 + 16] = 0;
            write_checks(&mut second);
        }
        let name = if has(3) { 4 } else { 3 };
        let room = if has(5) { 4607 } else { 4608 };
        let answer = joined_in(&first, &second, &[name], room).map(|sheet| sheet.len());
        let first_fault = faults.trailing_zeros() as usize;
        let expected = in_order.get(first_fault).copied().unwrap_or(Ok(4608));
        assert_eq!(answer, expected, "{faults:06b}");
    }
}

#[test]
fn reading_the_first_tells_which_sheet_was_refused() {
    let good = sheet_of_copies(3);
    let mut bad = good.clone();
    bad[512 + 16] = 0;
    write_checks(&mut bad);
    assert_eq!(joined(&bad, &good, &[0]), refused(9, 1));
    assert_eq!(joined(&good, &bad, &[0]), refused(9, 1));
    for calls in implementations() {
        assert_eq!((calls.read)(&bad), refused(9, 1), "{}", calls.name);
        assert_eq!((calls.read)(&good), Ok(3), "{}", calls.name);
    }
}
