//! The examples, cases and bounds that document 01 prints, and cases of what
//! document 02 adds: kinds of lines, totals with repeated lines, and long
//! chains.

mod common;

use common::{
    counted, example, halves, implementations, write_checks, Calls, Report, CERTAIN, IMPOSSIBLE,
};
use tablegull::builder::{Line, SheetBuilder};
use tablegull::Refusal;

#[test]
fn example_sheet_is_what_the_builder_makes() {
    let mut sheet = SheetBuilder::new(2, &[1]);
    assert_eq!(sheet.line(Line::add_constant(0, 1, 3)), 1);
    assert_eq!(sheet.seal().unwrap(), example());
}

#[test]
fn example_sheet_is_read_and_sealed() {
    for calls in implementations() {
        assert_eq!((calls.read)(&example()), Ok(1), "{}", calls.name);
        let mut bytes = example();
        bytes[508..512].fill(0xff);
        bytes[1020..].fill(0);
        let refusal = Refusal {
            number: 2,
            place: 0,
        };
        assert_eq!((calls.read)(&bytes), Err(refusal), "{}", calls.name);
        assert_eq!((calls.seal)(&mut bytes), Ok(2), "{}", calls.name);
        assert_eq!(bytes, example(), "{}", calls.name);
    }
}

#[test]
fn example_sheet_has_its_report() {
    for calls in implementations() {
        let mut out = [0xaa; 20];
        assert_eq!((calls.report)(&example(), &mut out), Ok(16));
        let expected = [
            3, 0, 1, 0, 0, 0, 0, 0, 4, 0, 0, 0, 0, 0, 0, 0, 0xaa, 0xaa, 0xaa, 0xaa,
        ];
        assert_eq!(out, expected, "{}", calls.name);
        let mut out = [9; 4];
        assert_eq!((calls.totals)(&example(), &mut out), Ok(3));
        assert_eq!(out, [0, 0, 1, 9], "{}", calls.name);
    }
}

#[test]
fn example_sheet_has_its_clauses() {
    let expected: &[&[i32]] = &[
        &[1, 3],
        &[-1, -3],
        &[1, -5],
        &[-1, 5],
        &[2, 5, -4],
        &[2, -5, 4],
        &[-2, 5, 4],
        &[-2, -5, -4],
        &[-1, -3],
        &[1, 3],
        &[-1, -6],
        &[1, 6],
        &[2, 6, 4],
        &[2, -6, -4],
        &[-2, 6, -4],
        &[-2, -6, 4],
    ];
    for calls in implementations() {
        let mut counts = [0; 2];
        assert_eq!((calls.clause_counts)(&example(), &mut counts), Ok(2));
        assert_eq!(counts, [6, 16], "{}", calls.name);
        assert_eq!(calls.clauses(&example(), 0), expected, "{}", calls.name);
    }
}

/// The clauses of the only line of a sheet.
fn clauses(sheet: &SheetBuilder) -> Vec<Vec<i32>> {
    agreed(sheet, |calls, bytes| calls.clauses(bytes, 0))
}

#[test]
fn filled_zeros_are_no_literals() {
    // Words at n = 3: the input has variables 1 to 3, the result 4 to 6.
    let mut left = SheetBuilder::new(3, &[0b110]);
    left.line(Line::shift_left(0, 1, 0b100));
    let expected: &[&[i32]] = &[
        &[-4],
        &[1, -5],
        &[-1, 5],
        &[2, -6],
        &[-2, 6],
        &[-4],
        &[1, -5],
        &[-1, 5],
        &[-2, 6],
        &[2, -6],
    ];
    assert_eq!(clauses(&left), expected);

    // Impossible: a filled bit differs, and its two clauses contradict.
    let mut right = SheetBuilder::new(3, &[0b100]);
    right.line(Line::shift_right(0, 2, 0b011));
    let expected: &[&[i32]] = &[
        &[3, -4],
        &[-3, 4],
        &[-5],
        &[-6],
        &[-3, 4],
        &[3, -4],
        &[5],
        &[-6],
    ];
    assert_eq!(clauses(&right), expected);
}

#[test]
fn a_borrow_replaces_the_carry() {
    // At n = 2: words 1 to 6, the borrow into bit 1 is 7, in the second run 8.
    let mut sheet = SheetBuilder::new(2, &[0b01, 0b00]);
    sheet.line(Line::subtract(0, 1, 0b11));
    let expected: &[&[i32]] = &[
        &[1, 3, -5],
        &[1, -3, 5],
        &[-1, 3, 5],
        &[-1, -3, -5],
        &[1, 3, -7],
        &[1, -3, 7],
        &[-1, 3, -7],
        &[-1, -3, -7],
        &[2, 4, 7, -6],
        &[2, 4, -7, 6],
        &[2, -4, 7, 6],
        &[2, -4, -7, -6],
        &[-2, 4, 7, 6],
        &[-2, 4, -7, -6],
        &[-2, -4, 7, -6],
        &[-2, -4, -7, 6],
        &[-1, 3, 5],
        &[-1, -3, -5],
        &[1, 3, -5],
        &[1, -3, 5],
        &[-1, 3, -8],
        &[-1, -3, 8],
        &[1, 3, -8],
        &[1, -3, -8],
        &[2, 4, 8, 6],
        &[2, 4, -8, -6],
        &[2, -4, 8, -6],
        &[2, -4, -8, 6],
        &[-2, 4, 8, -6],
        &[-2, 4, -8, 6],
        &[-2, -4, 8, 6],
        &[-2, -4, -8, -6],
    ];
    assert_eq!(clauses(&sheet), expected);
}

/// The report of a line that adds a constant.
fn constant_added(width: u8, a: u32, u: u32, v: u32) -> Vec<Report> {
    let mut sheet = SheetBuilder::new(width, &[u]);
    sheet.line(Line::add_constant(0, a, v));
    reports(&sheet)
}

/// The same at n = 4.
fn kind_6(a: u32, u: u32, v: u32) -> Vec<Report> {
    constant_added(4, a, u, v)
}

/// The report of a line that adds two words, at n = 4.
fn kind_5(u: u32, v: u32, w: u32) -> Vec<Report> {
    let mut sheet = SheetBuilder::new(4, &[u, v]);
    sheet.line(Line::add(0, 1, w));
    reports(&sheet)
}

/// The report of a line that subtracts a word from another, at n = 4.
fn kind_9(u: u32, v: u32, w: u32) -> Vec<Report> {
    let mut sheet = SheetBuilder::new(4, &[u, v]);
    sheet.line(Line::subtract(0, 1, w));
    reports(&sheet)
}

fn reports(sheet: &SheetBuilder) -> Vec<Report> {
    agreed(sheet, |calls, bytes| calls.reports(bytes))
}

/// What all implementations answer on a sheet.
fn agreed<T: PartialEq>(sheet: &SheetBuilder, ask: impl Fn(&Calls, &[u8]) -> T) -> T {
    let mut bytes = sheet.unsealed();
    write_checks(&mut bytes);
    let mut answers = implementations()
        .into_iter()
        .map(|calls| ask(&calls, &bytes));
    let first = answers.next().expect("the reference is always there");
    assert!(answers.all(|answer| answer == first));
    first
}

#[test]
fn cases_of_kind_6() {
    assert_eq!(kind_6(0, 1, 1), [counted(16, 0, 1)]);
    assert_eq!(kind_6(0, 1, 3), [IMPOSSIBLE]);
    assert_eq!(kind_6(1, 1, 1), [IMPOSSIBLE]);
    assert_eq!(kind_6(1, 1, 3), [counted(8, 16, 1)]);
    assert_eq!(kind_6(3, 4, 4), [counted(4, 32, 1)]);
    assert_eq!(kind_6(3, 4, 12), [counted(12, 8, 1)]);
    assert_eq!(kind_6(5, 8, 8), [counted(16, 0, 0)]);
    assert_eq!(kind_6(0, 0, 0), [counted(16, 0, 0)]);
    assert_eq!(kind_6(7, 0, 1), [IMPOSSIBLE]);
}

#[test]
fn long_chains() {
    let same = |a, u| constant_added(32, a, u, u);
    assert_eq!(same(0, 0x4000_0000), [counted(1 << 32, 0, 1)]);
    assert_eq!(same(0x3fff_ffff, 0x4000_0000), [counted(4, 480, 1)]);
    assert_eq!(same(0x7fff_ffff, 0x4000_0000), [counted(4294967292, 1, 1)]);
    assert_eq!(same(0x3fff_fffe, 0x4000_0001), [counted(8, 464, 2)]);
    assert_eq!(same(0x4000_0002, 0x4000_0001), [counted(8, 464, 2)]);
    assert_eq!(same(0x7fff_ffff, 0x4000_0002), [counted(1 << 31, 16, 2)]);
}

#[test]
fn cases_of_kind_5() {
    assert_eq!(kind_5(1, 0, 1), [halves(1)]);
    assert_eq!(kind_5(8, 0, 8), [halves(0)]);
    assert_eq!(kind_5(1, 1, 0), [halves(1)]);
    assert_eq!(kind_5(0, 0, 1), [IMPOSSIBLE]);
}

#[test]
fn cases_of_kind_9() {
    assert_eq!(kind_9(0, 0, 0), [halves(0)]);
    assert_eq!(kind_9(1, 0, 1), [halves(1)]);
    assert_eq!(kind_9(0, 1, 1), [halves(1)]);
    assert_eq!(kind_9(0, 1, 15), [halves(3)]);
    assert_eq!(kind_9(8, 0, 8), [halves(0)]);
    assert_eq!(kind_9(1, 1, 0), [halves(1)]);
    assert_eq!(kind_9(0, 0, 1), [IMPOSSIBLE]);
}

#[test]
fn shifts_are_certain_or_impossible() {
    let mut sheet = SheetBuilder::new(4, &[0b1001]);
    sheet.line(Line::shift_left(0, 1, 0b0010));
    sheet.line(Line::shift_left(0, 1, 0b0011)); // a rotation's
    sheet.line(Line::shift_left(0, 3, 0b1000));
    sheet.line(Line::shift_right(0, 1, 0b0100));
    sheet.line(Line::shift_right(0, 1, 0b1100)); // a rotation's
    sheet.line(Line::shift_right(0, 3, 0b0001));
    sheet.line(Line::shift_right(1, 2, 0)); // the only difference is dropped
    assert_eq!(
        reports(&sheet),
        [CERTAIN, IMPOSSIBLE, CERTAIN, CERTAIN, IMPOSSIBLE, CERTAIN, CERTAIN]
    );
}

#[test]
fn kinds_1_to_4_are_certain_or_impossible() {
    let mut sheet = SheetBuilder::new(4, &[0b0011, 0b0110]);
    sheet.line(Line::xor(0, 1, 0b0101));
    sheet.line(Line::xor(0, 1, 0b0100));
    sheet.line(Line::xor(0, 0, 0));
    sheet.line(Line::xor_constant(0, 0b1111, 0b0011));
    sheet.line(Line::xor_constant(0, 0b1111, 0b1100));
    sheet.line(Line::rotate_left(0, 3, 0b1001));
    sheet.line(Line::rotate_left(0, 3, 0b0110));
    sheet.line(Line::rotate_right(1, 3, 0b1100));
    sheet.line(Line::rotate_right(1, 3, 0b0011));
    assert_eq!(
        reports(&sheet),
        [
            CERTAIN, IMPOSSIBLE, CERTAIN, CERTAIN, IMPOSSIBLE, CERTAIN, IMPOSSIBLE, CERTAIN,
            IMPOSSIBLE
        ]
    );
}

#[test]
fn totals_add_up_in_sixteenths() {
    let mut sheet = SheetBuilder::new(4, &[1, 0, 4]);
    sheet.line(Line::add(0, 1, 1)); // halves, 1 bit
    sheet.line(Line::add_constant(2, 3, 4)); // counted, 32 sixteenths, 1 chain
    sheet.line(Line::add_constant(2, 3, 12)); // counted, 8 sixteenths, 1 chain
    sheet.line(Line::add_constant(0, 0, 3)); // impossible
    sheet.line(Line::xor(0, 1, 0)); // impossible
    let mut bytes = sheet.unsealed();
    write_checks(&mut bytes);
    for calls in implementations() {
        let mut out = [0; 3];
        assert_eq!((calls.totals)(&bytes, &mut out), Ok(3));
        assert_eq!(out, [2, 16 + 32 + 8, 2], "{}", calls.name);
    }
}

/// The totals of these lines at n = 4.
fn totals(inputs: &[u32], lines: &[Line]) -> [u64; 3] {
    agreed(&sheet_of(inputs, lines), Calls::sheet_totals)
}

fn sheet_of(inputs: &[u32], lines: &[Line]) -> SheetBuilder {
    let mut sheet = SheetBuilder::new(4, inputs);
    for line in lines {
        sheet.line(*line);
    }
    sheet
}

#[test]
fn copies_cost_once() {
    let sum = Line::add(0, 1, 1); // halves, 1 bit
    let with_constant = Line::add_constant(2, 3, 12); // counted, 8 sixteenths, 1 chain
    let minus = Line::subtract(1, 0, 15); // halves, 3 bits
    let inputs = [1, 0, 4];
    for (line, charged) in [
        (sum, [0, 16, 0]),
        (with_constant, [0, 8, 1]),
        (minus, [0, 48, 0]),
    ] {
        for copies in [1, 2, 3, 31, 32, 33, 248] {
            assert_eq!(totals(&inputs, &vec![line; copies]), charged, "{copies}");
        }
    }
    // One after the other, and in turn.
    assert_eq!(totals(&inputs, &[sum, sum, minus, minus]), [0, 64, 0]);
    assert_eq!(
        totals(&inputs, &[sum, with_constant, sum, with_constant]),
        [0, 24, 1]
    );
    assert_eq!(
        totals(
            &inputs,
            &[sum, with_constant, minus, minus, with_constant, sum]
        ),
        [0, 72, 1]
    );
}

#[test]
fn chains_of_no_weight_count_once() {
    let line = Line::add_constant(0, 0, 1); // counted, weight 0, 1 chain
    let of_another_word = Line::add_constant(1, 0, 1);
    assert_eq!(totals(&[1, 1], &[line; 3]), [0, 0, 1]);
    assert_eq!(totals(&[1, 1], &[line, of_another_word, line]), [0, 0, 2]);
}

#[test]
fn copies_keep_their_reports_and_clauses() {
    let line = Line::add(0, 1, 1);
    let (single, copies) = (sheet_of(&[1, 0], &[line]), sheet_of(&[1, 0], &[line; 3]));
    assert_eq!(reports(&copies), [halves(1); 3]);
    let lists =
        |sheet: &SheetBuilder, line| agreed(sheet, |calls, bytes| calls.clauses(bytes, line));
    // A copy has variables of its own, so its clauses are compared by length.
    let literals = |list: &[Vec<i32>]| list.iter().map(Vec::len).collect::<Vec<_>>();
    for line in 0..3 {
        assert_eq!(
            literals(&lists(&copies, line)),
            literals(&lists(&single, 0))
        );
    }
}

#[test]
fn lines_apart_in_one_field_are_no_repeats() {
    let inputs = [1, 0, 1, 0];
    let sum = Line::add(0, 1, 1); // halves, 1 bit
    for (other, both) in [
        (Line::add(2, 1, 1), [0, 32, 0]),      // first operand
        (Line::add(0, 3, 1), [0, 32, 0]),      // second operand
        (Line::add(1, 0, 1), [0, 32, 0]),      // operands exchanged
        (Line::add(0, 1, 3), [0, 16 + 32, 0]), // stated difference
        (Line::subtract(0, 1, 1), [0, 32, 0]), // kind 9
        (Line::xor(0, 1, 1), [0, 16, 0]),      // kind 1, certain
    ] {
        assert_eq!(totals(&inputs, &[sum, other]), both, "{other:?}");
        assert_eq!(totals(&inputs, &[other, sum]), both, "{other:?}");
        assert_eq!(totals(&inputs, &[sum, other, sum, other]), both);
    }

    let with_constant = Line::add_constant(0, 1, 3); // counted, 16 sixteenths, 1 chain
    for (other, both) in [
        (Line::add_constant(2, 1, 3), [0, 32, 2]), // first operand
        (Line::add_constant(0, 3, 3), [0, 32, 2]), // constant
        (Line::add_constant(0, 1, 7), [0, 48, 2]), // stated difference
        (Line::xor_constant(0, 1, 1), [0, 16, 1]), // kind 2, certain
        (Line::xor_constant(0, 1, 3), [1, 16, 1]), // kind 2, impossible
    ] {
        assert_eq!(totals(&inputs, &[with_constant, other]), both, "{other:?}");
        assert_eq!(totals(&inputs, &[other, with_constant]), both, "{other:?}");
    }

    // Lines with amounts cost nothing, repeated or not.
    let rotations = [Line::rotate_left(0, 1, 2), Line::rotate_left(0, 2, 2)];
    assert_eq!(totals(&inputs, &rotations), [1, 0, 0]);
}

#[test]
fn lines_apart_in_high_bits_are_no_repeats() {
    let mut sheet = SheetBuilder::new(32, &[1 << 16, 0, 1]);
    sheet.line(Line::add(0, 1, 1 << 16)); // halves, 1 bit
    sheet.line(Line::add(0, 1, 3 << 16)); // halves, 2 bits
    sheet.line(Line::add_constant(2, 0, 1)); // counted, weight 0, 1 chain
    sheet.line(Line::add_constant(2, 1 << 31, 1)); // the same
    assert_eq!(agreed(&sheet, Calls::sheet_totals), [0, 48, 2]);
}

#[test]
fn kinds_5_and_6_with_the_same_numbers_are_no_repeats() {
    // The second operand 0 of the one is a word, the constant 0 of the other a
    // number.
    let lines = [Line::add(1, 0, 1), Line::add_constant(1, 0, 1)];
    assert_eq!(totals(&[0, 1], &lines), [0, 16, 1]);
}

#[test]
fn equal_words_with_other_numbers_are_no_repeats() {
    // Words 2 and 3 are copies. What is made of them is the same again, but its
    // operands are not.
    let lines = [
        Line::add(0, 1, 1),
        Line::add(0, 1, 1),
        Line::add(2, 1, 1),
        Line::add(3, 1, 1),
    ];
    assert_eq!(totals(&[1, 0], &lines), [0, 48, 0]);
}

#[test]
fn copies_of_impossible_lines_count() {
    let sum = Line::add(0, 1, 0);
    let with_constant = Line::add_constant(0, 0, 3);
    let moved = Line::rotate_left(0, 1, 1);
    assert_eq!(totals(&[1, 0], &[sum; 2]), [2, 0, 0]);
    assert_eq!(totals(&[1, 0], &[with_constant; 3]), [3, 0, 0]);
    assert_eq!(totals(&[1, 0], &[moved; 248]), [248, 0, 0]);
    let possible = Line::add(0, 1, 1);
    assert_eq!(
        totals(&[1, 0], &[sum, possible, moved, sum, possible, moved]),
        [4, 16, 0]
    );
}

#[test]
fn copies_with_other_differences_are_no_repeats() {
    let lines = [
        Line::add(0, 1, 1), // halves, 1 bit
        Line::add(0, 1, 3), // halves, 2 bits
        Line::add(0, 1, 0), // impossible
    ];
    let [one, two, impossible] = lines;
    assert_eq!(totals(&[1, 0], &[one, two]), [0, 48, 0]);
    assert_eq!(totals(&[1, 0], &[one, impossible]), [1, 16, 0]);
    assert_eq!(totals(&[1, 0], &[impossible, one]), [1, 16, 0]);
    assert_eq!(totals(&[1, 0], &[impossible, one, two, one]), [1, 48, 0]);
    assert_eq!(totals(&[1, 0], &[lines, lines].concat()), [2, 48, 0]);
}

#[test]
fn the_last_line_repeats_the_first() {
    // Line k adds input 1 to the word of the line before it: 247 different
    // lines, 1 bit each.
    let mut lines = vec![Line::add(0, 1, 1)];
    lines.extend((2..248).map(|word| Line::add(word, 1, 1)));
    assert_eq!(lines.len(), 247);
    for (line, weight) in [
        (lines[0], 247 * 16),
        (lines[31], 247 * 16),
        (lines[246], 247 * 16),
        (Line::add(248, 1, 1), 248 * 16),
    ] {
        let lines = [&lines[..], &[line]].concat();
        assert_eq!(totals(&[1, 0], &lines), [0, weight, 0]);
    }
    // The same with lines between that cost nothing.
    lines[1..].fill(Line::xor(0, 0, 0));
    lines.push(lines[0]);
    assert_eq!(totals(&[1, 0], &lines), [0, 16, 0]);
}

#[test]
fn edges_of_width_and_length() {
    let with_width = |width| {
        let mut sheet = SheetBuilder::new(width, &[0]);
        sheet.line(Line::xor(0, 0, 0));
        let mut bytes = sheet.unsealed();
        write_checks(&mut bytes);
        bytes
    };
    for calls in implementations() {
        let refused = |number| Err(Refusal { number, place: 0 });
        assert_eq!((calls.read)(&with_width(1)), refused(4));
        assert_eq!((calls.read)(&with_width(2)), Ok(1));
        assert_eq!((calls.read)(&with_width(32)), Ok(1));
        assert_eq!((calls.read)(&with_width(33)), refused(4));
        assert_eq!((calls.read)(&[0; 512]), refused(1));
        assert_eq!((calls.read)(&[0; 5120]), refused(1));
        assert_eq!((calls.read)(&[]), refused(1));
    }
}

#[test]
fn edges_of_the_line_count() {
    let with_lines = |lines| {
        let mut sheet = SheetBuilder::new(8, &[0]);
        for _ in 0..lines {
            sheet.line(Line::xor(0, 0, 0));
        }
        let mut bytes = sheet.unsealed();
        write_checks(&mut bytes);
        bytes
    };
    for calls in implementations() {
        for (lines, length) in [(1, 1024), (31, 1024), (32, 1536), (62, 1536), (248, 4608)] {
            let bytes = with_lines(lines);
            assert_eq!(bytes.len(), length);
            assert_eq!((calls.read)(&bytes), Ok(lines), "{}", calls.name);
        }
        // Lines that need one block more, or one fewer, than there are.
        for (lines, stated) in [(31, 32), (32, 31), (1, 0), (248, 249), (1, 257)] {
            let mut bytes = with_lines(lines);
            bytes[6..8].copy_from_slice(&u16::to_le_bytes(stated));
            write_checks(&mut bytes);
            let refused = Err(Refusal {
                number: 6,
                place: 0,
            });
            assert_eq!((calls.read)(&bytes), refused, "{}", calls.name);
        }
        let refused = Err(Refusal {
            number: 1,
            place: 0,
        });
        assert_eq!((calls.read)(&with_lines(0)), refused);
        assert_eq!((calls.read)(&with_lines(249)), refused);
    }
}

#[test]
fn most_variables_and_clauses() {
    let mut sheet = SheetBuilder::new(32, &[0; 8]);
    for _ in 0..248 {
        sheet.line(Line::add(0, 1, 0));
    }
    let mut bytes = sheet.unsealed();
    write_checks(&mut bytes);
    for calls in implementations() {
        let mut counts = [0; 2];
        assert_eq!((calls.clause_counts)(&bytes, &mut counts), Ok(2));
        assert_eq!(counts, [23_568, 246_016], "{}", calls.name);
        let mut list = vec![0; 4944];
        assert_eq!((calls.line_clauses)(&bytes, 247, &mut list), Ok(4944));
        let largest = list.iter().map(|literal| literal.abs()).max();
        assert_eq!(largest, Some(23_568), "{}", calls.name);
    }
}
