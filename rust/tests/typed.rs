//! The calls with answers of their own types say what the calls over slices
//! write.

#![cfg(has_archive)]

mod common;

use common::texts::TEXTS;
use common::{write_checks, Program, Report, ARCHIVE};
use tablegull::builder::{Line, SheetBuilder};
use tablegull::{slices, Index, LineReport, Refusal, Runs, Sixteenths, Totals, WholeBits};

/// At 4 bits: one line for each report, words 0 and 1 as inputs.
fn sheet() -> Vec<u8> {
    let mut sheet = SheetBuilder::new(4, &[1, 4]);
    sheet.line(Line::rotate_left(0, 1, 2));
    sheet.line(Line::rotate_left(0, 1, 3));
    sheet.line(Line::add(0, 1, 5));
    sheet.line(Line::add_constant(1, 3, 12));
    sheet.seal().expect("a sheet that sealing accepts")
}

#[test]
fn reports_have_their_parts() {
    let expected = [
        LineReport::Certain,
        LineReport::Impossible,
        LineReport::Halves {
            weight: WholeBits(2),
        },
        LineReport::Counted {
            weight: Sixteenths(8),
            chains: 1,
            fitting: 12,
        },
    ];
    assert_eq!(tablegull::reports(&sheet()), Ok(expected.to_vec()));
    for (line, report) in expected.into_iter().enumerate() {
        assert_eq!(tablegull::line_report(&sheet(), line), Ok(report));
    }
    let refusal = Refusal {
        number: 17,
        place: 0,
    };
    assert_eq!(tablegull::line_report(&sheet(), 4), Err(refusal));
    assert_eq!(LineReport::from_bytes(&[4; 16]), None);
}

#[test]
fn totals_have_their_names() {
    // Two copies of each line of the other tests' sheet, so that no two of the
    // numbers are the same.
    let mut sheet = SheetBuilder::new(4, &[1, 4]);
    for _ in 0..2 {
        sheet.line(Line::rotate_left(0, 1, 2));
        sheet.line(Line::rotate_left(0, 1, 3));
        sheet.line(Line::add(0, 1, 5));
        sheet.line(Line::add_constant(1, 3, 12));
    }
    let sheet = sheet.seal().expect("a sheet that sealing accepts");
    let expected = Totals {
        impossible: 2,
        weight: Sixteenths(40),
        chains: 1,
    };
    assert_eq!(tablegull::totals(&sheet), Ok(expected));
}

#[test]
fn runs_disagree_or_follow() {
    let sheet = sheet();
    let mut words = [0; 3];
    for start in (0..256).map(|start| [start % 16, start / 16]) {
        slices::two_runs(&sheet, &start, &mut words).expect("a starting value");
        let expected = match words {
            [1, 0, 0] => Runs::Follow,
            [_, line, bit] => Runs::Disagree {
                line: line as usize,
                bit: bit as u32,
            },
        };
        assert_eq!(tablegull::two_runs(&sheet, &start), Ok(expected));
    }
    // line 1 is impossible, and its lowest wrong bit is bit 0
    let disagreement = Runs::Disagree { line: 1, bit: 0 };
    assert_eq!(tablegull::two_runs(&sheet, &[0, 0]), Ok(disagreement));
}

#[test]
fn a_word_xored_with_itself_is_not_sealed() {
    let mut builder = SheetBuilder::new(4, &[1, 4]);
    builder.line(Line::rotate_left(0, 1, 2));
    builder.line(Line::xor(1, 1, 0));
    let refusal = Refusal {
        number: 23,
        place: 1,
    };
    assert_eq!(builder.seal(), Err(refusal));
    let mut old = builder.unsealed();
    write_checks(&mut old);
    let before = old.clone();
    assert_eq!(tablegull::seal(&mut old), Err(refusal));
    assert_eq!(old, before);
    assert_eq!(tablegull::read(&old), Ok(2));
    assert_eq!(tablegull::line_report(&old, 1), Ok(LineReport::Certain));
}

#[test]
fn clauses_have_their_own_length() {
    let sheet = sheet();
    let counts = tablegull::clause_counts(&sheet).expect("an accepted sheet");
    let mut clauses = 0;
    for line in 0..4 {
        let numbers = tablegull::line_clauses(&sheet, line).expect("a line of the sheet");
        let mut lent = [7; tablegull::MAX_LINE_CLAUSES];
        assert_eq!(
            slices::line_clauses(&sheet, line, &mut lent),
            Ok(numbers.len())
        );
        assert_eq!(lent[..numbers.len()], numbers[..]);
        clauses += numbers.iter().filter(|&&number| number == 0).count() as u64;
    }
    assert_eq!(counts.clauses, clauses);
    assert_eq!(counts.variables, 4 * 6 + 2 * 2 * 3);
}

#[test]
fn texts_are_their_parts() {
    let sheet = sheet();
    let mut clauses = String::new();
    let mut report = String::new();
    for part in 0..=4 {
        let text = tablegull::clause_text_part(&sheet, part).expect("a part of the text");
        let mut lent = [7; tablegull::MAX_CLAUSE_TEXT];
        let length = slices::clause_text_part(&sheet, part, &mut lent);
        assert_eq!(length, Ok(text.len()));
        assert_eq!(lent[..text.len()], *text.as_bytes());
        clauses += &text;

        let text = tablegull::report_text_part(&sheet, part).expect("a part of the text");
        let mut lent = [7; tablegull::MAX_REPORT_TEXT];
        let length = slices::report_text_part(&sheet, part, &mut lent);
        assert_eq!(length, Ok(text.len()));
        assert_eq!(lent[..text.len()], *text.as_bytes());
        report += &text;
    }
    let expected = "0 certain 0 0 0\n1 impossible 0 0 0\n2 halves 32 0 0\n3 counted 8 1 12\n\
                    total 1 40 1\n";
    assert_eq!(report, expected);
    let counts = tablegull::clause_counts(&sheet).expect("an accepted sheet");
    let header = format!("p cnf {} {}\n", counts.variables, counts.clauses);
    assert!(clauses.starts_with(&header));
    assert_eq!(tablegull::clause_text(&sheet), Ok(clauses));
    assert_eq!(tablegull::report_text(&sheet), Ok(report));
}

#[test]
fn texts_are_refused() {
    let mut sheet = sheet();
    let refused = |number, place| Err(Refusal { number, place });
    assert_eq!(tablegull::clause_text_part(&sheet, 5), refused(17, 0));
    assert_eq!(tablegull::report_text_part(&sheet, 5), refused(17, 0));
    sheet[1023] ^= 1;
    assert_eq!(tablegull::clause_text_part(&sheet, 0), refused(2, 1));
    assert_eq!(tablegull::report_text_part(&sheet, 0), refused(2, 1));
    assert_eq!(tablegull::clause_text(&sheet), refused(2, 1));
    assert_eq!(tablegull::report_text(&sheet), refused(2, 1));
}

#[test]
fn a_joined_sheet_has_its_own_length() {
    let sheet = sheet();
    let mut joined = sheet.clone();
    for lines in (8..=64).step_by(4) {
        let first = joined;
        joined = tablegull::join(&first, &sheet, &[0, 1]).expect("sheets that can be joined");
        let mut lent = [7; tablegull::MAX_SHEET + 1];
        let length = slices::join(&first, &sheet, &[0, 1], &mut lent);
        assert_eq!(length, Ok(joined.len()));
        assert_eq!(lent[..joined.len()], joined[..]);
        assert_eq!(tablegull::read(&joined), Ok(lines));
    }
    assert_eq!(joined.len(), 2048);
    let refusal = Refusal {
        number: 21,
        place: 0,
    };
    assert_eq!(tablegull::join(&sheet, &sheet, &[0]), Err(refusal));
}

#[test]
fn a_change_is_tried_and_made() {
    let sheet = sheet();
    let before = sheet.clone();
    // Line 1 can happen with 2, and line 2 cannot with 1.
    for (line, difference) in [(1, 2), (2, 1), (3, 4), (0, 2), (0, 15)] {
        let reports = tablegull::trial(&sheet, line, difference).expect("a change that fits");
        let mut lent = [7; 4 * 16 + 1];
        let length = slices::trial(&sheet, line, difference, &mut lent);
        assert_eq!((length, lent[64]), (Ok(64), 7));
        let written = lent[..64].chunks(16).map(Report::parse);
        assert!(reports.iter().copied().map(numbers).eq(written));
        assert!(sheet == before);

        let (mut changed, mut by_slices) = (sheet.clone(), sheet.clone());
        assert_eq!(tablegull::change(&mut changed, line, difference), Ok(()));
        assert_eq!(slices::change(&mut by_slices, line, difference), Ok(0));
        assert!(changed == by_slices);
        assert_eq!(tablegull::read(&changed), Ok(4));
        assert_eq!(tablegull::reports(&changed), Ok(reports));
    }
}

#[test]
fn changes_are_refused() {
    let mut sheet = sheet();
    for (line, difference, number, place) in [
        (4, 1, 17, 0),
        (usize::MAX, 16, 17, 0),
        (3, 16, 14, 3),
        (0, 1 << 32, 14, 0),
        (2, (1 << 32) + 1, 14, 2),
    ] {
        let refusal = Refusal { number, place };
        let before = sheet.clone();
        let changed = tablegull::change(&mut sheet, line, difference);
        assert_eq!(changed, Err(refusal));
        assert!(sheet == before);
        assert_eq!(tablegull::trial(&sheet, line, difference), Err(refusal));
    }
}

#[test]
fn a_list_of_changes_is_answered_as_each_would_be() {
    let sheet = sheet();
    // Line 1 can happen with 2, and line 2 cannot with 1; there is no line 4.
    let pairs = [
        (1, 16),
        (1, 3),
        (4, 1),
        (2, 1),
        (usize::MAX, 16),
        (1, 2),
        (3, (1 << 32) + 4),
        (1, u64::MAX),
        (0, 1 << 32),
    ];
    for count in 0..=pairs.len() {
        let pairs = &pairs[..count];
        let (mut changed, mut by_slices, mut single) =
            (sheet.clone(), sheet.clone(), sheet.clone());
        let replies = tablegull::change_all(&mut changed, pairs).expect("a list that fits");
        let one_by_one: Vec<Result<(), Refusal>> = pairs
            .iter()
            .map(|&(line, difference)| tablegull::change(&mut single, line, difference))
            .collect();
        assert_eq!(replies, one_by_one);
        assert!(changed == single);

        let list = pairs.iter().flat_map(|&(line, to)| [line as u64, to]);
        let list: Vec<u64> = list.collect();
        let mut lent = [7; 10];
        let answer = slices::change_all(&mut by_slices, &list, &mut lent);
        assert_eq!(answer, Ok(count));
        assert!(changed == by_slices);
        let numbers = replies.iter().map(|reply| match reply {
            Ok(()) => 0,
            Err(refusal) => refusal.number as u8,
        });
        assert!(numbers.eq(lent[..count].iter().copied()));
        assert!(lent[count..].iter().all(|&reply| reply == 7));
    }
    let mut changed = sheet;
    let replies = tablegull::change_all(&mut changed, &pairs).expect("a list that fits");
    let refused = |number, place| Err(Refusal { number, place });
    let expected = [
        refused(14, 1),
        Ok(()),
        refused(17, 0),
        Ok(()),
        refused(17, 0),
        Ok(()),
        refused(14, 3),
        refused(14, 1),
        refused(14, 0),
    ];
    assert_eq!(replies, expected);
    let reports = tablegull::reports(&changed).expect("an accepted sheet");
    assert_eq!(reports[1..3], [LineReport::Certain, LineReport::Impossible]);
}

#[test]
fn lists_of_changes_are_refused() {
    let mut sheet = sheet();
    let refused = |number, place| Err(Refusal { number, place });
    let most = tablegull::MAX_CHANGES;
    let before = sheet.clone();
    for count in [most + 1, most + 2, 2 * most, 1000] {
        let answer = tablegull::change_all(&mut sheet, &vec![(1, 2); count]);
        assert_eq!(answer, refused(24, 0), "{count}");
        assert!(sheet == before);
    }
    for count in [0, 1, most - 1, most] {
        let answer = tablegull::change_all(&mut sheet, &vec![(1, 2); count]);
        assert_eq!(answer, Ok(vec![Ok(()); count]));
    }
    sheet[1023] ^= 1;
    let before = sheet.clone();
    for count in [0, 1, most + 1] {
        let answer = tablegull::change_all(&mut sheet, &vec![(1, 2); count]);
        assert_eq!(answer, refused(2, 1), "{count}");
        assert!(sheet == before);
    }
}

#[test]
fn an_index_has_its_own_length_and_its_users() {
    let sheet = sheet();
    let index = tablegull::index(&sheet).expect("an accepted sheet");
    let mut lent = [7; tablegull::MAX_INDEX];
    assert_eq!(slices::index(&sheet, &mut lent), Ok(index.0.len()));
    assert_eq!(lent[..index.0.len()], index.0[..]);
    assert_eq!(index.0, [3, 0, 1, 2, 2, 2, 3, 0, 0, 0, 0]);
    let program = Program::parse(&sheet);
    for word in 0..6 {
        let users = program.users(word.into());
        assert_eq!(index.users(word), Some(&users[..]), "{word}");
    }
    for word in [6, 7, 255, 256, u16::MAX] {
        assert_eq!(index.users(word), None, "{word}");
    }
    // Numbers that end in the midst of a word's.
    for length in 0..4 {
        let cut = Index(index.0[..length].to_vec());
        assert_eq!(cut.users(0), None, "{length}");
    }
    let mut bad = sheet;
    bad[1023] ^= 1;
    let refusal = Refusal {
        number: 2,
        place: 1,
    };
    assert_eq!(tablegull::index(&bad), Err(refusal));
}

#[test]
fn reports_are_renewed() {
    let sheet = sheet();
    let index = tablegull::index(&sheet).expect("an accepted sheet");
    let own = tablegull::reports(&sheet).expect("an accepted sheet");
    // Line 1 can happen with 2, and line 2 cannot with 1.
    for (line, difference) in [(1, 2), (2, 1), (3, 4), (0, 2), (0, 15)] {
        let (mut changed, mut plain, mut by_slices) = (sheet.clone(), sheet.clone(), sheet.clone());
        let mut reports = own.clone();
        let answer =
            tablegull::change_indexed(&mut changed, &index, &mut reports, line, difference);
        assert_eq!(answer, Ok(()));
        tablegull::change(&mut plain, line, difference).expect("a change that fits");
        assert!(changed == plain);
        assert_eq!(tablegull::reports(&changed), Ok(reports.clone()));
        assert_eq!(tablegull::index(&changed).as_ref(), Ok(&index));

        let mut report = ARCHIVE.whole_report(&sheet);
        let answer =
            slices::change_indexed(&mut by_slices, &index.0, &mut report, line, difference);
        assert_eq!(answer, Ok(0));
        assert!(changed == by_slices);
        assert!(reports.iter().flat_map(|one| one.to_bytes()).eq(report));
    }
}

#[test]
fn indexed_changes_are_refused() {
    let mut sheet = sheet();
    let index = tablegull::index(&sheet).expect("an accepted sheet");
    let own = tablegull::reports(&sheet).expect("an accepted sheet");
    let mut check = |index: &Index, reports: &[LineReport], line, difference, number, place| {
        let (before, mut after) = (sheet.clone(), reports.to_vec());
        let answer = tablegull::change_indexed(&mut sheet, index, &mut after, line, difference);
        assert_eq!(answer, Err(Refusal { number, place }));
        assert!(sheet == before && after == reports);
    };
    check(&index, &own, 4, 16, 17, 0);
    check(&index, &own, usize::MAX, 1, 17, 0);
    check(&index, &own, 3, 16, 14, 3);
    check(&index, &own, 2, (1 << 32) + 1, 14, 2);
    // Not the sheet's own.
    for length in 0..index.0.len() {
        let shorter = Index(index.0[..length].to_vec());
        check(&shorter, &own, 4, 16, 26, 0);
    }
    let longer = Index([&index.0[..], &[0]].concat());
    check(&longer, &own, 0, 1, 26, 0);
    for count in 0..own.len() {
        check(&index, &own[..count], 0, 1, 26, 0);
    }
    for more in [1, 244, 245, 1000] {
        let longer = [&own[..], &vec![LineReport::Impossible; more]].concat();
        check(&index, &longer, 0, 1, 26, 0);
    }
    for line in 0..own.len() {
        let mut other = own.clone();
        other[line] = own[(line + 1) % own.len()];
        check(&index, &other, line, 1, 26, 0);
    }
    // Weights of which the low 32 bits are the line's.
    let mut other = own.clone();
    other[2] = LineReport::Halves {
        weight: WholeBits((1 << 28) + 2),
    };
    check(&index, &other, 0, 1, 26, 0);
    other[2] = LineReport::Halves {
        weight: WholeBits((1 << 60) + 2),
    };
    check(&index, &other, 0, 1, 26, 0);
    let mut other = own.clone();
    other[3] = LineReport::Counted {
        weight: Sixteenths((1 << 32) + 8),
        chains: 1,
        fitting: 12,
    };
    check(&index, &other, 0, 1, 26, 0);
}

/// A sheet of 248 lines whose reports have the largest numbers, and the one with
/// the longest lists and texts.
const LARGEST: [&[u8]; 2] = [
    include_bytes!("../../crates/trail_report/stdin"),
    include_bytes!("../../crates/cases/data/largest.sheet"),
];

/// A report's numbers as its buffer has them.
fn numbers(report: LineReport) -> Report {
    let (number, weight, chains, count) = match report {
        LineReport::Impossible => (0, 0, 0, 0),
        LineReport::Certain => (1, 0, 0, 0),
        LineReport::Halves { weight } => (2, 16 * weight.0, 0, 0),
        LineReport::Counted {
            weight,
            chains,
            fitting,
        } => (3, weight.0, chains, fitting),
    };
    Report {
        number,
        weight: weight as u32,
        chains,
        count,
    }
}

#[test]
fn the_largest_reports_are_whole() {
    let mut largest = (0, 0, 0);
    for sheet in LARGEST {
        let expected = ARCHIVE.reports(sheet);
        assert_eq!(expected.len(), tablegull::MAX_LINES);
        let reports = tablegull::reports(sheet).expect("an accepted sheet");
        assert!(reports.iter().copied().map(numbers).eq(expected.clone()));
        let stated = Program::parse(sheet).steps[0].difference.into();
        assert!(tablegull::trial(sheet, 0, stated) == Ok(reports.clone()));
        let index = tablegull::index(sheet).expect("an accepted sheet");
        assert!(index.0 == Program::parse(sheet).index());
        let (mut same, mut renewed) = (sheet.to_vec(), reports.clone());
        let answer = tablegull::change_indexed(&mut same, &index, &mut renewed, 0, stated);
        assert_eq!(answer, Ok(()));
        assert!(same == sheet && renewed == reports);
        for (line, report) in reports.into_iter().enumerate() {
            assert_eq!(tablegull::line_report(sheet, line), Ok(report));
        }
        for report in expected {
            let (weight, chains, count) = largest;
            largest = (
                report.weight.max(weight),
                report.chains.max(chains),
                report.count.max(count),
            );
        }
    }
    assert_eq!(largest, (496, 16, 1 << 32));
}

#[test]
fn the_longest_lists_and_texts_are_whole() {
    let mut longest = 0;
    for sheet in LARGEST {
        for line in 0..tablegull::MAX_LINES {
            let list = tablegull::line_clauses(sheet, line).expect("a line of the sheet");
            let clauses = list.split(|&number| number == 0).map(<[i32]>::to_vec);
            let clauses: Vec<Vec<i32>> = clauses.collect();
            let (last, clauses) = clauses.split_last().expect("what is after the last 0");
            assert!(last.is_empty() && *clauses == ARCHIVE.clauses(sheet, line));
            longest = longest.max(list.len());
        }
        let [clauses, report] = TEXTS.map(|text| ARCHIVE.joined_text(text, sheet));
        assert!(tablegull::clause_text(sheet) == Ok(clauses));
        assert!(tablegull::report_text(sheet) == Ok(report));
    }
    assert_eq!(longest, tablegull::MAX_LINE_CLAUSES);
}

#[test]
fn the_longest_joined_sheet_is_whole() {
    let half = |kept: usize| {
        let mut sheet = SheetBuilder::new(8, &[1]);
        for _ in 0..kept {
            sheet.line(Line::xor_constant(0, 5, 1));
        }
        sheet.seal().expect("a sheet that sealing accepts")
    };
    let joined = tablegull::join(&half(124), &half(124), &[0]);
    assert!(joined == Ok(half(248)));
    assert_eq!(half(248).len(), tablegull::MAX_SHEET);
}
