//! The two texts of a sheet, part by part: document 01's examples, the sheets
//! that are stored in this repository, and the longest texts. The random ones
//! are in `text_parts_random.rs`, the package's own writer of text in `text.rs`.

mod common;

use std::path::{Path, PathBuf};

use common::texts::{check_part, part_past, Text, TEXTS};
use common::{example, implementations, sheet_of, KeptOnFailure, Random, REFERENCE};
use tablegull::builder::Line;
use tablegull::Refusal;

/// Document 01's two texts, cut into parts.
const EXAMPLE_CLAUSES: [&str; 2] = [
    "p cnf 6 16\n",
    "1 3 0\n-1 -3 0\n1 -5 0\n-1 5 0\n2 5 -4 0\n2 -5 4 0\n-2 5 4 0\n-2 -5 -4 0\n-1 -3 0\n1 3 0\n\
     -1 -6 0\n1 6 0\n2 6 4 0\n2 -6 -4 0\n-2 6 -4 0\n-2 -6 4 0\n",
];
const EXAMPLE_REPORT: [&str; 2] = ["0 counted 0 1 4\n", "total 0 0 1\n"];

#[test]
fn the_example_has_its_texts() {
    for calls in implementations() {
        for (text, parts) in TEXTS.into_iter().zip([EXAMPLE_CLAUSES, EXAMPLE_REPORT]) {
            assert_eq!(calls.joined_text(text, &example()), parts.concat());
            for (part, wanted) in parts.into_iter().enumerate() {
                for room in 0..=wanted.len() + 2 {
                    let wanted = Ok(wanted.to_string());
                    calls.check_text_part(text, &example(), part, room, &wanted);
                }
            }
        }
    }
}

#[test]
fn the_example_has_two_parts() {
    let refused = Err(Refusal {
        number: 17,
        place: 0,
    });
    let low_bits_of_a_part = (1..64).flat_map(|bit| [1 << bit, 1 << bit | 1]);
    let parts: Vec<usize> = low_bits_of_a_part
        .chain([usize::MAX - 1, usize::MAX])
        .collect();
    for calls in implementations() {
        for text in TEXTS {
            for &part in &parts {
                for room in [0, 11, text.most()] {
                    calls.check_text_part(text, &example(), part, room, &refused);
                }
            }
        }
    }
}

/// From C a pointer may be null where the length is 0.
#[cfg(has_archive)]
#[test]
fn no_room_may_be_a_null_pointer() {
    use std::ptr::{null, null_mut};
    use tablegull::ffi;

    let sheet = example();
    for call in [ffi::tablegull_clause_text, ffi::tablegull_report_text] {
        for (part, number) in [(0, 18), (1, 18), (2, 17), (u64::MAX, 17)] {
            let refused = ffi::Answer {
                number,
                place: 0,
                count: 0,
            };
            // SAFETY: the sheet is a slice's, and of the other no byte is lent.
            let answer = unsafe { call(sheet.as_ptr(), sheet.len(), part, null_mut(), 0) };
            assert_eq!(answer, refused, "part {part}");
        }
        let refused = ffi::Answer {
            number: 1,
            place: 0,
            count: 0,
        };
        // SAFETY: no byte is lent.
        assert_eq!(unsafe { call(null(), 0, 0, null_mut(), 0) }, refused);
    }
}

fn in_repository(path: &str) -> PathBuf {
    Path::new(env!("CARGO_MANIFEST_DIR")).join("..").join(path)
}

/// The names and bytes of all sheets in a folder of the repository.
fn stored_sheets(folder: &str) -> Vec<(String, Vec<u8>)> {
    let files = std::fs::read_dir(in_repository(folder)).unwrap();
    let paths = files.map(|file| file.unwrap().path());
    paths
        .filter(|path| path.extension().is_some_and(|end| end == "sheet"))
        .map(|path| {
            let name = path.file_name().unwrap().to_string_lossy().into_owned();
            (name, std::fs::read(path).unwrap())
        })
        .collect()
}

/// Every part of both texts; of a sheet that is refused, some.
fn check_all_parts(random: &mut Random, sheet: &[u8]) {
    let _kept = KeptOnFailure(sheet);
    let lines = (REFERENCE.read)(sheet).unwrap_or(2);
    for text in TEXTS {
        for part in 0..=lines {
            check_part(random, text, sheet, part);
        }
        for _ in 0..10 {
            let part = part_past(random, lines);
            check_part(random, text, sheet, part);
        }
    }
}

/// The parts of an accepted sheet, one after the other, are the texts.
fn check_joined_parts(sheet: &[u8]) {
    for calls in implementations() {
        for text in TEXTS {
            let whole = REFERENCE.text_by_other_calls(text, sheet);
            let joined = calls.joined_text(text, sheet);
            assert!(joined == whole, "{}: {text:?}", calls.name);
        }
    }
}

#[test]
fn sheets_of_the_examples() {
    let mut random = Random::new(400);
    let sheets = stored_sheets("examples");
    assert!(sheets.iter().any(|(name, _)| name == "lea7.sheet"));
    for (name, sheet) in sheets {
        assert!((REFERENCE.read)(&sheet).is_ok(), "{name}");
        check_all_parts(&mut random, &sheet);
        check_joined_parts(&sheet);
    }
}

#[test]
fn sheets_of_the_cases() {
    let mut random = Random::new(401);
    let sheets = stored_sheets("crates/cases/data");
    let (mut accepted, mut refused) = (0, 0);
    for (_, sheet) in &sheets {
        check_all_parts(&mut random, sheet);
        if (REFERENCE.read)(sheet).is_ok() {
            check_joined_parts(sheet);
            accepted += 1;
        } else {
            refused += 1;
        }
    }
    assert!(sheets.iter().any(|(name, _)| name == "largest.sheet"));
    assert!(accepted > 5 && refused > 5, "{accepted}, {refused}");
}

/// What the two programs have to print is stored beside them, and was made by
/// neither implementation.
#[test]
fn texts_that_are_stored() {
    for (text, program) in [
        (Text::Clauses, "crates/trail_clauses"),
        (Text::Report, "crates/trail_report"),
    ] {
        let sheet = std::fs::read(in_repository(program).join("stdin")).unwrap();
        let stored = std::fs::read_to_string(in_repository(program).join("stdout")).unwrap();
        assert_eq!((REFERENCE.read)(&sheet), Ok(248));
        for calls in implementations() {
            let joined = calls.joined_text(text, &sheet);
            assert!(joined == stored, "{}: {text:?}", calls.name);
        }
    }
}

/// No part is longer than the last of these: a line's longest list, with as many
/// digits in each number as there can be.
#[test]
fn the_longest_part() {
    let mut random = Random::new(402);
    // Each line's operands are the two words before it.
    for line in [Line::add, Line::subtract] {
        let lines: Vec<Line> = (0..248).map(|k| line(7 + k, 6 + k, 0)).collect();
        let sheet = sheet_of(32, &[0; 8], &lines);
        let _kept = KeptOnFailure(&sheet);
        for calls in implementations() {
            for part in 1..=248 {
                let length = |part| {
                    let text = calls.text_part(Text::Clauses, &sheet, part, 34608);
                    text.unwrap().len()
                };
                assert!(length(part) <= length(248), "{}, part {part}", calls.name);
            }
        }
        // By hand, for each run: in bit 0 four clauses each for result and carry,
        // in the bits above it eight. Words have variables of four digits, and
        // carries of five.
        let digits = 4 * 12 + 4 * 13 + 31 * 8 * 17 + 30 * 8 * 18;
        let signs = 6 + 7 + (31 + 30) * 16;
        let literals = 4 * 3 + 4 * 3 + (31 + 30) * 8 * 4;
        let clauses = 4 + 4 + (31 + 30) * 8;
        let length = 2 * (digits + signs + literals + 2 * clauses);
        assert_eq!(length, 25_186);
        for calls in implementations() {
            for (room, fits) in [(length - 1, false), (length, true)] {
                let answer = calls.text_part(Text::Clauses, &sheet, 248, room);
                assert_eq!(answer.is_ok(), fits, "{}, room {room}", calls.name);
            }
        }
        check_part(&mut random, Text::Clauses, &sheet, 248);
        check_joined_parts(&sheet);
    }
}
