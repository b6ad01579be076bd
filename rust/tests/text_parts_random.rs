//! The two texts of random sheets, good and bad, part by part; and clause files
//! read again.

mod common;

use common::damage::damage_a_field;
use common::sealing::random_sheet_to_seal;
use common::texts::{check_part, part_past, Text, TEXTS};
use common::{
    disturb, implementations, random_lines, random_program, random_shape, write_checks,
    KeptOnFailure, Program, Random, REFERENCE,
};

/// A part that a text of so many lines has: often the first, or one of the last.
fn part_there(random: &mut Random, lines: usize) -> usize {
    match random.below(6) {
        0 => 0,
        1 => lines,
        2 => lines - 1,
        _ => random.below(lines + 1),
    }
}

/// Checks a part of both texts, and at times one that there is not. Answers the
/// part.
fn check_some_parts(random: &mut Random, sheet: &[u8]) -> usize {
    let _kept = KeptOnFailure(sheet);
    let lines = (REFERENCE.read)(sheet).unwrap_or(3);
    let part = part_there(random, lines);
    for text in TEXTS {
        check_part(random, text, sheet, part);
        if random.one_in(4) {
            let part = part_past(random, lines);
            check_part(random, text, sheet, part);
        }
    }
    part
}

/// Parts of accepted sheets, as many of each width as of every other. Answers how
/// often a line was met in a part of its clauses, by its width and kind; and how
/// often each report.
fn check_accepted_sheets(random: &mut Random, sheets: usize) -> ([[usize; 10]; 33], [usize; 4]) {
    let (mut clauses_met, mut reports_met) = ([[0; 10]; 33], [0; 4]);
    for width in (2..=32).cycle().take(sheets) {
        let (inputs, lines) = (1 + random.below(8), random_lines(random));
        let (mut program, _) = random_program(random, width, inputs, lines);
        if random.one_in(2) {
            disturb(random, &mut program);
        }
        let sheet = program.sheet();
        let part = check_some_parts(random, &sheet);
        if part > 0 {
            clauses_met[width as usize][usize::from(program.steps[part - 1].kind)] += 1;
        }
        if part < lines {
            reports_met[usize::from(REFERENCE.report_of(&sheet, part).number)] += 1;
        }
    }
    (clauses_met, reports_met)
}

#[test]
fn accepted_sheets_at_all_widths() {
    let (clauses, reports) = check_accepted_sheets(&mut Random::new(410), 31 * 1000);
    for (width, kinds) in clauses.iter().enumerate().skip(2) {
        let all_met = kinds[1..].iter().all(|&times| times > 20);
        assert!(all_met, "{width}: {kinds:?}");
    }
    assert!(reports.iter().all(|&times| times > 1000), "{reports:?}");
}

/// Parts of sheets with damaged fields, mostly with checks that are right. Answers
/// how often each number was the refusal; 0 is for what was accepted.
fn check_damaged_sheets(random: &mut Random, sheets: usize) -> [usize; 17] {
    let mut by_number = [0; 17];
    for _ in 0..sheets {
        let (program, _) = random_shape(random);
        let mut bytes = program.sheet();
        for _ in 0..1 + random.below(3) {
            damage_a_field(random, &mut bytes);
        }
        if random.one_in(32) {
            let length = bytes.len();
            bytes.resize(random.pick(&[0, 512, length - 1, length + 512, 5120]), 0);
        }
        if !random.one_in(6) {
            write_checks(&mut bytes);
        }
        check_some_parts(random, &bytes);
        match (REFERENCE.read)(&bytes) {
            Ok(_) => by_number[0] += 1,
            Err(refusal) => by_number[refusal.number as usize] += 1,
        }
    }
    by_number
}

#[test]
fn damaged_sheets() {
    let by_number = check_damaged_sheets(&mut Random::new(411), 60_000);
    assert!(by_number.iter().all(|&times| times > 20), "{by_number:?}");
}

/// Sheets sealed or not, mostly with a word XORed with itself: the texts are those
/// of any other sheet. Answers how many were accepted.
fn check_sheets_to_seal(random: &mut Random, sheets: usize) -> usize {
    let mut accepted = 0;
    for _ in 0..sheets {
        let bytes = random_sheet_to_seal(random);
        check_some_parts(random, &bytes);
        let sheet = (REFERENCE.read)(&bytes).map(|_| Program::parse(&bytes));
        let found = sheet.is_ok_and(|program| program.word_xored_with_itself().is_some());
        accepted += usize::from(found);
    }
    accepted
}

#[test]
fn words_xored_with_themselves() {
    let accepted = check_sheets_to_seal(&mut Random::new(412), 30_000);
    assert!(accepted > 3000, "{accepted}");
}

#[test]
#[ignore = "a longer run of the tests above"]
fn a_million_random_sheets() {
    check_accepted_sheets(&mut Random::new(413), 31 * 10_000);
    check_damaged_sheets(&mut Random::new(414), 400_000);
    check_sheets_to_seal(&mut Random::new(415), 300_000);
}

/// What a solver reads from a clause file.
struct ClauseFile {
    variables: u64,
    clauses: u64,
    /// A 0 after each clause.
    numbers: Vec<i32>,
}

/// Reads a clause file as the format has it: comment lines, the header's line,
/// then numbers, however they stand in lines. Only of the numbers is more asked:
/// that they are written as numbers are.
fn read_clause_file(text: &str) -> ClauseFile {
    let mut lines = text.lines().skip_while(|line| line.starts_with('c'));
    let header: Vec<&str> = lines.next().unwrap().split_ascii_whitespace().collect();
    let ["p", "cnf", variables, clauses] = header[..] else {
        panic!("no header: {header:?}");
    };
    let numbers = lines.flat_map(str::split_ascii_whitespace).map(|word| {
        let number: i32 = word.parse().unwrap();
        assert_eq!(number.to_string(), word);
        number
    });
    ClauseFile {
        variables: variables.parse().unwrap(),
        clauses: clauses.parse().unwrap(),
        numbers: numbers.collect(),
    }
}

/// The clause text, read again, has the counts and the lists that the other calls
/// have. Its lines are its clauses, and its header says how much there is of it.
fn check_clause_file(sheet: &[u8]) {
    let _kept = KeptOnFailure(sheet);
    for calls in implementations() {
        let name = calls.name;
        let text = calls.joined_text(Text::Clauses, sheet);
        let file = read_clause_file(&text);

        let mut counts = [0; 2];
        assert_eq!((calls.clause_counts)(sheet, &mut counts), Ok(2));
        assert_eq!([file.variables, file.clauses], counts, "{name}");
        let mut list = Vec::new();
        let mut out = [0; 4944];
        for line in 0..(calls.read)(sheet).unwrap() {
            let length = (calls.line_clauses)(sheet, line, &mut out).unwrap();
            list.extend_from_slice(&out[..length]);
        }
        assert!(file.numbers == list, "{name}");

        let ends = list.iter().filter(|&&number| number == 0).count() as u64;
        let largest = list.iter().map(|number| number.unsigned_abs()).max();
        assert_eq!(list.last(), Some(&0), "{name}");
        assert_eq!([largest.unwrap().into(), ends], counts, "{name}");
        assert_eq!(text.lines().count() as u64, 1 + ends, "{name}");
        assert!(text.lines().skip(1).all(|line| line.ends_with(" 0")));
    }
}

#[test]
fn clause_files_of_small_sheets_are_read_again() {
    let mut random = Random::new(416);
    for _ in 0..5000 {
        let width = 2 + random.below(6) as u32;
        let (inputs, lines) = (1 + random.below(3), 1 + random.below(6));
        let (mut program, _) = random_program(&mut random, width, inputs, lines);
        if random.one_in(3) {
            disturb(&mut random, &mut program);
        }
        check_clause_file(&program.sheet());
    }
}

#[test]
fn clause_files_of_some_larger_sheets_are_read_again() {
    let mut random = Random::new(417);
    for _ in 0..100 {
        let (program, _) = random_shape(&mut random);
        check_clause_file(&program.sheet());
    }
}
