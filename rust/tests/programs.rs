//! The programs as they are run.

mod common;

use std::fs::File;
use std::io::{Read, Write};
use std::path::{Path, PathBuf};
use std::process::{Command, Output, Stdio};
use std::time::{Duration, Instant};

use common::texts::Text;
use common::{implementations, random_program, Program, Random, Step};

fn run(program: &str, arguments: &[&str], input: &[u8]) -> Output {
    let mut child = Command::new(program)
        .args(arguments)
        .stdin(Stdio::piped())
        .stdout(Stdio::piped())
        .stderr(Stdio::piped())
        .spawn()
        .unwrap();
    // A program that has seen enough may close its input early.
    let _ = child.stdin.take().unwrap().write_all(input);
    child.wait_with_output().unwrap()
}

fn report(input: &[u8]) -> String {
    text(&run(env!("CARGO_BIN_EXE_reference_report"), &[], input))
}

fn clauses(input: &[u8]) -> String {
    text(&run(env!("CARGO_BIN_EXE_reference_clauses"), &[], input))
}

fn text(output: &Output) -> String {
    String::from_utf8(output.stdout.clone()).unwrap()
}

fn example() -> Program {
    Program {
        width: 2,
        inputs: vec![1],
        steps: vec![Step {
            kind: 6,
            amount: 0,
            first: 0,
            second: 0,
            constant: 1,
            difference: 3,
        }],
    }
}

#[test]
fn texts_of_the_example() {
    let sheet = example().sheet();
    assert_eq!(report(&sheet), "0 counted 0 1 4\ntotal 0 0 1\n");
    let expected = "p cnf 6 16\n1 3 0\n-1 -3 0\n1 -5 0\n-1 5 0\n2 5 -4 0\n2 -5 4 0\n-2 5 4 0\n\
                    -2 -5 -4 0\n-1 -3 0\n1 3 0\n-1 -6 0\n1 6 0\n2 6 4 0\n2 -6 -4 0\n-2 6 -4 0\n\
                    -2 -6 4 0\n";
    assert_eq!(clauses(&sheet), expected);
}

#[test]
fn report_of_copies() {
    let mut program = example();
    program.steps = vec![program.steps[0]; 3];
    assert_eq!(
        report(&program.sheet()),
        "0 counted 0 1 4\n1 counted 0 1 4\n2 counted 0 1 4\ntotal 0 0 1\n"
    );
}

#[test]
fn texts_of_a_word_xored_with_itself() {
    let mut program = example();
    program.steps[0] = Step {
        kind: 1,
        constant: 0,
        difference: 0,
        ..program.steps[0]
    };
    let sheet = program.sheet();
    assert_eq!(report(&sheet), "0 certain 0 0 0\ntotal 0 0 0\n");
    let expected = "p cnf 4 16\n1 1 -3 0\n1 -1 3 0\n-1 1 3 0\n-1 -1 -3 0\n2 2 -4 0\n2 -2 4 0\n\
                    -2 2 4 0\n-2 -2 -4 0\n-1 -1 -3 0\n-1 1 3 0\n1 -1 3 0\n1 1 -3 0\n2 2 -4 0\n\
                    2 -2 4 0\n-2 2 4 0\n-2 -2 -4 0\n";
    assert_eq!(clauses(&sheet), expected);
}

#[test]
fn refusals_are_printed() {
    let mut sheet = example().sheet();
    sheet[1023] ^= 1;
    assert_eq!(report(&sheet), "refused 2 1\n");
    assert_eq!(clauses(&sheet), "refused 2 1\n");
    for length in [0, 1, 511, 512, 1023, 4607, 4609, 5120, 100_000] {
        assert_eq!(report(&vec![0; length]), "refused 1 0\n");
        assert_eq!(clauses(&vec![0; length]), "refused 1 0\n");
    }
}

#[test]
fn texts_are_those_of_the_calls() {
    let mut random = Random::new(8);
    for lines in [1, 30, 31, 32, 100, 248] {
        let width = if lines == 248 {
            32
        } else {
            2 + random.below(31) as u32
        };
        let (program, _) = random_program(&mut random, width, 8, lines);
        let sheet = program.sheet();
        let (report, clauses) = (report(&sheet), clauses(&sheet));
        for calls in implementations() {
            for (printed, text) in [(&report, Text::Report), (&clauses, Text::Clauses)] {
                let by_other_calls = calls.text_by_other_calls(text, &sheet);
                assert!(*printed == by_other_calls, "{}: {text:?}", calls.name);
                let joined = calls.joined_text(text, &sheet);
                assert!(*printed == joined, "{}: {text:?}, parts", calls.name);
            }
        }
    }
}

/// The programs that print a text: the reference's, and the proved ones where they
/// are there, in the folder that `TABLEGULL_BIN` names, or else where each is built, as
/// `../crates/trail_report/out/trail_report`.
fn text_programs() -> Vec<PathBuf> {
    let named = std::env::var_os("TABLEGULL_BIN").map(PathBuf::from);
    let crates = Path::new(env!("CARGO_MANIFEST_DIR")).join("../crates");
    let place = |name: &str| match &named {
        Some(folder) => folder.join(name),
        None => crates.join(format!("{name}/out/{name}")),
    };
    // Whoever names a folder wants the programs: without them the test fails.
    let proved = ["trail_report", "trail_clauses"]
        .map(place)
        .into_iter()
        .filter(|program| named.is_some() || program.is_file());
    let reference = [
        env!("CARGO_BIN_EXE_reference_report"),
        env!("CARGO_BIN_EXE_reference_clauses"),
    ];
    reference
        .map(PathBuf::from)
        .into_iter()
        .chain(proved)
        .collect()
}

#[cfg(not(has_programs))]
#[test]
#[ignore = "trail_report and trail_clauses were not found, so THE PROVED PROGRAMS ARE NOT RUN"]
fn the_proved_programs_are_left_out() {}

/// The programs that are there are run, and all that are run print what the
/// reference's print.
#[test]
fn the_programs_that_are_there_are_run() {
    let programs = text_programs();
    assert_eq!(programs.len() > 2, cfg!(has_programs));
    for program in programs {
        for sheet in [example().sheet(), vec![0; 4609]] {
            let output = run(program.to_str().unwrap(), &[], &sheet);
            assert_eq!(text(&output), printed_by(&program, &sheet));
            assert!(output.stderr.is_empty());
        }
    }
}

#[test]
fn the_references_programs_end_with_1_where_they_refuse() {
    for program in [
        env!("CARGO_BIN_EXE_reference_report"),
        env!("CARGO_BIN_EXE_reference_clauses"),
    ] {
        for (input, status) in [(example().sheet(), 0), (Vec::new(), 1)] {
            assert_eq!(run(program, &[], &input).status.code(), Some(status));
        }
    }
}

#[test]
fn words_have_a_digit_for_every_four_bits_begun() {
    let mut random = Random::new(16);
    for (width, digits) in [(2, 1), (4, 1), (5, 2), (13, 4), (29, 8), (31, 8)] {
        let (program, _) = random_program(&mut random, width, 2, 1);
        let sheet = SheetFile::new(&format!("digits-{width}"), &program.sheet());
        let (text, _) = sheet.solution(&format!("SAT\n1 {} 0\n", width + 2));
        let words: Vec<&str> = text.lines().take(2).collect();
        let wanted = [1, 2].map(|word| format!("{word:0digits$x}"));
        assert_eq!(words, wanted, "{width}");
    }
}

#[test]
fn solution_says_what_it_cannot_read() {
    let program = env!("CARGO_BIN_EXE_solution");
    let good = SheetFile::new("good", &example().sheet());
    let refused = SheetFile::new("refused", &[0; 512]);
    let (good, refused) = (good.0.to_str().unwrap(), refused.0.to_str().unwrap());
    let none = format!("{good}.none");
    let none = none.as_str();
    for arguments in [&[][..], &[good, good], &[none], &[refused]] {
        let output = run(program, arguments, b"SAT\n1 0\n");
        assert_eq!(output.status.code(), Some(2), "{arguments:?}");
        assert_eq!(text(&output), "");
        let said = String::from_utf8(output.stderr).unwrap();
        assert!(said.starts_with("solution: "), "{said}");
    }
}

/// Runs a program whose output cannot be written, and answers what it prints on
/// standard error. A program that has not ended after a minute never will.
fn run_into_a_full_device(program: &Path, input: &[u8]) -> String {
    let full = File::options().write(true).open("/dev/full").unwrap();
    let mut child = Command::new(program)
        .stdin(Stdio::piped())
        .stdout(full)
        .stderr(Stdio::piped())
        .spawn()
        .unwrap_or_else(|error| panic!("{}: {error}", program.display()));
    // A sheet fits into a pipe, so that this does not wait for the program.
    let _ = child.stdin.take().unwrap().write_all(input);
    let start = Instant::now();
    while child.try_wait().unwrap().is_none() {
        if start.elapsed() > Duration::from_secs(60) {
            child.kill().unwrap();
            panic!("{} does not end", program.display());
        }
        std::thread::sleep(Duration::from_millis(1));
    }
    let mut printed = String::new();
    let mut errors = child.stderr.take().unwrap();
    errors.read_to_string(&mut printed).unwrap();
    printed
}

#[test]
fn a_full_device_is_told_in_one_line() {
    let (largest, _) = random_program(&mut Random::new(13), 32, 8, 248);
    // Texts of one write and of many, and of a refusal.
    for sheet in [example().sheet(), largest.sheet(), Vec::new()] {
        for program in text_programs() {
            let printed = run_into_a_full_device(&program, &sheet);
            let one_line = printed.lines().count() == 1 && printed.ends_with('\n');
            assert!(one_line, "{}: {printed:?}", program.display());
            assert_ne!(printed.trim(), "", "{}", program.display());
        }
    }
}

/// A folder can be opened and not read. That is no sheet of no bytes, which would be
/// refused.
#[test]
fn a_read_that_fails_is_told_and_nothing_is_printed() {
    for program in text_programs() {
        let folder = File::open(env!("CARGO_MANIFEST_DIR")).unwrap();
        let output = Command::new(&program).stdin(folder).output().unwrap();
        assert_eq!(text(&output), "", "{}", program.display());
        let said = String::from_utf8(output.stderr).unwrap();
        let one_line = said.lines().count() == 1 && said.ends_with('\n');
        assert!(one_line, "{}: {said:?}", program.display());
    }
}

/// What a program has to print of a sheet, by its name.
fn printed_by(program: &Path, sheet: &[u8]) -> String {
    if program.ends_with("reference_report") || program.ends_with("trail_report") {
        report(sheet)
    } else {
        clauses(sheet)
    }
}

#[test]
fn input_that_comes_in_two_writes_is_read_whole() {
    let (longest, _) = random_program(&mut Random::new(14), 32, 8, 248);
    let sheet = longest.sheet();
    let (first, second) = sheet.split_at(512);
    for program in text_programs() {
        let mut child = Command::new(&program)
            .stdin(Stdio::piped())
            .stdout(Stdio::piped())
            .spawn()
            .unwrap();
        let mut input = child.stdin.take().unwrap();
        input.write_all(first).unwrap();
        // Long enough that a program that reads once has read.
        std::thread::sleep(Duration::from_millis(200));
        input.write_all(second).unwrap();
        drop(input);
        let printed = text(&child.wait_with_output().unwrap());
        assert!(
            printed == printed_by(&program, &sheet),
            "{}",
            program.display()
        );
    }
}

#[test]
fn what_is_written_before_a_failed_write_is_the_texts_beginning() {
    let (longest, _) = random_program(&mut Random::new(15), 32, 8, 248);
    let sheet = longest.sheet();
    for (number, program) in text_programs().iter().enumerate() {
        let file = SheetFile::new(&format!("cut-{number}"), b"");
        // Of the first write the file takes some bytes, and of the next none.
        let limited = format!(
            "trap '' XFSZ; ulimit -f 2; exec '{}' > '{}'",
            program.display(),
            file.0.display()
        );
        let output = run("sh", &["-c", &limited], &sheet);
        let written = std::fs::read(&file.0).unwrap();
        let whole = printed_by(program, &sheet);
        let name = program.display();
        assert!(
            !written.is_empty() && written.len() < whole.len(),
            "{name}: {}",
            written.len()
        );
        assert!(whole.as_bytes().starts_with(&written), "{name}");
        let told = String::from_utf8(output.stderr).unwrap();
        assert_eq!(told.lines().count(), 1, "{name}: {told:?}");
    }
}

/// A file of this test process alone, gone when it goes out of use.
struct SheetFile(PathBuf);

impl SheetFile {
    fn new(name: &str, sheet: &[u8]) -> SheetFile {
        let name = format!("{name}-{}.sheet", std::process::id());
        let path = PathBuf::from(env!("CARGO_TARGET_TMPDIR")).join(name);
        std::fs::write(&path, sheet).unwrap();
        SheetFile(path)
    }

    /// Runs `solution` on this sheet; its text and exit code.
    fn solution(&self, input: &str) -> (String, Option<i32>) {
        let path = self.0.to_str().unwrap();
        let output = run(env!("CARGO_BIN_EXE_solution"), &[path], input.as_bytes());
        (text(&output), output.status.code())
    }
}

impl Drop for SheetFile {
    fn drop(&mut self) {
        let _ = std::fs::remove_file(&self.0);
    }
}

#[test]
fn solutions_are_taken_back_to_the_sheet() {
    let mut random = Random::new(9);
    let (program, start) = random_program(&mut random, 12, 3, 20);
    let sheet = SheetFile::new("solution", &program.sheet());
    let literals: Vec<String> = program
        .assignment(&start)
        .iter()
        .zip(1..)
        .map(|(&value, variable)| format!("{}{variable}", if value { "" } else { "-" }))
        .collect();
    let words: String = start.iter().map(|word| format!("{word:03x}\n")).collect();
    let follows = (format!("{words}follows\n"), Some(0));

    let mut competition = "c a comment\ns SATISFIABLE\n".to_string();
    for part in literals.chunks(7) {
        competition += &format!("v {}\n", part.join(" "));
    }
    competition += "v 0\nc another\n";
    assert_eq!(sheet.solution(&competition), follows);
    let minisat = format!("SAT\n{} 0\n", literals.join(" "));
    assert_eq!(sheet.solution(&minisat), follows);
}

#[test]
fn other_starts_disagree_where_they_do() {
    let mut random = Random::new(10);
    let (program, _) = random_program(&mut random, 32, 8, 30);
    let sheet = SheetFile::new("other", &program.sheet());
    let start = vec![0; 8];
    let [follows, line, bit] = program.two_runs_answer(&start);
    assert_eq!(follows, 0);
    // Variables that are not there are 0.
    let (text, code) = sheet.solution("SAT\n-1 0\n");
    let words = "00000000\n".repeat(8);
    assert_eq!(
        text,
        format!("{words}disagrees at line {line}, bit {bit}\n")
    );
    assert_eq!(code, Some(1));
}

#[test]
fn what_is_no_solution_is_said_to_be_none() {
    let sheet = SheetFile::new("none", &example().sheet());
    let none = ("no solution\n".to_string(), Some(1));
    assert_eq!(sheet.solution("UNSAT\n"), none);
    assert_eq!(sheet.solution("c x\ns UNSATISFIABLE\n"), none);
    for unreadable in ["", "c x\n", "s UNKNOWN\n", "SAT\n1 -1 0\n", "v 1 x 0\n"] {
        assert_eq!(sheet.solution(unreadable), (String::new(), Some(2)));
    }
}
