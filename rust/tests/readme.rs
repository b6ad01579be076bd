//! What the two READMEs print. Their commands are run in a folder where the proved
//! programs are played by the reference's, and the SAT solver by a script that
//! answers what the README prints: so the counts of clauses are checked, and that a
//! printed starting value satisfies every clause and follows. That there is none,
//! where the README says so, is left to a solver.

mod common;

use std::fs;
use std::os::unix::fs::{symlink, PermissionsExt};
use std::path::{Path, PathBuf};
use std::process::Command;

use common::{Program, REFERENCE};

fn repository() -> PathBuf {
    let path = Path::new(env!("CARGO_MANIFEST_DIR")).join("..");
    path.canonicalize().unwrap()
}

const READMES: [&str; 2] = ["README.md", "examples/README.md"];

/// The folder with the repository's scripts and sheets, and with stand-ins.
fn folder(test: &str) -> PathBuf {
    let name = format!("readme-{test}-{}", std::process::id());
    let folder = Path::new(env!("CARGO_TARGET_TMPDIR")).join(name);
    let _ = fs::remove_dir_all(&folder);
    let programs = ["trail_report", "trail_clauses"].map(|name| format!("crates/{name}/out"));
    let [in_report, in_clauses] = &programs;
    for below in [in_report, in_clauses, "bin", "examples", "rust/src/bin"] {
        fs::create_dir_all(folder.join(below)).unwrap();
    }
    fs::copy(repository().join("tablegull"), folder.join("tablegull")).unwrap();
    for file in fs::read_dir(repository().join("examples")).unwrap() {
        let file = file.unwrap();
        if file.path().is_file() {
            fs::copy(file.path(), folder.join("examples").join(file.file_name())).unwrap();
        }
    }
    let reports = env!("CARGO_BIN_EXE_reference_report");
    let clauses = env!("CARGO_BIN_EXE_reference_clauses");
    symlink(reports, folder.join(in_report).join("trail_report")).unwrap();
    symlink(clauses, folder.join(in_clauses).join("trail_clauses")).unwrap();
    fs::write(folder.join("rust/src/bin/solution.rs"), "").unwrap();
    let solution = env!("CARGO_BIN_EXE_solution");
    let after_dashes = "while [ \"$1\" != -- ]; do shift; done; shift";
    program(
        &folder,
        "cargo",
        &format!("{after_dashes}; exec '{solution}' \"$@\""),
    );
    let given = folder.join("given");
    let answer = folder.join("answer");
    let solver = format!("cp \"$2\" '{}'; . '{}'", given.display(), answer.display());
    program(&folder, "cadical", &solver);
    folder
}

fn program(folder: &Path, name: &str, text: &str) {
    let path = folder.join("bin").join(name);
    fs::write(&path, format!("#!/bin/sh\n{text}\n")).unwrap();
    fs::set_permissions(&path, fs::Permissions::from_mode(0o755)).unwrap();
}

fn printed(folder: &Path, command: &str) -> String {
    let path = std::env::var("PATH").unwrap();
    let output = Command::new("sh")
        .args(["-c", command])
        .current_dir(folder)
        .env("PATH", format!("{}:{path}", folder.join("bin").display()))
        .output()
        .unwrap();
    let said = String::from_utf8_lossy(&output.stderr);
    assert_eq!(said, "", "{command}");
    String::from_utf8(output.stdout).unwrap()
}

/// The commands of a README, each with what it prints: indented lines, up to a
/// blank one.
fn commands(readme: &str) -> Vec<(String, String)> {
    let text = fs::read_to_string(repository().join(readme)).unwrap();
    let mut commands: Vec<(String, String)> = Vec::new();
    let mut inside = false;
    for line in text.lines() {
        if let Some(command) = line.strip_prefix("    $ ") {
            commands.push((command.into(), String::new()));
            inside = true;
        } else if let (true, Some(line)) = (inside, line.strip_prefix("    ")) {
            commands.last_mut().unwrap().1 += &format!("{line}\n");
        } else {
            inside = false;
        }
    }
    commands
}

/// The words that a README prints as a starting value.
fn starting_value(text: &str) -> Option<Vec<u64>> {
    let (_, words) = text.split_once("in hexadecimal:\n")?;
    let words = words.strip_suffix("follows\n").expect("it follows");
    let words = words.lines().map(|word| u64::from_str_radix(word, 16));
    Some(words.map(Result::unwrap).collect())
}

#[test]
fn commands_print_what_the_readmes_say() {
    let folder = folder("commands");
    let mut asked = 0;
    for readme in READMES {
        let commands = commands(readme);
        assert!(commands.len() >= 6, "{readme}");
        for (command, text) in commands {
            let mut words = command.split_whitespace();
            if words.next() != Some("examples/solve") {
                assert_eq!(printed(&folder, &command), text, "{readme}: {command}");
                continue;
            }
            asked += 1;
            let sheet = words.next().unwrap_or("examples/lea7.sheet");
            let program = Program::parse(&fs::read(folder.join(sheet)).unwrap());
            let start = starting_value(&text);
            let values = start.as_ref().map(|start| program.assignment(start));
            let answer = match &values {
                None => "exit 20".to_string(),
                Some(values) => {
                    let literals = values.iter().zip(1..).map(|(value, variable)| {
                        format!(" {}{variable}", if *value { "" } else { "-" })
                    });
                    format!("echo v{} 0\nexit 10", literals.collect::<String>())
                }
            };
            fs::write(folder.join("answer"), answer).unwrap();
            assert_eq!(printed(&folder, &command), text, "{readme}: {command}");
            let given = fs::read_to_string(folder.join("given")).unwrap();
            check_clauses(&given, &text, values.as_deref(), &command);
        }
    }
    assert!(asked >= 12, "{asked}");
    fs::remove_dir_all(&folder).unwrap();
}

/// The header counts the clauses, and the values satisfy each.
fn check_clauses(given: &str, text: &str, values: Option<&[bool]>, command: &str) {
    let (header, clauses) = given.split_once('\n').unwrap();
    assert!(
        text.starts_with(&format!("clauses: {header}\n")),
        "{command}"
    );
    let count = header.split(' ').next_back().unwrap();
    assert_eq!(count, clauses.lines().count().to_string(), "{command}");
    for clause in clauses.lines() {
        let literals = clause.strip_suffix(" 0").expect("a clause");
        let is_true = |literal: &str| {
            let literal: i32 = literal.parse().unwrap();
            values.is_none_or(|values| values[literal.unsigned_abs() as usize - 1] == (literal > 0))
        };
        assert!(literals.split(' ').any(is_true), "{command}: {clause}");
    }
}

fn report_of(sheet: &str) -> Vec<String> {
    let bytes = fs::read(repository().join("examples").join(sheet)).unwrap();
    let text = REFERENCE.text_by_other_calls(common::texts::Text::Report, &bytes);
    text.lines().map(String::from).collect()
}

/// The first lines that the README shows are the example's, with some left out.
#[test]
fn the_first_report() {
    let readme = fs::read_to_string(repository().join("README.md")).unwrap();
    let shown = readme.lines().skip_while(|line| *line != "## Two commands");
    let shown: Vec<&str> = shown
        .map_while(|line| (!line.starts_with("## Two real")).then_some(line))
        .filter_map(|line| line.strip_prefix("    "))
        .filter(|line| line.starts_with(|c: char| c.is_ascii_digit()) || line.starts_with("total"))
        .collect();
    assert_eq!(shown.len(), 6);
    let report = report_of("lea7.sheet");
    assert_eq!(shown[..3], report[..3]);
    assert_eq!(shown[3..], report[report.len() - 3..]);
}

/// The tables of a line's N, and of the weights of a round's sums.
#[test]
fn tables_of_the_examples() {
    let readme = fs::read_to_string(repository().join("examples/README.md")).unwrap();
    let (lea, xtea) = readme.split_once("## XTEA, 27 rounds").unwrap();
    for (text, sheet, lines_in_round, rows) in [(lea, "lea7", 20, 7), (xtea, "xtea27", 7, 14)] {
        let report = report_of(&format!("{sheet}.sheet"));
        let mut seen = 0;
        for row in text.lines().filter(|row| row.contains("| line ")) {
            let cells: Vec<&str> = row.split('|').map(str::trim).collect();
            let Ok(round) = cells[1].parse::<usize>() else {
                continue;
            };
            seen += 1;
            let (line, n) = cells[2]
                .strip_prefix("line ")
                .unwrap()
                .split_once(": ")
                .unwrap();
            let line: usize = line.parse().unwrap();
            assert_eq!(line / lines_in_round, round, "{row}");
            let own = &report[line];
            if let Ok(n) = n.parse::<u64>() {
                assert!(own.starts_with(&format!("{line} counted ")), "{row}");
                assert!(own.ends_with(&format!(" {n}")), "{row}: {own}");
                let bits = 32.0 - (n as f64).log2();
                let shown: f64 = cells[3].parse().unwrap();
                assert!((bits - shown).abs() < 0.0006, "{row}: {bits}");
            }
            assert_eq!(cells[3], cells[4], "{row}");
            // The sums of the round: halves, in whole bits.
            let sums = report[lines_in_round * round..lines_in_round * (round + 1)]
                .iter()
                .filter_map(|own| own.split_once(" halves "))
                .map(|(_, rest)| rest.split(' ').next().unwrap().parse::<u32>().unwrap() / 16);
            let shown = cells[5]
                .split(" + ")
                .map(|bits| bits.parse::<u32>().unwrap());
            let (sums, shown): (Vec<u32>, Vec<u32>) = (sums.collect(), shown.collect());
            let total = sums.iter().sum::<u32>();
            assert!(
                sums == shown || (shown == [0] && total == 0),
                "{row}: {sums:?}"
            );
            assert_eq!(cells[6], total.to_string(), "{row}");
        }
        assert_eq!(seen, rows, "{sheet}");
    }
}

/// The README's examples in Rust, word for word.
#[cfg(has_archive)]
mod in_rust {
    type Any = Box<dyn std::error::Error>;

    fn building() -> Result<(), Any> {
        // From here
        use tablegull::builder::{Line, SheetBuilder};

        let mut sheet = SheetBuilder::new(32, &[0x8000_0000, 0]);
        let sum = sheet.line(Line::add(0, 1, 0x8000_0000));
        sheet.line(Line::rotate_left(sum, 7, 0x40));
        let bytes = sheet.seal()?;
        let numbers = tablegull::line_clauses(&bytes, 0)?;
        if let tablegull::LineReport::Halves { weight } = tablegull::line_report(&bytes, 0)? {
            println!("{} bits, {} numbers of clauses", weight.0, numbers.len());
        }
        // to here
        let certain = tablegull::LineReport::Certain;
        assert_eq!(tablegull::line_report(&bytes, 1), Ok(certain));
        Ok(())
    }

    fn joining() -> Result<(), Any> {
        // From here
        let keys = std::fs::read("examples/xtea6_keys.sheet")?;
        let rounds = std::fs::read("examples/xtea6_rounds.sheet")?;
        let joined = tablegull::join(&keys, &rounds, &[0, 1, 6, 7, 8, 9, 10, 11])?;
        // to here
        assert_eq!(tablegull::read(&joined), Ok(42));
        Ok(())
    }

    fn changing() -> Result<(), Any> {
        // From here
        let mut sheet = std::fs::read("examples/lea7_printed.sheet")?;
        let tried = tablegull::trial(&sheet, 138, 0x0004_0440)?;
        assert_ne!(tried[138], tablegull::LineReport::Impossible);
        assert_eq!(tried[139], tablegull::LineReport::Impossible);
        tablegull::change(&mut sheet, 138, 0x0004_0440)?;
        tablegull::change(&mut sheet, 139, 0x0000_8088)?;
        assert_eq!(sheet, std::fs::read("examples/lea7.sheet")?);
        // to here
        Ok(())
    }

    fn changing_all() -> Result<(), Any> {
        // From here
        let mut sheet = std::fs::read("examples/lea7_printed.sheet")?;
        let pairs = [(138, 0x0004_0440), (139, 0x0000_8088), (140, 1)];
        let replies = tablegull::change_all(&mut sheet, &pairs)?;
        assert_eq!(replies[..2], [Ok(()), Ok(())]);
        assert_eq!(replies[2].unwrap_err().number, 17);
        assert_eq!(sheet, std::fs::read("examples/lea7.sheet")?);
        // to here
        Ok(())
    }

    fn changing_indexed() -> Result<(), Any> {
        // From here
        let mut sheet = std::fs::read("examples/lea7_printed.sheet")?;
        let index = tablegull::index(&sheet)?;
        let mut reports = tablegull::reports(&sheet)?;
        assert_eq!(index.users(8 + 138), Some(&[139][..]));
        tablegull::change_indexed(&mut sheet, &index, &mut reports, 138, 0x0004_0440)?;
        assert_eq!(reports[139], tablegull::LineReport::Impossible);
        tablegull::change_indexed(&mut sheet, &index, &mut reports, 139, 0x0000_8088)?;
        assert_eq!(reports, tablegull::reports(&sheet)?);
        assert_eq!(sheet, std::fs::read("examples/lea7.sheet")?);
        // to here
        Ok(())
    }

    #[test]
    fn the_examples_run() {
        // The other tests here name no file by a path that starts where they are.
        std::env::set_current_dir(super::repository()).unwrap();
        building().unwrap();
        joining().unwrap();
        changing().unwrap();
        changing_all().unwrap();
        changing_indexed().unwrap();
    }

    #[test]
    fn the_examples_are_the_readmes() {
        let readme = include_str!("../../README.md");
        let source = include_str!("readme.rs");
        let examples: Vec<&str> = source.split("        // From here\n").skip(1).collect();
        assert_eq!(examples.len(), 5);
        for example in examples {
            let (example, _) = example.split_once("        // to here\n").unwrap();
            let lines = example
                .lines()
                .map(|line| line.strip_prefix("    ").unwrap_or(line));
            let wanted: String = lines.map(|line| format!("{line}\n")).collect();
            assert!(readme.contains(&wanted), "the README has not:\n{wanted}");
        }
    }
}
