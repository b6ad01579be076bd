//! Takes a SAT solver's solution back to the sheet: `solution SHEET` reads the
//! solver's output from standard input, spells out the starting value and runs
//! it along the trail.
//!
//! The solver's output may have the form of the SAT competitions (lines `v 1
//! -2 .. 0`, with `s` and `c` lines between them) or that of minisat's result
//! file (`SAT`, then the literals).
//!
//! Prints the starting words in hexadecimal, then `follows` or where the two
//! runs disagree with the trail. Exit code 0: follows; 1: does not, or there
//! is no solution; 2: the sheet or the solution cannot be read.

use std::fs::File;
use std::io::{self, Read};
use std::process::ExitCode;

use tablegull::reference::{self, Sheet};
use tablegull::text::read_input;

fn main() -> ExitCode {
    match run() {
        Ok(true) => ExitCode::SUCCESS,
        Ok(false) => ExitCode::from(1),
        Err(message) => {
            eprintln!("solution: {message}");
            ExitCode::from(2)
        }
    }
}

fn run() -> Result<bool, String> {
    let mut arguments = std::env::args_os().skip(1);
    let (Some(path), None) = (arguments.next(), arguments.next()) else {
        return Err("call it as `solution SHEET`, the solver's output on standard input".into());
    };
    let shown = path.to_string_lossy();
    let bytes = File::open(&path)
        .and_then(read_input)
        .map_err(|error| format!("{shown}: {error}"))?;
    let sheet = Sheet::read(&bytes)
        .map_err(|refusal| format!("{shown}: {refusal} ({})", refusal.question()))?;
    let mut output = String::new();
    io::stdin()
        .read_to_string(&mut output)
        .map_err(|error| format!("standard input: {error}"))?;

    let variables = sheet.width() as usize * sheet.input_count();
    match parse_solution(&output, variables)? {
        Solution::None => {
            println!("no solution");
            Ok(false)
        }
        Solution::Values(values) => {
            let start = starting_words(&values, sheet.width() as usize);
            print_words(&start, sheet.width());
            follow(&bytes, &start)
        }
    }
}

/// What a solver found.
#[derive(Debug, PartialEq, Eq)]
enum Solution {
    /// There is no solution.
    None,
    /// The values of the variables asked for, from variable 1 on.
    Values(Vec<bool>),
}

/// Finds the values of variables 1 to `variables` in a solver's output.
///
/// A variable that the solver leaves out may have either value; it is given 0.
fn parse_solution(output: &str, variables: usize) -> Result<Solution, String> {
    let mut values = vec![None; variables];
    let mut found = false;
    for (number, line) in (1..).zip(output.lines()) {
        let mut tokens = line.split_ascii_whitespace().peekable();
        match tokens.peek().copied() {
            None => continue,
            Some(token) if token.starts_with('c') => continue,
            Some("s" | "v") => {
                tokens.next();
            }
            Some(_) => {}
        }
        for token in tokens {
            match token {
                "SAT" | "SATISFIABLE" => found = true,
                "UNSAT" | "UNSATISFIABLE" => return Ok(Solution::None),
                literal => {
                    let literal = literal
                        .parse()
                        .map_err(|_| format!("line {number} of the solution: {token:?}?"))?;
                    found = true;
                    set_value(&mut values, literal)?;
                }
            }
        }
    }
    if !found {
        return Err("there is no solution on standard input".into());
    }
    let values = values.into_iter().map(|value| value.unwrap_or(false));
    Ok(Solution::Values(values.collect()))
}

/// Notes a literal, unless it is the 0 at the end or about a later variable.
fn set_value(values: &mut [Option<bool>], literal: i32) -> Result<(), String> {
    let variable = literal.unsigned_abs() as usize;
    let Some(value) = variable
        .checked_sub(1)
        .and_then(|index| values.get_mut(index))
    else {
        return Ok(());
    };
    match value.replace(literal > 0) {
        Some(other) if other != (literal > 0) => {
            Err(format!("the solution has variable {variable} both ways"))
        }
        _ => Ok(()),
    }
}

/// Bit i of word j is variable nj + i + 1.
fn starting_words(values: &[bool], width: usize) -> Vec<u64> {
    values
        .chunks(width)
        .map(|bits| {
            bits.iter()
                .rev()
                .fold(0, |word, &bit| word << 1 | u64::from(bit))
        })
        .collect()
}

fn print_words(words: &[u64], width: u32) {
    let digits = width.div_ceil(4) as usize;
    for word in words {
        println!("{word:0digits$x}");
    }
}

/// Runs the starting words along the trail and prints how it went.
fn follow(sheet: &[u8], start: &[u64]) -> Result<bool, String> {
    let mut answer = [0; 3];
    reference::two_runs(sheet, start, &mut answer).map_err(|refusal| refusal.to_string())?;
    compare_with_archive(sheet, start, answer)?;
    match answer {
        [1, _, _] => {
            println!("follows");
            Ok(true)
        }
        [_, line, bit] => {
            println!("disagrees at line {line}, bit {bit}");
            Ok(false)
        }
    }
}

#[cfg(has_archive)]
fn compare_with_archive(sheet: &[u8], start: &[u64], expected: [u64; 3]) -> Result<(), String> {
    let mut answer = [0; 3];
    tablegull::slices::two_runs(sheet, start, &mut answer)
        .map_err(|refusal| format!("the archive answers {refusal}"))?;
    if answer == expected {
        Ok(())
    } else {
        Err(format!(
            "the archive answers {answer:?}, the reference {expected:?}"
        ))
    }
}

#[cfg(not(has_archive))]
fn compare_with_archive(_: &[u8], _: &[u64], _: [u64; 3]) -> Result<(), String> {
    Ok(())
}
