//! Prints the clauses of the sheet on standard input as a DIMACS file, by the
//! reference.

use std::io::{self, Write};
use std::process::ExitCode;

use tablegull::reference::Sheet;
use tablegull::text::{read_input, TextWriter};
use tablegull::MAX_LINE_CLAUSES;

fn main() -> io::Result<ExitCode> {
    let bytes = read_input(io::stdin().lock())?;
    let mut out = TextWriter::new(io::stdout().lock());
    let code = match Sheet::read(&bytes) {
        Ok(sheet) => {
            print_clauses(&sheet, &mut out)?;
            ExitCode::SUCCESS
        }
        Err(refusal) => {
            out.text(&format!("{refusal}\n"))?;
            ExitCode::FAILURE
        }
    };
    out.flush()?;
    Ok(code)
}

fn print_clauses(sheet: &Sheet, out: &mut TextWriter<impl Write>) -> io::Result<()> {
    let counts = sheet.clause_counts();
    out.text("p cnf ")?;
    out.number(counts.variables as u64, b' ')?;
    out.number(counts.clauses as u64, b'\n')?;
    let mut buffer = [0; MAX_LINE_CLAUSES];
    for line in 0..sheet.line_count() {
        let list = &mut buffer[..sheet.line_clauses_len(line)];
        sheet.line_clauses(line, list);
        out.clauses(list)?;
    }
    Ok(())
}
