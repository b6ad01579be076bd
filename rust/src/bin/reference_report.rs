//! Prints the report of the sheet on standard input, by the reference.

use std::io::{self, Write};
use std::process::ExitCode;

use tablegull::reference::{Sheet, Sixteenths};
use tablegull::text::{read_input, TextWriter};

fn main() -> io::Result<ExitCode> {
    let bytes = read_input(io::stdin().lock())?;
    let mut out = TextWriter::new(io::stdout().lock());
    let code = match Sheet::read(&bytes) {
        Ok(sheet) => {
            print_report(&sheet, &mut out)?;
            ExitCode::SUCCESS
        }
        Err(refusal) => {
            out.text(&format!("{refusal}\n"))?;
            ExitCode::FAILURE
        }
    };
    out.flush()?;
    Ok(code)
}

fn print_report(sheet: &Sheet, out: &mut TextWriter<impl Write>) -> io::Result<()> {
    for line in 0..sheet.line_count() {
        let report = sheet.line_report(line);
        let (Sixteenths(weight), chains, count) = report.numbers();
        out.number(line as u64, b' ')?;
        out.text(report.name())?;
        out.text(" ")?;
        out.number(weight.into(), b' ')?;
        out.number(chains.into(), b' ')?;
        out.number(count, b'\n')?;
    }
    let totals = sheet.totals();
    let Sixteenths(weight) = totals.weight;
    out.text("total ")?;
    out.number(totals.impossible.into(), b' ')?;
    out.number(weight.into(), b' ')?;
    out.number(totals.chains.into(), b'\n')
}
