//! The two texts of a sheet, part by part.

use super::line_report::Sixteenths;
use super::sheet::Sheet;

impl Sheet<'_> {
    /// A part of the clause file; it must be at most L. Part 0 is the header's
    /// line, and part 1 + k has the clauses of line k.
    pub fn clause_text_part(&self, part: usize) -> String {
        match part.checked_sub(1) {
            None => self.clause_header_text(),
            Some(line) => self.line_clauses_text(line),
        }
    }

    /// A part of the report; it must be at most L. Part k is line k's line, and
    /// part L has the totals.
    pub fn report_text_part(&self, part: usize) -> String {
        if part < self.line_count() {
            self.line_report_text(part)
        } else {
            self.totals_text()
        }
    }

    fn clause_header_text(&self) -> String {
        let counts = self.clause_counts();
        format!("p cnf {} {}\n", counts.variables, counts.clauses)
    }

    /// A clause is a text line, so what ends the one ends the other.
    fn line_clauses_text(&self, line: usize) -> String {
        let mut list = vec![0; self.line_clauses_len(line)];
        self.line_clauses(line, &mut list);
        let mut text = String::new();
        for number in list {
            text += &number.to_string();
            text += if number == 0 { "\n" } else { " " };
        }
        text
    }

    fn line_report_text(&self, line: usize) -> String {
        let report = self.line_report(line);
        let name = report.name();
        let (Sixteenths(weight), chains, count) = report.numbers();
        format!("{line} {name} {weight} {chains} {count}\n")
    }

    fn totals_text(&self) -> String {
        let totals = self.totals();
        let Sixteenths(weight) = totals.weight;
        format!("total {} {weight} {}\n", totals.impossible, totals.chains)
    }
}
