//! Times the archive beside the reference: `cargo run --release --bin bench`.
//!
//! Both get the same input in the same run. The rounds are interleaved, and
//! every other round takes the two in the other order, so that a machine that
//! is busy for a while slows both.
//!
//! Printed are the medians over the rounds of the archive's time and of the
//! reference's; the median of the one divided by the other in the same round;
//! and the archive's fastest round divided by the reference's fastest, which a
//! busy machine disturbs least.
//!
//! Clause text by parts is the archive's own text of each part, written into one
//! lent buffer; beside it the reference's lists go through this package's fast
//! writer of text, as the archive's do in the rows by lists.
//!
//! Below stand the times of totals and of trials measured by the report of the
//! same sheet, and of lists of 64 changes by the reading of it, medians over the
//! rounds again, and how long the archive may take at most. Beside the lists stand
//! the times of as many single changes.
//!
//! Of a change that is lent index and report, what the change itself takes is measured
//! by the report of the same sheet: the time of a call that is applied, less that of the
//! same call for a line that there is not, which reads, compares index and report with
//! the sheet's own, and answers 17.

use std::cell::RefCell;
use std::fs::{File, OpenOptions};
use std::hint::black_box;
use std::io;
use std::rc::Rc;
use std::time::{Duration, Instant};

use tablegull::builder::{Line, SheetBuilder};
use tablegull::reference::{self, LineReport, Sheet};
use tablegull::text::TextWriter;
use tablegull::{
    Index, Refusal, LINE_REPORT, MAX_CHANGES, MAX_CLAUSE_TEXT, MAX_INDEX, MAX_LINES,
    MAX_LINE_CLAUSES, MAX_REPORT_TEXT, MAX_SHEET,
};

/// Rounds of single calls. Whole texts have one round in so many of these.
const ROUNDS: usize = 240;
const ROUNDS_TO_A_LONG_ONE: usize = 4;

/// Short, so that the two of one round meet the machine in the same mood.
const TIME_OF_ONE_MEASURE: Duration = Duration::from_micros(400);

fn main() {
    let mixed = sheet_of(&[1, 2, 3, 4, 5, 6, 7, 8, 9], MAX_LINES);
    let short = sheet_of(&[1, 2, 3, 4, 5, 6, 7, 8, 9], MAX_CHANGES);
    let halves = [
        sheet_of(&[1, 2, 3, 4, 5, 6, 7, 8, 9], MAX_LINES / 2),
        sheet_of(&[9, 8, 7, 6, 5, 4, 3, 2, 1], MAX_LINES / 2),
    ];
    let additions = sheet_of(&[5], MAX_LINES);
    let same_operands = sheet_of_sums(1);
    let few_operands = sheet_of_sums(2);
    let constants = sheet_of(&[6], MAX_LINES);
    let cheap = sheet_of(&[1, 2, 3, 4], MAX_LINES);
    let of_one_word = sheet_of_one_word(MAX_LINES);
    let single = sheet_of_one_word(1);
    let three_costly = sheet_of_three_costly();
    for sheet in [&additions, &same_operands, &few_operands] {
        assert_every_line_charged(sheet);
    }
    for sheet in [&of_one_word, &single, &three_costly] {
        assert_sums_stay_possible(sheet);
    }
    let middle = MAX_LINES / 2;
    let of_two_users = [
        ("all kinds mixed", &mixed, line_of_two_users(&mixed)),
        ("kinds 1 to 4", &cheap, line_of_two_users(&cheap)),
        ("kind 5 only", &additions, line_of_two_users(&additions)),
        ("kind 6 only", &constants, line_of_two_users(&constants)),
        ("three of kind 6", &three_costly, 0),
    ];
    let mut cases = vec![
        Case::new("read, all kinds mixed", read(&mixed)),
        Case::new("read, mixed, 64 lines", read(&short)),
        Case::new("seal, all kinds mixed", seal(&mixed)),
        Case::new("change, mixed", change(&mixed, middle)),
        Case::new("change_all, all kinds mixed", change_all(&mixed)),
        Case::new("64 x change, all kinds mixed", single_changes(&mixed)),
        Case::new("change_all, mixed, 64 lines", change_all(&short)),
        Case::new("64 x change, mixed, 64 lines", single_changes(&short)),
        Case::new("one report, mixed", line_report(&mixed)),
        Case::new("report, all kinds mixed", report(&mixed)),
        Case::new("trial, all kinds mixed", trial(&mixed, middle)),
        Case::new("totals, all kinds mixed", totals(&mixed)),
        Case::new("report, kinds 1 to 4", report(&cheap)),
        Case::new("trial, kinds 1 to 4", trial(&cheap, middle)),
        Case::new("report, kind 5 only", report(&additions)),
        Case::new("trial, kind 5 only", trial(&additions, middle)),
        Case::new("totals, kind 5 only", totals(&additions)),
        Case::new("report, kind 5, same operands", report(&same_operands)),
        Case::new("totals, kind 5, same operands", totals(&same_operands)),
        Case::new("report, kind 5, few operands", report(&few_operands)),
        Case::new("totals, kind 5, few operands", totals(&few_operands)),
        Case::new("report, kind 6 only", report(&constants)),
        Case::new("trial, kind 6 only", trial(&constants, middle)),
        Case::new("report, all name line 0's word", report(&of_one_word)),
        Case::new("trial, all name line 0's word", trial(&of_one_word, 0)),
        Case::new("report, one line", report(&single)),
        Case::new("trial, one line", trial(&single, 0)),
        Case::new("two runs that follow, mixed", two_runs(&mixed)),
        Case::new("clause counts, mixed", clause_counts(&mixed)),
        Case::new("one list, kind 5", list(&additions)),
        Case::new("one list, kind 6", list(&constants)),
        Case::new("join, 124 + 124 lines, mixed", join(&halves)),
        Case::new("index, all kinds mixed", index(&mixed)),
        Case::new("index, kinds 1 to 4", index(&cheap)),
        Case::new("index, kind 5 only", index(&additions)),
        Case::new("index, all name line 0's word", index(&of_one_word)),
        Case::new("index, one line", index(&single)),
        Case::new("report, three of kind 6", report(&three_costly)),
    ];
    for (name, sheet, line) in of_two_users {
        cases.extend(changes_with_index(name, sheet, line));
    }
    for (name, sheet) in [
        ("all name line 0's word", &of_one_word),
        ("one line", &single),
    ] {
        let [change, _] = changes_with_index(name, sheet, 0);
        cases.push(change);
    }
    let mut long_cases = [
        Case::new("clause text by lists, mixed", text_by_lists(&mixed)),
        Case::new("clause text by lists, kind 5", text_by_lists(&additions)),
        Case::of_reference("the same, sheet read once", text_of_one_reading(&additions)),
        Case::new("clause text by parts, mixed", clause_text(&mixed)),
        Case::new("clause text by parts, kind 5", clause_text(&additions)),
        Case::new("report text by parts, mixed", report_text(&mixed)),
    ];
    for round in 0..ROUNDS {
        for case in &mut cases {
            case.measure(round);
        }
        if round.is_multiple_of(ROUNDS_TO_A_LONG_ONE) {
            for case in &mut long_cases {
                case.measure(round / ROUNDS_TO_A_LONG_ONE);
            }
        }
    }
    println!("n = 32, m = 8, L = {MAX_LINES} where no other number is named; times of one call");
    let long_rounds = ROUNDS / ROUNDS_TO_A_LONG_ONE;
    println!("{ROUNDS} rounds, of the texts {long_rounds}");
    if ARCHIVE.is_none() {
        println!("libtablegull.a was not found: THE REFERENCE IS TIMED ALONE");
    }
    print_row("", "archive", "reference", "ratio", "fastest");
    for case in cases.iter().chain(&long_cases) {
        case.print();
    }
    println!();
    print_row("totals / report", "archive", "reference", "at most", "");
    print_bound(&cases, "totals", "report", "all kinds mixed", 1.5, ratio);
    println!();
    let if_5_us = "totals if the report took 5 us";
    print_row(if_5_us, "archive", "reference", "at most", "");
    for sheet in [
        "kind 5 only",
        "kind 5, same operands",
        "kind 5, few operands",
    ] {
        print_bound(&cases, "totals", "report", sheet, 8.0, |reports| {
            time(5e3 * reports)
        });
    }
    println!();
    print_row("trial / report", "archive", "reference", "at most", "");
    for sheet in [
        "all kinds mixed",
        "kinds 1 to 4",
        "kind 5 only",
        "kind 6 only",
        "all name line 0's word",
        "one line",
    ] {
        print_bound(&cases, "trial", "report", sheet, 1.2, ratio);
    }
    println!();
    let lists = ["all kinds mixed", "mixed, 64 lines"];
    print_row("change_all / read", "archive", "reference", "at most", "");
    for sheet in lists {
        print_bound(&cases, "change_all", "read", sheet, 2.0, ratio);
    }
    println!();
    print_row("64 calls of change", "archive", "reference", "", "");
    for sheet in lists {
        let single = case(&cases, "64 x change", sheet);
        print_row(
            sheet,
            &shown(median(&single.archive.times), time),
            &shown(median(&single.reference.times), time),
            "",
            "",
        );
    }
    println!();
    let less_line_l = "(change_indexed - for line L) / report";
    print_row(less_line_l, "archive", "reference", "at most", "");
    for (sheet, _, line) in of_two_users {
        print_bound_less_line_l(&cases, sheet, line);
    }
}

/// Prints how long a change of this line takes beside reading and comparing, the report
/// being the unit, and how long the archive may take at most.
fn print_bound_less_line_l(cases: &[Case], sheet: &str, line: usize) {
    let changed = case(cases, "change_indexed", sheet);
    let line_l = case(cases, "the same for line L", sheet);
    let report = case(cases, "report", sheet);
    let archive = median_rest(&changed.archive, &line_l.archive, &report.archive);
    let reference = median_rest(&changed.reference, &line_l.reference, &report.reference);
    print_row(
        &format!("{sheet}, line {line}"),
        &shown(archive, ratio),
        &shown(reference, ratio),
        &ratio(1.0 / 3.0),
        "",
    );
}

/// Prints how long a call on a sheet takes, another call on it being the unit, and
/// how long the archive may take at most.
fn print_bound(
    cases: &[Case],
    call: &str,
    unit: &str,
    sheet: &str,
    most: f64,
    text: fn(f64) -> String,
) {
    let (call, unit) = (case(cases, call, sheet), case(cases, unit, sheet));
    print_row(
        sheet,
        &shown(median_ratio(&call.archive, &unit.archive), text),
        &shown(median_ratio(&call.reference, &unit.reference), text),
        &text(most),
        "",
    );
}

fn case<'a, 'b>(cases: &'b [Case<'a>], call: &str, sheet: &str) -> &'b Case<'a> {
    let name = format!("{call}, {sheet}");
    let mut cases = cases.iter();
    cases.find(|case| case.name == name).expect("a case")
}

type Outcome = Result<usize, Refusal>;

type Join = fn(&[u8], &[u8], &[u64], &mut [u8]) -> Outcome;

type ChangeIndexed = fn(&mut [u8], &[u16], &mut [u8], usize, u64) -> Outcome;

type TextPart = fn(&[u8], usize, &mut [u8]) -> Outcome;

/// The calls that are timed, the archive's or the reference's.
#[derive(Clone, Copy)]
struct Calls {
    read: fn(&[u8]) -> Outcome,
    seal: fn(&mut [u8]) -> Outcome,
    line_report: fn(&[u8], usize, &mut [u8]) -> Outcome,
    report: fn(&[u8], &mut [u8]) -> Outcome,
    totals: fn(&[u8], &mut [u64]) -> Outcome,
    two_runs: fn(&[u8], &[u64], &mut [u64]) -> Outcome,
    clause_counts: fn(&[u8], &mut [u64]) -> Outcome,
    line_clauses: fn(&[u8], usize, &mut [i32]) -> Outcome,
    /// None where the lists go through the fast writer of text instead.
    clause_text_part: Option<TextPart>,
    report_text_part: TextPart,
    join: Join,
    change: fn(&mut [u8], usize, u64) -> Outcome,
    trial: fn(&[u8], usize, u64, &mut [u8]) -> Outcome,
    change_all: fn(&mut [u8], &[u64], &mut [u8]) -> Outcome,
    index: fn(&[u8], &mut [u16]) -> Outcome,
    change_indexed: ChangeIndexed,
}

const REFERENCE: Calls = Calls {
    read: reference::read,
    seal: reference::seal,
    line_report: reference::line_report,
    report: reference::report,
    totals: reference::totals,
    two_runs: reference::two_runs,
    clause_counts: reference::clause_counts,
    line_clauses: reference::line_clauses,
    clause_text_part: None,
    report_text_part: reference::report_text_part,
    join: reference::join,
    change: reference::change,
    trial: reference::trial,
    change_all: reference::change_all,
    index: reference::index,
    change_indexed: reference::change_indexed,
};

#[cfg(has_archive)]
const ARCHIVE: Option<Calls> = Some(Calls {
    read: tablegull::slices::read,
    seal: tablegull::slices::seal,
    line_report: tablegull::slices::line_report,
    report: tablegull::slices::report,
    totals: tablegull::slices::totals,
    two_runs: tablegull::slices::two_runs,
    clause_counts: tablegull::slices::clause_counts,
    line_clauses: tablegull::slices::line_clauses,
    clause_text_part: Some(tablegull::slices::clause_text_part),
    report_text_part: tablegull::slices::report_text_part,
    join: tablegull::slices::join,
    change: tablegull::slices::change,
    trial: tablegull::slices::trial,
    change_all: tablegull::slices::change_all,
    index: tablegull::slices::index,
    change_indexed: tablegull::slices::change_indexed,
});

#[cfg(not(has_archive))]
const ARCHIVE: Option<Calls> = None;

fn read(sheet: &[u8]) -> impl FnMut(Calls) + '_ {
    move |calls| {
        black_box((calls.read)(black_box(sheet))).expect("accepted");
    }
}

/// Sealed again and again, which changes no byte.
fn seal(sheet: &[u8]) -> impl FnMut(Calls) {
    let mut sheet = sheet.to_vec();
    move |calls| {
        black_box((calls.seal)(black_box(&mut sheet))).expect("accepted");
    }
}

/// A line's difference is changed to and fro.
fn change(sheet: &[u8], line: usize) -> impl FnMut(Calls) {
    let mut sheet = sheet.to_vec();
    let mut difference = OLD_DIFFERENCE;
    move |calls| {
        difference ^= OLD_DIFFERENCE ^ NEW_DIFFERENCE;
        black_box((calls.change)(
            black_box(&mut sheet),
            line,
            difference.into(),
        ))
        .expect("accepted");
    }
}

/// As many lines as a list of changes may have, spread over a sheet.
fn spread_lines(sheet: &[u8]) -> [usize; MAX_CHANGES] {
    let lines = reference::read(sheet).expect("accepted");
    std::array::from_fn(|pair| pair * lines / MAX_CHANGES)
}

/// So many lines' differences are changed to and fro, each time in one call.
fn change_all(sheet: &[u8]) -> impl FnMut(Calls) {
    let lines = spread_lines(sheet);
    let list = |difference: u32| lines.map(|line| [line as u64, difference.into()]);
    let lists = [list(OLD_DIFFERENCE), list(NEW_DIFFERENCE)];
    let mut next = 0;
    let mut sheet = sheet.to_vec();
    let mut replies = [0; MAX_CHANGES];
    move |calls| {
        next = 1 - next;
        let pairs = black_box(&lists[next]).as_flattened();
        (calls.change_all)(black_box(&mut sheet), pairs, &mut replies).expect("accepted");
        assert_eq!(black_box(&replies), &[0; MAX_CHANGES]);
    }
}

/// The same changes, each in a call of its own.
fn single_changes(sheet: &[u8]) -> impl FnMut(Calls) {
    let lines = spread_lines(sheet);
    let mut sheet = sheet.to_vec();
    let mut difference = OLD_DIFFERENCE;
    move |calls| {
        difference ^= OLD_DIFFERENCE ^ NEW_DIFFERENCE;
        for line in lines {
            let answer = (calls.change)(black_box(&mut sheet), line, difference.into());
            black_box(answer).expect("accepted");
        }
    }
}

fn index(sheet: &[u8]) -> impl FnMut(Calls) + '_ {
    let mut out = [0; MAX_INDEX];
    move |calls| {
        (calls.index)(black_box(sheet), &mut out).expect("accepted");
        black_box(&out);
    }
}

/// A sheet, and what is kept beside it.
struct Indexed {
    sheet: Vec<u8>,
    index: Vec<u16>,
    report: Vec<u8>,
}

impl Indexed {
    fn of(sheet: &[u8]) -> Indexed {
        let mut report = vec![0; LINE_REPORT * MAX_LINES];
        let length = reference::report(sheet, &mut report).expect("accepted");
        report.truncate(length);
        Indexed {
            sheet: sheet.to_vec(),
            index: index_of(sheet).0,
            report,
        }
    }

    fn change(&mut self, calls: Calls, line: usize, difference: u32) -> Outcome {
        black_box((calls.change_indexed)(
            black_box(&mut self.sheet),
            black_box(&self.index),
            black_box(&mut self.report),
            line,
            difference.into(),
        ))
    }
}

/// Two cases: a line's difference is changed to and fro, and the report with it; and the
/// same call for a line that there is not, where index and report are compared with the
/// sheet's own and nothing is changed. Both have the same buffers: in buffers that lie
/// otherwise to each other a call's time differs by as much as the change itself takes.
fn changes_with_index<'a>(name: &str, sheet: &[u8], line: usize) -> [Case<'a>; 2] {
    let kept = Rc::new(RefCell::new(Indexed::of(sheet)));
    let stated = stated_difference(sheet, line);
    let case = |call: &str, line: usize, answer: Result<usize, u32>| {
        let kept = Rc::clone(&kept);
        let mut difference = stated;
        Case::new(&format!("{call}, {name}"), move |calls| {
            difference ^= OLD_DIFFERENCE ^ NEW_DIFFERENCE;
            let outcome = kept.borrow_mut().change(calls, line, difference);
            assert_eq!(outcome.map_err(|refusal| refusal.number), answer);
        })
    };
    [
        case("change_indexed", line, Ok(0)),
        case("the same for line L", MAX_LINES, Err(17)),
    ]
}

/// The report of the last line.
fn line_report(sheet: &[u8]) -> impl FnMut(Calls) + '_ {
    let mut out = [0; LINE_REPORT];
    move |calls| {
        (calls.line_report)(black_box(sheet), MAX_LINES - 1, &mut out).expect("accepted");
        black_box(&out);
    }
}

/// From the starting value that the sheet was made with: it follows, so that all
/// lines are run.
fn two_runs(sheet: &[u8]) -> impl FnMut(Calls) + '_ {
    let mut random = Random(1);
    let start: Vec<u64> = (0..8).map(|_| random.word().into()).collect();
    let mut out = [0; 3];
    move |calls| {
        (calls.two_runs)(black_box(sheet), black_box(&start), &mut out).expect("accepted");
        assert_eq!(black_box(&out), &[1, 0, 0]);
    }
}

fn clause_counts(sheet: &[u8]) -> impl FnMut(Calls) + '_ {
    let mut out = [0; 2];
    move |calls| {
        (calls.clause_counts)(black_box(sheet), &mut out).expect("accepted");
        black_box(&out);
    }
}

fn report(sheet: &[u8]) -> impl FnMut(Calls) + '_ {
    let mut out = [0; LINE_REPORT * MAX_LINES];
    move |calls| {
        (calls.report)(black_box(sheet), &mut out).expect("accepted");
        black_box(&out);
    }
}

fn trial(sheet: &[u8], line: usize) -> impl FnMut(Calls) + '_ {
    let mut out = [0; LINE_REPORT * MAX_LINES];
    move |calls| {
        (calls.trial)(black_box(sheet), line, NEW_DIFFERENCE.into(), &mut out).expect("accepted");
        black_box(&out);
    }
}

fn totals(sheet: &[u8]) -> impl FnMut(Calls) + '_ {
    let mut out = [0; 3];
    move |calls| {
        (calls.totals)(black_box(sheet), &mut out).expect("accepted");
        black_box(&out);
    }
}

/// The list of the last line, which has the most lines before it.
fn list(sheet: &[u8]) -> impl FnMut(Calls) + '_ {
    let mut out = [0; MAX_LINE_CLAUSES];
    move |calls| {
        (calls.line_clauses)(black_box(sheet), MAX_LINES - 1, &mut out).expect("accepted");
        black_box(&out);
    }
}

/// The sheet of both, where each input of the second is that of the first.
fn join(sheets: &[Vec<u8>; 2]) -> impl FnMut(Calls) + '_ {
    let names = [0, 1, 2, 3, 4, 5, 6, 7];
    let mut out = [0; MAX_SHEET];
    move |calls| {
        let [first, second] = black_box(sheets);
        (calls.join)(first, second, &names, &mut out).expect("two that can be joined");
        black_box(&out);
    }
}

/// A whole sheet's clause text, one call for each line's list.
fn text_by_lists(sheet: &[u8]) -> impl FnMut(Calls) + '_ {
    let mut text = TextWriter::new(dev_null());
    let mut out = [0; MAX_LINE_CLAUSES];
    move |calls| {
        let lines = (calls.read)(black_box(sheet)).expect("accepted");
        for line in 0..lines {
            let length = (calls.line_clauses)(sheet, line, &mut out).expect("accepted");
            text.clauses(&out[..length]).expect("/dev/null takes all");
        }
        text.flush().expect("/dev/null takes all");
    }
}

/// The same as the reference's program does it: the sheet is read just once.
fn text_of_one_reading(sheet: &[u8]) -> impl FnMut(Calls) + '_ {
    let mut text = TextWriter::new(dev_null());
    let mut out = [0; MAX_LINE_CLAUSES];
    move |_| {
        let sheet = Sheet::read(black_box(sheet)).expect("accepted");
        for line in 0..sheet.line_count() {
            let list = &mut out[..sheet.line_clauses_len(line)];
            sheet.line_clauses(line, list);
            text.clauses(list).expect("/dev/null takes all");
        }
        text.flush().expect("/dev/null takes all");
    }
}

/// A whole sheet's clause text, header and all, in memory: one call for each part,
/// or one for the counts and each line's list. Nothing takes the text up, so that
/// making it is all that is timed.
fn clause_text(sheet: &[u8]) -> impl FnMut(Calls) + '_ {
    let mut text = TextWriter::new(io::sink());
    let mut out = [0; MAX_CLAUSE_TEXT];
    let mut list = [0; MAX_LINE_CLAUSES];
    let mut counts = [0; 2];
    move |calls| {
        if let Some(text_part) = calls.clause_text_part {
            write_parts(calls, sheet, text_part, &mut out);
            return;
        }
        let lines = (calls.read)(black_box(sheet)).expect("accepted");
        (calls.clause_counts)(sheet, &mut counts).expect("accepted");
        let [variables, clauses] = counts;
        text.text("p cnf ").expect("a sink takes all");
        text.number(variables, b' ').expect("a sink takes all");
        text.number(clauses, b'\n').expect("a sink takes all");
        for line in 0..lines {
            let length = (calls.line_clauses)(sheet, line, &mut list).expect("accepted");
            text.clauses(&list[..length]).expect("a sink takes all");
        }
        text.flush().expect("a sink takes all");
    }
}

/// A whole sheet's report as text, one call for each part.
fn report_text(sheet: &[u8]) -> impl FnMut(Calls) + '_ {
    let mut out = [0; MAX_REPORT_TEXT];
    move |calls| write_parts(calls, sheet, calls.report_text_part, &mut out)
}

/// Parts 0 to L of a text, each written over the one before it.
fn write_parts(calls: Calls, sheet: &[u8], text_part: TextPart, out: &mut [u8]) {
    let lines = (calls.read)(black_box(sheet)).expect("accepted");
    for part in 0..=lines {
        text_part(sheet, part, out).expect("accepted");
        black_box(&out);
    }
}

fn dev_null() -> File {
    let opened = OpenOptions::new().write(true).open("/dev/null");
    opened.expect("/dev/null can be written")
}

struct Case<'a> {
    name: String,
    work: Box<dyn FnMut(Calls) + 'a>,
    archive: Side,
    reference: Side,
}

impl<'a> Case<'a> {
    fn new(name: &str, work: impl FnMut(Calls) + 'a) -> Case<'a> {
        Case {
            name: name.into(),
            work: Box::new(work),
            archive: Side::new(ARCHIVE),
            reference: Side::new(Some(REFERENCE)),
        }
    }

    /// A case to which the archive has nothing.
    fn of_reference(name: &str, work: impl FnMut(Calls) + 'a) -> Case<'a> {
        Case {
            archive: Side::new(None),
            ..Case::new(name, work)
        }
    }

    fn measure(&mut self, round: usize) {
        let (first, second) = if round.is_multiple_of(2) {
            (&mut self.archive, &mut self.reference)
        } else {
            (&mut self.reference, &mut self.archive)
        };
        first.measure(&mut self.work);
        second.measure(&mut self.work);
    }

    fn print(&self) {
        let (archive, reference) = (&self.archive.times, &self.reference.times);
        let of_fastest = fastest(archive).zip(fastest(reference)).map(|(a, r)| a / r);
        print_row(
            &self.name,
            &shown(median(archive), time),
            &shown(median(reference), time),
            &shown(median_ratio(&self.archive, &self.reference), ratio),
            &shown(of_fastest, ratio),
        );
    }
}

/// One of the two, and its times in nanoseconds, a time for each round.
struct Side {
    calls: Option<Calls>,
    repeats: u32,
    times: Vec<f64>,
}

impl Side {
    fn new(calls: Option<Calls>) -> Side {
        Side {
            calls,
            repeats: 0,
            times: Vec::with_capacity(ROUNDS),
        }
    }

    fn measure(&mut self, work: &mut dyn FnMut(Calls)) {
        let Some(calls) = self.calls else { return };
        if self.repeats == 0 {
            self.repeats = enough_repeats(calls, work);
        }
        let start = Instant::now();
        for _ in 0..self.repeats {
            work(calls);
        }
        let time = start.elapsed().as_nanos() as f64;
        self.times.push(time / f64::from(self.repeats));
    }
}

/// So many that the clock's own steps do not matter. Warms up, too.
fn enough_repeats(calls: Calls, work: &mut dyn FnMut(Calls)) -> u32 {
    let start = Instant::now();
    let mut repeats = 0;
    while start.elapsed() < TIME_OF_ONE_MEASURE {
        work(calls);
        repeats += 1;
    }
    repeats
}

fn median(numbers: &[f64]) -> Option<f64> {
    let mut sorted = numbers.to_vec();
    sorted.sort_by(f64::total_cmp);
    sorted.get(sorted.len() / 2).copied()
}

/// The median of the one's time divided by the other's in the same round.
fn median_ratio(one: &Side, other: &Side) -> Option<f64> {
    let rounds = one.times.iter().zip(&other.times);
    median(&rounds.map(|(a, b)| a / b).collect::<Vec<f64>>())
}

/// The median of what is left of the one's time without another's, divided by a third
/// one's in the same round.
fn median_rest(one: &Side, without: &Side, unit: &Side) -> Option<f64> {
    let rounds = one.times.iter().zip(&without.times).zip(&unit.times);
    median(&rounds.map(|((a, b), c)| (a - b) / c).collect::<Vec<f64>>())
}

fn fastest(times: &[f64]) -> Option<f64> {
    times.iter().copied().min_by(f64::total_cmp)
}

fn print_row(name: &str, archive: &str, reference: &str, ratio: &str, fastest: &str) {
    let row = format!("{name:<38} {archive:>10} {reference:>10} {ratio:>8} {fastest:>8}");
    println!("{}", row.trim_end());
}

fn shown(number: Option<f64>, text: impl FnOnce(f64) -> String) -> String {
    number.map_or("-".into(), text)
}

fn ratio(ratio: f64) -> String {
    format!("{ratio:.2}")
}

fn time(nanoseconds: f64) -> String {
    match nanoseconds {
        ..1e3 => format!("{nanoseconds:.0} ns"),
        1e3..1e6 => format!("{:.2} us", nanoseconds / 1e3),
        _ => format!("{:.2} ms", nanoseconds / 1e6),
    }
}

/// A sheet with so many lines, of these kinds in turn. Its differences are those
/// of two runs, so that no line is impossible, and its lines are all different,
/// so that none is a repeat. The inputs' differences are the same in all sheets.
fn sheet_of(kinds: &[u8], count: usize) -> Vec<u8> {
    let mut random = Random(1);
    let mut first: Vec<u32> = (0..8).map(|_| random.word()).collect();
    let mut second: Vec<u32> = first.iter().map(|x| x ^ random.sparse_word()).collect();
    let differences: Vec<u32> = first.iter().zip(&second).map(|(x, y)| x ^ y).collect();
    let mut lines = Vec::with_capacity(count);
    while lines.len() < count {
        let kind = kinds[lines.len() % kinds.len()];
        // The two operands have different remainders modulo 2.
        let a = random.word() as usize % (first.len() / 2) * 2;
        let b = random.word() as usize % (first.len() / 2) * 2 + 1;
        let constant = random.word();
        let amount = 1 + random.word() % 31;
        let result = |words: &[u32]| match kind {
            1 => words[a] ^ words[b],
            2 => words[a] ^ constant,
            3 => words[a].rotate_left(amount),
            4 => words[a].rotate_right(amount),
            5 => words[a].wrapping_add(words[b]),
            6 => words[a].wrapping_add(constant),
            7 => words[a] << amount,
            8 => words[a] >> amount,
            _ => words[a].wrapping_sub(words[b]),
        };
        let (x, y) = (result(&first), result(&second));
        let (a, b, amount, difference) = (a as u16, b as u16, amount as u8, x ^ y);
        let line = match kind {
            1 => Line::xor(a, b, difference),
            2 => Line::xor_constant(a, constant, difference),
            3 => Line::rotate_left(a, amount, difference),
            4 => Line::rotate_right(a, amount, difference),
            5 => Line::add(a, b, difference),
            6 => Line::add_constant(a, constant, difference),
            7 => Line::shift_left(a, amount, difference),
            8 => Line::shift_right(a, amount, difference),
            _ => Line::subtract(a, b, difference),
        };
        if !lines.contains(&line) {
            lines.push(line);
            first.push(x);
            second.push(y);
        }
    }
    sealed(&differences, &lines)
}

/// A sheet of full size with sums of inputs, each with a stated difference of
/// its own. The first operand is one of so many words, by chance, and the second
/// one of as many others.
///
/// Of one word each, lines are not told apart by their operands; of two, where
/// a comparison of two lines ends cannot be foreseen. Both are hard on totals
/// that compare each line with all before it, operands first.
fn sheet_of_sums(choices: usize) -> Vec<u8> {
    let mut random = Random(2);
    let differences: Vec<u32> = (0..8).map(|_| random.word()).collect();
    let mut lines = Vec::with_capacity(MAX_LINES);
    while lines.len() < MAX_LINES {
        let a = random.word() as usize % choices;
        let b = random.word() as usize % choices + choices;
        // The difference of two runs, so that the line is possible.
        let (x, y) = (random.word(), random.word());
        let other = (x ^ differences[a]).wrapping_add(y ^ differences[b]);
        let line = Line::add(a as u16, b as u16, x.wrapping_add(y) ^ other);
        if !lines.contains(&line) {
            lines.push(line);
        }
    }
    sealed(&differences, &lines)
}

/// What a line is changed to, and back; with the new one trials are made.
const OLD_DIFFERENCE: u32 = 0x10;
const NEW_DIFFERENCE: u32 = 0x70;

/// What sums with the changed word state.
const OF_SUMS: u32 = 0x30;

/// A sheet of so many lines where every line after the first names the first one's
/// word. Its sums can happen with the old difference of that word and with the new
/// one, and in one bit the differences of word and sum are not alike, either way: so
/// the work is the same.
fn sheet_of_one_word(count: usize) -> Vec<u8> {
    let mut random = Random(3);
    let differences = [OLD_DIFFERENCE, 0, 0, 0, 0, 0, 0, 0];
    let word = differences.len() as u16;
    let later = (1..count).map(|line| {
        let other = 1 + (random.word() % 7) as u16;
        let constant = constant_for_either(&mut random);
        match line % 6 {
            0 => Line::xor(word, other, OLD_DIFFERENCE),
            1 => Line::add(word, other, OF_SUMS),
            2 => Line::add_constant(word, constant, OF_SUMS),
            3 => Line::add(other, word, OF_SUMS),
            4 => Line::rotate_left(word, 1, OLD_DIFFERENCE << 1),
            _ => Line::subtract(word, other, OF_SUMS),
        }
    });
    let first = Line::add(0, 1, OLD_DIFFERENCE);
    let lines: Vec<Line> = [first].into_iter().chain(later).collect();
    sealed(&differences, &lines)
}

/// A sheet of full size where two lines use line 0's word. These three add constants,
/// which is the most work for a report; all others are of kinds 1 to 4, the least. So
/// of all changes this is one of the longest beside its report.
fn sheet_of_three_costly() -> Vec<u8> {
    let mut random = Random(4);
    let differences = [OLD_DIFFERENCE, 0, 0, 0, 0, 0, 0, 0];
    let word = differences.len() as u16;
    // The words that have no difference.
    let mut quiet: Vec<u16> = (1..word).collect();
    let lines = (0..MAX_LINES).map(|line| {
        let constant = constant_for_either(&mut random);
        let amount = 1 + (random.word() % 31) as u8;
        let at = random.word() as usize % quiet.len();
        let (a, b) = (quiet[at], quiet[(at + 1) % quiet.len()]);
        match line {
            0 => return Line::add_constant(0, constant, OLD_DIFFERENCE),
            100 | 200 => return Line::add_constant(word, constant, OF_SUMS),
            _ => quiet.push(word + line as u16),
        }
        match line % 4 {
            0 => Line::xor(a, b, 0),
            1 => Line::xor_constant(a, constant, 0),
            2 => Line::rotate_left(a, amount, 0),
            _ => Line::rotate_right(a, amount, 0),
        }
    });
    let sheet = sealed(&differences, &lines.collect::<Vec<Line>>());
    assert_eq!(index_of(&sheet).users(word), Some(&[100, 200][..]));
    sheet
}

/// A constant with which the sum can have the difference [`OF_SUMS`] for the old
/// difference of the word and for the new one.
fn constant_for_either(random: &mut Random) -> u32 {
    // Bit 0, so that there may be a carry into bit 4 and may be none; of bits 4 and 5
    // the upper one, so that either carry leads to the sum's difference.
    random.word() & !0x10 | 0x21
}

/// The first line from the middle of a sheet of full size on whose word just two lines
/// use.
fn line_of_two_users(sheet: &[u8]) -> usize {
    let index = index_of(sheet);
    let has_two = |line: &usize| index.users(8 + *line as u16).map(<[u16]>::len) == Some(2);
    let mut lines = MAX_LINES / 2..MAX_LINES;
    lines.find(has_two).expect("a word that two lines use")
}

fn index_of(sheet: &[u8]) -> Index {
    let mut numbers = vec![0; MAX_INDEX];
    let length = reference::index(sheet, &mut numbers).expect("accepted");
    numbers.truncate(length);
    Index(numbers)
}

fn stated_difference(sheet: &[u8], line: usize) -> u32 {
    let record = &sheet[512 * (1 + line / 31) + 16 * (line % 31)..];
    u32::from_le_bytes(*record[12..].first_chunk().expect("four bytes"))
}

/// No line is impossible, and with the new difference in line 0 only such lines are
/// as were certain.
fn assert_sums_stay_possible(sheet: &[u8]) {
    let mut changed = sheet.to_vec();
    reference::change(&mut changed, 0, NEW_DIFFERENCE.into()).expect("accepted");
    let (old, new) = (Sheet::read(sheet), Sheet::read(&changed));
    let (old, new) = (old.expect("accepted"), new.expect("accepted"));
    for line in 0..old.line_count() {
        let (old, new) = (old.line_report(line), new.line_report(line));
        assert_ne!(old, LineReport::Impossible);
        assert!(new != LineReport::Impossible || old == LineReport::Certain);
    }
}

fn sealed(differences: &[u32], lines: &[Line]) -> Vec<u8> {
    let mut sheet = SheetBuilder::new(32, differences);
    for line in lines {
        sheet.line(*line);
    }
    sheet.seal().expect("an accepted sheet")
}

/// Every line has a weight, and no line is a repeat: each is charged.
fn assert_every_line_charged(sheet: &[u8]) {
    let sheet = Sheet::read(sheet).expect("accepted");
    let weights: Vec<u32> = (0..sheet.line_count())
        .map(|line| sheet.line_report(line).numbers().0 .0)
        .collect();
    assert!(weights.iter().all(|&weight| weight > 0));
    assert_eq!(weights.iter().sum::<u32>(), sheet.totals().weight.0);
}

/// Steele, Lea and Flood's SplitMix64.
struct Random(u64);

impl Random {
    fn word(&mut self) -> u32 {
        self.0 = self.0.wrapping_add(0x9e37_79b9_7f4a_7c15);
        let mut z = self.0;
        z = (z ^ z >> 30).wrapping_mul(0xbf58_476d_1ce4_e5b9);
        z = (z ^ z >> 27).wrapping_mul(0x94d0_49bb_1331_11eb);
        ((z ^ z >> 31) >> 32) as u32
    }

    /// Few ones, so that there are quiet stretches for chains.
    fn sparse_word(&mut self) -> u32 {
        self.word() & self.word() & self.word()
    }
}
