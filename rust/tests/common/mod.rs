//! What the tests share: random programs with a plain model of their runs, the
//! calls of the two implementations, and a small generator of random numbers.

// Each test file is compiled with this module and uses a part of it.
#![allow(dead_code)]

pub mod changing;
pub mod changing_all;
pub mod damage;
pub mod indexing;
pub mod lending;
pub mod pairs;
pub mod sealing;
pub mod texts;

use std::path::Path;

use tablegull::builder::{Line, SheetBuilder};
use tablegull::{reference, Refusal};

pub type Outcome = Result<usize, Refusal>;

type Join = fn(&[u8], &[u8], &[u64], &mut [u8]) -> Outcome;

type ChangeIndexed = fn(&mut [u8], &[u16], &mut [u8], usize, u64) -> Outcome;

/// The sixteen calls of one implementation.
#[derive(Clone, Copy)]
pub struct Calls {
    pub name: &'static str,
    pub read: fn(&[u8]) -> Outcome,
    pub seal: fn(&mut [u8]) -> Outcome,
    pub line_report: fn(&[u8], usize, &mut [u8]) -> Outcome,
    pub report: fn(&[u8], &mut [u8]) -> Outcome,
    pub totals: fn(&[u8], &mut [u64]) -> Outcome,
    pub two_runs: fn(&[u8], &[u64], &mut [u64]) -> Outcome,
    pub clause_counts: fn(&[u8], &mut [u64]) -> Outcome,
    pub line_clauses: fn(&[u8], usize, &mut [i32]) -> Outcome,
    pub clause_text_part: fn(&[u8], usize, &mut [u8]) -> Outcome,
    pub report_text_part: fn(&[u8], usize, &mut [u8]) -> Outcome,
    pub join: Join,
    pub change: fn(&mut [u8], usize, u64) -> Outcome,
    pub trial: fn(&[u8], usize, u64, &mut [u8]) -> Outcome,
    pub change_all: fn(&mut [u8], &[u64], &mut [u8]) -> Outcome,
    pub index: fn(&[u8], &mut [u16]) -> Outcome,
    pub change_indexed: ChangeIndexed,
}

pub const REFERENCE: Calls = Calls {
    name: "reference",
    read: reference::read,
    seal: reference::seal,
    line_report: reference::line_report,
    report: reference::report,
    totals: reference::totals,
    two_runs: reference::two_runs,
    clause_counts: reference::clause_counts,
    line_clauses: reference::line_clauses,
    clause_text_part: reference::clause_text_part,
    report_text_part: reference::report_text_part,
    join: reference::join,
    change: reference::change,
    trial: reference::trial,
    change_all: reference::change_all,
    index: reference::index,
    change_indexed: reference::change_indexed,
};

#[cfg(has_archive)]
pub const ARCHIVE: Calls = Calls {
    name: "archive",
    read: tablegull::slices::read,
    seal: tablegull::slices::seal,
    line_report: tablegull::slices::line_report,
    report: tablegull::slices::report,
    totals: tablegull::slices::totals,
    two_runs: tablegull::slices::two_runs,
    clause_counts: tablegull::slices::clause_counts,
    line_clauses: tablegull::slices::line_clauses,
    clause_text_part: tablegull::slices::clause_text_part,
    report_text_part: tablegull::slices::report_text_part,
    join: tablegull::slices::join,
    change: tablegull::slices::change,
    trial: tablegull::slices::trial,
    change_all: tablegull::slices::change_all,
    index: tablegull::slices::index,
    change_indexed: tablegull::slices::change_indexed,
};

/// The reference, and the archive where it is there.
pub fn implementations() -> Vec<Calls> {
    vec![
        REFERENCE,
        #[cfg(has_archive)]
        ARCHIVE,
    ]
}

/// A report as its buffer spells it: name's number, weight, chains, N.
#[derive(Clone, Copy, Debug, PartialEq, Eq)]
pub struct Report {
    pub number: u8,
    pub weight: u32,
    pub chains: u16,
    pub count: u64,
}

pub const IMPOSSIBLE: Report = Report {
    number: 0,
    weight: 0,
    chains: 0,
    count: 0,
};

pub const CERTAIN: Report = Report {
    number: 1,
    ..IMPOSSIBLE
};

pub fn halves(whole_bits: u32) -> Report {
    Report {
        number: 2,
        weight: 16 * whole_bits,
        ..IMPOSSIBLE
    }
}

pub fn counted(count: u64, weight: u32, chains: u16) -> Report {
    Report {
        number: 3,
        weight,
        chains,
        count,
    }
}

impl Report {
    /// Whether the line has a weight or chains.
    pub fn costs(&self) -> bool {
        self.weight > 0 || self.chains > 0
    }

    pub fn parse(bytes: &[u8]) -> Report {
        assert_eq!(bytes.len(), 16);
        assert_eq!(bytes[1], 0);
        Report {
            number: bytes[0],
            chains: u16::from_le_bytes(bytes[2..4].try_into().unwrap()),
            weight: u32::from_le_bytes(bytes[4..8].try_into().unwrap()),
            count: u64::from_le_bytes(bytes[8..16].try_into().unwrap()),
        }
    }
}

impl Calls {
    /// The reports of all lines of an accepted sheet.
    pub fn reports(&self, sheet: &[u8]) -> Vec<Report> {
        let mut out = vec![0; 16 * 248];
        let length = (self.report)(sheet, &mut out).unwrap();
        out[..length].chunks(16).map(Report::parse).collect()
    }

    /// The report of one line of an accepted sheet.
    pub fn report_of(&self, sheet: &[u8], line: usize) -> Report {
        let mut out = [0; 16];
        assert_eq!((self.line_report)(sheet, line, &mut out), Ok(16));
        Report::parse(&out)
    }

    /// Whether two runs of an accepted sheet follow, and where they do not.
    pub fn runs(&self, sheet: &[u8], start: &[u64]) -> [u64; 3] {
        let mut out = [0; 3];
        assert_eq!((self.two_runs)(sheet, start, &mut out), Ok(3));
        out
    }

    /// The totals of an accepted sheet: impossible lines, weight, chains.
    pub fn sheet_totals(&self, sheet: &[u8]) -> [u64; 3] {
        let mut out = [0; 3];
        assert_eq!((self.totals)(sheet, &mut out), Ok(3));
        out
    }

    /// One line's clauses, each without its 0.
    pub fn clauses(&self, sheet: &[u8], line: usize) -> Vec<Vec<i32>> {
        let mut out = vec![0; 4944];
        let length = (self.line_clauses)(sheet, line, &mut out).unwrap();
        assert!(length == 0 || out[length - 1] == 0);
        let mut clauses: Vec<Vec<i32>> = out[..length]
            .split(|&number| number == 0)
            .map(<[i32]>::to_vec)
            .collect();
        assert_eq!(clauses.pop(), Some(Vec::new()), "0 follows each clause");
        clauses
    }

    /// The clauses of all lines.
    pub fn joined_clauses(&self, sheet: &[u8]) -> Vec<Vec<i32>> {
        let lines = (self.read)(sheet).unwrap();
        (0..lines)
            .flat_map(|line| self.clauses(sheet, line))
            .collect()
    }
}

/// One line of a program, with its fields open to the tests. What the kind does
/// not use is 0.
#[derive(Clone, Copy, Debug, PartialEq, Eq)]
pub struct Step {
    pub kind: u8,
    pub amount: u8,
    pub first: u16,
    pub second: u16,
    pub constant: u32,
    pub difference: u32,
}

impl Step {
    pub fn line(&self) -> Line {
        match self.kind {
            1 => Line::xor(self.first, self.second, self.difference),
            2 => Line::xor_constant(self.first, self.constant, self.difference),
            3 => Line::rotate_left(self.first, self.amount, self.difference),
            4 => Line::rotate_right(self.first, self.amount, self.difference),
            5 => Line::add(self.first, self.second, self.difference),
            6 => Line::add_constant(self.first, self.constant, self.difference),
            7 => Line::shift_left(self.first, self.amount, self.difference),
            8 => Line::shift_right(self.first, self.amount, self.difference),
            9 => Line::subtract(self.first, self.second, self.difference),
            kind => panic!("there is no kind {kind}"),
        }
    }

    /// The line with other numbers for the words that it names.
    pub fn renumbered(&self, numbers: &[u16]) -> Step {
        Step {
            first: numbers[usize::from(self.first)],
            second: match self.kind {
                1 | 5 | 9 => numbers[usize::from(self.second)],
                _ => 0,
            },
            ..*self
        }
    }

    /// Whether a word is one of the operands that the line uses.
    pub fn uses(&self, word: usize) -> bool {
        let second_is_used = matches!(self.kind, 1 | 5 | 9);
        usize::from(self.first) == word || second_is_used && usize::from(self.second) == word
    }

    /// Whether the line XORs a word with itself.
    pub fn xors_a_word_with_itself(&self) -> bool {
        self.kind == 1 && self.first == self.second
    }

    /// Whether the line has carries, or borrows in their place.
    pub fn has_carries(&self) -> bool {
        matches!(self.kind, 5 | 6 | 9)
    }

    /// What the line adds, or what it subtracts from what.
    pub fn operands(&self, words: &[u64]) -> (u64, u64) {
        let first = words[usize::from(self.first)];
        match self.kind {
            6 => (first, self.constant.into()),
            _ => (first, words[usize::from(self.second)]),
        }
    }

    /// The carry or borrow into a bit.
    pub fn carry(&self, words: &[u64], bit: u32) -> bool {
        let below = 1 << bit;
        let (first, second) = self.operands(words);
        let (first, second) = (first % below, second % below);
        match self.kind {
            9 => first < second,
            _ => first + second >= below,
        }
    }

    /// The result, written bit by bit or with wide numbers: slow and plain.
    pub fn result(&self, words: &[u64], width: u32) -> u64 {
        let first = words[usize::from(self.first)];
        let amount = u32::from(self.amount);
        let moved = |places: u32| {
            (0..width)
                .map(|bit| (first >> bit & 1) << ((bit + places) % width))
                .sum()
        };
        match self.kind {
            1 => first ^ words[usize::from(self.second)],
            2 => first ^ u64::from(self.constant),
            3 => moved(amount),
            4 => moved(width - amount),
            7 => (first << amount) % (1 << width),
            8 => first >> amount,
            9 => {
                let (first, second) = self.operands(words);
                ((1 << width) + first - second) % (1 << width)
            }
            _ => {
                let (first, second) = self.operands(words);
                (first + second) % (1 << width)
            }
        }
    }
}

/// A program with its stated differences.
#[derive(Clone, Debug)]
pub struct Program {
    pub width: u32,
    pub inputs: Vec<u32>,
    pub steps: Vec<Step>,
}

impl Program {
    /// The sheet, sealed by the tests' own check sums.
    pub fn sheet(&self) -> Vec<u8> {
        let mut builder = SheetBuilder::new(self.width as u8, &self.inputs);
        for step in &self.steps {
            builder.line(step.line());
        }
        let mut bytes = builder.unsealed();
        write_checks(&mut bytes);
        bytes
    }

    /// The program of a sheet, which must have an accepted header.
    pub fn parse(sheet: &[u8]) -> Program {
        let number = |at, size| {
            let bytes: &[u8] = &sheet[at..at + size];
            bytes
                .iter()
                .rev()
                .fold(0, |number, &byte| number << 8 | u32::from(byte))
        };
        let step = |line| {
            let at = 512 * (1 + line / 31) + 16 * (line % 31);
            Step {
                kind: sheet[at],
                amount: sheet[at + 1],
                first: number(at + 2, 2) as u16,
                second: number(at + 4, 2) as u16,
                constant: number(at + 8, 4),
                difference: number(at + 12, 4),
            }
        };
        Program {
            width: sheet[4].into(),
            inputs: (0..usize::from(sheet[5]))
                .map(|word| number(8 + 4 * word, 4))
                .collect(),
            steps: (0..number(6, 2) as usize).map(step).collect(),
        }
    }

    /// The stated differences of all words, the inputs first.
    pub fn differences(&self) -> Vec<u32> {
        let stated = self.steps.iter().map(|step| step.difference);
        self.inputs.iter().copied().chain(stated).collect()
    }

    /// The lines that use a word, all lines gone through for it.
    pub fn users(&self, word: usize) -> Vec<u16> {
        (0..)
            .zip(&self.steps)
            .filter(|(_, step)| step.uses(word))
            .map(|(line, _)| line)
            .collect()
    }

    /// The index: for each word the number of its users, and the users.
    pub fn index(&self) -> Vec<u16> {
        let words = 0..self.inputs.len() + self.steps.len();
        words
            .flat_map(|word| {
                let users = self.users(word);
                [vec![users.len() as u16], users].concat()
            })
            .collect()
    }

    pub fn run(&self, start: &[u64]) -> Vec<u64> {
        let mut words = start.to_vec();
        for step in &self.steps {
            let result = step.result(&words, self.width);
            words.push(result);
        }
        words
    }

    pub fn two_runs(&self, start: &[u64]) -> [Vec<u64>; 2] {
        let other: Vec<u64> = start
            .iter()
            .zip(&self.inputs)
            .map(|(x, &difference)| x ^ u64::from(difference))
            .collect();
        [self.run(start), self.run(&other)]
    }

    /// The answer of the call for two runs.
    pub fn two_runs_answer(&self, start: &[u64]) -> [u64; 3] {
        let [first, second] = self.two_runs(start);
        let m = self.inputs.len();
        for (line, step) in self.steps.iter().enumerate() {
            for bit in 0..self.width {
                let difference = (first[m + line] ^ second[m + line]) >> bit & 1;
                if difference != u64::from(step.difference) >> bit & 1 {
                    return [0, line as u64, bit.into()];
                }
            }
        }
        [1, 0, 0]
    }

    pub fn follows(&self, start: &[u64]) -> bool {
        self.two_runs_answer(start)[0] == 1
    }

    pub fn variable_count(&self) -> usize {
        let width = self.width as usize;
        let with_carries = self.steps.iter().filter(|step| step.has_carries()).count();
        width * (self.inputs.len() + self.steps.len()) + 2 * (width - 1) * with_carries
    }

    /// The value of every variable, as the two runs from a start give it.
    pub fn assignment(&self, start: &[u64]) -> Vec<bool> {
        let runs = self.two_runs(start);
        let mut values = Vec::with_capacity(self.variable_count());
        for word in &runs[0] {
            values.extend((0..self.width).map(|bit| word >> bit & 1 == 1));
        }
        for step in self.steps.iter().filter(|step| step.has_carries()) {
            for words in &runs {
                values.extend((1..self.width).map(|bit| step.carry(words, bit)));
            }
        }
        values
    }

    /// The first line that XORs a word with itself.
    pub fn word_xored_with_itself(&self) -> Option<usize> {
        self.steps.iter().position(Step::xors_a_word_with_itself)
    }

    /// Whether a line repeats an earlier one.
    pub fn repeats(&self, line: usize) -> bool {
        self.steps[..line].contains(&self.steps[line])
    }

    /// The totals by the lines' reports, slow and plain.
    pub fn totals(&self, reports: &[Report]) -> [u64; 3] {
        let (mut impossible, mut weight, mut chains) = (0, 0, 0);
        for (line, report) in reports.iter().enumerate() {
            if *report == IMPOSSIBLE {
                impossible += 1;
            } else if !self.repeats(line) {
                weight += u64::from(report.weight);
                chains += u64::from(report.chains);
            }
        }
        [impossible, weight, chains]
    }

    /// Whether a line with weight or chains repeats an earlier one.
    pub fn has_costly_repeats(&self, reports: &[Report]) -> bool {
        (0..)
            .zip(reports)
            .any(|(line, report)| report.costs() && self.repeats(line))
    }

    /// States the differences that the two runs from a start have.
    pub fn state_differences_of(&mut self, start: &[u64]) {
        let [first, second] = self.two_runs(start);
        let m = self.inputs.len();
        for (line, step) in self.steps.iter_mut().enumerate() {
            step.difference = (first[m + line] ^ second[m + line]) as u32;
        }
    }

    /// Random words, as many as the program has inputs.
    pub fn random_start(&self, random: &mut Random) -> Vec<u64> {
        self.inputs
            .iter()
            .map(|_| random.bits(self.width).into())
            .collect()
    }
}

/// A random program of a given shape with all kinds in it, its differences
/// those of two runs from the start that comes with it.
///
/// A quarter of the lines are copies of earlier ones, and another quarter are
/// copies with one field changed. A whole copy makes the same word, and so it
/// states the same difference.
pub fn random_program(
    random: &mut Random,
    width: u32,
    inputs: usize,
    lines: usize,
) -> (Program, Vec<u64>) {
    let inputs = (0..inputs).map(|_| random.difference(width)).collect();
    let mut program = random_steps(random, width, inputs, lines);
    let start = program.random_start(random);
    program.state_differences_of(&start);
    (program, start)
}

/// Mostly short programs, and those at the blocks' edges.
pub fn random_lines(random: &mut Random) -> usize {
    match random.below(8) {
        0 => random.pick(&[1, 30, 31, 32, 61, 62, 63, 93, 217, 218, 247, 248]),
        1 => 1 + random.below(248),
        _ => 1 + random.below(20),
    }
}

/// A random program of any shape.
pub fn random_shape(random: &mut Random) -> (Program, Vec<u64>) {
    let width = 2 + random.below(31) as u32;
    let inputs = 1 + random.below(8);
    let lines = random_lines(random);
    random_program(random, width, inputs, lines)
}

/// A random program with these differences of its inputs, and with none stated.
pub fn random_steps(random: &mut Random, width: u32, inputs: Vec<u32>, lines: usize) -> Program {
    let mut program = Program {
        width,
        inputs,
        steps: Vec::new(),
    };
    for line in 0..lines {
        let words = program.inputs.len() + line;
        let step = match random.below(8) {
            0 | 1 if line > 0 => earlier_step(random, &program.steps),
            2 | 3 if line > 0 => near_copy(random, width, words, &program.steps),
            _ => random_step(random, width, words),
        };
        program.steps.push(step);
    }
    program
}

fn random_step(random: &mut Random, width: u32, words: usize) -> Step {
    let mut kind = 1 + random.below(9) as u8;
    if matches!(kind, 5 | 9) && words == 1 {
        // One word has no other to be added to it or subtracted from it.
        kind = 6;
    }
    let first = random.below(words) as u16;
    let mut second = random.below(words) as u16;
    while matches!(kind, 5 | 9) && second == first {
        second = random.below(words) as u16;
    }
    Step {
        kind,
        amount: if matches!(kind, 3 | 4 | 7 | 8) {
            1 + random.below(width as usize - 1) as u8
        } else {
            0
        },
        first,
        second: if matches!(kind, 1 | 5 | 9) { second } else { 0 },
        constant: if matches!(kind, 2 | 6) {
            random.difference(width)
        } else {
            0
        },
        difference: 0,
    }
}

/// One of the lines so far, rather one that adds or subtracts: those are the
/// lines that have a weight.
fn earlier_step(random: &mut Random, steps: &[Step]) -> Step {
    let (step, other) = (random.pick(steps), random.pick(steps));
    if step.has_carries() {
        step
    } else {
        other
    }
}

/// The copy of an earlier line with one field drawn anew, or with its operands
/// exchanged. Where that gives the same line, or one that would be refused, it is
/// a whole copy.
fn near_copy(random: &mut Random, width: u32, words: usize, steps: &[Step]) -> Step {
    let copy = earlier_step(random, steps);
    let mut near = copy;
    match (random.below(4), copy.kind) {
        (0, 1 | 5 | 9) => near.kind = random.pick(&[1, 5, 9]),
        (0, 2 | 6) => near.kind = random.pick(&[2, 6]),
        (0, _) => near.kind = random.pick(&[3, 4, 7, 8]),
        (1, _) => near.first = random.below(words) as u16,
        (2, 1 | 5 | 9) => near.second = random.below(words) as u16,
        (_, 1 | 5 | 9) => (near.first, near.second) = (copy.second, copy.first),
        (_, 2 | 6) => near.constant ^= 1 << random.below(width as usize),
        _ => near.amount = 1 + random.below(width as usize - 1) as u8,
    }
    if matches!(near.kind, 5 | 9) && near.first == near.second {
        copy
    } else {
        near
    }
}

/// Puts other differences in place of some of the stated ones. A copy, be it of
/// another kind, mostly states what the line states that it copies: so there are
/// copies of impossible lines, and lines apart in their kinds alone.
pub fn disturb(random: &mut Random, program: &mut Program) {
    let width = program.width;
    for line in 0..program.steps.len() {
        let (earlier, later) = program.steps.split_at_mut(line);
        let step = &mut later[0];
        match random.below(4) {
            0 => step.difference = random.difference(width),
            1 => step.difference ^= 1 << random.below(width as usize),
            _ => {
                let copied = earlier.iter().find(|other| {
                    let mut copy = **other;
                    (copy.kind, copy.difference) = (step.kind, step.difference);
                    copy == *step
                });
                if let Some(copied) = copied {
                    step.difference = copied.difference;
                }
            }
        }
    }
}

/// Writes a sheet to a file if a test on it fails, to look into it.
pub struct KeptOnFailure<'a>(pub &'a [u8]);

impl Drop for KeptOnFailure<'_> {
    fn drop(&mut self) {
        if std::thread::panicking() {
            let thread = std::thread::current();
            let test = thread.name().and_then(|name| name.split("::").last());
            let name = format!("failed-{}.sheet", test.unwrap_or("test"));
            let path = Path::new(env!("CARGO_TARGET_TMPDIR")).join(name);
            if std::fs::write(&path, self.0).is_ok() {
                eprintln!("the sheet is in {}", path.display());
            }
        }
    }
}

/// Where a line's record starts.
pub fn record(line: usize) -> usize {
    512 * (1 + line / 31) + 16 * (line % 31)
}

/// Document 01's example sheet, byte by byte.
pub fn example() -> Vec<u8> {
    let mut bytes = vec![0; 1024];
    bytes[..9].copy_from_slice(&[0x41, 0x52, 0x58, 0x54, 2, 1, 1, 0, 1]);
    bytes[508..512].copy_from_slice(&[0x44, 0x53, 0x59, 0x54]);
    bytes[512] = 6;
    bytes[520..528].copy_from_slice(&[1, 0, 0, 0, 3, 0, 0, 0]);
    bytes[1020..].copy_from_slice(&[0x0b, 0, 0, 0]);
    bytes
}

/// The sheet of these lines with right checks, whether or not it can be sealed.
pub fn sheet_of(width: u8, inputs: &[u32], lines: &[Line]) -> Vec<u8> {
    let mut sheet = SheetBuilder::new(width, inputs);
    for line in lines {
        sheet.line(*line);
    }
    let mut bytes = sheet.unsealed();
    write_checks(&mut bytes);
    bytes
}

/// Writes the checks of all whole blocks, whatever is in them.
pub fn write_checks(bytes: &mut [u8]) {
    for (index, block) in bytes.chunks_exact_mut(512).enumerate() {
        let mut sum = index as u64;
        for number in block[..508].chunks(4) {
            sum += u64::from(u32::from_le_bytes(number.try_into().unwrap()));
        }
        block[508..].copy_from_slice(&(sum as u32).to_le_bytes());
    }
}

/// Steele, Lea and Flood's SplitMix64: small, and the same on every machine.
pub struct Random(u64);

impl Random {
    pub fn new(seed: u64) -> Random {
        Random(seed)
    }

    pub fn next(&mut self) -> u64 {
        self.0 = self.0.wrapping_add(0x9e37_79b9_7f4a_7c15);
        let mut z = self.0;
        z = (z ^ (z >> 30)).wrapping_mul(0xbf58_476d_1ce4_e5b9);
        z = (z ^ (z >> 27)).wrapping_mul(0x94d0_49bb_1331_11eb);
        z ^ (z >> 31)
    }

    pub fn below(&mut self, bound: usize) -> usize {
        (self.next() % bound as u64) as usize
    }

    pub fn one_in(&mut self, many: usize) -> bool {
        self.below(many) == 0
    }

    /// A word of `width` bits.
    pub fn bits(&mut self, width: u32) -> u32 {
        (self.next() >> 32) as u32 >> (32 - width)
    }

    /// A word of `width` bits as differences and constants are: often with few
    /// ones, so that there are long quiet stretches, at times 0, the top bit or
    /// all ones.
    pub fn difference(&mut self, width: u32) -> u32 {
        let all = u32::MAX >> (32 - width);
        match self.below(12) {
            0 => 0,
            1 => all,
            2 => 1 << (width - 1),
            3..=5 => 1 << self.below(width as usize),
            6..=8 => self.bits(width) & self.bits(width) & self.bits(width),
            9 => all >> self.below(width as usize),
            _ => self.bits(width),
        }
    }

    pub fn pick<T: Copy>(&mut self, from: &[T]) -> T {
        from[self.below(from.len())]
    }
}
