//! Changes of random sheets, good and bad, and trials of them, against the plain
//! model.

mod common;

use common::changing::{changed, difference_past, random_change, random_room, tried, Change};
use common::damage::damage_a_field;
use common::sealing::random_sheet_to_seal;
use common::{
    disturb, implementations, random_lines, random_program, random_shape, write_checks,
    KeptOnFailure, Program, Random, Report, IMPOSSIBLE, REFERENCE,
};
use tablegull::Refusal;

/// How often each number was the refusal; 0 is for what was changed or tried.
type ByNumber = [usize; 19];

fn count<T>(by_number: &mut ByNumber, outcome: &Result<T, Refusal>) {
    let number = outcome
        .as_ref()
        .map_or_else(|refusal| refusal.number, |_| 0);
    by_number[number as usize] += 1;
}

/// What changes of accepted sheets came to.
#[derive(Debug, Default)]
struct Met {
    changes: ByNumber,
    trials: ByNumber,
    /// By the changed line's width, from 2 on, and kind.
    kinds: [[usize; 10]; 31],
    /// By whether the changed line was impossible before, and is afterwards.
    impossible: [[usize; 2]; 2],
    /// How many other lines had another report afterwards; the last is for more.
    others: [usize; 4],
    /// The sheet stayed as it was.
    same: usize,
}

impl Met {
    fn count_change(&mut self, program: &Program, line: usize, before: &[u8], after: &[u8]) {
        let kind = usize::from(program.steps[line].kind);
        self.kinds[program.width as usize - 2][kind] += 1;
        self.same += usize::from(before == after);
        let (before, after) = (REFERENCE.reports(before), REFERENCE.reports(after));
        let is_impossible = |reports: &[Report]| usize::from(reports[line] == IMPOSSIBLE);
        self.impossible[is_impossible(&before)][is_impossible(&after)] += 1;
        let others =
            (0..before.len()).filter(|&other| other != line && before[other] != after[other]);
        self.others[others.count().min(3)] += 1;
    }
}

/// A random difference, that which the line states, one of a bit more or less, or
/// that which two runs from a start give the line.
fn random_difference(
    random: &mut Random,
    program: &Program,
    in_runs: &Program,
    line: usize,
) -> u64 {
    let stated = program.steps[line].difference;
    match random.below(6) {
        0 => stated.into(),
        1 => u64::from(stated ^ 1 << random.below(program.width as usize)),
        2 | 3 => in_runs.steps[line].difference.into(),
        _ => random.difference(program.width).into(),
    }
}

/// Changes accepted sheets, as many of each width as of every other.
fn change_accepted_sheets(random: &mut Random, sheets: usize) -> Met {
    let mut met = Met::default();
    for width in (2..=32).cycle().take(sheets) {
        let (inputs, lines) = (1 + random.below(8), random_lines(random));
        let (in_runs, _) = random_program(random, width, inputs, lines);
        let mut program = in_runs.clone();
        if random.one_in(2) {
            disturb(random, &mut program);
        }
        let mut change = random_change(random, width, lines);
        if change.line < lines && random.one_in(2) {
            change.difference = random_difference(random, &program, &in_runs, change.line);
        }
        let sheet = program.sheet();
        let _kept = KeptOnFailure(&sheet);
        let outcome = changed(&sheet, change);
        count(&mut met.changes, &outcome);
        if let Ok(after) = outcome {
            met.count_change(&program, change.line, &sheet, &after);
        }
        let room = random_room(random, lines);
        count(&mut met.trials, &tried(&sheet, change, room));
    }
    met
}

#[test]
fn accepted_sheets_at_all_widths() {
    let sheets = 31 * 1500;
    let met = change_accepted_sheets(&mut Random::new(420), sheets);
    for number in [0, 14, 17] {
        assert!(20 * met.changes[number] > sheets, "{number}: {met:?}");
        assert!(20 * met.trials[number] > sheets, "{number}: {met:?}");
    }
    assert!(20 * met.trials[18] > sheets, "{met:?}");
    for kinds in &met.kinds {
        assert!(kinds[1..].iter().all(|&times| times > 20), "{met:?}");
    }
    for times in met.impossible.iter().flatten() {
        assert!(50 * times > sheets, "{met:?}");
    }
    for times in met.others {
        assert!(50 * times > sheets, "{met:?}");
    }
    assert!(50 * met.same > sheets, "{met:?}");
}

/// Changes sheets with damaged fields, mostly with checks that are right. Of what
/// was tried, sheets that reading refuses are told apart from those that it accepts.
fn change_damaged_sheets(random: &mut Random, sheets: usize) -> [ByNumber; 2] {
    let mut met = [[0; 19]; 2];
    for _ in 0..sheets {
        let (program, _) = random_shape(random);
        let mut bytes = program.sheet();
        for _ in 0..1 + random.below(3) {
            damage_a_field(random, &mut bytes);
        }
        if random.one_in(32) {
            let length = bytes.len();
            bytes.resize(random.pick(&[0, 512, length - 1, length + 512, 5120]), 0);
        }
        if !random.one_in(6) {
            write_checks(&mut bytes);
        }
        let _kept = KeptOnFailure(&bytes);
        let lines = program.steps.len();
        let change = random_change(random, program.width, lines);
        let room = random_room(random, lines);
        let is_read = usize::from((REFERENCE.read)(&bytes).is_ok());
        changed(&bytes, change).ok();
        count(&mut met[is_read], &tried(&bytes, change, room));
    }
    met
}

#[test]
fn damaged_sheets() {
    let [refused, read] = change_damaged_sheets(&mut Random::new(421), 60_000);
    assert!(
        refused[1..=16].iter().all(|&times| times > 20),
        "{refused:?}"
    );
    // Some damage leaves a sheet that can be read.
    for number in [0, 14, 17, 18] {
        assert!(read[number] > 20, "{number}: {read:?}");
    }
}

/// Changes sheets, sealed or not, that mostly have a word XORed with itself: to be
/// changed is not to be sealed. Answers how many of these were accepted.
fn change_sheets_to_seal(random: &mut Random, sheets: usize) -> usize {
    let mut accepted = 0;
    for _ in 0..sheets {
        let bytes = random_sheet_to_seal(random);
        let _kept = KeptOnFailure(&bytes);
        let program = (REFERENCE.read)(&bytes).map(|_| Program::parse(&bytes));
        let (width, lines) = match &program {
            Ok(program) => (program.width, program.steps.len()),
            Err(_) => (8, 20),
        };
        let change = random_change(random, width, lines);
        let room = random_room(random, lines);
        let outcome = changed(&bytes, change);
        tried(&bytes, change, room).ok();
        let Ok(program) = program else { continue };
        if program.word_xored_with_itself().is_none() {
            continue;
        }
        accepted += 1;
        for calls in implementations() {
            let after = outcome.as_ref().unwrap_or(&bytes);
            assert_eq!(calls.sealed(after), calls.sealed(&bytes), "{}", calls.name);
        }
    }
    accepted
}

#[test]
fn words_xored_with_themselves() {
    let accepted = change_sheets_to_seal(&mut Random::new(422), 30_000);
    assert!(accepted > 3000, "{accepted}");
}

#[test]
#[ignore = "a longer run of the tests above"]
fn a_million_random_sheets() {
    change_accepted_sheets(&mut Random::new(423), 31 * 10_000);
    change_damaged_sheets(&mut Random::new(424), 400_000);
    change_sheets_to_seal(&mut Random::new(425), 300_000);
}

#[test]
fn every_change_of_small_sheets() {
    let mut random = Random::new(426);
    for _ in 0..1000 {
        let width = random.pick(&[2, 2, 3]);
        let (inputs, lines) = (1 + random.below(3), 1 + random.below(6));
        let (mut program, _) = random_program(&mut random, width, inputs, lines);
        if random.one_in(3) {
            disturb(&mut random, &mut program);
        }
        let sheet = program.sheet();
        let _kept = KeptOnFailure(&sheet);
        for line in 0..=lines {
            for difference in 0..2 + (1 << width) {
                let change = Change { line, difference };
                changed(&sheet, change).ok();
                tried(&sheet, change, 16 * lines).ok();
            }
        }
    }
}

/// Each change is made on the sheet that the one before has left. In the end all
/// are taken back.
#[test]
fn many_changes_of_one_sheet() {
    let mut random = Random::new(427);
    for _ in 0..1500 {
        let (program, _) = random_shape(&mut random);
        let (width, lines) = (program.width, program.steps.len());
        let first = program.sheet();
        let _kept = KeptOnFailure(&first);
        let mut sheet = first.clone();
        for _ in 0..1 + random.below(20) {
            let mut change = random_change(&mut random, width, lines);
            if random.one_in(4) {
                change.difference = difference_past(&mut random, width);
            }
            sheet = changed(&sheet, change).unwrap_or(sheet);
        }
        for (line, step) in program.steps.iter().enumerate() {
            let difference = step.difference.into();
            sheet = changed(&sheet, Change { line, difference }).unwrap();
        }
        assert!(sheet == first);
    }
}
