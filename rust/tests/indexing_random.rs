//! The indexes of random sheets, good and bad, against going through all lines for each
//! word; and changes that are lent index and report, against the plain model.

mod common;

use common::changing::{random_change, Change};
use common::damage::damage_a_field;
use common::indexing::{changed_indexed, indexed, random_room_of_index, spoil, Kept};
use common::sealing::random_sheet_to_seal;
use common::{
    disturb, implementations, random_lines, random_program, random_shape, write_checks,
    KeptOnFailure, Program, Random, REFERENCE,
};
use tablegull::Refusal;

/// How often each number was the refusal; 0 is for what was accepted.
type ByNumber = [usize; 27];

fn count<T>(by_number: &mut ByNumber, outcome: &Result<T, Refusal>) {
    let number = outcome
        .as_ref()
        .map_or_else(|refusal| refusal.number, |_| 0);
    by_number[number as usize] += 1;
}

/// What is lent to a change of an accepted sheet: mostly its own.
fn random_kept(random: &mut Random, sheet: &[u8]) -> Kept {
    let mut kept = Kept::of(sheet);
    if random.one_in(4) {
        spoil(random, &mut kept);
    }
    kept
}

/// What the calls on accepted sheets came to.
#[derive(Debug, Default)]
struct Met {
    indexes: ByNumber,
    changes: ByNumber,
    /// By the number of a changed line's users; the last is for more.
    users: [usize; 5],
    /// How many lines that were not changed had another report; the last is for more.
    others: [usize; 4],
    /// Words by the number of their users; the last is for more.
    words: [usize; 5],
    /// A line names a word twice.
    twice: usize,
    /// Not the sheet's own: the index, the report, both.
    spoiled: [usize; 3],
    /// The same with lengths that are right.
    spoiled_at_length: [usize; 3],
    /// By whether there is no such line, whether the difference does not fit, and both:
    /// refused by 26.
    first_26: [usize; 3],
}

impl Met {
    fn count_program(&mut self, program: &Program) {
        for word in 0..program.inputs.len() + program.steps.len() {
            self.words[program.users(word).len().min(4)] += 1;
        }
        self.twice += usize::from(program.word_xored_with_itself().is_some());
    }

    fn count_lent(&mut self, own: &Kept, lent: &Kept) {
        let count = |counts: &mut [usize; 3], index: bool, report: bool| match (index, report) {
            (false, false) => {}
            (true, false) => counts[0] += 1,
            (false, true) => counts[1] += 1,
            (true, true) => counts[2] += 1,
        };
        let (index, report) = (lent.index != own.index, lent.report != own.report);
        count(&mut self.spoiled, index, report);
        let lengths = [lent.index.len(), lent.report.len()];
        if lengths == [own.index.len(), own.report.len()] {
            count(&mut self.spoiled_at_length, index, report);
        }
    }

    fn count_faults(&mut self, program: &Program, change: Change) {
        let faults = [
            change.line >= program.steps.len(),
            change.difference >= 1 << program.width,
        ];
        match faults {
            [false, false] => {}
            [true, false] => self.first_26[0] += 1,
            [false, true] => self.first_26[1] += 1,
            [true, true] => self.first_26[2] += 1,
        }
    }

    fn count_change(&mut self, program: &Program, line: usize, before: &[u8], after: &[u8]) {
        let users = program.users(program.inputs.len() + line);
        self.users[users.len().min(4)] += 1;
        let lines = before.chunks(16).zip(after.chunks(16)).enumerate();
        let others = lines.filter(|(other, (before, after))| *other != line && before != after);
        self.others[others.count().min(3)] += 1;
    }
}

/// Asks for the indexes of accepted sheets and changes them, as many of each width as
/// of every other.
fn take_accepted_sheets(random: &mut Random, sheets: usize) -> Met {
    let mut met = Met::default();
    for width in (2..=32).cycle().take(sheets) {
        let (inputs, lines) = (1 + random.below(8), random_lines(random));
        let (mut program, _) = random_program(random, width, inputs, lines);
        if random.one_in(2) {
            disturb(random, &mut program);
        }
        let sheet = program.sheet();
        let _kept = KeptOnFailure(&sheet);
        met.count_program(&program);
        let own = Kept::of(&sheet);
        let room = random_room_of_index(random, own.index.len());
        count(&mut met.indexes, &indexed(&sheet, room));

        let lent = random_kept(random, &sheet);
        met.count_lent(&own, &lent);
        let change = random_change(random, width, lines);
        let outcome = changed_indexed(&sheet, &lent, change);
        count(&mut met.changes, &outcome);
        match outcome {
            Ok(changed) => {
                met.count_change(&program, change.line, &own.report, &changed.report);
            }
            Err(Refusal { number: 26, .. }) => met.count_faults(&program, change),
            Err(_) => {}
        }
    }
    met
}

#[test]
fn accepted_sheets_at_all_widths() {
    let sheets = 31 * 1000;
    let met = take_accepted_sheets(&mut Random::new(440), sheets);
    for number in [0, 18] {
        assert!(10 * met.indexes[number] > sheets, "{number}: {met:?}");
    }
    for number in [0, 14, 17, 26] {
        assert!(20 * met.changes[number] > sheets, "{number}: {met:?}");
    }
    for times in met.users.into_iter().chain(met.others) {
        assert!(100 * times > sheets, "{met:?}");
    }
    assert!(met.words.iter().all(|&words| words > sheets), "{met:?}");
    assert!(10 * met.twice > sheets, "{met:?}");
    for times in met.spoiled {
        assert!(50 * times > sheets, "{met:?}");
    }
    for times in met.spoiled_at_length.into_iter().chain(met.first_26) {
        assert!(times > 50, "{met:?}");
    }
}

/// The same with damaged fields, mostly with checks that are right. What is lent is the
/// own of the sheet as it was, or is not. Sheets that reading refuses are told apart
/// from those that it accepts.
fn take_damaged_sheets(random: &mut Random, sheets: usize) -> [[ByNumber; 2]; 2] {
    let mut met = [[[0; 27]; 2]; 2];
    for _ in 0..sheets {
        let (program, _) = random_shape(random);
        let mut bytes = program.sheet();
        let lent = random_kept(random, &bytes);
        let room = random_room_of_index(random, program.index().len());
        for _ in 0..1 + random.below(3) {
            damage_a_field(random, &mut bytes);
        }
        if random.one_in(32) {
            let length = bytes.len();
            bytes.resize(random.pick(&[0, 512, length - 1, length + 512, 5120]), 0);
        }
        if !random.one_in(6) {
            write_checks(&mut bytes);
        }
        let _kept = KeptOnFailure(&bytes);
        let change = random_change(random, program.width, program.steps.len());
        let is_read = usize::from((REFERENCE.read)(&bytes).is_ok());
        let [indexes, changes] = &mut met[is_read];
        count(indexes, &indexed(&bytes, room));
        count(changes, &changed_indexed(&bytes, &lent, change));
    }
    met
}

#[test]
fn damaged_sheets() {
    let [refused, read] = take_damaged_sheets(&mut Random::new(441), 50_000);
    for refused in &refused {
        assert!(
            refused[1..=16].iter().all(|&times| times > 20),
            "{refused:?}"
        );
    }
    // Some damage leaves a sheet that can be read, at times with the index and the
    // report that it had.
    let [indexes, changes] = &read;
    assert!(indexes[0] > 20 && indexes[18] > 20, "{indexes:?}");
    for number in [0, 14, 17, 26] {
        assert!(changes[number] > 20, "{number}: {changes:?}");
    }
}

/// The same with sheets, sealed or not, that mostly have a word XORed with itself: a
/// user that is counted once. Answers how many of these were accepted.
fn take_sheets_to_seal(random: &mut Random, sheets: usize) -> usize {
    let mut accepted = 0;
    for _ in 0..sheets {
        let bytes = random_sheet_to_seal(random);
        let _kept = KeptOnFailure(&bytes);
        if (REFERENCE.read)(&bytes).is_err() {
            let none = Kept {
                index: Vec::new(),
                report: Vec::new(),
            };
            let change = random_change(random, 8, 20);
            indexed(&bytes, random.below(100)).unwrap_err();
            changed_indexed(&bytes, &none, change).unwrap_err();
            continue;
        }
        let program = Program::parse(&bytes);
        let room = random_room_of_index(random, program.index().len());
        indexed(&bytes, room).ok();
        let lent = random_kept(random, &bytes);
        let change = random_change(random, program.width, program.steps.len());
        let outcome = changed_indexed(&bytes, &lent, change);
        if program.word_xored_with_itself().is_none() {
            continue;
        }
        accepted += 1;
        let after = outcome.as_ref().map_or(&bytes, |changed| &changed.sheet);
        for calls in implementations() {
            assert_eq!(calls.sealed(after), calls.sealed(&bytes), "{}", calls.name);
        }
    }
    accepted
}

#[test]
fn words_xored_with_themselves() {
    let accepted = take_sheets_to_seal(&mut Random::new(442), 20_000);
    assert!(accepted > 2000, "{accepted}");
}

/// What lists of changes came to.
#[derive(Debug, Default)]
struct Lists {
    changes: ByNumber,
    /// Of calls that come right after a plain change.
    after_plain: ByNumber,
}

/// Makes lists of 100 changes, each lent what the one before it has left. After each
/// one, refused or not, index and report are those made afresh, and the index is the
/// one that there was at first.
fn make_lists(random: &mut Random, lists: usize) -> Lists {
    let mut met = Lists::default();
    for _ in 0..lists {
        let (mut program, _) = random_shape(random);
        if random.one_in(2) {
            disturb(random, &mut program);
        }
        let (width, lines) = (program.width, program.steps.len());
        let mut sheet = program.sheet();
        let first = sheet.clone();
        let _kept = KeptOnFailure(&first);
        let mut kept = Kept::of(&sheet);
        let index = kept.index.clone();
        for _ in 0..100 {
            let change = random_change(random, width, lines);
            let outcome = changed_indexed(&sheet, &kept, change);
            count(&mut met.changes, &outcome);
            if let Ok(changed) = outcome {
                (sheet, kept.report) = (changed.sheet, changed.report);
            }
            assert!(kept == Kept::of(&sheet) && kept.index == index);
        }
    }
    met
}

/// The same with plain changes in between: after these the report is another sheet's,
/// unless it is the same bytes, and is made afresh.
fn make_lists_with_plain_changes(random: &mut Random, lists: usize) -> Lists {
    let mut met = Lists::default();
    for _ in 0..lists {
        let (program, _) = random_shape(random);
        let (width, lines) = (program.width, program.steps.len());
        let mut sheet = program.sheet();
        let first = sheet.clone();
        let _kept = KeptOnFailure(&first);
        let mut kept = Kept::of(&sheet);
        for _ in 0..100 {
            let change = random_change(random, width, lines);
            if random.one_in(4) {
                let plain = random_change(random, width, lines);
                sheet = plain.outcome(&sheet).unwrap_or(sheet);
                let outcome = changed_indexed(&sheet, &kept, change);
                count(&mut met.after_plain, &outcome);
                let is_own = kept == Kept::of(&sheet);
                let is_26 = outcome.is_err_and(|refusal| refusal.number == 26);
                assert_ne!(is_own, is_26, "{plain:?}");
                kept = Kept::of(&sheet);
            }
            let outcome = changed_indexed(&sheet, &kept, change);
            count(&mut met.changes, &outcome);
            if let Ok(changed) = outcome {
                (sheet, kept.report) = (changed.sheet, changed.report);
            }
        }
    }
    met
}

#[test]
fn lists_of_a_hundred_changes() {
    let lists = 1000;
    let met = make_lists(&mut Random::new(443), lists);
    for number in [0, 14, 17] {
        assert!(met.changes[number] > 5 * lists, "{number}: {met:?}");
    }
    assert_eq!(met.changes[26], 0);
}

#[test]
fn lists_with_plain_changes_in_between() {
    let lists = 500;
    let met = make_lists_with_plain_changes(&mut Random::new(444), lists);
    for number in [0, 14, 17] {
        assert!(met.changes[number] > 5 * lists, "{number}: {met:?}");
    }
    assert_eq!(met.changes[26], 0);
    for number in [0, 14, 17, 26] {
        assert!(met.after_plain[number] > lists, "{number}: {met:?}");
    }
}

#[test]
#[ignore = "a longer run of the tests above"]
fn a_million_random_sheets_and_changes() {
    take_accepted_sheets(&mut Random::new(445), 31 * 10_000);
    take_damaged_sheets(&mut Random::new(446), 400_000);
    take_sheets_to_seal(&mut Random::new(447), 200_000);
    make_lists(&mut Random::new(448), 2000);
    make_lists_with_plain_changes(&mut Random::new(449), 1000);
}

/// On small sheets every change, each with every number of the index and every byte of
/// the report wrong, and with every shorter one.
#[test]
fn every_change_of_small_sheets() {
    let mut random = Random::new(450);
    for _ in 0..40 {
        let (inputs, lines) = (1 + random.below(2), 1 + random.below(3));
        let (mut program, _) = random_program(&mut random, 2, inputs, lines);
        if random.one_in(2) {
            disturb(&mut random, &mut program);
        }
        let sheet = program.sheet();
        let _kept = KeptOnFailure(&sheet);
        let own = Kept::of(&sheet);
        for room in 0..own.index.len() + 3 {
            indexed(&sheet, room).ok();
        }
        let changes =
            (0..=lines).flat_map(|line| (0..=4).map(move |difference| Change { line, difference }));
        for change in changes {
            changed_indexed(&sheet, &own, change).ok();
            for at in 0..own.index.len() {
                let mut lent = own.clone();
                lent.index[at] ^= 1 << random.below(16);
                changed_indexed(&sheet, &lent, change).unwrap_err();
                lent.index.truncate(at);
                changed_indexed(&sheet, &lent, change).unwrap_err();
            }
            for at in 0..own.report.len() {
                let mut lent = own.clone();
                lent.report[at] ^= 1 << random.below(8);
                changed_indexed(&sheet, &lent, change).unwrap_err();
                lent.report.truncate(at);
                changed_indexed(&sheet, &lent, change).unwrap_err();
            }
        }
    }
}

/// The length is m + L and the uses, and so from m + 2 L to m + 3 L.
#[test]
fn lengths_of_indexes() {
    let mut random = Random::new(451);
    for _ in 0..5000 {
        let (program, _) = random_shape(&mut random);
        let sheet = program.sheet();
        let _kept = KeptOnFailure(&sheet);
        let (m, lines) = (program.inputs.len(), program.steps.len());
        let uses = program.steps.iter().map(|step| {
            let has_two = matches!(step.kind, 1 | 5 | 9);
            1 + usize::from(has_two && step.first != step.second)
        });
        let length = m + lines + uses.sum::<usize>();
        assert!((m + 2 * lines..=m + 3 * lines).contains(&length));
        for calls in implementations() {
            let mut out = [0; 752];
            assert_eq!(
                (calls.index)(&sheet, &mut out),
                Ok(length),
                "{}",
                calls.name
            );
        }
        indexed(&sheet, length).unwrap();
        indexed(&sheet, length - 1).unwrap_err();
    }
}

/// No report is other after a change but the line's own and those of its word's users,
/// by the calls for a report and for a plain change.
#[test]
fn all_other_reports_are_the_same_bytes() {
    let mut random = Random::new(452);
    for _ in 0..5000 {
        let (mut program, _) = random_shape(&mut random);
        if random.one_in(2) {
            disturb(&mut random, &mut program);
        }
        let sheet = program.sheet();
        let _kept = KeptOnFailure(&sheet);
        let line = random.below(program.steps.len());
        let difference = random.difference(program.width).into();
        let users = program.users(program.inputs.len() + line);
        for calls in implementations() {
            let after = calls.changed(&sheet, Change { line, difference }).unwrap();
            let reports = calls.reports(&sheet).into_iter().zip(calls.reports(&after));
            for (other, (before, after)) in (0..).zip(reports) {
                let may_change = usize::from(other) == line || users.contains(&other);
                assert!(may_change || before == after, "{}: {other}", calls.name);
            }
        }
    }
}
