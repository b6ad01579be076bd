//! Totals against the plain model, on random sheets with repeated lines.

mod common;

use common::{disturb, implementations, random_program, Random, Step, IMPOSSIBLE, REFERENCE};

/// Changes a line so that it is the other one, if they are apart in this alone.
type Change = fn(&mut Step, &Step);

/// What tells lines apart that cost something.
const CHANGES: [(&str, Change); 6] = [
    ("kind", |a, b| a.kind = b.kind),
    ("first operand", |a, b| a.first = b.first),
    ("second operand", |a, b| a.second = b.second),
    ("operands exchanged", |a, _| {
        std::mem::swap(&mut a.first, &mut a.second)
    }),
    ("constant", |a, b| a.constant = b.constant),
    ("stated difference", |a, b| a.difference = b.difference),
];

/// Whether some two of the lines are apart in this alone.
fn has_pair_apart_in(change: Change, lines: &[Step]) -> bool {
    lines.iter().enumerate().any(|(at, b)| {
        lines[..at].iter().any(|a| {
            let mut changed = *a;
            change(&mut changed, b);
            a != b && changed == *b
        })
    })
}

#[test]
fn totals_of_random_sheets() {
    let mut random = Random::new(13);
    let (mut with_costly_repeats, mut with_impossible_repeats) = (0, 0);
    let mut with_pairs_apart = [0; CHANGES.len()];
    let sheets = 4000;
    for _ in 0..sheets {
        let width = 2 + random.below(31) as u32;
        let (inputs, lines) = (1 + random.below(8), 1 + random.below(40));
        let (mut program, _) = random_program(&mut random, width, inputs, lines);
        if random.one_in(2) {
            disturb(&mut random, &mut program);
        }
        let sheet = program.sheet();
        for calls in implementations() {
            let expected = program.totals(&calls.reports(&sheet));
            let answer = calls.sheet_totals(&sheet);
            assert_eq!(answer, expected, "{}: {program:?}", calls.name);
        }

        let reports = REFERENCE.reports(&sheet);
        with_costly_repeats += usize::from(program.has_costly_repeats(&reports));
        let impossible_repeat = |line| reports[line] == IMPOSSIBLE && program.repeats(line);
        with_impossible_repeats += usize::from((0..lines).any(impossible_repeat));
        let costly: Vec<Step> = (0..lines)
            .filter(|&line| reports[line].costs())
            .map(|line| program.steps[line])
            .collect();
        for (count, (_, change)) in with_pairs_apart.iter_mut().zip(CHANGES) {
            *count += usize::from(has_pair_apart_in(change, &costly));
        }
    }
    // What the totals turn on has been met, and often.
    assert!(3 * with_costly_repeats > sheets, "{with_costly_repeats}");
    assert!(
        4 * with_impossible_repeats > sheets,
        "{with_impossible_repeats}"
    );
    for (count, (apart, _)) in with_pairs_apart.iter().zip(CHANGES) {
        assert!(*count > 50, "{apart}: {count}");
    }
}
