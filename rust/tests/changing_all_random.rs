//! Lists of changes of random sheets, good and bad, against the plain model and
//! against the call for one change.

mod common;

use common::changing::random_change;
use common::changing_all::{changed_all, random_list, random_room_of_replies, Changed};
use common::damage::damage_a_field;
use common::sealing::random_sheet_to_seal;
use common::{
    disturb, implementations, random_lines, random_program, random_shape, write_checks,
    KeptOnFailure, Program, Random, REFERENCE,
};
use tablegull::Refusal;

/// How often each number was the refusal; 0 is for what was accepted.
type ByNumber = [usize; 26];

fn count(by_number: &mut ByNumber, outcome: &Result<Changed, Refusal>) {
    let number = outcome
        .as_ref()
        .map_or_else(|refusal| refusal.number, |_| 0);
    by_number[number as usize] += 1;
}

/// A pair of a list, and the reply to it.
#[derive(Clone, Copy)]
struct Replied {
    line: u64,
    difference: u64,
    reply: u8,
}

/// What lists of changes of accepted sheets came to.
#[derive(Debug, Default)]
struct Met {
    lists: ByNumber,
    /// By the reply.
    replies: [usize; 18],
    /// By the number of pairs, of lists that were accepted.
    pairs: Vec<usize>,
    /// The list had a number that is no pair.
    odd: usize,
    /// By whether the first, the last or one between them was refused, and others not.
    refused_at: [usize; 3],
    all_refused: usize,
    /// Two pairs that were applied had one line, and different differences.
    one_wins: usize,
    /// A pair was applied and a later one refused, both of one line.
    one_stays: usize,
    /// There were replies, and the buffer had more room.
    rest: usize,
    /// Pairs were applied, and the sheet is as it was.
    same: usize,
}

impl Met {
    fn new() -> Met {
        Met {
            pairs: vec![0; 65],
            ..Met::default()
        }
    }

    fn count_list(&mut self, before: &[u8], list: &[u64], room: usize, changed: &Changed) {
        let replies = &changed.replies;
        for &reply in replies {
            self.replies[usize::from(reply)] += 1;
        }
        self.pairs[replies.len()] += 1;
        self.odd += list.len() % 2;
        self.rest += usize::from(!replies.is_empty() && room > replies.len());
        let Some((last, but_last)) = replies.split_last() else {
            return;
        };
        if replies.iter().all(|&reply| reply != 0) {
            self.all_refused += 1;
            return;
        }
        self.refused_at[0] += usize::from(replies[0] != 0);
        self.refused_at[1] += usize::from(*last != 0);
        let mut between = but_last.iter().skip(1);
        self.refused_at[2] += usize::from(between.any(|&reply| reply != 0));
        let pairs = list.chunks_exact(2).zip(replies);
        let pairs: Vec<Replied> = pairs
            .map(|(pair, &reply)| Replied {
                line: pair[0],
                difference: pair[1],
                reply,
            })
            .collect();
        let on_one_line = |wanted: fn(Replied, Replied) -> bool| {
            let met = (0..pairs.len()).any(|later| {
                let (pair, mut earlier) = (pairs[later], pairs[..later].iter());
                earlier.any(|&one| one.line == pair.line && wanted(one, pair))
            });
            usize::from(met)
        };
        self.one_wins += on_one_line(|one, later| {
            (one.reply, later.reply) == (0, 0) && one.difference != later.difference
        });
        self.one_stays += on_one_line(|one, later| (one.reply, later.reply) == (0, 14));
        self.same += usize::from(changed.sheet == before);
    }
}

/// Changes accepted sheets, as many of each width as of every other.
fn change_accepted_sheets(random: &mut Random, sheets: usize) -> Met {
    let mut met = Met::new();
    for width in (2..=32).cycle().take(sheets) {
        let (inputs, lines) = (1 + random.below(8), random_lines(random));
        let (mut program, _) = random_program(random, width, inputs, lines);
        if random.one_in(2) {
            disturb(random, &mut program);
        }
        let list = random_list(random, width, lines);
        let room = random_room_of_replies(random, list.len() / 2);
        let sheet = program.sheet();
        let _kept = KeptOnFailure(&sheet);
        let outcome = changed_all(&sheet, &list, room);
        count(&mut met.lists, &outcome);
        if let Ok(changed) = outcome {
            met.count_list(&sheet, &list, room, &changed);
        }
    }
    met
}

#[test]
fn accepted_sheets_at_all_widths() {
    let sheets = 31 * 1000;
    let met = change_accepted_sheets(&mut Random::new(430), sheets);
    for number in [0, 24, 25] {
        assert!(50 * met.lists[number] > sheets, "{number}: {met:?}");
    }
    for reply in [0, 14, 17] {
        assert!(met.replies[reply] > sheets, "{reply}: {met:?}");
    }
    assert_eq!(
        met.replies.iter().sum::<usize>(),
        met.replies[0] + met.replies[14] + met.replies[17]
    );
    assert!(met.pairs.iter().all(|&lists| lists > 20), "{met:?}");
    for edge in [0, 1, 63, 64] {
        assert!(met.pairs[edge] > 200, "{edge}: {met:?}");
    }
    for times in met.refused_at {
        assert!(10 * times > sheets, "{met:?}");
    }
    for times in [met.odd, met.one_wins, met.one_stays, met.rest] {
        assert!(10 * times > sheets, "{met:?}");
    }
    assert!(met.all_refused > 200 && met.same > 200, "{met:?}");
}

/// Changes sheets with damaged fields, mostly with checks that are right. Sheets that
/// reading refuses are told apart from those that it accepts.
fn change_damaged_sheets(random: &mut Random, sheets: usize) -> [ByNumber; 2] {
    let mut met = [[0; 26]; 2];
    for _ in 0..sheets {
        let (program, _) = random_shape(random);
        let mut bytes = program.sheet();
        for _ in 0..1 + random.below(3) {
            damage_a_field(random, &mut bytes);
        }
        if random.one_in(32) {
            let length = bytes.len();
            bytes.resize(random.pick(&[0, 512, length - 1, length + 512, 5120]), 0);
        }
        if !random.one_in(6) {
            write_checks(&mut bytes);
        }
        let _kept = KeptOnFailure(&bytes);
        let list = random_list(random, program.width, program.steps.len());
        let room = random_room_of_replies(random, list.len() / 2);
        let is_read = usize::from((REFERENCE.read)(&bytes).is_ok());
        count(&mut met[is_read], &changed_all(&bytes, &list, room));
    }
    met
}

#[test]
fn damaged_sheets() {
    let [refused, read] = change_damaged_sheets(&mut Random::new(431), 50_000);
    assert!(
        refused[1..=16].iter().all(|&times| times > 20),
        "{refused:?}"
    );
    // Some damage leaves a sheet that can be read.
    for number in [0, 24, 25] {
        assert!(read[number] > 20, "{number}: {read:?}");
    }
}

/// Changes sheets, sealed or not, that mostly have a word XORed with itself: to be
/// changed is not to be sealed. Answers how many of these were accepted.
fn change_sheets_to_seal(random: &mut Random, sheets: usize) -> usize {
    let mut accepted = 0;
    for _ in 0..sheets {
        let bytes = random_sheet_to_seal(random);
        let _kept = KeptOnFailure(&bytes);
        let program = (REFERENCE.read)(&bytes).map(|_| Program::parse(&bytes));
        let (width, lines) = match &program {
            Ok(program) => (program.width, program.steps.len()),
            Err(_) => (8, 20),
        };
        let list = random_list(random, width, lines);
        let room = random_room_of_replies(random, list.len() / 2);
        let outcome = changed_all(&bytes, &list, room);
        let Ok(program) = program else { continue };
        if program.word_xored_with_itself().is_none() {
            continue;
        }
        accepted += 1;
        let after = outcome.as_ref().map_or(&bytes, |changed| &changed.sheet);
        for calls in implementations() {
            assert_eq!(calls.sealed(after), calls.sealed(&bytes), "{}", calls.name);
        }
    }
    accepted
}

#[test]
fn words_xored_with_themselves() {
    let accepted = change_sheets_to_seal(&mut Random::new(432), 20_000);
    assert!(accepted > 2000, "{accepted}");
}

#[test]
#[ignore = "a longer run of the tests above"]
fn a_million_random_lists() {
    change_accepted_sheets(&mut Random::new(433), 31 * 15_000);
    change_damaged_sheets(&mut Random::new(434), 400_000);
    change_sheets_to_seal(&mut Random::new(435), 200_000);
}

#[test]
fn every_short_list_of_small_sheets() {
    let mut random = Random::new(436);
    for _ in 0..40 {
        let (inputs, lines) = (1 + random.below(3), 1 + random.below(2));
        let (program, _) = random_program(&mut random, 2, inputs, lines);
        let sheet = program.sheet();
        let _kept = KeptOnFailure(&sheet);
        let numbers = (0..=lines as u64).flat_map(|line| (0..=4).map(move |to| [line, to]));
        let pairs: Vec<[u64; 2]> = numbers.collect();
        for first in &pairs {
            for second in &pairs {
                let list = [*first, *second].concat();
                for length in 0..=4 {
                    for room in 0..=3 {
                        changed_all(&sheet, &list[..length], room).ok();
                    }
                }
            }
        }
    }
}

/// A list is its first pairs, and then its other ones.
#[test]
fn lists_in_two_parts() {
    let mut random = Random::new(437);
    for _ in 0..5000 {
        let (program, _) = random_shape(&mut random);
        let (width, lines) = (program.width, program.steps.len());
        let mut list = random_list(&mut random, width, lines);
        list.truncate(128);
        let sheet = program.sheet();
        let _kept = KeptOnFailure(&sheet);
        let whole = changed_all(&sheet, &list, 64).unwrap();
        let (first, second) = list.split_at(2 * random.below(list.len() / 2 + 1));
        let first = changed_all(&sheet, first, 64).unwrap();
        let second = changed_all(&first.sheet, second, 64).unwrap();
        assert!(second.sheet == whole.sheet);
        assert_eq!([first.replies, second.replies].concat(), whole.replies);
    }
}

/// Each list is made on the sheet that the one before has left. In the end all changes
/// are taken back, by lists too.
#[test]
fn many_lists_of_one_sheet() {
    let mut random = Random::new(438);
    for _ in 0..800 {
        let (program, _) = random_shape(&mut random);
        let (width, lines) = (program.width, program.steps.len());
        let first = program.sheet();
        let _kept = KeptOnFailure(&first);
        let mut sheet = first.clone();
        for _ in 0..1 + random.below(8) {
            let list = random_list(&mut random, width, lines);
            let room = random_room_of_replies(&mut random, list.len() / 2);
            sheet = match changed_all(&sheet, &list, room) {
                Ok(changed) => changed.sheet,
                Err(_) => sheet,
            };
        }
        let stated: Vec<u64> = (0..)
            .zip(&program.steps)
            .flat_map(|(line, step)| [line, step.difference.into()])
            .collect();
        for list in stated.chunks(128) {
            sheet = changed_all(&sheet, list, 64).unwrap().sheet;
        }
        assert!(sheet == first);
    }
}

/// Of all the pairs of a list one is applied, whatever those are that are refused before
/// it and after it.
#[test]
fn one_applied_among_many() {
    let mut random = Random::new(439);
    for _ in 0..3000 {
        let (program, _) = random_shape(&mut random);
        let (width, lines) = (program.width, program.steps.len());
        let sheet = program.sheet();
        let _kept = KeptOnFailure(&sheet);
        let pairs = 1 + random.below(64);
        let at = random.below(pairs);
        let mut list = Vec::new();
        for pair in 0..pairs {
            let mut change = random_change(&mut random, width, lines);
            if pair == at {
                change.line = random.below(lines);
                change.difference = random.difference(width).into();
            } else if change.line < lines {
                change.difference |= 1 << width;
            }
            list.extend([change.line as u64, change.difference]);
        }
        let changed = changed_all(&sheet, &list, pairs).unwrap();
        let applied = changed.replies.iter().position(|&reply| reply == 0);
        assert_eq!(applied, Some(at));
        let mut other = program.clone();
        other.steps[list[2 * at] as usize].difference = list[2 * at + 1] as u32;
        assert!(changed.sheet == other.sheet());
    }
}
