//! Making a list of changes: a plain model of it, the call with every lent byte looked
//! at, and lists at random.

use super::changing::{apart, random_change, Change};
use super::lending::{rewritten, written};
use super::{implementations, Calls, Random, REFERENCE};
use tablegull::Refusal;

/// A sheet after a list of changes, and the replies.
#[derive(Clone, Debug, PartialEq, Eq)]
pub struct Changed {
    pub sheet: Vec<u8>,
    pub replies: Vec<u8>,
}

type Outcome = Result<Changed, Refusal>;

/// Holds what a list came to against what it has to come to, and where they are not the
/// same says in what.
pub fn assert_same(answer: &Outcome, expected: &Outcome, case: impl Fn() -> String) {
    let replies = |outcome: &Outcome| match outcome {
        Ok(changed) => Ok(changed.replies.clone()),
        Err(refusal) => Err(*refusal),
    };
    assert_eq!(replies(answer), replies(expected), "{}", case());
    if let (Ok(answer), Ok(expected)) = (answer, expected) {
        let places = apart(&answer.sheet, &expected.sheet);
        assert!(places.is_empty(), "{}: bytes {places:?}", case());
    }
}

/// The numbers of a list: line, difference, line, difference, and so on.
pub fn numbers(pairs: &[(u64, u64)]) -> Vec<u64> {
    pairs
        .iter()
        .flat_map(|&(line, difference)| [line, difference])
        .collect()
}

/// Makes the changes of a list one by one.
fn one_by_one(
    sheet: &[u8],
    list: &[u64],
    change: impl Fn(&mut Vec<u8>, Change) -> Result<(), Refusal>,
) -> Changed {
    let mut sheet = sheet.to_vec();
    let reply = |pair: &[u64]| {
        let (line, difference) = (pair[0] as usize, pair[1]);
        match change(&mut sheet, Change { line, difference }) {
            Ok(()) => 0,
            Err(refusal) => refusal.number as u8,
        }
    };
    let replies = list.chunks_exact(2).map(reply).collect();
    Changed { sheet, replies }
}

/// What a list comes to with so much room for its replies, by the plain model of a
/// change.
pub fn outcome(sheet: &[u8], list: &[u64], room: usize) -> Outcome {
    let refused = |number| Err(Refusal { number, place: 0 });
    (REFERENCE.read)(sheet)?;
    let pairs = list.len() / 2;
    if pairs > 64 {
        return refused(24);
    }
    if room < pairs {
        return refused(25);
    }
    Ok(one_by_one(sheet, list, |sheet, change| {
        *sheet = change.outcome(sheet)?;
        Ok(())
    }))
}

impl Calls {
    /// Makes a list of changes in a copy of a sheet, with so much room for the replies.
    /// A refusal writes neither.
    pub fn changed_all(&self, sheet: &[u8], list: &[u64], room: usize) -> Outcome {
        let case = || format!("{}: {list:?}, room {room}", self.name);
        // Behind the list stands a change that would be made, and with which a number
        // without a partner would be one.
        let around = [&[1][..], list, &[1, 1]].concat();
        let lent = &around[1..1 + list.len()];
        let mut replies = Vec::new();
        let (answer, copy) = rewritten(case, sheet, |copy| {
            replies = written(case, room, |out| (self.change_all)(copy, lent, out))?;
            Ok(replies.len())
        });
        assert!(lent == list, "{}: the list was written", case());
        match answer {
            Ok(count) => assert_eq!(count, list.len() / 2, "{}", case()),
            Err(_) => assert!(copy == sheet, "{}: a refusal that wrote", case()),
        }
        answer.map(|_| Changed {
            sheet: copy,
            replies,
        })
    }

    /// The same by this implementation's call for one change, made once for each pair.
    pub fn changed_one_by_one(&self, sheet: &[u8], list: &[u64]) -> Changed {
        one_by_one(sheet, list, |sheet, change| {
            (self.change)(sheet, change.line, change.difference).map(|_| ())
        })
    }
}

/// What a list comes to with so much room for its replies. All implementations are
/// held to it, and to their own call for one change, made once for each pair; and they
/// have to accept the changed sheet.
pub fn changed_all(sheet: &[u8], list: &[u64], room: usize) -> Outcome {
    let expected = outcome(sheet, list, room);
    for calls in implementations() {
        let case = || format!("{}: {list:?}, room {room}", calls.name);
        let answer = calls.changed_all(sheet, list, room);
        assert_same(&answer, &expected, case);
        if let Ok(changed) = &answer {
            assert_eq!(
                (calls.read)(&changed.sheet),
                (calls.read)(sheet),
                "{}",
                case()
            );
            let single = Ok(calls.changed_one_by_one(sheet, list));
            assert_same(&answer, &single, || format!("{}: by single calls", case()));
        }
    }
    expected
}

/// A list for a sheet with so many lines. At times it is as long as may be, or longer;
/// half of the lists change a few lines again and again; at times a number follows that
/// is no pair.
pub fn random_list(random: &mut Random, width: u32, lines: usize) -> Vec<u64> {
    let pairs = match random.below(8) {
        0 => random.pick(&[0, 1, 63, 64, 65, 66]),
        1 => random.below(80),
        2 => random.below(65),
        _ => random.below(12),
    };
    let few: Vec<usize> = (0..1 + random.below(4))
        .map(|_| random.below(lines))
        .collect();
    let has_few = random.one_in(2);
    let mut list = Vec::with_capacity(2 * pairs + 1);
    for _ in 0..pairs {
        let mut change = random_change(random, width, lines);
        if has_few && change.line < lines {
            change.line = random.pick(&few);
        }
        list.extend([change.line as u64, change.difference]);
    }
    if random.one_in(4) {
        list.push(random_change(random, width, lines).line as u64);
    }
    list
}

/// Rooms about the need of so many pairs, and any.
pub fn random_room_of_replies(random: &mut Random, pairs: usize) -> usize {
    match random.below(8) {
        0 => pairs.saturating_sub(1),
        1 => random.below(pairs + 1),
        2 => pairs + 1 + random.below(40),
        3 => 64,
        4 => random.below(100),
        _ => pairs,
    }
}
