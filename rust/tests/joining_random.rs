//! Joining on random pairs of sheets, good and bad, against the plain model.

mod common;

use common::damage::damage_a_field;
use common::pairs::{outcome_of, random_pair, spoil_names, Pair};
use common::{implementations, write_checks, Random, REFERENCE};
use tablegull::Refusal;

/// Mostly short programs, those that together stand at a block's edge or at the
/// most lines, and those with any number of lines.
fn random_lines(random: &mut Random) -> [usize; 2] {
    match random.below(16) {
        0 => {
            let both = random.pick(&[31, 32, 62, 63, 93, 94, 217, 218, 247, 248, 249, 250]);
            let first = 1 + random.below((both - 1).min(248));
            [first, (both - first).min(248)]
        }
        1 => [1 + random.below(248), 1 + random.below(248)],
        _ => [1 + random.below(16), 1 + random.below(16)],
    }
}

fn random_shape(random: &mut Random) -> Pair {
    let width = 2 + random.below(31) as u32;
    let inputs = 1 + random.below(8);
    let lines = random_lines(random);
    random_pair(random, width, inputs, lines)
}

/// Gives one of the two programs a larger width. It still is a program, with the
/// same differences.
fn widen_one(random: &mut Random, pair: &mut Pair) {
    let width = pair.first.width;
    let wider = width + random.below(33 - width as usize) as u32;
    if random.one_in(2) {
        pair.first.width = wider;
    } else {
        pair.second.width = wider;
    }
}

/// Rooms about the need, and any.
fn random_room(random: &mut Random, need: usize) -> usize {
    match random.below(8) {
        0 => need - 1,
        1 => need - 512,
        2 => random.below(need),
        3 => need + 1 + random.below(40),
        4 => 4608,
        5 => random.below(6000),
        _ => need,
    }
}

/// How often each number was the refusal; 0 is for what was joined.
type ByNumber = [usize; 23];

/// How often a list of names had just these faults: bit i of the index tells of
/// fault i.
type ByNameFaults = [usize; 16];

fn set_of(faults: [bool; 4]) -> usize {
    (0..4)
        .map(|fault| usize::from(faults[fault]) << fault)
        .sum()
}

fn number_of(outcome: &Result<Vec<u8>, Refusal>) -> usize {
    match outcome {
        Ok(_) => 0,
        Err(refusal) => refusal.number as usize,
    }
}

/// Joins by all implementations, and holds them to what is expected.
fn check(
    first: &[u8],
    second: &[u8],
    names: &[u64],
    room: usize,
    expected: &Result<Vec<u8>, Refusal>,
) {
    for calls in implementations() {
        let answer = calls.joined(first, second, names, room);
        let numbers = [number_of(&answer), number_of(expected)];
        assert!(
            answer == *expected,
            "{}: {numbers:?}, names {names:?}, room {room}",
            calls.name
        );
        if let Ok(joined) = answer {
            calls.check_joined(first, second, &joined);
        }
    }
}

/// Joins random pairs, many of which have faults: in widths, names, lines, room.
fn join_pairs(random: &mut Random, inputs: usize) -> (ByNumber, ByNameFaults) {
    let (mut by_number, mut by_name_faults) = ([0; 23], [0; 16]);
    for _ in 0..inputs {
        let mut pair = random_shape(random);
        if random.one_in(10) {
            widen_one(random, &mut pair);
        }
        for _ in 0..random.pick(&[0, 0, 0, 1, 2]) {
            spoil_names(random, &mut pair);
        }
        let room = random_room(random, pair.need());
        let expected = pair.outcome(room);
        let (first, second) = (pair.first.sheet(), pair.second.sheet());
        check(&first, &second, &pair.names, room, &expected);
        let number = number_of(&expected);
        by_number[number] += 1;
        if number == 21 {
            by_name_faults[set_of(pair.name_faults())] += 1;
        }
    }
    (by_number, by_name_faults)
}

#[test]
fn pairs_and_names() {
    let inputs = 150_000;
    let (by_number, by_name_faults) = join_pairs(&mut Random::new(300), inputs);
    for number in [0, 18, 20, 21, 22] {
        assert!(50 * by_number[number] > inputs, "{number}: {by_number:?}");
    }
    // Each fault of names was met alone, and each two of them together.
    for faults in (0_usize..16).filter(|faults| (1..=2).contains(&faults.count_ones())) {
        let times = by_name_faults[faults];
        assert!(300 * times > inputs, "{faults:04b}: {by_name_faults:?}");
    }
}

#[test]
#[ignore = "a longer run of the test above"]
fn half_a_million_pairs_and_names() {
    join_pairs(&mut Random::new(301), 500_000);
}

/// Damages a sheet's fields or its length, mostly with checks that are right.
fn damage(random: &mut Random, sheet: &mut Vec<u8>) {
    for _ in 0..1 + random.below(2) {
        damage_a_field(random, sheet);
    }
    if random.one_in(16) {
        let length = sheet.len();
        sheet.resize(random.pick(&[0, 512, length - 1, length + 512, 5120]), 0);
    }
    if !random.one_in(6) {
        write_checks(sheet);
    }
}

/// Joins random pairs with the first sheet damaged, the second, or both. What
/// was met is told apart by whether the first sheet is refused or read.
fn join_damaged_pairs(random: &mut Random, inputs: usize) -> [ByNumber; 2] {
    let mut met = [[0; 23]; 2];
    for _ in 0..inputs {
        let mut pair = random_shape(random);
        if random.one_in(4) {
            spoil_names(random, &mut pair);
        }
        let (mut first, mut second) = (pair.first.sheet(), pair.second.sheet());
        let undamaged = random.below(3);
        if undamaged != 1 {
            damage(random, &mut first);
        }
        if undamaged != 2 {
            damage(random, &mut second);
        }
        let room = random_room(random, pair.need());
        let expected = outcome_of(&first, &second, &pair.names, room);
        check(&first, &second, &pair.names, room, &expected);
        let first_is_read = (REFERENCE.read)(&first).is_ok();
        met[usize::from(first_is_read)][number_of(&expected)] += 1;
    }
    met
}

#[test]
fn damaged_pairs() {
    let [first_refused, first_read] = join_damaged_pairs(&mut Random::new(302), 150_000);
    // Every question about a sheet was answered no for the first, and for the
    // second.
    for number in 1..=16 {
        assert!(first_refused[number] > 20, "{number}: {first_refused:?}");
        assert!(first_read[number] > 20, "{number}: {first_read:?}");
    }
    // Some damage leaves two sheets that can be read.
    for number in [0, 18, 20, 21, 22] {
        assert!(first_read[number] > 20, "{number}: {first_read:?}");
    }
}

#[test]
#[ignore = "a longer run of the test above"]
fn half_a_million_damaged_pairs() {
    join_damaged_pairs(&mut Random::new(303), 500_000);
}

/// All starting values of so many words.
fn all_starts(width: u32, words: usize) -> impl Iterator<Item = Vec<u64>> {
    let mask = (1 << width) - 1;
    let word = move |start: u64, word| start >> (width as usize * word) & mask;
    (0..1 << (width as usize * words))
        .map(move |start| (0..words).map(|number| word(start, number)).collect())
}

/// What two runs of the joined trail come to, by those of its two parts.
fn joined_runs(first: [u64; 3], second: [u64; 3], lines_of_first: usize) -> [u64; 3] {
    match (first, second) {
        ([0, line, bit], _) => [0, line, bit],
        (_, [0, line, bit]) => [0, lines_of_first as u64 + line, bit],
        _ => [1, 0, 0],
    }
}

#[test]
fn every_start_of_small_pairs() {
    let mut random = Random::new(304);
    // By whether the first trail is followed, and the second from there.
    let mut met = [[0; 2]; 2];
    for _ in 0..1000 {
        let (width, inputs) = random.pick(&[(2, 1), (2, 3), (2, 5), (3, 1), (3, 2), (3, 4)]);
        let lines = [1 + random.below(5), 1 + random.below(5)];
        let pair = random_pair(&mut random, width, inputs, lines);
        let (first, second) = (pair.first.sheet(), pair.second.sheet());
        for calls in implementations() {
            let joined = calls.joined(&first, &second, &pair.names, 1024).unwrap();
            for start in all_starts(width, inputs) {
                let of_first = calls.runs(&first, &start);
                let of_second = calls.runs(&second, &pair.named_words(&start));
                let expected = joined_runs(of_first, of_second, lines[0]);
                let answer = calls.runs(&joined, &start);
                assert_eq!(answer, expected, "{}: {start:?}, {pair:?}", calls.name);
                met[of_first[0] as usize][of_second[0] as usize] += 1;
            }
        }
    }
    assert!(met.iter().flatten().all(|&times| times > 5000), "{met:?}");
}
