//! Sealing on random sheets, good and bad: it is held to what reading comes to,
//! and to the one question that it asks beyond.

mod common;

use common::pairs::random_pair;
use common::sealing::{random_sheet_to_seal, Met};
use common::{implementations, random_shape, Program, Random};
use tablegull::Refusal;

/// Seals random sheets by all implementations.
fn seal_sheets(random: &mut Random, sheets: usize) -> Met {
    let mut met = Met::default();
    for _ in 0..sheets {
        let sheet = random_sheet_to_seal(random);
        for calls in implementations() {
            let expected = calls.sealing_by_reading(&sheet);
            assert_eq!(calls.sealed(&sheet), expected, "{}", calls.name);
        }
        met.count(&sheet);
    }
    met
}

#[test]
fn random_sheets() {
    seal_sheets(&mut Random::new(400), 100_000).assert_all();
}

#[test]
#[ignore = "a longer run of the test above"]
fn a_million_random_sheets() {
    seal_sheets(&mut Random::new(401), 1_000_000).assert_all();
}

#[test]
fn random_programs_are_mostly_sealed() {
    let mut random = Random::new(402);
    let (mut sealed, mut refused) = (0, 0);
    let programs = 20_000;
    for _ in 0..programs {
        let (program, _) = random_shape(&mut random);
        let sheet = program.sheet();
        let expected = match program.word_xored_with_itself() {
            None => {
                sealed += 1;
                Ok(sheet.len() / 512)
            }
            Some(line) => {
                refused += 1;
                Err(Refusal {
                    number: 23,
                    place: line as u64,
                })
            }
        };
        for calls in implementations() {
            assert_eq!(calls.sealed(&sheet), expected, "{}", calls.name);
            assert_eq!((calls.read)(&sheet), Ok(program.steps.len()));
        }
    }
    assert!(2 * sealed > programs, "{sealed} of {programs}");
    assert!(10 * refused > programs, "{refused} of {programs}");
}

#[test]
fn random_joined_sheets() {
    let mut random = Random::new(403);
    // By whether the first sheet has a word XORed with itself, and the second.
    let mut met = [[0; 2]; 2];
    let pairs = 20_000;
    for _ in 0..pairs {
        let width = 2 + random.below(31) as u32;
        let (inputs, lines) = (1 + random.below(8), [0; 2].map(|_| 1 + random.below(40)));
        let pair = random_pair(&mut random, width, inputs, lines);
        let places = [&pair.first, &pair.second].map(Program::word_xored_with_itself);
        let expected = match places {
            [Some(line), _] => Err(line),
            [None, Some(line)] => Err(lines[0] + line),
            [None, None] => Ok(pair.need() / 512),
        }
        .map_err(|line| Refusal {
            number: 23,
            place: line as u64,
        });
        let (first, second) = (pair.first.sheet(), pair.second.sheet());
        for calls in implementations() {
            let joined = calls.joined(&first, &second, &pair.names, 4608).unwrap();
            assert_eq!((calls.read)(&joined), Ok(pair.lines()), "{}", calls.name);
            assert_eq!(calls.sealed(&joined), expected, "{}", calls.name);
        }
        let [in_first, in_second] = places.map(|line| usize::from(line.is_some()));
        met[in_first][in_second] += 1;
    }
    for times in met.into_iter().flatten() {
        assert!(100 * times > pairs, "{met:?}");
    }
}
