//! Pairs of programs to be joined, a plain model of joining, and the call with
//! every lent byte looked at.

use super::lending::written;
use super::{disturb, random_program, random_steps, Calls, Program, Random, REFERENCE};
use tablegull::Refusal;

/// Two programs, and for each input of the second the word of the first that it
/// is.
#[derive(Clone, Debug)]
pub struct Pair {
    pub first: Program,
    pub second: Program,
    pub names: Vec<u64>,
}

impl Pair {
    pub fn lines(&self) -> usize {
        self.first.steps.len() + self.second.steps.len()
    }

    /// The length of the joined sheet.
    pub fn need(&self) -> usize {
        512 * (1 + self.lines().div_ceil(31))
    }

    /// The joined program of a pair that can be joined.
    pub fn joined(&self) -> Program {
        let words_of_first = self.first.inputs.len() + self.first.steps.len();
        let inputs = self.names.iter().map(|&name| name as u16);
        let numbers: Vec<u16> = inputs
            .chain(words_of_first as u16..)
            .take(self.second.inputs.len() + self.second.steps.len())
            .collect();
        let renumbered = self
            .second
            .steps
            .iter()
            .map(|step| step.renumbered(&numbers));
        let mut joined = self.first.clone();
        joined.steps.extend(renumbered);
        joined
    }

    /// The named words of the first's run from a start.
    pub fn named_words(&self, start: &[u64]) -> Vec<u64> {
        let words = self.first.run(start);
        self.names
            .iter()
            .map(|&name| words[name as usize])
            .collect()
    }

    /// What is wrong with the list of names: its length, a word that the first has
    /// not, a word twice, a difference that is not the input's.
    pub fn name_faults(&self) -> [bool; 4] {
        let differences = self.first.differences();
        let stated = |name: u64| differences.get(usize::try_from(name).unwrap());
        let mut with_inputs = self.names.iter().zip(&self.second.inputs);
        let mut sorted = self.names.clone();
        sorted.sort_unstable();
        sorted.dedup();
        [
            self.names.len() != self.second.inputs.len(),
            self.names.iter().any(|&name| stated(name).is_none()),
            sorted.len() < self.names.len(),
            with_inputs.any(|(&name, input)| stated(name).is_some_and(|word| word != input)),
        ]
    }

    /// What joining the two sheets comes to: the joined sheet, or the refusal.
    pub fn outcome(&self, room: usize) -> Result<Vec<u8>, Refusal> {
        let refused = |number| Err(Refusal { number, place: 0 });
        if self.first.width != self.second.width {
            refused(20)
        } else if self.name_faults().contains(&true) {
            refused(21)
        } else if self.lines() > 248 {
            refused(22)
        } else if room < self.need() {
            refused(18)
        } else {
            Ok(self.joined().sheet())
        }
    }
}

/// What joining any bytes comes to.
pub fn outcome_of(
    first: &[u8],
    second: &[u8],
    names: &[u64],
    room: usize,
) -> Result<Vec<u8>, Refusal> {
    (REFERENCE.read)(first)?;
    (REFERENCE.read)(second)?;
    let pair = Pair {
        first: Program::parse(first),
        second: Program::parse(second),
        names: names.to_vec(),
    };
    pair.outcome(room)
}

impl Calls {
    /// Joins into a part of a longer buffer, and answers what was written there.
    /// No other byte may have changed, and none of what is only read.
    pub fn joined(
        &self,
        first: &[u8],
        second: &[u8],
        names: &[u64],
        room: usize,
    ) -> Result<Vec<u8>, Refusal> {
        let read_only = (first.to_vec(), second.to_vec(), names.to_vec());
        let case = || format!("{}: room {room}", self.name);
        let answer = written(case, room, |out| (self.join)(first, second, names, out));
        assert!(
            (first, second, names) == (&read_only.0, &read_only.1, &read_only.2),
            "{}: what is only read was written",
            self.name
        );
        answer
    }

    /// The joined sheet is accepted, and each line has the report that it had.
    pub fn check_joined(&self, first: &[u8], second: &[u8], joined: &[u8]) {
        let reports = [self.reports(first), self.reports(second)].concat();
        assert_eq!((self.read)(joined), Ok(reports.len()), "{}", self.name);
        assert_eq!(self.reports(joined), reports, "{}", self.name);
    }
}

/// A random pair of a given shape that can be joined if it has not too many
/// lines.
///
/// Mostly the differences are those of two runs through both programs.
pub fn random_pair(random: &mut Random, width: u32, inputs: usize, lines: [usize; 2]) -> Pair {
    let (mut first, start) = random_program(random, width, inputs, lines[0]);
    if random.one_in(4) {
        disturb(random, &mut first);
    }
    let names = random_names(random, inputs + lines[0]);
    let differences = first.differences();
    let inputs = names.iter().map(|&name| differences[name as usize]);
    let second = random_steps(random, width, inputs.collect(), lines[1]);
    let mut pair = Pair {
        first,
        second,
        names,
    };
    let named_words = pair.named_words(&start);
    pair.second.state_differences_of(&named_words);
    if random.one_in(4) {
        disturb(random, &mut pair.second);
    }
    pair
}

/// One to eight different words of so many.
fn random_names(random: &mut Random, words: usize) -> Vec<u64> {
    let mut left: Vec<u64> = (0..words as u64).collect();
    let count = 1 + random.below(words.min(8));
    (0..count)
        .map(|_| left.swap_remove(random.below(left.len())))
        .collect()
}

/// Makes the list of names wrong in a way drawn by chance.
pub fn spoil_names(random: &mut Random, pair: &mut Pair) {
    let words = pair.first.inputs.len() + pair.first.steps.len();
    let (names, inputs) = (&mut pair.names, &mut pair.second.inputs);
    let used = names.len().min(inputs.len());
    if used == 0 {
        return;
    }
    let (name, other) = (random.below(used), random.below(used));
    match random.below(9) {
        0 => names.truncate(name),
        1 => names.extend((0..1 + random.below(9)).map(|_| random.below(words) as u64)),
        2 => names[name] = (words + random.below(3)) as u64,
        // The low bits name a word.
        3 => names[name] |= 1 << random.pick(&[16, 32, 48, 63]),
        4 => names[name] = random.next() >> random.below(64),
        5 => names[name] = names[other],
        6 => {
            names[name] = names[other];
            inputs[name] = inputs[other];
        }
        7 => names[name] = random.below(words) as u64,
        _ => inputs[name] ^= 1 << random.below(pair.second.width as usize),
    }
}
