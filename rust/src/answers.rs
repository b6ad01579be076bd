//! What the calls answer.

/// A number of sixteenths of a bit.
#[derive(Clone, Copy, Debug, Default, PartialEq, Eq, PartialOrd, Ord, Hash)]
pub struct Sixteenths(pub u64);

/// A number of whole bits.
#[derive(Clone, Copy, Debug, Default, PartialEq, Eq, PartialOrd, Ord, Hash)]
pub struct WholeBits(pub u64);

/// Whether a line's differential can happen, and what it costs.
#[derive(Clone, Copy, Debug, PartialEq, Eq)]
pub enum LineReport {
    /// No operand values with the stated differences give the stated result.
    Impossible,
    /// All do: XORs, rotations and shifts.
    Certain,
    /// Of the pairs of words 2^(2n-w) fit: the sum of two words, or one minus the
    /// other.
    Halves {
        /// w.
        weight: WholeBits,
    },
    /// Exactly `fitting` words fit: the sum with a constant.
    Counted {
        /// The weight, which bounds the count together with the chains.
        weight: Sixteenths,
        /// The number of chains.
        chains: u16,
        /// N.
        fitting: u64,
    },
}

impl LineReport {
    /// The report that a line's 16 bytes of the report buffer spell.
    ///
    /// `None` where the first byte is the number of no report.
    pub fn from_bytes(bytes: &[u8; crate::LINE_REPORT]) -> Option<Self> {
        let chains = u16::from_le_bytes([bytes[2], bytes[3]]);
        let weight = u32::from_le_bytes([bytes[4], bytes[5], bytes[6], bytes[7]]);
        let (_, fitting) = bytes.split_at(8);
        let fitting = u64::from_le_bytes(fitting.try_into().expect("eight bytes"));
        match bytes[0] {
            0 => Some(Self::Impossible),
            1 => Some(Self::Certain),
            2 => Some(Self::Halves {
                weight: WholeBits(u64::from(weight) / 16),
            }),
            3 => Some(Self::Counted {
                weight: Sixteenths(weight.into()),
                chains,
                fitting,
            }),
            _ => None,
        }
    }

    /// The report's 16 bytes in the report buffer.
    ///
    /// A weight that has no room there becomes the largest that has: no line has it.
    pub fn to_bytes(self) -> [u8; crate::LINE_REPORT] {
        let (number, chains, weight, fitting) = match self {
            Self::Impossible => (0, 0, 0, 0),
            Self::Certain => (1, 0, 0, 0),
            Self::Halves { weight } => (2, 0, weight.0.saturating_mul(16), 0),
            Self::Counted {
                weight,
                chains,
                fitting,
            } => (3, chains, weight.0, fitting),
        };
        let weight = u32::try_from(weight).unwrap_or(u32::MAX);
        let mut bytes = [0; crate::LINE_REPORT];
        bytes[0] = number;
        bytes[2..4].copy_from_slice(&chains.to_le_bytes());
        bytes[4..8].copy_from_slice(&weight.to_le_bytes());
        bytes[8..16].copy_from_slice(&fitting.to_le_bytes());
        bytes
    }
}

/// A sheet's totals.
///
/// A line repeats an earlier one if kind, amount, operands in order, constant
/// and stated difference are equal. It adds no weight and no chains.
#[derive(Clone, Copy, Debug, PartialEq, Eq)]
pub struct Totals {
    /// How many lines are impossible, repeats among them.
    pub impossible: u64,
    /// The sum of the other lines' weights, repeats left out.
    pub weight: Sixteenths,
    /// The number of their chains, repeats left out.
    pub chains: u64,
}

/// What two runs from a starting value come to.
#[derive(Clone, Copy, Debug, PartialEq, Eq)]
pub enum Runs {
    /// Every line's results differ by its stated difference.
    Follow,
    /// They do not: the first line, and in it the lowest bit, where they
    /// disagree.
    Disagree {
        /// The line.
        line: usize,
        /// The bit.
        bit: u32,
    },
}

/// The counts of a sheet's clauses, as the header of a DIMACS file has them.
#[derive(Clone, Copy, Debug, PartialEq, Eq)]
pub struct ClauseCounts {
    /// The number of variables.
    pub variables: u64,
    /// The number of clauses of all lines.
    pub clauses: u64,
}

/// Which lines use each word of a sheet, in the numbers that the archive writes: for
/// each word, rising from 0, how many lines name it as a used operand, and these lines,
/// ascending.
///
/// It knows no differences: a sheet has one index, however its differences are changed.
#[derive(Clone, Debug, PartialEq, Eq)]
pub struct Index(pub Vec<u16>);

impl Index {
    /// The lines that use a word, ascending; a line that names it twice is there once.
    /// The inputs come first among the words, then the lines' results.
    ///
    /// `None` for a word that the sheet has not.
    pub fn users(&self, word: u16) -> Option<&[u16]> {
        let mut rest = &self.0[..];
        let mut lists = std::iter::from_fn(|| {
            let (&count, after) = rest.split_first()?;
            let (lines, next) = after.split_at_checked(count.into())?;
            rest = next;
            Some(lines)
        });
        lists.nth(word.into())
    }
}
