//! What the calls answer.
use crate::Error;
use std::fmt;

/// A variable and a position.
///
/// ```
/// let pair = entryreader::Pair { variable: 5, position: 2 };
/// assert_eq!(pair.to_string(), "5 at 2");
/// ```
#[derive(Clone, Copy, Debug, PartialEq, Eq, Hash, PartialOrd, Ord)]
pub struct Pair {
    /// From 1 to V.
    pub variable: u32,
    /// From 0 to the entry's length.
    pub position: u32,
}

impl fmt::Display for Pair {
    fn fmt(&self, f: &mut fmt::Formatter) -> fmt::Result {
        write!(f, "{} at {}", self.variable, self.position)
    }
}

/// The kind of a verdict, as document 01 numbers it in the first line of `readentry`.
///
/// ```
/// use entryreader::Code;
///
/// assert_eq!(Code::Partial.to_string(), "partial");
/// assert_eq!(Code::Partial.number(), 5);
/// ```
#[derive(Clone, Copy, Debug, PartialEq, Eq, Hash, PartialOrd, Ord)]
pub enum Code {
    /// Success at the entry's end.
    Recognised = 0,
    /// Failure.
    Failure = 1,
    /// No finite derivation gives any other outcome.
    Loop = 2,
    /// A variable without a rule is asked for.
    Missing = 3,
    /// Success before the entry's end.
    Partial = 5,
}

impl Code {
    /// In the order of their numbers.
    ///
    /// ```
    /// assert_eq!(entryreader::Code::ALL.len(), 5);
    /// ```
    pub const ALL: [Code; 5] = [
        Code::Recognised,
        Code::Failure,
        Code::Loop,
        Code::Missing,
        Code::Partial,
    ];

    /// Its number, from 0 to 3, or 5.
    ///
    /// ```
    /// assert_eq!(entryreader::Code::Loop.number(), 2);
    /// ```
    pub fn number(self) -> u32 {
        self as u32
    }

    /// The code of a number.
    pub(crate) fn from_number(number: u32) -> Option<Code> {
        Code::ALL.into_iter().find(|code| code.number() == number)
    }
}

impl fmt::Display for Code {
    fn fmt(&self, f: &mut fmt::Formatter) -> fmt::Result {
        f.pad(match self {
            Code::Recognised => "recognised",
            Code::Failure => "failure",
            Code::Loop => "loop",
            Code::Missing => "missing",
            Code::Partial => "partial",
        })
    }
}

/// What a sheet makes of a whole entry: how its start variable fares at the entry's beginning. `cells` is the count of decided cells, which is that of
/// the pairs that the question reaches.
///
/// ```
/// use entryreader::{Pair, Reader, Verdict};
///
/// // 1 calls itself before it has taken a byte.
/// let mut reader = Reader::new(b"    1    1   46    0    0\n    1    4    1    1    1\n")?;
/// let named = Pair { variable: 1, position: 0 };
/// assert_eq!(reader.verdict(b".")?, Verdict::Loop { named, cells: 1 });
/// # Ok::<(), entryreader::Error>(())
/// ```
#[derive(Clone, Copy, Debug, PartialEq, Eq, Hash)]
pub enum Verdict {
    /// Success at the entry's end.
    Recognised {
        /// Decided cells.
        cells: u32,
    },
    /// Success before the entry's end.
    Partial {
        /// The position where it ends.
        end: u32,
        /// Decided cells.
        cells: u32,
    },
    /// Failure.
    Failure {
        /// Decided cells.
        cells: u32,
    },
    /// No finite derivation gives any other outcome. [`Reader::opening`](crate::Reader::opening) says how many first bytes are enough for it.
    Loop {
        /// The first pair met a second time.
        named: Pair,
        /// Decided cells.
        cells: u32,
    },
    /// A variable without a rule is asked for.
    Missing {
        /// That variable, and where it is asked for.
        named: Pair,
        /// Decided cells.
        cells: u32,
    },
}

impl Verdict {
    /// What the four numbers of a first line say; 9 for a refusal.
    pub(crate) fn from_numbers([code, first, second, cells]: [u32; 4]) -> Result<Verdict, Error> {
        let named = Pair {
            variable: first,
            position: second,
        };
        Ok(match Code::from_number(code) {
            Some(Code::Recognised) => Verdict::Recognised { cells },
            Some(Code::Failure) => Verdict::Failure { cells },
            Some(Code::Loop) => Verdict::Loop { named, cells },
            Some(Code::Missing) => Verdict::Missing { named, cells },
            Some(Code::Partial) => Verdict::Partial { end: second, cells },
            None => return Err(Error::new(first, second)),
        })
    }

    /// Is the whole entry recognised?
    ///
    /// ```
    /// let verdict = entryreader::Verdict::Partial { end: 2, cells: 7 };
    /// assert!(!verdict.is_recognised());
    /// ```
    pub fn is_recognised(&self) -> bool {
        self.code() == Code::Recognised
    }

    /// Its kind.
    ///
    /// ```
    /// use entryreader::{Code, Verdict};
    ///
    /// assert_eq!(Verdict::Failure { cells: 5 }.code(), Code::Failure);
    /// ```
    pub fn code(&self) -> Code {
        match self {
            Verdict::Recognised { .. } => Code::Recognised,
            Verdict::Partial { .. } => Code::Partial,
            Verdict::Failure { .. } => Code::Failure,
            Verdict::Loop { .. } => Code::Loop,
            Verdict::Missing { .. } => Code::Missing,
        }
    }
}

/// What a question about a variable at a position is answered; `cells` is the count of decided cells, after a correction of newly decided ones.
///
/// ```
/// use entryreader::{Answer, Reader};
///
/// let mut reader = Reader::new(b"    1    1   46    0    0\n    1    2   46    0    0\n")?;
/// assert_eq!(reader.ask(b"1.", 1, 1)?, Answer::Success { end: 2, cells: 1 });
/// # Ok::<(), entryreader::Error>(())
/// ```
#[derive(Clone, Copy, Debug, PartialEq, Eq, Hash)]
pub enum Answer {
    /// Success.
    Success {
        /// The position where it ends.
        end: u32,
        /// Decided cells.
        cells: u32,
    },
    /// Failure.
    Failure {
        /// Decided cells.
        cells: u32,
    },
    /// No finite derivation gives any other outcome.
    Loop {
        /// The first pair met a second time.
        named: Pair,
        /// Decided cells.
        cells: u32,
    },
    /// A variable without a rule is asked for.
    Missing {
        /// That variable, and where it is asked for.
        named: Pair,
        /// Decided cells.
        cells: u32,
    },
}

impl Answer {
    /// What the four numbers of a question say, or its refusal.
    pub(crate) fn from_numbers(code: u32, numbers: [u32; 4]) -> Result<Answer, Error> {
        if code != 0 {
            return Err(Error::from_code(code));
        }
        let [outcome, variable, position, cells] = numbers;
        let named = Pair { variable, position };
        Ok(match outcome {
            1 => Answer::Failure { cells },
            2 => Answer::Loop { named, cells },
            3 => Answer::Missing { named, cells },
            5.. => Answer::Success {
                end: outcome - 5,
                cells,
            },
            _ => unreachable!("no answered question has outcome {outcome}"),
        })
    }
}

/// What a reading claims that the checker passed: the outcome in its last line.
///
/// ```
/// use entryreader::{Claim, Reader};
///
/// let mut reader = Reader::new(b"    1    1   46    0    0\n    1    2   46    0    0\n")?;
/// let reading = reader.reading(b".")?;
/// assert_eq!(reader.check(b".", &reading.bytes)?, Claim::Success { end: 1 });
/// # Ok::<(), entryreader::Error>(())
/// ```
#[derive(Clone, Copy, Debug, PartialEq, Eq, Hash)]
pub enum Claim {
    /// Success.
    Success {
        /// The position where it ends.
        end: u32,
    },
    /// Failure.
    Failure,
}

impl Claim {
    /// What the two numbers of a check say, or its refusal.
    pub(crate) fn from_numbers(code: u32, [outcome, end]: [u32; 2]) -> Result<Claim, Error> {
        match (code, outcome) {
            (0, 1) => Ok(Claim::Failure),
            (0, _) => Ok(Claim::Success { end }),
            _ => Err(Error::from_code(code)),
        }
    }
}
