//! The lines of a reading.
use crate::{Answer, Pair, calls};

/// A line of a reading: what a pair comes to, and from which earlier lines that follows.
///
/// ```
/// use entryreader::{Line, Reader};
///
/// let mut reader = Reader::new(b"    1    1   46    0    0\n    1    2   46    0    0\n")?;
/// let line = Line { variable: 1, start: 0, success: true, end: 1, first: None, second: None };
/// assert_eq!(reader.reading(b".")?.lines, [line]);
/// # Ok::<(), entryreader::Error>(())
/// ```
#[derive(Clone, Copy, Debug, PartialEq, Eq, Hash)]
pub struct Line {
    /// The variable.
    pub variable: u32,
    /// The position at which it is asked for.
    pub start: u32,
    /// Success, or failure.
    pub success: bool,
    /// The position where a success ends; the start of a failure.
    pub end: u32,
    /// The line of the pair that is called first, counted from 0; none for a rule that calls nothing.
    pub first: Option<usize>,
    /// The line of the pair that is called second, counted from 0; none for a rule that calls nothing.
    pub second: Option<usize>,
}

/// The bytes of a line.
pub(crate) const LINE: usize = 49;

/// The bytes of a field.
const FIELD: usize = 8;

impl Line {
    /// The line of 49 bytes that the writer wrote.
    fn from_bytes(bytes: &[u8]) -> Line {
        let mut numbers = bytes.chunks_exact(FIELD).map(number);
        let mut next = || numbers.next().unwrap_or(0);
        let (variable, start, failed, end) = (next(), next(), next(), next());
        // Lines are counted from 1, and 0 is none.
        let mut line = || calls::length(next()).checked_sub(1);
        Line {
            variable,
            start,
            success: failed == 0,
            end,
            first: line(),
            second: line(),
        }
    }

    /// The pair that the line is about.
    ///
    /// ```
    /// use entryreader::{Line, Pair};
    ///
    /// let line = Line { variable: 4, start: 1, success: true, end: 2, first: None, second: None };
    /// assert_eq!(line.pair(), Pair { variable: 4, position: 1 });
    /// ```
    pub fn pair(&self) -> Pair {
        Pair {
            variable: self.variable,
            position: self.start,
        }
    }
}

/// The number in a field: blanks, then digits.
fn number(field: &[u8]) -> u32 {
    let digits = field.iter().filter(|byte| byte.is_ascii_digit());
    digits.fold(0, |number, digit| 10 * number + u32::from(digit - b'0'))
}

/// The reading of an entry: the answer about the sheet's start variable at 0, and the lines that it follows from.
///
/// ```
/// use entryreader::{Answer, Reader};
///
/// let mut reader = Reader::new(b"    1    1   46    0    0\n    1    2   46    0    0\n")?;
/// let reading = reader.reading(b".")?;
/// assert_eq!(reading.answer, Answer::Success { end: 1, cells: 1 });
/// assert_eq!(reading.bytes, b"       1       0       0       1       0       0\n");
/// # Ok::<(), entryreader::Error>(())
/// ```
#[derive(Clone, Debug, PartialEq, Eq)]
pub struct Reading {
    /// The answer.
    pub answer: Answer,
    /// A line for each pair that the question reaches, in the order in which they are written; none for loop and missing.
    pub lines: Vec<Line>,
    /// The same lines as bytes, 49 for each: six fields of 8 columns and a line feed.
    pub bytes: Vec<u8>,
}

impl Reading {
    /// What a variable took of the entry that was read, the first time from the left. A success in a branch that was given up took nothing.
    ///
    /// ```
    /// use entryreader::Reader;
    ///
    /// // A digit (2), then a full stop (3).
    /// let mut reader = Reader::new(b"    3    1   46    0    0
    ///     1    4    2    3    2
    ///     2    3    1    0    0
    ///     3    2   46    0    0
    /// ")?;
    /// let reading = reader.reading(b"6.")?;
    /// assert_eq!(reading.taken(2, b"6."), Some(&b"6"[..]));
    /// assert_eq!(reading.taken(4, b"6."), None);
    /// # Ok::<(), entryreader::Error>(())
    /// ```
    pub fn taken<'a>(&self, variable: u32, entry: &'a [u8]) -> Option<&'a [u8]> {
        let mut met = vec![false; self.lines.len()];
        let mut ahead: Vec<usize> = self.lines.len().checked_sub(1).into_iter().collect();
        while let Some(number) = ahead.pop() {
            let line = self.lines.get(number)?;
            if !line.success || std::mem::replace(met.get_mut(number)?, true) {
                continue;
            }
            if line.variable == variable {
                return entry.get(calls::length(line.start)..calls::length(line.end));
            }
            // The first is above the second, and so comes before it.
            ahead.extend([line.second, line.first].into_iter().flatten());
        }
        None
    }

    /// The reading of an answer and the bytes of its lines.
    pub(crate) fn new(answer: Answer, bytes: Vec<u8>) -> Reading {
        Reading {
            answer,
            lines: bytes.chunks_exact(LINE).map(Line::from_bytes).collect(),
            bytes,
        }
    }
}
