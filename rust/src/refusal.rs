//! Refusals, and the one error type.
use std::fmt;

/// Why a call is refused. Each refusal has a number, which other programs and the documents use.
///
/// ```
/// use entryreader::Refusal;
///
/// assert_eq!(Refusal::Rule.number(), 5);
/// assert_eq!(Refusal::Rule.meaning(), "kind over 4, or operands that do not fit");
/// ```
#[derive(Clone, Copy, Debug, PartialEq, Eq, Hash)]
pub enum Refusal {
    /// 1: the sheet is empty, over 257 lines, or not lines of 26 bytes that end with byte 10.
    NotLines = 1,
    /// 2: a field of the sheet is no right-justified number.
    Field,
    /// 3: line 1 of the sheet is out of range, or its last two fields are not 0; of a table that is stored or restored: V is not 1 to 256.
    Header,
    /// 4: the variable of a sheet line is not in 1 to V, or not above that of the line before.
    RuleVariable,
    /// 5: the kind of a sheet line is over 4, or its operands do not fit.
    Rule,
    /// 6: the entry, of a correction the corrected one, has over 4,096 bytes; of a table that is stored or restored: n is over 4,096.
    LongEntry,
    /// 8: the variable asked for is not in 1 to V. There is no 7 since order 11.
    Variable = 8,
    /// 9: the position asked for is above the entry's length.
    Place,
    /// 10: the table has fewer than twice V times (n + 1) numbers, or the work slice fewer than V times (n + 1).
    Room,
    /// 11: the output has fewer bytes than the longest that could be written: 49 times V times (n + 1) for a reading, 26 times (allowance + 1)
    /// for the sheet of a text.
    Output,
    /// 12: the reading is not lines of six fields of 8 columns and byte 10.
    ReadingForm,
    /// 13: a line of the reading does not follow.
    ReadingLine,
    /// 14: the reading has no lines, or its last line is about another pair.
    ReadingPair,
    /// 15: the text is empty, not of the shorthand's form, or defines a letter twice.
    Text,
    /// 16: brackets of the text nest over 16 deep.
    Nesting,
    /// 17: the allowance of the text is over 256.
    Allowance,
    /// 18, of a correction: the corrected byte's position is not below the entry's length.
    Corrected,
    /// 19, of a correction and a further question only: a cell of the table has outcome 4 or one over 5 + n, a success that ends left of its place, or
    /// a success or a failure whose reach is below its place; for a correction a cell that it retains, for a further question any of the first V
    /// times (n + 1).
    Cell,
    /// 20, of a table that is stored or restored: it or the one that it goes to has fewer than twice V times (n + 1) numbers.
    Tables,
    /// 21, of a correction: the old entry and the corrected one differ in length, or at a position other than the corrected byte's.
    Entries,
}

impl Refusal {
    /// In the order of their numbers, from 1 on.
    const ALL: [Refusal; 20] = [
        Refusal::NotLines,
        Refusal::Field,
        Refusal::Header,
        Refusal::RuleVariable,
        Refusal::Rule,
        Refusal::LongEntry,
        Refusal::Variable,
        Refusal::Place,
        Refusal::Room,
        Refusal::Output,
        Refusal::ReadingForm,
        Refusal::ReadingLine,
        Refusal::ReadingPair,
        Refusal::Text,
        Refusal::Nesting,
        Refusal::Allowance,
        Refusal::Corrected,
        Refusal::Cell,
        Refusal::Tables,
        Refusal::Entries,
    ];

    /// The refusal of a number from 1 to 21, of which 7 is none.
    ///
    /// ```
    /// use entryreader::Refusal;
    ///
    /// assert_eq!(Refusal::from_number(6), Some(Refusal::LongEntry));
    /// assert_eq!(Refusal::from_number(7), None);
    /// ```
    pub fn from_number(number: u32) -> Option<Refusal> {
        Refusal::ALL
            .into_iter()
            .find(|refusal| refusal.number() == number)
    }

    /// Its number, from 1 to 6 or 8 to 21.
    ///
    /// ```
    /// use entryreader::Refusal;
    ///
    /// assert_eq!(Refusal::Variable.number(), 8);
    /// ```
    pub fn number(self) -> u32 {
        self as u32
    }

    /// What it means, in words.
    ///
    /// ```
    /// use entryreader::Refusal;
    ///
    /// assert_eq!(Refusal::LongEntry.meaning(), "the entry has over 4,096 bytes");
    /// ```
    pub fn meaning(self) -> &'static str {
        match self {
            Refusal::NotLines => {
                "the sheet is empty, has over 257 lines, or is not lines of 25 columns that end with a line feed"
            }
            Refusal::Field => "a field that is no right-justified number without leading zeros",
            Refusal::Header => {
                "the count of variables, the start or the endmarker is out of range, or the last two fields are not 0"
            }
            Refusal::RuleVariable => {
                "a variable that is not in 1 to V, or not above that of the line before"
            }
            Refusal::Rule => "kind over 4, or operands that do not fit",
            Refusal::LongEntry => "the entry has over 4,096 bytes",
            Refusal::Variable => "the variable asked for is not in 1 to V",
            Refusal::Place => "the position asked for is above the entry's length",
            Refusal::Room => {
                "the table has fewer than twice V times (n + 1) numbers, or the work slice fewer than V times (n + 1)"
            }
            Refusal::Output => "the output is too short for the longest that could be written",
            Refusal::ReadingForm => "not six fields of 8 columns and a line feed",
            Refusal::ReadingLine => {
                "it does not follow from the sheet, the entry and the lines before it"
            }
            Refusal::ReadingPair => {
                "the reading has no lines, or its last line is not about what was asked"
            }
            Refusal::Text => {
                "the text is empty, not of the shorthand's form, or defines a letter twice"
            }
            Refusal::Nesting => "brackets of the text nest over 16 deep",
            Refusal::Allowance => "the text needs over 256 variables",
            Refusal::Corrected => "the corrected byte's position is not below the entry's length",
            Refusal::Cell => {
                "a cell of the table holds what no question about this entry leaves there"
            }
            Refusal::Tables => "one of the two tables has fewer than twice V times (n + 1) numbers",
            Refusal::Entries => {
                "the old entry and the corrected one differ in length, or at a position other than the corrected byte's"
            }
        }
    }

    /// What it is whose line is at fault, where a line is.
    fn of_lines(self) -> &'static str {
        match self {
            Refusal::ReadingForm | Refusal::ReadingLine => "reading",
            _ => "sheet",
        }
    }
}

/// Why there is no answer: a refusal, and the line at fault where it is known.
///
/// ```
/// use entryreader::{Reader, Refusal};
///
/// let sheet = b"    2    1   46    0    0\n    1    4    2    2    2\n    2    7    0    0    0\n";
/// let error = Reader::new(sheet).unwrap_err();
/// assert_eq!((error.number(), error.line()), (5, Some(3)));
/// assert_eq!(error.refusal(), Refusal::Rule);
/// assert_eq!(error.to_string(), "line 3 of the sheet: kind over 4, or operands that do not fit");
/// ```
#[derive(Clone, Copy, Debug, PartialEq, Eq, Hash)]
pub struct Error {
    refusal: Refusal,
    line: Option<u32>,
}

impl Error {
    /// The error of a refusal's number and line, 0 for no line.
    pub(crate) fn new(number: u32, line: u32) -> Error {
        let refusal = Refusal::from_number(number)
            .unwrap_or_else(|| unreachable!("no call of the entry reader gives refusal {number}"));
        Error {
            refusal,
            line: (line != 0).then_some(line),
        }
    }

    /// The error of a call's code, 100 plus the number of a refusal.
    pub(crate) fn from_code(code: u32) -> Error {
        Error::new(code.saturating_sub(100), 0)
    }

    /// The same error, at a line.
    pub(crate) fn at_line(self, line: u32) -> Error {
        Error {
            line: Some(line),
            ..self
        }
    }

    /// Which refusal it is.
    ///
    /// ```
    /// use entryreader::{Reader, Refusal};
    ///
    /// assert_eq!(Reader::new(b"").unwrap_err().refusal(), Refusal::NotLines);
    /// ```
    pub fn refusal(&self) -> Refusal {
        self.refusal
    }

    /// The refusal's number.
    ///
    /// ```
    /// assert_eq!(entryreader::Reader::new(b"").unwrap_err().number(), 1);
    /// ```
    pub fn number(&self) -> u32 {
        self.refusal.number()
    }

    /// The line at fault, counted from 1: of the sheet for 2 to 5, of a reading for 12 and 13. Calls over lent slices do not all tell it.
    ///
    /// ```
    /// let error = entryreader::Reader::new(b"    1    1   46    0    x\n").unwrap_err();
    /// assert_eq!(error.line(), Some(1));
    /// ```
    pub fn line(&self) -> Option<u32> {
        self.line
    }
}

impl fmt::Display for Error {
    fn fmt(&self, f: &mut fmt::Formatter) -> fmt::Result {
        if let Some(line) = self.line {
            write!(f, "line {line} of the {}: ", self.refusal.of_lines())?;
        }
        f.write_str(self.refusal.meaning())
    }
}

impl std::error::Error for Error {}
