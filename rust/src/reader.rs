//! A sheet with the memory that its calls need.
use crate::lent::{self, Header};
use crate::reading::LINE;
use crate::{Answer, Claim, Error, Reading, Refusal, Rule, Verdict, calls};

/// The greatest length of an entry. A longer one is refused, whatever the table's size.
const LONGEST: usize = 4_096;

/// The length of the longest sheet: line 1 and 256 rules.
const LONGEST_SHEET: usize = 26 * 257;

/// A rule sheet that was read, and the memory for questions about entries, which grows to what an entry needs and is used again.
///
/// ```
/// use entryreader::{Reader, Verdict};
///
/// // A sign, or none; then a digit and a full stop.
/// let mut reader = Reader::new(b"    6    1   46    0    0
///     1    4    2    3    3
///     2    2   45    0    0
///     3    4    4    5    6
///     4    3    1    0    0
///     5    2   46    0    0
///     6    1    0    0    0
/// ")?;
/// assert!(reader.verdict(b"-6.")?.is_recognised());
/// assert_eq!(reader.verdict(b"x.")?, Verdict::Failure { cells: 5 });
/// # Ok::<(), entryreader::Error>(())
/// ```
#[derive(Clone, Debug)]
pub struct Reader {
    sheet: Vec<u8>,
    header: Header,
    words: Box<[u32; 256]>,
    letters: Vec<u8>,
    /// That of the last answer; empty before the first.
    entry: Vec<u8>,
    /// Its first V times (n + 1) cells are those that the last answer left of the entry, blank before the first: a kept table, for corrections and
    /// further questions.
    table: Vec<u32>,
    work: Vec<u32>,
    output: Vec<u8>,
}

impl Reader {
    /// Reads a rule sheet.
    ///
    /// ```
    /// use entryreader::Reader;
    ///
    /// let reader = Reader::new(b"    2    1   46    0    0\n")?;
    /// assert_eq!(reader.variables(), 2);
    /// assert_eq!(Reader::new(b"nothing of the kind").unwrap_err().number(), 1);
    /// # Ok::<(), entryreader::Error>(())
    /// ```
    pub fn new(sheet: &[u8]) -> Result<Reader, Error> {
        let mut words = Box::new([0; 256]);
        let header = lent::sheet(sheet, &mut words)?;
        let mut reader = Reader {
            sheet: sheet.to_vec(),
            header,
            words,
            letters: Vec::new(),
            entry: Vec::new(),
            table: Vec::new(),
            work: Vec::new(),
            output: Vec::new(),
        };
        reader.make_room(&[]);
        Ok(reader)
    }

    /// Turns a text of the societies' shorthand into a sheet and reads that. The text's letters stand for their variables in what is shown
    /// ([`name`](Reader::name)).
    ///
    /// ```
    /// use entryreader::Reader;
    ///
    /// let mut reader = Reader::from_shorthand(b"S='-'D/D\nD=('0'/'6')'.'\n")?;
    /// assert!(reader.verdict(b"-6.")?.is_recognised());
    /// assert_eq!(reader.name(2), "D");
    /// # Ok::<(), entryreader::Error>(())
    /// ```
    pub fn from_shorthand(text: &[u8]) -> Result<Reader, Error> {
        let mut sheet = vec![0; LONGEST_SHEET];
        let length = lent::shorthand(text, &mut sheet)?;
        let reader = Reader::new(&sheet[..length])?;
        Ok(Reader {
            letters: letters(text),
            ..reader
        })
    }

    /// The verdict on an entry.
    ///
    /// ```
    /// use entryreader::{Reader, Verdict};
    ///
    /// let mut reader = Reader::new(b"    1    1   46    0    0\n    1    2   46    0    0\n")?;
    /// assert_eq!(reader.verdict(b".")?, Verdict::Recognised { cells: 1 });
    /// // It asks for a byte where the entry has ended.
    /// assert_eq!(reader.verdict(b"")?, Verdict::Failure { cells: 1 });
    /// # Ok::<(), entryreader::Error>(())
    /// ```
    pub fn verdict(&mut self, entry: &[u8]) -> Result<Verdict, Error> {
        self.make_room(entry);
        let verdict = lent::judge(&self.sheet, entry, &mut self.table, &mut self.work)?;
        entry.clone_into(&mut self.entry);
        Ok(verdict)
    }

    /// The opening of an entry that already loops: where the [`verdict`](Reader::verdict) is loop, the least number of the entry's first bytes on which
    /// the start variable at 0 loops too; a longer opening need not, so that one after the other is asked, up to n of them. None for any other verdict,
    /// though an opening may loop. Refusals, and the entry and the table that are kept, are the verdict's.
    ///
    /// ```
    /// use entryreader::Reader;
    ///
    /// // Any number of `6`, then `-` and a loop.
    /// let mut reader = Reader::from_shorthand(b"S='6'S/'-'L\nL=L\n")?;
    /// assert_eq!(reader.opening(b"66-6-666.")?, Some(3));
    /// assert_eq!(reader.opening(b"666.")?, None);
    /// assert_eq!(reader.opening(b"66-")?, Some(3));
    /// # Ok::<(), entryreader::Error>(())
    /// ```
    pub fn opening(&mut self, entry: &[u8]) -> Result<Option<usize>, Error> {
        self.make_room(entry);
        let least = lent::opening(&self.sheet, entry, &mut self.table, &mut self.work)?;
        entry.clone_into(&mut self.entry);
        Ok(least)
    }

    /// The answer about a variable at a position of an entry.
    ///
    /// ```
    /// use entryreader::{Answer, Reader};
    ///
    /// let mut reader = Reader::new(b"    1    1   46    0    0\n    1    3    1    0    0\n")?;
    /// assert_eq!(reader.ask(b"1847", 1, 3)?, Answer::Success { end: 4, cells: 1 });
    /// assert_eq!(reader.ask(b"1847", 2, 3).unwrap_err().number(), 8);
    /// # Ok::<(), entryreader::Error>(())
    /// ```
    pub fn ask(&mut self, entry: &[u8], variable: u32, position: u32) -> Result<Answer, Error> {
        self.make_room(entry);
        let (table, work) = (&mut self.table, &mut self.work);
        let answer = lent::question(&self.sheet, entry, variable, position, table, work)?;
        entry.clone_into(&mut self.entry);
        Ok(answer)
    }

    /// Corrects the byte at `c` of the [`entry`](Reader::entry) of the last answer, and gives the answer about a variable at a position of it: the one
    /// that [`ask`](Reader::ask) gives, but for `cells`, the count of newly decided cells. What the byte cannot have changed is kept from the
    /// answers before.
    ///
    /// A refusal (8, 9 or 18) leaves entry and table as they were. Before the first answer the entry is empty, and has no byte to correct (18).
    ///
    /// ```
    /// use entryreader::{Answer, Reader};
    ///
    /// // A digit and a full stop.
    /// let mut reader = Reader::new(b"    3    1   46    0    0
    ///     1    4    2    3    2
    ///     2    3    1    0    0
    ///     3    2   46    0    0
    /// ")?;
    /// assert_eq!(reader.ask(b"6,", 1, 0)?, Answer::Failure { cells: 3 });
    /// // The comma is a full stop: the digit before it is not read again.
    /// assert_eq!(reader.correct(1, b'.', 1, 0)?, Answer::Success { end: 2, cells: 2 });
    /// assert_eq!(reader.entry(), b"6.");
    /// assert_eq!(reader.correct(2, b'.', 1, 0).unwrap_err().number(), 18);
    /// # Ok::<(), entryreader::Error>(())
    /// ```
    pub fn correct(
        &mut self,
        c: u32,
        byte: u8,
        variable: u32,
        position: u32,
    ) -> Result<Answer, Error> {
        let mut entry = self.entry.clone();
        if let Some(corrected) = entry.get_mut(calls::length(c)) {
            *corrected = byte;
        }
        let (sheet, old) = (&self.sheet, &self.entry);
        let (table, work) = (&mut self.table, &mut self.work);
        let answer = lent::correct(sheet, old, &entry, variable, position, c, table, work)?;
        self.entry = entry;
        Ok(answer)
    }

    /// A further question about the [`entry`](Reader::entry) of the last answer: the answer about a variable at a position of it, the one that
    /// [`ask`](Reader::ask) gives, but for `cells`, the count of newly decided cells. Successes and failures of the answers before are looked up; a loop
    /// or a missing rule is followed again, to name its pair.
    ///
    /// A refusal (8 or 9) leaves entry and table as they were. Before the first answer it is a question about the empty entry.
    ///
    /// ```
    /// use entryreader::{Answer, Reader, Verdict};
    ///
    /// // A digit and a full stop.
    /// let mut reader = Reader::new(b"    3    1   46    0    0
    ///     1    4    2    3    2
    ///     2    3    1    0    0
    ///     3    2   46    0    0
    /// ")?;
    /// assert_eq!(reader.verdict(b"6.")?, Verdict::Recognised { cells: 3 });
    /// // The verdict has read the digit at 0, and looked for none at 1.
    /// assert_eq!(reader.further(2, 0)?, Answer::Success { end: 1, cells: 0 });
    /// assert_eq!(reader.further(2, 1)?, Answer::Failure { cells: 1 });
    /// assert_eq!(reader.further(2, 3).unwrap_err().number(), 9);
    /// # Ok::<(), entryreader::Error>(())
    /// ```
    pub fn further(&mut self, variable: u32, position: u32) -> Result<Answer, Error> {
        let (table, work) = (&mut self.table, &mut self.work);
        lent::further(&self.sheet, &self.entry, variable, position, table, work)
    }

    /// The reading of an entry: the answer about the start variable at 0, and for success and failure the lines that show it.
    ///
    /// ```
    /// use entryreader::Reader;
    ///
    /// let mut reader = Reader::new(b"    1    1   46    0    0\n    1    2   46    0    0\n")?;
    /// let reading = reader.reading(b".")?;
    /// assert_eq!(reading.lines.len(), 1);
    /// reader.check(b".", &reading.bytes)?;
    /// # Ok::<(), entryreader::Error>(())
    /// ```
    pub fn reading(&mut self, entry: &[u8]) -> Result<Reading, Error> {
        let cells = self.make_room(entry);
        if self.output.len() < LINE * cells {
            self.output = vec![0; LINE * cells];
        }
        let (table, work, output) = (&mut self.table, &mut self.work, &mut self.output);
        let start = self.header.start;
        let (answer, lines) = lent::write(&self.sheet, entry, start, 0, table, work, output)?;
        entry.clone_into(&mut self.entry);
        Ok(Reading::new(
            answer,
            self.output[..LINE * calls::length(lines)].to_vec(),
        ))
    }

    /// Checks a reading of an entry, wherever it comes from: what it claims, where each line follows and the last is about the start variable at 0.
    ///
    /// ```
    /// use entryreader::{Claim, Reader};
    ///
    /// let reader = Reader::new(b"    1    1   46    0    0\n    1    2   46    0    0\n")?;
    /// let mut reading = b"       1       0       0       1       0       0\n".to_vec();
    /// assert_eq!(reader.check(b".", &reading)?, Claim::Success { end: 1 });
    /// reading[31] = b'0';
    /// let error = reader.check(b".", &reading).unwrap_err();
    /// assert_eq!((error.number(), error.line()), (13, Some(1)));
    /// # Ok::<(), entryreader::Error>(())
    /// ```
    pub fn check(&self, entry: &[u8], reading: &[u8]) -> Result<Claim, Error> {
        let found = lent::check(&self.sheet, entry, self.header.start, 0, reading);
        found.map_err(|error| match self.faulty_line(entry, reading) {
            Some(line) if at_a_line(&error) && reading.len().is_multiple_of(LINE) => {
                error.at_line(line)
            }
            _ => error,
        })
    }

    /// The first line at fault, by the checker itself: without it and what follows, no line is.
    fn faulty_line(&self, entry: &[u8], reading: &[u8]) -> Option<u32> {
        let faulty = |lines: usize| {
            let part = reading.get(..LINE * lines).unwrap_or(reading);
            lent::check(&self.sheet, entry, self.header.start, 0, part)
                .is_err_and(|error| at_a_line(&error))
        };
        let (mut good, mut bad) = (0, reading.len() / LINE);
        while good + 1 < bad {
            let middle = good.midpoint(bad);
            *(if faulty(middle) { &mut bad } else { &mut good }) = middle;
        }
        u32::try_from(bad).ok()
    }

    /// V, the count of variables.
    ///
    /// ```
    /// let reader = entryreader::Reader::new(b"    7    2   46    0    0\n")?;
    /// assert_eq!(reader.variables(), 7);
    /// # Ok::<(), entryreader::Error>(())
    /// ```
    pub fn variables(&self) -> u32 {
        self.header.variables
    }

    /// The start variable.
    ///
    /// ```
    /// let reader = entryreader::Reader::new(b"    7    2   46    0    0\n")?;
    /// assert_eq!(reader.start(), 2);
    /// # Ok::<(), entryreader::Error>(())
    /// ```
    pub fn start(&self) -> u32 {
        self.header.start
    }

    /// The endmarker of the sheet's line 1, which is a byte like others: nothing uses it since order 11.
    ///
    /// ```
    /// let reader = entryreader::Reader::new(b"    7    2   46    0    0\n")?;
    /// assert_eq!(reader.endmarker(), b'.');
    /// # Ok::<(), entryreader::Error>(())
    /// ```
    pub fn endmarker(&self) -> u8 {
        self.header.endmarker
    }

    /// The sheet's bytes; after [`from_shorthand`](Reader::from_shorthand) those of the sheet that the text became.
    ///
    /// ```
    /// let reader = entryreader::Reader::new(b"    7    2   46    0    0\n")?;
    /// assert_eq!(reader.sheet(), b"    7    2   46    0    0\n");
    /// # Ok::<(), entryreader::Error>(())
    /// ```
    pub fn sheet(&self) -> &[u8] {
        &self.sheet
    }

    /// The rule of a variable, if it has one.
    ///
    /// ```
    /// use entryreader::{Reader, Rule};
    ///
    /// let reader = Reader::new(b"    2    1   46    0    0\n    1    2   45    0    0\n")?;
    /// assert_eq!(reader.rule(1), Some(Rule::Byte(b'-')));
    /// assert_eq!(reader.rule(2), None);
    /// # Ok::<(), entryreader::Error>(())
    /// ```
    pub fn rule(&self, variable: u32) -> Option<Rule> {
        let index = calls::length(variable).checked_sub(1)?;
        Rule::from_word(*self.words.get(index)?)
    }

    /// What a variable is called: the letter of the shorthand, or its number.
    ///
    /// ```
    /// use entryreader::Reader;
    ///
    /// assert_eq!(Reader::new(b"    2    1   46    0    0\n")?.name(2), "2");
    /// assert_eq!(Reader::from_shorthand(b"S=W\nW='a'\n")?.name(2), "W");
    /// # Ok::<(), entryreader::Error>(())
    /// ```
    pub fn name(&self, variable: u32) -> String {
        let letter = calls::length(variable)
            .checked_sub(1)
            .and_then(|index| self.letters.get(index));
        letter.map_or_else(
            || variable.to_string(),
            |letter| char::from(*letter).to_string(),
        )
    }

    /// The entry that the table is of: that of the last answer, after a correction the corrected one; empty before the first.
    ///
    /// ```
    /// let mut reader = entryreader::Reader::new(b"    1    1   46    0    0\n    1    2   46    0    0\n")?;
    /// assert_eq!(reader.entry(), b"");
    /// reader.verdict(b".")?;
    /// // Refused: it is too long.
    /// assert!(reader.verdict(&[b'.'; 4_097]).is_err());
    /// assert_eq!(reader.entry(), b".");
    /// # Ok::<(), entryreader::Error>(())
    /// ```
    pub fn entry(&self) -> &[u8] {
        &self.entry
    }

    /// The table that the last answer left of the [`entry`](Reader::entry), as [`question`](lent::question), [`further`](lent::further) and
    /// [`correct`](lent::correct) say: V times (n + 1) cells of two numbers, outcome then reach; blank before the first answer.
    ///
    /// ```
    /// let mut reader = entryreader::Reader::new(b"    1    1   46    0    0\n    1    2   46    0    0\n")?;
    /// reader.verdict(b".")?;
    /// assert_eq!(reader.table(), [6, 1, 0, 0]);
    /// // No reach is above 1: the entry's end was not looked at, and with any bytes behind it the answer is the same.
    /// assert!(reader.table().chunks(2).all(|cell| cell[1] <= 1));
    /// reader.verdict(b"")?;
    /// assert_eq!(reader.table(), [1, 1]);
    /// # Ok::<(), entryreader::Error>(())
    /// ```
    pub fn table(&self) -> &[u32] {
        &self.table[..2 * self.cells(self.entry.len())]
    }

    /// How many cells an entry of so many bytes has: V times (n + 1).
    fn cells(&self, length: usize) -> usize {
        calls::length(self.header.variables) * (length + 1)
    }

    /// Lets the table grow to two numbers for each cell of an entry, and the work slice to one: the count of cells. What they hold stays.
    fn make_room(&mut self, entry: &[u8]) -> usize {
        let cells = self.cells(entry.len().min(LONGEST));
        if self.work.len() < cells {
            self.table.resize(2 * cells, 0);
            self.work.resize(cells, 0);
        }
        cells
    }
}

/// Is it a refusal that a line of a reading brings on?
fn at_a_line(error: &Error) -> bool {
    matches!(error.refusal(), Refusal::ReadingForm | Refusal::ReadingLine)
}

/// The letters of a text in the order of their first appearance, which is that of their variables. A byte between quotes is none.
fn letters(text: &[u8]) -> Vec<u8> {
    let mut found = Vec::new();
    let mut rest = text;
    while let [byte, after @ ..] = rest {
        rest = if *byte == b'\'' {
            after.get(2..).unwrap_or(&[])
        } else {
            after
        };
        if byte.is_ascii_uppercase() && !found.contains(byte) {
            found.push(*byte);
        }
    }
    found
}
