//! The exported calls one by one, over slices that the caller lends: for who keeps tables, or wants no memory taken. [`Reader`](crate::Reader) is
//! simpler.
//!
//! After a refusal everything lent is as it was.
//!
//! A table is kept, of a sheet and an entry, where it is blank, where [`question`] left it, where [`further`] left it over a kept one, or where
//! [`correct`] left it over a kept one of the old entry; [`judge`], [`opening`] and [`write()`] leave the table of the question that they ask. [`store`]
//! and [`restore`] take a table to an archive and back.
//!
//! ```
//! use entryreader::{Answer, lent};
//!
//! let sheet = b"    1    1   46    0    0\n    1    2   46    0    0\n";
//! let (mut table, mut work) = ([0; 4], [0; 2]);
//! let answer = lent::question(sheet, b".", 1, 0, &mut table, &mut work)?;
//! assert_eq!(answer, Answer::Success { end: 1, cells: 1 });
//! assert_eq!(table, [6, 1, 0, 0]);
//! # Ok::<(), entryreader::Error>(())
//! ```
use crate::{Answer, Claim, Code, Error, Verdict, calls};

/// Line 1 of a sheet.
///
/// ```
/// use entryreader::lent::{Header, sheet};
///
/// let header = sheet(b"    7    2   46    0    0\n", &mut [0; 256])?;
/// assert_eq!(header, Header { variables: 7, start: 2, endmarker: 46 });
/// # Ok::<(), entryreader::Error>(())
/// ```
#[derive(Clone, Copy, Debug, PartialEq, Eq, Hash)]
pub struct Header {
    /// V, the count of variables, 1 to 256.
    pub variables: u32,
    /// The start variable, 1 to V.
    pub start: u32,
    /// The endmarker, a byte that nothing uses.
    pub endmarker: u8,
}

/// Reads a sheet: its line 1, and in `words` the rule of each variable, one number each: the kind and 1, or 0 for no rule, then three operands, a byte each,
/// the highest first, called variables less 1.
///
/// ```
/// use entryreader::lent::sheet;
///
/// let mut words = [9; 256];
/// sheet(b"    2    1   46    0    0\n    1    2   45    0    0\n", &mut words)?;
/// assert_eq!(words[..2], [u32::from_be_bytes([3, 45, 0, 0]), 0]);
///
/// let error = sheet(b"    2    3   46    0    0\n", &mut words).unwrap_err();
/// assert_eq!((error.number(), error.line()), (3, Some(1)));
/// # Ok::<(), entryreader::Error>(())
/// ```
pub fn sheet(sheet: &[u8], words: &mut [u32; 256]) -> Result<Header, Error> {
    let mut answer = [0; 4];
    calls::sheet(sheet, &mut answer, words);
    match answer {
        [0, variables, start, endmarker] => Ok(Header {
            variables,
            start,
            endmarker: u8::try_from(endmarker)
                .unwrap_or_else(|_| unreachable!("an endmarker is a byte")),
        }),
        [number, line, _, _] => Err(Error::new(number, line)),
    }
}

/// The kind of the verdict on an entry. The call has 1,024 cells of its own: where V times (n + 1) is more, it is refused (10).
///
/// ```
/// use entryreader::{Code, lent::verdict};
///
/// let sheet = b"    1    1   46    0    0\n    1    2   46    0    0\n";
/// assert_eq!(verdict(sheet, b".")?, Code::Recognised);
/// assert_eq!(verdict(sheet, b"")?, Code::Failure);
/// assert_eq!(verdict(sheet, &[46; 1_024]).unwrap_err().number(), 10);
/// # Ok::<(), entryreader::Error>(())
/// ```
pub fn verdict(sheet: &[u8], entry: &[u8]) -> Result<Code, Error> {
    let code = calls::verdict(sheet, entry);
    Code::from_number(code).ok_or_else(|| Error::from_code(code))
}

/// The verdict on an entry, over a lent table of twice V times (n + 1) numbers or more and a lent work slice of V times (n + 1) or more. The table is
/// left as [`question`] leaves it.
///
/// ```
/// use entryreader::{Verdict, lent::judge};
///
/// let sheet = b"    1    1   46    0    0\n    1    2   46    0    0\n";
/// let (mut table, mut work) = ([0; 4], [0; 2]);
/// assert_eq!(judge(sheet, b".", &mut table, &mut work)?, Verdict::Recognised { cells: 1 });
/// # Ok::<(), entryreader::Error>(())
/// ```
pub fn judge(
    sheet: &[u8],
    entry: &[u8],
    table: &mut [u32],
    work: &mut [u32],
) -> Result<Verdict, Error> {
    let mut answer = [0; 4];
    calls::judge(sheet, entry, table, work, &mut answer);
    Verdict::from_numbers(answer)
}

/// The opening of an entry that already loops: where the verdict is loop, the least number of the entry's first bytes on which the start variable at 0
/// loops too; a longer opening need not, so that one after the other is asked, up to n of them. None for any other verdict, though an opening may loop.
/// Table and work slice are lent as to [`judge`], which refuses the same and leaves the same table.
///
/// ```
/// use entryreader::lent::opening;
///
/// // Any number of `6`, then `-` and a loop.
/// let sheet = b"    6    1   46    0    0
///     1    4    2    1    3
///     2    2   54    0    0
///     3    4    4    5    6
///     4    2   45    0    0
///     5    4    5    5    5
///     6    1    0    0    0
/// ";
/// let (mut table, mut work) = ([0; 60], [0; 30]);
/// assert_eq!(opening(sheet, b"66-.", &mut table, &mut work)?, Some(3));
/// assert_eq!(opening(sheet, b"66x.", &mut table, &mut work)?, None);
/// # Ok::<(), entryreader::Error>(())
/// ```
pub fn opening(
    sheet: &[u8],
    entry: &[u8],
    table: &mut [u32],
    work: &mut [u32],
) -> Result<Option<usize>, Error> {
    let mut answer = [0; 2];
    match calls::opening(sheet, entry, table, work, &mut answer) {
        0 => Ok((answer[0] == 1).then(|| calls::length(answer[1]))),
        code => Err(Error::from_code(code)),
    }
}

/// The outcome of a variable at a position of an entry, over a lent table of twice V times (n + 1) numbers or more and a lent work slice of V times
/// (n + 1) or more.
///
/// A cell is two numbers side by side, outcome then reach; that of variable A at p is number (A - 1) times (n + 1) plus p. Afterwards its outcome is 0
/// if its pair is not reached, 1 for failure, 2 for loop, 3 for missing, 5 + q for success ending at q. Its reach is how far a success or a failure
/// looked: p for a rule of kind 0 or 1, p + 1 for one that asks for a byte or a class, and the greater of the two called pairs' for one that calls; any
/// other is 0. Later numbers of both slices are unchanged.
///
/// A reach of n + 1 says that the entry's end was looked at. A success or a failure whose reach is at most n is the same with any bytes appended, and so
/// are a loop and a missing rule, with their named pair, where the reach of every cell that the question left is at most n.
///
/// ```
/// use entryreader::{Answer, lent::question};
///
/// let sheet = b"    1    1   46    0    0\n    1    2   46    0    0\n";
/// let (mut table, mut work) = ([7; 5], [7; 3]);
/// let answer = question(sheet, b".", 1, 0, &mut table, &mut work)?;
/// assert_eq!(answer, Answer::Success { end: 1, cells: 1 });
/// assert_eq!(table, [6, 1, 0, 0, 7]);
/// # Ok::<(), entryreader::Error>(())
/// ```
pub fn question(
    sheet: &[u8],
    entry: &[u8],
    variable: u32,
    position: u32,
    table: &mut [u32],
    work: &mut [u32],
) -> Result<Answer, Error> {
    let mut numbers = [0; 4];
    let code = calls::question(sheet, entry, variable, position, table, work, &mut numbers);
    Answer::from_numbers(code, numbers)
}

/// The outcome of a variable at a position of an entry of which the byte at `c` was corrected, over a kept table of the `old` entry; `cells` is the count
/// of newly decided cells. Since order 10 the old entry is handed over too: calls that were written before have to be changed.
/// [`Reader::correct`](crate::Reader::correct) keeps entry and table itself.
///
/// It is refused (21) where the two entries differ in length or at a position other than `c`; at `c` they may differ or not. That comes behind 18 and
/// before 19, and 6 is about the corrected entry only. Whether the table is of the old entry and this sheet is not tested.
///
/// Cells at positions up to `c` are blanked, unless they hold a success or a failure whose reach is at most `c`; the others are retained. Over a kept
/// table of the old entry and this sheet the answer is then the one that a fresh table gives, and afterwards a cell is not blank where it was retained so
/// or its pair is reached, and holds its pair's outcome and reach: the table is a kept one of the corrected entry. From any other table nothing is
/// promised but that the call ends within its slices, or is refused (19) for a retained cell. Later numbers of both slices are unchanged.
///
/// ```
/// use entryreader::{Answer, lent::{correct, question}};
///
/// // A digit and a full stop.
/// let sheet = b"    3    1   46    0    0
///     1    4    2    3    2
///     2    3    1    0    0
///     3    2   46    0    0
/// ";
/// let (mut table, mut work) = ([0; 18], [0; 9]);
/// assert_eq!(question(sheet, b"6.", 1, 0, &mut table, &mut work)?, Answer::Success { end: 2, cells: 3 });
/// // The byte at 0 is a 9, after all: the full stop behind it is not read again.
/// let answer = correct(sheet, b"6.", b"9.", 1, 0, 0, &mut table, &mut work)?;
/// assert_eq!(answer, Answer::Success { end: 2, cells: 2 });
/// // The byte at 1 is a comma. With 0 named for it the full stop would stay in the table: it is refused, and the table is as it was.
/// let before = table;
/// let error = correct(sheet, b"9.", b"9,", 1, 0, 0, &mut table, &mut work).unwrap_err();
/// assert_eq!((error.number(), table), (21, before));
/// // With 1 named the digit before it is not read again.
/// let answer = correct(sheet, b"9.", b"9,", 1, 0, 1, &mut table, &mut work)?;
/// assert_eq!(answer, Answer::Failure { cells: 2 });
/// # Ok::<(), entryreader::Error>(())
/// ```
#[allow(clippy::too_many_arguments)] // Those of the exported call.
pub fn correct(
    sheet: &[u8],
    old: &[u8],
    entry: &[u8],
    variable: u32,
    position: u32,
    c: u32,
    table: &mut [u32],
    work: &mut [u32],
) -> Result<Answer, Error> {
    let mut numbers = [0; 4];
    let code = calls::correct(
        sheet,
        old,
        entry,
        variable,
        position,
        c,
        table,
        work,
        &mut numbers,
    );
    Answer::from_numbers(code, numbers)
}

/// The outcome of a variable at a position of an entry, over a kept table of the same entry, of which nothing is blanked; `cells` is the count of newly
/// decided cells. [`Reader::further`](crate::Reader::further) keeps entry and table itself.
///
/// The answer is the one that a fresh table gives, and afterwards a cell is not blank where it was not blank before or its pair is reached, and holds its
/// pair's outcome and reach: the table is kept still. Two further questions get the same answers but for `cells`, and leave the same table, in either
/// order.
///
/// It is refused (19) where any of the first V times (n + 1) cells has outcome 4 or one over 5 + n, a success that ends left of its place, or a success
/// or a failure whose reach is below its place. From any other table that is not kept nothing is promised but that the call ends within its slices.
/// Later numbers of both slices are unchanged.
///
/// ```
/// use entryreader::{Answer, lent::{further, question}};
///
/// // A digit and a full stop.
/// let sheet = b"    3    1   46    0    0
///     1    4    2    3    2
///     2    3    1    0    0
///     3    2   46    0    0
/// ";
/// let (mut table, mut work) = ([0; 18], [0; 9]);
/// assert_eq!(question(sheet, b"6.", 2, 0, &mut table, &mut work)?, Answer::Success { end: 1, cells: 1 });
/// // The digit is not read again.
/// assert_eq!(further(sheet, b"6.", 1, 0, &mut table, &mut work)?, Answer::Success { end: 2, cells: 2 });
/// assert_eq!(further(sheet, b"6.", 2, 0, &mut table, &mut work)?, Answer::Success { end: 1, cells: 0 });
/// // No question leaves a success at 1 that reaches 0.
/// table[2 * 4..2 * 5].copy_from_slice(&[7, 0]);
/// assert_eq!(further(sheet, b"6.", 2, 1, &mut table, &mut work).unwrap_err().number(), 19);
/// # Ok::<(), entryreader::Error>(())
/// ```
pub fn further(
    sheet: &[u8],
    entry: &[u8],
    variable: u32,
    position: u32,
    table: &mut [u32],
    work: &mut [u32],
) -> Result<Answer, Error> {
    let mut numbers = [0; 4];
    let code = calls::further(sheet, entry, variable, position, table, work, &mut numbers);
    Answer::from_numbers(code, numbers)
}

/// Stores the cells of a table of so many variables and bytes by place, for an archive: the cell of variable A at p, both its numbers, becomes cell p
/// times V plus A - 1. [`restore`] is the way back.
///
/// Each of the two tables has twice V times (n + 1) numbers or more. What the cells hold is not looked at, and later numbers of `stored` are unchanged.
///
/// ```
/// use entryreader::lent::{judge, store};
///
/// // A digit and a full stop.
/// let sheet = b"    3    1   46    0    0
///     1    4    2    3    2
///     2    3    1    0    0
///     3    2   46    0    0
/// ";
/// let (mut table, mut work, mut stored) = ([0; 18], [0; 9], [0; 18]);
/// judge(sheet, b"6.", &mut table, &mut work)?;
/// assert_eq!(table, [7, 2, 0, 0, 0, 0, 6, 1, 0, 0, 0, 0, 0, 0, 7, 2, 0, 0]);
/// store(3, 2, &table, &mut stored)?;
/// // Variables 1 and 2 at 0, and 3 at 1.
/// assert_eq!(stored, [7, 2, 6, 1, 0, 0, 0, 0, 0, 0, 7, 2, 0, 0, 0, 0, 0, 0]);
/// assert_eq!(store(3, 2, &table, &mut stored[..17]).unwrap_err().number(), 20);
/// # Ok::<(), entryreader::Error>(())
/// ```
pub fn store(variables: u32, length: u32, table: &[u32], stored: &mut [u32]) -> Result<(), Error> {
    done(calls::store(variables, length, table, stored))
}

/// Restores the cells of a table that was stored with [`store`], to any table that is long enough. Where the table was a kept one, the restored one is
/// kept too.
///
/// ```
/// use entryreader::{Answer, lent::{further, judge, restore, store}};
///
/// // A digit and a full stop.
/// let sheet = b"    3    1   46    0    0
///     1    4    2    3    2
///     2    3    1    0    0
///     3    2   46    0    0
/// ";
/// let (mut table, mut work, mut stored) = ([0; 18], [0; 9], [0; 18]);
/// judge(sheet, b"6.", &mut table, &mut work)?;
/// store(3, 2, &table, &mut stored)?;
/// let mut restored = [9; 18];
/// restore(3, 2, &stored, &mut restored)?;
/// assert_eq!(restored, table);
/// // Nothing is read again.
/// assert_eq!(further(sheet, b"6.", 1, 0, &mut restored, &mut work)?, Answer::Success { end: 2, cells: 0 });
/// # Ok::<(), entryreader::Error>(())
/// ```
pub fn restore(
    variables: u32,
    length: u32,
    stored: &[u32],
    table: &mut [u32],
) -> Result<(), Error> {
    done(calls::restore(variables, length, stored, table))
}

/// What a call without an answer returns.
fn done(code: u32) -> Result<(), Error> {
    match code {
        0 => Ok(()),
        code => Err(Error::from_code(code)),
    }
}

/// The question, with its reading written at the front of `out`, which has 49 times V times (n + 1) bytes or more: the answer, and the count of lines.
/// What stands behind them is unchanged.
///
/// ```
/// use entryreader::{Answer, lent::write};
///
/// let sheet = b"    1    1   46    0    0\n    1    2   46    0    0\n";
/// let (mut table, mut work, mut out) = ([0; 4], [0; 2], [0; 98]);
/// let (answer, lines) = write(sheet, b".", 1, 0, &mut table, &mut work, &mut out)?;
/// assert_eq!((answer, lines), (Answer::Success { end: 1, cells: 1 }, 1));
/// assert_eq!(&out[..49], b"       1       0       0       1       0       0\n");
/// # Ok::<(), entryreader::Error>(())
/// ```
pub fn write(
    sheet: &[u8],
    entry: &[u8],
    variable: u32,
    position: u32,
    table: &mut [u32],
    work: &mut [u32],
    out: &mut [u8],
) -> Result<(Answer, u32), Error> {
    let mut numbers = [0; 5];
    let code = calls::write(
        sheet,
        entry,
        variable,
        position,
        table,
        work,
        out,
        &mut numbers,
    );
    let [outcome, named_variable, named_position, cells, lines] = numbers;
    let answer = Answer::from_numbers(code, [outcome, named_variable, named_position, cells])?;
    Ok((answer, lines))
}

/// Checks a reading about a variable at a position: what it claims, where each of its lines follows and the last is about that pair.
///
/// ```
/// use entryreader::{Claim, lent::check};
///
/// let sheet = b"    1    1   46    0    0\n    1    2   46    0    0\n";
/// let reading = b"       1       0       0       1       0       0\n";
/// assert_eq!(check(sheet, b".", 1, 0, reading)?, Claim::Success { end: 1 });
/// assert_eq!(check(sheet, b"6", 1, 0, reading).unwrap_err().number(), 13);
/// # Ok::<(), entryreader::Error>(())
/// ```
pub fn check(
    sheet: &[u8],
    entry: &[u8],
    variable: u32,
    position: u32,
    reading: &[u8],
) -> Result<Claim, Error> {
    let mut numbers = [0; 2];
    let code = calls::check(sheet, entry, variable, position, reading, &mut numbers);
    Claim::from_numbers(code, numbers)
}

/// The rule sheet of a text of the societies' shorthand, written at the front of `out`: its length. What stands behind it is unchanged.
///
/// A line is a capital, `=`, rows parted by `/`, and a line feed; a row is capitals, bytes between single quotes, `%`, and rows in round or
/// square brackets. The letters are variables 1, 2 and so on by first appearance; the sheet's start is 1 and its endmarker, which nothing uses, the full stop.
///
/// ```
/// use entryreader::lent::shorthand;
///
/// let mut out = [0; 2_000];
/// let length = shorthand(b"S='-'D/D\nD=('0'/'6')'.'\n", &mut out)?;
/// assert_eq!(length % 26, 0);
/// # Ok::<(), entryreader::Error>(())
/// ```
pub fn shorthand(text: &[u8], out: &mut [u8]) -> Result<usize, Error> {
    let mut answer = [0];
    match calls::shorthand(text, out, &mut answer) {
        0 => Ok(calls::length(answer[0])),
        code => Err(Error::from_code(code)),
    }
}
