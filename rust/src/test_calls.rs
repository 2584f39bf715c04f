//! Machine, writer and checker, and some exported calls with their bare numbers: for tests and benchmarks, not for the program.
//!
//! Each call returns 0 with its numbers in `answer`, or 100 plus the number of a refusal, and then everything lent is as it was; [`sheet`] and
//! [`judge`] store a refusal in `answer`.
//! The code of an outcome is the one in its cell: 1 for failure, 2 loop, 3 missing, 5 + q for success ending at q.
//!
//! ```
//! use entryreader::{Pair, test_calls};
//!
//! let sheet = b"    1    1   46    0    0\n    1    2   46    0    0\n";
//! let (mut frames, mut answer) = ([0; 3], [0; 3]);
//! let asked = Pair { variable: 1, position: 0 };
//! assert_eq!(test_calls::run(sheet, b".", asked, &mut frames, 1, &mut answer), 0);
//! assert_eq!(answer, [6, 1, 1]);
//! ```
use crate::Pair;

/// The sheet call:
///
/// ```
/// use entryreader::test_calls::sheet;
///
/// let (mut answer, mut words) = ([0; 4], [0; 256]);
/// assert_eq!(sheet(b"    7    2   46    0    0\n", &mut answer, &mut words), 0);
/// assert_eq!(answer, [0, 7, 2, 46]);
/// assert_eq!(sheet(b"    7    8   46    0    0\n", &mut answer, &mut words), 103);
/// assert_eq!(answer, [3, 1, 0, 0]);
/// ```
pub use crate::calls::sheet;

/// The verdict over lent slices:
///
/// ```
/// use entryreader::test_calls::judge;
///
/// let sheet = b"    1    1   46    0    0\n    1    2   46    0    0\n";
/// let (mut table, mut work, mut answer) = ([0; 4], [0; 2], [0; 4]);
/// assert_eq!(judge(sheet, b".", &mut table, &mut work, &mut answer), 0);
/// assert_eq!(answer, [0, 0, 1, 1]);
/// assert_eq!(judge(sheet, b"", &mut table, &mut work, &mut answer), 0);
/// assert_eq!(answer, [1, 0, 0, 1]);
/// assert_eq!(judge(sheet, b"..", &mut table, &mut work, &mut answer), 0);
/// assert_eq!(answer, [9, 10, 0, 0]);
/// ```
pub use crate::calls::judge;

/// The opening that already loops: 1 and its length, or 0 and 0:
///
/// ```
/// use entryreader::test_calls::opening;
///
/// // 1 calls itself before it has taken a byte.
/// let sheet = b"    1    1   46    0    0\n    1    4    1    1    1\n";
/// let (mut table, mut work, mut answer) = ([0; 4], [0; 2], [7; 2]);
/// assert_eq!(opening(sheet, b"..", &mut table, &mut work, &mut answer), 110);
/// assert_eq!(answer, [7, 7]);
/// assert_eq!(opening(sheet, b".", &mut table, &mut work, &mut answer), 0);
/// assert_eq!(answer, [1, 0]);
/// ```
pub use crate::calls::opening;

/// The question, with the outcome's code, the named variable, the named position and the count of decided cells:
///
/// ```
/// use entryreader::test_calls::question;
///
/// let sheet = b"    1    1   46    0    0\n    1    2   46    0    0\n";
/// let (mut table, mut work, mut answer) = ([0; 4], [0; 2], [0; 4]);
/// assert_eq!(question(sheet, b".", 1, 0, &mut table, &mut work, &mut answer), 0);
/// assert_eq!(answer, [6, 0, 0, 1]);
/// assert_eq!(question(sheet, b".", 2, 0, &mut table, &mut work, &mut answer), 108);
/// ```
pub use crate::calls::question;

/// The correction of an old entry, with the question's numbers; the count is that of newly decided cells:
///
/// ```
/// use entryreader::test_calls::correct;
///
/// let sheet = b"    1    1   46    0    0\n    1    2   46    0    0\n";
/// let (mut table, mut work, mut answer) = ([0; 4], [0; 2], [0; 4]);
/// assert_eq!(correct(sheet, b",", b".", 1, 0, 0, &mut table, &mut work, &mut answer), 0);
/// assert_eq!(answer, [6, 0, 0, 1]);
/// assert_eq!(correct(sheet, b"", b".", 1, 0, 0, &mut table, &mut work, &mut answer), 121);
/// ```
pub use crate::calls::correct;

/// The further question, with the question's numbers; the count is that of newly decided cells:
///
/// ```
/// use entryreader::test_calls::further;
///
/// let sheet = b"    1    1   46    0    0\n    1    2   46    0    0\n";
/// let (mut table, mut work, mut answer) = ([0; 4], [0; 2], [0; 4]);
/// assert_eq!(further(sheet, b".", 1, 0, &mut table, &mut work, &mut answer), 0);
/// assert_eq!(answer, [6, 0, 0, 1]);
/// assert_eq!(further(sheet, b".", 1, 0, &mut table, &mut work, &mut answer), 0);
/// assert_eq!(answer, [6, 0, 0, 0]);
/// ```
pub use crate::calls::further;

/// The code of a run whose moves are spent.
///
/// ```
/// use entryreader::{Pair, test_calls::{SPENT, run}};
///
/// // 1 calls itself.
/// let sheet = b"    1    1   46    0    0\n    1    4    1    1    1\n";
/// let asked = Pair { variable: 1, position: 0 };
/// let mut answer = [0; 3];
/// assert_eq!(run(sheet, b"", asked, &mut [0; 30], 5, &mut answer), 0);
/// assert_eq!(answer, [SPENT, 0, 5]);
/// ```
pub const SPENT: u32 = 10_000;

/// The code of a run that lacks a frame.
///
/// ```
/// use entryreader::{Pair, test_calls::{NO_FRAME, run}};
///
/// let sheet = b"    1    1   46    0    0\n";
/// let asked = Pair { variable: 1, position: 0 };
/// let mut answer = [0; 3];
/// assert_eq!(run(sheet, b"", asked, &mut [], 5, &mut answer), 0);
/// assert_eq!(answer, [NO_FRAME, 0, 0]);
/// ```
pub const NO_FRAME: u32 = 10_001;

unsafe extern "C" {
    fn test_run(
        sheet: *const u8,
        sheet_length: usize,
        input: *const u8,
        input_length: usize,
        variable: u32,
        position: u32,
        frames: *mut u32,
        frames_length: usize,
        budget: u32,
        answer: *mut [u32; 3],
    ) -> u32;

    fn test_write(
        sheet: *const u8,
        sheet_length: usize,
        input: *const u8,
        input_length: usize,
        variable: u32,
        position: u32,
        table: *mut u32,
        table_length: usize,
        work: *mut u32,
        work_length: usize,
        out: *mut u8,
        out_length: usize,
        answer: *mut [u32; 5],
    ) -> u32;

    fn test_check(
        sheet: *const u8,
        sheet_length: usize,
        input: *const u8,
        input_length: usize,
        variable: u32,
        position: u32,
        reading: *const u8,
        reading_length: usize,
        answer: *mut [u32; 2],
    ) -> u32;
}

/// The backtracking machine, with three numbers of `frames` for each frame: the outcome's code ([`SPENT`] and [`NO_FRAME`] too), the end on success
/// or else 0, the moves.
///
/// ```
/// use entryreader::{Pair, test_calls::run};
///
/// let sheet = b"    1    1   46    0    0\n    1    2   46    0    0\n";
/// let asked = Pair { variable: 1, position: 0 };
/// let mut answer = [0; 3];
/// assert_eq!(run(sheet, b".", asked, &mut [0; 3], 10, &mut answer), 0);
/// assert_eq!(answer, [6, 1, 1]);
/// ```
pub fn run(
    sheet: &[u8],
    entry: &[u8],
    asked: Pair,
    frames: &mut [u32],
    budget: u32,
    answer: &mut [u32; 3],
) -> u32 {
    // SAFETY: the call has no precondition; it reads the first two slices, and writes inside the two that are lent exclusively.
    unsafe {
        test_run(
            sheet.as_ptr(),
            sheet.len(),
            entry.as_ptr(),
            entry.len(),
            asked.variable,
            asked.position,
            frames.as_mut_ptr(),
            frames.len(),
            budget,
            answer,
        )
    }
}

/// The writer: the four numbers of the question, then the count of lines. The lines stand at the beginning of `output`.
///
/// ```
/// use entryreader::{Pair, test_calls::write};
///
/// let sheet = b"    1    1   46    0    0\n    1    2   46    0    0\n";
/// let asked = Pair { variable: 1, position: 0 };
/// let (mut table, mut work, mut output, mut answer) = ([0; 4], [0; 2], [0; 98], [0; 5]);
/// assert_eq!(write(sheet, b".", asked, &mut table, &mut work, &mut output, &mut answer), 0);
/// assert_eq!(answer, [6, 0, 0, 1, 1]);
/// assert_eq!(&output[..49], b"       1       0       0       1       0       0\n");
/// ```
pub fn write(
    sheet: &[u8],
    entry: &[u8],
    asked: Pair,
    table: &mut [u32],
    work: &mut [u32],
    output: &mut [u8],
    answer: &mut [u32; 5],
) -> u32 {
    // SAFETY: the call has no precondition; it reads the first two slices, and writes inside the four that are lent exclusively.
    unsafe {
        test_write(
            sheet.as_ptr(),
            sheet.len(),
            entry.as_ptr(),
            entry.len(),
            asked.variable,
            asked.position,
            table.as_mut_ptr(),
            table.len(),
            work.as_mut_ptr(),
            work.len(),
            output.as_mut_ptr(),
            output.len(),
            answer,
        )
    }
}

/// The checker: the code of the outcome that the reading claims, and the end in its last line.
///
/// ```
/// use entryreader::{Pair, test_calls::check};
///
/// let sheet = b"    1    1   46    0    0\n    1    2   46    0    0\n";
/// let asked = Pair { variable: 1, position: 0 };
/// let reading = b"       1       0       0       1       0       0\n";
/// let mut answer = [0; 2];
/// assert_eq!(check(sheet, b".", asked, reading, &mut answer), 0);
/// assert_eq!(answer, [6, 1]);
/// ```
pub fn check(
    sheet: &[u8],
    entry: &[u8],
    asked: Pair,
    reading: &[u8],
    answer: &mut [u32; 2],
) -> u32 {
    // SAFETY: the call has no precondition; it reads the three slices, and writes inside the answer.
    unsafe {
        test_check(
            sheet.as_ptr(),
            sheet.len(),
            entry.as_ptr(),
            entry.len(),
            asked.variable,
            asked.position,
            reading.as_ptr(),
            reading.len(),
            answer,
        )
    }
}
