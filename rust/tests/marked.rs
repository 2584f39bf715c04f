//! Document 01's marked entries, as far as the two calls show them: a to j without the machine's b and c.
#[allow(dead_code)] // Other tests check the reading.
mod marked_cases;

use entryreader::lent::{question, verdict};
use entryreader::{Answer, Code};
use marked_cases::{CELLS, G, H, I, J, THROUGH_SECOND, cases};

fn judge(sheet: &str, entry: &str) -> Result<Code, u32> {
    verdict(sheet.as_bytes(), entry.as_bytes()).map_err(|error| error.number())
}

#[test]
fn marked_entries() {
    for case in cases() {
        let (mut table, mut work) = ([7; 2048], [7; 1024]);
        let (sheet, entry) = (case.sheet.as_bytes(), case.entry.as_bytes());
        let answer = question(sheet, entry, 1, 0, &mut table, &mut work);
        assert_eq!(answer, Ok(case.answer));
        assert_eq!(judge(case.sheet, case.entry), Ok(case.verdict));
    }
}

#[test]
fn cells_of_a() {
    let (mut table, mut work) = ([7; 54], [7; 30]);
    let answer = question(H.as_bytes(), b"-6.", 1, 0, &mut table, &mut work);
    assert_eq!(answer, Ok(Answer::Success { end: 3, cells: 5 }));
    assert_eq!(table[..48], CELLS.concat());
    assert_eq!((&table[48..], &work[24..]), (&[7; 6][..], &[7; 6][..]));
}

/// Case e's cells by hand: 1, 3 and 5 fail for the byte at 2, where the entry ends, and reach one past it.
#[test]
fn cells_of_e() {
    let (mut table, mut work) = ([7; 36], [7; 18]);
    let answer = question(H.as_bytes(), b"-6", 1, 0, &mut table, &mut work);
    assert_eq!(answer, Ok(Answer::Failure { cells: 5 }));
    let rows = [
        [1, 3, 0, 0, 0, 0],
        [6, 1, 0, 0, 0, 0],
        [0, 0, 1, 3, 0, 0],
        [0, 0, 7, 2, 0, 0],
        [0, 0, 0, 0, 1, 3],
        [0, 0, 0, 0, 0, 0],
    ];
    assert_eq!(table[..], rows.concat());
}

/// Each code, on entries with an endmarker at their end and without.
#[test]
fn verdicts() {
    // 1 = 2(2,2), 2 = byte 46.
    let twice = "    2    1   46    0    0\n    1    4    2    2    2\n    2    2   46    0    0\n";
    for (sheet, entry, code) in [
        (H, "-6.", Code::Recognised),
        (H, "6.", Code::Recognised),
        (I, "aa.", Code::Partial),
        (H, "x.", Code::Failure),
        (G, ".", Code::Loop),
        (THROUGH_SECOND, ".", Code::Loop),
        (J, ".", Code::Missing),
        (twice, ".", Code::Failure),
        (twice, "..", Code::Recognised),
        (twice, "...", Code::Partial),
        (I, "aa", Code::Recognised),
        (I, "", Code::Recognised),
        (H, "", Code::Failure),
        (G, "-6", Code::Loop),
        (J, "6", Code::Missing),
    ] {
        assert_eq!(judge(sheet, entry), Ok(code), "{sheet}{entry}");
    }
}
