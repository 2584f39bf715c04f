//! Machine, writer and checker on document 01's marked entries, and refusals 11 to 14.
#[allow(dead_code)] // Other tests ask case h.
mod marked_cases;

use entryreader::{Pair, test_calls};
use marked_cases::{G, H, I, J};

/// The reading of case a.
const READING: &[u8] = marked_cases::READING.as_bytes();

/// That of case e, by hand: 5 fails at 2, where the entry ends, and so do 3 and 1.
const READING_OF_E: &[u8] = b"       2       0       0       1       0       0
       4       1       0       2       0       0
       5       2       1       2       0       0
       3       1       1       1       2       3
       1       0       1       0       1       4
";

const ASKED: Pair = Pair {
    variable: 1,
    position: 0,
};

/// The machine on variable 1 at position 0, with so many frames.
fn run(sheet: &str, entry: &[u8], room: usize, budget: u32) -> [u32; 3] {
    let mut frames = vec![7; 3 * room];
    let mut answer = [9; 3];
    let code = test_calls::run(
        sheet.as_bytes(),
        entry,
        ASKED,
        &mut frames,
        budget,
        &mut answer,
    );
    assert_eq!(code, 0);
    answer
}

#[test]
fn machine() {
    // a, b, c.
    assert_eq!(run(H, b"-6.", 3, 9), [8, 3, 9]);
    assert_eq!(run(H, b"-6.", 3, 8), [test_calls::SPENT, 0, 8]);
    assert_eq!(run(H, b"-6.", 2, 9), [test_calls::NO_FRAME, 0, 3]);
    // d, e, f; e has k 5 and h 3, as a.
    assert_eq!(run(H, b"6.", 100, 100)[..2], [7, 2]);
    assert_eq!(run(H, b"-6", 3, 9), [1, 0, 9]);
    assert_eq!(run(H, b"-6", 3, 8), [test_calls::SPENT, 0, 8]);
    assert_eq!(run(H, b"-6", 2, 9), [test_calls::NO_FRAME, 0, 3]);
    assert_eq!(run(H, b"x", 100, 100)[..2], [1, 0]);
    // g: a push for each move until there is no room.
    assert_eq!(run(G, b"", 100, 1000), [test_calls::NO_FRAME, 0, 99]);
    assert_eq!(run(G, b"", 100, 50), [test_calls::SPENT, 0, 50]);
    // i, j.
    assert_eq!(run(I, b"aa.", 100, 100), [7, 2, 13]);
    assert_eq!(run(J, b"", 100, 100), [3, 0, 1]);
    // "room 0 gives no frame before all else"
    assert_eq!(run(J, b"", 0, 100), [test_calls::NO_FRAME, 0, 0]);
}

/// The writer on variable 1 at position 0, over slices that are just long enough.
fn write(sheet: &str, entry: &[u8], cells: usize) -> ([u32; 5], Vec<u8>) {
    let (mut table, mut work) = (vec![7; 2 * cells], vec![7; cells]);
    let mut output = vec![7; 49 * cells];
    let mut answer = [9; 5];
    let code = test_calls::write(
        sheet.as_bytes(),
        entry,
        ASKED,
        &mut table,
        &mut work,
        &mut output,
        &mut answer,
    );
    assert_eq!(code, 0);
    (answer, output)
}

#[test]
fn writer() {
    let (answer, output) = write(H, b"-6.", 24);
    assert_eq!(answer, [8, 0, 0, 5, 5]);
    assert_eq!(output[..245], *READING);
    assert!(output[245..].iter().all(|byte| *byte == 7));

    assert_eq!(write(H, b"x", 12).0, [1, 0, 0, 5, 5]);
    let (answer, output) = write(H, b"-6", 18);
    assert_eq!(answer, [1, 0, 0, 5, 5]);
    assert_eq!(output[..245], *READING_OF_E);
    assert!(output[245..].iter().all(|byte| *byte == 7));

    for (sheet, cells, expected) in [(G, 1, [2, 1, 0, 1, 0]), (J, 2, [3, 2, 0, 2, 0])] {
        let (answer, output) = write(sheet, b"", cells);
        assert_eq!(answer, expected);
        assert!(output.iter().all(|byte| *byte == 7));
    }
}

#[test]
fn eleven_output() {
    for (table, output, code) in [(48, 49 * 24 - 1, 111), (48, 0, 111), (47, 0, 110)] {
        let (mut table, mut work) = (vec![7; table], vec![7; 24]);
        let mut output = vec![7; output];
        let mut answer = [9; 5];
        let found = test_calls::write(
            H.as_bytes(),
            b"-6.",
            ASKED,
            &mut table,
            &mut work,
            &mut output,
            &mut answer,
        );
        assert_eq!(found, code);
        assert_eq!(answer, [9; 5]);
        assert!(table.iter().chain(&work).all(|x| *x == 7) && output.iter().all(|x| *x == 7));
    }
}

fn check(variable: u32, position: u32, reading: &[u8]) -> Result<[u32; 2], u32> {
    let asked = Pair { variable, position };
    let mut answer = [9; 2];
    match test_calls::check(H.as_bytes(), b"-6.", asked, reading, &mut answer) {
        0 => Ok(answer),
        code => {
            assert_eq!(answer, [9; 2]);
            Err(code)
        }
    }
}

#[test]
fn checker() {
    assert_eq!(check(1, 0, READING), Ok([8, 3]));
    assert_eq!(check(2, 0, &READING[..49]), Ok([6, 1]));
    // Another order, and a line twice.
    let lines: Vec<&[u8]> = READING.chunks(49).collect();
    let other = [lines[2], lines[1], lines[1]].concat();
    assert_eq!(check(4, 1, &other), Ok([7, 2]));
    // A failure, with its start as the end.
    let failure = b"       5       0       1       0       0       0\n";
    assert_eq!(check(5, 0, failure), Ok([1, 0]));
}

/// Case e's reading passes; one that claims the byte behind the entry does not, and neither does one of a longer entry.
#[test]
fn checker_at_the_end() {
    let check = |reading: &[u8]| {
        let mut answer = [9; 2];
        let code = test_calls::check(H.as_bytes(), b"-6", ASKED, reading, &mut answer);
        (code, answer)
    };
    assert_eq!(check(READING_OF_E), (0, [1, 0]));
    let mut claimed = READING_OF_E.to_vec();
    // The third line: success, ending at 3.
    [claimed[2 * 49 + 23], claimed[2 * 49 + 31]] = *b"03";
    assert_eq!(check(&claimed), (113, [9; 2]));
    assert_eq!(check(READING), (113, [9; 2]));
}

/// The reading with one byte changed.
fn with_byte(index: usize, byte: u8) -> Vec<u8> {
    let mut reading = READING.to_vec();
    reading[index] = byte;
    reading
}

#[test]
fn twelve_thirteen_fourteen() {
    // 12: the length, a field, a line end.
    assert_eq!(check(1, 0, &READING[..244]), Err(112));
    assert_eq!(check(1, 0, &with_byte(3, b'x')), Err(112));
    assert_eq!(check(1, 0, &with_byte(14, b'0')), Err(112));
    assert_eq!(check(1, 0, &with_byte(48, b' ')), Err(112));
    // 13: another variable, a third field above 1, another end, a leaf with a reference, a reference to no line and to the line itself.
    assert_eq!(check(1, 0, &with_byte(7, b'3')), Err(113));
    assert_eq!(check(1, 0, &with_byte(23, b'2')), Err(113));
    assert_eq!(check(1, 0, &with_byte(31, b'2')), Err(113));
    assert_eq!(check(1, 0, &with_byte(39, b'1')), Err(113));
    assert_eq!(check(1, 0, &with_byte(4 * 49 + 39, b'0')), Err(113));
    assert_eq!(check(1, 0, &with_byte(4 * 49 + 47, b'5')), Err(113));
    // 14: no lines, or another pair.
    assert_eq!(check(1, 0, b""), Err(114));
    assert_eq!(check(1, 0, &READING[..196]), Err(114));
    assert_eq!(check(1, 1, READING), Err(114));
    // 8 and 9 come before them.
    assert_eq!(check(7, 9, b"x"), Err(108));
    assert_eq!(check(6, 9, b"x"), Err(109));
}
