//! Every refusal that verdict, question, further question and correction have, 1 to 6 and 8 to 10, under its conditions and in its
//! order; nothing is changed by one.
//! The numbers of all refusals.
use entryreader::{Answer, Code, Error, Refusal, Verdict, lent};
use std::collections::BTreeSet;

const GOOD: &str =
    "    2    1   46    0    0\n    1    4    2    2    2\n    2    2   97    0    0\n";

/// The verdict, or the refusal. Neither 4 nor 107 comes from any call: there is no name for them.
fn verdict(sheet: &[u8], entry: &[u8]) -> Result<Code, Refusal> {
    lent::verdict(sheet, entry).map_err(|error| error.refusal())
}

fn refused_by_all(sheet: &[u8], entry: &[u8], number: u32) {
    let refusal = Refusal::from_number(number).unwrap();
    assert_eq!(
        verdict(sheet, entry),
        Err(refusal),
        "{}",
        String::from_utf8_lossy(sheet)
    );
    question_refused(sheet, entry, 1, 0, 1024, 1024, number);
}

/// A correction with a fault of its own, the old entry: 21 comes behind, or 18 where the entry is empty.
fn corrected(
    sheet: &[u8],
    entry: &[u8],
    variable: u32,
    position: u32,
    table: &mut [u32],
    work: &mut [u32],
) -> Result<Answer, Error> {
    let old = [entry, b"."].concat();
    lent::correct(sheet, &old, entry, variable, position, 0, table, work)
}

/// The table holds what brings a further question and a correction under 19, which comes last.
fn question_refused(
    sheet: &[u8],
    entry: &[u8],
    variable: u32,
    position: u32,
    table: usize,
    work: usize,
    number: u32,
) {
    let refusal = Refusal::from_number(number).unwrap();
    let (mut table, mut work) = (vec![u32::MAX; table], vec![9; work]);
    for call in [lent::question, lent::further, corrected] {
        let answer = call(sheet, entry, variable, position, &mut table, &mut work);
        assert_eq!(
            answer.map_err(|error| error.refusal()),
            Err(refusal),
            "{}",
            String::from_utf8_lossy(sheet)
        );
        assert!(table.iter().all(|x| *x == u32::MAX) && work.iter().all(|x| *x == 9));
    }
}

/// The good sheet with one line in the position of another, counted from 1.
fn with_line(number: usize, line: &str) -> Vec<u8> {
    let mut lines: Vec<&str> = GOOD.lines().collect();
    lines[number - 1] = line;
    (lines.join("\n") + "\n").into_bytes()
}

#[test]
fn good_sheet() {
    assert_eq!(verdict(GOOD.as_bytes(), b"."), Ok(Code::Failure));
}

#[test]
fn one_not_lines() {
    refused_by_all(b"", b".", 1);
    refused_by_all(&GOOD.as_bytes()[..77], b".", 1);
    refused_by_all((GOOD.to_string() + " ").as_bytes(), b".", 1);
    refused_by_all(GOOD.replacen('\n', " ", 1).as_bytes(), b".", 1);
    let line = "    1    0    0    0    0\n";
    refused_by_all(line.repeat(258).as_bytes(), b".", 1);
}

#[test]
fn two_fields() {
    for line in [
        "    2   01   46    0    0",
        "    2   1    46    0    0",
        "    2    1   4a    0    0",
        "    2    1   46         0",
        "   +2    1   46    0    0",
        "    2    1  -46    0    0",
    ] {
        refused_by_all(&with_line(1, line), b".", 2);
    }
    refused_by_all(&with_line(2, "    1    4    2    2   \n2"), b".", 2);
    refused_by_all(&with_line(3, "    9    9    x    0    0"), b".", 2);
}

#[test]
fn three_line_1() {
    for line in [
        "    0    1   46    0    0",
        "  257    1   46    0    0",
        "99999    1   46    0    0",
        "    2    0   46    0    0",
        "    2    3   46    0    0",
        "    2    1  256    0    0",
        "    2    1   46    1    0",
        "    2    1   46    0    1",
    ] {
        refused_by_all(&with_line(1, line), b".", 3);
    }
}

#[test]
fn four_variables() {
    refused_by_all(&with_line(2, "    0    4    2    2    2"), b".", 4);
    refused_by_all(&with_line(2, "    3    4    2    2    2"), b".", 4);
    refused_by_all(&with_line(3, "    1    2   97    0    0"), b".", 4);
    refused_by_all(&with_line(3, "    1    9   97    0    0"), b".", 4);
}

#[test]
fn five_rules() {
    for line in [
        "    2    5    0    0    0",
        "    2    0    1    0    0",
        "    2    1    0    1    0",
        "    2    2  256    0    0",
        "    2    2   97    1    0",
        "    2    3    0    0    0",
        "    2    3    7    0    0",
        "    2    3    1    0    1",
        "    2    4    0    1    1",
        "    2    4    1    3    1",
        "    2    4    1    1    0",
    ] {
        refused_by_all(&with_line(3, line), b".", 5);
    }
}

#[test]
fn six_long_entry() {
    refused_by_all(GOOD.as_bytes(), &[b'a'; 4097], 6);
    question_refused(GOOD.as_bytes(), &[b'a'; 4097], 0, 9999, 0, 0, 6);
}

/// There is no 7: the entry may be empty, and the endmarker stand at its end, anywhere else, twice or nowhere. Whichever byte it is, the verdict is the
/// same.
#[test]
fn no_seven() {
    for (entry, code) in [
        ("", Code::Failure),
        ("a", Code::Failure),
        ("aa", Code::Recognised),
        ("aa.", Code::Partial),
        ("aa.a.", Code::Partial),
        ("a.a", Code::Failure),
        (".aa.", Code::Failure),
        ("..", Code::Failure),
    ] {
        for endmarker in 0..=255 {
            let sheet = with_line(1, &format!("    2    1{endmarker:>5}    0    0"));
            let found = verdict(&sheet, entry.as_bytes());
            assert_eq!(found, Ok(code), "{entry} {endmarker}");
        }
    }
    // Nothing comes between 6 and 10.
    assert_eq!(verdict(GOOD.as_bytes(), &[b'a'; 4096]), Err(Refusal::Room));
}

/// The longest entry, over slices that are long enough; with one byte more it is refused, and with none it is judged.
#[test]
fn lengths_of_entries() {
    let (mut table, mut work) = (vec![7; 4 * 4_097], vec![7; 2 * 4_097]);
    let mut judge = |length| {
        let entry = vec![b'a'; length];
        let found = lent::judge(GOOD.as_bytes(), &entry, &mut table, &mut work);
        found.map_err(|error| error.number())
    };
    assert_eq!(judge(0), Ok(Verdict::Failure { cells: 2 }));
    assert_eq!(judge(1), Ok(Verdict::Failure { cells: 3 }));
    assert_eq!(judge(2), Ok(Verdict::Recognised { cells: 3 }));
    assert_eq!(judge(4_096), Ok(Verdict::Partial { end: 2, cells: 3 }));
    assert_eq!(judge(4_097), Err(6));
}

/// A table full of 4s: a further question is refused, and a correction where it retains a cell; a question blanks them, and so does a correction of the
/// last byte where the place behind it holds none.
#[test]
fn table_of_fours() {
    let (sheet, mut work) = (GOOD.as_bytes(), [9; 6]);
    let mut table = [4; 12];
    let further = lent::further(sheet, b"aa", 1, 0, &mut table, &mut work);
    assert_eq!(further.map_err(|error| error.number()), Err(19));
    for c in [0, 1] {
        let correct = lent::correct(sheet, b"aa", b"aa", 1, 0, c, &mut table, &mut work);
        assert_eq!(correct.map_err(|error| error.number()), Err(19), "{c}");
    }
    assert_eq!((table, work), ([4; 12], [9; 6]));
    // Places 0 and 1 of both variables hold 4s; those behind the last byte are blank.
    let mut table = [4, 4, 4, 4, 0, 0, 4, 4, 4, 4, 0, 0];
    let correct = lent::correct(sheet, b"aa", b"aa", 1, 0, 1, &mut table, &mut work);
    assert_eq!(correct, Ok(Answer::Success { end: 2, cells: 3 }));
    assert_eq!(table, [7, 2, 0, 0, 0, 0, 6, 1, 7, 2, 0, 0]);
    let mut table = [4; 12];
    let question = lent::question(sheet, b"aa", 1, 0, &mut table, &mut work);
    assert_eq!(question, Ok(Answer::Success { end: 2, cells: 3 }));
    assert_eq!(table, [7, 2, 0, 0, 0, 0, 6, 1, 7, 2, 0, 0]);
}

#[test]
fn eight_and_nine() {
    for variable in [0, 3, u32::MAX] {
        question_refused(GOOD.as_bytes(), b"aa", variable, 3, 0, 0, 8);
    }
    for position in [3, 4097, u32::MAX] {
        question_refused(GOOD.as_bytes(), b"aa", 2, position, 0, 0, 9);
    }
}

#[test]
fn ten_room() {
    for (table, work) in [(11, 6), (12, 5), (6, 12), (0, 0)] {
        question_refused(GOOD.as_bytes(), b"aa", 2, 2, table, work, 10);
    }
    for call in [lent::question, lent::further] {
        let end = call(GOOD.as_bytes(), b"aa", 2, 2, &mut [0; 12], &mut [0; 6]);
        assert!(end.is_ok());
    }
    let mut entry = vec![b'a'; 511];
    *entry.last_mut().unwrap() = b'.';
    assert_eq!(verdict(GOOD.as_bytes(), &entry), Ok(Code::Partial));
    entry.insert(0, b'a');
    assert_eq!(verdict(GOOD.as_bytes(), &entry), Err(Refusal::Room));
}

/// Those from 1 to 21 without 7, each with a meaning of its own, and no others.
#[test]
fn numbers() {
    let numbers = (0..200).chain([u32::MAX]);
    let refusals: Vec<Refusal> = numbers.filter_map(Refusal::from_number).collect();
    let found = refusals.iter().map(|refusal| refusal.number());
    assert!(found.eq((1..=6).chain(8..=21)), "{refusals:?}");
    let meanings = BTreeSet::from_iter(refusals.iter().map(|refusal| refusal.meaning()));
    assert_eq!(meanings.len(), 20);
}
