//! `Reader`: the marked entries, memory that grows and is used again, corrections, further questions, refusals with their lines and sentences, the line at
//! fault of a reading; and random questions, corrections and further questions beside the calls over lent slices and the recognizer.
#[allow(dead_code)] // Other tests hand over tables that no call left.
mod kept;
#[allow(dead_code)] // Other tests store the cells of case a.
mod marked_cases;
mod met;
#[allow(dead_code, unused_imports)] // Other tests lend slices around the limits.
mod questions;
mod random;
#[allow(dead_code, unused_imports)]
// Other tests run the machine, and ask over slices that are too short.
mod recognizer;

use entryreader::{Answer, Claim, Error, Line, Pair, Reader, Refusal, Rule, Verdict, lent};
use kept::Call;
use marked_cases::{BEHIND, CELLS, G, H, I, J, READING, THROUGH_SECOND, cases};
use met::Met;
use questions::row;
use random::Random;
use recognizer::{Question, with_deep_stack};
use std::collections::BTreeMap;

/// The start of all sheets here.
const START: Pair = Pair {
    variable: 1,
    position: 0,
};

fn reader(sheet: &str) -> Reader {
    Reader::new(sheet.as_bytes()).expect("the sheet is accepted")
}

#[test]
fn marked_entries() {
    for case in cases() {
        let mut reader = reader(case.sheet);
        let entry = case.entry.as_bytes();
        assert_eq!(reader.ask(entry, 1, 0), Ok(case.answer));
        let reading = reader.reading(entry).expect("nothing is refused");
        assert_eq!(reading.answer, case.answer);
        let verdict = reader.verdict(entry).map(|verdict| verdict.code());
        assert_eq!(verdict, Ok(case.verdict));
    }
}

/// Verdicts with all their numbers.
#[test]
fn verdicts() {
    let named = START;
    let loops = |cells| Verdict::Loop { named, cells };
    let (variable, position, cells) = (2, 0, 2);
    let named = Pair { variable, position };
    for (sheet, entry, verdict) in [
        (H, "-6.", Verdict::Recognised { cells: 5 }),
        (I, "aa.", Verdict::Partial { end: 2, cells: 7 }),
        (H, "x.", Verdict::Failure { cells: 5 }),
        (G, ".", loops(1)),
        (THROUGH_SECOND, ".", loops(2)),
        (J, ".", Verdict::Missing { named, cells }),
        // Without the endmarker, with it twice, and empty.
        (H, "-6", Verdict::Failure { cells: 5 }),
        (H, "6..", Verdict::Partial { end: 2, cells: 5 }),
        (H, "", Verdict::Failure { cells: 5 }),
        (I, "", Verdict::Recognised { cells: 3 }),
        (G, "", loops(1)),
    ] {
        assert_eq!(reader(sheet).verdict(entry.as_bytes()), Ok(verdict));
    }
}

#[test]
fn sheet_h() {
    let reader = reader(H);
    assert_eq!((reader.variables(), reader.start()), (6, 1));
    assert_eq!((reader.endmarker(), reader.sheet()), (b'.', H.as_bytes()));
    let call = |first, then, otherwise| Rule::Call {
        first,
        then,
        otherwise,
    };
    let expected = [
        None,
        Some(call(2, 3, 3)),
        Some(Rule::Byte(45)),
        Some(call(4, 5, 6)),
        Some(Rule::Class(1)),
        Some(Rule::Byte(46)),
        Some(Rule::Fail),
        None,
    ];
    let rules: Vec<Option<Rule>> = (0..8).map(|variable| reader.rule(variable)).collect();
    assert_eq!(rules, expected);
    assert_eq!(reader.rule(u32::MAX), None);
}

/// A line of a success, with the lines that it follows from.
fn line(variable: u32, start: u32, end: u32, called: Option<(usize, usize)>) -> Line {
    Line {
        variable,
        start,
        success: true,
        end,
        first: called.map(|lines| lines.0),
        second: called.map(|lines| lines.1),
    }
}

/// Reading, claim and table of case a.
#[test]
fn case_a() {
    let mut reader = reader(H);
    let reading = reader.reading(b"-6.").expect("nothing is refused");
    assert_eq!(reading.bytes, READING.as_bytes());
    let lines = [
        line(2, 0, 1, None),
        line(4, 1, 2, None),
        line(5, 2, 3, None),
        line(3, 1, 3, Some((1, 2))),
        line(1, 0, 3, Some((0, 3))),
    ];
    assert_eq!(reading.lines, lines);
    let claim = reader.check(b"-6.", &reading.bytes);
    assert_eq!(claim, Ok(Claim::Success { end: 3 }));
    assert_eq!(reader.table(), CELLS.concat());
}

/// What a variable took, where it also succeeded in a branch that was given up: 2 fails behind the a that 4 takes, so that 3 is tried, in which 7 takes
/// the a and 4 the b.
#[test]
fn taken() {
    let mut reader = reader(
        "    7    1   46    0    0
    1    4    2    5    3
    2    4    4    6    6
    3    4    7    4    6
    4    3    3    0    0
    5    0    0    0    0
    6    1    0    0    0
    7    2   97    0    0
",
    );
    let reading = reader.reading(b"ab").expect("nothing is refused");
    assert_eq!(reading.answer, Answer::Success { end: 2, cells: 7 });
    let took = |variable| reading.taken(variable, b"ab");
    let expected: [Option<&[u8]>; 8] = [
        Some(b"ab"),
        None,
        Some(b"ab"),
        Some(b"b"),
        None,
        None,
        Some(b"a"),
        None,
    ];
    assert_eq!([1, 2, 3, 4, 5, 6, 7, 8].map(took), expected);
    // Of another entry, which is shorter.
    assert_eq!(reading.taken(4, b""), None);
    // A loop has no lines.
    let reading = self::reader(THROUGH_SECOND).reading(b"");
    assert_eq!(reading.expect("nothing is refused").taken(2, b""), None);
}

/// Letters, as often as they come: 2 takes three of them, of which the first from the left counts; 1 takes all of them, and 3 nothing behind them.
#[test]
fn taken_first() {
    let mut reader = reader(
        "    3    1   46    0    0
    1    4    2    1    3
    2    3    3    0    0
    3    0    0    0    0
",
    );
    let reading = reader.reading(b"abc.").expect("nothing is refused");
    let took = |variable| reading.taken(variable, b"abc.");
    let expected: [Option<&[u8]>; 3] = [Some(b"abc"), Some(b"a"), Some(b"")];
    assert_eq!([1, 2, 3].map(took), expected);
}

/// What a reader says of an entry without its first byte and of the whole entry, with the table and the answer.
fn said(reader: &mut Reader, entry: &[u8]) -> (Vec<Result<Verdict, Error>>, Vec<u32>, Answer) {
    let reading = reader.reading(entry).expect("nothing is refused");
    assert_eq!(
        reader.check(entry, &reading.bytes).is_ok(),
        !reading.lines.is_empty()
    );
    let asked = reader.ask(entry, 1, 0).expect("nothing is refused");
    assert_eq!(asked, reading.answer);
    let table = reader.table().to_vec();
    let verdicts = [&entry[1..], entry].map(|entry| reader.verdict(entry));
    (verdicts.into(), table, asked)
}

/// A run of `a` and a full stop: the same reader on short and long entries says what a fresh one does, and after refusals too.
#[test]
fn grows_and_is_used_again() {
    let entry = |length: usize| [&vec![b'a'; length - 1][..], b"."].concat();
    let mut used = reader(I);
    for length in [3, 4_096, 3, 1, 500, 2, 4_095, 1] {
        let entry = entry(length);
        assert_eq!(said(&mut used, &entry), said(&mut reader(I), &entry));
        assert_eq!(used.table().len(), 2 * 3 * (length + 1));
        // A refusal leaves the table as it was.
        let table = used.table().to_vec();
        let long = used.ask(&[b'a'; 4_097], 1, 0);
        assert_eq!(long.map_err(|error| error.number()), Err(6));
        assert_eq!(used.table(), table);
    }
    let longest = used.verdict(&entry(4_096));
    // A pair of 1 and 2 at each position, and 3 where the run ends.
    let (end, cells) = (4_095, 2 * 4_096 + 1);
    assert_eq!(longest, Ok(Verdict::Partial { end, cells }));
}

/// Entries of over 4,096 bytes are refused by every call, whatever their bytes.
#[test]
fn long_entries() {
    let mut reader = reader(H);
    for length in [4_097, 4_098, 100_000] {
        let entry = vec![0xFF; length];
        let refused = |found: Option<Error>| {
            let error = found.expect("it is refused");
            assert_eq!((error.number(), error.line()), (6, None));
            assert_eq!(error.to_string(), "the entry has over 4,096 bytes");
        };
        refused(reader.verdict(&entry).err());
        refused(reader.opening(&entry).err());
        refused(reader.ask(&entry, 1, 0).err());
        refused(reader.reading(&entry).err());
        refused(reader.check(&entry, READING.as_bytes()).err());
    }
}

/// An entry that is refused for its length takes no memory: 256 variables and a million bytes would take two gigabytes.
#[test]
fn long_entries_take_no_memory() {
    let mut reader = reader("  256    1   46    0    0\n");
    let refused = reader.verdict(&vec![b'.'; 1_000_000]);
    assert_eq!(refused.map_err(|error| error.number()), Err(6));
    let status = std::fs::read_to_string("/proc/self/status").expect("it is there");
    let peak = status.lines().find_map(|line| line.strip_prefix("VmHWM:"));
    let number = peak.and_then(|line| line.trim().strip_suffix(" kB"));
    let kilobytes: u64 = number
        .and_then(|text| text.trim().parse().ok())
        .expect("a number");
    assert!(kilobytes < 1_000_000, "{kilobytes}");
}

/// Every byte before a full stop, of which H takes digits only, and as an entry of its own, which has no full stop.
#[test]
fn any_bytes() {
    let mut reader = reader(H);
    let failure = Verdict::Failure { cells: 5 };
    for byte in 0..=255 {
        let expected = match byte {
            b'0'..=b'9' => Verdict::Recognised { cells: 5 },
            _ => failure,
        };
        assert_eq!(reader.verdict(&[byte, b'.']), Ok(expected), "{byte}");
        assert_eq!(reader.verdict(&[byte]), Ok(failure), "{byte}");
    }
}

/// Case a with each of its bytes corrected, by hand.
#[test]
fn corrected_case_a() {
    let success = |end, cells| Ok(Answer::Success { end, cells });
    let failure = |cells| Ok(Answer::Failure { cells });
    for (c, byte, answer) in [
        // 1 and 2 at 0; 3 and what it calls are looked up at 1.
        (0, b'-', success(3, 2)),
        // 2 fails, so that 3 is called at 0 too, and 4 and 6 by it.
        (0, b'x', failure(5)),
        // 1 at 0, 3 and 4 at 1; 5 at 2 stays.
        (1, b'7', success(3, 3)),
        // Without a digit 6 is called at 1 besides.
        (1, b'x', failure(4)),
        // 1 at 0, 3 at 1, 5 at 2: sign and digit stay.
        (2, b'.', success(3, 3)),
        (2, b'x', failure(3)),
    ] {
        let mut reader = reader(H);
        assert_eq!(reader.ask(b"-6.", 1, 0), success(3, 5));
        assert_eq!(reader.correct(c, byte, 1, 0), answer, "{c} {byte}");
        let mut entry = *b"-6.";
        entry[c as usize] = byte;
        assert_eq!(reader.entry(), entry);
    }
}

/// Sixty-four small letters, each behind those before it: variable 63 takes two of them, 62 three, and 1 all; 64 is a letter, and 65 fails.
fn letters() -> Reader {
    let mut sheet = row([65, 1, 46, 0, 0]);
    for variable in 1..=63 {
        sheet += &row([variable, 4, variable + 1, 64, 65]);
    }
    reader(&(sheet + &row([64, 3, 3, 0, 0]) + &row([65, 1, 0, 0, 0])))
}

/// The question decides 63 cells at position 0, of which that of variable v reaches 65 - v, and a letter at each position. A correction at c decides
/// the letter there and, of the others, those that reach past c: few near the end.
#[test]
fn near_the_end() {
    let entry = [b'a'; 64];
    for c in 0..64 {
        let mut reader = letters();
        let (end, cells) = (64, 63 + 64);
        assert_eq!(reader.ask(&entry, 1, 0), Ok(Answer::Success { end, cells }));
        let cells = (64 - c).min(63) + 1;
        let answer = reader.correct(c, b'b', 1, 0);
        assert_eq!(answer, Ok(Answer::Success { end, cells }), "{c}");
        // Where the letter at c fails, so does 65 at 0, unless variable 1 itself called the letter.
        let cells = cells + u32::from(c < 63);
        let answer = reader.correct(c, b'B', 1, 0);
        assert_eq!(answer, Ok(Answer::Failure { cells }), "{c}");
    }
}

/// The last byte of the longest entry: all letters before it stay, and of each position the run from there on is decided anew.
#[test]
fn longest_corrected() {
    let mut reader = reader(I);
    let entry = [&[b'a'; 4_095][..], b"."].concat();
    let (end, cells) = (4_095, 2 * 4_096 + 1);
    assert_eq!(reader.verdict(&entry), Ok(Verdict::Partial { end, cells }));
    // The run from 0 to 4,095, and at 4,096 too; the byte at 4,095, and the one behind it that is not there; and that nothing follows there.
    let (whole, cells) = (4_096, 4_096 + 1 + 2 + 1);
    let answer = reader.correct(4_095, b'a', 1, 0);
    assert_eq!(answer, Ok(Answer::Success { end: whole, cells }));
    // The run from 0 to 4,095, and the byte there; that nothing follows the run at 4,095 is still known.
    let cells = 4_096 + 1;
    let answer = reader.correct(4_095, b'.', 1, 0);
    assert_eq!(answer, Ok(Answer::Success { end, cells }));
    let refused = reader.correct(4_096, b'.', 1, 0);
    assert_eq!(refused.map_err(|error| error.number()), Err(18));
}

/// A correction may follow any answer: entry and table are those of the last one.
#[test]
fn corrected_after_each_call() {
    let mut reader = reader(H);
    let success = |end, cells| Ok(Answer::Success { end, cells });
    assert!(reader.verdict(b"-6.").is_ok());
    assert_eq!(reader.correct(1, b'7', 1, 0), success(3, 3));
    assert_eq!(reader.correct(1, b'8', 1, 0), success(3, 3));
    assert!(reader.opening(b"-6.").is_ok());
    assert_eq!(reader.correct(1, b'7', 1, 0), success(3, 3));
    assert!(reader.reading(b"-6.").is_ok());
    assert_eq!(reader.correct(1, b'7', 1, 0), success(3, 3));
    // Only the full stop was asked for: the other four cells are new.
    assert_eq!(reader.ask(b"-6.", 5, 2), success(3, 1));
    assert_eq!(reader.correct(1, b'7', 1, 0), success(3, 4));
    assert_eq!(reader.entry(), b"-7.");
    // Of a shorter entry, and of one without bytes.
    assert_eq!(reader.ask(b"6", 4, 0), success(1, 1));
    assert_eq!(reader.correct(0, b'7', 4, 0), success(1, 1));
    assert!(reader.ask(b"", 6, 0).is_ok());
    let refused = reader.correct(0, b'7', 6, 0);
    assert_eq!(refused.map_err(|error| error.number()), Err(18));
    assert_eq!((reader.entry(), reader.table().len()), (&b""[..], 2 * 6));
}

/// The loop behind `66-`: found, corrected away, and found in a longer entry; an entry that is refused is not kept.
#[test]
fn opening_then_corrected() {
    let mut reader = reader(BEHIND);
    assert_eq!(reader.opening(b"66-."), Ok(Some(3)));
    assert_eq!(reader.entry(), b"66-.");
    // 1 at 0, 1 and 2, and 2, 3, 4 and 6 at 2; the letters before it stay.
    let corrected = reader.correct(2, b'x', 1, 0);
    assert_eq!(corrected, Ok(Answer::Failure { cells: 3 + 4 }));
    assert_eq!(reader.opening(b"66x."), Ok(None));
    assert_eq!(reader.opening(b"666-666."), Ok(Some(4)));
    assert_eq!(reader.opening(b"66-"), Ok(Some(3)));
    let refused = reader.opening(&[b'6'; 4_097]);
    assert_eq!(refused.map_err(|error| error.number()), Err(6));
    assert_eq!(reader.entry(), b"66-");
}

/// A further question may follow any answer: entry and table are those of the last one.
#[test]
fn further_after_each_call() {
    let mut reader = reader(H);
    let success = |end, cells| Ok(Answer::Success { end, cells });
    assert!(reader.verdict(b"-6.").is_ok());
    // At 1 there is no sign, and 3 is known.
    assert_eq!(reader.further(1, 1), success(3, 2));
    assert_eq!(reader.further(1, 1), success(3, 0));
    // The sign at 0 stays, and the full stop at 2.
    assert_eq!(reader.correct(1, b'7', 1, 1), success(3, 4));
    assert_eq!(reader.further(1, 0), success(3, 1));
    assert_eq!(reader.entry(), b"-7.");
    assert!(reader.reading(b"6.").is_ok());
    assert_eq!(reader.further(5, 1), success(2, 0));
    // 1 and 2 at 1, where no sign stands, 3 and 4, where no digit does, and 6.
    assert_eq!(reader.further(1, 1), Ok(Answer::Failure { cells: 5 }));
    assert!(reader.opening(b"x.").is_ok());
    assert_eq!(reader.further(6, 0), Ok(Answer::Failure { cells: 0 }));
    assert_eq!(reader.further(6, 1), Ok(Answer::Failure { cells: 1 }));
    assert_eq!(reader.ask(b"6.", 4, 0), success(1, 1));
    assert_eq!(reader.further(3, 0), success(2, 2));
    assert_eq!(reader.entry(), b"6.");
}

/// The rest of the longest entry, of which the verdict has read a run.
#[test]
fn longest_asked_further() {
    let mut reader = reader(I);
    let entry = [&[b'a'; 4_095][..], b"."].concat();
    assert!(reader.verdict(&entry).is_ok());
    let success = |end, cells| Ok(Answer::Success { end, cells });
    assert_eq!(reader.further(1, 2_000), success(4_095, 0));
    assert_eq!(reader.further(3, 0), success(0, 1));
    // Behind the last byte there is none: 2 fails, and 3 takes nothing.
    assert_eq!(reader.further(1, 4_096), success(4_096, 3));
    assert_eq!(reader.further(1, 4_096), success(4_096, 0));
}

/// Before the first answer the entry is empty, and the table blank: it is the question about the empty entry.
#[test]
fn further_before_the_first_answer() {
    let mut reader = reader(H);
    let failure = |cells| Ok(Answer::Failure { cells });
    // 2 and 4 ask for a byte where none is, and 6 fails anyhow.
    assert_eq!(reader.further(1, 0), failure(5));
    assert_eq!(reader.further(1, 0), failure(0));
    assert_eq!(reader.further(6, 0), failure(0));
    let table = [1, 1, 1, 1, 1, 1, 1, 1, 0, 0, 1, 0];
    assert_eq!((reader.entry(), reader.table()), (&b""[..], &table[..]));
    assert_eq!(reader.further(5, 0), failure(1));
}

/// 8 and 9, in this order, before the first answer and after it; entry and table stay.
#[test]
fn refused_further_questions() {
    let mut reader = reader(H);
    for entry in [&b""[..], b"-6."] {
        if !entry.is_empty() {
            assert!(reader.verdict(entry).is_ok());
        }
        let (table, n) = (reader.table().to_vec(), entry.len() as u32);
        for (variable, position, number) in [
            (0, 0, 8),
            (7, 0, 8),
            (7, n + 1, 8),
            (u32::MAX, u32::MAX, 8),
            (1, n + 1, 9),
            (6, u32::MAX, 9),
        ] {
            let error = reader.further(variable, position);
            let error = error.expect_err("it is refused");
            assert_eq!((error.number(), error.line()), (number, None));
            assert_eq!((reader.entry(), reader.table()), (entry, &table[..]));
        }
    }
}

/// The number that a correction is refused with.
fn refused_correction(reader: &mut Reader, c: u32, Pair { variable, position }: Pair) -> u32 {
    let refused = reader.correct(c, b'x', variable, position);
    let error = refused.expect_err("it is refused");
    assert_eq!(error.line(), None);
    error.number()
}

/// 8, 9 and 18, in this order; entry and table stay.
#[test]
fn refused_corrections() {
    let pair = |variable, position| Pair { variable, position };
    let mut reader = reader(H);
    // The entry is empty before the first answer.
    assert_eq!((reader.entry(), reader.table()), (&b""[..], &[0; 12][..]));
    assert_eq!(refused_correction(&mut reader, 0, pair(1, 0)), 18);
    assert_eq!(refused_correction(&mut reader, 0, pair(1, 1)), 9);
    assert_eq!(refused_correction(&mut reader, 0, pair(7, 0)), 8);
    assert_eq!((reader.entry(), reader.table()), (&b""[..], &[0; 12][..]));
    assert!(reader.verdict(b"-6.").is_ok());
    let table = reader.table().to_vec();
    for (c, asked, number) in [
        (0, pair(0, 0), 8),
        (1, pair(7, 3), 8),
        (2, pair(u32::MAX, 0), 8),
        (3, pair(7, 4), 8),
        (0, pair(1, 4), 9),
        (2, pair(6, u32::MAX), 9),
        (3, pair(1, 4), 9),
        (3, pair(1, 3), 18),
        (4, pair(1, 0), 18),
        (u32::MAX, pair(6, 0), 18),
    ] {
        assert_eq!(refused_correction(&mut reader, c, asked), number);
        assert_eq!((reader.entry(), reader.table()), (&b"-6."[..], &table[..]));
    }
    let last = reader.correct(2, b'x', 1, 0);
    assert_eq!(last, Ok(Answer::Failure { cells: 3 }));
}

/// Entries that are refused in between, one of which lets the slices grow: what was answered before is asked further, and corrected.
#[test]
fn refused_entries_between() {
    let mut reader = reader(H);
    assert!(reader.verdict(b"-6.").is_ok());
    let table = reader.table().to_vec();
    let (short, longer, long) = (b"6..", [b'6'; 100], [b'.'; 4_097]);
    for (entry, number) in [(&short[..], 8), (&longer, 8), (&long, 6)] {
        let answer = reader.ask(entry, 7, 0).map_err(|error| error.number());
        assert_eq!(answer, Err(number));
        let verdict = reader.verdict(&long).map_err(|error| error.number());
        assert_eq!(verdict, Err(6));
        let least = reader.opening(&long).map_err(|error| error.number());
        assert_eq!(least, Err(6));
        assert_eq!((reader.entry(), reader.table()), (&b"-6."[..], &table[..]));
        let answer = reader.further(3, 1);
        assert_eq!(answer, Ok(Answer::Success { end: 3, cells: 0 }));
        let answer = reader.correct(2, b'.', 1, 0);
        assert_eq!(answer, Ok(Answer::Success { end: 3, cells: 3 }));
    }
}

/// Number, line and sentence of an error.
fn told(error: Error) -> (u32, Option<u32>, String) {
    (error.number(), error.line(), error.to_string())
}

/// A sheet that is refused, with number, line and sentence.
fn refused_sheet(sheet: &str, number: u32, line: Option<u32>, sentence: &str) {
    let error = Reader::new(sheet.as_bytes()).expect_err("it is refused");
    assert_eq!(told(error), (number, line, sentence.to_string()));
    assert_eq!(error.refusal().number(), number);
}

#[test]
fn refused_sheets() {
    let first = row([2, 1, 46, 0, 0]);
    let rule = row([1, 0, 0, 0, 0]);
    refused_sheet(
        "",
        1,
        None,
        "the sheet is empty, has over 257 lines, or is not lines of 25 columns that end with a line feed",
    );
    refused_sheet(
        &format!("{first}    1    0    0   00    0\n{rule}"),
        2,
        Some(2),
        "line 2 of the sheet: a field that is no right-justified number without leading zeros",
    );
    refused_sheet(
        &row([2, 3, 46, 0, 0]),
        3,
        Some(1),
        "line 1 of the sheet: the count of variables, the start or the endmarker is out of range, or the last two fields are not 0",
    );
    refused_sheet(
        &format!("{first}{rule}{rule}"),
        4,
        Some(3),
        "line 3 of the sheet: a variable that is not in 1 to V, or not above that of the line before",
    );
    refused_sheet(
        &format!("{first}{rule}{}", row([2, 3, 7, 0, 0])),
        5,
        Some(3),
        "line 3 of the sheet: kind over 4, or operands that do not fit",
    );
}

/// An entry is refused for its length only, and has no line: those with the endmarker elsewhere or without it have no opening, and are judged.
#[test]
fn refused_entries() {
    let mut reader = reader(H);
    let error = reader.verdict(&[b'.'; 4_097]).expect_err("it is refused");
    let sentence = "the entry has over 4,096 bytes";
    assert_eq!(told(error), (6, None, sentence.to_string()));
    assert_eq!(reader.opening(&[b'.'; 4_097]), Err(error));
    for entry in [&b""[..], b"6", b"6..", b"6.\r", &[b'6'; 4_096]] {
        assert!(reader.verdict(entry).is_ok(), "{entry:?}");
        assert_eq!(reader.opening(entry), Ok(None), "{entry:?}");
    }
}

/// What is refused about a pair has no line either.
#[test]
fn refused_pairs() {
    let mut reader = reader(H);
    for (variable, position, refusal) in [
        (0, 0, Refusal::Variable),
        (7, 9, Refusal::Variable),
        (u32::MAX, 0, Refusal::Variable),
        (6, 3, Refusal::Place),
        (1, u32::MAX, Refusal::Place),
    ] {
        let error = reader.ask(b"6.", variable, position);
        let error = error.expect_err("it is refused");
        assert_eq!((error.refusal(), error.line()), (refusal, None));
    }
}

#[test]
fn refused_texts() {
    let deep = format!("S={}{}\n", "(".repeat(17), ")".repeat(17));
    let wide = format!("S={}\n", "/".repeat(300));
    for (text, refusal) in [
        ("", Refusal::Text),
        ("S=\nS=\n", Refusal::Text),
        (&deep, Refusal::Nesting),
        (&wide, Refusal::Allowance),
    ] {
        let error = Reader::from_shorthand(text.as_bytes()).expect_err("it is refused");
        assert_eq!((error.refusal(), error.line()), (refusal, None));
    }
}

/// Letters are named by first appearance; quoted ones are none, and a helper has its number.
#[test]
fn names_of_the_shorthand() {
    let text = b"S='Q'B['''A]/'='\nA=Z'\xC9'\nB=\n";
    let reader = Reader::from_shorthand(text).expect("it is accepted");
    let names: Vec<String> = (0..6).map(|variable| reader.name(variable)).collect();
    assert_eq!(names, ["0", "S", "B", "A", "Z", "5"]);
    assert_eq!((reader.start(), reader.endmarker()), (1, b'.'));
    // Z has no line.
    assert_eq!(reader.rule(4), None);
    let sheet = Reader::new(reader.sheet()).expect("it is accepted");
    assert_eq!(sheet.name(1), "1");
}

/// The number and the line that a reading is refused with, by the recognizer: for 12 and 13 that of the shortest front of whole lines that is.
fn refused_reading(question: Question, reading: &[u8]) -> Option<(u32, Option<u32>)> {
    let number = recognizer::check(question, reading).err()?;
    let faulty = |lines: &usize| {
        let front = &reading[..recognizer::LINE * lines];
        matches!(recognizer::check(question, front), Err(12 | 13))
    };
    let whole = reading.len().is_multiple_of(recognizer::LINE);
    let line = match number {
        12 | 13 if whole => (1..=reading.len() / recognizer::LINE).find(faulty),
        _ => None,
    };
    Some((number, line.map(|line| u32::try_from(line).expect("few"))))
}

/// What the reader refuses a reading about its start with, which is what the recognizer does.
fn check(reader: &Reader, entry: &[u8], reading: &[u8]) -> Option<(u32, Option<u32>)> {
    let asked = Pair {
        variable: reader.start(),
        position: 0,
    };
    let question = Question {
        sheet: reader.sheet(),
        entry,
        asked,
    };
    let refused = reader.check(entry, reading).err();
    let refused = refused.map(|error| (error.number(), error.line()));
    let shown = String::from_utf8_lossy(reading);
    assert_eq!(refused, refused_reading(question, reading), "{shown}");
    refused
}

/// The reading of case a with one byte changed, at each position: 12 and 13 at each of its lines.
#[test]
fn one_byte_of_a_reading() {
    let reader = reader(H);
    let mut met = BTreeMap::new();
    for index in 0..READING.len() {
        for byte in *b" 0123456789\n-a\xB2" {
            let mut reading = READING.as_bytes().to_vec();
            reading[index] = byte;
            let refused = check(&reader, b"-6.", &reading);
            *met.entry(refused).or_insert(0) += 1;
        }
    }
    for refused in (1..=5).flat_map(|line| [12, 13].map(|number| (number, Some(line)))) {
        let often = met.get(&Some(refused)).is_some_and(|met| 10 < *met);
        assert!(often, "{refused:?}: {met:?}");
    }
    assert!(met.contains_key(&None), "{met:?}");
    let mut reading = READING.as_bytes().to_vec();
    reading[49] = b'x';
    let error = reader.check(b"-6.", &reading).expect_err("it is refused");
    let sentence = "line 2 of the reading: not six fields of 8 columns and a line feed";
    assert_eq!(told(error), (12, Some(2), sentence.to_string()));
}

/// A length that is no multiple of 49 has no line at fault, and neither has a reading of another pair.
#[test]
fn readings_without_a_line_at_fault() {
    let reader = reader(H);
    for (length, refused) in [
        (245, None),
        (244, Some((12, None))),
        (1, Some((12, None))),
        (0, Some((14, None))),
        (196, Some((14, None))),
    ] {
        let reading = &READING.as_bytes()[..length];
        assert_eq!(check(&reader, b"-6.", reading), refused, "{length}");
    }
}

/// The name of an answer's kind.
fn kind(answer: &Answer) -> String {
    let kind = match answer {
        Answer::Success { .. } => "success",
        Answer::Failure { .. } => "failure",
        Answer::Loop { .. } => "loop",
        Answer::Missing { .. } => "missing",
    };
    kind.to_string()
}

/// A reader with an entry, and beside it a table and a work slice of just the length that the entry needs.
struct Beside<'a> {
    reader: &'a mut Reader,
    entry: &'a [u8],
    table: Vec<u32>,
    work: Vec<u32>,
}

impl<'a> Beside<'a> {
    fn new(reader: &'a mut Reader, entry: &'a [u8]) -> Beside<'a> {
        let variables = usize::try_from(reader.variables()).expect("at most 256");
        let cells = variables * (entry.len() + 1);
        Beside {
            reader,
            entry,
            table: vec![7; 2 * cells],
            work: vec![7; cells],
        }
    }

    /// The verdict beside the two calls that give it; that with 1,024 cells of its own where they suffice.
    fn verdict(&mut self, met: &mut Met) {
        let found = self.reader.verdict(self.entry);
        let (sheet, table, work) = (self.reader.sheet(), &mut self.table, &mut self.work);
        assert_eq!(found, lent::judge(sheet, self.entry, table, work));
        if found.is_ok() {
            assert_eq!(self.reader.table(), self.table);
        }
        met.found("verdict", &found, |verdict| verdict.code().to_string());
        if self.work.len() <= 1_024 {
            let own = lent::verdict(sheet, self.entry);
            assert_eq!(found.map(|verdict| verdict.code()), own);
            met.found("own cells", &own, |code| code.to_string());
        }
    }

    fn question(&mut self, Pair { variable, position }: Pair, met: &mut Met) {
        let found = self.reader.ask(self.entry, variable, position);
        let (sheet, table, work) = (self.reader.sheet(), &mut self.table, &mut self.work);
        let answer = lent::question(sheet, self.entry, variable, position, table, work);
        assert_eq!(found, answer);
        if found.is_ok() {
            assert_eq!(self.reader.table(), self.table);
        }
        met.found("ask", &found, kind);
    }

    /// The reading: its answer is the question's, its lines are its bytes, and it passes; with a byte changed it is refused at the right line.
    fn reading(&mut self, random: &mut Random, met: &mut Met) {
        let found = self.reader.reading(self.entry);
        met.found("reading", &found, |reading| kind(&reading.answer));
        let Ok(mut reading) = found else { return };
        let start = self.reader.start();
        assert_eq!(self.reader.ask(self.entry, start, 0), Ok(reading.answer));
        assert_eq!(recognizer::bytes(&numbers(&reading.lines)), reading.bytes);
        let claim = self.reader.check(self.entry, &reading.bytes);
        let claim = claim.map_err(|error| error.number());
        assert_eq!(claim, claimed(reading.answer));
        // The recognizer looks at each front of it. One in ten lacks its last line.
        if (1..=100).contains(&reading.lines.len()) {
            let index = random.index(reading.bytes.len());
            reading.bytes[index] = random.pick(b" 0123456789\n");
            if random.one_in(10) {
                let last = recognizer::LINE * (reading.lines.len() - 1);
                reading.bytes.truncate(last);
            }
            let refused = check(self.reader, self.entry, &reading.bytes);
            met.count(format!(
                "changed {}",
                refused.map_or(0, |(number, _)| number)
            ));
        }
    }
}

/// The six numbers of each line, lines counted from 1.
fn numbers(lines: &[Line]) -> Vec<recognizer::Line> {
    let number = |line: Option<usize>| line.map_or(0, |line| u32::try_from(line + 1).expect("few"));
    let numbers = lines.iter().map(|line| {
        let failed = u32::from(!line.success);
        let Pair { variable, position } = line.pair();
        let (first, second) = (number(line.first), number(line.second));
        [variable, position, failed, line.end, first, second]
    });
    numbers.collect()
}

/// What the checker says of the reading of an answer: loop and missing have no lines.
fn claimed(answer: Answer) -> Result<Claim, u32> {
    match answer {
        Answer::Success { end, .. } => Ok(Claim::Success { end }),
        Answer::Failure { .. } => Ok(Claim::Failure),
        _ => Err(14),
    }
}

/// The sheet of a random question; its entry, another one and its entry again with one reader.
fn random_question(random: &mut Random, met: &mut Met) {
    let case = questions::case(random);
    let found = Reader::new(&case.sheet);
    met.found("new", &found, |_| "read".to_string());
    let refused = found.as_ref().err();
    let refused = refused.map(|error| (error.number(), error.line().unwrap_or(0)));
    assert_eq!(refused, recognizer::sheet(&case.sheet).err(), "{case}");
    let Ok(mut reader) = found else { return };
    let length = random.index(20);
    let other = questions::entry(random, length);
    for entry in [&case.entry, &other, &case.entry] {
        let mut beside = Beside::new(&mut reader, entry);
        beside.verdict(met);
        beside.question(case.asked, met);
        beside.reading(random, met);
    }
}

/// What is to be refused of a call about an entry of n bytes.
fn refused_by_document(variables: u32, n: u32, call: Call, asked: Pair) -> Option<u32> {
    let refusals = [
        (8, asked.variable == 0 || variables < asked.variable),
        (9, n < asked.position),
        (18, matches!(call, Call::Correction { c } if n <= c)),
    ];
    let first = refusals.into_iter().find(|(_, holds)| *holds);
    first.map(|(number, _)| number)
}

/// A further question, or a correction to this byte: answer, count and cells are what document 02 and the recognizer say, and a fresh reader answers the
/// same; or it is refused, and entry and table stay.
fn over_kept(reader: &mut Reader, call: Call, byte: u8, asked: Pair, met: &mut Met) {
    let (mut entry, table) = (reader.entry().to_vec(), reader.table().to_vec());
    let n = u32::try_from(entry.len()).expect("few");
    let (name, found) = match call {
        Call::Correction { c } => {
            let found = reader.correct(c, byte, asked.variable, asked.position);
            ("correct", found)
        }
        _ => ("further", reader.further(asked.variable, asked.position)),
    };
    met.found(name, &found, kind);
    let refused = refused_by_document(reader.variables(), n, call, asked);
    if let Some(number) = refused {
        assert_eq!(found.map_err(|error| error.number()), Err(number));
        assert_eq!((reader.entry(), reader.table()), (&entry[..], &table[..]));
        return;
    }
    if let Call::Correction { c } = call {
        entry[c as usize] = byte;
    }
    let question = Question {
        sheet: reader.sheet(),
        entry: &entry,
        asked,
    };
    let reached = recognizer::question(question, usize::MAX, usize::MAX).expect("it is accepted");
    let (cells, newly) = kept::left(&reached.table, &call.retained(n, &table));
    assert_eq!(found, Ok(reached.answer(newly)));
    assert_eq!((reader.entry(), reader.table()), (&entry[..], &cells[..]));
    let mut fresh = Reader::new(reader.sheet()).expect("it was accepted");
    let answer = fresh.ask(&entry, asked.variable, asked.position);
    assert_eq!(answer, Ok(reached.answer(reached.cells)));
    assert_eq!(fresh.table(), reached.table);
}

/// A pair for an entry of n bytes, and the position of a byte to correct: one time in thirty there is none.
fn to_correct(random: &mut Random, variables: u32, n: u32) -> (u32, Pair) {
    let mut out_of = |limit: u32| match random.below(90) {
        0 => random.pick(&[limit, limit + 1, u32::MAX]),
        _ => random.below(limit.max(1).into()) as u32,
    };
    let (c, variable, position) = (out_of(n), out_of(variables), out_of(n + 1));
    let variable = variable.wrapping_add(1);
    (c, Pair { variable, position })
}

/// A call before one over what is kept. Only the entry of one that is answered is kept.
fn call_between(random: &mut Random, reader: &mut Reader, met: &mut Met) {
    let length = random.index(20);
    let other = questions::entry(random, length);
    let own = reader.entry().to_vec();
    let entry = random.pick(&[&own, &other]);
    let (call, found) = match random.below(12) {
        0 => ("verdict", reader.verdict(entry).map(drop)),
        1 => ("reading", reader.reading(entry).map(drop)),
        2 => ("ask", reader.ask(entry, 1, 0).map(drop)),
        3 => ("ask", reader.ask(&[b'a'; 4_097], 1, 0).map(drop)),
        4 => ("opening", reader.opening(entry).map(drop)),
        _ => return,
    };
    met.found(call, &found, |()| "answered".to_string());
}

/// Everything that corrections, further questions and the calls between them can say.
#[rustfmt::skip]
const POSSIBLE_OVER_KEPT: [&str; 18] = [
    "correct success", "correct failure", "correct loop", "correct missing", "correct refused 8", "correct refused 9", "correct refused 18",
    "further success", "further failure", "further loop", "further missing", "further refused 8", "further refused 9",
    "verdict answered", "opening answered", "reading answered", "ask answered", "ask refused 6",
];

/// Corrections and further questions one after the other, with other calls between them.
#[test]
fn corrections_and_further_questions() {
    let (mut random, mut met) = (Random(32), Met::default());
    for _ in 0..4_000 {
        let variables = 1 + random.below(16);
        let sheet = questions::sheet(&mut random, variables);
        let mut reader = Reader::new(&sheet).expect("it is accepted");
        let length = random.index(13);
        let entry = questions::entry(&mut random, length);
        if !random.one_in(10) {
            assert!(reader.ask(&entry, 1, 0).is_ok());
        }
        for _ in 0..random.below(8) {
            call_between(&mut random, &mut reader, &mut met);
            let n = u32::try_from(reader.entry().len()).expect("few");
            let (c, asked) = to_correct(&mut random, reader.variables(), n);
            let byte = random.pick(b"a\xE9\xE9b\xC9-6A\xA0 \xD7!\x80.");
            let call = random.pick(&[Call::Correction { c }, Call::Further]);
            over_kept(&mut reader, call, byte, asked, &mut met);
        }
    }
    met.assert_met(&POSSIBLE_OVER_KEPT, 50);
}

/// Everything that the calls can say.
#[rustfmt::skip]
const POSSIBLE: [&str; 33] = [
    "new read", "new refused 1", "new refused 2", "new refused 3", "new refused 4", "new refused 5",
    "verdict recognised", "verdict partial", "verdict failure", "verdict loop", "verdict missing", "verdict refused 6",
    "own cells recognised", "own cells partial", "own cells failure", "own cells loop", "own cells missing",
    "ask success", "ask failure", "ask loop", "ask missing", "ask refused 6", "ask refused 8", "ask refused 9",
    "reading success", "reading failure", "reading loop", "reading missing", "reading refused 6",
    "changed 0", "changed 12", "changed 13", "changed 14",
];

#[test]
fn random_questions() {
    with_deep_stack(|| {
        let mut random = Random(31);
        let mut met = Met::default();
        for _ in 0..6_000 {
            random_question(&mut random, &mut met);
        }
        met.assert_met(&POSSIBLE, 5);
    });
}
