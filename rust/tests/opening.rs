//! The opening that already loops: beside the separate recognizer, which tries each opening, and beside numbers known from how sheet and entry were made;
//! room and refusals; `Reader` beside the call and the verdict, with corrections behind it.
#[allow(dead_code)] // Other tests make the other calls.
mod comparison;
#[allow(dead_code)] // Other tests correct entries, and ask further questions.
mod kept;
#[allow(dead_code)] // Other tests change lent numbers.
mod lent;
#[allow(dead_code)] // Other tests ask the other cases.
mod marked_cases;
#[allow(dead_code)] // Other tests count what a call found.
mod met;
#[allow(dead_code)] // It is a twin of the question.
#[path = "../benches/benchmark/plain.rs"]
mod plain;
#[allow(dead_code)] // Other tests make readings.
mod questions;
mod random;
#[allow(dead_code, unused_imports)] // Other tests run the machine, and check readings.
mod recognizer;
#[allow(dead_code)] // Other sheets are measured with.
#[path = "../benches/benchmark/sheets.rs"]
mod sheets;
#[allow(dead_code)] // Other sheets are measured with.
#[path = "../benches/benchmark/society.rs"]
mod society;
#[allow(dead_code)] // Other tests correct entries, and ask further questions.
mod tables;

use comparison::Comparison;
use entryreader::{Reader, test_calls};
use lent::Lent;
use marked_cases::{BEHIND, G, H, I};
use met::Met;
use questions::Case;
use random::Random;
use recognizer::{Opened, with_deep_stack};
use std::io::Write;

/// The least number of bytes that loop, if any, or the number of a refusal.
type Said = Result<Option<usize>, u32>;

/// The openings of cases beside the recognizer, and how often each was met.
struct Openings {
    comparison: Comparison,
    met: Met,
    /// How often an opening loops and a longer one does not, where the whole entry does not loop and where it does.
    uneven: [u64; 2],
}

impl Openings {
    fn new(seed: u64) -> Openings {
        Openings {
            comparison: Comparison::new(seed),
            met: Met::default(),
            uneven: [0; 2],
        }
    }

    fn random(&mut self) -> &mut Random {
        &mut self.comparison.random
    }

    /// The raw call and the safe one, over slices that are long enough, or lack so many numbers.
    fn said_lacking(&mut self, case: &Case, [table, work]: [usize; 2]) -> Said {
        let [more, rest] = [(); 2].map(|()| self.comparison.random.index(3));
        let table = (2 * case.cells + more).saturating_sub(table);
        let work = (case.cells + rest).saturating_sub(work);
        let found = self.comparison.opening(case, table, work);
        self.note(case, &found);
        found.map(|found| found.least)
    }

    fn said(&mut self, case: &Case) -> Said {
        self.said_lacking(case, [0, 0])
    }

    /// The opening, with each m tried beside it. An opening need not loop where a shorter one does, or where the whole entry does not: both are counted.
    fn said_of_all(&mut self, case: &Case) -> Said {
        let said = self.said(case);
        if let (Ok(sheet), Ok(least)) = (recognizer::read(&case.sheet), said) {
            let all = 0..=case.entry.len();
            let loops: Vec<bool> = all
                .map(|m| recognizer::loops(&sheet, &case.entry[..m]))
                .collect();
            let first = loops.iter().position(|loops| *loops);
            let whole = loops.last() == Some(&true);
            assert_eq!(least, first.filter(|_| whole), "{case}");
            let uneven = first.is_some_and(|first| loops[first..].contains(&false));
            self.uneven[usize::from(whole)] += u64::from(uneven);
        }
        said
    }

    /// Counts what was met: the verdict, and on how many bytes it loops.
    fn note(&mut self, case: &Case, found: &Result<Opened, u32>) {
        let whole = Some(case.entry.len());
        if found.as_ref().is_ok_and(|found| found.least == whole) {
            self.met.count(String::from("loop n"));
        }
        self.met.count(match found {
            Err(number) => format!("refused {number}"),
            Ok(Opened { least, judged }) => match least {
                Some(least @ 0..5) => format!("loop {least}"),
                Some(_) => String::from("loop 5 or more"),
                None => judged.code.to_string(),
            },
        });
    }
}

/// The opening of a random case of so many variables.
fn random_opening(openings: &mut Openings, variables: u64, length: usize) {
    let random = openings.random();
    let (sheet, entry) = questions::sheet_and_entry(random, variables, length);
    let _ = openings.said_of_all(&Case::new(&sheet, &entry, 0));
}

/// What a random case may be answered.
#[rustfmt::skip]
const ANSWERS: [&str; 11] = [
    "recognised", "partial", "failure", "missing",
    "loop 0", "loop 1", "loop 2", "loop 3", "loop 4", "loop 5 or more", "loop n",
];

/// So many random sheets of up to 16 variables, and entries of up to 12 bytes.
fn short_cases(openings: &mut Openings, count: u64) {
    for _ in 0..count {
        let random = openings.random();
        let (variables, length) = (1 + random.below(16), random.index(12));
        random_opening(openings, variables, length);
    }
}

#[test]
fn random_sheets() {
    let mut openings = Openings::new(71);
    short_cases(&mut openings, 20_000);
    openings.met.assert_met(&ANSWERS, 10);
    let uneven = openings.uneven;
    assert!(uneven.into_iter().all(|met| 5 < met), "{uneven:?}");
}

/// Sheets of up to 256 variables, entries of up to 60 bytes.
fn wide_cases(openings: &mut Openings, count: u64) {
    for _ in 0..count {
        let random = openings.random();
        let variables = random.pick(&[20, 40, 80, 255, 256]);
        let length = random.index(60);
        random_opening(openings, variables, length);
    }
}

#[test]
fn wide_sheets() {
    let mut openings = Openings::new(72);
    wide_cases(&mut openings, 2_000);
    openings.met.assert_met(&ANSWERS, 0);
}

/// Sheets and slices that are damaged: what is refused is what the verdict refuses, and then nothing is changed.
fn damaged_cases(openings: &mut Openings, count: u64) {
    for _ in 0..count {
        let case = questions::case(openings.random());
        let lacking = openings.random().pick(&[[0, 0], [0, 0], [1, 0], [0, 1]]);
        // Of longer entries the recognizer would try too many openings.
        if !(300..=4096).contains(&case.entry.len()) {
            let _ = openings.said_lacking(&case, lacking);
        }
    }
}

#[test]
fn damaged_sheets() {
    let mut openings = Openings::new(73);
    damaged_cases(&mut openings, 15_000);
    let refused = [1, 2, 3, 4, 5, 6, 10].map(|number| format!("refused {number}"));
    let refused: Vec<&str> = refused.iter().map(String::as_str).collect();
    openings
        .met
        .assert_met(&[&ANSWERS[..], &refused].concat(), 3);
}

/// How a round comes to its next variable.
#[derive(Clone, Copy, Debug)]
enum Through {
    First,
    SecondBehindNothing,
    OtherwiseBehindFailure,
}

/// What a sheet looks for before its round, and takes not.
#[derive(Clone, Copy, Debug)]
enum Look {
    Nothing,
    /// That an exclamation mark, which no entry has, is not there: at the entry's end none is either.
    Absent,
    /// That this byte is there.
    Present(u8),
}

/// A sheet that takes these bytes one by one, then looks for something, and then goes round so many variables.
fn made(taken: &[u8], looks: Look, round: u32, through: Through) -> Vec<u8> {
    let look = 1 + taken.len() as u32;
    let first = look + 1;
    let fails = first + round;
    let behind = [1, 2, 3, 4, 5].map(|behind| fails + behind);
    let [nothing, mark, absent, present, byte] = behind;
    let mut rules: Vec<[u32; 4]> = (1..look)
        .map(|taker| [4, byte + taker - 1, taker + 1, fails])
        .collect();
    let (looked_for, sought) = match looks {
        Look::Nothing => (nothing, b'!'),
        Look::Absent => (absent, b'!'),
        Look::Present(byte) => (present, byte),
    };
    rules.push([4, looked_for, first, fails]);
    rules.extend((1..=round).map(|number| {
        let next = first + number % round;
        match through {
            Through::First => [4, next, fails, fails],
            Through::SecondBehindNothing => [4, nothing, next, fails],
            Through::OtherwiseBehindFailure => [4, fails, fails, next],
        }
    }));
    // That a byte is there is that it is not absent.
    rules.extend([
        [1, 0, 0, 0],
        [0; 4],
        [2, u32::from(sought), 0, 0],
        [4, mark, fails, nothing],
        [4, absent, fails, nothing],
    ]);
    rules.extend(taken.iter().map(|byte| [2, u32::from(*byte), 0, 0]));
    sheets::sheet(&rules)
}

/// The least opening is what is taken before the round, and the byte that is looked for. With another byte among them there is no loop.
#[test]
fn made_sheets() {
    let mut openings = Openings::new(74);
    let throughs = [
        Through::First,
        Through::SecondBehindNothing,
        Through::OtherwiseBehindFailure,
    ];
    for number in 0..3_000 {
        let random = openings.random();
        let (takes, rest) = (random.index(9), random.index(4));
        let bytes: Vec<u8> = (0..takes + rest)
            .map(|_| random.pick(b"a6-\xE9 "))
            .collect();
        let (round, through) = (1 + random.below(5) as u32, throughs[number % 3]);
        let ends = rest == 0 && random.one_in(2);
        let mut entry = [&bytes[..], b"."].concat();
        let taken = if ends { &entry[..] } else { &bytes[..takes] };
        let present = entry.get(taken.len()).map(|byte| Look::Present(*byte));
        let looks = random.pick(&[Some(Look::Nothing), Some(Look::Absent), present, present]);
        let looks = looks.unwrap_or(Look::Absent);
        let sheet = made(taken, looks, round, through);
        let least = taken.len() + usize::from(matches!(looks, Look::Present(_)));
        let said = openings.said(&Case::new(&sheet, &entry, 0));
        assert_eq!(said, Ok(Some(least)), "{through:?} {round} {looks:?}");
        if takes != 0 {
            entry[openings.random().index(takes)] = b'x';
            let said = openings.said(&Case::new(&sheet, &entry, 0));
            assert_eq!(said, Ok(None));
        }
    }
    let loops = [0, 1, 2, 3, 4].map(|least| format!("loop {least}"));
    let loops = loops.iter().map(String::as_str);
    let others = ["loop 5 or more", "loop n", "failure"];
    let possible: Vec<&str> = loops.chain(others).collect();
    openings.met.assert_met(&possible, 50);
}

/// A sheet that takes these bytes one by one and then calls the last of these variables; where the byte is not there, it calls that of the byte. Of them 1
/// loops, 2 succeeds and 3 fails.
fn with_ends(bytes: &[u8], ends: &[u32]) -> Vec<u8> {
    let (first, n) = (4, bytes.len() as u32);
    let last = ends[bytes.len()];
    let start = if n == 0 { last } else { first };
    let mut rules = vec![[4, 1, 1, 1], [0; 4], [1, 0, 0, 0]];
    rules.extend((0..n).map(|at| {
        let next = if at + 1 < n { first + at + 1 } else { last };
        [4, first + n + at, next, ends[at as usize]]
    }));
    rules.extend(bytes.iter().map(|byte| [2, u32::from(*byte), 0, 0]));
    let mut sheet = sheets::sheet(&rules);
    sheet[5..10].copy_from_slice(format!("{start:5}").as_bytes());
    sheet
}

/// What follows the bytes that are there decides of each opening alone: the least that loops is told where the whole entry loops, whether those between
/// them do or not.
#[test]
fn uneven_sheets() {
    let mut openings = Openings::new(84);
    for _ in 0..2_000 {
        let random = openings.random();
        let n = random.index(9);
        let bytes: Vec<u8> = (0..n).map(|_| random.pick(b"a6-\xE9 .")).collect();
        let ends: Vec<u32> = (0..=n).map(|_| random.pick(&[1, 2, 3])).collect();
        let case = Case::new(with_ends(&bytes, &ends), &bytes, 0);
        let first = ends.iter().position(|end| *end == 1);
        let said = openings.said_of_all(&case);
        assert_eq!(said, Ok(first.filter(|_| ends[n] == 1)), "{ends:?}");
    }
    let uneven = openings.uneven;
    assert!(uneven.into_iter().all(|met| 200 < met), "{uneven:?}");
}

/// Pages of so many bytes on a sheet of 60 rules, with a remark in the middle: the bytes up to the bracket that opens it are enough, and needed.
fn pages(openings: &mut Openings, lengths: impl IntoIterator<Item = usize>) {
    for n in lengths {
        let page = society::remark(n);
        let opened = page.entry.iter().position(|byte| *byte == b'(');
        let case = Case::new(&page.sheet, &page.entry, 0);
        let said = openings.said_of_all(&case);
        assert_eq!(said, Ok(opened.map(|opened| opened + 1)), "{case}");
    }
}

#[test]
fn remarks_of_a_page() {
    pages(&mut Openings::new(75), [60, 61, 70, 80, 150]);
}

/// The sheet with another rule for a variable.
fn with_rule(sheet: &[u8], variable: u64, rule: [u64; 4]) -> Vec<u8> {
    let start = 26 * variable as usize;
    let [kind, b, c, d] = rule;
    let line = questions::row([variable, kind, b, c, d]).into_bytes();
    [&sheet[..start], &line, &sheet[start + 26..]].concat()
}

/// A line of a register on a sheet of 251 rules, of which one that calls others comes back to itself, at once or behind what it calls first.
fn society_cases(openings: &mut Openings, count: u64) {
    for _ in 0..count {
        let random = openings.random();
        let line = society::one_line(random.index(60));
        let called = 1 + random.below(251);
        let variable = 1 + random.below(251);
        let rule = match random.below(3) {
            0 => [4, called, variable, variable],
            _ => [4, variable, called, called],
        };
        let sheet = with_rule(&line.sheet, variable, rule);
        let _ = openings.said_of_all(&Case::new(sheet, &line.entry, 0));
    }
}

#[test]
fn society_sheets() {
    let mut openings = Openings::new(76);
    society_cases(&mut openings, 200);
    let possible = [&["recognised"], &ANSWERS[4..10]].concat();
    openings.met.assert_met(&possible, 0);
}

/// Much more of all of it; what was met is printed.
#[test]
#[ignore = "a command of its own: see docs/CONTRIBUTING.md"]
fn many_openings() {
    with_deep_stack(|| {
        let seed = std::env::var("COMPARE_SEED").map_or(77, |seed| seed.parse().expect("a number"));
        let mut openings = Openings::new(seed);
        short_cases(&mut openings, 400_000);
        wide_cases(&mut openings, 10_000);
        damaged_cases(&mut openings, 200_000);
        society_cases(&mut openings, 5_000);
        pages(&mut openings, (60..300).chain([1_000, 2_000, 4_096]));
        // Not `println!`, which a passing test would keep to itself.
        let (met, uneven) = (&openings.met, openings.uneven);
        writeln!(std::io::stdout().lock(), "\nseed {seed}: {met}, {uneven:?}")
            .expect("it is printed");
    });
}

/// The empty entry loops, for 1 calls itself where 2, an `a`, fails. Behind an `a` there is nothing, or a `b` and then a loop.
const UNEVEN: &str = "    6    1   46    0    0
    1    4    2    3    1
    2    2   97    0    0
    3    4    4    5    6
    4    2   98    0    0
    5    4    5    5    5
    6    0    0    0    0
";

/// By hand: no byte, some, and all of them; and none where the verdict is another.
#[test]
fn by_hand() {
    let mut openings = Openings::new(78);
    let last = sheets::last_byte(5, 3).sheet;
    for (sheet, entry, least) in [
        (G.as_bytes(), &b"."[..], Some(0)),
        (G.as_bytes(), b"-6.", Some(0)),
        (BEHIND.as_bytes(), b"66-.", Some(3)),
        (BEHIND.as_bytes(), b"66-66-66.", Some(3)),
        (BEHIND.as_bytes(), b"-.", Some(1)),
        (BEHIND.as_bytes(), b"66.", None),
        (BEHIND.as_bytes(), b"66x-.", None),
        (&last, b"aa.", Some(3)),
        (&last, b".", Some(1)),
        (H.as_bytes(), b"-6.", None),
        (I.as_bytes(), b"aa.", None),
        (G.as_bytes(), b"", Some(0)),
        (BEHIND.as_bytes(), b"66-", Some(3)),
        (BEHIND.as_bytes(), b"66", None),
        (H.as_bytes(), b"", None),
        // Though the empty entry loops: `a` is recognised.
        (UNEVEN.as_bytes(), b"a", None),
        // Behind `a`, which does not loop.
        (UNEVEN.as_bytes(), b"ab", Some(0)),
        (UNEVEN.as_bytes(), b"b", Some(0)),
    ] {
        let said = openings.said_of_all(&Case::new(sheet, entry, 0));
        assert_eq!(said, Ok(least), "{entry:?}");
    }
    assert_eq!(openings.uneven, [1, 1]);
}

/// An entry whose last byte alone makes it loop: the answer, and the whole table. The recognizer tries some openings.
fn last_byte_loops(asked: &sheets::Question) {
    let (sheet, entry, n) = (&asked.sheet, &asked.entry, asked.entry.len());
    let random = &mut Random(79);
    let mut table = Lent::any(random, 2 * asked.cells() + 1);
    let mut work = Lent::any(random, asked.cells() + 1);
    let found = entryreader::lent::opening(sheet, entry, table.slice(), work.slice());
    assert_eq!(found, Ok(Some(n)));
    let judged = recognizer::judge(sheet, entry, usize::MAX, usize::MAX);
    let (Ok(judged), Ok(sheet)) = (judged, recognizer::read(sheet)) else {
        panic!("it is refused");
    };
    assert!(table.holds(&judged.table) && work.keeps_from(asked.cells()));
    for m in [0, 1, n / 2, n - 1, n] {
        let loops = recognizer::loops(&sheet, &entry[..m]);
        assert_eq!(loops, m == n, "{m} of {n}");
    }
}

/// The longest entry too; one byte more is refused.
#[test]
fn last_bytes() {
    with_deep_stack(|| {
        for n in [2, 3, 255, 256, 257, 4_095, 4_096] {
            last_byte_loops(&sheets::last_byte(5, n));
        }
        last_byte_loops(&sheets::last_byte_of_choices(80));
    });
    let longer = sheets::last_byte(5, 4_097);
    let said = Openings::new(80).said(&Case::new(&longer.sheet, &longer.entry, 0));
    assert_eq!(said, Err(6));
}

/// Table and work slice of just as many numbers as are needed, one more and one too few, none, and half a table or twice as much.
fn in_every_room(comparison: &mut Comparison, case: &Case, least: Option<usize>) {
    let around = |limit: usize| [0, 1, limit / 2, limit - 1, limit, limit + 1, 2 * limit];
    let (tables, works) = (around(2 * case.cells), around(case.cells));
    for (table, work) in tables
        .iter()
        .flat_map(|table| works.map(|work| (*table, work)))
    {
        let found = comparison.opening(case, table, work);
        let enough = 2 * case.cells <= table && case.cells <= work;
        let expected = if enough { Ok(least) } else { Err(10) };
        assert_eq!(found.map(|found| found.least), expected, "{table} {work}");
    }
}

#[test]
fn room() {
    for (sheet, entry, least) in [
        (BEHIND, "66-.", Some(3)),
        (G, ".", Some(0)),
        (H, "6.", None),
    ] {
        let case = Case::new(sheet, entry.as_bytes(), 0);
        in_every_room(&mut Comparison::new(81), &case, least);
    }
}

/// The call is refused with this number, as the verdict is, and everything is as it was, the answer too. Both slices have so many numbers.
fn refused(number: u32, sheet: &[u8], entry: &[u8], numbers: usize) {
    let random = &mut Random(82);
    let (mut read, mut given) = (Lent::of(random, sheet), Lent::of(random, entry));
    let [mut table, mut work] = [(); 2].map(|()| Lent::any(random, numbers));
    let mut answer = Lent::<u32>::any(random, 2);
    let returned = test_calls::opening(
        read.slice(),
        given.slice(),
        table.slice(),
        work.slice(),
        answer.array(),
    );
    assert_eq!(returned, 100 + number);
    assert!(table.unchanged() && work.unchanged() && answer.unchanged());
    assert!(read.unchanged() && given.unchanged());
    let mut answer = [0; 4];
    test_calls::judge(sheet, entry, table.slice(), work.slice(), &mut answer);
    assert_eq!(answer[..2], [9, number]);
}

/// Every refusal, each with all the faults that come behind it: the first is given.
#[test]
fn refusals_in_their_order() {
    let long = [b'6'; 4_097];
    for (number, sheet) in questions::refused_sheets() {
        refused(number, sheet.as_bytes(), &long, 0);
    }
    let good = G.as_bytes();
    refused(6, good, &long, 0);
    refused(10, good, &long[..4_096], 0);
    refused(10, good, b"", 1);
    refused(10, good, b"66.", 7);
    refused(10, good, b"6.6.", 9);
}

/// A reader's opening beside the recognizer and the verdict of a copy: the same table, and the same refusals, after which entry and table are as before.
/// The copy, after its verdict.
fn by_reader(reader: &mut Reader, entry: &[u8], met: &mut Met) -> Reader {
    let mut copy = reader.clone();
    let verdict = copy.verdict(entry);
    let before = (reader.entry().to_vec(), reader.table().to_vec());
    let found = reader.opening(entry);
    let expected = recognizer::opening(reader.sheet(), entry, usize::MAX, usize::MAX);
    match expected {
        Ok(Opened { judged, least }) => {
            assert_eq!(found, Ok(least));
            assert_eq!((reader.entry(), reader.table()), (entry, &judged.table[..]));
        }
        Err((number, _)) => {
            assert_eq!(found.map_err(|error| error.number()), Err(number));
            let after = (reader.entry(), reader.table());
            assert_eq!(after, (&before.0[..], &before.1[..]));
        }
    }
    assert_eq!(found.err(), verdict.err());
    assert_eq!(
        (reader.entry(), reader.table()),
        (copy.entry(), copy.table())
    );
    met.found("opening", &found, |least| {
        String::from(if least.is_some() { "least" } else { "none" })
    });
    copy
}

/// Some corrections of the same bytes after the opening and after the verdict: they answer the same, count the same cells, and leave the same table.
fn correct_both(random: &mut Random, readers: [&mut Reader; 2], met: &mut Met) {
    let [one, other] = readers;
    let length = one.entry().len() as u64;
    for _ in 0..random.below(4) {
        let c = random.below(length + 1) as u32;
        let byte = random.pick(b"a\xE9b-6A .");
        let variable = 1 + random.below(one.variables().into()) as u32;
        let answer = one.correct(c, byte, variable, 0);
        assert_eq!(answer, other.correct(c, byte, variable, 0));
        assert_eq!((one.entry(), one.table()), (other.entry(), other.table()));
        met.found("correct", &answer, |_| String::from("answered"));
    }
}

/// One reader on entry after entry, short and long; each time corrections follow.
#[test]
fn readers() {
    let (mut random, mut met) = (Random(83), Met::default());
    for _ in 0..2_000 {
        let variables = 1 + random.below(16);
        let mut reader = Reader::new(&questions::sheet(&mut random, variables)).expect("a sheet");
        for _ in 0..4 {
            let length = random.pick(&[0, 1, 2, 5, 9, 30]);
            let entry = match random.below(30) {
                0 => vec![b'.'; 4_097],
                _ => questions::entry(&mut random, length),
            };
            let mut copy = by_reader(&mut reader, &entry, &mut met);
            correct_both(&mut random, [&mut reader, &mut copy], &mut met);
        }
    }
    let possible = [
        "opening least",
        "opening none",
        "opening refused 6",
        "correct answered",
        "correct refused 18",
    ];
    met.assert_met(&possible, 50);
}
