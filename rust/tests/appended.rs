//! Text added at the end: what a question says of an entry it says again where bytes are appended, unless it looked past the entry's end. The table that
//! it left tells which.
#[allow(dead_code)] // Other tests ask the other cases.
mod marked_cases;
#[allow(dead_code, unused_imports)] // Other tests damage sheets, and make readings.
mod questions;
mod random;
#[allow(dead_code, unused_imports)] // The questions that other tests ask are judged by it.
mod recognizer;

use entryreader::{Pair, Reader, Rule, test_calls};
use marked_cases::{BEHIND, H, J};
use random::Random;
use std::io::Write;

/// The code of the asked cell, the named variable and the named position: what must come again. The count of cells need not.
type Said = [u32; 3];

/// The codes of failure, loop and missing.
const FAILURE: u32 = 1;
const LOOP: u32 = 2;
const MISSING: u32 = 3;

/// The code of a success ending at 0; no other outcome has a code as great.
const SUCCESS: u32 = 5;

/// The codes of the outcomes, every success as 5.
const CODES: [usize; 4] = [1, 2, 3, 5];

/// A sheet, an entry, and the entry with bytes appended.
struct Case {
    reader: Reader,
    entry: Vec<u8>,
    longer: Vec<u8>,
}

impl Case {
    fn new(sheet: &[u8], entry: &[u8], added: &[u8]) -> Case {
        Case {
            reader: Reader::new(sheet).expect("it is accepted"),
            entry: entry.to_vec(),
            longer: [entry, added].concat(),
        }
    }

    /// The two entries are one that is cut at that length, or made apart.
    fn random(random: &mut Random, variables: u64, length: usize, added: usize) -> Case {
        let sheet = questions::sheet(random, variables);
        let longer = questions::entry(random, length + added);
        let (entry, added) = longer.split_at(length);
        match random.below(2) {
            0 => Case::new(&sheet, entry, added),
            _ => Case::new(&sheet, &questions::entry(random, length), added),
        }
    }

    /// The question about one of the two entries, over slices of just enough numbers that hold anything, with the table that it leaves; or the number of
    /// its refusal.
    fn question(
        &self,
        random: &mut Random,
        entry: &[u8],
        asked: Pair,
    ) -> Result<(Said, Vec<u32>), u32> {
        let cells = self.reader.variables() as usize * (entry.len() + 1);
        let mut slice = |length| vec![random.below(1 << 31) as u32; length];
        let (mut table, mut work) = (slice(2 * cells), slice(cells));
        let mut answer = [0; 4];
        let returned = test_calls::question(
            self.reader.sheet(),
            entry,
            asked.variable,
            asked.position,
            &mut table,
            &mut work,
            &mut answer,
        );
        match returned {
            0 => Ok(([answer[0], answer[1], answer[2]], table)),
            code => Err(code - 100),
        }
    }

    /// The outcome that the machine names of the shorter entry, with some moves and frames.
    fn run(&self, random: &mut Random, asked: Pair) -> Option<u32> {
        let mut frames = vec![0; 3 * random.index(14)];
        let budget = random.below(80) as u32;
        let mut answer = [0; 3];
        let returned = test_calls::run(
            self.reader.sheet(),
            &self.entry,
            asked,
            &mut frames,
            budget,
            &mut answer,
        );
        assert_eq!(returned, 0);
        let names = ![test_calls::SPENT, test_calls::NO_FRAME].contains(&answer[0]);
        names.then_some(answer[0])
    }

    /// The index of a pair's cell in the table of the shorter entry.
    fn index(&self, Pair { variable, position }: Pair) -> usize {
        (variable as usize - 1) * (self.entry.len() + 1) + position as usize
    }

    /// Does the question reach a pair that asks for a byte or a class at the entry's end? Nothing else looks past it.
    fn asks_at_the_end(&self, table: &[u32]) -> bool {
        let position = self.entry.len() as u32;
        (1..=self.reader.variables()).any(|variable| {
            let reached = table[2 * self.index(Pair { variable, position })] != 0;
            let rule = self.reader.rule(variable);
            reached && matches!(rule, Some(Rule::Byte(_) | Rule::Class(_)))
        })
    }

    /// "success and failure whose reach is at most n, and .. loop and missing when no finished pair they reach looked past n": read off the table that the
    /// question left, in each of the ways that it can be.
    fn lasts(&self, asked: Pair, code: u32, table: &[u32]) -> bool {
        let n = self.entry.len() as u32;
        let lasts = table.as_chunks().0.iter().all(|[_, reach]| *reach <= n);
        assert_eq!(lasts, !self.asks_at_the_end(table), "{self} {asked:?}");
        let [outcome, reach] = table.as_chunks().0[self.index(asked)];
        assert_eq!(outcome, code, "{self} {asked:?}");
        if code == FAILURE || SUCCESS <= code {
            assert_eq!(lasts, reach <= n, "{self} {asked:?}");
        }
        lasts
    }
}

/// How often each outcome was met on the shorter entry, by its code, every success as 5: where it must come again; where the entry's end was looked at,
/// and it did not come again, or did; and where the machine named it.
#[derive(Debug, Default)]
struct Met {
    lasting: [u64; 6],
    changed: [u64; 6],
    unchanged: [u64; 6],
    named: [u64; 6],
}

impl Met {
    /// One pair of the shorter entry.
    fn pair(&mut self, random: &mut Random, case: &Case, asked: Pair) {
        let mut said = |entry: &[u8]| {
            let said = case.question(random, entry, asked);
            said.expect("pair and slices are right")
        };
        let (before, table) = said(&case.entry);
        let (after, _) = said(&case.longer);
        let lasts = case.lasts(asked, before[0], &table);
        if lasts {
            assert_eq!(after, before, "{case} {asked:?}");
        }
        let met = match (lasts, after == before) {
            (true, _) => &mut self.lasting,
            (false, false) => &mut self.changed,
            (false, true) => &mut self.unchanged,
        };
        met[before[0].min(SUCCESS) as usize] += 1;
        if let Some(code) = case.run(random, asked) {
            self.named[code.min(SUCCESS) as usize] += 1;
            assert_eq!(code, before[0], "{case} {asked:?}");
        }
    }

    /// Every pair of the shorter entry.
    fn pairs(&mut self, random: &mut Random, case: &Case) {
        for variable in 1..=case.reader.variables() {
            for position in 0..=case.entry.len() as u32 {
                self.pair(random, case, Pair { variable, position });
            }
        }
    }

    /// Each outcome was met more often than this where it lasts, and so often where it changes and where it does not. The machine names no loop.
    fn assert_met(&self, lasting: u64, looked: u64) {
        let more = |met: &[u64; 6], often| CODES.iter().all(|code| often < met[*code]);
        assert!(more(&self.lasting, lasting), "{self:?}");
        assert!(more(&self.changed, looked), "{self:?}");
        assert!(more(&self.unchanged, looked), "{self:?}");
        let named = [1, 3, 5].map(|code: usize| self.named[code]);
        assert!(named.into_iter().all(|met| lasting < met), "{self:?}");
    }
}

impl std::fmt::Display for Case {
    fn fmt(&self, f: &mut std::fmt::Formatter<'_>) -> std::fmt::Result {
        let sheet = String::from_utf8_lossy(self.reader.sheet());
        let [entry, longer] = [&self.entry, &self.longer].map(|s| String::from_utf8_lossy(s));
        write!(f, "{sheet}{entry:?} {longer:?}")
    }
}

/// Short entries, every pair of them.
#[test]
fn every_pair() {
    let mut random = Random(12);
    let mut met = Met::default();
    for _ in 0..10_000 {
        let variables = 1 + random.below(14);
        let (length, added) = (random.index(9), 1 + random.index(6));
        let case = Case::random(&mut random, variables, length, added);
        met.pairs(&mut random, &case);
    }
    met.assert_met(20_000, 400);
}

/// Entries of up to 4,096 bytes with what is appended, and sheets of up to 256 variables: some pairs of each, half of them near the end.
#[test]
#[ignore = "a command of its own: see README.md"]
fn longer_entries() {
    let mut random = Random(13);
    let mut met = Met::default();
    for _ in 0..20_000 {
        let variables = match random.below(4) {
            0 => 1 + random.below(256),
            _ => 1 + random.below(24),
        };
        let length = random.index(4096);
        let added = 1 + random.index(4096 - length);
        let case = Case::random(&mut random, variables, length, added);
        for _ in 0..10 {
            let from_end = match random.below(2) {
                0 => random.index(length + 1),
                _ => random.index(length.min(8) + 1),
            };
            let asked = Pair {
                variable: 1 + random.below(variables) as u32,
                position: (length - from_end) as u32,
            };
            met.pair(&mut random, &case, asked);
        }
    }
    // Not `println!`, which a passing test would keep to itself.
    writeln!(std::io::stdout().lock(), "\n{met:?}").expect("it is printed");
    met.assert_met(20_000, 300);
}

/// A sheet of these lines.
fn sheet<const LINES: usize>(lines: [[u64; 5]; LINES]) -> String {
    lines.map(questions::row).concat()
}

/// A run of one byte, whatever comes behind it.
fn run_of_a() -> String {
    sheet([
        [3, 1, 46, 0, 0],
        [1, 4, 2, 1, 3],
        [2, 2, 97, 0, 0],
        [3, 0, 0, 0, 0],
    ])
}

const FIRST: Pair = Pair {
    variable: 1,
    position: 0,
};

/// What is said of the empty entry or the front of another, by hand, and of the whole of it: the end was looked at, and what follows decides.
#[test]
fn looked_past_the_end() {
    let run = run_of_a();
    // 2 = byte 97, and behind it or without it another variable without a rule.
    let missing = sheet([[4, 1, 46, 0, 0], [1, 4, 2, 3, 4], [2, 2, 97, 0, 0]]);
    // Without the byte 97 variable 1 comes back to itself.
    let loops = sheet([
        [3, 1, 46, 0, 0],
        [1, 4, 2, 3, 1],
        [2, 2, 97, 0, 0],
        [3, 0, 0, 0, 0],
    ]);
    let fails = [FAILURE, 0, 0];
    let success = |end| [SUCCESS + end, 0, 0];
    for (sheet, entry, added, before, after) in [
        (H, "-6", ".", fails, success(3)),
        (H, "-6", "x", fails, fails),
        (&run, "aa", "a", success(2), success(3)),
        (&run, "aa", ".", success(2), success(2)),
        (&loops, "", "a", [LOOP, 1, 0], success(1)),
        (&loops, "", "b", [LOOP, 1, 0], [LOOP, 1, 0]),
        (&missing, "", "a", [MISSING, 4, 0], [MISSING, 3, 1]),
        (&missing, "", "b", [MISSING, 4, 0], [MISSING, 4, 0]),
    ] {
        let case = Case::new(sheet.as_bytes(), entry.as_bytes(), added.as_bytes());
        let question = |entry: &[u8]| case.question(&mut Random(14), entry, FIRST);
        let (said, table) = question(entry.as_bytes()).expect("it is accepted");
        assert_eq!(said, before, "{case}");
        assert!(!case.lasts(FIRST, said[0], &table), "{case}");
        let (said, _) = question(&case.longer).expect("it is accepted");
        assert_eq!(said, after, "{case}");
    }
}

/// Where the end was not looked at, everything comes again, whatever follows.
#[test]
fn not_looked_past_the_end() {
    let run = run_of_a();
    for (sheet, entry, said) in [
        (H, "-6.", [SUCCESS + 3, 0, 0]),
        (H, "x", [FAILURE, 0, 0]),
        (&run, "aa.", [SUCCESS + 2, 0, 0]),
        (BEHIND, "66-", [LOOP, 5, 3]),
        (J, "", [MISSING, 2, 0]),
    ] {
        for added in ["", ".", "-6.", "aaa", "66-"] {
            let case = Case::new(sheet.as_bytes(), entry.as_bytes(), added.as_bytes());
            let question = |entry: &[u8]| case.question(&mut Random(16), entry, FIRST);
            let (before, table) = question(entry.as_bytes()).expect("it is accepted");
            assert!(case.lasts(FIRST, before[0], &table), "{case}");
            let after = question(&case.longer).map(|(said, _)| said);
            assert_eq!((before, after), (said, Ok(said)), "{case}");
        }
    }
}

/// 4,096 bytes with what is appended are answered, one more is refused with 6.
#[test]
fn within_the_limit() {
    let mut random = Random(15);
    let entry = [&[b'a'; 4_000][..], b"."].concat();
    let before = Ok([SUCCESS + 4_000, 0, 0]);
    for (added, said) in [(95, before), (96, Err(6))] {
        let case = Case::new(run_of_a().as_bytes(), &entry, &vec![b'a'; added]);
        let mut question = |entry: &[u8]| {
            let said = case.question(&mut random, entry, FIRST);
            said.map(|(said, _)| said)
        };
        assert_eq!(question(&entry), before);
        assert_eq!(question(&case.longer), said);
    }
}
