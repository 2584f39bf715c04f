//! Questions, further questions and corrections over a table that is lent, with guards around everything: what they say and leave beside the recognizer,
//! and tables that no call left.
use crate::kept::{self, BLANK, Call, Cell, SUCCESS};
use crate::lent::Lent;
use crate::questions;
use crate::random::Random;
use crate::recognizer::{self, Answered, Question};
use entryreader::{Pair, test_calls};

/// The start of a sheet whose start is 1.
pub const START: Pair = Pair {
    variable: 1,
    position: 0,
};

/// What each call can be answered, with its name.
#[rustfmt::skip]
pub const ANSWERS: [&str; 12] = [
    "question success", "question failure", "question loop", "question missing",
    "further success", "further failure", "further loop", "further missing",
    "correction success", "correction failure", "correction loop", "correction missing",
];

/// The four numbers of an answer, or the number of a refusal.
pub type Said = Result<[u32; 4], u32>;

/// A sheet of so many variables, an entry, the entry before its last correction, and the position of the byte that was corrected.
#[derive(Clone, Debug)]
pub struct Case {
    pub sheet: Vec<u8>,
    pub old: Vec<u8>,
    pub entry: Vec<u8>,
    pub variables: usize,
    pub c: u32,
}

impl Case {
    pub fn random(random: &mut Random, variables: u64, length: usize) -> Case {
        let sheet = questions::sheet(random, variables);
        Case::new(sheet, &questions::entry(random, length), 0)
    }

    /// Of a sheet whose line 1 is right, the byte at c corrected to what it was.
    pub fn new(sheet: impl AsRef<[u8]>, entry: &[u8], c: u32) -> Case {
        let case = questions::Case::new(sheet, entry, 0);
        Case {
            variables: case.cells / (entry.len() + 1),
            sheet: case.sheet,
            old: entry.to_vec(),
            entry: case.entry,
            c,
        }
    }

    /// n, the entry's length.
    pub fn n(&self) -> u32 {
        self.entry.len() as u32
    }

    pub fn cells(&self) -> usize {
        self.variables * (self.entry.len() + 1)
    }

    /// A position of the entry, the first, the last and the middle more often than others.
    pub fn position(&self, random: &mut Random) -> usize {
        let last = self.entry.len() - 1;
        let any = random.index(last + 1);
        random.pick(&[0, last / 2, last, any, any, any])
    }

    /// The byte at c is corrected to this one.
    pub fn correct_to(&mut self, c: usize, byte: u8) {
        self.old.clone_from(&self.entry);
        self.entry[c] = byte;
        self.c = c as u32;
    }

    /// Another byte at some position, sometimes the same.
    pub fn correct(&mut self, random: &mut Random) {
        let at = self.position(random);
        let other = random.pick(b"a\xE9\xE9b\xC9-6A\xA0 \xD7!\x80.");
        let byte = match random.below(6) {
            0 => self.entry[at],
            1 => random.below(256) as u8,
            _ => other,
        };
        self.correct_to(at, byte);
    }

    pub fn pair(&self, random: &mut Random) -> Pair {
        let variable = match random.below(3) {
            0 => 1,
            _ => 1 + random.index(self.variables),
        };
        let position = match random.below(2) {
            0 => 0,
            _ => random.index(self.entry.len() + 1),
        };
        Pair {
            variable: variable as u32,
            position: position as u32,
        }
    }

    /// What the recognizer is asked.
    pub fn about(&self, asked: Pair) -> Question<'_> {
        Question {
            sheet: &self.sheet,
            entry: &self.entry,
            asked,
        }
    }

    /// What the recognizer says.
    pub fn answered(&self, asked: Pair) -> Answered {
        recognizer::question(self.about(asked), 2 * self.cells(), self.cells())
            .unwrap_or_else(|number| panic!("{number}: {self}"))
    }

    /// A call of any kind; for a correction the entry is corrected.
    pub fn any_call(&mut self, random: &mut Random) -> Call {
        match random.below(7) {
            0 => Call::Question,
            1 | 2 if !self.entry.is_empty() => {
                self.correct(random);
                self.last_correction()
            }
            _ => Call::Further,
        }
    }

    /// The correction of the byte that was corrected last.
    pub fn last_correction(&self) -> Call {
        Call::Correction { c: self.c }
    }

    /// The cells of a table, without later numbers.
    pub fn first<'a>(&self, table: &'a [u32]) -> &'a [u32] {
        &table[..2 * self.cells()]
    }

    /// The first of 18, 21 and 19 that holds for a call over a table.
    pub fn refused(&self, call: Call, table: &[u32]) -> Option<u32> {
        call.refused([&self.old, &self.entry], self.first(table))
    }

    /// A call over a table of these numbers and a work slice that is longer than it needs to be.
    pub fn said(&self, random: &mut Random, call: Call, asked: Pair, table: &mut Vec<u32>) -> Said {
        self.said_over(random, call, asked, table, self.cells() + 3)
    }

    /// A call over a table of these numbers and so many numbers of work slice, with guards around everything: after a refusal all is as it was, and else
    /// nothing changes beyond the first V times (n + 1) cells of the table and numbers of the work slice, and the code is at most 5 + n, and not 4.
    pub fn said_over(
        &self,
        random: &mut Random,
        call: Call,
        asked: Pair,
        table: &mut Vec<u32>,
        work: usize,
    ) -> Said {
        let read = [&self.sheet, &self.old, &self.entry];
        let [mut sheet, mut old, mut entry] = read.map(|read| Lent::of(random, read));
        let mut lent = Lent::of(random, table);
        let mut work = Lent::any(random, work);
        let mut answer = Lent::<u32>::any(random, 4);
        let returned = exported(
            call,
            [sheet.slice(), old.slice(), entry.slice()],
            asked,
            [lent.slice(), work.slice()],
            answer.array(),
        );
        let shown = || format!("{returned} {call:?} {asked:?} {self}");
        let read = [&sheet, &old, &entry];
        assert!(read.into_iter().all(Lent::unchanged), "{}", shown());
        if returned != 0 {
            let unchanged = lent.unchanged() && work.unchanged() && answer.unchanged();
            assert!(unchanged, "{}", shown());
            return Err(returned - 100);
        }
        let kept = lent.keeps_from(2 * self.cells()) && work.keeps_from(self.cells());
        assert!(kept && answer.keeps_from(4), "{}", shown());
        *table = lent.slice().to_vec();
        let said: [u32; 4] = *answer.array();
        let right = said[0] != 4 && said[0] <= SUCCESS + self.n();
        assert!(right, "{said:?} {}", shown());
        Ok(said)
    }

    pub fn further(&self, random: &mut Random, asked: Pair, table: &mut Vec<u32>) -> Said {
        self.said(random, Call::Further, asked, table)
    }

    pub fn correction(&self, random: &mut Random, asked: Pair, table: &mut Vec<u32>) -> Said {
        self.said(random, self.last_correction(), asked, table)
    }

    /// A question over a fresh table, longer than it needs to be; the table afterwards.
    pub fn question(&self, random: &mut Random, asked: Pair) -> Vec<u32> {
        let mut table = Lent::any(random, 2 * self.cells() + 3).slice().to_vec();
        let said = self.said(random, Call::Question, asked, &mut table);
        assert!(said.is_ok(), "{said:?} {asked:?} {self}");
        table
    }

    /// A call over a kept table, with the answer, the count and all cells as the recognizer's definitions say: what that says, and the count of
    /// newly decided cells.
    pub fn compared(
        &self,
        random: &mut Random,
        call: Call,
        asked: Pair,
        table: &mut Vec<u32>,
    ) -> (Answered, u32) {
        let found = self.answered(asked);
        let start = call.retained(self.n(), self.first(table));
        let (cells, newly) = kept::left(&found.table, &start);
        let expected = [&cells, &table[2 * self.cells()..]].concat();
        let said = self.said(random, call, asked, table);
        assert_eq!(said, Ok(found.numbers(newly)), "{call:?} {asked:?} {self}");
        assert_eq!(*table, expected, "{call:?} {asked:?} {self}");
        (found, newly)
    }
}

impl std::fmt::Display for Case {
    fn fmt(&self, f: &mut std::fmt::Formatter<'_>) -> std::fmt::Result {
        let sheet = String::from_utf8_lossy(&self.sheet);
        let [old, entry] = [&self.old, &self.entry].map(|entry| String::from_utf8_lossy(entry));
        write!(f, "{sheet}{old:?} corrected at {} to {entry:?}", self.c)
    }
}

/// The call itself; only a correction is handed the old entry.
pub fn exported(
    call: Call,
    [sheet, old, entry]: [&[u8]; 3],
    Pair { variable, position }: Pair,
    [table, work]: [&mut [u32]; 2],
    answer: &mut [u32; 4],
) -> u32 {
    match call {
        Call::Question => {
            test_calls::question(sheet, entry, variable, position, table, work, answer)
        }
        Call::Further => test_calls::further(sheet, entry, variable, position, table, work, answer),
        Call::Correction { c } => test_calls::correct(
            sheet, old, entry, variable, position, c, table, work, answer,
        ),
    }
}

/// Variable 1 comes back to itself behind a byte `a`, variable 3 at once; variable 2 is a byte `a`, variable 4 has no rule, and variable 5 asks for it
/// behind an `a`.
pub fn loops(entry: &[u8], c: u32) -> Case {
    let lines = [
        [5, 1, 46, 0, 0],
        [1, 4, 2, 3, 3],
        [2, 2, 97, 0, 0],
        [3, 4, 3, 2, 2],
        [5, 4, 2, 4, 4],
    ];
    Case::new(lines.map(questions::row).concat(), entry, c)
}

/// An entry of n bytes `a` under two rules of a byte `a` each, its byte at c corrected: a question about one of them reaches no pair of the other.
pub fn two_rules(n: u32, c: u32) -> Case {
    let lines = [[2, 1, 46, 0, 0], [1, 2, 97, 0, 0], [2, 2, 97, 0, 0]];
    let entry = vec![b'a'; n as usize];
    Case::new(lines.map(questions::row).concat(), &entry, c)
}

/// A call of a case of two rules over a table that is blank but for one cell, about the other rule at 0: what that cell holds afterwards, or the refusal's
/// number. The table is longer where the cell stands behind those of the case.
pub fn one_cell(case: &Case, call: Call, at: usize, cell: Cell) -> Result<Cell, u32> {
    let row = case.entry.len() + 1;
    let (variable, first) = if at < row { (2, row) } else { (1, 0) };
    let asked = Pair {
        variable,
        position: 0,
    };
    let mut table = vec![0; 2 * case.cells().max(at + 1)];
    table.as_chunks_mut().0[at] = cell;
    let said = case.said(&mut Random(20), call, asked, &mut table)?;
    let shown = || format!("{call:?}, {cell:?} at {at}, {case}");
    assert_eq!(said, [6, 0, 0, 1], "{}", shown());
    let mut cells = table.as_chunks().0.to_vec();
    let [decided, after] = [first, at].map(|at| std::mem::replace(&mut cells[at], BLANK));
    assert_eq!(decided, [6, 1], "{}", shown());
    assert!(cells.into_iter().all(|cell| cell == BLANK), "{}", shown());
    Ok(after)
}

/// Cells at place 2 of an entry of 4 bytes, by hand: do they stay where they are retained, or are they at fault?
pub const EDGES: [(Cell, bool); 22] = [
    // 5 + n is the greatest outcome; the cell of a pair that is still open in a walk holds the greatest number of all.
    ([9, 2], true),
    ([10, 2], false),
    ([u32::MAX, 2], false),
    ([u32::MAX, u32::MAX], false),
    // A success may end at its place and not left of it; past its reach it may.
    ([7, 2], true),
    ([6, 2], false),
    ([5, 9], false),
    ([9, 3], true),
    // Success and failure reach their place at least, however far beyond.
    ([9, 1], false),
    ([9, 0], false),
    ([9, u32::MAX], true),
    ([1, 2], true),
    ([1, 1], false),
    ([1, 0], false),
    ([1, u32::MAX], true),
    // Of loop and missing the reach is not looked at.
    ([2, 0], true),
    ([2, 9], true),
    ([3, 1], true),
    ([3, u32::MAX], true),
    // No outcome has 4, whatever stands beside it.
    ([4, 0], false),
    ([4, 2], false),
    ([4, u32::MAX], false),
];

/// A number that may stand in a cell at a place of an entry of n bytes: most are in range.
fn number(random: &mut Random, place: usize, n: usize) -> u32 {
    let (place, n) = (place as u32, n as u32);
    let end = place + random.below(u64::from(n - place) + 1) as u32;
    match random.below(400) {
        0 => random.pick(&[6 + n, u32::MAX, 1 << 31]),
        1 => 5 + place.saturating_sub(1),
        2 => 4,
        3..150 => 5 + end,
        150 => 5 + n,
        _ => random.below(4) as u32,
    }
}

/// A reach that may stand beside it: most are in range.
fn reach(random: &mut Random, place: usize, n: usize) -> u32 {
    let (place, n) = (place as u32, n as u32);
    match random.below(400) {
        0 => random.pick(&[0, place.saturating_sub(1), u32::MAX]),
        _ => place + random.below(u64::from(n - place) + 2) as u32,
    }
}

/// So many cells of an entry of n bytes.
pub fn any_cells(random: &mut Random, cells: usize, n: usize) -> Vec<u32> {
    let places = (0..=n).cycle().take(cells);
    let cell = |place| [number(random, place, n), reach(random, place, n)];
    places.flat_map(cell).collect()
}
