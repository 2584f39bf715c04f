//! One byte corrected: chains of corrections beside the separate recognizer, how few cells they decide, refusals, and tables that no call left.
#[allow(dead_code)] // Other tests ask further questions.
mod kept;
#[allow(dead_code)] // Other tests lend other slices.
mod lent;
#[allow(dead_code)] // Other tests ask the other cases.
mod marked_cases;
#[allow(dead_code)] // It is a twin of the question.
#[path = "../benches/benchmark/plain.rs"]
mod plain;
#[allow(dead_code, unused_imports)] // Other tests damage sheets, and make readings.
mod questions;
mod random;
#[allow(dead_code, unused_imports)] // Other tests run the machine, and check readings.
mod recognizer;
#[allow(dead_code)] // Other sheets are measured with.
#[path = "../benches/benchmark/sheets.rs"]
mod sheets;
#[allow(dead_code)] // Other sheets are measured with.
#[path = "../benches/benchmark/society.rs"]
mod society;
#[allow(dead_code)] // Other tests ask further questions.
mod tables;

use entryreader::{Answer, Pair, Refusal};
use kept::{BLANK, Call, Cell, Fault, SUCCESS};
use random::Random;
use recognizer::{Answered, code, with_deep_stack};
use std::collections::{BTreeMap, BTreeSet};
use std::io::Write;
use tables::{Case, EDGES, START, any_cells, loops, two_rules};

/// The code of a loop.
const LOOP: u32 = 2;

/// The codes of the outcomes, every success as 5.
const CODES: [usize; 4] = [1, 2, 3, 5];

/// How often each was met. By codes, every success as 5: outcomes; and what a cell held whose pair is reached, where it was retained at a position
/// above c, where it was retained for its reach, and where it was blanked. Loops that begin right of the corrected byte; corrections that decide fewer
/// cells than are reached; corrections over the table of a correction.
#[derive(Debug, Default)]
struct Met {
    outcomes: [u64; 6],
    above: [u64; 6],
    by_reach: [u64; 6],
    blanked: [u64; 6],
    loops_right: u64,
    fewer: u64,
    chained: u64,
}

impl Met {
    /// One correction, with the answer, the count and all cells as the recognizer's definitions say. The count.
    fn correction(
        &mut self,
        random: &mut Random,
        case: &Case,
        asked: Pair,
        table: &mut Vec<u32>,
    ) -> u32 {
        let before = table.clone();
        let (found, newly) = case.compared(random, case.last_correction(), asked, table);
        self.note(case, asked, &found, case.first(&before));
        self.fewer += u64::from(newly < found.cells);
        newly
    }

    fn note(&mut self, case: &Case, asked: Pair, found: &Answered, before: &[u32]) {
        let correction = case.last_correction();
        let reached = kept::cells(case.n(), before).zip(found.table.chunks(2));
        for ((place, cell), _) in reached.filter(|(_, new)| new[0] != 0) {
            let met = match (case.c < place, correction.stays(place, cell)) {
                (true, _) => &mut self.above,
                (false, true) => &mut self.by_reach,
                (false, false) => &mut self.blanked,
            };
            met[cell[0].min(SUCCESS) as usize] += 1;
        }
        let outcome = code(found.outcome);
        self.outcomes[outcome.min(SUCCESS) as usize] += 1;
        self.loops_right += u64::from(outcome == LOOP && case.c < asked.position);
    }

    /// A question, and then so many corrections of its entry, each over the table before; half of them ask about the pair before.
    fn chain(&mut self, random: &mut Random, case: &mut Case, corrections: u64) {
        let mut asked = case.pair(random);
        let mut table = case.question(random, asked);
        for number in 0..corrections {
            case.correct(random);
            if random.one_in(2) {
                asked = case.pair(random);
            }
            self.correction(random, case, asked, &mut table);
            self.chained += u64::from(number != 0);
        }
    }

    /// Each was met more often than this; of the cells that are retained for their reach success and failure.
    fn assert_met(&self, often: u64) {
        let by_reach = [self.by_reach[1], self.by_reach[SUCCESS as usize]];
        let counts = [self.loops_right, self.fewer, self.chained];
        let of_codes = [&self.outcomes, &self.above, &self.blanked];
        let of_codes = of_codes.map(|met| CODES.map(|code| met[code]));
        let met = [&of_codes.concat()[..], &by_reach, &counts].concat();
        assert!(met.into_iter().all(|met| often < met), "{self:?}");
    }
}

/// Short entries, chains of 1 to 5 corrections.
#[test]
fn chains() {
    let mut random = Random(16);
    let mut met = Met::default();
    for _ in 0..40_000 {
        let variables = 1 + random.below(16);
        let length = 1 + random.index(12);
        let mut case = Case::random(&mut random, variables, length);
        let corrections = 1 + random.below(5);
        met.chain(&mut random, &mut case, corrections);
    }
    met.assert_met(1_000);
}

/// Entries of up to 4,096 bytes, and sheets of up to 256 variables.
#[test]
#[ignore = "a command of its own: see README.md"]
fn longer_chains() {
    with_deep_stack(many_longer_chains);
}

fn many_longer_chains() {
    let mut random = Random(17);
    let mut met = Met::default();
    for _ in 0..20_000 {
        let (variables, most) = match random.below(4) {
            0 => (1 + random.below(256), 400),
            _ => (1 + random.below(24), 4096),
        };
        let length = 1 + random.index(most);
        let mut case = Case::random(&mut random, variables, length);
        let corrections = 1 + random.below(5);
        met.chain(&mut random, &mut case, corrections);
    }
    // Not `println!`, which a passing test would keep to itself.
    writeln!(std::io::stdout().lock(), "\n{met:?}").expect("it is printed");
    met.assert_met(500);
}

/// A loop wholly right of the corrected byte, whose cells are retained: it is walked again, so that its pair is named. A missing rule too; a
/// failure for the entry's end stays like any other.
#[test]
fn retained_loops() {
    let mut random = Random(18);
    let pair = |variable, position| Pair { variable, position };
    for (asked, said) in [
        (pair(1, 1), [2, 3, 2, 0]),
        (pair(3, 2), [2, 3, 2, 0]),
        (pair(5, 1), [3, 4, 2, 0]),
        (pair(2, 3), [1, 0, 0, 0]),
        (pair(2, 1), [7, 0, 0, 0]),
    ] {
        let mut case = loops(b"xaa", 0);
        let mut table = case.question(&mut random, asked);
        case.correct_to(0, b'y');
        let said_again = case.correction(&mut random, asked, &mut table);
        assert_eq!(said_again, Ok(said), "{asked:?}");
    }
    let mut case = loops(b"xaa", 0);
    let mut table = case.question(&mut random, pair(1, 1));
    case.correct_to(0, b'a');
    let left_of_it = case.correction(&mut random, pair(1, 0), &mut table);
    assert_eq!(left_of_it, Ok([2, 3, 1, 3]));
}

/// A loop and a missing rule at or left of the corrected byte are blanked although their reach is 0, and decided anew; a failure for the entry's end is
/// for its reach, n + 1.
#[test]
fn blanked_loops() {
    let mut random = Random(28);
    let pair = |variable, position| Pair { variable, position };
    for (asked, said) in [(pair(3, 0), [2, 3, 0, 1]), (pair(4, 0), [3, 4, 0, 1])] {
        let mut case = loops(b"xaa", 2);
        let mut table = case.question(&mut random, asked);
        case.correct_to(2, b'b');
        let said_again = case.correction(&mut random, asked, &mut table);
        assert_eq!(said_again, Ok(said), "{asked:?}");
        case.correct_to(2, b'c');
        let other = case.correction(&mut random, pair(2, 0), &mut table);
        assert_eq!(other, Ok([1, 0, 0, 1]));
        // What is left is variable 2 at 0, the first of the second row: it looked at one byte.
        let mut cells = [0; 40];
        [cells[8], cells[9]] = [1, 1];
        assert_eq!(table[..40], cells);
    }
    // Case e: 1, 3 and 5 fail and reach 3, of which 5 stands behind the corrected byte; 4 at 1 reaches 2, and 2 at 0 stays.
    let mut case = Case::new(marked_cases::H, b"-6", 1);
    let mut table = case.question(&mut random, START);
    case.correct_to(1, b'7');
    let said = case.correction(&mut random, START, &mut table);
    assert_eq!(said, Ok([1, 0, 0, 3]));
}

/// The correction of an old entry as a program makes it, over a blank table but for the outcome of the last cell.
fn as_program(
    old: &[u8],
    [variable, position]: [u32; 2],
    c: u32,
    last: u32,
) -> Result<Answer, Refusal> {
    let Case { sheet, entry, .. } = loops(b"yaa", c);
    let (mut table, mut work) = ([0; 40], [0; 20]);
    [table[38], table[39]] = [last, 3];
    let (table, work) = (&mut table, &mut work);
    let found = entryreader::lent::correct(&sheet, old, &entry, variable, position, c, table, work);
    found.map_err(|error| {
        assert_eq!(error.line(), None);
        error.refusal()
    })
}

/// The safe call: each answer, and the three refusals of its own.
#[test]
fn safe_call() {
    let pair = |variable, position| Pair { variable, position };
    let success = |end, cells| Ok(Answer::Success { end, cells });
    let loops = |named, cells| Ok(Answer::Loop { named, cells });
    let missing = |named, cells| Ok(Answer::Missing { named, cells });
    let failure = |cells| Ok(Answer::Failure { cells });
    for (answer, expected) in [
        (as_program(b"xaa", [2, 1], 0, 8), success(2, 1)),
        (as_program(b"aaa", [2, 0], 0, 8), failure(1)),
        (as_program(b"yaa", [1, 1], 0, 8), loops(pair(3, 2), 3)),
        (as_program(b"xaa", [5, 1], 0, 8), missing(pair(4, 2), 3)),
        (as_program(b"xaa", [2, 3], 0, 8), failure(1)),
        (as_program(b"xaa", [1, 1], 3, 8), Err(Refusal::Corrected)),
        (as_program(b"xaa", [1, 1], 2, 9), Err(Refusal::Entries)),
        (as_program(b"ya", [1, 1], 2, 8), Err(Refusal::Entries)),
        (as_program(b"yax", [1, 1], 2, 9), Err(Refusal::Cell)),
        (as_program(b"yaa", [1, 1], 2, 7), Err(Refusal::Cell)),
        (as_program(b"yaa", [1, 1], 2, 4), Err(Refusal::Cell)),
    ] {
        assert_eq!(answer, expected);
    }
}

/// Any table: refused with 18, 21 or 19 exactly where their conditions hold, else the call ends within its slices; the same with the table of another
/// sheet or another entry. What brings a table under 19 was met as its one fault, at positions above c and up to c, where a 4 is none: it is blanked.
#[test]
fn any_table() {
    let mut random = Random(19);
    let (mut met, mut alone) = (BTreeMap::<_, u64>::new(), BTreeMap::<_, u64>::new());
    for _ in 0..60_000 {
        let variables = 1 + random.below(10);
        let length = 1 + random.index(10);
        let mut case = Case::random(&mut random, variables, length);
        case.correct(&mut random);
        if random.one_in(20) {
            case.c = random.pick(&[length as u32, length as u32 + 1, u32::MAX]);
        }
        if random.one_in(10) {
            case.old = questions::old_entry(&mut random, &case.entry).0;
        }
        let asked = case.pair(&mut random);
        let mut table = match random.below(4) {
            0 => Case::random(&mut random, variables, length).question(&mut random, asked),
            _ => any_cells(&mut random, case.cells() + 2, length),
        };
        let (call, n) = (case.last_correction(), case.n());
        let faults: Vec<(Fault, bool)> = kept::cells(n, case.first(&table))
            .filter_map(|(place, cell)| Some((call.fault(n, place, cell)?, case.c < place)))
            .collect();
        let refused = case.refused(call, &table);
        let said = case.correction(&mut random, asked, &mut table);
        assert_eq!(said.err(), refused, "{asked:?} {case}");
        *met.entry(refused).or_default() += 1;
        if let (Some(19), [fault]) = (refused, &faults[..]) {
            *alone.entry(*fault).or_default() += 1;
        }
    }
    let all = [None, Some(18), Some(19), Some(21)];
    assert!(met.keys().eq(&all), "{met:?}");
    assert!(met.values().all(|met| 1_000 < *met), "{met:?}");
    let fours = alone.keys().filter(|(fault, _)| *fault == Fault::Four);
    assert!(fours.eq([&(Fault::Four, true)]), "{alone:?}");
    assert_eq!(alone.len(), 7, "{alone:?}");
    assert!(alone.values().all(|met| 100 < *met), "{alone:?}");
}

/// The correction at c over a table that is blank but for the cell of variable 2 at a place: what that cell holds afterwards, or the refusal's number.
fn one_cell(n: u32, c: u32, place: u32, cell: Cell) -> Result<Cell, u32> {
    let at = (n + 1 + place) as usize;
    tables::one_cell(&two_rules(n, c), Call::Correction { c }, at, cell)
}

/// Every kind of outcome beside every kind of reach, at a place of four bytes that are corrected at c.
fn every_kind(c: u32, place: u32) -> Vec<Cell> {
    let below = place.saturating_sub(1);
    let reaches = BTreeSet::from([0, below, place, c, c + 1, 4, 5, 6, u32::MAX]);
    let outcomes = (0..=6 + 4).chain([1 << 31, u32::MAX]);
    let beside = |outcome| reaches.iter().map(move |reach| [outcome, *reach]);
    outcomes.flat_map(beside).collect()
}

/// A cell stays, is blanked or refused as document 02 says: why it is refused, whether it stays, and whether it stands above c. The outcome 0 has reach 0
/// in a kept table, and another reach beside it says nothing: above c it may stay or not.
fn as_said(n: u32, c: u32, place: u32, cell: Cell) -> (Option<Fault>, bool, bool) {
    let call = Call::Correction { c };
    let (fault, stays) = (call.fault(n, place, cell), call.stays(place, cell));
    let said = one_cell(n, c, place, cell);
    let shown = format!("{cell:?} at {place} of {n}, corrected at {c}");
    match (fault, stays) {
        (Some(_), _) => assert_eq!(said, Err(19), "{shown}"),
        (None, false) => assert_eq!(said, Ok(BLANK), "{shown}"),
        (None, true) if cell[0] == 0 => {
            assert_eq!(said.map(|[outcome, _]| outcome), Ok(0), "{shown}");
        }
        (None, true) => assert_eq!(said, Ok(cell), "{shown}"),
    }
    (fault, stays, c < place)
}

/// For each reason, at places up to c and above c; a 4 stays above c only.
#[test]
fn every_cell() {
    let mut met = BTreeSet::new();
    for (c, place) in (0..4).flat_map(|c| (0..=4).map(move |place| (c, place))) {
        for cell in every_kind(c, place) {
            met.insert(as_said(4, c, place, cell));
        }
    }
    let reasons = [
        None,
        Some(Fault::Over),
        Some(Fault::Left),
        Some(Fault::Reach),
    ];
    let stays = reasons.map(|fault| [(fault, true, false), (fault, true, true)]);
    let mut possible = BTreeSet::from_iter(stays.concat());
    possible.extend([(None, false, false), (Some(Fault::Four), true, true)]);
    assert_eq!(met, possible);
}

/// A single cell at every place of longer entries, around multiples of 16: nothing that is not blank is passed over.
#[test]
fn every_place() {
    for n in [14_u32, 15, 16, 17, 30, 31, 32, 33, 47, 63] {
        for place in 0..=n {
            for c in [0, place.saturating_sub(1), place.min(n - 1), n / 2, n - 1] {
                let (results, others) = ([[1, c], [1, c + 1], [5 + n, n]], [[2, 0], [0, 7]]);
                let at_fault = [[6 + n, c], [4, 0], [4, c]];
                for cell in results.into_iter().chain(others).chain(at_fault) {
                    as_said(n, c, place, cell);
                }
            }
        }
    }
}

/// Refusals 18 and 19 at their edges, and what stays, by hand: n is 4.
#[test]
fn edges() {
    for c in [0, 3, 4, 5, u32::MAX] {
        let said = if c < 4 { Ok([1, 9]) } else { Err(18) };
        assert_eq!(one_cell(4, c, 4, [1, 9]), said, "{c}");
    }
    // Behind the corrected byte.
    for (cell, stays) in EDGES {
        let said = if stays { Ok(cell) } else { Err(19) };
        assert_eq!(one_cell(4, 1, 2, cell), said, "{cell:?}");
    }
    // At the corrected byte success and failure stay whose reach is no greater, and come under 19 too; everything else is blanked, whatever it is.
    for (cell, said) in [
        ([9, 2], Ok([9, 2])),
        ([9, 3], Ok(BLANK)),
        ([10, 2], Err(19)),
        ([10, 3], Ok(BLANK)),
        ([u32::MAX, 2], Err(19)),
        ([u32::MAX, 3], Ok(BLANK)),
        ([7, 2], Ok([7, 2])),
        ([6, 2], Err(19)),
        ([6, 3], Ok(BLANK)),
        ([1, 2], Ok([1, 2])),
        ([1, 3], Ok(BLANK)),
        ([1, 1], Err(19)),
        ([1, 0], Err(19)),
        ([9, 0], Err(19)),
        ([9, u32::MAX], Ok(BLANK)),
        ([2, 0], Ok(BLANK)),
        ([3, 0], Ok(BLANK)),
        ([4, 0], Ok(BLANK)),
        ([4, 2], Ok(BLANK)),
        ([4, 9], Ok(BLANK)),
        ([2, 9], Ok(BLANK)),
        ([0, 7], Ok(BLANK)),
    ] {
        assert_eq!(one_cell(4, 2, 2, cell), said, "{cell:?}");
    }
    // 18 comes before 19.
    assert_eq!(one_cell(4, 4, 4, [10, 0]), Err(18));
}

/// A cell with the outcome 0 counts as blank, whatever its reach: its pair is decided anew, and counted.
#[test]
fn blank_but_for_its_reach() {
    let case = Case::new(marked_cases::I, b"ab", 0);
    let mut table = vec![0; 18];
    // 2 at 1, where the b is.
    table[2 * (3 + 1) + 1] = 7;
    let said = case.correction(&mut Random(25), START, &mut table);
    assert_eq!(said, Ok([6, 0, 0, 5]));
    let rows = [[6, 2, 6, 2, 0, 0], [6, 1, 1, 2, 0, 0], [0, 0, 6, 1, 0, 0]];
    assert_eq!(table, rows.concat());
}

/// 10: the table has twice V times (n + 1) numbers and the work slice V times (n + 1); what stands behind them, be it half of a cell, is as it was.
#[test]
fn room() {
    let mut random = Random(23);
    let case = loops(b"xaa", 0);
    let asked = Pair {
        variable: 1,
        position: 1,
    };
    let kept = case.question(&mut random, asked);
    assert_eq!((case.cells(), kept.len()), (20, 43));
    for table in [0, 1, 19, 20, 21, 38, 39, 40, 41, 42, 43] {
        for work in [0, 19, 20, 21, 40] {
            let mut table = kept[..table].to_vec();
            let enough = 40 <= table.len() && 20 <= work;
            let expected = if enough { Ok([2, 3, 2, 0]) } else { Err(10) };
            let said = case.said_over(&mut random, case.last_correction(), asked, &mut table, work);
            assert_eq!(said, expected, "{} {work}", table.len());
        }
    }
}

/// Case a, each of its bytes corrected to what it is. Variables 1 to 5 reach 3, 1, 3, 2 and 3; at 0 the first two are decided anew, at 1 all that reach
/// further but 5, which stands at 2, and at 2 all that reach 3.
#[test]
fn case_a() {
    let mut random = Random(26);
    for (c, newly) in [(0, 2), (1, 3), (2, 3)] {
        let case = Case::new(marked_cases::H, b"-6.", c);
        let mut table = case.question(&mut random, START);
        let before = table.clone();
        let said = case.correction(&mut random, START, &mut table);
        assert_eq!(said, Ok([8, 0, 0, newly]), "{c}");
        assert_eq!(table, before, "{c}");
    }
}

/// A line of a register on a society's sheet. Near the line's end a correction decides a few of the cells that the question decides, where by positions
/// alone, as order 4 has it, it would decide nearly all of them.
#[test]
fn near_the_end() {
    let line = society::one_line(0);
    let n = line.entry.len();
    let mut case = Case::new(line.sheet, &line.entry, 0);
    let (mut random, mut met) = (Random(27), Met::default());
    let mut table = case.question(&mut random, START);
    for (c, byte) in [(n - 1, b'!'), (n - 1, b'.'), (n - 2, b'x'), (n - 2, b's')] {
        case.correct_to(c, byte);
        let newly = met.correction(&mut random, &case, START, &mut table);
        let reached = case.answered(START).table;
        let cells = kept::cells(case.n(), &reached);
        let by_position = cells.filter(|(place, cell)| cell[0] != 0 && *place <= case.c);
        let by_position = by_position.count() as u32;
        assert!(
            300 < by_position && 7 * newly < by_position,
            "{newly} of {by_position}, {case}"
        );
    }
}

/// A position that was named wrongly: refused with 21 exactly where the entries differ elsewhere, and else answered as on a fresh table.
#[test]
fn wrong_position() {
    let (mut random, mut met) = (Random(22), [0u64; 2]);
    for _ in 0..20_000 {
        let variables = 1 + random.below(12);
        let length = 2 + random.index(11);
        let mut case = Case::random(&mut random, variables, length);
        let asked = case.pair(&mut random);
        let mut table = case.question(&mut random, asked);
        case.correct(&mut random);
        let corrected = case.c as usize;
        let named = case.position(&mut random);
        case.c = named as u32;
        let refused = named != corrected && case.old[corrected] != case.entry[corrected];
        if refused {
            let said = case.correction(&mut random, asked, &mut table);
            assert_eq!(said, Err(21), "{asked:?} {case}");
        } else {
            case.compared(&mut random, case.last_correction(), asked, &mut table);
        }
        met[usize::from(refused)] += 1;
    }
    assert!(met.into_iter().all(|met| 3_000 < met), "{met:?}");
}
