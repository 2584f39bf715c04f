//! Further questions over one table: chains of questions, further questions and corrections beside the separate recognizer, two in either order, counts,
//! refusals, and tables that no call left.
mod kept;
#[allow(dead_code)] // Other tests change lent numbers.
mod lent;
#[allow(dead_code)] // Other tests ask the other cases.
mod marked_cases;
#[allow(dead_code)] // Other tests count what a call found.
mod met;
#[allow(dead_code, unused_imports)] // Other tests damage sheets, and make readings.
mod questions;
mod random;
#[allow(dead_code, unused_imports)] // Other tests run the machine, and check readings.
mod recognizer;
#[allow(dead_code)] // Other sheets are measured with.
#[path = "../benches/benchmark/sheets.rs"]
mod sheets;
#[allow(dead_code)] // Other tests correct only.
mod tables;

use entryreader::{Answer, Pair, Refusal};
use kept::{BLANK, Call, Cell, Fault, held};
use marked_cases::{CELLS, H, I};
use met::Met;
use random::Random;
use recognizer::{code, with_deep_stack};
use std::collections::{BTreeMap, BTreeSet};
use std::io::Write;
use tables::{ANSWERS, Case, EDGES, START, any_cells, loops, one_cell, two_rules};

fn pair(variable: u32, position: u32) -> Pair {
    Pair { variable, position }
}

/// A case with its table: blank at first, with some numbers behind it. The last call, and the pair that it asked about.
struct Kept {
    case: Case,
    table: Vec<u32>,
    last: &'static str,
    asked: Pair,
}

impl Kept {
    fn new(case: Case) -> Kept {
        let mut table = vec![0; 2 * case.cells()];
        table.extend([u32::MAX, 7, 9]);
        Kept {
            case,
            table,
            last: "nothing",
            asked: START,
        }
    }

    /// One call of any kind, beside the recognizer; one in five asks about the pair before.
    fn call(&mut self, random: &mut Random, met: &mut Met) {
        let call = self.case.any_call(random);
        if !random.one_in(5) {
            self.asked = self.case.pair(random);
        }
        if call == Call::Further {
            self.note(met);
        }
        let (found, _) = self
            .case
            .compared(random, call, self.asked, &mut self.table);
        let (call, outcome) = (call.name(), held(code(found.outcome)));
        met.count(format!("{call} {outcome}"));
        met.count(format!("{call} after {}", self.last));
        self.last = call;
    }

    /// Counts how a further question comes to which cells, each kind once.
    fn note(&self, met: &mut Met) {
        let row = self.case.entry.len() + 1;
        let outcome = |pair: Pair| {
            let at = (pair.variable as usize - 1) * row + pair.position as usize;
            self.table[2 * at]
        };
        let known = |pair| kept::is_result(outcome(pair));
        let walked = recognizer::walked(self.case.about(self.asked), known);
        let kinds = walked
            .into_iter()
            .map(|(come, pair)| format!("{come:?} {}", held(outcome(pair))));
        let kinds = BTreeSet::from_iter(kinds);
        kinds.into_iter().for_each(|kind| met.count(kind));
    }
}

/// What chains meet beside the answers: which call each follows; and how a further question comes to which cells.
#[rustfmt::skip]
const POSSIBLE: [&str; 27] = [
    "question after nothing", "question after question", "question after further", "question after correction",
    "further after nothing", "further after question", "further after further", "further after correction",
    "correction after nothing", "correction after question", "correction after further", "correction after correction",
    "Asked blank", "Asked success", "Asked failure", "Asked loop", "Asked missing",
    "First blank", "First success", "First failure", "First loop", "First missing",
    "Second blank", "Second success", "Second failure", "Second loop", "Second missing",
];

/// Chains of one to eight calls over one table, with short entries.
#[test]
fn chains() {
    let (mut random, mut met) = (Random(80), Met::default());
    for _ in 0..15_000 {
        let variables = 1 + random.below(16);
        let length = random.index(12);
        let mut kept = Kept::new(Case::random(&mut random, variables, length));
        for _ in 0..1 + random.below(8) {
            kept.call(&mut random, &mut met);
        }
    }
    met.assert_met(&[&ANSWERS[..], &POSSIBLE].concat(), 150);
}

/// Two pairs asked one after the other over a kept table, in either order: each is answered as on a fresh table, and the two tables are the same. Together
/// they newly decide the pairs that are reached from either and were blank. Whether some of them are reached from both.
fn either_order(random: &mut Random, Kept { case, table, .. }: &Kept) -> bool {
    let asked = [(); 2].map(|()| case.pair(random));
    let mut ask = |order: [usize; 2]| {
        let (mut table, mut said, mut newly) = (table.clone(), [[0; 3]; 2], 0);
        for i in order {
            let (found, new) = case.compared(random, Call::Further, asked[i], &mut table);
            let [code, variable, position, _] = found.numbers(new);
            said[i] = [code, variable, position];
            newly += new;
        }
        (said, newly, table)
    };
    let one = ask([0, 1]);
    assert_eq!(one, ask([1, 0]), "{asked:?} {case}");
    let [first, second] = asked.map(|asked| case.answered(asked).table);
    let (either, _) = kept::left(&first, &second);
    let [first, second, either] = [first, second, either].map(|cells| kept::left(&cells, table).1);
    assert_eq!(one.1, either, "{asked:?} {case}");
    either < first + second
}

/// From a blank table, and from one that some calls have left.
#[test]
fn in_either_order() {
    let (mut random, mut met) = (Random(81), Met::default());
    let mut shared = BTreeMap::<_, u64>::new();
    for _ in 0..8_000 {
        let variables = 1 + random.below(16);
        let length = random.index(12);
        let mut kept = Kept::new(Case::random(&mut random, variables, length));
        for _ in 0..random.below(4) {
            kept.call(&mut random, &mut met);
        }
        let both = either_order(&mut random, &kept);
        *shared.entry((kept.last, both)).or_default() += 1;
    }
    assert_eq!(shared.len(), 8, "{shared:?}");
    assert!(shared.values().all(|met| 50 < *met), "{shared:?}");
}

/// Entries of up to 4,096 bytes, and sheets of up to 256 variables.
#[test]
#[ignore = "a command of its own: see docs/CONTRIBUTING.md"]
fn longer_chains() {
    with_deep_stack(many_longer_chains);
}

fn many_longer_chains() {
    let seed = std::env::var("COMPARE_SEED").map_or(82, |seed| seed.parse().expect("a number"));
    let (mut random, mut met) = (Random(seed), Met::default());
    for _ in 0..8_000 {
        let (variables, most) = match random.below(4) {
            0 => (1 + random.below(256), 400),
            _ => (1 + random.below(24), 4096),
        };
        let length = random.index(most + 1);
        let mut kept = Kept::new(Case::random(&mut random, variables, length));
        for _ in 0..1 + random.below(8) {
            kept.call(&mut random, &mut met);
        }
        either_order(&mut random, &kept);
    }
    // Not `println!`, which a passing test would keep to itself.
    writeln!(std::io::stdout().lock(), "\nseed {seed}: {met}").expect("it is printed");
    met.assert_met(&[&ANSWERS[..], &POSSIBLE].concat(), 50);
}

/// Case a by hand, from a blank table. The digit first; then the whole entry, which reads all but the digit; then what is known, and what is not: a sign
/// at 1, and what stands behind the entry, where each byte that is asked for fails with reach 4.
#[test]
fn case_a() {
    let mut random = Random(83);
    let case = Case::new(H, b"-6.", 0);
    let mut table = vec![0; 2 * case.cells()];
    for (asked, said) in [(pair(4, 1), [7, 0, 0, 1]), (pair(1, 0), [8, 0, 0, 4])] {
        let found = case.further(&mut random, asked, &mut table);
        assert_eq!(found, Ok(said), "{asked:?}");
    }
    assert_eq!(table, CELLS.concat());
    for (asked, said) in [
        (pair(1, 0), [8, 0, 0, 0]),
        (pair(3, 1), [8, 0, 0, 0]),
        // 1 and 2 at 1, where no sign stands; 3 is known there.
        (pair(1, 1), [8, 0, 0, 2]),
        // 4 fails at 3, and so 6 is called, which fails wherever it stands.
        (pair(3, 3), [1, 0, 0, 3]),
        (pair(3, 3), [1, 0, 0, 0]),
        // 1 at 3 asks for a sign, and then for 3.
        (pair(1, 3), [1, 0, 0, 2]),
        (pair(6, 3), [1, 0, 0, 0]),
    ] {
        let found = case.further(&mut random, asked, &mut table);
        assert_eq!(found, Ok(said), "{asked:?}");
    }
    let rows = [
        [8, 3, 8, 3, 0, 0, 1, 4],
        [6, 1, 1, 2, 0, 0, 1, 4],
        [0, 0, 8, 3, 0, 0, 1, 4],
        [0, 0, 7, 2, 0, 0, 1, 4],
        [0, 0, 0, 0, 8, 3, 0, 0],
        [0, 0, 0, 0, 0, 0, 1, 3],
    ];
    assert_eq!(table, rows.concat());
}

/// A loop and a missing rule that the table holds are walked to again, so that their pair is named: where the pair is asked for again, and where it is
/// come to from another. Nothing of them is new. A failure for the entry's end is looked up.
#[test]
fn retained_loops() {
    let mut random = Random(84);
    let case = loops(b"aaa", 0);
    for (first, again, asked, said) in [
        // 1 at 1 takes the a and comes to 3 at 2, which waits for itself.
        (pair(1, 1), [2, 3, 2, 0], pair(3, 2), [2, 3, 2, 0]),
        (pair(3, 2), [2, 3, 2, 0], pair(1, 1), [2, 3, 2, 2]),
        // 5 at 1 takes the a and comes to 4 at 2, which has no rule.
        (pair(5, 1), [3, 4, 2, 0], pair(4, 2), [3, 4, 2, 0]),
        (pair(4, 2), [3, 4, 2, 0], pair(5, 1), [3, 4, 2, 2]),
        // 2 fails at 3, where the entry ends: 5 comes to 4 there, and 1 to 3.
        (pair(2, 3), [1, 0, 0, 0], pair(5, 3), [3, 4, 3, 2]),
        (pair(5, 3), [3, 4, 3, 0], pair(1, 3), [2, 3, 3, 2]),
    ] {
        let mut table = case.question(&mut random, first);
        let mut further = |asked| case.further(&mut random, asked, &mut table);
        assert_eq!(further(first), Ok(again), "{first:?}");
        assert_eq!(further(asked), Ok(said), "{asked:?} after {first:?}");
    }
}

/// Variables 1 and 2 wait for each other, and 3 for 2: named is the pair that is met a second time, from wherever it is asked.
#[test]
fn retained_round() {
    let lines = [
        [3, 1, 46, 0, 0],
        [1, 4, 2, 2, 2],
        [2, 4, 1, 1, 1],
        [3, 4, 2, 2, 2],
    ];
    let case = Case::new(lines.map(questions::row).concat(), b"", 0);
    let mut table = vec![0; 6];
    for (variable, said) in [
        (1, [2, 1, 0, 2]),
        (2, [2, 2, 0, 0]),
        (3, [2, 2, 0, 1]),
        (1, [2, 1, 0, 0]),
        (3, [2, 2, 0, 0]),
    ] {
        let found = case.further(&mut Random(90), pair(variable, 0), &mut table);
        assert_eq!(found, Ok(said), "{variable}");
    }
    assert_eq!(table, [2, 0, 2, 0, 2, 0]);
}

/// The safe call over a blank table: each answer. Over one whose last cell is at fault: the refusal of its own, which comes behind the question's.
#[test]
fn safe_call() {
    let said = |variable, position, last| {
        let case = loops(b"yaa", 0);
        let (mut table, mut work) = ([0; 40], [0; 20]);
        [table[38], table[39]] = last;
        let (sheet, entry) = (&case.sheet, &case.entry);
        entryreader::lent::further(sheet, entry, variable, position, &mut table, &mut work)
            .map_err(|error| error.refusal())
    };
    let loops = |named, cells| Ok(Answer::Loop { named, cells });
    let missing = |named, cells| Ok(Answer::Missing { named, cells });
    for (answer, expected) in [
        (said(2, 1, BLANK), Ok(Answer::Success { end: 2, cells: 1 })),
        (said(2, 0, BLANK), Ok(Answer::Failure { cells: 1 })),
        (said(1, 1, BLANK), loops(pair(3, 2), 3)),
        (said(5, 1, BLANK), missing(pair(4, 2), 3)),
        (said(2, 3, BLANK), Ok(Answer::Failure { cells: 1 })),
        (said(1, 4, [9, 3]), Err(Refusal::Place)),
        (said(1, 1, [9, 3]), Err(Refusal::Cell)),
        (said(1, 1, [7, 3]), Err(Refusal::Cell)),
        (said(1, 1, [4, 0]), Err(Refusal::Cell)),
    ] {
        assert_eq!(answer, expected);
    }
}

/// Where a table comes from that is not a kept one.
#[derive(Clone, Copy, Debug)]
enum Source {
    OtherSheet,
    OtherEntry,
    OtherLength,
    OneCell,
    AnyCells,
}

const SOURCES: [Source; 5] = [
    Source::OtherSheet,
    Source::OtherEntry,
    Source::OtherLength,
    Source::OneCell,
    Source::AnyCells,
];

/// What is refused of them: a table of as many bytes has no cell that is at fault.
const TABLES: [&str; 8] = [
    "OtherSheet None",
    "OtherEntry None",
    "OtherLength None",
    "OtherLength Some(19)",
    "OneCell None",
    "OneCell Some(19)",
    "AnyCells None",
    "AnyCells Some(19)",
];

/// A table of as many cells as the case has.
fn table_from(random: &mut Random, source: Source, case: &Case) -> Vec<u32> {
    let (variables, n) = (case.variables as u64, case.entry.len());
    let mut other = Case::random(random, variables, n);
    match source {
        Source::OtherSheet => other.entry = case.entry.clone(),
        Source::OtherEntry => other.sheet = case.sheet.clone(),
        Source::OtherLength => {
            let length = random.index(2 * n + 2);
            other.entry = questions::entry(random, length);
        }
        Source::OneCell => {
            let mut table = vec![0; 2 * case.cells()];
            let at = random.index(case.cells());
            table.as_chunks_mut().0[at] = [(); 2].map(|()| random.below(12) as u32);
            return table;
        }
        Source::AnyCells => return any_cells(random, case.cells(), n),
    }
    let asked = other.pair(random);
    let mut table = other.question(random, asked);
    table.resize(2 * case.cells(), 0);
    table
}

/// Any table: refused with 19 exactly where a cell is at fault, else the call ends within its slices. Each reason was met as the only one, in the first
/// cell, in the last and between them. What stands behind the cells is never looked at.
#[test]
fn any_tables() {
    let mut random = Random(85);
    let (mut met, mut alone) = (Met::default(), BTreeMap::<_, u64>::new());
    for _ in 0..80_000 {
        let variables = 1 + random.below(6);
        let length = random.index(7);
        let case = Case::random(&mut random, variables, length);
        let source = random.pick(&SOURCES);
        let mut table = table_from(&mut random, source, &case);
        let (asked, n) = (case.pair(&mut random), case.n());
        let faults: Vec<(Fault, usize)> = kept::cells(n, &table)
            .enumerate()
            .filter_map(|(at, (place, cell))| Some((Call::Further.fault(n, place, cell)?, at)))
            .collect();
        let refused = case.refused(Call::Further, &table);
        table.extend([u32::MAX; 3]);
        let said = case.further(&mut random, asked, &mut table);
        assert_eq!(said.err(), refused, "{asked:?} {case}");
        met.count(format!("{source:?} {refused:?}"));
        if let [(fault, at)] = faults[..] {
            let last = case.cells() - 1;
            *alone.entry((fault, at == 0, at == last)).or_default() += 1;
        }
    }
    met.assert_met(&TABLES, 500);
    // A 4 and a number over 5 + n are at fault anywhere. The first cell, which may be the last too, is at place 0: nothing ends left of that or reaches
    // less.
    let possible = [4, 4, 2, 2];
    assert_eq!(alone.len(), possible.into_iter().sum(), "{alone:?}");
    assert!(alone.values().all(|met| 5 < *met), "{alone:?}");
}

/// A further question over a table that is blank but for one cell: that stays where it is right or stands behind the others, and else brings on 19.
/// With the outcome 0 a reach that is not 0 says nothing: it may stay or not. What is at fault.
fn as_said(case: &Case, at: usize, cell: Cell) -> Option<Fault> {
    let place = at as u32 % (case.n() + 1);
    let fault = Call::Further.fault(case.n(), place, cell);
    let fault = fault.filter(|_| at < case.cells());
    let said = one_cell(case, Call::Further, at, cell);
    let shown = || format!("{cell:?} at {at}, {case}");
    match (fault, cell) {
        (Some(_), _) => assert_eq!(said, Err(19), "{}", shown()),
        (None, [0, _]) => assert_eq!(said.map(|[outcome, _]| outcome), Ok(0), "{}", shown()),
        (None, _) => assert_eq!(said, Ok(cell), "{}", shown()),
    }
    fault
}

/// Every kind of outcome beside every kind of reach, at a place of n bytes.
fn every_kind(n: u32, place: u32) -> impl Iterator<Item = Cell> {
    let below = place.saturating_sub(1);
    let outcomes = [0, 1, 2, 3, 4, 5 + below, 5 + place, 5 + n, 6 + n, u32::MAX];
    let reaches = [0, below, place, n, n + 1, u32::MAX];
    let beside = move |outcome| reaches.map(|reach| [outcome, reach]);
    outcomes.into_iter().flat_map(beside)
}

/// A single cell at every index of tables whose rows have around 8, 16 and 32 cells, and behind them: nothing that is not blank is passed over.
#[test]
fn every_place() {
    let mut met = BTreeSet::new();
    for n in [1, 6, 7, 14, 15, 16, 17, 30, 31, 32, 39] {
        let case = two_rules(n, 0);
        for at in 0..case.cells() + 2 {
            let cells = every_kind(n, at as u32 % (n + 1));
            met.extend(cells.map(|cell| as_said(&case, at, cell)));
        }
    }
    assert_eq!(met.len(), 5, "{met:?}");
}

/// 19 at its edges, by hand.
#[test]
fn edges() {
    for (cell, stays) in EDGES {
        let said = if stays { Ok(cell) } else { Err(19) };
        let found = one_cell(&two_rules(4, 0), Call::Further, 5 + 2, cell);
        assert_eq!(found, said, "{cell:?}");
    }
}

/// A cell with the outcome 0 counts as blank, whatever its reach: its pair is decided, and counted.
#[test]
fn blank_but_for_its_reach() {
    let case = Case::new(I, b"ab", 0);
    let mut table = vec![0; 18];
    // 2 at 1, where the b is.
    table[2 * (3 + 1) + 1] = 7;
    let said = case.further(&mut Random(86), START, &mut table);
    assert_eq!(said, Ok([6, 0, 0, 5]));
    let rows = [[6, 2, 6, 2, 0, 0], [6, 1, 1, 2, 0, 0], [0, 0, 6, 1, 0, 0]];
    assert_eq!(table, rows.concat());
}

/// 10: the table has twice V times (n + 1) numbers and the work slice V times (n + 1). It comes before 19, which looks at no later number, be it half of a
/// cell.
#[test]
fn room() {
    let mut random = Random(87);
    let case = loops(b"xaa", 0);
    let (asked, kept) = (pair(1, 1), case.question(&mut random, pair(1, 1)));
    assert_eq!((case.cells(), kept.len()), (20, 43));
    for table in [0, 1, 19, 20, 21, 38, 39, 40, 41, 42, 43] {
        for work in [0, 19, 20, 21, 40] {
            let enough = 40 <= table && 20 <= work;
            let mut said = |mut table: Vec<u32>| {
                table
                    .iter_mut()
                    .skip(40)
                    .for_each(|later| *later = u32::MAX);
                case.said_over(&mut random, Call::Further, asked, &mut table, work)
            };
            let shown = format!("{table} {work}");
            let expected = if enough { Ok([2, 3, 2, 0]) } else { Err(10) };
            assert_eq!(said(kept[..table].to_vec()), expected, "{shown}");
            let expected = if enough { 19 } else { 10 };
            assert_eq!(said(vec![u32::MAX; table]), Err(expected), "{shown}");
        }
    }
}

/// A further question over a table of so many numbers, all of them at fault, and half as many of work slice: the number of its refusal.
fn refused(case: &Case, asked: Pair, numbers: usize) -> Option<u32> {
    let (mut table, work) = (vec![u32::MAX; numbers], numbers / 2);
    let said = case.said_over(&mut Random(88), Call::Further, asked, &mut table, work);
    said.err()
}

/// Every refusal, each with all the faults that come behind it: the first is given. Where the table is long enough, 19 is among them, else 10.
#[test]
fn refusals_in_their_order() {
    let long = Case {
        entry: vec![b'a'; 4_097],
        ..loops(b"", 0)
    };
    let sheets = questions::refused_sheets().map(|(number, sheet)| (number, sheet.into_bytes()));
    let long_entry = (6, long.sheet.clone());
    for (number, sheet) in sheets.into_iter().chain([long_entry]) {
        let case = Case {
            sheet,
            ..long.clone()
        };
        for numbers in [0, 2 * case.cells()] {
            let refused = refused(&case, pair(0, 9_999), numbers);
            assert_eq!(refused, Some(number), "{numbers}, {case}");
        }
    }
    let case = loops(b"xaa", 0);
    for (asked, number) in [
        (pair(0, 4), 8),
        (pair(6, 4), 8),
        (pair(u32::MAX, u32::MAX), 8),
        (pair(1, 4), 9),
        (pair(5, u32::MAX), 9),
    ] {
        for numbers in [0, 39, 40, 41] {
            let refused = refused(&case, asked, numbers);
            assert_eq!(refused, Some(number), "{asked:?} {numbers}");
        }
    }
    assert_eq!(refused(&case, pair(1, 3), 39), Some(10));
    assert_eq!(refused(&case, pair(1, 3), 40), Some(19));
}

/// The longest entry on 256 variables: over its first cell, its last, and the pairs of a loop at its end.
#[test]
fn greatest_table() {
    with_deep_stack(|| {
        let question = sheets::last_byte(256, 4_096);
        let case = Case::new(question.sheet, &question.entry, 0);
        let (random, last) = (&mut Random(89), pair(256, 4_096));
        let mut table = vec![0; 2 * case.cells()];
        for asked in [pair(5, 4_096), START, last, pair(3, 4_095), pair(1, 2_000)] {
            case.compared(random, Call::Further, asked, &mut table);
        }
        // Variable 256 succeeds where it stands; that is known now.
        assert_eq!(table[2 * case.cells() - 2..], [5 + 4_096, 4_096]);
        assert_eq!(
            case.further(random, last, &mut table),
            Ok([5 + 4_096, 0, 0, 0])
        );
        for at in [0, 2 * case.cells() - 2] {
            let kept = std::mem::replace(&mut table[at], 6 + 4_096);
            assert_eq!(case.further(random, START, &mut table), Err(19), "{at}");
            table[at] = kept;
        }
        table.pop();
        assert_eq!(case.further(random, START, &mut table), Err(10));
    });
}
