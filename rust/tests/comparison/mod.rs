//! Each call beside the recognizer: what it returns, its answer, and every lent slice with the guards around it.
use crate::kept::{self, Call};
use crate::lent::Lent;
use crate::questions::{self, Case};
use crate::random::Random;
use crate::recognizer::{
    self, Answered, Ending, Opened, Outcome, Question, Ran, Size, Written, bytes, code,
};
use crate::tables;
use entryreader::{Answer, Claim, Pair, lent as exported, test_calls};
use std::collections::{BTreeMap, BTreeSet};

const OUTCOMES: &[&str] = &["success", "failure", "loop", "missing"];

const VERDICTS: &[&str] = &["recognised", "partial", "failure", "loop", "missing"];

/// What each call can say, and the numbers of its refusals; and how many cells a question decides.
const ANSWERS: [(&str, &[&str], &[u32]); 11] = [
    ("sheet", &["read"], &[1, 2, 3, 4, 5]),
    ("question", OUTCOMES, &[1, 2, 3, 4, 5, 6, 8, 9, 10]),
    ("further", OUTCOMES, &[1, 2, 3, 4, 5, 6, 8, 9, 10, 19]),
    (
        "correction",
        OUTCOMES,
        &[1, 2, 3, 4, 5, 6, 8, 9, 10, 18, 19, 21],
    ),
    ("verdict", VERDICTS, &[1, 2, 3, 4, 5, 6, 10]),
    ("judge", VERDICTS, &[1, 2, 3, 4, 5, 6, 10]),
    (
        "opening",
        &["none", "0", "1", "2 or more"],
        &[1, 2, 3, 4, 5, 6, 10],
    ),
    (
        "run",
        &["success", "failure", "missing", "spent", "no frame"],
        &[1, 2, 3, 4, 5, 6, 8, 9],
    ),
    ("write", OUTCOMES, &[1, 2, 3, 4, 5, 6, 8, 9, 10, 11]),
    (
        "check",
        &["success", "failure"],
        &[1, 2, 3, 4, 5, 6, 8, 9, 12, 13, 14],
    ),
    ("cells", &["1", "2 to 9", "10 to 99", "100 or more"], &[]),
];

fn name(outcome: Outcome) -> String {
    let name = match outcome {
        Outcome::Success(_) => "success",
        Outcome::Failure => "failure",
        Outcome::Loop => "loop",
        Outcome::Missing => "missing",
    };
    name.to_string()
}

fn refused(number: u32) -> String {
    format!("refused {number:>2}")
}

fn decided(cells: u32) -> String {
    let cells = match cells {
        0..2 => "1",
        2..10 => "2 to 9",
        10..100 => "10 to 99",
        _ => "100 or more",
    };
    cells.to_string()
}

fn end(outcome: Outcome) -> u32 {
    match outcome {
        Outcome::Success(end) => end,
        _ => 0,
    }
}

fn opened(least: Option<usize>) -> String {
    let opened = match least {
        None => "none",
        Some(0) => "0",
        Some(1) => "1",
        Some(_) => "2 or more",
    };
    opened.to_string()
}

/// What is to be said of a further question or a correction over a kept table of the old entry, or one with a cell at fault: the answer, the cells
/// afterwards and how many of them are new.
fn by_document(
    call: Call,
    old: &[u8],
    case: &Case,
    table: &[u32],
    work: usize,
) -> Result<(Answered, Vec<u32>, u32), u32> {
    let found = recognizer::question(case.question(), table.len(), work)?;
    let cells = &table[..found.table.len()];
    if let Some(number) = call.refused([old, &case.entry], cells) {
        return Err(number);
    }
    let start = call.retained(case.entry.len() as u32, cells);
    let (cells, newly) = kept::left(&found.table, &start);
    Ok((found, cells, newly))
}

/// A call as a program makes it.
fn as_program(
    call: Call,
    old: &[u8],
    case: &Case,
    mut table: Vec<u32>,
    work: usize,
    expected: Result<Answer, u32>,
) {
    let Pair { variable, position } = case.asked;
    let (sheet, entry, mut work) = (&case.sheet, &case.entry, vec![7; work]);
    let (table, work) = (&mut table, &mut work);
    let found = match call {
        Call::Question => exported::question(sheet, entry, variable, position, table, work),
        Call::Further => exported::further(sheet, entry, variable, position, table, work),
        Call::Correction { c } => {
            exported::correct(sheet, old, entry, variable, position, c, table, work)
        }
    };
    let found = found.map_err(|error| error.number());
    assert_eq!(found, expected, "{call:?} {old:?} {case}");
}

/// The checker as the program calls it.
fn exported_check(case: &Case, reading: &[u8], expected: Result<(Outcome, u32), u32>) {
    let Pair { variable, position } = case.asked;
    let found = exported::check(&case.sheet, &case.entry, variable, position, reading);
    let expected = expected.map(|(outcome, end)| match outcome {
        Outcome::Success(_) => Claim::Success { end },
        _ => Claim::Failure,
    });
    let found = found.map_err(|error| error.number());
    assert_eq!(found, expected, "check: {case}");
}

/// Sheet and entry, lent for reading.
struct Handed {
    sheet: Lent<u8>,
    entry: Lent<u8>,
}

impl Handed {
    fn new(random: &mut Random, case: &Case) -> Handed {
        Handed {
            sheet: Lent::of(random, &case.sheet),
            entry: Lent::of(random, &case.entry),
        }
    }

    fn unchanged(&self) -> bool {
        self.sheet.unchanged() && self.entry.unchanged()
    }
}

/// Table, work slice, output and answer.
struct Room {
    table: Lent<u32>,
    work: Lent<u32>,
    output: Lent<u8>,
    answer: Lent<u32>,
}

impl Room {
    fn new(random: &mut Random, [table, work, output]: [usize; 3], answer: usize) -> Room {
        Room {
            table: Lent::any(random, table),
            work: Lent::any(random, work),
            output: Lent::any(random, output),
            answer: Lent::any(random, answer),
        }
    }

    /// Do answer, table and output hold what they are to hold, and everything else what it held?
    fn holds(&self, answer: &[u32], table: &[u32], output: &[u8]) -> bool {
        self.answer.holds(answer)
            && self.table.holds(table)
            && self.work.keeps_from(table.len() / 2)
            && self.output.holds(output)
    }

    fn unchanged(&self) -> bool {
        self.table.unchanged()
            && self.work.unchanged()
            && self.output.unchanged()
            && self.answer.unchanged()
    }
}

/// The numbers of a run's answer, and its name.
fn ran(ran: Ran) -> ([u32; 3], String) {
    let (code, end, what) = match ran.ending {
        Ending::Outcome(found) => (code(found), end(found), name(found)),
        Ending::Spent => (test_calls::SPENT, 0, "spent".to_string()),
        Ending::NoFrame => (test_calls::NO_FRAME, 0, "no frame".to_string()),
    };
    ([code, end, ran.moves], what)
}

/// Compares calls with the recognizer, and counts what was met.
pub struct Comparison {
    pub random: Random,
    met: BTreeMap<(&'static str, String), u64>,
}

impl Comparison {
    pub fn new(seed: u64) -> Comparison {
        Comparison {
            random: Random(seed),
            met: BTreeMap::new(),
        }
    }

    fn count(&mut self, call: &'static str, what: String) {
        *self.met.entry((call, what)).or_insert(0) += 1;
    }

    pub fn question(&mut self, case: &Case, table: usize, work: usize) {
        let mut handed = Handed::new(&mut self.random, case);
        let mut room = Room::new(&mut self.random, [table, work, 0], 4);
        let returned = test_calls::question(
            handed.sheet.slice(),
            handed.entry.slice(),
            case.asked.variable,
            case.asked.position,
            room.table.slice(),
            room.work.slice(),
            room.answer.array(),
        );
        let expected = recognizer::question(case.question(), table, work);
        let (code, same, what) = match &expected {
            Ok(found) => (
                0,
                room.holds(&found.numbers(found.cells), &found.table, &[]),
                name(found.outcome),
            ),
            Err(number) => (100 + number, room.unchanged(), refused(*number)),
        };
        let answer = room.answer.slice();
        assert!(
            returned == code && same && handed.unchanged(),
            "question over {table}, {work}: {returned} {answer:?}, not {what}\n{case}"
        );
        self.count("question", what);
        if let Ok(found) = &expected {
            self.count("cells", decided(found.cells));
        }
        let expected = expected.map(|found| found.answer(found.cells));
        let table = vec![7; table];
        as_program(Call::Question, &[], case, table, work, expected);
    }

    /// A table of so many numbers: what a question about another pair leaves of a blank one, as the recognizer says, sometimes with one of these outcomes
    /// or one over 5 + n in a cell.
    fn kept_table(&mut self, case: &Case, numbers: usize, faults: &[u32]) -> Vec<u32> {
        let asked = Pair {
            variable: 1 + self.random.below(4) as u32,
            position: self.random.index(case.entry.len() + 1) as u32,
        };
        let other = Question {
            asked,
            ..case.question()
        };
        let found = recognizer::question(other, usize::MAX, usize::MAX);
        let mut table = found.map_or_else(|_| vec![0; 2 * case.cells], |found| found.table);
        if self.random.one_in(8) {
            let at = 2 * self.random.index(table.len() / 2);
            let over = 6 + case.entry.len() as u32;
            let faults = [faults, &[over, 1 << 31, u32::MAX]].concat();
            table[at] = self.random.pick(&faults);
        }
        table.resize(numbers, u32::MAX);
        table
    }

    /// The further question over such a table.
    pub fn further(&mut self, case: &Case, table: usize, work: usize) {
        let before = self.kept_table(case, table, &[4]);
        self.over_kept(Call::Further, &[], case, before, work);
    }

    /// A correction of some old entry over such a table of that. No 4: where one is blanked, a cell that stays may have been decided by it, and the table is
    /// no kept one.
    pub fn correction(&mut self, case: &Case, table: usize, work: usize) {
        let (old, c) = questions::old_entry(&mut self.random, &case.entry);
        let kept = Case {
            entry: old,
            ..case.clone()
        };
        let before = self.kept_table(&kept, table, &[]);
        let call = Call::Correction { c };
        self.over_kept(call, &kept.entry, case, before, work);
    }

    /// The call over a table that holds this.
    fn over_kept(&mut self, call: Call, old: &[u8], case: &Case, before: Vec<u32>, work: usize) {
        let expected = by_document(call, old, case, &before, work);
        let mut handed = Handed::new(&mut self.random, case);
        let mut lent_old = Lent::of(&mut self.random, old);
        let mut room = Room::new(&mut self.random, [0, work, 0], 4);
        room.table = Lent::of(&mut self.random, &before);
        let returned = tables::exported(
            call,
            [handed.sheet.slice(), lent_old.slice(), handed.entry.slice()],
            case.asked,
            [room.table.slice(), room.work.slice()],
            room.answer.array(),
        );
        let (code, same, what) = match &expected {
            Ok((found, cells, newly)) => (
                0,
                room.holds(&found.numbers(*newly), cells, &[]),
                name(found.outcome),
            ),
            Err(number) => (100 + number, room.unchanged(), refused(*number)),
        };
        let (table, answer) = (before.len(), room.answer.slice());
        assert!(
            returned == code && same && handed.unchanged() && lent_old.unchanged(),
            "{call:?} over {table}, {work}: {returned} {answer:?}, not {what}\n{old:?} {case}"
        );
        self.count(call.name(), what);
        let expected = expected.map(|(found, _, newly)| found.answer(newly));
        as_program(call, old, case, before, work, expected);
    }

    pub fn sheet(&mut self, case: &Case) {
        let mut handed = Handed::new(&mut self.random, case);
        let mut words = Lent::any(&mut self.random, 256);
        let mut answer = Lent::any(&mut self.random, 4);
        let returned = test_calls::sheet(handed.sheet.slice(), answer.array(), words.array());
        let (code, same, what) = match recognizer::sheet(&case.sheet) {
            Ok(([variables, start, endmarker], stored)) => (
                0,
                answer.holds(&[0, variables, start, endmarker]) && words.holds(&stored),
                "read".to_string(),
            ),
            Err((number, line)) => (
                100 + number,
                answer.holds(&[number, line, 0, 0]) && words.unchanged(),
                refused(number),
            ),
        };
        let answer = answer.slice();
        assert!(
            returned == code && same && handed.unchanged(),
            "sheet: {returned} {answer:?}, not {what}\n{case}"
        );
        self.count("sheet", what);
    }

    pub fn verdict(&mut self, case: &Case) {
        let mut handed = Handed::new(&mut self.random, case);
        let found = exported::verdict(handed.sheet.slice(), handed.entry.slice());
        let expected = recognizer::verdict(&case.sheet, &case.entry);
        assert_eq!(
            found.map_err(|error| error.number()),
            expected,
            "verdict: {case}"
        );
        assert!(handed.unchanged(), "verdict: {case}");
        let what = expected.map_or_else(refused, |code| code.to_string());
        self.count("verdict", what);
    }

    pub fn judge(&mut self, case: &Case, table: usize, work: usize) {
        let mut handed = Handed::new(&mut self.random, case);
        let mut room = Room::new(&mut self.random, [table, work, 0], 4);
        let returned = test_calls::judge(
            handed.sheet.slice(),
            handed.entry.slice(),
            room.table.slice(),
            room.work.slice(),
            room.answer.array(),
        );
        let (same, what) = match recognizer::judge(&case.sheet, &case.entry, table, work) {
            Ok(judged) => (
                room.holds(&judged.numbers, &judged.table, &[]),
                judged.code.to_string(),
            ),
            Err((number, line)) => (room.holds(&[9, number, line, 0], &[], &[]), refused(number)),
        };
        let answer = room.answer.slice();
        assert!(
            returned == 0 && same && handed.unchanged(),
            "judge over {table}, {work}: {returned} {answer:?}, not {what}\n{case}"
        );
        self.count("judge", what);
    }

    /// The opening, and what the recognizer says of it.
    pub fn opening(&mut self, case: &Case, table: usize, work: usize) -> Result<Opened, u32> {
        let mut handed = Handed::new(&mut self.random, case);
        let mut room = Room::new(&mut self.random, [table, work, 0], 2);
        let returned = test_calls::opening(
            handed.sheet.slice(),
            handed.entry.slice(),
            room.table.slice(),
            room.work.slice(),
            room.answer.array(),
        );
        let expected = recognizer::opening(&case.sheet, &case.entry, table, work);
        let expected = expected.map_err(|(number, _)| number);
        let (code, same, what) = match &expected {
            Ok(found) => (
                0,
                room.holds(&found.numbers(), &found.judged.table, &[]),
                opened(found.least),
            ),
            Err(number) => (100 + number, room.unchanged(), refused(*number)),
        };
        let answer = room.answer.slice();
        assert!(
            returned == code && same && handed.unchanged(),
            "opening over {table}, {work}: {returned} {answer:?}, not {what}\n{case}"
        );
        self.count("opening", what);
        self.exported_opening(case, table, work, &expected);
        expected
    }

    /// The opening as the program asks for it.
    fn exported_opening(
        &mut self,
        case: &Case,
        table: usize,
        work: usize,
        expected: &Result<Opened, u32>,
    ) {
        let mut handed = Handed::new(&mut self.random, case);
        let mut room = Room::new(&mut self.random, [table, work, 0], 0);
        let found = exported::opening(
            handed.sheet.slice(),
            handed.entry.slice(),
            room.table.slice(),
            room.work.slice(),
        );
        let (said, same) = match expected {
            Ok(found) => (Ok(found.least), room.holds(&[], &found.judged.table, &[])),
            Err(number) => (Err(*number), room.unchanged()),
        };
        let found = found.map_err(|error| error.number());
        assert_eq!(found, said, "opening: {case}");
        assert!(same && handed.unchanged(), "opening: {case}");
    }

    pub fn run(&mut self, case: &Case, frames: usize, budget: u32) {
        let mut handed = Handed::new(&mut self.random, case);
        let mut lent = Lent::any(&mut self.random, frames);
        let mut answer = Lent::any(&mut self.random, 3);
        let returned = test_calls::run(
            handed.sheet.slice(),
            handed.entry.slice(),
            case.asked,
            lent.slice(),
            budget,
            answer.array(),
        );
        let (code, same, what) = match recognizer::run(case.question(), frames, budget) {
            Ok(found) => {
                let (numbers, what) = ran(found);
                (0, answer.holds(&numbers) && lent.keeps_from(frames), what)
            }
            Err(number) => (
                100 + number,
                answer.unchanged() && lent.unchanged(),
                refused(number),
            ),
        };
        let answer = answer.slice();
        assert!(
            returned == code && same && handed.unchanged(),
            "run over {frames} numbers, budget {budget}: {returned} {answer:?}, not {what}\n{case}"
        );
        self.count("run", what);
    }

    pub fn write(&mut self, case: &Case, table: usize, work: usize, output: usize) {
        let mut handed = Handed::new(&mut self.random, case);
        let mut room = Room::new(&mut self.random, [table, work, output], 5);
        let returned = test_calls::write(
            handed.sheet.slice(),
            handed.entry.slice(),
            case.asked,
            room.table.slice(),
            room.work.slice(),
            room.output.slice(),
            room.answer.array(),
        );
        let expected = recognizer::write(case.question(), table, work, output);
        let (code, same, what) = match &expected {
            Ok(Written { answered, lines }) => {
                let mut five = answered.numbers(answered.cells).to_vec();
                five.push(lines.len() as u32);
                let same = room.holds(&five, &answered.table, &bytes(lines));
                (0, same, name(answered.outcome))
            }
            Err(number) => (100 + number, room.unchanged(), refused(*number)),
        };
        let answer = room.answer.slice();
        assert!(
            returned == code && same && handed.unchanged(),
            "write over {table}, {work}, {output}: {returned} {answer:?}, not {what}\n{case}"
        );
        self.count("write", what);
        self.exported_write(case, [table, work, output], &expected);
    }

    /// The writer as the program calls it.
    fn exported_write(&mut self, case: &Case, room: [usize; 3], expected: &Result<Written, u32>) {
        let mut handed = Handed::new(&mut self.random, case);
        let mut room = Room::new(&mut self.random, room, 0);
        let found = exported::write(
            handed.sheet.slice(),
            handed.entry.slice(),
            case.asked.variable,
            case.asked.position,
            room.table.slice(),
            room.work.slice(),
            room.output.slice(),
        );
        let (said, same) = match expected {
            Ok(Written { answered, lines }) => (
                Ok((answered.answer(answered.cells), lines.len() as u32)),
                room.holds(&[], &answered.table, &bytes(lines)),
            ),
            Err(number) => (Err(*number), room.unchanged()),
        };
        assert_eq!(found.map_err(|error| error.number()), said, "write: {case}");
        assert!(same && handed.unchanged(), "write: {case}");
    }

    pub fn check(&mut self, case: &Case, reading: &[u8]) {
        let mut handed = Handed::new(&mut self.random, case);
        let mut lent = Lent::of(&mut self.random, reading);
        let mut answer = Lent::any(&mut self.random, 2);
        let returned = test_calls::check(
            handed.sheet.slice(),
            handed.entry.slice(),
            case.asked,
            lent.slice(),
            answer.array(),
        );
        let expected = recognizer::check(case.question(), reading);
        let (code, same, what) = match expected {
            Ok((outcome, end)) => (0, answer.holds(&[code(outcome), end]), name(outcome)),
            Err(number) => (100 + number, answer.unchanged(), refused(number)),
        };
        let answer = answer.slice();
        assert!(
            returned == code && same && handed.unchanged() && lent.unchanged(),
            "check: {returned} {answer:?}, not {what}\n{case}\n{}",
            String::from_utf8_lossy(reading)
        );
        self.count("check", what);
        exported_check(case, reading, expected);
    }

    /// A length around a limit, or of a few numbers.
    fn around(&mut self, limit: usize) -> usize {
        if self.random.one_in(4) {
            return self.random.index(5);
        }
        (limit + self.random.index(5)).saturating_sub(2)
    }

    /// Lengths of table, work slice and output: two thirds of the time long enough.
    fn lengths(&mut self, cells: usize) -> [usize; 3] {
        let limits = [2 * cells, cells, recognizer::LINE * cells];
        if self.random.one_in(3) {
            return limits.map(|limit| self.around(limit));
        }
        limits.map(|limit| limit + self.random.index(3))
    }

    /// Numbers for frames and a budget: around 3h and 2k - 1 where the pair has a derivation that is not too long to walk.
    fn machine(&mut self, size: Option<Size>) -> (usize, u32) {
        let random = &mut self.random;
        let Some(Size { steps, height }) = size.filter(|size| size.steps < 20_000) else {
            return (random.index(100), random.below(2000) as u32);
        };
        let (frames, moves) = (3 * height as usize, 2 * steps as u32 - 1);
        let frames = match random.below(4) {
            0 => random.index(5),
            1 => frames + random.index(100),
            _ => (frames + random.index(8)).saturating_sub(4),
        };
        let budget = match random.below(4) {
            0 => random.below(5) as u32,
            1 => u32::MAX - random.below(2) as u32,
            _ => (moves + random.below(6) as u32).saturating_sub(3),
        };
        (frames, budget)
    }

    /// One question in every call: with slices of lengths around the limits, its own reading, and a changed one.
    pub fn all(&mut self, case: &Case) {
        let [table, work, output] = self.lengths(case.cells);
        self.sheet(case);
        self.question(case, table, work);
        self.further(case, table, work);
        self.correction(case, table, work);
        self.verdict(case);
        self.judge(case, table, work);
        // Of longer entries the recognizer would try too many openings.
        if !(300..=4096).contains(&case.entry.len()) {
            drop(self.opening(case, table, work));
        }
        let (frames, budget) = self.machine(recognizer::size(case.question()));
        self.run(case, frames, budget);
        self.write(case, table, work, output);
        let own = recognizer::reading(case.question()).unwrap_or_default();
        self.check(case, &bytes(&own));
        let changed = questions::reading(&mut self.random, case, &own);
        self.check(case, &changed);
    }

    /// So many random questions.
    pub fn many(&mut self, questions: u64) {
        for _ in 0..questions {
            let case = questions::case(&mut self.random);
            self.all(&case);
        }
        self.assert_met(questions / 2000);
    }

    /// Each answer and each refusal was met more often than this, and nothing else was met.
    fn assert_met(&self, often: u64) {
        let mut possible = BTreeSet::new();
        for (call, answers, refusals) in ANSWERS {
            possible.extend(answers.iter().map(|what| (call, what.to_string())));
            possible.extend(refusals.iter().map(|number| (call, refused(*number))));
        }
        let met_often = self.met.iter().filter(|(_, met)| **met > often);
        let met_often: BTreeSet<_> = met_often.map(|(key, _)| key.clone()).collect();
        assert_eq!(met_often, possible, "{}", self.summary());
        assert_eq!(self.met.len(), possible.len(), "{}", self.summary());
    }

    /// How often each answer and each refusal was met.
    pub fn summary(&self) -> String {
        let mut text = String::new();
        for (call, _, _) in ANSWERS {
            let of_call = self.met.iter().filter(|((of, _), _)| *of == call);
            let (mut total, mut parts) = (0, Vec::new());
            for ((_, what), met) in of_call {
                total += met;
                parts.push(format!("{what}: {met}"));
            }
            text += &format!("{call} {total}: {}\n", parts.join(", "));
        }
        text
    }
}
