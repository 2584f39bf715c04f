//! A recognizer of its own, written from document 01 and, for reaches, openings and the entry's end, orders 6, 7 and 11 of document 02: recursive, with
//! a memo in a hash map.
//! Reached pairs and the named pair are found by their definitions, after the outcomes. A refusal is its number; that of a sheet or a verdict has its
//! line too.
mod machine;
mod reading;

pub use machine::{Ending, Ran, run};
pub use reading::{FIELDS, LINE, Line, Written, bytes, check, reading, write};

use entryreader::{Answer, Code, Pair};
use std::collections::{HashMap, HashSet};

#[derive(Clone, Copy)]
enum Rule {
    Succeeds,
    Fails,
    Byte(u8),
    Class(u32),
    Calls(u32, u32, u32),
}

/// A sheet that is accepted.
pub struct Sheet {
    variables: u32,
    start: u32,
    endmarker: u8,
    rules: HashMap<u32, Rule>,
}

/// The number of a refusal, and the line at fault, "counted from 1", or 0.
pub type Refused = (u32, u32);

/// What a finite derivation gives a pair, or loop.
#[derive(Clone, Copy, Debug, PartialEq, Eq)]
pub enum Outcome {
    Success(u32),
    Failure,
    Loop,
    Missing,
}

/// "A question is sheet bytes, entry, variable and place".
#[derive(Clone, Copy)]
pub struct Question<'a> {
    pub sheet: &'a [u8],
    pub entry: &'a [u8],
    pub asked: Pair,
}

/// What a question is answered: the outcome, the named pair if any, and the first V times (n + 1) cells, of which `cells` are decided; each is two
/// numbers, outcome then reach.
pub struct Answered {
    pub outcome: Outcome,
    pub named: Option<Pair>,
    pub cells: u32,
    pub table: Vec<u32>,
}

impl Answered {
    /// What the program is to get of it, with a count of decided cells.
    pub fn answer(&self, cells: u32) -> Answer {
        let named = || self.named.expect("only success and failure name no pair");
        match self.outcome {
            Outcome::Success(end) => Answer::Success { end, cells },
            Outcome::Failure => Answer::Failure { cells },
            Outcome::Loop => Answer::Loop {
                named: named(),
                cells,
            },
            Outcome::Missing => Answer::Missing {
                named: named(),
                cells,
            },
        }
    }

    /// The numbers that a call leaves of it, with a count of decided cells.
    pub fn numbers(&self, cells: u32) -> [u32; 4] {
        let (variable, position) = self
            .named
            .map_or((0, 0), |named| (named.variable, named.position));
        [code(self.outcome), variable, position, cells]
    }
}

/// The steps k and the height h of a derivation; k is exact below 2 to the 64th.
#[derive(Clone, Copy, Debug, PartialEq, Eq)]
pub struct Size {
    pub steps: u64,
    pub height: u64,
}

/// "blanks (byte 32), then digits, no leading zero, zero written `0`"
fn field(columns: &[u8]) -> Option<u32> {
    let text = std::str::from_utf8(columns).ok()?;
    let digits = text.trim_start_matches(' ');
    let written = digits.bytes().all(|b| b.is_ascii_digit());
    if !written || digits.is_empty() || (digits.starts_with('0') && digits != "0") {
        return None;
    }
    digits.parse().ok()
}

fn line(bytes: &[u8]) -> Result<Vec<u32>, u32> {
    let fields: Option<Vec<u32>> = bytes[..25].chunks(5).map(field).collect();
    fields.ok_or(2)
}

fn rule(variables: u32, kind: u32, operands: &[u32]) -> Option<Rule> {
    let is_variable = |x: &u32| (1..=variables).contains(x);
    match (kind, operands) {
        (0, [0, 0, 0]) => Some(Rule::Succeeds),
        (1, [0, 0, 0]) => Some(Rule::Fails),
        (2, [byte, 0, 0]) => u8::try_from(*byte).ok().map(Rule::Byte),
        (3, [class @ 1..=6, 0, 0]) => Some(Rule::Class(*class)),
        (4, [b, c, d]) if operands.iter().all(is_variable) => Some(Rule::Calls(*b, *c, *d)),
        _ => None,
    }
}

/// Line 1, without rules: refusals 2 and 3.
fn header(bytes: &[u8]) -> Result<Sheet, u32> {
    let numbers = line(bytes)?;
    let (variables, start) = (numbers[0], numbers[1]);
    let endmarker = u8::try_from(numbers[2]).map_err(|_| 3u32)?;
    let in_range = (1..=256).contains(&variables) && (1..=variables).contains(&start);
    if !in_range || numbers[3..] != [0, 0] {
        return Err(3);
    }
    Ok(Sheet {
        variables,
        start,
        endmarker,
        rules: HashMap::new(),
    })
}

/// A line behind line 1: refusals 2, 4 and 5.
fn add_rule(sheet: &mut Sheet, before: &mut u32, bytes: &[u8]) -> Result<(), u32> {
    let numbers = line(bytes)?;
    let variable = numbers[0];
    if variable <= *before || variable > sheet.variables {
        return Err(4);
    }
    let found = rule(sheet.variables, numbers[1], &numbers[2..]).ok_or(5u32)?;
    sheet.rules.insert(variable, found);
    *before = variable;
    Ok(())
}

/// Refusals 1 to 5, in their order.
pub fn read(sheet: &[u8]) -> Result<Sheet, Refused> {
    let lines: Vec<&[u8]> = sheet.chunks(26).collect();
    if lines.is_empty()
        || lines.len() > 257
        || lines.iter().any(|l| l.len() != 26 || l[25] != b'\n')
    {
        return Err((1, 0));
    }
    let mut sheet = header(lines[0]).map_err(|number| (number, 1))?;
    let mut before = 0;
    for (line, bytes) in (2..).zip(&lines[1..]) {
        add_rule(&mut sheet, &mut before, bytes).map_err(|number| (number, line))?;
    }
    Ok(sheet)
}

/// "one number each: the kind and 1, or 0 for no rule, then three operands, a byte each, the highest first, called variables less 1"
fn word(rule: Option<&Rule>) -> u32 {
    let operand = |number: u32| u8::try_from(number).expect("it fits a byte");
    u32::from_be_bytes(match rule {
        None => [0; 4],
        Some(Rule::Succeeds) => [1, 0, 0, 0],
        Some(Rule::Fails) => [2, 0, 0, 0],
        Some(Rule::Byte(byte)) => [3, *byte, 0, 0],
        Some(Rule::Class(class)) => [4, operand(*class), 0, 0],
        Some(Rule::Calls(b, c, d)) => [5, operand(b - 1), operand(c - 1), operand(d - 1)],
    })
}

/// What the sheet call is to store: V, start and endmarker, and the words of variables 1 to 256.
pub fn sheet(bytes: &[u8]) -> Result<([u32; 3], [u32; 256]), Refused> {
    let sheet = read(bytes)?;
    let mut words = [0; 256];
    for (variable, stored) in (1..).zip(&mut words) {
        *stored = word(sheet.rules.get(&variable));
    }
    let numbers = [sheet.variables, sheet.start, sheet.endmarker.into()];
    Ok((numbers, words))
}

/// The class of a byte of ISO 8859-1: "192-214 and 216-222 are class 2; 223-246 and 248-255 are class 3; 160 is class 4; 161-191, 215 and 247 are
/// class 5; 128-159 are class 6", and below 128 as document 01 has it.
fn class(byte: u8) -> u32 {
    match byte {
        b'0'..=b'9' => 1,
        b'A'..=b'Z' | 192..=214 | 216..=222 => 2,
        b'a'..=b'z' | 223..=246 | 248..=255 => 3,
        b'\t' | b' ' | 160 => 4,
        33..=126 | 161..=191 | 215 | 247 => 5,
        128..=159 => 6,
        _ => 0,
    }
}

impl Question<'_> {
    /// Refusals 1 to 6, 8 and 9, which every call about a pair tests.
    fn admit(&self) -> Result<Sheet, u32> {
        let sheet = read(self.sheet).map_err(|(number, _)| number)?;
        if self.entry.len() > 4096 {
            return Err(6);
        }
        if self.asked.variable == 0 || self.asked.variable > sheet.variables {
            return Err(8);
        }
        if self.asked.position as usize > self.entry.len() {
            return Err(9);
        }
        Ok(sheet)
    }

    /// V times (n + 1).
    fn cells(&self, sheet: &Sheet) -> usize {
        sheet.variables as usize * (self.entry.len() + 1)
    }
}

struct Recognizer<'a> {
    sheet: &'a Sheet,
    entry: &'a [u8],
    memo: HashMap<Pair, Outcome>,
}

impl<'a> Recognizer<'a> {
    fn new(sheet: &'a Sheet, entry: &'a [u8]) -> Self {
        Recognizer {
            sheet,
            entry,
            memo: HashMap::new(),
        }
    }

    /// What a rule that calls nothing gives; nothing for a rule of kind 4. "From now on a byte or class rule at place n fails".
    fn leaf(&self, pair: Pair) -> Option<Outcome> {
        let one_byte = |fits: &dyn Fn(u8) -> bool| match self.entry.get(pair.position as usize) {
            Some(byte) if fits(*byte) => Outcome::Success(pair.position + 1),
            _ => Outcome::Failure,
        };
        match self.sheet.rules.get(&pair.variable) {
            None => Some(Outcome::Missing),
            Some(Rule::Succeeds) => Some(Outcome::Success(pair.position)),
            Some(Rule::Fails) => Some(Outcome::Failure),
            Some(Rule::Byte(wanted)) => Some(one_byte(&|byte| byte == *wanted)),
            Some(Rule::Class(wanted)) => Some(one_byte(&|byte| class(byte) == *wanted)),
            Some(Rule::Calls(..)) => None,
        }
    }

    /// A pair that is asked for while its own outcome is being found waits for itself: until its outcome is found it counts as a loop.
    fn outcome(&mut self, pair: Pair) -> Outcome {
        if let Some(found) = self.memo.get(&pair) {
            return *found;
        }
        self.memo.insert(pair, Outcome::Loop);
        let found = self.leaf(pair).unwrap_or_else(|| {
            let called = self.called(pair);
            self.outcome(called[called.len() - 1])
        });
        self.memo.insert(pair, found);
        found
    }

    /// The pairs that a pair calls, B's and then C's or D's, as far as they are reached.
    fn called(&mut self, pair: Pair) -> Vec<Pair> {
        let position = pair.position;
        let Some(Rule::Calls(b, c, d)) = self.sheet.rules.get(&pair.variable).copied() else {
            return Vec::new();
        };
        let at = |variable, position| Pair { variable, position };
        let first = at(b, position);
        match self.outcome(first) {
            Outcome::Success(end) => vec![first, at(c, end)],
            Outcome::Failure => vec![first, at(d, position)],
            _ => vec![first],
        }
    }

    fn reached(&mut self, asked: Pair) -> HashSet<Pair> {
        let mut reached = HashSet::from([asked]);
        let mut left = vec![asked];
        while let Some(pair) = left.pop() {
            for next in self.called(pair) {
                if reached.insert(next) {
                    left.push(next);
                }
            }
        }
        reached
    }

    /// Follows the waiting to where it ends, or to the first pair met a second time.
    fn named(&mut self, asked: Pair) -> Pair {
        let mut met = HashSet::new();
        let mut pair = asked;
        while met.insert(pair) {
            match self.called(pair).last() {
                Some(next) => pair = *next,
                None => return pair,
            }
        }
        pair
    }

    /// "A leaf of kind 0 or 1 reaches its place; a byte or class rule reaches one past it", at n too: n + 1. "Kind 4 has the greater reach of its two
    /// called pairs"; loop and missing have reach 0.
    fn reach(&mut self, pair: Pair, reaches: &mut HashMap<Pair, u32>) -> u32 {
        if !self.has_result(pair) {
            return 0;
        }
        if let Some(found) = reaches.get(&pair) {
            return *found;
        }
        let found = match self.sheet.rules.get(&pair.variable) {
            Some(Rule::Byte(_) | Rule::Class(_)) => pair.position + 1,
            Some(Rule::Calls(..)) => self
                .called(pair)
                .into_iter()
                .map(|called| self.reach(called, reaches))
                .max()
                .expect("it calls two"),
            _ => pair.position,
        };
        reaches.insert(pair, found);
        found
    }

    fn has_result(&mut self, pair: Pair) -> bool {
        matches!(self.outcome(pair), Outcome::Success(_) | Outcome::Failure)
    }

    /// "k is the sum of the two k plus 1, h the greater of the two h plus 1", of a pair that has a result.
    fn size(&mut self, pair: Pair, sizes: &mut HashMap<Pair, Size>) -> Size {
        if let Some(found) = sizes.get(&pair) {
            return *found;
        }
        let mut size = Size {
            steps: 1,
            height: 1,
        };
        for next in self.called(pair) {
            let part = self.size(next, sizes);
            size.steps = size.steps.saturating_add(part.steps);
            size.height = size.height.max(part.height + 1);
        }
        sizes.insert(pair, size);
        size
    }
}

pub fn code(outcome: Outcome) -> u32 {
    match outcome {
        Outcome::Failure => 1,
        Outcome::Loop => 2,
        Outcome::Missing => 3,
        Outcome::Success(end) => 5 + end,
    }
}

/// What a verdict is: its code, its end or named pair as the first line of `readentry` has them, and the cells as a question leaves them.
pub struct Judged {
    pub code: Code,
    pub numbers: [u32; 4],
    pub table: Vec<u32>,
}

/// What the verdict is to say over slices of these lengths, or its refusal.
pub fn judge(sheet: &[u8], entry: &[u8], table: usize, work: usize) -> Result<Judged, Refused> {
    let sheet = read(sheet)?;
    if entry.len() > 4096 {
        return Err((6, 0));
    }
    let size = sheet.variables as usize * (entry.len() + 1);
    if table < 2 * size || work < size {
        return Err((10, 0));
    }
    let start = Pair {
        variable: sheet.start,
        position: 0,
    };
    let found = answer(&mut Recognizer::new(&sheet, entry), start, size);
    let (code, place) = match found.outcome {
        Outcome::Success(end) if end as usize == entry.len() => (Code::Recognised, end),
        Outcome::Success(end) => (Code::Partial, end),
        Outcome::Failure => (Code::Failure, 0),
        Outcome::Loop => (Code::Loop, 0),
        Outcome::Missing => (Code::Missing, 0),
    };
    let (variable, place) = found
        .named
        .map_or((0, place), |named| (named.variable, named.position));
    Ok(Judged {
        code,
        numbers: [code.number(), variable, place, found.cells],
        table: found.table,
    })
}

/// What the verdict with 1,024 cells of its own is to say, or the number of its refusal.
pub fn verdict(sheet: &[u8], entry: &[u8]) -> Result<Code, u32> {
    judge(sheet, entry, 2048, 1024)
        .map(|judged| judged.code)
        .map_err(|(number, _)| number)
}

/// Do these bytes loop, "asked at the start variable and place 0"?
pub fn loops(sheet: &Sheet, bytes: &[u8]) -> bool {
    let start = Pair {
        variable: sheet.start,
        position: 0,
    };
    Recognizer::new(sheet, bytes).outcome(start) == Outcome::Loop
}

/// What the opening is: the verdict with its cells, and "for a looping verdict .. the least m".
pub struct Opened {
    pub judged: Judged,
    pub least: Option<usize>,
}

impl Opened {
    /// The numbers that the call leaves of it.
    pub fn numbers(&self) -> [u32; 2] {
        self.least.map_or([0, 0], |least| [1, least as u32])
    }
}

/// What the opening is to say over slices of these lengths, or its refusal. Each m is tried.
pub fn opening(sheet: &[u8], entry: &[u8], table: usize, work: usize) -> Result<Opened, Refused> {
    let judged = judge(sheet, entry, table, work)?;
    let sheet = read(sheet)?;
    let least = match judged.code {
        Code::Loop => (0..=entry.len()).find(|m| loops(&sheet, &entry[..*m])),
        _ => None,
    };
    Ok(Opened { judged, least })
}

fn answer(recognizer: &mut Recognizer, asked: Pair, size: usize) -> Answered {
    let outcome = recognizer.outcome(asked);
    let reached = recognizer.reached(asked);
    let cells = reached.len() as u32;
    let named = match outcome {
        Outcome::Success(_) | Outcome::Failure => None,
        _ => Some(recognizer.named(asked)),
    };
    let width = recognizer.entry.len() + 1;
    let mut table = vec![0; 2 * size];
    let mut reaches = HashMap::new();
    for pair in reached {
        let cell = (pair.variable as usize - 1) * width + pair.position as usize;
        table[2 * cell] = code(recognizer.outcome(pair));
        table[2 * cell + 1] = recognizer.reach(pair, &mut reaches);
    }
    Answered {
        outcome,
        named,
        cells,
        table,
    }
}

/// What the question is to answer over slices of these lengths, or the number of its refusal.
pub fn question(question: Question, table: usize, work: usize) -> Result<Answered, u32> {
    let sheet = question.admit()?;
    let size = question.cells(&sheet);
    if table < 2 * size || work < size {
        return Err(10);
    }
    let mut recognizer = Recognizer::new(&sheet, question.entry);
    Ok(answer(&mut recognizer, question.asked, size))
}

/// Steps and height of the asked pair's derivation, if it has a result.
pub fn size(question: Question) -> Option<Size> {
    let sheet = question.admit().ok()?;
    let mut recognizer = Recognizer::new(&sheet, question.entry);
    let asked = question.asked;
    recognizer
        .has_result(asked)
        .then(|| recognizer.size(asked, &mut HashMap::new()))
}

/// How a walk comes to a pair.
#[derive(Clone, Copy, Debug, PartialEq, Eq, Hash)]
pub enum Come {
    Asked,
    First,
    Second,
}

/// How a walk that begins where some results are known comes to which pairs: behind a known result it comes to none.
pub fn walked(question: Question, known: impl Fn(Pair) -> bool) -> HashSet<(Come, Pair)> {
    let sheet = question.admit().expect("it is accepted");
    let mut recognizer = Recognizer::new(&sheet, question.entry);
    let mut left = vec![(Come::Asked, question.asked)];
    let mut found = HashSet::new();
    while let Some((come, pair)) = left.pop() {
        if found.insert((come, pair)) && !known(pair) {
            left.extend(
                [Come::First, Come::Second]
                    .into_iter()
                    .zip(recognizer.called(pair)),
            );
        }
    }
    found
}

/// The recognizer calls itself as deep as a walk is long.
pub fn with_deep_stack(test: fn()) {
    let thread = std::thread::Builder::new().stack_size(1 << 30).spawn(test);
    thread
        .expect("a stack of one gigabyte")
        .join()
        .expect("the test passes");
}
