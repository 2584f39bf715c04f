//! Readings: the writer and the checker.
use super::{Answered, Outcome, Question, Recognizer, Rule, Sheet, answer, field};
use entryreader::Pair;
use std::collections::HashMap;

/// The fields of a line.
pub const FIELDS: usize = 6;

/// "six fields of 8 columns and byte 10 (49 bytes)"
pub const LINE: usize = 49;

/// "variable, start, 0 success or 1 failure, end .., the lines of the first and the second called pair"
pub type Line = [u32; FIELDS];

/// What the writer is to answer.
pub struct Written {
    pub answered: Answered,
    pub lines: Vec<Line>,
}

/// The bytes of lines.
pub fn bytes(lines: &[Line]) -> Vec<u8> {
    let mut text = String::with_capacity(LINE * lines.len());
    for line in lines {
        for number in line {
            text += &format!("{number:>8}");
        }
        text.push('\n');
    }
    text.into_bytes()
}

/// A line of the pair with the result, "end (the start on failure)".
fn line_of(pair: Pair, result: Outcome, first: u32, second: u32) -> Line {
    let (flag, end) = match result {
        Outcome::Success(end) => (0, end),
        Outcome::Failure => (1, pair.position),
        _ => unreachable!("a line has a result"),
    };
    [pair.variable, pair.position, flag, end, first, second]
}

/// The lines of a reading as they are laid down, and the number of each written pair's line.
#[derive(Default)]
struct Reading {
    lines: Vec<Line>,
    numbers: HashMap<Pair, u32>,
}

impl Reading {
    /// "B's pair first, then C's or D's, then the pair's own line, and a pair already written is passed over": the number of the pair's line.
    fn visit(&mut self, recognizer: &mut Recognizer, pair: Pair) -> u32 {
        if let Some(number) = self.numbers.get(&pair) {
            return *number;
        }
        let called = recognizer.called(pair);
        let numbers: Vec<u32> = called.iter().map(|x| self.visit(recognizer, *x)).collect();
        let (first, second) = match numbers[..] {
            [first, second] => (first, second),
            _ => (0, 0),
        };
        self.lines
            .push(line_of(pair, recognizer.outcome(pair), first, second));
        let number = self.lines.len() as u32;
        self.numbers.insert(pair, number);
        number
    }
}

fn lines(recognizer: &mut Recognizer, asked: Pair) -> Vec<Line> {
    let mut reading = Reading::default();
    if recognizer.has_result(asked) {
        reading.visit(recognizer, asked);
    }
    reading.lines
}

/// The reading of a question that is not refused; no lines for loop and missing.
pub fn reading(question: Question) -> Option<Vec<Line>> {
    let sheet = question.admit().ok()?;
    let mut recognizer = Recognizer::new(&sheet, question.entry);
    Some(lines(&mut recognizer, question.asked))
}

/// What the writer is to answer over slices of these lengths, or the number of its refusal.
pub fn write(question: Question, table: usize, work: usize, output: usize) -> Result<Written, u32> {
    let sheet = question.admit()?;
    let size = question.cells(&sheet);
    if table < 2 * size || work < size {
        return Err(10);
    }
    if output < LINE * size {
        return Err(11);
    }
    let mut recognizer = Recognizer::new(&sheet, question.entry);
    let answered = answer(&mut recognizer, question.asked, size);
    let lines = lines(&mut recognizer, question.asked);
    Ok(Written { answered, lines })
}

/// A line, if its fields and its end are of the form.
fn parse(bytes: &[u8]) -> Option<Line> {
    if bytes[LINE - 1] != b'\n' {
        return None;
    }
    let fields: Option<Vec<u32>> = bytes[..LINE - 1].chunks(8).map(field).collect();
    fields?.try_into().ok()
}

/// The pair of a line, and its result.
fn claim(line: &Line) -> (Pair, Outcome) {
    let pair = Pair {
        variable: line[0],
        position: line[1],
    };
    match line[2] {
        0 => (pair, Outcome::Success(line[3])),
        _ => (pair, Outcome::Failure),
    }
}

/// "earlier lines that are the called pairs": the result in the line of a number, if that line is the pair's.
fn called(earlier: &[Line], number: u32, pair: Pair) -> Option<Outcome> {
    let index = (number as usize).checked_sub(1)?;
    let (found, result) = claim(earlier.get(index)?);
    (found == pair).then_some(result)
}

/// The result that the rule of a line's pair and the earlier lines give.
fn given(sheet: &Sheet, entry: &[u8], earlier: &[Line], line: &Line) -> Option<Outcome> {
    let [variable, position, _, _, first, second] = *line;
    if variable == 0 || variable > sheet.variables || position as usize > entry.len() {
        return None;
    }
    let at = |variable, position| Pair { variable, position };
    if let Some(leaf) = Recognizer::new(sheet, entry).leaf(at(variable, position)) {
        return (leaf != Outcome::Missing && first == 0 && second == 0).then_some(leaf);
    }
    let Some(Rule::Calls(b, c, d)) = sheet.rules.get(&variable) else {
        unreachable!("only kind 4 is no leaf");
    };
    match called(earlier, first, at(*b, position))? {
        Outcome::Success(end) => called(earlier, second, at(*c, end)),
        _ => called(earlier, second, at(*d, position)),
    }
}

/// What the checker is to answer: the outcome and the end in the last line, or the number of its refusal.
pub fn check(question: Question, reading: &[u8]) -> Result<(Outcome, u32), u32> {
    let sheet = question.admit()?;
    if !reading.len().is_multiple_of(LINE) {
        return Err(12);
    }
    let mut earlier: Vec<Line> = Vec::new();
    for bytes in reading.chunks(LINE) {
        let line = parse(bytes).ok_or(12u32)?;
        let (pair, _) = claim(&line);
        let follows = given(&sheet, question.entry, &earlier, &line)
            .is_some_and(|result| line == line_of(pair, result, line[4], line[5]));
        if !follows {
            return Err(13);
        }
        earlier.push(line);
    }
    let last = earlier.last().ok_or(14u32)?;
    let (pair, result) = claim(last);
    if pair != question.asked {
        return Err(14);
    }
    Ok((result, last[3]))
}
