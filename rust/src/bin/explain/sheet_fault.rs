//! Why a rule sheet is refused.
use crate::{picture, words};
use entryreader::{Error, Refusal};
use std::io::{self, Write};

/// The columns of a line and of a field.
const COLUMNS: usize = 25;
const FIELD: usize = 5;

/// The most lines of a sheet.
const LINES: usize = 257;

/// What the fields of line 1 are, and those of a rule's line.
const HEADER: [&str; 5] = [
    "V, the count of variables,",
    "the start",
    "the endmarker",
    "the fourth field",
    "the fifth field",
];
const RULE: [&str; 5] = [
    "the variable",
    "the kind",
    "the first operand",
    "the second operand",
    "the third operand",
];

/// A field at fault, counted from 0, and the cause.
type Fault = (usize, String);

/// Writes the refusal of a sheet, the line at fault with a mark, and the cause.
pub fn write(error: &Error, sheet: &[u8], out: &mut dyn Write) -> io::Result<()> {
    writeln!(out, "{}", words::refused(error))?;
    let Some(number) = error.line() else {
        return write_not_lines(sheet, out);
    };
    let line = line(sheet, words::index(number));
    match fault(error.refusal(), sheet, words::index(number)) {
        Some((field, cause)) => picture::write(out, line, FIELD * field + FIELD - 1, &cause),
        None => Ok(()),
    }
}

/// The columns of a line, counted from 1.
fn line(sheet: &[u8], number: usize) -> &[u8] {
    let lines = sheet.chunks(COLUMNS + 1).nth(number.saturating_sub(1));
    let line = lines.unwrap_or(&[]);
    &line[..line.len().min(COLUMNS)]
}

/// The numbers of a line's fields, as far as they are digits.
fn numbers(line: &[u8]) -> [u32; 5] {
    let mut numbers = line.chunks(FIELD).map(|field| {
        let digits = field.iter().filter(|byte| byte.is_ascii_digit());
        digits.fold(0, |number, digit| 10 * number + u32::from(digit - b'0'))
    });
    [(); 5].map(|()| numbers.next().unwrap_or(0))
}

/// The field of a line at which a refusal is, and the cause.
fn fault(refusal: Refusal, sheet: &[u8], number: usize) -> Option<Fault> {
    let at = line(sheet, number);
    let variables = numbers(line(sheet, 1))[0];
    let before = match number {
        0..=2 => 0,
        _ => numbers(line(sheet, number - 1))[0],
    };
    let names = if number == 1 { HEADER } else { RULE };
    match refusal {
        Refusal::Field => no_number(at, names),
        Refusal::Header => header(numbers(at)),
        Refusal::RuleVariable => variable(numbers(at)[0], variables, before),
        Refusal::Rule => rule(numbers(at), variables),
        _ => None,
    }
}

/// The first field that is no number.
fn no_number(line: &[u8], names: [&str; 5]) -> Option<Fault> {
    let causes = line.chunks(FIELD).map(field_cause);
    let (field, cause) = causes
        .enumerate()
        .find_map(|(field, cause)| Some((field, cause?)))?;
    let name = names.get(field)?.trim_end_matches(',');
    Some((field, format!("{name}: {cause}")))
}

/// Why a field is no number.
fn field_cause(field: &[u8]) -> Option<String> {
    let number = field.trim_ascii_start();
    let other = field
        .iter()
        .find(|byte| !matches!(byte, b' ' | b'0'..=b'9'));
    match (other, number) {
        (Some(byte), _) => Some(format!("{} is no digit", words::byte(*byte))),
        (None, []) => Some(String::from("the field is empty, and zero is written 0")),
        (None, [.., b' ']) => Some(String::from(
            "a blank stands behind the number, which must end in the field's last column",
        )),
        (None, _) if number.contains(&b' ') => {
            Some(String::from("a blank stands inside the number"))
        }
        (None, [b'0', _, ..]) => Some(String::from("the number has a leading zero")),
        _ => None,
    }
}

/// Whether a field meets what is demanded of it, and the demand.
type Demand = (bool, String);

/// The demand on a variable that a line names.
fn in_range(variable: u32, variables: u32) -> Demand {
    let demand = format!("variables go from 1 to V, which is {variables}");
    ((1..=variables).contains(&variable), demand)
}

/// The first field of line 1 that is out of range.
fn header(numbers: [u32; 5]) -> Option<Fault> {
    let [variables, start, endmarker, fourth, fifth] = numbers;
    let none = |number| (number == 0, String::from("must be 0"));
    let demands = [
        (
            (1..=256).contains(&variables),
            String::from("goes from 1 to 256"),
        ),
        in_range(start, variables),
        (endmarker <= 255, String::from("bytes go up to 255")),
        none(fourth),
        none(fifth),
    ];
    first_unmet(&HEADER, &numbers, &demands)
}

/// What is wrong with the variable of a line, given that of the line before.
fn variable(variable: u32, variables: u32, before: u32) -> Option<Fault> {
    let rises = format!("must be above that of the line before, {before}");
    let (fits, range) = in_range(variable, variables);
    let demand = if fits {
        (before < variable, rises)
    } else {
        (fits, range)
    };
    first_unmet(&RULE, &[variable], &[demand])
}

/// The first field behind the variable that fits no rule.
fn rule(numbers: [u32; 5], variables: u32) -> Option<Fault> {
    let [_, kind, first, second, third] = numbers;
    let operand = |number| match kind {
        4 => in_range(number, variables),
        _ => (number == 0, format!("must be 0 for kind {kind}")),
    };
    let first = match kind {
        2 => (first <= 255, String::from("bytes go up to 255")),
        3 => (
            (1..=6).contains(&first),
            String::from("classes go from 1 to 6"),
        ),
        _ => operand(first),
    };
    let kind = (kind <= 4, String::from("kinds go up to 4"));
    let variable = (true, String::new());
    let demands = [variable, kind, first, operand(second), operand(third)];
    first_unmet(&RULE, &numbers, &demands)
}

/// The first field whose number does not meet its demand.
fn first_unmet(names: &[&str], numbers: &[u32], demands: &[Demand]) -> Option<Fault> {
    let field = demands.iter().position(|(met, _)| !met)?;
    let (name, number, (_, demand)) = (names.get(field)?, numbers.get(field)?, &demands[field]);
    Some((field, format!("{name} is {number}, and {demand}")))
}

/// Writes why a sheet is not lines of 25 columns: empty, one line that is none, or too many.
fn write_not_lines(sheet: &[u8], out: &mut dyn Write) -> io::Result<()> {
    let mut lines = sheet.split_inclusive(|byte| *byte == b'\n');
    let is_line = |line: &[u8]| line.len() == COLUMNS + 1 && line.ends_with(b"\n");
    if let Some(index) = lines.clone().position(|line| !is_line(line)) {
        return write_no_line(index + 1, lines.nth(index).unwrap_or(&[]), out);
    }
    match lines.count() {
        0 => writeln!(out, "\nThe sheet is empty."),
        count if LINES < count => {
            writeln!(
                out,
                "\nThe sheet has {count} lines, and {LINES} are the most: line 1 and 256 rules."
            )
        }
        _ => Ok(()),
    }
}

/// Writes a line that is none, and why.
fn write_no_line(number: usize, line: &[u8], out: &mut dyn Write) -> io::Result<()> {
    let columns = line.strip_suffix(b"\n").unwrap_or(line);
    let length = columns.len();
    let (position, mark) = match columns {
        [] => {
            return writeln!(
                out,
                "\nLine {number} is empty, and {COLUMNS} columns are needed."
            );
        }
        [.., b'\r'] if columns.len() < line.len() => (
            length - 1,
            format!("line {number} ends with bytes 13 and 10, and must end with byte 10 alone"),
        ),
        _ if length == COLUMNS => (
            length,
            format!("line {number} has no byte 10, a line feed, at its end"),
        ),
        _ if 2 * COLUMNS <= length => (
            COLUMNS,
            format!(
                "lines run together: line {number} has no byte 10, a line feed, behind column {COLUMNS}"
            ),
        ),
        _ => (
            length.min(COLUMNS),
            format!("line {number} has {length} columns, and {COLUMNS} are needed"),
        ),
    };
    picture::write(out, columns, position, &mark)
}
