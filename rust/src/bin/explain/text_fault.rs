//! Why a text of the shorthand is refused.
use crate::{picture, words};
use entryreader::{Error, Reader, Refusal, shown};
use std::io::{self, Write};

/// What a line of the shorthand is.
const FORM: &str = "A line is a capital, =, alternatives parted by /, and a line feed. An alternative is a row of capitals, bytes between
single quotes, %, and alternatives in round or square brackets; it may be empty. Nothing else stands in a line, no blank either.";

/// Writes the refusal of a text, and the line at fault where there is one.
pub fn write(error: &Error, text: &[u8], out: &mut dyn Write) -> io::Result<()> {
    writeln!(out, "{}", words::refused(error))?;
    if text.is_empty() {
        return writeln!(out, "\nThe text is empty.");
    }
    match error.refusal() {
        Refusal::Text => {
            write_line(error, text, out)?;
            writeln!(out, "\n{FORM}")
        }
        Refusal::Nesting => write_line(error, text, out),
        _ => Ok(()),
    }
}

/// Writes the first line with which the text is refused.
fn write_line(error: &Error, text: &[u8], out: &mut dyn Write) -> io::Result<()> {
    let ends = line_ends(text);
    let refused = |end: &usize| is_refused(error, &text[..*end]);
    let Some(index) = ends.iter().position(refused) else {
        return Ok(());
    };
    let start = index.checked_sub(1).map_or(0, |before| ends[before]);
    let (before, line) = text[..ends[index]].split_at(start);
    let (position, cause) = match error.refusal() {
        Refusal::Nesting => (
            bracket(error, before, line),
            String::from("brackets nest over 16 deep here"),
        ),
        _ => cause(error, before, line),
    };
    let columns = line.strip_suffix(b"\n").unwrap_or(line);
    let mark = format!("line {} of the text: {cause}", index + 1);
    match columns {
        [] => writeln!(out, "\nLine {} of the text is empty.", index + 1),
        _ => picture::write(out, columns, position, &mark),
    }
}

/// Is the text refused with that number?
fn is_refused(error: &Error, text: &[u8]) -> bool {
    Reader::from_shorthand(text).is_err_and(|found| found.number() == error.number())
}

/// Where the lines of a text end. A line feed between quotes ends none.
fn line_ends(text: &[u8]) -> Vec<usize> {
    let mut ends = Vec::new();
    let mut position = 0;
    while let Some(byte) = text.get(position) {
        position += if *byte == b'\'' { 3 } else { 1 };
        if *byte == b'\n' {
            ends.push(position);
        }
    }
    if ends.last() != Some(&text.len()) {
        ends.push(text.len());
    }
    ends
}

/// The position in a line of the bracket that nests too deep: the text up to it is refused, and no shorter one.
fn bracket(error: &Error, before: &[u8], line: &[u8]) -> usize {
    let (mut good, mut bad) = (0, line.len());
    while good + 1 < bad {
        let middle = good.midpoint(bad);
        let refused = is_refused(error, &[before, &line[..middle]].concat());
        *(if refused { &mut bad } else { &mut good }) = middle;
    }
    good
}

/// Why a line is not of the form, with the position, as far as can be told.
fn cause(error: &Error, before: &[u8], line: &[u8]) -> (usize, String) {
    if !is_refused(error, &[before, line, b"\n"].concat()) {
        return (
            line.len(),
            String::from("no byte 10, a line feed, at its end"),
        );
    }
    if !is_refused(error, line) {
        let letter = shown(&line[..line.len().min(1)]);
        return (0, format!("{letter} has a line already"));
    }
    stray(line).unwrap_or_else(|| (0, String::from("not of the shorthand's form")))
}

/// The first byte of a line that stands outside quotes and has no place there, or a quote around more than one byte or none.
fn stray(line: &[u8]) -> Option<(usize, String)> {
    let mut position = 0;
    loop {
        match (line.get(position)?, line.get(position + 2)) {
            (b'\'', Some(b'\'')) => position += 3,
            (b'\'', _) => {
                return Some((
                    position,
                    String::from("one byte stands between two single quotes"),
                ));
            }
            (b'A'..=b'Z' | b'=' | b'/' | b'%' | b'(' | b')' | b'[' | b']' | b'\n', _) => {
                position += 1
            }
            (byte, _) => {
                let byte = words::byte(*byte);
                return Some((position, format!("{byte} has no place outside quotes")));
            }
        }
    }
}
