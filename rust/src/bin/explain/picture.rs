//! A line of bytes with a mark below it.
use crate::words;
use entryreader::shown;
use std::io::{self, Write};

/// The most bytes that are shown in a line, and how many of them stand left of the mark.
const MOST: usize = 72;
const BEFORE: usize = 48;

/// The bytes around a position that are shown.
struct Line<'a> {
    /// Those left of the position, and those from it on.
    left: &'a [u8],
    right: &'a [u8],
    /// What stands for the bytes that are left out on both sides.
    before: &'static str,
    behind: &'static str,
}

impl<'a> Line<'a> {
    fn new(bytes: &'a [u8], position: usize) -> Line<'a> {
        let position = position.min(bytes.len());
        let last = bytes.len().saturating_sub(MOST);
        let from = position.saturating_sub(BEFORE).min(last);
        let to = bytes.len().min(from + MOST);
        Line {
            left: &bytes[from..position],
            right: &bytes[position..to],
            before: if from == 0 { "" } else { ".. " },
            behind: if to == bytes.len() { "" } else { " .." },
        }
    }

    /// Writes the bytes.
    fn write(&self, out: &mut dyn Write) -> io::Result<()> {
        let (before, behind) = (self.before, self.behind);
        let (left, right) = (shown(self.left), shown(self.right));
        writeln!(out)?;
        writeln!(out, "    {before}{left}{right}{behind}")
    }
}

/// Writes the bytes around a position, a caret below the position, and words beside the caret. Nothing is written of no bytes.
pub fn write(out: &mut dyn Write, bytes: &[u8], position: usize, mark: &str) -> io::Result<()> {
    if bytes.is_empty() {
        return Ok(());
    }
    let line = Line::new(bytes, position);
    let column = line.before.len() + words::width(line.left);
    line.write(out)?;
    writeln!(out, "    {:column$}^ {mark}", "")
}

/// Writes the bytes around the end of the first ones, a caret below each of these, and words beside the carets. Nothing is written where none are
/// marked.
pub fn write_first(out: &mut dyn Write, bytes: &[u8], first: usize, mark: &str) -> io::Result<()> {
    if first == 0 {
        return Ok(());
    }
    let line = Line::new(bytes, first);
    let carets = "^".repeat(words::width(line.left));
    line.write(out)?;
    writeln!(out, "    {}{carets} {mark}", line.before)
}
