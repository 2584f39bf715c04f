//! `register [--shorthand] SHEET FILE`: what a rule sheet makes of a file that has an entry on each line.
//!
//! It prints a line for each entry and a summary. It ends with 0 if every entry is recognised, else with 1, and with 2 if a file cannot be read.
mod lines;
mod output;
mod summary;

use entryreader::{Error, Pair, Reader, Verdict};
use lines::Lines;
use output::Output;
use std::env;
use std::ffi::OsString;
use std::fmt;
use std::fs::{self, File};
use std::io::{self, BufReader, Write};
use std::path::{Path, PathBuf};
use std::process::ExitCode;
use summary::Summary;

const USAGE: &str =
    "usage: register [--shorthand] SHEET FILE, where FILE has an entry on each line";

/// Why the program ends before its summary.
enum Failure {
    /// Something cannot be read or written: a sentence.
    Sentence(String),
    /// Nobody reads standard output any more.
    Closed,
}

/// An error while standard output is written.
impl From<io::Error> for Failure {
    fn from(error: io::Error) -> Failure {
        match error.kind() {
            io::ErrorKind::BrokenPipe => Failure::Closed,
            _ => Failure::Sentence(format!("standard output cannot be written: {error}")),
        }
    }
}

fn main() -> ExitCode {
    match run() {
        Ok(true) => ExitCode::SUCCESS,
        Ok(false) | Err(Failure::Closed) => ExitCode::from(1),
        Err(Failure::Sentence(sentence)) => {
            // Where this cannot be written either, the exit status says it.
            let _ = writeln!(io::stderr(), "{sentence}");
            ExitCode::from(2)
        }
    }
}

/// Is every entry recognised?
fn run() -> Result<bool, Failure> {
    let arguments = Arguments::from(env::args_os().skip(1));
    let arguments = arguments.ok_or_else(|| Failure::Sentence(USAGE.to_string()))?;
    let sheet = &arguments.sheet;
    let bytes = fs::read(sheet).map_err(|error| unreadable(sheet, &error))?;
    let reader = if arguments.shorthand {
        Reader::from_shorthand(&bytes)
    } else {
        Reader::new(&bytes)
    };
    let mut output = Output::new();
    match reader {
        Ok(reader) => judge_all(reader, &arguments.file, &mut output),
        Err(error) => {
            refuse(&error, arguments.shorthand, &mut output)?;
            Ok(false)
        }
    }
}

struct Arguments {
    shorthand: bool,
    sheet: PathBuf,
    file: PathBuf,
}

impl Arguments {
    fn from(given: impl Iterator<Item = OsString>) -> Option<Arguments> {
        let (options, paths): (Vec<_>, Vec<_>) = given.partition(|text| text == "--shorthand");
        let [sheet, file] = <[OsString; 2]>::try_from(paths).ok()?;
        Some(Arguments {
            shorthand: !options.is_empty(),
            sheet: sheet.into(),
            file: file.into(),
        })
    }
}

fn unreadable(path: &Path, error: &io::Error) -> Failure {
    Failure::Sentence(format!("{} cannot be read: {error}", path.display()))
}

/// A refused sheet.
fn refuse(error: &Error, shorthand: bool, output: &mut Output) -> io::Result<()> {
    let option = if shorthand { " --shorthand" } else { "" };
    writeln!(output, "refused ({}): {error}", error.number())?;
    writeln!(output, "`explain{option} SHEET ENTRY` shows more.")?;
    output.flush()
}

/// The lines of a file, and the summary. Is every entry recognised?
fn judge_all(mut reader: Reader, path: &Path, output: &mut Output) -> Result<bool, Failure> {
    let file = File::open(path).map_err(|error| unreadable(path, &error))?;
    let mut lines = Lines::new(BufReader::new(file));
    let names: Vec<String> = (1..=reader.variables()).map(|v| reader.name(v)).collect();
    let mut summary = Summary::new();
    loop {
        let entry = match lines.next() {
            Ok(Some(entry)) => entry,
            Ok(None) => break,
            Err(error) => {
                output.flush()?;
                return Err(unreadable(path, &error));
            }
        };
        let found = reader.verdict(entry);
        let number = summary.count(entry, &found);
        let shown = Shown {
            found,
            length: entry.len(),
            names: &names,
        };
        writeln!(output, "{number} {shown}")?;
        output.show(number)?;
    }
    write!(output, "\n{summary}")?;
    output.flush()?;
    Ok(summary.all_recognised())
}

/// What is said of an entry of a length.
struct Shown<'a> {
    found: Result<Verdict, Error>,
    length: usize,
    /// The names of variables 1, 2 and so on.
    names: &'a [String],
}

impl Shown<'_> {
    fn pair(&self, pair: Pair, f: &mut fmt::Formatter) -> fmt::Result {
        let index = usize::try_from(pair.variable).ok();
        let name = index.and_then(|variable| self.names.get(variable.checked_sub(1)?));
        match name {
            Some(name) => write!(f, " {name} at {}", pair.position),
            None => write!(f, " {pair}"),
        }
    }
}

impl fmt::Display for Shown<'_> {
    fn fmt(&self, f: &mut fmt::Formatter) -> fmt::Result {
        let verdict = match self.found {
            Ok(verdict) => verdict,
            Err(error) => return write!(f, "refused {}: {error}", error.number()),
        };
        write!(f, "{}", verdict.code())?;
        match verdict {
            Verdict::Recognised { .. } => write!(f, " {}", self.length),
            Verdict::Partial { end, .. } => write!(f, " {end}"),
            Verdict::Failure { .. } => Ok(()),
            Verdict::Loop { named, .. } | Verdict::Missing { named, .. } => self.pair(named, f),
        }
    }
}
