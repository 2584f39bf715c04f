//! `explain SHEET ENTRY`: what a rule sheet makes of an entry, and why, for who writes sheets. The answers are those of the reader's calls; the program
//! only words them.
mod arguments;
mod case;
mod chain;
mod drawing;
mod explanation;
mod opening;
mod picture;
mod sheet_fault;
mod text_fault;
mod tree;
mod words;

use arguments::{Arguments, Call, HELP, USAGE};
use case::Case;
use entryreader::{Error, Reader};
use explanation::Explanation;
use std::env;
use std::ffi::OsStr;
use std::fs::{self, File};
use std::io::{self, BufWriter, Read, Write};
use std::os::unix::ffi::OsStrExt;
use std::process::ExitCode;

/// The most bytes of a file that are read. No sheet, text or entry is nearly as long.
const LONGEST: u64 = 1 << 24;

fn main() -> ExitCode {
    let done = match arguments::parse(env::args_os().skip(1)) {
        Ok(Call::Help) => print(|out| write!(out, "{USAGE}\n{HELP}")).map(|()| true),
        Ok(Call::Explain(arguments)) => explain(&arguments),
        Err(sentence) => Err(format!("{sentence}\n{USAGE}")),
    };
    match done {
        Ok(true) => ExitCode::SUCCESS,
        Ok(false) => ExitCode::from(1),
        Err(sentence) => {
            // Where standard error is closed, the exit status still tells.
            let _ = writeln!(io::stderr(), "explain: {sentence}");
            ExitCode::from(2)
        }
    }
}

/// Explains what is asked for: whether the entry is recognised, or why a file cannot be read or written.
fn explain(arguments: &Arguments) -> Result<bool, String> {
    let sheet = read(&arguments.sheet)?;
    let entry = match arguments.file {
        true => read(&arguments.entry)?,
        false => arguments.entry.as_bytes().to_vec(),
    };
    let read = match arguments.shorthand {
        true => Reader::from_shorthand(&sheet),
        false => Reader::new(&sheet),
    };
    match read {
        Ok(mut reader) => explain_entry(arguments, &mut reader, &entry),
        Err(error) => {
            let write = if arguments.shorthand {
                text_fault::write
            } else {
                sheet_fault::write
            };
            print(|out| write(&error, &sheet, out))?;
            no_drawing(arguments)
        }
    }
}

/// Explains what the sheet makes of the entry.
fn explain_entry(arguments: &Arguments, reader: &mut Reader, entry: &[u8]) -> Result<bool, String> {
    match Explanation::new(reader, entry) {
        Ok(explanation) => {
            let case = Case { reader, entry };
            print(|out| explanation.write(case, out))?;
            if let Some(name) = &arguments.svg {
                save(name, &drawing::svg(&explanation, case))?;
            }
            Ok(explanation.is_recognised())
        }
        Err(error) => {
            print(|out| write_refused(&error, entry, out))?;
            no_drawing(arguments)
        }
    }
}

/// Writes the refusal of an entry that is too long.
fn write_refused(error: &Error, entry: &[u8], out: &mut dyn Write) -> io::Result<()> {
    writeln!(out, "{}", words::refused(error))?;
    writeln!(out, "\nIt has {} bytes.", entry.len())
}

/// Says that nothing is drawn where a drawing is asked for. Nothing is recognised then.
fn no_drawing(arguments: &Arguments) -> Result<bool, String> {
    if arguments.svg.is_some() {
        print(|out| writeln!(out, "\nNo drawing is written: there is nothing to draw."))?;
    }
    Ok(false)
}

/// The bytes of a file.
fn read(name: &OsStr) -> Result<Vec<u8>, String> {
    let mut bytes = Vec::new();
    let read = File::open(name).and_then(|file| file.take(LONGEST + 1).read_to_end(&mut bytes));
    match read {
        Err(error) => Err(format!("{} cannot be read: {error}", name.display())),
        Ok(length) if u64::try_from(length).is_ok_and(|length| length <= LONGEST) => Ok(bytes),
        Ok(_) => Err(format!("{} has over {LONGEST} bytes", name.display())),
    }
}

/// Writes a drawing to a file.
fn save(name: &OsStr, drawing: &str) -> Result<(), String> {
    fs::write(name, drawing)
        .map_err(|error| format!("{} cannot be written: {error}", name.display()))
}

/// Prints to standard output. Who has closed it wants no more: that is no error.
fn print(write: impl FnOnce(&mut dyn Write) -> io::Result<()>) -> Result<(), String> {
    let mut out = BufWriter::new(io::stdout().lock());
    match write(&mut out).and_then(|()| out.flush()) {
        Err(error) if error.kind() != io::ErrorKind::BrokenPipe => {
            Err(format!("standard output cannot be written: {error}"))
        }
        _ => Ok(()),
    }
}
