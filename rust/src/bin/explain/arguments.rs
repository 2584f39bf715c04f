//! What the program is asked to do.
use std::ffi::OsString;
use std::os::unix::ffi::OsStrExt;

/// The sentence after a wrong call.
pub const USAGE: &str = "usage: explain [--shorthand] [--file] [--svg FILE] SHEET ENTRY";

/// What `--help` prints below the usage.
pub const HELP: &str = "
Says what the rule sheet in the file SHEET makes of an entry, and why.

  ENTRY        the entry itself
  --file       ENTRY names a file, and each of its bytes is of the entry
  --shorthand  SHEET is a text of the societies' shorthand
  --svg FILE   writes a drawing of the same to FILE
  --           nothing behind it is an option

The exit status is 0 where the entry is recognised, 1 for any other answer and where sheet or entry are refused,
2 where a file cannot be read or written, or the call is wrong.
";

/// A call of the program.
pub enum Call {
    /// `--help`.
    Help,
    /// Anything else.
    Explain(Arguments),
}

/// Sheet, entry and options.
#[derive(Default)]
pub struct Arguments {
    pub shorthand: bool,
    pub file: bool,
    pub svg: Option<OsString>,
    pub sheet: OsString,
    pub entry: OsString,
}

/// Reads the arguments behind the program's name, or says in a sentence what is wrong with them.
pub fn parse(given: impl Iterator<Item = OsString>) -> Result<Call, String> {
    let mut given = given;
    let mut arguments = Arguments::default();
    let mut names = Vec::new();
    while let Some(argument) = given.next() {
        match argument.as_bytes() {
            b"--" => names.extend(given.by_ref()),
            b"--help" => return Ok(Call::Help),
            b"--shorthand" => arguments.shorthand = true,
            b"--file" => arguments.file = true,
            b"--svg" => arguments.svg = Some(given.next().ok_or("--svg names no file")?),
            bytes if bytes.starts_with(b"--") => {
                return Err(format!("there is no option {}", argument.display()));
            }
            _ => names.push(argument),
        }
    }
    let count = names.len();
    [arguments.sheet, arguments.entry] = <[OsString; 2]>::try_from(names)
        .map_err(|_| format!("SHEET and ENTRY are needed, and nothing else: {count} given"))?;
    Ok(Call::Explain(arguments))
}
