//! Runs of the program.
use std::ffi::{OsStr, OsString};
use std::io::Write;
use std::os::unix::ffi::OsStrExt;
use std::process::{Command, Stdio};

/// What a run left.
#[derive(Debug, PartialEq)]
pub struct Run {
    pub status: i32,
    pub printed: String,
    pub complaint: String,
}

/// The argument that lets the program read its sheet from standard input.
pub const SHEET: &[u8] = b"/dev/stdin";

/// Runs the program with these arguments and this standard input.
pub fn run(arguments: &[&[u8]], input: &[u8]) -> Run {
    let arguments = arguments.iter().map(|bytes| OsStr::from_bytes(bytes));
    let mut child = Command::new(env!("CARGO_BIN_EXE_explain"))
        .args(arguments.map(OsString::from))
        .stdin(Stdio::piped())
        .stdout(Stdio::piped())
        .stderr(Stdio::piped())
        .spawn()
        .expect("the program runs");
    // A run that does not read its input may have ended before.
    let _ = child.stdin.take().expect("it is piped").write_all(input);
    let output = child.wait_with_output().expect("the program ends");
    let text = |bytes| String::from_utf8(bytes).expect("what is printed is UTF-8");
    Run {
        status: output.status.code().expect("the program exits"),
        printed: text(output.stdout),
        complaint: text(output.stderr),
    }
}

/// What the program prints of a sheet and an entry, without a complaint; its exit status is compared.
pub fn explain(sheet: impl AsRef<[u8]>, entry: impl AsRef<[u8]>, status: i32) -> String {
    printed(&[SHEET, entry.as_ref()], sheet.as_ref(), status)
}

/// The same of a text of the shorthand.
pub fn explain_text(text: impl AsRef<[u8]>, entry: impl AsRef<[u8]>, status: i32) -> String {
    printed(
        &[b"--shorthand", SHEET, entry.as_ref()],
        text.as_ref(),
        status,
    )
}

/// What the program prints, without a complaint; its exit status is compared.
pub fn printed(arguments: &[&[u8]], input: &[u8], status: i32) -> String {
    let run = run(arguments, input);
    assert_eq!(
        (run.status, run.complaint.as_str()),
        (status, ""),
        "{}",
        run.printed
    );
    run.printed
}
