//! Arguments, files and exit statuses.
use crate::answers::H;
use crate::program::{Run, SHEET, printed, run};
use std::fs;
use std::path::PathBuf;
use std::process::{Command, Stdio};

const USAGE: &str = "usage: explain [--shorthand] [--file] [--svg FILE] SHEET ENTRY\n";

const RECOGNISED: &str = "recognised: the reading takes the whole entry, 3 of 3 bytes\n";

/// The path of a file that only this run of the tests has.
pub fn own_path(name: &str) -> PathBuf {
    let name = format!("{}-{name}", std::process::id());
    PathBuf::from(env!("CARGO_TARGET_TMPDIR")).join(name)
}

/// A file with these contents.
fn file(name: &str, contents: &[u8]) -> String {
    let path = own_path(name);
    fs::write(&path, contents).expect("the folder can be written");
    path.into_os_string()
        .into_string()
        .expect("a name in UTF-8")
}

/// The run ends with a complaint and nothing else.
fn complains(arguments: &[&[u8]], complaint: &str) {
    let expected = Run {
        status: 2,
        printed: String::new(),
        complaint: complaint.to_string(),
    };
    assert_eq!(run(arguments, H.as_bytes()), expected);
}

#[test]
fn wrong_arguments() {
    let wrong = |arguments: &[&[u8]], sentence: &str| {
        complains(arguments, &format!("explain: {sentence}\n{USAGE}"));
    };
    let needed = "SHEET and ENTRY are needed, and nothing else";
    wrong(&[], &format!("{needed}: 0 given"));
    wrong(&[SHEET], &format!("{needed}: 1 given"));
    wrong(&[SHEET, b"6.", b"7."], &format!("{needed}: 3 given"));
    wrong(&[SHEET, b"--6."], "there is no option --6.");
    wrong(&[SHEET, b"6.", b"--svg"], "--svg names no file");
}

#[test]
fn help() {
    let printed = printed(&[SHEET, b"--help"], b"", 0);
    assert!(printed.starts_with(USAGE));
}

/// One hyphen makes no option, and behind two hyphens there is none.
#[test]
fn no_options() {
    let starts = |arguments: &[&[u8]], status, first: &str| {
        let printed = printed(arguments, H.as_bytes(), status);
        assert!(printed.starts_with(first), "{printed}");
    };
    starts(&[SHEET, b"-6."], 0, RECOGNISED);
    starts(&[b"--", SHEET, b"-6."], 0, RECOGNISED);
    starts(&[SHEET, b"--", b"--6."], 1, "failure: ");
    starts(&[SHEET, b"--", b"--help"], 1, "failure: ");
}

#[test]
fn files_that_are_not_there() {
    let complaint =
        "explain: no/such/file cannot be read: No such file or directory (os error 2)\n";
    complains(&[b"no/such/file", b"6."], complaint);
    complains(&[b"--file", SHEET, b"no/such/file"], complaint);
    complains(
        &[b"/", b"6."],
        "explain: / cannot be read: Is a directory (os error 21)\n",
    );
}

/// Every byte of the file is of the entry, a line feed at its end too.
#[test]
fn entry_in_a_file() {
    let sheet = file("sheet", H.as_bytes());
    let from_file = |entry: &[u8], status| {
        printed(&[sheet.as_bytes(), b"/dev/stdin", b"--file"], entry, status)
    };
    assert!(from_file(b"-6.", 0).starts_with(RECOGNISED));
    let line_feed = r"partial: the reading takes 3 of 4 bytes

    -6.\x0A
       ^ ends at 3
";
    assert!(from_file(b"-6.\n", 1).starts_with(line_feed));
    assert!(from_file(b"\x00\xFF.", 1).contains("    \\x00ÿ.\n"));
    fs::remove_file(sheet).expect("it was written");
}

/// Who closes standard output early is not told; who gives a full one is.
#[test]
fn output_that_takes_nothing() {
    let sheet = file("sheet-for-output", H.as_bytes());
    let program = || {
        let mut command = Command::new(env!("CARGO_BIN_EXE_explain"));
        command.args([sheet.as_str(), "-6."]).stderr(Stdio::piped());
        command
    };
    let mut closed = program().stdout(Stdio::piped()).spawn().expect("it runs");
    drop(closed.stdout.take());
    let closed = closed.wait_with_output().expect("it ends");
    assert_eq!(
        (closed.status.code(), closed.stderr.as_slice()),
        (Some(0), &b""[..])
    );
    let full = fs::File::create("/dev/full").expect("it is always there");
    let full = program().stdout(full).output().expect("it runs");
    let complaint = String::from_utf8_lossy(&full.stderr);
    assert_eq!(full.status.code(), Some(2));
    assert!(
        complaint.starts_with("explain: standard output cannot be written: "),
        "{complaint}"
    );
    fs::remove_file(sheet).expect("it was written");
}
