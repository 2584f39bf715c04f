//! The program `register`: what it prints of every kind of line, its exit statuses, many entries and long lines in little memory.
use std::fs;
use std::io::{Read, Write};
use std::path::PathBuf;
use std::process::{Child, ChildStdin, Command, Stdio};
use std::thread::{self, JoinHandle};
use std::time::Duration;

/// The first byte decides: `r` and a full stop are recognised, `p` is partial, behind `l` 9 calls itself, behind `m` 12 has no rule, behind `e` two full
/// stops are asked for, and everything else fails.
const SHEET: &str = "   16    1   46    0    0
    1    4    2    3    4
    2    2  114    0    0
    3    2   46    0    0
    4    4    5    6    7
    5    2  112    0    0
    6    0    0    0    0
    7    4    8    9   10
    8    2  108    0    0
    9    4    9    9    9
   10    4   11   12   13
   11    2  109    0    0
   13    4   14   15   16
   14    2  101    0    0
   15    4    3    3    3
   16    1    0    0    0
";

/// The file of a name, with these contents.
fn file(name: &str, contents: impl AsRef<[u8]>) -> PathBuf {
    let path = PathBuf::from(env!("CARGO_TARGET_TMPDIR")).join(name);
    fs::write(&path, contents).expect("it is written");
    path
}

fn command() -> Command {
    Command::new(env!("CARGO_BIN_EXE_register"))
}

/// What a run prints, without the last line, which has the rate; what it says on standard error; its exit status.
fn ran(command: &mut Command) -> (String, String, Option<i32>) {
    let output = command.output().expect("the program runs");
    let text = |bytes| String::from_utf8(bytes).expect("it prints UTF-8");
    let errors = text(output.stderr);
    let printed = text(output.stdout);
    let status = output.status.code();
    match printed.strip_suffix(" entries a second\n") {
        Some(front) => (without_last_line(front), errors, status),
        None => (printed, errors, status),
    }
}

/// The text without its last line, which is a number.
fn without_last_line(text: &str) -> String {
    let (front, rate) = text.rsplit_once('\n').expect("there are more lines");
    assert!(rate.parse::<u64>().is_ok(), "{rate}");
    format!("{front}\n")
}

/// A run on a file of these entries, which the test names.
fn register(name: &str, entries: &[u8]) -> (String, String, Option<i32>) {
    let sheet = file(&format!("{name}.sheet"), SHEET);
    let entries = file(&format!("{name}.entries"), entries);
    ran(command().args([sheet, entries]))
}

const SIX: &str = "the entry has over 4,096 bytes";

/// Any bytes, empty lines, lines of 4,096 bytes and more, a carriage return; the last line has no line feed.
fn every_kind() -> Vec<u8> {
    let longest = ["x".repeat(4_095), ".".to_string()].concat();
    let mut entries = b"r.\np.\n\x00\xFF\xA1\xA0\xAD\\\x7F.\nl.\nm.\n".to_vec();
    entries.extend(format!("{longest}\n\ne.\nr..\nx.\n").bytes());
    for line in [format!("x{longest}"), "r".repeat(70_000)] {
        entries.extend(format!("{line}\n").bytes());
    }
    entries.extend(b"r.\r\n\nr\nr.");
    entries
}

fn lines_of_every_kind() -> String {
    format!(
        "1 recognised 2
2 partial 1
3 failure
4 loop 9 at 1
5 missing 12 at 1
6 failure
7 failure
8 failure
9 partial 2
10 failure
11 refused 6: {SIX}
12 refused 6: {SIX}
13 partial 2
14 failure
15 failure
16 recognised 2
"
    )
}

fn summary_of_every_kind() -> String {
    let (x, r) = ("x".repeat(40), "r".repeat(40));
    format!(
        "entries: 16
recognised: 2
partial: 3
  line 2: \"p.\"
  line 9: \"r..\"
  line 13: \"r.\\x0D\"
failure: 7
  line 3: \"\\x00ÿ¡\\xA0\\xAD\\\\\\x7F.\"
  line 6: \"{x}\"...
  line 7: \"\"
loop: 1
  line 4: \"l.\"
missing: 1
  line 5: \"m.\"
refused 6 ({SIX}): 2
  line 11: \"{x}\"...
  line 12: \"{r}\"...
"
    )
}

#[test]
fn every_kind_of_line() {
    let (printed, errors, status) = register("kinds", &every_kind());
    let (lines, summary) = (lines_of_every_kind(), summary_of_every_kind());
    assert_eq!(printed, format!("{lines}\n{summary}"));
    assert_eq!((&errors[..], status), ("", Some(1)));
}

/// What is shown of an entry is cut before a character that does not fit.
#[test]
fn cut_beginnings() {
    for (length, behind, shown) in [
        (39, "..", "."),
        (40, ".", ""),
        (36, "\0.", "\\x00"),
        (37, "\0.", ""),
        (38, "\\.", "\\\\"),
        (39, "\\.", ""),
    ] {
        let front = "x".repeat(length);
        let (printed, _, _) = register("cut", format!("{front}{behind}").as_bytes());
        let line = format!("  line 1: \"{front}{shown}\"...\n");
        assert!(printed.contains(&line), "{printed}");
    }
    let whole = ["x".repeat(39), ".".to_string()].concat();
    let (printed, _, _) = register("cut", whole.as_bytes());
    assert!(
        printed.contains(&format!("  line 1: \"{whole}\"\n")),
        "{printed}"
    );
}

/// Whole summaries of files that have nothing to show.
#[test]
fn all_recognised() {
    for (entries, lines, count) in [
        (&b""[..], "", 0),
        (b"r.", "1 recognised 2\n", 1),
        (b"r.\nr.\n", "1 recognised 2\n2 recognised 2\n", 2),
    ] {
        let (printed, errors, status) = register("recognised", entries);
        let expected = format!(
            "{lines}\nentries: {count}\nrecognised: {count}\npartial: 0\nfailure: 0\nloop: 0\nmissing: 0
refused 6 ({SIX}): 0\n"
        );
        assert_eq!(printed, expected);
        assert_eq!((&errors[..], status), ("", Some(0)));
    }
}

/// The sentence about line ends stands where most entries that are not recognised end with byte 13, whatever is said of them.
#[test]
fn line_ends() {
    let sentence = "The file has CR LF line ends, and byte 13 is read as part of the entry.\n";
    for (entries, stands) in [
        ("r.\r\np.\r\n", true),
        ("r.\r\nr.\np.\r\nx\n", true),
        ("x\r\nl\r\nm\r\nx\nx\n", true),
        ("r\r\n\n\r\n", true),
        ("r.\r\nx\n", false),
        ("r.\nx\nx\r\n\n", false),
        ("r.\n", false),
    ] {
        let (printed, _, _) = register("line_ends", entries.as_bytes());
        assert_eq!(
            printed.ends_with(sentence),
            stands,
            "{entries:?}: {printed}"
        );
    }
    // On a sheet that asks for byte 13 in place of the full stop all is recognised that ends with it.
    let sheet = file("returns.sheet", SHEET.replace("3    2   46", "3    2   13"));
    for (entries, status) in [("r\r\nr\r\n", 0), ("r\r\nr\r\nx\n", 1)] {
        let entries = file("returns.entries", entries);
        let (printed, _, found) = ran(command().args([&sheet, &entries]));
        assert_eq!(found, Some(status), "{printed}");
        assert!(!printed.contains(sentence), "{printed}");
    }
}

/// In the shorthand letters stand for their variables: T has no line, and L calls itself.
#[test]
fn shorthand() {
    let text = file("shorthand.text", "S='a'T/'b'L/'.'\nL=L\n");
    let entries = file("shorthand.entries", "a.\nb.\n.\nx.\n");
    let lines = "1 missing T at 1\n2 loop L at 1\n3 recognised 1\n4 failure\n\n";
    for arguments in [
        ["--shorthand".into(), text.clone(), entries.clone()],
        [text.clone(), entries.clone(), "--shorthand".into()],
    ] {
        let (printed, errors, status) = ran(command().args(arguments));
        assert!(printed.starts_with(lines), "{printed}");
        assert_eq!((&errors[..], status), ("", Some(1)));
    }
}

#[test]
fn refused_sheets() {
    let entries = file("refused.entries", "r.\n");
    let sheet = SHEET.replace("    3    2   46", "    3    7   46");
    let sheet = file("refused.sheet", sheet);
    let (printed, errors, status) = ran(command().args([&sheet, &entries]));
    let expected = "refused (5): line 4 of the sheet: kind over 4, or operands that do not fit
`explain SHEET ENTRY` shows more.
";
    assert_eq!(printed, expected);
    assert_eq!((&errors[..], status), ("", Some(1)));

    let text = file("refused.text", "S=\nS=\n");
    let (printed, errors, status) = ran(command().arg("--shorthand").args([&text, &entries]));
    let expected =
        "refused (15): the text is empty, not of the shorthand's form, or defines a letter twice
`explain --shorthand SHEET ENTRY` shows more.
";
    assert_eq!(printed, expected);
    assert_eq!((&errors[..], status), ("", Some(1)));
}

/// One sentence on standard error, and nothing else.
fn ends_with_two(command: &mut Command, begins: &str) {
    let (printed, errors, status) = ran(command);
    assert_eq!((&printed[..], status), ("", Some(2)));
    assert!(errors.starts_with(begins), "{errors}");
    assert_eq!(errors.lines().count(), 1, "{errors}");
}

#[test]
fn files_that_cannot_be_read() {
    let sheet = file("unread.sheet", SHEET);
    let absent = PathBuf::from(env!("CARGO_TARGET_TMPDIR")).join("absent");
    let folder = PathBuf::from(env!("CARGO_TARGET_TMPDIR"));
    for path in [absent, folder] {
        let sentence = format!("{} cannot be read: ", path.display());
        ends_with_two(command().args([&path, &sheet]), &sentence);
        ends_with_two(command().args([&sheet, &path]), &sentence);
    }
    ends_with_two(&mut command(), "usage: register ");
    ends_with_two(command().arg(&sheet), "usage: register ");
    ends_with_two(command().args([&sheet, &sheet, &sheet]), "usage: register ");
}

/// A run that reads its entries from a pipe, while what it prints is read.
struct Running {
    child: Child,
    input: ChildStdin,
    printed: JoinHandle<String>,
}

impl Running {
    fn new(name: &str) -> Running {
        let sheet = file(&format!("{name}.sheet"), SHEET);
        let mut child = command()
            .args([sheet, "/dev/stdin".into()])
            .stdin(Stdio::piped())
            .stdout(Stdio::piped())
            .stderr(Stdio::piped())
            .spawn()
            .expect("the program runs");
        let input = child.stdin.take().expect("it is piped");
        let mut output = child.stdout.take().expect("it is piped");
        let printed = thread::spawn(move || {
            let mut printed = String::new();
            output
                .read_to_string(&mut printed)
                .expect("it prints UTF-8");
            printed
        });
        Running {
            child,
            input,
            printed,
        }
    }

    fn hand(&mut self, entries: &[u8]) {
        self.input.write_all(entries).expect("it reads all entries");
    }

    /// The most memory that the run has had so far, in kilobytes. It waits for more entries, so that it is there to be asked.
    fn peak(&self) -> u64 {
        let status = fs::read_to_string(format!("/proc/{}/status", self.child.id()));
        let status = status.expect("the run goes on");
        let peak = status.lines().find_map(|line| line.strip_prefix("VmHWM:"));
        let number = peak.and_then(|line| line.trim().strip_suffix(" kB"));
        number
            .expect("it is there")
            .trim()
            .parse()
            .expect("a number")
    }

    /// What it printed. On standard error, which is no terminal, it shows nothing.
    fn end(self) -> String {
        drop(self.input);
        let output = self.child.wait_with_output().expect("it ends");
        assert_eq!(String::from_utf8_lossy(&output.stderr), "");
        assert_eq!(output.status.code(), Some(1));
        self.printed.join().expect("it is read")
    }
}

/// 100,000 entries: each is counted, and memory does not grow with them. The first 40,000 are more than a pipe holds, so that the run has begun; a word for
/// each of the others would be noticed.
#[test]
fn many_entries() {
    let ten = "r.\nr.\np.\nx.\nl.\nm.\ne.\nr\n.r.\n\n".repeat(1_000);
    let mut running = Running::new("many");
    running.hand(ten.repeat(4).as_bytes());
    let before = running.peak();
    // On a terminal it would now show its progress.
    thread::sleep(Duration::from_millis(200));
    running.hand(ten.repeat(6).as_bytes());
    let after = running.peak();
    let printed = running.end();
    assert!(after < before + 400, "{before} kB, then {after} kB");
    assert!(printed.contains("\n100000 failure\n"), "{}", printed.len());
    let (lines, summary) = printed.split_once("\n\n").expect("a summary follows");
    assert_eq!(lines.lines().count(), 100_000);
    for count in [
        "entries: 100000\n",
        "\nrecognised: 20000\n",
        "\npartial: 10000\n  line 3: \"p.\"\n  line 13: \"p.\"\n  line 23: \"p.\"\nfailure: 50000\n",
        "\n  line 4: \"x.\"\n  line 7: \"e.\"\n  line 8: \"r\"\nloop: 10000\n",
        "\nmissing: 10000\n",
        "refused 6 (the entry has over 4,096 bytes): 0\n",
    ] {
        assert!(summary.contains(count), "{count}: {summary}");
    }
}

/// A line of 60 million bytes takes no more memory than one of 4,097.
#[test]
fn long_line() {
    let mut running = Running::new("long");
    running.hand("x".repeat(5_000).as_bytes());
    running.hand(b"\nr.\n");
    for _ in 0..60 {
        running.hand(&[b'x'; 1_000_000]);
    }
    let peak = running.peak();
    running.hand(b"\nr.\n");
    let printed = running.end();
    assert!(peak < 20_000, "{peak} kB");
    let lines =
        format!("1 refused 6: {SIX}\n2 recognised 2\n3 refused 6: {SIX}\n4 recognised 2\n\n");
    assert!(printed.starts_with(&lines), "{printed}");
}

/// A pipe that nobody reads ends the program without a word.
#[test]
fn closed_pipe() {
    let sheet = file("closed.sheet", SHEET);
    let entries = file("closed.entries", "r.\n".repeat(50_000));
    let mut child = command()
        .args([sheet, entries])
        .stdout(Stdio::piped())
        .stderr(Stdio::piped())
        .spawn()
        .expect("the program runs");
    drop(child.stdout.take());
    let output = child.wait_with_output().expect("it ends");
    assert_eq!(String::from_utf8_lossy(&output.stderr), "");
    assert_eq!(output.status.code(), Some(1));
}
