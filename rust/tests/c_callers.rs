//! The C header: a C program that is compiled against it puts the marked entries through every exported call, and prints what the calls of this package
//! give; the declarations in the header, in the package and in the source are the same; and each export promises what the function that it calls does.
#[allow(dead_code)] // Other tests ask the other cases.
mod marked_cases;

use entryreader::{Answer, Claim, Code, Error, Pair, Verdict, lent};
use marked_cases::{BEHIND, CELLS, G, H, READING, STORED};
use std::collections::BTreeMap;
use std::fmt::Write as _;
use std::io::Write as _;
use std::path::{Path, PathBuf};
use std::process::{Command, Stdio};

/// A sheet, or a text of the shorthand; and an entry.
type Handed = (&'static [u8], &'static [u8]);

/// A call's answer; or 100 plus the number of a refusal.
type Returned<T> = Result<T, u32>;

/// What is handed over, with the question's numbers, the verdict's code and the opening's numbers.
struct Case {
    handed: Handed,
    question: Returned<[u32; 4]>,
    verdict: Returned<u32>,
    opening: Returned<[u32; 2]>,
}

impl Case {
    /// What is printed of verdict, opening and question.
    fn lines(&self) -> String {
        let mut lines = String::new();
        let code = self.verdict.unwrap_or_else(|code| code);
        report(&mut lines, "verdict", code, &[]);
        let code = self.opening.err().unwrap_or(0);
        report(&mut lines, "opening", code, &self.opening.unwrap_or([7; 2]));
        let code = self.question.err().unwrap_or(0);
        report(
            &mut lines,
            "question",
            code,
            &self.question.unwrap_or([7; 4]),
        );
        lines
    }
}

/// What is refused by every call.
fn refused(handed: Handed, code: u32) -> Case {
    Case {
        handed,
        question: Err(code),
        verdict: Err(code),
        opening: Err(code),
    }
}

/// The verdict loops, and so do the first bytes, so many of them.
fn looping(sheet: &'static str, entry: &'static str, question: [u32; 4], least: u32) -> Case {
    Case {
        handed: (sheet.as_bytes(), entry.as_bytes()),
        question: Ok(question),
        verdict: Ok(2),
        opening: Ok([1, least]),
    }
}

/// The marked entries, of which g and h loop and are empty; then a refused sheet, a refused entry and one that the tables are too short for; then case g
/// with a byte, and a loop behind `66-`.
fn cases() -> Vec<Case> {
    let mut cases: Vec<Case> = marked_cases::cases()
        .map(|case| Case {
            handed: (case.sheet.as_bytes(), case.entry.as_bytes()),
            question: Ok(answer_numbers(case.answer)),
            verdict: Ok(case.verdict.number()),
            opening: Ok([u32::from(case.verdict == Code::Loop), 0]),
        })
        .into();
    let h = H.as_bytes();
    cases.push(refused((&h[..h.len() - 1], b"-6."), 101));
    cases.push(refused((h, &[b'6'; 4097]), 106));
    cases.push(refused((h, &LONG), 110));
    cases.push(looping(G, ".", [2, 1, 0, 1], 0));
    cases.push(looping(BEHIND, "66-.", [2, 5, 3, 9], 3));
    cases
}

/// As many digits as there may be, and a full stop.
const LONG: [u8; 4096] = {
    let mut entry = [b'6'; 4096];
    entry[4095] = b'.';
    entry
};

/// A sign, or none; then a digit and a full stop.
const TEXT: Handed = (b"S='-'D/D\nD=('0'/'6')'.'\n", b"-6.");

fn folder() -> &'static Path {
    Path::new(env!("CARGO_MANIFEST_DIR"))
}

/// Compiles a source file with every warning an error.
fn compile(compiler: &str, source: &Path, arguments: &[&str], made: &Path) {
    let output = Command::new(compiler)
        .args(["-Wall", "-Wextra", "-Werror", "-pedantic", "-I"])
        .arg(folder().join("include"))
        .args(["-o".as_ref(), made, source])
        .args(arguments)
        .output()
        .unwrap_or_else(|error| panic!("{compiler}: {error}"));
    let errors = String::from_utf8_lossy(&output.stderr);
    assert!(output.status.success(), "{errors}");
}

fn temporary(name: &str) -> PathBuf {
    Path::new(env!("CARGO_TARGET_TMPDIR")).join(name)
}

/// What the C program prints about the cases.
fn printed_by_c(handed: &[Handed]) -> String {
    let program = temporary("marked");
    let source = folder().join("tests/c_callers/marked.c");
    let library = env!("ENTRYREADER_LIBRARY");
    compile("cc", &source, &["-std=c99", library], &program);
    let mut child = Command::new(&program)
        .stdin(Stdio::piped())
        .stdout(Stdio::piped())
        .spawn()
        .expect("the program runs");
    let mut input = Vec::new();
    for bytes in handed.iter().flat_map(|(sheet, entry)| [sheet, entry]) {
        input.extend(format!("{}\n", bytes.len()).into_bytes());
        input.extend(*bytes);
    }
    let mut pipe = child.stdin.take().expect("it is piped");
    let writer = std::thread::spawn(move || pipe.write_all(&input));
    let output = child.wait_with_output().expect("the program ends");
    writer.join().expect("no panic").expect("all is read");
    assert!(output.status.success());
    String::from_utf8(output.stdout).expect("it prints ASCII")
}

/// The text that the C program prints of the same calls, made through this package.
struct Printed {
    text: String,
    variables: u32,
    table: Vec<u32>,
    work: Vec<u32>,
}

/// A call by its name: what it returns, and its answer.
fn report(text: &mut String, name: &str, returned: u32, numbers: &[u32]) {
    print(text, &format!("{name} {returned}:"), numbers);
}

fn print(text: &mut String, name: &str, numbers: &[u32]) {
    text.push_str(name);
    for number in numbers {
        write!(text, " {number}").expect("a string takes it");
    }
    text.push('\n');
}

/// What a call returned, and its answer: as it was, full of 7, after a refusal.
fn returned<const N: usize>(found: Result<[u32; N], Error>) -> (u32, [u32; N]) {
    found.map_or_else(
        |error| (100 + error.number(), [7; N]),
        |numbers| (0, numbers),
    )
}

fn answer_numbers(answer: Answer) -> [u32; 4] {
    let of = |code, Pair { variable, position }, cells| [code, variable, position, cells];
    match answer {
        Answer::Success { end, cells } => [5 + end, 0, 0, cells],
        Answer::Failure { cells } => [1, 0, 0, cells],
        Answer::Loop { named, cells } => of(2, named, cells),
        Answer::Missing { named, cells } => of(3, named, cells),
    }
}

fn verdict_numbers(found: Result<Verdict, Error>, length: u32) -> [u32; 4] {
    let of = |code, Pair { variable, position }, cells| [code, variable, position, cells];
    match found {
        Ok(Verdict::Recognised { cells }) => [0, 0, length, cells],
        Ok(Verdict::Failure { cells }) => [1, 0, 0, cells],
        Ok(Verdict::Loop { named, cells }) => of(2, named, cells),
        Ok(Verdict::Missing { named, cells }) => of(3, named, cells),
        Ok(Verdict::Partial { end, cells }) => [5, 0, end, cells],
        Err(error) => [9, error.number(), error.line().unwrap_or(0), 0],
    }
}

impl Printed {
    fn new() -> Printed {
        Printed {
            text: String::new(),
            variables: 0,
            table: Vec::new(),
            work: Vec::new(),
        }
    }

    fn fill(&mut self) {
        self.table = vec![7; 2 * 1024];
        self.work = vec![7; 1024];
    }

    fn table(&mut self) {
        print(&mut self.text, "table", &self.table[..64]);
    }

    /// The sheet of a text of the shorthand; or the bytes themselves.
    fn shorthand(&mut self, bytes: &[u8]) -> Vec<u8> {
        let mut made = vec![7; 26 * 257];
        let length = lent::shorthand(bytes, &mut made);
        let length_number = length.map(|length| [u32::try_from(length).expect("it is short")]);
        let (code, numbers) = returned(length_number);
        report(&mut self.text, "shorthand", code, &numbers);
        length.map_or(bytes.to_vec(), |length| made[..length].to_vec())
    }

    fn sheet(&mut self, sheet: &[u8]) {
        let mut words = [7; 256];
        let found = lent::sheet(sheet, &mut words);
        self.variables = found.map_or(0, |header| header.variables);
        let (code, numbers) = match found {
            Ok(header) => {
                let endmarker = header.endmarker.into();
                (0, [0, header.variables, header.start, endmarker])
            }
            Err(error) => {
                let line = error.line().unwrap_or(0);
                (100 + error.number(), [error.number(), line, 0, 0])
            }
        };
        report(&mut self.text, "sheet", code, &numbers);
        print(&mut self.text, "words", &words);
    }

    fn verdicts(&mut self, sheet: &[u8], entry: &[u8]) {
        let code = lent::verdict(sheet, entry);
        let code = code.map_or_else(|error| 100 + error.number(), |code| code.number());
        report(&mut self.text, "verdict", code, &[]);
        self.fill();
        let found = lent::judge(sheet, entry, &mut self.table, &mut self.work);
        let length = u32::try_from(entry.len()).expect("it is short");
        report(&mut self.text, "judge", 0, &verdict_numbers(found, length));
        self.table();
    }

    fn opening(&mut self, sheet: &[u8], entry: &[u8]) {
        self.fill();
        let least = lent::opening(sheet, entry, &mut self.table, &mut self.work);
        let (code, numbers) = returned(least.map(|least| match least {
            Some(least) => [1, u32::try_from(least).expect("it is short")],
            None => [0, 0],
        }));
        report(&mut self.text, "opening", code, &numbers);
        self.table();
    }

    fn answer(&mut self, name: &str, found: Result<Answer, Error>) {
        let (code, numbers) = returned(found.map(answer_numbers));
        report(&mut self.text, name, code, &numbers);
        self.table();
    }

    fn correct(&mut self, name: &str, sheet: &[u8], [old, new]: [&[u8]; 2], c: u32) {
        let (table, work) = (&mut self.table, &mut self.work);
        let found = lent::correct(sheet, old, new, 1, 0, c, table, work);
        self.answer(name, found);
    }

    fn questions(&mut self, sheet: &[u8], entry: &[u8]) {
        self.fill();
        let found = lent::question(sheet, entry, 1, 0, &mut self.table, &mut self.work);
        self.answer("question", found);
        let mut other = entry.to_vec();
        other.iter_mut().take(1).for_each(|byte| *byte ^= 1);
        self.correct("misplaced", sheet, [entry, &other], 1);
        self.correct("correct", sheet, [entry, &other], 0);
        self.correct("corrected back", sheet, [&other, entry], 0);
        let behind = u32::try_from(entry.len()).expect("it is short");
        let found = lent::further(sheet, entry, 1, behind, &mut self.table, &mut self.work);
        self.answer("further", found);
    }

    fn reading(&mut self, sheet: &[u8], entry: &[u8]) {
        self.fill();
        let mut output = vec![7; 49 * 1024];
        let (table, work) = (&mut self.table, &mut self.work);
        let found = lent::write(sheet, entry, 1, 0, table, work, &mut output);
        let (code, numbers) = returned(found.map(|(answer, lines)| {
            let [cell, variable, position, cells] = answer_numbers(answer);
            [cell, variable, position, cells, lines]
        }));
        report(&mut self.text, "write", code, &numbers);
        let lines = found.map_or(0, |(_, lines)| usize::try_from(lines).expect("few"));
        let reading = &output[..49 * lines];
        self.text += std::str::from_utf8(reading).expect("a reading is ASCII");
        let claim = lent::check(sheet, entry, 1, 0, reading).map(|claim| match claim {
            Claim::Success { end } => [5 + end, end],
            Claim::Failure => [1, 0],
        });
        let (code, numbers) = returned(claim);
        report(&mut self.text, "check", code, &numbers);
    }

    /// The table, stored and restored.
    fn archive(&mut self, entry: &[u8]) {
        let length = u32::try_from(entry.len()).expect("it is short");
        let (mut stored, mut restored) = (vec![7; 2 * 1024], vec![7; 2 * 1024]);
        let found = lent::store(self.variables, length, &self.table, &mut stored);
        self.moved("store", found, &stored);
        let found = lent::restore(self.variables, length, &stored, &mut restored);
        self.moved("restore", found, &restored);
    }

    fn moved(&mut self, name: &str, found: Result<(), Error>, target: &[u32]) {
        let code = found.map_or_else(|error| 100 + error.number(), |()| 0);
        report(&mut self.text, name, code, &target[..64]);
    }

    fn case(&mut self, (sheet, entry): Handed) {
        let sheet = self.shorthand(sheet);
        self.sheet(&sheet);
        self.verdicts(&sheet, entry);
        self.opening(&sheet, entry);
        self.questions(&sheet, entry);
        self.reading(&sheet, entry);
        self.archive(entry);
    }
}

#[test]
fn marked_entries_in_c() {
    let cases = cases();
    let mut handed: Vec<Handed> = cases.iter().map(|case| case.handed).collect();
    handed.push(TEXT);
    let text = printed_by_c(&handed);
    let mut expected = Printed::new();
    handed.into_iter().for_each(|case| expected.case(case));
    assert_eq!(text, expected.text);

    // The numbers that document 01 gives; how many cells a text's sheet decides is free.
    let lines: String = cases.iter().map(Case::lines).collect();
    let names = ["verdict", "opening", "question"];
    let of_these = |line: &&str| names.iter().any(|name| line.starts_with(name));
    let found: Vec<&str> = text.lines().filter(of_these).collect();
    let lines: Vec<&str> = lines.lines().collect();
    assert_eq!(found[..lines.len()], lines);
    assert_eq!(found[lines.len()], "verdict 0:");
    let written = format!("write 0: 8 0 0 5 5\n{READING}check 0: 8 3\n");
    assert!(text.contains(&written), "{text}");
    assert!(text.contains(&cells_of_a()), "{text}");
    assert!(text.contains(&cells_behind()), "{text}");
    assert!(text.contains(&archive_of_a()), "{text}");
    for code in [103, 106, 120] {
        let mut refused = String::new();
        report(&mut refused, "store", code, &[7; 64]);
        report(&mut refused, "restore", code, &[7; 64]);
        assert!(text.contains(&refused), "{text}");
    }
}

/// Case a asked. Then its sign is a comma: with 1 named for it that is refused, and the table is the same; with 0 named five cells at 0 fail. Then it is
/// the sign again: two cells are decided anew, and that of 6, which looks at nothing, stays. Further behind its last byte, where a sign and
/// a digit are looked for and none is: five more, which fail, and reach 4 but for that of 6.
fn cells_of_a() -> String {
    let mut text = String::new();
    let mut comma = CELLS;
    for (variable, reach) in [(1, 1), (2, 1), (3, 1), (4, 1), (6, 0)] {
        [comma[variable - 1][0], comma[variable - 1][1]] = [1, reach];
    }
    let mut back = CELLS;
    back[5][0] = 1;
    let mut behind = back;
    for (variable, reach) in [(1, 4), (2, 4), (3, 4), (4, 4), (6, 3)] {
        [behind[variable - 1][6], behind[variable - 1][7]] = [1, reach];
    }
    for (name, code, numbers, cells) in [
        ("question", 0, [8, 0, 0, 5], CELLS),
        ("misplaced", 121, [7; 4], CELLS),
        ("correct", 0, [1, 0, 0, 5], comma),
        ("corrected back", 0, [8, 0, 0, 2], back),
        ("further", 0, [1, 0, 0, 5], behind),
    ] {
        let table = [&cells.concat()[..], &[7; 16]].concat();
        report(&mut text, name, code, &numbers);
        print(&mut text, "table", &table);
    }
    text
}

/// Case a's table stored and restored.
fn archive_of_a() -> String {
    let mut text = String::new();
    for (name, cells) in [("store", STORED.concat()), ("restore", CELLS.concat())] {
        report(&mut text, name, 0, &[&cells[..], &[7; 16]].concat());
    }
    text
}

/// The verdict on `66-.` where a loop stands behind the `-`, and the opening: the same table.
fn cells_behind() -> String {
    let rows = [
        [2, 0, 2, 0, 2, 0, 0, 0, 0, 0],
        [6, 1, 7, 2, 1, 3, 0, 0, 0, 0],
        [0, 0, 0, 0, 2, 0, 0, 0, 0, 0],
        [0, 0, 0, 0, 8, 3, 0, 0, 0, 0],
        [0, 0, 0, 0, 0, 0, 2, 0, 0, 0],
        [0; 10],
    ];
    let table = [&rows.concat()[..], &[7; 4]].concat();
    let mut text = String::new();
    for (name, numbers) in [("judge", &[2, 5, 3, 9][..]), ("opening", &[1, 3])] {
        report(&mut text, name, 0, numbers);
        print(&mut text, "table", &table);
    }
    text
}

/// The header is one of C++ too.
#[test]
fn header_in_cpp() {
    let source = temporary("header.cpp");
    std::fs::write(&source, "#include \"entryreader.h\"\n").expect("it is written");
    compile(
        "c++",
        &source,
        &["-std=c++98", "-c"],
        &temporary("header.o"),
    );
}

/// Each declared call with the types of its parameters as `src/calls.rs` writes them, a slice as two.
type Declared = BTreeMap<String, Vec<String>>;

/// The declarations in a text that begin with `before`, behind which the call's name stands.
fn declared(text: &str, before: &str, types: fn(&str) -> Vec<String>) -> Declared {
    let mut found = Declared::new();
    for part in text.split(before).skip(1) {
        let (name, rest) = part.split_once('(').expect("parameters follow");
        let parameters = rest[..closing(rest)].split(',').map(str::trim);
        let types = parameters.filter(|text| !text.is_empty()).flat_map(types);
        found.insert(name.to_string(), types.collect());
    }
    found
}

/// Where the bracket is closed that was opened before the text.
fn closing(text: &str) -> usize {
    let mut open = 1;
    let closes = |byte: u8| {
        open += match byte {
            b'(' => 1,
            b')' => -1,
            _ => 0,
        };
        open == 0
    };
    text.bytes().position(closes).expect("it is closed")
}

/// The type of a parameter behind its name.
fn behind_name(parameter: &str) -> &str {
    parameter.split_once(": ").expect("it has a type").1
}

fn types_in_package(parameter: &str) -> Vec<String> {
    vec![behind_name(parameter).to_string()]
}

fn types_in_source(parameter: &str) -> Vec<String> {
    let found = behind_name(parameter).replace("Rules", "[u32; 256]");
    let pointer = found.replace("&mut ", "*mut ").replace('&', "*const ");
    if pointer.contains(';') || !pointer.contains('[') {
        return vec![pointer];
    }
    vec![pointer.replace(['[', ']'], ""), "usize".to_string()]
}

/// A parameter in C, its name left out.
fn types_in_header(parameter: &str) -> Vec<String> {
    let name_end = |c: char| !c.is_ascii_alphanumeric() && c != '_';
    let found = match parameter.split_once("(*") {
        Some((element, array)) => {
            assert_eq!(element, "uint32_t ", "{parameter}");
            let length = array.split(['[', ']']).nth(1).expect("it has a length");
            format!("*mut [u32; {length}]")
        }
        None => {
            let name = parameter.rfind(name_end).expect("it has a type") + 1;
            let found = match parameter[..name].trim() {
                "const uint8_t *" => "*const u8",
                "const uint32_t *" => "*const u32",
                "uint8_t *" => "*mut u8",
                "uint32_t *" => "*mut u32",
                "uint32_t" => "u32",
                "size_t" => "usize",
                other => other,
            };
            found.to_string()
        }
    };
    vec![found]
}

/// Header, package and source declare the same calls with the same parameters, and all of them return 32 bits.
#[test]
fn declarations() {
    let source = include_str!("../../crates/entryreader_c/src/lib.rt");
    let package = include_str!("../src/calls.rs");
    let header = include_str!("../include/entryreader.h");
    let in_source = declared(source, "pub extern \"C\" fn ", types_in_source);
    let externs = package.split_once("\n}\n").expect("the declarations end").0;
    assert_eq!(
        declared(externs, "    fn ", types_in_package),
        in_source,
        "package and source"
    );
    assert_eq!(
        declared(header, "\nuint32_t ", types_in_header),
        in_source,
        "header and source"
    );
    assert_eq!(in_source.len(), 12, "{in_source:?}");
    assert_eq!(in_source["entryreader_sheet"].len(), 4);
    assert_eq!(externs.matches(") -> u32;").count(), in_source.len());
    assert_eq!(header.matches(");\n").count(), in_source.len());
}

/// The parameters and clauses of each function that begins with `before`, without blanks.
fn said(text: &str, before: &str) -> BTreeMap<String, String> {
    let mut found = BTreeMap::new();
    for part in text.split(before).skip(1) {
        let (name, rest) = part.split_once('(').expect("parameters follow");
        let said = rest.split_once("\n{\n").expect("a body follows").0;
        let said: String = said.split_whitespace().collect();
        found.insert(name.to_string(), said.replace(",)", ")"));
    }
    found
}

/// Each export promises what the library's function of its name does.
#[test]
fn exported_promises() {
    for (library, exports) in [
        (
            include_str!("../../crates/entryreader/src/lib.rt"),
            include_str!("../../crates/entryreader_c/src/lib.rt"),
        ),
        (
            include_str!("../../crates/test_calls/src/lib.rt"),
            include_str!("../../crates/test_calls_c/src/lib.rt"),
        ),
    ] {
        let exported = said(exports, "\npub extern \"C\" fn ");
        assert_eq!(exported, said(library, "\npub fn "));
        assert!(exported.values().all(|said| said.contains("->u32ensures{")));
    }
}
