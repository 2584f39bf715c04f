//! The examples in the papers are what the programs print.
//!
//! Papers and programs are only held together here: the outputs in the papers were taken from the programs. That these are right is what `explain`,
//! `register` and `reader` test, with texts written by hand.
use entryreader::{Code, Reader};
use std::path::{Path, PathBuf};
use std::process::Command;

fn docs() -> PathBuf {
    Path::new(env!("CARGO_MANIFEST_DIR")).join("../docs")
}

/// The indented blocks of a paper, each with the last line of text before it.
fn blocks(paper: &str) -> Vec<(String, Vec<String>)> {
    let mut found: Vec<(String, Vec<String>)> = Vec::new();
    let (mut before, mut inside) = ("", false);
    for line in paper.lines().filter(|line| !line.is_empty()) {
        let text = line.strip_prefix("    ");
        match (text, found.last_mut()) {
            (Some(text), Some((_, block))) if inside => block.push(text.to_string()),
            (Some(text), _) => found.push((before.to_string(), vec![text.to_string()])),
            (None, _) => before = line,
        }
        inside = text.is_some();
    }
    found
}

/// What a program prints in the folder of the examples.
fn printed(program: &str, arguments: &[&str]) -> Vec<String> {
    let output = Command::new(program)
        .args(arguments)
        .current_dir(docs().join("sheets"))
        .output()
        .expect("it runs");
    let text = String::from_utf8(output.stdout).expect("it prints UTF-8");
    written(&text)
}

/// The lines of a text that are not empty: a paper does not tell those at a block's end from those behind it.
fn written(text: &str) -> Vec<String> {
    let lines = text.lines().filter(|line| !line.is_empty());
    lines.map(str::to_string).collect()
}

/// The commands of a paper, each with what it shows of their output.
fn commands(paper: &str) -> Vec<(String, Vec<String>)> {
    let paper = std::fs::read_to_string(docs().join(paper)).expect("it is there");
    let blocks = blocks(&paper).into_iter();
    let command = |(_, block): (String, Vec<String>)| {
        let command = block[0].strip_prefix("$ ")?.to_string();
        Some((command, block[1..].to_vec()))
    };
    blocks.filter_map(command).collect()
}

#[test]
fn commands_in_papers() {
    let all = [commands("SHEETS.md"), commands("CASES.md")].concat();
    assert_eq!(all.len(), 24);
    for (command, shown) in all {
        // Two quotes are an empty entry.
        let words: Vec<&str> = command
            .split(' ')
            .map(|word| word.trim_matches('\''))
            .collect();
        let program = match words[0] {
            "explain" => env!("CARGO_BIN_EXE_explain"),
            "register" => env!("CARGO_BIN_EXE_register"),
            other => panic!("no program: {other}"),
        };
        let mut found = printed(program, &words[1..]);
        // The rate is another one each time.
        if let Some(rate) = found
            .last_mut()
            .filter(|line| line.ends_with(" entries a second"))
        {
            *rate = ".. entries a second".to_string();
        }
        assert_eq!(shown, found, "{command}");
    }
}

/// A file that is shown stands behind its name and a colon.
#[test]
fn files_in_papers() {
    let mut files = 0;
    for (paper, folder) in [
        ("SHEETS.md", "sheets"),
        ("IMPORTING.md", "sheets"),
        ("IMPORTING.md", "../rust/examples"),
        ("CASES.md", "sheets"),
    ] {
        let text = std::fs::read_to_string(docs().join(paper)).expect("it is there");
        for (before, block) in blocks(&text) {
            let name = before
                .strip_suffix("`:")
                .and_then(|text| text.rsplit('`').next());
            let Some(file) =
                name.and_then(|name| std::fs::read_to_string(docs().join(folder).join(name)).ok())
            else {
                continue;
            };
            assert_eq!(block, written(&file), "{before}");
            files += 1;
        }
    }
    assert_eq!(files, 7);
}

/// The example of the import prints what the paper shows. Cargo builds it with the tests.
#[test]
fn import_in_papers() {
    let paper = std::fs::read_to_string(docs().join("IMPORTING.md")).expect("it is there");
    let found = blocks(&paper)
        .into_iter()
        .find(|(before, _)| before.ends_with("prints:"));
    let program = Path::new(env!("CARGO_BIN_EXE_explain")).with_file_name("examples/baptisms");
    let program = program.to_str().expect("a path of text");
    assert_eq!(found.expect("it is shown").1, printed(program, &[]));
}

/// What the papers say of entries that were cut off: which answers last, whatever is appended, by the reaches in the table; and what comes of more text.
#[test]
fn cut_entries() {
    let sheets = docs().join("sheets");
    for (sheet, entry, code, lasts) in [
        ("baptism.txt", "Marie 185.", Code::Failure, true),
        ("baptism.txt", "Louis 1863", Code::Failure, false),
        ("baptism.txt", "Louis 1863.", Code::Recognised, true),
        ("name.txt", "Anna", Code::Failure, false),
        ("unclosed.txt", "Anna", Code::Recognised, false),
        ("unclosed.txt", "Annam", Code::Recognised, false),
        ("unclosed.txt", "Anna.", Code::Partial, true),
    ] {
        let bytes = std::fs::read(sheets.join(sheet)).expect("it is there");
        let mut reader = Reader::new(&bytes).expect("it is accepted");
        let verdict = reader.verdict(entry.as_bytes()).map(|found| found.code());
        assert_eq!(verdict, Ok(code), "{sheet} {entry}");
        let n = reader.entry().len() as u32;
        let found = reader.table().chunks(2).all(|cell| cell[1] <= n);
        assert_eq!(found, lasts, "{sheet} {entry}");
    }
}

/// The page that loops is recognised with the change that the paper proposes: one more variable, and a line that calls it.
#[test]
fn corrected_page() {
    let file = |name| std::fs::read_to_string(docs().join("sheets").join(name));
    let (sheet, page) = (file("remarks.txt"), file("page.txt"));
    let (sheet, page) = (sheet.expect("it is there"), page.expect("it is there"));
    assert_eq!((page.len(), page.matches('(').count()), (2_118, 12));
    let verdict = |sheet: &str| {
        let mut reader = Reader::new(sheet.as_bytes()).expect("it is accepted");
        reader
            .verdict(page.as_bytes())
            .map(|verdict| verdict.code())
    };
    assert_eq!(verdict(&sheet), Ok(Code::Loop));
    let changed = sheet
        .replacen("   25    1", "   26    1", 1)
        .replace("   16    4   20   12   12", "   16    4   20   26   26")
        + "   26    4   19   12   25\n";
    assert_eq!(verdict(&changed), Ok(Code::Recognised));
}

/// The drawings that are shown are those that `explain` writes.
#[test]
fn drawings_in_papers() {
    for (name, sheet, entry) in [
        ("name.svg", "name.txt", "Anna."),
        ("remark.svg", "remarks.txt", "Anna 1847 (twin)."),
    ] {
        let made = Path::new(env!("CARGO_TARGET_TMPDIR")).join(name);
        let path = made.to_str().expect("a path of text");
        printed(
            env!("CARGO_BIN_EXE_explain"),
            &["--svg", path, sheet, entry],
        );
        let shown = std::fs::read(docs().join("sheets").join(name)).expect("it is there");
        assert!(
            std::fs::read(made).expect("it was written") == shown,
            "{name}"
        );
    }
}
