//! Drawings: what stands where in them.
use crate::answers::{H, letters};
use crate::arguments::own_path;
use crate::openings::{AT_ONCE, behind_letters};
use crate::program::{SHEET, printed, run};
use std::fs;
use std::os::unix::ffi::OsStrExt;

/// The lines of the drawing of a sheet and an entry. What is printed besides is what is printed without a drawing.
fn draw(name: &str, sheet: &str, entry: &[u8], status: i32) -> Vec<String> {
    let path = own_path(name);
    let arguments = [b"--svg", path.as_os_str().as_bytes(), SHEET, entry];
    let with = printed(&arguments, sheet.as_bytes(), status);
    assert_eq!(with, printed(&[SHEET, entry], sheet.as_bytes(), status));
    let drawing = fs::read_to_string(&path).expect("the drawing is there");
    fs::remove_file(path).expect("it was written");
    assert!(drawing.starts_with("<?xml version=\"1.0\" encoding=\"UTF-8\"?>\n<svg "));
    assert!(drawing.ends_with("</svg>\n"));
    drawing.lines().map(String::from).collect()
}

/// An attribute of an element.
fn attribute<'a>(element: &'a str, name: &str) -> &'a str {
    let (_, rest) = element
        .split_once(&format!(" {name}=\""))
        .expect("it is there");
    rest.split_once('"').expect("it ends").0
}

/// The numbers of an element's attributes.
fn numbers<const N: usize>(element: &str, names: [&str; N]) -> [usize; N] {
    names.map(|name| attribute(element, name).parse().expect("a number"))
}

/// The elements of a name and a class.
fn elements<'a>(drawing: &'a [String], name: &str, class: &str) -> Vec<&'a str> {
    let start = format!("<{name} class=\"{class}\"");
    let found = drawing.iter().filter(|line| line.starts_with(&start));
    found.map(String::as_str).collect()
}

/// The words of the elements of texts.
fn texts<'a>(drawing: &'a [String], class: &str) -> Vec<&'a str> {
    let texts = elements(drawing, "text", class).into_iter();
    let words = texts.filter_map(|text| text.split_once('>')?.1.strip_suffix("</text>"));
    words.collect()
}

/// The five pairs of case a, each with a bar; bytes are 18 wide, and a bar is 1 from both edges.
#[test]
fn bars_of_a() {
    let drawing = draw("a.svg", H, b"-6.", 0);
    let title = "recognised: the reading takes the whole entry, 3 of 3 bytes";
    assert_eq!(texts(&drawing, "title"), [title]);
    assert_eq!(texts(&drawing, "byte"), ["-", "6", "."]);
    assert_eq!(texts(&drawing, "byte taken"), ["-", "6", "."]);
    let labels = [
        "1 at 0: 2, then 3; or, where 2 fails, 3",
        "2 at 0: byte 45 \"-\"",
        "3 at 1: 4, then 5; or, where 4 fails, 6",
        "4 at 1: class 1, a digit",
        "5 at 2: byte 46 \".\"",
        "ends at 3",
        "took bytes",
        "took nothing",
        "failed",
    ];
    assert_eq!(texts(&drawing, ""), labels);
    let bars = elements(&drawing, "rect", "bar");
    let bars: Vec<[usize; 3]> = bars
        .into_iter()
        .map(|bar| numbers(bar, ["x", "y", "width"]))
        .collect();
    let [left, top, _] = bars[0];
    let from = |row: usize, start: usize, bytes: usize| {
        [left + 18 * start, top + 20 * row, 18 * bytes - 2]
    };
    let expected = [
        from(0, 0, 3),
        from(1, 0, 1),
        from(2, 1, 2),
        from(3, 1, 1),
        from(4, 2, 1),
    ];
    assert_eq!(bars[..5], expected);
    // Behind them those of the legend.
    assert_eq!(bars.len(), 5 + 2);
    assert_eq!(elements(&drawing, "path", "tree").len(), 4);
}

/// Five pairs failed, and the legend shows a sixth mark.
#[test]
fn crosses_of_f() {
    let drawing = draw("f.svg", H, b"x", 1);
    assert_eq!(elements(&drawing, "rect", "failed").len(), 6);
    assert_eq!(elements(&drawing, "path", "failed").len(), 6);
    let mark = "at 0 another byte was expected: byte 45 \"-\"; or class 1, a digit";
    assert!(texts(&drawing, "").contains(&mark));
}

/// 1 calls 2, which calls 1: an arrow down, and an arrow back to the first row.
#[test]
fn arrows_of_a_round() {
    let sheet = "    2    1   46    0    0\n    1    4    2    2    2\n    2    4    1    1    1\n";
    let drawing = draw("round.svg", sheet, b".", 1);
    let arrows = elements(&drawing, "path", "arrow");
    let heads = elements(&drawing, "path", "head");
    assert_eq!((arrows.len(), heads.len()), (2, 2));
    let circles = elements(&drawing, "circle", "waits");
    let [first] = numbers(circles[0], ["cy"]);
    let [second] = numbers(circles[1], ["cy"]);
    let back = attribute(arrows[1], "d");
    assert!(
        back.contains(&format!(" {second} H")) && back.contains(&format!(" V{first} H")),
        "{back}"
    );
    let advice = "One of the rules of this round must take a byte before it comes back to 1 at 0.";
    assert!(texts(&drawing, "").contains(&advice));
}

/// A bar behind the first two of four bytes, the words beside it, and the sentence right above the advice.
#[test]
fn bar_of_an_opening() {
    let drawing = draw("opening.svg", &behind_letters(), b"axa.", 1);
    assert_eq!(
        texts(&drawing, "opening"),
        ["the first 2 bytes loop already"]
    );
    let bars = elements(&drawing, "rect", "opening");
    assert_eq!(bars.len(), 1);
    let [left, top, width, height] = numbers(bars[0], ["x", "y", "width", "height"]);
    assert_eq!(width, 18 * 2);
    // The bytes are centred in their columns, and stand on the bar; so does the label, left of it.
    let bytes = elements(&drawing, "text", "byte");
    let [first, line] = numbers(bytes[0], ["x", "y"]);
    assert_eq!(first, left + 9);
    assert!(top < line && line < top + height);
    let [label, beside] = numbers(elements(&drawing, "text", "opening")[0], ["x", "y"]);
    assert!(label + 8 * "the first 2 bytes loop already".len() < left && beside == line);
    // What is drawn later covers what was drawn before.
    let index = |element: &str| drawing.iter().position(|line| line == element);
    assert!(index(bars[0]) < index(bytes[0]));
    let sentence = "The first 2 of 4 bytes are enough: they loop too, and no fewer do.";
    let advice = "One of the rules of this round must take a byte before it comes back to 7 at 2.";
    assert!(texts(&drawing, "").ends_with(&[sentence, advice]));
}

/// For no byte there are the words only; for the whole entry the bar is as wide as the bytes.
#[test]
fn bars_of_no_byte_and_of_all() {
    let drawing = draw("no-byte.svg", AT_ONCE, b"aa.", 1);
    assert_eq!(
        texts(&drawing, "opening"),
        ["the empty entry loops already"]
    );
    assert!(elements(&drawing, "rect", "opening").is_empty());
    let drawing = draw("all-bytes.svg", &behind_letters(), b"aa.", 1);
    assert_eq!(texts(&drawing, "opening"), ["only the whole entry loops"]);
    let bars = elements(&drawing, "rect", "opening");
    assert_eq!(numbers(bars[0], ["width"]), [18 * 3]);
}

/// With another verdict, or without bytes, nothing is said of an opening.
#[test]
fn no_bar_without_an_opening() {
    for (sheet, entry, status) in [(AT_ONCE, &b""[..], 1), (H, b"-6.", 0), (H, b"x.", 1)] {
        let drawing = draw("no-opening.svg", sheet, entry, status);
        assert!(texts(&drawing, "opening").is_empty());
        assert!(elements(&drawing, "rect", "opening").is_empty());
    }
}

/// Sheet H without its last two lines, so that 5 has no rule: two pairs wait, the third is marked at 2, in the same row as its label.
#[test]
fn chain_to_a_missing_rule() {
    let sheet = H.lines().take(5).map(|line| format!("{line}\n"));
    let drawing = draw("chain.svg", &sheet.collect::<String>(), b"-6", 1);
    // The last circles are those of the legend.
    let waits = elements(&drawing, "circle", "waits");
    assert_eq!(waits.len(), 2 + 1);
    let stops = elements(&drawing, "circle", "stops");
    assert_eq!(stops.len(), 1 + 1);
    let [zero, top] = numbers(waits[0], ["cx", "cy"]);
    assert_eq!(numbers(waits[1], ["cx", "cy"]), [zero + 18, top + 20]);
    assert_eq!(numbers(stops[0], ["cx", "cy"]), [zero + 36, top + 40]);
    assert!(texts(&drawing, "").contains(&"5 at 2: no rule"));
}

/// Case e: where the entry ends a cross stands behind its last byte, in the row of the rule that asked for a byte there, beside the line down from there.
#[test]
fn cross_behind_the_last_byte() {
    let drawing = draw("e.svg", H, b"-6", 1);
    let mark = "the entry ends at 2, where a byte was expected: byte 46 \".\"";
    assert!(texts(&drawing, "").contains(&mark));
    assert_eq!(texts(&drawing, "position here"), ["2"]);
    let bytes = elements(&drawing, "text", "byte");
    let [last] = numbers(bytes[1], ["x"]);
    // A byte is centred in its column, 18 wide; a cross is 3 from its left edge.
    let behind = last + 9;
    let crosses = elements(&drawing, "rect", "failed");
    let crosses: Vec<[usize; 2]> = crosses
        .into_iter()
        .map(|cross| numbers(cross, ["x", "y"]))
        .collect();
    // 1 at 0, 3 at 1, 5 at 2 in the rows 0, 2 and 4; and the legend's.
    let [_, top] = crosses[0];
    let at = |position: usize, row: usize| [behind + 3 - 18 * (2 - position), top + 20 * row];
    assert_eq!(crosses[..3], [at(0, 0), at(1, 2), at(2, 4)]);
    assert_eq!(crosses.len(), 3 + 1);
    let here = elements(&drawing, "text", "position here");
    assert_eq!(numbers(here[0], ["x"]), [behind]);
    let [width] = numbers(&drawing[1], ["width"]);
    assert!(behind + 18 <= width);
}

/// An entry without bytes has no bytes to draw, and its rows at 0.
#[test]
fn empty_entry() {
    let drawing = draw("empty.svg", H, b"", 1);
    assert!(elements(&drawing, "text", "byte").is_empty());
    let mark = "a byte was expected: byte 45 \"-\"; or class 1, a digit";
    assert!(texts(&drawing, "").contains(&mark));
    assert_eq!(elements(&drawing, "rect", "failed").len(), 5 + 1);
    assert_eq!(texts(&drawing, "position here"), ["0"]);
}

/// Each letter gives two rows, and the rest three.
#[test]
fn long_drawings_are_cut() {
    let entry = [b"a".repeat(4000), b".".to_vec()].concat();
    let drawing = draw("long.svg", &letters(), &entry, 1);
    let texts = texts(&drawing, "");
    assert!(texts.contains(&"Cut: the first 400 of 8003 rows are drawn."));
    assert!(texts.contains(&"Cut: of 4001 bytes those from 0 to 400 are drawn."));
    assert!(texts.contains(&"[199] 1 at 199: 2, then 1; or, where 2 fails, 3"));
    assert!(!texts.contains(&"[200] 1 at 200: 2, then 1; or, where 2 fails, 3"));
}

/// The letters are taken one by one, and behind the mark 7 calls itself: of the way there the end is drawn, with the arrow from the last row to itself.
/// 1 stands in 4,001 rows, and 3, 5 and 7 in one each.
#[test]
fn long_ways_to_a_round_are_cut() {
    let entry = [b"a".repeat(4000), b".".to_vec()].concat();
    let drawing = draw("way.svg", &behind_letters(), &entry, 1);
    let texts = texts(&drawing, "");
    assert!(texts.contains(&"Cut: the last 400 of 4004 rows are drawn."));
    assert!(texts.contains(&"Cut: of 4001 bytes those from 3601 to 4001 are drawn."));
    assert!(texts.contains(&"1 at 3604: 2, then 1; or, where 2 fails, 3"));
    assert!(!texts.contains(&"1 at 3603: 2, then 1; or, where 2 fails, 3"));
    assert!(texts.contains(&"7 at 4001: 7, then 7; or, where 7 fails, 7"));
    // 399 from row to row, and one back.
    assert_eq!(elements(&drawing, "path", "arrow").len(), 400);
    let circles = elements(&drawing, "circle", "waits");
    let [first, _] = numbers(circles[0], ["cx", "cy"]);
    let [last, _] = numbers(circles[399], ["cx", "cy"]);
    assert_eq!(last - first, 18 * (4001 - 3604));
    // All the bytes that are drawn are needed.
    let bars = elements(&drawing, "rect", "opening");
    assert_eq!(numbers(bars[0], ["width"]), [18 * 400]);
}

/// Bytes that mean something in XML, bytes that are no characters, a blank.
#[test]
fn escaped_bytes() {
    let sheet = "    1    1   46    0    0\n    1    2   38    0    0\n";
    let drawing = draw("escaped.svg", sheet, b"<&>\"\x07 \xE9.", 1);
    assert_eq!(
        texts(&drawing, "byte"),
        ["&lt;", "&amp;", "&gt;", "\"", "é", "."]
    );
    assert_eq!(texts(&drawing, "number"), ["07", "\u{2423}"]);
    assert!(texts(&drawing, "").contains(&"1 at 0: byte 38 \"&amp;\""));
    let stray = |line: &String| {
        line.replace("&amp;", "")
            .replace("&lt;", "")
            .replace("&gt;", "")
            .contains('&')
    };
    assert!(!drawing.iter().any(stray));
}

#[test]
fn no_drawing_of_a_refusal() {
    let path = own_path("none.svg");
    let printed = printed(
        &[SHEET, b".", b"--svg", path.as_os_str().as_bytes()],
        b"",
        1,
    );
    assert!(printed.ends_with("\nNo drawing is written: there is nothing to draw.\n"));
    assert!(!path.exists());
}

#[test]
fn a_drawing_that_cannot_be_written() {
    let run = run(
        &[SHEET, b"-6.", b"--svg", b"no/such/folder.svg"],
        H.as_bytes(),
    );
    assert_eq!(run.status, 2);
    assert!(run.printed.starts_with("recognised: "));
    let complaint =
        "explain: no/such/folder.svg cannot be written: No such file or directory (os error 2)\n";
    assert_eq!(run.complaint, complaint);
}
