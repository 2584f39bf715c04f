//! Refused sheets: the line, the field and the cause.
use crate::answers::H;
use crate::program::explain;

/// Sheet H with one line in the place of another, counted from 1.
fn with_line(number: usize, line: &str) -> String {
    let mut lines: Vec<&str> = H.lines().collect();
    lines[number - 1] = line;
    lines.join("\n") + "\n"
}

/// What is printed of a refused sheet below the first line, which is compared.
fn refused(sheet: impl AsRef<[u8]>, first: &str) -> String {
    let printed = explain(sheet, "-6.", 1);
    let rest = printed
        .strip_prefix(first)
        .and_then(|rest| rest.strip_prefix("\n\n"));
    rest.unwrap_or_else(|| panic!("{printed}")).to_string()
}

/// Sheet H with another line is refused: the number and the sentence about it; the line again, and the mark below it.
fn line_refused(number: usize, line: &str, first: &str, mark: &str) {
    let sheet = with_line(number, line);
    assert_eq!(refused(sheet, first), format!("    {line}\n    {mark}\n"));
}

const ONE: &str = "refused (1): the sheet is empty, has over 257 lines, or is not lines of 25 columns that end with a line feed";

#[test]
fn one_empty() {
    assert_eq!(refused("", ONE), "The sheet is empty.\n");
}

#[test]
fn one_many_lines() {
    let rest = "    1    0    0    0    0\n".repeat(257);
    let sheet = format!("  256    1   46    0    0\n{rest}");
    let expected = "The sheet has 258 lines, and 257 are the most: line 1 and 256 rules.\n";
    assert_eq!(refused(sheet, ONE), expected);
}

#[test]
fn one_line_ends_of_windows() {
    let expected = r"        6    1   46    0    0\x0D
                             ^ line 1 ends with bytes 13 and 10, and must end with byte 10 alone
";
    assert_eq!(refused(H.replace('\n', "\r\n"), ONE), expected);
}

#[test]
fn one_no_last_line_feed() {
    let expected = "        6    1    0    0    0
                             ^ line 7 has no byte 10, a line feed, at its end
";
    assert_eq!(refused(H.trim_end(), ONE), expected);
}

#[test]
fn one_wrong_length() {
    let short = "        2    2   45    0   0
                            ^ line 3 has 24 columns, and 25 are needed
";
    assert_eq!(
        refused(with_line(3, "    2    2   45    0   0"), ONE),
        short
    );
    let long = "        2    2   45     0    0
                             ^ line 3 has 26 columns, and 25 are needed
";
    assert_eq!(
        refused(with_line(3, "    2    2   45     0    0"), ONE),
        long
    );
    let empty = "Line 8 is empty, and 25 columns are needed.\n";
    assert_eq!(refused(format!("{H}\n"), ONE), empty);
}

/// A blank in the place of a line feed, and nothing in its place.
#[test]
fn one_lines_together() {
    let mark = "^ lines run together: line 2 has no byte 10, a line feed, behind column 25";
    for between in [" ", ""] {
        let line = format!("    1    4    2    3    3{between}    2    2   45    0    0");
        let sheet = H.replace("3    3\n    2", &format!("3    3{between}    2"));
        assert_eq!(
            refused(sheet, ONE),
            format!("    {line}\n    {:25}{mark}\n", "")
        );
    }
}

/// A file that is no sheet at all.
#[test]
fn one_any_bytes() {
    let expected = r"    \x89PNG\x0D
           ^ line 1 ends with bytes 13 and 10, and must end with byte 10 alone
";
    assert_eq!(refused(b"\x89PNG\r\n\x1A\n", ONE), expected);
    let long = refused([b'x'; 100_000], ONE);
    assert!(long.starts_with(&format!("    {} ..\n", "x".repeat(72))));
}

#[test]
fn two_fields() {
    let refused = |line, mark| {
        let first = "refused (2): line 2 of the sheet: a field that is no right-justified number without leading zeros";
        line_refused(2, line, first, mark);
    };
    refused(
        "    1    x    2    3    3",
        r#"         ^ the kind: byte 120 "x" is no digit"#,
    );
    refused(
        "   -1    4    2    3    3",
        r#"    ^ the variable: byte 45 "-" is no digit"#,
    );
    refused(
        "    1    4         3    3",
        "              ^ the first operand: the field is empty, and zero is written 0",
    );
    refused(
        "    1    4    2   3     3",
        "                   ^ the second operand: a blank stands behind the number, which must end in the field's last column",
    );
    refused(
        "    1    4    2    3  3 3",
        "                        ^ the third operand: a blank stands inside the number",
    );
    refused(
        "    1   04    2    3    3",
        "         ^ the kind: the number has a leading zero",
    );
}

/// A byte that is shown escaped moves the mark; line 1 has other fields.
#[test]
fn two_in_line_1() {
    let sheet = [b"    6    1\t  46    0    0\n", &H.as_bytes()[26..]].concat();
    let first = "refused (2): line 1 of the sheet: a field that is no right-justified number without leading zeros";
    let expected = r#"        6    1\x09  46    0    0
                     ^ the endmarker: byte 9 "\x09" is no digit
"#;
    assert_eq!(refused(sheet, first), expected);
    let mark = r#"    ^ V, the count of variables: byte 86 "V" is no digit"#;
    line_refused(1, "    V    1   46    0    0", first, mark);
}

#[test]
fn three_line_1() {
    let refused = |line, mark| {
        let first = "refused (3): line 1 of the sheet: the count of variables, the start or the endmarker is out of range, or the last two fields are not 0";
        line_refused(1, line, first, mark);
    };
    refused(
        "    0    1   46    0    0",
        "    ^ V, the count of variables, is 0, and goes from 1 to 256",
    );
    refused(
        "99999    1   46    0    0",
        "    ^ V, the count of variables, is 99999, and goes from 1 to 256",
    );
    refused(
        "    6    7   46    0    0",
        "         ^ the start is 7, and variables go from 1 to V, which is 6",
    );
    refused(
        "    6    0   46    0    0",
        "         ^ the start is 0, and variables go from 1 to V, which is 6",
    );
    refused(
        "    6    1  256    0    0",
        "              ^ the endmarker is 256, and bytes go up to 255",
    );
    refused(
        "    6    1   46    1    0",
        "                   ^ the fourth field is 1, and must be 0",
    );
    refused(
        "    6    1   46    0    1",
        "                        ^ the fifth field is 1, and must be 0",
    );
}

#[test]
fn four_variables() {
    let refused = |line, mark| {
        let first = "refused (4): line 3 of the sheet: a variable that is not in 1 to V, or not above that of the line before";
        line_refused(3, line, first, mark);
    };
    refused(
        "    7    2   45    0    0",
        "    ^ the variable is 7, and variables go from 1 to V, which is 6",
    );
    refused(
        "    0    2   45    0    0",
        "    ^ the variable is 0, and variables go from 1 to V, which is 6",
    );
    refused(
        "    1    2   45    0    0",
        "    ^ the variable is 1, and must be above that of the line before, 1",
    );
}

fn five_refused(line: &str, mark: &str) {
    let first = "refused (5): line 3 of the sheet: kind over 4, or operands that do not fit";
    line_refused(3, line, first, mark);
}

#[test]
fn five_rules_that_call_nothing() {
    five_refused(
        "    2    7   45    0    0",
        "         ^ the kind is 7, and kinds go up to 4",
    );
    five_refused(
        "    2    2  256    0    0",
        "              ^ the first operand is 256, and bytes go up to 255",
    );
    five_refused(
        "    2    2   45    1    0",
        "                   ^ the second operand is 1, and must be 0 for kind 2",
    );
    five_refused(
        "    2    3    7    0    0",
        "              ^ the first operand is 7, and classes go from 1 to 6",
    );
    five_refused(
        "    2    3    0    0    0",
        "              ^ the first operand is 0, and classes go from 1 to 6",
    );
    five_refused(
        "    2    0    0    0    9",
        "                        ^ the third operand is 9, and must be 0 for kind 0",
    );
    five_refused(
        "    2    1    9    0    0",
        "              ^ the first operand is 9, and must be 0 for kind 1",
    );
}

#[test]
fn five_rules_that_call() {
    five_refused(
        "    2    4    0    1    1",
        "              ^ the first operand is 0, and variables go from 1 to V, which is 6",
    );
    five_refused(
        "    2    4    1    1    7",
        "                        ^ the third operand is 7, and variables go from 1 to V, which is 6",
    );
}
