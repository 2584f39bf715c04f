//! Texts of the shorthand: letters for their variables, and refused texts.
use crate::program::explain_text;

/// S is variable 1; 2 always succeeds and 3 always fails; 4 is the byte.
#[test]
fn good_text() {
    let expected = r#"recognised: the reading takes the whole entry, 1 of 1 bytes

    .
     ^ ends at 1

S at 0: 4, then 2; or, where 4 fails, 3. Took ".", 0 to 1
  4 at 0: byte 46 ".". Took ".", 0 to 1
  2 at 1: always succeeds. Took nothing
"#;
    assert_eq!(explain_text("S='.'\n", ".", 0), expected);
}

/// S and D are variables 1 and 2; 3 always succeeds and 4 always fails; 5 is the byte, and 6 the row.
#[test]
fn letter_without_a_line() {
    let expected = r#"missing: D has no rule, and is asked for at 1

    a.
     ^ D at 1 is asked for

S at 0: 6, then 3; or, where 6 fails, 4
  S at 0 calls 6 at 0
6 at 0: 5, then D; or, where 5 fails, 4
  5 at 0 succeeds, and takes "a", 0 to 1
  so 6 at 0 calls D at 1
D at 1 has no rule: the sheet has no line for D
"#;
    assert_eq!(explain_text("S='a'D\n", "a.", 1), expected);
}

/// A refused text: what stands between the first line and the form.
fn not_of_the_form(text: &str, expected: &str) {
    let printed = explain_text(text, ".", 1);
    let first = "refused (15): the text is empty, not of the shorthand's form, or defines a letter twice\n\n";
    let form = "
A line is a capital, =, alternatives parted by /, and a line feed. An alternative is a row of capitals, bytes between
single quotes, %, and alternatives in round or square brackets; it may be empty. Nothing else stands in a line, no blank either.
";
    assert_eq!(printed, format!("{first}{expected}{form}"));
}

#[test]
fn fifteen_causes() {
    not_of_the_form(
        "S=D\nD= 'a'\nE='e'\n",
        r#"    D= 'a'
      ^ line 2 of the text: byte 32 " " has no place outside quotes
"#,
    );
    not_of_the_form(
        "S=D\r\n",
        r#"    S=D\x0D
       ^ line 1 of the text: byte 13 "\x0D" has no place outside quotes
"#,
    );
    not_of_the_form(
        "S='ab'\n",
        "    S='ab'
      ^ line 1 of the text: one byte stands between two single quotes
",
    );
    not_of_the_form(
        "S=D\nD='a'\nS='b'\n",
        "    S='b'
    ^ line 3 of the text: S has a line already
",
    );
    not_of_the_form(
        "S=D\nD='a'",
        "    D='a'
         ^ line 2 of the text: no byte 10, a line feed, at its end
",
    );
    not_of_the_form(
        "S=D)\nD='a'\n",
        "    S=D)
    ^ line 1 of the text: not of the shorthand's form
",
    );
    not_of_the_form("S=D\n\nD='a'\n", "Line 2 of the text is empty.\n");
}

/// The line feed between the quotes ends no line.
#[test]
fn fifteen_behind_a_quoted_line_feed() {
    not_of_the_form(
        "S='\n'D\nD=*\n",
        r#"    D=*
      ^ line 2 of the text: byte 42 "*" has no place outside quotes
"#,
    );
}

#[test]
fn fifteen_empty() {
    let expected =
        "refused (15): the text is empty, not of the shorthand's form, or defines a letter twice

The text is empty.
";
    assert_eq!(explain_text("", ".", 1), expected);
}

/// The mark is under the seventeenth bracket.
#[test]
fn sixteen() {
    let expected = "refused (16): brackets of the text nest over 16 deep

    D='a'(([[((((((((((((((%))))))))))))))]]))
                         ^ line 2 of the text: brackets nest over 16 deep here
";
    let text = "S=D\nD='a'(([[((((((((((((((%))))))))))))))]]))\nE=*\n";
    assert_eq!(explain_text(text, ".", 1), expected);
}

/// One letter, 2 and 3 for each item: 252 with 83 items and 258 with 85.
#[test]
fn seventeen() {
    let text = |items| format!("S={}\n", "'a'".repeat(items));
    let expected = "refused (17): the text needs over 256 variables\n";
    assert_eq!(explain_text(text(85), ".", 1), expected);
    assert!(explain_text(text(83), ".", 1).starts_with("failure: "));
}
