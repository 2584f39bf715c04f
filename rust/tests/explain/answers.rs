//! Document 01's marked entries, a to j without the machine's b and c, which are a again; and what else there is to say of an answer.
use crate::program::explain;

/// Sheet H.
pub const H: &str = "    6    1   46    0    0
    1    4    2    3    3
    2    2   45    0    0
    3    4    4    5    6
    4    3    1    0    0
    5    2   46    0    0
    6    1    0    0    0
";

/// A sheet of so many variables, with these lines.
pub fn sheet(variables: usize, lines: &str) -> String {
    format!("{variables:5}    1   46    0    0\n{lines}")
}

/// Case i.
pub fn letters() -> String {
    sheet(
        3,
        "    1    4    2    1    3\n    2    2   97    0    0\n    3    0    0    0    0\n",
    )
}

#[test]
fn a_recognised() {
    let expected = r#"recognised: the reading takes the whole entry, 3 of 3 bytes

    -6.
       ^ ends at 3

1 at 0: 2, then 3; or, where 2 fails, 3. Took "-6.", 0 to 3
  2 at 0: byte 45 "-". Took "-", 0 to 1
  3 at 1: 4, then 5; or, where 4 fails, 6. Took "6.", 1 to 3
    4 at 1: class 1, a digit. Took "6", 1 to 2
    5 at 2: byte 46 ".". Took ".", 2 to 3
"#;
    assert_eq!(explain(H, "-6.", 0), expected);
}

#[test]
fn d_recognised() {
    let expected = r#"recognised: the reading takes the whole entry, 2 of 2 bytes

    6.
      ^ ends at 2

1 at 0: 2, then 3; or, where 2 fails, 3. Took "6.", 0 to 2
  2 at 0: byte 45 "-". Failed
  3 at 0: 4, then 5; or, where 4 fails, 6. Took "6.", 0 to 2
    4 at 0: class 1, a digit. Took "6", 0 to 1
    5 at 1: byte 46 ".". Took ".", 1 to 2
"#;
    assert_eq!(explain(H, "6.", 0), expected);
}

#[test]
fn e_failure() {
    let expected = r#"failure: the entry does not fit the sheet

    -6
      ^ the entry ends at 2, where a byte was expected: byte 46 "."

1 at 0: 2, then 3; or, where 2 fails, 3. Failed
  2 at 0: byte 45 "-". Took "-", 0 to 1
  3 at 1: 4, then 5; or, where 4 fails, 6. Failed
    4 at 1: class 1, a digit. Took "6", 1 to 2
    5 at 2: byte 46 ".". Failed: the entry ends here
"#;
    assert_eq!(explain(H, "-6", 1), expected);
}

/// A byte that is another one, and further right a byte that is not there, or is another one too: the latter is told.
#[test]
fn rightmost_expected() {
    for (entry, mark) in [
        (
            "6",
            "    6\n     ^ the entry ends at 1, where a byte was expected: byte 46 \".\"\n",
        ),
        (
            "6x",
            "    6x\n     ^ at 1 another byte was expected: byte 46 \".\"\n",
        ),
    ] {
        let printed = explain(H, entry, 1);
        assert!(printed.contains(mark), "{printed}");
        assert!(
            printed.contains("\n  2 at 0: byte 45 \"-\". Failed\n"),
            "{printed}"
        );
    }
}

/// All that was expected where the entry ends is told.
#[test]
fn several_expected_at_the_end() {
    let expected = r#"failure: the entry does not fit the sheet

    -
     ^ the entry ends at 1, where a byte was expected: class 1, a digit

1 at 0: 2, then 3; or, where 2 fails, 3. Failed
  2 at 0: byte 45 "-". Took "-", 0 to 1
  3 at 1: 4, then 5; or, where 4 fails, 6. Failed
    4 at 1: class 1, a digit. Failed: the entry ends here
    6 at 1: always fails. Failed
"#;
    assert_eq!(explain(H, "-", 1), expected);
    // An a, and then a b or a c; or a b.
    let lines = "    1    4    2    3    5
    2    2   97    0    0
    3    4    5    4    6
    4    0    0    0    0
    5    2   98    0    0
    6    2   99    0    0
";
    let expected = r#"failure: the entry does not fit the sheet

    a
     ^ the entry ends at 1, where a byte was expected: byte 98 "b"; or byte 99 "c"

1 at 0: 2, then 3; or, where 2 fails, 5. Failed
  2 at 0: byte 97 "a". Took "a", 0 to 1
  3 at 1: 5, then 4; or, where 5 fails, 6. Failed
    5 at 1: byte 98 "b". Failed: the entry ends here
    6 at 1: byte 99 "c". Failed: the entry ends here
"#;
    assert_eq!(explain(sheet(6, lines), "a", 1), expected);
    // Of an x the entry's end is not what is wrong.
    let expected = "    x\n    ^ at 0 another byte was expected: ";
    assert!(explain(sheet(6, lines), "x", 1).contains(expected));
}

/// The entry's end may be looked at and the whole entry taken.
#[test]
fn recognised_up_to_the_end() {
    let expected = r#"recognised: the reading takes the whole entry, 1 of 1 bytes

    a
     ^ ends at 1

1 at 0: 2, then 1; or, where 2 fails, 3. Took "a", 0 to 1
  2 at 0: byte 97 "a". Took "a", 0 to 1
  1 at 1: 2, then 1; or, where 2 fails, 3. Took nothing
    2 at 1: byte 97 "a". Failed: the entry ends here
    3 at 1: always succeeds. Took nothing
"#;
    assert_eq!(explain(letters(), "a", 0), expected);
}

#[test]
fn empty_entries() {
    let expected = r#"failure: the entry does not fit the sheet

The entry is empty, and a byte was expected: byte 45 "-"; or class 1, a digit

1 at 0: 2, then 3; or, where 2 fails, 3. Failed
  2 at 0: byte 45 "-". Failed: the entry ends here
  3 at 0: 4, then 5; or, where 4 fails, 6. Failed
    4 at 0: class 1, a digit. Failed: the entry ends here
    6 at 0: always fails. Failed
"#;
    assert_eq!(explain(H, "", 1), expected);
    let expected = r#"recognised: the reading takes the whole entry, 0 of 0 bytes

The entry is empty.

1 at 0: 2, then 1; or, where 2 fails, 3. Took nothing
  2 at 0: byte 97 "a". Failed: the entry ends here
  3 at 0: always succeeds. Took nothing
"#;
    assert_eq!(explain(letters(), "", 0), expected);
    let expected = "failure: the entry does not fit the sheet

The entry is empty, and no byte is at fault: a rule that always fails was met

1 at 0: always fails. Failed
";
    let fails = sheet(1, "    1    1    0    0    0\n");
    assert_eq!(explain(fails, "", 1), expected);
}

#[test]
fn f_failure() {
    let expected = r#"failure: the entry does not fit the sheet

    x
    ^ at 0 another byte was expected: byte 45 "-"; or class 1, a digit

1 at 0: 2, then 3; or, where 2 fails, 3. Failed
  2 at 0: byte 45 "-". Failed
  3 at 0: 4, then 5; or, where 4 fails, 6. Failed
    4 at 0: class 1, a digit. Failed
    6 at 0: always fails. Failed
"#;
    assert_eq!(explain(H, "x", 1), expected);
}

#[test]
fn g_loop() {
    let expected = r#"loop: 1 at 0 calls 1 at 0 again, having taken no byte

The entry is empty.

1 at 0: 1, then 1; or, where 1 fails, 1
  1 at 0 calls 1 at 0 again, having taken no byte

One of the rules of this round must take a byte before it comes back to 1 at 0.
"#;
    let sheet = sheet(1, "    1    4    1    1    1\n");
    assert_eq!(explain(sheet, "", 1), expected);
}

#[test]
fn h_loop() {
    let expected = r#"loop: 1 at 0 calls 1 at 0 again, having taken no byte

The entry is empty.

1 at 0: 2, then 1; or, where 2 fails, 3
  2 at 0 succeeds, and takes nothing
  so 1 at 0 calls 1 at 0 again, having taken no byte

One of the rules of this round must take a byte before it comes back to 1 at 0.
"#;
    let lines = "    1    4    2    1    3\n    2    0    0    0    0\n    3    1    0    0    0\n";
    assert_eq!(explain(sheet(3, lines), "", 1), expected);
}

#[test]
fn i_partial() {
    let expected = r#"partial: the reading takes 2 of 3 bytes

    aa.
      ^ ends at 2

1 at 0: 2, then 1; or, where 2 fails, 3. Took "aa", 0 to 2
  2 at 0: byte 97 "a". Took "a", 0 to 1
  1 at 1: 2, then 1; or, where 2 fails, 3. Took "a", 1 to 2
    2 at 1: byte 97 "a". Took "a", 1 to 2
    1 at 2: 2, then 1; or, where 2 fails, 3. Took nothing
      2 at 2: byte 97 "a". Failed
      3 at 2: always succeeds. Took nothing
"#;
    assert_eq!(explain(letters(), "aa.", 1), expected);
}

#[test]
fn j_missing() {
    let expected = r#"missing: 2 has no rule, and is asked for at 0

The entry is empty.

1 at 0: 2, then 2; or, where 2 fails, 2
  1 at 0 calls 2 at 0
2 at 0 has no rule: the sheet has no line for 2
"#;
    let sheet = sheet(2, "    1    4    2    2    2\n");
    assert_eq!(explain(sheet, "", 1), expected);
}

/// 1 takes the a; then 2 fails, so 3 is called, which calls 4, which calls 3 again.
#[test]
fn a_round_behind_the_question() {
    let lines = "    1    4    5    2    6
    2    4    6    1    3
    3    4    4    5    5
    4    4    3    5    5
    5    2   97    0    0
    6    1    0    0    0
";
    let expected = r#"loop: 3 at 1 calls 4 at 1, which calls 3 at 1 again, having taken no byte

    a.
     ^ the round is at 1, and takes no byte

The first of 2 bytes is enough: it loops too, and the empty entry does not.

    a.
    ^ the first byte loops already

1 at 0: 5, then 2; or, where 5 fails, 6
  5 at 0 succeeds, and takes "a", 0 to 1
  so 1 at 0 calls 2 at 1
2 at 1: 6, then 1; or, where 6 fails, 3
  6 at 1 fails
  so 2 at 1 calls 3 at 1
Here the round begins:
3 at 1: 4, then 5; or, where 4 fails, 5
  3 at 1 calls 4 at 1
4 at 1: 3, then 5; or, where 3 fails, 5
  4 at 1 calls 3 at 1 again, having taken no byte

One of the rules of this round must take a byte before it comes back to 3 at 1.
"#;
    assert_eq!(explain(sheet(6, lines), "a.", 1), expected);
}

/// A sheet on which each variable calls the next one, and the last one the first.
fn round(variables: usize) -> String {
    let line = |variable: usize| {
        let called = variable % variables + 1;
        format!("{variable:5}    4{called:5}{called:5}{called:5}\n")
    };
    sheet(variables, &(1..=variables).map(line).collect::<String>())
}

/// A round of four pairs is told in a sentence, a longer one by the pair that it comes back to.
#[test]
fn rounds_in_a_sentence() {
    let first = |variables| {
        let text = explain(round(variables), ".", 1);
        text.lines().next().expect("a line").to_string()
    };
    let four = "loop: 1 at 0 calls 2 at 0, which calls 3 at 0, which calls 4 at 0, which calls 1 at 0 again, having taken no byte";
    assert_eq!(first(4), four);
    let five = "loop: 1 at 0 comes back to itself, having taken no byte";
    assert_eq!(first(5), five);
}

/// The endmarker at two places before the end, and another byte last: it is a byte like others.
#[test]
fn endmarker_anywhere() {
    let expected = r#"partial: the reading takes 2 of 5 bytes

    6.6.x
      ^ ends at 2
"#;
    assert!(explain(H, "6.6.x", 1).starts_with(expected));
}

#[test]
fn long_entry() {
    let expected = "refused (6): the entry has over 4,096 bytes\n\nIt has 4097 bytes.\n";
    assert_eq!(explain(H, [b'.'; 4097], 1), expected);
    assert!(explain(H, [b'.'; 4096], 1).starts_with("failure: "));
}

/// A pair that is called a second time is not explained again: 1 calls 2 twice at 0, for 3 fails.
#[test]
fn as_above() {
    let lines = "    1    4    2    3    2
    2    4    3    3    3
    3    1    0    0    0
";
    let expected = r#"failure: the entry does not fit the sheet

    .
    ^ no byte is at fault: a rule that always fails was met

1 at 0: 2, then 3; or, where 2 fails, 2. Failed
  2 at 0: 3, then 3; or, where 3 fails, 3. Failed
    3 at 0: always fails. Failed
    3 at 0: as above. Failed
  2 at 0: as above. Failed
"#;
    assert_eq!(explain(sheet(3, lines), ".", 1), expected);
}

/// Bytes that are no text, and a backslash.
#[test]
fn escaped_bytes() {
    let expected = r#"failure: the entry does not fit the sheet

    -6é\xAD\x01\\\xA0~\x7F.
      ^ at 2 another byte was expected: byte 46 "."
"#;
    let entry = b"-6\xE9\xAD\x01\\\xA0~\x7F.";
    assert!(explain(H, entry, 1).starts_with(expected));
    let sheet = sheet(1, "    1    3    6    0    0\n");
    let expected = r#"1 at 0: class 6, a byte from 128 to 159. Took "\x80", 0 to 1"#;
    assert!(explain(sheet, b"\x80.", 1).contains(expected));
}

/// Of 50 letters 40 are shown where they are taken, and 20 levels are indented. Around the mark 72 bytes of the entry are shown.
#[test]
fn long_lines() {
    let entry = [b"a".repeat(100), b".".to_vec()].concat();
    let shown = explain(letters(), &entry, 1);
    let mut lines = shown.lines();
    assert_eq!(
        lines.next(),
        Some("partial: the reading takes 100 of 101 bytes")
    );
    let part = "a".repeat(71);
    assert_eq!(lines.nth(1), Some(format!("    .. {part}.").as_str()));
    let caret = format!("    {:74}^ ends at 100", "");
    assert_eq!(lines.next(), Some(caret.as_str()));
    let rule = "2, then 1; or, where 2 fails, 3";
    let forty = "a".repeat(40);
    let has = |line: String| assert!(shown.lines().any(|shown| shown == line), "{line}");
    has(format!("1 at 0: {rule}. Took \"{forty}\" .., 0 to 100"));
    has(format!(
        "{:40}1 at 20: {rule}. Took \"{forty}\" .., 20 to 100",
        ""
    ));
    has(format!(
        "{:40}[21] 1 at 21: {rule}. Took \"{forty}\" .., 21 to 100",
        ""
    ));
    has(format!(
        "{:40}[60] 1 at 60: {rule}. Took \"{forty}\", 60 to 100",
        ""
    ));
    has(format!(
        "{:40}[101] 3 at 100: always succeeds. Took nothing",
        ""
    ));
}

/// Of many bytes that would have fitted, five are named.
#[test]
fn many_expected() {
    let mut lines = String::new();
    for variable in 1..=6 {
        let (leaf, next) = (variable + 6, variable + 1);
        lines += &format!("{variable:5}    4{leaf:5}{leaf:5}{next:5}\n");
    }
    for variable in 7..=12 {
        lines += &format!("{variable:5}    2{:5}    0    0\n", variable + 90);
    }
    let expected = r#"failure: the entry does not fit the sheet

    .
    ^ at 0 another byte was expected: byte 97 "a"; or byte 98 "b"; or byte 99 "c"; or byte 100 "d"; or byte 101 "e"; or another
"#;
    assert!(explain(sheet(12, &lines), ".", 1).starts_with(expected));
}
