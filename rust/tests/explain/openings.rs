//! How many bytes of a loop are enough.
use crate::answers::sheet;
use crate::program::explain;

/// 1 calls itself.
pub const AT_ONCE: &str = "    1    1   46    0    0\n    1    4    1    1    1\n";

/// Any number of `a`; a small letter or a mark behind them, and then there is a loop. Without that it fails.
pub fn behind_letters() -> String {
    let lines = "    1    4    2    1    3
    2    2   97    0    0
    3    4    4    7    5
    4    3    3    0    0
    5    4    6    7    8
    6    3    5    0    0
    7    4    7    7    7
    8    1    0    0    0
";
    sheet(8, lines)
}

#[test]
fn no_byte() {
    let expected = "loop: 1 at 0 calls 1 at 0 again, having taken no byte

    aa.
    ^ the round is at 0, and takes no byte

No byte is needed: the empty entry loops too.

1 at 0: 1, then 1; or, where 1 fails, 1
  1 at 0 calls 1 at 0 again, having taken no byte

One of the rules of this round must take a byte before it comes back to 1 at 0.
";
    assert_eq!(explain(AT_ONCE, "aa.", 1), expected);
}

/// The round is at 2, behind two bytes.
#[test]
fn bytes_before_the_round() {
    let expected = r#"loop: 7 at 2 calls 7 at 2 again, having taken no byte

    axa.
      ^ the round is at 2, and takes no byte

The first 2 of 4 bytes are enough: they loop too, and no fewer do.

    axa.
    ^^ the first 2 bytes loop already

1 at 0: 2, then 1; or, where 2 fails, 3
  2 at 0 succeeds, and takes "a", 0 to 1
  so 1 at 0 calls 1 at 1
1 at 1: 2, then 1; or, where 2 fails, 3
  2 at 1 fails
  so 1 at 1 calls 3 at 1
3 at 1: 4, then 7; or, where 4 fails, 5
  4 at 1 succeeds, and takes "x", 1 to 2
  so 3 at 1 calls 7 at 2
Here the round begins:
7 at 2: 7, then 7; or, where 7 fails, 7
  7 at 2 calls 7 at 2 again, having taken no byte

One of the rules of this round must take a byte before it comes back to 7 at 2.
"#;
    assert_eq!(explain(behind_letters(), "axa.", 1), expected);
}

/// The opening may come back to another pair than the entry does: it is told. Without an `a` 1 comes back to itself, behind an `ab` 5 does; `a` alone is
/// recognised.
#[test]
fn another_round() {
    let lines = "    1    4    2    3    1
    2    2   97    0    0
    3    4    4    5    6
    4    2   98    0    0
    5    4    5    5    5
    6    0    0    0    0
";
    let uneven = sheet(6, lines);
    let expected =
        "No byte is needed: the empty entry loops too. There the round comes back to 1 at 0.\n";
    assert_eq!(part(&uneven, b"ab"), expected);
    assert_eq!(
        part(&uneven, b"b"),
        "No byte is needed: the empty entry loops too.\n"
    );
    assert!(explain(&uneven, "a", 0).starts_with("recognised: "));
    // The entry's end makes the empty entry loop.
    let expected = "loop: 1 at 0 calls 1 at 0 again, having taken no byte

The entry is empty.

1 at 0: 2, then 3; or, where 2 fails, 1
  2 at 0 fails: the entry ends there
  so 1 at 0 calls 1 at 0 again, having taken no byte

One of the rules of this round must take a byte before it comes back to 1 at 0.
";
    assert_eq!(explain(&uneven, "", 1), expected);
    // Any number of `a`, and then 3 comes back to itself, at the entry's end too.
    let letters = crate::answers::letters();
    let round = letters.replace("    3    0    0    0    0", "    3    4    3    3    3");
    let expected =
        "No byte is needed: the empty entry loops too. There the round comes back to 3 at 0.\n";
    assert_eq!(part(&round, b"aa"), expected);
}

/// The part of what is printed that is about the opening.
fn part(sheet: &str, entry: &[u8]) -> String {
    let printed = explain(sheet, entry, 1);
    let (_, rest) = printed
        .split_once(", and takes no byte\n\n")
        .expect("the round is marked");
    let (part, _) = rest.split_once("\n\n1 at 0: ").expect("steps follow");
    format!("{part}\n")
}

#[test]
fn whole_entry() {
    let expected = "The whole entry is needed: fewer of its first bytes do not loop.

    aa.
    ^^^ only the whole entry loops
";
    assert_eq!(part(&behind_letters(), b"aa."), expected);
    let expected = "The whole entry is needed: fewer of its first bytes do not loop.

    .
    ^ only the whole entry loops
";
    assert_eq!(part(&behind_letters(), b"."), expected);
}

#[test]
fn one_byte() {
    let expected = "The first of 4 bytes is enough: it loops too, and the empty entry does not.

    xaa.
    ^ the first byte loops already
";
    assert_eq!(part(&behind_letters(), b"xaa."), expected);
}

/// A byte that is shown by its number takes more than one column.
#[test]
fn columns_of_escaped_bytes() {
    let sheet = behind_letters().replace("    2   97", "    2    1");
    let expected = r"The first 3 of 5 bytes are enough: they loop too, and no fewer do.

    \x01\x01\\\x01.
    ^^^^^^^^^^ the first 3 bytes loop already
";
    assert_eq!(part(&sheet, b"\x01\x01\\\x01."), expected);
}

/// Around the end of the opening 72 bytes are shown, of which 48 are marked.
#[test]
fn long_entries() {
    let letters = |count| "a".repeat(count);
    let entry = format!("{}x{}.", letters(1000), letters(2000));
    let expected = format!(
        "The first 1001 of 3002 bytes are enough: they loop too, and no fewer do.

    .. {}x{} ..
    .. {} the first 1001 bytes loop already
",
        letters(47),
        letters(24),
        "^".repeat(48),
    );
    assert_eq!(part(&behind_letters(), entry.as_bytes()), expected);
    // Near the end of the entry fewer bytes follow, and more are marked.
    let entry = format!("{}x{}.", letters(1000), letters(3));
    let expected = format!(
        "The first 1001 of 1005 bytes are enough: they loop too, and no fewer do.

    .. {}xaaa.
    .. {} the first 1001 bytes loop already
",
        letters(67),
        "^".repeat(68),
    );
    assert_eq!(part(&behind_letters(), entry.as_bytes()), expected);
}

/// What does not loop has no such part, and neither has the empty entry.
#[test]
fn no_opening() {
    for (sheet, entry) in [
        (AT_ONCE, ""),
        (behind_letters().as_str(), "aa"),
        (crate::answers::H, "-6x."),
        (crate::answers::H, "6."),
    ] {
        let status = i32::from(entry != "6.");
        let printed = explain(sheet, entry, status);
        let told = ["enough", "needed", "already", "loops"];
        assert!(!told.iter().any(|word| printed.contains(word)), "{printed}");
    }
}
