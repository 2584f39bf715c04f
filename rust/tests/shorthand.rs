//! The shorthand beside a reader of it written separately: refusals, what is written and what is not, and what every letter has.
//!
//! Every lent slice is the middle of a longer one: what may not change, in it and around it, is compared too.
mod direct;
#[allow(dead_code)] // Other tests lend arrays.
mod lent;
mod random;

use direct::{Direct, Outcome, Text};
use entryreader::lent::{question, shorthand};
use entryreader::{Answer, Refusal};
use lent::Lent;
use random::Random;

/// 15 and 16 by the separate reader, then 17 and 11.
fn expected(text: &[u8], room: usize) -> Result<Text, u32> {
    let read = Text::read(text)?;
    let allowance = read.allowance();
    if 256 < allowance {
        return Err(17);
    }
    if room < 26 * (allowance + 1) {
        return Err(11);
    }
    Ok(read)
}

/// What the compiled sheet says of a variable.
fn asked(sheet: &[u8], entry: &[u8], variable: u32, position: usize) -> Outcome {
    let variables: usize = std::str::from_utf8(&sheet[..5])
        .unwrap()
        .trim()
        .parse()
        .unwrap();
    let cells = variables * (entry.len() + 1);
    let (mut table, mut work) = (vec![0; 2 * cells], vec![0; cells]);
    let answer = question(
        sheet,
        entry,
        variable,
        position as u32,
        &mut table,
        &mut work,
    );
    match answer.expect("the sheet of a text is accepted") {
        Answer::Success { end, .. } => Outcome::Success(end as usize),
        Answer::Failure { .. } => Outcome::Failure,
        Answer::Loop { .. } => Outcome::Loop,
        Answer::Missing { .. } => Outcome::Missing,
    }
}

/// Compiles a text with an output of so many bytes, and compares; the sheet, if there is one.
fn compare(random: &mut Random, text: &[u8], room: usize) -> Result<(Text, Vec<u8>), u32> {
    let mut lent = Lent::of(random, text);
    let mut out: Lent<u8> = Lent::any(random, room);
    let result = shorthand(lent.slice(), out.slice()).map_err(|error| error.refusal());
    assert!(lent.unchanged());
    let shown = String::from_utf8_lossy(&text[..text.len().min(200)]);
    match expected(text, room) {
        Err(number) => {
            assert_eq!(
                result,
                Err(Refusal::from_number(number).unwrap()),
                "{shown}"
            );
            assert!(out.unchanged(), "{shown}");
            Err(number)
        }
        Ok(read) => {
            let length = result.unwrap_or_else(|refusal| panic!("{refusal:?}: {shown}"));
            assert!(out.keeps_from(length), "{shown}");
            let sheet = out.slice()[..length].to_vec();
            header(&read, &sheet);
            Ok((read, sheet))
        }
    }
}

/// Line 1 of a compiled sheet: V from the number of letters to the allowance, start 1, endmarker 46.
fn header(read: &Text, sheet: &[u8]) {
    let numbers: Vec<usize> = (0..5)
        .map(|k| {
            std::str::from_utf8(&sheet[5 * k..5 * k + 5])
                .unwrap()
                .trim()
                .parse()
                .unwrap()
        })
        .collect();
    assert!(read.letters().len() <= numbers[0] && numbers[0] <= read.allowance());
    assert_eq!(numbers[1..], [1, 46, 0, 0]);
}

/// Every letter of a text, with a line or without, at every position of an entry.
fn compare_letters(read: &Text, sheet: &[u8], entry: &[u8], met: &mut [usize; 4]) {
    let mut direct = Direct::new(read, entry);
    for (k, letter) in read.letters().into_iter().enumerate() {
        for position in 0..=entry.len() {
            let outcome = direct.letter(letter, position);
            let by_sheet = asked(sheet, entry, k as u32 + 1, position);
            assert_eq!(by_sheet, outcome, "{} at {position}", letter as char);
            met[match outcome {
                Outcome::Success(_) => 0,
                Outcome::Failure => 1,
                Outcome::Loop => 2,
                Outcome::Missing => 3,
            }] += 1;
        }
    }
}

fn item(random: &mut Random, depth: usize, text: &mut Vec<u8>) {
    match random.below(10) {
        0..=2 => text.push(random.pick(b"ABCD")),
        3..=5 => {
            let any = random.below(256) as u8;
            text.extend([
                b'\'',
                random.pick(&[b'a', b'a', b'b', b'b', b'A', b'/', b'\'', any]),
                b'\'',
            ]);
        }
        6 => text.push(b'%'),
        _ if depth == 0 => text.push(random.pick(b"ABC")),
        n => {
            let (open, close) = if n < 9 { (b'(', b')') } else { (b'[', b']') };
            text.push(open);
            choice(random, depth - 1, text);
            text.push(close);
        }
    }
}

fn choice(random: &mut Random, depth: usize, text: &mut Vec<u8>) {
    for k in 0..1 + random.below(3) {
        if 0 < k {
            text.push(b'/');
        }
        for _ in 0..random.below(4) {
            item(random, depth, text);
        }
    }
}

/// Lines of some of the letters A to D.
fn text(random: &mut Random) -> Vec<u8> {
    let mut text = vec![];
    for letter in b'A'..=b'D' {
        if letter == b'A' || random.one_in(2) {
            text.extend([letter, b'=']);
            let depth = random.index(4);
            choice(random, depth, &mut text);
            text.push(b'\n');
        }
    }
    text
}

/// One byte changed, left out or put in.
fn damage(random: &mut Random, text: &mut Vec<u8>) {
    let at = random.index(text.len());
    let byte = random.pick(b"A=/'%()[]\n x\r");
    match random.below(3) {
        0 => text[at] = byte,
        1 => text.insert(at, byte),
        _ => _ = text.remove(at),
    }
}

/// Random texts, a third of them damaged, on random entries: every outcome and every refusal is met.
#[test]
fn random_texts() {
    let mut random = Random(11);
    let (mut met, mut refused) = ([0; 4], [0; 18]);
    for _ in 0..4_000 {
        let mut text = text(&mut random);
        if random.one_in(3) {
            damage(&mut random, &mut text);
        }
        let room = match Text::read(&text) {
            Ok(read) => 26 * (read.allowance() + 1) + random.index(40),
            Err(_) => random.index(2_000),
        };
        let room = room.saturating_sub(20);
        match compare(&mut random, &text, room) {
            Err(number) => refused[number as usize] += 1,
            Ok((read, sheet)) => {
                let length = random.index(5);
                let entry: Vec<u8> = (0..length).map(|_| random.pick(b"aab")).collect();
                compare_letters(&read, &sheet, &entry, &mut met);
            }
        }
    }
    assert!(met.iter().all(|count| 500 < *count), "{met:?}");
    assert!(refused[15] > 300 && refused[11] > 300, "{refused:?}");
}

/// A byte that is asked for at the entry's end fails like any other, so that the next row is tried; by hand.
#[test]
fn end_of_the_entry() {
    let text = b"A='a''b'/'a'/\nB=['a']\nC=M/'a'\n";
    let (read, sheet) = compare(&mut Random(3), text, 6_708).expect("it is accepted");
    for (entry, letter, outcome) in [
        ("ab", b'A', Outcome::Success(2)),
        ("a", b'A', Outcome::Success(1)),
        ("", b'A', Outcome::Success(0)),
        ("a", b'B', Outcome::Success(0)),
        ("", b'B', Outcome::Failure),
        ("", b'C', Outcome::Missing),
    ] {
        let (mut direct, entry) = (Direct::new(&read, entry.as_bytes()), entry.as_bytes());
        assert_eq!(direct.letter(letter, 0), outcome, "{entry:?}");
        let number = u32::from(letter - b'A') + 1;
        assert_eq!(asked(&sheet, entry, number, 0), outcome, "{entry:?}");
    }
}

fn nested(open: &str, close: &str, depth: usize) -> Vec<u8> {
    format!("A={}'a'{}\n", open.repeat(depth), close.repeat(depth)).into_bytes()
}

/// What one text is refused with.
fn refused(text: &[u8]) -> Option<u32> {
    compare(&mut Random(1), text, 6_708).err()
}

#[test]
fn sixteen_brackets() {
    for (open, close) in [("(", ")"), ("[", "]")] {
        assert_eq!(refused(&nested(open, close, 16)), None);
        assert_eq!(refused(&nested(open, close, 17)), Some(16));
    }
    let mixed = |depth: usize| {
        let open: String = (0..depth)
            .map(|k| if k % 2 == 0 { '(' } else { '[' })
            .collect();
        let close: String = (0..depth)
            .rev()
            .map(|k| if k % 2 == 0 { ')' } else { ']' })
            .collect();
        nested(&open, &close, 1)
    };
    assert_eq!(refused(&mixed(16)), None);
    assert_eq!(refused(&mixed(17)), Some(16));
}

/// 15 and 16: whichever comes first in the text.
#[test]
fn first_in_the_text() {
    let deep = "(".repeat(17);
    assert_eq!(refused(format!("A=\nA={deep}\n").as_bytes()), Some(15));
    assert_eq!(refused(format!("A={deep}\nA=\n").as_bytes()), Some(16));
    assert_eq!(refused(format!("A=x{deep}\n").as_bytes()), Some(15));
    assert_eq!(refused(format!("A={deep}x\n").as_bytes()), Some(16));
}

/// The allowance: 253 slashes after one letter are 256, and an output one byte short is refused though the sheet would fit.
#[test]
fn allowance() {
    let slashes = |count: usize| format!("A={}\n", "/".repeat(count)).into_bytes();
    assert_eq!(refused(&slashes(253)), None);
    assert_eq!(refused(&slashes(254)), Some(17));
    let mut random = Random(2);
    assert!(compare(&mut random, b"A='a'\n", 26 * 7).is_ok());
    assert_eq!(compare(&mut random, b"A='a'\n", 26 * 7 - 1).err(), Some(11));
    // 17 comes before 11.
    assert_eq!(compare(&mut random, &slashes(254), 0).err(), Some(17));
}

/// Texts of millions of bytes are read to their end, and overflow nothing.
#[test]
fn long_texts() {
    for unit in ["/", "%", "'a'", "A", "(/)", "[B]"] {
        let long = unit.repeat(1_000_000);
        assert_eq!(refused(format!("A={long}\n").as_bytes()), Some(17));
        assert_eq!(refused(format!("A={long}").as_bytes()), Some(15));
        assert_eq!(
            refused(format!("A={long}{}\n", "(".repeat(17)).as_bytes()),
            Some(16)
        );
    }
}
