//! Sheets, texts and entries damaged at random: there is always an answer, and always a cause for a refusal.
use crate::answers::H;
use crate::program::{SHEET, run};
use crate::random::Random;

const RUNS: usize = 300;

/// What is printed of a sheet or a text and an entry; the number of its refusal, or 0.
fn explained(option: &[u8], sheet: &[u8], entry: &[u8]) -> (String, usize) {
    let option = Some(option).filter(|option| !option.is_empty());
    let arguments: Vec<&[u8]> = option.into_iter().chain([SHEET, b"--", entry]).collect();
    let run = run(&arguments, sheet);
    let shown = String::from_utf8_lossy(sheet);
    assert!(run.status == 0 || run.status == 1, "{shown}: {run:?}");
    assert_eq!(run.complaint, "", "{shown}");
    let number = run.printed.strip_prefix("refused (");
    let number = number.and_then(|rest| rest.split_once(')'));
    let number = number.map_or(0, |(number, _)| number.parse().expect("a number"));
    (run.printed, number)
}

/// Changes a byte, puts one in, takes one out, or writes another number into a field.
fn damage(random: &mut Random, sheet: &mut Vec<u8>) {
    let at = random.index(sheet.len());
    let byte = random.pick(b" 01x\n\r\xE9\x00");
    let field = at / 26 * 26 + 5 * random.index(5);
    match random.below(6) {
        0 => sheet[at] = byte,
        1 if random.one_in(3) => sheet.insert(at, byte),
        2 if random.one_in(3) => drop(sheet.remove(at)),
        _ => {
            let number = random.pick(&[0, 1, 2, 3, 4, 5, 7, 255, 256, 99_999]);
            sheet[field..field + 5].copy_from_slice(format!("{number:5}").as_bytes());
        }
    }
}

#[test]
fn sheets() {
    let mut random = Random(5);
    let mut met = [0; 8];
    for _ in 0..RUNS {
        let mut sheet = H.as_bytes().to_vec();
        damage(&mut random, &mut sheet);
        let (printed, number) = explained(b"", &sheet, b"-6.");
        met[number] += 1;
        let cause = printed.split("\n\n").nth(1);
        assert!(
            cause.is_some_and(|cause| !cause.trim().is_empty()),
            "{printed}"
        );
    }
    assert!(met[..6].iter().all(|count| 5 <= *count), "{met:?}");
}

/// Texts of the bytes that the shorthand has, and of some that it has not.
#[test]
fn texts() {
    let mut random = Random(6);
    let mut met = [0; 18];
    for _ in 0..RUNS {
        let rows = (0..random.below(3)).map(|_| match random.below(4) {
            0 => random
                .pick(&["(", "[", "''", "' ", "'ab'", "\n"])
                .to_string(),
            1 => "(".repeat(random.index(20)),
            _ => random
                .pick(&["A", "'a'", "/", "%", "'\n'", "'''", "(A/[])"])
                .to_string(),
        });
        let text = format!("S='.'/{}\nA='a'\n", rows.collect::<String>());
        let (printed, number) = explained(b"--shorthand", text.as_bytes(), b".");
        met[number] += 1;
        let marked =
            printed.contains(" of the text: ") || printed.contains(" of the text is empty.");
        assert_eq!(marked, number == 15 || number == 16, "{printed}");
    }
    assert!(
        [met[0], met[15], met[16]].iter().all(|count| 5 <= *count),
        "{met:?}"
    );
}

/// Entries of any bytes but 0, which no argument has.
#[test]
fn entries() {
    let mut random = Random(7);
    for _ in 0..RUNS / 3 {
        let length = random.index(200);
        let byte = |_| u8::try_from(1 + random.below(255)).expect("a byte");
        let entry: Vec<u8> = (0..length).map(byte).collect();
        let (printed, _) = explained(b"", H.as_bytes(), &entry);
        let control = |character: char| character.is_control() && character != '\n';
        assert!(!printed.contains(control), "{printed}");
    }
}
