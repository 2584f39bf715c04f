//! All calls beside a recognizer written separately, on many sheets, entries and readings: long and short, valid and damaged.
//!
//! Every lent slice is the middle of a longer one: what may not change, in it and around it, is compared too.
mod comparison;
#[allow(dead_code)] // Other tests tell apart why a cell is refused.
mod kept;
mod lent;
#[allow(dead_code)] // Other tests ask the other cases.
mod marked_cases;
#[allow(dead_code)] // Other tests hand over sheets that are refused.
mod questions;
mod random;
#[allow(dead_code)] // Other tests follow a walk.
mod recognizer;
#[allow(dead_code)] // Other tests hand over tables that no call left.
mod tables;

use comparison::Comparison;
use marked_cases::{H, I as RUN, J};
use questions::{Case, row};
use recognizer::with_deep_stack;
use std::collections::BTreeSet;
use std::io::Write;

#[test]
fn random_questions() {
    with_deep_stack(|| Comparison::new(1).many(15_000));
}

/// The long comparison. `COMPARE_SEED` in the environment gives other questions.
#[test]
#[ignore = "a command of its own: see README.md"]
fn long_comparison() {
    with_deep_stack(|| {
        let seed = std::env::var("COMPARE_SEED").map_or(2, |seed| seed.parse().expect("a number"));
        let questions = 400_000;
        let mut comparison = Comparison::new(seed);
        comparison.many(questions);
        // Not `println!`, which a passing test would keep to itself.
        let mut output = std::io::stdout().lock();
        let summary = comparison.summary();
        write!(output, "\n{questions} questions, seed {seed}\n{summary}").expect("it is printed");
    });
}

/// Every class at every byte.
#[test]
fn classes_of_bytes() {
    let mut comparison = Comparison::new(11);
    for class in 1..=6 {
        let sheet = row([1, 1, 46, 0, 0]) + &row([1, 3, class, 0, 0]);
        for byte in 0..=255 {
            comparison.all(&Case::new(&sheet, &[byte, b'.'], 0));
        }
    }
}

/// The random entries have accented letters and other bytes from 128 on: each of them, and all together at least as often as letters below 128.
#[test]
fn bytes_of_random_entries() {
    let mut random = random::Random(12);
    let mut met = [0u64; 256];
    for _ in 0..20_000 {
        for byte in questions::case(&mut random).entry {
            met[byte as usize] += 1;
        }
    }
    let of = |bytes: std::ops::RangeInclusive<u8>| bytes.map(|b| met[b as usize]).sum::<u64>();
    let letters = of(b'A'..=b'Z') + of(b'a'..=b'z');
    assert!(letters <= of(128..=255), "{met:?}");
    assert!(met.iter().all(|times| *times > 0), "{met:?}");
}

/// A change in a lent slice, or just outside it, is noticed.
#[test]
fn guards_notice() {
    let mut random = random::Random(10);
    let mut lent = lent::Lent::<u32>::any(&mut random, 3);
    lent.slice().copy_from_slice(&[1, 2, 3]);
    assert!(lent.holds(&[1, 2, 3]) && lent.keeps_from(3));
    assert!(!lent.keeps_from(2) && !lent.unchanged() && !lent.holds(&[1, 2, 4]));
    for outside in [7, 11] {
        let mut lent = lent::Lent::<u32>::any(&mut random, 3);
        assert!(lent.unchanged());
        lent.overwrite(outside);
        assert!(!lent.keeps_from(3) && !lent.unchanged());
    }
}

/// A run of one byte, as case i, with a loop after the last byte.
const LOOPING: &str = "    3    1   46    0    0
    1    4    2    1    3
    2    2   97    0    0
    3    4    3    3    3
";

/// 1 = "(" 1 ")" 1, or nothing.
const BRACKETS: &str = "    7    1   46    0    0
    1    4    2    3    4
    2    2   40    0    0
    3    4    1    5    6
    4    0    0    0    0
    5    4    7    1    6
    6    1    0    0    0
    7    2   41    0    0
";

/// Success, failure before the entry's end and at it, loop and missing.
fn few_cases() -> [Case; 6] {
    [
        Case::new(H, b"-6.", 0),
        Case::new(H, b"x", 0),
        Case::new(H, b"-6", 0),
        Case::new(RUN, b"aa.", 1),
        Case::new(LOOPING, b"a.", 0),
        Case::new(J, b"", 0),
    ]
}

/// 0 to 4, and two below to two above the limit.
fn around(limit: usize) -> BTreeSet<usize> {
    (0..5).chain(limit.saturating_sub(2)..limit + 3).collect()
}

#[test]
fn lengths_of_table_work_and_output() {
    let mut comparison = Comparison::new(3);
    for case in few_cases() {
        // A table of as many numbers as there are cells is half of one.
        for table in &around(2 * case.cells) | &around(case.cells) {
            for work in around(case.cells) {
                comparison.question(&case, table, work);
                comparison.further(&case, table, work);
                comparison.correction(&case, table, work);
                comparison.judge(&case, table, work);
                drop(comparison.opening(&case, table, work));
                for output in around(49 * case.cells) {
                    comparison.write(&case, table, work, output);
                }
            }
        }
    }
}

/// Around 3h and 2k - 1: every length from none to more than enough, with every budget.
#[test]
fn lengths_of_frames_and_budgets() {
    let mut comparison = Comparison::new(4);
    for case in few_cases() {
        let size = recognizer::size(case.question());
        let (steps, height) = size.map_or((10, 10), |size| (size.steps, size.height));
        for frames in 0..3 * height as usize + 4 {
            for budget in (0..2 * steps as u32 + 3).chain([u32::MAX]) {
                comparison.run(&case, frames, budget);
            }
        }
    }
}

/// Every beginning of a sheet, of a reading, and of both with more behind them.
#[test]
fn lengths_of_sheet_and_reading() {
    let mut comparison = Comparison::new(5);
    for case in few_cases() {
        let own = recognizer::bytes(&recognizer::reading(case.question()).expect("it is admitted"));
        let longer = own.repeat(2);
        for length in 0..=longer.len() {
            comparison.check(&case, &longer[..length]);
        }
        let sheet = case.sheet.repeat(2);
        for length in 0..=sheet.len() {
            let sheet = sheet[..length].to_vec();
            let cut = Case {
                sheet,
                ..case.clone()
            };
            comparison.all(&cut);
        }
    }
}

/// Entries and sheets of the greatest length, and a little longer or shorter.
#[test]
fn lengths_of_entry_and_sheet() {
    with_deep_stack(|| {
        let mut comparison = Comparison::new(6);
        for length in 4094..=4099 {
            comparison.all(&Case::new(RUN, &vec![b'a'; length], 0));
            comparison.all(&Case::new(H, &vec![b'a'; length], length as u32));
        }
        for lines in 255..=259 {
            let mut sheet = row([256, 1, 46, 0, 0]);
            for variable in 1..lines {
                sheet += &row([variable, 4, (variable * 7) % 256 + 1, 256, 2]);
            }
            comparison.all(&Case::new(&sheet, b"a.", 0));
        }
    });
}

#[test]
fn long_entries() {
    with_deep_stack(|| {
        let mut comparison = Comparison::new(7);
        for _ in 0..200 {
            let random = &mut comparison.random;
            let variables = 1 + random.below(40);
            let sheet = questions::sheet(random, variables);
            let length = random.index(4100);
            let entry = questions::entry(random, length);
            let position = random.below(20) as u32;
            comparison.all(&Case::new(&sheet, &entry, position));
        }
    });
}

#[test]
fn whole_entries() {
    with_deep_stack(|| {
        let mut comparison = Comparison::new(8);
        for n in [0, 1, 2, 500, 1023, 1024, 4000, 4095, 4096] {
            let mut plain = vec![b'a'; n];
            let nested: Vec<u8> = (0..n)
                .map(|i| if i < n / 2 { b'(' } else { b')' })
                .collect();
            for sheet in [RUN, LOOPING, BRACKETS] {
                comparison.all(&Case::new(sheet, &plain, 0));
                comparison.all(&Case::new(sheet, &nested, 0));
            }
            plain.extend(b".");
            let case = Case::new(RUN, &plain, 0);
            comparison.verdict(&case);
            comparison.judge(&case, 2 * case.cells, case.cells);
        }
    });
}

/// 256 variables that call one another, with the greatest entry.
#[test]
fn greatest_table() {
    with_deep_stack(|| {
        let mut text = row([256, 1, 46, 0, 0]);
        for variable in 1..=254 {
            text += &row([variable, 4, 255, variable + 1, 256]);
        }
        text += &(row([255, 2, 97, 0, 0]) + &row([256, 0, 0, 0, 0]));
        let wide = text.replace("  254    4  255  255  256", "  254    4  255    1  256");
        let mut comparison = Comparison::new(9);
        for sheet in [&text, &wide] {
            let case = Case::new(sheet, &[b'a'; 4096], 0);
            let (cells, output) = (case.cells, 49 * case.cells);
            comparison.question(&case, 2 * cells, cells);
            comparison.question(&case, 2 * cells, cells - 1);
            comparison.write(&case, 2 * cells, cells, output);
            comparison.write(&case, 2 * cells, cells, output - 1);
            let mut ended = case;
            ended.entry[4095] = b'.';
            comparison.judge(&ended, 2 * cells, cells);
            comparison.judge(&ended, 2 * cells - 1, cells);
        }
    });
}
