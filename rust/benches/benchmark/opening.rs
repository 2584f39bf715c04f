//! The opening that already loops beside one verdict on the same entry.
use crate::sheets::{self, Question};
use crate::timing::{self, Subject};
use crate::{Room, society};
use entryreader::{Verdict, lent};
use std::cell::Cell;
use std::hint::black_box;

/// The verdict, so many times; it leaves the count of decided cells.
fn judging<'a>(question: &'a Question, decided: &'a Cell<u32>) -> Subject<'a> {
    let mut room = Room::new(question);
    let run = move |calls| {
        let (table, work) = room.slices();
        for _ in 0..calls {
            let verdict = lent::judge(&question.sheet, &question.entry, table, work);
            let Ok(Verdict::Loop { cells, .. }) = black_box(verdict) else {
                panic!("no loop: {}", question.name);
            };
            decided.set(cells);
        }
    };
    ("verdict", Box::new(run))
}

/// The opening, so many times; it leaves the least number of bytes.
fn opening<'a>(question: &'a Question, least: &'a Cell<usize>) -> Subject<'a> {
    let mut room = Room::new(question);
    let run = move |calls| {
        let (table, work) = room.slices();
        for _ in 0..calls {
            let found = lent::opening(&question.sheet, &question.entry, table, work);
            let Ok(Some(bytes)) = black_box(found) else {
                panic!("no opening: {}", question.name);
            };
            least.set(bytes);
        }
    };
    ("opening", Box::new(run))
}

fn median(subject: &mut Subject) -> f64 {
    timing::medians(std::slice::from_mut(subject))[0]
}

/// A row; the opening is timed in the given way.
fn row(question: &Question, time: fn(&mut Subject) -> f64) {
    let (decided, least) = (Cell::new(0), Cell::new(0));
    let verdict = median(&mut judging(question, &decided));
    let opening = time(&mut opening(question, &least));
    println!(
        "| {} | {} | {} | {}, {} | {} | {:.1} | {:.1} | {:.0} |",
        question.name,
        question.variables(),
        question.entry.len(),
        question.cells(),
        decided.get(),
        least.get(),
        opening / 1e3,
        verdict / 1e3,
        opening / verdict,
    );
}

/// Where the loop stands at the end of the longest entry an opening may take many seconds: it is timed once.
pub fn table() {
    println!("\n## The opening that already loops, beside one verdict\n");
    println!(
        "| question | V | bytes | cells, decided | m | opening, us | verdict, us | opening / verdict |"
    );
    println!("|---|---|---|---|---|---|---|---|");
    row(&society::remark(80), median);
    row(&society::remark(4096), median);
    row(&sheets::last_byte(256, 4096), timing::once);
    row(&sheets::last_byte_of_choices(4096), timing::once);
}
