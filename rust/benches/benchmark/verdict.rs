//! The verdict beside the question about the start variable at 0: nothing but the sheet is looked at before it.
use crate::sheets::{self, Question};
use crate::timing::{self, Subject};
use crate::{Room, asking, proved, society};
use entryreader::test_calls;
use std::hint::black_box;

fn judge(sheet: &[u8], entry: &[u8], table: &mut [u32], work: &mut [u32]) -> [u32; 4] {
    let mut answer = [0; 4];
    let code = test_calls::judge(sheet, entry, table, work, &mut answer);
    assert_eq!(code, 0);
    answer
}

/// The verdict, so many times.
fn judging<'a>(question: &'a Question) -> Subject<'a> {
    let mut room = Room::new(question);
    let run = move |calls| {
        let (table, work) = room.slices();
        for _ in 0..calls {
            black_box(judge(&question.sheet, &question.entry, table, work));
        }
    };
    ("verdict", Box::new(run))
}

/// The decided cells. Verdict and question decide the same ones.
fn decided(question: &Question) -> u32 {
    let said = [judge, proved].map(|call| {
        let mut room = Room::new(question);
        let (table, work) = room.slices();
        let [.., cells] = call(&question.sheet, &question.entry, table, work);
        (cells, table.to_vec())
    });
    assert!(said[0] == said[1], "{}", question.name);
    said[0].0
}

fn row(question: &Question) {
    let decided = decided(question);
    let times = timing::medians(&mut [judging(question), asking("proved", proved, question)]);
    println!(
        "| {} | {} | {}, {decided} | {:.0} | {:.0} | {:.2} |",
        question.name,
        question.entry.len(),
        question.cells(),
        times[0],
        times[1],
        times[0] / times[1],
    );
}

pub fn table() {
    println!("\n## The verdict beside the question\n");
    println!(
        "| question | bytes | cells, decided | verdict, ns | question, ns | verdict / question |"
    );
    println!("|---|---|---|---|---|---|");
    for n in [80, 4096] {
        row(&sheets::letters(n));
        row(&society::classes(n));
    }
}
