//! A correction beside a question on the same entry.
use crate::sheets::{self, Question};
use crate::timing::{self, Subject};
use crate::{Room, asking, proved, society};
use entryreader::test_calls;

/// Corrections of the byte at c, to what it was: each over the table that the one before left, the first over the question's. The cells that each newly
/// decides. The old entry has another byte at c, so that both are passed over whole; what is retained of the table does not hang on that byte.
fn correcting<'a>(question: &'a Question, c: u32) -> (u32, Subject<'a>) {
    let mut room = Room::new(question);
    let (table, work) = room.slices();
    let said = proved(&question.sheet, &question.entry, table, work);
    let mut old = question.entry.clone();
    old[c as usize] ^= 1;
    let mut correct = move |count: usize| {
        let (table, work) = room.slices();
        let mut answer = [0; 4];
        for _ in 0..count {
            let (sheet, entry) = (&question.sheet, &question.entry);
            let code = test_calls::correct(sheet, &old, entry, 1, 0, c, table, work, &mut answer);
            assert_eq!((code, &answer[..3]), (0, &said[..3]));
        }
        answer[3]
    };
    let new = correct(2);
    let run = move |calls| {
        correct(calls);
    };
    (new, ("correction", Box::new(run)))
}

pub fn table() {
    println!("\n## A correction beside a question on the same entry\n");
    println!(
        "| question | bytes | cells, decided | question, ns | c = 0: new, ns | c = n / 2: new, ns | c = n - 1: new, ns |"
    );
    println!("|---|---|---|---|---|---|---|");
    let questions = [
        sheets::run(4095),
        sheets::wide(200, 4095),
        society::short_lines(),
        society::one_line(1),
        society::one_line(0),
        society::long_lines(3000),
        society::classes(3000),
    ];
    for question in &questions {
        let n = question.entry.len() as u32;
        let mut room = Room::new(question);
        let (table, work) = room.slices();
        let decided = proved(&question.sheet, &question.entry, table, work)[3];
        let (new, corrections): (Vec<u32>, Vec<Subject>) = [0, n / 2, n - 1]
            .map(|c| correcting(question, c))
            .into_iter()
            .unzip();
        let mut subjects = vec![asking("proved", proved, question)];
        subjects.extend(corrections);
        let times = timing::medians(&mut subjects);
        let [first, middle, last] = [0, 1, 2].map(|i| {
            let of_question = times[i + 1] / times[0];
            format!("{}, {:.0} ({of_question:.2})", new[i], times[i + 1])
        });
        println!(
            "| {} | {n} | {}, {decided} | {:.0} | {first} | {middle} | {last} |",
            question.name,
            question.cells(),
            times[0],
        );
    }
}
