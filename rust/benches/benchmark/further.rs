//! A second society's question on a kept table beside the same question on a fresh one.
use crate::sheets::{self, Question};
use crate::timing::{self, Subject};
use crate::{Room, society};
use entryreader::test_calls;
use std::hint::black_box;

type Call = fn(&[u8], &[u8], u32, u32, &mut [u32], &mut [u32], &mut [u32; 4]) -> u32;

/// Two societies with one sheet and one entry. The first asks for variable 1, the second for one of its own, which calls variable 1 and takes nothing more:
/// both ask at 0.
struct Societies {
    question: Question,
    second: u32,
}

impl Societies {
    /// With two rules behind those of the question's sheet.
    fn new(question: Question) -> Societies {
        let before = question.variables() as u32;
        let (second, nothing) = (before + 1, before + 2);
        let mut sheet = question.sheet.clone();
        sheet[..5].copy_from_slice(format!("{nothing:>5}").as_bytes());
        let rules = [[second, 4, 1, nothing, nothing], [nothing, 0, 0, 0, 0]];
        sheet.extend(rules.map(sheets::row).concat().into_bytes());
        Societies {
            question: Question { sheet, ..question },
            second,
        }
    }

    /// The variable that variable 1 calls first.
    fn called_first(&self) -> u32 {
        let columns = std::str::from_utf8(&self.question.sheet[26 + 10..26 + 15]);
        let digits = columns.expect("digits").trim();
        digits.parse().expect("a number")
    }

    fn call(&self, call: Call, variable: u32, room: &mut Room) -> [u32; 4] {
        let (table, work) = room.slices();
        let (sheet, entry) = (&self.question.sheet, &self.question.entry);
        let mut answer = [0; 4];
        let code = call(sheet, entry, variable, 0, table, work, &mut answer);
        assert_eq!(code, 0);
        answer
    }

    /// The second society's question on a fresh table.
    fn asking(&self) -> Subject<'_> {
        let mut room = Room::new(&self.question);
        let run = move |calls| {
            for _ in 0..calls {
                black_box(self.call(test_calls::question, self.second, &mut room));
            }
        };
        ("fresh", Box::new(run))
    }
}

/// The table that a question about a variable left, and the cells that the second society's then newly decides.
struct Kept {
    room: Room,
    new: Vec<usize>,
}

impl Kept {
    fn new(societies: &Societies, variable: u32) -> Kept {
        let mut room = Room::new(&societies.question);
        let fresh = societies.call(test_calls::question, societies.second, &mut room);
        societies.call(test_calls::question, variable, &mut room);
        let before = room.slices().0.to_vec();
        let answer = societies.call(test_calls::further, societies.second, &mut room);
        let cells = before.chunks(2).zip(room.slices().0.chunks(2));
        let new = cells.enumerate().filter(|(_, (old, new))| old != new);
        let new: Vec<usize> = new.map(|(cell, _)| cell).collect();
        assert_eq!((&answer[..3], answer[3] as usize), (&fresh[..3], new.len()));
        Kept { room, new }
    }

    /// Blanks the new cells, so that the table is as it was kept.
    fn restore(&mut self) {
        let table = self.room.slices().0;
        for cell in &self.new {
            table[2 * cell..2 * cell + 2].fill(0);
        }
    }
}

/// The second society's question on the table that a question about a variable left, restored before each call; and that restoring alone. The count of
/// newly decided cells.
fn asking_further(societies: &Societies, variable: u32) -> (usize, [Subject<'_>; 2]) {
    let [mut kept, mut restored] = [(); 2].map(|()| Kept::new(societies, variable));
    let new = kept.new.len();
    let ask = move |calls| {
        for _ in 0..calls {
            kept.restore();
            black_box(societies.call(test_calls::further, societies.second, &mut kept.room));
        }
    };
    let restore = move |calls| {
        for _ in 0..calls {
            black_box(&mut restored).restore();
        }
    };
    let subjects: [Subject; 2] = [("further", Box::new(ask)), ("restore", Box::new(restore))];
    (new, subjects)
}

fn questions() -> Vec<Question> {
    let mut questions = vec![
        sheets::letters(4000),
        sheets::brackets(4000),
        sheets::wide(200, 1000),
        society::classes(3000),
    ];
    for rules in [60, 250] {
        questions.extend([20, 50, 80].map(|bytes| sheets::register(rules, bytes)));
    }
    questions.extend([
        society::short_lines(),
        society::one_line(1),
        society::one_line(0),
        society::long_lines(3000),
    ]);
    questions
}

fn row(societies: &Societies) {
    let kept = [societies.called_first(), 1, societies.second];
    let further = kept.map(|variable| asking_further(societies, variable));
    let new = [0, 1, 2].map(|i| further[i].0);
    let mut subjects = vec![societies.asking()];
    subjects.extend(further.into_iter().flat_map(|(_, subjects)| subjects));
    let times = timing::medians(&mut subjects);
    let [part, first, again] = [0, 1, 2].map(|i| {
        let time = times[2 * i + 1] - times[2 * i + 2];
        format!("{}, {time:.0} ({:.2})", new[i], time / times[0])
    });
    let question = &societies.question;
    // The name tells the count of variables without the second society's.
    let name = question.name.split(", V").next().unwrap_or_default();
    let mut room = Room::new(question);
    let decided = societies.call(test_calls::question, societies.second, &mut room)[3];
    println!(
        "| {name} | {} | {} | {}, {decided} | {:.0} | {part} | {first} | {again} |",
        question.variables(),
        question.entry.len(),
        question.cells(),
        times[0],
    );
}

pub fn table() {
    println!("\n## A second society's question on a kept table beside a fresh one\n");
    println!(
        "| sheet | V | bytes | cells, decided | fresh, ns | a part kept: new, ns | the first society's kept: new, ns | again: new, ns |"
    );
    println!("|---|---|---|---|---|---|---|---|");
    for question in questions() {
        row(&Societies::new(question));
    }
}
