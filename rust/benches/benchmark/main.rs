//! Benchmarks of the proved calls beside Rust twins, LPeg and leg: `cargo bench --manifest-path rust/Cargo.toml --features test-calls`.
//!
//! It prints the tables of docs/BENCHMARKS.md. valgrind, lua5.4, lua-lpeg and peg are Debian's packages; where valgrind is absent, its columns stay
//! empty. With `--calls SUBJECT COUNT` it only makes the calls of one subject, which is what valgrind counts; with `--corrections`, `--openings`,
//! `--further`, `--archive` or `--verdicts` it prints the table of corrections, of openings, of further questions, of stored tables or of verdicts only.
mod archive;
mod correction;
mod fastest;
mod further;
mod machine;
mod opening;
mod peers;
mod plain;
mod reading;
mod sheets;
mod society;
mod timing;
mod verdict;

use entryreader::{Pair, lent, test_calls};
use sheets::Question;
use std::hint::black_box;
use timing::Subject;

/// What is asked in every question here.
const ASKED: (u32, u32) = (1, 0);
const PAIR: Pair = Pair {
    variable: 1,
    position: 0,
};

/// A table of so many cells, two numbers each, and a work slice of as many numbers. They begin half a page apart.
struct Room {
    table: Vec<u32>,
    work: Vec<u32>,
    cells: usize,
}

impl Room {
    fn of(cells: usize) -> Room {
        Room {
            table: vec![0; 2 * cells + 1024],
            work: vec![0; cells + 1024],
            cells,
        }
    }

    /// What a question needs.
    fn new(question: &Question) -> Room {
        Room::of(question.cells())
    }

    fn slices(&mut self) -> (&mut [u32], &mut [u32]) {
        (
            from_offset(&mut self.table, 64, 2 * self.cells),
            from_offset(&mut self.work, 2112, self.cells),
        )
    }
}

/// So many numbers from the first that stands at an offset of a page.
fn from_offset(numbers: &mut [u32], offset: usize, count: usize) -> &mut [u32] {
    let at = numbers.as_ptr() as usize % 4096;
    let start = (4096 + offset - at) % 4096 / 4;
    &mut numbers[start..start + count]
}

type Call = fn(&[u8], &[u8], &mut [u32], &mut [u32]) -> [u32; 4];

fn proved(sheet: &[u8], entry: &[u8], table: &mut [u32], work: &mut [u32]) -> [u32; 4] {
    let mut answer = [0; 4];
    let code = test_calls::question(sheet, entry, 1, 0, table, work, &mut answer);
    assert_eq!(code, 0);
    answer
}

fn plain_twin(sheet: &[u8], entry: &[u8], table: &mut [u32], work: &mut [u32]) -> [u32; 4] {
    plain::question(sheet, entry, ASKED, table, work)
}

fn fastest_twin(sheet: &[u8], entry: &[u8], table: &mut [u32], work: &mut [u32]) -> [u32; 4] {
    fastest::question(sheet, entry, ASKED, table, work)
}

const CALLS: [(&str, Call); 3] = [
    ("proved", proved),
    ("plain", plain_twin),
    ("fastest", fastest_twin),
];

fn questions() -> [Question; 3] {
    [
        sheets::letters(4000),
        sheets::brackets(4000),
        sheets::wide(200, 1000),
    ]
}

/// A call of a question, so many times.
fn asking<'a>(name: &'static str, call: Call, question: &'a Question) -> Subject<'a> {
    let mut room = Room::new(question);
    let run = move |calls| {
        let (table, work) = room.slices();
        for _ in 0..calls {
            black_box(call(&question.sheet, &question.entry, table, work));
        }
    };
    (name, Box::new(run))
}

/// The outcome's code and the count of decided cells. All three calls agree on the answer, and on both numbers of every cell.
fn answer(question: &Question) -> (u32, f64) {
    let said = CALLS.map(|(_, call)| {
        let mut room = Room::new(question);
        let (table, work) = room.slices();
        table.fill(7);
        let answer = call(&question.sheet, &question.entry, table, work);
        (answer, table.to_vec())
    });
    let [proved, twins @ ..] = &said;
    assert!(twins.iter().all(|twin| twin == proved), "{}", question.name);
    let [code, _, _, cells] = proved.0;
    (code, cells.into())
}

fn counted(instructions: Option<f64>, units: f64) -> String {
    instructions.map_or(String::from("-"), |count| format!("{:.1}", count / units))
}

/// What the three calls take for a question: the decided cells, the nanoseconds, the instructions.
struct Beside {
    cells: f64,
    times: Vec<f64>,
    instructions: [Option<f64>; 3],
}

/// The three calls of a question, which `--calls` knows by a part.
fn beside(question: &Question, part: &str) -> Beside {
    let mut subjects: Vec<Subject> = CALLS
        .iter()
        .map(|(name, call)| asking(name, *call, question))
        .collect();
    Beside {
        cells: answer(question).1,
        times: timing::medians(&mut subjects),
        instructions: CALLS.map(|(name, _)| timing::instructions(&format!("{part}/{name}"))),
    }
}

/// What stands behind the times: of the plain twin, of the fastest, and the instructions for each decided cell.
fn ratios(found: &Beside) -> String {
    let [proved, plain, fastest] = found.instructions.map(|count| counted(count, found.cells));
    format!(
        "{:.2} | {:.2} | {proved} | {plain} | {fastest}",
        found.times[0] / found.times[1],
        found.times[0] / found.times[2],
    )
}

fn share(part: f64, whole: f64) -> String {
    format!("{:.0} %", 100.0 * part / whole)
}

fn question_table() {
    println!("\n## Question, for each decided cell\n");
    println!(
        "| question | cells, decided | proved, ns | plain twin, ns | fastest, ns | of plain | of fastest | instructions: proved | plain | fastest |"
    );
    println!("|---|---|---|---|---|---|---|---|---|---|");
    for (i, question) in questions().iter().enumerate() {
        let found = beside(question, &i.to_string());
        println!(
            "| {} | {}, {} | {:.2} | {:.2} | {:.2} | {} |",
            question.name,
            question.cells(),
            share(found.cells, question.cells() as f64),
            found.times[0] / found.cells,
            found.times[1] / found.cells,
            found.times[2] / found.cells,
            ratios(&found),
        );
    }
}

/// The sheets of societies, each with a short entry and a long one. All of an entry is taken.
fn society_questions() -> [Question; 4] {
    [
        society::short_lines(),
        society::long_lines(3000),
        society::classes(50),
        society::classes(3000),
    ]
}

fn society_table() {
    println!("\n## Sheets as societies write them, the sheet read in each call\n");
    println!(
        "| question | bytes | cells, decided | proved, ns | plain twin, ns | fastest, ns | of plain | of fastest | instructions for each decided cell: proved | plain | fastest |"
    );
    println!("|---|---|---|---|---|---|---|---|---|---|---|");
    for (i, question) in society_questions().iter().enumerate() {
        assert_eq!(answer(question).0 as usize, 5 + question.entry.len());
        let found = beside(question, &format!("society{i}"));
        println!(
            "| {} | {} | {}, {:.0} ({}) | {:.0} | {:.0} | {:.0} | {} |",
            question.name,
            question.entry.len(),
            question.cells(),
            found.cells,
            share(found.cells, question.cells() as f64),
            found.times[0],
            found.times[1],
            found.times[2],
            ratios(&found),
        );
    }
}

/// Sheet and blanking alone: the question about a leaf, whose walk is one step.
fn asking_leaf<'a>(question: &'a Question) -> Subject<'a> {
    let mut room = Room::new(question);
    let leaf = question.leaf();
    let run = move |calls| {
        let (table, work) = room.slices();
        for _ in 0..calls {
            let mut answer = [0; 4];
            let (sheet, entry) = (&question.sheet, &question.entry);
            let code = test_calls::question(sheet, entry, leaf, 0, table, work, &mut answer);
            assert_eq!((code, answer[3]), (0, 1));
        }
    };
    ("leaf", Box::new(run))
}

/// A plain fill of the cells.
fn filling<'a>(question: &'a Question) -> Subject<'a> {
    let mut room = Room::new(question);
    let run = move |calls| {
        let (table, _) = room.slices();
        for _ in 0..calls {
            black_box(&mut *table).fill(0);
        }
    };
    ("fill", Box::new(run))
}

fn parts_table() {
    println!("\n## Where the time of these calls goes\n");
    println!(
        "| question | bytes | call, ns | sheet, ns | blanking, ns | walk, ns | a fill alone, ns |"
    );
    println!("|---|---|---|---|---|---|---|");
    for question in &society_questions() {
        let times = timing::medians(&mut [
            asking("proved", proved, question),
            read_subject("proved", &question.sheet),
            asking_leaf(question),
            filling(question),
        ]);
        let parts = [times[1], times[2] - times[1], times[0] - times[2]];
        let [sheet, blanking, walk] =
            parts.map(|part| format!("{part:.0}, {}", share(part, times[0])));
        println!(
            "| {} | {} | {:.0} | {sheet} | {blanking} | {walk} | {:.0} |",
            question.name,
            question.entry.len(),
            times[0],
            times[3],
        );
    }
}

/// Sheet reading alone: a position beyond the entry is refused once the sheet is read.
fn read_proved(sheet: &[u8]) {
    let code = test_calls::question(sheet, b"", 1, 1, &mut [], &mut [], &mut [0; 4]);
    assert_eq!(code, 109);
}

fn read_subject<'a>(name: &'static str, sheet: &'a [u8]) -> Subject<'a> {
    let run = move |calls| {
        for _ in 0..calls {
            if name == "proved" {
                read_proved(black_box(sheet));
            } else {
                black_box(plain::read(black_box(sheet)));
            }
        }
    };
    (name, Box::new(run))
}

fn entry_table() {
    println!("\n## One entry of a register, sheet reading included\n");
    println!(
        "| rules | bytes | cells, decided | proved, ns | plain twin, ns | of plain | sheet: proved, ns | plain, ns | of proved | instructions a field: proved | plain |"
    );
    println!("|---|---|---|---|---|---|---|---|---|---|---|");
    for rules in [60, 250] {
        let mut counts = None;
        for bytes in [20, 50, 80] {
            let question = sheets::register(rules, bytes);
            let (_, cells) = answer(&question);
            let mut subjects = vec![
                asking("proved", proved, &question),
                asking("plain", plain_twin, &question),
                read_subject("proved", &question.sheet),
                read_subject("plain", &question.sheet),
            ];
            let times = timing::medians(&mut subjects);
            let fields = (question.sheet.len() / 26 * 5) as f64;
            let [ours, twin] = *counts.get_or_insert_with(|| {
                ["proved", "plain"].map(|name| timing::instructions(&format!("read{rules}/{name}")))
            });
            println!(
                "| {rules} | {bytes} | {}, {cells:.0} | {:.0} | {:.0} | {:.2} | {:.0} | {:.0} | {:.0} % | {} | {} |",
                question.cells(),
                times[0],
                times[1],
                times[0] / times[1],
                times[2],
                times[3],
                100.0 * times[2] / times[0],
                counted(ours, fields),
                counted(twin, fields),
            );
        }
    }
    println!(
        "\nThe exported verdict has 1,024 cells of its own, so that 12 rules are the most for 80 bytes:\n"
    );
    println!("| rules | bytes | verdict, ns |");
    println!("|---|---|---|");
    for bytes in [20, 50, 80] {
        let question = sheets::register(12, bytes);
        let run = |calls| {
            for _ in 0..calls {
                let verdict = lent::verdict(&question.sheet, &question.entry);
                assert!(black_box(verdict).is_ok());
            }
        };
        let times = timing::medians(&mut [("verdict", Box::new(run))]);
        println!("| 12 | {bytes} | {:.0} |", times[0]);
    }
}

fn growth_table() {
    println!("\n## Growth: nanoseconds for each cell of the table, blanking included\n");
    let lengths = [64, 128, 256, 512, 1024, 2048, 4096];
    println!(
        "| V | {} | greatest / least |",
        lengths.map(|n| format!("{n} bytes")).join(" | ")
    );
    println!("|---|{}---|", "---|".repeat(lengths.len()));
    for wide in [false, true] {
        let questions = lengths.map(|n| {
            if wide {
                sheets::wide(200, n)
            } else {
                sheets::letters(n)
            }
        });
        let mut subjects: Vec<Subject> = questions
            .iter()
            .map(|q| asking("proved", proved, q))
            .collect();
        let times = timing::medians(&mut subjects);
        let each: Vec<f64> = times
            .iter()
            .zip(&questions)
            .map(|(t, q)| t / q.cells() as f64)
            .collect();
        let (least, greatest) = each
            .iter()
            .fold((f64::MAX, 0f64), |(l, g), x| (l.min(*x), g.max(*x)));
        println!(
            "| {} | {} | {:.2} |",
            questions[0].variables(),
            each.iter()
                .map(|x| format!("{x:.2}"))
                .collect::<Vec<_>>()
                .join(" | "),
            greatest / least
        );
    }
}

fn peers_table() {
    let entries = sheets::dates(1000);
    let bytes: usize = entries.iter().map(Vec::len).sum();
    let sheet = sheets::dates_sheet();
    let peers = peers::Peers::new(&entries);
    let longest = entries.iter().map(Vec::len).max().expect("an entry");
    let variables: usize = std::str::from_utf8(&sheet[..5])
        .expect("digits")
        .trim()
        .parse()
        .expect("a number");
    let mut room = Room::of(variables * (longest + 1));
    let (table, work) = room.slices();
    let mut times = [const { Vec::new() }; 3];
    for _ in 0..11 {
        let start = std::time::Instant::now();
        for entry in &entries {
            let [code, ..] = proved(&sheet, entry, table, work);
            assert_eq!(code as usize, 5 + entry.len());
        }
        times[0].push(start.elapsed().as_nanos() as f64);
        times[1].push(peers.lpeg_dates(20));
        times[2].push(peers.leg_dates(20));
    }
    println!(
        "\n## Dates and ages: 1,000 entries of {:.0} bytes on average, {variables} rules\n",
        bytes as f64 / 1000.0
    );
    println!("| | an entry, ns | a byte, ns |");
    println!("|---|---|---|");
    for (name, times) in [
        "proved question, the sheet read and the table blanked for each entry",
        "LPeg",
        "leg",
    ]
    .iter()
    .zip(&mut times)
    {
        let time = timing::median(times);
        println!(
            "| {name} | {:.0} | {:.1} |",
            time / 1000.0,
            time / bytes as f64
        );
    }
    levels_table(&peers);
}

fn levels_table(peers: &peers::Peers) {
    println!(
        "\n## Rules that make a recognizer without a table take twice as long for each level\n"
    );
    println!("| levels | proved question, us | LPeg, us | leg, us |");
    println!("|---|---|---|---|");
    for depth in [4, 8, 12, 16, 20, 24] {
        let question = sheets::levels(depth);
        assert_eq!(answer(&question).1, f64::from(2 * depth + 2));
        let times = timing::medians(&mut [asking("proved", proved, &question)]);
        println!(
            "| {depth} | {:.1} | {:.1} | {:.1} |",
            times[0] / 1e3,
            peers.lpeg_levels(depth) / 1e3,
            peers.leg_levels(depth) / 1e3
        );
    }
}

/// A row of two subjects, proved and twin, with so many units a call.
fn row(name: &str, units: u32, subjects: &mut [Subject]) {
    let times = timing::medians(subjects);
    println!(
        "| {name} | {:.0} | {:.0} | {:.2} |",
        1e3 * f64::from(units) / times[0],
        1e3 * f64::from(units) / times[1],
        times[0] / times[1]
    );
}

fn machine_row() {
    let q = sheets::letters(4000);
    let run = |frames: &mut [u32]| {
        let mut answer = [0; 3];
        test_calls::run(&q.sheet, &q.entry, PAIR, frames, u32::MAX, &mut answer);
        answer
    };
    let twin = |frames: &mut [u32]| machine::run(&q.sheet, &q.entry, ASKED, frames, u32::MAX);
    let (mut frames, mut other) = (vec![0; 3 * 4100], vec![0; 3 * 4100]);
    let answer = run(&mut frames);
    assert_eq!(answer, twin(&mut other));
    let mut subjects: [Subject; 2] = [
        (
            "proved",
            Box::new(|calls| repeat(calls, || run(&mut frames))),
        ),
        ("twin", Box::new(|calls| repeat(calls, || twin(&mut other)))),
    ];
    row("machine, moves", answer[2], &mut subjects);
}

fn repeat<T>(calls: usize, mut call: impl FnMut() -> T) {
    for _ in 0..calls {
        black_box(call());
    }
}

/// The writer's row; what it wrote.
fn writer_row(q: &Question) -> Vec<u8> {
    let (mut room, mut other_room) = (Room::new(q), Room::new(q));
    let (table, work) = room.slices();
    let (other_table, other_work) = other_room.slices();
    let mut output = vec![0; 49 * q.cells()];
    let mut other = output.clone();
    let mut write = |output: &mut [u8]| {
        let mut answer = [0; 5];
        test_calls::write(&q.sheet, &q.entry, PAIR, table, work, output, &mut answer);
        answer[4]
    };
    let mut twin = |output: &mut [u8]| {
        reading::write(&q.sheet, &q.entry, ASKED, other_table, other_work, output)
    };
    let lines = write(&mut output);
    assert_eq!(lines, twin(&mut other));
    assert!(output == other);
    let reading = output[..49 * lines as usize].to_vec();
    let mut subjects: [Subject; 2] = [
        (
            "proved",
            Box::new(|calls| repeat(calls, || write(&mut output))),
        ),
        ("twin", Box::new(|calls| repeat(calls, || twin(&mut other)))),
    ];
    row("writer, lines", lines, &mut subjects);
    reading
}

fn checker_row(q: &Question, reading: &[u8]) {
    let check = || {
        let mut claimed = [0; 2];
        let code = test_calls::check(&q.sheet, &q.entry, PAIR, reading, &mut claimed);
        (code == 0).then_some(claimed[0])
    };
    let twin = || reading::check(&q.sheet, &q.entry, ASKED, reading);
    assert!(check().is_some() && check() == twin());
    let mut subjects: [Subject; 2] = [
        ("proved", Box::new(|calls| repeat(calls, check))),
        ("twin", Box::new(|calls| repeat(calls, twin))),
    ];
    row("checker, lines", reading.len() as u32 / 49, &mut subjects);
}

/// Makes the calls of one subject, `0/proved`, `society0/proved` or `read60/plain`.
fn only_calls(subject: &str, calls: usize) {
    let (part, name) = subject.split_once('/').expect("a part and a name");
    if let Some(rules) = part.strip_prefix("read") {
        let question = sheets::register(rules.parse().expect("a number"), 80);
        let name = if name == "proved" { "proved" } else { "plain" };
        return (read_subject(name, &question.sheet).1)(calls);
    }
    let question = match part.strip_prefix("society") {
        Some(number) => &society_questions()[number.parse::<usize>().expect("a number")],
        None => &questions()[part.parse::<usize>().expect("a number")],
    };
    let (name, call) = *CALLS.iter().find(|call| call.0 == name).expect("a call");
    (asking(name, call, question).1)(calls);
}

/// The tables that can be asked for by themselves.
const ALONE: [(&str, fn()); 5] = [
    ("--corrections", correction::table),
    ("--openings", opening::table),
    ("--further", further::table),
    ("--archive", archive::table),
    ("--verdicts", verdict::table),
];

fn main() {
    let arguments: Vec<String> = std::env::args().collect();
    if let Some(at) = arguments.iter().position(|word| word == "--calls") {
        return only_calls(
            &arguments[at + 1],
            arguments[at + 2].parse().expect("a number"),
        );
    }
    let asked = |(flag, _): &(&str, fn())| arguments.iter().any(|word| word == flag);
    if let Some((_, table)) = ALONE.into_iter().find(asked) {
        return table();
    }
    question_table();
    society_table();
    parts_table();
    entry_table();
    growth_table();
    ALONE.into_iter().for_each(|(_, table)| table());
    println!("\n## Machine, writer and checker, millions a second\n");
    println!("| | proved | twin | time, of the twin's |");
    println!("|---|---|---|---|");
    machine_row();
    let question = sheets::brackets(2000);
    checker_row(&question, &writer_row(&question));
    peers_table();
}
