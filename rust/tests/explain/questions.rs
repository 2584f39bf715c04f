//! Trees, rounds and chains on random questions, beside the table that the question leaves.
use crate::program::{SHEET, run};
use crate::random::Random;
use entryreader::{Answer, Pair, Reader, Rule};
use std::collections::HashSet;

/// How many questions are asked, and how many of each kind there are at least.
const QUESTIONS: usize = 1_600;
const ENOUGH: usize = 20;

/// A row of a printed tree.
#[derive(Clone, Copy, Debug, PartialEq)]
struct Row {
    depth: usize,
    pair: Pair,
    again: bool,
    cell: u32,
    /// It fails where the entry ends.
    run_out: bool,
}

/// What was met.
#[derive(Default, Debug)]
struct Met {
    successes: usize,
    failures: usize,
    loops: usize,
    missing: usize,
    run_out: usize,
    again: usize,
    long_rounds: usize,
    rounds_behind: usize,
    openings: usize,
    longer_openings: usize,
    other_rounds: usize,
}

impl Met {
    fn count(&mut self, answer: Answer) {
        *match answer {
            Answer::Success { .. } => &mut self.successes,
            Answer::Failure { .. } => &mut self.failures,
            Answer::Loop { .. } => &mut self.loops,
            Answer::Missing { .. } => &mut self.missing,
        } += 1;
    }
}

/// A sheet: variable 1 calls others, the others are anything. In half of the sheets variables call later ones only, so that there are fewer loops. In a
/// quarter variable 1 takes an `a` or fails, so that no empty entry loops.
fn sheet(random: &mut Random) -> String {
    let variables = 3 + random.below(9);
    let (loops, takes) = (random.one_in(2), random.one_in(4));
    let (taken, fails) = (variables + 1, variables + 2);
    let mut text = format!("{fails:5}    1   46    0    0\n");
    for variable in 1..=variables {
        let above = if loops {
            0
        } else {
            variable.min(variables - 1)
        };
        let call = [(); 3].map(|()| above + 1 + random.below(variables - above));
        let [kind, first, second, third] = match random.below(10) {
            0 if variable != 1 => continue,
            1 if variable != 1 => [random.below(2), 0, 0, 0],
            2..=4 if variable != 1 => [2, random.pick(&[46, 97, 233]), 0, 0],
            5 if variable != 1 => [3, random.pick(&[3, 5]), 0, 0],
            _ if variable == 1 && takes => [4, taken, call[1], fails],
            _ => [4, call[0], call[1], call[2]],
        };
        text += &format!("{variable:5}{kind:5}{first:5}{second:5}{third:5}\n");
    }
    text + &format!("{taken:5}    2   97    0    0\n{fails:5}    1    0    0    0\n")
}

/// An entry. An argument of a program has no byte 0.
fn entry(random: &mut Random) -> Vec<u8> {
    let length = random.index(8);
    let bytes = (0..length).map(|_| random.pick(b"aa\xE9\x01."));
    bytes.collect()
}

fn pair(text: &str) -> Pair {
    let (variable, position) = text.split_once(" at ").expect("a pair");
    let number = |text: &str| text.parse().expect("a number");
    Pair {
        variable: number(variable),
        position: number(position),
    }
}

/// What a printed line of a tree says.
fn row(line: &str) -> Row {
    let text = line.trim_start();
    let blanks = line.len() - text.len();
    let (depth, text) = match text.strip_prefix('[') {
        Some(text) => {
            let (depth, text) = text.split_once("] ").expect("a level");
            (depth.parse().expect("a number"), text)
        }
        None => (blanks / 2, text),
    };
    let (name, rest) = text.split_once(": ").expect("a pair and its rule");
    let pair = pair(name);
    let run_out = rest.ends_with(". Failed: the entry ends here");
    let cell = match rest.rsplit_once(" to ") {
        _ if run_out || rest.ends_with(". Failed") => 1,
        _ if rest.ends_with(". Took nothing") => 5 + pair.position,
        Some((_, end)) => 5 + end.parse::<u32>().expect("a number"),
        None => panic!("no outcome: {line}"),
    };
    Row {
        depth,
        pair,
        again: rest.starts_with("as above. "),
        cell,
        run_out,
    }
}

/// A sheet, an entry, and the table that the question about variable 1 at 0 left.
struct Asked<'a> {
    reader: &'a Reader,
    length: usize,
}

impl Asked<'_> {
    fn cell(&self, pair: Pair) -> u32 {
        let index = |number: u32| usize::try_from(number).expect("an index");
        let row = index(pair.variable - 1) * (self.length + 1);
        self.reader.table()[2 * (row + index(pair.position))]
    }

    /// The pairs that a pair calls, as far as its first one lets it.
    fn called(&self, at: Pair) -> Vec<Pair> {
        let Some(Rule::Call {
            first,
            then,
            otherwise,
        }) = self.reader.rule(at.variable)
        else {
            return Vec::new();
        };
        let pair = |variable, position| Pair { variable, position };
        let first = pair(first, at.position);
        match self.cell(first) {
            1 => vec![first, pair(otherwise, at.position)],
            2 | 3 => vec![first],
            success => vec![first, pair(then, success - 5)],
        }
    }

    /// Does the pair ask for a byte where the entry ends?
    fn asks_at_the_end(&self, pair: Pair) -> bool {
        let rule = self.reader.rule(pair.variable);
        let asks = matches!(rule, Some(Rule::Byte(_) | Rule::Class(_)));
        asks && usize::try_from(pair.position) == Ok(self.length)
    }

    /// The rows of the tree below a pair.
    fn rows(&self, pair: Pair, depth: usize, shown: &mut HashSet<Pair>, rows: &mut Vec<Row>) {
        let again = !shown.insert(pair);
        let cell = self.cell(pair);
        rows.push(Row {
            depth,
            pair,
            again,
            cell,
            run_out: self.asks_at_the_end(pair),
        });
        if !again {
            for called in self.called(pair) {
                self.rows(called, depth + 1, shown, rows);
            }
        }
    }

    /// The pairs whose cells are not blank.
    fn reached(&self) -> HashSet<Pair> {
        let pairs = (1..=self.reader.variables()).flat_map(|variable| {
            let last = u32::try_from(self.length).expect("a position");
            (0..=last).map(move |position| Pair { variable, position })
        });
        pairs.filter(|pair| self.cell(*pair) != 0).collect()
    }

    /// The printed tree is that of the table, and each pair that is reached stands in it once in full.
    fn compare_tree(&self, printed: &str, met: &mut Met) {
        let rows: Vec<Row> = printed.lines().map(row).collect();
        let mut expected = Vec::new();
        self.rows(QUESTION, 0, &mut HashSet::new(), &mut expected);
        assert_eq!(rows, expected);
        let full: Vec<Pair> = rows
            .iter()
            .filter(|row| !row.again)
            .map(|row| row.pair)
            .collect();
        assert_eq!(full.len(), self.reached().len());
        assert_eq!(full.into_iter().collect::<HashSet<Pair>>(), self.reached());
        met.again += rows.iter().filter(|row| row.again).count();
    }

    /// Of a failure it is told that the entry ended exactly where a pair that is reached asks for a byte at its end.
    fn compare_mark(&self, printed: &str, met: &mut Met) {
        let run_out = self
            .reached()
            .into_iter()
            .any(|pair| self.asks_at_the_end(pair));
        let told = match self.length {
            0 => printed.contains("\nThe entry is empty, and a byte was expected: "),
            n => printed.contains(&format!(
                "^ the entry ends at {n}, where a byte was expected: "
            )),
        };
        assert_eq!(told, run_out, "{printed}");
        met.run_out += usize::from(told);
    }

    /// Each pair of the printed chain waits, and for the next; the last waits for the named one. The pairs of the chain.
    fn compare_chain(&self, printed: &str, named: Pair, outcome: u32) -> Vec<Pair> {
        let lines = || printed.lines().filter(|line| !line.starts_with("Here"));
        let steps = lines().filter(|line| !line.starts_with(' '));
        let steps: Vec<Pair> = steps
            .filter_map(|line| {
                line.split_once(": ")
                    .filter(|(name, _)| !name.contains(" has "))
            })
            .map(|(name, _)| pair(name))
            .collect();
        let calls: Vec<(Pair, Pair)> = lines().filter_map(call).collect();
        let awaited = steps
            .iter()
            .map(|step| *self.called(*step).last().expect("it calls"));
        let expected: Vec<(Pair, Pair)> = steps.iter().copied().zip(awaited).collect();
        assert_eq!(calls, expected);
        let ends: Vec<Pair> = calls.iter().map(|(_, awaited)| *awaited).collect();
        let following: Vec<Pair> = steps.iter().skip(1).copied().chain([named]).collect();
        assert_eq!(ends, following);
        assert_eq!(steps.first(), Some(&QUESTION));
        assert!(steps.iter().all(|step| self.cell(*step) == outcome));
        assert_eq!(self.cell(named), outcome);
        let distinct: HashSet<Pair> = steps.iter().copied().collect();
        assert_eq!(distinct.len(), steps.len());
        steps
    }
}

/// Which pair calls which, in a printed line.
fn call(line: &str) -> Option<(Pair, Pair)> {
    let (one, other) = line.strip_prefix("  ")?.split_once(" calls ")?;
    let one = one.strip_prefix("so ").unwrap_or(one);
    let other = other
        .strip_suffix(" again, having taken no byte")
        .unwrap_or(other);
    Some((pair(one), pair(other)))
}

const QUESTION: Pair = Pair {
    variable: 1,
    position: 0,
};

/// What is needed of an entry is told exactly where there are bytes: the least number of first bytes about which the question is answered with a loop; and
/// to which pair that comes back, where the entry comes back to another.
fn compare_opening(printed: &str, reader: &Reader, entry: &[u8], named: Pair, met: &mut Met) {
    let mut reader = reader.clone();
    let of = entry.len();
    let found = (0..=of).find_map(|bytes| match reader.ask(&entry[..bytes], 1, 0) {
        Ok(Answer::Loop { named, .. }) => Some((bytes, named)),
        _ => None,
    });
    let (least, back) = found.expect("the whole entry loops");
    let sentence = match least {
        0 => String::from("No byte is needed: "),
        bytes if bytes == of => String::from("The whole entry is needed: "),
        1 => format!("The first of {of} bytes is enough: "),
        bytes => format!("The first {bytes} of {of} bytes are enough: "),
    };
    let told = printed.contains(" enough: ") || printed.contains(" needed: ");
    let as_found = printed.contains(&format!("\n\n{sentence}"));
    let bytes = !entry.is_empty();
    assert_eq!((told, as_found), (bytes, bytes), "{printed}");
    let other = printed.contains(&format!(". There the round comes back to {back}.\n"));
    assert_eq!(other, back != named, "{printed}");
    met.openings += usize::from(bytes);
    met.longer_openings += usize::from(least != 0);
    met.other_rounds += usize::from(other);
}

/// Compares what is printed of a question.
fn compare(sheet: &str, entry: &[u8], met: &mut Met) {
    let mut reader = Reader::new(sheet.as_bytes()).expect("a sheet");
    let answer = reader.ask(entry, 1, 0).expect("a question");
    let recognised = reader
        .clone()
        .verdict(entry)
        .is_ok_and(|verdict| verdict.is_recognised());
    let asked = Asked {
        reader: &reader,
        length: entry.len(),
    };
    let run = run(&[SHEET, b"--", entry], sheet.as_bytes());
    assert_eq!((run.status == 0, run.complaint.as_str()), (recognised, ""));
    let mut parts = run.printed.trim_end().rsplit("\n\n");
    let mut last = || parts.next().expect("a part");
    met.count(answer);
    match answer {
        Answer::Success { .. } => asked.compare_tree(last(), met),
        Answer::Failure { .. } => {
            asked.compare_tree(last(), met);
            asked.compare_mark(&run.printed, met);
        }
        Answer::Loop { named, .. } => {
            let advice = last();
            assert!(advice.ends_with(&format!("before it comes back to {named}.")));
            let steps = asked.compare_chain(last(), named, 2);
            let start = steps.iter().position(|step| *step == named);
            let start = start.expect("the round comes back to a pair of its own");
            assert!(
                steps[start..]
                    .iter()
                    .all(|step| step.position == named.position)
            );
            met.long_rounds += usize::from(start + 1 < steps.len());
            met.rounds_behind += usize::from(start != 0);
            compare_opening(&run.printed, &reader, entry, named, met);
        }
        Answer::Missing { named, .. } => drop(asked.compare_chain(last(), named, 3)),
    }
}

#[test]
fn random_questions() {
    let mut random = Random(19);
    let mut met = Met::default();
    for _ in 0..QUESTIONS {
        let (sheet, entry) = (sheet(&mut random), entry(&mut random));
        compare(&sheet, &entry, &mut met);
    }
    let Met {
        successes,
        failures,
        loops,
        missing,
        run_out,
        again,
        long_rounds,
        rounds_behind,
        openings,
        longer_openings,
        other_rounds,
    } = met;
    let counts = [
        successes,
        failures,
        loops,
        missing,
        run_out,
        again,
        long_rounds,
        rounds_behind,
        openings,
        longer_openings,
        other_rounds,
    ];
    assert!(counts.iter().all(|count| ENOUGH <= *count), "{counts:?}");
}
