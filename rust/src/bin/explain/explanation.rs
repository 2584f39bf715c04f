//! What a sheet makes of an entry, and why.
use crate::case::Case;
use crate::chain::{self, First, Step};
use crate::opening::Opening;
use crate::tree::{Row, Tree};
use crate::{picture, words};
use entryreader::{Error, Line, Pair, Reader, Verdict};
use std::io::{self, Write};

/// The levels of a tree that are indented; a deeper one is told by its number.
const LEVELS: usize = 20;

/// The expected bytes and classes that are named where an entry fails.
const EXPECTED: usize = 5;

/// The most pairs of a round that are told in one sentence.
const ROUND: usize = 4;

/// The verdict, and what it follows from.
pub struct Explanation {
    verdict: Verdict,
    /// Where the verdict is loop, and there are bytes.
    pub opening: Option<Opening>,
    /// The lines of the reading; none for loop and missing.
    pub lines: Vec<Line>,
    /// The steps of the waiting; none for success and failure.
    pub steps: Vec<Step>,
}

impl Explanation {
    /// Asks for the verdict, the opening and the reading; only an entry that is too long has none.
    pub fn new(reader: &mut Reader, entry: &[u8]) -> Result<Explanation, Error> {
        let verdict = reader.verdict(entry)?;
        let opening = match verdict {
            Verdict::Loop { named, .. } => Opening::new(reader, entry, named)?,
            _ => None,
        };
        let lines = reader.reading(entry)?.lines;
        let asked = Pair {
            variable: reader.start(),
            position: 0,
        };
        let steps = match verdict {
            Verdict::Loop { .. } | Verdict::Missing { .. } => chain::steps(reader, entry, asked),
            _ => Vec::new(),
        };
        Ok(Explanation {
            verdict,
            opening,
            lines,
            steps,
        })
    }

    /// Is the whole entry recognised?
    pub fn is_recognised(&self) -> bool {
        self.verdict.is_recognised()
    }

    /// The pair where the waiting ends, or that is met a second time.
    pub fn named(&self) -> Option<Pair> {
        match self.verdict {
            Verdict::Loop { named, .. } | Verdict::Missing { named, .. } => Some(named),
            _ => None,
        }
    }

    /// Is the named pair one that is met a second time?
    pub fn is_loop(&self) -> bool {
        matches!(self.verdict, Verdict::Loop { .. })
    }

    /// Writes all of it.
    pub fn write(&self, case: Case, out: &mut dyn Write) -> io::Result<()> {
        writeln!(out, "{}", self.headline(case))?;
        self.write_mark(case, out)?;
        if let Some(opening) = self.opening {
            write_opening(case, opening, out)?;
        }
        writeln!(out)?;
        Tree::new(&self.lines).try_for_each(|row| write_row(case, &row, out))?;
        self.write_steps(case, out)
    }

    /// The answer in a line.
    pub fn headline(&self, case: Case) -> String {
        let length = case.entry.len();
        match self.verdict {
            Verdict::Recognised { .. } => {
                format!("recognised: the reading takes the whole entry, {length} of {length} bytes")
            }
            Verdict::Partial { end, .. } => {
                format!("partial: the reading takes {end} of {length} bytes")
            }
            Verdict::Failure { .. } => String::from("failure: the entry does not fit the sheet"),
            Verdict::Loop { named, .. } => format!("loop: {}", self.round(case, named)),
            Verdict::Missing { named, .. } => {
                let (name, position) = (case.reader.name(named.variable), named.position);
                format!("missing: {name} has no rule, and is asked for at {position}")
            }
        }
    }

    /// The round of a loop in a sentence; of a long one only where it comes back to.
    fn round(&self, case: Case, named: Pair) -> String {
        let begins = self.steps.iter().position(|step| step.pair == named);
        let round = &self.steps[begins.unwrap_or(0)..];
        if ROUND < round.len() {
            return format!(
                "{} comes back to itself, having taken no byte",
                case.pair(named)
            );
        }
        let calls = round
            .iter()
            .map(|step| format!("calls {}", case.pair(step.awaited)));
        let calls: Vec<String> = calls.collect();
        format!(
            "{} {} again, having taken no byte",
            case.pair(named),
            calls.join(", which ")
        )
    }

    /// The position that matters most, and what is to be said of it.
    pub fn mark(&self, case: Case) -> (u32, String) {
        match self.verdict {
            Verdict::Recognised { .. } => {
                let end = case.end();
                (end, format!("ends at {end}"))
            }
            Verdict::Partial { end, .. } => (end, format!("ends at {end}")),
            Verdict::Failure { .. } => self.expected(case).unwrap_or_else(|| {
                let mark = "no byte is at fault: a rule that always fails was met";
                (0, String::from(mark))
            }),
            Verdict::Loop { named, .. } => {
                let position = named.position;
                let mark = format!("the round is at {position}, and takes no byte");
                (position, mark)
            }
            Verdict::Missing { named, .. } => {
                let mark = format!("{} is asked for", case.pair(named));
                (named.position, mark)
            }
        }
    }

    /// Writes the bytes around the position that matters most, and what is to be said of it; of an entry without bytes that it is empty.
    fn write_mark(&self, case: Case, out: &mut dyn Write) -> io::Result<()> {
        let (position, mark) = self.mark(case);
        match (case.entry, self.verdict) {
            ([], Verdict::Failure { .. }) => writeln!(out, "\nThe entry is empty, and {mark}"),
            ([], _) => writeln!(out, "\nThe entry is empty."),
            _ => picture::write(out, case.entry, words::index(position), &mark),
        }
    }

    /// The rightmost position at which a byte was asked for and was another one, or was not there, and that it was so; none where no rule failed for a
    /// byte.
    fn expected(&self, case: Case) -> Option<(u32, String)> {
        let failed = || {
            let failed = self.lines.iter().filter(|line| !line.success);
            failed.filter(|line| case.asks_for_a_byte(line.variable))
        };
        let position = failed().map(|line| line.start).max()?;
        let mut expected: Vec<String> = Vec::new();
        for line in failed().filter(|line| line.start == position) {
            let words = case.rule(line.variable);
            if !expected.contains(&words) {
                expected.push(words);
            }
        }
        if EXPECTED < expected.len() {
            expected.truncate(EXPECTED);
            expected.push(String::from("another"));
        }
        let front = match position {
            0 if case.entry.is_empty() => String::from("a byte was expected"),
            end if end == case.end() => {
                format!("the entry ends at {end}, where a byte was expected")
            }
            _ => format!("at {position} another byte was expected"),
        };
        Some((position, format!("{front}: {}", expected.join("; or "))))
    }

    /// The steps of the waiting, and how it ends.
    fn write_steps(&self, case: Case, out: &mut dyn Write) -> io::Result<()> {
        let Some(named) = self.named() else {
            return Ok(());
        };
        for (number, step) in self.steps.iter().enumerate() {
            if self.is_loop() && step.pair == named && number != 0 {
                writeln!(out, "Here the round begins:")?;
            }
            let last = number + 1 == self.steps.len();
            write_step(case, step, self.is_loop() && last, out)?;
        }
        if self.is_loop() {
            writeln!(out)?;
        }
        writeln!(out, "{}", self.ending(case, named))
    }

    /// What is to be done about a loop.
    pub fn advice(&self, case: Case) -> Option<String> {
        let named = self.named().filter(|_| self.is_loop())?;
        Some(self.ending(case, named))
    }

    /// How the waiting ends.
    pub fn ending(&self, case: Case, named: Pair) -> String {
        let pair = case.pair(named);
        if self.is_loop() {
            return format!(
                "One of the rules of this round must take a byte before it comes back to {pair}."
            );
        }
        let name = case.reader.name(named.variable);
        format!("{pair} has no rule: the sheet has no line for {name}")
    }
}

/// Writes how much of the entry loops already.
fn write_opening(case: Case, opening: Opening, out: &mut dyn Write) -> io::Result<()> {
    writeln!(out, "\n{}", opening.sentence(case))?;
    picture::write_first(out, case.entry, opening.bytes, &opening.mark())
}

/// Writes a row of the tree.
fn write_row(case: Case, row: &Row, out: &mut dyn Write) -> io::Result<()> {
    let blanks = 2 * row.depth.min(LEVELS);
    write!(out, "{:blanks$}", "")?;
    if LEVELS < row.depth {
        write!(out, "[{}] ", row.depth)?;
    }
    let outcome = match row.line.success {
        true => format!("Took {}", case.taken(row.line.start, row.line.end)),
        false if case.runs_out(row.line.pair()) => String::from("Failed: the entry ends here"),
        false => String::from("Failed"),
    };
    writeln!(out, "{}. {outcome}", row_label(case, row))
}

/// The pair of a row and its rule.
pub fn row_label(case: Case, row: &Row) -> String {
    let pair = row.line.pair();
    match row.again {
        true => format!("{}: as above", case.pair(pair)),
        false => case.label(pair),
    }
}

/// Writes a step of the waiting; the last of a round comes back to where it began.
fn write_step(case: Case, step: &Step, back: bool, out: &mut dyn Write) -> io::Result<()> {
    writeln!(out, "{}", case.label(step.pair))?;
    let so = match step.first {
        First::Waits => "",
        First::Failed(first) if case.runs_out(first) => {
            writeln!(out, "  {} fails: the entry ends there", case.pair(first))?;
            "so "
        }
        First::Failed(first) => {
            writeln!(out, "  {} fails", case.pair(first))?;
            "so "
        }
        First::Ended(first, end) => {
            let (pair, taken) = (case.pair(first), case.taken(first.position, end));
            writeln!(out, "  {pair} succeeds, and takes {taken}")?;
            "so "
        }
    };
    let again = if back {
        " again, having taken no byte"
    } else {
        ""
    };
    let (pair, awaited) = (case.pair(step.pair), case.pair(step.awaited));
    writeln!(out, "  {so}{pair} calls {awaited}{again}")
}
