//! How many entries are of each kind, and where the first ones are.
use entryreader::{Code, Error, Refusal, Verdict, shown};
use std::fmt;
use std::time::Instant;

/// How many lines of each kind are shown.
const SHOWN: usize = 3;

/// How many characters of an entry are shown.
const CHARACTERS: usize = 40;

#[derive(Clone, Copy, PartialEq, Eq)]
enum Kind {
    Verdict(Code),
    Refused(Refusal),
}

/// The kinds in the order in which they are shown. An accepted sheet with room enough leaves one refusal.
const KINDS: [Kind; 6] = [
    Kind::Verdict(Code::Recognised),
    Kind::Verdict(Code::Partial),
    Kind::Verdict(Code::Failure),
    Kind::Verdict(Code::Loop),
    Kind::Verdict(Code::Missing),
    Kind::Refused(Refusal::LongEntry),
];

impl fmt::Display for Kind {
    fn fmt(&self, f: &mut fmt::Formatter) -> fmt::Result {
        match self {
            Kind::Verdict(code) => code.fmt(f),
            Kind::Refused(refusal) => {
                write!(f, "refused {} ({})", refusal.number(), refusal.meaning())
            }
        }
    }
}

/// The entries of one kind.
struct Tally {
    kind: Kind,
    entries: u64,
    /// How many of them end with byte 13.
    with_return: u64,
    /// The first lines, each with its number and the entry's beginning.
    first: Vec<(u64, String)>,
}

impl Tally {
    fn new(kind: Kind) -> Tally {
        Tally {
            kind,
            entries: 0,
            with_return: 0,
            first: Vec::new(),
        }
    }

    fn count(&mut self, number: u64, entry: &[u8]) {
        self.entries += 1;
        self.with_return += u64::from(entry.last() == Some(&b'\r'));
        if self.kind != KINDS[0] && self.first.len() < SHOWN {
            self.first.push((number, beginning(entry)));
        }
    }
}

/// What was met in a file so far.
pub struct Summary {
    begun: Instant,
    entries: u64,
    tallies: Vec<Tally>,
}

impl Summary {
    pub fn new() -> Summary {
        Summary {
            begun: Instant::now(),
            entries: 0,
            tallies: KINDS.map(Tally::new).into(),
        }
    }

    /// Counts an entry: its number.
    pub fn count(&mut self, entry: &[u8], found: &Result<Verdict, Error>) -> u64 {
        self.entries += 1;
        let kind = match found {
            Ok(verdict) => Kind::Verdict(verdict.code()),
            Err(error) => Kind::Refused(error.refusal()),
        };
        let known = self.tallies.iter().position(|tally| tally.kind == kind);
        let index = known.unwrap_or(self.tallies.len());
        if known.is_none() {
            self.tallies.push(Tally::new(kind));
        }
        self.tallies[index].count(self.entries, entry);
        self.entries
    }

    pub fn all_recognised(&self) -> bool {
        self.tallies[0].entries == self.entries
    }

    /// Do most entries that are not recognised end with byte 13? A sheet that takes the byte leaves none of them.
    fn has_returns(&self) -> bool {
        let others = || self.tallies.iter().filter(|tally| tally.kind != KINDS[0]);
        let entries: u64 = others().map(|tally| tally.entries).sum();
        let with_return: u64 = others().map(|tally| tally.with_return).sum();
        entries < 2 * with_return
    }

    fn entries_a_second(&self) -> u128 {
        u128::from(self.entries) * 1_000_000_000 / self.begun.elapsed().as_nanos().max(1)
    }
}

impl fmt::Display for Summary {
    fn fmt(&self, f: &mut fmt::Formatter) -> fmt::Result {
        writeln!(f, "entries: {}", self.entries)?;
        for tally in &self.tallies {
            writeln!(f, "{}: {}", tally.kind, tally.entries)?;
            for (number, beginning) in &tally.first {
                writeln!(f, "  line {number}: {beginning}")?;
            }
        }
        if self.has_returns() {
            writeln!(
                f,
                "The file has CR LF line ends, and byte 13 is read as part of the entry."
            )?;
        }
        writeln!(f, "{} entries a second", self.entries_a_second())
    }
}

/// The beginning of an entry between quotes; dots behind them where more follows.
fn beginning(entry: &[u8]) -> String {
    let mut text = String::new();
    let mut room = CHARACTERS;
    for byte in entry {
        let shown = shown(&[*byte]);
        let Some(left) = room.checked_sub(shown.chars().count()) else {
            return format!("\"{text}\"...");
        };
        room = left;
        text += &shown;
    }
    format!("\"{text}\"")
}
