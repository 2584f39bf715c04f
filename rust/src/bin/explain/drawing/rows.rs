//! The rows of a drawing.
use crate::case::Case;
use crate::chain::{First, Step};
use crate::explanation::{self, Explanation};
use crate::tree::{self, Tree};
use crate::words;
use entryreader::Line;

/// The most characters of a label.
const LABEL: usize = 52;

/// The levels of a tree that are indented; a deeper one is told by its number.
pub const LEVELS: usize = 24;

/// What is drawn in the columns of the bytes.
pub enum Mark {
    /// A success that took bytes; the byte, where it is a rule's that asks for one.
    Took {
        start: usize,
        end: usize,
        byte: Option<u8>,
    },
    /// A success that took nothing.
    Nothing(usize),
    Failed(usize),
    /// A pair that waits.
    Waits(usize),
    /// The pair where the waiting ends.
    Stops(usize),
}

impl Mark {
    /// Where it begins and ends.
    pub fn positions(&self) -> (usize, usize) {
        match *self {
            Mark::Took { start, end, .. } => (start, end),
            Mark::Nothing(at) | Mark::Failed(at) | Mark::Waits(at) | Mark::Stops(at) => (at, at),
        }
    }
}

pub struct Row {
    pub depth: usize,
    pub label: String,
    /// The pair stands further up already.
    pub again: bool,
    pub marks: Vec<Mark>,
    /// The row of what calls it, and its depth.
    pub parent: Option<(usize, usize)>,
}

pub struct Rows {
    pub drawn: Vec<Row>,
    /// How many there are, and how many of them come before those that are drawn.
    pub all: usize,
    pub skipped: usize,
    /// The rows are pairs that wait.
    pub waiting: bool,
    /// The row of the pair that is met again, where it is drawn.
    pub back: Option<usize>,
}

impl Rows {
    /// What the marks mean.
    pub fn legend(&self) -> Vec<(Mark, &'static str)> {
        let mut legend = vec![
            (took(0, 1, None), "took bytes"),
            (Mark::Nothing(0), "took nothing"),
            (Mark::Failed(0), "failed"),
        ];
        if self.waiting {
            legend.insert(0, (Mark::Waits(0), "waits; what it called first:"));
        }
        let is_stop = |mark: &Mark| matches!(mark, Mark::Stops(_));
        if self.drawn.iter().flat_map(|row| &row.marks).any(is_stop) {
            legend.insert(0, (Mark::Stops(0), "stops"));
        }
        legend
    }
}

/// The rows of an explanation: so many of a tree's first ones, or of the last pairs that wait.
pub fn of(explanation: &Explanation, case: Case, most: usize) -> Rows {
    if explanation.lines.is_empty() {
        return waiting(explanation, case, most);
    }
    let mut drawn: Vec<Row> = Vec::new();
    // The last row of each depth.
    let mut above: Vec<usize> = Vec::new();
    for row in Tree::new(&explanation.lines).take(most) {
        above.truncate(row.depth);
        let parent = above.last().map(|parent| (*parent, row.depth - 1));
        above.push(drawn.len());
        drawn.push(tree_row(case, &row, parent));
    }
    Rows {
        drawn,
        all: Tree::new(&explanation.lines).count(),
        skipped: 0,
        waiting: false,
        back: None,
    }
}

fn tree_row(case: Case, row: &tree::Row, parent: Option<(usize, usize)>) -> Row {
    let level = match row.depth {
        depth if LEVELS < depth => format!("[{depth}] "),
        _ => String::new(),
    };
    let label = explanation::row_label(case, row);
    Row {
        depth: row.depth,
        label: shortened(format!("{level}{label}")),
        again: row.again,
        marks: vec![mark(case, &row.line)],
        parent,
    }
}

/// The mark of a line.
fn mark(case: Case, line: &Line) -> Mark {
    let (start, end) = (words::index(line.start), words::index(line.end));
    if !line.success {
        return Mark::Failed(start);
    }
    let leaf = case.asks_for_a_byte(line.variable);
    took(start, end, case.entry.get(start).copied().filter(|_| leaf))
}

/// The mark of a success.
fn took(start: usize, end: usize, byte: Option<u8>) -> Mark {
    if start == end {
        Mark::Nothing(start)
    } else {
        Mark::Took { start, end, byte }
    }
}

/// The rows of pairs that wait, with what the first called pair has come to; the last is the named pair, where that does not wait.
fn waiting(explanation: &Explanation, case: Case, most: usize) -> Rows {
    let steps = &explanation.steps;
    let named = explanation.named();
    let stops = named.filter(|_| !explanation.is_loop());
    let all = steps.len() + usize::from(stops.is_some());
    let skipped = all.saturating_sub(most);
    let waiting = steps.iter().skip(skipped).map(|step| step_row(case, step));
    let stops = stops.map(|pair| {
        let mark = Mark::Stops(words::index(pair.position));
        plain_row(case.label(pair), vec![mark])
    });
    let back = steps.iter().position(|step| Some(step.pair) == named);
    Rows {
        drawn: waiting.chain(stops).collect(),
        all,
        skipped,
        waiting: true,
        back: back.and_then(|row| row.checked_sub(skipped)),
    }
}

fn step_row(case: Case, step: &Step) -> Row {
    let first = match step.first {
        First::Waits => None,
        First::Failed(first) => Some(Mark::Failed(words::index(first.position))),
        First::Ended(first, end) => {
            let (start, end) = (words::index(first.position), words::index(end));
            Some(took(start, end, None))
        }
    };
    let waits = Mark::Waits(words::index(step.pair.position));
    plain_row(
        case.label(step.pair),
        first.into_iter().chain([waits]).collect(),
    )
}

/// A row that no line leads to.
fn plain_row(label: String, marks: Vec<Mark>) -> Row {
    Row {
        depth: 0,
        label: shortened(label),
        again: false,
        marks,
        parent: None,
    }
}

/// A label, cut where it is long.
fn shortened(label: String) -> String {
    if label.chars().count() <= LABEL {
        return label;
    }
    let start: String = label.chars().take(LABEL - 3).collect();
    format!("{start} ..")
}
