//! What a call refuses of entries and tables, what it does to the cells of a table before it asks, and what it leaves: document 02, orders 4, 6, 8,
//! 10 and 11, over tables of just V times (n + 1) cells.

/// A cell: "two numbers side by side, outcome then reach, both 0 when blank".
pub type Cell = [u32; 2];

pub const BLANK: Cell = [0, 0];

/// The code of a success ending at 0; no other outcome has a code as great.
pub const SUCCESS: u32 = 5;

/// "success and failure cells (1, and 5 or more)"
pub fn is_result(outcome: u32) -> bool {
    outcome == 1 || SUCCESS <= outcome
}

/// The name of what a cell holds.
pub fn held(outcome: u32) -> &'static str {
    let names = ["blank", "failure", "loop", "missing", "four", "success"];
    names[outcome.min(SUCCESS) as usize]
}

/// What brings a cell under 19.
#[derive(Clone, Copy, Debug, PartialEq, Eq, PartialOrd, Ord)]
pub enum Fault {
    /// "a retained 4 comes under 19"
    Four,
    /// "over 5 + n"
    Over,
    /// "a success ending left of its place"
    Left,
    /// "a success or failure whose reach is below its place"
    Reach,
}

/// What is at fault in a cell at a place of an entry of n bytes.
fn fault(n: u32, place: u32, [outcome, reach]: Cell) -> Option<Fault> {
    if outcome == 4 {
        Some(Fault::Four)
    } else if 5 + n < outcome {
        Some(Fault::Over)
    } else if SUCCESS <= outcome && outcome - SUCCESS < place {
        Some(Fault::Left)
    } else if is_result(outcome) && reach < place {
        Some(Fault::Reach)
    } else {
        None
    }
}

/// The cells of a table of an entry of n bytes, each with its place.
pub fn cells(n: u32, table: &[u32]) -> impl Iterator<Item = (u32, Cell)> {
    let places = (0..=n).cycle();
    places.zip(table.as_chunks().0.iter().copied())
}

/// "the old and new entries differ in length or at a place other than c"
fn differ(old: &[u8], new: &[u8], c: u32) -> bool {
    let mut places = (0..).zip(old.iter().zip(new));
    old.len() != new.len() || places.any(|(place, (old, new))| place != c && old != new)
}

/// A call about an entry of n bytes, over a table that is lent to it.
#[derive(Clone, Copy, Debug, PartialEq, Eq)]
pub enum Call {
    Question,
    Further,
    /// Of the byte at c.
    Correction {
        c: u32,
    },
}

impl Call {
    pub fn name(self) -> &'static str {
        match self {
            Call::Question => "question",
            Call::Further => "further",
            Call::Correction { .. } => "correction",
        }
    }

    /// A correction "blanks cells at places up to c, retains the others"; "success and failure cells .. with reach at most c stay also". "A further
    /// question blanks nothing."
    pub fn stays(self, place: u32, [outcome, reach]: Cell) -> bool {
        match self {
            Call::Question => false,
            Call::Further => true,
            Call::Correction { c } => c < place || (is_result(outcome) && reach <= c),
        }
    }

    /// What it retains of a table.
    pub fn retained(self, n: u32, table: &[u32]) -> Vec<u32> {
        let kept = |(place, cell)| {
            if self.stays(place, cell) { cell } else { BLANK }
        };
        cells(n, table).flat_map(kept).collect()
    }

    /// What is at fault in a cell, if it is retained.
    pub fn fault(self, n: u32, place: u32, cell: Cell) -> Option<Fault> {
        fault(n, place, cell).filter(|_| self.stays(place, cell))
    }

    /// The first of 18, 21 and 19 that holds: 21, which is about the entries, comes "after 18".
    pub fn refused(self, [old, new]: [&[u8]; 2], table: &[u32]) -> Option<u32> {
        let n = new.len() as u32;
        match self {
            Call::Correction { c } if n <= c => return Some(18),
            Call::Correction { c } if differ(old, new, c) => return Some(21),
            _ => {}
        }
        let at_fault = |(place, cell)| self.fault(n, place, cell).is_some();
        cells(n, table).any(at_fault).then_some(19)
    }
}

/// What a question leaves of cells, given those that it leaves of a blank table; and how many it newly decides.
pub fn left(reached: &[u32], start: &[u32]) -> (Vec<u32>, u32) {
    let cells = reached.as_chunks().0.iter().zip(start.as_chunks().0);
    let newly = cells
        .clone()
        .filter(|(new, old): &(&Cell, &Cell)| new[0] != 0 && old[0] == 0);
    let newly = newly.count() as u32;
    let left = cells.flat_map(|(new, old)| if new[0] == 0 { *old } else { *new });
    (left.collect(), newly)
}
