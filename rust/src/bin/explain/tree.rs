//! The lines of a reading as a tree.
use entryreader::Line;

/// A line of the reading at its place in the tree.
#[derive(Clone, Copy, Debug, PartialEq, Eq)]
pub struct Row {
    /// 0 for the question, one more for what is called.
    pub depth: usize,
    /// What the pair comes to.
    pub line: Line,
    /// The pair stands further up already, with what it calls.
    pub again: bool,
}

/// The rows of a reading, from the question on: below a pair the pair that it calls first, then the second. What a pair calls is shown once.
pub struct Tree<'a> {
    lines: &'a [Line],
    shown: Vec<bool>,
    /// Lines that are still to come, with their depths, the next one last.
    waiting: Vec<(usize, usize)>,
}

impl<'a> Tree<'a> {
    /// The tree of a reading's lines, of which the last is the question's.
    pub fn new(lines: &'a [Line]) -> Tree<'a> {
        Tree {
            lines,
            shown: vec![false; lines.len()],
            waiting: lines
                .len()
                .checked_sub(1)
                .map(|last| (last, 0))
                .into_iter()
                .collect(),
        }
    }
}

impl Iterator for Tree<'_> {
    type Item = Row;

    fn next(&mut self) -> Option<Row> {
        let (number, depth) = self.waiting.pop()?;
        let line = *self.lines.get(number)?;
        let again = std::mem::replace(self.shown.get_mut(number)?, true);
        if !again {
            let called = [line.second, line.first].into_iter().flatten();
            self.waiting
                .extend(called.map(|number| (number, depth + 1)));
        }
        Some(Row { depth, line, again })
    }
}
