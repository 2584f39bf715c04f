//! The explanation as a drawing: the entry along the top, and a row for each row of the tree or each pair that waits.
mod canvas;
mod rows;

use crate::case::Case;
use crate::explanation::Explanation;
use crate::opening::Opening;
use crate::words;
use canvas::Canvas;
use entryreader::shown;
use rows::{LEVELS, Mark, Row, Rows};

/// The most rows and bytes that are drawn.
const MOST_ROWS: usize = 400;
const MOST_BYTES: usize = 400;

/// Of a long entry, the bytes behind the position that matters that are drawn.
const BEHIND: usize = 20;

/// Sizes in pixels: a character of a label, the width of a byte, the height of a row, a level of the tree, the space around it all.
const CHARACTER: usize = 8;
const BYTE: usize = 18;
const ROW: usize = 20;
const LEVEL: usize = 14;
const MARGIN: usize = 20;

/// The room left of the labels for the arrows between pairs that wait.
const ARROWS: usize = 44;

/// Where the title stands, the entry, and the first row.
const TITLE: usize = 28;
const ENTRY: usize = 92;
const TOP: usize = 104;

/// The drawing as SVG.
pub fn svg(explanation: &Explanation, case: Case) -> String {
    let rows = rows::of(explanation, case, MOST_ROWS);
    let (position, mark) = explanation.mark(case);
    let position = words::index(position);
    let layout = Layout::new(&rows, case.entry.len(), position);
    let mut canvas = Canvas::default();
    layout.draw_stripes(&mut canvas);
    if let Some(opening) = explanation.opening {
        layout.draw_opening(&mut canvas, opening);
    }
    layout.draw_entry(&mut canvas, case.entry);
    layout.draw_position(&mut canvas, position);
    for (number, row) in rows.drawn.iter().enumerate() {
        layout.draw_row(&mut canvas, number, row);
    }
    layout.draw_arrows(&mut canvas, &rows);
    let headline = explanation.headline(case);
    canvas.text("title", MARGIN, TITLE, &headline);
    canvas.text("", MARGIN, TITLE + ROW, &mark);
    let legend = layout.draw_legend(&mut canvas, rows.legend());
    let notes = notes(explanation, case, &rows, &layout);
    for (number, note) in notes.iter().enumerate() {
        canvas.text("", MARGIN, layout.bottom() + ROW * (number + 3), note);
    }
    let texts = notes.iter().chain([&headline, &mark]);
    let widths = texts.map(|text| 2 * MARGIN + width(text));
    let width = widths.chain([legend, layout.width()]).max().unwrap_or(0);
    canvas.finish(width, layout.bottom() + ROW * (notes.len() + 3))
}

/// What is said below the drawing: what is needed for a loop, what is to be done, what is left out.
fn notes(explanation: &Explanation, case: Case, rows: &Rows, layout: &Layout) -> Vec<String> {
    let (all, drawn) = (rows.all, rows.drawn.len());
    let which = if rows.skipped == 0 { "first" } else { "last" };
    let cut_rows = format!("Cut: the {which} {drawn} of {all} rows are drawn.");
    let (length, first, last) = (case.entry.len(), layout.first, layout.last);
    let cut_bytes = format!("Cut: of {length} bytes those from {first} to {last} are drawn.");
    let notes = [
        explanation.opening.map(|opening| opening.sentence(case)),
        explanation.advice(case),
        (drawn < all).then_some(cut_rows),
        (last - first < length).then_some(cut_bytes),
    ];
    notes.into_iter().flatten().collect()
}

/// The width of a text.
fn width(text: &str) -> usize {
    CHARACTER * text.chars().count()
}

/// Where what is drawn stands.
struct Layout {
    rows: usize,
    /// The first and the last position that is drawn.
    first: usize,
    last: usize,
    /// The left edge of the labels, and of the bytes.
    labels: usize,
    left: usize,
}

impl Layout {
    /// The layout of these rows and an entry of that length, with the position that matters most. A tree begins with the entry.
    fn new(rows: &Rows, length: usize, position: usize) -> Layout {
        let labels = MARGIN + if rows.waiting { ARROWS } else { 0 };
        let right = |row: &Row| LEVEL * row.depth.min(LEVELS) + width(&row.label);
        let widest = rows.drawn.iter().map(right).max().unwrap_or(0);
        let first = match rows.waiting {
            true => length.min(position + BEHIND).saturating_sub(MOST_BYTES),
            false => 0,
        };
        Layout {
            rows: rows.drawn.len(),
            first,
            last: length.min(first + MOST_BYTES),
            labels,
            left: labels + widest + 2 * CHARACTER,
        }
    }

    /// The left edge of the byte at a position.
    fn x(&self, position: usize) -> usize {
        self.left + BYTE * (position.clamp(self.first, self.last) - self.first)
    }

    /// The middle of a row.
    fn y(&self, row: usize) -> usize {
        TOP + ROW * row + ROW / 2
    }

    /// Where the label of a row begins.
    fn label(&self, depth: usize) -> usize {
        self.labels + LEVEL * depth.min(LEVELS)
    }

    fn width(&self) -> usize {
        self.x(self.last) + BYTE + MARGIN
    }

    /// Below the last row.
    fn bottom(&self) -> usize {
        TOP + ROW * self.rows
    }

    /// Every second row on grey, so that the eye finds from a label to its bar.
    fn draw_stripes(&self, canvas: &mut Canvas) {
        for row in (0..self.rows).step_by(2) {
            let width = self.width() - MARGIN;
            canvas.rectangle("stripe", [MARGIN / 2, self.y(row) - ROW / 2, width, ROW]);
        }
    }

    /// A bar behind the first bytes, as many as loop already, and in front of them the words.
    fn draw_opening(&self, canvas: &mut Canvas, opening: Opening) {
        let (left, right) = (self.x(0), self.x(opening.bytes));
        if left < right {
            canvas.rectangle("opening", [left, ENTRY - 15, right - left, ROW]);
        }
        // A row that waits has a longer label.
        canvas.text("opening", self.labels, ENTRY, &opening.mark());
    }

    /// The bytes of the entry, and every fifth position.
    fn draw_entry(&self, canvas: &mut Canvas, entry: &[u8]) {
        let bytes = entry.iter().enumerate().take(self.last);
        for (position, byte) in bytes.skip(self.first) {
            let (class, text) = drawn(*byte);
            canvas.text(class, self.x(position) + BYTE / 2, ENTRY, &text);
        }
        for position in (self.first.next_multiple_of(5)..=self.last).step_by(5) {
            let x = self.x(position);
            canvas.text("position", x, ENTRY - 20, &position.to_string());
            canvas.line("grid", [x, ENTRY - 16, x, self.bottom()]);
        }
    }

    /// A line down from the position that matters most.
    fn draw_position(&self, canvas: &mut Canvas, position: usize) {
        if (self.first..=self.last).contains(&position) {
            let x = self.x(position);
            canvas.text("position here", x, ENTRY - 20, &position.to_string());
            canvas.line("here", [x, ENTRY - 16, x, self.bottom()]);
        }
    }

    /// A row: its label, the line from what calls it, and its marks.
    fn draw_row(&self, canvas: &mut Canvas, number: usize, row: &Row) {
        let (x, y) = (self.label(row.depth), self.y(number));
        if let Some((parent, depth)) = row.parent {
            let from = self.label(depth) + 4;
            let path = format!(
                "M{from} {} V{y} H{}",
                self.y(parent) + 8,
                x.max(from + 2) - 2
            );
            canvas.path("tree", &path);
        }
        canvas.text(if row.again { "again" } else { "" }, x, y + 4, &row.label);
        for mark in &row.marks {
            self.draw_mark(canvas, y, mark, row.again);
        }
    }

    fn draw_mark(&self, canvas: &mut Canvas, y: usize, mark: &Mark, again: bool) {
        let (start, end) = mark.positions();
        if self.first <= end && start <= self.last {
            let x = self.x(start);
            draw_shape(canvas, [x, y, self.x(end) - x], mark, again);
        }
    }

    /// What the marks mean, below the rows: the right edge of it.
    fn draw_legend(&self, canvas: &mut Canvas, legend: Vec<(Mark, &str)>) -> usize {
        let y = self.bottom() + ROW;
        let mut x = MARGIN + 8;
        for (mark, words) in legend {
            draw_shape(canvas, [x, y, BYTE], &mark, false);
            canvas.text("", x + BYTE + 4, y + 4, words);
            x += BYTE + width(words) + 3 * CHARACTER;
        }
        x
    }

    /// From each pair that waits an arrow to the next; from the last of a round back to the pair that is met again.
    fn draw_arrows(&self, canvas: &mut Canvas, rows: &Rows) {
        if !rows.waiting {
            return;
        }
        let x = self.labels - 8;
        for row in 1..self.rows {
            let path = format!("M{x} {} V{}", self.y(row - 1) + 4, self.y(row) - 8);
            canvas.path("arrow", &path);
            canvas.arrowhead(x, self.y(row) - 4);
        }
        if let Some(back) = rows.back {
            self.draw_back(canvas, x - 8, back);
        }
    }

    /// The arrow from the last row back to another, or to itself: then it leaves the row below and comes back above.
    fn draw_back(&self, canvas: &mut Canvas, x: usize, back: usize) {
        let last = self.rows.max(1) - 1;
        let apart = if back == last { 5 } else { 0 };
        let (from, to) = (self.y(last) + apart, self.y(back) - apart);
        canvas.path("arrow", &format!("M{x} {from} H{MARGIN} V{to} H{}", x - 4));
        canvas.arrowhead_right(x, to);
    }
}

/// Draws a mark from x on, around y, a success so wide.
fn draw_shape(canvas: &mut Canvas, [x, y, width]: [usize; 3], mark: &Mark, again: bool) {
    let bar = if again { "bar again" } else { "bar" };
    match mark {
        Mark::Took { byte, .. } => {
            canvas.rectangle(bar, [x + 1, y - 7, width.saturating_sub(2), 14]);
            if let Some(byte) = byte {
                let (class, text) = drawn(*byte);
                canvas.text(&format!("{class} taken"), x + BYTE / 2, y + 4, &text);
            }
        }
        Mark::Nothing(_) => canvas.rectangle(bar, [x - 2, y - 8, 4, 16]),
        Mark::Failed(_) => {
            let [left, right, top, bottom] = [x + 3, x + BYTE - 3, y - 6, y + 6];
            canvas.rectangle("failed", [left, top, right - left, bottom - top]);
            let cross = format!("M{left} {top} L{right} {bottom} M{left} {bottom} L{right} {top}");
            canvas.path("failed", &cross);
        }
        Mark::Waits(_) => canvas.circle("waits", x, y, 5),
        Mark::Stops(_) => canvas.circle("stops", x, y, 6),
    }
}

/// A byte in its column: the character, or two hexadecimal digits; a blank is made visible.
fn drawn(byte: u8) -> (&'static str, String) {
    match byte {
        b' ' => ("number", String::from("\u{2423}")),
        b'\\' => ("byte", String::from("\\")),
        _ => match shown(&[byte]).strip_prefix("\\x") {
            Some(number) => ("number", number.to_string()),
            None => ("byte", shown(&[byte])),
        },
    }
}
