//! Elements of SVG 1.1.
use std::fmt::{Display, Write};

/// How the classes of elements look.
const STYLE: &str = "
text { font: 13px 'DejaVu Sans Mono', Menlo, Consolas, 'Liberation Mono', monospace; fill: #222222 }
text.title { font-weight: bold; font-size: 14px }
text.again { fill: #888888 }
text.byte { text-anchor: middle; font-size: 14px }
text.number { text-anchor: middle; font-size: 10px; fill: #777777 }
text.position { text-anchor: middle; font-size: 10px; fill: #777777 }
text.taken { fill: #ffffff }
text.here { fill: #b3261e; stroke: none; font-weight: bold }
text.opening { fill: #8a5a00; font-weight: bold }
rect.opening { fill: #ffe3a3 }
.stripe { fill: #f3f4f6 }
.grid { stroke: #d8dbe0; stroke-width: 1 }
path.here { stroke: #b3261e; stroke-width: 1; stroke-dasharray: 3 3 }
.tree { stroke: #9aa0a8; stroke-width: 1; fill: none }
.bar { fill: #2f6db3 }
.bar.again { fill: #a9c4e4 }
.failed { stroke: #b3261e; stroke-width: 1.5; fill: none }
.waits { stroke: #2f6db3; stroke-width: 2; fill: #ffffff }
.stops { fill: #b3261e }
.arrow { stroke: #b3261e; stroke-width: 1.5; fill: none }
.head { fill: #b3261e }
";

/// The elements that were drawn.
#[derive(Default)]
pub struct Canvas {
    elements: String,
}

impl Canvas {
    /// Adds a line to the elements.
    fn add(&mut self, element: impl Display) {
        // Writing to a string cannot fail.
        let _ = writeln!(self.elements, "{element}");
    }

    pub fn text(&mut self, class: &str, x: usize, y: usize, text: &str) {
        let text = escaped(text);
        self.add(format_args!(
            "<text class=\"{class}\" x=\"{x}\" y=\"{y}\">{text}</text>"
        ));
    }

    pub fn rectangle(&mut self, class: &str, [x, y, width, height]: [usize; 4]) {
        self.add(format_args!(
            "<rect class=\"{class}\" x=\"{x}\" y=\"{y}\" width=\"{width}\" height=\"{height}\"/>"
        ));
    }

    pub fn line(&mut self, class: &str, [x1, y1, x2, y2]: [usize; 4]) {
        self.path(class, &format!("M{x1} {y1} L{x2} {y2}"));
    }

    pub fn path(&mut self, class: &str, path: &str) {
        self.add(format_args!("<path class=\"{class}\" d=\"{path}\"/>"));
    }

    pub fn circle(&mut self, class: &str, x: usize, y: usize, radius: usize) {
        self.add(format_args!(
            "<circle class=\"{class}\" cx=\"{x}\" cy=\"{y}\" r=\"{radius}\"/>"
        ));
    }

    /// The head of an arrow that comes from above.
    pub fn arrowhead(&mut self, x: usize, y: usize) {
        self.path("head", &format!("M{x} {y} l-4 -7 h8 z"));
    }

    /// The head of an arrow that comes from the left.
    pub fn arrowhead_right(&mut self, x: usize, y: usize) {
        self.path("head", &format!("M{x} {y} l-7 -4 v8 z"));
    }

    /// The whole drawing, of this size.
    pub fn finish(self, width: usize, height: usize) -> String {
        format!(
            "<?xml version=\"1.0\" encoding=\"UTF-8\"?>
<svg xmlns=\"http://www.w3.org/2000/svg\" version=\"1.1\" width=\"{width}\" height=\"{height}\" viewBox=\"0 0 {width} {height}\">
<style type=\"text/css\">{STYLE}</style>
<rect width=\"{width}\" height=\"{height}\" fill=\"#ffffff\"/>
{}</svg>
",
            self.elements
        )
    }
}

/// A text within an element.
fn escaped(text: &str) -> String {
    text.replace('&', "&amp;")
        .replace('<', "&lt;")
        .replace('>', "&gt;")
}
