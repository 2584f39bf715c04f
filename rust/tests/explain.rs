//! The program `explain`, run as a sheet writer runs it: texts written by hand, and trees and rounds beside the table on random questions.
#[path = "explain/answers.rs"]
mod answers;
#[path = "explain/arguments.rs"]
mod arguments;
#[path = "explain/damaged.rs"]
mod damaged;
#[path = "explain/drawings.rs"]
mod drawings;
#[path = "explain/openings.rs"]
mod openings;
#[path = "explain/program.rs"]
mod program;
#[path = "explain/questions.rs"]
mod questions;
mod random;
#[path = "explain/sheets.rs"]
mod sheets;
#[path = "explain/texts.rs"]
mod texts;
