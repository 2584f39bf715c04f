//! The waiting from the question on, where there is neither success nor failure.
use crate::words;
use entryreader::{Pair, Reader, Rule};
use std::collections::HashSet;

/// What the first called pair of a waiting one has come to.
#[derive(Clone, Copy, Debug, PartialEq, Eq)]
pub enum First {
    /// It waits itself.
    Waits,
    /// It succeeded.
    Ended(Pair, u32),
    /// It failed.
    Failed(Pair),
}

/// A pair that waits, and for what.
#[derive(Clone, Copy, Debug, PartialEq, Eq)]
pub struct Step {
    pub pair: Pair,
    pub first: First,
    /// The pair that it waits for.
    pub awaited: Pair,
}

/// The steps from the question on, to the pair where the waiting ends or to the first pair met a second time.
pub fn steps(reader: &Reader, entry: &[u8], asked: Pair) -> Vec<Step> {
    let mut steps = Vec::new();
    let mut met = HashSet::new();
    let mut pair = asked;
    while met.insert(pair) {
        let Some(step) = step(reader, entry, pair) else {
            break;
        };
        steps.push(step);
        pair = step.awaited;
    }
    steps
}

/// What a pair waits for, by the table that the question left; nothing where its rule calls nothing.
fn step(reader: &Reader, entry: &[u8], pair: Pair) -> Option<Step> {
    let Some(Rule::Call {
        first,
        then,
        otherwise,
    }) = reader.rule(pair.variable)
    else {
        return None;
    };
    let at = |variable, position| Pair { variable, position };
    let called = at(first, pair.position);
    let (first, awaited) = match cell(reader, entry, called)? {
        1 => (First::Failed(called), at(otherwise, pair.position)),
        success @ 5.. => (First::Ended(called, success - 5), at(then, success - 5)),
        _ => (First::Waits, called),
    };
    Some(Step {
        pair,
        first,
        awaited,
    })
}

/// The outcome in the cell of a pair.
fn cell(reader: &Reader, entry: &[u8], pair: Pair) -> Option<u32> {
    let row = words::index(pair.variable).checked_sub(1)?;
    let number = row * (entry.len() + 1) + words::index(pair.position);
    reader.table().get(2 * number).copied()
}
