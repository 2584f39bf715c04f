//! The sheet and the entry that are explained.
use crate::words;
use entryreader::{Pair, Reader, Rule};

/// A sheet that was read, and an entry.
#[derive(Clone, Copy)]
pub struct Case<'a> {
    pub reader: &'a Reader,
    pub entry: &'a [u8],
}

impl Case<'_> {
    /// A pair by its variable's name.
    pub fn pair(&self, pair: Pair) -> String {
        format!("{} at {}", self.reader.name(pair.variable), pair.position)
    }

    /// The rule of a variable in words.
    pub fn rule(&self, variable: u32) -> String {
        let rule = self.reader.rule(variable);
        rule.map_or_else(
            || String::from("no rule"),
            |rule| words::rule(self.reader, rule),
        )
    }

    /// A pair and its rule.
    pub fn label(&self, pair: Pair) -> String {
        format!("{}: {}", self.pair(pair), self.rule(pair.variable))
    }

    /// The bytes from one position to another, and the two positions; "nothing" where they are the same.
    pub fn taken(&self, start: u32, end: u32) -> String {
        let bytes = self.entry.get(words::index(start)..words::index(end));
        match bytes {
            None | Some([]) => String::from("nothing"),
            Some(bytes) => format!("{}, {start} to {end}", words::quoted(bytes)),
        }
    }

    /// The position behind the last byte.
    pub fn end(&self) -> u32 {
        u32::try_from(self.entry.len()).unwrap_or(u32::MAX)
    }

    /// Does the pair ask for a byte where the entry ends?
    pub fn runs_out(&self, pair: Pair) -> bool {
        pair.position == self.end() && self.asks_for_a_byte(pair.variable)
    }

    /// Does the variable's rule ask for a byte?
    pub fn asks_for_a_byte(&self, variable: u32) -> bool {
        let rule = self.reader.rule(variable);
        matches!(rule, Some(Rule::Byte(_) | Rule::Class(_)))
    }
}
