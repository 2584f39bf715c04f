//! How often each answer and each refusal was met.
use entryreader::Error;
use std::collections::BTreeMap;

#[derive(Default)]
pub struct Met(BTreeMap<String, u64>);

impl Met {
    pub fn count(&mut self, what: String) {
        *self.0.entry(what).or_insert(0) += 1;
    }

    /// What a call found, by the name of its kind.
    pub fn found<T>(&mut self, call: &str, found: &Result<T, Error>, kind: impl Fn(&T) -> String) {
        let what = match found {
            Ok(found) => kind(found),
            Err(error) => format!("refused {}", error.number()),
        };
        self.count(format!("{call} {what}"));
    }

    /// Each of these was met more often than this, and nothing else was met.
    pub fn assert_met(&self, expected: &[&str], often: u64) {
        let met: Vec<&str> = self.0.keys().map(String::as_str).collect();
        let mut expected = expected.to_vec();
        expected.sort();
        assert_eq!(met, expected, "{self}");
        assert!(self.0.values().all(|met| often < *met), "{self}");
    }
}

impl std::fmt::Display for Met {
    fn fmt(&self, f: &mut std::fmt::Formatter<'_>) -> std::fmt::Result {
        write!(f, "{:?}", self.0)
    }
}
