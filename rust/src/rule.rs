//! The rules of a sheet.

/// The rule of a variable.
///
/// ```
/// use entryreader::{Reader, Rule};
///
/// let reader = Reader::new(b"    2    1   46    0    0\n    1    4    2    1    2\n")?;
/// assert_eq!(reader.rule(1), Some(Rule::Call { first: 2, then: 1, otherwise: 2 }));
/// assert_eq!(reader.rule(2), None);
/// # Ok::<(), entryreader::Error>(())
/// ```
#[derive(Clone, Copy, Debug, PartialEq, Eq, Hash)]
pub enum Rule {
    /// Kind 0: always succeeds, takes nothing.
    Succeed,
    /// Kind 1: always fails.
    Fail,
    /// Kind 2: that byte.
    Byte(u8),
    /// Kind 3: a byte of that class, 1 to 6.
    Class(u8),
    /// Kind 4: the first variable; where it succeeds, the variable `then` from where it ended; where it fails, `otherwise` from the same position.
    Call {
        /// The variable called first.
        first: u32,
        /// The variable called after a success of the first.
        then: u32,
        /// The variable called after a failure of the first.
        otherwise: u32,
    },
}

impl Rule {
    /// The rule of a word that the sheet call stores: its kind and 1, or 0 for no rule; then its operands, the variables less 1.
    pub(crate) fn from_word(word: u32) -> Option<Rule> {
        let [kind, first, second, third] = word.to_be_bytes();
        match kind {
            1 => Some(Rule::Succeed),
            2 => Some(Rule::Fail),
            3 => Some(Rule::Byte(first)),
            4 => Some(Rule::Class(first)),
            5 => Some(Rule::Call {
                first: u32::from(first) + 1,
                then: u32::from(second) + 1,
                otherwise: u32::from(third) + 1,
            }),
            _ => None,
        }
    }
}
