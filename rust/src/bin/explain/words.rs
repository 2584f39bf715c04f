//! Bytes and rules in words.
use entryreader::{Error, Reader, Rule, shown};

/// The shown characters of a long text, before it is cut.
const MOST: usize = 40;

/// What the classes of bytes are, from class 1 on.
const CLASSES: [&str; 6] = [
    "a digit",
    "a capital letter",
    "a small letter",
    "a blank or a tab",
    "a sign or a punctuation mark",
    "a byte from 128 to 159",
];

/// How many characters stand for the bytes.
pub fn width(bytes: &[u8]) -> usize {
    shown(bytes).chars().count()
}

/// The bytes between quotation marks; of many only the first, and two full stops behind them.
pub fn quoted(bytes: &[u8]) -> String {
    let widths = bytes.iter().scan(0, |sum, byte| {
        *sum += width(&[*byte]);
        Some(*sum)
    });
    let count = widths.take_while(|width| *width <= MOST).count();
    let rest = if count < bytes.len() { " .." } else { "" };
    format!("\"{}\"{rest}", shown(&bytes[..count]))
}

/// A byte as a rule names it.
pub fn byte(byte: u8) -> String {
    format!("byte {byte} \"{}\"", shown(&[byte]))
}

/// A rule, by the names that the sheet's variables have.
pub fn rule(reader: &Reader, rule: Rule) -> String {
    match rule {
        Rule::Succeed => String::from("always succeeds"),
        Rule::Fail => String::from("always fails"),
        Rule::Byte(asked) => byte(asked),
        Rule::Class(class) => {
            let index = usize::from(class).checked_sub(1);
            let words = index.and_then(|index| CLASSES.get(index));
            format!("class {class}, {}", words.unwrap_or(&"no byte"))
        }
        Rule::Call {
            first,
            then,
            otherwise,
        } => {
            let [first, then, otherwise] = [first, then, otherwise].map(|v| reader.name(v));
            format!("{first}, then {then}; or, where {first} fails, {otherwise}")
        }
    }
}

/// The first line about a refusal.
pub fn refused(error: &Error) -> String {
    format!("refused ({}): {error}", error.number())
}

/// A position as an index.
pub fn index(position: u32) -> usize {
    usize::try_from(position).unwrap_or(usize::MAX)
}
