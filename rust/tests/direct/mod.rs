//! A reader of the shorthand written separately: the form of a text and its refusals, and what each letter has when its line is read directly.
use std::collections::HashMap;

/// What a letter has at a position.
#[derive(Clone, Copy, Debug, PartialEq, Eq)]
pub enum Outcome {
    Success(usize),
    Failure,
    Loop,
    Missing,
}

pub enum Item {
    Letter(u8),
    Byte(u8),
    Fails,
    Round(Choice),
    Square(Choice),
}

/// Rows of items.
pub type Choice = Vec<Vec<Item>>;

/// The lines of a text, in their order.
pub struct Text {
    pub lines: Vec<(u8, Choice)>,
}

struct Reader<'a> {
    rest: std::iter::Copied<std::slice::Iter<'a, u8>>,
}

impl Reader<'_> {
    fn byte(&mut self) -> Result<u8, u32> {
        self.rest.next().ok_or(15)
    }

    fn expect(&mut self, wanted: u8) -> Result<(), u32> {
        if self.byte()? == wanted {
            Ok(())
        } else {
            Err(15)
        }
    }

    /// A choice up to the byte that ends it, in so many brackets.
    fn choice(&mut self, end: u8, depth: usize) -> Result<Choice, u32> {
        let mut rows = vec![vec![]];
        loop {
            let item = match self.byte()? {
                b if b == end => return Ok(rows),
                b'/' => {
                    rows.push(vec![]);
                    continue;
                }
                b @ b'A'..=b'Z' => Item::Letter(b),
                b'%' => Item::Fails,
                b'\'' => {
                    let quoted = self.byte()?;
                    self.expect(b'\'')?;
                    Item::Byte(quoted)
                }
                b'(' | b'[' if depth == 16 => return Err(16),
                b'(' => Item::Round(self.choice(b')', depth + 1)?),
                b'[' => Item::Square(self.choice(b']', depth + 1)?),
                _ => return Err(15),
            };
            rows.last_mut().expect("there is a row").push(item);
        }
    }
}

impl Text {
    /// The lines of a text, or the first of 15 and 16.
    pub fn read(bytes: &[u8]) -> Result<Text, u32> {
        let mut reader = Reader {
            rest: bytes.iter().copied(),
        };
        let mut lines: Vec<(u8, Choice)> = vec![];
        while let Some(letter) = reader.rest.next() {
            if !letter.is_ascii_uppercase() || lines.iter().any(|line| line.0 == letter) {
                return Err(15);
            }
            reader.expect(b'=')?;
            lines.push((letter, reader.choice(b'\n', 0)?));
        }
        if lines.is_empty() {
            return Err(15);
        }
        Ok(Text { lines })
    }

    /// The letters by first appearance.
    pub fn letters(&self) -> Vec<u8> {
        let mut letters = vec![];
        for (letter, choice) in &self.lines {
            see(*letter, &mut letters);
            each_item(choice, &mut |item| {
                if let Item::Letter(letter) = item {
                    see(*letter, &mut letters);
                }
            });
        }
        letters
    }

    /// The distinct letters plus 2, 3 for each item at any depth, 1 for each slash.
    pub fn allowance(&self) -> usize {
        let mut sum = self.letters().len() + 2;
        for (_, choice) in &self.lines {
            sum += choice.len() - 1;
            each_item(choice, &mut |item| {
                sum += 3;
                if let Item::Round(inner) | Item::Square(inner) = item {
                    sum += inner.len() - 1;
                }
            });
        }
        sum
    }

    fn line(&self, letter: u8) -> Option<&Choice> {
        self.lines
            .iter()
            .find(|line| line.0 == letter)
            .map(|line| &line.1)
    }
}

fn see(letter: u8, letters: &mut Vec<u8>) {
    if !letters.contains(&letter) {
        letters.push(letter);
    }
}

/// The items of a choice at any depth, from left to right.
fn each_item(choice: &Choice, visit: &mut dyn FnMut(&Item)) {
    for item in choice.iter().flatten() {
        visit(item);
        if let Item::Round(inner) | Item::Square(inner) = item {
            each_item(inner, visit);
        }
    }
}

/// A text read directly on one entry.
pub struct Direct<'a> {
    text: &'a Text,
    entry: &'a [u8],
    /// None while the letter's line is being read.
    known: HashMap<(u8, usize), Option<Outcome>>,
}

impl<'a> Direct<'a> {
    pub fn new(text: &'a Text, entry: &'a [u8]) -> Direct<'a> {
        Direct {
            text,
            entry,
            known: HashMap::new(),
        }
    }

    pub fn letter(&mut self, letter: u8, position: usize) -> Outcome {
        let Some(choice) = self.text.line(letter) else {
            return Outcome::Missing;
        };
        if let Some(known) = self.known.get(&(letter, position)) {
            return known.unwrap_or(Outcome::Loop);
        }
        self.known.insert((letter, position), None);
        let outcome = self.choice(choice, position);
        self.known.insert((letter, position), Some(outcome));
        outcome
    }

    fn choice(&mut self, choice: &'a Choice, position: usize) -> Outcome {
        for row in choice {
            let outcome = self.row(row, position);
            if outcome != Outcome::Failure {
                return outcome;
            }
        }
        Outcome::Failure
    }

    fn row(&mut self, row: &'a [Item], start: usize) -> Outcome {
        let mut position = start;
        for item in row {
            match self.item(item, position) {
                Outcome::Success(end) => position = end,
                other => return other,
            }
        }
        Outcome::Success(position)
    }

    fn item(&mut self, item: &'a Item, position: usize) -> Outcome {
        match item {
            Item::Letter(letter) => self.letter(*letter, position),
            Item::Fails => Outcome::Failure,
            Item::Byte(byte) if self.entry.get(position) == Some(byte) => {
                Outcome::Success(position + 1)
            }
            Item::Byte(_) => Outcome::Failure,
            Item::Round(choice) => self.choice(choice, position),
            Item::Square(choice) => match self.choice(choice, position) {
                Outcome::Success(_) => Outcome::Success(position),
                other => other,
            },
        }
    }
}
