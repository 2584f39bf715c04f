//! Sheets and entries to measure with.

/// A line of a sheet.
pub fn row(numbers: [u32; 5]) -> String {
    numbers.map(|x| format!("{x:>5}")).concat() + "\n"
}

/// A sheet of V rules, the first one its start, with full stop as the endmarker.
pub fn sheet(rules: &[[u32; 4]]) -> Vec<u8> {
    let mut text = row([rules.len() as u32, 1, 46, 0, 0]);
    for (rule, variable) in rules.iter().zip(1..) {
        text += &row([variable, rule[0], rule[1], rule[2], rule[3]]);
    }
    text.into_bytes()
}

/// What is asked: variable 1 at position 0.
pub struct Question {
    pub name: &'static str,
    pub sheet: Vec<u8>,
    pub entry: Vec<u8>,
}

impl Question {
    /// The number of variables.
    pub fn variables(&self) -> usize {
        std::str::from_utf8(&self.sheet[..5])
            .expect("digits")
            .trim()
            .parse()
            .expect("a number")
    }

    /// A variable whose rule calls nothing.
    pub fn leaf(&self) -> u32 {
        let calls_nothing = |line: &[u8]| line[9] != b'4';
        let mut rules = self.sheet.chunks_exact(26).skip(1);
        1 + rules.position(calls_nothing).expect("a leaf") as u32
    }

    /// The cells of the table.
    pub fn cells(&self) -> usize {
        self.variables() * (self.entry.len() + 1)
    }
}

/// Letters one after the other: 1 = "a" 1, or nothing. One rule has no use.
pub fn letters(n: usize) -> Question {
    let mut entry = vec![b'a'; n];
    entry[n - 1] = b'b';
    Question {
        name: "letters, V = 4",
        sheet: sheet(&[[4, 2, 1, 3], [2, 97, 0, 0], [0; 4], [1, 0, 0, 0]]),
        entry,
    }
}

/// The same without the rule that has no use: the narrowest table.
pub fn run(n: usize) -> Question {
    let mut entry = vec![b'a'; n];
    entry[n - 1] = b'b';
    Question {
        name: "letters, V = 3",
        sheet: sheet(&[[4, 2, 1, 3], [2, 97, 0, 0], [0; 4]]),
        entry,
    }
}

/// Brackets one in another: 1 = "(" 1 ")" 1, or nothing.
pub fn brackets(n: usize) -> Question {
    let mut entry: Vec<u8> = (0..n)
        .map(|i| if i < n / 2 { b'(' } else { b')' })
        .collect();
    entry[n - 1] = b'x';
    Question {
        name: "brackets, V = 7",
        sheet: sheet(&[
            [4, 2, 3, 4],
            [2, 40, 0, 0],
            [4, 1, 5, 6],
            [0; 4],
            [4, 7, 1, 6],
            [1, 0, 0, 0],
            [2, 41, 0, 0],
        ]),
        entry,
    }
}

/// The first of the bytes that words begin with; up to 222 none of them is of class 3.
const FIRST: u32 = 126;

/// Words that begin with one of many letters: a choice of V / 2 rules at each position, so that the table is wide.
pub fn wide(variables: u32, n: usize) -> Question {
    let choices = (variables - 6) / 2;
    let mut rules = vec![
        [4, 7, 1, 2],
        [0; 4],
        [1, 0, 0, 0],
        [3, 3, 0, 0],
        [4, 4, 5, 2],
        [0; 4],
    ];
    for i in 0..choices {
        let next = if i + 1 < choices { 7 + 2 * (i + 1) } else { 3 };
        rules.push([4, 8 + 2 * i, 5, next]);
        rules.push([2, FIRST + i, 0, 0]);
    }
    rules.resize(variables as usize, [0; 4]);
    let mut seed = 7u32;
    let entry = (0..n)
        .map(|_| {
            seed = seed.wrapping_mul(1664525).wrapping_add(1013904223);
            FIRST as u8 + (seed >> 16) as u8 % choices as u8
        })
        .collect();
    Question {
        name: "choices, V = 200",
        sheet: sheet(&rules),
        entry,
    }
}

/// So many letters less one, and a full stop, behind which alone there is a loop: few of the variables, 5 or more, are asked for at a
/// position. Without the full stop the entry fails.
pub fn last_byte(variables: usize, n: usize) -> Question {
    let mut rules = vec![
        [4, 2, 1, 3],
        [2, 97, 0, 0],
        [4, 4, 5, 2],
        [2, 46, 0, 0],
        [4, 5, 5, 5],
    ];
    rules.resize(variables, [0; 4]);
    Question {
        name: "a loop at the end, few cells",
        sheet: sheet(&rules),
        entry: ended(n),
    }
}

/// The same with a choice of 126 bytes at each position, of which the letter is the last: nearly all of 256 variables are asked for.
pub fn last_byte_of_choices(n: usize) -> Question {
    let choices = 126;
    let [behind, stop, round] = [1, 2, 3].map(|i| 2 * choices + i);
    let mut rules: Vec<[u32; 4]> = (1..=choices)
        .map(|i| [4, choices + i, 1, if i == choices { behind } else { i + 1 }])
        .collect();
    rules.extend((1..=choices).map(|i| [2, if i == choices { 97 } else { FIRST + i }, 0, 0]));
    rules.extend([
        [4, stop, round, 2 * choices],
        [2, 46, 0, 0],
        [4, round, round, round],
    ]);
    rules.resize(256, [0; 4]);
    Question {
        name: "a loop at the end, nearly all cells",
        sheet: sheet(&rules),
        entry: ended(n),
    }
}

/// So many letters less one, and a full stop.
fn ended(n: usize) -> Vec<u8> {
    let mut entry = vec![b'a'; n];
    entry[n - 1] = b'.';
    entry
}

/// Rules in the making: a sequence, a choice, an option and a repetition as rules of kind 4.
pub struct Rules(Vec<[u32; 4]>);

impl Rules {
    /// Number 1 is kept for the start.
    pub fn new() -> Rules {
        Rules(vec![[0; 4]])
    }

    fn add(&mut self, rule: [u32; 4]) -> u32 {
        if let Some(at) = self.0.iter().skip(1).position(|old| *old == rule) {
            return at as u32 + 2;
        }
        self.0.push(rule);
        self.0.len() as u32
    }

    fn nothing(&mut self) -> u32 {
        self.add([0; 4])
    }

    fn fails(&mut self) -> u32 {
        self.add([1, 0, 0, 0])
    }

    pub fn class(&mut self, class: u32) -> u32 {
        self.add([3, class, 0, 0])
    }

    pub fn sequence(&mut self, items: &[u32]) -> u32 {
        let fails = self.fails();
        let mut rest = *items.last().expect("an item");
        for item in items.iter().rev().skip(1) {
            rest = self.add([4, *item, rest, fails]);
        }
        rest
    }

    pub fn choice(&mut self, items: &[u32]) -> u32 {
        let nothing = self.nothing();
        let mut rest = *items.last().expect("an item");
        for item in items.iter().rev().skip(1) {
            rest = self.add([4, *item, nothing, rest]);
        }
        rest
    }

    pub fn option(&mut self, item: u32) -> u32 {
        let nothing = self.nothing();
        self.add([4, item, nothing, nothing])
    }

    /// As many as there are, or none.
    pub fn many(&mut self, item: u32) -> u32 {
        let nothing = self.nothing();
        let itself = self.0.len() as u32 + 1;
        self.add([4, item, itself, nothing])
    }

    pub fn word(&mut self, word: &str) -> u32 {
        let bytes: Vec<u32> = word
            .bytes()
            .map(|b| self.add([2, b.into(), 0, 0]))
            .collect();
        self.sequence(&bytes)
    }

    pub fn words(&mut self, words: &[&str]) -> u32 {
        let each: Vec<u32> = words.iter().map(|word| self.word(word)).collect();
        self.choice(&each)
    }

    /// The sheet that asks for a variable, which takes number 1.
    pub fn sheet(mut self, start: u32) -> Vec<u8> {
        self.0[0] = self.0[start as usize - 1];
        sheet(&self.0)
    }
}

pub const MONTHS: [&str; 12] = [
    "January",
    "February",
    "March",
    "April",
    "May",
    "June",
    "July",
    "August",
    "September",
    "October",
    "November",
    "December",
];

pub const UNITS: [&str; 4] = ["year", "month", "week", "day"];

/// Dates and ages, as `12 March 1843, aged 3 years 2 months.`: the grammar that peers/dates.lua and peers/dates.leg have in their own idiom.
pub fn dates_sheet() -> Vec<u8> {
    let mut rules = Rules::new();
    let digit = rules.class(1);
    let blank = rules.word(" ");
    let more = rules.option(digit);
    let number = rules.sequence(&[digit, more]);
    let month = rules.words(&MONTHS);
    let year = rules.sequence(&[digit, digit, digit, digit]);
    let unit = rules.words(&UNITS);
    let letter = rules.word("s");
    let plural = rules.option(letter);
    let term = rules.sequence(&[number, blank, unit, plural]);
    let further = rules.sequence(&[blank, term]);
    let further = rules.option(further);
    let aged = rules.word(", aged ");
    let stop = rules.word(".");
    let entry = rules.sequence(&[number, blank, month, blank, year, aged, term, further, stop]);
    rules.sheet(entry)
}

/// So many entries of that form.
pub fn dates(count: usize) -> Vec<Vec<u8>> {
    (0..count)
        .map(|i| {
            let month = MONTHS[i * 7 % 12];
            let (day, year) = (1 + i * 11 % 28, 1650 + i * 37 % 250);
            let (first, second) = (2 + i % 80, 2 + i % 10);
            let units = [("years", "months"), ("months", "weeks"), ("weeks", "days")][i % 3];
            format!(
                "{day} {month} {year}, aged {first} {} {second} {}.",
                units.0, units.1
            )
            .into_bytes()
        })
        .collect()
}

/// Rules on which a recognizer without a table takes twice as long for each level: S = T "x" / T, and so on for T, and "a" at last.
pub fn levels(depth: u32) -> Question {
    let mut rules = Rules::new();
    let mut inner = rules.word("a");
    let x = rules.word("x");
    for _ in 0..depth {
        let longer = rules.sequence(&[inner, x]);
        inner = rules.choice(&[longer, inner]);
    }
    Question {
        name: "levels",
        sheet: rules.sheet(inner),
        entry: b"ab".to_vec(),
    }
}

/// A sheet of so many rules, 12 or more, for short entries: words and numbers up to a full stop; the other rules are names of months.
pub fn register(variables: usize, length: usize) -> Question {
    let mut rules = vec![
        [4, 2, 12, 8],
        [4, 3, 2, 7],
        [4, 9, 7, 4],
        [4, 10, 7, 5],
        [4, 11, 7, 6],
        [2, 44, 0, 0],
        [0; 4],
        [1, 0, 0, 0],
        [3, 3, 0, 0],
        [3, 1, 0, 0],
        [3, 4, 0, 0],
        [2, 46, 0, 0],
    ];
    let mut letters = MONTHS.iter().flat_map(|month| month.bytes()).cycle();
    while rules.len() < variables {
        let letter = letters.next().expect("a letter");
        let next = rules.len() as u32 + 1;
        rules.push([2, letter.into(), 0, 0]);
        rules.push([4, next, (next + 2).min(variables as u32), 8]);
    }
    rules.truncate(variables);
    let mut text = b"baptised 12 march 1843 of john miller and anne his wife at the old church in the lower town 7".to_vec();
    text.truncate(length - 1);
    text.push(b'.');
    Question {
        name: "register",
        sheet: sheet(&rules),
        entry: text,
    }
}
