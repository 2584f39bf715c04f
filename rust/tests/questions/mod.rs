//! Random sheets, entries, old entries, pairs and readings: valid and damaged.
use crate::random::Random;
use crate::recognizer::{self, FIELDS, LINE, Line, Question, bytes};
use entryreader::Pair;

/// What the calls are handed.
#[derive(Clone)]
pub struct Case {
    pub sheet: Vec<u8>,
    pub entry: Vec<u8>,
    pub asked: Pair,
    /// V times (n + 1), with the V of the sheet before it was damaged.
    pub cells: usize,
}

impl Case {
    /// About variable 1 at a position, on a sheet whose line 1 is right.
    pub fn new(sheet: impl AsRef<[u8]>, entry: &[u8], position: u32) -> Case {
        let sheet = sheet.as_ref().to_vec();
        let variables = std::str::from_utf8(&sheet[..5]).map(str::trim);
        let variables: usize = variables
            .ok()
            .and_then(|digits| digits.parse().ok())
            .expect("line 1 has V");
        Case {
            cells: variables * (entry.len() + 1),
            sheet,
            entry: entry.to_vec(),
            asked: Pair {
                variable: 1,
                position,
            },
        }
    }

    pub fn question(&self) -> Question<'_> {
        Question {
            sheet: &self.sheet,
            entry: &self.entry,
            asked: self.asked,
        }
    }
}

impl std::fmt::Display for Case {
    fn fmt(&self, f: &mut std::fmt::Formatter<'_>) -> std::fmt::Result {
        let sheet = String::from_utf8_lossy(&self.sheet);
        let entry = String::from_utf8_lossy(&self.entry);
        write!(f, "{sheet}{entry:?} {:?}", self.asked)
    }
}

pub fn row(numbers: [u64; 5]) -> String {
    numbers.map(|x| format!("{x:>5}")).concat() + "\n"
}

/// How the rules of a sheet call one another.
#[derive(Clone, Copy, PartialEq)]
enum Style {
    /// Any variable calls any.
    Any,
    /// A variable calls some of the next: there are fewer loops.
    Later,
    /// Variable 1 tests for the endmarker, the next ones for other bytes in turn, and then it goes on behind the byte: many such sheets go through
    /// the whole entry.
    Walking,
}

/// A rule that calls nothing.
fn leaf(random: &mut Random) -> [u64; 4] {
    match random.pick(&[0, 1, 2, 2, 2, 2, 3, 3]) {
        2 => {
            let any = random.below(256);
            let bytes = [233, 233, 233, 233, 97, 97, 98, 45, 46, 46, any];
            [2, random.pick(&bytes), 0, 0]
        }
        3 => [3, random.pick(&[1, 2, 3, 3, 3, 4, 5, 6]), 0, 0],
        kind => [kind, 0, 0, 0],
    }
}

/// A rule of kind 4.
fn call(random: &mut Random, variable: u64, variables: u64, style: Style) -> [u64; 4] {
    let mut between = |first: u64, last: u64| first + random.below(last + 1 - first);
    let half = variables / 2;
    let [b, c, d] = match style {
        Style::Later if variable < variables => {
            [(); 3].map(|()| between(variable + 1, variables.min(variable + 4)))
        }
        Style::Walking if variable == 1 => [variables, variables - 1, 2],
        Style::Walking => [
            between(half + 1, variables - 2),
            between(1, 2),
            between(variable + 1, half + 1),
        ],
        _ => [(); 3].map(|()| between(1, variables)),
    };
    [4, b, c, d]
}

fn rule(random: &mut Random, variable: u64, variables: u64, style: Style) -> [u64; 4] {
    let calls = match style {
        Style::Any => random.one_in(2),
        Style::Later => variable == 1 || !random.one_in(4),
        Style::Walking => variable <= variables / 2,
    };
    match (style, variables - variable) {
        (_, _) if calls => call(random, variable, variables, style),
        (Style::Walking, 0) => [2, 46, 0, 0],
        (Style::Walking, 1) => [0, 0, 0, 0],
        _ => leaf(random),
    }
}

/// A sheet of so many variables, some of them without a rule.
pub fn sheet(random: &mut Random, variables: u64) -> Vec<u8> {
    let start = match random.below(3) {
        0 => 1 + random.below(variables),
        _ => 1,
    };
    let style = match random.below(5) {
        0 => Style::Any,
        1 | 2 => Style::Later,
        _ if variables < 6 => Style::Any,
        _ => Style::Walking,
    };
    let missing = random.pick(&[8, 40, 1000]);
    let mut text = row([variables, start, 46, 0, 0]);
    for variable in 1..=variables {
        let [kind, b, c, d] = rule(random, variable, variables, style);
        if !random.one_in(missing) {
            text += &row([variable, kind, b, c, d]);
        }
    }
    text.into_bytes()
}

/// Sheets that are refused, with their number: each has all the faults that come behind the one that counts.
pub fn refused_sheets() -> [(u32, String); 6] {
    let (first, bad_first) = ("    1    1   46    0    0\n", "    1    2   46    0    0\n");
    let (bad_rule, bad_kind) = ("    0    9    1    1    1\n", "    1    9    1    1    1\n");
    let (no_number, no_field) = ("    0    9    x    1    1\n", "    x    2   46    0    0\n");
    let cut = &no_number[..25];
    [
        (1, [no_field, cut]),
        (2, [no_field, no_number]),
        (2, [first, no_number]),
        (3, [bad_first, no_number]),
        (4, [first, bad_rule]),
        (5, [first, bad_kind]),
    ]
    .map(|(number, lines)| (number, lines.concat()))
}

/// The bytes of most entries. However many of them are taken from the front, as many are from 128 on as are letters below 128, or more.
const BYTES: [u8; 16] = [
    233, 233, b'a', b'a', 201, b'b', b'-', b'6', 160, b'A', b' ', 215, b'!', 128, 0, b'.',
];

/// So many bytes: any, or some of a few; in long entries of fewer. In some entries another byte stands for all from 128 on. Most have an endmarker
/// at the end.
pub fn entry(random: &mut Random, length: usize) -> Vec<u8> {
    let (any, other) = (random.one_in(10), random.one_in(8));
    let accented = 128 + random.below(128) as u8;
    let most = 1 + random.index(if length < 100 { BYTES.len() } else { 4 });
    let choice = &BYTES[..1 + random.index(most)];
    let mut entry: Vec<u8> = (0..length)
        .map(|_| match random.pick(choice) {
            _ if any => random.below(256) as u8,
            128.. if other => accented,
            byte => byte,
        })
        .collect();
    if let (Some(last), false) = (entry.last_mut(), random.one_in(4)) {
        *last = b'.';
    }
    entry
}

/// The sheet of so many variables behind rules that take these bytes first, and fail without one of them.
fn behind(sheet: &[u8], variables: u64, taken: &[u8]) -> Vec<u8> {
    let (takers, count) = (variables + 1, taken.len() as u64);
    let (bytes, fails) = (takers + count, takers + 2 * count);
    let start = std::str::from_utf8(&sheet[5..10]).map(str::trim);
    let start: u64 = start
        .ok()
        .and_then(|text| text.parse().ok())
        .expect("1 to V");
    let mut text = row([fails, takers, 46, 0, 0]).into_bytes();
    text.extend(&sheet[26..]);
    for number in 0..count {
        let next = if number + 1 < count {
            takers + number + 1
        } else {
            start
        };
        text.extend(row([takers + number, 4, bytes + number, next, fails]).bytes());
    }
    for (byte, variable) in taken.iter().zip(bytes..) {
        text.extend(row([variable, 2, (*byte).into(), 0, 0]).bytes());
    }
    text.extend(row([fails, 1, 0, 0, 0]).bytes());
    text
}

/// A sheet of so many variables and an entry of so many bytes. Where there is room, five in twelve have some more in front: bytes that are taken first, so that
/// an opening that loops has them all.
pub fn sheet_and_entry(random: &mut Random, variables: u64, length: usize) -> (Vec<u8>, Vec<u8>) {
    let (sheet, entry) = (sheet(random, variables), entry(random, length));
    let count = random.pick(&[0, 0, 0, 0, 0, 0, 0, 1, 2, 3, 4, 6]);
    if count == 0 || 255 < variables + 2 * count as u64 || 4_096 < length + count {
        return (sheet, entry);
    }
    let taken: Vec<u8> = (0..count).map(|_| random.pick(b"\xE9\xC9a6-")).collect();
    let sheet = behind(&sheet, variables, &taken);
    (sheet, [taken, entry].concat())
}

/// An entry that another one corrects, and the position that is named for it. Mostly they differ there or nowhere; else elsewhere or in length, or no
/// byte stands there.
pub fn old_entry(random: &mut Random, entry: &[u8]) -> (Vec<u8>, u32) {
    let (mut old, n) = (entry.to_vec(), entry.len());
    let at = random.index(n.max(1));
    if let Some(byte) = old.get_mut(at) {
        let any = random.below(256) as u8;
        *byte = random.pick(&[*byte, any, !*byte, b'a', b'.', 0, 255]);
    }
    match random.below(20) {
        0 => drop(old.pop()),
        1 => old.push(b'.'),
        2 => old.rotate_left(n.min(1)),
        _ => {}
    }
    let c = match random.below(20) {
        0 => random.pick(&[n as u32, n as u32 + 1, u32::MAX]),
        1 => random.index(n.max(1)) as u32,
        _ => at as u32,
    };
    (old, c)
}

/// A field of the sheet with another number in it.
fn other_field(random: &mut Random, sheet: &mut [u8], from: usize) {
    let number = random.pick(&[0, 1, 2, 3, 4, 5, 6, 7, 8, 9, 255, 256, 257, 99999]);
    let start = from + 5 * random.index(5);
    sheet[start..start + 5].copy_from_slice(format!("{number:>5}").as_bytes());
}

/// Damages a sheet: a byte, a field, a line, or its length. Some damaged sheets are still valid.
fn damage(random: &mut Random, sheet: &mut Vec<u8>) {
    let at = random.index(sheet.len());
    let byte = random.pick(b" 0123456789\n-a");
    let lines = sheet.len() / 26;
    let (one, other) = (26 * random.index(lines), 26 * random.index(lines));
    match random.below(10) {
        0 => sheet[at] = byte,
        1 => sheet.insert(at, byte),
        2 => drop(sheet.remove(at)),
        3 => sheet.swap(at, 25),
        4 => other_field(random, sheet, 0),
        5 | 6 => other_field(random, sheet, one),
        7 => (0..26).for_each(|i| sheet.swap(one + i, other + i)),
        8 => sheet.extend_from_within(one..one + 26),
        _ => {
            let length = random.pick(&[0, 25, 26, 27, 52, 26 * 257, 26 * 258, 26 * 259 - 1]);
            let line = sheet[one..one + 26].to_vec();
            sheet.extend(line.repeat(260));
            sheet.truncate(length);
        }
    }
}

/// A pair of the sheet and the entry; sometimes none.
fn asked(random: &mut Random, variables: u64, length: usize) -> Pair {
    let variable = match random.below(40) {
        0 => random.pick(&[0, variables + 1, 1 << 31]),
        1..33 => 1,
        _ => 1 + random.below(variables),
    };
    let position = match random.below(40) {
        0 => length as u64 + random.pick(&[1, 2, 1 << 31]),
        1..20 => 0,
        _ => random.below(length as u64 + 1),
    };
    Pair {
        variable: variable as u32,
        position: position as u32,
    }
}

/// A question: mostly of up to 16 variables and 12 bytes, some with more; a quarter of the sheets damaged.
pub fn case(random: &mut Random) -> Case {
    let (variables, length) = match random.below(200) {
        0 => (
            1 + random.below(24),
            random.pick(&[4094, 4095, 4096, 4097, 4098]),
        ),
        1 | 2 => (1 + random.below(24), random.index(4099)),
        3..9 => (
            random.pick(&[40, 79, 80, 255, 256]),
            random.pick(&[0, 3, 11, 12, 13]),
        ),
        9..15 => (6 + random.below(19), 100 + random.index(200)),
        _ => (1 + random.below(16), random.index(13)),
    };
    let (sheet, entry) = sheet_and_entry(random, variables, length);
    let mut case = Case::new(sheet, &entry, 0);
    if random.one_in(4) {
        damage(random, &mut case.sheet);
    }
    let variables = (case.cells / (entry.len() + 1)) as u64;
    case.asked = asked(random, variables, entry.len());
    case
}

/// The reading of another pair of the same sheet and entry; no lines where it has none.
fn other_reading(random: &mut Random, case: &Case) -> Vec<Line> {
    let variables = (case.cells / (case.entry.len() + 1)) as u64;
    let asked = Pair {
        variable: 1 + random.below(variables) as u32,
        position: random.below(case.entry.len() as u64 + 1) as u32,
    };
    let question = Question {
        asked,
        ..case.question()
    };
    recognizer::reading(question).unwrap_or_default()
}

/// One reading after another; the second's references go on with the second's lines.
fn joined(first: &[Line], second: &[Line]) -> Vec<Line> {
    let before = first.len() as u32;
    let moved = second.iter().map(|line| {
        let mut line = *line;
        for number in &mut line[4..] {
            *number += if *number == 0 { 0 } else { before };
        }
        line
    });
    first.iter().copied().chain(moved).collect()
}

/// Lines with one thing changed: a field, the order, a line too many or too few, or other lines in front.
fn changed_lines(random: &mut Random, case: &Case, own: &[Line]) -> Vec<Line> {
    let mut lines = own.to_vec();
    if lines.is_empty() {
        return other_reading(random, case);
    }
    let (one, other) = (random.index(lines.len()), random.index(lines.len()));
    let field = random.index(FIELDS);
    match random.below(8) {
        0 => lines[one][field] = random.pick(&[0, 1, 2, 3, 7, 256, 4097, 99_999_999]),
        1 => lines[one][field] += 1,
        2 => lines[one][field] = lines[one][field].saturating_sub(1),
        3 => lines.swap(one, other),
        4 => lines.insert(one, lines[other]),
        5 => drop(lines.remove(one)),
        6 => lines = joined(&other_reading(random, case), &lines),
        _ => lines = other_reading(random, case),
    }
    lines
}

/// A reading for the question: its own, or one that is changed in its lines or in its bytes.
pub fn reading(random: &mut Random, case: &Case, own: &[Line]) -> Vec<u8> {
    let mut text = bytes(&changed_lines(random, case, own));
    if text.is_empty() || random.one_in(2) {
        return text;
    }
    text = bytes(own);
    if text.is_empty() {
        return vec![b'\n'; random.index(2 * LINE)];
    }
    let at = random.index(text.len());
    match random.below(5) {
        0 => text[at] = random.pick(b" 0123456789\n-a"),
        1 => text.truncate(at),
        2 => text.push(b' '),
        3 => text[at / LINE * LINE + LINE - 1] = b' ',
        _ => text.swap(at, 0),
    }
    text
}
