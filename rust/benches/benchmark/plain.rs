//! An idiomatic Rust twin of the plain algorithm, by the authors of the proved code and written to win: a rule is an enum, a caller is a link in the
//! work slice, and a leaf takes one step to open and one to settle. Sheet reading and blanking are included, and cells are counted as they are opened,
//! as in the proved call.

#[derive(Clone, Copy)]
pub enum Rule {
    Absent,
    Always,
    Never,
    Byte(u8),
    Class(u8),
    Calls(u32, u32, u32),
}

pub struct Sheet {
    pub variables: u32,
    pub rules: [Rule; 256],
}

pub const fn class(byte: u8) -> u8 {
    match byte {
        b'0'..=b'9' => 1,
        b'A'..=b'Z' | 192..=214 | 216..=222 => 2,
        b'a'..=b'z' | 223..=246 | 248..=255 => 3,
        b'\t' | b' ' | 160 => 4,
        33..=126 | 161..=191 | 215 | 247 => 5,
        128..=159 => 6,
        _ => 0,
    }
}

fn field(columns: &[u8]) -> Option<u32> {
    let first = columns.iter().position(|b| *b != b' ')?;
    let digits = &columns[first..];
    if digits.len() > 1 && digits[0] == b'0' {
        return None;
    }
    digits.iter().try_fold(0, |number, digit| {
        digit
            .is_ascii_digit()
            .then(|| number * 10 + u32::from(digit - b'0'))
    })
}

fn fields(line: &[u8]) -> Option<[u32; 5]> {
    let mut numbers = [0; 5];
    for (number, columns) in numbers.iter_mut().zip(line.chunks_exact(5)) {
        *number = field(columns)?;
    }
    Some(numbers)
}

/// The sheet, or nothing where it is refused.
pub fn read(text: &[u8]) -> Option<Sheet> {
    let lines = text.chunks_exact(26);
    if text.is_empty() || !text.len().is_multiple_of(26) || text.len() > 257 * 26 {
        return None;
    }
    if lines.clone().any(|line| line[25] != b'\n') {
        return None;
    }
    let [variables, start, endmarker, 0, 0] = fields(&text[..25])? else {
        return None;
    };
    if !(1..=256).contains(&variables) || !(1..=variables).contains(&start) || endmarker > 255 {
        return None;
    }
    let mut rules = [Rule::Absent; 256];
    let mut before = 0;
    for line in lines.skip(1) {
        let [variable, kind, x, y, z] = fields(&line[..25])?;
        if variable <= before || variable > variables {
            return None;
        }
        before = variable;
        let within = |x: u32| (1..=variables).contains(&x);
        rules[variable as usize - 1] = match (kind, x, y, z) {
            (0, 0, 0, 0) => Rule::Always,
            (1, 0, 0, 0) => Rule::Never,
            (2, byte @ 0..=255, 0, 0) => Rule::Byte(byte as u8),
            (3, class @ 1..=6, 0, 0) => Rule::Class(class as u8),
            (4, b, c, d) if within(b) && within(c) && within(d) => Rule::Calls(b, c, d),
            _ => return None,
        };
    }
    Some(Sheet { variables, rules })
}

/// A cell of the table: outcome, then reach.
type Cell = [u32; 2];

/// The outcome of a pair that is asked and not decided yet.
const OPEN: u32 = u32::MAX;

/// A rule's outcome where it calls nothing: a cell's code, 3 for missing. A byte or a class that is asked for at the entry's end fails.
pub fn leaf(rule: Rule, entry: &[u8], position: u32) -> u32 {
    let fits = |wanted: bool| if wanted { 6 + position } else { 1 };
    match (rule, entry.get(position as usize)) {
        (Rule::Always, _) => 5 + position,
        (Rule::Never, _) => 1,
        (Rule::Byte(wanted), Some(byte)) => fits(*byte == wanted),
        (Rule::Class(wanted), Some(byte)) => fits(class(*byte) == wanted),
        (Rule::Byte(_) | Rule::Class(_), None) => 1,
        (Rule::Absent | Rule::Calls(..), _) => 3,
    }
}

/// How far a rule looks that calls nothing, where it has a result.
fn leaf_reach(rule: Rule, position: u32) -> u32 {
    position + u32::from(matches!(rule, Rule::Byte(_) | Rule::Class(_)))
}

/// A table over the cells of an entry, and how many were opened.
struct Table<'a> {
    cells: &'a mut [Cell],
    width: usize,
    count: u32,
}

impl Table<'_> {
    fn index(&self, (variable, position): (u32, u32)) -> usize {
        (variable as usize - 1) * self.width + position as usize
    }

    fn get(&self, pair: (u32, u32)) -> Cell {
        self.cells[self.index(pair)]
    }

    fn set(&mut self, pair: (u32, u32), cell: Cell) {
        let index = self.index(pair);
        self.cells[index] = cell;
    }

    fn open(&mut self, pair: (u32, u32)) {
        self.count += 1;
        self.set(pair, [OPEN, 0]);
    }

    /// The pair that a pair calls next, and what its cell holds; of the second one with the greater reach of the two.
    fn called(&self, position: u32, (b, c, d): (u32, u32, u32)) -> ((u32, u32), Cell) {
        let first = (b, position);
        let (second, reach) = match self.get(first) {
            cell @ [0 | OPEN, _] => return (first, cell),
            [1, reach] => ((d, position), reach),
            [code, reach] => ((c, code - 5), reach),
        };
        let [code, other] = self.get(second);
        (second, [code, reach.max(other)])
    }
}

fn caller(link: u32) -> (u32, u32) {
    (link / 8192, link % 8192)
}

/// From the asked pair to a result or a stop: its code, the named pair, and the latest open pair.
fn walk(
    sheet: &Sheet,
    entry: &[u8],
    asked: (u32, u32),
    table: &mut Table,
    work: &mut [u32],
) -> (u32, (u32, u32), (u32, u32)) {
    let mut top = asked;
    table.open(top);
    loop {
        let cell = match sheet.rules[top.0 as usize - 1] {
            Rule::Calls(b, c, d) => match table.called(top.1, (b, c, d)) {
                (called, [OPEN, _]) => return (2, called, top),
                (called, [0, _]) => {
                    table.open(called);
                    work[table.index(called)] = top.0 * 8192 + top.1;
                    top = called;
                    continue;
                }
                (_, cell) => cell,
            },
            rule => match leaf(rule, entry, top.1) {
                3 => return (3, top, top),
                code => [code, leaf_reach(rule, top.1)],
            },
        };
        table.set(top, cell);
        if top == asked {
            return (cell[0], (0, 0), top);
        }
        top = caller(work[table.index(top)]);
    }
}

/// The outcome's code, the named pair and the count.
pub fn question(
    sheet: &[u8],
    entry: &[u8],
    asked: (u32, u32),
    table: &mut [u32],
    work: &mut [u32],
) -> [u32; 4] {
    let sheet = read(sheet).expect("an accepted sheet");
    let width = entry.len() + 1;
    let size = sheet.variables as usize * width;
    let cells = &mut table.as_chunks_mut().0[..size];
    cells.fill([0, 0]);
    let mut table = Table {
        cells,
        width,
        count: 0,
    };
    let (code, named, mut top) = walk(&sheet, entry, asked, &mut table, &mut work[..size]);
    if code == 2 || code == 3 {
        table.set(top, [code, 0]);
        while top != asked {
            top = caller(work[table.index(top)]);
            table.set(top, [code, 0]);
        }
    }
    [code, named.0, named.1, table.count]
}
