//! The fastest unverified variant that was found, written to win: a rule is one word, read straight from the sheet; fields and classes are looked up in
//! tables; callers stand one above the other in the work slice, a called leaf is settled in place, first and second call are one straight line of code;
//! no index is checked, and the cells are counted in the walk. Reaches are looked at where a pair is settled only: a blank cell has reach 0, and so has
//! one that is open.
use crate::plain;

const OPEN: u32 = u32::MAX;

/// A cell of the table: outcome, then reach.
type Cell = [u32; 2];

/// The last four of five columns for each number below 256, the first column lowest.
static WRITTEN: [u32; 256] = written();

const fn written() -> [u32; 256] {
    let mut table = [0; 256];
    let mut number = 0;
    while number < 256 {
        let (hundreds, tens, ones) = (number / 100, number / 10 % 10, number % 10);
        let second = if number < 100 { 32 } else { 48 + hundreds };
        let third = if number < 10 { 32 } else { 48 + tens };
        table[number as usize] = 32 | second << 8 | third << 16 | (48 + ones) << 24;
        number += 1;
    }
    table
}

/// The class of each byte.
static CLASSES: [u8; 256] = classes();

const fn classes() -> [u8; 256] {
    let mut table = [0; 256];
    let mut byte = 0;
    while byte < 256 {
        table[byte] = plain::class(byte as u8);
        byte += 1;
    }
    table
}

/// What a field gives that holds no number of a sheet: above them all.
const FAULT: u32 = u32::MAX;

/// The number in five columns: what the digits would be, if it is so written.
#[inline(always)]
unsafe fn field(columns: *const u8) -> u32 {
    // SAFETY: five columns can be read.
    let (first, others) = unsafe {
        let others = columns.add(1).cast::<[u8; 4]>().read();
        (*columns, u32::from_le_bytes(others))
    };
    let digits = u64::from(others & 0x0f0f_0f00);
    let number = ((digits * (100 << 24 | 10 << 16 | 1 << 8)) >> 32) as u8;
    if first == b' ' && others == WRITTEN[number as usize] {
        return number.into();
    }
    if first == b' ' && others.to_le_bytes() == *b" 256" {
        return 256;
    }
    FAULT
}

/// The word of a rule of V variables, or 0 where it does not fit.
#[inline(always)]
fn word(variables: u32, [kind, x, y, z]: [u32; 4]) -> u32 {
    if kind == 4 {
        let [b, c, d] = [x, y, z].map(|x| x.wrapping_sub(1));
        let fits = b < variables && c < variables && d < variables;
        return if fits {
            5 << 24 | b << 16 | c << 8 | d
        } else {
            0
        };
    }
    let fits = y == 0
        && z == 0
        && match kind {
            0 | 1 => x == 0,
            2 => x <= 255,
            3 => x.wrapping_sub(1) < 6,
            _ => false,
        };
    if fits { (kind + 1) << 24 | x << 16 } else { 0 }
}

/// The number of variables, and the words of their rules.
fn read(text: &[u8]) -> Option<(u32, [u32; 256])> {
    if text.is_empty() || !text.len().is_multiple_of(26) || text.len() > 257 * 26 {
        return None;
    }
    // SAFETY: a line has 26 bytes.
    let fields = |line: &[u8]| [0, 5, 10, 15, 20].map(|at| unsafe { field(line.as_ptr().add(at)) });
    let mut lines = text.chunks_exact(26);
    let first = lines.next()?;
    let [variables, start, endmarker, 0, 0] = fields(first) else {
        return None;
    };
    if variables.wrapping_sub(1) > 255 || start.wrapping_sub(1) >= variables || endmarker > 255 {
        return None;
    }
    let (mut words, mut before, mut ends) = ([0; 256], 0, first[25] == b'\n');
    for line in lines {
        let [variable, kind, x, y, z] = fields(line);
        let word = word(variables, [kind, x, y, z]);
        if variable <= before || variable > variables || word == 0 {
            return None;
        }
        ends &= line[25] == b'\n';
        before = variable;
        // SAFETY: the variable is among 1 to V, and V at most 256.
        unsafe { *words.get_unchecked_mut(variable as usize - 1) = word };
    }
    ends.then_some((variables, words))
}

/// What the cell of a leaf holds.
#[inline(always)]
unsafe fn leaf(word: u32, entry: &[u8], position: u32) -> Cell {
    let kind = word >> 24;
    if kind == 3 || kind == 4 {
        if position as usize >= entry.len() {
            return [1, position + 1];
        }
        // SAFETY: the position is below the length.
        let byte = unsafe { *entry.get_unchecked(position as usize) };
        let seen = if kind == 4 {
            CLASSES[byte as usize]
        } else {
            byte
        };
        let outcome = if u32::from(seen) == (word >> 16 & 255) {
            6 + position
        } else {
            1
        };
        return [outcome, position + 1];
    }
    match kind {
        1 => [5 + position, position],
        2 => [1, position],
        _ => [3, 0],
    }
}

/// Looks a called pair up: its outcome, and the number of its cell. If it is to be opened it becomes the latest open pair, and the walk goes on with
/// it.
macro_rules! look_up {
    ($walk:lifetime, $state:expr, $called:expr) => {{
        let (words, entry, table, work, width, top, depth, count) = $state;
        let (variable, position): (u32, u32) = $called;
        let index = variable as usize * width + position as usize;
        let mut outcome = table.get_unchecked(index)[0];
        if outcome == 0 {
            *count += 1;
            let rule = *words.get_unchecked(variable as usize);
            if rule >> 24 == 5 {
                table.get_unchecked_mut(index)[0] = OPEN;
                *work.get_unchecked_mut(*depth) = top.0 << 13 | top.1;
                *depth += 1;
                *top = (variable, position);
                continue $walk;
            }
            let settled = leaf(rule, entry, position);
            *table.get_unchecked_mut(index) = settled;
            outcome = settled[0];
            if outcome == 3 {
                break $walk (3, (variable + 1, position));
            }
        }
        if outcome == OPEN {
            break $walk (2, (variable + 1, position));
        }
        (outcome, index)
    }};
}

/// Where the walk ended: the code and the named pair, the latest open pair, the number of its callers, and the count of cells.
struct End {
    code: u32,
    named: (u32, u32),
    top: (u32, u32),
    depth: usize,
    count: u32,
}

/// From the asked pair, whose rule calls others and whose cell is open.
#[inline(always)]
unsafe fn walk(
    words: &[u32; 256],
    entry: &[u8],
    asked: (u32, u32),
    table: &mut [Cell],
    work: &mut [u32],
) -> End {
    unsafe {
        let width = entry.len() + 1;
        let (mut top, mut depth, mut count) = (asked, 0, 1);
        let (code, named) = 'walk: loop {
            let word = *words.get_unchecked(top.0 as usize);
            let called = (word >> 16 & 255, top.1);
            let state = (
                words,
                entry,
                &mut *table,
                &mut *work,
                width,
                &mut top,
                &mut depth,
                &mut count,
            );
            let (first, first_index) = look_up!('walk, state, called);
            let called = if first == 1 {
                (word & 255, top.1)
            } else {
                (word >> 8 & 255, first - 5)
            };
            let state = (
                words,
                entry,
                &mut *table,
                &mut *work,
                width,
                &mut top,
                &mut depth,
                &mut count,
            );
            let (second, second_index) = look_up!('walk, state, called);
            let [reach, other] = [first_index, second_index].map(|i| table.get_unchecked(i)[1]);
            let index = top.0 as usize * width + top.1 as usize;
            *table.get_unchecked_mut(index) = [second, reach.max(other)];
            if depth == 0 {
                break (second, (0, 0));
            }
            depth -= 1;
            let caller = *work.get_unchecked(depth);
            top = (caller >> 13, caller & 8191);
        };
        End {
            code,
            named,
            top,
            depth,
            count,
        }
    }
}

/// The outcome's code, the named pair and the count.
pub fn question(
    sheet: &[u8],
    entry: &[u8],
    asked: (u32, u32),
    table: &mut [u32],
    work: &mut [u32],
) -> [u32; 4] {
    let (variables, words) = read(sheet).expect("an accepted sheet");
    let width = entry.len() + 1;
    let size = variables as usize * width;
    let table = &mut table.as_chunks_mut().0[..size];
    assert!(size <= work.len());
    table.fill([0, 0]);
    let asked = (asked.0 - 1, asked.1);
    let cell = |(variable, position): (u32, u32)| variable as usize * width + position as usize;
    assert!(words[asked.0 as usize] >> 24 == 5, "a rule that calls");
    table[cell(asked)][0] = OPEN;
    // SAFETY: variables are below V, positions at most the entry's length, and open cells distinct, so that no more than V times (n + 1) callers are
    // noted.
    let end = unsafe { walk(&words, entry, asked, table, work) };
    if end.code == 2 || end.code == 3 {
        table[cell(end.top)][0] = end.code;
        for caller in &work[..end.depth] {
            table[cell((caller >> 13, caller & 8191))][0] = end.code;
        }
    }
    [end.code, end.named.0, end.named.1, end.count]
}
