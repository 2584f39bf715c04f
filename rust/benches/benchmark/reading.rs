//! Rust twins of the writer and of the checker, on lines of 49 bytes.
use crate::plain::{self, Rule, Sheet};

fn write_field(columns: &mut [u8], mut number: u32) {
    columns.fill(b' ');
    for column in columns.iter_mut().rev() {
        *column = b'0' + (number % 10) as u8;
        number /= 10;
        if number == 0 {
            break;
        }
    }
}

fn write_line(line: &mut [u8], numbers: [u32; 6]) {
    for (columns, number) in line.chunks_exact_mut(8).zip(numbers) {
        write_field(columns, number);
    }
    line[48] = b'\n';
}

/// The calls of a pair, by a table of outcomes.
fn called(
    sheet: &Sheet,
    (variable, position): (u32, u32),
    outcome: impl Fn((u32, u32)) -> u32,
) -> Option<[(u32, u32); 2]> {
    let Rule::Calls(b, c, d) = sheet.rules[variable as usize - 1] else {
        return None;
    };
    let second = match outcome((b, position)) {
        1 => (d, position),
        code => (c, code - 5),
    };
    Some([(b, position), second])
}

/// The question, then a line for each pair that it reaches, called pairs first; the count of lines.
pub fn write(
    text: &[u8],
    entry: &[u8],
    asked: (u32, u32),
    table: &mut [u32],
    work: &mut [u32],
    output: &mut [u8],
) -> u32 {
    let [code, ..] = plain::question(text, entry, asked, table, work);
    if (2..=4).contains(&code) {
        return 0;
    }
    let sheet = plain::read(text).expect("an accepted sheet");
    let width = entry.len() + 1;
    let cell =
        |(variable, position): (u32, u32)| (variable as usize - 1) * width + position as usize;
    work[..sheet.variables as usize * width].fill(0);
    let mut lines = 0;
    let mut open = vec![asked];
    while let Some(pair) = open.last().copied() {
        let calls = called(&sheet, pair, |pair| table[2 * cell(pair)]);
        let missing = calls.and_then(|calls| calls.into_iter().find(|pair| work[cell(*pair)] == 0));
        if let Some(pair) = missing {
            open.push(pair);
            continue;
        }
        open.pop();
        let [first, second] = calls.map_or([0, 0], |calls| calls.map(|pair| work[cell(pair)]));
        let (flag, end) = match table[2 * cell(pair)] {
            1 => (1, pair.1),
            code => (0, code - 5),
        };
        let start = 49 * lines as usize;
        write_line(
            &mut output[start..start + 49],
            [pair.0, pair.1, flag, end, first, second],
        );
        lines += 1;
        work[cell(pair)] = lines;
    }
    lines
}

fn read_field(columns: &[u8]) -> Option<u32> {
    let first = columns.iter().position(|b| *b != b' ')?;
    let digits = &columns[first..];
    if digits.len() > 1 && digits[0] == b'0' {
        return None;
    }
    digits.iter().try_fold(0, |number, digit| {
        digit
            .is_ascii_digit()
            .then(|| number * 10 + u32::from(digit - b'0'))
    })
}

fn read_line(reading: &[u8], number: u32) -> Option<[u32; 6]> {
    let line = reading.get(49 * (number as usize).checked_sub(1)?..49 * number as usize)?;
    if line[48] != b'\n' {
        return None;
    }
    let mut numbers = [0; 6];
    for (number, columns) in numbers.iter_mut().zip(line.chunks_exact(8)) {
        *number = read_field(columns)?;
    }
    Some(numbers)
}

fn follows(sheet: &Sheet, entry: &[u8], reading: &[u8], number: u32) -> Option<()> {
    let [variable, start, flag, end, first, second] = read_line(reading, number)?;
    if !(1..=sheet.variables).contains(&variable) || start as usize > entry.len() || flag > 1 {
        return None;
    }
    let claimed = if flag == 1 {
        (1, end == start)
    } else {
        (5 + end, true)
    };
    let fits = match sheet.rules[variable as usize - 1] {
        Rule::Calls(b, c, d) => {
            if first >= number || second >= number {
                return None;
            }
            let one = read_line(reading, first)?;
            let two = read_line(reading, second)?;
            let next = if one[2] == 1 { (d, start) } else { (c, one[3]) };
            let given = if two[2] == 1 { 1 } else { 5 + two[3] };
            (one[0], one[1]) == (b, start) && (two[0], two[1]) == next && given == claimed.0
        }
        rule => first == 0 && second == 0 && plain::leaf(rule, entry, start) == claimed.0,
    };
    (fits && claimed.1).then_some(())
}

/// The code of the outcome that the last line claims, where every line follows and the last one is the pair that is asked for.
pub fn check(text: &[u8], entry: &[u8], asked: (u32, u32), reading: &[u8]) -> Option<u32> {
    let sheet = plain::read(text)?;
    if !reading.len().is_multiple_of(49) {
        return None;
    }
    let lines = (reading.len() / 49) as u32;
    for number in 1..=lines {
        follows(&sheet, entry, reading, number)?;
    }
    let last = read_line(reading, lines)?;
    ((last[0], last[1]) == asked).then_some(if last[2] == 1 { 1 } else { 5 + last[3] })
}
