//! A Rust twin of the backtracking machine, as document 01 says it, with three numbers for each frame in the lent slice.
use crate::plain::{self, Rule};

/// The outcome's code, the end and the moves; 10,000 where the moves are spent, 10,001 where a frame is lacking.
pub fn run(
    sheet: &[u8],
    entry: &[u8],
    asked: (u32, u32),
    frames: &mut [u32],
    budget: u32,
) -> [u32; 3] {
    let sheet = plain::read(sheet).expect("an accepted sheet");
    let room = frames.len() / 3;
    if room == 0 {
        return [10_001, 0, 0];
    }
    frames[..3].copy_from_slice(&[asked.0, asked.1, 0]);
    let (mut flag, mut position, mut moves, mut depth) = (true, asked.1, 0, 1);
    loop {
        if depth == 0 {
            return if flag {
                [5 + position, position, moves]
            } else {
                [1, 0, moves]
            };
        }
        let top = &mut frames[3 * depth - 3..3 * depth];
        let (start, stage) = (top[1], top[2]);
        let rule = sheet.rules[top[0] as usize - 1];
        let mut pushed = None;
        let (mut next_flag, mut next_place) = (flag, position);
        match (stage, rule) {
            (0, Rule::Calls(b, _, _)) => pushed = Some((1, b, position)),
            (0, rule) => match plain::leaf(rule, entry, position) {
                3 => return [3, 0, moves],
                1 => next_flag = false,
                code => (next_flag, next_place) = (true, code - 5),
            },
            (1, Rule::Calls(_, c, d)) => {
                let (variable, at) = if flag { (c, position) } else { (d, start) };
                pushed = Some((2, variable, at));
                next_flag = true;
            }
            _ => {
                if !flag {
                    next_place = start;
                }
            }
        }
        if moves == budget {
            return [10_000, 0, moves];
        }
        match pushed {
            None => depth -= 1,
            Some((stage, variable, at)) => {
                if depth == room {
                    return [10_001, 0, moves];
                }
                top[2] = stage;
                frames[3 * depth..3 * depth + 3].copy_from_slice(&[variable, at, 0]);
                next_place = at;
                depth += 1;
            }
        }
        (flag, position) = (next_flag, next_place);
        moves += 1;
    }
}
