//! The old entry of a correction, with guards around everything lent: lengths, every set of places at which the entries differ beside every c, every byte,
//! long entries; all refusals of the call in their order; and the importer's mistake, c named wrongly.
#[allow(dead_code)] // Other tests ask further questions.
mod kept;
#[allow(dead_code)] // Other tests lend other slices.
mod lent;
#[allow(dead_code)] // Other tests ask the other cases.
mod marked_cases;
#[allow(dead_code, unused_imports)] // Other tests damage sheets, and make readings.
mod questions;
mod random;
#[allow(dead_code, unused_imports)] // Other tests run the machine, and check readings.
mod recognizer;
#[allow(dead_code)] // Other tests hand over tables that no call left.
mod tables;

use entryreader::Pair;
use random::Random;
use std::collections::{BTreeMap, BTreeSet};
use tables::{Case, START, loops, two_rules};

/// The correction of a case of two rules, about the byte at c over a blank table, as document 02 has it: refused with this number, or answered by what
/// the new entry has there, an `a` or another byte.
fn assert_said(random: &mut Random, case: &Case, refused: Option<u32>) {
    let asked = Pair {
        variable: 1,
        position: case.c.min(case.n()),
    };
    let answer = match case.entry.get(case.c as usize) {
        Some(b'a') => [6 + case.c, 0, 0, 1],
        _ => [1, 0, 0, 1],
    };
    let said = case.correction(random, asked, &mut vec![0; 2 * case.cells()]);
    assert_eq!(said, refused.map_or(Ok(answer), Err), "{case}");
}

/// Puts two bytes at a place, one of the old entry and one of the new.
fn differing(case: &mut Case, place: u32, [old, new]: [u8; 2]) {
    (case.old[place as usize], case.entry[place as usize]) = (old, new);
}

/// Entries of up to 7 bytes that differ at each set of places, beside each c and some that are not below n: 18 for these, 21 where a place of the set is
/// not c, and else none.
#[test]
fn every_set_of_places() {
    let (mut random, mut met) = (Random(100), BTreeMap::<_, u64>::new());
    let bytes = [[0, 255], [255, 0], [b'a', 0], [255, b'a'], [b'a', b'A']];
    for n in 0..=7 {
        let behind = [n, n + 1, u32::MAX];
        let sets = (0..1_u32 << n).flat_map(|set| bytes.map(|bytes| (set, bytes)));
        for (set, bytes) in sets {
            for c in (0..n).chain(behind) {
                let mut case = two_rules(n, c);
                let places = (0..n).filter(|place| (set >> place) & 1 == 1);
                places.for_each(|place| differing(&mut case, place, bytes));
                let refused = match 1_u32.checked_shl(c) {
                    Some(of_c) if c < n => (set & !of_c != 0).then_some(21),
                    _ => Some(18),
                };
                assert_said(&mut random, &case, refused);
                *met.entry((refused, set == 0)).or_default() += 1;
            }
        }
    }
    // A set without places brings on no 21.
    assert_eq!(met.len(), 5, "{met:?}");
}

/// Old entries of other lengths, the same as far as they go: 21, also where they have over 4,096 bytes. 18 comes before it.
#[test]
fn other_lengths() {
    let mut random = Random(101);
    for n in [0_u32, 1, 2, 3, 15, 16, 17, 32, 4_095, 4_096] {
        let shorter = [0, n / 2, n.saturating_sub(16), n.saturating_sub(1)];
        let longer = [n + 1, n + 16, n + 256, 4_095, 4_096, 4_097, 65_536 + n];
        let lengths = BTreeSet::from_iter(shorter.into_iter().chain(longer));
        for length in lengths {
            for c in [0, n / 2, n.saturating_sub(1), n, length] {
                let mut case = two_rules(n, c);
                case.old.resize(length as usize, b'a');
                let of_length = (length != n).then_some(21);
                let refused = if n <= c { Some(18) } else { of_length };
                assert_said(&mut random, &case, refused);
            }
        }
    }
}

/// Each byte at a place beside 0, 255, itself, and itself with one bit changed or all: elsewhere than at c they must be the same.
#[test]
fn every_byte() {
    let mut random = Random(102);
    for (byte, place) in (0..=255_u8).flat_map(|byte| [(byte, 0), (byte, 1)]) {
        let one_bit = (0..8).map(|bit| byte ^ (1 << bit));
        for other in one_bit.chain([0, 255, byte, !byte]) {
            let mut case = two_rules(2, 1 - place);
            differing(&mut case, place, [byte, other]);
            assert_said(&mut random, &case, (byte != other).then_some(21));
            case.c = place;
            assert_said(&mut random, &case, None);
        }
    }
}

/// Lengths around multiples of 16, up to the greatest.
const LENGTHS: [u32; 24] = [
    2, 14, 15, 16, 17, 18, 31, 32, 33, 47, 48, 49, 63, 64, 65, 255, 256, 257, 1_023, 1_025, 2_049,
    4_080, 4_095, 4_096,
];

/// Some places of n bytes: the first and the last, around 16 and in the middle, and any.
fn places(random: &mut Random, n: u32) -> BTreeSet<u32> {
    let [any, other] = [(); 2].map(|()| random.below(n.into()) as u32);
    let places = [0, 1, 14, 15, 16, 17, n / 2, n - 2, n - 1, any, other];
    places.into_iter().filter(|place| *place < n).collect()
}

/// One byte differs: 21 unless that is at c.
#[test]
fn long_entries() {
    let mut random = Random(103);
    for n in LENGTHS {
        for place in places(&mut random, n) {
            let beside = [place.saturating_sub(1), place, (place + 1).min(n - 1)];
            let cs = &places(&mut random, n) | &BTreeSet::from(beside);
            for c in cs {
                let mut case = two_rules(n, c);
                let bytes = random.pick(&[[b'a', 255], [0, b'a'], [255, 0], [b'a', b'c']]);
                differing(&mut case, place, bytes);
                assert_said(&mut random, &case, (place != c).then_some(21));
            }
        }
    }
}

/// Bytes at two places that have the same sum, the same exclusive or, or all of it, old and new.
const CANCELLING: [[[u8; 2]; 2]; 4] = [
    [[b'a', b'b'], [b'b', b'a']],
    [[0, 255], [255, 0]],
    [[0x10, 0x20], [0x11, 0x1F]],
    [[0x0F, 0xF0], [0x5A, 0xA5]],
];

/// Two of n places, near each other and apart: at the front, in the middle and at the end.
fn two_places(n: u32) -> impl Iterator<Item = (u32, u32)> {
    let apart = [1, 2, 7, 8, 15, 16, 17, 32, 64, 255, 256, 4_095];
    let apart = apart.into_iter().filter(move |apart| *apart < n);
    apart.flat_map(move |apart| {
        let last = n - 1 - apart;
        let first = BTreeSet::from([0, last / 2, last]);
        first.into_iter().map(move |first| (first, first + apart))
    })
}

/// Two places differ: 21 whatever c is, for it is one of them at most.
#[test]
fn two_differences() {
    let mut random = Random(104);
    for n in [2, 3, 17, 33, 64, 300, 4_096] {
        for (first, second) in two_places(n) {
            let [old, new] = random.pick(&CANCELLING);
            let mut case = two_rules(n, 0);
            differing(&mut case, first, [old[0], new[0]]);
            differing(&mut case, second, [old[1], new[1]]);
            for c in BTreeSet::from([0, first, first + 1, second, n / 2, n - 1]) {
                case.c = c;
                assert_said(&mut random, &case, Some(21));
            }
        }
    }
}

/// What may be at fault, by the refusals' numbers in their order; 1 stands for all of the sheet's.
const FAULTS: [u32; 8] = [1, 6, 8, 9, 10, 18, 21, 19];

/// Ways to make an old entry wrong, of three bytes or more and with 1 as c.
const WRONG: [fn(&mut Vec<u8>); 9] = [
    |old| old.clear(),
    |old| old.truncate(old.len() - 1),
    |old| drop(old.drain(..1)),
    |old| old.push(b'a'),
    |old| old.resize(5_000, b'a'),
    |old| old[0] ^= 1,
    |old| old[2] ^= 128,
    |old| old[..2].fill(b'x'),
    |old| *old.last_mut().expect("it has three bytes") = 255,
];

/// A correction with such faults, the sheet's and the old entry's made so: the number of its refusal.
fn refused(
    random: &mut Random,
    at_fault: [bool; 8],
    bad_sheet: &str,
    wrong: fn(&mut Vec<u8>),
) -> Option<u32> {
    let [sheet, long, variable, position, room, behind, old, cell] = at_fault;
    let entry = vec![b'a'; if long { 4_097 } else { 3 }];
    let mut case = loops(&entry, 1);
    let (n, cells) = (case.n(), case.cells());
    let mut table = [if cell { u32::MAX } else { 0 }, 0].repeat(cells);
    let mut work = cells;
    match random.below(3) {
        0 if room => drop(table.pop()),
        1 if room => work -= 1,
        _ if room => table.truncate(cells),
        _ => {}
    }
    if sheet {
        case.sheet = bad_sheet.as_bytes().to_vec();
    }
    if old {
        wrong(&mut case.old);
    }
    if behind {
        case.c = random.pick(&[n, n + 1, u32::MAX]);
    }
    let variable = random.pick(if variable {
        &[0, 6, u32::MAX]
    } else {
        &[1, 5, 2]
    });
    let position = random.pick(&if position { [n + 1, u32::MAX] } else { [0, n] });
    let asked = Pair { variable, position };
    let said = case.said_over(random, case.last_correction(), asked, &mut table, work);
    said.err()
}

/// Every set of faults, with every way to make the old entry wrong: the first in the order is given.
#[test]
fn refusals_in_their_order() {
    let mut random = Random(105);
    let sheets = questions::refused_sheets();
    for wrong in WRONG {
        for set in 0..1_u32 << FAULTS.len() {
            let at_fault = std::array::from_fn(|fault| (set >> fault) & 1 == 1);
            let (of_sheet, sheet) = &sheets[random.index(sheets.len())];
            let first = FAULTS.into_iter().zip(at_fault).find(|(_, is)| *is);
            let number = first.map(|(number, _)| if number == 1 { *of_sheet } else { number });
            let refused = refused(&mut random, at_fault, sheet, wrong);
            assert_eq!(refused, number, "{at_fault:?} {sheet}");
        }
    }
}

/// "6 tests only the new one": of 4,097 bytes it is refused with 6, whatever the old one is; of as many the old one with 21.
#[test]
fn long_entry() {
    let mut random = Random(106);
    for (old, new, number) in [
        (4_097, 4_097, Some(6)),
        (4_096, 4_097, Some(6)),
        (0, 4_097, Some(6)),
        (5_000, 4_097, Some(6)),
        (4_097, 4_096, Some(21)),
        (4_097, 1, Some(21)),
        (5_000, 4_096, Some(21)),
        (4_096, 4_096, None),
    ] {
        let mut case = two_rules(new, 0);
        case.old.resize(old as usize, b'a');
        assert_said(&mut random, &case, number);
    }
}

/// Case a, whose digit is corrected to an x. With the position of the sign or of the full stop named for it, the digit or what was made of it would stay:
/// refused. With the right one, 1 at 0 and 3, 4 and 6 at 1 are decided; sign and full stop stay.
#[test]
fn importers_mistake() {
    let mut random = Random(107);
    let mut case = Case::new(marked_cases::H, b"-6.", 0);
    let mut table = case.question(&mut random, START);
    case.correct_to(1, b'x');
    for (c, said) in [(0, Err(21)), (2, Err(21)), (1, Ok([1, 0, 0, 4]))] {
        case.c = c;
        assert_eq!(case.correction(&mut random, START, &mut table), said, "{c}");
    }
    let rows = [
        [1, 2, 0, 0, 0, 0, 0, 0],
        [6, 1, 0, 0, 0, 0, 0, 0],
        [0, 0, 1, 2, 0, 0, 0, 0],
        [0, 0, 1, 2, 0, 0, 0, 0],
        [0, 0, 0, 0, 8, 3, 0, 0],
        [0, 0, 1, 1, 0, 0, 0, 0],
    ];
    assert_eq!(case.first(&table), rows.concat());
}

/// Chains of calls over one table, and in them corrections for which every wrong position is named first: each is refused, and then the right one is
/// answered as on a fresh table.
#[test]
fn every_wrong_position() {
    let (mut random, mut met) = (Random(108), 0);
    for _ in 0..3_000 {
        let variables = 1 + random.below(12);
        let length = 1 + random.index(12);
        let mut case = Case::random(&mut random, variables, length);
        let mut table = vec![0; 2 * case.cells()];
        for _ in 0..1 + random.below(4) {
            let call = case.any_call(&mut random);
            let asked = case.pair(&mut random);
            case.compared(&mut random, call, asked, &mut table);
            let right = case.position(&mut random);
            let other = case.entry[right] ^ random.pick(&[1, 2, 128, 255]);
            case.correct_to(right, other);
            for c in (0..length).filter(|c| *c != right) {
                case.c = c as u32;
                let said = case.correction(&mut random, asked, &mut table);
                assert_eq!(said, Err(21), "{asked:?} {case}");
                met += 1;
            }
            case.c = right as u32;
            case.compared(&mut random, case.last_correction(), asked, &mut table);
        }
    }
    assert!(10_000 < met, "{met}");
}
