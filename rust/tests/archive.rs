//! Tables stored by place and restored: each pair's cell by the formula of document 02, order 9, with guards around both tables; counts of outcomes, round
//! trips, refusals in their order, and tables that calls left, over which the same calls are made with and without the archive between them.
#[allow(dead_code)] // Other tests hand over tables that no call left.
mod kept;
#[allow(dead_code)] // Other tests lend arrays.
mod lent;
#[allow(dead_code)] // Other tests ask the other cases.
mod marked_cases;
#[allow(dead_code)] // Other tests count what a call found.
mod met;
#[allow(dead_code, unused_imports)] // Other tests damage sheets, and make readings.
mod questions;
mod random;
#[allow(dead_code, unused_imports)] // Other tests run the machine, and check readings.
mod recognizer;
#[allow(dead_code)] // Other tests hand over tables that no call left.
mod tables;

use entryreader::lent::{further, judge, restore, store};
use entryreader::{Answer, Error, Refusal};
use kept::held;
use lent::Lent;
use marked_cases::{CELLS, H, STORED};
use met::Met;
use random::Random;
use recognizer::{code, with_deep_stack};
use std::collections::{BTreeMap, BTreeSet};
use tables::{ANSWERS, Case};

/// What is moved: the cells of so many variables on so many bytes.
#[derive(Clone, Copy, Debug)]
struct Size {
    variables: u32,
    length: u32,
}

impl Size {
    fn new(variables: u32, length: u32) -> Size {
        Size { variables, length }
    }

    /// Of up to so many variables and bytes.
    fn random(random: &mut Random, variables: u64, length: u64) -> Size {
        Size::new(
            1 + random.below(variables) as u32,
            random.below(length + 1) as u32,
        )
    }

    /// "twice the cells due", V times (n + 1) of them, whatever V and n.
    fn due(self) -> u128 {
        2 * u128::from(self.variables) * (u128::from(self.length) + 1)
    }

    /// The same of a size that is accepted.
    fn numbers(self) -> usize {
        usize::try_from(self.due()).expect("V is at most 256, and n at most 4,096")
    }

    /// The pairs of variables, from 1 on, and places, from 0 on.
    fn pairs(self) -> impl Iterator<Item = (usize, usize)> {
        let (v, n) = (self.variables as usize, self.length as usize);
        (1..=v).flat_map(move |a| (0..=n).map(move |p| (a, p)))
    }

    /// The number of a pair's cell in a table: a row for each variable.
    fn by_variable(self, (a, p): (usize, usize)) -> usize {
        (a - 1) * (self.length as usize + 1) + p
    }

    /// "cell p times V plus A - 1"
    fn by_place(self, (a, p): (usize, usize)) -> usize {
        p * self.variables as usize + a - 1
    }

    /// What is at fault: V, n, the length of the table that is read, that of the table that is written.
    fn faults(self, [source, target]: [usize; 2]) -> [bool; 4] {
        let short = |length: usize| (length as u128) < self.due();
        [
            !(1..=256).contains(&self.variables),
            4_096 < self.length,
            short(source),
            short(target),
        ]
    }
}

/// "20 either table shorter .., after 3 for V and 6 for n above 4,096"
fn refusal(faults: [bool; 4]) -> Option<u32> {
    match faults {
        [true, ..] => Some(3),
        [false, true, ..] => Some(6),
        [false, false, false, false] => None,
        _ => Some(20),
    }
}

/// From a table of so many variables and bytes to another.
type Call = fn(u32, u32, &[u32], &mut [u32]) -> Result<(), Error>;

/// The number of a pair's cell.
type Number = fn(Size, (usize, usize)) -> usize;

/// One of the two calls, and the number of a pair's cell in the table that it reads and in the one that it writes.
#[derive(Clone, Copy)]
struct Move {
    name: &'static str,
    call: Call,
    from: Number,
    to: Number,
}

const STORE: Move = Move {
    name: "store",
    call: store,
    from: Size::by_variable,
    to: Size::by_place,
};

const RESTORE: Move = Move {
    name: "restore",
    call: restore,
    from: Size::by_place,
    to: Size::by_variable,
};

impl Move {
    /// The numbers that the target is to begin with: "the cell of pair (A, p), both its numbers", of each pair.
    fn moved(self, size: Size, source: &[u32]) -> Vec<u32> {
        let mut target = vec![0; size.numbers()];
        for pair in size.pairs() {
            let (from, to) = ((self.from)(size, pair), (self.to)(size, pair));
            target[2 * to] = source[2 * from];
            target[2 * to + 1] = source[2 * from + 1];
        }
        target
    }

    /// The number of the refusal, if any.
    fn refused(self, size: Size, source: &[u32], target: &mut [u32]) -> Option<u32> {
        let done = (self.call)(size.variables, size.length, source, target);
        done.err().map(|error| error.number())
    }

    /// Over a table and one of so many other numbers, both long enough: what the second holds then. The first is as it was, and later numbers are.
    fn made(self, random: &mut Random, size: Size, source: &[u32], length: usize) -> Vec<u32> {
        let before = contents(random, length);
        let [mut source, mut target] = [source, &before].map(|table| Lent::of(random, table));
        let refused = self.refused(size, source.slice(), target.slice());
        assert_eq!(refused, None, "{} {size:?}", self.name);
        let kept = source.unchanged() && target.keeps_from(size.numbers());
        assert!(kept, "{} {size:?}", self.name);
        target.slice().to_vec()
    }
}

/// Any numbers of 32 bits: those that tell outcomes apart, the greatest, and others. A long run of them, over and over.
fn contents(random: &mut Random, length: usize) -> Vec<u32> {
    const RUN: usize = 65_537;
    let mut number = || match random.below(16) {
        small @ 0..=6 => small as u32,
        7 => u32::MAX,
        8..=11 => random.below(5_000) as u32,
        high => ((high as u32) << 28) + random.below(1 << 28) as u32,
    };
    let run: Vec<u32> = (0..RUN.min(length)).map(|_| number()).collect();
    let mut contents = run.repeat(length / RUN + 1);
    contents.truncate(length);
    contents
}

/// The lengths that tables are tried with, in their order: none, around the numbers due, and more than twice as many; one number less or more where they
/// are many, and a few where so many cannot be lent.
fn lengths(due: u128) -> Vec<usize> {
    const MOST: usize = 2 * 257 * 4_098;
    let lengths = match usize::try_from(due).unwrap_or(usize::MAX) {
        due @ ..=4_000 => {
            let around = due.saturating_sub(3)..=due + 3;
            BTreeSet::from_iter(around.chain([0, 2 * due + 5]))
        }
        due @ ..=MOST => BTreeSet::from([due - 1, due, due + 1]),
        _ => BTreeSet::from([0, 7, 8]),
    };
    Vec::from_iter(lengths)
}

/// How often each of the calls met which faults.
type Faults = BTreeMap<(&'static str, [bool; 4]), u64>;

/// Both calls over tables of every length: the target begins with the cells where they are to be, or after a refusal is as it was; all else is as it was.
fn every_length(random: &mut Random, size: Size, met: &mut Faults) {
    let lengths = lengths(size.due());
    let longest = lengths[lengths.len() - 1];
    let accepted = refusal(size.faults([longest; 2])).is_none();
    let of_both = |read| lengths.iter().map(move |written| [read, *written]);
    let of_both: Vec<[usize; 2]> = lengths.iter().copied().flat_map(of_both).collect();
    for call in [STORE, RESTORE] {
        let [numbers, before] = [(); 2].map(|()| contents(random, longest));
        let expected = accepted.then(|| call.moved(size, &numbers));
        let [mut source, mut target] = [&numbers, &before].map(|table| Lent::of(random, table));
        for &[read, written] in &of_both {
            let faults = size.faults([read, written]);
            let (from, to) = (&source.slice()[..read], &mut target.slice()[..written]);
            let refused = call.refused(size, from, to);
            let shown = || format!("{} {size:?} {read} {written}", call.name);
            assert_eq!(refused, refusal(faults), "{}", shown());
            let first = expected.as_deref().filter(|_| refused.is_none());
            let right = source.unchanged() && target.holds(first.unwrap_or_default());
            assert!(right, "{}", shown());
            target.slice().copy_from_slice(&before);
            *met.entry((call.name, faults)).or_default() += 1;
        }
    }
}

/// V and n around their limits, and such as are small by their low bits: every refusal alone and beside all others.
#[test]
fn every_size() {
    let (mut random, mut met) = (Random(90), Faults::new());
    for variables in [0, 1, 2, 3, 5, 12, 255, 256, 257, 65_537, u32::MAX] {
        for length in [0, 1, 2, 7, 80, 4_095, 4_096, 4_097, 65_536, u32::MAX] {
            every_length(&mut random, Size::new(variables, length), &mut met);
        }
    }
    // Each of the four faults is there or not, for each of the two calls.
    assert_eq!(met.len(), 2 * 16, "{met:?}");
}

/// Sizes up to 20 variables and 40 bytes, each of them.
#[test]
fn small_sizes() {
    let (mut random, mut met) = (Random(91), Faults::new());
    for (variables, length) in (1..=20).flat_map(|v| (0..=40).map(move |n| (v, n))) {
        every_length(&mut random, Size::new(variables, length), &mut met);
    }
    let accepted = ["store", "restore"].map(|name| met[&(name, [false; 4])]);
    assert!(accepted.into_iter().all(|met| 10_000 < met), "{met:?}");
}

/// The limits by hand, with the refusals by name.
#[test]
fn limits() {
    let [header, long_entry, tables] = [Refusal::Header, Refusal::LongEntry, Refusal::Tables];
    for (variables, length, read, written, refused) in [
        (1, 0, 2, 2, None),
        (1, 0, 1, 2, Some(tables)),
        (1, 0, 2, 1, Some(tables)),
        (2, 3, 16, 16, None),
        (2, 3, 15, 99, Some(tables)),
        (2, 3, 99, 15, Some(tables)),
        // V times n is 6, twice that 12.
        (2, 3, 12, 12, Some(tables)),
        (256, 4_096, 2_097_664, 2_097_664, None),
        (256, 4_096, 2_097_663, 2_097_664, Some(tables)),
        (256, 4_096, 2_097_664, 2_097_663, Some(tables)),
        (0, 0, 2, 2, Some(header)),
        (0, 4_097, 0, 0, Some(header)),
        (257, 0, 514, 514, Some(header)),
        (257, 4_097, 0, 0, Some(header)),
        (1, 4_097, 8_196, 8_196, Some(long_entry)),
        (256, 4_097, 0, 0, Some(long_entry)),
        (1, u32::MAX, 2, 2, Some(long_entry)),
    ] {
        for call in [store, restore] {
            let found = call(variables, length, &vec![7; read], &mut vec![9; written]);
            let found = found.map_err(|error| error.refusal()).err();
            assert_eq!(found, refused, "{variables} {length} {read} {written}");
        }
    }
}

/// Some that are wide, long or least, and others.
fn sizes(random: &mut Random) -> Vec<Size> {
    let mut sizes = vec![Size::new(256, 80), Size::new(3, 4_096), Size::new(1, 0)];
    sizes.extend((0..200).map(|_| Size::random(random, 30, 60)));
    sizes
}

/// The counts of cells "with outcome 0, 1, 2, 3, 4, and 5 or more", as the cells stand one behind the other.
fn counts(table: &[u32]) -> [usize; 6] {
    let mut counts = [0; 6];
    for cell in table.chunks(2) {
        counts[cell[0].min(5) as usize] += 1;
    }
    counts
}

/// The same counts, pair by pair.
fn counts_by_pair(size: Size, number: Number, table: &[u32]) -> [usize; 6] {
    let outcome = |pair| table[2 * number(size, pair)];
    [0..=0, 1..=1, 2..=2, 3..=3, 4..=4, 5..=u32::MAX].map(|kind| {
        let of_kind = |pair: &(usize, usize)| kind.contains(&outcome(*pair));
        size.pairs().filter(of_kind).count()
    })
}

/// The counts over what a call has written are those over what it has read.
#[test]
fn counts_of_outcomes() {
    let (mut random, mut met) = (Random(92), [0; 6]);
    for size in sizes(&mut random) {
        for call in [STORE, RESTORE] {
            let read = contents(&mut random, size.numbers());
            let written = call.made(&mut random, size, &read, size.numbers());
            let expected = counts_by_pair(size, call.from, &read);
            assert_eq!(counts(&read), expected, "{} {size:?}", call.name);
            assert_eq!(counts(&written), expected, "{} {size:?}", call.name);
            let by_pair = counts_by_pair(size, call.to, &written);
            assert_eq!(by_pair, expected, "{} {size:?}", call.name);
            (0..6).for_each(|kind| met[kind] += expected[kind]);
        }
    }
    assert!(met.into_iter().all(|met| 5_000 < met), "{met:?}");
}

/// "Returning a stored table restores every cell, and later cells of the target are unchanged", whatever stood in the two targets; so does storing what
/// was restored.
#[test]
fn round_trips() {
    let mut random = Random(93);
    for size in sizes(&mut random) {
        for (there, back) in [(STORE, RESTORE), (RESTORE, STORE)] {
            let lengths = [(); 3].map(|()| size.numbers() + random.index(4));
            let first = contents(&mut random, lengths[0]);
            let between = there.made(&mut random, size, &first, lengths[1]);
            let last = back.made(&mut random, size, &between, lengths[2]);
            let (first, last) = (&first[..size.numbers()], &last[..size.numbers()]);
            assert!(first == last, "{} {size:?}", back.name);
        }
    }
}

/// Case a by hand: what the verdict leaves, stored and restored among other numbers, behind which half a cell stands. The whole entry is known then.
#[test]
fn case_a() {
    let (mut table, mut work) = ([7; 49], [7; 24]);
    judge(H.as_bytes(), b"-6.", &mut table, &mut work).expect("it is recognised");
    let (mut stored, mut restored) = ([7; 49], [9; 49]);
    store(6, 3, &table, &mut stored).expect("both have 48 numbers");
    assert_eq!([&STORED.concat()[..], &[7]].concat(), stored);
    restore(6, 3, &stored, &mut restored).expect("both have 48 numbers");
    assert_eq!([&CELLS.concat()[..], &[9]].concat(), restored);
    let answer = further(H.as_bytes(), b"-6.", 1, 0, &mut restored, &mut work);
    assert_eq!(answer, Ok(Answer::Success { end: 3, cells: 0 }));
}

/// A table of case e from before order 11, by hand, whose cells of 1, 3 and 5 hold 4: it is stored and restored like any other, and then refused (19).
#[test]
fn fours() {
    let rows = [
        [4, 0, 0, 0, 0, 0],
        [6, 1, 0, 0, 0, 0],
        [0, 0, 4, 0, 0, 0],
        [0, 0, 7, 2, 0, 0],
        [0, 0, 0, 0, 4, 0],
        [0, 0, 0, 0, 0, 0],
    ];
    let by_place = [
        [4, 0, 6, 1, 0, 0, 0, 0, 0, 0, 0, 0],
        [0, 0, 0, 0, 4, 0, 7, 2, 0, 0, 0, 0],
        [0, 0, 0, 0, 0, 0, 0, 0, 4, 0, 0, 0],
    ];
    let (table, mut stored, mut restored) = (rows.concat(), [7; 36], [7; 36]);
    store(6, 2, &table, &mut stored).expect("both have 36 numbers");
    assert_eq!(stored[..], by_place.concat());
    assert_eq!(
        (counts(&table), counts(&stored)),
        ([13, 0, 0, 0, 3, 2], [13, 0, 0, 0, 3, 2])
    );
    restore(6, 2, &stored, &mut restored).expect("both have 36 numbers");
    assert_eq!(restored[..], table);
    let answer = further(H.as_bytes(), b"-6", 1, 0, &mut restored, &mut [7; 18]);
    assert_eq!(answer.map_err(|error| error.refusal()), Err(Refusal::Cell));
    assert_eq!(restored[..], table);
}

/// A table that was stored, and restored among other numbers.
fn archived(random: &mut Random, case: &Case, table: &[u32]) -> Vec<u32> {
    let size = Size::new(case.variables as u32, case.n());
    let stored = STORE.made(random, size, table, size.numbers() + 1);
    let restored = RESTORE.made(random, size, &stored, size.numbers() + 3);
    assert_eq!(case.first(&restored), case.first(table), "{case}");
    restored
}

/// Chains of one to six calls over two tables, one of which is stored and restored before each: the same answers, counts and cells, which are the
/// recognizer's.
#[test]
fn kept_tables() {
    with_deep_stack(chains);
}

fn chains() {
    let (mut random, mut met) = (Random(94), Met::default());
    for _ in 0..2_500 {
        let (variables, most) = match random.below(40) {
            0 => (256, 40),
            _ => (16, 12),
        };
        let (variables, length) = (1 + random.below(variables), random.index(most));
        let mut case = Case::random(&mut random, variables, length);
        let [mut table, mut other] = [(); 2].map(|()| vec![0; 2 * case.cells()]);
        for _ in 0..1 + random.below(6) {
            other = archived(&mut random, &case, &other);
            let (call, asked) = (case.any_call(&mut random), case.pair(&mut random));
            let said = case.said(&mut random, call, asked, &mut table);
            let (found, newly) = case.compared(&mut random, call, asked, &mut other);
            assert_eq!(said, Ok(found.numbers(newly)), "{call:?} {asked:?} {case}");
            assert_eq!(table, case.first(&other), "{call:?} {asked:?} {case}");
            met.count(format!("{} {}", call.name(), held(code(found.outcome))));
        }
    }
    met.assert_met(&ANSWERS, 30);
}
