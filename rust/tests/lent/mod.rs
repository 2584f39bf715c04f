//! Slices to lend: the middle of a longer vector, with guard numbers on both sides.
use crate::random::Random;

const GUARD: usize = 8;

/// A number of a lent slice.
pub trait Number: Copy + PartialEq {
    fn any(random: &mut Random) -> Self;
}

impl Number for u8 {
    fn any(random: &mut Random) -> u8 {
        random.below(256) as u8
    }
}

impl Number for u32 {
    fn any(random: &mut Random) -> u32 {
        random.below(1 << 31) as u32
    }
}

/// A slice to lend, and what stood there and around it before.
pub struct Lent<T> {
    numbers: Vec<T>,
    before: Vec<T>,
}

impl<T: Number> Lent<T> {
    /// The contents, with a guard on both sides.
    pub fn of(random: &mut Random, contents: &[T]) -> Lent<T> {
        let mut guard = || (0..GUARD).map(|_| T::any(random)).collect::<Vec<T>>();
        let before = [&guard(), contents, &guard()].concat();
        Lent {
            numbers: before.clone(),
            before,
        }
    }

    /// So many numbers that are anything: a short run of them, over and over.
    pub fn any(random: &mut Random, length: usize) -> Lent<T> {
        let run: Vec<T> = (0..251.min(length)).map(|_| T::any(random)).collect();
        let mut contents = run.repeat(length / 251 + 1);
        contents.truncate(length);
        Lent::of(random, &contents)
    }

    pub fn slice(&mut self) -> &mut [T] {
        let end = self.numbers.len() - GUARD;
        &mut self.numbers[GUARD..end]
    }

    /// The slice as an array that it has the length of.
    pub fn array<const N: usize>(&mut self) -> &mut [T; N] {
        self.slice().try_into().expect("it has that length")
    }

    /// Are the first numbers of the slice these, and all others and the guards as before?
    pub fn holds(&self, first: &[T]) -> bool {
        self.keeps_from(first.len()) && self.numbers[GUARD..].starts_with(first)
    }

    /// Are the numbers of the slice from here on and the guards as before?
    pub fn keeps_from(&self, free: usize) -> bool {
        let free = GUARD..GUARD + free.min(self.before.len() - 2 * GUARD);
        self.numbers.len() == self.before.len()
            && self.numbers[..free.start] == self.before[..free.start]
            && self.numbers[free.end..] == self.before[free.end..]
    }

    pub fn unchanged(&self) -> bool {
        self.keeps_from(0)
    }
}

impl Lent<u32> {
    /// Another number at a position of the longer vector.
    pub fn overwrite(&mut self, position: usize) {
        self.numbers[position] ^= 1;
    }
}
