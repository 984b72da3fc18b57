//! Buffers as they are lent: filled with a pattern, and with margins on both sides that nobody may touch.

use crate::random::Random;
use std::hint::black_box;

const MARGIN: usize = 8;

/// A block of cells to lend, which can be looked over afterwards. The fuzzer has another than the one here.
pub trait Buffer<T>: Clone {
    fn cells(&self) -> &[T];
    fn cells_mut(&mut self) -> &mut [T];
    /// Fails at the first place where it is not as expected; what lies around the cells counts too.
    fn must_be(&self, expected: &Self, what: &str);
}

#[derive(Clone, PartialEq, Eq, Debug)]
pub struct Lent<T> {
    all: Vec<T>,
}

/// Something that a buffer is made of.
pub trait Cell: Copy + PartialEq + std::fmt::Debug {
    fn from_random(number: u64) -> Self;
}

impl Cell for u8 {
    fn from_random(number: u64) -> u8 {
        number as u8
    }
}

impl Cell for u16 {
    fn from_random(number: u64) -> u16 {
        number as u16
    }
}

impl Cell for u32 {
    fn from_random(number: u64) -> u32 {
        number as u32
    }
}

impl<T: Cell> Lent<T> {
    /// A buffer of that length with a pattern that is never twice the same.
    pub fn patterned(random: &mut Random, length: usize) -> Lent<T> {
        let mut pattern = Random::new(random.next());
        Lent { all: (0..length + 2 * MARGIN).map(|_| T::from_random(pattern.next())).collect() }
    }

    /// A buffer that holds these.
    pub fn holding(random: &mut Random, cells: &[T]) -> Lent<T> {
        let mut lent = Lent::patterned(random, cells.len());
        lent.cells_mut().copy_from_slice(cells);
        lent
    }
}

impl<T: Cell> Buffer<T> for Lent<T> {
    fn cells(&self) -> &[T] {
        &self.all[MARGIN..self.all.len() - MARGIN]
    }

    fn cells_mut(&mut self) -> &mut [T] {
        let end = self.all.len() - MARGIN;
        &mut self.all[MARGIN..end]
    }

    fn must_be(&self, expected: &Lent<T>, what: &str) {
        // The compiler is not to conclude that what was lent to be read is as it was.
        let (found, expected) = (black_box(self), black_box(expected));
        if found != expected {
            let place = found.all.iter().zip(&expected.all).position(|(a, b)| a != b);
            let place = place.expect("buffers of one length");
            panic!(
                "{what}: place {} (of {}) is {:?}, expected {:?}",
                place as isize - MARGIN as isize,
                found.cells().len(),
                found.all[place],
                expected.all[place]
            );
        }
    }
}
