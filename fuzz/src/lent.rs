//! Buffers as they are lent, filled with a pattern, each a block of its own from `malloc`. A build under AddressSanitizer lends exactly
//! the block, so that any touch beyond it stops the run; a build with margins has eight more cells on both sides and looks whether they
//! changed.

use differential::lent::Buffer;
use std::hint::black_box;
use std::slice;

const MARGIN: usize = if cfg!(feature = "margins") { 8 } else { 0 };

extern "C" {
    fn malloc(size: usize) -> *mut u8;
    fn free(block: *mut u8);
}

/// A block of `length` cells and the margins.
pub struct Lent<T: Cell> {
    start: *mut T,
    length: usize,
}

pub trait Cell: Copy + PartialEq + std::fmt::Debug {
    fn from_number(number: u32) -> Self;
}

impl Cell for u8 {
    fn from_number(number: u32) -> u8 {
        (number >> 24) as u8
    }
}

impl Cell for u16 {
    fn from_number(number: u32) -> u16 {
        (number >> 16) as u16
    }
}

impl Cell for u32 {
    fn from_number(number: u32) -> u32 {
        number
    }
}

impl<T: Cell> Lent<T> {
    pub fn patterned(length: usize) -> Lent<T> {
        let start = unsafe { malloc((length + 2 * MARGIN) * size_of::<T>()) }.cast::<T>();
        assert!(!start.is_null(), "no memory");
        let mut number = 1_u32;
        for place in 0..length + 2 * MARGIN {
            number = number.wrapping_mul(1664525).wrapping_add(1013904223);
            unsafe { start.add(place).write(T::from_number(number)) };
        }
        Lent { start, length }
    }

    pub fn holding(cells: &[T]) -> Lent<T> {
        let mut lent = Lent::patterned(cells.len());
        lent.cells_mut().copy_from_slice(cells);
        lent
    }

    /// The cells and the margins.
    fn all(&self) -> &[T] {
        unsafe { slice::from_raw_parts(self.start, self.length + 2 * MARGIN) }
    }
}

impl<T: Cell> Buffer<T> for Lent<T> {
    fn cells(&self) -> &[T] {
        unsafe { slice::from_raw_parts(self.start.add(MARGIN), self.length) }
    }

    fn cells_mut(&mut self) -> &mut [T] {
        unsafe { slice::from_raw_parts_mut(self.start.add(MARGIN), self.length) }
    }

    fn must_be(&self, expected: &Lent<T>, what: &str) {
        // The compiler is not to conclude that what was lent to be read is as it was.
        let (found, expected) = (black_box(self.all()), black_box(expected.all()));
        if found != expected {
            let place = found.iter().zip(expected).position(|(found, expected)| found != expected);
            let place = place.expect("buffers of one length");
            let (found, expected) = (found[place], expected[place]);
            panic!("{what}: place {} is {found:?}, expected {expected:?}", place as isize - MARGIN as isize);
        }
    }
}

impl<T: Cell> Clone for Lent<T> {
    fn clone(&self) -> Lent<T> {
        Lent::holding(self.cells())
    }
}

impl<T: Cell> Drop for Lent<T> {
    fn drop(&mut self) {
        unsafe { free(self.start.cast()) }
    }
}
