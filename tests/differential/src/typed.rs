//! For tests whose outcomes are typed by hand: files put together byte by byte, by neither side's writer, and buffers full of sevens.

use crate::lent::{Buffer, Cell, Lent};
use crate::random::Random;

/// A row: its symbol, its sources, its target.
pub type TypedRow<'a> = (u8, &'a [u8], u8);

/// The bytes of a file: the record of the states, one for each symbol, one for each row, and the end.
pub fn file_bytes(states: u8, finals: u16, arities: &[u8], rows: &[TypedRow]) -> Vec<u8> {
    let [low, high] = finals.to_le_bytes();
    let mut bytes = vec![3, 0, 1, 0, states, low, high];
    for &arity in arities {
        bytes.extend([1, 0, 2, 0, arity]);
    }
    for (symbol, sources, target) in rows {
        bytes.extend([2 + sources.len() as u8, 0, 3, 0, *symbol, *target]);
        bytes.extend(*sources);
    }
    bytes.extend([0, 0, 9, 0]);
    bytes
}

/// Such a file, to be lent.
pub fn file(states: u8, finals: u16, arities: &[u8], rows: &[TypedRow]) -> Lent<u8> {
    holding(&file_bytes(states, finals, arities, rows))
}

/// Cells to be lent.
pub fn holding<T: Cell>(cells: &[T]) -> Lent<T> {
    Lent::holding(&mut Random::new(1), cells)
}

/// A buffer of that length in which every cell is 7.
pub fn sevens<T: Cell + From<u8>>(length: usize) -> Lent<T> {
    holding(&vec![T::from(7); length])
}

/// Are these the cells that the buffer begins with, and is every further cell 7 still?
pub fn begins_with<T: Cell + From<u8>>(lent: &Lent<T>, cells: &[T]) -> bool {
    lent.cells().starts_with(cells) && lent.cells()[cells.len()..].iter().all(|&cell| cell == T::from(7))
}

/// Is every cell of the buffer this one?
pub fn all_are<T: Cell>(lent: &Lent<T>, cell: T) -> bool {
    lent.cells().iter().all(|&found| found == cell)
}
