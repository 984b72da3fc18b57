//! The doors that write at a place, and the ones that read and clear a table's words.

use crate::input::Input;
use crate::lent::Lent;
use crate::tables;
use differential::both;
use differential::lent::Buffer;
use independent::writing;

/// A place for so many cells in a buffer of that length: where they just fit, where one is too many, anywhere around, or so far on that
/// place and cells, added, pass 64 bits.
fn place(input: &mut Input, length: usize, cells: usize) -> usize {
    let (how, number) = (input.byte(), input.long() as usize);
    match how % 8 {
        0 | 1 => length.saturating_sub(cells),
        2 => (length + 1).saturating_sub(cells),
        3 | 4 => number % (length + 3),
        5 => usize::MAX - number % (cells + 3),
        _ => number,
    }
}

pub fn put_bytes(input: &mut Input) {
    let mut numbers = input.part(12);
    let bytes = Lent::holding(input.rest());
    let count = bytes.cells().len();
    let length = numbers.room(count);
    let at = place(&mut numbers, length, count);
    both::put_bytes(&mut Lent::patterned(length), at, &bytes);
}

pub fn put_number(input: &mut Input) {
    let mut numbers = input.part(12);
    let n = input.long() >> input.below(64);
    let count = both::digits(n);
    assert_eq!(writing::decimal(n), n.to_string().as_bytes(), "the digits of {n}");
    let length = numbers.room(count);
    let at = place(&mut numbers, length, count);
    both::put_number(&mut Lent::patterned(length), at, n);
}

/// The node, how many children it has, and in the end the words cleared.
pub fn node_at(input: &mut Input) {
    let mut numbers = input.part(11);
    let table = tables::table(input);
    let number = tables::answer(&mut numbers, table.nodes);
    let mut lent = Lent::holding(&table.words);
    let [kind, label, first, second, third, _] = both::node_at(&lent, number);
    both::child_count(kind, label, [first, second, third]);
    both::zero(&mut lent);
}
