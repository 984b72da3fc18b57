//! The doors that take the words of an expression table.

use crate::input::Input;
use crate::lent::Lent;
use crate::tables;
use differential::both;
use differential::lent::Buffer;
use independent::{listing, table};

pub fn is_sound(input: &mut Input) {
    let mut numbers = input.part(20);
    let table = tables::table(input);
    let count = tables::count(&mut numbers, table.nodes);
    let answer = tables::answer(&mut numbers, count);
    both::is_sound(&Lent::holding(&table.words), count, answer);
}

pub fn make(input: &mut Input) {
    let (mut numbers, mut node) = (input.part(9), input.part(20));
    let table = tables::table(input);
    let count = tables::count(&mut numbers, table.nodes);
    let (kind, label, children) = node_words(&mut node, count);
    let mut words = table.words;
    if node.byte() % 4 != 0 {
        words.extend([0x5555_5555; 7]);
    }
    both::make(&mut Lent::holding(&words), count, kind, label, children);
}

/// Kind, label and children: mostly of a node that keeps the rules, each sometimes any number.
fn node_words(input: &mut Input, count: usize) -> (u32, u32, [u32; 3]) {
    let (form, kind, low, high) = (input.byte(), input.byte() as u32, input.byte() as u32, input.byte() as u32);
    let kind = if form & 1 == 0 { kind % 6 } else { kind };
    let (state, arity) = (low % 16, high % 4);
    let (label, used) = match kind {
        0 => (0, 0),
        1 => (state, 0),
        2 => (low % 32 + 256 * arity, arity as usize),
        3 => (0, 2),
        4 => (state, 2),
        _ => (state, 1),
    };
    let label = if form & 2 == 0 { label } else { low + 256 * high };
    let mut children = std::array::from_fn(|_| input.half() as u32);
    for (place, child) in children.iter_mut().enumerate() {
        if form & 4 == 0 {
            *child = if place < used { *child % (count.clamp(1, 65536) as u32) } else { 0 };
        }
    }
    match form >> 4 {
        1 => (input.word(), label, children),
        2 => (kind, input.word(), children),
        3 => (kind, label, std::array::from_fn(|_| input.word())),
        _ => (kind, label, children),
    }
}

/// A table lent to be read, a count and an answer for it, and what says how much room there is for the outcome.
fn lent_table<'a>(input: &mut Input<'a>) -> (Lent<u32>, usize, usize, Input<'a>) {
    let (mut numbers, room) = (input.part(20), input.part(3));
    let table = tables::table(input);
    let count = tables::count(&mut numbers, table.nodes);
    let answer = tables::answer(&mut numbers, count);
    (Lent::holding(&table.words), count, answer, room)
}

pub fn measure(input: &mut Input) {
    let (lent, count, answer, mut room) = lent_table(input);
    let mut scratch = Lent::patterned(room.room(count.min(5000)));
    both::measure(&lent, count, answer, &mut scratch);
}

pub fn list(input: &mut Input) {
    let (lent, count, answer, mut room) = lent_table(input);
    let nodes = table::sound_nodes(lent.cells(), count, answer);
    let needed = nodes.map_or(40, |nodes| listing::listing(&nodes, answer).len());
    let mut out = Lent::patterned(room.room(needed));
    both::list(&lent, count, answer, &mut out);
}
