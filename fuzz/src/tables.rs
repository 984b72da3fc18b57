//! Expression tables from a fuzzer's input.

use crate::automata;
use crate::input::Input;
use independent::elimination;
use independent::table::{self, Node, Shape, WORDS_A_NODE};

/// Words, and the number of nodes that they were made for.
pub struct Table {
    pub words: Vec<u32>,
    pub nodes: usize,
}

/// A table: any words, words of few bits, a sound table, or a converted one; then up to three words changed, and cut or lengthened.
pub fn table(input: &mut Input) -> Table {
    let (form, spoils, end) = (input.byte(), input.byte(), input.byte());
    let spoils: Vec<(u16, u8, u32)> = (0..spoils % 4).map(|_| (input.half(), input.byte(), input.word())).collect();
    let mut words = match form % 16 {
        0..=2 => wide_words(input.rest()),
        3..=5 => narrow_words(input),
        6..=12 => table::words_of_table(&sound_nodes(input)),
        13 | 14 => table::words_of_table(&elimination::converted(&automata::automaton(input)).0),
        _ => table::words_of_table(&many_nodes(input)),
    };
    let nodes = words.len() / WORDS_A_NODE;
    for (place, how, word) in spoils {
        let length = words.len().max(1);
        if let Some(spoiled) = words.get_mut(place as usize % length) {
            *spoiled = if how % 2 == 0 { word } else { *spoiled ^ 1 << (how / 2 % 32) };
        }
    }
    match end % 8 {
        1 => drop(words.pop()),
        2 => words.truncate(words.len().saturating_sub(1 + end as usize / 8)),
        3 => words.extend((0..end as u32 / 8).map(|number| number.wrapping_mul(0x9e37_79b9))),
        _ => {}
    }
    Table { words, nodes }
}

fn wide_words(bytes: &[u8]) -> Vec<u32> {
    bytes.chunks(4).map(|four| four.iter().rev().fold(0, |word, &byte| word << 8 | byte as u32)).collect()
}

/// Kind and children of one byte, label and open set of two.
fn narrow_words(input: &mut Input) -> Vec<u32> {
    let mut words = Vec::new();
    while !input.is_over() {
        words.extend([input.byte() as u32, input.half() as u32]);
        words.extend([input.byte(), input.byte(), input.byte()].map(u32::from));
        words.push(input.half() as u32);
    }
    words
}

/// A sound table with a node for each few bytes.
fn sound_nodes(input: &mut Input) -> Vec<Node> {
    let mut nodes = Vec::new();
    while !input.is_over() && nodes.len() < 300 {
        push_node(&mut nodes, || input.byte());
    }
    nodes
}

/// A sound table of up to 4,100 nodes, from the same bytes again and again.
fn many_nodes(input: &mut Input) -> Vec<Node> {
    let (how, count) = (input.below(4), input.half() as usize);
    let count = [count % 4100, 4095, 4096, 4097][how];
    let bytes = input.rest();
    let mut again = bytes.iter().copied().cycle();
    let mut nodes = Vec::new();
    while nodes.len() < count {
        push_node(&mut nodes, || again.next().unwrap_or(3));
    }
    nodes
}

fn push_node(nodes: &mut Vec<Node>, mut byte: impl FnMut() -> u8) {
    let (kind, label) = (byte() as u32 % 6, byte() as u32);
    let number = nodes.len();
    let kind = if number == 0 { kind % 3 } else { kind };
    let state = label % 16;
    let mut child = || number - 1 - byte() as usize % number;
    let shape = match kind {
        0 => Shape::Empty,
        1 => Shape::Hole { state },
        2 => {
            let arity = if number == 0 { 0 } else { label / 32 % 4 };
            Shape::Symbol { symbol: label % 32, children: (0..arity).map(|_| child()).collect() }
        }
        3 => Shape::Alternation { left: child(), right: child() },
        4 => Shape::Concatenation { state, left: child(), right: child() },
        _ => Shape::Iteration { state, child: child() },
    };
    let open = shape.open_set(|child| nodes[child].open);
    nodes.push(Node { shape, open });
}

/// A count for a table that was made for so many nodes.
pub fn count(input: &mut Input, nodes: usize) -> usize {
    match input.byte() % 16 {
        0 => nodes + 1,
        1 => nodes.saturating_sub(1),
        2 => input.half() as usize,
        3 => input.long() as usize,
        4 => 0,
        _ => nodes,
    }
}

/// An answer number for a count.
pub fn answer(input: &mut Input, count: usize) -> usize {
    let (how, number) = (input.byte(), input.half() as usize);
    match how % 16 {
        0 => count,
        1 => number,
        2 => input.long() as usize,
        3..=7 => count.saturating_sub(1),
        _ => number % count.max(1),
    }
}
