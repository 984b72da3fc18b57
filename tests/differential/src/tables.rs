//! Random node tables, sound ones and ones with something changed.

use crate::random::Random;
use independent::table::{self, Node, Shape, WORDS_A_NODE};

/// The nodes of a sound table.
pub fn nodes(random: &mut Random) -> Vec<Node> {
    let count = match random.below(3000) {
        0 => 4096,
        1..=5 => random.between(1000, 3000),
        6..=150 => random.between(30, 120),
        _ => random.between(1, 24),
    };
    nodes_of_count(random, count)
}

/// A sound table of that many nodes. Some manners make written-out sizes that pass every bound.
pub fn nodes_of_count(random: &mut Random, count: usize) -> Vec<Node> {
    let states = random.pick(&[1, 2, 3, 16]);
    let near_children = random.once_in(2);
    let growing = random.once_in(8);
    let mut nodes: Vec<Node> = Vec::new();
    for number in 0..count {
        let mut shape = shape(random, number, states, near_children);
        if growing && number > 0 && shape.children().is_empty() {
            shape = Shape::Symbol { symbol: 1, children: vec![number - 1; 3] };
        }
        let open = shape.open_set(|child| nodes[child].open);
        nodes.push(Node { shape, open });
    }
    nodes
}

/// A shape that keeps the rules for a node of that number.
pub fn shape(random: &mut Random, number: usize, states: usize, near_children: bool) -> Shape {
    let state = random.below(states) as u32;
    if number == 0 {
        return match random.below(3) {
            0 => Shape::Empty,
            1 => Shape::Hole { state },
            _ => Shape::Symbol { symbol: random.below(32) as u32, children: vec![] },
        };
    }
    let least = if near_children { number.saturating_sub(3) } else { 0 };
    let child = |random: &mut Random| random.between(least, number - 1);
    match random.below(10) {
        0 => Shape::Empty,
        1 => Shape::Hole { state },
        2..=4 => {
            let children = (0..random.below(4)).map(|_| child(random)).collect();
            Shape::Symbol { symbol: random.below(32) as u32, children }
        }
        5..=6 => Shape::Alternation { left: child(random), right: child(random) },
        7..=8 => Shape::Concatenation { state, left: child(random), right: child(random) },
        _ => Shape::Iteration { state, child: child(random) },
    }
}

/// A table with the count and the answer that go with it.
pub struct Table {
    pub words: Vec<u32>,
    pub count: usize,
    pub answer: usize,
}

/// A table, sound in about `good` of ten cases; there may be further words after it.
pub fn table(random: &mut Random, good: usize) -> Table {
    let nodes = nodes(random);
    let mut words = table::words_of_table(&nodes);
    words.extend((0..random.pick(&[0, 0, 1, 5, 6, 20])).map(|_| random.number()).collect::<Vec<u32>>());
    let mut table = Table { words, count: nodes.len(), answer: random.below(nodes.len()) };
    if random.below(10) >= good {
        spoil(random, &mut table);
    }
    table
}

/// Changes one word, the count, the answer or the number of words.
fn spoil(random: &mut Random, table: &mut Table) {
    match random.below(14) {
        0 => table.count = random.huge(),
        1 => table.answer = random.pick(&[table.count, table.count + 1, 4095, 4096]),
        2 => table.answer = random.huge(),
        3 => table.count = random.pick(&[0, table.count - 1, table.count + 1]),
        4 => table.words.truncate((WORDS_A_NODE * table.count).saturating_sub(random.between(1, 7))),
        5 if random.once_in(40) => {
            let nodes = nodes_of_count(random, 4097);
            *table = Table { words: table::words_of_table(&nodes), count: 4097, answer: random.below(4097) };
        }
        6 => table.words = (0..random.below(40)).map(|_| random.number()).collect(),
        _ => spoil_word(random, table),
    }
}

/// Changes one word by a little, by one bit, or to anything.
fn spoil_word(random: &mut Random, table: &mut Table) {
    let place = random.below(WORDS_A_NODE * table.count);
    let word = &mut table.words[place];
    *word = match random.below(5) {
        0 => word.wrapping_add(1),
        1 => word.wrapping_sub(1),
        2 => *word ^ 1 << random.below(32),
        3 => random.number(),
        _ => (place / WORDS_A_NODE) as u32,
    };
}

/// Six numbers for `make`: those of a node that keeps the rules, or with one number changed.
pub fn node_words(random: &mut Random, number: usize) -> (u32, u32, [u32; 3]) {
    let states = random.pick(&[2, 16]);
    let shape = shape(random, number.min(1 << 20), states, false);
    let words = table::words_of_node(&Node { shape, open: 0 });
    let mut five = [words[0], words[1], words[2], words[3], words[4]];
    if random.once_in(3) {
        let place = random.below(5);
        five[place] = match random.below(5) {
            0 => five[place].wrapping_add(1),
            1 => five[place].wrapping_sub(1),
            2 => number as u32,
            3 => five[place] ^ 1 << random.below(32),
            _ => random.number(),
        };
    }
    (five[0], five[1], [five[2], five[3], five[4]])
}
