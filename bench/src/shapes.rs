//! The automata, trees, tables and numbers that are timed.

use differential::published;
use differential::random::Random;
use differential::tables;
use independent::automaton::{Automaton, Row};
use independent::{elimination, file, table, trees};

pub struct Shape {
    pub name: &'static str,
    pub automaton: Automaton,
}

impl Shape {
    pub fn file(&self) -> Vec<u8> {
        file::file_of(&self.automaton)
    }
}

fn row(symbol: usize, sources: &[usize], target: usize) -> Row {
    Row { symbol, target, sources: sources.to_vec() }
}

pub fn file_p() -> Shape {
    Shape { name: "P", automaton: published::file_p().automaton }
}

/// A draft of sections, stanzas and lines: 5 states, 6 symbols, 14 rows.
pub fn typical() -> Shape {
    let rows = vec![
        row(0, &[], 0),
        row(1, &[], 0),
        row(2, &[0], 1),
        row(2, &[1], 1),
        row(3, &[0, 0], 1),
        row(3, &[0, 1], 2),
        row(3, &[1, 2], 2),
        row(4, &[2, 2], 3),
        row(4, &[2, 3], 3),
        row(4, &[1, 3], 3),
        row(5, &[0, 1, 3], 4),
        row(5, &[0, 2, 3], 4),
        row(5, &[0, 3, 4], 4),
        row(2, &[4], 4),
    ];
    Shape { name: "typical", automaton: Automaton { states: 5, finals: 0b1_1000, arities: vec![0, 0, 1, 2, 2, 3], rows } }
}

/// 16 states, 32 symbols, two rows for each.
pub fn few_rows_a_symbol() -> Shape {
    let arities: Vec<usize> = (0..32).map(|symbol| [0, 1, 2, 3][symbol % 4]).collect();
    let rows = (0..64).map(|place| {
        let symbol = place % 32;
        let sources: Vec<usize> = (0..arities[symbol]).map(|source| (place * 5 + source * 3) % 16).collect();
        row(symbol, &sources, (place * 7 + place / 32) % 16)
    });
    let rows = rows.collect();
    Shape { name: "few rows a symbol", automaton: Automaton { states: 16, finals: 0x8421, arities, rows } }
}

/// One symbol with two children has 63 rows.
pub fn all_rows_on_one_symbol() -> Shape {
    let mut rows = vec![row(0, &[], 0)];
    rows.extend((0..63).map(|place| row(1, &[place % 16, place * 5 % 16], (place * 3 + 1) % 16)));
    Shape { name: "all rows on one symbol", automaton: Automaton { states: 16, finals: 0x00f0, arities: vec![0, 2], rows } }
}

/// A leaf reaches all 16 states, and every symbol leads to all of them again.
pub fn large_sets() -> Shape {
    let mut rows: Vec<Row> = (0..16).map(|state| row(0, &[], state)).collect();
    rows.extend((0..16).map(|state| row(1, &[(state + 1) % 16], state)));
    rows.extend((0..16).map(|state| row(2, &[(state + 1) % 16, (state + 2) % 16], state)));
    rows.extend((0..16).map(|state| row(3, &[state, (state + 5) % 16, (state + 9) % 16], state)));
    Shape { name: "large sets", automaton: Automaton { states: 16, finals: 0x8000, arities: vec![0, 1, 2, 3], rows } }
}

/// A leaf and one symbol with one child, whose rows lead from each state to the next.
pub fn unary_chain() -> Shape {
    let mut rows: Vec<Row> = (0..16).rev().map(|state| row(1, &[state], (state + 1) % 16)).collect();
    rows.push(row(0, &[], 0));
    Shape { name: "unary chain", automaton: Automaton { states: 16, finals: 1, arities: vec![0, 1], rows } }
}

/// An automaton whose conversion makes 1,136 nodes, as many as a search by small changes ever found; its file is as long as a file can
/// be. Every row waits for state 0, and each state has a row from the next two, so that the rows that are left are open at every step.
pub fn largest() -> Shape {
    let mut rows: Vec<Row> = (0..16).map(|target| row(0, &[0, (target + 1).min(15), (target + 2).min(15)], target)).collect();
    rows.extend((0..48).map(|_| row(0, &[0, 1, 2], 15)));
    let mut arities = vec![3; 31];
    arities.push(0);
    Shape { name: "largest", automaton: Automaton { states: 16, finals: u16::MAX, arities, rows } }
}

/// Automata that grow: so many states, symbols and rows, of all arities. Symbol 0 is a leaf with one row, so that there are trees.
pub fn growing(states: usize, symbols: usize, rows: usize) -> Automaton {
    let arities: Vec<usize> = (0..symbols).map(|symbol| [0, 2, 1, 3][symbol % 4]).collect();
    let mut random = Random::new(1);
    let mut all = vec![row(0, &[], 0)];
    while all.len() < rows {
        let symbol = random.below(symbols);
        let sources: Vec<usize> = (0..arities[symbol]).map(|_| random.below(states)).collect();
        all.push(row(symbol, &sources, random.below(states)));
    }
    Automaton { states, finals: 1 << (states - 1), arities, rows: all }
}

/// A tree of exactly so many symbols over the automaton's, a mixed one; it must have a leaf, and a symbol of one child or a number that
/// its arities can make.
pub fn tree(automaton: &Automaton, size: usize) -> Vec<u16> {
    let mut random = Random::new(size as u64);
    for _ in 0..1000 {
        let words = try_tree(&mut random, automaton, size);
        if words.len() == size && trees::tree_of(&words, &automaton.arities).is_some() {
            return words;
        }
    }
    panic!("no tree of {size} symbols");
}

fn try_tree(random: &mut Random, automaton: &Automaton, size: usize) -> Vec<u16> {
    let mut words = Vec::new();
    let mut open = 1;
    while open > 0 && words.len() < size {
        let room = size - (words.len() + open);
        let fits = |&symbol: &usize| {
            let arity = automaton.arities[symbol];
            arity <= room && (arity > 0 || open > 1 || room == 0)
        };
        let symbols: Vec<usize> = (0..automaton.arities.len()).filter(fits).collect();
        if symbols.is_empty() {
            break;
        }
        let symbol = random.pick(&symbols);
        words.push(symbol as u16);
        open = open + automaton.arities[symbol] - 1;
    }
    words
}

/// A table to check, measure and list.
pub struct Table {
    pub name: String,
    pub words: Vec<u32>,
    pub count: usize,
    pub answer: usize,
}

pub fn converted_table(shape: &Shape) -> Table {
    let (nodes, answer) = elimination::converted(&shape.automaton);
    let name = format!("{}, {} nodes", shape.name, nodes.len());
    Table { name, words: table::words_of_table(&nodes), count: nodes.len(), answer }
}

pub fn random_table(count: usize) -> Table {
    let nodes = tables::nodes_of_count(&mut Random::new(5), count);
    let name = format!("random, {count} nodes");
    Table { name, words: table::words_of_table(&nodes), count, answer: count - 1 }
}

pub fn small_numbers() -> Vec<u64> {
    (0..10_000).collect()
}

/// Mixed: 1 to 20 digits, each number of them about as often.
pub fn any_numbers() -> Vec<u64> {
    let mut random = Random::new(7);
    (0..10_000).map(|_| (random.next() | 1 << 63) / 10u64.pow(random.below(19) as u32)).collect()
}
