//! Running a tree: section 5.

use crate::automaton::{Automaton, Row};
use crate::file;
use crate::refusal::*;
use crate::sets::{self, States};

/// The most symbols of a tree that is lent [2.5].
pub const MOST_TREE: usize = 4096;

/// A tree over symbols.
#[derive(Clone, PartialEq, Eq, Debug)]
pub struct Tree {
    pub symbol: usize,
    pub children: Vec<Tree>,
}

/// What a run answers [5.5]; nothing is reached where it is refused [4.20].
#[derive(Clone, Copy, PartialEq, Eq, Debug)]
pub struct Reached {
    pub refusal: u8,
    pub states: States,
    pub yes: bool,
}

/// The tree that the words say in prefix order [5.1]; nothing where they say none, or one and more besides, or one that is too large [5.3].
/// A symbol is known where the file declares it, with rows or without [5.2].
pub fn tree_of(words: &[u16], arities: &[usize]) -> Option<Tree> {
    if words.len() > MOST_TREE {
        return None;
    }
    tree_of_any_size(words, arities)
}

/// The tree that the words are exactly, whatever its size.
pub fn tree_of_any_size(words: &[u16], arities: &[usize]) -> Option<Tree> {
    let (tree, rest) = first_tree(words, arities)?;
    rest.is_empty().then_some(tree)
}

/// The tree that the words begin with, and the words after it.
fn first_tree<'a>(words: &'a [u16], arities: &[usize]) -> Option<(Tree, &'a [u16])> {
    let (&first, mut rest) = words.split_first()?;
    let symbol = first as usize;
    let mut children = Vec::new();
    for _ in 0..*arities.get(symbol)? {
        let (child, after) = first_tree(rest, arities)?;
        children.push(child);
        rest = after;
    }
    Some((Tree { symbol, children }, rest))
}

/// The prefix words of a tree.
pub fn words_of(tree: &Tree) -> Vec<u16> {
    let mut words = vec![tree.symbol as u16];
    for child in &tree.children {
        words.extend(words_of(child));
    }
    words
}

/// The states that a tree reaches: the targets of its symbol's rows whose sources its parts reach, one by one [5.4].
pub fn reached(automaton: &Automaton, tree: &Tree) -> States {
    let below: Vec<States> = tree.children.iter().map(|child| reached(automaton, child)).collect();
    let mut states = sets::empty();
    for row in automaton.rows.iter().filter(|row| row.symbol == tree.symbol) {
        if sources_in(row, &below) {
            states = sets::union(states, sets::one(row.target as u32));
        }
    }
    states
}

fn sources_in(row: &Row, below: &[States]) -> bool {
    row.sources.iter().zip(below).all(|(&source, &states)| sets::has(states, source as u32))
}

/// Is a final state among these [5.6]?
pub fn accepts(automaton: &Automaton, states: States) -> bool {
    sets::members(states).any(|state| automaton.is_final(state as usize))
}

pub fn run(bytes: &[u8], words: &[u16]) -> Reached {
    let refused = |refusal| Reached { refusal, states: sets::empty(), yes: false };
    let automaton = match file::read(bytes) {
        Ok(automaton) => automaton,
        Err(number) => return refused(number),
    };
    match tree_of(words, &automaton.arities) {
        None => refused(NOT_A_TREE),
        Some(tree) => {
            let states = reached(&automaton, &tree);
            Reached { refusal: DONE, states, yes: accepts(&automaton, states) }
        }
    }
}

/// Round by round, each row whose sources are all productive makes its target so [5.7, 5.8].
pub fn productive_states(automaton: &Automaton) -> States {
    let mut states = sets::empty();
    loop {
        let before = states;
        for row in &automaton.rows {
            if row.sources.iter().all(|&source| sets::has(before, source as u32)) {
                states = sets::union(states, sets::one(row.target as u32));
            }
        }
        if states == before {
            return states;
        }
    }
}

pub fn productive(bytes: &[u8]) -> (u8, States) {
    match file::read(bytes) {
        Ok(automaton) => (DONE, productive_states(&automaton)),
        Err(number) => (number, sets::empty()),
    }
}
