//! Expression tables made node by node, or by a conversion, on both sides at once, and what a table denotes.

use crate::both;
use crate::lent::Buffer;
use crate::typed::{holding, sevens};
use independent::table::{self, Node, WORDS_A_NODE};
use meaning::denoted;
use meaning::language::{Language, Limit};

/// A table in the making.
#[derive(Default)]
pub struct Built {
    words: Vec<u32>,
    count: usize,
}

impl Built {
    fn put(&mut self, kind: u32, label: u32, children: &[usize]) -> usize {
        let mut three = [0; 3];
        for (place, &child) in children.iter().enumerate() {
            three[place] = child as u32;
        }
        self.words.extend([7; WORDS_A_NODE]);
        let mut words = holding(&self.words);
        let number = both::make(&mut words, self.count, kind, label, three);
        assert_eq!(number, 0, "node {} of kind {kind}, label {label}, children {children:?}", self.count);
        self.words.copy_from_slice(words.cells());
        self.count += 1;
        self.count - 1
    }

    pub fn empty(&mut self) -> usize {
        self.put(0, 0, &[])
    }

    pub fn hole(&mut self, state: u32) -> usize {
        self.put(1, state, &[])
    }

    pub fn symbol(&mut self, symbol: usize, children: &[usize]) -> usize {
        self.put(2, symbol as u32 + 256 * children.len() as u32, children)
    }

    pub fn alt(&mut self, left: usize, right: usize) -> usize {
        self.put(3, 0, &[left, right])
    }

    pub fn cat(&mut self, state: u32, left: usize, right: usize) -> usize {
        self.put(4, state, &[left, right])
    }

    pub fn iter(&mut self, state: u32, child: usize) -> usize {
        self.put(5, state, &[child])
    }

    /// What a node of the table denotes, to a size. The table must be sound.
    pub fn denotes(&self, answer: usize, size: usize) -> Language {
        assert!(both::is_sound(&holding(&self.words), self.count, answer), "a table made node by node is sound");
        let nodes = table::sound_nodes(&self.words, self.count, answer).expect("a sound table");
        denoted_to(&nodes, answer, size)
    }
}

/// What a node of a table denotes, to a size.
pub fn denoted_to(nodes: &[Node], answer: usize, size: usize) -> Language {
    let limit = Limit { size, trees: usize::MAX };
    denoted::denoted_by_nodes(nodes, limit).expect("no limit on trees").swap_remove(answer)
}

/// The conversion of a file in ample room: its nodes and its answer.
pub fn converted(file: &[u8]) -> (Vec<Node>, usize) {
    let mut words = sevens(WORDS_A_NODE * 1393);
    let wholly = both::convert(&holding(file), &mut words);
    assert_eq!(wholly.refusal, 0, "a valid file is converted");
    let nodes = table::sound_nodes(words.cells(), wholly.nodes, wholly.answer).expect("the converted table is sound");
    (nodes, wholly.answer)
}
