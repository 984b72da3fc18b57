//! The node table, section 7, and written-out sizes [9.1 to 9.3].

use crate::refusal::*;
use crate::sets::{self, States};

/// The words of a node [7.1].
pub const WORDS_A_NODE: usize = 6;
/// The most nodes of a table [2.6].
pub const MOST_NODES: usize = 4096;
const MOST_SYMBOL: u32 = 31;
const MOST_ARITY: u32 = 3;

/// The kinds of node [7.2]. Children are node numbers.
#[derive(Clone, PartialEq, Eq, Debug)]
pub enum Shape {
    Empty,
    Hole { state: u32 },
    Symbol { symbol: u32, children: Vec<usize> },
    Alternation { left: usize, right: usize },
    Concatenation { state: u32, left: usize, right: usize },
    Iteration { state: u32, child: usize },
}

/// A node: its shape and its open set.
#[derive(Clone, PartialEq, Eq, Debug)]
pub struct Node {
    pub shape: Shape,
    pub open: States,
}

impl Shape {
    pub fn children(&self) -> Vec<usize> {
        match self {
            Shape::Empty | Shape::Hole { .. } => vec![],
            Shape::Symbol { children, .. } => children.clone(),
            Shape::Alternation { left, right } | Shape::Concatenation { left, right, .. } => vec![*left, *right],
            Shape::Iteration { child, .. } => vec![*child],
        }
    }

    fn kind(&self) -> u32 {
        match self {
            Shape::Empty => 0,
            Shape::Hole { .. } => 1,
            Shape::Symbol { .. } => 2,
            Shape::Alternation { .. } => 3,
            Shape::Concatenation { .. } => 4,
            Shape::Iteration { .. } => 5,
        }
    }

    /// The label's word: a state, or a symbol in the low byte with its arity above it, or 0 where there is nothing to say [7.2].
    fn label(&self) -> u32 {
        match self {
            Shape::Empty | Shape::Alternation { .. } => 0,
            Shape::Hole { state } | Shape::Concatenation { state, .. } | Shape::Iteration { state, .. } => *state,
            Shape::Symbol { symbol, children } => symbol + 256 * children.len() as u32,
        }
    }

    /// The shape that kind, label and children say, for a node of that number; nothing where there is no such kind, where the kind cannot
    /// have that label, where a child is not an earlier node, or where a word that the kind does not use is not 0 [7.2 to 7.6].
    pub fn from_words(number: usize, kind: u32, label: u32, children: [u32; 3]) -> Option<Shape> {
        let state_fits = label < sets::WIDTH;
        let (symbol, arity) = (label % 256, label / 256);
        let used = match kind {
            0 if label == 0 => 0,
            1 if state_fits => 0,
            2 if symbol <= MOST_SYMBOL && arity <= MOST_ARITY => arity as usize,
            3 if label == 0 => 2,
            4 if state_fits => 2,
            5 if state_fits => 1,
            _ => return None,
        };
        let earlier = children[..used].iter().all(|&child| (child as usize) < number);
        let unused_zero = children[used..].iter().all(|&word| word == 0);
        if !earlier || !unused_zero {
            return None;
        }
        let child = |place: usize| children[place] as usize;
        Some(match kind {
            0 => Shape::Empty,
            1 => Shape::Hole { state: label },
            2 => Shape::Symbol { symbol, children: (0..used).map(child).collect() },
            3 => Shape::Alternation { left: child(0), right: child(1) },
            4 => Shape::Concatenation { state: label, left: child(0), right: child(1) },
            _ => Shape::Iteration { state: label, child: child(0) },
        })
    }

    /// The states that a tree of the node may still have holes for. A hole has its own; a symbol and an alternation have those of all
    /// children; an iteration adds its letter, whose hole is its level 0. A concatenation trades its letter for what is open on the right,
    /// but only where the letter is open on the left: else nothing of the right gets in [7.7].
    pub fn open_set(&self, open_of: impl Fn(usize) -> States) -> States {
        match self {
            Shape::Empty => sets::empty(),
            Shape::Hole { state } => sets::one(*state),
            Shape::Symbol { .. } | Shape::Alternation { .. } => {
                self.children().into_iter().fold(sets::empty(), |open, child| sets::union(open, open_of(child)))
            }
            Shape::Iteration { state, child } => sets::union(open_of(*child), sets::one(*state)),
            Shape::Concatenation { state, left, right } => {
                let left = open_of(*left);
                if sets::has(left, *state) {
                    sets::union(sets::without(left, *state), open_of(*right))
                } else {
                    left
                }
            }
        }
    }
}

/// The six words of a node [7.1].
pub fn words_of_node(node: &Node) -> [u32; WORDS_A_NODE] {
    let mut words = [node.shape.kind(), node.shape.label(), 0, 0, 0, node.open as u32];
    for (place, child) in node.shape.children().into_iter().enumerate() {
        words[2 + place] = child as u32;
    }
    words
}

pub fn words_of_table(nodes: &[Node]) -> Vec<u32> {
    nodes.iter().flat_map(words_of_node).collect()
}

/// The first `count` nodes that the words hold, where every one of them keeps the rules [7.2 to 7.8].
pub fn nodes_of(words: &[u32], count: usize) -> Option<Vec<Node>> {
    if !(1..=MOST_NODES).contains(&count) || words.len() < WORDS_A_NODE * count {
        return None;
    }
    let mut nodes: Vec<Node> = Vec::new();
    for (number, six) in words.chunks_exact(WORDS_A_NODE).take(count).enumerate() {
        let shape = Shape::from_words(number, six[0], six[1], [six[2], six[3], six[4]])?;
        let open = shape.open_set(|child| nodes[child].open);
        if six[5] != open as u32 {
            return None;
        }
        nodes.push(Node { shape, open });
    }
    Some(nodes)
}

/// The nodes, where the table is sound and the answer is one of them [7.9].
pub fn sound_nodes(words: &[u32], count: usize, answer: usize) -> Option<Vec<Node>> {
    if answer < count {
        nodes_of(words, count)
    } else {
        None
    }
}

/// The check [7.13].
pub fn is_sound(words: &[u32], count: usize, answer: usize) -> bool {
    sound_nodes(words, count, answer).is_some()
}

/// Puts one node as node number `count`: 8 where it breaks a rule for a node of that number, then 6 where there is no room for it, in the
/// words or in a table of the most nodes [7.15 to 7.18].
pub fn make(words: &mut [u32], count: usize, kind: u32, label: u32, children: [u32; 3]) -> u8 {
    let Some(shape) = Shape::from_words(count, kind, label, children) else {
        return NOT_SOUND;
    };
    if count >= MOST_NODES || words.len() < WORDS_A_NODE * (count + 1) {
        return TOO_SHORT;
    }
    let open = open_word(&shape, |child| words[WORDS_A_NODE * child + 5]);
    let mut six = words_of_node(&Node { shape, open: sets::empty() });
    six[5] = open;
    words[WORDS_A_NODE * count..WORDS_A_NODE * (count + 1)].copy_from_slice(&six);
    DONE
}

/// The open word of a node over children whose open words may be anything. In a sound table they are sets, and this is the open set. Of
/// other words a union takes the low sixteen bits, and where the open set is that of the left alone, the left's word is taken whole [7.19].
fn open_word(shape: &Shape, word_of: impl Fn(usize) -> u32) -> u32 {
    match shape {
        Shape::Concatenation { state, left, .. } if !sets::has(sets::of_word(word_of(*left)), *state) => word_of(*left),
        _ => shape.open_set(|child| sets::of_word(word_of(child))) as u32,
    }
}

/// How many child words a node of this kind and label uses, be it one that a sound table can have or not: none, or of a symbol as many as
/// its label says [7.2]. A node of a kind above 5 counts as empty [7.14].
pub fn child_count(kind: u32, label: u32) -> u32 {
    match kind {
        2 => label / 256,
        3 | 4 => 2,
        5 => 1,
        _ => 0,
    }
}

/// The six words of a node as they stand, where it is a whole node of the words; else six times 0 [7.20].
pub fn node_at(words: &[u32], number: usize) -> [u32; WORDS_A_NODE] {
    let whole = words.chunks_exact(WORDS_A_NODE).nth(number);
    whole.map_or([0; WORDS_A_NODE], |six| std::array::from_fn(|place| six[place]))
}

/// Makes every word 0 [7.21].
pub fn clear(words: &mut [u32]) {
    for word in words {
        *word = 0;
    }
}

/// The size of each node when it is written out as a tree; what 32 bits cannot hold stays at their largest number [9.1, 9.2].
pub fn sizes(nodes: &[Node]) -> Vec<u32> {
    let mut sizes: Vec<u32> = Vec::new();
    for node in nodes {
        let size = node.shape.children().into_iter().fold(1, |size: u32, child| size.saturating_add(sizes[child]));
        sizes.push(size);
    }
    sizes
}

/// The refusal and the answer's size. The scratch gets all the sizes [9.3].
pub fn measure(words: &[u32], count: usize, answer: usize, scratch: &mut [u32]) -> (u8, u32) {
    let Some(nodes) = sound_nodes(words, count, answer) else {
        return (NOT_SOUND, 0);
    };
    if scratch.len() < count {
        return (TOO_SHORT, 0);
    }
    let sizes = sizes(&nodes);
    scratch[..count].copy_from_slice(&sizes);
    (DONE, sizes[answer])
}
