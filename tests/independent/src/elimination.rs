//! Elimination: section 8.

use crate::automaton::Automaton;
use crate::file;
use crate::refusal::*;
use crate::sets;
use crate::table::{self, Node, Shape, WORDS_A_NODE};

/// The target of a conversion's own rows, past every state that a file can have [2.2].
pub const FINAL: usize = 16;
/// The places of the reported list [8.22].
pub const LIST_PLACES: usize = 80;

/// One row of the list that a conversion works on [8.3].
#[derive(Clone, Copy, PartialEq, Eq, Debug)]
pub struct ListRow {
    pub node: usize,
    pub target: usize,
}

/// The nodes made so far and the list as it stands.
#[derive(Clone, Debug)]
pub struct Stage {
    pub nodes: Vec<Node>,
    pub rows: Vec<ListRow>,
}

impl Stage {
    /// Puts a node at the end; its number is what the count was [8.19].
    fn add(&mut self, shape: Shape) -> usize {
        let open = shape.open_set(|child| self.nodes[child].open);
        self.nodes.push(Node { shape, open });
        self.nodes.len() - 1
    }

    /// By the node's kind [8.18].
    fn is_empty(&self, node: usize) -> bool {
        self.nodes[node].shape == Shape::Empty
    }

    /// By the node's open set [8.7].
    fn is_open(&self, node: usize, state: usize) -> bool {
        sets::has(self.nodes[node].open, state as u32)
    }

    /// An empty side falls away: first the left is looked at, then the right [8.15].
    fn alternation(&mut self, left: usize, right: usize) -> usize {
        if self.is_empty(left) {
            right
        } else if self.is_empty(right) {
            left
        } else {
            self.add(Shape::Alternation { left, right })
        }
    }

    /// Where the left is nothing but the hole itself, the right stands for the whole [8.16].
    fn concatenation(&mut self, state: usize, left: usize, right: usize) -> usize {
        let state = state as u32;
        if self.nodes[left].shape == (Shape::Hole { state }) {
            right
        } else {
            self.add(Shape::Concatenation { state, left, right })
        }
    }

    /// Over empty there is only level 0, so the state's own hole node stands for it [8.17].
    fn iteration(&mut self, state: usize, child: usize) -> usize {
        if self.is_empty(child) {
            1 + state
        } else {
            self.add(Shape::Iteration { state: state as u32, child })
        }
    }

    /// From the left: empty, then one node after the other as the right side [8.14].
    fn join(&mut self, nodes: &[usize]) -> usize {
        nodes.iter().fold(0, |joined, &node| self.alternation(joined, node))
    }

    /// The start: empty, a hole for each state, a symbol over holes for each row of the file; in the list those rows, and below them a row
    /// to the added target for each final state, the lowest first [8.2, 8.4].
    pub fn start(automaton: &Automaton) -> Stage {
        let mut stage = Stage { nodes: Vec::new(), rows: Vec::new() };
        stage.add(Shape::Empty);
        for state in 0..automaton.states {
            stage.add(Shape::Hole { state: state as u32 });
        }
        for row in &automaton.rows {
            let children = row.sources.iter().map(|&state| 1 + state).collect();
            let node = stage.add(Shape::Symbol { symbol: row.symbol as u32, children });
            stage.rows.push(ListRow { node, target: row.target });
        }
        for state in sets::members(automaton.finals) {
            stage.rows.push(ListRow { node: 1 + state as usize, target: FINAL });
        }
        stage
    }

    /// Takes out one state: A, I, B and X are made, whatever rows there are. Then a row that waits for the state is filled with X where it
    /// stands, rows that lead to the state drop out, and the others stay [8.6 to 8.13].
    pub fn eliminate(&mut self, state: usize) {
        let rows = std::mem::take(&mut self.rows);
        let to_state = |open: bool, stage: &Stage| -> Vec<usize> {
            let chosen = rows.iter().filter(|row| row.target == state && stage.is_open(row.node, state) == open);
            chosen.map(|row| row.node).collect()
        };
        let (looping, incoming) = (to_state(true, self), to_state(false, self));
        let a = self.join(&looping);
        let i = self.iteration(state, a);
        let b = self.join(&incoming);
        let x = self.concatenation(state, i, b);
        for row in rows.iter().filter(|row| row.target != state) {
            let outgoing = self.is_open(row.node, state);
            let node = if outgoing { self.concatenation(state, row.node, x) } else { row.node };
            self.rows.push(ListRow { node, target: row.target });
        }
    }

    /// What is left when no state is left, as one node [8.20].
    pub fn join_rows(&mut self) -> usize {
        let nodes: Vec<usize> = self.rows.iter().map(|row| row.node).collect();
        self.join(&nodes)
    }

    /// For how many different states a row waits [8.23].
    pub fn waits(&self, row: ListRow) -> u32 {
        sets::count(self.nodes[row.node].open)
    }
}

/// The stage after the first k states, from state 0 up [8.5].
pub fn stage_after(automaton: &Automaton, k: usize) -> Stage {
    let mut stage = Stage::start(automaton);
    for state in 0..k {
        stage.eliminate(state);
    }
    stage
}

/// The whole conversion: the nodes and the answer.
pub fn converted(automaton: &Automaton) -> (Vec<Node>, usize) {
    let mut stage = stage_after(automaton, automaton.states);
    let answer = stage.join_rows();
    (stage.nodes, answer)
}

/// More nodes than this no conversion of the automaton makes [8.29].
pub fn bound(automaton: &Automaton) -> usize {
    let (n, t, f) = (automaton.states, automaton.rows.len(), sets::count(automaton.finals) as usize);
    1 + n + t + n * (t + f + 1) + f
}

/// Puts the nodes into the lent words where they fit [8.27, 8.28]. Where there are more nodes than whole sixes of words, all the words
/// become 0, those past the last whole six too [4.22].
pub fn put_nodes(nodes: &[Node], words: &mut [u32]) -> bool {
    if nodes.len() > words.len() / WORDS_A_NODE {
        words.fill(0);
        return false;
    }
    let made = table::words_of_table(nodes);
    words[..made.len()].copy_from_slice(&made);
    true
}

/// One place of the reported list.
#[derive(Clone, Copy, PartialEq, Eq, Debug, Default)]
pub struct Place {
    pub node: u16,
    pub target: u8,
    pub waits: u8,
}

/// What a partial conversion answers [8.21, 8.22].
#[derive(Clone, Copy, PartialEq, Eq, Debug)]
pub struct Partly {
    pub refusal: u8,
    pub nodes: usize,
    pub rows: usize,
    pub list: [Place; LIST_PLACES],
}

impl Partly {
    fn refused(refusal: u8) -> Partly {
        Partly { refusal, nodes: 0, rows: 0, list: [Place::default(); LIST_PLACES] }
    }
}

/// A file's own refusals, then 9 for too many states, then 6 for room [4.25].
pub fn convert_partly(bytes: &[u8], k: u32, words: &mut [u32]) -> Partly {
    let automaton = match file::read(bytes) {
        Ok(automaton) => automaton,
        Err(number) => return Partly::refused(number),
    };
    if k as usize > automaton.states {
        return Partly::refused(TOO_MANY_STEPS);
    }
    let stage = stage_after(&automaton, k as usize);
    if !put_nodes(&stage.nodes, words) {
        return Partly::refused(TOO_SHORT);
    }
    let mut answer = Partly { nodes: stage.nodes.len(), rows: stage.rows.len(), ..Partly::refused(DONE) };
    for (place, &row) in answer.list.iter_mut().zip(&stage.rows) {
        *place = Place { node: row.node as u16, target: row.target as u8, waits: stage.waits(row) as u8 };
    }
    answer
}

/// What a full conversion answers [8.26].
#[derive(Clone, Copy, PartialEq, Eq, Debug)]
pub struct Wholly {
    pub refusal: u8,
    pub nodes: usize,
    pub answer: usize,
}

/// A file's own refusals, then 6 for room [4.25].
pub fn convert(bytes: &[u8], words: &mut [u32]) -> Wholly {
    let automaton = match file::read(bytes) {
        Ok(automaton) => automaton,
        Err(refusal) => return Wholly { refusal, nodes: 0, answer: 0 },
    };
    let (nodes, answer) = converted(&automaton);
    if !put_nodes(&nodes, words) {
        return Wholly { refusal: TOO_SHORT, nodes: 0, answer: 0 };
    }
    Wholly { refusal: DONE, nodes: nodes.len(), answer }
}
