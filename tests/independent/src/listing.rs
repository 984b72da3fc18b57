//! The listing [9.4 to 9.8].

use crate::refusal::*;
use crate::table::{self, Node, Shape};

/// A line for each node: its number, what it is, the state or the symbol where it has one, and its children. Below them a line for the
/// answer [9.4 to 9.7].
pub fn listing(nodes: &[Node], answer: usize) -> String {
    let mut text = String::new();
    for (number, node) in nodes.iter().enumerate() {
        let named = match &node.shape {
            Shape::Empty => "empty".to_string(),
            Shape::Hole { state } => format!("hole {state}"),
            Shape::Symbol { symbol, .. } => format!("symbol {symbol}"),
            Shape::Alternation { .. } => "alt".to_string(),
            Shape::Concatenation { state, .. } => format!("cat {state}"),
            Shape::Iteration { state, .. } => format!("iter {state}"),
        };
        let children: String = node.shape.children().iter().map(|child| format!(" {child}")).collect();
        text.push_str(&format!("{number} {named}{children}\n"));
    }
    text.push_str(&format!("answer {answer}\n"));
    text
}

/// The refusal and the listing's length [9.8].
pub fn list(words: &[u32], count: usize, answer: usize, out: &mut [u8]) -> (u8, usize) {
    let Some(nodes) = table::sound_nodes(words, count, answer) else {
        return (NOT_SOUND, 0);
    };
    let text = listing(&nodes, answer);
    if out.len() < text.len() {
        return (TOO_SHORT, 0);
    }
    out[..text.len()].copy_from_slice(text.as_bytes());
    (DONE, text.len())
}
