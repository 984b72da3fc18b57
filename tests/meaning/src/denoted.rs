//! What an expression denotes: section 6.

use crate::language::{all_filled, symbol_over, Language, Limit, TooMany, Tree};
use independent::table::{Node, Shape};

/// The trees up to the limit's size that each node of a table denotes.
pub fn denoted_by_nodes(nodes: &[Node], limit: Limit) -> Result<Vec<Language>, TooMany> {
    let mut languages: Vec<Language> = Vec::new();
    for node in nodes {
        let language = denoted_by_shape(&node.shape, &languages, limit)?;
        limit.check(&language)?;
        languages.push(language);
    }
    Ok(languages)
}

fn denoted_by_shape(shape: &Shape, earlier: &[Language], limit: Limit) -> Result<Language, TooMany> {
    match shape {
        Shape::Empty => Ok(Language::new()),
        Shape::Hole { state } => Ok(Language::from([Tree::hole(*state as u8)])),
        Shape::Symbol { symbol, children } => {
            let below: Vec<&Language> = children.iter().map(|&child| &earlier[child]).collect();
            symbol_over(*symbol as u8, &below, limit)
        }
        Shape::Alternation { left, right } => Ok(earlier[*left].union(&earlier[*right]).cloned().collect()),
        Shape::Concatenation { state, left, right } => concatenation(*state as u8, &earlier[*left], &earlier[*right], limit),
        Shape::Iteration { state, child } => iteration(*state as u8, &earlier[*child], limit),
    }
}

/// The trees of the left, each hole of the letter filled with any tree of the right; two holes may get two different ones [6.6].
pub fn concatenation(state: u8, left: &Language, right: &Language, limit: Limit) -> Result<Language, TooMany> {
    all_filled(left, |hole| (hole == state).then_some(right), limit)
}

/// Level by level from the hole alone: the next level has all of the last one, and the child filled with it. Levels only grow, so they stop
/// at the first that is equal to the next [6.7].
pub fn iteration(state: u8, child: &Language, limit: Limit) -> Result<Language, TooMany> {
    let mut level = Language::from([Tree::hole(state)]);
    loop {
        let mut next = concatenation(state, child, &level, limit)?;
        next.extend(level.iter().cloned());
        limit.check(&next)?;
        if next == level {
            return Ok(level);
        }
        level = next;
    }
}
