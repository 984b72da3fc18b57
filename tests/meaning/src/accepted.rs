//! The trees up to a size that an automaton accepts [5.6].

use crate::language::{Label, Language, Tree};
use independent::automaton::Automaton;
use independent::trees;

/// All trees up to a size over the symbols, as plain trees: `by_size[n]` has those of exactly n symbols.
pub fn all_trees(arities: &[usize], size: usize) -> Vec<Vec<trees::Tree>> {
    let mut by_size: Vec<Vec<trees::Tree>> = vec![Vec::new()];
    for n in 1..=size {
        let mut exactly = Vec::new();
        for (symbol, &arity) in arities.iter().enumerate() {
            for children in forests(&by_size, arity, n - 1) {
                exactly.push(trees::Tree { symbol, children });
            }
        }
        by_size.push(exactly);
    }
    by_size
}

/// The rows of `arity` trees that have `size` symbols together.
fn forests(by_size: &[Vec<trees::Tree>], arity: usize, size: usize) -> Vec<Vec<trees::Tree>> {
    if arity == 0 {
        return if size == 0 { vec![Vec::new()] } else { Vec::new() };
    }
    let mut all = Vec::new();
    for first_size in 1..=size {
        let others = forests(by_size, arity - 1, size - first_size);
        for first in &by_size[first_size] {
            for rest in &others {
                let mut forest = vec![first.clone()];
                forest.extend(rest.iter().cloned());
                all.push(forest);
            }
        }
    }
    all
}

/// A plain tree as one over symbols and holes.
pub fn as_language_tree(tree: &trees::Tree) -> Tree {
    let mut labels = vec![Label::Symbol { symbol: tree.symbol as u8, arity: tree.children.len() as u8 }];
    for child in &tree.children {
        labels.extend(as_language_tree(child).0);
    }
    Tree(labels)
}

/// Every tree up to the size is run, one by one, and kept where it is accepted. Returns also how many were run.
pub fn accepted(automaton: &Automaton, size: usize) -> (Language, usize) {
    let all: Vec<trees::Tree> = all_trees(&automaton.arities, size).into_iter().flatten().collect();
    let yes = |tree: &&trees::Tree| trees::accepts(automaton, trees::reached(automaton, tree));
    (all.iter().filter(yes).map(as_language_tree).collect(), all.len())
}
