//! Trees over symbols and holes, and sets of them.

use std::collections::BTreeSet;

/// A tree over the symbols and the holes, as its labels in prefix order. A symbol with two arities is two different labels.
#[derive(Clone, PartialEq, Eq, PartialOrd, Ord, Debug)]
pub struct Tree(pub Vec<Label>);

#[derive(Clone, Copy, PartialEq, Eq, PartialOrd, Ord, Debug)]
pub enum Label {
    Hole(u8),
    Symbol { symbol: u8, arity: u8 },
}

pub type Language = BTreeSet<Tree>;

/// A language would have more trees than the caller allows.
#[derive(Clone, Copy, PartialEq, Eq, Debug)]
pub struct TooMany;

/// How far to look: trees of at most `size` labels, and no language of more than `trees` trees.
#[derive(Clone, Copy, PartialEq, Eq, Debug)]
pub struct Limit {
    pub size: usize,
    pub trees: usize,
}

impl Limit {
    pub fn check(&self, language: &Language) -> Result<(), TooMany> {
        if language.len() > self.trees {
            Err(TooMany)
        } else {
            Ok(())
        }
    }
}

impl Tree {
    pub fn hole(state: u8) -> Tree {
        Tree(vec![Label::Hole(state)])
    }

    pub fn size(&self) -> usize {
        self.0.len()
    }

    pub fn has_holes(&self) -> bool {
        self.0.iter().any(|label| matches!(label, Label::Hole(_)))
    }
}

/// The symbol over one tree from each language.
pub fn symbol_over(symbol: u8, below: &[&Language], limit: Limit) -> Result<Language, TooMany> {
    let root = Label::Symbol { symbol, arity: below.len() as u8 };
    let mut begun = vec![Tree(vec![root])];
    for (place, language) in below.iter().enumerate() {
        let still_to_come = below.len() - place - 1;
        begun = each_followed_by(&begun, language, limit.size.saturating_sub(still_to_come));
        if begun.len() > limit.trees {
            return Err(TooMany);
        }
    }
    Ok(begun.into_iter().filter(|tree| tree.size() <= limit.size).collect())
}

/// Each of the beginnings followed by each tree of a language, where the labels stay within a number.
fn each_followed_by(begun: &[Tree], language: &Language, most: usize) -> Vec<Tree> {
    let mut longer = Vec::new();
    for start in begun {
        for tree in language.iter().filter(|tree| start.size() + tree.size() <= most) {
            let mut labels = start.0.clone();
            labels.extend(&tree.0);
            longer.push(Tree(labels));
        }
    }
    longer
}

/// A tree with every hole for which `choices` gives a language replaced by some tree of it, each hole by its own choice. Holes for which it
/// gives nothing stay, and so do the holes of what is put in.
pub fn filled<'a>(tree: &Tree, choices: impl Fn(u8) -> Option<&'a Language>, limit: Limit) -> Result<Language, TooMany> {
    let mut begun = vec![Tree(Vec::new())];
    for (place, label) in tree.0.iter().enumerate() {
        let most = limit.size.saturating_sub(tree.size() - place - 1);
        let choice = match label {
            Label::Hole(state) => choices(*state),
            Label::Symbol { .. } => None,
        };
        match choice {
            Some(language) => begun = each_followed_by(&begun, language, most),
            None => begun.iter_mut().for_each(|start| start.0.push(*label)),
        }
        if begun.len() > limit.trees {
            return Err(TooMany);
        }
    }
    Ok(begun.into_iter().filter(|tree| tree.size() <= limit.size).collect())
}

/// The union over every tree of a language of what it is when filled.
pub fn all_filled<'a>(trees: &Language, choices: impl Fn(u8) -> Option<&'a Language>, limit: Limit) -> Result<Language, TooMany> {
    let mut language = Language::new();
    for tree in trees {
        language.extend(filled(tree, &choices, limit)?);
        limit.check(&language)?;
    }
    Ok(language)
}
