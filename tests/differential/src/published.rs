//! Automata that stand in print: those of the published works that `docs/REQUIREMENTS.md` names, and its worked drafts (section 10).
//! `samples/` holds their files.

use independent::automaton::{Automaton, Row};
use independent::file;

/// A published automaton: the name of its sample, its symbols' names, and itself.
pub struct Published {
    pub name: &'static str,
    pub symbols: Vec<&'static str>,
    pub automaton: Automaton,
}

impl Published {
    /// The prefix words of a tree written with the symbols' names, as `cons(int, nil)`: its names in the order in which they stand.
    pub fn words(&self, tree: &str) -> Vec<u16> {
        let names = tree.split(|sign: char| !sign.is_alphanumeric()).filter(|name| !name.is_empty());
        names.map(|name| self.number(name) as u16).collect()
    }

    pub fn number(&self, name: &str) -> usize {
        self.symbols.iter().position(|symbol| *symbol == name).expect("a named symbol")
    }

    pub fn file(&self) -> Vec<u8> {
        file::file_of(&self.automaton)
    }
}

/// A row: the symbol's name, its sources, its target.
type NamedRow = (&'static str, &'static [usize], usize);

fn published(
    name: &'static str,
    states: usize,
    finals: &[usize],
    symbols: &[(&'static str, usize)],
    rows: &[NamedRow],
) -> Published {
    let number = |wanted: &str| symbols.iter().position(|(symbol, _)| *symbol == wanted).expect("a named symbol");
    let rows = rows.iter().map(|&(symbol, sources, target)| Row { symbol: number(symbol), target, sources: sources.to_vec() });
    Published {
        name,
        symbols: symbols.iter().map(|(symbol, _)| *symbol).collect(),
        automaton: Automaton {
            states,
            finals: finals.iter().map(|&state| 1 << state).sum(),
            arities: symbols.iter().map(|(_, arity)| *arity).collect(),
            rows: rows.collect(),
        },
    }
}

/// The elimination paper, example 2: lists of integers. State 0 is I, state 1 is L.
pub fn integer_lists() -> Published {
    let symbols = [("int", 0), ("nil", 0), ("cons", 2)];
    published("integer_lists", 2, &[1], &symbols, &[("int", &[], 0), ("nil", &[], 1), ("cons", &[0, 1], 1)])
}

/// The axioms thesis, table 5.1, with final states 3, 4 and 5; its state i is state i − 1 here.
pub fn table_5_1() -> Published {
    let symbols = [("a", 2), ("b", 1), ("c", 0)];
    let rows: [NamedRow; 15] = [
        ("c", &[], 2),
        ("b", &[1], 0),
        ("b", &[4], 0),
        ("a", &[2, 2], 1),
        ("a", &[2, 3], 1),
        ("a", &[2, 4], 1),
        ("a", &[0, 2], 3),
        ("a", &[0, 3], 3),
        ("a", &[0, 4], 3),
        ("a", &[3, 2], 4),
        ("a", &[3, 3], 4),
        ("a", &[3, 4], 4),
        ("a", &[4, 2], 4),
        ("a", &[4, 3], 4),
        ("a", &[4, 4], 4),
    ];
    published("table_5_1", 5, &[2, 3, 4], &symbols, &rows)
}

/// The Arden paper, example 6: its equations as rows, final states 1 and 3; its state i is state i − 1 here.
pub fn example_6() -> Published {
    let symbols = [("f", 2), ("b", 0), ("a", 0), ("h", 1)];
    let rows: [NamedRow; 8] = [
        ("f", &[0, 0], 0),
        ("f", &[1, 3], 0),
        ("b", &[], 1),
        ("f", &[1, 3], 1),
        ("a", &[], 2),
        ("h", &[3], 2),
        ("a", &[], 3),
        ("h", &[2], 3),
    ];
    published("example_6", 4, &[0, 2], &symbols, &rows)
}

/// File P [10.2].
pub fn file_p() -> Published {
    let rows: [NamedRow; 3] = [("a", &[], 0), ("g", &[0, 0], 1), ("g", &[1, 0], 1)];
    published("file_p", 2, &[1], &[("a", 0), ("g", 2)], &rows)
}

/// Worked draft with four trees: a and b are in state 0, and g over two of them in state 1 [10.9].
pub fn four_pairs() -> Published {
    let rows: [NamedRow; 3] = [("a", &[], 0), ("b", &[], 0), ("g", &[0, 0], 1)];
    published("four_pairs", 2, &[1], &[("a", 0), ("b", 0), ("g", 2)], &rows)
}

/// Worked draft of one state: a, and g over any two trees [10.10].
pub fn binary_trees() -> Published {
    published("binary_trees", 1, &[0], &[("a", 0), ("g", 2)], &[("a", &[], 0), ("g", &[0, 0], 0)])
}

/// Worked draft that accepts nothing: h over itself, and no leaf to begin with [10.11].
pub fn nothing_begins() -> Published {
    published("nothing_begins", 1, &[0], &[("h", 1)], &[("h", &[0], 0)])
}

/// Worked draft without rows [10.12].
pub fn no_rows() -> Published {
    published("no_rows", 1, &[0], &[("a", 0)], &[])
}

/// Worked draft without a final state [10.13].
pub fn no_final() -> Published {
    published("no_final", 1, &[], &[("a", 0)], &[("a", &[], 0)])
}

/// Worked draft that accepts g(a) alone: h waits for a state that nothing reaches [10.14].
pub fn one_tree() -> Published {
    let rows: [NamedRow; 3] = [("a", &[], 0), ("h", &[1], 0), ("g", &[0], 2)];
    published("one_tree", 3, &[2], &[("a", 0), ("h", 1), ("g", 1)], &rows)
}

/// All of them: for each, `samples/` has NAME.aut and NAME.txt.
pub fn all() -> Vec<Published> {
    vec![
        integer_lists(),
        table_5_1(),
        example_6(),
        file_p(),
        four_pairs(),
        binary_trees(),
        nothing_begins(),
        no_rows(),
        no_final(),
        one_tree(),
    ]
}
