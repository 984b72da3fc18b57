//! Automata that stand in print, held against the languages that their texts state; and the files of `samples/`.

use differential::built::{converted, denoted_to, Built};
use differential::published::{self, Published};
use independent::elimination::ListRow;
use independent::table::WORDS_A_NODE;
use independent::{elimination, file, listing, trees};
use meaning::accepted::{all_trees, as_language_tree};
use meaning::denoted;
use meaning::language::{symbol_over, Language, Limit};
use meaning::listed;
use std::collections::BTreeSet;
use std::path::{Path, PathBuf};

fn to_size(size: usize) -> Limit {
    Limit { size, trees: usize::MAX }
}

/// Holds everything that the library says of an automaton against a stated language, to a size: the run of every tree there is, what
/// the converted table denotes, and what the list after each number of states accepts.
fn hold_against(published: &Published, stated: &Language, limit: Limit) {
    let bytes = published.file();
    let mut accepted = Language::new();
    let mut run = 0;
    for tree in all_trees(&published.automaton.arities, limit.size).iter().flatten() {
        let reached = library::run(&bytes, &trees::words_of(tree));
        assert_eq!(reached.refusal.number, 0);
        run += 1;
        if reached.yes {
            accepted.insert(as_language_tree(tree));
        }
    }
    assert_eq!(&accepted, stated, "{}: trees that the automaton accepts", published.name);
    let (nodes, answer) = converted(&bytes);
    let denoted = denoted::denoted_by_nodes(&nodes, limit).expect("no limit on trees");
    assert_eq!(&denoted[answer], stated, "{}: trees that the expression denotes", published.name);
    for k in 0..=published.automaton.states {
        let mut words = vec![0; WORDS_A_NODE * elimination::bound(&published.automaton)];
        let partly = library::convert_partly(&bytes, k as u32, &mut words);
        assert_eq!(partly.refusal.number, 0);
        let row = |row: &library::ListRow| ListRow { node: row.node as usize, target: row.target as usize };
        let rows: Vec<ListRow> = partly.list[..partly.rows].iter().map(row).collect();
        let found = listed::accepted_by_list(&nodes, &denoted, &rows, limit).expect("no limit on trees");
        assert_eq!(&found, stated, "{}: trees that the list after {k} states accepts", published.name);
    }
    let (name, size, accepted, nodes) = (published.name, limit.size, stated.len(), nodes.len());
    println!("{name}: {run} trees to size {size} run, {accepted} accepted; table of {nodes} nodes");
}

fn run(published: &Published, tree: &str) -> bool {
    let reached = library::run(&published.file(), &published.words(tree));
    assert_eq!(reached.refusal.number, 0, "{tree} is a tree");
    reached.yes
}

fn over(symbol: usize, below: &[&Language], limit: Limit) -> Language {
    symbol_over(symbol as u8, below, limit).expect("no limit on trees")
}

/// The elimination paper states the language: nil, cons(int, nil), cons(int, cons(int, nil)), and so on.
#[test]
fn integer_lists() {
    let published = published::integer_lists();
    let limit = to_size(11);
    let (int, cons) = (over(published.number("int"), &[], limit), published.number("cons"));
    let mut stated = Language::new();
    let mut list = over(published.number("nil"), &[], limit);
    while !list.is_empty() {
        stated.extend(list.iter().cloned());
        list = over(cons, &[&int, &list], limit);
    }
    hold_against(&published, &stated, limit);
    for tree in ["nil", "cons(int, nil)", "cons(int, cons(int, nil))"] {
        assert!(run(&published, tree), "{tree}");
    }
    for tree in ["int", "cons(nil, int)", "cons(int, int)", "cons(nil, nil)", "cons(cons(int, nil), nil)"] {
        assert!(!run(&published, tree), "{tree}");
    }
}

/// The least languages that keep the equations of example 5.1 of the axioms thesis, to a size; the answer is X3, X4 and X5.
fn solution_of_5_1(published: &Published, limit: Limit) -> Language {
    let (a, b, c) = (published.number("a"), published.number("b"), published.number("c"));
    let union = |parts: &[Language]| -> Language { parts.iter().flatten().cloned().collect() };
    let two = |left: &Language, right: &Language| over(a, &[left, right], limit);
    let [mut x1, mut x2, mut x3, mut x4, mut x5]: [Language; 5] = Default::default();
    loop {
        let next1 = union(&[over(b, &[&x2], limit), over(b, &[&x5], limit)]);
        let next2 = union(&[two(&x3, &x3), two(&x3, &x4), two(&x3, &x5)]);
        let next3 = over(c, &[], limit);
        let next4 = union(&[two(&x1, &x3), two(&x1, &x4), two(&x1, &x5)]);
        let from4 = union(&[two(&x4, &x3), two(&x4, &x4), two(&x4, &x5)]);
        let from5 = union(&[two(&x5, &x3), two(&x5, &x4), two(&x5, &x5)]);
        let next5 = union(&[from4, from5]);
        let same = (&x1, &x2, &x3, &x4, &x5) == (&next1, &next2, &next3, &next4, &next5);
        (x1, x2, x3, x4, x5) = (next1, next2, next3, next4, next5);
        if same {
            return union(&[x3, x4, x5]);
        }
    }
}

#[test]
fn table_5_1() {
    let published = published::table_5_1();
    let limit = to_size(13);
    hold_against(&published, &solution_of_5_1(&published, limit), limit);
    for tree in ["c", "a(b(a(c,c)),c)", "a(a(b(a(c,c)),c),c)", "a(b(a(c,c)),a(b(a(c,c)),c))"] {
        assert!(run(&published, tree), "{tree}");
    }
    for tree in ["a(c,c)", "b(c)", "b(a(c,c))", "a(b(c),c)", "a(c,a(b(a(c,c)),c))"] {
        assert!(!run(&published, tree), "{tree}");
    }
}

/// Expression (5.4) of the axioms thesis, which denotes trees of X4 only:
/// (a(b(a(c,c) + a(c,x)), c) + a(b(a(c,c) + a(c,x)), x))*x ·x a(b(a(c,c)), c).
#[test]
fn expression_5_4() {
    let published = published::table_5_1();
    let (a, b, c) = (published.number("a"), published.number("b"), published.number("c"));
    let mut table = Built::default();
    let (x, leaf) = (table.hole(3), table.symbol(c, &[]));
    let (closed, open) = (table.symbol(a, &[leaf, leaf]), table.symbol(a, &[leaf, x]));
    let either = table.alt(closed, open);
    let over_either = table.symbol(b, &[either]);
    let (one, two) = (table.symbol(a, &[over_either, leaf]), table.symbol(a, &[over_either, x]));
    let both = table.alt(one, two);
    let many = table.iter(3, both);
    let over_closed = table.symbol(b, &[closed]);
    let start = table.symbol(a, &[over_closed, leaf]);
    let answer = table.cat(3, many, start);
    let denoted = table.denotes(answer, 25);
    assert!(denoted.len() > 10);
    for tree in &denoted {
        let words: Vec<u16> = tree.0.iter().map(|label| symbol_of(*label)).collect();
        let reached = library::run(&published.file(), &words);
        assert!(reached.yes && reached.states.0 & 0b1000 != 0, "{tree:?} reaches state 4 of the text");
    }
    println!("expression 5.4: {} trees to size 25, each reaches state 4 of the text", denoted.len());
}

fn symbol_of(label: meaning::language::Label) -> u16 {
    match label {
        meaning::language::Label::Symbol { symbol, .. } => symbol as u16,
        meaning::language::Label::Hole(_) => panic!("a tree of the answer has no holes"),
    }
}

/// The Arden paper's expression for its example 6: (f(x1,x1))*x1 ·x1 (f(((f(x2, a + h(S))))*x2 ·x2 b, a + h(S))) + S, where S is
/// (h(a + h(x3)))*x3 ·x3 a.
#[test]
fn example_6() {
    let published = published::example_6();
    let (f, h) = (published.number("f"), published.number("h"));
    let mut table = Built::default();
    let (x1, x2, x3) = (table.hole(1), table.hole(2), table.hole(3));
    let (a, b) = (table.symbol(published.number("a"), &[]), table.symbol(published.number("b"), &[]));
    let over_x3 = table.symbol(h, &[x3]);
    let inside = table.alt(a, over_x3);
    let step = table.symbol(h, &[inside]);
    let many = table.iter(3, step);
    let s = table.cat(3, many, a);
    let over_s = table.symbol(h, &[s]);
    let e4 = table.alt(a, over_s);
    let comb = table.symbol(f, &[x2, e4]);
    let combs = table.iter(2, comb);
    let e2 = table.cat(2, combs, b);
    let start = table.symbol(f, &[e2, e4]);
    let pair = table.symbol(f, &[x1, x1]);
    let pairs = table.iter(1, pair);
    let e1 = table.cat(1, pairs, start);
    let answer = table.alt(e1, s);
    hold_against(&published, &table.denotes(answer, 10), to_size(10));
    for tree in ["a", "h(a)", "h(h(a))", "f(b,a)", "f(b,h(a))", "f(f(b,a),h(h(a)))", "f(f(b,a),f(b,a))"] {
        assert!(run(&published, tree), "{tree}");
    }
    for tree in ["b", "h(b)", "f(a,b)", "f(a,a)", "f(b,b)", "h(f(b,a))", "f(b,f(b,a))"] {
        assert!(!run(&published, tree), "{tree}");
    }
}

/// Every sample, by the trees that the automaton accepts.
#[test]
fn all_samples() {
    for published in published::all() {
        let (accepted, _) = meaning::accepted::accepted(&published.automaton, 9);
        hold_against(&published, &accepted, to_size(9));
        let (nodes, answer) = converted(&published.file());
        assert_eq!(denoted_to(&nodes, answer, 5), accepted.iter().filter(|tree| tree.size() <= 5).cloned().collect());
    }
}

fn samples() -> PathBuf {
    Path::new(env!("CARGO_MANIFEST_DIR")).join("../../samples")
}

/// `samples/NAME.aut` is the automaton's file; `samples/NAME.txt` says what it is, and holds its listing.
#[test]
fn samples_are_these_files() {
    let mut names = BTreeSet::new();
    for published in published::all() {
        let path = samples().join(published.name);
        let found = std::fs::read(path.with_extension("aut")).unwrap_or_else(|error| panic!("{path:?}.aut: {error}"));
        assert_eq!(found, published.file(), "{}.aut", published.name);
        let text = std::fs::read_to_string(path.with_extension("txt")).unwrap_or_else(|error| panic!("{path:?}.txt: {error}"));
        let (nodes, answer) = elimination::converted(&file::read(&found).expect("a valid file"));
        assert!(text.ends_with(&listing::listing(&nodes, answer)), "{}.txt ends with the listing", published.name);
        names.insert(format!("{}.aut", published.name));
        names.insert(format!("{}.txt", published.name));
    }
    for entry in std::fs::read_dir(samples()).expect("samples/ can be read") {
        let name = entry.expect("an entry of samples/").file_name().into_string().expect("a plain name");
        assert!(names.contains(&name), "samples/{name} is no published automaton");
    }
    println!("samples: {} files as the tests build them", names.len());
}
