//! The worked drafts and the slips of `docs/REQUIREMENTS.md`, sections 10 and 11, and a conversion worked out by hand from its section 8.
//! Numbers in brackets are items of that page. The outcomes are typed: from the page, or from that working out.

use differential::both;
use differential::built::{converted, denoted_to, Built};
use differential::lent::{Buffer, Lent};
use differential::published::{self, Published};
use differential::typed::{all_are, begins_with, file, holding, sevens};
use independent::automaton::Value;
use independent::elimination::{self, Place};
use meaning::language::{Label, Language, Tree};

/// File P, from its hex [10.2].
const P: [u8; 43] = [
    0x03, 0x00, 0x01, 0x00, 0x02, 0x02, 0x00, //
    0x01, 0x00, 0x02, 0x00, 0x00, //
    0x01, 0x00, 0x02, 0x00, 0x02, //
    0x02, 0x00, 0x03, 0x00, 0x00, 0x00, //
    0x04, 0x00, 0x03, 0x00, 0x01, 0x01, 0x00, 0x00, //
    0x04, 0x00, 0x03, 0x00, 0x01, 0x01, 0x01, 0x00, //
    0x00, 0x00, 0x09, 0x00,
];

fn p() -> Lent<u8> {
    holding(&P)
}

#[test]
fn p_is_the_file_that_the_writer_makes() {
    assert_eq!(published::file_p().file(), P);
    let (number, value) = both::read(&p());
    assert_eq!(number, 0);
    assert_eq!(value, published::file_p().automaton.to_value());
    let mut out = sevens(50);
    assert_eq!(both::write(&value, &mut out), (0, 43));
    assert!(begins_with(&out, &P), "P's bytes, and the seven after them as lent");
}

/// A whole conversion, typed out. The size of the answer is the last of the sizes, the answer being the last node.
struct Conversion {
    file: Lent<u8>,
    table: Vec<[u32; 6]>,
    sizes: Vec<u32>,
    listing: &'static str,
    /// The rows that are left when every state is dealt with: node and target; none of them waits.
    left: Vec<(u16, u8)>,
}

impl Conversion {
    /// Both sides make this table, in just enough words and in more, and one word fewer is too few; they measure and list it as typed.
    fn holds(&self, states: u32) {
        let (nodes, answer) = (self.table.len(), self.table.len() - 1);
        let words = self.table.concat();
        for more in [0, 1, 5, 6, 600] {
            let mut lent = sevens(words.len() + more);
            let wholly = both::convert(&self.file, &mut lent);
            assert_eq!((wholly.refusal, wholly.nodes, wholly.answer), (0, nodes, answer), "with {more} words more");
            assert!(begins_with(&lent, &words), "the table {:?} with {more} words more", lent.cells());
        }
        let mut lent = sevens(words.len() - 1);
        let wholly = both::convert(&self.file, &mut lent);
        assert_eq!((wholly.refusal, wholly.nodes, wholly.answer), (6, 0, 0), "one word fewer");
        assert!(all_are(&lent, 0), "one word fewer: every word is 0");
        let table = holding(&words);
        let mut scratch = sevens(nodes + 3);
        assert_eq!(both::measure(&table, nodes, answer, &mut scratch), (0, self.sizes[answer]));
        assert!(begins_with(&scratch, &self.sizes), "the sizes {:?}", scratch.cells());
        let mut text = sevens(self.listing.len() + 3);
        assert_eq!(both::list(&table, nodes, answer, &mut text), (0, self.listing.len()));
        assert!(begins_with(&text, self.listing.as_bytes()), "the listing {:?}", String::from_utf8_lossy(text.cells()));
        let partly = both::convert_partly(&self.file, states, &mut sevens(words.len()));
        let rows: Vec<(u16, u8)> = partly.list[..partly.rows].iter().map(|place| (place.node, place.target)).collect();
        assert_eq!((partly.refusal, rows), (0, self.left.clone()), "the rows that are left");
        assert!(partly.list.iter().all(|place| place.waits == 0), "no row waits any more");
    }
}

/// P as it is to be listed: two states, the second of which loops [10.3, 10.4]. Seventeen nodes is what the bound allows.
#[test]
fn p_converted() {
    Conversion {
        file: p(),
        table: vec![
            [0, 0, 0, 0, 0, 0],
            [1, 0, 0, 0, 0, 0b01],
            [1, 1, 0, 0, 0, 0b10],
            [2, 0, 0, 0, 0, 0],
            [2, 513, 1, 1, 0, 0b01],
            [2, 513, 2, 1, 0, 0b11],
            [4, 0, 4, 3, 0, 0],
            [4, 0, 5, 3, 0, 0b10],
            [5, 1, 7, 0, 0, 0b10],
            [4, 1, 8, 6, 0, 0],
        ],
        sizes: vec![1, 1, 1, 1, 3, 3, 5, 5, 6, 12],
        listing: "\
0 empty
1 hole 0
2 hole 1
3 symbol 0
4 symbol 1 1 1
5 symbol 1 2 1
6 cat 0 4 3
7 cat 0 5 3
8 iter 1 7
9 cat 1 8 6
answer 9
",
        left: vec![(9, 16)],
    }
    .holds(2);
    assert_eq!(elimination::bound(&published::file_p().automaton), 17);
}

/// Leaves a and b, and g and h over state 0: two rows loop and two come in [10.15]. The nodes show the order in which a state's four are
/// made: the looping rows joined, their iteration, the incoming rows joined, the concatenation.
#[test]
fn two_rows_loop_and_two_come_in() {
    Conversion {
        file: file(1, 1, &[0, 0, 1, 1], &[(0, &[], 0), (1, &[], 0), (2, &[0], 0), (3, &[0], 0)]),
        table: vec![
            [0, 0, 0, 0, 0, 0],
            [1, 0, 0, 0, 0, 1],
            [2, 0, 0, 0, 0, 0],
            [2, 1, 0, 0, 0, 0],
            [2, 258, 1, 0, 0, 1],
            [2, 259, 1, 0, 0, 1],
            [3, 0, 4, 5, 0, 1],
            [5, 0, 6, 0, 0, 1],
            [3, 0, 2, 3, 0, 0],
            [4, 0, 7, 8, 0, 0],
        ],
        sizes: vec![1, 1, 1, 1, 2, 2, 5, 6, 3, 10],
        listing: "\
0 empty
1 hole 0
2 symbol 0
3 symbol 1
4 symbol 2 1
5 symbol 3 1
6 alt 4 5
7 iter 0 6
8 alt 2 3
9 cat 0 7 8
answer 9
",
        left: vec![(9, 16)],
    }
    .holds(1);
}

/// Leaves a, b and c, and g, h and k over state 0 [10.16]. Of three rows a join takes the first two together and then the third: g with
/// h, and that with k; a with b, and that with c.
#[test]
fn three_rows_loop_and_three_come_in() {
    let rows: [(u8, &[u8], u8); 6] = [(0, &[], 0), (1, &[], 0), (2, &[], 0), (3, &[0], 0), (4, &[0], 0), (5, &[0], 0)];
    Conversion {
        file: file(1, 1, &[0, 0, 0, 1, 1, 1], &rows),
        table: vec![
            [0, 0, 0, 0, 0, 0],
            [1, 0, 0, 0, 0, 1],
            [2, 0, 0, 0, 0, 0],
            [2, 1, 0, 0, 0, 0],
            [2, 2, 0, 0, 0, 0],
            [2, 259, 1, 0, 0, 1],
            [2, 260, 1, 0, 0, 1],
            [2, 261, 1, 0, 0, 1],
            [3, 0, 5, 6, 0, 1],
            [3, 0, 8, 7, 0, 1],
            [5, 0, 9, 0, 0, 1],
            [3, 0, 2, 3, 0, 0],
            [3, 0, 11, 4, 0, 0],
            [4, 0, 10, 12, 0, 0],
        ],
        sizes: vec![1, 1, 1, 1, 1, 2, 2, 2, 5, 8, 9, 3, 5, 15],
        listing: "\
0 empty
1 hole 0
2 symbol 0
3 symbol 1
4 symbol 2
5 symbol 3 1
6 symbol 4 1
7 symbol 5 1
8 alt 5 6
9 alt 8 7
10 iter 0 9
11 alt 2 3
12 alt 11 4
13 cat 0 10 12
answer 13
",
        left: vec![(13, 16)],
    }
    .holds(1);
}

/// Leaves a, b and c, each to a final state of its own: nothing loops, so each hole that is taken out becomes its leaf, and only the last
/// join makes nodes, from the left again.
#[test]
fn three_rows_are_left_and_joined() {
    Conversion {
        file: file(3, 0b111, &[0, 0, 0], &[(0, &[], 0), (1, &[], 1), (2, &[], 2)]),
        table: vec![
            [0, 0, 0, 0, 0, 0],
            [1, 0, 0, 0, 0, 0b001],
            [1, 1, 0, 0, 0, 0b010],
            [1, 2, 0, 0, 0, 0b100],
            [2, 0, 0, 0, 0, 0],
            [2, 1, 0, 0, 0, 0],
            [2, 2, 0, 0, 0, 0],
            [3, 0, 4, 5, 0, 0],
            [3, 0, 7, 6, 0, 0],
        ],
        sizes: vec![1, 1, 1, 1, 1, 1, 1, 3, 5],
        listing: "\
0 empty
1 hole 0
2 hole 1
3 hole 2
4 symbol 0
5 symbol 1
6 symbol 2
7 alt 4 5
8 alt 7 6
answer 8
",
        left: vec![(4, 16), (5, 16), (6, 16)],
    }
    .holds(3);
}

/// P with its first state dealt with [10.5], and asked for one step more than it has states [10.7].
#[test]
fn p_partly_converted() {
    let mut words = sevens(100);
    let partly = both::convert_partly(&p(), 1, &mut words);
    assert_eq!((partly.refusal, partly.nodes, partly.rows), (0, 8, 3));
    let place = |node, target, waits| Place { node, target, waits };
    assert_eq!(partly.list[..3], [place(6, 1, 0), place(7, 1, 1), place(2, 16, 1)]);
    assert!(partly.list[3..].iter().all(|&place| place == Place::default()), "unused places are 0");
    let mut words = sevens(100);
    let partly = both::convert_partly(&p(), 3, &mut words);
    assert_eq!((partly.refusal, partly.nodes, partly.rows), (9, 0, 0));
    assert!(partly.list.iter().all(|&place| place == Place::default()), "every place is 0");
    assert!(all_are(&words, 7), "the words are as lent");
}

/// Trees of P: two that are accepted, two that are not, and three that are no trees [10.8].
#[test]
fn trees_of_p() {
    let run = |words: &[u16]| {
        let reached = both::run(&p(), &holding(words));
        (reached.refusal, reached.states, reached.yes)
    };
    assert_eq!(run(&[1, 0, 0]), (0, 0b10, true));
    assert_eq!(run(&[1, 1, 0, 0, 0]), (0, 0b10, true));
    assert_eq!(run(&[1, 0, 1, 0, 0]), (0, 0, false));
    assert_eq!(run(&[0]), (0, 0b01, false));
    for words in [&[1, 0][..], &[0, 0], &[]] {
        assert_eq!(run(words), (7, 0, false));
    }
}

/// A tree over a published automaton's symbols, as a tree without holes.
fn tree(of: &Published, text: &str) -> Tree {
    let label = |&symbol: &u16| Label::Symbol { symbol: symbol as u8, arity: of.automaton.arities[symbol as usize] as u8 };
    Tree(of.words(text).iter().map(label).collect())
}

/// A draft's node count and answer, and what it denotes to size 9.
fn denotes(draft: &Published, nodes: usize, answer: usize) -> Language {
    let (table, found) = converted(&draft.file());
    assert_eq!((table.len(), found), (nodes, answer), "{}", draft.name);
    denoted_to(&table, answer, 9)
}

fn exactly(draft: &Published, trees: &[&str]) -> Language {
    trees.iter().map(|text| tree(draft, text)).collect()
}

/// The other drafts [10.9 to 10.14].
#[test]
fn other_drafts() {
    let draft = published::four_pairs();
    assert_eq!(denotes(&draft, 8, 7), exactly(&draft, &["g(a,b)", "g(b,a)", "g(a,a)", "g(b,b)"]));
    let draft = published::binary_trees();
    assert!(denotes(&draft, 6, 5).contains(&tree(&draft, "g(g(a,a),a)")));
    let draft = published::nothing_begins();
    assert_eq!(denotes(&draft, 5, 4), Language::new());
    assert_eq!(denotes(&published::no_rows(), 2, 0), Language::new());
    assert_eq!(denotes(&published::no_final(), 3, 0), Language::new());
    let draft = published::one_tree();
    assert_eq!(denotes(&draft, 10, 9), exactly(&draft, &["g(a)"]));
}

/// First slip, one tree for every hole of a letter: f(q,q) closed with a or b has four trees, not two [11.1].
#[test]
fn holes_are_replaced_apart() {
    let mut table = Built::default();
    let q = table.hole(0);
    let pair = table.symbol(2, &[q, q]);
    let (a, b) = (table.symbol(0, &[]), table.symbol(1, &[]));
    let either = table.alt(a, b);
    let answer = table.cat(0, pair, either);
    assert_eq!(table.denotes(answer, 9).len(), 4);
}

/// Second slip, a concatenation with empty that forgets its left: a tree of the left without the hole stays [11.2].
#[test]
fn concatenation_with_empty_keeps_trees_without_the_hole() {
    let mut table = Built::default();
    let (none, q, a) = (table.empty(), table.hole(0), table.symbol(0, &[]));
    let over = table.symbol(1, &[q]);
    let either = table.alt(over, a);
    let answer = table.cat(0, either, none);
    assert_eq!(table.denotes(answer, 9), Language::from([Tree(vec![Label::Symbol { symbol: 0, arity: 0 }])]));
}

/// Third slip, levels that lose the level before: f over a pair and a leaf stands in the second level only because the leaf is still
/// there [11.3].
#[test]
fn levels_keep_the_earlier_levels() {
    let mut table = Built::default();
    let (q, a) = (table.hole(0), table.symbol(0, &[]));
    let pair = table.symbol(1, &[q, q]);
    let many = table.iter(0, pair);
    let answer = table.cat(0, many, a);
    let (f, leaf) = (Label::Symbol { symbol: 1, arity: 2 }, Label::Symbol { symbol: 0, arity: 0 });
    assert!(table.denotes(answer, 5).contains(&Tree(vec![f, f, leaf, leaf, leaf])));
    // Binary trees with up to 5 leaves: the Catalan numbers 1, 1, 2, 5, 14.
    assert_eq!(table.denotes(answer, 9).len(), 1 + 1 + 2 + 5 + 14);
}

/// Fourth slip, replacing in what was just put in: h(q) with g(q) put at q is h(g(q)) and stops there [11.4].
#[test]
fn what_is_brought_in_is_not_replaced_again() {
    let mut table = Built::default();
    let q = table.hole(0);
    let (left, right) = (table.symbol(0, &[q]), table.symbol(1, &[q]));
    let answer = table.cat(0, left, right);
    let unary = |symbol| Label::Symbol { symbol, arity: 1 };
    assert_eq!(table.denotes(answer, 9), Language::from([Tree(vec![unary(0), unary(1), Label::Hole(0)])]));
}

/// Fifth slip, moving brackets across two letters, with a counterexample of the Arden paper [11.5]: (f(a,b) ·a b) ·b c is f(c,c), and
/// f(a,b) ·a (b ·b c) is f(c,b). Here a and b are the holes 0 and 1.
#[test]
fn different_letters_are_not_associative() {
    let mut table = Built::default();
    let (a, b, c) = (table.hole(0), table.hole(1), table.symbol(0, &[]));
    let pair = table.symbol(1, &[a, b]);
    let first = table.cat(0, pair, b);
    let one_way = table.cat(1, first, c);
    let inner = table.cat(1, b, c);
    let other_way = table.cat(0, pair, inner);
    let (f, leaf) = (Label::Symbol { symbol: 1, arity: 2 }, Label::Symbol { symbol: 0, arity: 0 });
    assert_eq!(table.denotes(one_way, 9), Language::from([Tree(vec![f, leaf, leaf])]));
    assert_eq!(table.denotes(other_way, 9), Language::from([Tree(vec![f, leaf, Label::Hole(1)])]));
}

/// Every refusal of a file that the checks name [3.8 to 3.16], one by one, P being the file that is damaged. The comment says what was done.
#[test]
fn each_check_of_a_file() {
    let changed = |place: usize, byte: u8| {
        let mut bytes = P.to_vec();
        bytes[place] = byte;
        bytes
    };
    let cut = |length: usize| P[..length].to_vec();
    let longer = |more: &[u8]| [&P[..], more].concat();
    let cases: Vec<(Vec<u8>, u8)> = vec![
        (vec![], 1),
        (cut(3), 1),
        (cut(6), 1),
        (cut(39), 1),
        (cut(42), 1),
        (changed(2, 2), 2),  // kind 2 first
        (changed(3, 1), 2),  // kind 257
        (changed(9, 3), 2),  // a row before any symbol
        (changed(38, 2), 4), // the last source is 2
        (changed(0, 4), 3),  // the first record of length 4
        (changed(1, 1), 3),  // the first record of length 259
        (changed(4, 0), 4),  // no states
        (changed(4, 17), 4), // 17 states
        (changed(5, 4), 4),  // state 2 final
        (changed(11, 4), 4), // arity 4
        (changed(21, 2), 4), // symbol 2
        (changed(21, 1), 3), // symbol 1 in a row for arity 0
        (changed(22, 2), 4), // target 2
        (changed(39, 1), 3), // an end record of length 1
        (longer(&[0]), 5),
        (longer(&[0, 0, 9, 0]), 5),
    ];
    for (bytes, number) in cases {
        assert_eq!(both::read(&holding(&bytes)), (number, Value::ZERO), "{bytes:?}");
    }
}
