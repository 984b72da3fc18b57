//! What the converted tables and the partly eliminated lists of the proved library mean, by brute force: on small random automata,
//! the trees up to a size are those that the automaton accepts.

use differential::automata;
use differential::cases;
use independent::automaton::Automaton;
use independent::elimination::{self, ListRow};
use independent::file;
use independent::table::{self, Node, WORDS_A_NODE};
use meaning::accepted;
use meaning::denoted;
use meaning::language::{Language, Limit, TooMany};
use meaning::listed;
use std::cell::Cell;

const CASES: u64 = 10_000;

/// No language may have more trees than this; where one has, the next smaller size is taken.
const MOST_TREES: usize = 4_000;

/// Sizes to try, from the largest.
const SIZES: [usize; 5] = [8, 7, 6, 5, 4];

/// The nodes that the library makes of a file, and the answer.
fn converted(bytes: &[u8], automaton: &Automaton) -> (Vec<u32>, Vec<Node>, usize) {
    let mut words = vec![0; WORDS_A_NODE * elimination::bound(automaton)];
    let wholly = library::convert(bytes, &mut words);
    assert_eq!(wholly.refusal.number, 0, "a conversion with the bound's room is not refused");
    let nodes = table::sound_nodes(&words, wholly.nodes, wholly.answer).expect("the converted table is sound");
    words.truncate(WORDS_A_NODE * wholly.nodes);
    (words, nodes, wholly.answer)
}

/// The library's list after k states; its nodes begin the whole conversion's.
fn list_after(bytes: &[u8], k: usize, whole: &[u32]) -> Vec<ListRow> {
    let mut words = vec![0; whole.len()];
    let partly = library::convert_partly(bytes, k as u32, &mut words);
    assert_eq!(partly.refusal.number, 0, "a partial conversion in the whole one's room is not refused");
    let made = WORDS_A_NODE * partly.nodes;
    assert_eq!(words[..made], whole[..made], "the nodes after {k} states begin the whole table");
    partly.list[..partly.rows].iter().map(|row| ListRow { node: row.node as usize, target: row.target as usize }).collect()
}

/// Holds table and lists against the automaton, to one size; gives the number of accepted trees.
fn compare(automaton: &Automaton, limit: Limit) -> Result<usize, TooMany> {
    let bytes = file::file_of(automaton);
    let (words, nodes, answer) = converted(&bytes, automaton);
    let denoted = denoted::denoted_by_nodes(&nodes, limit)?;
    let (expected, _) = accepted::accepted(automaton, limit.size);
    assert_same(&denoted[answer], &expected, "the converted table denotes");
    for k in 0..=automaton.states {
        let rows = list_after(&bytes, k, &words);
        assert!(rows.len() <= automaton.rows.len() + automaton.finals.count_ones() as usize, "no more rows than at the start");
        for row in &rows {
            assert!(row.target >= k, "a row leads to a state that was dealt with");
            assert_eq!(nodes[row.node].open & ((1u32 << k) - 1) as u16, 0, "a state that was dealt with is open");
        }
        let found = listed::accepted_by_list(&nodes, &denoted, &rows, limit)?;
        assert_same(&found, &expected, "the list accepts");
    }
    Ok(expected.len())
}

fn assert_same(found: &Language, expected: &Language, what: &str) {
    if let Some(tree) = found.symmetric_difference(expected).next() {
        panic!("{what} {tree:?}: {}, the automaton accepts it: {}", found.contains(tree), expected.contains(tree));
    }
}

#[test]
fn converted_and_partly_converted() {
    let trees = Cell::new(0usize);
    let to_size: [Cell<usize>; 9] = Default::default();
    cases::run("meaning", CASES, &["no tree accepted", "some tree accepted"], |random| {
        let automaton = automata::small(random);
        let largest =
            SIZES.into_iter().find_map(|size| Some((size, compare(&automaton, Limit { size, trees: MOST_TREES }).ok()?)));
        let (size, count) = largest.expect("a size that can be gone through");
        trees.set(trees.get() + count);
        to_size[size].set(to_size[size].get() + 1);
        if count == 0 {
            "no tree accepted"
        } else {
            "some tree accepted"
        }
    });
    let sizes: Vec<String> = SIZES.iter().map(|&size| format!("{} to size {size}", to_size[size].get())).collect();
    println!("meaning: {} accepted trees compared for each table and each list; automata: {}", trees.get(), sizes.join(", "));
}
