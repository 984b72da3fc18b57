//! Cases at the edges, each with its outcome typed by hand, on the proved library and on the independent program.

use differential::both;
use differential::lent::{Buffer, Lent};
use differential::typed::{all_are, begins_with, file, holding, sevens, TypedRow};
use independent::elimination::Place;

/// Symbols of the automata below: two leaves, and one symbol for each number of children.
const A: u16 = 0;
const B: u16 = 1;
const ONE: u16 = 2;
const TWO: u16 = 3;
const THREE: u16 = 4;
const UNKNOWN: u16 = 5;
const ARITIES: [u8; 5] = [0, 0, 1, 2, 3];

/// Counts the Bs and the ONEs of a tree together: state 0 where they are even, state 1, which is final, where they are odd. So each of
/// them tells, wherever it stands.
fn parity() -> Lent<u8> {
    let rows: [TypedRow; 16] = [
        (0, &[], 0),
        (1, &[], 1),
        (2, &[0], 1),
        (2, &[1], 0),
        (3, &[0, 0], 0),
        (3, &[0, 1], 1),
        (3, &[1, 0], 1),
        (3, &[1, 1], 0),
        (4, &[0, 0, 0], 0),
        (4, &[0, 0, 1], 1),
        (4, &[0, 1, 0], 1),
        (4, &[0, 1, 1], 0),
        (4, &[1, 0, 0], 1),
        (4, &[1, 0, 1], 0),
        (4, &[1, 1, 0], 0),
        (4, &[1, 1, 1], 1),
    ];
    file(2, 0b10, &ARITIES, &rows)
}

/// A is in state 0, B in state 1, and THREE in the state of one of its parts: the first for 0, the second for 1, the third for 2.
fn state_of_part(part: usize) -> Lent<u8> {
    let sources: Vec<[u8; 3]> = (0..8).map(|bits| [bits >> 2 & 1, bits >> 1 & 1, bits & 1]).collect();
    let mut rows: Vec<TypedRow> = vec![(0, &[], 0), (1, &[], 1)];
    rows.extend(sources.iter().map(|three| (4, &three[..], three[part])));
    file(2, 0b10, &ARITIES, &rows)
}

/// What both sides answer: the refusal, the states, the yes.
fn run(file: &Lent<u8>, words: &[u16]) -> (u8, u16, bool) {
    let reached = both::run(file, &holding(words));
    (reached.refusal, reached.states, reached.yes)
}

const IN_STATE_0: (u8, u16, bool) = (0, 0b01, false);
const IN_STATE_1: (u8, u16, bool) = (0, 0b10, true);
const NO_TREE: (u8, u16, bool) = (7, 0, false);

/// One symbol so many times, and then so many As.
fn over_leaves(symbol: u16, times: usize, leaves: usize) -> Vec<u16> {
    [vec![symbol; times], vec![A; leaves]].concat()
}

/// The words with another symbol at one place.
fn with(mut words: Vec<u16>, symbol: u16, place: usize) -> Vec<u16> {
    words[place] = symbol;
    words
}

/// The largest tree that has the most leaves, 1,365 THREEs over 2,731 leaves, in the order in which the leaves wait longest: the first
/// part of each THREE is the next THREE. Read from the right, all 2,731 leaves wait at once, and no tree of 4,096 symbols has more.
fn deepest() -> Vec<u16> {
    let words = over_leaves(THREE, 1365, 2731);
    assert_eq!(words.len(), 4096);
    words
}

/// The same with all leaves B but one.
fn deepest_of_bs_but(place: usize) -> Vec<u16> {
    with([vec![THREE; 1365], vec![B; 2731]].concat(), A, place)
}

#[test]
fn deepest_pile_each_part_counts() {
    let file = parity();
    assert_eq!(run(&file, &deepest()), IN_STATE_0, "no B");
    assert_eq!(run(&file, &[vec![THREE; 1365], vec![B; 2731]].concat()), IN_STATE_1, "2,731 Bs");
    for place in 1365..4096 {
        assert_eq!(run(&file, &with(deepest(), B, place)), IN_STATE_1, "one B, at {place}");
    }
}

#[test]
fn deepest_pile_first_part() {
    let file = state_of_part(0);
    assert_eq!(run(&file, &with(deepest(), B, 1365)), IN_STATE_1, "of the first parts the innermost is the first leaf");
    assert_eq!(run(&file, &deepest_of_bs_but(1365)), IN_STATE_0);
}

#[test]
fn deepest_pile_second_part() {
    let file = state_of_part(1);
    assert_eq!(run(&file, &with(deepest(), B, 4094)), IN_STATE_1, "the second part of the whole is the last leaf but one");
    assert_eq!(run(&file, &deepest_of_bs_but(4094)), IN_STATE_0);
}

#[test]
fn deepest_pile_third_part() {
    let file = state_of_part(2);
    assert_eq!(run(&file, &with(deepest(), B, 4095)), IN_STATE_1, "the third part of the whole is the last leaf");
    assert_eq!(run(&file, &deepest_of_bs_but(4095)), IN_STATE_0);
}

#[test]
fn deep_piles_that_are_no_tree() {
    let file = parity();
    assert_eq!(run(&file, &over_leaves(THREE, 1365, 2730)), NO_TREE, "a leaf is missing");
    assert_eq!(run(&file, &over_leaves(THREE, 1364, 2732)), NO_TREE, "four trees");
    assert_eq!(run(&file, &over_leaves(TWO, 2047, 2048)), IN_STATE_0, "a tree of 4,095 symbols");
    assert_eq!(run(&file, &over_leaves(TWO, 2047, 2049)), NO_TREE, "two trees");
    assert_eq!(run(&file, &with(deepest(), UNKNOWN, 0)), NO_TREE);
    assert_eq!(run(&file, &with(deepest(), UNKNOWN, 4095)), NO_TREE);
}

/// Leaves alone make a pile as deep as the words are many: as many places as either store has, one fewer and one more.
#[test]
fn leaves_alone_fill_both_stores() {
    assert_eq!(run(&parity(), &[A]), IN_STATE_0);
    assert_eq!(run(&parity(), &[B]), IN_STATE_1);
    for length in [0, 2, 63, 64, 65, 4095, 4096, 4097] {
        assert_eq!(run(&parity(), &vec![A; length]), NO_TREE, "{length} leaves");
    }
}

/// The other way round hardly anything waits: the third part of each THREE is the next THREE.
#[test]
fn shallowest_pile_of_4096_symbols() {
    let words = [[THREE, A, B].repeat(1365), vec![B]].concat();
    assert_eq!(words.len(), 4096);
    assert_eq!(run(&parity(), &words), IN_STATE_0, "1,366 Bs");
    assert_eq!(run(&state_of_part(0), &words), IN_STATE_0, "the first part of the whole is A");
    assert_eq!(run(&state_of_part(1), &words), IN_STATE_1, "the second part of the whole is B");
    assert_eq!(run(&state_of_part(2), &words), IN_STATE_1, "of the third parts the innermost is the last leaf, a B");
}

/// Chains of ONEs over a leaf. The number of ONEs is one less than the length.
#[test]
fn chains_of_63_to_65_and_around_4096() {
    let file = parity();
    let outcomes = [
        (1, IN_STATE_0),
        (63, IN_STATE_0),
        (64, IN_STATE_1),
        (65, IN_STATE_0),
        (4095, IN_STATE_0),
        (4096, IN_STATE_1),
        (4097, NO_TREE),
        (4098, NO_TREE),
    ];
    for (length, outcome) in outcomes {
        let chain = over_leaves(ONE, length - 1, 1);
        assert_eq!(run(&file, &chain), outcome, "a chain of {length}");
        assert_eq!(run(&file, &with(chain.clone(), UNKNOWN, 0)), NO_TREE, "an unknown symbol first, of {length}");
        assert_eq!(run(&file, &with(chain.clone(), UNKNOWN, length - 1)), NO_TREE, "an unknown symbol last, of {length}");
        assert_eq!(run(&file, &with(chain, ONE, length - 1)), NO_TREE, "{length} ONEs and no leaf");
    }
}

/// Trees of 63, 64 and 65 symbols in which many leaves wait, with no B and with one at each place of a leaf.
#[test]
fn leaves_waiting_in_63_to_65_symbols() {
    let trees = [
        (63, over_leaves(TWO, 31, 32)),
        (63, [vec![TWO], over_leaves(THREE, 20, 42)].concat()),
        (64, over_leaves(THREE, 21, 43)),
        (65, over_leaves(TWO, 32, 33)),
        (65, [vec![TWO; 2], over_leaves(THREE, 20, 43)].concat()),
    ];
    for (length, tree) in trees {
        assert_eq!(tree.len(), length);
        assert_eq!(run(&parity(), &tree), IN_STATE_0, "{length} symbols, no B");
        for place in (0..length).filter(|&place| tree[place] == A) {
            assert_eq!(run(&parity(), &with(tree.clone(), B, place)), IN_STATE_1, "{length} symbols, one B, at {place}");
        }
    }
}

/// The rows of the largest list, eight by eight: the symbol, which has as many children as its number says, the sources counted from the
/// group's first state, and how many different states are among them.
const EIGHT_ROWS: [(u8, &[u8], u8); 8] = [
    (0, &[], 0),
    (1, &[0], 1),
    (2, &[0, 0], 1),
    (2, &[0, 1], 2),
    (3, &[0, 0, 0], 1),
    (3, &[0, 1, 0], 2),
    (3, &[0, 1, 2], 3),
    (3, &[1, 2, 2], 2),
];

/// The sources of row i: the group's first state is twice its number, and past state 15 comes state 0.
fn sources_of(i: usize) -> Vec<u8> {
    EIGHT_ROWS[i % 8].1.iter().map(|source| (2 * (i as u8 / 8) + source) % 16).collect()
}

/// Four rows for each target, from state 15 down.
fn target_of(i: usize) -> u8 {
    15 - i as u8 / 4
}

/// As much as a file can hold: 16 states, all of them final, and 64 rows.
fn largest_list() -> Lent<u8> {
    let sources: Vec<Vec<u8>> = (0..64).map(sources_of).collect();
    let rows: Vec<TypedRow> = (0..64).map(|i| (EIGHT_ROWS[i % 8].0, &sources[i][..], target_of(i))).collect();
    file(16, 0xffff, &[0, 1, 2, 3], &rows)
}

/// Its 81 nodes before any state is dealt with: empty, the 16 holes, a node for each row.
fn largest_list_nodes() -> Vec<u32> {
    let mut words = vec![0; 6];
    for state in 0..16 {
        words.extend([1, state, 0, 0, 0, 1 << state]);
    }
    for i in 0..64 {
        let (symbol, sources) = (EIGHT_ROWS[i % 8].0 as u32, sources_of(i));
        let child = |place: usize| sources.get(place).map_or(0, |&state| 1 + state as u32);
        let open = sources.iter().fold(0, |open, &state| open | 1 << state);
        words.extend([2, symbol + 256 * symbol, child(0), child(1), child(2), open]);
    }
    assert_eq!(words.len(), 486);
    words
}

/// No state dealt with: all 80 places are rows, first the file's, then one for each final state.
#[test]
fn list_of_80_rows() {
    let list: [Place; 80] = std::array::from_fn(|place| match place {
        0..=63 => Place { node: 17 + place as u16, target: target_of(place), waits: EIGHT_ROWS[place % 8].2 },
        _ => Place { node: place as u16 - 63, target: 16, waits: 1 },
    });
    for length in [486, 487, 491, 492, 1000] {
        let mut words = sevens(length);
        let partly = both::convert_partly(&largest_list(), 0, &mut words);
        assert_eq!((partly.refusal, partly.nodes, partly.rows), (0, 81, 80), "in {length} words");
        assert_eq!(partly.list, list, "in {length} words");
        assert!(begins_with(&words, &largest_list_nodes()), "in {length} words: {:?}", words.cells());
    }
}

#[test]
fn list_of_80_rows_without_room() {
    for length in [0, 1, 96, 102, 480, 485] {
        let mut words = sevens(length);
        let partly = both::convert_partly(&largest_list(), 0, &mut words);
        assert_eq!((partly.refusal, partly.nodes, partly.rows), (6, 0, 0), "in {length} words");
        assert_eq!(partly.list, [Place { node: 0, target: 0, waits: 0 }; 80], "in {length} words");
        assert!(all_are(&words, 0), "in {length} words");
    }
}

/// All 16 states dealt with: a row is left for each final state, and none waits.
#[test]
fn list_of_80_rows_to_the_end() {
    let partly = both::convert_partly(&largest_list(), 16, &mut sevens(6 * 1393));
    assert_eq!((partly.refusal, partly.rows), (0, 16));
    assert!(partly.list[..16].iter().all(|place| place.target == 16 && place.waits == 0), "{:?}", partly.list);
    assert_eq!(partly.list[16..], [Place { node: 0, target: 0, waits: 0 }; 64]);
}

#[test]
fn list_of_80_rows_and_a_step_too_many() {
    for length in [0, 485, 486] {
        let mut words = sevens(length);
        let partly = both::convert_partly(&largest_list(), 17, &mut words);
        assert_eq!((partly.refusal, partly.nodes, partly.rows), (9, 0, 0), "in {length} words");
        assert_eq!(partly.list, [Place { node: 0, target: 0, waits: 0 }; 80], "in {length} words");
        assert!(all_are(&words, 7), "in {length} words");
    }
}
