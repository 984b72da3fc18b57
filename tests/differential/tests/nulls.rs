//! A null pointer with length 0 for each lent slice of each door, alone and together, with the outcome typed by hand. It stands for a
//! slice of no cells; so the independent program is given such a slice, and the library once more too, with a pointer that is not null.

use differential::both;
use differential::crossing::{self, Plain};
use differential::lent::{Buffer, Cell, Lent};
use differential::typed::{file_bytes, holding, sevens};
use independent::automaton::Value;
use independent::elimination::{Partly, Place, Wholly};
use independent::trees::Reached;
use library::or_null;

/// One state, final; one symbol, a leaf; one row. Its conversion makes three nodes: empty, the hole, the leaf.
fn leaf_file() -> Vec<u8> {
    file_bytes(1, 1, &[0], &[(0, &[], 0)])
}

/// A table of one node, hole 0.
const HOLE: [u32; 6] = [1, 0, 0, 0, 0, 1];

fn none<T: Cell>() -> Lent<T> {
    holding(&[])
}

#[test]
fn zero_of_null() {
    or_null::zero(None);
    both::zero(&mut none());
}

/// Nothing at place 0 of no bytes fits, and the place after it is 0; whatever does not fit, the place is the one that was given.
#[test]
fn put_bytes_of_null() {
    let mut out = sevens::<u8>(3);
    for at in [0, 3, 4, usize::MAX] {
        assert_eq!(or_null::put_bytes(Some(out.cells_mut()), at, None), at, "no bytes at {at} of three");
        assert_eq!(both::put_bytes(&mut out, at, &none()), at, "no bytes at {at} of three");
    }
    out.must_be(&sevens(3), "the bytes");
    for (at, bytes) in [(0, Some(&b"a"[..])), (1, Some(b"a")), (usize::MAX, Some(b"a")), (0, None), (usize::MAX, None)] {
        assert_eq!(or_null::put_bytes(None, at, bytes), at, "{bytes:?} at {at} of none");
        assert_eq!(both::put_bytes(&mut none(), at, &holding(bytes.unwrap_or(&[]))), at, "{bytes:?} at {at} of none");
    }
}

#[test]
fn put_number_in_null() {
    for (at, n) in [(0, 0), (0, 10_000), (1, u64::MAX), (usize::MAX, 0), (usize::MAX, u64::MAX)] {
        assert_eq!(or_null::put_number(None, at, n), at, "{n} at {at}");
        assert_eq!(both::put_number(&mut none(), at, n), at, "{n} at {at}");
    }
}

#[test]
fn node_at_of_null() {
    for number in [0, 1, 1 << 63, usize::MAX / 6, usize::MAX] {
        assert_eq!(or_null::node_at(None, number).plain(), [0; 6], "node {number}");
        assert_eq!(both::node_at(&none(), number), [0; 6], "node {number}");
    }
}

#[test]
fn read_of_null() {
    let outcome = (1, Value::ZERO);
    assert_eq!(or_null::read(None).plain(), outcome);
    assert_eq!(both::read(&none()), outcome);
}

#[test]
fn write_to_null() {
    let (_, good) = both::read(&holding(&leaf_file()));
    let bad = Value { states: 17, ..good };
    for (value, number) in [(good, 6), (bad, 4)] {
        assert_eq!(or_null::write(crossing::automaton(&value), None).plain(), (number, 0));
        assert_eq!(both::write(&value, &mut none()), (number, 0));
    }
}

#[test]
fn run_of_null() {
    let (file, leaf) = (leaf_file(), [0]);
    let (file, leaf) = (Some(&file[..]), Some(&leaf[..]));
    let refused = |refusal| Reached { refusal, states: 0, yes: false };
    let reached = Reached { refusal: 0, states: 1, yes: true };
    let cases = [(file, leaf, reached), (file, None, refused(7)), (None, leaf, refused(1)), (None, None, refused(1))];
    for (file, words, outcome) in cases {
        assert_eq!(or_null::run(file, words).plain(), outcome, "{file:?}, {words:?}");
        assert_eq!(both::run(&holding(file.unwrap_or(&[])), &holding(words.unwrap_or(&[]))), outcome, "{file:?}, {words:?}");
    }
}

#[test]
fn productive_of_null() {
    assert_eq!(or_null::productive(None).plain(), (1, 0));
    assert_eq!(both::productive(&none()), (1, 0));
}

#[test]
fn is_sound_of_null() {
    for (count, answer) in [(0, 0), (1, 0), (4096, 4095), (usize::MAX, 0), (usize::MAX, usize::MAX)] {
        assert!(!or_null::is_sound(None, count, answer), "{count} nodes, answer {answer}");
        assert!(!both::is_sound(&none(), count, answer), "{count} nodes, answer {answer}");
    }
}

/// A node that suits has no room; a node that does not suit is refused first.
#[test]
fn make_in_null() {
    let cases = [
        (0, 1, 3, [0, 0, 0], 6),
        (5, 3, 0, [4, 4, 0], 6),
        (4096, 1, 3, [0, 0, 0], 6),
        (usize::MAX, 1, 3, [0, 0, 0], 6),
        (0, 6, 0, [0, 0, 0], 8),
        (0, 5, 0, [0, 0, 0], 8),
    ];
    for (count, kind, label, children, number) in cases {
        let made = or_null::make(None, count, crossing::shape(kind, label, children)).plain();
        assert_eq!(made, number, "kind {kind}, label {label}, {children:?} as node {count}");
        assert_eq!(both::make(&mut none(), count, kind, label, children), number, "kind {kind} as node {count}");
    }
}

#[test]
fn measure_of_null() {
    let mut scratch = sevens::<u32>(3);
    assert_eq!(or_null::measure(None, 1, 0, Some(scratch.cells_mut())).plain(), (8, 0));
    assert_eq!(both::measure(&none(), 1, 0, &mut scratch), (8, 0));
    scratch.must_be(&sevens(3), "the scratch");
    assert_eq!(or_null::measure(Some(&HOLE), 1, 0, None).plain(), (6, 0));
    assert_eq!(both::measure(&holding(&HOLE), 1, 0, &mut none()), (6, 0));
    assert_eq!(or_null::measure(None, 1, 0, None).plain(), (8, 0));
    assert_eq!(both::measure(&none(), 1, 0, &mut none()), (8, 0));
}

#[test]
fn list_of_null() {
    let mut out = sevens::<u8>(30);
    assert_eq!(or_null::list(None, 1, 0, Some(out.cells_mut())).plain(), (8, 0));
    assert_eq!(both::list(&none(), 1, 0, &mut out), (8, 0));
    out.must_be(&sevens(30), "the bytes");
    assert_eq!(or_null::list(Some(&HOLE), 1, 0, None).plain(), (6, 0));
    assert_eq!(both::list(&holding(&HOLE), 1, 0, &mut none()), (6, 0));
    assert_eq!(or_null::list(None, 1, 0, None).plain(), (8, 0));
    assert_eq!(both::list(&none(), 1, 0, &mut none()), (8, 0));
}

#[test]
fn convert_partly_of_null() {
    let refused = |refusal| Partly { refusal, nodes: 0, rows: 0, list: [Place { node: 0, target: 0, waits: 0 }; 80] };
    let mut words = sevens::<u32>(20);
    assert_eq!(or_null::convert_partly(None, 0, Some(words.cells_mut())).plain(), refused(1));
    assert_eq!(both::convert_partly(&none(), 0, &mut words), refused(1));
    words.must_be(&sevens(20), "the words");
    let file = leaf_file();
    for (k, number) in [(0, 6), (1, 6), (2, 9)] {
        assert_eq!(or_null::convert_partly(Some(&file), k, None).plain(), refused(number), "{k} states");
        assert_eq!(both::convert_partly(&holding(&file), k, &mut none()), refused(number), "{k} states");
    }
    for k in [0, 2] {
        assert_eq!(or_null::convert_partly(None, k, None).plain(), refused(1), "{k} states");
        assert_eq!(both::convert_partly(&none(), k, &mut none()), refused(1), "{k} states");
    }
}

#[test]
fn convert_of_null() {
    let refused = |refusal| Wholly { refusal, nodes: 0, answer: 0 };
    let mut words = sevens::<u32>(20);
    assert_eq!(or_null::convert(None, Some(words.cells_mut())).plain(), refused(1));
    assert_eq!(both::convert(&none(), &mut words), refused(1));
    words.must_be(&sevens(20), "the words");
    assert_eq!(or_null::convert(Some(&leaf_file()), None).plain(), refused(6));
    assert_eq!(both::convert(&holding(&leaf_file()), &mut none()), refused(6));
    assert_eq!(or_null::convert(None, None).plain(), refused(1));
    assert_eq!(both::convert(&none(), &mut none()), refused(1));
}

/// Of its file, its words and its bytes each may be null. No file is the text of refusal 1; no words are too few for a file that can be
/// converted, and enough for one that cannot; no bytes are too few for any text. Where room lacks, the words that are there become 0.
#[test]
fn printed_of_null() {
    let file = leaf_file();
    let file = Some(&file[..]);
    let table = Some([0, 0, 0, 0, 0, 0, 1, 0, 0, 0, 0, 1, 2, 0, 0, 0, 0, 0, 7, 7]);
    let (no_text, leaf_text, refusal_text) =
        (Some(&b""[..]), Some(&b"0 empty\n1 hole 0\n2 symbol 0\nanswer 2\n"[..]), Some(&b"refused 1\n"[..]));
    // What is lent, and what stands in it afterwards: a file, 20 words, 50 bytes.
    let cases = [
        (file, table, leaf_text, (0, 37)),
        (file, Some([0; 20]), None, (6, 0)),
        (file, None, no_text, (6, 0)),
        (file, None, None, (6, 0)),
        (None, Some([7; 20]), refusal_text, (0, 10)),
        (None, Some([0; 20]), None, (6, 0)),
        (None, None, refusal_text, (0, 10)),
        (None, None, None, (6, 0)),
    ];
    for (number, (file, words_after, text, outcome)) in cases.into_iter().enumerate() {
        let lend = || (sevens::<u32>(words_after.map_or(0, |_| 20)), sevens::<u8>(text.map_or(0, |_| 50)));
        let looked_over = |words: &Lent<u32>, out: &Lent<u8>| {
            words.must_be(&holding(words_after.as_ref().map_or(&[], |words| &words[..])), &format!("the words of case {number}"));
            let mut text_after = lend().1;
            text_after.cells_mut()[..outcome.1].copy_from_slice(text.unwrap_or(b""));
            out.must_be(&text_after, &format!("the bytes of case {number}"));
        };
        let (mut words, mut out) = lend();
        let (lent_words, lent_out) = (words_after.map(|_| words.cells_mut()), text.map(|_| out.cells_mut()));
        assert_eq!(or_null::printed(file, lent_words, lent_out).plain(), outcome, "case {number}");
        looked_over(&words, &out);
        let (mut words, mut out) = lend();
        assert_eq!(both::printed(&holding(file.unwrap_or(&[])), &mut words, &mut out), outcome, "case {number}");
        looked_over(&words, &out);
    }
}
