//! Each entry of the proved library and of the independent program, called on equal buffers: the two must give the same answer and leave
//! the same cells, and what was lent to be read must stay as it was. What comes back is what both answered.

use crate::crossing::{self, Plain};
use crate::lent::Buffer;
use independent::automaton::Value;
use independent::elimination::{self, Partly, Wholly};
use independent::trees::{self, Reached};
use independent::{file, listing, printed, table, writing};

pub fn zero(words: &mut impl Buffer<u32>) {
    let mut expected_words = words.clone();
    library::zero(words.cells_mut());
    table::clear(expected_words.cells_mut());
    words.must_be(&expected_words, "the words after zero");
}

pub fn digits(n: u64) -> usize {
    let found = library::digits(n);
    assert_eq!(found, writing::digits(n), "digits of {n}");
    found
}

pub fn put_bytes(out: &mut impl Buffer<u8>, at: usize, bytes: &impl Buffer<u8>) -> usize {
    let before = bytes.clone();
    let mut expected_out = out.clone();
    let found = library::put_bytes(out.cells_mut(), at, bytes.cells());
    let expected = writing::put_bytes(expected_out.cells_mut(), at, before.cells());
    assert_eq!(found, expected, "put_bytes of {:?} at {at} of {} bytes", before.cells(), out.cells().len());
    out.must_be(&expected_out, "the bytes after put_bytes");
    bytes.must_be(&before, "what was put after put_bytes");
    found
}

pub fn put_number(out: &mut impl Buffer<u8>, at: usize, n: u64) -> usize {
    let mut expected_out = out.clone();
    let found = library::put_number(out.cells_mut(), at, n);
    let expected = writing::put_number(expected_out.cells_mut(), at, n);
    assert_eq!(found, expected, "put_number of {n} at {at} of {} bytes", out.cells().len());
    out.must_be(&expected_out, "the bytes after put_number");
    found
}

pub fn read(file: &impl Buffer<u8>) -> (u8, Value) {
    let before = file.clone();
    let found = library::read(file.cells()).plain();
    assert_eq!(found, file::reading(before.cells()), "read of {:?}", before.cells());
    file.must_be(&before, "the file after read");
    found
}

pub fn write(value: &Value, out: &mut impl Buffer<u8>) -> (u8, usize) {
    let mut expected_out = out.clone();
    let found = library::write(crossing::automaton(value), out.cells_mut()).plain();
    let expected = file::write(value, expected_out.cells_mut());
    assert_eq!(found, expected, "write of {value:?} to {} bytes", out.cells().len());
    out.must_be(&expected_out, "the bytes after write");
    found
}

pub fn run(file: &impl Buffer<u8>, words: &impl Buffer<u16>) -> Reached {
    let (file_before, words_before) = (file.clone(), words.clone());
    let found = library::run(file.cells(), words.cells()).plain();
    let expected = trees::run(file_before.cells(), words_before.cells());
    assert_eq!(found, expected, "run of {:?} in {:?}", words_before.cells(), file_before.cells());
    file.must_be(&file_before, "the file after run");
    words.must_be(&words_before, "the words after run");
    found
}

pub fn productive(file: &impl Buffer<u8>) -> (u8, u16) {
    let before = file.clone();
    let found = library::productive(file.cells()).plain();
    assert_eq!(found, trees::productive(before.cells()), "productive states of {:?}", before.cells());
    file.must_be(&before, "the file after productive");
    found
}

pub fn is_sound(words: &impl Buffer<u32>, count: usize, answer: usize) -> bool {
    let before = words.clone();
    let found = library::is_sound(words.cells(), count, answer);
    let expected = table::is_sound(before.cells(), count, answer);
    assert_eq!(found, expected, "is_sound of {:?}, count {count}, answer {answer}", before.cells());
    words.must_be(&before, "the words after is_sound");
    found
}

pub fn child_count(kind: u32, label: u32, children: [u32; 3]) -> u32 {
    let found = library::child_count(crossing::shape(kind, label, children));
    assert_eq!(found, table::child_count(kind, label), "child_count of kind {kind}, label {label}, {children:?}");
    found
}

pub fn node_at(words: &impl Buffer<u32>, i: usize) -> [u32; 6] {
    let before = words.clone();
    let found = library::node_at(words.cells(), i).plain();
    assert_eq!(found, table::node_at(before.cells(), i), "node_at {i} of {:?}", before.cells());
    words.must_be(&before, "the words after node_at");
    found
}

pub fn make(words: &mut impl Buffer<u32>, count: usize, kind: u32, label: u32, children: [u32; 3]) -> u8 {
    let before = words.clone();
    let mut expected_words = words.clone();
    let found = library::make(words.cells_mut(), count, crossing::shape(kind, label, children)).plain();
    let expected = table::make(expected_words.cells_mut(), count, kind, label, children);
    assert_eq!(found, expected, "make of {:?} as node {count} after {:?}", (kind, label, children), before.cells());
    words.must_be(&expected_words, "the words after make");
    found
}

pub fn measure(words: &impl Buffer<u32>, count: usize, answer: usize, scratch: &mut impl Buffer<u32>) -> (u8, u32) {
    let before = words.clone();
    let mut expected_scratch = scratch.clone();
    let found = library::measure(words.cells(), count, answer, scratch.cells_mut()).plain();
    let expected = table::measure(before.cells(), count, answer, expected_scratch.cells_mut());
    let length = scratch.cells().len();
    assert_eq!(found, expected, "measure of {:?}, count {count}, answer {answer}, {length} words", before.cells());
    scratch.must_be(&expected_scratch, "the scratch after measure");
    words.must_be(&before, "the words after measure");
    found
}

pub fn list(words: &impl Buffer<u32>, count: usize, answer: usize, out: &mut impl Buffer<u8>) -> (u8, usize) {
    let before = words.clone();
    let mut expected_out = out.clone();
    let found = library::list(words.cells(), count, answer, out.cells_mut()).plain();
    let expected = listing::list(before.cells(), count, answer, expected_out.cells_mut());
    let length = out.cells().len();
    assert_eq!(found, expected, "list of {:?}, count {count}, answer {answer}, {length} bytes", before.cells());
    out.must_be(&expected_out, "the bytes after list");
    words.must_be(&before, "the words after list");
    found
}

pub fn convert_partly(file: &impl Buffer<u8>, k: u32, nodes: &mut impl Buffer<u32>) -> Partly {
    let before = file.clone();
    let mut expected_nodes = nodes.clone();
    let found = library::convert_partly(file.cells(), k, nodes.cells_mut()).plain();
    let expected = elimination::convert_partly(before.cells(), k, expected_nodes.cells_mut());
    let length = nodes.cells().len();
    assert_eq!(found, expected, "convert_partly of {:?}, {k} states, {length} words", before.cells());
    nodes.must_be(&expected_nodes, "the words after convert_partly");
    file.must_be(&before, "the file after convert_partly");
    found
}

pub fn convert(file: &impl Buffer<u8>, nodes: &mut impl Buffer<u32>) -> Wholly {
    let before = file.clone();
    let mut expected_nodes = nodes.clone();
    let found = library::convert(file.cells(), nodes.cells_mut()).plain();
    let expected = elimination::convert(before.cells(), expected_nodes.cells_mut());
    assert_eq!(found, expected, "convert of {:?} in {} words", before.cells(), nodes.cells().len());
    nodes.must_be(&expected_nodes, "the words after convert");
    file.must_be(&before, "the file after convert");
    found
}

pub fn printed(file: &impl Buffer<u8>, nodes: &mut impl Buffer<u32>, out: &mut impl Buffer<u8>) -> (u8, usize) {
    let before = file.clone();
    let (mut expected_nodes, mut expected_out) = (nodes.clone(), out.clone());
    let found = library::printed(file.cells(), nodes.cells_mut(), out.cells_mut()).plain();
    let expected = printed::printed(before.cells(), expected_nodes.cells_mut(), expected_out.cells_mut());
    let (words, bytes) = (nodes.cells().len(), out.cells().len());
    assert_eq!(found, expected, "printed of {:?} in {words} words and {bytes} bytes", before.cells());
    nodes.must_be(&expected_nodes, "the words after printed");
    out.must_be(&expected_out, "the bytes after printed");
    file.must_be(&before, "the file after printed");
    found
}
