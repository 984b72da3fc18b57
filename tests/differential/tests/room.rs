//! Room, length by length. A buffer is lent in every length from 0 to past what the call can need, and in a few far beyond, so that a
//! mistake about room at one length alone shows: where the outcome does not fit it is refused, and any room that holds it will do. The
//! library and the independent program are each held to that.

use differential::crossing::{self, Plain};
use differential::lent::{Buffer, Cell, Lent};
use differential::published;
use differential::random::Random;
use differential::typed::file_bytes;
use independent::elimination::{self, Partly, Place, Wholly};
use independent::{file, listing, printed, table, writing};
use std::fmt::Debug;
use std::time::Instant;

/// Lengths far beyond any need: around 4,096 nodes, around the largest 16-bit number, and a million.
const FAR: [usize; 7] = [24_575, 24_576, 24_577, 65_535, 65_536, 65_537, 1 << 20];

/// Every length to 8,500, and far ones. The 1,393 nodes that no conversion exceeds are 8,358 words; no file has more than 747 bytes.
fn lengths() -> impl Iterator<Item = usize> {
    (0..=8_500).chain(FAR)
}

/// Every length to 21,000, and far ones, for texts. The longest below has 20,593 bytes.
fn text_lengths() -> impl Iterator<Item = usize> {
    (0..=21_000).chain(FAR)
}

/// The lengths around the need, and far ones: for the independent program where it is slow.
fn around(need: usize) -> impl Iterator<Item = usize> {
    (need - 20..=need + 20).chain(FAR)
}

/// What a call does with a buffer: the cells that it puts at a place, and what it answers with room for them and without.
struct Need<'a, T, A> {
    place: usize,
    cells: &'a [T],
    done: A,
    refused: A,
    /// Is a buffer that is too short all 0 afterwards? Else it stays as it was.
    cleared: bool,
}

impl<T: Cell + Default, A: PartialEq + Debug> Need<'_, T, A> {
    /// Makes the call with a buffer of each length.
    fn holds(&self, name: &str, lengths: impl Iterator<Item = usize>, mut call: impl FnMut(&mut [T]) -> A) {
        let start = Instant::now();
        let random = &mut Random::new(1);
        let end = self.place + self.cells.len();
        let (mut done, mut refused) = (0, 0);
        for length in lengths {
            let mut lent = Lent::patterned(random, length);
            let mut expected = lent.clone();
            let found = call(lent.cells_mut());
            if length >= end {
                assert_eq!(found, self.done, "{name} in {length} cells");
                expected.cells_mut()[self.place..end].copy_from_slice(self.cells);
                done += 1;
            } else {
                assert_eq!(found, self.refused, "{name} in {length} cells");
                if self.cleared {
                    expected.cells_mut().fill(T::default());
                }
                refused += 1;
            }
            lent.must_be(&expected, &format!("{name} in {length} cells"));
        }
        assert!(done > 0 && refused > 0, "{name}: lengths on both sides of {end}");
        println!("{name}: {refused} lengths refused, {done} done, in {:.1} s", start.elapsed().as_secs_f64());
    }
}

/// P, whose conversion makes 10 nodes.
fn p() -> Vec<u8> {
    published::file_p().file()
}

/// The file whose conversion makes the most nodes of those that are known, 1,136: every row waits for state 0, and each state has a row
/// from the next two, so that the rows that are left stay open at every step.
fn largest() -> Vec<u8> {
    let mut rows: Vec<([u8; 3], u8)> = (0..16).map(|state| ([0, (state + 1).min(15), (state + 2).min(15)], state)).collect();
    rows.resize(64, ([0, 1, 2], 15));
    let rows: Vec<(u8, &[u8], u8)> = rows.iter().map(|(sources, target)| (0, &sources[..], *target)).collect();
    file_bytes(16, 0xffff, &[3], &rows)
}

/// The words of the first so many nodes that a file's conversion makes.
fn table_of(file: &[u8], nodes: usize) -> Vec<u32> {
    let mut table = table::words_of_table(&elimination::converted(&file::read(file).expect("a valid file")).0);
    table.truncate(6 * nodes);
    assert_eq!(table.len(), 6 * nodes, "so many nodes are made");
    table
}

#[test]
fn convert() {
    for (name, bytes, nodes, answer) in [("P", p(), 10, 9), ("the largest", largest(), 1136, 1135)] {
        let need = Need {
            place: 0,
            cells: &table_of(&bytes, nodes),
            done: Wholly { refusal: 0, nodes, answer },
            refused: Wholly { refusal: 6, nodes: 0, answer: 0 },
            cleared: true,
        };
        need.holds(&format!("convert {name}"), lengths(), |words| library::convert(&bytes, words).plain());
        need.holds(&format!("plain convert {name}"), lengths(), |words| elimination::convert(&bytes, words));
    }
}

/// At the start the largest has 1 + 16 + 64 nodes; with all states dealt with, the 15 that join the 16 rows which are left are missing.
#[test]
fn convert_partly() {
    let cases = [
        ("P", p(), 0, 6),
        ("P", p(), 1, 8),
        ("P", p(), 2, 10),
        ("the largest", largest(), 0, 81),
        ("the largest", largest(), 16, 1121),
    ];
    for (name, bytes, k, nodes) in cases {
        let stage = elimination::stage_after(&file::read(&bytes).expect("a valid file"), k as usize);
        let mut list = [Place::default(); 80];
        for (place, &row) in list.iter_mut().zip(&stage.rows) {
            *place = Place { node: row.node as u16, target: row.target as u8, waits: stage.waits(row) as u8 };
        }
        let need = Need {
            place: 0,
            cells: &table_of(&bytes, nodes),
            done: Partly { refusal: 0, nodes, rows: stage.rows.len(), list },
            refused: Partly { refusal: 6, nodes: 0, rows: 0, list: [Place::default(); 80] },
            cleared: true,
        };
        let name = format!("convert_partly {name}, {k} states");
        need.holds(&name, lengths(), |words| library::convert_partly(&bytes, k, words).plain());
        need.holds(&format!("plain {name}"), lengths(), |words| elimination::convert_partly(&bytes, k, words));
    }
}

type Print = fn(&[u8], &mut [u32], &mut [u8]) -> (u8, usize);

fn library_printed(file: &[u8], words: &mut [u32], out: &mut [u8]) -> (u8, usize) {
    library::printed(file, words, out).plain()
}

/// Bytes and a number at a place: where there is no room, the place that was given comes back.
#[test]
fn put_bytes_and_number() {
    let bytes: Vec<u8> = (0..300).map(|place| place as u8).collect();
    for (at, count) in [(0, 20), (4000, 300)] {
        let bytes = &bytes[..count];
        let need = Need { place: at, cells: bytes, done: at + count, refused: at, cleared: false };
        need.holds(&format!("put_bytes at {at}"), lengths(), |out| library::put_bytes(out, at, bytes));
        need.holds(&format!("plain put_bytes at {at}"), around(at + count), |out| writing::put_bytes(out, at, bytes));
    }
    let need = Need { place: 250, cells: b"18446744073709551615", done: 270, refused: 250, cleared: false };
    need.holds("put_number at 250", lengths(), |out| library::put_number(out, 250, u64::MAX));
    need.holds("plain put_number at 250", around(270), |out| writing::put_number(out, 250, u64::MAX));
}

/// Its words, with a byte more than the text needs: where the words are too few, the bytes stay.
#[test]
fn printed_words() {
    for (name, bytes, nodes) in [("P", p(), 10), ("the largest", largest(), 1136)] {
        let text = printed::text(&bytes).into_bytes();
        let need = Need { place: 0, cells: &table_of(&bytes, nodes), done: (0, text.len()), refused: (6, 0), cleared: true };
        let print_with = |print: Print| {
            let (bytes, text) = (&bytes, &text);
            move |words: &mut [u32]| {
                let mut out = vec![7; text.len() + 1];
                let answer = print(bytes, words, &mut out);
                let filled = if answer.0 == 0 { &text[..] } else { &[] };
                assert!(out.starts_with(filled) && out[filled.len()..].iter().all(|&byte| byte == 7), "the bytes");
                answer
            }
        };
        need.holds(&format!("printed {name}, its words"), lengths(), print_with(library_printed));
        need.holds(&format!("plain printed {name}, its words"), around(6 * nodes), print_with(printed::printed));
    }
}

/// Its bytes, with a word more than the nodes need: where the bytes are too few, the words become 0.
#[test]
fn printed_bytes() {
    for (name, bytes, nodes) in [("P", p(), 10), ("the largest", largest(), 1136)] {
        let (text, table) = (printed::text(&bytes).into_bytes(), table_of(&bytes, nodes));
        let need = Need { place: 0, cells: &text, done: (0, text.len()), refused: (6, 0), cleared: false };
        let print_with = |print: Print| {
            let (bytes, table) = (&bytes, &table);
            move |out: &mut [u8]| {
                let mut words = vec![7; table.len() + 1];
                let answer = print(bytes, &mut words, out);
                let expected = if answer.0 == 0 { [&table[..], &[7]].concat() } else { vec![0; words.len()] };
                assert!(words == expected, "the words");
                answer
            }
        };
        need.holds(&format!("printed {name}, its bytes"), text_lengths(), print_with(library_printed));
        need.holds(&format!("plain printed {name}, its bytes"), around(text.len()), print_with(printed::printed));
    }
}

#[test]
fn write() {
    for (name, bytes, length) in [("P", p(), 43), ("the largest", largest(), 592)] {
        let (_, value) = file::reading(&bytes);
        let need = Need { place: 0, cells: &bytes, done: (0, length), refused: (6, 0), cleared: false };
        let call = |out: &mut [u8]| library::write(crossing::automaton(&value), out).plain();
        need.holds(&format!("write {name}"), lengths(), call);
        need.holds(&format!("plain write {name}"), lengths(), |out| file::write(&value, out));
    }
}

#[test]
fn list() {
    for (name, bytes, nodes) in [("P", p(), 10), ("the largest", largest(), 1136)] {
        let (text, table) = (printed::text(&bytes).into_bytes(), table_of(&bytes, nodes));
        let need = Need { place: 0, cells: &text, done: (0, text.len()), refused: (6, 0), cleared: false };
        let call = |out: &mut [u8]| library::list(&table, nodes, nodes - 1, out).plain();
        need.holds(&format!("list {name}"), text_lengths(), call);
        let call = |out: &mut [u8]| listing::list(&table, nodes, nodes - 1, out);
        need.holds(&format!("plain list {name}"), around(text.len()), call);
    }
}

/// A chain of 4,096 nodes, a leaf first and each other node over the one before it: the sizes are 1 to 4,096.
#[test]
fn measure() {
    let table: Vec<u32> = (0..4096).flat_map(|node| [2, if node == 0 { 0 } else { 256 }, node.max(1) - 1, 0, 0, 0]).collect();
    let sizes: Vec<u32> = (1..=4096).collect();
    let need = Need { place: 0, cells: &sizes, done: (0, 4096), refused: (6, 0), cleared: false };
    need.holds("measure 4096 nodes", lengths(), |scratch| library::measure(&table, 4096, 4095, scratch).plain());
    need.holds("plain measure 4096 nodes", around(4096), |scratch| table::measure(&table, 4096, 4095, scratch));
    let need = Need { place: 0, cells: &sizes[..10], done: (0, 10), refused: (6, 0), cleared: false };
    need.holds("measure 10 nodes", lengths(), |scratch| library::measure(&table, 10, 9, scratch).plain());
    need.holds("plain measure 10 nodes", lengths(), |scratch| table::measure(&table, 10, 9, scratch));
}

/// Hole 3 as node 0, 9, 999, 1,392 and 4,095, which is the last that there can be.
#[test]
fn make() {
    let hole = [1, 3, 0, 0, 0, 0b1000];
    for count in [0, 9, 999, 1392, 4095] {
        let need = Need { place: 6 * count, cells: &hole, done: 0, refused: 6, cleared: false };
        let and_the_last = || lengths().chain(around(24_576));
        let call = |words: &mut [u32]| library::make(words, count, crossing::shape(1, 3, [0; 3])).plain();
        need.holds(&format!("make node {count}"), and_the_last(), call);
        need.holds(&format!("plain make node {count}"), and_the_last(), |words| table::make(words, count, 1, 3, [0; 3]));
    }
}
