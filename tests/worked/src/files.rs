//! The worked drafts (section 10 of `docs/REQUIREMENTS.md`), said by states and rows and encoded by the independent writer; and a file for
//! each refusal.

use independent::automaton::{Automaton, Row};
use independent::file::file_of;

fn row(symbol: usize, sources: &[usize], target: usize) -> Row {
    Row { symbol, target, sources: sources.to_vec() }
}

fn file(states: usize, finals: u16, arities: &[usize], rows: Vec<Row>) -> Vec<u8> {
    file_of(&Automaton { states, finals, arities: arities.to_vec(), rows })
}

/// File P, from its hex [10.2].
pub fn p() -> Vec<u8> {
    let hex = "
        03 00 01 00 02 02 00
        01 00 02 00 00
        01 00 02 00 02
        02 00 03 00 00 00
        04 00 03 00 01 01 00 00
        04 00 03 00 01 01 01 00
        00 00 09 00
    ";
    hex.split_whitespace().map(|byte| u8::from_str_radix(byte, 16).expect("a byte in hex")).collect()
}

/// a and b, and g over two of them [10.9]
pub fn pairs() -> Vec<u8> {
    file(2, 1 << 1, &[0, 0, 2], vec![row(0, &[], 0), row(1, &[], 0), row(2, &[0, 0], 1)])
}

/// a, and g over any two trees [10.10]
pub fn nested() -> Vec<u8> {
    file(1, 1 << 0, &[0, 2], vec![row(0, &[], 0), row(1, &[0, 0], 0)])
}

/// h over itself, with no leaf [10.11]
pub fn endless() -> Vec<u8> {
    file(1, 1 << 0, &[1], vec![row(0, &[0], 0)])
}

/// no rows at all [10.12]
pub fn rowless() -> Vec<u8> {
    file(1, 1 << 0, &[0], vec![])
}

/// a, with no final state [10.13]
pub fn finalless() -> Vec<u8> {
    file(1, 0, &[0], vec![row(0, &[], 0)])
}

/// g over a; h waits for a state that nothing reaches [10.14]
pub fn unreached() -> Vec<u8> {
    file(3, 1 << 2, &[0, 1, 1], vec![row(0, &[], 0), row(1, &[1], 0), row(2, &[0], 2)])
}

/// a to 0, h(0) to 0, final 0: chains of any length
pub fn chains() -> Vec<u8> {
    file(1, 1 << 0, &[0, 1], vec![row(0, &[], 0), row(1, &[0], 0)])
}

/// One file for each refusal of a file, and the empty one, by name.
pub fn refused() -> Vec<(&'static str, Vec<u8>)> {
    let whole = p();
    let cut = whole[..whole.len() - 1].to_vec();
    let after = [&whole[..], &[0]].concat();
    vec![
        ("cut", cut),
        ("no bytes", vec![]),
        ("ended", vec![0, 0, 9, 0]),
        ("long", vec![4, 0, 1, 0, 2, 2, 0, 0]),
        ("many", vec![3, 0, 1, 0, 17, 0, 0]),
        ("after", after),
    ]
}
