//! Files, automaton values and trees from a fuzzer's input.

use crate::input::Input;
use independent::automaton::{Automaton, Row, Value, MOST_ROWS, MOST_STATES, MOST_SYMBOLS};
use independent::file;

/// An automaton that a file can hold, whatever the input is.
pub fn automaton(input: &mut Input) -> Automaton {
    let states = 1 + input.below(MOST_STATES);
    let finals = (input.half() as u32 & ((1 << states) - 1)) as u16;
    let symbols = 1 + input.below(MOST_SYMBOLS);
    let arities: Vec<usize> = (0..symbols).map(|_| input.below(4)).collect();
    let mut rows = Vec::new();
    while !input.is_over() && rows.len() < MOST_ROWS {
        let (symbol, target) = (input.below(symbols), input.below(states));
        rows.push(Row { symbol, target, sources: (0..arities[symbol]).map(|_| input.below(states)).collect() });
    }
    Automaton { states, finals, arities, rows }
}

/// A file: the input itself, a valid file, a valid file with up to three places spoiled, or records in any order.
pub fn file(input: &mut Input) -> Vec<u8> {
    match input.byte() % 4 {
        0 => input.rest().to_vec(),
        1 => file::file_of(&automaton(input)),
        2 => spoiled_file(input),
        _ => records(input),
    }
}

fn spoiled_file(input: &mut Input) -> Vec<u8> {
    let spoils: [(u8, u16, u8); 3] = std::array::from_fn(|_| (input.byte(), input.half(), input.byte()));
    let mut bytes = file::file_of(&automaton(input));
    for (how, place, byte) in spoils {
        let place = place as usize % (bytes.len() + 1);
        match how % 6 {
            1 if place < bytes.len() => bytes[place] = byte,
            2 => bytes.insert(place, byte),
            3 if place < bytes.len() => drop(bytes.remove(place)),
            4 => bytes.truncate(place),
            5 => bytes.push(byte),
            _ => {}
        }
        if bytes.is_empty() {
            return bytes;
        }
    }
    bytes
}

/// Records one after another: the first byte of each says the kind, whether kind or length is something else than usual, and how often.
fn records(input: &mut Input) -> Vec<u8> {
    let mut bytes = Vec::new();
    while !input.is_over() && bytes.len() < 2000 {
        let how = input.byte();
        let row = 2 + input.below(4) as u16;
        let (mut kind, mut length) = [(1, 3), (2, 1), (3, row), (9, 0)][how as usize % 4];
        if how & 0x80 != 0 {
            kind = input.half();
        }
        if how & 0x40 != 0 {
            length = input.half();
        }
        let payload: Vec<u8> = (0..length % 8).map(|_| input.byte()).collect();
        for _ in 0..=[0, 0, 1, 3, 7, 30, 31, 63][(how >> 2) as usize % 8] {
            bytes.extend(length.to_le_bytes());
            bytes.extend(kind.to_le_bytes());
            bytes.extend(&payload);
        }
    }
    bytes
}

/// A value: any bytes, or one that a file can hold, with anything in its unused places and up to three places changed.
pub fn value(input: &mut Input) -> Value {
    let form = input.byte();
    let spoils: [(u8, u8, u8); 3] = std::array::from_fn(|_| (input.byte(), input.byte(), input.byte()));
    if form % 4 == 0 {
        return value_of_bytes(|| input.byte());
    }
    let automaton = automaton(input);
    let mut number = form as u32;
    let mut value = value_of_bytes(|| {
        number = number.wrapping_mul(1664525).wrapping_add(1013904223);
        (number >> 24) as u8
    });
    put_in(&automaton, &mut value);
    for (what, place, byte) in spoils {
        spoil_value(&mut value, what, place as usize, byte);
    }
    value
}

fn value_of_bytes(mut byte: impl FnMut() -> u8) -> Value {
    let mut value = Value { states: byte(), finals: u16::from_le_bytes([byte(), byte()]), symbols: byte(), ..Value::ZERO };
    value.count = byte();
    value.arities = std::array::from_fn(|_| byte());
    for row in &mut value.rows {
        (row.symbol, row.target) = (byte(), byte());
        row.sources = std::array::from_fn(|_| byte());
    }
    value
}

/// Puts an automaton into a value and leaves every unused place as it is.
fn put_in(automaton: &Automaton, value: &mut Value) {
    (value.states, value.finals) = (automaton.states as u8, automaton.finals);
    (value.symbols, value.count) = (automaton.arities.len() as u8, automaton.rows.len() as u8);
    for (place, &arity) in automaton.arities.iter().enumerate() {
        value.arities[place] = arity as u8;
    }
    for (place, row) in automaton.rows.iter().enumerate() {
        (value.rows[place].symbol, value.rows[place].target) = (row.symbol as u8, row.target as u8);
        for (source, &state) in row.sources.iter().enumerate() {
            value.rows[place].sources[source] = state as u8;
        }
    }
}

fn spoil_value(value: &mut Value, what: u8, place: usize, byte: u8) {
    match what % 10 {
        1 => value.states = byte,
        2 => value.finals ^= 1 << (byte % 16),
        3 => value.symbols = byte,
        4 => value.count = byte,
        5 => value.arities[place % MOST_SYMBOLS] = byte,
        6 => value.rows[place % MOST_ROWS].symbol = byte,
        7 => value.rows[place % MOST_ROWS].target = byte,
        8 => value.rows[place % MOST_ROWS].sources[place / MOST_ROWS % 3] = byte,
        _ => {}
    }
}

/// Prefix words: 16-bit words or bytes as they come, a tree over the symbols, or a tree that begins with one symbol many times.
pub fn words(input: &mut Input, arities: &[usize]) -> Vec<u16> {
    let (form, after) = (input.byte(), input.byte());
    let mut words = match form % 4 {
        0 => input.rest().chunks(2).map(|pair| pair.iter().rev().fold(0, |word, &byte| word << 8 | byte as u16)).collect(),
        1 => input.rest().iter().map(|&byte| byte as u16).collect(),
        2 => completed(input, arities, Vec::new()),
        _ => {
            let (symbol, times) = (input.below(arities.len()) as u16, input.half() as usize);
            let times = [times % 4200, 4094, 4095, 4096][form as usize / 4 % 4];
            completed(input, arities, vec![symbol; times])
        }
    };
    match after % 8 {
        1 => drop(words.pop()),
        2 => words.push(0),
        3 => words.push(arities.len() as u16),
        _ => {}
    }
    words
}

/// Goes on with the input's symbols, then with the first symbol without children, until the words are one tree or get too many.
fn completed(input: &mut Input, arities: &[usize], mut words: Vec<u16>) -> Vec<u16> {
    let leaf = arities.iter().position(|&arity| arity == 0).unwrap_or(0);
    let mut wanted = 1_i64;
    for &word in &words {
        wanted += arities[word as usize] as i64 - 1;
    }
    while wanted > 0 && words.len() < 4200 {
        let symbol = if input.is_over() { leaf } else { input.below(arities.len()) };
        wanted += arities[symbol] as i64 - 1;
        words.push(symbol as u16);
    }
    words
}
