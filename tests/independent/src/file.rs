//! The automaton file: section 3.

use crate::automaton::{Automaton, Row, Value, MOST_ARITY, MOST_ROWS, MOST_STATES, MOST_SYMBOLS};
use crate::refusal::*;
use crate::sets;

/// The longest valid file: 7 + 32 × 5 + 64 × 9 + 4 [3.5].
pub const LONGEST_FILE: usize = 747;

const HEAD: usize = 4;

const KIND_STATES: u16 = 1;
const KIND_SYMBOL: u16 = 2;
const KIND_ROW: u16 = 3;
const KIND_END: u16 = 9;

/// May a record of that kind come next? The states come first and once, then at least one symbol, then the rows, then the end. What
/// follows the end is `read`'s to refuse [3.4, 3.9].
fn kind_allowed(kind: u16, states_seen: bool, symbols: usize, rows: usize) -> bool {
    match kind {
        KIND_STATES => !states_seen,
        KIND_SYMBOL => states_seen && rows == 0,
        KIND_ROW | KIND_END => symbols > 0,
        _ => false,
    }
}

/// May a record of that kind have that length? For a row any length that some arity gives will do here [3.2, 3.10].
fn length_allowed(kind: u16, length: usize) -> bool {
    match kind {
        KIND_STATES => length == 3,
        KIND_SYMBOL => length == 1,
        KIND_ROW => (2..=2 + MOST_ARITY).contains(&length),
        KIND_END => length == 0,
        _ => false,
    }
}

/// Reads a file: the automaton, or the number of the refusal [3.7]. What follows the end is refused last [3.16].
pub fn read(file: &[u8]) -> Result<Automaton, u8> {
    let mut states: Option<(usize, u16)> = None;
    let mut arities = Vec::new();
    let mut rows = Vec::new();
    let mut left = file;
    loop {
        let (kind, payload, rest) = next_record(left, |kind| kind_allowed(kind, states.is_some(), arities.len(), rows.len()))?;
        left = rest;
        match (kind, states) {
            (KIND_STATES, _) => states = Some(read_states(payload)?),
            (KIND_SYMBOL, _) => arities.push(read_symbol(payload, arities.len())?),
            (KIND_ROW, Some((count, _))) => rows.push(read_row(payload, rows.len(), count, &arities)?),
            (_, Some((states, finals))) if left.is_empty() => return Ok(Automaton { states, finals, arities, rows }),
            _ => return Err(BYTES_AFTER),
        }
    }
}

/// The checks of one record that do not look at its values, in their order; gives its kind, its payload and the bytes after it [3.8 to
/// 3.11].
fn next_record(left: &[u8], allowed: impl Fn(u16) -> bool) -> Result<(u16, &[u8], &[u8]), u8> {
    if left.len() < HEAD {
        return Err(ENDS_EARLY);
    }
    let length = u16::from_le_bytes([left[0], left[1]]) as usize;
    let kind = u16::from_le_bytes([left[2], left[3]]);
    if !allowed(kind) {
        return Err(KIND);
    }
    if !length_allowed(kind, length) {
        return Err(LENGTH);
    }
    if left.len() < HEAD + length {
        return Err(ENDS_EARLY);
    }
    Ok((kind, &left[HEAD..HEAD + length], &left[HEAD + length..]))
}

/// How many states, and which are final: none of them past the count [3.13].
fn read_states(payload: &[u8]) -> Result<(usize, u16), u8> {
    let states = payload[0] as usize;
    let finals = u16::from_le_bytes([payload[1], payload[2]]);
    let in_range = (1..=MOST_STATES).contains(&states) && sets::members(finals).all(|state| (state as usize) < states);
    if in_range {
        Ok((states, finals))
    } else {
        Err(VALUE)
    }
}

/// The arity of one symbol more [3.12, 3.14].
fn read_symbol(payload: &[u8], symbols_before: usize) -> Result<usize, u8> {
    let arity = payload[0] as usize;
    if symbols_before == MOST_SYMBOLS || arity > MOST_ARITY {
        Err(VALUE)
    } else {
        Ok(arity)
    }
}

/// One row more: is there still a place for it, is its symbol there, has it the length that the symbol's arity asks for, and then the
/// states [3.12, 3.15].
fn read_row(payload: &[u8], rows_before: usize, states: usize, arities: &[usize]) -> Result<Row, u8> {
    let symbol = payload[0] as usize;
    if rows_before == MOST_ROWS || symbol >= arities.len() {
        return Err(VALUE);
    }
    if payload.len() != 2 + arities[symbol] {
        return Err(LENGTH);
    }
    let target = payload[1] as usize;
    let sources: Vec<usize> = payload[2..].iter().map(|&state| state as usize).collect();
    if target >= states || sources.iter().any(|&state| state >= states) {
        return Err(VALUE);
    }
    Ok(Row { symbol, target, sources })
}

/// What the reader hands back: the refusal, and the value, all zeros where it is refused [3.17].
pub fn reading(file: &[u8]) -> (u8, Value) {
    match read(file) {
        Ok(automaton) => (DONE, automaton.to_value()),
        Err(number) => (number, Value::ZERO),
    }
}

/// Puts one record after the others [3.1].
fn record(bytes: &mut Vec<u8>, kind: u16, payload: &[u8]) {
    bytes.extend((payload.len() as u16).to_le_bytes());
    bytes.extend(kind.to_le_bytes());
    bytes.extend(payload);
}

/// The file of an automaton [3.20].
pub fn file_of(automaton: &Automaton) -> Vec<u8> {
    let mut bytes = Vec::new();
    let finals = automaton.finals.to_le_bytes();
    record(&mut bytes, KIND_STATES, &[automaton.states as u8, finals[0], finals[1]]);
    for &arity in &automaton.arities {
        record(&mut bytes, KIND_SYMBOL, &[arity as u8]);
    }
    for row in &automaton.rows {
        let mut payload = vec![row.symbol as u8, row.target as u8];
        payload.extend(row.sources.iter().map(|&state| state as u8));
        record(&mut bytes, KIND_ROW, &payload);
    }
    record(&mut bytes, KIND_END, &[]);
    bytes
}

/// The writer: the refusal and the file's length. A value that has no file is refused before the room is looked at [3.21 to 3.23].
pub fn write(value: &Value, out: &mut [u8]) -> (u8, usize) {
    let Some(automaton) = Automaton::from_value(value) else {
        return (VALUE, 0);
    };
    let file = file_of(&automaton);
    if out.len() < file.len() {
        return (TOO_SHORT, 0);
    }
    out[..file.len()].copy_from_slice(&file);
    (DONE, file.len())
}
