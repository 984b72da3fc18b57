//! Random files: valid ones, and ones damaged in every way that the reader's checks speak of (3.8 to 3.16 of `docs/REQUIREMENTS.md`).

use crate::automata;
use crate::random::Random;
use independent::automaton::{Automaton, Row};
use independent::file;

/// A record with a length that need not be its payload's.
#[derive(Clone)]
struct Record {
    length: u16,
    kind: u16,
    payload: Vec<u8>,
}

fn record(kind: u16, payload: Vec<u8>) -> Record {
    Record { length: payload.len() as u16, kind, payload }
}

fn bytes_of(records: &[Record]) -> Vec<u8> {
    let mut bytes = Vec::new();
    for record in records {
        bytes.extend(record.length.to_le_bytes());
        bytes.extend(record.kind.to_le_bytes());
        bytes.extend(&record.payload);
    }
    bytes
}

/// The records of a valid file.
fn records_of(bytes: &[u8]) -> Vec<Record> {
    let mut records = Vec::new();
    let mut left = bytes;
    while !left.is_empty() {
        let length = u16::from_le_bytes([left[0], left[1]]);
        let (head, rest) = left.split_at(4);
        let (payload, rest) = rest.split_at(length as usize);
        records.push(Record { length, kind: u16::from_le_bytes([head[2], head[3]]), payload: payload.to_vec() });
        left = rest;
    }
    records
}

/// A file, valid in about `good` of ten cases.
pub fn file(random: &mut Random, good: usize) -> Vec<u8> {
    let automaton = automata::automaton(random);
    let bytes = file::file_of(&automaton);
    if random.below(10) < good {
        bytes
    } else {
        damaged(random, &automaton, bytes)
    }
}

/// A file with something done to it; in a few cases it is a valid file still.
fn damaged(random: &mut Random, automaton: &Automaton, mut bytes: Vec<u8>) -> Vec<u8> {
    match random.below(16) {
        0 => bytes.truncate(random.below(bytes.len())),
        1 => bytes.extend((0..random.between(1, 9)).map(|_| random.pick(&[0, 9, 255])).collect::<Vec<u8>>()),
        2 => {
            let place = random.below(bytes.len());
            bytes[place] ^= 1 << random.below(8);
        }
        3 => {
            let place = random.below(bytes.len());
            bytes[place] = random.next() as u8;
        }
        4 => {
            bytes.remove(random.below(bytes.len()));
        }
        5 => {
            let other = file::file_of(&automata::automaton(random));
            bytes.truncate(random.below(bytes.len() + 1));
            bytes.extend(&other[random.below(other.len())..]);
        }
        6 => bytes = (0..random.below(40)).map(|_| random.pick(&[0, 0, 0, 1, 2, 3, 9, 255])).collect(),
        7 => bytes = past_the_last_symbol(random, automaton),
        8..=9 => bytes = past_the_last_row(random, automaton),
        _ => bytes = record_damaged(random, &bytes),
    }
    bytes
}

/// Some record is moved, dropped, said twice, given another kind, length or value.
fn record_damaged(random: &mut Random, bytes: &[u8]) -> Vec<u8> {
    let mut records = records_of(bytes);
    let place = random.below(records.len());
    let other = random.below(records.len());
    match random.below(8) {
        0 => records.swap(place, other),
        1 => {
            records.remove(place);
        }
        2 => records.insert(other, records[place].clone()),
        3 => records[place].kind = random.pick(&[0, 1, 2, 3, 4, 8, 9, 10, 256, 257, 258, 259, 265, 65535]),
        4 => records[place].length = random.pick(&[0, 1, 2, 3, 4, 5, 6, 256, 257, 259, 65535]),
        5 => {
            let record = &mut records[place];
            record.payload.resize(random.below(8), 0);
            record.length = record.payload.len() as u16;
        }
        _ => value_damaged(random, &mut records[place]),
    }
    let mut bytes = bytes_of(&records);
    if random.once_in(6) {
        bytes.truncate(random.below(bytes.len() + 1));
    }
    bytes
}

fn value_damaged(random: &mut Random, record: &mut Record) {
    if !record.payload.is_empty() {
        let place = random.below(record.payload.len());
        record.payload[place] = random.pick(&[0, 1, 3, 4, 15, 16, 17, 31, 32, 33, 128, 255]);
    }
}

/// A file with 32 symbols, and then one more, good or bad, whole or cut.
fn past_the_last_symbol(random: &mut Random, automaton: &Automaton) -> Vec<u8> {
    let mut full = automaton.clone();
    full.arities.resize(32, 1);
    let mut records = records_of(&file::file_of(&full));
    records.insert(33, record(2, vec![random.pick(&[0, 3, 4])]));
    if random.once_in(3) {
        records.truncate(34);
        let bytes = bytes_of(&records);
        return bytes[..bytes.len() - random.below(6)].to_vec();
    }
    bytes_of(&records)
}

/// A file with 64 rows, and then one more: good, of a wrong length for its symbol, of a length that no row has, with a wrong value,
/// whole or cut.
fn past_the_last_row(random: &mut Random, automaton: &Automaton) -> Vec<u8> {
    let mut full = automaton.clone();
    let sources = vec![0; full.arities[0]];
    full.rows.resize(64, Row { symbol: 0, target: 0, sources });
    let mut records = records_of(&file::file_of(&full));
    let end = records.len() - 1;
    let mut more = record(3, vec![0; random.between(2, 5)]);
    match random.below(4) {
        0 => more.length = random.pick(&[0, 1, 6, 258]),
        1 => more.payload[0] = 255,
        _ => {}
    }
    records.insert(end, more);
    if random.once_in(3) {
        records.truncate(end + 1);
        let bytes = bytes_of(&records);
        return bytes[..bytes.len() - random.below(8)].to_vec();
    }
    bytes_of(&records)
}
