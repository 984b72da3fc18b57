//! The same entries written for speed: no allocation, one pass where one will do, sets as masks. It is here to be timed against.

use independent::automaton::{Value, ValueRow};
use independent::elimination::{Partly, Place, Wholly, LIST_PLACES};
use independent::refusal::*;
use independent::trees::Reached;

const FINAL: u8 = 16;

pub fn read(file: &[u8]) -> (u8, Value) {
    let mut value = Value::ZERO;
    match read_into(file, &mut value) {
        DONE => (DONE, value),
        number => (number, Value::ZERO),
    }
}

/// The record at a place: kind and length, where four bytes are there.
#[inline(always)]
fn head(file: &[u8], at: usize) -> Option<(u16, usize)> {
    let four = file.get(at..at + 4)?;
    Some((u16::from_le_bytes([four[2], four[3]]), u16::from_le_bytes([four[0], four[1]]) as usize))
}

/// Fills a value that is all 0; on a refusal what stands in it is of no use.
fn read_into(file: &[u8], value: &mut Value) -> u8 {
    let Some((kind, length)) = head(file, 0) else {
        return ENDS_EARLY;
    };
    if kind != 1 {
        return KIND;
    }
    if length != 3 {
        return LENGTH;
    }
    let Some(payload) = file.get(4..7) else {
        return ENDS_EARLY;
    };
    value.states = payload[0];
    value.finals = u16::from_le_bytes([payload[1], payload[2]]);
    if payload[0] == 0 || payload[0] > 16 || (value.finals as u32) >> payload[0] != 0 {
        return VALUE;
    }
    read_symbols(file, value)
}

fn read_symbols(file: &[u8], value: &mut Value) -> u8 {
    let mut at = 7;
    let mut symbols = 0;
    loop {
        let Some((kind, length)) = head(file, at) else {
            return ENDS_EARLY;
        };
        if kind != 2 {
            if symbols == 0 {
                return KIND;
            }
            value.symbols = symbols as u8;
            return read_rows(file, at, value);
        }
        if length != 1 {
            return LENGTH;
        }
        let Some(&arity) = file.get(at + 4) else {
            return ENDS_EARLY;
        };
        if symbols == 32 || arity > 3 {
            return VALUE;
        }
        value.arities[symbols] = arity;
        symbols += 1;
        at += 5;
    }
}

fn read_rows(file: &[u8], mut at: usize, value: &mut Value) -> u8 {
    let mut count = 0;
    loop {
        let Some((kind, length)) = head(file, at) else {
            return ENDS_EARLY;
        };
        if kind != 3 {
            value.count = count as u8;
            return match (kind, length) {
                (9, 0) if file.len() == at + 4 => DONE,
                (9, 0) => BYTES_AFTER,
                (9, _) => LENGTH,
                _ => KIND,
            };
        }
        if !(2..=5).contains(&length) {
            return LENGTH;
        }
        let Some(payload) = file.get(at + 4..at + 4 + length) else {
            return ENDS_EARLY;
        };
        if count == 64 || payload[0] >= value.symbols {
            return VALUE;
        }
        let arity = value.arities[payload[0] as usize & 31] as usize;
        if length != 2 + arity {
            return LENGTH;
        }
        if payload[1..].iter().any(|&state| state >= value.states) {
            return VALUE;
        }
        let row = &mut value.rows[count];
        row.symbol = payload[0];
        row.target = payload[1];
        row.sources[..arity].copy_from_slice(&payload[2..]);
        count += 1;
        at += 4 + length;
    }
}

/// The length of a value's file, or nothing where no file can hold it.
fn file_length(value: &Value) -> Option<usize> {
    let counts = (1..=16).contains(&value.states) && (1..=32).contains(&value.symbols) && value.count <= 64;
    if !counts || (value.finals as u32) >> value.states != 0 {
        return None;
    }
    let symbols = value.symbols as usize;
    if value.arities[..symbols].iter().any(|&arity| arity > 3) {
        return None;
    }
    let mut length = 7 + 5 * symbols + 4;
    for row in &value.rows[..value.count as usize] {
        let arity = *value.arities[..symbols].get(row.symbol as usize)? as usize;
        if row.target >= value.states || row.sources[..arity].iter().any(|&state| state >= value.states) {
            return None;
        }
        length += 6 + arity;
    }
    Some(length)
}

pub fn write(value: &Value, out: &mut [u8]) -> (u8, usize) {
    let Some(length) = file_length(value) else {
        return (VALUE, 0);
    };
    let Some(out) = out.get_mut(..length) else {
        return (TOO_SHORT, 0);
    };
    let finals = value.finals.to_le_bytes();
    out[..7].copy_from_slice(&[3, 0, 1, 0, value.states, finals[0], finals[1]]);
    let mut at = 7;
    for &arity in &value.arities[..value.symbols as usize] {
        out[at..at + 5].copy_from_slice(&[1, 0, 2, 0, arity]);
        at += 5;
    }
    for row in &value.rows[..value.count as usize] {
        let arity = value.arities[row.symbol as usize & 31] as usize;
        out[at..at + 6].copy_from_slice(&[2 + arity as u8, 0, 3, 0, row.symbol, row.target]);
        out[at + 6..at + 6 + arity].copy_from_slice(&row.sources[..arity]);
        at += 6 + arity;
    }
    out[at..].copy_from_slice(&[0, 0, 9, 0]);
    (DONE, length)
}

/// Rows sorted by symbol, with what a run needs of each.
struct Index {
    /// Where each symbol's rows begin; one place more for the end.
    begin: [u8; 33],
    /// For each row the masks of its sources, `u16::MAX` where there is none, and of its target.
    rows: [[u16; 4]; 64],
    /// For each leaf symbol the states it reaches.
    leaves: [u16; 32],
}

fn index(value: &Value) -> Index {
    let rows = &value.rows[..value.count as usize];
    let mut index = Index { begin: [0; 33], rows: [[0; 4]; 64], leaves: [0; 32] };
    for row in rows {
        index.begin[row.symbol as usize & 31] += 1;
    }
    let mut sum = 0;
    for place in &mut index.begin {
        sum += *place;
        *place = sum;
    }
    for row in rows.iter().rev() {
        let symbol = row.symbol as usize & 31;
        index.begin[symbol] -= 1;
        let arity = value.arities[symbol] as usize;
        let masks = &mut index.rows[index.begin[symbol] as usize & 63];
        for (place, mask) in masks[..3].iter_mut().enumerate() {
            *mask = if place < arity { 1 << (row.sources[place] & 15) } else { u16::MAX };
        }
        masks[3] = 1 << (row.target & 15);
        index.leaves[symbol] |= masks[3];
    }
    index
}

pub fn run(file: &[u8], words: &[u16]) -> Reached {
    let refused = |refusal| Reached { refusal, states: 0, yes: false };
    let mut value = Value::ZERO;
    let number = read_into(file, &mut value);
    if number != DONE {
        return refused(number);
    }
    let states = match words.len() {
        0 => None,
        1..=64 => run_words(&value, words, &mut [0; 64]),
        65..=4096 => run_words(&value, words, &mut [0; 4096]),
        _ => None,
    };
    match states {
        None => refused(NOT_A_TREE),
        Some(states) => Reached { refusal: DONE, states, yes: states & value.finals != 0 },
    }
}

/// From the last word to the first, so that the sets of a symbol's children lie on top of the pile, the first child's uppermost.
fn run_words(value: &Value, words: &[u16], pile: &mut [u16]) -> Option<u16> {
    let index = index(value);
    let mut height = 0;
    for &word in words.iter().rev() {
        if word >= value.symbols as u16 {
            return None;
        }
        let symbol = word as usize & 31;
        let arity = value.arities[symbol] as usize;
        if arity > height {
            return None;
        }
        let states = if arity == 0 { index.leaves[symbol] } else { reached(&index, symbol, &pile[height - arity..height]) };
        height -= arity;
        pile[height] = states;
        height += 1;
    }
    (height == 1).then(|| pile[0])
}

#[inline(always)]
fn reached(index: &Index, symbol: usize, below: &[u16]) -> u16 {
    let mut sets = [u16::MAX; 3];
    for (place, &set) in below.iter().rev().enumerate() {
        sets[place] = set;
    }
    let rows = &index.rows[index.begin[symbol] as usize..index.begin[symbol + 1] as usize];
    let mut states = 0;
    for row in rows {
        let all = (row[0] & sets[0] != 0) & (row[1] & sets[1] != 0) & (row[2] & sets[2] != 0);
        states |= if all { row[3] } else { 0 };
    }
    states
}

pub fn productive(file: &[u8]) -> (u8, u16) {
    let mut value = Value::ZERO;
    let number = read_into(file, &mut value);
    if number != DONE {
        return (number, 0);
    }
    let rows = &value.rows[..value.count as usize];
    let mut needs = [(0u16, 0u16); 64];
    for (need, row) in needs.iter_mut().zip(rows) {
        *need = (mask_of(row, value.arities[row.symbol as usize & 31]), 1 << (row.target & 15));
    }
    let mut states = 0u16;
    loop {
        let before = states;
        for &(need, target) in &needs[..rows.len()] {
            states |= if need & !states == 0 { target } else { 0 };
        }
        if states == before {
            return (DONE, states);
        }
    }
}

fn mask_of(row: &ValueRow, arity: u8) -> u16 {
    row.sources[..arity as usize].iter().fold(0, |mask, &source| mask | 1 << (source & 15))
}

pub fn is_sound(words: &[u32], count: usize, answer: usize) -> bool {
    if count == 0 || count > 4096 || answer >= count || words.len() < 6 * count {
        return false;
    }
    (0..count).all(|number| node_is_sound(words, number))
}

#[inline(always)]
fn node_is_sound(words: &[u32], number: usize) -> bool {
    let six = &words[6 * number..6 * number + 6];
    let (label, a, b, c, open) = (six[1], six[2], six[3], six[4], six[5]);
    let earlier = |child: u32| (child as usize) < number;
    let open_of = |child: u32| words[6 * child as usize + 5];
    match six[0] {
        0 => label | a | b | c | open == 0,
        1 => label < 16 && a | b | c == 0 && open == 1 << label,
        2 => match label >> 8 {
            _ if label & 255 > 31 => false,
            0 => a | b | c | open == 0,
            1 => earlier(a) && b | c == 0 && open == open_of(a),
            2 => earlier(a) && earlier(b) && c == 0 && open == open_of(a) | open_of(b),
            3 => earlier(a) && earlier(b) && earlier(c) && open == open_of(a) | open_of(b) | open_of(c),
            _ => false,
        },
        3 => label == 0 && earlier(a) && earlier(b) && c == 0 && open == open_of(a) | open_of(b),
        4 => label < 16 && earlier(a) && earlier(b) && c == 0 && open == open_cat(label, open_of(a), open_of(b)),
        5 => label < 16 && earlier(a) && b | c == 0 && open == open_of(a) | 1 << label,
        _ => false,
    }
}

#[inline(always)]
fn open_cat(state: u32, left: u32, right: u32) -> u32 {
    if left >> state & 1 == 0 {
        left
    } else {
        left & !(1 << state) | right
    }
}

/// How many children a node of a sound table has.
#[inline(always)]
fn children(six: &[u32]) -> usize {
    match six[0] {
        2 => (six[1] >> 8) as usize & 3,
        3 | 4 => 2,
        5 => 1,
        _ => 0,
    }
}

pub fn measure(words: &[u32], count: usize, answer: usize, scratch: &mut [u32]) -> (u8, u32) {
    if !is_sound(words, count, answer) {
        return (NOT_SOUND, 0);
    }
    let Some(sizes) = scratch.get_mut(..count) else {
        return (TOO_SHORT, 0);
    };
    for (number, six) in words.chunks_exact(6).take(count).enumerate() {
        let mut size = 1u32;
        for &child in &six[2..2 + children(six)] {
            size = size.saturating_add(sizes[child as usize]);
        }
        sizes[number] = size;
    }
    (DONE, sizes[answer])
}

#[inline(always)]
fn digits(number: u32) -> usize {
    match number {
        0..=9 => 1,
        10..=99 => 2,
        100..=999 => 3,
        _ => 4,
    }
}

const NAMES: [&[u8]; 6] = [b" empty", b" hole ", b" symbol ", b" alt", b" cat ", b" iter "];

/// The label that is printed, where one is.
#[inline(always)]
fn printed_label(six: &[u32]) -> Option<u32> {
    match six[0] {
        0 | 3 => None,
        2 => Some(six[1] & 255),
        _ => Some(six[1]),
    }
}

fn listing_length(words: &[u32], count: usize, answer: usize) -> usize {
    let mut length = 8 + digits(answer as u32);
    for (number, six) in words.chunks_exact(6).take(count).enumerate() {
        length += digits(number as u32) + NAMES[six[0] as usize % 6].len() + 1;
        length += printed_label(six).map_or(0, digits);
        for &child in &six[2..2 + children(six)] {
            length += 1 + digits(child);
        }
    }
    length
}

/// Bytes written one after the other.
struct Pen<'a> {
    out: &'a mut [u8],
    at: usize,
}

impl Pen<'_> {
    #[inline(always)]
    fn text(&mut self, text: &[u8]) {
        self.out[self.at..self.at + text.len()].copy_from_slice(text);
        self.at += text.len();
    }

    #[inline(always)]
    fn number(&mut self, mut number: u32) {
        let digits = digits(number);
        for place in (0..digits).rev() {
            self.out[self.at + place] = b'0' + (number % 10) as u8;
            number /= 10;
        }
        self.at += digits;
    }
}

pub fn list(words: &[u32], count: usize, answer: usize, out: &mut [u8]) -> (u8, usize) {
    if !is_sound(words, count, answer) {
        return (NOT_SOUND, 0);
    }
    let length = listing_length(words, count, answer);
    if out.len() < length {
        return (TOO_SHORT, 0);
    }
    let mut pen = Pen { out, at: 0 };
    for (number, six) in words.chunks_exact(6).take(count).enumerate() {
        pen.number(number as u32);
        pen.text(NAMES[six[0] as usize % 6]);
        if let Some(label) = printed_label(six) {
            pen.number(label);
        }
        for &child in &six[2..2 + children(six)] {
            pen.text(b" ");
            pen.number(child);
        }
        pen.text(b"\n");
    }
    pen.text(b"answer ");
    pen.number(answer as u32);
    pen.text(b"\n");
    (DONE, length)
}

/// The digits of 0 to 99, two bytes each.
const PAIRS: [u8; 200] = {
    let mut pairs = [b'0'; 200];
    let mut number = 0;
    while number < 100 {
        pairs[2 * number] += (number / 10) as u8;
        pairs[2 * number + 1] += (number % 10) as u8;
        number += 1;
    }
    pairs
};

/// Two digits at a time, from the right.
pub fn put_number(out: &mut [u8], at: usize, n: u64) -> usize {
    let digits = n.checked_ilog10().unwrap_or(0) as usize + 1;
    let end = at.saturating_add(digits);
    let Some(out) = out.get_mut(at..end) else {
        return at;
    };
    let (mut left, mut place) = (n, digits);
    while place >= 2 {
        place -= 2;
        let pair = 2 * (left % 100) as usize;
        out[place..place + 2].copy_from_slice(&PAIRS[pair..pair + 2]);
        left /= 100;
    }
    if place == 1 {
        out[0] = b'0' + left as u8;
    }
    end
}

/// There was no room for a node.
struct Full;

/// Nodes written straight to the lent words, and the list.
struct Desk<'a> {
    words: &'a mut [u32],
    room: usize,
    count: usize,
    nodes: [u16; LIST_PLACES],
    targets: [u8; LIST_PLACES],
    rows: usize,
}

impl Desk<'_> {
    #[inline(always)]
    fn put(&mut self, six: [u32; 6]) -> Result<u32, Full> {
        if self.count >= self.room {
            return Err(Full);
        }
        self.words[6 * self.count..6 * self.count + 6].copy_from_slice(&six);
        self.count += 1;
        Ok(self.count as u32 - 1)
    }

    #[inline(always)]
    fn open(&self, node: u32) -> u32 {
        self.words[6 * node as usize + 5]
    }

    #[inline(always)]
    fn push(&mut self, node: u32, target: u8) {
        self.nodes[self.rows] = node as u16;
        self.targets[self.rows] = target;
        self.rows += 1;
    }

    fn start(&mut self, value: &Value) -> Result<(), Full> {
        self.put([0; 6])?;
        for state in 0..value.states as u32 {
            self.put([1, state, 0, 0, 0, 1 << state])?;
        }
        for row in &value.rows[..value.count as usize] {
            let arity = value.arities[row.symbol as usize & 31];
            let mut six = [2, row.symbol as u32 + 256 * arity as u32, 0, 0, 0, 0];
            for (child, &source) in six[2..5].iter_mut().zip(&row.sources[..arity as usize]) {
                *child = 1 + source as u32;
            }
            six[5] = mask_of(row, arity) as u32;
            let node = self.put(six)?;
            self.push(node, row.target);
        }
        for state in (0..16).filter(|state| value.finals >> state & 1 == 1) {
            self.push(1 + state, FINAL);
        }
        Ok(())
    }

    /// Node 0 is the only empty node, so a node is empty where its number is 0.
    #[inline(always)]
    fn alt(&mut self, left: u32, right: u32) -> Result<u32, Full> {
        if left == 0 {
            return Ok(right);
        }
        if right == 0 {
            return Ok(left);
        }
        self.put([3, 0, left, right, 0, self.open(left) | self.open(right)])
    }

    #[inline(always)]
    fn cat(&mut self, state: u32, left: u32, right: u32) -> Result<u32, Full> {
        if left == 1 + state {
            return Ok(right);
        }
        self.put([4, state, left, right, 0, open_cat(state, self.open(left), self.open(right))])
    }

    /// Joins the rows toward a state that have it open, or not open.
    fn join_toward(&mut self, state: u32, open: u32) -> Result<u32, Full> {
        let mut joined = 0;
        for place in 0..self.rows {
            let node = self.nodes[place] as u32;
            if self.targets[place] as u32 == state && self.open(node) >> state & 1 == open {
                joined = self.alt(joined, node)?;
            }
        }
        Ok(joined)
    }

    fn eliminate(&mut self, state: u32) -> Result<(), Full> {
        let a = self.join_toward(state, 1)?;
        let i = if a == 0 { 1 + state } else { self.put([5, state, a, 0, 0, self.open(a) | 1 << state])? };
        let b = self.join_toward(state, 0)?;
        let x = self.cat(state, i, b)?;
        let rows = std::mem::take(&mut self.rows);
        for place in 0..rows {
            let (mut node, target) = (self.nodes[place] as u32, self.targets[place]);
            if target as u32 != state {
                if self.open(node) >> state & 1 == 1 {
                    node = self.cat(state, node, x)?;
                }
                self.push(node, target);
            }
        }
        Ok(())
    }

    fn steps(&mut self, value: &Value, k: u32) -> Result<(), Full> {
        self.start(value)?;
        (0..k).try_for_each(|state| self.eliminate(state))
    }

    fn join_rows(&mut self) -> Result<u32, Full> {
        let mut joined = 0;
        for place in 0..self.rows {
            joined = self.alt(joined, self.nodes[place] as u32)?;
        }
        Ok(joined)
    }
}

fn desk(words: &mut [u32]) -> Desk<'_> {
    let room = words.len() / 6;
    Desk { words, room, count: 0, nodes: [0; LIST_PLACES], targets: [0; LIST_PLACES], rows: 0 }
}

pub fn convert_partly(file: &[u8], k: u32, words: &mut [u32]) -> Partly {
    let refused = |refusal| Partly { refusal, nodes: 0, rows: 0, list: [Place::default(); LIST_PLACES] };
    let mut value = Value::ZERO;
    let number = read_into(file, &mut value);
    if number != DONE {
        return refused(number);
    }
    if k > value.states as u32 {
        return refused(TOO_MANY_STEPS);
    }
    let mut desk = desk(words);
    if desk.steps(&value, k).is_err() {
        desk.words.fill(0);
        return refused(TOO_SHORT);
    }
    let mut answer = Partly { nodes: desk.count, rows: desk.rows, ..refused(DONE) };
    for place in 0..desk.rows {
        let node = desk.nodes[place];
        let waits = desk.open(node as u32).count_ones() as u8;
        answer.list[place] = Place { node, target: desk.targets[place], waits };
    }
    answer
}

pub fn convert(file: &[u8], words: &mut [u32]) -> Wholly {
    let mut value = Value::ZERO;
    let refusal = read_into(file, &mut value);
    if refusal != DONE {
        return Wholly { refusal, nodes: 0, answer: 0 };
    }
    let mut desk = desk(words);
    match desk.steps(&value, value.states as u32).and_then(|()| desk.join_rows()) {
        Ok(answer) => Wholly { refusal: DONE, nodes: desk.count, answer: answer as usize },
        Err(Full) => {
            desk.words.fill(0);
            Wholly { refusal: TOO_SHORT, nodes: 0, answer: 0 }
        }
    }
}
