//! The automaton as a value, in two forms: one with arrays of fixed length, as the reader and the writer have it, and one that says only
//! what counts.

use crate::sets::{self, States};

// The limits [2.1, 2.3, 2.4].
pub const MOST_STATES: usize = 16;
pub const MOST_SYMBOLS: usize = 32;
pub const MOST_ROWS: usize = 64;
pub const MOST_ARITY: usize = 3;

/// What an automaton is: nothing in it is unused.
#[derive(Clone, PartialEq, Eq, Debug)]
pub struct Automaton {
    pub states: usize,
    pub finals: States,
    /// One arity for each symbol.
    pub arities: Vec<usize>,
    pub rows: Vec<Row>,
}

#[derive(Clone, PartialEq, Eq, Debug)]
pub struct Row {
    pub symbol: usize,
    pub target: usize,
    /// As many as the symbol's arity, left to right.
    pub sources: Vec<usize>,
}

/// A value as the writer takes it and the reader gives it [3.18]. Not every place of its arrays counts: the writer passes over those that
/// no count and no arity reaches, and in what is read they are 0 [3.19].
#[derive(Clone, Copy, PartialEq, Eq, Debug)]
pub struct Value {
    pub states: u8,
    pub finals: u16,
    pub symbols: u8,
    pub arities: [u8; MOST_SYMBOLS],
    pub count: u8,
    pub rows: [ValueRow; MOST_ROWS],
}

#[derive(Clone, Copy, PartialEq, Eq, Debug, Default)]
pub struct ValueRow {
    pub symbol: u8,
    pub target: u8,
    pub sources: [u8; MOST_ARITY],
}

impl Value {
    pub const ZERO: Value = Value {
        states: 0,
        finals: 0,
        symbols: 0,
        arities: [0; MOST_SYMBOLS],
        count: 0,
        rows: [ValueRow { symbol: 0, target: 0, sources: [0; MOST_ARITY] }; MOST_ROWS],
    };
}

impl Automaton {
    /// Does a state stand in the set of final states?
    pub fn is_final(&self, state: usize) -> bool {
        sets::has(self.finals, state as u32)
    }

    /// The value with every unused place 0.
    pub fn to_value(&self) -> Value {
        let mut value = Value::ZERO;
        value.states = self.states as u8;
        value.finals = self.finals;
        value.symbols = self.arities.len() as u8;
        for (place, &arity) in self.arities.iter().enumerate() {
            value.arities[place] = arity as u8;
        }
        value.count = self.rows.len() as u8;
        for (place, row) in self.rows.iter().enumerate() {
            value.rows[place].symbol = row.symbol as u8;
            value.rows[place].target = row.target as u8;
            for (source, &state) in row.sources.iter().enumerate() {
                value.rows[place].sources[source] = state as u8;
            }
        }
        value
    }

    /// What a value says, or nothing where no file can hold it. Only places that count are looked at [3.21].
    pub fn from_value(value: &Value) -> Option<Automaton> {
        let states = value.states as usize;
        let symbols = value.symbols as usize;
        let count = value.count as usize;
        let counts_fit = (1..=MOST_STATES).contains(&states) && (1..=MOST_SYMBOLS).contains(&symbols) && count <= MOST_ROWS;
        if !counts_fit || sets::members(value.finals).any(|state| state as usize >= states) {
            return None;
        }
        let arities: Vec<usize> = value.arities[..symbols].iter().map(|&arity| arity as usize).collect();
        if arities.iter().any(|&arity| arity > MOST_ARITY) {
            return None;
        }
        let rows: Option<Vec<Row>> = value.rows[..count].iter().map(|row| row_from(row, states, &arities)).collect();
        Some(Automaton { states, finals: value.finals, arities, rows: rows? })
    }
}

fn row_from(row: &ValueRow, states: usize, arities: &[usize]) -> Option<Row> {
    let arity = *arities.get(row.symbol as usize)?;
    let sources: Vec<usize> = row.sources[..arity].iter().map(|&state| state as usize).collect();
    let target = row.target as usize;
    if target >= states || sources.iter().any(|&state| state >= states) {
        return None;
    }
    Some(Row { symbol: row.symbol as usize, target, sources })
}
