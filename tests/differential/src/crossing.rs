//! Between the library's types, which are those of its doors, and the independent program's own.

use independent::automaton::{Value, ValueRow};
use independent::elimination::{self, Place};
use independent::trees::Reached;

/// An answer of the library, said in the types of the independent program.
pub trait Plain {
    type As;
    fn plain(self) -> Self::As;
}

impl Plain for library::Refusal {
    type As = u8;
    fn plain(self) -> u8 {
        self.number
    }
}

impl Plain for library::Automaton {
    type As = Value;
    fn plain(self) -> Value {
        let row = |row: library::Row| ValueRow { symbol: row.symbol, target: row.target, sources: row.sources };
        Value {
            states: self.states,
            finals: self.finals.0,
            symbols: self.symbols,
            arities: self.arities,
            count: self.count,
            rows: self.rows.map(row),
        }
    }
}

impl Plain for library::Reading {
    type As = (u8, Value);
    fn plain(self) -> (u8, Value) {
        (self.refusal.number, self.automaton.plain())
    }
}

impl Plain for library::Writing {
    type As = (u8, usize);
    fn plain(self) -> (u8, usize) {
        (self.refusal.number, self.length)
    }
}

impl Plain for library::ReachedStates {
    type As = Reached;
    fn plain(self) -> Reached {
        Reached { refusal: self.refusal.number, states: self.states.0, yes: self.yes }
    }
}

impl Plain for library::ProductiveStates {
    type As = (u8, u16);
    fn plain(self) -> (u8, u16) {
        (self.refusal.number, self.states.0)
    }
}

/// The six words.
impl Plain for library::Node {
    type As = [u32; 6];
    fn plain(self) -> [u32; 6] {
        let library::Shape { kind, label, first, second, third } = self.shape;
        [kind, label, first, second, third, self.opens]
    }
}

impl Plain for library::Measured {
    type As = (u8, u32);
    fn plain(self) -> (u8, u32) {
        (self.refusal.number, self.size)
    }
}

impl Plain for library::Listed {
    type As = (u8, usize);
    fn plain(self) -> (u8, usize) {
        (self.refusal.number, self.length)
    }
}

impl Plain for library::Partly {
    type As = elimination::Partly;
    fn plain(self) -> elimination::Partly {
        elimination::Partly {
            refusal: self.refusal.number,
            nodes: self.nodes,
            rows: self.rows,
            list: self.list.map(|row| Place { node: row.node, target: row.target, waits: row.waits }),
        }
    }
}

impl Plain for library::Wholly {
    type As = elimination::Wholly;
    fn plain(self) -> elimination::Wholly {
        elimination::Wholly { refusal: self.refusal.number, nodes: self.nodes, answer: self.answer }
    }
}

impl Plain for library::Printing {
    type As = (u8, usize);
    fn plain(self) -> (u8, usize) {
        (self.refusal.number, self.length)
    }
}

/// A value in the form that crosses the door.
pub fn automaton(value: &Value) -> library::Automaton {
    let row = |row: ValueRow| library::Row { symbol: row.symbol, target: row.target, sources: row.sources };
    library::Automaton {
        states: value.states,
        finals: library::StateSet(value.finals),
        symbols: value.symbols,
        arities: value.arities,
        count: value.count,
        rows: value.rows.map(row),
    }
}

/// Kind, label and children in the form that crosses the door.
pub fn shape(kind: u32, label: u32, [first, second, third]: [u32; 3]) -> library::Shape {
    library::Shape { kind, label, first, second, third }
}
