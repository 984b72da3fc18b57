//! Sets of states [2.7 to 2.10]. A number of 16 or more is no state: it is in no set, and taking it out changes nothing [2.9].

/// Bit i stands for state i [2.7].
pub type States = u16;

pub const WIDTH: u32 = 16;

pub fn empty() -> States {
    0
}

pub fn one(state: u32) -> States {
    if state < WIDTH {
        1 << state
    } else {
        empty()
    }
}

/// The states whose bits are set among the low sixteen of a word [2.10].
pub fn of_word(word: u32) -> States {
    (0..WIDTH).filter(|&state| (word >> state) % 2 == 1).fold(empty(), |set, state| union(set, one(state)))
}

pub fn union(a: States, b: States) -> States {
    a | b
}

pub fn has(a: States, state: u32) -> bool {
    state < WIDTH && (a >> state) % 2 == 1
}

/// Is some member no smaller than this number [2.8]?
pub fn past(a: States, count: u8) -> bool {
    members(a).any(|state| state >= count as u32)
}

pub fn without(a: States, state: u32) -> States {
    members(a).filter(|&s| s != state).fold(empty(), |set, s| union(set, one(s)))
}

pub fn count(a: States) -> u32 {
    members(a).count() as u32
}

/// The states of a set, ascending.
pub fn members(a: States) -> impl Iterator<Item = u32> {
    (0..WIDTH).filter(move |&s| has(a, s))
}
