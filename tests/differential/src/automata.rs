//! Random automata of many shapes.

use crate::random::Random;
use independent::automaton::{Automaton, Row};

/// Bounds within which an automaton is drawn.
struct Bounds {
    states: (usize, usize),
    symbols: (usize, usize),
    rows: (usize, usize),
}

fn bounds(random: &mut Random) -> Bounds {
    match random.below(16) {
        0..=5 => Bounds { states: (1, 3), symbols: (1, 4), rows: (0, 6) },
        6..=9 => Bounds { states: (1, 5), symbols: (1, 6), rows: (0, 14) },
        10..=11 => Bounds { states: (2, 10), symbols: (1, 12), rows: (4, 32) },
        12 => Bounds { states: (1, 16), symbols: (1, 32), rows: (0, 64) },
        13 => Bounds { states: (16, 16), symbols: (32, 32), rows: (64, 64) },
        14 => Bounds { states: (1, 16), symbols: (1, 1), rows: (1, 40) },
        _ => Bounds { states: (10, 16), symbols: (1, 8), rows: (0, 8) },
    }
}

/// An automaton of any shape.
pub fn automaton(random: &mut Random) -> Automaton {
    if random.once_in(60) {
        return with_many_nodes(random);
    }
    let bounds = bounds(random);
    let states = random.between(bounds.states.0, bounds.states.1);
    let symbols = random.between(bounds.symbols.0, bounds.symbols.1);
    let rows = random.between(bounds.rows.0, bounds.rows.1);
    let arities = arities(random, symbols);
    with_rows(random, states, arities, rows)
}

/// Sixteen states and 64 rows, such that a conversion makes very many nodes: every row waits for state 0, and each state has a row from
/// the next two, so that what replaces its hole opens those. So all rows that are left stay open at every step.
fn with_many_nodes(random: &mut Random) -> Automaton {
    let mut rows: Vec<Row> =
        (0..16).map(|target| Row { symbol: 0, target, sources: vec![0, (target + 1).min(15), (target + 2).min(15)] }).collect();
    while rows.len() < 64 {
        let (one, other) = (random.below(16), random.below(3));
        rows.push(Row { symbol: 0, target: 15, sources: vec![0, one, other] });
    }
    let finals = if random.once_in(3) { random.next() as u16 } else { u16::MAX };
    Automaton { states: 16, finals, arities: vec![3, 0], rows }
}

/// A small automaton, for meanings by brute force; in most cases one whose trees begin somewhere and may end in a final state.
pub fn small(random: &mut Random) -> Automaton {
    let states = random.pick(&[1, 2, 2, 3, 3, 4, 6]);
    let symbols = random.between(1, 4);
    let rows = random.between(1, 10);
    let mut arities = arities(random, symbols);
    let likely = !random.once_in(6);
    if likely {
        arities[0] = 0;
    }
    let mut automaton = with_rows(random, states, arities, rows);
    if likely {
        automaton.rows[0] = Row { symbol: 0, target: random.below(states), sources: vec![] };
        automaton.finals |= 1 << random.below(states);
    }
    automaton
}

/// With rows drawn in one of several manners, and final states: none, all, the last, or any.
fn with_rows(random: &mut Random, states: usize, arities: Vec<usize>, count: usize) -> Automaton {
    let manner = random.below(5);
    let mut rows: Vec<Row> = Vec::new();
    for place in 0..count {
        let row = match manner {
            0 if place > 0 && random.once_in(3) => rows[random.below(place)].clone(),
            1 => upward(random, states, &arities),
            2 => chained(random, states, &arities, place),
            _ => any_row(random, states, &arities),
        };
        rows.push(row);
    }
    Automaton { states, finals: finals(random, states), arities, rows }
}

fn arities(random: &mut Random, symbols: usize) -> Vec<usize> {
    match random.below(6) {
        0 => (0..symbols).map(|place| place % 4).collect(),
        1 => (0..symbols).map(|_| random.below(2)).collect(),
        2 => (0..symbols).map(|_| random.between(1, 3)).collect(),
        _ => (0..symbols).map(|_| random.pick(&[0, 0, 1, 2, 2, 3])).collect(),
    }
}

fn finals(random: &mut Random, states: usize) -> u16 {
    let all = ((1u32 << states) - 1) as u16;
    match random.below(6) {
        0 => 0,
        1 => all,
        2 => 1 << (states - 1),
        _ => random.next() as u16 & all,
    }
}

fn any_row(random: &mut Random, states: usize, arities: &[usize]) -> Row {
    let symbol = random.below(arities.len());
    let sources = (0..arities[symbol]).map(|_| random.below(states)).collect();
    Row { symbol, target: random.below(states), sources }
}

/// A row whose sources lie below its target where they can: no loops, and many states that nothing reaches.
fn upward(random: &mut Random, states: usize, arities: &[usize]) -> Row {
    let mut row = any_row(random, states, arities);
    for source in &mut row.sources {
        *source %= row.target.max(1);
    }
    row
}

/// The row of a chain: from the state before to the state at its own place.
fn chained(random: &mut Random, states: usize, arities: &[usize], place: usize) -> Row {
    let mut row = any_row(random, states, arities);
    row.target = place % states;
    row.sources.iter_mut().for_each(|source| *source = (place + states - 1) % states);
    row
}
