//! Timing three ways of doing one thing, in turns.

use std::hint::black_box;
use std::time::{Duration, Instant};

/// Turns that each way is timed in; the median of them counts.
const TURNS: usize = 41;
/// About how long one turn takes.
const TURN: Duration = Duration::from_micros(400);

/// Nanoseconds a call, of the three ways, and the ratios. A ratio is taken turn by turn, of times that lie next to each other, so that
/// a slower hour of the machine falls out of it; each number is the median of its own.
#[derive(Clone, Copy, Debug)]
pub struct Times {
    pub proved: f64,
    pub plain: f64,
    pub tuned: f64,
    pub to_plain: f64,
    pub to_tuned: f64,
}

/// Times three ways in turns, in an order that changes, so that what else the machine does falls on all of them alike.
pub fn times<A, B, C>(mut proved: impl FnMut() -> A, mut plain: impl FnMut() -> B, mut tuned: impl FnMut() -> C) -> Times {
    let calls = [calls_a_turn(&mut proved), calls_a_turn(&mut plain), calls_a_turn(&mut tuned)];
    let mut seen: [Vec<f64>; 3] = Default::default();
    for turn in 0..TURNS {
        for step in 0..3 {
            let way = (turn + step) % 3;
            let nanos = match way {
                0 => turn_of(&mut proved, calls[0]),
                1 => turn_of(&mut plain, calls[1]),
                _ => turn_of(&mut tuned, calls[2]),
            };
            seen[way].push(nanos);
        }
    }
    let ratios = |others: &[f64]| median(seen[0].iter().zip(others).map(|(proved, other)| proved / other).collect());
    let (to_plain, to_tuned) = (ratios(&seen[1]), ratios(&seen[2]));
    let [proved, plain, tuned] = seen.map(median);
    Times { proved, plain, tuned, to_plain, to_tuned }
}

fn turn_of<A>(call: &mut impl FnMut() -> A, calls: usize) -> f64 {
    let start = Instant::now();
    for _ in 0..calls {
        black_box(call());
    }
    start.elapsed().as_nanos() as f64 / calls as f64
}

fn calls_a_turn<A>(call: &mut impl FnMut() -> A) -> usize {
    let mut calls = 1;
    loop {
        let start = Instant::now();
        for _ in 0..calls {
            black_box(call());
        }
        if start.elapsed() >= TURN || calls >= 1 << 20 {
            return calls;
        }
        calls *= 2;
    }
}

pub fn median(mut numbers: Vec<f64>) -> f64 {
    numbers.sort_by(f64::total_cmp);
    numbers[numbers.len() / 2]
}
