//! Random trees as prefix words, good and bad.

use crate::random::Random;
use independent::automaton::Automaton;

/// Words for a run.
pub fn words(random: &mut Random, automaton: &Automaton) -> Vec<u16> {
    let mut words = match random.below(600) {
        0..=1 => long(random, automaton),
        2..=20 => {
            let most = random.pick(&[100, 300]);
            grown(random, automaton, most)
        }
        21..=60 => (0..random.below(6)).map(|_| random.below(automaton.arities.len() + 1) as u16).collect(),
        _ => {
            let most = random.between(1, 24);
            grown(random, automaton, most)
        }
    };
    if random.once_in(4) {
        spoil(random, automaton, &mut words);
    }
    words
}

/// A tree grown from a final state by the rows, so that it is often accepted; past `most` symbols leaves are taken where there are
/// any. Cut off where it does not end.
fn grown(random: &mut Random, automaton: &Automaton, most: usize) -> Vec<u16> {
    let mut words = Vec::new();
    let mut wanted = vec![random.below(automaton.states)];
    while let Some(state) = wanted.pop() {
        let toward = |leaf: bool| {
            let fits = move |row: &&independent::automaton::Row| row.target == state && (!leaf || row.sources.is_empty());
            automaton.rows.iter().filter(fits).collect::<Vec<_>>()
        };
        let full = words.len() + wanted.len() >= most;
        let mut rows = toward(full);
        if rows.is_empty() && !full {
            rows = toward(false);
        }
        if rows.is_empty() || random.once_in(20) {
            let symbol = any_symbol(random, automaton, full);
            words.push(symbol as u16);
            wanted.extend((0..automaton.arities[symbol]).map(|_| random.below(automaton.states)));
        } else {
            let row = random.pick(&rows);
            words.push(row.symbol as u16);
            wanted.extend(row.sources.iter().rev());
        }
        if words.len() > 2 * most + 20 {
            break;
        }
    }
    words
}

fn any_symbol(random: &mut Random, automaton: &Automaton, leaf: bool) -> usize {
    let leaves: Vec<usize> = (0..automaton.arities.len()).filter(|&symbol| automaton.arities[symbol] == 0).collect();
    if leaf && !leaves.is_empty() {
        random.pick(&leaves)
    } else {
        random.below(automaton.arities.len())
    }
}

/// A tree of about 4,096 symbols: a little fewer, exactly as many, or one more.
fn long(random: &mut Random, automaton: &Automaton) -> Vec<u16> {
    let size = random.pick(&[4000, 4095, 4096, 4096, 4096, 4097, 4097, 5000]);
    let by_arity: Vec<Vec<u16>> = (0..4)
        .map(|arity| {
            (0..automaton.arities.len())
                .filter(|&symbol| automaton.arities[symbol] == arity)
                .map(|symbol| symbol as u16)
                .collect()
        })
        .collect();
    let mut words = Vec::new();
    let mut open = 1;
    while open > 0 {
        let room = size - (words.len() + open).min(size);
        let fits = |arity: usize| !by_arity[arity].is_empty() && arity <= room && (arity > 0 || open > 1 || room == 0);
        let arities: Vec<usize> = (0..4).filter(|&arity| fits(arity)).collect();
        if arities.is_empty() {
            break;
        }
        let arity = random.pick(&arities);
        words.push(random.pick(&by_arity[arity]));
        open += arity;
        open -= 1;
    }
    words
}

/// Makes words that are no tree, for the most part.
fn spoil(random: &mut Random, automaton: &Automaton, words: &mut Vec<u16>) {
    let symbols = automaton.arities.len();
    match random.below(6) {
        0 => words.truncate(random.below(words.len() + 1)),
        1 => words.push(random.below(symbols + 1) as u16),
        2 => words.clear(),
        _ if words.is_empty() => words.push(random.next() as u16),
        3 => {
            let place = random.below(words.len());
            words[place] = random.below(symbols) as u16;
        }
        _ => {
            let place = random.below(words.len());
            words[place] = random.pick(&[symbols as u16, 31, 32, 255, 256, 65535, words[place] ^ 256]);
        }
    }
}
