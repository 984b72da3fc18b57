//! Each entry of the proved library beside the independent program on random cases: every number and every cell of every lent buffer.

use differential::cases::{self, refusal, Outcome, DEFAULT_CASES};
use differential::crossing::{self, Plain};
use differential::lent::{Buffer, Lent};
use differential::random::Random;
use differential::{automata, both, files, tables, words};
use independent::automaton::{Automaton, Value, ValueRow};
use independent::table::WORDS_A_NODE;
use independent::{elimination, file, listing, printed, table, trees};

const FILE_OUTCOMES: [Outcome; 6] = ["done", "refused 1", "refused 2", "refused 3", "refused 4", "refused 5"];

/// The outcomes of an entry that takes a file, with more of its own.
fn file_outcomes(more: &[Outcome]) -> Vec<Outcome> {
    FILE_OUTCOMES.iter().chain(more).copied().collect()
}

#[test]
fn read() {
    cases::run("read", DEFAULT_CASES, &FILE_OUTCOMES, |random| {
        let bytes = files::file(random, 4);
        let found = both::read(&Lent::holding(random, &bytes));
        if found.0 == 0 {
            let mut again = vec![0; bytes.len()];
            let written = library::write(crossing::automaton(&found.1), &mut again).plain();
            assert_eq!(written, (0, bytes.len()), "what was read, written");
            assert_eq!(again, bytes, "what was read, written");
        }
        refusal(found.0)
    });
}

/// A value: of a valid automaton with anything in its unused places, then perhaps with one thing out of range.
fn value(random: &mut Random) -> Value {
    if random.once_in(20) {
        return noise_value(random);
    }
    let mut value = automata::automaton(random).to_value();
    let noise = noise_value(random);
    let (symbols, count) = (value.symbols as usize, value.count as usize);
    value.arities[symbols..].copy_from_slice(&noise.arities[symbols..]);
    value.rows[count..].copy_from_slice(&noise.rows[count..]);
    for place in 0..count {
        let arity = value.arities[value.rows[place].symbol as usize] as usize;
        value.rows[place].sources[arity..].copy_from_slice(&noise.rows[place].sources[arity..]);
    }
    if random.once_in(4) {
        spoil_value(random, &mut value);
    }
    value
}

fn noise_value(random: &mut Random) -> Value {
    let mut value = Value::ZERO;
    value.states = random.next() as u8 % 20;
    value.finals = random.next() as u16;
    value.symbols = random.next() as u8;
    value.count = random.next() as u8;
    value.arities = std::array::from_fn(|_| random.next() as u8);
    value.rows = std::array::from_fn(|_| ValueRow {
        symbol: random.next() as u8,
        target: random.next() as u8,
        sources: std::array::from_fn(|_| random.next() as u8),
    });
    value
}

fn spoil_value(random: &mut Random, value: &mut Value) {
    let row = random.below(value.count.max(1) as usize);
    match random.below(8) {
        0 => value.states = random.pick(&[0, 1, 17, 255]),
        1 => value.finals |= 1 << random.below(16),
        2 => value.symbols = random.pick(&[0, 1, 33, 255]),
        3 => value.arities[random.below(value.symbols as usize)] = random.pick(&[0, 3, 4, 255]),
        4 => value.count = random.pick(&[0, 64, 65, 255]),
        5 => value.rows[row].symbol = random.pick(&[value.symbols, 31, 32, 255]),
        6 => value.rows[row].target = random.pick(&[value.states, 15, 16, 255]),
        _ => value.rows[row].sources[random.below(3)] = random.pick(&[value.states, 16, 255]),
    }
}

#[test]
fn write() {
    cases::run("write", DEFAULT_CASES, &["done", "refused 4", "refused 6"], |random| {
        let value = value(random);
        let length = Automaton::from_value(&value).map_or(60, |automaton| file::file_of(&automaton).len());
        let length = random.near(length);
        let mut lent = Lent::<u8>::patterned(random, length);
        let found = both::write(&value, &mut lent);
        if found.0 == 0 {
            let (number, again) = library::read(&lent.cells()[..found.1]).plain();
            let said = Automaton::from_value(&value).map(|automaton| automaton.to_value());
            assert_eq!((number, Some(again)), (0, said), "what was written, read");
        }
        refusal(found.0)
    });
}

#[test]
fn run() {
    let outcomes = file_outcomes(&["refused 7", "done, yes", "done, of 4096 symbols", "refused 7, a tree of 4097 symbols"]);
    cases::run("run", DEFAULT_CASES, &outcomes, |random| {
        let automaton = automata::automaton(random);
        let bytes = if random.once_in(5) { files::file(random, 0) } else { file::file_of(&automaton) };
        let words = words::words(random, &automaton);
        let found = both::run(&Lent::holding(random, &bytes), &Lent::holding(random, &words));
        match found.refusal {
            0 if words.len() == 4096 => "done, of 4096 symbols",
            0 if found.yes => "done, yes",
            7 if words.len() == 4097 && trees::tree_of_any_size(&words, &automaton.arities).is_some() => {
                "refused 7, a tree of 4097 symbols"
            }
            number => refusal(number),
        }
    });
}

#[test]
fn productive() {
    let outcomes = file_outcomes(&["done, all states", "done, no state"]);
    cases::run("productive", DEFAULT_CASES, &outcomes, |random| {
        let bytes = files::file(random, 7);
        match both::productive(&Lent::holding(random, &bytes)) {
            (0, 0) => "done, no state",
            (0, states) if states.count_ones() as u8 == bytes[4] => "done, all states",
            (number, _) => refusal(number),
        }
    });
}

#[test]
fn is_sound() {
    cases::run("is_sound", DEFAULT_CASES, &["yes", "no", "yes, of 4096 nodes", "no, of 4097 nodes"], |random| {
        let table = tables::table(random, 4);
        match both::is_sound(&Lent::holding(random, &table.words), table.count, table.answer) {
            true if table.count == 4096 => "yes, of 4096 nodes",
            true => "yes",
            false if table.count == 4097 && table.words.len() >= WORDS_A_NODE * 4097 => "no, of 4097 nodes",
            false => "no",
        }
    });
}

#[test]
fn make() {
    cases::run("make", DEFAULT_CASES, &["done", "refused 6", "refused 8", "done, node 4095"], |random| {
        let (count, mut words) = table_for_make(random);
        let (kind, label, children) = tables::node_words(random, count);
        let room = WORDS_A_NODE * (nodes_before(count) + 1);
        let length = match random.below(4) {
            0 => random.near(room),
            _ => room + random.below(14),
        };
        let mut more = Random::new(random.next());
        words.resize_with(length, || more.number());
        match both::make(&mut Lent::holding(random, &words), count, kind, label, children) {
            0 if count == 4095 => "done, node 4095",
            number => refusal(number),
        }
    });
}

/// How many nodes stand in the words for a count; a huge one has a small table.
fn nodes_before(count: usize) -> usize {
    if count > 4097 {
        16
    } else {
        count
    }
}

/// A count and the words before it: a sound table, or anything at all.
fn table_for_make(random: &mut Random) -> (usize, Vec<u32>) {
    let count = match random.below(200) {
        0 if random.once_in(2) => random.pick(&[4094, 4095, 4095, 4096, 4097]),
        1..=10 => random.huge(),
        11..=30 => 0,
        _ => random.between(1, 16),
    };
    let nodes = nodes_before(count);
    let words = match random.below(8) {
        0 => (0..WORDS_A_NODE * nodes).map(|_| random.number()).collect(),
        _ => table::words_of_table(&tables::nodes_of_count(random, nodes)),
    };
    (count, words)
}

#[test]
fn measure() {
    cases::run("measure", DEFAULT_CASES, &["done", "refused 6", "refused 8", "done, held"], |random| {
        let table = tables::table(random, 8);
        let length = random.near(table.count.min(5000));
        let mut scratch = Lent::<u32>::patterned(random, length);
        match both::measure(&Lent::holding(random, &table.words), table.count, table.answer, &mut scratch) {
            (0, u32::MAX) => "done, held",
            (number, _) => refusal(number),
        }
    });
}

#[test]
fn list() {
    cases::run("list", DEFAULT_CASES, &["done", "refused 6", "refused 8", "done, of 4096 nodes"], |random| {
        let table = tables::table(random, 8);
        let nodes = table::sound_nodes(&table.words, table.count, table.answer);
        let length = random.near(nodes.map_or(40, |nodes| listing::listing(&nodes, table.answer).len()));
        let mut out = Lent::<u8>::patterned(random, length);
        match both::list(&Lent::holding(random, &table.words), table.count, table.answer, &mut out) {
            (0, _) if table.count == 4096 => "done, of 4096 nodes",
            (number, _) => refusal(number),
        }
    });
}

/// Words to lend where so many nodes are made.
fn room(random: &mut Random, nodes: usize) -> Lent<u32> {
    let length = random.near(WORDS_A_NODE * nodes);
    Lent::patterned(random, length)
}

#[test]
fn convert_partly() {
    let outcomes = file_outcomes(&["refused 6", "refused 9", "done, all states"]);
    cases::run("convert_partly", DEFAULT_CASES, &outcomes, |random| {
        let bytes = files::file(random, 8);
        let read = file::read(&bytes).ok();
        let states = read.as_ref().map_or(3, |automaton| automaton.states);
        let k = match random.below(8) {
            0 => random.pick(&[states as u32 + 1, 16, 17, 256, 65536, u32::MAX]),
            1 => states as u32,
            _ => random.between(0, states) as u32,
        };
        let made = read.as_ref().filter(|_| k as usize <= states).map_or(5, |automaton| {
            let stage = elimination::stage_after(automaton, k as usize);
            assert!(stage.nodes.len() <= elimination::bound(automaton), "more nodes than the bound");
            stage.nodes.len()
        });
        let mut nodes = room(random, made);
        let found = both::convert_partly(&Lent::holding(random, &bytes), k, &mut nodes);
        match found.refusal {
            0 if k as usize == states => "done, all states",
            number => refusal(number),
        }
    });
}

#[test]
fn convert() {
    let outcomes = file_outcomes(&["refused 6", "done, over 1100 nodes"]);
    cases::run("convert", DEFAULT_CASES, &outcomes, |random| {
        let bytes = files::file(random, 8);
        let made = file::read(&bytes).map_or(5, |automaton| {
            let nodes = elimination::converted(&automaton).0.len();
            assert!(nodes <= elimination::bound(&automaton), "more nodes than the bound");
            nodes
        });
        let mut nodes = room(random, made);
        let found = both::convert(&Lent::holding(random, &bytes), &mut nodes);
        if found.refusal == 0 {
            assert!(library::is_sound(nodes.cells(), found.nodes, found.answer), "the converted table is sound");
        }
        match found.refusal {
            0 if found.nodes > 1100 => "done, over 1100 nodes",
            number => refusal(number),
        }
    });
}

#[test]
fn printed_text() {
    cases::run("printed", DEFAULT_CASES, &["done", "done, a refusal", "refused 6"], |random| {
        let bytes = files::file(random, 8);
        let text = printed::text(&bytes);
        let made = file::read(&bytes).map_or(5, |automaton| elimination::converted(&automaton).0.len());
        let mut nodes = room(random, made);
        let length = random.near(text.len());
        let mut out = Lent::<u8>::patterned(random, length);
        match both::printed(&Lent::holding(random, &bytes), &mut nodes, &mut out) {
            (0, _) if text.starts_with("refused") => "done, a refusal",
            (number, _) => refusal(number),
        }
    });
}
