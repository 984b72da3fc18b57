//! The lines that the program `worked` must print, worked out by the independent implementation.

mod files;

use independent::automaton::Value;
use independent::{elimination, file, listing, printed, sets, table, trees};
use std::fmt::Display;

/// What words and bytes are lent with.
const LENT: u32 = 1_234_567;
const LENT_BYTE: u8 = 255;

#[derive(Default)]
struct Lines(String);

fn outcome(number: u8) -> String {
    if number == 0 {
        "done".to_string()
    } else {
        format!("refused {number}")
    }
}

fn yes_or_no(yes: bool) -> &'static str {
    if yes {
        "yes"
    } else {
        "no"
    }
}

/// Each item with a blank before it.
fn spaced<T: Display>(items: &[T]) -> String {
    items.iter().map(|item| format!(" {item}")).collect()
}

fn states(set: u16) -> String {
    let members: Vec<String> = (0..16).filter(|q| set >> q & 1 == 1).map(|q| q.to_string()).collect();
    format!("{{{}}}", members.join(" "))
}

fn left(words: &[u32]) -> String {
    let zeros = words.iter().filter(|&&word| word == 0).count();
    let lent = words.iter().filter(|&&word| word == LENT).count();
    format!("; of {} words {zeros} are 0 and {lent} as lent", words.len())
}

/// Bytes of a text in one line.
fn shown(bytes: &[u8]) -> String {
    bytes
        .iter()
        .map(|&byte| {
            if byte == b'\n' {
                '/'
            } else if byte == LENT_BYTE {
                '.'
            } else {
                byte as char
            }
        })
        .collect()
}

impl Lines {
    fn say(&mut self, line: String) {
        self.0.push_str(&line);
        self.0.push('\n');
    }

    fn wholly(&mut self, name: &str, file: &[u8], room: usize) {
        let mut words = vec![LENT; room];
        let r = elimination::convert(file, &mut words);
        let (_, size) = table::measure(&words, r.nodes, r.answer, &mut [0; 16]);
        self.say(format!(
            "convert {name} in {room} words: {}, {} nodes, answer {}, size {size}{}",
            outcome(r.refusal),
            r.nodes,
            r.answer,
            left(&words)
        ));
    }

    fn partly(&mut self, name: &str, file: &[u8], k: u32, room: usize) {
        let mut words = vec![LENT; room];
        let r = elimination::convert_partly(file, k, &mut words);
        let rows: String =
            r.list[..r.rows].iter().map(|row| format!(", {} to {} waits {}", row.node, row.target, row.waits)).collect();
        self.say(format!(
            "convert {name} by {k} states in {room} words: {}, {} nodes, {} rows{rows}{}",
            outcome(r.refusal),
            r.nodes,
            r.rows,
            left(&words)
        ));
    }

    fn ran(&mut self, start: String, file: &[u8], words: &[u16]) {
        let r = trees::run(file, words);
        self.say(format!("{start}: {}, {}, {}", outcome(r.refusal), states(r.states), yes_or_no(r.yes)));
    }

    fn run(&mut self, name: &str, file: &[u8], words: &[u16]) {
        self.ran(format!("run {name} on{}", spaced(words)), file, words);
    }

    fn chain(&mut self, name: &str, file: &[u8], symbols: usize) {
        let mut words = vec![1; symbols];
        words[symbols - 1] = 0;
        self.ran(format!("run {name} on a chain of {symbols}"), file, &words);
    }

    fn productive(&mut self, name: &str, file: &[u8]) {
        let (number, set) = trees::productive(file);
        self.say(format!("productive {name}: {}, {}", outcome(number), states(set)));
    }

    fn read(&mut self, name: &str, file: &[u8]) {
        let (number, value) = file::reading(file);
        let arities = &value.arities[..value.symbols as usize];
        let rows: String = value.rows[..value.count as usize]
            .iter()
            .map(|row| {
                let sources: Vec<String> =
                    row.sources[..arities[row.symbol as usize] as usize].iter().map(|q| q.to_string()).collect();
                format!(", {}({}) to {}", row.symbol, sources.join(" "), row.target)
            })
            .collect();
        self.say(format!(
            "read {name}: {}, {} states, final {}, {} symbols, arities{}, {} rows{rows}",
            outcome(number),
            value.states,
            states(value.finals),
            value.symbols,
            spaced(arities),
            value.count
        ));
    }

    fn write(&mut self, name: &str, file: &[u8], states: u8, room: usize) {
        let value = Value { states, ..file::reading(file).1 };
        let mut out = vec![LENT_BYTE; room];
        let (number, length) = file::write(&value, &mut out);
        self.say(format!(
            "write {name} with {states} states to {room} bytes: {}, length {length}, bytes{}",
            outcome(number),
            spaced(&out)
        ));
    }

    fn printed(&mut self, name: &str, file: &[u8], words: usize, bytes: usize) {
        let mut words = vec![LENT; words];
        let mut out = vec![LENT_BYTE; bytes];
        let (number, length) = printed::printed(file, &mut words, &mut out);
        self.say(format!("printed {name}: {}, length {length}, text {}{}", outcome(number), shown(&out), left(&words)));
    }

    fn make(&mut self, name: &str, room: usize, count: usize, kind: u32, label: u32, first: u32) {
        let mut words = vec![LENT; room];
        let number = table::make(&mut words, count, kind, label, [first, 0, 0]);
        self.say(format!("make {name} at {count}: {}, words{}", outcome(number), spaced(&words)));
    }

    fn is_sound(&mut self, name: &str, words: &[u32], count: usize, answer: usize) {
        let yes = table::is_sound(words, count, answer);
        self.say(format!("sound {name}, count {count}, answer {answer}: {}", yes_or_no(yes)));
    }

    fn measure(&mut self, name: &str, words: &[u32], count: usize, answer: usize, room: usize) {
        let mut scratch = vec![LENT; room];
        let (number, size) = table::measure(words, count, answer, &mut scratch);
        self.say(format!(
            "measure {name}, count {count}, answer {answer}: {}, size {size}, scratch{}",
            outcome(number),
            spaced(&scratch)
        ));
    }

    fn list(&mut self, name: &str, words: &[u32], count: usize, answer: usize, room: usize) {
        let mut out = vec![LENT_BYTE; room];
        let (number, length) = listing::list(words, count, answer, &mut out);
        self.say(format!(
            "list {name}, count {count}, answer {answer}: {}, length {length}, text {}",
            outcome(number),
            shown(&out)
        ));
    }

    /// Each node but the first is a symbol over the node before, twice.
    fn doubled(&mut self, nodes: u32) {
        let mut words = vec![0; 198];
        table::make(&mut words, 0, 2, 0, [0; 3]);
        for i in 1..nodes {
            table::make(&mut words, i as usize, 2, 1 + 256 * 2, [i - 1, i - 1, 0]);
        }
        let (number, size) = table::measure(&words, nodes as usize, nodes as usize - 1, &mut [0; 33]);
        self.say(format!("measure {nodes} nodes, each twice in the next: {}, size {size}", outcome(number)));
    }

    fn set(&mut self, name: &str, set: u16) {
        self.say(format!(
            "{name}: {}, count {}, has 15: {}, has 16: {}, without 15: {}, without 16: {}",
            states(set),
            sets::count(set),
            yes_or_no(sets::has(set, 15)),
            yes_or_no(sets::has(set, 16)),
            states(sets::without(set, 15)),
            states(sets::without(set, 16))
        ));
    }
}

fn conversions(lines: &mut Lines) {
    let p = files::p();
    for room in [60, 59, 67, 0] {
        lines.wholly("P", &p, room);
    }
    for (k, room) in [(0, 36), (1, 60), (2, 60), (3, 60), (0, 35), (1, 47), (u32::MAX, 0)] {
        lines.partly("P", &p, k, room);
    }
    lines.wholly("pairs", &files::pairs(), 48);
    lines.wholly("nested", &files::nested(), 36);
    lines.wholly("endless", &files::endless(), 30);
    lines.wholly("unreached", &files::unreached(), 60);
    lines.wholly("rowless", &files::rowless(), 12);
    lines.partly("rowless", &files::rowless(), 1, 12);
    lines.wholly("finalless", &files::finalless(), 18);
}

fn runs(lines: &mut Lines) {
    let p = files::p();
    let words: [&[u16]; 8] = [&[1, 0, 0], &[1, 1, 0, 0, 0], &[1, 0, 1, 0, 0], &[0], &[1, 0], &[0, 0], &[], &[2]];
    for words in words {
        lines.run("P", &p, words);
    }
    for words in [&[2, 0, 0][..], &[2, 0, 1], &[2, 1, 0], &[2, 1, 1], &[2, 2, 0, 0, 0]] {
        lines.run("pairs", &files::pairs(), words);
    }
    lines.run("nested", &files::nested(), &[1, 1, 0, 0, 0]);
    lines.run("unreached", &files::unreached(), &[2, 0]);
    lines.run("unreached", &files::unreached(), &[1, 0]);
    lines.chain("chains", &files::chains(), 4096);
    lines.chain("chains", &files::chains(), 4097);
    lines.productive("P", &p);
    lines.productive("endless", &files::endless());
    lines.productive("rowless", &files::rowless());
    lines.productive("finalless", &files::finalless());
    lines.productive("unreached", &files::unreached());
}

fn read_and_written(lines: &mut Lines) {
    let p = files::p();
    lines.read("P", &p);
    lines.read("rowless", &files::rowless());
    lines.read("unreached", &files::unreached());
    for (states, room) in [(2, 43), (2, 42), (2, 45), (1, 43), (17, 2)] {
        lines.write("P", &p, states, room);
    }
    for (name, file) in files::refused() {
        lines.read(name, &file);
        lines.run(name, &file, &[0]);
        lines.productive(name, &file);
        lines.wholly(name, &file, 6);
        lines.partly(name, &file, 0, 6);
        lines.printed(name, &file, 6, 12);
    }
    lines.printed("P", &p, 60, 130);
    lines.printed("P", &p, 59, 130);
    lines.printed("P", &p, 60, 122);
    lines.printed("rowless", &files::rowless(), 13, 26);
    lines.printed("cut", &files::refused()[0].1, 6, 9);
}

fn tables(lines: &mut Lines) {
    lines.make("empty", 6, 0, 0, 0, 0);
    lines.make("hole 3", 13, 1, 1, 3, 0);
    lines.make("hole 15", 6, 0, 1, 15, 0);
    lines.make("symbol 31", 6, 0, 2, 31, 0);
    lines.make("hole 3", 13, 2, 1, 3, 0);
    lines.make("hole 3", 13, 4096, 1, 3, 0);
    lines.make("hole 16", 6, 0, 1, 16, 0);
    lines.make("kind 6", 6, 0, 6, 0, 0);
    lines.make("symbol 32", 6, 0, 2, 32, 0);
    lines.make("a child that is not there", 6, 0, 5, 0, 0);
    lines.make("a child that is not used", 12, 1, 1, 3, 1);
    let mut whole = vec![0; 60];
    elimination::convert(&files::p(), &mut whole);
    for (count, answer) in [(10, 9), (3, 2), (10, 10), (11, 9), (0, 0), (usize::MAX, 9)] {
        lines.is_sound("P", &whole, count, answer);
    }
    let changes = [
        ("P with kind 6", 54, 6),
        ("P with state 16", 55, 16),
        ("P with child 9 of 9", 56, 9),
        ("P with an unused child", 58, 1),
        ("P with an open state too many", 59, 1),
        ("P with a bit past the sets", 59, 65536),
    ];
    for (name, place, word) in changes {
        let mut changed = whole.clone();
        changed[place] = word;
        lines.is_sound(name, &changed, 10, 9);
    }
    lines.measure("P", &whole, 10, 9, 12);
    lines.measure("P", &whole, 10, 9, 9);
    lines.measure("P", &whole, 10, 10, 9);
    for nodes in [31, 32, 33] {
        lines.doubled(nodes);
    }
    lines.list("P", &whole, 10, 9, 125);
    lines.list("P", &whole, 10, 9, 122);
    lines.list("P", &whole, 10, 10, 4);
}

/// All the lines.
pub fn expected() -> String {
    let mut lines = Lines::default();
    conversions(&mut lines);
    runs(&mut lines);
    read_and_written(&mut lines);
    tables(&mut lines);
    lines.set("set of none", sets::empty());
    for state in [0, 15, 16] {
        lines.set(&format!("set of {state}"), sets::one(state));
    }
    for (a, b) in [(3, 15), (3, 16)] {
        lines.set(&format!("union of {a} and {b}"), sets::union(sets::one(a), sets::one(b)));
    }
    lines.0
}
