//! The proved library beside a plain and a tuned Rust version of the same entries: one process, the same inputs, in turns. Results are
//! compared before anything is timed. Prints markdown.

mod agree;
mod report;
mod shapes;
mod timing;
mod tuned;

use differential::crossing::{self, Plain};
use independent::{elimination, file, listing, table, trees, writing};
use report::Report;
use shapes::{Shape, Table};
use std::hint::black_box;
use timing::{times, Times};

/// More words than any conversion needs.
const ROOM: usize = 6 * 1393;

/// The whole is timed so many times over, since what else the machine does shifts even the ratios from one minute to the next.
const PASSES: usize = 5;

fn main() {
    agree::tuned_with_plain();
    let mut report = Report::default();
    for _ in 0..PASSES {
        entries(&mut report);
        growth(&mut report);
    }
    report.print();
}

fn entries(report: &mut Report) {
    let all = [
        shapes::file_p(),
        shapes::typical(),
        shapes::few_rows_a_symbol(),
        shapes::all_rows_on_one_symbol(),
        shapes::large_sets(),
        shapes::unary_chain(),
        shapes::largest(),
    ];
    for shape in &all {
        let (name, file) = (shape.name, shape.file());
        report.add("read", name, time_read(&file));
        report.add("write", name, time_write(shape));
        for size in sizes(shape) {
            let words = shapes::tree(&shape.automaton, size);
            report.add("run", &format!("{name}, {size} symbols"), time_run(&file, &words));
        }
        report.add("productive", name, time_productive(&file));
        report.add("convert", &nodes_made(shape), time_convert(&file));
        report.add("convert_partly, half of the states", name, time_partly(&file, shape.automaton.states as u32 / 2));
    }
    let mut tables: Vec<Table> = [&all[0], &all[1], &all[6]].map(shapes::converted_table).into();
    tables.push(shapes::random_table(4096));
    for table in &tables {
        report.add("is_sound", &table.name, time_is_sound(table));
        report.add("measure", &table.name, time_measure(table));
        report.add("list", &table.name, time_list(table));
    }
    report.add("put_number, 10,000 calls", "0 to 9,999", time_put_number(&shapes::small_numbers()));
    report.add("put_number, 10,000 calls", "numbers of 1 to 20 digits", time_put_number(&shapes::any_numbers()));
}

/// Sizes of trees: 7, 100 and 4,096 symbols, one fewer where symbols of two children alone make no such tree.
fn sizes(shape: &Shape) -> [usize; 3] {
    if shape.automaton.arities.iter().all(|&arity| arity == 0 || arity == 2) {
        [7, 99, 4095]
    } else {
        [7, 100, 4096]
    }
}

fn nodes_made(shape: &Shape) -> String {
    format!("{}, {} nodes", shape.name, elimination::converted(&shape.automaton).0.len())
}

fn time_read(bytes: &[u8]) -> Times {
    let expected = file::reading(bytes);
    assert_eq!(library::read(bytes).plain(), expected);
    assert_eq!(tuned::read(bytes), expected);
    times(|| library::read(black_box(bytes)), || file::reading(black_box(bytes)), || tuned::read(black_box(bytes)))
}

fn time_write(shape: &Shape) -> Times {
    let value = shape.automaton.to_value();
    let crossing = crossing::automaton(&value);
    let (mut a, mut b, mut c) = ([0; 747], [0; 747], [0; 747]);
    let expected = file::write(&value, &mut b);
    assert_eq!(library::write(crossing, &mut a).plain(), expected);
    assert_eq!(tuned::write(&value, &mut c), expected);
    assert!(a == b && b == c, "the same bytes");
    times(
        || library::write(*black_box(&crossing), black_box(&mut a)),
        || file::write(black_box(&value), black_box(&mut b)),
        || tuned::write(black_box(&value), black_box(&mut c)),
    )
}

fn time_run(bytes: &[u8], words: &[u16]) -> Times {
    let expected = trees::run(bytes, words);
    assert_eq!(expected.refusal, 0);
    assert_eq!(library::run(bytes, words).plain(), expected);
    assert_eq!(tuned::run(bytes, words), expected);
    times(
        || library::run(black_box(bytes), black_box(words)),
        || trees::run(black_box(bytes), black_box(words)),
        || tuned::run(black_box(bytes), black_box(words)),
    )
}

fn time_productive(bytes: &[u8]) -> Times {
    let expected = trees::productive(bytes);
    assert_eq!(library::productive(bytes).plain(), expected);
    assert_eq!(tuned::productive(bytes), expected);
    times(
        || library::productive(black_box(bytes)),
        || trees::productive(black_box(bytes)),
        || tuned::productive(black_box(bytes)),
    )
}

fn time_convert(bytes: &[u8]) -> Times {
    let (mut a, mut b, mut c) = (vec![0; ROOM], vec![0; ROOM], vec![0; ROOM]);
    let expected = elimination::convert(bytes, &mut b);
    assert_eq!(expected.refusal, 0);
    assert_eq!(library::convert(bytes, &mut a).plain(), expected);
    assert_eq!(tuned::convert(bytes, &mut c), expected);
    assert!(a == b && b == c, "the same words");
    times(
        || library::convert(black_box(bytes), black_box(&mut a)),
        || elimination::convert(black_box(bytes), black_box(&mut b)),
        || tuned::convert(black_box(bytes), black_box(&mut c)),
    )
}

fn time_partly(bytes: &[u8], k: u32) -> Times {
    let (mut a, mut b, mut c) = (vec![0; ROOM], vec![0; ROOM], vec![0; ROOM]);
    let expected = elimination::convert_partly(bytes, k, &mut b);
    assert_eq!(expected.refusal, 0);
    assert_eq!(library::convert_partly(bytes, k, &mut a).plain(), expected);
    assert_eq!(tuned::convert_partly(bytes, k, &mut c), expected);
    assert!(a == b && b == c, "the same words");
    times(
        || library::convert_partly(black_box(bytes), k, black_box(&mut a)),
        || elimination::convert_partly(black_box(bytes), k, black_box(&mut b)),
        || tuned::convert_partly(black_box(bytes), k, black_box(&mut c)),
    )
}

fn time_is_sound(table: &Table) -> Times {
    let Table { words, count, answer, .. } = table;
    assert!(table::is_sound(words, *count, *answer));
    assert!(library::is_sound(words, *count, *answer));
    assert!(tuned::is_sound(words, *count, *answer));
    times(
        || library::is_sound(black_box(words), *count, *answer),
        || table::is_sound(black_box(words), *count, *answer),
        || tuned::is_sound(black_box(words), *count, *answer),
    )
}

fn time_measure(table: &Table) -> Times {
    let Table { words, count, answer, .. } = table;
    let (mut a, mut b, mut c) = (vec![0; *count], vec![0; *count], vec![0; *count]);
    let expected = table::measure(words, *count, *answer, &mut b);
    assert_eq!(library::measure(words, *count, *answer, &mut a).plain(), expected);
    assert_eq!(tuned::measure(words, *count, *answer, &mut c), expected);
    assert!(a == b && b == c, "the same sizes");
    times(
        || library::measure(black_box(words), *count, *answer, black_box(&mut a)),
        || table::measure(black_box(words), *count, *answer, black_box(&mut b)),
        || tuned::measure(black_box(words), *count, *answer, black_box(&mut c)),
    )
}

fn time_list(table: &Table) -> Times {
    let Table { words, count, answer, .. } = table;
    let room = 40 * count + 20;
    let (mut a, mut b, mut c) = (vec![0; room], vec![0; room], vec![0; room]);
    let expected = listing::list(words, *count, *answer, &mut b);
    assert_eq!(library::list(words, *count, *answer, &mut a).plain(), expected);
    assert_eq!(tuned::list(words, *count, *answer, &mut c), expected);
    assert!(a == b && b == c, "the same bytes");
    times(
        || library::list(black_box(words), *count, *answer, black_box(&mut a)),
        || listing::list(black_box(words), *count, *answer, black_box(&mut b)),
        || tuned::list(black_box(words), *count, *answer, black_box(&mut c)),
    )
}

fn time_put_number(numbers: &[u64]) -> Times {
    let room = 20 * numbers.len();
    let (mut a, mut b, mut c) = (vec![0; room], vec![0; room], vec![0; room]);
    let expected = put_all(writing::put_number, numbers, &mut b);
    assert_eq!(put_all(library::put_number, numbers, &mut a), expected);
    assert_eq!(put_all(tuned::put_number, numbers, &mut c), expected);
    assert!(a == b && b == c, "the same bytes");
    times(
        || put_all(library::put_number, black_box(numbers), black_box(&mut a)),
        || put_all(writing::put_number, black_box(numbers), black_box(&mut b)),
        || put_all(tuned::put_number, black_box(numbers), black_box(&mut c)),
    )
}

/// Puts the numbers one after the other; gives the place after the last.
fn put_all(put: impl Fn(&mut [u8], usize, u64) -> usize, numbers: &[u64], out: &mut [u8]) -> usize {
    numbers.iter().fold(0, |at, &number| put(out, at, number))
}

/// How the cost of reading, running a tree of 1,000 symbols and converting grows with states, rows and symbols, the others held.
fn growth(report: &mut Report) {
    for states in [1, 2, 4, 8, 16] {
        growth_line(report, "states", states, 8, 32);
    }
    for symbols in [2, 4, 8, 16, 32] {
        growth_line(report, "symbols", 8, symbols, 32);
    }
    for rows in [4, 8, 16, 32, 64] {
        growth_line(report, "rows", 8, 8, rows);
    }
}

fn growth_line(report: &mut Report, grows: &str, states: usize, symbols: usize, rows: usize) {
    let automaton = shapes::growing(states, symbols, rows);
    let bytes = file::file_of(&automaton);
    let words = shapes::tree(&automaton, if symbols > 2 { 1000 } else { 999 });
    let nodes = elimination::converted(&automaton).0.len();
    let name = format!("{grows} | {states} | {symbols} | {rows} | {nodes}");
    let nanos =
        [time_read(&bytes), time_run(&bytes, &words), time_productive(&bytes), time_convert(&bytes)].map(|times| times.proved);
    report.add_growth(&name, nanos);
}
