//! The tuned version held against the plain one on random inputs, so that what is timed does the whole work.

use crate::tuned;
use differential::random::Random;
use differential::{automata, files, tables, words};
use independent::{elimination, file, listing, table, trees, writing};

const CASES: u64 = 20_000;

pub fn tuned_with_plain() {
    for case in 0..CASES {
        let random = &mut Random::new(case);
        files_agree(random);
        tables_agree(random);
        numbers_agree(random);
    }
}

fn files_agree(random: &mut Random) {
    let bytes = files::file(random, 7);
    assert_eq!(tuned::read(&bytes), file::reading(&bytes));
    assert_eq!(tuned::productive(&bytes), trees::productive(&bytes));
    let automaton = automata::automaton(random);
    let (file, words) = (file::file_of(&automaton), words::words(random, &automaton));
    assert_eq!(tuned::run(&file, &words), trees::run(&file, &words));
    let value = automaton.to_value();
    let length = random.near(file.len());
    let (mut a, mut b) = (vec![7; length], vec![7; length]);
    assert_eq!(tuned::write(&value, &mut a), file::write(&value, &mut b));
    assert_eq!(a, b);
    let length = random.near(6 * elimination::converted(&automaton).0.len());
    let (mut a, mut b) = (vec![7; length], vec![7; length]);
    assert_eq!(tuned::convert(&file, &mut a), elimination::convert(&file, &mut b));
    assert_eq!(a, b);
    let k = random.below(automaton.states + 2) as u32;
    let (mut a, mut b) = (vec![7; length], vec![7; length]);
    assert_eq!(tuned::convert_partly(&file, k, &mut a), elimination::convert_partly(&file, k, &mut b));
    assert_eq!(a, b);
}

fn tables_agree(random: &mut Random) {
    let tables::Table { words, count, answer } = tables::table(random, 7);
    assert_eq!(tuned::is_sound(&words, count, answer), table::is_sound(&words, count, answer));
    let length = random.near(count.min(5000));
    let (mut a, mut b) = (vec![7; length], vec![7; length]);
    assert_eq!(tuned::measure(&words, count, answer, &mut a), table::measure(&words, count, answer, &mut b));
    assert_eq!(a, b);
    let length = random.near(20 * count.min(5000));
    let (mut a, mut b) = (vec![7; length], vec![7; length]);
    assert_eq!(tuned::list(&words, count, answer, &mut a), listing::list(&words, count, answer, &mut b));
    assert_eq!(a, b);
}

fn numbers_agree(random: &mut Random) {
    let (length, number) = (random.below(48), random.long());
    let at = random.place(length, writing::digits(number));
    let (mut a, mut b) = (vec![7; length], vec![7; length]);
    assert_eq!(tuned::put_number(&mut a, at, number), writing::put_number(&mut b, at, number));
    assert_eq!(a, b);
}
