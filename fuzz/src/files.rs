//! The doors that take a file or an automaton value.

use crate::automata;
use crate::input::Input;
use crate::lent::Lent;
use differential::both;
use differential::crossing::{self, Plain};
use differential::lent::Buffer;
use independent::automaton::Automaton;
use independent::table::WORDS_A_NODE;
use independent::{elimination, file};

pub fn read(input: &mut Input) {
    let lent = Lent::holding(&automata::file(input));
    if let (0, value) = both::read(&lent) {
        let length = lent.cells().len();
        let mut again = Lent::patterned(length);
        let written = library::write(crossing::automaton(&value), again.cells_mut()).plain();
        assert_eq!(written, (0, length), "what was read, written");
        again.must_be(&lent, "what was read, written");
    }
}

pub fn write(input: &mut Input) {
    let mut room = input.part(3);
    let value = automata::value(input);
    let said = Automaton::from_value(&value);
    let needed = said.as_ref().map_or(60, |automaton| file::file_of(automaton).len());
    let mut lent = Lent::patterned(room.room(needed));
    if let (0, length) = both::write(&value, &mut lent) {
        let (number, again) = library::read(&lent.cells()[..length]).plain();
        assert_eq!((number, Some(again)), (0, said.map(|automaton| automaton.to_value())), "what was written, read");
    }
}

pub fn run(input: &mut Input) {
    let file_part = input.half() as usize;
    let lent_file = Lent::holding(&automata::file(&mut input.part(file_part)));
    let arities = file::read(lent_file.cells()).map_or(vec![0, 2], |automaton| automaton.arities);
    both::run(&lent_file, &Lent::holding(&automata::words(input, &arities)));
}

pub fn productive(input: &mut Input) {
    both::productive(&Lent::holding(&automata::file(input)));
}

pub fn convert_partly(input: &mut Input) {
    let (how, number, mut room) = (input.byte(), input.word(), input.part(3));
    let lent_file = Lent::holding(&automata::file(input));
    let read = file::read(lent_file.cells()).ok();
    let states = read.as_ref().map_or(3, |automaton| automaton.states as u32);
    let k = match how % 8 {
        0 => number,
        1 => states + 1,
        2 | 3 => states,
        _ => number % (states + 1),
    };
    let made = read.filter(|_| k <= states).map_or(5, |automaton| elimination::stage_after(&automaton, k as usize).nodes.len());
    let mut nodes = Lent::patterned(room.room(WORDS_A_NODE * made));
    let found = both::convert_partly(&lent_file, k, &mut nodes);
    if found.refusal == 0 && k == states {
        joined_is_whole(lent_file.cells(), nodes.cells(), &found);
    }
}

/// With every state taken out, the rows joined through the door `make` are the whole conversion.
fn joined_is_whole(file: &[u8], nodes: &[u32], partly: &elimination::Partly) {
    let mut words = nodes[..WORDS_A_NODE * partly.nodes].to_vec();
    let (mut count, mut answer) = (partly.nodes, 0);
    for place in &partly.list[..partly.rows] {
        let row = place.node as usize;
        if words[WORDS_A_NODE * answer] == 0 {
            answer = row;
        } else if words[WORDS_A_NODE * row] != 0 {
            words.resize(WORDS_A_NODE * (count + 1), 0);
            let alternation = crossing::shape(3, 0, [answer as u32, row as u32, 0]);
            assert_eq!(library::make(&mut words, count, alternation).plain(), 0, "joining a row");
            (answer, count) = (count, count + 1);
        }
    }
    let mut whole = Lent::patterned(words.len());
    let found = library::convert(file, whole.cells_mut()).plain();
    assert_eq!((found.refusal, found.nodes, found.answer), (0, count, answer), "joined beside convert");
    assert!(whole.cells() == words, "the table that was joined beside the converted one");
}

pub fn convert(input: &mut Input) {
    let mut room = input.part(3);
    let lent_file = Lent::holding(&automata::file(input));
    let made = file::read(lent_file.cells()).map_or(5, |automaton| elimination::converted(&automaton).0.len());
    let mut nodes = Lent::patterned(room.room(WORDS_A_NODE * made));
    let found = both::convert(&lent_file, &mut nodes);
    if found.refusal == 0 {
        assert!(library::is_sound(nodes.cells(), found.nodes, found.answer), "the converted table is sound");
    }
}

pub fn printed(input: &mut Input) {
    let (mut node_room, mut byte_room) = (input.part(3), input.part(3));
    let lent_file = Lent::holding(&automata::file(input));
    let text = independent::printed::text(lent_file.cells());
    let made = file::read(lent_file.cells()).map_or(5, |automaton| elimination::converted(&automaton).0.len());
    let mut nodes = Lent::patterned(node_room.room(WORDS_A_NODE * made));
    let mut out = Lent::patterned(byte_room.room(text.len()));
    both::printed(&lent_file, &mut nodes, &mut out);
}
