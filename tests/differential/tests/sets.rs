//! The sets of states: every set with every state that can matter, and random ones.

use differential::cases::{self, DEFAULT_CASES};
use differential::random::Random;
use independent::sets;
use library::StateSet;

/// States around the width, and far past it.
const STATES: [u32; 26] =
    [0, 1, 2, 3, 4, 5, 6, 7, 8, 9, 10, 11, 12, 13, 14, 15, 16, 17, 31, 32, 33, 48, 64, 255, 65536, u32::MAX];

fn each_set_and_state(mut look: impl FnMut(u16, u32)) {
    for set in 0..=u16::MAX {
        for state in STATES {
            look(set, state);
        }
    }
}

fn yes_or_no(yes: bool) -> cases::Outcome {
    if yes {
        "yes"
    } else {
        "no"
    }
}

fn state(random: &mut Random) -> u32 {
    random.number()
}

#[test]
fn set_empty() {
    assert_eq!(library::set_empty().0, sets::empty());
    println!("set_empty: 1 case, which is all: done 1");
}

#[test]
fn set_count() {
    for set in 0..=u16::MAX {
        assert_eq!(library::set_count(StateSet(set)), sets::count(set), "count of {set}");
    }
    println!("set_count: 65536 cases, which is all: done 65536");
}

#[test]
fn set_one() {
    cases::run("set_one", DEFAULT_CASES, &["a state", "no state"], |random| {
        let state = state(random);
        let found = library::set_one(state).0;
        assert_eq!(found, sets::one(state), "the set of {state}");
        if found == 0 {
            "no state"
        } else {
            "a state"
        }
    });
    for state in 0..70_000 {
        assert_eq!(library::set_one(state).0, sets::one(state), "the set of {state}");
    }
}

#[test]
fn set_of_word() {
    let typed = [
        (0, 0),
        (1, 1),
        (0xffff, 0xffff),
        (0x1_0000, 0),
        (0x1_8000, 0x8000),
        (0xffff_0000, 0),
        (0x8000_8001, 0x8001),
        (u32::MAX, 0xffff),
    ];
    for (word, set) in typed {
        assert_eq!((library::set_of_word(word).0, sets::of_word(word)), (set, set), "the set of the word {word:#x}");
    }
    for word in 0..=0x2_0000 {
        assert_eq!(library::set_of_word(word).0, sets::of_word(word), "the set of the word {word:#x}");
    }
    cases::run("set_of_word", DEFAULT_CASES, &["the word", "the low bits of it", "the empty set"], |random| {
        let word = if random.once_in(2) { random.number() } else { (random.next() as u32) << (16 * random.below(2)) };
        let found = library::set_of_word(word).0;
        assert_eq!(found, sets::of_word(word), "the set of the word {word:#x}");
        match found {
            0 => "the empty set",
            _ if found as u32 == word => "the word",
            _ => "the low bits of it",
        }
    });
    println!("set_of_word: and every word to {}", 0x2_0000);
}

#[test]
fn set_past() {
    let typed = [
        (0, 0, false),
        (0xffff, 0, true),
        (0b1, 0, true),
        (0b1, 1, false),
        (0b10, 1, true),
        (0b100, 1, true),
        (0x7fff, 15, false),
        (0x8000, 15, true),
        (0x8000, 16, false),
        (0xffff, 16, false),
        (0xffff, 17, false),
        (0xffff, 32, false),
        (0xffff, 64, false),
        (0xffff, 255, false),
    ];
    for (set, count, yes) in typed {
        assert_eq!((library::set_past(StateSet(set), count), sets::past(set, count)), (yes, yes), "{set:#x} past {count}");
    }
    let (mut yes, mut no) = (0, 0);
    for set in 0..=u16::MAX {
        for count in 0..=u8::MAX {
            let found = library::set_past(StateSet(set), count);
            assert_eq!(found, sets::past(set, count), "{set:#x} past {count}");
            *(if found { &mut yes } else { &mut no }) += 1;
        }
    }
    // So many sets have a member of c or more: all but the 2^c whose members are below c.
    let expected: u32 = (0..16).map(|count| 65_536 - (1 << count)).sum();
    assert_eq!((yes, no), (expected, 65_536 * 256 - expected));
    println!("set_past: {} cases, which is all: yes {yes}, no {no}", 65_536 * 256);
}

#[test]
fn set_has() {
    each_set_and_state(|set, state| {
        assert_eq!(library::set_has(StateSet(set), state), sets::has(set, state), "has {state} in {set}")
    });
    cases::run("set_has", DEFAULT_CASES, &["yes", "no"], |random| {
        let (set, state) = (random.next() as u16, state(random));
        let found = library::set_has(StateSet(set), state);
        assert_eq!(found, sets::has(set, state), "has {state} in {set}");
        yes_or_no(found)
    });
    println!("set_has: and every set with {} states, {} cases", STATES.len(), 65536 * STATES.len());
}

#[test]
fn set_without() {
    each_set_and_state(|set, state| {
        assert_eq!(library::set_without(StateSet(set), state).0, sets::without(set, state), "{set} without {state}")
    });
    cases::run("set_without", DEFAULT_CASES, &["smaller", "the same"], |random| {
        let (set, state) = (random.next() as u16, state(random));
        let found = library::set_without(StateSet(set), state).0;
        assert_eq!(found, sets::without(set, state), "{set} without {state}");
        if found == set {
            "the same"
        } else {
            "smaller"
        }
    });
    println!("set_without: and every set with {} states, {} cases", STATES.len(), 65536 * STATES.len());
}

#[test]
fn set_union() {
    cases::run("set_union", DEFAULT_CASES, &["larger than both", "one of both"], |random| {
        let (a, b) = match random.below(3) {
            0 => (1 << random.below(16), 1 << random.below(16)),
            _ => (random.next() as u16, random.next() as u16),
        };
        let found = library::set_union(StateSet(a), StateSet(b)).0;
        assert_eq!(found, sets::union(a, b), "{a} with {b}");
        if found == a || found == b {
            "one of both"
        } else {
            "larger than both"
        }
    });
}
