//! The doors of the sets of states.

use crate::input::Input;
use independent::sets;
use library::StateSet;

pub fn all(input: &mut Input) {
    let (set, other, state, count) = (input.half(), input.half(), input.word(), input.byte());
    for state in [state, state % 32] {
        assert_eq!(library::set_one(state).0, sets::one(state), "the set of {state}");
        assert_eq!(library::set_has(StateSet(set), state), sets::has(set, state), "{state} in {set:#x}");
        assert_eq!(library::set_without(StateSet(set), state).0, sets::without(set, state), "{set:#x} without {state}");
    }
    for count in [count, count % 32] {
        assert_eq!(library::set_past(StateSet(set), count), sets::past(set, count), "{set:#x} past {count}");
    }
    assert_eq!(library::set_of_word(state).0, sets::of_word(state), "the set of the word {state:#x}");
    assert_eq!(library::set_empty().0, sets::empty(), "the empty set");
    assert_eq!(library::set_union(StateSet(set), StateSet(other)).0, sets::union(set, other), "{set:#x} with {other:#x}");
    assert_eq!(library::set_count(StateSet(set)), sets::count(set), "how many are in {set:#x}");
}
