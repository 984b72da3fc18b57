//! The doors of the proved library, declared for Rust: a type for each struct that crosses one, laid out as C lays it out, and a safe
//! function for each door.
//!
//! This crate stands alone. It knows nothing of the independent program, and no other crate declares a door: the names that the archives
//! export stand once, below in `doors`, and the archives' own names stand in `build.rs`.

/// 0 is done.
#[repr(C)]
#[derive(Clone, Copy, PartialEq, Eq, Debug)]
pub struct Refusal {
    pub number: u8,
}

/// Bit i stands for state i.
#[repr(C)]
#[derive(Clone, Copy, PartialEq, Eq, Debug)]
pub struct StateSet(pub u16);

#[repr(C)]
#[derive(Clone, Copy, PartialEq, Eq, Debug)]
pub struct Row {
    pub symbol: u8,
    pub target: u8,
    pub sources: [u8; 3],
}

#[repr(C)]
#[derive(Clone, Copy, PartialEq, Eq, Debug)]
pub struct Automaton {
    pub states: u8,
    pub finals: StateSet,
    pub symbols: u8,
    pub arities: [u8; 32],
    pub count: u8,
    pub rows: [Row; 64],
}

#[repr(C)]
#[derive(Clone, Copy, PartialEq, Eq, Debug)]
pub struct Reading {
    pub refusal: Refusal,
    pub automaton: Automaton,
}

#[repr(C)]
#[derive(Clone, Copy, PartialEq, Eq, Debug)]
pub struct Writing {
    pub refusal: Refusal,
    pub length: usize,
}

#[repr(C)]
#[derive(Clone, Copy, PartialEq, Eq, Debug)]
pub struct ReachedStates {
    pub refusal: Refusal,
    pub states: StateSet,
    pub yes: bool,
}

#[repr(C)]
#[derive(Clone, Copy, PartialEq, Eq, Debug)]
pub struct ProductiveStates {
    pub refusal: Refusal,
    pub states: StateSet,
}

/// What a node says but for its open set, which `make` works out.
#[repr(C)]
#[derive(Clone, Copy, PartialEq, Eq, Debug)]
pub struct Shape {
    pub kind: u32,
    pub label: u32,
    pub first: u32,
    pub second: u32,
    pub third: u32,
}

/// A node: its shape and its open word.
#[repr(C)]
#[derive(Clone, Copy, PartialEq, Eq, Debug)]
pub struct Node {
    pub shape: Shape,
    pub opens: u32,
}

#[repr(C)]
#[derive(Clone, Copy, PartialEq, Eq, Debug)]
pub struct Measured {
    pub refusal: Refusal,
    pub size: u32,
}

#[repr(C)]
#[derive(Clone, Copy, PartialEq, Eq, Debug)]
pub struct Listed {
    pub refusal: Refusal,
    pub length: usize,
}

#[repr(C)]
#[derive(Clone, Copy, PartialEq, Eq, Debug)]
pub struct ListRow {
    pub node: u16,
    pub target: u8,
    pub waits: u8,
}

#[repr(C)]
#[derive(Clone, Copy, PartialEq, Eq, Debug)]
pub struct Partly {
    pub refusal: Refusal,
    pub nodes: usize,
    pub rows: usize,
    pub list: [ListRow; 80],
}

#[repr(C)]
#[derive(Clone, Copy, PartialEq, Eq, Debug)]
pub struct Wholly {
    pub refusal: Refusal,
    pub nodes: usize,
    pub answer: usize,
}

#[repr(C)]
#[derive(Clone, Copy, PartialEq, Eq, Debug)]
pub struct Printing {
    pub refusal: Refusal,
    pub length: usize,
}

/// The sizes that C gives them on x86-64.
const _: () = {
    assert!(size_of::<Refusal>() == 1);
    assert!(size_of::<StateSet>() == 2);
    assert!(size_of::<Row>() == 5);
    assert!(size_of::<Automaton>() == 358);
    assert!(size_of::<Reading>() == 360);
    assert!(size_of::<Writing>() == 16);
    assert!(size_of::<ReachedStates>() == 6);
    assert!(size_of::<ProductiveStates>() == 4);
    assert!(size_of::<Shape>() == 20);
    assert!(size_of::<Node>() == 24);
    assert!(size_of::<Measured>() == 8);
    assert!(size_of::<Listed>() == 16);
    assert!(size_of::<ListRow>() == 4);
    assert!(size_of::<Partly>() == 344);
    assert!(size_of::<Wholly>() == 24);
    assert!(size_of::<Printing>() == 16);
};

/// The doors as the archives export them. A slice crosses as a pointer and a number of cells.
mod doors {
    use crate::*;

    extern "C" {
        #[link_name = "door_set_empty"]
        pub fn set_empty() -> StateSet;
        #[link_name = "door_set_one"]
        pub fn set_one(state: u32) -> StateSet;
        #[link_name = "door_set_of_word"]
        pub fn set_of_word(word: u32) -> StateSet;
        #[link_name = "door_set_union"]
        pub fn set_union(set: StateSet, other: StateSet) -> StateSet;
        #[link_name = "door_set_has"]
        pub fn set_has(set: StateSet, state: u32) -> bool;
        #[link_name = "door_set_past"]
        pub fn set_past(set: StateSet, count: u8) -> bool;
        #[link_name = "door_set_without"]
        pub fn set_without(set: StateSet, state: u32) -> StateSet;
        #[link_name = "door_set_count"]
        pub fn set_count(set: StateSet) -> u32;
        #[link_name = "door_zero"]
        pub fn zero(words: *mut u32, words_len: usize);
        #[link_name = "door_digits"]
        pub fn digits(n: u64) -> usize;
        #[link_name = "door_put_bytes"]
        pub fn put_bytes(out: *mut u8, out_len: usize, at: usize, bytes: *const u8, bytes_len: usize) -> usize;
        #[link_name = "door_put_number"]
        pub fn put_number(out: *mut u8, out_len: usize, at: usize, n: u64) -> usize;
        #[link_name = "door_read"]
        pub fn read(file: *const u8, file_len: usize) -> Reading;
        #[link_name = "door_write"]
        pub fn write(value: Automaton, out: *mut u8, out_len: usize) -> Writing;
        #[link_name = "door_run"]
        pub fn run(file: *const u8, file_len: usize, words: *const u16, words_len: usize) -> ReachedStates;
        #[link_name = "door_productive"]
        pub fn productive(file: *const u8, file_len: usize) -> ProductiveStates;
        #[link_name = "door_is_sound"]
        pub fn is_sound(words: *const u32, words_len: usize, count: usize, answer: usize) -> bool;
        #[link_name = "door_child_count"]
        pub fn child_count(shape: Shape) -> u32;
        #[link_name = "door_node_at"]
        pub fn node_at(words: *const u32, words_len: usize, i: usize) -> Node;
        #[link_name = "door_make"]
        pub fn make(words: *mut u32, words_len: usize, count: usize, shape: Shape) -> Refusal;
        #[link_name = "door_measure"]
        pub fn measure(
            words: *const u32,
            words_len: usize,
            count: usize,
            answer: usize,
            scratch: *mut u32,
            scratch_len: usize,
        ) -> Measured;
        #[link_name = "door_list"]
        pub fn list(words: *const u32, words_len: usize, count: usize, answer: usize, out: *mut u8, out_len: usize) -> Listed;
        #[link_name = "door_convert_partly"]
        pub fn convert_partly(file: *const u8, file_len: usize, k: u32, nodes: *mut u32, nodes_len: usize) -> Partly;
        #[link_name = "door_convert"]
        pub fn convert(file: *const u8, file_len: usize, nodes: *mut u32, nodes_len: usize) -> Wholly;
        #[link_name = "door_printed"]
        pub fn printed(
            file: *const u8,
            file_len: usize,
            nodes: *mut u32,
            nodes_len: usize,
            out: *mut u8,
            out_len: usize,
        ) -> Printing;
    }
}

// Every door takes any number, any value, and any pointer and length that a slice gives, or null and 0. That is all that the calls below
// rely on.

pub fn set_empty() -> StateSet {
    unsafe { doors::set_empty() }
}

pub fn set_one(state: u32) -> StateSet {
    unsafe { doors::set_one(state) }
}

pub fn set_of_word(word: u32) -> StateSet {
    unsafe { doors::set_of_word(word) }
}

pub fn set_union(set: StateSet, other: StateSet) -> StateSet {
    unsafe { doors::set_union(set, other) }
}

pub fn set_has(set: StateSet, state: u32) -> bool {
    unsafe { doors::set_has(set, state) }
}

pub fn set_past(set: StateSet, count: u8) -> bool {
    unsafe { doors::set_past(set, count) }
}

pub fn set_without(set: StateSet, state: u32) -> StateSet {
    unsafe { doors::set_without(set, state) }
}

pub fn set_count(set: StateSet) -> u32 {
    unsafe { doors::set_count(set) }
}

pub fn zero(words: &mut [u32]) {
    or_null::zero(Some(words))
}

pub fn digits(n: u64) -> usize {
    unsafe { doors::digits(n) }
}

pub fn put_bytes(out: &mut [u8], at: usize, bytes: &[u8]) -> usize {
    or_null::put_bytes(Some(out), at, Some(bytes))
}

pub fn put_number(out: &mut [u8], at: usize, n: u64) -> usize {
    or_null::put_number(Some(out), at, n)
}

pub fn read(file: &[u8]) -> Reading {
    or_null::read(Some(file))
}

pub fn write(value: Automaton, out: &mut [u8]) -> Writing {
    or_null::write(value, Some(out))
}

pub fn run(file: &[u8], words: &[u16]) -> ReachedStates {
    or_null::run(Some(file), Some(words))
}

pub fn productive(file: &[u8]) -> ProductiveStates {
    or_null::productive(Some(file))
}

pub fn is_sound(words: &[u32], count: usize, answer: usize) -> bool {
    or_null::is_sound(Some(words), count, answer)
}

pub fn child_count(shape: Shape) -> u32 {
    unsafe { doors::child_count(shape) }
}

pub fn node_at(words: &[u32], i: usize) -> Node {
    or_null::node_at(Some(words), i)
}

pub fn make(words: &mut [u32], count: usize, shape: Shape) -> Refusal {
    or_null::make(Some(words), count, shape)
}

pub fn measure(words: &[u32], count: usize, answer: usize, scratch: &mut [u32]) -> Measured {
    or_null::measure(Some(words), count, answer, Some(scratch))
}

pub fn list(words: &[u32], count: usize, answer: usize, out: &mut [u8]) -> Listed {
    or_null::list(Some(words), count, answer, Some(out))
}

pub fn convert_partly(file: &[u8], k: u32, nodes: &mut [u32]) -> Partly {
    or_null::convert_partly(Some(file), k, Some(nodes))
}

pub fn convert(file: &[u8], nodes: &mut [u32]) -> Wholly {
    or_null::convert(Some(file), Some(nodes))
}

pub fn printed(file: &[u8], nodes: &mut [u32], out: &mut [u8]) -> Printing {
    or_null::printed(Some(file), Some(nodes), Some(out))
}

/// Each door that is lent a slice, with the choice to lend none: `None` crosses as a null pointer with length 0.
pub mod or_null {
    use crate::*;
    use std::ptr;

    fn to_read<T>(slice: Option<&[T]>) -> (*const T, usize) {
        slice.map_or((ptr::null(), 0), |slice| (slice.as_ptr(), slice.len()))
    }

    fn to_fill<T>(slice: Option<&mut [T]>) -> (*mut T, usize) {
        slice.map_or((ptr::null_mut(), 0), |slice| (slice.as_mut_ptr(), slice.len()))
    }

    pub fn zero(words: Option<&mut [u32]>) {
        let (words, words_len) = to_fill(words);
        unsafe { doors::zero(words, words_len) }
    }

    pub fn put_bytes(out: Option<&mut [u8]>, at: usize, bytes: Option<&[u8]>) -> usize {
        let ((out, out_len), (bytes, bytes_len)) = (to_fill(out), to_read(bytes));
        unsafe { doors::put_bytes(out, out_len, at, bytes, bytes_len) }
    }

    pub fn put_number(out: Option<&mut [u8]>, at: usize, n: u64) -> usize {
        let (out, out_len) = to_fill(out);
        unsafe { doors::put_number(out, out_len, at, n) }
    }

    pub fn read(file: Option<&[u8]>) -> Reading {
        let (file, file_len) = to_read(file);
        unsafe { doors::read(file, file_len) }
    }

    pub fn write(value: Automaton, out: Option<&mut [u8]>) -> Writing {
        let (out, out_len) = to_fill(out);
        unsafe { doors::write(value, out, out_len) }
    }

    pub fn run(file: Option<&[u8]>, words: Option<&[u16]>) -> ReachedStates {
        let ((file, file_len), (words, words_len)) = (to_read(file), to_read(words));
        unsafe { doors::run(file, file_len, words, words_len) }
    }

    pub fn productive(file: Option<&[u8]>) -> ProductiveStates {
        let (file, file_len) = to_read(file);
        unsafe { doors::productive(file, file_len) }
    }

    pub fn is_sound(words: Option<&[u32]>, count: usize, answer: usize) -> bool {
        let (words, words_len) = to_read(words);
        unsafe { doors::is_sound(words, words_len, count, answer) }
    }

    pub fn node_at(words: Option<&[u32]>, i: usize) -> Node {
        let (words, words_len) = to_read(words);
        unsafe { doors::node_at(words, words_len, i) }
    }

    pub fn make(words: Option<&mut [u32]>, count: usize, shape: Shape) -> Refusal {
        let (words, words_len) = to_fill(words);
        unsafe { doors::make(words, words_len, count, shape) }
    }

    pub fn measure(words: Option<&[u32]>, count: usize, answer: usize, scratch: Option<&mut [u32]>) -> Measured {
        let ((words, words_len), (scratch, scratch_len)) = (to_read(words), to_fill(scratch));
        unsafe { doors::measure(words, words_len, count, answer, scratch, scratch_len) }
    }

    pub fn list(words: Option<&[u32]>, count: usize, answer: usize, out: Option<&mut [u8]>) -> Listed {
        let ((words, words_len), (out, out_len)) = (to_read(words), to_fill(out));
        unsafe { doors::list(words, words_len, count, answer, out, out_len) }
    }

    pub fn convert_partly(file: Option<&[u8]>, k: u32, nodes: Option<&mut [u32]>) -> Partly {
        let ((file, file_len), (nodes, nodes_len)) = (to_read(file), to_fill(nodes));
        unsafe { doors::convert_partly(file, file_len, k, nodes, nodes_len) }
    }

    pub fn convert(file: Option<&[u8]>, nodes: Option<&mut [u32]>) -> Wholly {
        let ((file, file_len), (nodes, nodes_len)) = (to_read(file), to_fill(nodes));
        unsafe { doors::convert(file, file_len, nodes, nodes_len) }
    }

    pub fn printed(file: Option<&[u8]>, nodes: Option<&mut [u32]>, out: Option<&mut [u8]>) -> Printing {
        let ((file, file_len), (nodes, nodes_len), (out, out_len)) = (to_read(file), to_fill(nodes), to_fill(out));
        unsafe { doors::printed(file, file_len, nodes, nodes_len, out, out_len) }
    }
}
