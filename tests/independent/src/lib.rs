//! What is asked, `docs/REQUIREMENTS.md`, once more, in plain Rust.
//!
//! This is written from what is asked, and not from the proved crates, so that the two can be held against each other. Where it cannot
//! stand apart from them, `tests/README.md` says so. It is meant to be read beside that page: a comment ends with the numbers of the items
//! that it follows, as in [3.9], and where a plain way and a fast way differ it goes the plain way.

pub mod automaton;
pub mod elimination;
pub mod file;
pub mod listing;
pub mod printed;
pub mod sets;
pub mod table;
pub mod trees;
pub mod writing;

/// The refusal numbers [4.0 to 4.9].
pub mod refusal {
    pub const DONE: u8 = 0;
    pub const ENDS_EARLY: u8 = 1;
    pub const KIND: u8 = 2;
    pub const LENGTH: u8 = 3;
    pub const VALUE: u8 = 4;
    pub const BYTES_AFTER: u8 = 5;
    pub const TOO_SHORT: u8 = 6;
    pub const NOT_A_TREE: u8 = 7;
    pub const NOT_SOUND: u8 = 8;
    pub const TOO_MANY_STEPS: u8 = 9;
}
