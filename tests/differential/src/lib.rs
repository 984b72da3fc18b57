//! What the differential tests share: a seeded generator, random automata, files, trees and tables, lent buffers with margins, the loop
//! that runs cases and counts their outcomes, the way between the library's types and the independent program's, and each entry called on
//! both sides at once.

pub mod automata;
pub mod both;
pub mod built;
pub mod cases;
pub mod crossing;
pub mod files;
pub mod lent;
pub mod published;
pub mod random;
pub mod tables;
pub mod typed;
pub mod words;
