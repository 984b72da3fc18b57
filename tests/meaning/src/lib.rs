//! What automata, expressions and partly eliminated lists mean, by brute force up to a size. Numbers in brackets are those of
//! `docs/REQUIREMENTS.md`.
//!
//! Everything here is a set of whole trees, made as that page defines them, with nothing clever. A tree never grows smaller when a hole of
//! it is replaced, since a hole has size 1 as the smallest tree has; so the trees up to a size are made of trees up to that size, and
//! leaving out the larger ones early loses nothing. The types of automata, nodes and lists are those of `independent`, and which trees an
//! automaton accepts is its run's word.

pub mod accepted;
pub mod denoted;
pub mod language;
pub mod listed;
