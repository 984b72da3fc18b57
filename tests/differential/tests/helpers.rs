//! The small functions beside the entries, which refuse nothing: bytes and numbers written at a place, a node read out of lent words, the
//! child words that a node uses, and words cleared. On random cases, and on cases whose outcomes are typed by hand.

use differential::both;
use differential::cases::{self, DEFAULT_CASES};
use differential::lent::{Buffer, Lent};
use differential::random::Random;
use differential::tables;
use differential::typed::{all_are, holding, sevens};
use independent::table::{self, WORDS_A_NODE};
use std::time::Instant;

const MAX: usize = usize::MAX;

/// How long a lent buffer of bytes is: short for the most part, now and then past 256 or past 65,536.
fn length(random: &mut Random) -> usize {
    match random.below(2000) {
        0 => random.between(65_500, 65_600),
        1..=20 => random.between(200, 300),
        _ => random.below(48),
    }
}

/// How a writing came out that was to end at `end`, the place and the number of bytes added without a limit.
fn written(end: u128, length: usize, found: usize, at: usize) -> cases::Outcome {
    assert_eq!(found as u128, if end <= length as u128 { end } else { at as u128 }, "the place that is returned");
    match end {
        _ if end == length as u128 => "fits to the end",
        _ if end == length as u128 + 1 => "does not fit by one",
        _ if end > u64::MAX as u128 => "does not fit, past 64 bits",
        _ if end > length as u128 => "does not fit",
        _ => "fits",
    }
}

const WRITTEN: [cases::Outcome; 5] =
    ["fits", "fits to the end", "does not fit", "does not fit by one", "does not fit, past 64 bits"];

#[test]
fn put_bytes() {
    cases::run("put_bytes", DEFAULT_CASES, &WRITTEN, |random| {
        let room = length(random);
        let count = if random.once_in(2) { random.below(room + 4) } else { random.below(12) };
        let at = random.place(room, count);
        let found = both::put_bytes(&mut Lent::patterned(random, room), at, &Lent::patterned(random, count));
        written(at as u128 + count as u128, room, found, at)
    });
}

/// Every length of both buffers to 40 and every place to 42, and places at the end of what 64 bits hold.
#[test]
fn put_bytes_of_all_lengths() {
    let start = Instant::now();
    let random = &mut Random::new(1);
    let (mut fits, mut does_not) = (0, 0);
    for room in 0..=40 {
        for count in 0..=40 {
            let (out, bytes) = (Lent::patterned(random, room), Lent::patterned(random, count));
            for at in (0..=42).chain([MAX - 40, MAX - count, (MAX - count).saturating_add(1), MAX]) {
                let found = both::put_bytes(&mut out.clone(), at, &bytes);
                if found == at.wrapping_add(count) && at <= room {
                    fits += 1;
                } else {
                    does_not += 1;
                }
            }
        }
    }
    // A buffer of n bytes and m bytes to put have n - m + 1 places where they fit, if m is not larger than n: 1 + 2 + .. + (n + 1) for
    // each n to 40, in all 41 × 42 × 43 / 6.
    assert_eq!(fits, 12_341);
    println!("put_bytes, all lengths: {fits} fit, {does_not} do not, in {:.1} s", start.elapsed().as_secs_f64());
}

#[test]
fn put_number() {
    let outcomes = [&WRITTEN[..], &["fits, 20 digits"]].concat();
    cases::run("put_number", DEFAULT_CASES, &outcomes, |random| {
        let (room, n) = (length(random), random.long());
        let text = n.to_string();
        let at = random.place(room, text.len());
        let mut out = Lent::<u8>::patterned(random, room);
        let found = both::put_number(&mut out, at, n);
        match written(at as u128 + text.len() as u128, room, found, at) {
            "fits" | "fits to the end" if &out.cells()[at..found] != text.as_bytes() => panic!("{n} is not what was written"),
            "fits" if text.len() == 20 => "fits, 20 digits",
            outcome => outcome,
        }
    });
}

/// Every number below a million, each in a buffer of its own: written where it fits, and in a buffer one byte shorter.
#[test]
fn put_number_below_a_million() {
    let start = Instant::now();
    let lent: Vec<Lent<u8>> = (0..10).map(sevens).collect();
    for n in 0..1_000_000 {
        let text = n.to_string();
        let digits = both::digits(n);
        assert_eq!(digits, text.len(), "digits of {n}");
        let mut out = lent[1 + digits].clone();
        assert_eq!(both::put_number(&mut out, 1, n), 1 + digits);
        assert!(out.cells()[0] == 7 && &out.cells()[1..] == text.as_bytes(), "{n}: {:?}", out.cells());
        let mut out = lent[digits].clone();
        assert_eq!(both::put_number(&mut out, 1, n), 1);
        assert!(all_are(&out, 7), "{n} where it does not fit: {:?}", out.cells());
    }
    println!("put_number, 0 to 999999: each fits once and once does not, in {:.1} s", start.elapsed().as_secs_f64());
}

/// The same one after the other in one buffer. Of one digit there are 10, of two 90, and so on: 5,888,890 digits.
#[test]
fn numbers_one_after_the_other() {
    let mut out = vec![7; 5_888_891];
    let mut at = 0;
    for n in 0..1_000_000 {
        at = library::put_number(&mut out, at, n);
    }
    assert_eq!(at, 5_888_890);
    let text: String = (0..1_000_000).map(|n: u32| n.to_string()).collect();
    assert!(&out[..at] == text.as_bytes() && out[at] == 7, "the digits, and the byte after them as lent");
    assert_eq!(library::put_number(&mut out, at, 10), at, "no room for two digits");
    assert_eq!(library::put_number(&mut out, at, 9), at + 1, "room for one");
}

#[test]
fn digits() {
    cases::run("digits", DEFAULT_CASES, &["1 digit", "2 to 10 digits", "11 to 19 digits", "20 digits"], |random| {
        let n = random.long();
        let found = both::digits(n);
        assert_eq!(found, n.to_string().len(), "digits of {n}");
        match found {
            1 => "1 digit",
            2..=10 => "2 to 10 digits",
            11..=19 => "11 to 19 digits",
            _ => "20 digits",
        }
    });
}

/// Words whose number lies around that of a few whole nodes, and any number for a node.
#[test]
fn node_at() {
    let outcomes = ["whole", "whole, the last words", "not whole, one word missing", "not whole", "not whole, past 64 bits"];
    cases::run("node_at", DEFAULT_CASES, &outcomes, |random| {
        let nodes = if random.once_in(1000) { random.between(4000, 4200) } else { random.below(6) };
        let length = (WORDS_A_NODE * nodes + random.below(13)).saturating_sub(6);
        let words = match random.below(3) {
            0 => Lent::patterned(random, length),
            _ => {
                let words: Vec<u32> = (0..length).map(|_| random.number()).collect();
                Lent::holding(random, &words)
            }
        };
        let number = match random.below(4) {
            0 => random.huge(),
            1 => random.pick(&[1 << 31, 1 << 32, 1 << 63, MAX / 3, MAX / 6 * 5]) + random.below(nodes + 3),
            2 => nodes.saturating_sub(random.below(2)),
            _ => random.below(nodes + 2),
        };
        let found = both::node_at(&words, number);
        let end = WORDS_A_NODE as u128 * (number as u128 + 1);
        match end {
            _ if end == length as u128 => "whole, the last words",
            _ if end < length as u128 => "whole",
            _ if found != [0; WORDS_A_NODE] => panic!("node {number} of {length} words is {found:?}"),
            _ if end == length as u128 + 1 => "not whole, one word missing",
            _ if end > u64::MAX as u128 => "not whole, past 64 bits",
            _ => "not whole",
        }
    });
}

/// What was made at a number is what is read there.
#[test]
fn node_at_of_tables() {
    cases::run("node_at of tables", DEFAULT_CASES / 10, &["done"], |random| {
        let nodes = tables::nodes(random);
        let words = table::words_of_table(&nodes);
        let number = random.below(nodes.len());
        let lent = Lent::holding(random, &words);
        let found = both::node_at(&lent, number);
        assert_eq!(found, table::words_of_node(&nodes[number]), "node {number}");
        let children = both::child_count(found[0], found[1], [found[2], found[3], found[4]]);
        assert_eq!(children as usize, nodes[number].shape.children().len(), "the children of node {number}");
        "done"
    });
}

#[test]
fn child_count() {
    let outcomes = ["none", "one", "two", "three", "more", "none, of a kind above 5"];
    cases::run("child_count", DEFAULT_CASES, &outcomes, |random| {
        let kind = if random.once_in(4) { random.number() } else { random.below(8) as u32 };
        let label = match random.below(3) {
            0 => 256 * random.below(5) as u32 + random.below(256) as u32,
            _ => random.number(),
        };
        let children = std::array::from_fn(|_| random.number());
        match both::child_count(kind, label, children) {
            0 if kind > 5 => "none, of a kind above 5",
            0 => "none",
            1 => "one",
            2 => "two",
            3 => "three",
            _ => "more",
        }
    });
}

#[test]
fn zero() {
    cases::run("zero", DEFAULT_CASES, &["some words", "no words"], |random| {
        let count = if random.once_in(1000) { random.between(4000, 9000) } else { random.below(40) };
        let mut words = Lent::patterned(random, count);
        both::zero(&mut words);
        assert!(all_are(&words, 0), "every word is 0");
        if count > 0 {
            "some words"
        } else {
            "no words"
        }
    });
}

/// Where bytes are put: how many are lent, the place, the bytes; and what comes of it: the place that is returned, and the bytes lent,
/// where `.` is one that stayed.
#[test]
fn bytes_put_by_hand() {
    let cases = [
        (5, 2, "abc", 5, "..abc"),
        (5, 0, "abc", 3, "abc.."),
        (5, 0, "abcde", 5, "abcde"),
        (5, 3, "abc", 3, "....."),
        (5, 0, "abcdef", 0, "....."),
        (5, 4, "a", 5, "....a"),
        (5, 5, "a", 5, "....."),
        (5, 5, "", 5, "....."),
        (5, 0, "", 0, "....."),
        (5, 6, "", 6, "....."),
        (5, 6, "a", 6, "....."),
        (5, MAX, "", MAX, "....."),
        (5, MAX, "a", MAX, "....."),
        (5, MAX - 1, "ab", MAX - 1, "....."),
        (5, MAX - 2, "abcdef", MAX - 2, "....."),
        (5, 1 << 32, "a", 1 << 32, "....."),
        (5, 1 << 63, "a", 1 << 63, "....."),
        (0, 0, "", 0, ""),
        (0, 0, "a", 0, ""),
        (0, 1, "", 1, ""),
        (0, MAX, "a", MAX, ""),
    ];
    for (length, at, bytes, place, after) in cases {
        let mut out = holding(&vec![b'.'; length]);
        assert_eq!(both::put_bytes(&mut out, at, &holding(bytes.as_bytes())), place, "{bytes:?} at {at} of {length}");
        assert_eq!(out.cells(), after.as_bytes(), "{bytes:?} at {at} of {length}");
    }
}

/// Each number with its digits: two bytes in, with room for just that, with one byte less, and with more; at the end, past it, and far
/// past it.
#[test]
fn numbers_put_by_hand() {
    let numbers = [
        (0, 1, "0"),
        (9, 1, "9"),
        (10, 2, "10"),
        (99, 2, "99"),
        (100, 3, "100"),
        (9_999, 4, "9999"),
        (10_000, 5, "10000"),
        (65_535, 5, "65535"),
        (65_536, 5, "65536"),
        (4_294_967_295, 10, "4294967295"),
        (4_294_967_296, 10, "4294967296"),
        (9_999_999_999_999_999_999, 19, "9999999999999999999"),
        (10_000_000_000_000_000_000, 20, "10000000000000000000"),
        (9_223_372_036_854_775_808, 19, "9223372036854775808"),
        (u64::MAX, 20, "18446744073709551615"),
    ];
    for (n, digits, text) in numbers {
        assert_eq!(both::digits(n), digits, "digits of {n}");
        for (more, left) in [(0, ""), (1, "."), (3, "...")] {
            let mut out = holding(&vec![b'.'; 2 + digits + more]);
            assert_eq!(both::put_number(&mut out, 2, n), 2 + digits, "{n}");
            assert_eq!(out.cells(), format!("..{text}{left}").as_bytes(), "{n}");
        }
        let room = 1 + digits;
        for at in [2, room, room + 1, 1 << 32, 1 << 63, MAX - digits, MAX - digits + 1, MAX] {
            let mut out = sevens(room);
            assert_eq!(both::put_number(&mut out, at, n), at, "{n} at {at} of {room}");
            assert!(all_are(&out, 7), "{n} at {at} of {room}: {:?}", out.cells());
        }
    }
}

/// Every power of ten and the number before it.
#[test]
fn digits_of_powers() {
    for zeros in 1..20 {
        let power = 10u64.pow(zeros);
        assert_eq!(both::digits(power - 1), zeros as usize, "{}", power - 1);
        assert_eq!(both::digits(power), zeros as usize + 1, "{power}");
    }
}

/// The words 1, 2, 3 and so on, so many; the node; and the word that it begins with, or 0 where it is not whole. From `MAX` to 2^31 the
/// six words of the node would begin or end within the lent ones if their places were cut to 64 or to 32 bits.
#[test]
fn nodes_read_by_hand() {
    let cases = [
        (0, 0, 0),
        (5, 0, 0),
        (6, 0, 1),
        (7, 0, 1),
        (6, 1, 0),
        (11, 1, 0),
        (12, 1, 7),
        (13, 1, 7),
        (12, 2, 0),
        (17, 2, 0),
        (18, 2, 13),
        (18, 3, 0),
        (18, MAX, 0),
        (18, MAX / 6, 0),
        (18, MAX / 6 + 1, 0),
        (18, 1 << 63, 0),
        (18, (1 << 63) + 1, 0),
        (18, 1 << 32, 0),
        (18, 1 << 31, 0),
        (24_576, 4_095, 24_571),
        (24_575, 4_095, 0),
        (24_582, 4_096, 24_577),
    ];
    for (length, number, first) in cases {
        let words = holding(&(1..=length).collect::<Vec<u32>>());
        let expected = if first == 0 { [0; 6] } else { std::array::from_fn(|place| first + place as u32) };
        assert_eq!(both::node_at(&words, number), expected, "node {number} of {length} words");
    }
}

#[test]
fn child_words_by_hand() {
    let cases = [
        (0, 0, 0),
        (0, 768, 0),
        (1, 15, 0),
        (1, 256, 0),
        (2, 0, 0),
        (2, 31, 0),
        (2, 255, 0),
        (2, 256, 1),
        (2, 256 + 31, 1),
        (2, 511, 1),
        (2, 512, 2),
        (2, 768 + 31, 3),
        (2, 1023, 3),
        (2, 1024, 4),
        (2, 65_536, 256),
        (2, u32::MAX, 16_777_215),
        (3, 0, 2),
        (3, u32::MAX, 2),
        (4, 0, 2),
        (4, 768, 2),
        (5, 15, 1),
        (5, 768, 1),
        (6, 768, 0),
        (7, 768, 0),
        (8, 768, 0),
        (256 + 2, 768, 0),
        (65_536 + 3, 0, 0),
        (u32::MAX, u32::MAX, 0),
    ];
    for (kind, label, count) in cases {
        for children in [[0; 3], [1, 2, 3], [u32::MAX; 3]] {
            assert_eq!(both::child_count(kind, label, children), count, "kind {kind}, label {label}");
        }
    }
}

/// Every length to 8,500 words, and some beyond.
#[test]
fn words_cleared() {
    let start = Instant::now();
    let all = Lent::<u32>::patterned(&mut Random::new(1), 8_500);
    for length in (0..=8_500).chain([24_575, 24_576, 65_535, 65_536, 65_537, 1 << 20]) {
        let mut words = if length <= 8_500 { holding(&all.cells()[..length]) } else { sevens(length) };
        both::zero(&mut words);
        assert!(all_are(&words, 0), "{length} words");
    }
    println!("zero, 8507 lengths: every word is 0, in {:.1} s", start.elapsed().as_secs_f64());
}
