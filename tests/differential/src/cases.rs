//! The loop over cases.
//!
//! Each case has its own generator, made from the seed, the entry's name and the case's number, so that one case can be run again
//! alone:
//!
//! - `REEFBRACKEN_SEED=n` another seed;
//! - `REEFBRACKEN_CASES=n` another number of cases for each entry;
//! - `REEFBRACKEN_CASE=n` that one case and no other.

use crate::random::Random;
use std::collections::BTreeMap;
use std::time::Instant;

pub const DEFAULT_SEED: u64 = 20_010_915;
pub const DEFAULT_CASES: u64 = 200_000;

/// How a case came out, in a word or two: "done", "refused 4".
pub type Outcome = &'static str;

fn from_environment(name: &str) -> Option<u64> {
    let text = std::env::var(name).ok()?;
    Some(text.parse().unwrap_or_else(|_| panic!("{name} is to be a number, not {text:?}")))
}

pub fn seed() -> u64 {
    from_environment("REEFBRACKEN_SEED").unwrap_or(DEFAULT_SEED)
}

/// The number of cases for an entry: what is asked for, or a share of what the environment says.
pub fn cases(by_default: u64) -> u64 {
    match from_environment("REEFBRACKEN_CASES") {
        Some(asked) => (asked as u128 * by_default as u128 / DEFAULT_CASES as u128).max(1) as u64,
        None => by_default,
    }
}

/// The generator of one case.
pub fn random_of(name: &str, seed: u64, case: u64) -> Random {
    let name = name.bytes().fold(0xcbf2_9ce4_8422_2325u64, |hash, byte| (hash ^ byte as u64).wrapping_mul(0x0000_0100_0000_01b3));
    let mut random = Random::new(seed ^ name);
    let start = random.next();
    Random::new(start ^ case.wrapping_mul(0xd6e8_feb8_6659_fd93))
}

/// Says which case it was where a case panics.
struct Note<'a> {
    name: &'a str,
    seed: u64,
    case: u64,
}

impl Drop for Note<'_> {
    fn drop(&mut self) {
        if std::thread::panicking() {
            let Note { name, seed, case } = self;
            eprintln!("{name}: to see it again: REEFBRACKEN_SEED={seed} REEFBRACKEN_CASE={case}");
        }
    }
}

/// Runs the cases of an entry, prints how many there were and how many came out each way, and fails where two answers differ or where
/// an outcome that can be never was.
pub fn run(name: &str, by_default: u64, possible: &[Outcome], case_of: impl Fn(&mut Random) -> Outcome) {
    let seed = seed();
    let one = from_environment("REEFBRACKEN_CASE");
    let numbers = match one {
        Some(case) => case..case + 1,
        None => 0..cases(by_default),
    };
    let start = Instant::now();
    let mut seen: BTreeMap<Outcome, u64> = possible.iter().map(|&outcome| (outcome, 0)).collect();
    let done = numbers.end - numbers.start;
    for case in numbers {
        let _note = Note { name, seed, case };
        let outcome = case_of(&mut random_of(name, seed, case));
        let count = seen.get_mut(outcome).unwrap_or_else(|| panic!("{name} came out as {outcome:?}, which it cannot"));
        *count += 1;
    }
    summary(name, done, possible, &seen, start);
    if one.is_none() && done >= by_default {
        for (outcome, &count) in &seen {
            assert!(count > 0, "{name}: no case came out as {outcome:?}");
        }
    }
}

fn summary(name: &str, done: u64, possible: &[Outcome], seen: &BTreeMap<Outcome, u64>, start: Instant) {
    let counts: Vec<String> = possible.iter().map(|outcome| format!("{outcome} {}", seen[outcome])).collect();
    println!("{name}: {done} cases in {:.1} s: {}", start.elapsed().as_secs_f64(), counts.join(", "));
}

/// The outcome that a refusal number stands for.
pub fn refusal(number: u8) -> Outcome {
    const NAMES: [Outcome; 10] = [
        "done",
        "refused 1",
        "refused 2",
        "refused 3",
        "refused 4",
        "refused 5",
        "refused 6",
        "refused 7",
        "refused 8",
        "refused 9",
    ];
    NAMES.get(number as usize).copied().unwrap_or("a refusal that there is not")
}
