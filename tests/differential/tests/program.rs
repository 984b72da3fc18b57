//! The built program `convert`, from outside: what it prints for valid, damaged, over-long and piecewise inputs.

use differential::cases::{self, Outcome};
use differential::files;
use differential::random::Random;
use independent::printed;
use std::io::{Read, Write};
use std::path::{Path, PathBuf};
use std::process::{Command, Stdio};
use std::time::Duration;

const CASES: u64 = 1_000;

fn program() -> PathBuf {
    let path = Path::new(env!("CARGO_MANIFEST_DIR")).join("../../target/bin/convert");
    assert!(path.exists(), "the program is not there: run `bin/build convert` at the repository's root first");
    path
}

/// What the program prints for an input that comes in these pieces, with a pause between two.
fn output(pieces: &[&[u8]], pause: Duration) -> String {
    let mut child = Command::new(program()).stdin(Stdio::piped()).stdout(Stdio::piped()).spawn().expect("the program starts");
    let mut input = child.stdin.take().expect("its standard input");
    for (place, piece) in pieces.iter().enumerate() {
        if place > 0 {
            std::thread::sleep(pause);
        }
        // A program that has seen enough may have closed its end.
        if input.write_all(piece).and_then(|()| input.flush()).is_err() {
            break;
        }
    }
    drop(input);
    let mut text = String::new();
    child.stdout.take().expect("its standard output").read_to_string(&mut text).expect("plain text");
    assert!(child.wait().expect("the program ends").success(), "the program ends well");
    text
}

/// An input, and whether it is longer than the program looks at.
fn input(random: &mut Random) -> Vec<u8> {
    let mut bytes = files::file(random, 6);
    match random.below(12) {
        0 => bytes.resize(random.pick(&[4095, 4096, 4097, 5000, 70_000, 200_000]), random.pick(&[0, 1, 9])),
        1 => bytes = (0..random.pick(&[4096, 4097, 9000])).map(|_| random.next() as u8).collect(),
        2 => bytes.clear(),
        _ => {}
    }
    bytes
}

/// The input cut in pieces: whole, byte by byte, or in a few.
fn pieces<'a>(random: &mut Random, bytes: &'a [u8]) -> Vec<&'a [u8]> {
    match random.below(3) {
        0 if bytes.len() > 1 => bytes.chunks(random.between(1, bytes.len())).take(40_000).collect(),
        1 if bytes.len() < 800 => bytes.chunks(random.pick(&[1, 2, 3, 7])).collect(),
        _ => vec![bytes],
    }
}

fn outcome(text: &str, pieces: usize, length: usize) -> Outcome {
    match text {
        _ if length > printed::MOST_INPUT => "over-long",
        "refused 1\n" => "refused 1",
        "refused 2\n" => "refused 2",
        "refused 3\n" => "refused 3",
        "refused 4\n" => "refused 4",
        "refused 5\n" => "refused 5",
        _ if pieces > 1 => "listing, of an input in pieces",
        _ => "listing",
    }
}

#[test]
fn prints_what_it_is_to_print() {
    let possible = [
        "listing",
        "listing, of an input in pieces",
        "refused 1",
        "refused 2",
        "refused 3",
        "refused 4",
        "refused 5",
        "over-long",
    ];
    cases::run("program", CASES, &possible, |random| {
        let bytes = input(random);
        let pieces = pieces(random, &bytes);
        let pause = if pieces.len() < 20 { Duration::from_millis(1) } else { Duration::ZERO };
        let found = output(&pieces, pause);
        let expected = printed::program_output(&bytes);
        assert_eq!(found, expected, "the program on {} bytes in {} pieces", bytes.len(), pieces.len());
        outcome(&found, pieces.len(), bytes.len())
    });
}
