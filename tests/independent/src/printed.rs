//! What the program prints, which is the listing of the converted file, or a line with the refusal's number [9.9 to 9.13].

use crate::elimination;
use crate::file;
use crate::listing;
use crate::refusal::*;

/// How much of its input the program looks at [9.10].
pub const MOST_INPUT: usize = 4096;

/// The text for a file [9.11].
pub fn text(bytes: &[u8]) -> String {
    match file::read(bytes) {
        Err(number) => format!("refused {number}\n"),
        Ok(automaton) => {
            let (nodes, answer) = elimination::converted(&automaton);
            listing::listing(&nodes, answer)
        }
    }
}

/// What the program prints for what stands on its standard input [9.9].
pub fn program_output(input: &[u8]) -> String {
    text(&input[..input.len().min(MOST_INPUT)])
}

/// The text put into lent bytes: the refusal and the length. A file's own refusal stands in the text; 6 is for room alone, of the
/// nodes or of the bytes, and then the node table is all 0 [4.22]. A refused file makes no nodes, and where its line fits the words stay
/// [9.13].
pub fn printed(bytes: &[u8], words: &mut [u32], out: &mut [u8]) -> (u8, usize) {
    let text = text(bytes);
    let room = match file::read(bytes) {
        Err(_) => true,
        Ok(automaton) => elimination::put_nodes(&elimination::converted(&automaton).0, words),
    };
    if !room || out.len() < text.len() {
        words.fill(0);
        return (TOO_SHORT, 0);
    }
    out[..text.len()].copy_from_slice(text.as_bytes());
    (DONE, text.len())
}
