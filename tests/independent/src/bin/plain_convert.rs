//! What the program `convert` is to print for its standard input, by the independent program alone.

use std::io::Read;

fn main() -> std::io::Result<()> {
    let mut input = Vec::new();
    std::io::stdin().read_to_end(&mut input)?;
    print!("{}", independent::printed::program_output(&input));
    Ok(())
}
