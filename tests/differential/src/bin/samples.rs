//! Writes the files of the published automata to a folder: `samples FOLDER`.

use differential::published;
use std::path::PathBuf;

fn main() -> std::io::Result<()> {
    let folder = PathBuf::from(std::env::args().nth(1).expect("the folder to write to"));
    for published in published::all() {
        std::fs::write(folder.join(published.name).with_extension("aut"), published.file())?;
    }
    Ok(())
}
