//! Prints what the program `worked` must print, by the independent implementation alone: `crates/worked/stdout` was made by this.

fn main() {
    print!("{}", worked::expected());
}
