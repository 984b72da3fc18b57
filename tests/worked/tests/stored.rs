//! The stored output of the program `worked` is what the independent implementation gives.

#[test]
fn stored_output_is_the_independent_one() {
    let path = concat!(env!("CARGO_MANIFEST_DIR"), "/../../crates/worked/stdout");
    let stored = std::fs::read_to_string(path).expect("crates/worked/stdout");
    let expected = worked::expected();
    for (number, (stored, expected)) in stored.lines().zip(expected.lines()).enumerate() {
        assert_eq!(stored, expected, "line {}", number + 1);
    }
    assert_eq!(stored, expected);
    println!("worked: {} lines stored, each as the independent implementation has it", stored.lines().count());
}
