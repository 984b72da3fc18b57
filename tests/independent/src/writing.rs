//! Bytes and numbers written into lent bytes [2.11, 2.12].

/// Puts the bytes at a place, where they fit, and gives the place after them; else nothing changes, and the place is the one that was
/// given [2.11].
pub fn put_bytes(out: &mut [u8], at: usize, bytes: &[u8]) -> usize {
    // No sum of two places passes 128 bits.
    if at as u128 + bytes.len() as u128 > out.len() as u128 {
        return at;
    }
    for (place, &byte) in bytes.iter().enumerate() {
        out[at + place] = byte;
    }
    at + bytes.len()
}

/// The decimal digits of a number, the highest first [2.12].
pub fn decimal(n: u64) -> Vec<u8> {
    let mut digits = vec![b'0' + (n % 10) as u8];
    let mut left = n / 10;
    while left > 0 {
        digits.push(b'0' + (left % 10) as u8);
        left /= 10;
    }
    digits.reverse();
    digits
}

/// How many decimal digits a number has [2.12].
pub fn digits(n: u64) -> usize {
    decimal(n).len()
}

/// Puts a number's digits at a place [2.12].
pub fn put_number(out: &mut [u8], at: usize, n: u64) -> usize {
    put_bytes(out, at, &decimal(n))
}
