//! Digests of lists of numbers, so that the stored results stay small.

/// The digest of a list of numbers: each number x takes the digest h to (h * 1000003 + x) mod 1000000007,
/// and h starts at 0.
pub fn digest(numbers: impl IntoIterator<Item = u64>) -> u64 {
    let numbers = numbers.into_iter();
    numbers.fold(0, |h, x| {
        (h * 1_000_003 + x % 1_000_000_007) % 1_000_000_007
    })
}

/// A number with sign as two numbers: 1 if it is negative and 0 otherwise, and then x, or -1 - x if it is
/// negative.
pub fn signed(x: i64) -> [u64; 2] {
    [u64::from(x < 0), if x < 0 { -1 - x } else { x } as u64]
}
