//! Sets of symbols as 128 bits.

/// The set whose bits are in two words.
pub fn of_words(low: u64, high: u64) -> u128 {
    u128::from(high) << 64 | u128::from(low)
}

/// Whether it has a number.
pub fn has(set: u128, number: usize) -> bool {
    number < 128 && set >> number & 1 == 1
}

/// Its numbers, rising.
pub fn members(set: u128) -> impl Iterator<Item = usize> {
    (0..128).filter(move |&number| has(set, number))
}
