//! Lists of numbers: as people type them, as the library takes them, and in words.
use std::ops::RangeInclusive;

/// Decimal digits and nothing else: `parse` alone would take a plus sign.
pub fn decimal(text: &str) -> Option<u64> {
    let digits = text.bytes().all(|byte| byte.is_ascii_digit());
    text.parse().ok().filter(|_| digits)
}

/// An item of a list: a number like `2`, or a range like `0-2`. `read` reads each number.
pub fn range(item: &str, read: impl Fn(&str) -> Option<u64>) -> Option<RangeInclusive<u64>> {
    let (first, last) = item.split_once('-').unwrap_or((item, item));
    Some(read(first)?..=read(last)?)
}

/// Why a range can't be meant, if so: no array has more than 64 disks or symbols, and what nobody could mean isn't counted out.
pub fn fault(range: &RangeInclusive<u64>) -> Option<&'static str> {
    match range.end().checked_sub(*range.start()) {
        None => Some("falls: a range goes from the lower number to the higher"),
        Some(256..) => Some("is more than any array has"),
        Some(_) => None,
    }
}

/// The numbers, rising, each once.
pub fn rising(numbers: impl Iterator<Item = u64>) -> Vec<u64> {
    let mut numbers: Vec<u64> = numbers.collect();
    numbers.sort_unstable();
    numbers.dedup();
    numbers
}

/// A list for the library, which takes bytes. No array has a disk or a symbol 255, so that this stands for larger numbers too.
pub fn as_bytes(numbers: &[u64]) -> Vec<u8> {
    numbers.iter().map(|&number| u8::try_from(number).unwrap_or(u8::MAX)).collect()
}

/// Things in a sentence: `a`, `a and b`, `a, b and c`.
pub fn listed(things: &[String]) -> String {
    match things {
        [] => String::new(),
        [one] => one.clone(),
        [some @ .., last] => format!("{} and {last}", some.join(", ")),
    }
}
