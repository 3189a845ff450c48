//! What the measured programs make up and sum (bench/WORK.md).

use crate::line::Tag;
use crate::values::Point;

/// The count of standard tags that are used.
const TAGS: u64 = 9_999;

/// The point of a number.
pub fn place(number: u64) -> Point {
    let coordinate = |number: u64| (number % 1_000_000) as i64;
    Point { x: coordinate(number), y: coordinate(number / 3), z: coordinate(number / 7) }
}

/// The tag of a line or a round.
pub fn tag(number: u64) -> Tag {
    Tag::standard((number % TAGS + 1) as u32)
}

/// A sum with one number more.
pub fn summed(sum: u64, number: u64) -> u64 {
    sum.wrapping_mul(31).wrapping_add(number)
}

/// A sum with bytes more.
pub fn summed_bytes(sum: u64, bytes: &[u8]) -> u64 {
    bytes.iter().fold(sum, |sum, byte| summed(sum, u64::from(*byte)))
}
