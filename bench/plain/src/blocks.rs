//! Bytes searched in blocks: eight at once in a word, and in long runs 128 at once, which the compiler turns into vectors.
//!
//! A search by words marks the high bit of each byte that it looks for. The lowest mark is exact; above it there may be false ones.

/// How many bytes a wide block has.
const WIDE: usize = 128;

/// How many words are examined before wide blocks are.
const WORDS_FIRST: usize = 6;

const LOW_BITS: u64 = 0x0101_0101_0101_0101;
const HIGH_BITS: u64 = 0x8080_8080_8080_8080;

/// A word of eight such bytes.
const fn all(byte: u8) -> u64 {
    LOW_BITS * byte as u64
}

/// Marks the bytes below a limit, which is 128 at most.
const fn below(word: u64, limit: u8) -> u64 {
    word.wrapping_sub(all(limit)) & !word & HIGH_BITS
}

const fn equal(word: u64, byte: u8) -> u64 {
    below(word ^ all(byte), 1)
}

/// Marks the bytes below a space, and DEL.
const fn control(word: u64) -> u64 {
    let is_del = (word & !HIGH_BITS) + LOW_BITS;
    (word.wrapping_sub(all(b' ')) | is_del) & !word & HIGH_BITS
}

/// The place of the lowest mark; 8 if there is no mark.
const fn first(marks: u64) -> usize {
    (marks.trailing_zeros() / 8) as usize
}

/// The first eight bytes as a word, the first of them lowest; padded with zeros.
#[inline]
pub fn front_word(bytes: &[u8]) -> u64 {
    match (bytes.first_chunk(), bytes.first_chunk(), bytes.last_chunk()) {
        (Some(block), _, _) => u64::from_le_bytes(*block),
        (None, Some(low), Some(high)) => {
            let (low, high) = (u32::from_le_bytes(*low), u32::from_le_bytes(*high));
            u64::from(low) | u64::from(high) << (8 * (bytes.len() - 4))
        }
        _ => match bytes {
            [first, .., last] => {
                let middle = bytes.len() / 2;
                u64::from(*first) | u64::from(bytes[middle]) << (8 * middle) | u64::from(*last) << (8 * (bytes.len() - 1))
            }
            [only] => u64::from(*only),
            [] => 0,
        },
    }
}

/// How many bytes of a word precede the first such one; 8 if there is no such byte.
#[inline]
pub fn length_to(word: u64, byte: u8) -> usize {
    first(equal(word, byte))
}

/// Takes the digits at the beginning of a word and appends them to those of a number. Answers how many there are.
#[inline(always)]
pub fn take_digits(word: &mut u64, number: &mut u64) -> usize {
    let mut count = 0;
    loop {
        let digit = (*word as u8).wrapping_sub(b'0');
        if digit > 9 {
            return count;
        }
        *number = *number * 10 + u64::from(digit);
        *word >>= 8;
        count += 1;
    }
}

/// The first bytes of a word, zeros in place of the others; all of it if eight or more are requested.
#[inline]
pub fn first_bytes(word: u64, count: usize) -> u64 {
    match count {
        0..8 => word & ((1 << (8 * count)) - 1),
        _ => word,
    }
}

/// The place of the first byte from `at` on that is marked, or the end.
#[inline]
fn before_mark(bytes: &[u8], mut at: usize, marks_of: impl Fn(u64) -> u64) -> usize {
    let (words, tail) = bytes[at..].as_chunks();
    for word in words {
        let marks = marks_of(u64::from_le_bytes(*word));
        if marks != 0 {
            return at + first(marks);
        }
        at += 8;
    }
    bytes.len().min(at + first(marks_of(front_word(tail))))
}

/// Likewise, for long runs: after the first words, wide blocks without a mark are skipped.
#[inline(always)]
fn before_rare_mark(
    bytes: &[u8],
    at: usize,
    is_free: impl Fn(&[u8; WIDE]) -> bool,
    marks_of: impl Fn(u64) -> u64,
) -> usize {
    let (words, _) = bytes[at..].as_chunks();
    let mut place = at;
    for word in words.iter().take(WORDS_FIRST) {
        let marks = marks_of(u64::from_le_bytes(*word));
        if marks != 0 {
            return place + first(marks);
        }
        place += 8;
    }
    before_far_mark(bytes, place, is_free, marks_of)
}

#[inline(never)]
fn before_far_mark(
    bytes: &[u8],
    at: usize,
    is_free: impl Fn(&[u8; WIDE]) -> bool,
    marks_of: impl Fn(u64) -> u64,
) -> usize {
    let (blocks, _) = bytes[at..].as_chunks();
    let passed = blocks.iter().take_while(|block| is_free(block)).count();
    before_mark(bytes, at + WIDE * passed, marks_of)
}

/// Whether no byte of a block is below a space, or DEL, or this stop.
fn is_free_of_control_and(stop: u8, block: &[u8; WIDE]) -> bool {
    let lowest = |byte: u8| byte.saturating_sub(b' ' - 1).min(byte ^ 127).min(byte ^ stop);
    block.iter().fold(255, |low: u8, &byte| low.min(lowest(byte))) != 0
}

/// The place of the first byte from `at` on that is not solid: below `(` or above `~`.
#[inline]
pub fn behind_solid(bytes: &[u8], at: usize) -> usize {
    before_mark(bytes, at, |word| {
        (word.wrapping_sub(all(b'(')) & !word | word | word.wrapping_add(LOW_BITS)) & HIGH_BITS
    })
}

/// The place of the first byte from `at` on that is below a space, or DEL, or an apostrophe.
pub fn behind_text(bytes: &[u8], at: usize) -> usize {
    before_rare_mark(
        bytes,
        at,
        |block| is_free_of_control_and(b'\'', block),
        |word| control(word) | equal(word, b'\''),
    )
}

/// The place of the first byte from `at` on that is below a space, or DEL.
#[inline]
pub fn behind_comment(bytes: &[u8], at: usize) -> usize {
    before_rare_mark(bytes, at, |block| is_free_of_control_and(127, block), control)
}

/// The place of the first such byte, which is not zero.
#[inline(always)]
pub fn find(bytes: &[u8], byte: u8) -> Option<usize> {
    match length_to(front_word(bytes), byte) {
        8 if bytes.len() > 8 => {
            let place = before_mark(bytes, 8, |word| equal(word, byte));
            (place < bytes.len()).then_some(place)
        }
        8 => None,
        place => Some(place),
    }
}
