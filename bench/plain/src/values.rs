//! Points, directions, names and frames, and the numerals that they are read from and written as.

use crate::blocks::{front_word, take_digits};
use std::borrow::Borrow;
use std::rc::Rc;

/// The furthest that a machine goes, in micrometres: the lengths of programs, setups and `SetCsyTransformation`.
pub const VOLUME_LIMIT: i64 = 1_000_000_000;
/// The furthest coordinate that a line on the wire names, in micrometres.
pub const WIRE_LIMIT: i64 = 4_000_000_000;
/// The largest component of a direction, in millionths.
pub const DIRECTION_LIMIT: i64 = 1_000_000_000;

/// The most digits before the exponent of a numeral.
const DIGITS: usize = 30;
/// The most bytes of a name.
const NAME_BYTES: usize = 64;
/// The decimals of a length in millimetres.
const LENGTH_DECIMALS: usize = 3;
/// The decimals of a component of a direction.
const COMPONENT_DECIMALS: usize = 6;

/// A place, or the way from one to another, in micrometres.
#[derive(Clone, Copy, PartialEq, Eq, Debug, Default)]
pub struct Point {
    pub x: i64,
    pub y: i64,
    pub z: i64,
}

/// A direction in millionths; not all three are zero.
#[derive(Clone, Copy, PartialEq, Eq, Debug)]
pub struct Dir {
    pub i: i64,
    pub j: i64,
    pub k: i64,
}

/// The axes in which a place is meant.
#[derive(Clone, Copy, PartialEq, Eq, Debug, Default)]
pub enum Frame {
    #[default]
    Machine,
    /// The axes of a part with this zero point, in machine axes.
    Part(Point),
}

/// The name of a tool, a frame or a feature, its letters capitals; a clone shares the text.
#[derive(Clone, PartialEq, Eq, PartialOrd, Ord, Debug)]
pub struct Name(Rc<str>);

/// Why a text is not a numeral of its kind.
#[derive(Clone, Copy, PartialEq, Eq, Debug)]
pub enum BadNumeral {
    NotNumeral,
    TooManyDigits,
    TooLarge,
}

impl Point {
    pub fn plus(self, other: Point) -> Point {
        Point { x: self.x + other.x, y: self.y + other.y, z: self.z + other.z }
    }

    pub fn minus(self, other: Point) -> Point {
        self.plus(other.negated())
    }

    pub fn negated(self) -> Point {
        Point { x: -self.x, y: -self.y, z: -self.z }
    }

    /// Whether no coordinate is further than this from zero.
    pub fn is_within(self, limit: i64) -> bool {
        [self.x, self.y, self.z].iter().all(|length| length.abs() <= limit)
    }
}

impl Dir {
    /// A direction of these components, unless all are zero.
    pub fn new(i: i64, j: i64, k: i64) -> Option<Dir> {
        (i | j | k != 0).then_some(Dir { i, j, k })
    }
}

impl Frame {
    /// The zero point of the frame in machine axes.
    pub fn offset(self) -> Point {
        match self {
            Frame::Machine => Point::default(),
            Frame::Part(zero) => zero,
        }
    }
}

/// Each byte of a name as it is stored, and 0 for a byte that no name has.
const FOLDED: [u8; 256] = {
    let mut folded = [0; 256];
    let mut byte = 33;
    while byte < 127 {
        if !matches!(byte, b'(' | b')' | b',' | b'\'' | b'"' | b'/' | b'=' | b'$') {
            folded[byte as usize] = byte.to_ascii_uppercase();
        }
        byte += 1;
    }
    folded
};

/// A name in the first bytes of a block, and how many there are; none if the text is not a name.
fn folded(text: &[u8]) -> Option<([u8; NAME_BYTES], usize)> {
    let mut name = [0; NAME_BYTES];
    if text.is_empty() || text.len() > NAME_BYTES {
        return None;
    }
    let mut is_name = true;
    for (kept, byte) in name.iter_mut().zip(text) {
        *kept = FOLDED[usize::from(*byte)];
        is_name &= *kept != 0;
    }
    is_name.then_some((name, text.len()))
}

/// Appends the name of this text to others. Answers whether it is a name; if it is not, appends nothing.
pub fn push_name(text: &[u8], names: &mut Vec<u8>) -> bool {
    let Some((name, length)) = folded(text) else {
        return false;
    };
    names.extend_from_slice(&name[..length]);
    true
}

impl Name {
    /// The name of this text with small letters as capitals; none if it has no byte, more than 64, or one that no name has.
    pub fn read(text: &[u8]) -> Option<Name> {
        let (name, length) = folded(text)?;
        str::from_utf8(&name[..length]).ok().map(|name| Name(name.into()))
    }

    pub fn as_str(&self) -> &str {
        &self.0
    }
}

impl Borrow<str> for Name {
    fn borrow(&self) -> &str {
        &self.0
    }
}

/// Powers of ten.
const TENS: [u64; 8] = {
    let mut tens = [1; 8];
    let mut power = 1;
    while power < 8 {
        tens[power] = tens[power - 1] * 10;
        power += 1;
    }
    tens
};

/// What a numeral says: its digits as a whole number, how many of them follow the point, the exponent, and the sign.
struct Numeral {
    is_negative: bool,
    digits: u128,
    decimals: i32,
    exponent: i32,
}

/// Whether the first byte is a sign, and which; and what follows it.
fn split_sign(text: &[u8]) -> (bool, &[u8]) {
    match text {
        [b'-', rest @ ..] => (true, rest),
        [b'+', rest @ ..] => (false, rest),
        _ => (false, text),
    }
}

/// The exponent of a numeral, after its `E`.
fn exponent(text: &[u8]) -> Option<i32> {
    let (is_negative, digits) = split_sign(text);
    if !(1..=3).contains(&digits.len()) || !digits.iter().all(u8::is_ascii_digit) {
        return None;
    }
    let size = digits.iter().fold(0, |size, digit| size * 10 + i32::from(digit - b'0'));
    Some(if is_negative { -size } else { size })
}

impl Numeral {
    fn read(text: &[u8]) -> Result<Numeral, BadNumeral> {
        let (is_negative, text) = split_sign(text);
        let end = text.iter().position(|byte| matches!(byte, b'e' | b'E'));
        let (front, exponent) = match end {
            Some(end) => (&text[..end], exponent(&text[end + 1..]).ok_or(BadNumeral::NotNumeral)?),
            None => (text, 0),
        };
        let (mut count, mut digits, mut point) = (0, 0u128, None);
        for byte in front {
            match byte {
                b'0'..=b'9' if count < DIGITS => digits = digits * 10 + u128::from(byte - b'0'),
                b'0'..=b'9' => {}
                b'.' if point.is_none() => {
                    point = Some(count);
                    continue;
                }
                _ => return Err(BadNumeral::NotNumeral),
            }
            count += 1;
        }
        match count {
            0 => Err(BadNumeral::NotNumeral),
            1..=DIGITS => {
                let decimals = point.map_or(0, |point| count - point) as i32;
                Ok(Numeral { is_negative, digits, decimals, exponent })
            }
            _ => Err(BadNumeral::TooManyDigits),
        }
    }

    /// The number in units of ten to the power of minus `decimals`, rounded, halves away from zero.
    fn rounded(&self, decimals: usize, limit: i64) -> Result<i64, BadNumeral> {
        let power = self.exponent - self.decimals + decimals as i32;
        let limit = limit as u128;
        let size = match power {
            0.. if self.digits > limit || self.digits > 0 && power > 10 => return Err(BadNumeral::TooLarge),
            0.. => self.digits * 10u128.pow(power.min(10) as u32),
            -30..=-1 => {
                let unit = 10u128.pow(-power as u32);
                (self.digits + unit / 2) / unit
            }
            _ => 0,
        };
        if size > limit {
            return Err(BadNumeral::TooLarge);
        }
        Ok(if self.is_negative { -(size as i64) } else { size as i64 })
    }
}

/// The numeral at the beginning of a text, in units of ten to the power of minus `DECIMALS`, and how many bytes it has. None if
/// a byte other than a comma follows it, or if it has more than eight bytes, an exponent or a plus, is too large or not a numeral.
#[inline(always)]
pub fn read_plain<const DECIMALS: usize>(text: &[u8], limit: i64) -> Option<(i64, usize)> {
    let is_negative = text.first() == Some(&b'-');
    let begin = usize::from(is_negative);
    let (mut word, mut number, mut decimals) = (front_word(text.get(begin..)?), 0, 0);
    let mut length = take_digits(&mut word, &mut number);
    let mut count = length;
    if word as u8 == b'.' {
        word >>= 8;
        decimals = take_digits(&mut word, &mut number);
        count += decimals;
        length = count + 1;
    }
    let at = begin + length;
    if count == 0 || text.get(at).is_some_and(|byte| *byte != b',') {
        return None;
    }
    let size = match DECIMALS.checked_sub(decimals) {
        Some(missing) => number * TENS[missing],
        None => rounded_quotient(number, TENS[(decimals - DECIMALS) & 7]),
    };
    if size > limit as u64 {
        return None;
    }
    Some((if is_negative { -(size as i64) } else { size as i64 }, at))
}

/// A quotient, rounded, halves up.
fn rounded_quotient(number: u64, unit: u64) -> u64 {
    (number + unit / 2) / unit
}

/// The number of a numeral, with that many decimals.
fn read_number<const DECIMALS: usize>(text: &[u8], limit: i64) -> Result<i64, BadNumeral> {
    match read_plain::<DECIMALS>(text, limit) {
        Some((number, length)) if length == text.len() => Ok(number),
        _ => Numeral::read(text)?.rounded(DECIMALS, limit),
    }
}

/// A length in micrometres, of a numeral in millimetres, no further than the limit from zero. No blanks may surround it.
pub fn read_length(text: &[u8], limit: i64) -> Result<i64, BadNumeral> {
    read_number::<LENGTH_DECIMALS>(text, limit)
}

/// A component of a direction, in millionths.
pub fn read_component(text: &[u8]) -> Result<i64, BadNumeral> {
    read_number::<COMPONENT_DECIMALS>(text, DIRECTION_LIMIT)
}

/// Whether this is a numeral of at most 30 digits before the exponent, each of them 0.
pub fn is_zero(text: &[u8]) -> bool {
    Numeral::read(text).is_ok_and(|numeral| numeral.digits == 0)
}

/// The three digits of each number below 1,000, as bytes of a word, the first lowest.
const THREE_DIGITS: [u32; 1_000] = {
    let mut digits = [0; 1_000];
    let mut number = 0;
    while number < 1_000 {
        let bytes = [number / 100, number / 10 % 10, number % 10];
        digits[number as usize] = bytes[0] | bytes[1] << 8 | bytes[2] << 16 | 0x30_3030;
        number += 1;
    }
    digits
};

fn three_digits(number: u64) -> u64 {
    u64::from(THREE_DIGITS[(number % 1_000) as usize])
}

/// A few numerals and what is between them, put together in place.
struct Short {
    bytes: [u8; Short::ROOM],
    length: u32,
}

impl Short {
    /// Room for three numerals of any size, and a block that is put after them.
    const ROOM: usize = 96;

    #[inline]
    fn new() -> Short {
        Short { bytes: [0; Short::ROOM], length: 0 }
    }

    /// Puts the first bytes of a word after the others.
    #[inline]
    fn put_word(&mut self, word: u64, count: usize) {
        let end = self.length as usize;
        if let Some(place) = self.bytes.get_mut(end..end + 8) {
            place.copy_from_slice(&word.to_le_bytes());
        }
        self.length += count as u32;
    }

    /// Puts a text of at most eight bytes after the others.
    #[inline]
    fn put(&mut self, text: &[u8]) {
        self.put_word(front_word(text), text.len());
    }

    /// A whole number without leading zeros.
    #[inline]
    fn put_whole(&mut self, number: u64) {
        if number >= 1_000 {
            self.put_large(number);
        } else {
            let skipped = usize::from(number < 100) + usize::from(number < 10);
            self.put_word(three_digits(number) >> (8 * skipped), 3 - skipped);
        }
    }

    #[cold]
    fn put_large(&mut self, number: u64) {
        self.put_whole(number / 1_000);
        self.put_word(three_digits(number), 3);
    }

    #[inline]
    fn put_length(&mut self, length: i64) {
        if length < 0 {
            self.put(b"-");
        }
        let size = length.unsigned_abs();
        self.put_whole(size / 1_000);
        self.put_word(u64::from(b'.') | three_digits(size) << 8, 4);
    }

    #[inline]
    fn put_component(&mut self, component: i64) {
        if component < 0 {
            self.put(b"-");
        }
        let size = component.unsigned_abs();
        self.put_whole(size / 1_000_000);
        self.put_word(u64::from(b'.') | three_digits(size / 1_000) << 8 | three_digits(size) << 32, 7);
    }

    #[inline]
    fn push_to(&self, out: &mut Vec<u8>) {
        out.extend_from_slice(&self.bytes[..self.length as usize]);
    }
}

/// `X(a), Y(b), Z(c)`
pub fn write_point(out: &mut Vec<u8>, point: Point) {
    let mut short = Short::new();
    short.put(b"X(");
    short.put_length(point.x);
    short.put(b"), Y(");
    short.put_length(point.y);
    short.put(b"), Z(");
    short.put_length(point.z);
    short.put(b")");
    short.push_to(out);
}

/// `, IJK(i, j, k)`
pub fn write_direction(out: &mut Vec<u8>, direction: Dir) {
    let mut short = Short::new();
    short.put(b", IJK(");
    short.put_component(direction.i);
    short.put(b", ");
    short.put_component(direction.j);
    short.put(b", ");
    short.put_component(direction.k);
    short.put(b")");
    short.push_to(out);
}

/// A length in micrometres as millimetres with three decimals.
pub fn write_length(out: &mut Vec<u8>, length: i64) {
    let mut short = Short::new();
    short.put_length(length);
    short.push_to(out);
}

/// Millionths as a numeral with six decimals.
pub fn write_component(out: &mut Vec<u8>, component: i64) {
    let mut short = Short::new();
    short.put_component(component);
    short.push_to(out);
}

/// A whole number without leading zeros.
pub fn write_whole(out: &mut Vec<u8>, number: u64) {
    let mut short = Short::new();
    short.put_whole(number);
    short.push_to(out);
}
