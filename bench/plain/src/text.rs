//! From the bytes of a program to its statements (docs/DMIS.md): lines, comments, texts and joints.

use crate::blocks::{behind_comment, behind_solid, behind_text, find};
use crate::program::Refusal;

/// The most bytes of a line without its end.
const LINE_BYTES: usize = 4_096;

pub fn is_blank(byte: u8) -> bool {
    byte == b' ' || byte == b'\t'
}

/// A text without the blanks at both ends.
pub fn trimmed(mut text: &[u8]) -> &[u8] {
    while let [first, rest @ ..] = text
        && is_blank(*first)
    {
        text = rest;
    }
    trimmed_end(text)
}

fn trimmed_end(mut text: &[u8]) -> &[u8] {
    while let [rest @ .., last] = text
        && is_blank(*last)
    {
        text = rest;
    }
    text
}

/// A statement, free of comments and joints.
#[derive(Clone, Copy, Debug)]
pub struct Statement<'t> {
    /// All of it, without blanks at both ends; not empty.
    pub text: &'t [u8],
    /// Whether there is an apostrophe in it.
    pub has_texts: bool,
    /// Whether a text is left open at its end.
    pub is_open: bool,
}

/// What a line has before its comment.
struct Part<'t> {
    text: &'t [u8],
    has_texts: bool,
    /// Whether a text is open at its end.
    is_open: bool,
}

/// The statements of a text, one after the other.
pub struct Statements<'t> {
    /// What is not read yet.
    rest: &'t [u8],
    /// How many lines were read.
    lines: usize,
    /// The line on which the last statement began, or the one that was refused.
    begun: usize,
    /// The parts of a continued statement.
    joined: Vec<u8>,
}

impl<'t> Statements<'t> {
    pub fn of(text: &'t [u8]) -> Statements<'t> {
        Statements { rest: text, lines: 0, begun: 0, joined: Vec::new() }
    }

    /// The line on which the last statement begins, or the one that was refused.
    pub fn line(&self) -> usize {
        self.begun
    }

    /// How many lines were read.
    pub fn lines(&self) -> usize {
        self.lines
    }

    /// The next statement; none at the end of the text.
    #[inline(always)]
    pub fn next(&mut self) -> Result<Option<Statement<'_>>, Refusal> {
        while !self.rest.is_empty() {
            let solid = behind_solid(self.rest, 0);
            let end = behind_blanks_and_comment(self.rest, solid);
            let Some(rest) = behind_line_end(self.rest, end).filter(|_| end <= LINE_BYTES) else {
                return self.next_of_any(solid);
            };
            let text = &self.rest[..solid];
            self.rest = rest;
            self.lines += 1;
            if solid > 0 {
                self.begun = self.lines;
                return Ok(Some(Statement { text, has_texts: false, is_open: false }));
            }
        }
        Ok(None)
    }

    /// Likewise if the first line has more than solid bytes, blanks and a comment; how many solid bytes it begins with is known.
    fn next_of_any(&mut self, solid: usize) -> Result<Option<Statement<'_>>, Refusal> {
        let part = self.take_line(false, solid)?;
        self.begun = self.lines;
        let text = trimmed(part.text);
        if let [front @ .., b'$'] = text {
            self.joined.clear();
            self.joined.extend_from_slice(front);
            return self.join(part);
        }
        Ok(Some(Statement { text, has_texts: part.has_texts, is_open: part.is_open }))
    }

    /// The statement of the parts that are joined to a first one.
    fn join(&mut self, first: Part) -> Result<Option<Statement<'_>>, Refusal> {
        let Part { text, mut has_texts, mut is_open } = first;
        self.push_blanks(text);
        while !self.rest.is_empty() {
            let part = self.take_line(is_open, 0)?;
            let text = trimmed_end(part.text);
            if text.is_empty() {
                continue;
            }
            has_texts |= part.has_texts;
            is_open = part.is_open;
            let [front @ .., b'$'] = text else {
                self.joined.extend_from_slice(text);
                break;
            };
            self.joined.extend_from_slice(front);
            self.push_blanks(part.text);
        }
        let text = trimmed(&self.joined);
        Ok((!text.is_empty()).then_some(Statement { text, has_texts, is_open }))
    }

    /// Puts the blanks that end a part after its beginning.
    fn push_blanks(&mut self, part: &[u8]) {
        self.joined.extend_from_slice(&part[trimmed_end(part).len()..]);
    }

    /// Takes a line, and answers what precedes its comment; its first bytes, the given number, are known to be solid. If it is
    /// refused, its number is kept.
    #[inline(always)]
    fn take_line(&mut self, is_open: bool, at: usize) -> Result<Part<'t>, Refusal> {
        self.lines += 1;
        let (part, end) = read_part(self.rest, is_open, at);
        let refusal = match behind_line_end(self.rest, end) {
            Some(rest) if end <= LINE_BYTES => {
                self.rest = rest;
                return Ok(part);
            }
            Some(_) => Refusal::LineTooLong,
            None => refusal_of_bad(self.rest),
        };
        self.begun = self.lines;
        Err(refusal)
    }
}

/// What follows the line that ends at this place, if it does.
#[inline]
fn behind_line_end(text: &[u8], end: usize) -> Option<&[u8]> {
    match text.get(end..)? {
        [b'\r', b'\n', rest @ ..] | [b'\n', rest @ ..] => Some(rest),
        [] => Some(&[]),
        _ => None,
    }
}

/// The part of the first line of a text, and the place after the line: its end, a bad byte or the end of the text.
#[inline]
fn read_part(text: &[u8], mut is_open: bool, mut at: usize) -> (Part<'_>, usize) {
    let mut has_texts = is_open;
    loop {
        if is_open {
            at = behind_text(text, at);
        }
        match text.get(at) {
            Some(b'\'') => {
                is_open = !is_open;
                has_texts = true;
                at += 1;
            }
            Some(b'$') if text.get(at + 1) == Some(&b'$') => {
                return (Part { text: &text[..at], has_texts, is_open }, comment_end(text, at));
            }
            Some(b' '..=b'&' | b'\t') => at += 1,
            Some(b'('..=b'~') => at = behind_solid(text, at),
            _ => return (Part { text: &text[..at], has_texts, is_open }, at),
        }
    }
}

/// The place after the blanks at a place outside texts, and after the comment that then begins, if one does.
#[inline]
fn behind_blanks_and_comment(text: &[u8], mut at: usize) -> usize {
    while text.get(at).is_some_and(|byte| is_blank(*byte)) {
        at += 1;
    }
    match text.get(at..) {
        Some([b'$', b'$', ..]) => comment_end(text, at),
        _ => at,
    }
}

fn comment_end(text: &[u8], at: usize) -> usize {
    let mut end = behind_comment(text, at);
    while text.get(end) == Some(&b'\t') {
        end = behind_comment(text, end + 1);
    }
    end
}

/// Why the first line of a text is refused, if there is a bad byte in it.
fn refusal_of_bad(text: &[u8]) -> Refusal {
    let line = match find(text, b'\n') {
        Some(end) => text[..end].strip_suffix(b"\r").unwrap_or(&text[..end]),
        None => text,
    };
    if line.len() > LINE_BYTES { Refusal::LineTooLong } else { Refusal::BadByte }
}
