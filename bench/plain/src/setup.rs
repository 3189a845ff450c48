//! Setups (docs/FILES.md): the tools of a rack, the frames of fixtures, the shifts of a simulated machine.

use crate::values::{Name, Point, VOLUME_LIMIT, read_length};
use std::collections::{BTreeMap, BTreeSet};
use std::fmt;

/// What a machine has.
#[derive(Debug, Default)]
pub struct Setup {
    pub tools: BTreeSet<Name>,
    /// The zero point of each stored frame in machine axes.
    pub frames: BTreeMap<Name, Point>,
    pub shifts: Vec<Point>,
}

/// Why a setup is refused.
#[derive(Clone, Copy, PartialEq, Eq, Debug)]
pub enum SetupRefusal {
    BadLine,
    Twice,
    BadNumeral,
}

impl fmt::Display for SetupRefusal {
    fn fmt(&self, out: &mut fmt::Formatter) -> fmt::Result {
        out.write_str(match self {
            SetupRefusal::BadLine => "S1 BadLine",
            SetupRefusal::Twice => "S2 Twice",
            SetupRefusal::BadNumeral => "S3 BadNumeral",
        })
    }
}

/// The words with which a line begins.
#[derive(Clone, Copy, PartialEq, Eq)]
enum Word {
    Tool,
    Frame,
    Shift,
}

const WORDS: [(&[u8], Word); 3] = [
    (b"TOOL", Word::Tool),
    (b"FRAME", Word::Frame),
    (b"SHIFT", Word::Shift),
];

/// The most fields of a line.
const FIELDS: usize = 5;

/// The fields of a line, if it has from one to that many and no space at either end.
fn fields<'t>(line: &'t [u8], fields: &mut [&'t [u8]; FIELDS]) -> Option<usize> {
    if line.first() == Some(&b' ') || line.last() == Some(&b' ') {
        return None;
    }
    let mut count = 0;
    for field in line.split(|byte| *byte == b' ').filter(|field| !field.is_empty()) {
        *fields.get_mut(count)? = field;
        count += 1;
    }
    Some(count)
}

fn name(text: &[u8]) -> Result<Name, SetupRefusal> {
    Name::read(text).ok_or(SetupRefusal::BadLine)
}

fn point(fields: &[&[u8]]) -> Result<Point, SetupRefusal> {
    let length = |field| read_length(field, VOLUME_LIMIT).map_err(|_| SetupRefusal::BadNumeral);
    match *fields {
        [x, y, z] => Ok(Point { x: length(x)?, y: length(y)?, z: length(z)? }),
        _ => Err(SetupRefusal::BadLine),
    }
}

impl Setup {
    /// The setup of a text, or why it is not one and on which line, counted from 1.
    pub fn read(text: &[u8]) -> Result<Setup, (SetupRefusal, usize)> {
        let mut setup = Setup::default();
        for (index, line) in text.split_inclusive(|byte| *byte == b'\n').enumerate() {
            let line = match line {
                [line @ .., b'\r', b'\n'] | [line @ .., b'\n'] => line,
                _ => line,
            };
            if !line.is_empty() && line[0] != b'#' {
                setup.read_line(line).map_err(|refusal| (refusal, index + 1))?;
            }
        }
        Ok(setup)
    }

    fn read_line(&mut self, line: &[u8]) -> Result<(), SetupRefusal> {
        let mut found = [&line[..0]; FIELDS];
        let count = fields(line, &mut found).ok_or(SetupRefusal::BadLine)?;
        let word = WORDS.iter().find(|(word, _)| found[0].eq_ignore_ascii_case(word));
        let is_new = match (word.map(|(_, word)| word), &found[1..count]) {
            (Some(Word::Tool), [tool]) => self.tools.insert(name(tool)?),
            (Some(Word::Frame), [frame, zero @ ..]) if zero.len() == 3 => {
                let (frame, zero) = (name(frame)?, point(zero)?);
                self.frames.insert(frame, zero).is_none()
            }
            (Some(Word::Shift), shift) => {
                self.shifts.push(point(shift)?);
                true
            }
            _ => return Err(SetupRefusal::BadLine),
        };
        if is_new { Ok(()) } else { Err(SetupRefusal::Twice) }
    }
}
