//! Lines out of bytes that come in pieces (docs/PROTOCOL.md).

/// The most bytes of a line without its end.
pub const LINE_MOST: usize = 65_536;

/// Why bytes are not lines.
#[derive(Clone, Copy, PartialEq, Eq, Debug)]
pub enum Fault {
    LineTooLong,
    BadByte,
}

/// Bytes that wait to be read line by line.
#[derive(Debug, Default)]
pub struct Lines {
    bytes: Vec<u8>,
    /// Where the first line begins.
    begin: usize,
    /// Up to here the first line has no CR and no LF.
    searched: usize,
}

impl Lines {
    /// Appends bytes after all others.
    #[inline]
    pub fn feed(&mut self, piece: &[u8]) {
        if self.begin > self.bytes.len() / 2 {
            self.move_to_front();
        }
        match piece {
            [byte] => self.bytes.push(*byte),
            _ => self.bytes.extend_from_slice(piece),
        }
    }

    /// Removes the bytes of the lines that were taken.
    fn move_to_front(&mut self) {
        self.bytes.copy_within(self.begin.., 0);
        self.bytes.truncate(self.bytes.len() - self.begin);
        self.searched -= self.begin;
        self.begin = 0;
    }

    /// The first line, if it is whole.
    #[inline(always)]
    pub fn first_line(&mut self) -> Result<Option<&[u8]>, Fault> {
        self.searched += match &self.bytes[self.searched..] {
            [byte] => usize::from(!is_break(*byte)),
            unseen => content_length(unseen),
        };
        if self.searched - self.begin > LINE_MOST {
            return Err(Fault::LineTooLong);
        }
        let (front, rest) = self.bytes.split_at(self.searched);
        match rest {
            [] | [b'\r'] => Ok(None),
            [b'\r', b'\n', ..] => Ok(Some(&front[self.begin..])),
            _ => Err(Fault::BadByte),
        }
    }

    /// Takes the line that `first_line` has shown.
    #[inline]
    pub fn drop_line(&mut self) {
        self.begin = self.searched + 2;
        self.searched = self.begin;
    }
}

const LOW_BITS: u64 = 0x0101_0101_0101_0101;
const HIGH_BITS: u64 = 0x8080_8080_8080_8080;

/// How many bytes precede the first CR or LF, or the end.
#[inline(never)]
fn content_length(bytes: &[u8]) -> usize {
    let (blocks, tail) = bytes.as_chunks::<8>();
    for (number, block) in blocks.iter().enumerate() {
        let word = u64::from_le_bytes(*block);
        // Each byte up to CR is marked, and perhaps one after it that is above CR.
        let mut marks = word.wrapping_sub(LOW_BITS * 14) & !word & HIGH_BITS;
        while marks != 0 {
            let place = marks.trailing_zeros() as usize / 8;
            if is_break(block[place]) {
                return 8 * number + place;
            }
            marks &= marks - 1;
        }
    }
    bytes.len() - tail.len() + tail.iter().take_while(|byte| !is_break(**byte)).count()
}

#[inline]
fn is_break(byte: u8) -> bool {
    matches!(byte, b'\r' | b'\n')
}
