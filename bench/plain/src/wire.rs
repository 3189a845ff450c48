//! Lines that are written, cut into pieces, and read (bench/WORK.md).

use crate::framing::Lines;
use crate::line::{Command, LINE_END, read_command, read_response, write_command, write_complete, write_received};
use crate::sums::{place, tag};

/// How many commands or responses are read of that many that were written and came in such pieces; none if one is refused.
pub fn count_lines(are_commands: bool, lines: u64, piece: usize) -> Option<u64> {
    if are_commands {
        read_pieces(&commands(lines), piece, |line| read_command(line).is_some_and(|asked| asked.command.is_ok()))
    } else {
        read_pieces(&responses(lines), piece, |line| read_response(line).is_some())
    }
}

fn commands(lines: u64) -> Vec<u8> {
    let mut text = Vec::new();
    for number in 0..lines {
        write_command(&mut text, tag(number), &Command::GoTo(place(number)));
        text.extend_from_slice(LINE_END);
    }
    text
}

fn responses(lines: u64) -> Vec<u8> {
    let mut text = Vec::new();
    for number in 0..lines {
        if number % 2 == 0 {
            write_received(&mut text, tag(number));
        } else {
            write_complete(&mut text, tag(number));
        }
    }
    text
}

/// How many lines are read.
fn read_pieces(text: &[u8], piece: usize, is_read: impl Fn(&[u8]) -> bool) -> Option<u64> {
    let mut lines = Lines::default();
    let mut count = 0;
    for piece in text.chunks(piece.max(1)) {
        lines.feed(piece);
        while let Some(line) = lines.first_line().ok()? {
            if !is_read(line) {
                return None;
            }
            lines.drop_line();
            count += 1;
        }
    }
    Some(count)
}
