//! `check`: the command lines of a program, as they are sent on a new connection.

use crate::line::{Tag, write_command};
use crate::plan::Plan;
use crate::program::Program;
use std::io::{self, Write};

/// This many bytes are written at once, or a line more.
const PIECE: usize = 1 << 16;

/// Writes the lines of all commands of a program.
pub fn print(program: &Program, out: &mut impl Write) -> io::Result<()> {
    let mut plan = Plan::new(program, 0, true);
    let mut lines = Vec::with_capacity(PIECE + PIECE / 8);
    let first = Tag::standard(1);
    let mut tag = first;
    while let Some(planned) = plan.next(program) {
        write_command(&mut lines, tag, &planned.command());
        tag = tag.following().unwrap_or(first);
        lines.push(b'\n');
        if lines.len() >= PIECE {
            out.write_all(&lines)?;
            lines.clear();
        }
    }
    out.write_all(&lines)?;
    out.flush()
}
