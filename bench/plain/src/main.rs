//! A program that does the work of the measured ones, written plainly (bench/WORK.md).
#![forbid(unsafe_code)]

mod blocks;
mod check;
mod client;
mod framing;
mod ledger;
mod line;
mod plan;
mod program;
mod rounds;
mod rows;
mod server;
mod setup;
mod sums;
mod tags;
mod text;
mod touches;
mod values;
mod wire;

use program::Program;
use setup::Setup;
use std::ffi::{OsStr, OsString};
use std::io::{self, ErrorKind, Read, Write};
use std::os::unix::ffi::OsStrExt;
use std::process::ExitCode;

const USAGE: &str = "usage: plain check [--setup FILE] [PROGRAM]
       plain wire commands|responses LINES PIECE
       plain server ROUNDS
       plain client TOUCHES WINDOW
       plain rows
";

/// Why the program ends without having done its work: what it writes on standard error, and its status.
struct Stop {
    told: Vec<u8>,
    status: u8,
}

impl Stop {
    fn new(told: String) -> Stop {
        Stop { told: told.into_bytes(), status: 1 }
    }

    fn usage() -> Stop {
        Stop { told: USAGE.into(), status: 2 }
    }

    /// A file that cannot be read or written.
    fn of_file(deed: &str, name: &OsStr) -> Stop {
        let told = [b"dme: cannot ", deed.as_bytes(), b" ", name.as_bytes(), b"\n"].concat();
        Stop { told, status: 1 }
    }
}

/// Standard input, which is read once: the next time it is empty.
#[derive(Default)]
struct Input {
    is_read: bool,
}

impl Input {
    /// All bytes of a file, or of standard input if the name is `-`.
    fn read(&mut self, name: &OsStr) -> Result<Vec<u8>, Stop> {
        let mut text = Vec::new();
        let result = if name != "-" {
            std::fs::read(name).map(|bytes| text = bytes)
        } else if std::mem::replace(&mut self.is_read, true) {
            Ok(())
        } else {
            io::stdin().lock().read_to_end(&mut text).map(drop)
        };
        match result {
            Ok(()) => Ok(text),
            Err(error) if error.kind() == ErrorKind::OutOfMemory => {
                Err(Stop { told: b"dme: out of memory\n".into(), status: 4 })
            }
            Err(_) => Err(Stop::of_file("read", name)),
        }
    }
}

/// The words after `check`.
struct CheckWords<'w> {
    setup: Option<&'w OsStr>,
    program: &'w OsStr,
}

/// Keeps a word that may occur once.
fn keep<'w>(place: &mut Option<&'w OsStr>, word: &'w OsStr) -> Option<()> {
    place.replace(word).is_none().then_some(())
}

impl CheckWords<'_> {
    fn read(words: &[OsString]) -> Option<CheckWords<'_>> {
        let (mut setup, mut program) = (None, None);
        let (mut words, mut are_literal) = (words.iter(), false);
        while let Some(word) = words.next() {
            let bytes = word.as_bytes();
            if are_literal || bytes == b"-" || !bytes.starts_with(b"-") {
                keep(&mut program, word)?;
            } else if bytes == b"--" {
                are_literal = true;
            } else if bytes == b"--setup" {
                keep(&mut setup, words.next()?)?;
            } else {
                keep(&mut setup, OsStr::from_bytes(bytes.strip_prefix(b"--setup=")?))?;
            }
        }
        Some(CheckWords { setup, program: program.unwrap_or(OsStr::new("-")) })
    }
}

fn check(words: &[OsString]) -> Result<(), Stop> {
    let words = CheckWords::read(words).ok_or_else(Stop::usage)?;
    let mut input = Input::default();
    let setup = match words.setup {
        Some(name) => Setup::read(&input.read(name)?)
            .map_err(|(refusal, line)| Stop::new(format!("dme: {refusal} at line {line} in setup\n")))?,
        None => Setup::default(),
    };
    let program = Program::read(&input.read(words.program)?, &setup)
        .map_err(|(refusal, line)| Stop::new(format!("dme: {refusal} at line {line}\n")))?;
    check::print(&program, &mut io::stdout().lock()).map_err(|_| Stop::of_file("write", OsStr::new("-")))
}

/// What a measured run prints; none if it is refused.
fn measured(words: &[&str]) -> Option<String> {
    match words {
        ["wire", side @ ("commands" | "responses"), lines, piece] => {
            let count = wire::count_lines(*side == "commands", lines.parse().ok()?, piece.parse().ok()?)?;
            Some(format!("{count} {side}\n"))
        }
        ["server", rounds] => {
            let (contacts, sum) = rounds::rounds(rounds.parse().ok()?);
            Some(format!("{contacts} contacts, sum {sum}\n"))
        }
        ["client", touches, window] => {
            let (points, sum) = touches::touches(touches.parse().ok()?, window.parse().ok()?)?;
            Some(format!("{points} points, sum {sum}\n"))
        }
        _ => None,
    }
}

/// Prints a text whole.
fn print(text: &str) -> Result<(), Stop> {
    let mut out = io::stdout().lock();
    out.write_all(text.as_bytes()).and_then(|()| out.flush()).map_err(|_| Stop::of_file("write", OsStr::new("-")))
}

fn run(words: &[OsString]) -> Result<(), Stop> {
    match words {
        [command, words @ ..] if command == "check" => check(words),
        [command] if command == "rows" => {
            let text = Input::default().read(OsStr::new("-"))?;
            print(&rows::answered(&String::from_utf8_lossy(&text)))
        }
        [command, ..] if command == "wire" || command == "server" || command == "client" => {
            let words: Vec<&str> = words.iter().filter_map(|word| word.to_str()).collect();
            print(&measured(&words).ok_or(Stop { told: Vec::new(), status: 1 })?)
        }
        _ => Err(Stop::usage()),
    }
}

fn main() -> ExitCode {
    let words: Vec<OsString> = std::env::args_os().skip(1).collect();
    match run(&words) {
        Ok(()) => ExitCode::SUCCESS,
        Err(stop) => {
            let _ = io::stderr().write_all(&stop.told);
            ExitCode::from(stop.status)
        }
    }
}
