//! Sends what two ends say to each other over one TCP connection of this process to itself, and does nothing else with it.
//!
//! Its words are `TURNS [nodelay]`: a file that has, for each turn, the number of its bytes, LF, and the bytes. Turns go up and down in
//! turn: one is written at the near end and as many bytes are read at the far one, the next is written there and read at the near end. With
//! `nodelay` both ends set TCP_NODELAY.
#![forbid(unsafe_code)]

use std::io::{self, ErrorKind, Read, Write};
use std::net::{TcpListener, TcpStream};
use std::process::ExitCode;

/// The most bytes that are requested at once.
const PIECE: usize = 4_096;

/// The turns of a text; none if it is not such a text.
fn turns(mut text: &[u8]) -> Option<Vec<&[u8]>> {
    let mut turns = Vec::new();
    while !text.is_empty() {
        let end = text.iter().position(|byte| *byte == b'\n')?;
        let count = str::from_utf8(&text[..end]).ok()?.parse().ok()?;
        let (turn, rest) = text[end + 1..].split_at_checked(count)?;
        turns.push(turn);
        text = rest;
    }
    Some(turns)
}

/// A connection of this process to itself, both ends.
fn own_connection(is_undelayed: bool) -> io::Result<(TcpStream, TcpStream)> {
    let listener = TcpListener::bind("127.0.0.1:0")?;
    let near = TcpStream::connect(listener.local_addr()?)?;
    let (far, _) = listener.accept()?;
    if is_undelayed {
        near.set_nodelay(true)?;
        far.set_nodelay(true)?;
    }
    Ok((near, far))
}

/// A turn is written at one end, and as many bytes are read at the other.
fn give(
    turn: &[u8],
    mut from: &TcpStream,
    mut to: &TcpStream,
    piece: &mut [u8; PIECE],
) -> io::Result<()> {
    from.write_all(turn)?;
    let mut read = 0;
    while read < turn.len() {
        match to.read(piece) {
            Ok(0) => return Err(ErrorKind::UnexpectedEof.into()),
            Ok(count) => read += count,
            Err(error) if error.kind() == ErrorKind::Interrupted => {}
            Err(error) => return Err(error),
        }
    }
    Ok(())
}

/// Sends all turns up and down. Answers how many bytes these were.
fn exchange(turns: &[&[u8]], is_undelayed: bool) -> io::Result<usize> {
    let (near, far) = own_connection(is_undelayed)?;
    let mut piece = [0; PIECE];
    for pair in turns.chunks(2) {
        give(pair[0], &near, &far, &mut piece)?;
        if let Some(answer) = pair.get(1) {
            give(answer, &far, &near, &mut piece)?;
        }
    }
    Ok(turns.iter().map(|turn| turn.len()).sum())
}

fn run(name: &str, is_undelayed: bool) -> io::Result<()> {
    let text = std::fs::read(name)?;
    let turns = turns(&text).ok_or(ErrorKind::InvalidData)?;
    let bytes = exchange(&turns, is_undelayed)?;
    println!("{} turns, {bytes} bytes", turns.len());
    Ok(())
}

fn main() -> ExitCode {
    let given: Vec<String> = std::env::args().skip(1).collect();
    let words: Vec<&str> = given.iter().map(String::as_str).collect();
    let result = match words[..] {
        [name] => run(name, false),
        [name, "nodelay"] => run(name, true),
        _ => Err(io::Error::new(
            ErrorKind::InvalidInput,
            "usage: ping_pong TURNS [nodelay]",
        )),
    };
    match result {
        Ok(()) => ExitCode::SUCCESS,
        Err(error) => {
            eprintln!("ping_pong: {error}");
            ExitCode::FAILURE
        }
    }
}
