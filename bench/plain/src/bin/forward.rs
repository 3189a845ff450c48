//! Sends on what comes on one TCP connection to another, both ways, and does nothing else with it.
//!
//! Its words are `LISTEN PORT`: it takes one connection on the first port of 127.0.0.1, calls the second, and ends once both ends have left.
#![forbid(unsafe_code)]

use std::io::{self, Read, Write};
use std::net::{Shutdown, TcpListener, TcpStream};
use std::process::ExitCode;
use std::thread;

/// The most bytes that are read at once.
const PIECE: usize = 65_536;

/// Sends on what comes, and then its end.
fn carry(mut from: &TcpStream, mut to: &TcpStream) -> io::Result<()> {
    let mut piece = vec![0; PIECE];
    loop {
        match from.read(&mut piece)? {
            0 => return to.shutdown(Shutdown::Write),
            count => to.write_all(&piece[..count])?,
        }
    }
}

fn run(listen: u16, port: u16) -> io::Result<()> {
    let (near, _) = TcpListener::bind(("127.0.0.1", listen))?.accept()?;
    let far = TcpStream::connect(("127.0.0.1", port))?;
    near.set_nodelay(true)?;
    far.set_nodelay(true)?;
    thread::scope(|scope| {
        let up = scope.spawn(|| carry(&near, &far));
        let down = carry(&far, &near);
        up.join().expect("a thread has panicked")?;
        down
    })
}

fn main() -> ExitCode {
    let words: Vec<u16> = std::env::args().skip(1).flat_map(|word| word.parse()).collect();
    let [listen, port] = words[..] else {
        eprintln!("usage: forward LISTEN PORT");
        return ExitCode::from(2);
    };
    match run(listen, port) {
        Ok(()) => ExitCode::SUCCESS,
        Err(error) => {
            eprintln!("{error}");
            ExitCode::from(1)
        }
    }
}
