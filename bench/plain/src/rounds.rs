//! A server that is driven directly, round by round (bench/WORK.md).

use crate::ledger::Act;
use crate::line::{Command, LINE_END, Tag, write_command};
use crate::server::{Outcome, Refusal, Server};
use crate::setup::Setup;
use crate::sums::{place, summed_bytes, tag};
use crate::values::Name;

/// A server, the line that is fed next, and the sum over what it has answered.
struct Driven<'s> {
    server: Server<'s>,
    line: Vec<u8>,
    sum: u64,
}

/// How many contacts a server has after that many rounds, and the sum over what it answered.
pub fn rounds(rounds: u64) -> (u64, u64) {
    let mut setup = Setup::default();
    let tool = Name::read(b"P1");
    setup.tools.extend(tool.clone());
    let mut driven = Driven { server: Server::new(&setup), line: Vec::new(), sum: 0 };
    if let Some(tool) = tool {
        let played = driven.begin(tool).and_then(|()| (0..rounds).try_for_each(|number| driven.round(number)));
        debug_assert_eq!(played, Ok(()));
    }
    let is_contact = |deed: &&(u32, Act)| matches!(deed.1, Act::Contact(_));
    (driven.server.ledger().iter().filter(is_contact).count() as u64, driven.sum)
}

impl Driven<'_> {
    /// The machine is homed, and has a tool.
    fn begin(&mut self, tool: Name) -> Result<(), Refusal> {
        self.server.accept(1)?;
        self.ask(Tag::standard(1), &Command::StartSession)?;
        self.ask(Tag::standard(2), &Command::IsHomed)?;
        self.ask(Tag::standard(3), &Command::Home)?;
        self.server.machine(Outcome::Done)?;
        self.ask(Tag::standard(4), &Command::ChangeTool(tool))?;
        self.server.machine(Outcome::Done)?;
        self.take_out();
        Ok(())
    }

    /// One move and one touch.
    fn round(&mut self, number: u64) -> Result<(), Refusal> {
        let (tag, place) = (tag(number), place(number));
        self.ask(tag, &Command::GoTo(place))?;
        self.server.machine(Outcome::Done)?;
        self.take_out();
        self.ask(tag, &Command::PtMeas(place, None))?;
        self.server.machine(Outcome::Touched(place))?;
        self.take_out();
        Ok(())
    }

    /// A command is written, fed, read and processed.
    fn ask(&mut self, tag: Tag, command: &Command) -> Result<(), Refusal> {
        self.line.clear();
        write_command(&mut self.line, tag, command);
        self.line.extend_from_slice(LINE_END);
        self.server.feed(&self.line)?;
        self.server.read_one()?;
        self.server.turn()
    }

    /// What was answered is taken and summed.
    fn take_out(&mut self) {
        self.sum = summed_bytes(self.sum, &self.server.out);
        self.server.out.clear();
    }
}
