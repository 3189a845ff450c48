//! The server (docs/PROTOCOL.md): it reads commands, processes them in turn, and keeps a ledger of what they did.

use crate::framing::{Fault, Lines};
use crate::ledger::{Act, Contact};
use crate::line::{
    Asked, Command, Csy, Failure, Kind, Tag, read_command, write_complete, write_error, write_homed_data, write_point_data, write_received,
};
use crate::setup::Setup;
use crate::values::{Frame, Name, Point, VOLUME_LIMIT};
use std::collections::VecDeque;

/// The most commands that wait.
const WAITING_MOST: usize = 64;

/// The last number of a connection.
pub const CONNECTION_MOST: u32 = 4_000_000_000;

/// Why a call was refused; nothing has changed, except that a `Framing` is kept.
#[derive(Clone, Copy, PartialEq, Eq, Debug)]
pub enum Refusal {
    NotNow,
    Framing(Fault),
    NothingRuns,
    WrongOutcome,
    OutOfVolume,
}

/// How the machine has ended what ran.
#[derive(Clone, Copy, PartialEq, Eq, Debug)]
pub enum Outcome {
    Done,
    /// The touched point in machine axes.
    Touched(Point),
    Missed,
    Fault,
}

/// A command that runs on the machine.
#[derive(Debug)]
pub struct Running {
    tag: Tag,
    pub command: Command,
}

/// What is dropped with a connection.
#[derive(Debug, Default)]
struct Visit {
    has_session: bool,
    frame: Frame,
    stored: Point,
    is_error: bool,
    running: Option<Running>,
    /// What was read, and is not processed yet.
    waiting: VecDeque<Asked>,
    lines: Lines,
    fault: Option<Fault>,
}

/// A server, whose rack is that of a setup.
#[derive(Debug)]
pub struct Server<'s> {
    setup: &'s Setup,
    connection: Option<u32>,
    last_connection: u32,
    is_homed: bool,
    tool: Option<Name>,
    ledger: Vec<(u32, Act)>,
    visit: Visit,
    /// The lines that it has answered, each with its end; the caller that passes them on clears it.
    pub out: Vec<u8>,
}

impl<'s> Server<'s> {
    pub fn new(setup: &'s Setup) -> Server<'s> {
        Server {
            setup,
            connection: None,
            last_connection: 0,
            is_homed: false,
            tool: None,
            ledger: Vec::new(),
            visit: Visit::default(),
            out: Vec::new(),
        }
    }

    pub fn connection(&self) -> Option<u32> {
        self.connection
    }

    pub fn has_session(&self) -> bool {
        self.visit.has_session
    }

    pub fn is_homed(&self) -> bool {
        self.is_homed
    }

    pub fn tool(&self) -> Option<&Name> {
        self.tool.as_ref()
    }

    pub fn frame(&self) -> Frame {
        self.visit.frame
    }

    /// The stored offset, which `SetCoordSystem(PartCsy)` selects.
    pub fn stored(&self) -> Point {
        self.visit.stored
    }

    pub fn is_error(&self) -> bool {
        self.visit.is_error
    }

    pub fn running(&self) -> Option<&Running> {
        self.visit.running.as_ref()
    }

    /// All acts in order, each with its connection.
    pub fn ledger(&self) -> &[(u32, Act)] {
        &self.ledger
    }

    /// Takes a connection.
    pub fn accept(&mut self, number: u32) -> Result<(), Refusal> {
        if self.connection.is_some() || number <= self.last_connection || number > CONNECTION_MOST {
            return Err(Refusal::NotNow);
        }
        self.connection = Some(number);
        self.last_connection = number;
        Ok(())
    }

    pub fn leave(&mut self) {
        self.connection = None;
        self.visit = Visit::default();
        self.out.clear();
    }

    /// Switches the machine off and on.
    pub fn restart(&mut self) {
        self.leave();
        self.is_homed = false;
        self.tool = None;
    }

    /// Whether bytes and lines can be read.
    fn may_read(&self) -> Result<(), Refusal> {
        match (self.connection, self.visit.fault) {
            (None, _) => Err(Refusal::NotNow),
            (_, Some(fault)) => Err(Refusal::Framing(fault)),
            _ => Ok(()),
        }
    }

    /// Bytes that came over the connection.
    pub fn feed(&mut self, piece: &[u8]) -> Result<(), Refusal> {
        self.may_read()?;
        self.visit.lines.feed(piece);
        Ok(())
    }

    /// Reads the first line and answers it; false if it is not whole.
    pub fn read_one(&mut self) -> Result<bool, Refusal> {
        self.may_read()?;
        let line = match self.visit.lines.first_line() {
            Ok(Some(line)) => line,
            Ok(None) => return Ok(false),
            Err(fault) => {
                self.visit.fault = Some(fault);
                return Err(Refusal::Framing(fault));
            }
        };
        let read = read_command(line);
        self.visit.lines.drop_line();
        match read {
            None => write_error(&mut self.out, Tag::UNASKED, Failure::NoTag, None),
            Some(asked) if self.is_used(asked.tag) => write_error(&mut self.out, Tag::UNASKED, Failure::TagInUse, None),
            Some(asked) if asked.tag.is_event() => self.hear_event(&asked),
            Some(asked) => self.hear(asked),
        }
        Ok(true)
    }

    /// Whether a command under this tag runs or waits.
    fn is_used(&self, tag: Tag) -> bool {
        self.visit.running.as_ref().is_some_and(|running| running.tag == tag) || self.visit.waiting.iter().any(|waiting| waiting.tag == tag)
    }

    /// A line on an event tag.
    fn hear_event(&mut self, asked: &Asked) {
        let tag = asked.tag;
        write_received(&mut self.out, tag);
        match &asked.command {
            Err(misread) => self.fail(tag, misread.failure(), misread.kind()),
            Ok(_) => {
                if let Some(running) = self.visit.running.take() {
                    self.fail(running.tag, Failure::Aborted, Some(running.command.kind()));
                }
                self.enter_error();
                write_complete(&mut self.out, tag);
            }
        }
    }

    /// A line on a standard tag that is not in use.
    #[inline]
    fn hear(&mut self, asked: Asked) {
        write_received(&mut self.out, asked.tag);
        if self.visit.is_error {
            if asked.command != Ok(Command::ClearAllErrors) {
                return self.fail(asked.tag, Failure::ErrorState, asked.kind());
            }
            self.visit.is_error = false;
        }
        if self.visit.waiting.len() == WAITING_MOST {
            return self.fail_and_enter(asked.tag, Failure::QueueFull, asked.kind());
        }
        self.visit.waiting.push_back(asked);
    }

    fn fail(&mut self, tag: Tag, failure: Failure, kind: Option<Kind>) {
        write_error(&mut self.out, tag, failure, kind);
        write_complete(&mut self.out, tag);
    }

    fn fail_and_enter(&mut self, tag: Tag, failure: Failure, kind: Option<Kind>) {
        self.fail(tag, failure, kind);
        self.enter_error();
    }

    /// The error state: each command that waits fails.
    fn enter_error(&mut self) {
        self.visit.is_error = true;
        while let Some(waiting) = self.visit.waiting.pop_front() {
            self.fail(waiting.tag, Failure::Aborted, waiting.kind());
        }
    }

    /// Processes the first waiting command.
    pub fn turn(&mut self) -> Result<(), Refusal> {
        if self.visit.running.is_some() {
            return Err(Refusal::NotNow);
        }
        let Asked { tag, command } = self.visit.waiting.pop_front().ok_or(Refusal::NotNow)?;
        match command {
            Err(misread) => self.fail_and_enter(tag, misread.failure(), misread.kind()),
            Ok(command) => match self.objection(&command) {
                Some(failure) => self.fail_and_enter(tag, failure, Some(command.kind())),
                None => self.carry_out(tag, command),
            },
        }
        Ok(())
    }

    /// Why a command cannot be carried out now.
    #[inline]
    fn objection(&self, command: &Command) -> Option<Failure> {
        if let Command::StartSession = command {
            return self.visit.has_session.then_some(Failure::SessionOpen);
        }
        if !self.visit.has_session && *command != Command::ClearAllErrors {
            return Some(Failure::NoSession);
        }
        let target = match command {
            Command::GoTo(target) | Command::PtMeas(target, _) => Some(*target),
            Command::ChangeTool(_) => None,
            _ => return None,
        };
        if !self.is_homed {
            return Some(Failure::NotHomed);
        }
        match command {
            Command::ChangeTool(tool) if !self.setup.tools.contains(tool) => return Some(Failure::UnknownTool),
            Command::PtMeas(..) if self.tool.is_none() => return Some(Failure::NoTool),
            _ => {}
        }
        let place = target?.plus(self.visit.frame.offset());
        (!place.is_within(VOLUME_LIMIT)).then_some(Failure::OutOfVolume)
    }

    /// Carries out a command at once, or lets it run.
    #[inline]
    fn carry_out(&mut self, tag: Tag, command: Command) {
        match command {
            Command::GoTo(_) | Command::PtMeas(..) => return self.run(tag, command),
            Command::Home => {
                self.is_homed = false;
                return self.run(tag, command);
            }
            Command::ChangeTool(_) => {
                self.tool = None;
                return self.run(tag, command);
            }
            Command::StartSession => self.visit.has_session = true,
            Command::EndSession => self.visit.has_session = false,
            Command::IsHomed => {
                self.append(Act::HomedIs(self.is_homed));
                write_homed_data(&mut self.out, tag, self.is_homed);
            }
            Command::SetCsyTransformation(lengths) => self.visit.stored = lengths.negated(),
            Command::SetCoordSystem(csy) => {
                self.visit.frame = match csy {
                    Csy::Machine => Frame::Machine,
                    Csy::Part => Frame::Part(self.visit.stored),
                };
                self.append(Act::Framed(self.visit.frame));
            }
            Command::ClearAllErrors | Command::OnPtMeasReport | Command::AbortE => {}
        }
        write_complete(&mut self.out, tag);
    }

    #[inline]
    fn run(&mut self, tag: Tag, command: Command) {
        self.visit.running = Some(Running { tag, command });
    }

    #[inline]
    fn append(&mut self, act: Act) {
        let connection = self.connection.unwrap_or(self.last_connection);
        self.ledger.push((connection, act));
    }

    /// The machine ends what runs.
    pub fn machine(&mut self, outcome: Outcome) -> Result<(), Refusal> {
        let running = self.visit.running.as_ref().ok_or(Refusal::NothingRuns)?;
        let is_touch = matches!(running.command, Command::PtMeas(..));
        match outcome {
            Outcome::Done if is_touch => return Err(Refusal::WrongOutcome),
            Outcome::Touched(_) | Outcome::Missed if !is_touch => return Err(Refusal::WrongOutcome),
            Outcome::Touched(point) if !point.is_within(VOLUME_LIMIT) => return Err(Refusal::OutOfVolume),
            _ => {}
        }
        let Some(Running { tag, command }) = self.visit.running.take() else { return Ok(()) };
        match outcome {
            Outcome::Missed => self.fail_and_enter(tag, Failure::NoSurface, Some(command.kind())),
            Outcome::Fault => self.fail_and_enter(tag, Failure::MachineFault, Some(command.kind())),
            Outcome::Touched(point) => self.complete(tag, command, point),
            Outcome::Done => self.complete(tag, command, Point::default()),
        }
        Ok(())
    }

    /// What ran is done; a touch has met the surface at this point in machine axes.
    #[inline]
    fn complete(&mut self, tag: Tag, command: Command, touched: Point) {
        let frame = self.visit.frame;
        match (command, &self.tool) {
            (Command::PtMeas(target, direction), Some(tool)) => {
                let point = touched.minus(frame.offset());
                write_point_data(&mut self.out, tag, point);
                let tool = tool.clone();
                self.append(Act::Contact(Contact { target, direction, tool, frame, point }));
            }
            (Command::GoTo(target), _) => self.append(Act::Moved(target, frame)),
            (Command::ChangeTool(tool), _) => {
                self.tool = Some(tool.clone());
                self.append(Act::Changed(tool));
            }
            (Command::Home, _) => {
                self.is_homed = true;
                self.append(Act::Homed);
            }
            // Nothing else runs, and a touch always has a tool.
            _ => {}
        }
        write_complete(&mut self.out, tag);
    }
}
