//! The client (docs/PROTOCOL.md): it sends the plan for what is left of a program, and keeps the features that it measured.

use crate::framing::{Fault, Lines};
use crate::ledger::{Act, Contact, Measured};
use crate::line::{Command, LINE_END, Mark, Tag, read_homed, read_point, read_response, write_command};
use crate::plan::{Plan, Planned};
use crate::program::Program;
use crate::server::CONNECTION_MOST;
use crate::tags::{Asks, Datum, Held, Stage};
use crate::values::{Frame, Point};

/// The widest window.
const WINDOW_MOST: u64 = 16;

/// Why a client is faulted.
#[derive(Clone, Copy, PartialEq, Eq, Debug)]
pub enum Cause {
    NotResponse,
    LineTooLong,
    BadByte,
    UnknownTag,
    OutOfOrder,
    NoData,
    SecondData,
    TagsSpent,
}

/// Why a call was refused.
#[derive(Clone, Copy, PartialEq, Eq, Debug)]
pub enum Refusal {
    NotNow,
    Faulted(Cause),
}

#[derive(Clone, Copy, PartialEq, Eq, Debug)]
pub enum State {
    Apart,
    Running,
    Failing,
    Aborting,
    Halted,
    Done,
    Faulted(Cause),
}

/// A client of a program.
#[derive(Debug)]
pub struct Client<'p> {
    program: &'p Program,
    window: usize,
    state: State,
    is_on: bool,
    last_connection: u32,
    /// Whether a session has begun on this connection.
    has_begun: bool,
    plan: Plan,
    /// The first command of the plan that is not sent.
    unsent: Option<Planned>,
    /// How many commands of the plan were sent and have not been counted.
    uncounted: usize,
    completed: usize,
    /// Whether a standard command has failed since the plan began.
    has_failed: bool,
    commands: Held<Planned>,
    aborts: Held<()>,
    counted: Vec<Act>,
    /// The points of the unfinished feature.
    points: Vec<Point>,
    features: Vec<Measured>,
    lines: Lines,
    /// The lines that it has sent, each with its end; the caller that passes them on clears it.
    pub out: Vec<u8>,
}

impl<'p> Client<'p> {
    /// A client apart; none if there is no such window.
    pub fn new(program: &'p Program, window: u64) -> Option<Client<'p>> {
        (1..=WINDOW_MOST).contains(&window).then(|| Client {
            program,
            window: window as usize,
            state: State::Apart,
            is_on: false,
            last_connection: 0,
            has_begun: false,
            plan: Plan::new(program, 0, true),
            unsent: None,
            uncounted: 0,
            completed: 0,
            has_failed: false,
            commands: Held::new(Tag::standard(1)),
            aborts: Held::new(Tag::event(1)),
            counted: Vec::new(),
            points: Vec::new(),
            features: Vec::new(),
            lines: Lines::default(),
            out: Vec::new(),
        })
    }

    pub fn state(&self) -> State {
        self.state
    }

    /// How many commands of the present plan are counted.
    pub fn completed(&self) -> usize {
        self.completed
    }

    /// How many standard commands are open.
    pub fn open(&self) -> usize {
        self.commands.open.len()
    }

    /// The acts that are counted on the connection.
    pub fn counted(&self) -> &[Act] {
        &self.counted
    }

    pub fn features(&self) -> &[Measured] {
        &self.features
    }

    /// The label of a feature, by its number from 0.
    pub fn label(&self, feature: usize) -> &'p str {
        self.program.label(feature)
    }

    fn refuse_fault(&self) -> Result<(), Refusal> {
        match self.state {
            State::Faulted(cause) => Err(Refusal::Faulted(cause)),
            _ => Ok(()),
        }
    }

    fn fault(&mut self, cause: Cause) -> Refusal {
        self.state = State::Faulted(cause);
        Refusal::Faulted(cause)
    }

    /// The client is on a new connection.
    pub fn connected(&mut self, number: u32) -> Result<(), Refusal> {
        self.refuse_fault()?;
        if self.state != State::Apart || number <= self.last_connection || number > CONNECTION_MOST {
            return Err(Refusal::NotNow);
        }
        self.is_on = true;
        self.last_connection = number;
        self.has_begun = false;
        self.commands = Held::new(Tag::standard(1));
        self.aborts = Held::new(Tag::event(1));
        self.counted.clear();
        self.begin_plan(true);
        Ok(())
    }

    /// A plan after the last completed feature.
    fn begin_plan(&mut self, is_new: bool) {
        self.state = State::Running;
        self.plan = Plan::new(self.program, self.features.len(), is_new);
        self.unsent = self.plan.next(self.program);
        self.uncounted = 0;
        self.completed = 0;
        self.has_failed = false;
        self.points.clear();
    }

    /// Continues after a command that failed, or an abort.
    pub fn resume(&mut self) -> Result<(), Refusal> {
        self.refuse_fault()?;
        if self.state != State::Halted || !self.has_begun {
            return Err(Refusal::NotNow);
        }
        self.begin_plan(false);
        Ok(())
    }

    pub fn leave(&mut self) {
        if self.state != State::Done {
            self.state = State::Apart;
        }
        self.is_on = false;
        self.points.clear();
        self.lines = Lines::default();
        self.out.clear();
    }

    /// Restarts with the first features.
    pub fn restart(&mut self, kept: usize) -> Result<(), Refusal> {
        if kept > self.features.len() {
            return Err(Refusal::NotNow);
        }
        self.leave();
        self.state = State::Apart;
        self.features.truncate(kept);
        self.commands.open.clear();
        self.counted.clear();
        self.completed = 0;
        Ok(())
    }

    /// The command that is to be sent next, if there is one.
    #[inline]
    pub fn due(&self) -> Option<&Planned> {
        let due = self.unsent.as_ref()?;
        let open = &self.commands.open;
        let waits = match open.back() {
            _ if self.state != State::Running => true,
            None => false,
            Some(last) => open.len() >= self.window || matches!(last.what, Planned::IsHomed) || matches!(due, Planned::ClearAllErrors),
        };
        (!waits).then_some(due)
    }

    /// Sends the command that is due.
    pub fn send(&mut self) -> Result<(), Refusal> {
        self.refuse_fault()?;
        if self.due().is_none() {
            return Err(Refusal::NotNow);
        }
        let tag = self.commands.draw().ok_or_else(|| self.fault(Cause::TagsSpent))?;
        if let Some(planned) = self.unsent.take() {
            write_command(&mut self.out, tag, &planned.command());
            self.out.extend_from_slice(LINE_END);
            self.commands.push(tag, planned);
            self.uncounted += 1;
        }
        self.unsent = self.plan.next(self.program);
        Ok(())
    }

    /// Sends an abort.
    pub fn abort(&mut self) -> Result<(), Refusal> {
        self.refuse_fault()?;
        if !matches!(self.state, State::Running | State::Failing) {
            return Err(Refusal::NotNow);
        }
        let tag = self.aborts.draw().ok_or_else(|| self.fault(Cause::TagsSpent))?;
        write_command(&mut self.out, tag, &Command::AbortE);
        self.out.extend_from_slice(LINE_END);
        self.aborts.push(tag, ());
        self.state = State::Aborting;
        Ok(())
    }

    /// Whether bytes and lines can be read.
    fn may_read(&self) -> Result<(), Refusal> {
        self.refuse_fault()?;
        if self.is_on { Ok(()) } else { Err(Refusal::NotNow) }
    }

    /// Bytes that came over the connection.
    pub fn feed(&mut self, piece: &[u8]) -> Result<(), Refusal> {
        self.may_read()?;
        self.lines.feed(piece);
        Ok(())
    }

    /// Reads the first line; false if it is not whole.
    pub fn read_one(&mut self) -> Result<bool, Refusal> {
        self.may_read()?;
        let line = match self.lines.first_line() {
            Ok(Some(line)) => line,
            Ok(None) => return Ok(false),
            Err(Fault::LineTooLong) => return Err(self.fault(Cause::LineTooLong)),
            Err(Fault::BadByte) => return Err(self.fault(Cause::BadByte)),
        };
        let heard = match read_response(line) {
            None => Err(Cause::NotResponse),
            Some((Tag::UNASKED, _)) => Ok(Heard::Nothing),
            Some((tag, mark)) if tag.is_event() => hear_abort(&mut self.aborts, tag, mark),
            Some((tag, mark)) => hear(&mut self.commands, self.has_failed, tag, mark),
        };
        self.lines.drop_line();
        match heard {
            Ok(Heard::Nothing) => {}
            Ok(heard) => self.follow(heard),
            Err(cause) => return Err(self.fault(cause)),
        }
        Ok(true)
    }

    /// Updates counts and state by what was received.
    fn follow(&mut self, heard: Heard) {
        match heard {
            Heard::Nothing => {}
            Heard::Counted => self.count(),
            Heard::Failed => {
                self.has_failed = true;
                if self.state == State::Running {
                    self.state = State::Failing;
                }
            }
            Heard::AbortEnded => {
                if self.state == State::Aborting {
                    self.state = State::Failing;
                }
            }
        }
        let is_whole = self.unsent.is_none() && self.uncounted == 0;
        self.state = match self.state {
            State::Running | State::Failing if is_whole => State::Done,
            State::Failing if self.commands.open.is_empty() => State::Halted,
            state => state,
        };
    }

    /// The command at the front has ended in its place.
    #[inline]
    fn count(&mut self) {
        let Some(command) = self.commands.open.pop_front() else { return };
        self.completed += 1;
        self.uncounted -= 1;
        let act = match (command.what, command.stage) {
            (Planned::Touch(touch), Stage::Given(Datum::Point(point))) => {
                self.points.push(point);
                if touch.is_last {
                    self.finish_feature(touch.frame);
                }
                Act::Contact(Contact { target: touch.target, direction: touch.direction, tool: touch.tool, frame: touch.frame, point })
            }
            (Planned::IsHomed, Stage::Given(Datum::Homed(is_homed))) => {
                if is_homed && self.unsent == Some(Planned::Home) {
                    self.unsent = self.plan.next(self.program);
                }
                Act::HomedIs(is_homed)
            }
            (Planned::Home, _) => Act::Homed,
            (Planned::Tool(tool), _) => Act::Changed(tool),
            (Planned::Frame(frame), _) => Act::Framed(frame),
            (Planned::Move(target, frame), _) => Act::Moved(target, frame),
            (Planned::StartSession, _) => {
                self.has_begun = true;
                return;
            }
            _ => return,
        };
        self.counted.push(act);
    }

    /// The unfinished feature has its last point.
    fn finish_feature(&mut self, frame: Frame) {
        let points = self.points.as_slice().to_vec();
        self.points.clear();
        self.features.push(Measured { connection: self.last_connection, frame, points });
    }
}

/// What a response changes.
enum Heard {
    Nothing,
    /// The first standard command has ended in its place.
    Counted,
    /// A standard command has failed that had not.
    Failed,
    /// The abort that is open has ended or failed.
    AbortEnded,
}

/// What the data of a command say.
fn asks(command: &Planned) -> Asks {
    match command {
        Planned::Touch(_) => Asks::Point,
        Planned::IsHomed => Asks::Homed,
        _ => Asks::Nothing,
    }
}

/// What a data text says to a command that asks for this.
#[inline]
fn read_datum(asks: Asks, text: &[u8]) -> Result<Datum, Cause> {
    match asks {
        Asks::Nothing => Err(Cause::OutOfOrder),
        Asks::Point => read_point(text).map(Datum::Point).ok_or(Cause::NotResponse),
        Asks::Homed => read_homed(text).map(Datum::Homed).ok_or(Cause::NotResponse),
    }
}

/// A response under a standard tag.
#[inline]
fn hear(commands: &mut Held<Planned>, has_failed: bool, tag: Tag, mark: Mark<'_>) -> Result<Heard, Cause> {
    let Some(place) = commands.place(tag) else {
        return hear_failed(commands, tag, mark);
    };
    let command = &mut commands.open[place];
    let is_front = place == 0 && !has_failed;
    let asks = asks(&command.what);
    match (mark, command.stage) {
        (Mark::Received, Stage::Sent) => command.stage = Stage::Received,
        (Mark::Data(text), stage) => {
            let datum = read_datum(asks, text)?;
            match stage {
                Stage::Received if is_front => command.stage = Stage::Given(datum),
                Stage::Given(_) if is_front => return Err(Cause::SecondData),
                _ => return Err(Cause::OutOfOrder),
            }
        }
        (Mark::Error, _) => {
            commands.fail(place, asks);
            return Ok(Heard::Failed);
        }
        (Mark::Complete, Stage::Received) if is_front && asks != Asks::Nothing => return Err(Cause::NoData),
        (Mark::Complete, Stage::Received | Stage::Given(_)) if is_front => return Ok(Heard::Counted),
        _ => return Err(Cause::OutOfOrder),
    }
    Ok(Heard::Nothing)
}

/// A response under a tag that no open command has.
fn hear_failed<C>(commands: &mut Held<C>, tag: Tag, mark: Mark<'_>) -> Result<Heard, Cause> {
    let asks = commands.failed_asks(tag).ok_or(Cause::UnknownTag)?;
    match mark {
        Mark::Received => return Err(Cause::OutOfOrder),
        Mark::Data(text) => return read_datum(asks, text).and(Err(Cause::OutOfOrder)),
        Mark::Error => {}
        Mark::Complete => commands.close(tag),
    }
    Ok(Heard::Nothing)
}

/// A response under an event tag.
fn hear_abort(aborts: &mut Held<()>, tag: Tag, mark: Mark<'_>) -> Result<Heard, Cause> {
    let Some(place) = aborts.place(tag) else {
        return hear_failed(aborts, tag, mark);
    };
    let abort = &mut aborts.open[place];
    match (mark, abort.stage) {
        (Mark::Received, Stage::Sent) => {
            abort.stage = Stage::Received;
            Ok(Heard::Nothing)
        }
        (Mark::Complete, Stage::Received) if place == 0 => {
            aborts.open.pop_front();
            Ok(Heard::AbortEnded)
        }
        (Mark::Error, _) => {
            aborts.fail(place, Asks::Nothing);
            Ok(Heard::AbortEnded)
        }
        _ => Err(Cause::OutOfOrder),
    }
}
