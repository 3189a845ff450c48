//! Calls of a client and of a server, row by row, each shown with what it answers (test_calls/FORM.txt).

use crate::client::{Client, Refusal, State};
use crate::ledger::{Act, write_act, write_direction, write_frame, write_measured, write_place};
use crate::line::Command;
use crate::program::Program;
use crate::server::{self, Outcome, Server};
use crate::setup::Setup;
use crate::values::{Point, WIRE_LIMIT, read_length, write_whole};

/// The commands of `homes`: one more than a server lets wait.
const HOMES: u32 = 65;

/// A part of the input: its head without brackets, and its rows.
struct Part<'t> {
    head: &'t str,
    rows: Vec<&'t str>,
}

/// The input with each row shown with what it answers.
pub fn answered(text: &str) -> String {
    let parts = parts(text);
    let setup_text = parts.iter().find(|part| part.head == "setup").map(Part::text).unwrap_or_default();
    let setup = Setup::read(setup_text.as_bytes()).unwrap_or_default();
    let mut out = Vec::new();
    for part in &parts {
        push_line(&mut out, &["[", part.head, "]"].concat());
        let fields: Vec<&str> = part.head.split(' ').collect();
        match fields[..] {
            ["client", name, window] => with_program(&parts, &setup, name, |program| show_client(program, window, part, &mut out)),
            ["marks", name, window] => with_program(&parts, &setup, name, |program| show_marks(program, window, part, &mut out)),
            ["texts", name, window] => with_program(&parts, &setup, name, |program| show_texts(program, window, part, &mut out)),
            ["server"] => show_server(&setup, part, &mut out),
            _ => part.rows.iter().for_each(|row| push_line(&mut out, row)),
        }
    }
    String::from_utf8_lossy(&out).into_owned()
}

fn parts(text: &str) -> Vec<Part<'_>> {
    let mut parts: Vec<Part> = Vec::new();
    for line in text.split_terminator('\n') {
        if let Some(head) = line.strip_prefix('[').and_then(|line| line.strip_suffix(']')) {
            parts.push(Part { head, rows: Vec::new() });
        } else if let Some(part) = parts.last_mut() {
            part.rows.push(line);
        }
    }
    parts
}

impl Part<'_> {
    fn text(&self) -> String {
        self.rows.iter().flat_map(|row| [row, "\n"]).collect()
    }
}

/// Does something with the program of this name.
fn with_program(parts: &[Part], setup: &Setup, name: &str, show: impl FnOnce(&Program)) {
    let is_named = |part: &&Part| part.head.strip_prefix("program ") == Some(name);
    if let Some(part) = parts.iter().find(is_named) {
        if let Ok(program) = Program::read(part.text().as_bytes(), setup) {
            show(&program);
        }
    }
}

fn push_line(out: &mut Vec<u8>, line: &str) {
    out.extend_from_slice(line.as_bytes());
    out.push(b'\n');
}

/// Shows each row with its answer; what the rows below it show is shown alone.
fn show_rows(part: &Part, out: &mut Vec<u8>, mut answer: impl FnMut(&str, &mut Vec<u8>)) {
    for row in &part.rows {
        out.extend_from_slice(row.as_bytes());
        if !row.starts_with("-- ") {
            out.extend_from_slice(b" => ");
            answer(row, out);
        }
        out.push(b'\n');
    }
}

/// Lines as rows show them.
fn push_lines(out: &mut Vec<u8>, lines: &[u8]) {
    for byte in lines {
        match byte {
            b'\r' => {}
            b'\n' => out.push(b';'),
            other => out.push(*other),
        }
    }
}

fn show_client(program: &Program, window: &str, part: &Part, out: &mut Vec<u8>) {
    if let Some(mut rows) = ClientRows::new(program, window) {
        show_rows(part, out, |row, out| rows.answer(row, out));
    }
}

/// What each mark does after the actions of a row.
fn show_marks(program: &Program, window: &str, part: &Part, out: &mut Vec<u8>) {
    show_rows(part, out, |row, out| {
        let Some((line, script)) = row.split_once(" | ") else { return };
        let (tag, data) = line.split_once(" # ").unwrap_or((line, "X(1), Y(2), Z(3)"));
        for (number, mark) in ["&", &["# ", data].concat(), "!", "%"].into_iter().enumerate() {
            if number > 0 {
                out.extend_from_slice(b", ");
            }
            show_last(program, window, script.split(" / ").chain([[tag, " ", mark].concat().as_str()]), out);
        }
    });
}

/// What a line does after the actions that precede it.
fn show_texts(program: &Program, window: &str, part: &Part, out: &mut Vec<u8>) {
    show_rows(part, out, |row, out| show_last(program, window, row.split(" / "), out));
}

/// The result of the last of a list of actions, on a first connection.
fn show_last<'r>(program: &Program, window: &str, actions: impl Iterator<Item = &'r str>, out: &mut Vec<u8>) {
    let Some(mut rows) = ClientRows::new(program, window) else { return };
    let mut last = rows.client.connected(1);
    for action in actions {
        last = rows.act(action).map(drop);
    }
    match last {
        Ok(()) => {
            rows.push_state(out);
            out.push(b' ');
            write_whole(out, rows.client.completed() as u64);
        }
        Err(Refusal::NotNow) => out.extend_from_slice(b"NotNow"),
        Err(Refusal::Faulted(cause)) => out.extend_from_slice(format!("{cause:?}").as_bytes()),
    }
}

/// A client whose calls are rows.
struct ClientRows<'p> {
    client: Client<'p>,
}

/// What a row shows after a call of a client that was carried out.
enum Shown {
    /// What it has sent, and its state.
    Sent,
    State,
    NoLine,
}

impl<'p> ClientRows<'p> {
    fn new(program: &'p Program, window: &str) -> Option<ClientRows<'p>> {
        Client::new(program, window.parse().ok()?).map(|client| ClientRows { client })
    }

    /// Carries out a row, and shows its answer.
    fn answer(&mut self, row: &str, out: &mut Vec<u8>) {
        match row {
            "state" => return self.push_state(out),
            "due" => {
                let due = self.client.due().map(|due| due.command().kind().name());
                return out.extend_from_slice(due.unwrap_or("nothing").as_bytes());
            }
            "open" => return write_whole(out, self.client.open() as u64),
            "completed" => return write_whole(out, self.client.completed() as u64),
            "counted" => return self.push_counted(out),
            "features" => return self.push_features(out),
            "report" => return self.push_report(out),
            _ => {}
        }
        self.client.out.clear();
        match self.act(row) {
            Ok(Shown::Sent) => {
                push_lines(out, &self.client.out);
                self.push_state(out);
            }
            Ok(Shown::State) => self.push_state(out),
            Ok(Shown::NoLine) => out.extend_from_slice(b"no line"),
            Err(refusal) => {
                push_lines(out, &self.client.out);
                out.extend_from_slice(format!("{refusal:?}").as_bytes());
            }
        }
    }

    fn push_state(&self, out: &mut Vec<u8>) {
        match self.client.state() {
            State::Faulted(_) => out.extend_from_slice(b"Faulted"),
            state => out.extend_from_slice(format!("{state:?}").as_bytes()),
        }
    }

    fn push_counted(&self, out: &mut Vec<u8>) {
        for act in self.client.counted() {
            write_act(out, act);
            out.push(b';');
        }
        if self.client.counted().is_empty() {
            out.extend_from_slice(b"nothing");
        }
    }

    fn push_features(&self, out: &mut Vec<u8>) {
        for (number, feature) in self.client.features().iter().enumerate() {
            write_measured(out, self.client.label(number), feature);
            out.push(b';');
        }
        if self.client.features().is_empty() {
            out.extend_from_slice(b"nothing");
        }
    }

    /// The report of docs/FILES.md without contacts, each line with a `;` behind it.
    fn push_report(&self, out: &mut Vec<u8>) {
        out.extend_from_slice(b"STATE ");
        self.push_state(out);
        out.extend_from_slice(b";COUNTED ");
        write_whole(out, self.client.counted().len() as u64);
        out.push(b';');
        for (number, feature) in self.client.features().iter().enumerate() {
            out.extend_from_slice(b"FEATURE ");
            out.extend_from_slice(self.client.label(number).as_bytes());
            out.push(b';');
            for point in &feature.points {
                write_place(out, *point);
                out.push(b';');
            }
        }
    }

    /// Carries out a row that is not a question.
    fn act(&mut self, row: &str) -> Result<Shown, Refusal> {
        let client = &mut self.client;
        let (word, rest) = row.split_once(' ').unwrap_or((row, ""));
        let number = rest.parse::<u32>().ok();
        match (word, number) {
            ("send", None) => client.send().map(|()| Shown::Sent),
            ("abort", None) => client.abort().map(|()| Shown::Sent),
            ("resume", None) => client.resume().map(|()| Shown::State),
            ("leave", None) => {
                client.leave();
                Ok(Shown::State)
            }
            ("read", None) => Ok(if client.read_one()? { Shown::State } else { Shown::NoLine }),
            ("connected", Some(number)) => client.connected(number).map(|()| Shown::State),
            ("restart", Some(kept)) => client.restart(kept as usize).map(|()| Shown::State),
            ("letters", Some(count)) => client.feed(&vec![b'A'; count as usize]).map(|()| Shown::State),
            ("sends", Some(count)) => (0..count).try_for_each(|_| client.send()).map(|()| Shown::State),
            ("aborts", Some(count)) => (0..count).try_for_each(|_| self.fail_abort()).map(|()| Shown::State),
            ("ended", Some(count)) => (0..count).try_for_each(|_| self.end(None)).map(|()| Shown::State),
            ("ended", None) => self.end(None).map(|()| Shown::Sent),
            ("touched" | "told", _) => self.end(Some(rest)).map(|()| Shown::Sent),
            ("bare", _) => self.hear(&[rest, "\n"].concat()).map(|()| Shown::State),
            _ => self.hear(&[row, "\r\n"].concat()).map(|()| Shown::State),
        }
    }

    /// Bytes come, and a line is read.
    fn hear(&mut self, bytes: &str) -> Result<(), Refusal> {
        self.client.feed(bytes.as_bytes())?;
        self.client.read_one().map(drop)
    }

    /// The tag of what was sent last.
    fn last_tag(&self) -> String {
        let line = self.client.out.split_inclusive(|byte| *byte == b'\n').next_back().unwrap_or_default();
        String::from_utf8_lossy(line.get(..5).unwrap_or_default()).into_owned()
    }

    /// What is due is sent and ended, with this data text.
    fn end(&mut self, data: Option<&str>) -> Result<(), Refusal> {
        let is_question = self.client.due().is_some_and(|due| due.command() == Command::IsHomed);
        self.client.send()?;
        let tag = self.last_tag();
        self.hear(&[&tag, " &\r\n"].concat())?;
        if let Some(data) = data.or(is_question.then_some("IsHomed(0)")) {
            self.hear(&[&tag, " # ", data, "\r\n"].concat())?;
        }
        self.hear(&[&tag, " %\r\n"].concat())
    }

    /// An abort is sent and fails.
    fn fail_abort(&mut self) -> Result<(), Refusal> {
        self.client.abort()?;
        let tag = self.last_tag();
        self.client.out.clear();
        self.hear(&[&tag, " !\r\n"].concat())
    }
}

fn show_server(setup: &Setup, part: &Part, out: &mut Vec<u8>) {
    let mut rows = ServerRows { server: Server::new(setup) };
    show_rows(part, out, |row, out| rows.answer(row, out));
}

/// A server whose calls are rows.
struct ServerRows<'s> {
    server: Server<'s>,
}

impl ServerRows<'_> {
    /// Carries out a row, and shows its answer.
    fn answer(&mut self, row: &str, out: &mut Vec<u8>) {
        match row {
            "state" => return self.push_state(out),
            "running" => return self.push_running(out),
            "ledger" => return self.push_ledger(out),
            "contact rows" => return self.push_contacts(out),
            _ => {}
        }
        self.server.out.clear();
        let answer = self.act(row);
        push_lines(out, &self.server.out);
        match answer {
            Ok(true) => {}
            Ok(false) => out.extend_from_slice(b"no line;"),
            Err(refusal) => out.extend_from_slice(format!("{refusal:?}").as_bytes()),
        }
    }

    fn push_state(&self, out: &mut Vec<u8>) {
        let server = &self.server;
        match server.connection() {
            Some(number) => out.extend_from_slice(format!("on {number};").as_bytes()),
            None => out.extend_from_slice(b"off;"),
        }
        out.extend_from_slice(if server.has_session() { b"session;" } else { b"no session;" });
        out.extend_from_slice(if server.is_homed() { b"homed;" } else { b"not homed;" });
        out.extend_from_slice(server.tool().map_or("no tool", |tool| tool.as_str()).as_bytes());
        out.push(b';');
        write_frame(out, server.frame());
        out.push(b';');
        write_place(out, server.stored());
        out.extend_from_slice(if server.is_error() { b";error;" } else { b";no error;" });
    }

    /// What runs, in machine axes.
    fn push_running(&self, out: &mut Vec<u8>) {
        let offset = self.server.frame().offset();
        match self.server.running().map(|running| &running.command) {
            None => out.extend_from_slice(b"nothing"),
            Some(Command::GoTo(target)) => {
                out.extend_from_slice(b"Move ");
                write_place(out, target.plus(offset));
            }
            Some(Command::PtMeas(target, direction)) => {
                out.extend_from_slice(b"Touch ");
                write_place(out, target.plus(offset));
                out.push(b' ');
                write_direction(out, *direction);
            }
            Some(Command::ChangeTool(tool)) => out.extend_from_slice(format!("Change {}", tool.as_str()).as_bytes()),
            Some(_) => out.extend_from_slice(b"Home"),
        }
    }

    fn push_ledger(&self, out: &mut Vec<u8>) {
        for (connection, act) in self.server.ledger() {
            write_whole(out, u64::from(*connection));
            out.push(b' ');
            write_act(out, act);
            out.push(b';');
        }
    }

    /// The contacts of a report, each line with a `;` behind it.
    fn push_contacts(&self, out: &mut Vec<u8>) {
        let contacts = self.server.ledger().iter().filter_map(|(connection, act)| match act {
            Act::Contact(contact) => Some((*connection, contact.point)),
            _ => None,
        });
        for (number, (connection, point)) in contacts.enumerate() {
            out.extend_from_slice(b"CONTACT ");
            write_whole(out, number as u64);
            out.push(b' ');
            write_whole(out, u64::from(connection));
            out.push(b' ');
            write_place(out, point);
            out.push(b';');
        }
    }

    /// Carries out a row that is not a question; false if a line had to be read and none is whole.
    fn act(&mut self, row: &str) -> Result<bool, server::Refusal> {
        let server = &mut self.server;
        let (word, rest) = row.split_once(' ').unwrap_or((row, ""));
        match (word, rest) {
            ("leave", "") => server.leave(),
            ("restart", "") => server.restart(),
            ("turn", "") => server.turn()?,
            ("done", "") => server.machine(Outcome::Done)?,
            ("missed", "") => server.machine(Outcome::Missed)?,
            ("fault", "") => server.machine(Outcome::Fault)?,
            ("touched", place) => server.machine(Outcome::Touched(read_place(place)))?,
            ("read", "") => return server.read_one(),
            ("accept", number) => server.accept(number.parse().unwrap_or(0))?,
            ("clear", "") => {
                self.hear("09999 ClearAllErrors()\r\n")?;
                self.server.turn()?;
            }
            ("homes", first) => {
                let first = first.parse().unwrap_or(0);
                (first + 1..=first + HOMES).try_for_each(|number| self.hear(&format!("{number:05} Home()\r\n")))?;
            }
            ("long", "") => self.hear(&"A".repeat(crate::framing::LINE_MOST + 1))?,
            ("bad", line) => self.hear(&[line, "\n"].concat())?,
            _ => self.hear(&[row, "\r\n"].concat())?,
        }
        Ok(true)
    }

    /// Bytes come, and a line is read.
    fn hear(&mut self, bytes: &str) -> Result<(), server::Refusal> {
        self.server.feed(bytes.as_bytes())?;
        self.server.read_one().map(drop)
    }
}

/// A place of three lengths.
fn read_place(text: &str) -> Point {
    let mut lengths = text.split(' ').map(|length| read_length(length.as_bytes(), WIRE_LIMIT).unwrap_or_default());
    let mut next = || lengths.next().unwrap_or_default();
    Point { x: next(), y: next(), z: next() }
}
