//! Lines of commands and of responses (docs/PROTOCOL.md), read and written, and the texts in them. A line is read without its end.

use crate::values::{
    DIRECTION_LIMIT, Dir, Name, Point, VOLUME_LIMIT, WIRE_LIMIT, is_zero, read_component, read_length, write_direction, write_length,
    write_point,
};

/// The end of a line.
pub const LINE_END: &[u8; 2] = b"\r\n";

/// The five characters by which a response names its command.
#[derive(Clone, Copy, PartialEq, Eq, PartialOrd, Ord, Debug)]
pub struct Tag([u8; 5]);

/// A command without its arguments.
#[derive(Clone, Copy, PartialEq, Eq, Debug)]
pub enum Kind {
    StartSession,
    EndSession,
    ClearAllErrors,
    IsHomed,
    Home,
    OnPtMeasReport,
    AbortE,
    GoTo,
    PtMeas,
    ChangeTool,
    SetCsyTransformation,
    SetCoordSystem,
}

/// The coordinate systems that a command names.
#[derive(Clone, Copy, PartialEq, Eq, Debug)]
pub enum Csy {
    Machine,
    Part,
}

/// What a client requests.
#[derive(Clone, PartialEq, Eq, Debug)]
pub enum Command {
    StartSession,
    EndSession,
    ClearAllErrors,
    IsHomed,
    Home,
    OnPtMeasReport,
    AbortE,
    GoTo(Point),
    PtMeas(Point, Option<Dir>),
    ChangeTool(Name),
    /// The lengths as they are on the wire: the machine's zero point in part coordinates.
    SetCsyTransformation(Point),
    SetCoordSystem(Csy),
}

/// Why a line with a tag is not a command.
#[derive(Clone, Copy, PartialEq, Eq, Debug)]
pub enum Misread {
    UnknownCommand,
    BadArguments(Kind),
}

/// A line with a tag: the command, or why it is not one.
#[derive(Debug)]
pub struct Asked {
    pub tag: Tag,
    pub command: Result<Command, Misread>,
}

/// What a response says about its command.
#[derive(Clone, Copy, PartialEq, Eq, Debug)]
pub enum Mark<'l> {
    Received,
    Data(&'l [u8]),
    Complete,
    Error,
}

/// Why a command fails.
#[derive(Clone, Copy, PartialEq, Eq, Debug)]
pub enum Failure {
    NoTag = 9001,
    TagInUse,
    UnknownCommand,
    BadArguments,
    NoSession,
    SessionOpen,
    Aborted,
    ErrorState,
    QueueFull,
    NotHomed,
    NoTool,
    UnknownTool,
    OutOfVolume,
    NoSurface,
    MachineFault,
}

impl Tag {
    /// The tag of what a server sends unasked.
    pub const UNASKED: Tag = Tag(*b"E0000");

    /// A standard tag; its number has at most five digits.
    pub fn standard(number: u32) -> Tag {
        Tag([digit(number / 10_000), digit(number / 1_000), digit(number / 100), digit(number / 10), digit(number)])
    }

    /// An event tag; its number has at most four digits.
    pub fn event(number: u32) -> Tag {
        Tag([b'E', digit(number / 1_000), digit(number / 100), digit(number / 10), digit(number)])
    }

    pub fn is_event(self) -> bool {
        self.0[0] == b'E'
    }

    /// The tag whose number is one more; none after 9999.
    #[inline]
    pub fn following(self) -> Option<Tag> {
        let Tag(mut text) = self;
        for digit in text[1..].iter_mut().rev() {
            if *digit < b'9' {
                *digit += 1;
                return Some(Tag(text));
            }
            *digit = b'0';
        }
        None
    }

    fn is_number_zero(self) -> bool {
        self == Tag::UNASKED || self.0 == *b"00000"
    }

    /// The tag that a line begins with, and what follows it.
    #[inline]
    pub fn cut(line: &[u8]) -> Option<(Tag, &[u8])> {
        let (tag, rest) = line.split_first_chunk::<5>()?;
        let [first, others @ ..] = tag;
        let is_tag = (first.is_ascii_digit() | (*first == b'E')) & others.iter().fold(true, |all, byte| all & byte.is_ascii_digit());
        is_tag.then_some((Tag(*tag), rest))
    }
}

/// The last decimal digit of a number.
fn digit(number: u32) -> u8 {
    b'0' + (number % 10) as u8
}

impl Kind {
    const ALL: [Kind; 12] = [
        Kind::GoTo,
        Kind::PtMeas,
        Kind::Home,
        Kind::AbortE,
        Kind::IsHomed,
        Kind::EndSession,
        Kind::ChangeTool,
        Kind::StartSession,
        Kind::ClearAllErrors,
        Kind::OnPtMeasReport,
        Kind::SetCoordSystem,
        Kind::SetCsyTransformation,
    ];

    pub fn name(self) -> &'static str {
        match self {
            Kind::StartSession => "StartSession",
            Kind::EndSession => "EndSession",
            Kind::ClearAllErrors => "ClearAllErrors",
            Kind::IsHomed => "IsHomed",
            Kind::Home => "Home",
            Kind::OnPtMeasReport => "OnPtMeasReport",
            Kind::AbortE => "AbortE",
            Kind::GoTo => "GoTo",
            Kind::PtMeas => "PtMeas",
            Kind::ChangeTool => "ChangeTool",
            Kind::SetCsyTransformation => "SetCsyTransformation",
            Kind::SetCoordSystem => "SetCoordSystem",
        }
    }

    /// The kind of this name, in letters of any case.
    #[inline]
    fn named(name: &[u8]) -> Option<Kind> {
        match name {
            b"GoTo" => Some(Kind::GoTo),
            b"PtMeas" => Some(Kind::PtMeas),
            _ => Kind::ALL.into_iter().find(|kind| kind.name().as_bytes().eq_ignore_ascii_case(name)),
        }
    }
}

impl Command {
    pub fn kind(&self) -> Kind {
        match self {
            Command::StartSession => Kind::StartSession,
            Command::EndSession => Kind::EndSession,
            Command::ClearAllErrors => Kind::ClearAllErrors,
            Command::IsHomed => Kind::IsHomed,
            Command::Home => Kind::Home,
            Command::OnPtMeasReport => Kind::OnPtMeasReport,
            Command::AbortE => Kind::AbortE,
            Command::GoTo(_) => Kind::GoTo,
            Command::PtMeas(..) => Kind::PtMeas,
            Command::ChangeTool(_) => Kind::ChangeTool,
            Command::SetCsyTransformation(_) => Kind::SetCsyTransformation,
            Command::SetCoordSystem(_) => Kind::SetCoordSystem,
        }
    }
}

impl Asked {
    /// The kind of the command, if its name was recognised.
    pub fn kind(&self) -> Option<Kind> {
        match &self.command {
            Ok(command) => Some(command.kind()),
            Err(misread) => misread.kind(),
        }
    }
}

impl Misread {
    /// The kind of the command, if its name was recognised.
    pub fn kind(self) -> Option<Kind> {
        match self {
            Misread::UnknownCommand => None,
            Misread::BadArguments(kind) => Some(kind),
        }
    }

    pub fn failure(self) -> Failure {
        match self {
            Misread::UnknownCommand => Failure::UnknownCommand,
            Misread::BadArguments(_) => Failure::BadArguments,
        }
    }
}

impl Failure {
    fn text(self) -> &'static str {
        match self {
            Failure::NoTag => "No tag",
            Failure::TagInUse => "Tag in use",
            Failure::UnknownCommand => "Unknown command",
            Failure::BadArguments => "Bad arguments",
            Failure::NoSession => "No session",
            Failure::SessionOpen => "Session open",
            Failure::Aborted => "Aborted",
            Failure::ErrorState => "Error state",
            Failure::QueueFull => "Queue full",
            Failure::NotHomed => "Not homed",
            Failure::NoTool => "No tool",
            Failure::UnknownTool => "Unknown tool",
            Failure::OutOfVolume => "Out of volume",
            Failure::NoSurface => "No surface",
            Failure::MachineFault => "Machine fault",
        }
    }
}

/// What a line requests; nothing if it has no tag.
pub fn read_command(line: &[u8]) -> Option<Asked> {
    let (tag, rest) = Tag::cut(line)?;
    let [b' ', call @ ..] = rest else { return None };
    if tag.is_number_zero() {
        return None;
    }
    let written = if tag.is_event() { None } else { read_written(call) };
    Some(Asked { tag, command: written.map_or_else(|| read_call(tag, call), Ok) })
}

/// A move or a touch without its tag, if it has exactly the form in which it is written.
#[inline]
fn read_written(call: &[u8]) -> Option<Command> {
    let mut written = Written { rest: call };
    let command = if written.cut(b"GoTo(").is_some() {
        Command::GoTo(written.point()?)
    } else {
        written.cut(b"PtMeas(")?;
        let target = written.point()?;
        let direction = if written.cut(b", IJK(").is_some() { Some(written.direction()?) } else { None };
        Command::PtMeas(target, direction)
    };
    (written.rest == b")").then_some(command)
}

/// A command without its tag, in any form.
fn read_call(tag: Tag, call: &[u8]) -> Result<Command, Misread> {
    let end = call.iter().position(|byte| matches!(byte, b' ' | b'(')).unwrap_or(call.len());
    let (name, arguments) = call.split_at(end);
    let kind = Kind::named(name).ok_or(Misread::UnknownCommand)?;
    let command = if tag.is_event() == (kind == Kind::AbortE) { Arguments { rest: arguments }.read(kind) } else { None };
    command.ok_or(Misread::BadArguments(kind))
}

/// What is still to be read of a text in the one form in which it is written. Text in another form is left to
/// `Arguments`, which also makes all refusals.
struct Written<'l> {
    rest: &'l [u8],
}

impl Written<'_> {
    #[inline(always)]
    fn cut<const COUNT: usize>(&mut self, text: &[u8; COUNT]) -> Option<()> {
        let (front, rest) = self.rest.split_first_chunk()?;
        if front != text {
            return None;
        }
        self.rest = rest;
        Some(())
    }

    /// Whether a sign is here.
    #[inline(always)]
    fn sign(&mut self) -> bool {
        match self.rest {
            [b'-', rest @ ..] => {
                self.rest = rest;
                true
            }
            _ => false,
        }
    }

    /// The number of at most seven digits.
    #[inline(always)]
    fn whole(&mut self) -> i64 {
        let mut number = 0;
        for _ in 0..7 {
            let [digit @ b'0'..=b'9', rest @ ..] = self.rest else { break };
            number = number * 10 + i64::from(digit - b'0');
            self.rest = rest;
        }
        number
    }

    /// The number of three digits after a point, or after a digit.
    #[inline(always)]
    fn three<const IS_POINT: bool>(&mut self) -> Option<i64> {
        let (block, _) = self.rest.split_first_chunk::<4>()?;
        let digits = u32::from_le_bytes(*block) ^ u32::from_le_bytes(if IS_POINT { *b".000" } else { *b"0000" });
        // In no byte is more than the 9 of a digit or the 0 of the point.
        let most = if IS_POINT { 0x7676_767f } else { 0x7676_7676u32 };
        if (digits | digits.wrapping_add(most)) & 0x8080_8080 != 0 {
            return None;
        }
        let [_, hundreds, tens, ones] = digits.to_le_bytes().map(i64::from);
        Some(hundreds * 100 + tens * 10 + ones)
    }

    /// A numeral with three decimals, and at most seven digits before them.
    #[inline(always)]
    fn length(&mut self) -> Option<i64> {
        let is_negative = self.sign();
        let length = self.whole() * 1_000 + self.three::<true>()?;
        self.rest = &self.rest[4..];
        Some(if is_negative { -length } else { length })
    }

    /// A numeral with six decimals.
    #[inline(always)]
    fn component(&mut self) -> Option<i64> {
        let is_negative = self.sign();
        let thousandths = self.whole() * 1_000 + self.three::<true>()?;
        self.rest = &self.rest[3..];
        let component = thousandths * 1_000 + self.three::<false>()?;
        self.rest = &self.rest[4..];
        Some(if is_negative { -component } else { component })
    }

    /// `X(a), Y(b), Z(c)`
    #[inline(always)]
    fn point(&mut self) -> Option<Point> {
        self.cut(b"X(")?;
        let x = self.length()?;
        self.cut(b"), Y(")?;
        let y = self.length()?;
        self.cut(b"), Z(")?;
        let z = self.length()?;
        self.cut(b")")?;
        let point = Point { x, y, z };
        point.is_within(WIRE_LIMIT).then_some(point)
    }

    /// `i, j, k)`
    #[inline]
    fn direction(&mut self) -> Option<Dir> {
        let i = self.component()?;
        self.cut(b", ")?;
        let j = self.component()?;
        self.cut(b", ")?;
        let k = self.component()?;
        self.cut(b")")?;
        let is_within = [i, j, k].iter().all(|component| component.abs() <= DIRECTION_LIMIT);
        if is_within { Dir::new(i, j, k) } else { None }
    }
}

/// What is still to be read of a command after its name, or of a data text.
struct Arguments<'l> {
    rest: &'l [u8],
}

impl<'l> Arguments<'l> {
    /// The command of this kind, whose arguments these are.
    fn read(mut self, kind: Kind) -> Option<Command> {
        self.mark(b'(')?;
        let command = match kind {
            Kind::StartSession => Command::StartSession,
            Kind::EndSession => Command::EndSession,
            Kind::ClearAllErrors => Command::ClearAllErrors,
            Kind::IsHomed => Command::IsHomed,
            Kind::Home => Command::Home,
            Kind::AbortE => Command::AbortE,
            Kind::OnPtMeasReport => self.report()?,
            Kind::GoTo => Command::GoTo(self.target::<false>()?.0),
            Kind::PtMeas => self.target::<true>().map(|(target, direction)| Command::PtMeas(target, direction))?,
            Kind::ChangeTool => Command::ChangeTool(self.tool()?),
            Kind::SetCsyTransformation => Command::SetCsyTransformation(self.transformation()?),
            Kind::SetCoordSystem => Command::SetCoordSystem(self.csy()?),
        };
        self.mark(b')')?;
        self.ended().then_some(command)
    }

    fn skip_spaces(&mut self) {
        while let [b' ', rest @ ..] = self.rest {
            self.rest = rest;
        }
    }

    /// A parenthesis or a comma, with spaces before it.
    fn mark(&mut self, mark: u8) -> Option<()> {
        self.skip_spaces();
        let [first, rest @ ..] = self.rest else { return None };
        if *first != mark {
            return None;
        }
        self.rest = rest;
        Some(())
    }

    /// The text up to the next space, parenthesis or comma, with spaces before it.
    fn word(&mut self) -> &'l [u8] {
        self.skip_spaces();
        let end = self.rest.iter().position(|byte| is_behind_word(*byte)).unwrap_or(self.rest.len());
        let (word, rest) = self.rest.split_at(end);
        self.rest = rest;
        word
    }

    /// This word, in letters of any case.
    fn named(&mut self, name: &str) -> Option<()> {
        self.word().eq_ignore_ascii_case(name.as_bytes()).then_some(())
    }

    /// Whether nothing but spaces is left.
    fn ended(&mut self) -> bool {
        self.skip_spaces();
        self.rest.is_empty()
    }

    /// A coordinate in parentheses.
    fn coordinate(&mut self) -> Option<i64> {
        self.mark(b'(')?;
        let length = read_length(self.word(), WIRE_LIMIT).ok()?;
        self.mark(b')')?;
        Some(length)
    }

    /// A direction in parentheses.
    fn direction(&mut self) -> Option<Dir> {
        self.mark(b'(')?;
        let i = read_component(self.word()).ok()?;
        self.mark(b',')?;
        let j = read_component(self.word()).ok()?;
        self.mark(b',')?;
        let k = read_component(self.word()).ok()?;
        self.mark(b')')?;
        Dir::new(i, j, k)
    }

    /// The axes of a target, and its direction if one is allowed there, each at most once and in any order.
    fn target<const MAY_DIRECT: bool>(&mut self) -> Option<(Point, Option<Dir>)> {
        let (mut x, mut y, mut z, mut direction) = (None, None, None, None);
        loop {
            match self.word() {
                b"X" | b"x" if x.is_none() => x = Some(self.coordinate()?),
                b"Y" | b"y" if y.is_none() => y = Some(self.coordinate()?),
                b"Z" | b"z" if z.is_none() => z = Some(self.coordinate()?),
                word if MAY_DIRECT && direction.is_none() && word.eq_ignore_ascii_case(b"IJK") => direction = Some(self.direction()?),
                _ => return None,
            }
            if self.mark(b',').is_none() {
                return Some((Point { x: x?, y: y?, z: z? }, direction));
            }
        }
    }

    /// `X(), Y(), Z()`
    fn report(&mut self) -> Option<Command> {
        for (number, axis) in ["X", "Y", "Z"].into_iter().enumerate() {
            if number > 0 {
                self.mark(b',')?;
            }
            self.named(axis)?;
            self.mark(b'(')?;
            self.mark(b')')?;
        }
        Some(Command::OnPtMeasReport)
    }

    /// The name of a tool, in quotes or without them.
    fn tool(&mut self) -> Option<Name> {
        match self.word() {
            [b'"', name @ .., b'"'] => Name::read(name),
            name => Name::read(name),
        }
    }

    /// The lengths of a transformation that turns nothing.
    fn transformation(&mut self) -> Option<Point> {
        self.named("PartCsy")?;
        let mut lengths = [0; 3];
        for length in &mut lengths {
            self.mark(b',')?;
            *length = read_length(self.word(), VOLUME_LIMIT).ok()?;
        }
        for _ in 0..3 {
            self.mark(b',')?;
            is_zero(self.word()).then_some(())?;
        }
        let [x, y, z] = lengths;
        Some(Point { x, y, z })
    }

    fn csy(&mut self) -> Option<Csy> {
        let name = self.word();
        if name.eq_ignore_ascii_case(b"MachineCsy") {
            Some(Csy::Machine)
        } else {
            name.eq_ignore_ascii_case(b"PartCsy").then_some(Csy::Part)
        }
    }

    /// An axis in capitals, with its coordinate.
    fn axis(&mut self, axis: u8) -> Option<i64> {
        self.skip_spaces();
        let [first, rest @ ..] = self.rest else { return None };
        if *first != axis {
            return None;
        }
        self.rest = rest;
        self.coordinate()
    }
}

fn is_behind_word(byte: u8) -> bool {
    matches!(byte, b' ' | b'(' | b')' | b',')
}

/// Appends a command without the end of its line.
pub fn write_command(out: &mut Vec<u8>, tag: Tag, command: &Command) {
    out.extend_from_slice(&tag.0);
    match command {
        Command::GoTo(target) => {
            out.extend_from_slice(b" GoTo(");
            write_point(out, *target);
            out.push(b')');
        }
        Command::PtMeas(target, direction) => {
            out.extend_from_slice(b" PtMeas(");
            write_point(out, *target);
            if let Some(direction) = direction {
                write_direction(out, *direction);
            }
            out.push(b')');
        }
        other => write_other(out, other),
    }
}

/// A command that is neither a move nor a touch.
fn write_other(out: &mut Vec<u8>, command: &Command) {
    out.push(b' ');
    out.extend_from_slice(command.kind().name().as_bytes());
    match command {
        Command::OnPtMeasReport => out.extend_from_slice(b"(X(), Y(), Z())"),
        Command::ChangeTool(name) => {
            out.extend_from_slice(b"(\"");
            out.extend_from_slice(name.as_str().as_bytes());
            out.extend_from_slice(b"\")");
        }
        Command::SetCsyTransformation(lengths) => {
            out.extend_from_slice(b"(PartCsy");
            for length in [lengths.x, lengths.y, lengths.z] {
                out.extend_from_slice(b", ");
                write_length(out, length);
            }
            out.extend_from_slice(b", 0, 0, 0)");
        }
        Command::SetCoordSystem(Csy::Machine) => out.extend_from_slice(b"(MachineCsy)"),
        Command::SetCoordSystem(Csy::Part) => out.extend_from_slice(b"(PartCsy)"),
        _ => out.extend_from_slice(b"()"),
    }
}

/// The tag and the mark of a response; nothing if the line is not a response.
#[inline]
pub fn read_response(line: &[u8]) -> Option<(Tag, Mark<'_>)> {
    let (tag, rest) = Tag::cut(line)?;
    let mark = match rest {
        b" &" => Mark::Received,
        b" %" => Mark::Complete,
        [b' ', b'#', b' ', text @ ..] => Mark::Data(text),
        b" !" | [b' ', b'!', b' ', ..] => Mark::Error,
        [b' ', b'&', spaces @ ..] if are_spaces(spaces) => Mark::Received,
        [b' ', b'%', spaces @ ..] if are_spaces(spaces) => Mark::Complete,
        _ => return None,
    };
    Some((tag, mark))
}

fn are_spaces(text: &[u8]) -> bool {
    text.iter().all(|byte| *byte == b' ')
}

/// The point of a data text.
pub fn read_point(text: &[u8]) -> Option<Point> {
    let mut written = Written { rest: text };
    if let Some(point) = written.point()
        && written.rest.is_empty()
    {
        return Some(point);
    }
    if text.first() == Some(&b' ') {
        return None;
    }
    let mut arguments = Arguments { rest: text };
    let x = arguments.axis(b'X')?;
    arguments.mark(b',')?;
    let y = arguments.axis(b'Y')?;
    arguments.mark(b',')?;
    let z = arguments.axis(b'Z')?;
    arguments.ended().then_some(Point { x, y, z })
}

/// What a data text answers to the question whether the machine is homed.
pub fn read_homed(text: &[u8]) -> Option<bool> {
    match text {
        b"0" => return Some(false),
        b"1" => return Some(true),
        [b' ', ..] => return None,
        _ => {}
    }
    let mut arguments = Arguments { rest: text };
    arguments.named("IsHomed")?;
    arguments.mark(b'(')?;
    let is_homed = match arguments.word() {
        b"0" => false,
        b"1" => true,
        _ => return None,
    };
    arguments.mark(b')')?;
    arguments.ended().then_some(is_homed)
}

/// Appends `TAG &` and the end of its line.
#[inline]
pub fn write_received(out: &mut Vec<u8>, tag: Tag) {
    write_bare(out, tag, b'&');
}

/// Appends `TAG %` and the end of its line.
#[inline]
pub fn write_complete(out: &mut Vec<u8>, tag: Tag) {
    write_bare(out, tag, b'%');
}

#[inline]
fn write_bare(out: &mut Vec<u8>, tag: Tag, mark: u8) {
    let [a, b, c, d, e] = tag.0;
    out.extend_from_slice(&[a, b, c, d, e, b' ', mark, b'\r', b'\n']);
}

/// Appends a data line with a point, and its end.
#[inline]
pub fn write_point_data(out: &mut Vec<u8>, tag: Tag, point: Point) {
    out.extend_from_slice(&tag.0);
    out.extend_from_slice(b" # ");
    write_point(out, point);
    out.extend_from_slice(LINE_END);
}

/// Appends a data line that says whether the machine is homed, and its end.
pub fn write_homed_data(out: &mut Vec<u8>, tag: Tag, is_homed: bool) {
    out.extend_from_slice(&tag.0);
    out.extend_from_slice(if is_homed { b" # IsHomed(1)\r\n" } else { b" # IsHomed(0)\r\n" });
}

/// Appends an error line with the name of its command, empty if it is not known, and its end.
pub fn write_error(out: &mut Vec<u8>, tag: Tag, failure: Failure, kind: Option<Kind>) {
    out.extend_from_slice(&tag.0);
    out.extend_from_slice(b" ! Error(3, ");
    out.extend_from_slice(&Tag::standard(failure as u32).0[1..]);
    out.extend_from_slice(b", \"");
    out.extend_from_slice(kind.map_or("", Kind::name).as_bytes());
    out.extend_from_slice(b"\", \"");
    out.extend_from_slice(failure.text().as_bytes());
    out.extend_from_slice(b"\")\r\n");
}
