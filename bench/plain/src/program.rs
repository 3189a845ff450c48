//! DMIS programs (docs/DMIS.md): what they make a machine do, and why a text is not one.

use crate::blocks::{self, find};
use crate::setup::Setup;
use crate::text::{Statement, Statements, trimmed};
use crate::values::{BadNumeral, Dir, Name, Point, VOLUME_LIMIT};
use crate::values::{DIRECTION_LIMIT, push_name, read_component, read_length, read_plain};
use std::fmt;

/// The most statements of a program.
const STATEMENTS: usize = 10_000;
/// About how many bytes a statement has, for room to be asked for at once.
const STATEMENT_BYTES: usize = 32;
/// The most touches that a `MEAS` names.
const TOUCHES: u32 = 10_000;

/// What a statement makes the machine do.
#[derive(Clone, PartialEq, Eq, Debug)]
pub enum Step {
    /// `GOTO`
    Move(Point),
    /// `PTMEAS`
    Touch(Point, Option<Dir>),
    /// `SNSLCT`
    Tool(Name),
    /// `RECALL/D`, with the frame's zero point in machine axes.
    Frame(Point),
}

/// What is between `MEAS` and `ENDMES`.
#[derive(Clone, Copy, PartialEq, Eq, Debug)]
pub struct Feature {
    /// Where its label begins and ends among the labels.
    label: (u32, u32),
    /// The count of its touches, at least 1.
    pub touches: u32,
    /// The index of the step of its last touch.
    pub last: u32,
}

/// A program that can be carried out.
#[derive(Debug, Default)]
pub struct Program {
    pub steps: Vec<Step>,
    pub features: Vec<Feature>,
    /// All labels, one after the other.
    labels: Vec<u8>,
}

/// Why a text is not a program.
#[derive(Clone, Copy, PartialEq, Eq, Debug)]
pub enum Refusal {
    NotDmis,
    Truncated,
    LineTooLong,
    BadByte,
    Unsupported,
    BadArguments,
    BadNumeral(BadNumeral),
    OutsideBlock,
    InsideBlock,
    TooFewPoints,
    UnknownFrame,
    NotMillimetres,
    NoProgMode,
    ZeroVector,
    NoTool,
    TooLarge,
}

impl fmt::Display for Refusal {
    fn fmt(&self, out: &mut fmt::Formatter) -> fmt::Result {
        out.write_str(match self {
            Refusal::NotDmis => "P1 NotDmis",
            Refusal::Truncated => "P2 Truncated",
            Refusal::LineTooLong => "P3 LineTooLong",
            Refusal::BadByte => "P4 BadByte",
            Refusal::Unsupported => "P5 Unsupported",
            Refusal::BadArguments => "P6 BadArguments",
            Refusal::BadNumeral(BadNumeral::NotNumeral) => "P7 BadNumeral (N1 NotNumeral)",
            Refusal::BadNumeral(BadNumeral::TooManyDigits) => "P7 BadNumeral (N2 TooManyDigits)",
            Refusal::BadNumeral(BadNumeral::TooLarge) => "P7 BadNumeral (N3 TooLarge)",
            Refusal::OutsideBlock => "P8 OutsideBlock",
            Refusal::InsideBlock => "P9 InsideBlock",
            Refusal::TooFewPoints => "P10 TooFewPoints",
            Refusal::UnknownFrame => "P11 UnknownFrame",
            Refusal::NotMillimetres => "P12 NotMillimetres",
            Refusal::NoProgMode => "P13 NoProgMode",
            Refusal::ZeroVector => "P14 ZeroVector",
            Refusal::NoTool => "P15 NoTool",
            Refusal::TooLarge => "P16 TooLarge",
        })
    }
}

/// The words of statements, by what they mean.
#[derive(Clone, Copy, PartialEq, Eq, Debug)]
enum Word {
    Begin,
    Move,
    Block,
    Touch,
    EndBlock,
    Tool,
    Recall,
    End,
    Units,
    Mode,
    PassedOver,
    /// Skipped, with a label or without.
    Definition,
    Unknown,
}

/// Clears the bit by which small letters differ from capitals. Only a letter becomes a letter by it; a space becomes a zero, as if the
/// word ended before it.
const CAPITALS: u64 = 0xDFDF_DFDF_DFDF_DFDF;

/// A word of at most eight letters as a number, its first letter lowest.
const fn key(word: &[u8]) -> u64 {
    let (mut key, mut at) = (0, 0);
    while at < word.len() {
        key |= (word[at] as u64) << (8 * at);
        at += 1;
    }
    key
}

/// Names the keys of words.
macro_rules! keys {
    ($($word:ident)*) => { $(const $word: u64 = key(stringify!($word).as_bytes());)* };
}

keys! {
    DMISMN GOTO MEAS PTMEAS ENDMES SNSLCT RECALL ENDFIL UNITS MODE FILNAM FEDRAT ACLRAT SNSET FINPOS PRCOMP WKPLAN TEXT DISPLY OUTPUT
    FEAT TOL SNSDEF
}

impl Word {
    #[inline(always)]
    fn of_key(key: u64) -> Word {
        match key {
            DMISMN => Word::Begin,
            GOTO => Word::Move,
            MEAS => Word::Block,
            PTMEAS => Word::Touch,
            ENDMES => Word::EndBlock,
            SNSLCT => Word::Tool,
            RECALL => Word::Recall,
            ENDFIL => Word::End,
            UNITS => Word::Units,
            MODE => Word::Mode,
            FILNAM | FEDRAT | ACLRAT | SNSET | FINPOS | PRCOMP | WKPLAN | TEXT | DISPLY | OUTPUT => Word::PassedOver,
            FEAT | TOL | SNSDEF => Word::Definition,
            _ => Word::Unknown,
        }
    }

    fn of(text: &[u8]) -> Word {
        match text.len() {
            0..=8 => Word::of_key(blocks::front_word(text) & CAPITALS),
            _ => Word::Unknown,
        }
    }
}

/// A statement whose word was found.
#[derive(Clone, Copy)]
struct Head<'t> {
    word: Word,
    /// What follows the first `/` outside texts, if there is one.
    parameters: Option<&'t [u8]>,
    has_texts: bool,
    /// Whether there is a label.
    is_labelled: bool,
    /// Whether a text is left open.
    is_open: bool,
}

/// The place of the first such byte outside texts; the first byte is outside of any text.
fn find_outside_texts(text: &[u8], byte: u8) -> Option<usize> {
    let mut is_open = false;
    text.iter().position(|it| {
        is_open ^= *it == b'\'';
        !is_open && *it == byte
    })
}

impl<'t> Head<'t> {
    #[inline(always)]
    fn of(statement: &Statement<'t>) -> Head<'t> {
        let Statement { text, has_texts, is_open } = *statement;
        let front = blocks::front_word(text);
        let length = blocks::length_to(front, b'/').min(text.len());
        let word = Word::of_key(blocks::first_bytes(front, length) & CAPITALS);
        if word == Word::Unknown || length == 8 {
            return Head::of_any(statement);
        }
        Head { word, parameters: text.get(length + 1..), has_texts, is_labelled: false, is_open }
    }

    /// Likewise if there is a label, or something next to the word.
    #[cold]
    fn of_any(statement: &Statement<'t>) -> Head<'t> {
        let Statement { text, has_texts, is_open } = *statement;
        let Some(slash) = find_outside_texts(text, b'/') else {
            return Head { word: Word::of(text), parameters: None, has_texts, is_labelled: false, is_open };
        };
        let head = &text[..slash];
        let label = find_outside_texts(head, b'=');
        let word = Word::of(trimmed(&head[label.map_or(0, |end| end + 1)..]));
        Head { word, parameters: Some(&text[slash + 1..]), has_texts, is_labelled: label.is_some(), is_open }
    }

    fn parameters(&self) -> Parameters<'t> {
        Parameters { rest: self.parameters, has_texts: self.has_texts }
    }

    /// The parameters and their count, if it is within the limit; otherwise a count above the limit.
    fn all<const MOST: usize>(&self) -> ([&'t [u8]; MOST], usize) {
        let mut all: [&[u8]; MOST] = [b""; MOST];
        let mut count = 0;
        for parameter in self.parameters() {
            count += 1;
            match all.get_mut(count - 1) {
                Some(place) => *place = parameter,
                None => break,
            }
        }
        (all, count)
    }

    /// No label and no open text.
    fn check_form(&self) -> Result<(), Refusal> {
        check(!self.is_labelled && !self.is_open, Refusal::BadArguments)
    }
}

/// Parameters, split at the commas outside texts, without the blanks around them.
struct Parameters<'t> {
    rest: Option<&'t [u8]>,
    has_texts: bool,
}

impl<'t> Iterator for Parameters<'t> {
    type Item = &'t [u8];

    #[inline(always)]
    fn next(&mut self) -> Option<&'t [u8]> {
        let rest = self.rest.take()?;
        let comma = if self.has_texts { find_outside_texts(rest, b',') } else { find(rest, b',') };
        let parameter = match comma {
            Some(comma) => {
                self.rest = Some(&rest[comma + 1..]);
                &rest[..comma]
            }
            None => rest,
        };
        Some(trimmed(parameter))
    }
}

fn check(is_right: bool, refusal: Refusal) -> Result<(), Refusal> {
    if is_right { Ok(()) } else { Err(refusal) }
}

/// What is in parentheses after a word, with nothing after them.
fn in_parentheses<'t>(text: &'t [u8], word: &[u8]) -> Option<&'t [u8]> {
    let (front, rest) = text.split_at_checked(word.len())?;
    if !front.eq_ignore_ascii_case(word) {
        return None;
    }
    rest.strip_prefix(b"(")?.strip_suffix(b")")
}

fn begins_with(text: &[u8], word: &[u8]) -> bool {
    text.get(..word.len()).is_some_and(|front| front.eq_ignore_ascii_case(word))
}

/// Numbers of that many decimals at the beginning of a text, each in the usual plain form, and what follows them: nothing, or
/// a comma first.
#[inline(always)]
fn plain_numbers<const DECIMALS: usize>(mut text: &[u8], limit: i64) -> Option<([i64; 3], &[u8])> {
    let mut numbers = [0; 3];
    for (index, number) in numbers.iter_mut().enumerate() {
        if index > 0 {
            text = text.strip_prefix(b",")?;
        }
        while let [b' ', rest @ ..] = text {
            text = rest;
        }
        let length;
        (*number, length) = read_plain::<DECIMALS>(text, limit)?;
        text = &text[length..];
    }
    Some((numbers, text))
}

const CART: &[u8] = b"CART";

/// What follows `CART,`, with blanks or without.
fn behind_cart(text: &[u8]) -> Option<&[u8]> {
    let (word, rest) = text.split_first_chunk::<5>()?;
    word.eq_ignore_ascii_case(b"CART,").then_some(rest)
}

fn point([x, y, z]: [i64; 3]) -> Point {
    Point { x, y, z }
}

/// A point of three parameters.
fn read_point(texts: &[&[u8]]) -> Result<Point, Refusal> {
    let mut numbers = [0; 3];
    for (number, text) in numbers.iter_mut().zip(texts) {
        *number = read_length(text, VOLUME_LIMIT).map_err(Refusal::BadNumeral)?;
    }
    Ok(point(numbers))
}

/// The components of a direction of three parameters.
fn read_components(texts: &[&[u8]]) -> Result<[i64; 3], Refusal> {
    let mut numbers = [0; 3];
    for (number, text) in numbers.iter_mut().zip(texts) {
        *number = read_component(text).map_err(Refusal::BadNumeral)?;
    }
    Ok(numbers)
}

/// Whether a first parameter names other coordinates than `CART`.
fn names_others(first: &[u8]) -> bool {
    first.first().is_some_and(u8::is_ascii_alphabetic) && !first.eq_ignore_ascii_case(CART)
}

/// The count of touches that a `MEAS` names.
fn read_count(text: &[u8]) -> Option<u32> {
    let mut count = 0u32;
    for byte in text {
        count = count.saturating_mul(10).saturating_add(u32::from(byte.wrapping_sub(b'0')));
        if !byte.is_ascii_digit() {
            return None;
        }
    }
    (1..=TOUCHES).contains(&count).then_some(count)
}

/// A block that is not ended yet.
struct Block {
    label: (u32, u32),
    /// How many touches it must have.
    wanted: u32,
    touches: u32,
    last: u32,
}

/// A program, as far as it was read.
struct Reader<'s> {
    setup: &'s Setup,
    program: Program,
    block: Option<Block>,
    has_tool: bool,
    /// How many statements were read.
    count: usize,
}

impl Reader<'_> {
    /// Reads all statements up to `ENDFIL`.
    fn read_all(&mut self, statements: &mut Statements) -> Result<(), Refusal> {
        let first = statements.next()?.ok_or(Refusal::NotDmis)?;
        self.count = 1;
        read_first(&Head::of(&first))?;
        while let Some(statement) = statements.next()? {
            self.count += 1;
            check(self.count <= STATEMENTS, Refusal::TooLarge)?;
            let head = Head::of(&statement);
            self.read(&head)?;
            if head.word == Word::End {
                return Ok(());
            }
        }
        Err(Refusal::Truncated)
    }

    #[inline]
    fn read(&mut self, head: &Head) -> Result<(), Refusal> {
        match head.word {
            Word::Move => self.read_move(head),
            Word::Touch => self.read_touch(head),
            Word::Block => self.read_block(head),
            Word::EndBlock => self.read_end_of_block(head),
            Word::Tool => self.read_tool(head),
            Word::Recall => self.read_recall(head),
            Word::End => {
                check(self.block.is_none(), Refusal::InsideBlock)?;
                head.check_form()?;
                check(head.parameters.is_none(), Refusal::BadArguments)
            }
            Word::Units => read_units(head),
            Word::Mode => read_mode(head),
            Word::PassedOver => head.check_form(),
            Word::Definition => check(!head.is_open, Refusal::BadArguments),
            Word::Begin | Word::Unknown => Err(Refusal::Unsupported),
        }
    }

    #[inline]
    fn read_move(&mut self, head: &Head) -> Result<(), Refusal> {
        let target = match plain_move(head) {
            Some(target) => target,
            None => any_move(head)?,
        };
        self.program.steps.push(Step::Move(target));
        Ok(())
    }

    #[inline]
    fn read_touch(&mut self, head: &Head) -> Result<(), Refusal> {
        let (target, components) = match plain_touch(head) {
            Some(touch) => touch,
            None => return self.read_any_touch(head),
        };
        check(self.block.is_some(), Refusal::OutsideBlock)?;
        self.push_touch(target, components)
    }

    fn read_any_touch(&mut self, head: &Head) -> Result<(), Refusal> {
        let (all, count) = head.all::<7>();
        check(!names_others(all[0]), Refusal::Unsupported)?;
        check(self.block.is_some(), Refusal::OutsideBlock)?;
        head.check_form()?;
        check(matches!(count, 4 | 7) && all[0].eq_ignore_ascii_case(CART), Refusal::BadArguments)?;
        let target = read_point(&all[1..4])?;
        let components = if count == 7 { Some(read_components(&all[4..])?) } else { None };
        self.push_touch(target, components)
    }

    fn push_touch(&mut self, target: Point, components: Option<[i64; 3]>) -> Result<(), Refusal> {
        let direction = match components {
            Some([i, j, k]) => Some(Dir::new(i, j, k).ok_or(Refusal::ZeroVector)?),
            None => None,
        };
        check(self.has_tool, Refusal::NoTool)?;
        if let Some(block) = &mut self.block {
            block.touches += 1;
            block.last = self.program.steps.len() as u32;
        }
        self.program.steps.push(Step::Touch(target, direction));
        Ok(())
    }

    fn read_block(&mut self, head: &Head) -> Result<(), Refusal> {
        check(self.block.is_none(), Refusal::InsideBlock)?;
        head.check_form()?;
        let ([kind, feature, wanted], 3) = head.all::<3>() else {
            return Err(Refusal::BadArguments);
        };
        check(!kind.is_empty() && kind.iter().all(u8::is_ascii_alphabetic), Refusal::BadArguments)?;
        let name = in_parentheses(feature, b"F").ok_or(Refusal::BadArguments)?;
        let wanted = read_count(wanted).ok_or(Refusal::BadArguments)?;
        let begin = self.program.labels.len() as u32;
        check(push_name(name, &mut self.program.labels), Refusal::BadArguments)?;
        let label = (begin, self.program.labels.len() as u32);
        self.block = Some(Block { label, wanted, touches: 0, last: 0 });
        Ok(())
    }

    fn read_end_of_block(&mut self, head: &Head) -> Result<(), Refusal> {
        let block = self.block.as_ref().ok_or(Refusal::OutsideBlock)?;
        head.check_form()?;
        check(head.parameters.is_none(), Refusal::BadArguments)?;
        check(block.touches >= block.wanted, Refusal::TooFewPoints)?;
        self.program.features.push(Feature { label: block.label, touches: block.touches, last: block.last });
        self.block = None;
        Ok(())
    }

    fn read_tool(&mut self, head: &Head) -> Result<(), Refusal> {
        head.check_form()?;
        let ([tool], 1) = head.all::<1>() else {
            return Err(Refusal::BadArguments);
        };
        let name = in_parentheses(tool, b"S").or_else(|| in_parentheses(tool, b"SA"));
        let name = name.and_then(Name::read).ok_or(Refusal::BadArguments)?;
        self.program.steps.push(Step::Tool(name));
        self.has_tool = true;
        Ok(())
    }

    fn read_recall(&mut self, head: &Head) -> Result<(), Refusal> {
        let ([first], count) = head.all::<1>();
        let is_frame = begins_with(first, b"D(");
        let is_known = is_frame || begins_with(first, b"S(") || begins_with(first, b"SA(");
        check(is_known || count == 0, Refusal::Unsupported)?;
        head.check_form()?;
        check(count > 0, Refusal::BadArguments)?;
        if !is_frame {
            return Ok(());
        }
        check(count == 1, Refusal::BadArguments)?;
        let name = in_parentheses(first, b"D").and_then(Name::read).ok_or(Refusal::BadArguments)?;
        let zero = self.setup.frames.get(&name).ok_or(Refusal::UnknownFrame)?;
        self.program.steps.push(Step::Frame(*zero));
        Ok(())
    }
}

/// A `GOTO` in its plain form.
fn plain_move(head: &Head) -> Option<Point> {
    let text = head.parameters.filter(|_| head.check_form().is_ok())?;
    let numerals = behind_cart(text).unwrap_or(text);
    match plain_numbers::<3>(numerals, VOLUME_LIMIT)? {
        (numbers, []) => Some(point(numbers)),
        _ => None,
    }
}

fn any_move(head: &Head) -> Result<Point, Refusal> {
    let (all, count) = head.all::<4>();
    check(!names_others(all[0]), Refusal::Unsupported)?;
    head.check_form()?;
    let is_named = all[0].eq_ignore_ascii_case(CART);
    match count {
        3 if !is_named => read_point(&all[..3]),
        4 if is_named => read_point(&all[1..]),
        _ => Err(Refusal::BadArguments),
    }
}

/// A `PTMEAS` in its plain form: the target, and the components of a direction.
fn plain_touch(head: &Head) -> Option<(Point, Option<[i64; 3]>)> {
    let text = head.parameters.filter(|_| head.check_form().is_ok())?;
    let (target, rest) = plain_numbers::<3>(behind_cart(text)?, VOLUME_LIMIT)?;
    let Some(rest) = rest.strip_prefix(b",") else {
        return Some((point(target), None));
    };
    match plain_numbers::<6>(rest, DIRECTION_LIMIT)? {
        (components, []) => Some((point(target), Some(components))),
        _ => None,
    }
}

fn read_units(head: &Head) -> Result<(), Refusal> {
    head.check_form()?;
    let unit = head.parameters().next().ok_or(Refusal::BadArguments)?;
    check(unit.eq_ignore_ascii_case(b"MM"), Refusal::NotMillimetres)
}

fn read_mode(head: &Head) -> Result<(), Refusal> {
    head.check_form()?;
    check(head.parameters.is_some(), Refusal::BadArguments)?;
    let is_prog = head.parameters().any(|word| word.eq_ignore_ascii_case(b"PROG"));
    check(is_prog, Refusal::NoProgMode)
}

impl Program {
    /// The program of a text, whose stored frames are those of the setup, or why it is not one and on which line, counted from 1.
    pub fn read(text: &[u8], setup: &Setup) -> Result<Program, (Refusal, usize)> {
        let mut program = Program::default();
        program.steps.reserve(STATEMENTS.min(text.len() / STATEMENT_BYTES));
        let mut reader = Reader { setup, program, block: None, has_tool: false, count: 0 };
        let mut statements = Statements::of(text);
        match reader.read_all(&mut statements) {
            Ok(()) => Ok(reader.program),
            Err(Refusal::NotDmis) if reader.count == 0 => Err((Refusal::NotDmis, 1)),
            Err(Refusal::Truncated) => Err((Refusal::Truncated, statements.lines())),
            Err(refusal) => Err((refusal, statements.line())),
        }
    }

    /// The label of a feature, by its number from 0.
    pub fn label(&self, feature: usize) -> &str {
        let (begin, end) = self.features[feature].label;
        str::from_utf8(&self.labels[begin as usize..end as usize]).expect("names are ASCII")
    }
}

/// The first statement, which begins the program.
fn read_first(head: &Head) -> Result<(), Refusal> {
    check(head.word == Word::Begin, Refusal::NotDmis)?;
    head.check_form()
}
