//! Commands that a client has sent, with their tags, from their draw to the `%` that is read of them (docs/PROTOCOL.md).

use crate::line::Tag;
use crate::values::Point;
use std::collections::{BTreeMap, VecDeque};

/// How many tags of either sort are drawn: those of numbers 1 to 9999.
const TAGS: usize = 9_999;

/// What the data of a command say.
#[derive(Clone, Copy, PartialEq, Eq, Debug)]
pub enum Asks {
    Nothing,
    Point,
    Homed,
}

/// What a data text said.
#[derive(Clone, Copy, PartialEq, Eq, Debug)]
pub enum Datum {
    Point(Point),
    Homed(bool),
}

/// How far a command has come that has not failed.
#[derive(Clone, Copy, PartialEq, Eq, Debug)]
pub enum Stage {
    Sent,
    Received,
    Given(Datum),
}

/// A command that has neither ended nor failed, and what it means.
#[derive(Debug)]
pub struct Open<C> {
    pub tag: Tag,
    pub stage: Stage,
    pub what: C,
}

/// The tags of one sort that are held, and the next one.
#[derive(Debug)]
pub struct Held<C> {
    first: Tag,
    /// The tag that is drawn next, unless it is held.
    next: Tag,
    /// In the order in which they were sent.
    pub open: VecDeque<Open<C>>,
    /// Those that failed and have not ended.
    failed: BTreeMap<Tag, Asks>,
}

impl<C> Held<C> {
    /// No command; the first tag of the sort is drawn first.
    pub fn new(first: Tag) -> Held<C> {
        Held { first, next: first, open: VecDeque::new(), failed: BTreeMap::new() }
    }

    /// The next tag that is not held; none if all are.
    #[inline]
    pub fn draw(&mut self) -> Option<Tag> {
        if self.open.len() + self.failed.len() >= TAGS {
            return None;
        }
        loop {
            let tag = self.next;
            self.next = tag.following().unwrap_or(self.first);
            if self.place(tag).is_none() && self.failed_asks(tag).is_none() {
                return Some(tag);
            }
        }
    }

    /// A command is sent under a tag that was drawn.
    #[inline]
    pub fn push(&mut self, tag: Tag, what: C) {
        self.open.push_back(Open { tag, stage: Stage::Sent, what });
    }

    /// The place of a command among those that are open.
    #[inline]
    pub fn place(&self, tag: Tag) -> Option<usize> {
        match self.open.front() {
            Some(first) if first.tag == tag => Some(0),
            _ => self.open.iter().position(|open| open.tag == tag),
        }
    }

    /// What a failed command asked for.
    #[inline]
    pub fn failed_asks(&self, tag: Tag) -> Option<Asks> {
        if self.failed.is_empty() { None } else { self.failed.get(&tag).copied() }
    }

    /// The command at this place fails.
    pub fn fail(&mut self, place: usize, asks: Asks) {
        if let Some(open) = self.open.remove(place) {
            self.failed.insert(open.tag, asks);
        }
    }

    /// Releases the tag of a failed command.
    pub fn close(&mut self, tag: Tag) {
        self.failed.remove(&tag);
    }
}
