//! What the calls write, row by row and fact by fact.

use crate::numbers::Name;
use crate::sizes::{FACT, ROW};
use std::slice::ChunksExact;

/// When the events of a row happen.
#[derive(Clone, Copy, PartialEq, Eq, PartialOrd, Ord, Hash, Debug)]
pub enum Moment {
    /// At once, or at the start of a lasting action.
    Start = 0,
    /// At the end of a lasting action.
    End = 1,
}

/// A row of the report: the name of a moment of a class of an action.
#[derive(Clone, Copy, PartialEq, Eq, PartialOrd, Ord, Hash, Debug)]
pub struct Row {
    pub action: u8,
    pub class: u8,
    pub moment: Moment,
    pub name: Name,
}

impl Row {
    /// The row in these bytes; none where they hold no row.
    pub fn of(bytes: [u8; ROW]) -> Option<Row> {
        let [action, class, moment, name] = bytes;
        let moment = match moment {
            0 => Moment::Start,
            1 => Moment::End,
            _ => return None,
        };
        Some(Row { action, class, moment, name: Name::of(name)? })
    }
}

/// A fact: a relation with an object for each argument.
#[derive(Clone, Copy, PartialEq, Eq, PartialOrd, Ord, Hash, Debug)]
pub struct Fact<'a> {
    pub relation: u8,
    pub objects: &'a [u8],
}

impl<'a> Fact<'a> {
    /// The fact in these bytes; none where they hold no fact: its objects are at most 6, and `FF` fills what they leave.
    pub fn of(bytes: &'a [u8; FACT]) -> Option<Fact<'a>> {
        let [relation, arity, rest @ ..] = bytes;
        let (objects, fill) = rest.split_at_checked(usize::from(*arity))?;
        fill.iter().all(|&byte| byte == 0xFF).then_some(Fact { relation: *relation, objects })
    }
}

/// The rows of a report, in its order.
#[derive(Clone, Debug)]
pub struct Rows<'a>(ChunksExact<'a, u8>);

impl<'a> Rows<'a> {
    /// Of memory that holds rows and nothing else.
    pub(crate) fn of(report: &'a [u8]) -> Rows<'a> {
        Rows(report.chunks_exact(ROW))
    }
}

impl Iterator for Rows<'_> {
    type Item = Row;

    fn next(&mut self) -> Option<Row> {
        let bytes = self.0.next()?.try_into().expect("4 bytes");
        Some(Row::of(bytes).expect("only rows are counted"))
    }

    fn size_hint(&self) -> (usize, Option<usize>) {
        self.0.size_hint()
    }
}

impl ExactSizeIterator for Rows<'_> {}

/// The facts of a witness, or those held after a run, in their order.
#[derive(Clone, Debug)]
pub struct Facts<'a>(ChunksExact<'a, u8>);

impl<'a> Facts<'a> {
    /// Of memory that holds facts and nothing else.
    pub(crate) fn of(memory: &'a [u8]) -> Facts<'a> {
        Facts(memory.chunks_exact(FACT))
    }
}

impl<'a> Iterator for Facts<'a> {
    type Item = Fact<'a>;

    fn next(&mut self) -> Option<Fact<'a>> {
        let bytes = self.0.next()?.try_into().expect("8 bytes");
        Some(Fact::of(bytes).expect("only facts are counted"))
    }

    fn size_hint(&self) -> (usize, Option<usize>) {
        self.0.size_hint()
    }
}

impl ExactSizeIterator for Facts<'_> {}
