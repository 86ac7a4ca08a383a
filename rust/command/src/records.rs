//! Records, the form that domain files and run files share: payload length, kind, payload.

pub const RELATION: u16 = 1;
pub const ACTION: u16 = 2;
pub const LITERAL: u16 = 3;
pub const COMPONENT: u16 = 4;
pub const CLOSING: u16 = 5;
pub const OBJECTS: u16 = 16;
pub const START_FACT: u16 = 17;
pub const EVENT: u16 = 18;
pub const CLOSE_STEP: u16 = 19;
pub const CLOSE_RUN: u16 = 20;

/// The label of a counted argument, and the argument that stands for every object.
pub const FF: u8 = 0xFF;

const HEAD: usize = 4;

/// A whole record of a file.
#[derive(Clone, Copy, PartialEq, Eq, Debug)]
pub struct Record<'a> {
    pub at: usize,
    pub kind: u16,
    pub payload: &'a [u8],
}

impl<'a> Record<'a> {
    /// The record at an offset; none where it is cut short.
    pub fn read(file: &'a [u8], at: usize) -> Option<Record<'a>> {
        let (head, rest) = file.get(at..)?.split_first_chunk::<HEAD>()?;
        let length = u16::from_le_bytes([head[0], head[1]]) as usize;
        let kind = u16::from_le_bytes([head[2], head[3]]);
        Some(Record { at, kind, payload: rest.get(..length)? })
    }

    /// The offset behind it.
    pub fn end(&self) -> usize {
        self.at + HEAD + self.payload.len()
    }
}

/// The whole records of a file, and the offset behind the last of them.
pub fn split(file: &[u8]) -> (Vec<Record<'_>>, usize) {
    let mut records = Vec::new();
    let mut at = 0;
    while let Some(record) = Record::read(file, at) {
        at = record.end();
        records.push(record);
    }
    (records, at)
}

/// Appends a record.
pub fn put(file: &mut Vec<u8>, kind: u16, payload: &[u8]) {
    file.extend((payload.len() as u16).to_le_bytes());
    file.extend(kind.to_le_bytes());
    file.extend(payload);
}
