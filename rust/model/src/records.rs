//! The record form of domain files and run files.

/// "A file is a row of records: payload length (2 bytes, little-endian), kind (2 bytes), payload."
#[derive(Clone, Copy, Debug)]
pub struct Record<'a> {
    /// The record's offset in its file.
    pub at: usize,
    pub kind: u16,
    pub payload: &'a [u8],
}

const HEAD: usize = 4;

impl<'a> Record<'a> {
    /// The record at offset `at`; none if its head or its payload runs past the end of the file,
    /// so also if the file ends at `at`.
    pub fn read(file: &'a [u8], at: usize) -> Option<Record<'a>> {
        let (head, rest) = file.get(at..)?.split_first_chunk::<HEAD>()?;
        let length = u16::from_le_bytes([head[0], head[1]]);
        let kind = u16::from_le_bytes([head[2], head[3]]);
        let payload = rest.get(..length as usize)?;
        Some(Record { at, kind, payload })
    }

    /// The offset of a byte of the payload in the file.
    pub fn byte(&self, of_payload: usize) -> usize {
        self.at + HEAD + of_payload
    }

    /// The offset behind the record.
    pub fn end(&self) -> usize {
        self.at + HEAD + self.payload.len()
    }
}
