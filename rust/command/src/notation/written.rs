//! A file written from a text, with the place in the text that each of its records comes from.

use super::raw::Raw;
use super::source::Span;
use crate::records::put;

#[derive(Clone, Debug, Default)]
pub struct Written {
    pub file: Vec<u8>,
    /// The offset of a record, or of a byte that has a place of its own, and that place; offsets rise.
    places: Vec<(usize, Span)>,
}

impl Written {
    /// Appends a record. The bytes behind the first `skipped` of the payload have places of their own, as far as told.
    pub fn record(&mut self, kind: u16, payload: &[u8], span: Span, skipped: usize, own: &[Span]) {
        self.places.push((self.file.len(), span));
        put(&mut self.file, kind, payload);
        let first = self.file.len() - payload.len() + skipped;
        self.places.extend(own.iter().enumerate().map(|(count, &span)| (first + count, span)));
    }

    pub fn raw(&mut self, raw: &Raw) {
        for _ in 0..raw.times {
            self.places.push((self.file.len(), raw.span));
            self.file.extend(&raw.bytes);
        }
    }

    /// The place in the text of what stands at an offset: its own, or that of the record it is in.
    pub fn place(&self, offset: usize) -> Span {
        let before = self.places.iter().take_while(|&&(at, _)| at <= offset);
        before.last().map(|&(_, span)| span).unwrap_or_default()
    }
}
