//! Records and bytes that have no words: `record 6 02` is a record of kind 6 with the payload 02, `bytes 01 00` are two
//! bytes as they stand, and `times N` repeats either. So every file has a text, a broken one too.

use super::cursor::{Cursor, Parsed};
use super::source::{Fault, Span};
use crate::records::put;

#[derive(Clone, PartialEq, Eq, Debug)]
pub struct Raw {
    pub bytes: Vec<u8>,
    pub times: usize,
    pub span: Span,
}

/// Whether a raw item comes next.
pub fn comes(cursor: &Cursor) -> bool {
    cursor.comes(&["record"]) || cursor.comes(&["bytes"])
}

pub fn read(cursor: &mut Cursor) -> Parsed<Raw> {
    let word = cursor.expect_word("record or bytes")?;
    let kind = match word.text.as_str() {
        "record" => Some(cursor.expect_number("the kind of the record", u16::MAX)?.0),
        _ => None,
    };
    let mut payload = Vec::new();
    while !cursor.is_item_end() && !cursor.comes(&["times"]) {
        payload.push(byte(cursor)?);
    }
    let mut times = 1;
    if cursor.comes(&["times"]) {
        cursor.advance();
        times = cursor.expect_number("how many times", u16::MAX)?.0 as usize;
    }
    let bytes = match kind {
        Some(kind) => {
            let mut record = Vec::new();
            put(&mut record, kind, &payload);
            record
        }
        None => payload,
    };
    Ok(Raw { bytes, times, span: word.span })
}

fn byte(cursor: &mut Cursor) -> Parsed<u8> {
    let word = cursor.expect_word("a byte, two hexadecimal digits")?;
    let is_byte = word.text.len() == 2 && word.text.bytes().all(|digit| digit.is_ascii_hexdigit());
    if !is_byte {
        let said = format!("`{}` is no byte", word.text);
        return Err(Fault::new(word.span, said).beside("expected two hexadecimal digits"));
    }
    Ok(u8::from_str_radix(&word.text, 16).unwrap_or(0))
}

/// Bytes as the notation writes them.
pub fn hexadecimal(bytes: &[u8]) -> String {
    bytes.iter().map(|byte| format!(" {byte:02X}")).collect()
}
