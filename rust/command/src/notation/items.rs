//! Reading a text item by item.

use super::cursor::{Cursor, Parsed};
use super::source::Fault;
use super::words::words;

/// Where reading a text stands: the items so far, and what is wrong with others.
pub struct Reader<'t, Item> {
    pub cursor: Cursor<'t>,
    pub items: Vec<Item>,
    pub faults: Vec<Fault>,
}

impl<'t, Item> Reader<'t, Item> {
    /// Reads a whole text, one item at a time. Behind a fault reading goes on with the next item, so that all are told.
    pub fn read(text: &'t str, item: impl Fn(&mut Self) -> Parsed<()>) -> Self {
        let (tokens, faults) = words(text);
        let mut reader = Reader { cursor: Cursor::new(tokens), items: Vec::new(), faults };
        reader.cursor.skip_separators();
        while !reader.cursor.is_at_end() {
            if let Err(fault) = item(&mut reader) {
                reader.faults.push(fault);
                reader.cursor.skip_item();
            }
            reader.cursor.skip_separators();
        }
        reader
    }

    /// That nothing more of an item follows.
    pub fn item_end(&self) -> Parsed<()> {
        if self.cursor.is_item_end() {
            return Ok(());
        }
        Err(self.cursor.unexpected("the end of the line, or `,`"))
    }
}
