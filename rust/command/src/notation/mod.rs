//! Domains and runs in words.
//!
//! A domain, one thing a line:
//! ```text
//! # remarks go to the end of their line
//! relation at/2
//! relation out/2
//!
//! at once move(volume, from, to)
//!     true at(volume, from)
//!     delete at(volume, from)
//!     add at(volume, to)
//!
//! lasting lend(volume, shelf, reader)
//!     start true and delete at(volume, shelf)
//!     end add out(volume, reader)
//!
//! template at[0,_] out[0,_]
//! ```
//! The times of a lasting action's literals are `start`, `all` (or `over all`) and `end`; an action at once has none.
//! The lists are `true`, `false`, `add` and `delete`. In a false condition or a delete one argument may be `*`, every
//! object: `delete at(volume, *)` (or `FF`). Labels are keys, 0, 1, .., and `_` (or `FF`) for the counted argument. Several things may stand on one line with `,` or `;` between them, so the paper's own line is read, too:
//! ```text
//! at/2, out/2; move(0,1,2): true at(0,1), add at(0,2), delete at(0,1); at[0,FF], out[0,FF]
//! ```
//! A run:
//! ```text
//! objects volume7 shelf2 shelf3 reader5
//! fact at(volume7, shelf2)
//! step
//!     start lend(volume7, shelf2, reader5)
//! step
//!     end lend(volume7, shelf2, reader5)
//! ```
//! Names are words of letters and digits of any alphabet with `_`, `-` and `'`; a word of the notation is a name where
//! `(`, `[` or `/` follows it. The closing records are written by themselves, unless the text has the line `not closed`.

pub mod cursor;
pub mod domain_text;
pub mod items;
pub mod nearest;
pub mod raw;
pub mod refused;
pub mod run_text;
pub mod show;
pub mod source;
pub mod words;
pub mod written;
