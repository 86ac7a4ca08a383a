//! The words of the command.

pub mod explain;
mod given;
pub mod judge;
pub mod mark;
pub mod play;
pub mod show;
pub mod templates;
pub mod totals;
pub mod try_facts;
pub mod write;

use crate::arguments::{Arguments, Options};
use crate::files::Trouble;
use crate::help;
use crate::output::{complain, print, tell, Status};
use std::ffi::OsString;

/// A word with the options that it takes and what it does.
struct Word {
    name: &'static str,
    options: Options,
    run: fn(&Arguments) -> Result<Status, Status>,
}

const NONE: Options = Options { form: false, output: false, rows: false, all: false, boxes: false, track: false };

const WORDS: [Word; 9] = [
    Word { name: "judge", options: Options { form: true, rows: true, ..NONE }, run: judge::run },
    Word { name: "explain", options: NONE, run: explain::run },
    Word { name: "mark", options: Options { form: true, rows: true, ..NONE }, run: mark::run },
    Word { name: "play", options: Options { all: true, track: true, ..NONE }, run: play::run },
    Word { name: "templates", options: Options { form: true, ..NONE }, run: templates::run },
    Word { name: "try", options: Options { form: true, ..NONE }, run: try_facts::run },
    Word { name: "totals", options: Options { form: true, all: true, boxes: true, ..NONE }, run: totals::run },
    Word { name: "show", options: Options { output: true, ..NONE }, run: show::run },
    Word { name: "write", options: Options { output: true, ..NONE }, run: write::run },
];

/// Runs the command with its arguments, the word first.
pub fn run(given: &[OsString]) -> Status {
    let Some(word) = given.first() else {
        tell(&help::all());
        return Status::Usage;
    };
    let done = match word.to_str() {
        Some("--help" | "-h" | "help") => print(help::all().as_bytes()).map(|()| Status::Done),
        Some("--version") => print(help::version().as_bytes()).map(|()| Status::Done),
        name => match WORDS.iter().find(|word| Some(word.name) == name) {
            Some(word) => run_word(word, &given[1..]),
            None => Err(misused(&unknown_word(&word.to_string_lossy()))),
        },
    };
    done.unwrap_or_else(|status| status)
}

fn run_word(word: &Word, given: &[OsString]) -> Result<Status, Status> {
    let arguments = Arguments::read(word.name, word.options, given).map_err(|said| misused(&said))?;
    if arguments.help {
        return print(help::of(word.name).as_bytes()).map(|()| Status::Done);
    }
    (word.run)(&arguments)
}

fn unknown_word(word: &str) -> String {
    match crate::notation::nearest::nearest(word, WORDS.iter().map(|word| word.name)) {
        Some(near) => format!("there is no word {word}; the nearest is {near}"),
        None => format!("there is no word {word}"),
    }
}

/// Says that the command is used wrongly.
fn misused(said: &str) -> Status {
    complain(&format!("{said}; see goadlotus --help"));
    Status::Usage
}

/// Says why a file can't be used.
fn troubled(trouble: Trouble) -> Status {
    match trouble {
        Trouble::Access(said) => {
            complain(&said);
            Status::Access
        }
        Trouble::Broken(said) => {
            tell(&said);
            Status::Broken
        }
    }
}
