//! Standard output, where a write that fails is noticed.

use std::io::{self, Write};
use std::sync::atomic::{AtomicBool, Ordering};

static CLOSED: AtomicBool = AtomicBool::new(false);

/// Notes that standard output is closed, where that is known: writing to it then fails, as it should.
pub fn note_closed(closed: bool) {
    CLOSED.store(closed, Ordering::Relaxed);
}

/// How a use of the command ends.
#[derive(Clone, Copy, PartialEq, Eq, PartialOrd, Ord, Debug)]
pub enum Status {
    /// Accepted, or played to the end.
    Done = 0,
    /// Refused for a class, or a step that isn't allowed.
    Refused = 3,
    /// A file that is broken.
    Broken = 4,
    /// Something can't be read or written.
    Access = 1,
    /// Wrong usage.
    Usage = 2,
}

impl Status {
    /// The one that matters more; what can't be read matters most.
    pub fn worse(self, other: Status) -> Status {
        let rank = |status: Status| match status {
            Status::Done => 0,
            Status::Refused => 1,
            Status::Broken => 2,
            Status::Access => 3,
            Status::Usage => 4,
        };
        if rank(other) > rank(self) {
            other
        } else {
            self
        }
    }

    /// The status of a verdict.
    pub fn of_verdict(number: u64) -> Status {
        match number {
            0 | 1 => Status::Done,
            40.. => Status::Refused,
            _ => Status::Broken,
        }
    }
}

/// Prints on standard output. A pipe that its reader has closed ends the command without a word, as that is the reader's
/// wish; its status is still 1, since not all was written.
pub fn print(bytes: &[u8]) -> Result<(), Status> {
    if CLOSED.load(Ordering::Relaxed) {
        complain("can't write to standard output: it is closed");
        return Err(Status::Access);
    }
    let mut out = io::stdout().lock();
    out.write_all(bytes).and_then(|()| out.flush()).map_err(|error| {
        if error.kind() != io::ErrorKind::BrokenPipe {
            complain(&format!("can't write to standard output: {}", crate::files::reason(&error)));
        }
        Status::Access
    })
}

/// A line on standard error.
pub fn complain(words: &str) {
    // nobody is left to be told if this fails
    let _ = writeln!(io::stderr().lock(), "goadlotus: {words}");
}

/// Sentences on standard error as they stand.
pub fn tell(text: &str) {
    let _ = io::stderr().lock().write_all(text.as_bytes());
}
