//! `goadlotus write FILE` and `goadlotus write DOMAIN RUN`: a file in bytes.

use super::given::{load_given, Given};
use super::misused;
use crate::arguments::Arguments;
use crate::files::{reason, shown_name, LoadedDomain, LoadedRun};
use crate::notation::refused;
use crate::notation::source::tell as told;
use crate::output::{complain, print, tell, Status};
use std::fs;
use std::io::{self, IsTerminal};

pub fn run(arguments: &Arguments) -> Result<Status, Status> {
    let (file, status) = match load_given("write", arguments)? {
        Given::Domain(loaded) => domain_file(loaded),
        Given::Run(run) => (run.file, Status::Done),
        Given::RunOf(loaded, run) => run_file(&loaded, run),
    };
    if arguments.output.is_none() && io::stdout().is_terminal() {
        return Err(misused("bytes are not for a terminal: name a file with -o, or use a pipe"));
    }
    put_out(arguments, &file)?;
    Ok(status)
}

/// The file of a domain. One that the library refuses is written too, and told is which line is the cause.
fn domain_file(loaded: LoadedDomain) -> (Vec<u8>, Status) {
    if loaded.judged.is_read() {
        return (loaded.file, Status::Done);
    }
    tell(&loaded.refusal());
    (loaded.file, Status::Broken)
}

/// The file of a run, likewise.
fn run_file(loaded: &LoadedDomain, run: LoadedRun) -> (Vec<u8>, Status) {
    let fault = run.text.as_ref().and_then(|(text, written)| Some((text, refused::in_run(&loaded.file, written)?)));
    let status = if fault.is_some() { Status::Broken } else { Status::Done };
    if let Some((text, fault)) = fault {
        tell(&told(&run.name, text, &[fault]));
    }
    (run.file, status)
}

/// Writes to the file that -o names, or to standard output.
pub fn put_out(arguments: &Arguments, bytes: &[u8]) -> Result<(), Status> {
    let Some(output) = &arguments.output else { return print(bytes) };
    fs::write(output, bytes).map_err(|error| {
        complain(&format!("can't write {}: {}", shown_name(output), reason(&error)));
        Status::Access
    })
}
