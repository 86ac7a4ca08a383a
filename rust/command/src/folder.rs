//! The files of folders, and progress over many of them.

use std::ffi::OsString;
use std::fs;
use std::io::{self, IsTerminal, Write};
use std::path::Path;
use std::time::{Duration, Instant};

/// The files named, and those in the folders named and in the folders within, by their names. Hidden ones are passed over.
pub fn files_of(named: &[OsString]) -> Vec<OsString> {
    let mut files = Vec::new();
    for name in named {
        match Path::new(name).is_dir() {
            true => add_folder(Path::new(name), &mut files),
            false => files.push(name.clone()),
        }
    }
    files
}

fn add_folder(folder: &Path, files: &mut Vec<OsString>) {
    let Ok(entries) = fs::read_dir(folder) else {
        // reading it as a file tells why
        files.push(folder.as_os_str().to_owned());
        return;
    };
    let mut paths: Vec<_> = entries.flatten().map(|entry| entry.path()).collect();
    paths.sort();
    for path in paths {
        let is_hidden = path.file_name().is_some_and(|name| name.as_encoded_bytes().starts_with(b"."));
        match path.is_dir() {
            _ if is_hidden => {}
            true => add_folder(&path, files),
            false => files.push(path.into_os_string()),
        }
    }
}

/// How far the work on many files is, on a terminal alone.
pub struct Progress {
    done: usize,
    total: usize,
    shown: Option<Instant>,
    is_terminal: bool,
}

impl Progress {
    pub fn new(total: usize) -> Progress {
        Progress { done: 0, total, shown: None, is_terminal: total > 100 && io::stderr().is_terminal() }
    }

    pub fn step(&mut self) {
        self.done += 1;
        let words = format!("{} of {} files", self.done, self.total);
        self.show(&words);
    }

    /// For work whose length isn't known before it is done.
    pub fn unknown() -> Progress {
        Progress { done: 0, total: 0, shown: None, is_terminal: io::stderr().is_terminal() }
    }

    /// Words in the line, now and then.
    pub fn show(&mut self, words: &str) {
        let is_due = self.shown.is_none_or(|shown| shown.elapsed() > Duration::from_millis(100));
        if self.is_terminal && is_due {
            let _ = write!(io::stderr(), "\r{words}");
            self.shown = Some(Instant::now());
        }
    }

    /// Takes the line away again.
    pub fn end(&mut self) {
        if self.shown.is_some() {
            let _ = write!(io::stderr(), "\r{}\r", " ".repeat(40));
        }
    }
}
