//! Files that are named on the command line, in words or in bytes.

use crate::domain::{Domain, Names, EVERY};
use crate::library::{judge, Judged};
use crate::notation::source::{tell, Fault};
use crate::notation::written::Written;
use crate::notation::{domain_text, refused, run_text};
use crate::numbers::says_at;
use crate::records::{split, Record, EVENT, FF, OBJECTS};
use std::ffi::OsStr;
use std::fs::File;
use std::io::{self, Read};

/// Why there is nothing to go on with.
#[derive(Clone, PartialEq, Eq, Debug)]
pub enum Trouble {
    /// A file that can't be read or written: status 1.
    Access(String),
    /// A file that isn't what it should be, in full sentences: status 4.
    Broken(String),
}

/// The name of a file for people; standard input has none.
pub fn shown_name(name: &OsStr) -> String {
    if name == "-" {
        return "standard input".to_string();
    }
    name.to_string_lossy().chars().map(|sign| if sign.is_control() { '?' } else { sign }).collect()
}

/// The most bytes that are read; more than any run that a person writes, and less than a device that never ends.
const MOST: u64 = 256 << 20;

/// The bytes of a file; `-` is standard input.
pub fn load(name: &OsStr) -> Result<Vec<u8>, Trouble> {
    let mut bytes = Vec::new();
    let read = match name == "-" {
        true => io::stdin().lock().take(MOST + 1).read_to_end(&mut bytes),
        false => File::open(name).and_then(|file| file.take(MOST + 1).read_to_end(&mut bytes)),
    };
    match read {
        Ok(count) if count as u64 <= MOST => Ok(bytes),
        Ok(_) => Err(Trouble::Access(format!("can't read {}: it has more than {MOST} bytes", shown_name(name)))),
        Err(error) => Err(Trouble::Access(format!("can't read {}: {}", shown_name(name), reason(&error)))),
    }
}

/// What an error of the system says, without its number.
pub fn reason(error: &io::Error) -> String {
    match error.kind() {
        io::ErrorKind::NotFound => "there is no such file".to_string(),
        io::ErrorKind::PermissionDenied => "permission denied".to_string(),
        io::ErrorKind::IsADirectory => "it is a folder".to_string(),
        _ => error.to_string().split(" (os error").next().unwrap_or_default().to_lowercase(),
    }
}

/// Whether a file is words: its first bytes are a text's, and it isn't blank. Every record of a file in bytes has a byte
/// below 32 among its first four.
pub fn is_words(content: &[u8]) -> bool {
    let start = content.strip_prefix(b"\xEF\xBB\xBF").unwrap_or(content);
    let is_text = |&byte: &u8| byte >= 32 && byte != 127 || matches!(byte, b'\t' | b'\n' | b'\r');
    let utf16 = start.starts_with(&[0xFF, 0xFE]) || start.starts_with(&[0xFE, 0xFF]);
    !utf16 && start.iter().take(4).all(is_text) && start.iter().any(|byte| !byte.is_ascii_whitespace())
}

/// A domain with its file in bytes and its names.
#[derive(Clone, Debug)]
pub struct LoadedDomain {
    pub name: String,
    pub file: Vec<u8>,
    pub names: Names,
    pub judged: Judged,
    /// The text that it was written from.
    pub text: Option<(String, Written)>,
}

impl LoadedDomain {
    /// What the file says; only for one that is well-formed.
    pub fn domain(&self) -> Domain {
        Domain::of(&self.file, &self.names)
    }

    /// Why the file can't be read: in words by its lines, in bytes by the record at fault.
    pub fn refusal(&self) -> String {
        match &self.text {
            Some((text, written)) => {
                let faults = refused::in_domain(&domain_text::DomainText {
                    written: written.clone(),
                    names: self.names.clone(),
                });
                tell(&self.name, text, &faults)
            }
            None => refusal_of_bytes(&self.name, &self.file, self.judged.number, self.judged.places[0] as usize),
        }
    }
}

/// Reads a domain. Words that can't be written are broken; bytes that the library refuses are for the caller to tell.
pub fn load_domain(name: &OsStr) -> Result<LoadedDomain, Trouble> {
    domain_of(&shown_name(name), load(name)?)
}

/// The same of a file's content.
pub fn domain_of(name: &str, content: Vec<u8>) -> Result<LoadedDomain, Trouble> {
    if !is_words(&content) {
        let judged = judge(&content);
        return Ok(LoadedDomain { name: name.to_string(), file: content, names: Names::default(), judged, text: None });
    }
    let text = text_of(name, content)?;
    if run_text::is_run(&text) {
        let said = format!("{name}: this is a run; a domain is expected here\n");
        return Err(Trouble::Broken(said));
    }
    let read = domain_text::read(&text).map_err(|faults| broken_text(name, &text, &faults))?;
    let judged = judge(&read.written.file);
    let file = read.written.file.clone();
    Ok(LoadedDomain { name: name.to_string(), file, names: read.names, judged, text: Some((text, read.written)) })
}

/// A run with its file in bytes and the names of its objects.
#[derive(Clone, Debug)]
pub struct LoadedRun {
    pub name: String,
    pub file: Vec<u8>,
    pub objects: Vec<String>,
    /// The text that it was written from.
    pub text: Option<(String, Written)>,
}

impl LoadedRun {
    pub fn object(&self, number: u8) -> String {
        match self.objects.get(number as usize) {
            Some(name) => name.clone(),
            None if number == FF => EVERY.to_string(),
            None => format!("o{number}"),
        }
    }

    /// Where an offset is for people: a line of the text, or the offset itself.
    pub fn place(&self, offset: usize) -> String {
        match &self.text {
            Some((_, written)) => format!("line {}", written.place(offset).line + 1),
            None => format!("offset {offset}"),
        }
    }
}

/// Reads a run of a domain.
pub fn load_run(name: &OsStr, domain: Option<&Domain>) -> Result<LoadedRun, Trouble> {
    run_of(&shown_name(name), load(name)?, domain)
}

/// The same of a file's content.
pub fn run_of(name: &str, content: Vec<u8>, domain: Option<&Domain>) -> Result<LoadedRun, Trouble> {
    if !is_words(&content) {
        return Ok(LoadedRun { name: name.to_string(), file: content, objects: Vec::new(), text: None });
    }
    let text = text_of(name, content)?;
    if !run_text::is_run(&text) {
        let said = format!("{name}: this is no run: its first word should be `objects`\n");
        return Err(Trouble::Broken(said));
    }
    let read = run_text::read(&text, domain).map_err(|faults| broken_text(name, &text, &faults))?;
    let file = read.written.file.clone();
    Ok(LoadedRun { name: name.to_string(), file, objects: read.objects, text: Some((text, read.written)) })
}

/// Whether a file is a run, by its first word or the kind of its first record.
pub fn is_run(content: &[u8]) -> bool {
    if is_words(content) {
        return run_text::is_run(&String::from_utf8_lossy(content));
    }
    Record::read(content, 0).is_some_and(|record| (OBJECTS..=EVENT + 2).contains(&record.kind))
}

/// A file that begins as a text, as one; told is what it is where it can't be words of the notation.
fn text_of(name: &str, content: Vec<u8>) -> Result<String, Trouble> {
    let text = String::from_utf8(content).map_err(|error| {
        let at = error.utf8_error().valid_up_to();
        let line = error.as_bytes()[..at].iter().filter(|&&byte| byte == b'\n').count() + 1;
        Trouble::Broken(format!("{name}:{line}: neither words (this is not UTF-8) nor the records of a file\n"))
    })?;
    if is_hexadecimal(&text) {
        let said = "this is hexadecimal, the bytes of a file written as text: `xxd -r -p FILE` makes the bytes of it";
        return Err(Trouble::Broken(format!("{name}: {said}\n")));
    }
    if text.trim_start().starts_with("(define") {
        let said = "this is PDDL, which is not read here; docs/COURSE.md shows how a domain is written";
        return Err(Trouble::Broken(format!("{name}: {said}\n")));
    }
    Ok(text)
}

fn is_hexadecimal(text: &str) -> bool {
    let mut digits = text.chars().filter(|sign| !sign.is_whitespace());
    digits.clone().count() >= 8 && digits.all(|digit| digit.is_ascii_hexdigit())
}

fn broken_text(name: &str, text: &str, faults: &[Fault]) -> Trouble {
    Trouble::Broken(tell(name, text, faults))
}

/// Why the library refuses a file in bytes, by the record at fault, and what the file may be instead. With 9 it is the whole
/// file that is at fault, and no record is looked at.
pub fn refusal_of_bytes(name: &str, file: &[u8], number: u64, offset: usize) -> String {
    let mut told = format!("{name}: at offset {offset}: {} ({number})\n", says_at(number, file, offset));
    if let Some(record) = record_around(file, offset).filter(|_| number != 9) {
        let payload: String = record.payload.iter().take(16).map(|byte| format!(" {byte:02X}")).collect();
        let payload = if payload.is_empty() { " nothing".to_string() } else { payload };
        let there = if record.at == offset { "there".to_string() } else { format!("at offset {}", record.at) };
        told += &format!("    = the record {there} has kind {} and holds{payload}\n", record.kind);
    }
    if let Some(guess) = looks_like(file) {
        told += &format!("    = {guess}\n");
    }
    told
}

/// The whole record that an offset is in; of a label at fault the offset is that of its byte.
fn record_around(file: &[u8], offset: usize) -> Option<Record<'_>> {
    split(file).0.into_iter().find(|record| (record.at..record.end()).contains(&offset))
}

/// What bytes look like that are no records.
fn looks_like(file: &[u8]) -> Option<&'static str> {
    if file.is_empty() {
        return Some("the file is empty");
    }
    if file.iter().all(u8::is_ascii_whitespace) {
        return Some("the file has nothing but blanks");
    }
    let has_mark = file.starts_with(&[0xFF, 0xFE]) || file.starts_with(&[0xFE, 0xFF]);
    // a text of plain letters has a zero in every second byte
    let is_letter = |pair: &[u8]| pair.contains(&0) && pair.iter().any(|&byte| byte >= b' ');
    if has_mark || file.len() >= 16 && file[..16].chunks(2).all(is_letter) {
        return Some("it looks like a text in UTF-16: save it as UTF-8");
    }
    None
}
