//! The lines of cases/edges.txt.

use crate::judging;
use crate::playing::{self, Played, WORK};
use crate::serving::Served;
use model::Source;

/// A judge line: what is lent, and what comes back.
#[derive(Clone, PartialEq, Eq, Debug)]
pub struct Judging {
    pub line: usize,
    pub name: String,
    pub file: Vec<u8>,
    pub report_lent: usize,
    pub witness_lent: usize,
    pub told: judging::Told,
}

/// A play line: what is lent, and what comes back.
#[derive(Clone, PartialEq, Eq, Debug)]
pub struct Playing {
    pub line: usize,
    pub name: String,
    pub domain: Vec<u8>,
    pub run: Vec<u8>,
    pub work_lent: usize,
    pub told: playing::Told,
}

/// A track line: a play line with its instance and its total.
#[derive(Clone, PartialEq, Eq, Debug)]
pub struct Tracking {
    pub play: Playing,
    pub instance: Vec<u8>,
    pub total: u64,
}

/// A line of a service: what is lent, and what comes back.
#[derive(Clone, PartialEq, Eq, Debug)]
pub struct Serving {
    pub line: usize,
    pub name: String,
    pub file: Vec<u8>,
    pub lent: usize,
    pub served: Served,
    pub written: Vec<u8>,
}

/// Every judge line. Panics where a line doesn't have the form that the first lines tell.
pub fn judge_lines() -> Vec<Judging> {
    lines("judge", judging_line)
}

/// Every play line. Panics where a line doesn't have the form that the first lines tell.
pub fn play_lines() -> Vec<Playing> {
    lines("play", playing_line)
}

/// Every track line. Panics where a line doesn't have the form that the first lines tell.
pub fn track_lines() -> Vec<Tracking> {
    lines("track", tracking_line)
}

/// Every line of this service. Panics where a line doesn't have the form that the first lines tell.
pub fn service_lines(kind: &str) -> Vec<Serving> {
    lines(kind, serving_line)
}

/// What a line may begin with. Classes are looked at in the model alone.
const KINDS: [&str; 7] = ["judge", "play", "track", "classes", "templates", "try", "totals"];

fn lines<T>(kind: &str, read: impl Fn(usize, &[&str]) -> Option<T>) -> Vec<T> {
    let text = include_str!("../../cases/edges.txt");
    let mut edges = Vec::new();
    for (at, line) in text.lines().enumerate().filter(|(_, line)| !line.starts_with('#')) {
        let fields: Vec<&str> = line.split(" | ").map(str::trim).collect();
        assert!(KINDS.contains(&fields[0]), "line {} of edges.txt: {line}", at + 1);
        if fields[0] == kind {
            let edge = read(at + 1, &fields[1..]);
            edges.push(edge.unwrap_or_else(|| panic!("line {} of edges.txt isn't a {kind} line: {line}", at + 1)));
        }
    }
    edges
}

/// The words of a field as numbers, of which there must be so many.
fn numbers<const N: usize>(text: &str) -> Option<[u64; N]> {
    let numbers: Option<Vec<u64>> = text.split(' ').map(|word| word.parse().ok()).collect();
    numbers?.try_into().ok()
}

fn judging_line(line: usize, fields: &[&str]) -> Option<Judging> {
    let &[name, file, room, answer, report, witness] = fields else { return None };
    let room: Vec<&str> = room.split(' ').collect();
    let ["report", report_lent, "witness", witness_lent] = room[..] else { return None };
    Some(Judging {
        line,
        name: name.to_string(),
        file: bytes(file)?,
        report_lent: report_lent.parse().ok()?,
        witness_lent: witness_lent.parse().ok()?,
        told: judging::Told { answer: numbers(answer)?, report: bytes(report)?, witness: bytes(witness)? },
    })
}

fn playing_line(line: usize, fields: &[&str]) -> Option<Playing> {
    let &[name, domain, run, room, answer, facts, part] = fields else { return None };
    let (domain, run) = (bytes(domain)?, bytes(run)?);
    let [number, place, steps, weight] = numbers(answer)?;
    let mut work = if facts == "none" { Vec::new() } else { bytes(facts)? };
    if facts != "-" {
        work.resize(WORK, 0);
    }
    let (file, at) = part.split_once(' ')?;
    let (file, whole) = match file {
        "domain" => (Source::Domain, &domain),
        "run" => (Source::Run, &run),
        _ => return None,
    };
    let at: usize = at.parse().ok()?;
    let length = whole.len().checked_sub(at)?;
    let played = Played { number, place, steps, weight, file, at, length };
    Some(Playing {
        line,
        name: name.to_string(),
        work_lent: room.strip_prefix("work ")?.parse().ok()?,
        told: playing::Told { played, work },
        domain,
        run,
    })
}

fn tracking_line(line: usize, fields: &[&str]) -> Option<Tracking> {
    let &[name, domain, run, instance, room, answer, facts, part] = fields else { return None };
    let (answer, total) = answer.rsplit_once(' ')?;
    let play = playing_line(line, &[name, domain, run, room, answer, facts, part])?;
    Some(Tracking { play, instance: bytes(instance)?, total: total.parse().ok()? })
}

fn serving_line(line: usize, fields: &[&str]) -> Option<Serving> {
    let &[name, file, room, answer, written] = fields else { return None };
    let [number, first] = numbers(answer)?;
    Some(Serving {
        line,
        name: name.to_string(),
        file: bytes(file)?,
        lent: room.strip_prefix("room ")?.parse().ok()?,
        served: Served { number, first },
        written: bytes(written)?,
    })
}

/// Bytes in hexadecimal, '-' for none.
pub fn bytes(text: &str) -> Option<Vec<u8>> {
    if text == "-" {
        return Some(Vec::new());
    }
    if text.is_empty() || !text.len().is_multiple_of(2) {
        return None;
    }
    let digit = |byte: u8| (byte as char).to_digit(16).map(|digit| digit as u8);
    text.as_bytes().chunks_exact(2).map(|pair| Some(digit(pair[0])? << 4 | digit(pair[1])?)).collect()
}
