//! What the library refuses in a file that was written from words, told by the line that is the cause.

use super::domain_text::DomainText;
use super::source::Fault;
use super::written::Written;
use crate::domain::row_common;
use crate::library::{judge, play};
use crate::numbers::says;
use crate::records::{split, Record, COMPONENT, FF, LITERAL};

/// What the library refuses in a domain, each by its number. Behind a literal or a component that is refused the next
/// refusal is that of the file without it; nothing else can be left out without changing what the rest means. That the file
/// then has no component left (23) is not the text's fault.
pub fn in_domain(text: &DomainText) -> Vec<Fault> {
    let mut faults = Vec::new();
    let mut left_out: Vec<usize> = Vec::new();
    loop {
        let (file, offsets) = without(&text.written.file, &left_out);
        let judged = judge(&file);
        if judged.is_read() {
            return faults;
        }
        let offset = judged.places[0] as usize;
        let is_component =
            |&at: &usize| Record::read(&text.written.file, at).is_some_and(|left| left.kind == COMPONENT);
        if judged.number == 23 && left_out.iter().any(is_component) {
            return faults;
        }
        let (at, within) = origin(&offsets, offset);
        faults.push(fault(&text.written, judged.number, at, within));
        let is_alone = |record: Record| matches!(record.kind, LITERAL | COMPONENT) && (16..30).contains(&judged.number);
        match Record::read(&text.written.file, at) {
            Some(record) if is_alone(record) && !left_out.contains(&at) => left_out.push(at),
            _ => return faults,
        }
    }
}

/// The file without the records at these offsets, and the old offset of each record that is left.
fn without(file: &[u8], left_out: &[usize]) -> (Vec<u8>, Vec<(usize, usize)>) {
    let (mut kept, mut offsets) = (Vec::new(), Vec::new());
    let (records, end) = split(file);
    for record in records.iter().filter(|record| !left_out.contains(&record.at)) {
        offsets.push((kept.len(), record.at));
        kept.extend(&file[record.at..record.end()]);
    }
    offsets.push((kept.len(), end));
    kept.extend(&file[end..]);
    (kept, offsets)
}

/// The old offset of the record that an offset is in, and how far behind its beginning it is.
fn origin(offsets: &[(usize, usize)], offset: usize) -> (usize, usize) {
    let found = offsets.iter().take_while(|&&(new, _)| new <= offset).last();
    found.map_or((offset, 0), |&(new, old)| (old, offset - new))
}

fn fault(written: &Written, number: u64, at: usize, within: usize) -> Fault {
    let said = format!("{} ({number})", says(number));
    let fault = |offset: usize| Fault::new(written.place(offset), said);
    let Some(record) = Record::read(&written.file, at) else { return fault(at + within) };
    let of_payload = |place: usize| record.end() - record.payload.len() + place;
    match number {
        19 | 20 | 22 => match earlier(written, &record, number) {
            Some(line) => fault(at + within).beside(format!("the other is in line {}", line + 1)),
            None => fault(at + within),
        },
        // the place is the record's; the words have one for each argument and each label
        26 => fault(every(&record).last().map_or(at, |&place| of_payload(place))),
        27 => match cleared_key(written, &record) {
            Some((place, line)) => fault(of_payload(place)).beside(format!("the `*` is in line {}", line + 1)),
            None => fault(at),
        },
        _ => fault(at + within),
    }
}

/// The places of the payload of a literal where every object stands.
fn every(literal: &Record) -> Vec<usize> {
    (2..literal.payload.len()).filter(|&place| literal.payload[place] == FF).collect()
}

/// The place of the payload of a component that has a key where a literal of its relation has every object, and the
/// line of that literal.
fn cleared_key(written: &Written, component: &Record) -> Option<(usize, usize)> {
    let (records, _) = split(&written.file);
    let literals = records.iter().filter(|record| record.kind == LITERAL);
    literals.filter(|literal| literal.payload.get(1) == component.payload.first()).find_map(|literal| {
        // the labels stand behind the relation alone, the arguments behind a role, too
        let place = every(literal).into_iter().map(|place| place - 1);
        let key = place.into_iter().find(|&place| component.payload.get(place).is_some_and(|&label| label != FF))?;
        Some((key, written.place(literal.at).line))
    })
}

/// The line of the record that this one repeats or contradicts.
fn earlier(written: &Written, record: &Record, number: u64) -> Option<usize> {
    let (records, _) = split(&written.file);
    let before = records.into_iter().take_while(|other| other.at < record.at);
    let since_action = before.filter(|other| other.kind == record.kind).filter(|other| match number {
        22 => other.payload.first() == record.payload.first(),
        19 => other.payload == record.payload,
        _ => are_opposite(other.payload[0], record.payload[0]) && meet(&other.payload[1..], &record.payload[1..]),
    });
    let found = since_action.last()?;
    Some(written.place(found.at).line)
}

/// Whether two literals, each a relation and its arguments, stand for a fact that is of both.
fn meet(one: &[u8], other: &[u8]) -> bool {
    one[0] == other[0] && row_common(&one[1..], &other[1..]).is_some()
}

/// Whether two roles are a true and a false condition of the same time, over all and the end being one.
fn are_opposite(one: u8, other: u8) -> bool {
    matches!((one.min(other), one.max(other)), (0, 1) | (4, 5) | (4, 7) | (5, 6) | (6, 7))
}

/// What the library refuses in a run file that was written from words: its form, not a step that isn't allowed.
pub fn in_run(domain: &[u8], written: &Written) -> Option<Fault> {
    let played = play(domain, &written.file);
    if !(50..=54).contains(&played.number) || is_step(&written.file, &played) {
        return None;
    }
    let said = format!("{} ({})", says(played.number), played.number);
    Some(Fault::new(written.place(played.place as usize), said))
}

/// Whether the fault is at the close of a step, which the player made too large (52).
fn is_step(run: &[u8], played: &crate::library::Played) -> bool {
    let record = Record::read(run, played.place as usize);
    played.number == 52 && record.is_some_and(|record| record.kind == crate::records::CLOSE_STEP)
}
