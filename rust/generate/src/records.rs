//! Records to write, and ways to damage them.

use crate::rng::Rng;

#[derive(Clone, PartialEq, Eq, Debug)]
pub struct Rec {
    pub kind: u16,
    pub payload: Vec<u8>,
}

pub fn rec(kind: u16, payload: impl Into<Vec<u8>>) -> Rec {
    Rec { kind, payload: payload.into() }
}

pub fn encode(records: &[Rec]) -> Vec<u8> {
    let mut file = Vec::new();
    for record in records {
        file.extend_from_slice(&(record.payload.len() as u16).to_le_bytes());
        file.extend_from_slice(&record.kind.to_le_bytes());
        file.extend_from_slice(&record.payload);
    }
    file
}

/// The records of a file, up to its end or to the first that is cut short.
pub fn split(file: &[u8]) -> Vec<Rec> {
    let mut records = Vec::new();
    let mut at = 0;
    while let Some(record) = model::records::Record::read(file, at) {
        records.push(rec(record.kind, record.payload));
        at = record.end();
    }
    records
}

/// A number near this one, or one at the ends of its range.
pub fn near(rng: &mut Rng, byte: u8) -> u8 {
    match rng.below(8) {
        0 => 0,
        1 => 0xFF,
        2 => 0xFE,
        3 => rng.byte(),
        4 => byte ^ (1 << rng.below(8)),
        5 => byte.wrapping_sub(1),
        _ => byte.wrapping_add(1),
    }
}

fn other_kind(rng: &mut Rng, kind: u16) -> u16 {
    match rng.below(6) {
        0 => kind.wrapping_sub(1),
        1 => kind.wrapping_add(1),
        2 => kind | 0x0100,
        3 => kind << 8,
        4 => rng.range(0, 21) as u16,
        _ => rng.word() as u16,
    }
}

/// Bytes of a random length, short ones more often.
pub fn junk(rng: &mut Rng) -> Vec<u8> {
    let length = rng.small(1, 24);
    if rng.chance(30) {
        vec![0; length]
    } else {
        rng.bytes(length)
    }
}

/// The file of these records after one or two damages: flips, cuts, inserts, records swapped,
/// repeated, left out, of wrong kind or length, junk behind.
pub fn damage(rng: &mut Rng, records: &[Rec]) -> Vec<u8> {
    let mut records = records.to_vec();
    let times = if rng.chance(20) { 2 } else { 1 };
    for _ in 1..times {
        damage_records(rng, &mut records);
    }
    if rng.chance(55) {
        damage_records(rng, &mut records);
        encode(&records)
    } else {
        let mut file = encode(&records);
        damage_bytes(rng, &mut file);
        file
    }
}

pub fn damage_records(rng: &mut Rng, records: &mut Vec<Rec>) {
    if records.is_empty() {
        return;
    }
    let at = rng.below(records.len());
    let to = rng.below(records.len());
    match rng.below(8) {
        0 => records.swap(at, to),
        1 => {
            let copy = records[at].clone();
            records.insert(to, copy);
        }
        2 => {
            records.remove(at);
        }
        3 => records[at].kind = other_kind(rng, records[at].kind),
        4 => {
            let more = rng.bytes(1);
            records[at].payload.extend(more);
        }
        5 => {
            records[at].payload.pop();
        }
        6 => {
            let length = rng.below(12);
            records[at].payload = rng.bytes(length);
        }
        _ => {
            if !records[at].payload.is_empty() {
                let place = rng.below(records[at].payload.len());
                records[at].payload[place] = near(rng, records[at].payload[place]);
            }
        }
    }
}

pub fn damage_bytes(rng: &mut Rng, file: &mut Vec<u8>) {
    if file.is_empty() {
        *file = junk(rng);
        return;
    }
    let at = rng.below(file.len());
    match rng.below(8) {
        0 | 1 => file[at] ^= 1 << rng.below(8),
        2 | 3 => file[at] = near(rng, file[at]),
        4 => file.truncate(at),
        5 => {
            let more = junk(rng);
            file.splice(at..at, more);
        }
        6 => {
            let end = (at + rng.small(1, 12)).min(file.len());
            file.drain(at..end);
        }
        _ => {
            let more = junk(rng);
            file.extend(more);
        }
    }
}
