//! P5: "Every one-relation template, listed."

use crate::domain::{read, Domain, COUNTED};
use crate::service::Served;
use crate::verdict::{decide, rows};

/// "Each entry carries relation, counted place (FF for none) and verdict, a byte each."
#[derive(Clone, Copy, PartialEq, Eq, Debug)]
pub struct Entry {
    pub relation: u8,
    pub counted: Option<u8>,
    pub verdict: u8,
}

impl Entry {
    pub fn bytes(&self) -> [u8; ENTRY_BYTES] {
        [self.relation, self.counted.unwrap_or(COUNTED), self.verdict]
    }
}

pub const ENTRY_BYTES: usize = 3;

/// "all templates of a single component, judged one by one, with the file's own components left aside
/// once checked. Order: relation number rising; for each relation first no counted place, then the
/// counted place rising; keys always numbered 0, 1, .. from left to right. Templates that the file rules
/// refuse are passed over."
pub fn entries(mut domain: Domain) -> Vec<Entry> {
    let mut entries = Vec::new();
    for relation in 0..domain.relations.len() as u8 {
        let arity = domain.relations[relation as usize];
        for counted in [None].into_iter().chain((0..arity).map(Some)) {
            let mut keys = 0..;
            let label = |place| if counted == Some(place) { COUNTED } else { keys.next().unwrap_or(COUNTED) };
            let labels: Vec<u8> = (0..arity).map(label).collect();
            if domain.set_template(relation, &labels).is_ok() {
                entries.push(Entry { relation, counted, verdict: decide(&rows(&domain)).number() });
            }
        }
    }
    entries
}

/// Lists the one-relation templates of a domain file.
pub fn templates(file: &[u8], list: &mut [u8]) -> Served {
    match read(file) {
        Ok(domain) => {
            Served::written(list, entries(domain).iter().flat_map(Entry::bytes).collect::<Vec<u8>>().as_slice())
        }
        Err(stop) => Served::refused(stop),
    }
}
