//! The templates of a single component that a domain file could have.

use crate::calls::{templates, Served};
use crate::numbers::Number;
use crate::sizes::{TEMPLATE, TEMPLATES};
use crate::whole::known;

/// A template of a single component, its keys numbered from left to right, with its verdict.
#[derive(Clone, Copy, PartialEq, Eq, PartialOrd, Ord, Hash, Debug)]
pub struct Template {
    pub relation: u8,
    /// The place that is counted.
    pub counted: Option<u8>,
    /// Accepted or refused, as judging decides it for the domain with this template alone.
    pub verdict: Number,
}

impl Template {
    fn of([relation, counted, verdict]: [u8; TEMPLATE]) -> Template {
        let counted = (counted != 0xFF).then_some(counted);
        Template { relation, counted, verdict: known(verdict.into()) }
    }
}

/// Lists the templates of a domain file, relations rising, of each first the one without a counted place. Where the file is
/// refused, the number, 9 to 27, and its place.
pub fn list_templates(file: &[u8]) -> Result<Vec<Template>, Served> {
    let mut list = vec![0; TEMPLATES];
    let served = templates(file, &mut list);
    if served.number != 0 {
        return Err(served);
    }
    let entries = list[..served.first as usize].chunks_exact(TEMPLATE);
    Ok(entries.map(|entry| Template::of(entry.try_into().expect("3 bytes"))).collect())
}
