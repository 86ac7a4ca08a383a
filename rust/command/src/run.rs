//! A run as its file says it: objects, and steps of events.

use crate::domain::{Action, Domain};
use crate::records::{put, split, CLOSE_RUN, CLOSE_STEP, EVENT, OBJECTS};

/// An event: an action at once, a start or an end (moment 1), with an object for each variable.
#[derive(Clone, PartialEq, Eq, Hash, Debug)]
pub struct Event {
    pub moment: u8,
    pub entry: Entry,
}

/// An action with an object for each variable: what a start opens and an end closes.
#[derive(Clone, PartialEq, Eq, Hash, Debug)]
pub struct Entry {
    pub action: usize,
    pub objects: Vec<u8>,
}

impl Entry {
    pub fn action<'d>(&self, domain: &'d Domain) -> &'d Action {
        &domain.actions[self.action]
    }
}

impl Event {
    pub fn is_end(&self) -> bool {
        self.moment == 1
    }

    pub fn is_start(&self, domain: &Domain) -> bool {
        self.moment == 0 && self.entry.action(domain).lasting
    }
}

/// A step: its events, and where it is closed in the file.
#[derive(Clone, PartialEq, Eq, Debug)]
pub struct Step {
    pub events: Vec<Event>,
    pub close: usize,
    /// The offset behind its close.
    pub end: usize,
}

/// The steps of a run file that the library reads so far, and where the first of them begins.
#[derive(Clone, Debug, Default)]
pub struct Run {
    pub objects: u8,
    pub steps: Vec<Step>,
    /// The offset behind the start facts.
    pub begin: usize,
}

impl Run {
    /// The objects, start facts and steps of a run file; what isn't whole ends it.
    pub fn of(file: &[u8], domain: &Domain) -> Run {
        let mut run = Run::default();
        let mut events = Vec::new();
        for record in split(file).0 {
            match (record.kind, record.payload) {
                (OBJECTS, &[count]) => run.objects = count,
                (EVENT, &[moment, action, ref objects @ ..]) if (action as usize) < domain.actions.len() => {
                    let entry = Entry { action: action as usize, objects: objects.to_vec() };
                    events.push(Event { moment, entry });
                }
                (CLOSE_STEP, _) => {
                    let events = std::mem::take(&mut events);
                    run.steps.push(Step { events, close: record.at, end: record.end() });
                }
                _ => {}
            }
            if record.kind < EVENT && run.steps.is_empty() && events.is_empty() {
                run.begin = record.end();
            }
        }
        run
    }

    /// The file cut behind so many steps, and closed.
    pub fn cut(&self, file: &[u8], steps: usize) -> Vec<u8> {
        let end = steps.checked_sub(1).map_or(self.begin, |last| self.steps[last].end);
        let mut cut = file[..end].to_vec();
        put(&mut cut, CLOSE_RUN, &[]);
        cut
    }

    /// The same with one more step behind, of the ends of these.
    pub fn cut_with_ends(&self, file: &[u8], steps: usize, entries: &[&Entry]) -> Vec<u8> {
        let end = steps.checked_sub(1).map_or(self.begin, |last| self.steps[last].end);
        let mut cut = file[..end].to_vec();
        for entry in entries {
            put(&mut cut, EVENT, &[&[1, entry.action as u8], &entry.objects[..]].concat());
        }
        put(&mut cut, CLOSE_STEP, &[]);
        put(&mut cut, CLOSE_RUN, &[]);
        cut
    }
}
