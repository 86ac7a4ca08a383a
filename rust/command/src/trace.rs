//! The states of a run, each as the library answers for the run cut behind that step.

use crate::domain::Domain;
use crate::library::{play, weight, Fact, Played};
use crate::run::{Entry, Run};

/// A state that the run reaches.
#[derive(Clone, Debug)]
pub struct State {
    pub facts: Vec<Fact>,
    /// What is open, one entry perhaps more than once.
    pub open: Vec<Entry>,
    /// The highest weight of any instance.
    pub weight: u64,
}

/// A run with what the library says of it.
pub struct Trace<'d> {
    pub domain: &'d Domain,
    domain_file: &'d [u8],
    run_file: &'d [u8],
    pub run: Run,
    pub played: Played,
}

impl<'d> Trace<'d> {
    pub fn of(domain: &'d Domain, domain_file: &'d [u8], run_file: &'d [u8]) -> Trace<'d> {
        let played = play(domain_file, run_file);
        Trace { domain, domain_file, run_file, run: Run::of(run_file, domain), played }
    }

    pub fn domain_file(&self) -> &'d [u8] {
        self.domain_file
    }

    pub fn run_file(&self) -> &'d [u8] {
        self.run_file
    }

    /// The run file cut behind so many of the steps, and closed.
    pub fn cut(&self, steps: usize) -> Vec<u8> {
        self.run.cut(self.run_file, steps)
    }

    /// The steps made.
    pub fn steps(&self) -> usize {
        self.played.steps as usize
    }

    /// Whether the run ends at a step that isn't made, and not at another record.
    pub fn stops_at_step(&self) -> bool {
        let step = self.run.steps.get(self.steps());
        let is_of_step = matches!(self.played.number, 52 | 55..=57);
        is_of_step && step.is_some_and(|step| step.close as u64 == self.played.place)
    }

    /// The state behind so many of the steps made.
    pub fn state(&self, steps: usize) -> State {
        let played = play(self.domain_file, &self.cut(steps));
        let weight = weight(self.domain_file, self.run.objects, &played.facts);
        State { facts: played.facts, open: self.open(steps), weight }
    }

    /// What is open behind so many steps: what was started more often than ended, and what the library lets end.
    fn open(&self, steps: usize) -> Vec<Entry> {
        let mut open: Vec<Entry> = Vec::new();
        for step in &self.run.steps[..steps] {
            for event in step.events.iter().filter(|event| event.is_end()) {
                if let Some(place) = open.iter().position(|entry| *entry == event.entry) {
                    open.remove(place);
                }
            }
            open.extend(
                step.events.iter().filter(|event| event.is_start(self.domain)).map(|event| event.entry.clone()),
            );
        }
        if !self.may_all_end(steps, &open) {
            open.retain(|entry| self.may_end(steps, &[entry]));
        }
        open
    }

    /// Whether all of these are open; a step has at most 16 events.
    fn may_all_end(&self, steps: usize, open: &[Entry]) -> bool {
        let mut once: Vec<&Entry> = Vec::new();
        for entry in open {
            if !once.contains(&entry) {
                once.push(entry);
            }
        }
        once.chunks(16).all(|entries| self.may_end(steps, entries))
    }

    /// Whether different entries are open behind so many steps: a step of their ends is then not refused for that (57).
    pub fn may_end(&self, steps: usize, entries: &[&Entry]) -> bool {
        play(self.domain_file, &self.run.cut_with_ends(self.run_file, steps, entries)).number != 57
    }

    /// The instance of a fact, if its relation is in the template.
    pub fn instance(&self, fact: &Fact) -> Option<Vec<u8>> {
        self.domain.key_tuple(fact.relation, &fact.objects)
    }

    /// The weight of an instance in a state: that of the facts that it matches, alone.
    pub fn weight_of(&self, instance: &[u8], facts: &[Fact]) -> u64 {
        let matched = facts.iter().filter(|fact| self.instance(fact).is_some_and(|other| other == instance));
        weight(self.domain_file, self.run.objects, &matched.cloned().collect::<Vec<_>>())
    }
}
