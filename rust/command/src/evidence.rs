//! What shows a refusal: the witness with what it leads to, and runs that break the template. Every state is the player's.

use crate::domain::{Action, Domain, List, Time};
use crate::library::{Fact, Judged, Name, Row};
use crate::prose::{paragraph, wrap};
use crate::reasons::{classes, has_over_all, is_journey, Class};
use crate::run::{Entry, Event};
use crate::scenario::{event, line, object_names, objects_taken, unused, Scenario};
use crate::stops::bind;

const LASTING: &str =
    "Some action lasts, so the template may be broken, or it may hold for a reason that the classes don't show.";

/// What there is to show of a refused domain.
pub fn evidence(domain: &Domain, file: &[u8], judged: &Judged) -> String {
    let Some(row) = judged.named() else { return String::new() };
    let action = &domain.actions[row.action];
    let classes = classes(domain, action);
    let Some(class) = classes.get(row.class) else { return String::new() };
    let named = Named { domain, file, row, action, class };
    match judged.number {
        43 => format!("\n{}", shown_or_open("", named.beside_journeys(judged))),
        _ if row.moment == 1 && has_over_all(class) => named.without_witness(),
        _ => named.witness(&judged.witness),
    }
}

/// A run that breaks the template, or what is left open.
fn shown_or_open(indent: &str, found: Option<Scenario>) -> String {
    match found {
        Some(scenario) => scenario.told(indent),
        None => paragraph(indent, LASTING),
    }
}

/// The row that the verdict names.
struct Named<'d> {
    domain: &'d Domain,
    file: &'d [u8],
    row: &'d Row,
    action: &'d Action,
    class: &'d Class<'d>,
}

impl<'d> Named<'d> {
    /// The witness of 40 to 42, the event, and the facts after it.
    fn witness(&self, facts: &[Fact]) -> String {
        let scenario = self.scenario(facts.to_vec(), vec![self.event(self.row.moment)]);
        let mut text = wrap("\nwitness: ", "    ", &objects_taken(self.action));
        text += &line("facts", &scenario.facts_words(facts));
        text += &line("event", &scenario.event_words(0));
        if self.row.moment == 1 {
            return text + &shown_or_open("  ", self.start_and_end(facts));
        }
        let after = scenario.state(1);
        if after.number != 2 {
            let said = format!("the player does not make this step ({}), so nothing is shown.", after.number);
            return text + &paragraph("  ", &said);
        }
        text += &line("after it", &scenario.facts_words(&after.facts));
        text += &paragraph("  ", &scenario.weights());
        if self.domain.actions.iter().any(|action| action.lasting) {
            return text;
        }
        text + &paragraph("  ", "This event alone is an allowed step, so the refusal is exact: the template is broken.")
    }

    /// What is shown for an end whose class has a condition over all, for which no witness is written.
    fn without_witness(&self) -> String {
        let said = "none is written for an end whose class has a condition over all.";
        wrap("\nwitness: ", "    ", said) + &shown_or_open("  ", self.start_and_end(&[]))
    }

    fn event(&self, moment: u8) -> Event {
        event(self.row.action, self.action.variables.len(), moment)
    }

    fn scenario(&self, facts: Vec<Fact>, events: Vec<Event>) -> Scenario<'d> {
        let (objects, instance) = (object_names(self.action), self.class.key_tuple.clone());
        Scenario { domain: self.domain, file: self.file, objects, facts, events, instance }
    }

    /// An end comes behind its start: a run of both that breaks the template, from what the start asks for, with the
    /// witness or without.
    fn start_and_end(&self, witness: &[Fact]) -> Option<Scenario<'d>> {
        let events = vec![self.event(0), self.event(1)];
        let asked = asked(self.domain, &[&self.event(0), &self.event(1)]);
        let with_witness = asked.iter().chain(witness).cloned().collect();
        let scenarios = [with_witness, asked].map(|facts| self.scenario(facts, events.clone()));
        scenarios.into_iter().find(Scenario::breaks)
    }

    /// A run that breaks the template by a journey that is open while the named row fills the instance.
    fn beside_journeys(&self, judged: &Judged) -> Option<Scenario<'d>> {
        let ends = judged.rows.iter().filter(|row| row.name == Name::Unbounded && row.moment == 1);
        ends.filter_map(|row| {
            let journey = &self.domain.actions[row.action];
            let classes = classes(self.domain, journey);
            let class = classes.get(row.class).filter(|class| is_journey(journey, class))?;
            self.beside(row.action, journey, &class.key_tuple)
        })
        .find(Scenario::breaks)
    }

    /// The named row between start and end of a journey, both about the same instance.
    fn beside(&self, number: usize, journey: &Action, key_tuple: &[u8]) -> Option<Scenario<'d>> {
        let count = journey.variables.len() as u8;
        let open = Entry { action: number, objects: (0..count).collect() };
        let entry = Entry { action: self.row.action, objects: self.bound_alike(key_tuple, count)? };
        let mut objects = journey.variables.clone();
        for (variable, &object) in self.action.variables.iter().zip(&entry.objects) {
            if object >= count {
                objects.push(unused(variable, &objects));
            }
        }
        let event = |moment: u8, entry: &Entry| Event { moment, entry: entry.clone() };
        let mut events = vec![event(0, &open), event(0, &entry)];
        if self.row.moment == 1 {
            events.push(event(1, &entry));
        }
        events.push(event(1, &open));
        let facts = asked(self.domain, &events.iter().collect::<Vec<_>>());
        let instance = key_tuple.to_vec();
        Some(Scenario { domain: self.domain, file: self.file, objects, facts, events, instance })
    }

    /// Objects for the variables of the named action so that its class is about these objects; none where that would
    /// give one object to two variables or two to one. The others get objects of their own.
    fn bound_alike(&self, instance: &[u8], used: u8) -> Option<Vec<u8>> {
        let mut bound: Vec<Option<u8>> = vec![None; self.action.variables.len()];
        for (&variable, &object) in self.class.key_tuple.iter().zip(instance) {
            let place = &mut bound[variable as usize];
            if place.is_some_and(|other| other != object) {
                return None;
            }
            *place = Some(object);
        }
        let given: Vec<u8> = bound.iter().flatten().copied().collect();
        if given.iter().enumerate().any(|(count, object)| given[..count].contains(object)) {
            return None;
        }
        let mut fresh = used..;
        bound.into_iter().map(|object| object.or_else(|| fresh.next())).collect()
    }
}

/// What the starts and the actions at once among some events ask for: their true conditions, those over all too.
fn asked(domain: &Domain, events: &[&Event]) -> Vec<Fact> {
    let mut facts = Vec::new();
    for event in events.iter().filter(|event| event.moment == 0) {
        let literals = event.entry.action(domain).literals.iter();
        for literal in literals.filter(|literal| literal.time != Time::End && literal.list == List::True) {
            let fact = bind(&event.entry, literal);
            if !facts.contains(&fact) {
                facts.push(fact);
            }
        }
    }
    facts
}
