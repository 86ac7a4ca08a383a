//! Why the machine doesn't allow a step: the rules of a step, worked out again for showing. That it isn't allowed is the
//! library's answer; a reason of another number would be a mistake here, and the tests look for one.
//!
//! A literal with its objects is a fact, or with `*` in a place, which FF stands for here, a fact for each object.

use crate::domain::{row_common, row_covers, Action, Domain, List, Literal, Time};
use crate::library::Fact;
use crate::run::{Entry, Event};

/// What a step lacks.
#[derive(Clone, PartialEq, Eq, Debug)]
pub enum Stop {
    /// The end of something that isn't open.
    NotOpen(Event),
    /// A condition of an event that doesn't hold.
    Condition { event: Event, unmet: Unmet },
    /// A condition over all of something open.
    OverAll { entry: Entry, unmet: Unmet },
    /// Two events that disagree about a fact.
    Interference { one: Touch, other: Touch, fact: Fact },
}

/// A condition that doesn't hold: what is asked, whether it should be true, and the fact that is missing or there.
#[derive(Clone, PartialEq, Eq, Debug)]
pub struct Unmet {
    pub asked: Fact,
    pub wanted: bool,
    pub fact: Fact,
}

/// What an event has to do with a fact: by a literal of this list.
#[derive(Clone, PartialEq, Eq, Debug)]
pub struct Touch {
    pub event: Event,
    pub list: List,
    pub literal: Fact,
}

impl Stop {
    /// The library's number for it.
    pub fn number(&self) -> u64 {
        match self {
            Stop::NotOpen(_) => 57,
            Stop::Condition { .. } | Stop::OverAll { .. } => 55,
            Stop::Interference { .. } => 56,
        }
    }
}

/// The first sort of reasons, in the order of the checks, why a step from a state isn't allowed; none if it is.
pub fn stops(domain: &Domain, facts: &[Fact], open: &[Entry], events: &[Event]) -> Vec<Stop> {
    let not_open = events.iter().filter(|event| event.is_end() && !open.contains(&event.entry));
    let not_open: Vec<Stop> = not_open.cloned().map(Stop::NotOpen).collect();
    if !not_open.is_empty() {
        return not_open;
    }
    let failing = failing(domain, facts, open, events);
    if !failing.is_empty() {
        return failing;
    }
    interfering(domain, events)
}

fn failing(domain: &Domain, facts: &[Fact], open: &[Entry], events: &[Event]) -> Vec<Stop> {
    let mut stops = Vec::new();
    for event in events {
        for unmet in unmet(facts, &event.entry, own(event.entry.action(domain), event.moment)) {
            stops.push(Stop::Condition { event: event.clone(), unmet });
        }
    }
    for (count, entry) in open.iter().enumerate() {
        // one that is open twice asks for the same twice
        if open[..count].contains(entry) {
            continue;
        }
        let over_all = entry.action(domain).literals.iter().filter(|literal| literal.time == Time::All);
        for unmet in unmet(facts, entry, over_all) {
            stops.push(Stop::OverAll { entry: entry.clone(), unmet });
        }
    }
    stops
}

/// The literals of an action's own at a moment.
fn own(action: &Action, moment: u8) -> impl Iterator<Item = &Literal> {
    let time = if moment == 0 { Time::Start } else { Time::End };
    action.literals.iter().filter(move |literal| literal.time == time)
}

/// The conditions among these literals that don't hold.
fn unmet<'l>(facts: &[Fact], entry: &Entry, literals: impl Iterator<Item = &'l Literal>) -> Vec<Unmet> {
    let conditions = literals.filter(|literal| literal.list.is_condition());
    conditions.filter_map(|literal| unmet_one(facts, bind(entry, literal), literal.list == List::True)).collect()
}

fn unmet_one(facts: &[Fact], asked: Fact, wanted: bool) -> Option<Unmet> {
    let found = facts.iter().find(|fact| stands_for(&asked, fact));
    match (found, wanted) {
        (None, true) => Some(Unmet { fact: asked.clone(), asked, wanted }),
        (Some(fact), false) => Some(Unmet { fact: fact.clone(), asked, wanted }),
        _ => None,
    }
}

fn stands_for(literal: &Fact, fact: &Fact) -> bool {
    literal.relation == fact.relation && row_covers(&literal.objects, &fact.objects)
}

/// What a literal is for an entry.
pub fn bind(entry: &Entry, literal: &Literal) -> Fact {
    let object = |&variable: &u8| entry.objects.get(variable as usize).copied().unwrap_or(variable);
    Fact { relation: literal.relation, objects: literal.arguments.iter().map(object).collect() }
}

/// The literals of an event by which it interferes with others: its own. What an end asks over all ends just before it.
fn touching(domain: &Domain, event: &Event) -> Vec<Touch> {
    let literals = own(event.entry.action(domain), event.moment);
    let touch =
        |literal: &Literal| Touch { event: event.clone(), list: literal.list, literal: bind(&event.entry, literal) };
    literals.map(touch).collect()
}

fn interfering(domain: &Domain, events: &[Event]) -> Vec<Stop> {
    let touching: Vec<Vec<Touch>> = events.iter().map(|event| touching(domain, event)).collect();
    let mut stops = Vec::new();
    for (first, one) in touching.iter().enumerate() {
        for other in &touching[first + 1..] {
            let found = one.iter().find_map(|of_one| other.iter().find_map(|of_other| clash(of_one, of_other)));
            stops.extend(found);
        }
    }
    stops
}

/// Two literals that are in each other's way: a condition and an effect, or an add and a delete, of a fact that both
/// stand for.
fn clash(one: &Touch, other: &Touch) -> Option<Stop> {
    let disagree = one.list.is_condition() != other.list.is_condition()
        || matches!((one.list, other.list), (List::Add, List::Delete) | (List::Delete, List::Add));
    if !disagree || one.literal.relation != other.literal.relation {
        return None;
    }
    let objects = row_common(&one.literal.objects, &other.literal.objects)?;
    let fact = Fact { relation: one.literal.relation, objects };
    Some(Stop::Interference { one: one.clone(), other: other.clone(), fact })
}
