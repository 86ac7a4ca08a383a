//! P10: "Trying the facts themselves." Uses the machine, key tuples and matching, and nothing of names.

use crate::domain::{read, Action, Argument, Atom, Domain, Fact, Object, Tuple, Var, ARITY};
use crate::machine::{binding, Event, State};
use crate::service::Served;

/// The different key tuples of an action's matching literals, in the order of the report's classes.
fn key_tuples(domain: &Domain, action: &Action) -> Vec<Tuple<Var>> {
    let mut tuples: Vec<Tuple<Var>> = Vec::new();
    for literal in &action.literals {
        if let Some(tuple) = domain.template.tuple(&literal.atom) {
            if !tuples.contains(&tuple) {
                tuples.push(tuple);
            }
        }
    }
    tuples
}

/// Every fact over so many objects that the instance matches: of every component, every object in its
/// counted place.
fn facts_of(domain: &Domain, instance: &Tuple<Object>, objects: u8) -> Vec<Fact> {
    let mut facts = Vec::new();
    for component in &domain.template.components {
        let mut fact = Atom::new(component.relation, (0..component.arity).map(|_| Object(0)));
        for key in 0..domain.template.n as usize {
            fact.args[component.place_of[key] as usize] = instance[key];
        }
        let Some(counted) = component.counted else {
            facts.push(fact);
            continue;
        };
        for object in 0..objects {
            fact.args[counted as usize] = Object(object);
            facts.push(fact);
        }
    }
    facts
}

/// Whether from some set two or more facts of the instance result. "a plain engine should bind variable i
/// to object i, add the spare object, and take for each class every set made of the action's true
/// conditions plus at most one further fact of the instance. It makes one step of the machine from each
/// such set that weighs at most one and allows it"
fn harms(domain: &Domain, number: u8, action: &Action, tuple: &Tuple<Var>) -> bool {
    let objects: Vec<u8> = (0..action.variables).collect();
    let event = Event { moment: 0, action: number, binding: binding(&objects) };
    let mut instance = [Object::EVERY; ARITY];
    for key in 0..domain.template.n as usize {
        instance[key] = event.binding[tuple[key].0 as usize];
    }
    let mut needed = State::default();
    for literal in action.trues_at[0] {
        let fact = action.atom(literal).bind(|variable| event.binding[variable.0 as usize]);
        if !needed.holds(&fact) {
            needed.insert(&domain.template, fact);
        }
    }
    let with_spare = action.variables + 1;
    let further = facts_of(domain, &instance, with_spare).into_iter().map(Some);
    [None].into_iter().chain(further).any(|further| {
        let mut state = needed.clone();
        if let Some(fact) = further.filter(|fact| !state.holds(fact)) {
            state.insert(&domain.template, fact);
        }
        if state.weight(&instance) > 1 || state.allows(domain, &[event]).is_err() {
            return false;
        }
        let change = state.change(domain, &[event]);
        state.advance(&domain.template, &change);
        state.weight(&instance) >= 2
    })
}

/// "a byte a class in the report's order, 1 yes, 0 no, lasting actions passed over"
pub fn answers(domain: &Domain) -> Vec<u8> {
    let mut answers = Vec::new();
    for (number, action) in domain.actions.iter().enumerate().filter(|(_, action)| !action.lasting) {
        let tuples = key_tuples(domain, action);
        answers.extend(tuples.iter().map(|tuple| harms(domain, number as u8, action, tuple) as u8));
    }
    answers
}

/// Tries the facts of a domain file. "a short buffer gives 30, untouched"
pub fn try_facts(file: &[u8], tried: &mut [u8]) -> Served {
    match read(file) {
        Ok(domain) => Served::written(tried, &answers(&domain)),
        Err(stop) => Served::refused(stop),
    }
}
