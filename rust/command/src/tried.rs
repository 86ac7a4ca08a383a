//! Trying the facts themselves, for showing: which sets of facts there are for a class of an action at once, and the first of them
//! that shows harm. Whether one does is the library's answer; which one, the player is asked about, set by set.

use crate::domain::{Action, Component, Domain, List};
use crate::library::Fact;
use crate::reasons::{classes, Class};
use crate::records::FF;
use crate::scenario::{event, object_names, Scenario};
use crate::stops::bind;

/// A class of an action at once with the library's answer.
pub struct Tried<'d> {
    pub number: usize,
    pub action: &'d Action,
    pub class_number: usize,
    pub class: Class<'d>,
    pub harms: bool,
}

/// The classes of the actions at once, in the order of the report, with the answers.
pub fn tried<'d>(domain: &'d Domain, answers: &[bool]) -> Vec<Tried<'d>> {
    let mut answers = answers.iter();
    let mut tried = Vec::new();
    for (number, action) in domain.actions.iter().enumerate().filter(|(_, action)| !action.lasting) {
        for (class_number, class) in classes(domain, action).into_iter().enumerate() {
            let harms = answers.next().copied().unwrap_or(false);
            tried.push(Tried { number, action, class_number, class, harms });
        }
    }
    tried
}

impl<'d> Tried<'d> {
    /// The sets: the action's true conditions, then these with each further fact of the instance, over an object for each
    /// variable and one more.
    pub fn sets(&self, domain: &Domain) -> Vec<Vec<Fact>> {
        let entry = event(self.number, self.action.variables.len(), 0).entry;
        let trues = self.action.literals.iter().filter(|literal| literal.list == List::True);
        let needed: Vec<Fact> = trues.map(|literal| bind(&entry, literal)).collect();
        let mut sets = vec![needed.clone()];
        for component in &domain.components {
            for further in self.facts_of(component).into_iter().filter(|fact| !needed.contains(fact)) {
                sets.push([&needed[..], &[further]].concat());
            }
        }
        sets
    }

    /// The facts of a component that the instance matches: one, or one for each object in the counted place, the spare one
    /// first, as it stands in a witness.
    fn facts_of(&self, component: &Component) -> Vec<Fact> {
        let object = |&label: &u8| self.class.key_tuple.get(label as usize).copied().unwrap_or(FF);
        let keys: Vec<u8> = component.labels.iter().map(object).collect();
        let Some(place) = component.counted() else {
            return vec![Fact { relation: component.relation, objects: keys }];
        };
        let with = |object: u8| {
            let mut objects = keys.clone();
            objects[place] = object;
            Fact { relation: component.relation, objects }
        };
        let spare = self.action.variables.len() as u8;
        [spare].into_iter().chain(0..spare).map(with).collect()
    }

    /// The first set that shows harm: the player makes the step, and the instance has at most one fact before it and more
    /// after it.
    pub fn first_harm(&self, domain: &'d Domain, file: &'d [u8]) -> Option<Scenario<'d>> {
        let event = event(self.number, self.action.variables.len(), 0);
        let scenario = |facts: Vec<Fact>| Scenario {
            domain,
            file,
            objects: object_names(self.action),
            facts,
            events: vec![event.clone()],
            instance: self.class.key_tuple.clone(),
        };
        self.sets(domain).into_iter().map(scenario).find(Scenario::breaks)
    }
}
