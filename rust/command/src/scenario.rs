//! Runs that the player is asked about, to show what an event leads to. Every state is the player's.

use crate::domain::{Action, Domain};
use crate::library::{play, weight, Fact, Played};
use crate::prose::{listed, paragraph, wrap};
use crate::records::{put, CLOSE_RUN, CLOSE_STEP, EVENT, OBJECTS, START_FACT};
use crate::run::{Entry, Event};

/// An object for each variable of an action, with its name, and one more.
pub fn object_names(action: &Action) -> Vec<String> {
    let mut names = action.variables.clone();
    names.push(unused("other", &names));
    names
}

/// These objects in a sentence.
pub fn objects_taken(action: &Action) -> String {
    match &object_names(action)[..] {
        [spare] => format!("take one object, {spare}."),
        [one, spare] => format!("take an object {one}, and one more, {spare}."),
        [all @ .., spare] => format!("take different objects {}, and one more, {spare}.", listed(all)),
        [] => String::new(),
    }
}

/// An event of an action, each variable bound to the object of its name.
pub fn event(action: usize, variables: usize, moment: u8) -> Event {
    Event { moment, entry: Entry { action, objects: (0..variables as u8).collect() } }
}

/// A name like this one that none of the others is.
pub fn unused(name: &str, others: &[String]) -> String {
    let numbered = (2..).map(|number| format!("{name}{number}"));
    let mut names = [name.to_string()].into_iter().chain(numbered);
    names.find(|name| !others.contains(name)).unwrap_or_default()
}

/// A run that the player is asked about: facts at the start, and events, each a step.
pub struct Scenario<'d> {
    pub domain: &'d Domain,
    pub file: &'d [u8],
    /// The names of the objects.
    pub objects: Vec<String>,
    pub facts: Vec<Fact>,
    pub events: Vec<Event>,
    /// The instance that it is about.
    pub instance: Vec<u8>,
}

impl Scenario<'_> {
    /// The player's answer for so many of the steps.
    pub fn state(&self, steps: usize) -> Played {
        let mut run = Vec::new();
        put(&mut run, OBJECTS, &[self.objects.len() as u8]);
        for fact in &self.facts {
            put(&mut run, START_FACT, &[&[fact.relation as u8], &fact.objects[..]].concat());
        }
        for event in &self.events[..steps] {
            put(&mut run, EVENT, &[&[event.moment, event.entry.action as u8], &event.entry.objects[..]].concat());
            put(&mut run, CLOSE_STEP, &[]);
        }
        put(&mut run, CLOSE_RUN, &[]);
        play(self.file, &run)
    }

    /// The weight of the instance where these facts hold: that of the facts that it matches.
    fn weight(&self, facts: &[Fact]) -> u64 {
        let instance = |fact: &Fact| self.domain.key_tuple(fact.relation, &fact.objects);
        let matched = facts.iter().filter(|fact| instance(fact).is_some_and(|tuple| tuple == self.instance));
        weight(self.file, self.objects.len() as u8, &matched.cloned().collect::<Vec<_>>())
    }

    /// Whether the player makes all steps, and the instance has at most one fact before and more than one after them.
    pub fn breaks(&self) -> bool {
        let last = self.state(self.events.len());
        last.number == 2 && self.weight(&self.facts) <= 1 && self.weight(&last.facts) >= 2
    }

    fn words(&self, name: &str, objects: &[u8]) -> String {
        let objects: Vec<&str> = objects.iter().map(|&object| self.objects[object as usize].as_str()).collect();
        format!("{name}({})", objects.join(", "))
    }

    pub fn facts_words(&self, facts: &[Fact]) -> String {
        let words = |fact: &Fact| self.words(self.domain.relation_name(fact.relation), &fact.objects);
        match facts {
            [] => "none".to_string(),
            facts => facts.iter().map(words).collect::<Vec<_>>().join(", "),
        }
    }

    pub fn event_words(&self, number: usize) -> String {
        let event = &self.events[number];
        let moment = match event.moment {
            1 => "end ",
            _ if event.is_start(self.domain) => "start ",
            _ => "",
        };
        format!("{moment}{}", self.words(&event.entry.action(self.domain).name, &event.entry.objects))
    }

    pub fn weights(&self) -> String {
        let names: Vec<String> = self.instance.iter().map(|&object| self.objects[object as usize].clone()).collect();
        let whose = if names.is_empty() { "the template".to_string() } else { listed(&names) };
        let has = if names.len() > 1 { "have" } else { "has" };
        let after = self.state(self.events.len()).facts;
        format!(
            "weight: {whose} {has} {} of the facts before and {} after.",
            self.weight(&self.facts),
            self.weight(&after)
        )
    }

    /// The run in sentences.
    pub fn told(&self, indent: &str) -> String {
        let mut text = format!("{indent}The player makes a run that breaks the template:\n");
        text += &line("facts", &self.facts_words(&self.facts));
        for number in 0..self.events.len() {
            let after = self.facts_words(&self.state(number + 1).facts);
            text += &line(&format!("step {}", number + 1), &format!("{}; then: {after}", self.event_words(number)));
        }
        text + &paragraph("  ", &self.weights())
    }
}

/// A line of what is shown, with its head.
pub fn line(head: &str, words: &str) -> String {
    wrap(&format!("  {head:9}"), "           ", words)
}
