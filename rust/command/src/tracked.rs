//! Where an instance is while a run goes on: there, on its way, or nowhere. Its total in each state is the library's answer
//! for the run cut behind that step; what of it is facts, the library weighs.

use crate::files::LoadedRun;
use crate::library::{play, track, Fact};
use crate::prose::{listed, paragraph, wrap};
use crate::reasons::{classes, is_journey};
use crate::run::Entry;
use crate::story::Story;
use crate::trace::{State, Trace};

/// An instance that a run is played with.
pub struct Tracked<'d> {
    pub story: &'d Story<'d>,
    pub instance: &'d [u8],
    /// The verdict of the template.
    pub verdict: u64,
}

/// Where an instance is, with what tells it.
#[derive(Clone, PartialEq, Eq, Debug)]
pub struct Place {
    pub facts: Vec<Fact>,
    /// Its open journeys, by what is open.
    pub journeys: Vec<Entry>,
    pub total: u64,
}

impl Tracked<'_> {
    fn trace(&self) -> &Trace<'_> {
        self.story.trace
    }

    fn run(&self) -> &LoadedRun {
        self.story.run
    }

    /// The total after the last step made, and where the instance is from which step on.
    pub fn text(&self) -> String {
        let trace = self.trace();
        let total = self.total(trace.run_file());
        let mut text = format!("\ntotal {total}\n");
        let states = self.states();
        let is_played = play(trace.domain_file(), &trace.cut(trace.steps())).number == 2;
        if !is_played || states.last().map(|last| last.total) != Some(total) {
            return text + &paragraph("  ", "The start doesn't count yet.");
        }
        let first = self.story.first();
        for (count, state) in states.iter().enumerate() {
            if count == 0 || states[count - 1] != *state {
                let since = self.since(first + count, count == 0);
                text += &wrap("  ", "      ", &format!("{since} {}", self.words(state)));
            }
        }
        text + &self.claim(&states[0])
    }

    fn total(&self, run: &[u8]) -> u64 {
        track(self.trace().domain_file(), run, self.instance)
    }

    /// Where it is in each state that is told.
    pub fn states(&self) -> Vec<Place> {
        let trace = self.trace();
        let steps = self.story.first()..=trace.steps();
        steps.map(|steps| self.place(&trace.state(steps), self.total(&trace.cut(steps)))).collect()
    }

    fn place(&self, state: &State, total: u64) -> Place {
        let is_of = |fact: &&Fact| self.trace().instance(fact).as_deref() == Some(self.instance);
        let facts: Vec<Fact> = state.facts.iter().filter(is_of).cloned().collect();
        let journeys = state.open.iter().flat_map(|entry| std::iter::repeat_n(entry.clone(), self.journeys(entry)));
        Place { facts, journeys: journeys.collect(), total }
    }

    /// How many journeys of an open entry are the instance's, for showing.
    fn journeys(&self, entry: &Entry) -> usize {
        let domain = self.trace().domain;
        let action = entry.action(domain);
        let bound = |tuple: &[u8]| -> Vec<u8> { tuple.iter().map(|&key| entry.objects[key as usize]).collect() };
        let classes = classes(domain, action);
        classes.iter().filter(|class| is_journey(action, class) && bound(&class.key_tuple) == self.instance).count()
    }

    fn since(&self, step: usize, is_first: bool) -> String {
        match (step, is_first) {
            (0, _) => "at the start".to_string(),
            (step, true) => format!("after step {step}"),
            (step, false) => format!("from step {step} on"),
        }
    }

    /// Where it is in words.
    fn words(&self, state: &Place) -> String {
        let objects: Vec<String> = self.instance.iter().map(|&object| self.run().object(object)).collect();
        let (whose, is) = match &objects[..] {
            [] => ("the template".to_string(), "is"),
            [one] => (one.clone(), "is"),
            all => (listed(all), "are"),
        };
        let facts = self.story.facts(&state.facts).join(", ");
        let open: Vec<String> = state.journeys.iter().map(|entry| self.story.entry(entry)).collect();
        let open = format!("{} open", is_are(&open));
        match (state.facts.is_empty(), state.total as usize > state.facts.len()) {
            (false, false) => format!("{whose} {is} there: {facts}"),
            (false, true) => format!("{whose} {is} there and on the way as well: {facts}; {open}"),
            (true, true) => format!("{whose} {is} on the way (in transit): {open}"),
            (true, false) => format!("{whose} {is} nowhere (lost): no fact, and nothing open gives one back"),
        }
    }

    /// What the verdict says about the total.
    fn claim(&self, start: &Place) -> String {
        if self.verdict != 1 || start.facts.len() > 1 || self.story.first() > 0 {
            return String::new();
        }
        let said =
            "The verdict is 1 and the start has at most one fact, so the total never rises: what is nowhere stays so.";
        paragraph("  ", said)
    }
}

/// `a is`, `a and b are`
fn is_are(things: &[String]) -> String {
    let verb = if things.len() > 1 { "are" } else { "is" };
    format!("{} {verb}", listed(things))
}
