//! A run in sentences: what each step does, what is open, which weights change, where it stops and why, and a line of
//! time. Every state is the library's answer for the run cut behind that step.

use crate::domain::{Domain, List};
use crate::files::LoadedRun;
use crate::library::Fact;
use crate::numbers::says;
use crate::prose::{listed, paragraph, wrap};
use crate::run::{Entry, Event};
use crate::stops::{stops, Stop, Touch, Unmet};
use crate::timeline::{timeline, Column, Line, Mark};
use crate::trace::{State, Trace};

/// Steps that are told if not all are asked for: all of a short run, the last of a long one.
const SHORT: usize = 60;
const LAST: usize = 20;

pub struct Story<'d> {
    pub trace: &'d Trace<'d>,
    pub run: &'d LoadedRun,
    /// Whether every step is told, however many.
    pub all: bool,
}

impl Story<'_> {
    pub fn text(&self) -> String {
        let mut text = self.summary();
        let first = self.first();
        if first > 0 {
            text += &paragraph("", &format!("The first {first} steps are left out; --all tells them, too."));
        }
        let mut states = vec![self.trace.state(first)];
        text += &self.beginning(first, &states[0]);
        for step in first + 1..=self.trace.steps() {
            let state = self.trace.state(step);
            text += &self.step(step, &states[states.len() - 1], &state);
            states.push(state);
        }
        let last = &states[states.len() - 1];
        if self.trace.stops_at_step() {
            text += &self.stopped(last, first, &states);
        }
        text += &self.block("\nfacts at the end", &self.facts(&last.facts));
        text + "\n" + &self.timeline(first, &states)
    }

    fn domain(&self) -> &Domain {
        self.trace.domain
    }

    /// The step from which on all is told.
    pub fn first(&self) -> usize {
        let steps = self.trace.steps();
        if self.all || steps <= SHORT {
            0
        } else {
            steps - LAST
        }
    }

    fn summary(&self) -> String {
        let played = &self.trace.played;
        let made = match played.steps {
            0 => "no step made".to_string(),
            1 => "1 step made".to_string(),
            steps => format!("{steps} steps made"),
        };
        let weight = format!("{made}, highest weight {}", played.weight);
        let place = self.run.place(played.place as usize);
        let said = match played.number {
            2 => format!("played to the end (2): {weight}."),
            number if self.trace.stops_at_step() => {
                format!("stopped at step {} ({number}), {place}: {}; {weight}.", played.steps + 1, says(number))
            }
            number => format!("the run is at fault ({number}), {place}: {}; {weight}.", says(number)),
        };
        let mut text = wrap("", "    ", &said);
        if played.weight > 1 {
            text +=
                &paragraph("", "A weight above 1: some instance has two facts at once, so they can't be one field.");
        }
        text
    }

    fn object(&self, number: u8) -> String {
        self.run.object(number)
    }

    fn fact(&self, fact: &Fact) -> String {
        self.domain().atom(fact.relation, &fact.objects, |object| self.object(object))
    }

    pub fn facts(&self, facts: &[Fact]) -> Vec<String> {
        facts.iter().map(|fact| self.fact(fact)).collect()
    }

    pub fn entry(&self, entry: &Entry) -> String {
        let objects: Vec<String> = entry.objects.iter().map(|&object| self.object(object)).collect();
        format!("{}({})", entry.action(self.domain()).name, objects.join(", "))
    }

    fn event(&self, event: &Event) -> String {
        let moment = match event.moment {
            1 => "end ",
            _ if event.is_start(self.domain()) => "start ",
            _ => "",
        };
        format!("{moment}{}", self.entry(&event.entry))
    }

    fn instance(&self, instance: &[u8]) -> String {
        match instance {
            [] => "the template".to_string(),
            objects => listed(&objects.iter().map(|&object| self.object(object)).collect::<Vec<_>>()),
        }
    }

    /// A word and things behind it, `none` if there are none.
    fn block(&self, head: &str, things: &[String]) -> String {
        let words = if things.is_empty() { "none".to_string() } else { things.join(", ") };
        wrap(&format!("{head}: "), "      ", &words)
    }

    fn beginning(&self, steps: usize, state: &State) -> String {
        let head = if steps == 0 { "\nstart".to_string() } else { format!("\nafter step {steps}") };
        let mut text = self.block(&head, &self.facts(&state.facts));
        text += &self.open(state);
        text + &format!("  highest weight: {}\n", state.weight)
    }

    fn open(&self, state: &State) -> String {
        let entries: Vec<String> = state.open.iter().map(|entry| self.entry(entry)).collect();
        if entries.is_empty() {
            return String::new();
        }
        self.block("  open", &entries)
    }

    fn events(&self, head: &str, events: &[Event]) -> String {
        let words: Vec<String> = events.iter().map(|event| self.event(event)).collect();
        let words = if words.is_empty() { "no event".to_string() } else { words.join(", ") };
        wrap(&format!("\n{head}: "), "      ", &words)
    }

    fn step(&self, step: usize, before: &State, after: &State) -> String {
        let mut text = self.events(&format!("step {step}"), &self.trace.run.steps[step - 1].events);
        let gone: Vec<Fact> = before.facts.iter().filter(|fact| !after.facts.contains(fact)).cloned().collect();
        let come: Vec<Fact> = after.facts.iter().filter(|fact| !before.facts.contains(fact)).cloned().collect();
        if gone.is_empty() && come.is_empty() {
            text += "  no fact changes\n";
        }
        if !gone.is_empty() {
            text += &self.block("  gone", &self.facts(&gone));
        }
        if !come.is_empty() {
            text += &self.block("  come", &self.facts(&come));
        }
        text += &self.open(after);
        text + &self.weights(before, after, gone.iter().chain(&come))
    }

    /// The weights of the instances that lose or get a fact.
    fn weights<'f>(&self, before: &State, after: &State, changed: impl Iterator<Item = &'f Fact>) -> String {
        let mut instances: Vec<Vec<u8>> = Vec::new();
        for instance in changed.filter_map(|fact| self.trace.instance(fact)) {
            if !instances.contains(&instance) {
                instances.push(instance);
            }
        }
        let weight = |instance: &Vec<u8>| {
            let (was, is) =
                (self.trace.weight_of(instance, &before.facts), self.trace.weight_of(instance, &after.facts));
            let change = if was == is { format!("stays {is}") } else { format!("{was} to {is}") };
            format!("{} {change}", self.instance(instance))
        };
        let weights: Vec<String> = instances.iter().map(weight).collect();
        if weights.is_empty() {
            return String::new();
        }
        wrap("  weight: ", "      ", &weights.join("; "))
    }

    /// The step that isn't made, and why.
    fn stopped(&self, last: &State, first: usize, states: &[State]) -> String {
        let number = self.trace.played.number;
        let step = self.trace.steps() + 1;
        let events = &self.trace.run.steps[step - 1].events;
        let mut text = self.events(&format!("step {step} is not made"), events);
        let found = stops(self.domain(), &last.facts, &last.open, events);
        let fitting: Vec<&Stop> = found.iter().filter(|stop| stop.number() == number).collect();
        for stop in fitting.iter().take(8) {
            text += &wrap("  ", "      ", &self.stop(stop, first, states));
        }
        if fitting.is_empty() {
            let said = match number {
                52 => "it would leave more than 1,024 facts, or more than 32 actions open.".to_string(),
                number => format!("no reason was found for {number}: please report these files."),
            };
            text += &wrap("  ", "      ", &said);
        }
        text
    }

    fn stop(&self, stop: &Stop, first: usize, states: &[State]) -> String {
        match stop {
            Stop::NotOpen(event) => {
                format!("{}: this is not open, so it can't end.", self.event(event))
            }
            Stop::Condition { event, unmet } => {
                let (asked, since) = (self.asked(unmet), self.since(unmet, first, states));
                format!("{} asks for {asked}, {since}.", self.event(event))
            }
            Stop::OverAll { entry, unmet } => {
                let (asked, since) = (self.asked(unmet), self.since(unmet, first, states));
                format!("{} is open and asks over all for {asked}, {since}.", self.entry(entry))
            }
            Stop::Interference { one, other, fact } => format!(
                "{} and {} interfere about {}: one {}, the other {}.",
                self.event(&one.event),
                self.event(&other.event),
                self.fact(fact),
                self.touch(one, fact),
                self.touch(other, fact)
            ),
        }
    }

    /// What an event does with a fact; told is the literal, too, where it stands for more than this one.
    fn touch(&self, touch: &Touch, fact: &Fact) -> String {
        let with = match touch.literal == *fact {
            true => String::new(),
            false => format!(" with {}", self.fact(&touch.literal)),
        };
        format!("{}{with}", touch_word(touch.list))
    }

    fn asked(&self, unmet: &Unmet) -> String {
        let asked = self.fact(&unmet.asked);
        if unmet.wanted {
            asked
        } else {
            format!("{asked} to be false")
        }
    }

    /// How a condition came to fail: since which step the fact is gone or there.
    fn since(&self, unmet: &Unmet, first: usize, states: &[State]) -> String {
        let Unmet { asked, wanted, fact } = unmet;
        let wanted = *wanted;
        let held = |state: &&State| state.facts.contains(fact) == wanted;
        let word = match wanted {
            true => "which is not true".to_string(),
            false if asked == fact => "but it is true".to_string(),
            false => format!("but {} is true", self.fact(fact)),
        };
        let Some(place) = states.iter().rposition(|state| held(&state)) else {
            let since = if first == 0 { " at any time before" } else { "" };
            return format!("{word}{}", if wanted { since } else { "" });
        };
        let change = if wanted { "went" } else { "came" };
        format!("{word}: it {change} in step {}", first + place + 1)
    }

    fn timeline(&self, first: usize, states: &[State]) -> String {
        let mut columns: Vec<Column> = Vec::new();
        for (count, state) in states.iter().enumerate() {
            columns.push(Column { step: first + count, weight: Some(state.weight) });
        }
        if self.trace.stops_at_step() {
            columns.push(Column { step: first + states.len(), weight: None });
        }
        let mut entries: Vec<Entry> = states[0].open.clone();
        let steps = &self.trace.run.steps[first..first + columns.len() - 1];
        entries.extend(steps.iter().flat_map(|step| step.events.iter().map(|event| event.entry.clone())));
        let mut lines: Vec<Line> = Vec::new();
        for (count, entry) in entries.iter().enumerate() {
            if !entries[..count].contains(entry) {
                let marks = (0..columns.len()).map(|column| self.mark(entry, column, first, states));
                lines.push(Line { label: self.entry(entry), marks: marks.collect() });
            }
        }
        timeline(&columns, &lines)
    }

    /// What a step is for an entry; the first column has no step.
    fn mark(&self, entry: &Entry, column: usize, first: usize, states: &[State]) -> Mark {
        let open = states.get(column).map_or(0, |state| state.open.iter().filter(|other| *other == entry).count());
        let Some(step) = column.checked_sub(1).map(|step| &self.trace.run.steps[first + step]) else {
            return Mark { open, ..Mark::default() };
        };
        let has = |moment: u8| step.events.iter().any(|event| event.moment == moment && event.entry == *entry);
        let lasting = entry.action(self.domain()).lasting;
        Mark { happens: !lasting && has(0), starts: lasting && has(0), ends: has(1), open }
    }
}

fn touch_word(list: List) -> &'static str {
    match list {
        List::True => "asks for it",
        List::False => "asks for it to be false",
        List::Add => "adds it",
        List::Delete => "deletes it",
    }
}
