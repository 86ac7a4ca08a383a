//! What a run meets on its way, told by the model: for counts of what generated runs cover.

use crate::records::split;
use model::domain::{Atom, Domain, Fact, Literals, Moment, Object};
use model::machine::{binding, Binding, Entry, Event, State};
use model::player::{EVENTS, FACTS, OBJECTS, OPEN};
use model::{play, WORK};

#[derive(Clone, Copy, PartialEq, Eq, PartialOrd, Ord, Debug)]
pub enum Met {
    /// 57.
    EndNotOpen,
    /// 55: an event's true or false condition, at the start, at once or at the end.
    TrueFails,
    FalseFails,
    /// 55: no event's condition fails, but an over-all one of something open.
    OverAllTrueFails,
    OverAllFalseFails,
    /// 56: what of an earlier event meets what of a later one.
    ConditionMeetsAdd,
    ConditionMeetsDelete,
    AddMeetsCondition,
    DeleteMeetsCondition,
    AddMeetsDelete,
    DeleteMeetsAdd,
    /// 56: by a false condition, or by an end's condition that is its own and an over-all one.
    FalseMeetsEffect,
    OwnAndOverAllMeetsEffect,
    /// A step made although an over-all condition of an end, true or false, is an effect of another event; and although
    /// two ends strike out what both need over all.
    OverAllTrueMeetsEffect,
    OverAllFalseMeetsEffect,
    BothStrikeOut,
    /// A clearing delete takes several facts, or none; a fact is cleared and added again; clearing deletes of two events
    /// have facts in common and neither covers the other.
    ClearsSeveral,
    ClearsNothing,
    ClearedAndAdded,
    ClearingDeletesMeet,
    /// 55: a clearing false condition, of an event or only over all of something open.
    ClearingFalseFails,
    OverAllClearingFails,
    /// 56: by a clearing literal and one that doesn't clear, or by two that clear of which neither covers the other.
    ClearingMeetsOne,
    ClearingMeetsClearing,
    /// As many as may be, and 52 for one more.
    StartFacts1024,
    StartFact1025,
    Facts1024,
    Facts1025,
    Events16,
    Event17,
    Open32,
    Open33,
    /// 64 objects, the last of them in a fact after a step.
    Objects64,
    Object63,
    /// A fact of six different objects, new in a step.
    SixArguments,
    /// A start fact repeated.
    StartFactRepeated,
    /// A step without events, and one of several events while something is open.
    EmptyStep,
    ManyWhileOpen,
    /// An entry open twice, and one of the two ended.
    OpenTwice,
    OneOfTwoEnded,
    /// An entry's end in one step with a start of the same.
    EndAndStart,
    /// In one step: a fact held deleted and added again; a fact added, or one held deleted, by two events; a fact added
    /// that is held.
    DeletedAndAdded,
    AddedByTwo,
    DeletedByTwo,
    AddedAlthoughHeld,
    /// 1,024 facts come, or go, in one step.
    Come1024,
    Go1024,
    /// A weight above what a byte holds; steps, and the place of a fault, above what two bytes hold.
    WeightOver255,
    StepsOver65535,
    PlaceOver65535,
    /// A step leaves a higher weight than any state before it, or a lower one than the state before it.
    WeightRises,
    WeightFalls,
}

pub const ALL: [Met; 52] = [
    Met::EndNotOpen,
    Met::TrueFails,
    Met::FalseFails,
    Met::OverAllTrueFails,
    Met::OverAllFalseFails,
    Met::ConditionMeetsAdd,
    Met::ConditionMeetsDelete,
    Met::AddMeetsCondition,
    Met::DeleteMeetsCondition,
    Met::AddMeetsDelete,
    Met::DeleteMeetsAdd,
    Met::FalseMeetsEffect,
    Met::OwnAndOverAllMeetsEffect,
    Met::OverAllTrueMeetsEffect,
    Met::OverAllFalseMeetsEffect,
    Met::BothStrikeOut,
    Met::ClearsSeveral,
    Met::ClearsNothing,
    Met::ClearedAndAdded,
    Met::ClearingDeletesMeet,
    Met::ClearingFalseFails,
    Met::OverAllClearingFails,
    Met::ClearingMeetsOne,
    Met::ClearingMeetsClearing,
    Met::StartFacts1024,
    Met::StartFact1025,
    Met::Facts1024,
    Met::Facts1025,
    Met::Events16,
    Met::Event17,
    Met::Open32,
    Met::Open33,
    Met::Objects64,
    Met::Object63,
    Met::SixArguments,
    Met::StartFactRepeated,
    Met::EmptyStep,
    Met::ManyWhileOpen,
    Met::OpenTwice,
    Met::OneOfTwoEnded,
    Met::EndAndStart,
    Met::DeletedAndAdded,
    Met::AddedByTwo,
    Met::DeletedByTwo,
    Met::AddedAlthoughHeld,
    Met::Come1024,
    Met::Go1024,
    Met::WeightOver255,
    Met::StepsOver65535,
    Met::PlaceOver65535,
    Met::WeightRises,
    Met::WeightFalls,
];

/// What this run meets, each once, in any order. Nothing if the domain file isn't well-formed.
pub fn met(domain_file: &[u8], run: &[u8]) -> Vec<Met> {
    let Ok(domain) = model::read(domain_file) else { return Vec::new() };
    let played = play(domain_file, run, &mut [0; WORK]);
    let mut watch = Watch { domain: &domain, state: State::default(), events: Vec::new(), weight: 0, met: Vec::new() };
    watch.note(Met::WeightOver255, played.weight > 255);
    watch.note(Met::StepsOver65535, played.steps > 65_535);
    watch.note(Met::PlaceOver65535, played.first > 65_535);
    let mut at = 0;
    for record in split(run) {
        let faulty = played.number != 2 && at == played.first;
        watch.record(record.kind, &record.payload, if faulty { Some(played.number) } else { None });
        if faulty {
            break;
        }
        at += 4 + record.payload.len();
    }
    watch.met.sort();
    watch.met.dedup();
    watch.met
}

/// Whether some fact is one of both; a bound literal that clears stands for several.
fn meet(some: &[Fact], others: &[Fact]) -> bool {
    some.iter().any(|fact| others.iter().any(|other| fact.meets(other)))
}

/// Whether a fact is one of these deletes.
fn taken(fact: &Fact, deletes: &[Fact]) -> bool {
    deletes.iter().any(|delete| delete.covers(fact))
}

struct Watch<'d> {
    domain: &'d Domain,
    state: State,
    events: Vec<Event>,
    /// The highest weight so far.
    weight: u32,
    met: Vec<Met>,
}

impl Watch<'_> {
    fn note(&mut self, met: Met, whether: bool) {
        if whether {
            self.met.push(met);
        }
    }

    /// The facts of literals under a binding.
    fn bound(&self, action: u8, binding: &Binding, set: Literals) -> Vec<Fact> {
        let action = &self.domain.actions[action as usize];
        set.map(|literal| action.atom(literal).bind(|variable| binding[variable.0 as usize])).collect()
    }

    fn moment(&self, event: &Event) -> &Moment {
        &self.domain.actions[event.action as usize].moments[event.moment as usize]
    }

    fn facts(&self, event: &Event, set: impl Fn(&Moment) -> Literals) -> Vec<Fact> {
        self.bound(event.action, &event.binding, set(self.moment(event)))
    }

    /// The over-all conditions of an event, true and false.
    fn over_all(&self, event: &Event) -> (Vec<Fact>, Vec<Fact>) {
        let over_all = self.domain.actions[event.action as usize].over_all;
        let bound = |set| self.bound(event.action, &event.binding, set);
        (bound(over_all.trues), bound(over_all.falses))
    }

    /// Takes in a record, with its number if it is the faulty one.
    fn record(&mut self, kind: u16, payload: &[u8], fault: Option<u8>) {
        if (18..=20).contains(&kind) && self.events.is_empty() {
            self.weight = self.weight.max(self.state.highest_weight());
        }
        match (kind, fault) {
            (16, None) => self.note(Met::Objects64, payload[0] == OBJECTS),
            (17, None) => {
                let fact = Atom::new(payload[0], payload[1..].iter().map(|&object| Object(object)));
                let held = self.state.holds(&fact);
                self.note(Met::StartFactRepeated, held);
                if !held {
                    self.state.insert(&self.domain.template, fact);
                }
                let facts = self.state.facts().len();
                self.note(Met::StartFacts1024, facts == FACTS);
            }
            (17, Some(52)) => self.met.push(Met::StartFact1025),
            (18, None) => {
                let event = Event { moment: payload[0], action: payload[1], binding: binding(&payload[2..]) };
                self.events.push(event);
            }
            (18, Some(52)) => self.met.push(Met::Event17),
            (19, None) => self.step(),
            (19, Some(52)) => {
                let (facts, open) = self.state.sizes_after(&self.state.change(self.domain, &self.events));
                self.note(Met::Facts1025, facts == FACTS + 1);
                self.note(Met::Open33, open == OPEN + 1);
            }
            (19, Some(55)) => self.failing(),
            (19, Some(56)) => self.interfering(),
            (19, Some(57)) => self.met.push(Met::EndNotOpen),
            _ => {}
        }
    }

    /// Makes an allowed step.
    fn step(&mut self) {
        let events = std::mem::take(&mut self.events);
        let open: Vec<Entry> = self.state.open().to_vec();
        let times = |entry: &Entry| open.iter().filter(|other| *other == entry).count();
        let entry = |event: &Event| Entry { action: event.action, binding: event.binding };
        let ends: Vec<Entry> = events.iter().filter(|event| event.moment == 1).map(entry).collect();
        let starts: Vec<Entry> = events.iter().filter(|event| event.moment == 0).map(entry).collect();
        self.note(Met::EmptyStep, events.is_empty());
        self.note(Met::Events16, events.len() == EVENTS);
        self.note(Met::ManyWhileOpen, events.len() > 1 && !open.is_empty());
        self.note(Met::OneOfTwoEnded, ends.iter().any(|end| times(end) > 1));
        self.note(Met::EndAndStart, ends.iter().any(|end| starts.contains(end)));
        self.note(Met::OpenTwice, open.iter().any(|entry| times(entry) > 1));
        let mut adds: Vec<Fact> = Vec::new();
        let mut deletes: Vec<Fact> = Vec::new();
        for event in &events {
            let (added, deleted) = (self.facts(event, |m| m.adds), self.facts(event, |m| m.deletes));
            self.note(Met::AddedByTwo, added.iter().any(|fact| adds.contains(fact)));
            let twice = |held: &&Fact| taken(held, &deletes) && taken(held, &deleted);
            self.note(Met::DeletedByTwo, self.state.facts().iter().any(|fact| twice(&fact)));
            let apart = |a: &Fact, b: &Fact| a.meets(b) && !a.covers(b) && !b.covers(a);
            self.note(Met::ClearingDeletesMeet, deleted.iter().any(|a| deletes.iter().any(|b| apart(a, b))));
            for clearing in deleted.iter().filter(|delete| delete.cleared().is_some()) {
                let gone: Vec<&Fact> = self.state.facts().iter().filter(|fact| clearing.covers(fact)).collect();
                let again = gone.iter().any(|fact| added.contains(fact));
                let count = gone.len();
                self.note(Met::ClearsSeveral, count > 1);
                self.note(Met::ClearsNothing, count == 0);
                self.note(Met::ClearedAndAdded, again);
            }
            adds.extend(added);
            deletes.extend(deleted);
        }
        self.ends_together(&events);
        let held = |fact: &Fact| self.state.holds(fact);
        let (again, although): (Vec<Fact>, Vec<Fact>) =
            adds.iter().filter(|fact| held(fact)).partition(|fact| taken(fact, &deletes));
        self.note(Met::DeletedAndAdded, !again.is_empty());
        self.note(Met::AddedAlthoughHeld, !although.is_empty());
        let different = |fact: &&Fact| (0..6).all(|i| fact.arity == 6 && !fact.args[..i].contains(&fact.args[i]));
        self.note(Met::SixArguments, adds.iter().any(|fact| different(&fact)));
        self.note(Met::Object63, adds.iter().any(|fact| fact.args().contains(&Object(OBJECTS - 1))));
        let held_before = self.state.facts().len();
        self.note(Met::Go1024, held_before == FACTS && deletes.len() == FACTS && adds.is_empty());
        let before = self.state.highest_weight();
        let change = self.state.change(self.domain, &events);
        self.state.advance(&self.domain.template, &change);
        let now = self.state.highest_weight();
        self.note(Met::WeightRises, now > self.weight);
        self.note(Met::WeightFalls, now < before);
        self.weight = self.weight.max(now);
        let (facts, open) = (self.state.facts().len(), self.state.open().len());
        self.note(Met::Facts1024, facts == FACTS && !events.is_empty());
        self.note(Met::Come1024, facts == FACTS && held_before == 0);
        self.note(Met::Open32, open == OPEN);
    }

    fn ends_together(&mut self, events: &[Event]) {
        for event in events.iter().filter(|event| event.moment == 1) {
            let (trues, falses) = self.over_all(event);
            for other in events.iter().filter(|other| *other != event) {
                let deletes = self.facts(other, |m| m.deletes);
                let effects = [deletes.clone(), self.facts(other, |m| m.adds)].concat();
                self.note(Met::OverAllTrueMeetsEffect, meet(&trues, &effects));
                self.note(Met::OverAllFalseMeetsEffect, meet(&falses, &effects));
                let mut both = self.facts(event, |m| m.deletes);
                both.retain(|fact| deletes.contains(fact) && trues.contains(fact));
                self.note(Met::BothStrikeOut, other.moment == 1 && meet(&both, &self.over_all(other).0));
            }
        }
    }

    fn failing(&mut self) {
        let fails = |trues: Vec<Fact>, falses: Vec<Fact>, state: &State| {
            // no true condition, a false one that doesn't clear, one that clears
            let held = |literal: &Fact| state.facts().iter().any(|fact| literal.covers(fact));
            let (clearing, plain): (Vec<Fact>, Vec<Fact>) = falses.iter().partition(|l| l.cleared().is_some());
            [trues.iter().any(|fact| !state.holds(fact)), plain.iter().any(held), clearing.iter().any(held)]
        };
        let (mut of_events, mut of_open) = ([false; 3], [false; 3]);
        for event in &self.events {
            let now = fails(self.facts(event, |m| m.trues), self.facts(event, |m| m.falses), &self.state);
            of_events = [0, 1, 2].map(|which| of_events[which] | now[which]);
        }
        for entry in self.state.open() {
            let over_all = self.domain.actions[entry.action as usize].over_all;
            let bound = |set| self.bound(entry.action, &entry.binding, set);
            let now = fails(bound(over_all.trues), bound(over_all.falses), &self.state);
            of_open = [0, 1, 2].map(|which| of_open[which] | now[which]);
        }
        let only_open = of_events == [false; 3];
        self.note(Met::TrueFails, of_events[0]);
        self.note(Met::FalseFails, of_events[1]);
        self.note(Met::ClearingFalseFails, of_events == [false, false, true]);
        self.note(Met::OverAllTrueFails, only_open && of_open[0]);
        self.note(Met::OverAllFalseFails, only_open && of_open[1]);
        self.note(Met::OverAllClearingFails, only_open && of_open == [false, false, true]);
    }

    fn interfering(&mut self) {
        let events = std::mem::take(&mut self.events);
        for (number, later) in events.iter().enumerate() {
            for earlier in &events[..number] {
                let [a, b] = [earlier, later].map(|event| {
                    let conditions = self.facts(event, |m| m.trues.or(m.falses));
                    (conditions, self.facts(event, |m| m.adds), self.facts(event, |m| m.deletes))
                });
                self.note(Met::ConditionMeetsAdd, meet(&a.0, &b.1));
                self.note(Met::ConditionMeetsDelete, meet(&a.0, &b.2));
                self.note(Met::AddMeetsCondition, meet(&a.1, &b.0));
                self.note(Met::DeleteMeetsCondition, meet(&a.2, &b.0));
                self.note(Met::AddMeetsDelete, meet(&a.1, &b.2));
                self.note(Met::DeleteMeetsAdd, meet(&a.2, &b.1));
                self.clearing(&a, &b);
                for (event, other) in [(earlier, later), (later, earlier)] {
                    let effects = self.facts(other, |m| m.adds.or(m.deletes));
                    self.note(Met::FalseMeetsEffect, meet(&self.facts(event, |m| m.falses), &effects));
                    if event.moment == 1 {
                        let (trues, falses) = self.over_all(event);
                        let own = self.facts(event, |m| m.trues.or(m.falses));
                        let mut both = [trues, falses].concat();
                        both.retain(|fact| own.contains(fact));
                        self.note(Met::OwnAndOverAllMeetsEffect, meet(&both, &effects));
                    }
                }
            }
        }
    }

    /// Of two events the conditions, adds and deletes: by what that clears they interfere.
    fn clearing(&mut self, a: &Named, b: &Named) {
        let pairs = [(&a.0, &b.1), (&a.0, &b.2), (&a.1, &b.0), (&a.2, &b.0), (&a.1, &b.2), (&a.2, &b.1)];
        for (some, others) in pairs {
            for one in some {
                for other in others.iter().filter(|other| one.meets(other)) {
                    let both = one.cleared().is_some() && other.cleared().is_some();
                    let apart = !one.covers(other) && !other.covers(one);
                    self.note(Met::ClearingMeetsOne, one.cleared().is_some() != other.cleared().is_some());
                    self.note(Met::ClearingMeetsClearing, both && apart);
                }
            }
        }
    }
}

/// Conditions, adds and deletes of an event.
type Named = (Vec<Fact>, Vec<Fact>, Vec<Fact>);
