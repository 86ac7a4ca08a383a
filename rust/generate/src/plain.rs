//! The sentences of the paper about the machine once more, as plainly as can be and without any index: a second
//! player, for run files whose records are well-formed. It can be told to misread a sentence, for tests that must
//! notice it.

use crate::plain_judge::journeys_of;
use crate::records::Rec;
use model::domain::{Action, Atom, Domain, Fact, List, Literal, Object, When};
use model::player::{EVENTS, FACTS, OPEN};

/// A sentence misread.
#[derive(Clone, Copy, PartialEq, Eq, Debug)]
pub enum Misread {
    /// Over-all conditions of what is open aren't looked at.
    OverAllForgotten,
    /// Over-all conditions of what the step ends aren't looked at.
    OverAllOfEnds,
    /// Over-all conditions of what the step starts must hold before it.
    OverAllOfStarts,
    /// Only an earlier event's condition and a later one's effects interfere.
    OneWay,
    /// Conditions that are false don't interfere.
    TrueOnly,
    /// An end interferes by its over-all conditions too.
    WithOverAll,
    /// Adds and deletes don't interfere with each other.
    ConditionsOnly,
    /// Two adds of one fact interfere.
    AddsAlike,
    /// Two deletes of one fact interfere.
    DeletesAlike,
    /// An event interferes with itself.
    Itself,
    /// Adds first, then deletes.
    DeletesLast,
    /// A fact deleted and added again keeps its place.
    KeepsPlace,
    /// New facts stand in front.
    NewInFront,
    /// New facts in the order of the last event first.
    LastEventFirst,
    /// An end takes away every entry that is alike.
    EveryEntry,
    /// What a step starts may end in it.
    StartsFirst,
    /// Whether something is open isn't looked at.
    EndsAlways,
    /// A condition that fails comes before an end that isn't open.
    ConditionsFirst,
    /// Interference comes before a condition that fails.
    InterferenceFirst,
    /// Facts are counted before the deletes.
    CountedBeforeDeletes,
    /// Open entries are counted before the ends.
    CountedBeforeEnds,
    /// The start's weight isn't counted.
    StartNotWeighed,
    /// Only the weight of the last state counts.
    LastWeight,
    /// Only the instance of the first fact that has one is weighed.
    FirstInstance,
    /// A start fact that is repeated is held twice.
    RepeatsHeld,
    /// A repeated event is told from the 17th last.
    SeventeenthFirst,
    /// A clearing literal stands for the facts of the objects that its event binds.
    BoundObjectsOnly,
    /// Two literals interfere only where one of them covers the other.
    ByCovering,
    /// A fact that is cleared and added again keeps its place.
    ClearedKeepsPlace,
}

pub const MISREADINGS: [Misread; 29] = [
    Misread::OverAllForgotten,
    Misread::OverAllOfStarts,
    Misread::OneWay,
    Misread::TrueOnly,
    Misread::WithOverAll,
    Misread::OverAllOfEnds,
    Misread::ConditionsOnly,
    Misread::AddsAlike,
    Misread::DeletesAlike,
    Misread::Itself,
    Misread::DeletesLast,
    Misread::KeepsPlace,
    Misread::NewInFront,
    Misread::LastEventFirst,
    Misread::EveryEntry,
    Misread::StartsFirst,
    Misread::EndsAlways,
    Misread::ConditionsFirst,
    Misread::InterferenceFirst,
    Misread::CountedBeforeDeletes,
    Misread::CountedBeforeEnds,
    Misread::StartNotWeighed,
    Misread::LastWeight,
    Misread::FirstInstance,
    Misread::RepeatsHeld,
    Misread::SeventeenthFirst,
    Misread::BoundObjectsOnly,
    Misread::ByCovering,
    Misread::ClearedKeepsPlace,
];

/// Moment, action, objects.
type Event = (u8, u8, Vec<u8>);
/// An open lasting action: action, objects.
type Entry = (u8, Vec<u8>);

/// Number, place, steps, weight and facts of a run.
#[derive(Clone, PartialEq, Eq, Debug)]
pub struct Plainly {
    pub number: u8,
    pub at: usize,
    pub steps: usize,
    pub weight: u32,
    pub facts: Vec<Fact>,
    /// What is open: action and objects.
    pub open: Vec<(u8, Vec<u8>)>,
    /// Whether the start state counts.
    pub started: bool,
}

struct Machine<'d> {
    domain: &'d Domain,
    misread: Option<Misread>,
    /// How many objects are chosen.
    objects: u8,
    facts: Vec<Fact>,
    open: Vec<Entry>,
}

fn meet(some: &[Fact], others: &[Fact]) -> bool {
    some.iter().any(|fact| others.contains(fact))
}

impl<'d> Machine<'d> {
    fn misreads(&self, misread: Misread) -> bool {
        self.misread == Some(misread)
    }

    fn action(&self, event: &Event) -> &'d Action {
        &self.domain.actions[event.1 as usize]
    }

    /// P4: "Each clearing literal stands for one fact per object in the machine", any other for one fact.
    fn facts_for(&self, atom: &Atom<model::Var>, bound: &[u8]) -> Vec<Fact> {
        const EVERY: u8 = 0xFF;
        let every: Vec<u8> = match atom.args().iter().any(|variable| variable.0 == EVERY) {
            false => vec![EVERY],
            true if self.misreads(Misread::BoundObjectsOnly) => bound.to_vec(),
            true => (0..self.objects).collect(),
        };
        let one = |every: u8| {
            let object = |variable: &model::Var| match variable.0 {
                EVERY => Object(every),
                variable => Object(bound[variable as usize]),
            };
            Atom::new(atom.relation, atom.args().iter().map(object).collect::<Vec<_>>().into_iter())
        };
        every.into_iter().map(one).collect()
    }

    /// The facts of an event's own literals in these lists, straight from the literals.
    fn facts_of(&self, event: &Event, lists: &[List]) -> Vec<Fact> {
        let now = if event.0 == 0 { When::Start } else { When::End };
        self.facts_when(event, now, lists)
    }

    fn facts_when(&self, event: &Event, when: When, lists: &[List]) -> Vec<Fact> {
        let so = |literal: &&Literal| literal.when == when && lists.contains(&literal.list);
        self.action(event)
            .literals
            .iter()
            .filter(so)
            .flat_map(|literal| self.facts_for(&literal.atom, &event.2))
            .collect()
    }

    fn over_all_holds(&self, action: u8, objects: &[u8]) -> bool {
        self.domain.actions[action as usize].literals.iter().all(|literal| {
            let holds = |fact: &Fact| self.facts.contains(fact) == (literal.list == List::True);
            literal.when != When::OverAll || self.facts_for(&literal.atom, objects).iter().all(holds)
        })
    }

    fn interfere(&self, a: &Event, b: &Event) -> bool {
        let conditions = |event: &Event| {
            let lists: &[List] =
                if self.misreads(Misread::TrueOnly) { &[List::True] } else { &[List::True, List::False] };
            let mut facts = self.facts_of(event, lists);
            if event.0 == 1 && self.misreads(Misread::WithOverAll) {
                facts.extend(self.facts_when(event, When::OverAll, lists));
            }
            facts
        };
        if self.misreads(Misread::ByCovering) {
            return self.interfere_by_covering(a, b);
        }
        let effects = |event: &Event| self.facts_of(event, &[List::Add, List::Delete]);
        let of = |event: &Event, list: List| self.facts_of(event, &[list]);
        if self.misreads(Misread::OneWay) {
            return meet(&conditions(a), &effects(b));
        }
        let by_effects = meet(&of(a, List::Add), &of(b, List::Delete)) || meet(&of(b, List::Add), &of(a, List::Delete));
        meet(&conditions(a), &effects(b))
            || meet(&conditions(b), &effects(a))
            || (by_effects && !self.misreads(Misread::ConditionsOnly))
            || (self.misreads(Misread::AddsAlike) && meet(&of(a, List::Add), &of(b, List::Add)))
            || (self.misreads(Misread::DeletesAlike) && meet(&of(a, List::Delete), &of(b, List::Delete)))
    }

    /// Interference where one of the two literals stands for all that the other does, and not where they share a fact.
    fn interfere_by_covering(&self, a: &Event, b: &Event) -> bool {
        let own = |event: &Event| -> Vec<(List, Vec<Fact>)> {
            let now = if event.0 == 0 { When::Start } else { When::End };
            let literals = self.action(event).literals.iter().filter(|literal| literal.when == now);
            literals.map(|literal| (literal.list, self.facts_for(&literal.atom, &event.2))).collect()
        };
        let condition = |list: List| matches!(list, List::True | List::False);
        let clash = |a: List, b: List| a != b && !(condition(a) && condition(b));
        let within = |some: &[Fact], others: &[Fact]| some.iter().all(|fact| others.contains(fact));
        let (of_a, of_b) = (own(a), own(b));
        let covering = |(a, some): &(List, Vec<Fact>), (b, others): &(List, Vec<Fact>)| {
            clash(*a, *b) && (within(some, others) || within(others, some))
        };
        of_a.iter().any(|some| of_b.iter().any(|others| covering(some, others)))
    }

    /// "It is allowed if every end is open; every event's conditions hold; the over-all conditions of everything open
    /// hold; and no two of its events interfere": the number of the first that fails.
    fn refusal(&self, events: &[Event]) -> Option<u8> {
        let entry = |event: &Event| (event.1, event.2.clone());
        let starts = |entry: &Entry| {
            let started = |event: &&Event| event.0 == 0 && (event.1, &event.2) == (entry.0, &entry.1);
            self.misreads(Misread::StartsFirst) && events.iter().any(|event| started(&event))
        };
        let not_open = |event: &Event| event.0 == 1 && !self.open.contains(&entry(event)) && !starts(&entry(event));
        let fails = |event: &Event| {
            let (trues, falses) = (self.facts_of(event, &[List::True]), self.facts_of(event, &[List::False]));
            trues.iter().any(|fact| !self.facts.contains(fact)) || meet(&falses, &self.facts)
        };
        let ended = |open: &Entry| events.iter().any(|event| event.0 == 1 && entry(event) == *open);
        let asked = |open: &&Entry| !self.misreads(Misread::OverAllOfEnds) || !ended(open);
        let over_all_fails = self.open.iter().filter(asked).any(|open| !self.over_all_holds(open.0, &open.1));
        let started_fails = self.misreads(Misread::OverAllOfStarts)
            && events.iter().any(|event| event.0 == 0 && !self.over_all_holds(event.1, &event.2));
        let end_not_open = events.iter().any(not_open) && !self.misreads(Misread::EndsAlways);
        let condition_fails =
            events.iter().any(fails) || (over_all_fails && !self.misreads(Misread::OverAllForgotten)) || started_fails;
        let mut interference = false;
        for (number, event) in events.iter().enumerate() {
            let end = number + self.misreads(Misread::Itself) as usize;
            interference |= events[..end].iter().any(|other| self.interfere(other, event));
        }
        let mut order = [(57, end_not_open), (55, condition_fails), (56, interference)];
        match self.misread {
            Some(Misread::ConditionsFirst) => order.swap(0, 1),
            Some(Misread::InterferenceFirst) => order.swap(1, 2),
            _ => {}
        }
        order.iter().find(|(_, refused)| *refused).map(|(number, _)| *number)
    }

    /// The facts of an event's deletes that don't clear.
    fn plain_deletes(&self, event: &Event) -> Vec<Fact> {
        let now = if event.0 == 0 { When::Start } else { When::End };
        let so = |literal: &&Literal| literal.when == now && literal.list == List::Delete;
        let plain = self.action(event).literals.iter().filter(so).filter(|literal| literal.atom.cleared().is_none());
        plain.flat_map(|literal| self.facts_for(&literal.atom, &event.2)).collect()
    }

    /// "Afterwards: all deletes out, then all adds in; ends leave the list (one entry each), starts join it."
    /// None if that is too much for the player.
    fn after(&self, events: &[Event]) -> Option<(Vec<Fact>, Vec<Entry>)> {
        let deletes: Vec<Fact> = events.iter().flat_map(|event| self.facts_of(event, &[List::Delete])).collect();
        let mut in_order: Vec<&Event> = events.iter().collect();
        if self.misreads(Misread::LastEventFirst) {
            in_order.reverse();
        }
        let adds: Vec<Fact> = in_order.iter().flat_map(|event| self.facts_of(event, &[List::Add])).collect();
        let mut facts = self.facts.clone();
        let plainly: Vec<Fact> = events.iter().flat_map(|event| self.plain_deletes(event)).collect();
        let stays = |fact: &Fact| match self.misread {
            Some(Misread::KeepsPlace) => adds.contains(fact),
            Some(Misread::ClearedKeepsPlace) => adds.contains(fact) && !plainly.contains(fact),
            _ => false,
        };
        facts.retain(|fact| !deletes.contains(fact) || stays(fact));
        for &new in &adds {
            if facts.contains(&new) {
                continue;
            }
            match self.misread {
                Some(Misread::NewInFront) => facts.insert(0, new),
                Some(Misread::DeletesLast) if deletes.contains(&new) => {}
                _ => facts.push(new),
            }
        }
        let mut open = self.open.clone();
        for event in events.iter().filter(|event| event.0 == 1) {
            let alike = |entry: &Entry| entry.0 == event.1 && entry.1 == event.2;
            if self.misreads(Misread::EveryEntry) {
                open.retain(|entry| !alike(entry));
            } else if let Some(place) = open.iter().position(alike) {
                open.remove(place);
            }
        }
        let starts = events.iter().filter(|event| event.0 == 0 && self.action(event).lasting);
        open.extend(starts.map(|event| (event.1, event.2.clone())));
        let mut counts = (facts.len(), open.len());
        if self.misreads(Misread::CountedBeforeDeletes) {
            counts.0 = self.facts.len() + adds.iter().filter(|fact| !self.facts.contains(fact)).count();
        }
        if self.misreads(Misread::CountedBeforeEnds) {
            counts.1 += events.iter().filter(|event| event.0 == 1).count();
        }
        if counts.0 > FACTS || counts.1 > OPEN {
            return None;
        }
        Some((facts, open))
    }

    /// The highest weight of any instance: for each fact, how many facts match the instance it matches.
    fn highest_weight(&self) -> u32 {
        let tuple = |fact: &Fact| self.domain.template.tuple(fact);
        let weigh = |fact: &Fact| self.facts.iter().filter(|other| tuple(other) == tuple(fact)).count();
        let mut weights = self.facts.iter().filter(|fact| tuple(fact).is_some()).map(weigh);
        let highest = if self.misreads(Misread::FirstInstance) { weights.next() } else { weights.max() };
        highest.unwrap_or(0) as u32
    }
}

/// Plays the records of a well-formed run file.
pub fn play(domain: &Domain, records: &[Rec], misread: Option<Misread>) -> Plainly {
    let mut machine = Machine { domain, misread, objects: 0, facts: Vec::new(), open: Vec::new() };
    let mut events: Vec<Event> = Vec::new();
    let (mut at, mut steps, mut weight, mut started) = (0, 0, 0, false);
    let mut number = 2;
    for record in records {
        if record.kind >= 18 && !started {
            started = true;
            weight = if machine.misreads(Misread::StartNotWeighed) { 0 } else { machine.highest_weight() };
        }
        let payload = &record.payload;
        match record.kind {
            16 => machine.objects = payload[0],
            17 => {
                let objects: Vec<Object> = payload[1..].iter().map(|&object| Object(object)).collect();
                let new = Atom::new(payload[0], objects.into_iter());
                if machine.misreads(Misread::RepeatsHeld) || !machine.facts.contains(&new) {
                    if machine.facts.len() == FACTS {
                        number = 52;
                        break;
                    }
                    machine.facts.push(new);
                }
            }
            18 => {
                let event = (payload[0], payload[1], payload[2..].to_vec());
                let (repeated, seventeenth) = (events.contains(&event), events.len() == EVENTS);
                if repeated || seventeenth {
                    let first = seventeenth && machine.misreads(Misread::SeventeenthFirst);
                    number = if repeated && !first { 54 } else { 52 };
                    break;
                }
                events.push(event);
            }
            19 => {
                if let Some(refusal) = machine.refusal(&events) {
                    number = refusal;
                    break;
                }
                let Some(after) = machine.after(&events) else {
                    number = 52;
                    break;
                };
                (machine.facts, machine.open) = after;
                events.clear();
                steps += 1;
                let now = machine.highest_weight();
                weight = if machine.misreads(Misread::LastWeight) { now } else { weight.max(now) };
            }
            _ => {}
        }
        at += 4 + payload.len();
    }
    Plainly { number, at, steps, weight, facts: machine.facts, open: machine.open, started }
}

/// A sentence of P13 misread.
#[derive(Clone, Copy, PartialEq, Eq, Debug)]
pub enum Miscount {
    /// The weight alone.
    WeightAlone,
    /// Journeys of another instance count.
    AnyInstance,
    /// Every open class of the instance counts, journey or not.
    AnyClass,
    /// An entry that is open twice counts once.
    AlikeOnce,
    /// The start counts before it should.
    Early,
}

pub const MISCOUNTS: [Miscount; 5] =
    [Miscount::WeightAlone, Miscount::AnyInstance, Miscount::AnyClass, Miscount::AlikeOnce, Miscount::Early];

/// P13: the weight of an instance plus its open journeys, in the state that a run left.
pub fn total(domain: &Domain, left: &Plainly, instance: &[u8], misread: Option<Miscount>) -> u32 {
    let misreads = |which| misread == Some(which);
    if !left.started && !misreads(Miscount::Early) {
        return 0;
    }
    let keys = |component: u8, args: &[u8]| -> Option<Vec<u8>> {
        let component = domain.template.components.iter().find(|c| c.relation == component)?;
        let places = component.place_of[..domain.template.n as usize].iter();
        Some(places.map(|&place| args[place as usize]).collect())
    };
    let of_fact = |fact: &&Fact| keys(fact.relation, &fact.args.map(|object| object.0)).as_deref() == Some(instance);
    let weight = left.facts.iter().filter(of_fact).count();
    if misreads(Miscount::WeightAlone) {
        return weight as u32;
    }
    let mut open = left.open.clone();
    if misreads(Miscount::AlikeOnce) {
        open.sort();
        open.dedup();
    }
    let mut journeys = 0;
    for (number, objects) in &open {
        for (tuple, is_journey) in journeys_of(domain, *number) {
            let bound: Vec<u8> = tuple.iter().map(|variable| objects[variable.0 as usize]).collect();
            let belongs = bound == instance || misreads(Miscount::AnyInstance);
            journeys += (belongs && (is_journey || misreads(Miscount::AnyClass))) as usize;
        }
    }
    (weight + journeys) as u32
}
