//! "The machine": state, events, steps. It has no size limits.

use crate::domain::{Argument, Atom, Domain, Fact, Literals, Moment, Object, Template, Tuple, VARIABLES};
use std::collections::{HashMap, HashSet};
use std::hash::{BuildHasherDefault, Hasher};

/// "a binding of its variables to different objects": the object of each variable, filled.
pub type Binding = [Object; VARIABLES];

/// The binding of variable i to the i-th of these objects.
pub fn binding(objects: &[u8]) -> Binding {
    let mut binding = [Object::EVERY; VARIABLES];
    for (place, &object) in binding.iter_mut().zip(objects) {
        *place = Object(object);
    }
    binding
}

/// "An event is an action at once, a start, or an end, with a binding of its variables to different
/// objects." Moment 1 is an end.
#[derive(Clone, Copy, PartialEq, Eq, Debug)]
pub struct Event {
    pub moment: u8,
    pub action: u8,
    pub binding: Binding,
}

impl Event {
    /// The open lasting action that a start makes and an end needs.
    fn entry(&self) -> Entry {
        Entry { action: self.action, binding: self.binding }
    }

    fn is_end(&self) -> bool {
        self.moment == 1
    }

    fn is_start(&self, domain: &Domain) -> bool {
        self.moment == 0 && domain.actions[self.action as usize].lasting
    }

    fn moment<'d>(&self, domain: &'d Domain) -> &'d Moment {
        &domain.actions[self.action as usize].moments[self.moment as usize]
    }

    /// The literals by the roles that interfere with each other: conditions, adds, deletes.
    fn roles(&self, domain: &Domain) -> [Literals; 3] {
        let moment = self.moment(domain);
        [moment.trues.or(moment.falses), moment.adds, moment.deletes]
    }

    /// What the literals of a set are for this event, in the order of the file.
    fn bound<'d>(&self, domain: &'d Domain, set: Literals) -> impl Iterator<Item = Atom<Object>> + 'd {
        bound(domain, self.entry(), set)
    }
}

/// An open lasting action with its binding.
#[derive(Clone, Copy, PartialEq, Eq, Debug)]
pub struct Entry {
    pub action: u8,
    pub binding: Binding,
}

fn bound(domain: &Domain, entry: Entry, set: Literals) -> impl Iterator<Item = Atom<Object>> + '_ {
    let action = &domain.actions[entry.action as usize];
    set.map(move |literal| action.atom(literal).bind(|variable| entry.binding[variable.0 as usize]))
}

/// "State: a set of facts and a list of open lasting actions with bindings, where one entry may
/// occur twice."
#[derive(Clone, Debug, Default)]
pub struct State {
    /// The facts, in the order of the player's work memory.
    facts: Vec<Fact>,
    /// The same facts, to find them.
    held: HashSet<Fact, Quick>,
    open: Vec<Entry>,
    /// The weight of every instance that matches a fact, the instance written as one word.
    weights: HashMap<u64, u32, Quick>,
}

fn word(instance: &Tuple<Object>) -> u64 {
    instance.iter().fold(0, |word, object| word << 8 | object.0 as u64)
}

/// Why a step isn't allowed, by the number that the player gives it.
#[derive(Clone, Copy, PartialEq, Eq, Debug)]
pub enum Refusal {
    EndNotOpen = 57,
    ConditionFails = 55,
    Interference = 56,
}

/// What an allowed step makes of a state.
#[derive(Clone, Debug, Default)]
pub struct Change {
    /// The facts held and deleted.
    gone: Vec<Fact>,
    /// The facts added that aren't held after the deletes, in order, once each.
    new: Vec<Fact>,
    ends: Vec<Entry>,
    starts: Vec<Entry>,
}

impl State {
    pub fn facts(&self) -> &[Fact] {
        &self.facts
    }

    pub fn open(&self) -> &[Entry] {
        &self.open
    }

    pub fn holds(&self, fact: &Fact) -> bool {
        self.held.contains(fact)
    }

    /// The facts held that a bound literal which clears stands for. P4: "Each clearing literal stands for one
    /// fact per object in the machine, whose facts and bindings use no objects but those chosen": so
    /// every fact held that fits it is one of them.
    fn met<'s>(&'s self, bound: &'s Atom<Object>) -> impl Iterator<Item = &'s Fact> + 's {
        self.facts.iter().filter(|fact| bound.covers(fact))
    }

    /// Puts in a fact that isn't held, and tells the weight of the instance that it matches, 0 if its
    /// relation has no component.
    pub fn insert(&mut self, template: &Template, fact: Fact) -> u32 {
        self.facts.push(fact);
        self.held.insert(fact);
        let Some(instance) = template.tuple(&fact) else { return 0 };
        let weight = self.weights.entry(word(&instance)).or_insert(0);
        *weight += 1;
        *weight
    }

    /// "An instance gives each key an object; its weight is the number of facts it matches."
    pub fn weight(&self, instance: &Tuple<Object>) -> u32 {
        self.weights.get(&word(instance)).copied().unwrap_or(0)
    }

    /// The highest weight of any instance.
    pub fn highest_weight(&self) -> u32 {
        self.weights.values().copied().max().unwrap_or(0)
    }

    /// Whether a step, a list of different events, is allowed. "It is allowed if every end is open;
    /// every event's conditions hold; the over-all conditions of everything open hold; and no two of
    /// its events interfere." An end is open, so its over-all conditions are among those of everything
    /// open. Of several refusals the player's first comes: 57, 55, 56.
    pub fn allows(&self, domain: &Domain, events: &[Event]) -> Result<(), Refusal> {
        for event in events {
            if event.is_end() && !self.open.contains(&event.entry()) {
                return Err(Refusal::EndNotOpen);
            }
        }
        for event in events {
            if !self.conditions_hold(domain, event.entry(), event.moment(domain)) {
                return Err(Refusal::ConditionFails);
            }
        }
        for entry in &self.open {
            if !self.conditions_hold(domain, *entry, &domain.actions[entry.action as usize].over_all) {
                return Err(Refusal::ConditionFails);
            }
        }
        if some_interfere(domain, events) {
            return Err(Refusal::Interference);
        }
        Ok(())
    }

    fn conditions_hold(&self, domain: &Domain, entry: Entry, conditions: &Moment) -> bool {
        let clearing = domain.actions[entry.action as usize].clearing;
        bound(domain, entry, conditions.trues).all(|fact| self.holds(&fact))
            && bound(domain, entry, conditions.falses.without(clearing)).all(|fact| !self.holds(&fact))
            && bound(domain, entry, conditions.falses.and(clearing)).all(|bound| self.met(&bound).next().is_none())
    }

    /// What an allowed step changes. "Afterwards: all deletes out, then all adds in; ends leave the
    /// list (one entry each), starts join it."
    pub fn change(&self, domain: &Domain, events: &[Event]) -> Change {
        let mut change = Change::default();
        for event in events {
            let (deletes, clearing) = (event.moment(domain).deletes, domain.actions[event.action as usize].clearing);
            for fact in event.bound(domain, deletes.without(clearing)) {
                if self.holds(&fact) {
                    change.gone.push(fact);
                }
            }
            for bound in event.bound(domain, deletes.and(clearing)) {
                change.gone.extend(self.met(&bound));
            }
            if event.is_end() {
                change.ends.push(event.entry());
            } else if event.is_start(domain) {
                change.starts.push(event.entry());
            }
        }
        change.gone.sort_unstable();
        change.gone.dedup();
        // "new ones by event and literal (a fact deleted and added again is new)"
        let mut added: HashSet<Fact, Quick> = HashSet::default();
        for event in events {
            for fact in event.bound(domain, event.moment(domain).adds) {
                let kept = self.holds(&fact) && change.gone.binary_search(&fact).is_err();
                if !kept && added.insert(fact) {
                    change.new.push(fact);
                }
            }
        }
        change
    }

    /// How many facts are held, and how many lasting actions are open, after the change.
    pub fn sizes_after(&self, change: &Change) -> (usize, usize) {
        let facts = self.facts.len() - change.gone.len() + change.new.len();
        let open = self.open.len() - change.ends.len() + change.starts.len();
        (facts, open)
    }

    /// Makes the change of an allowed step, and tells the highest weight of the instances that got a
    /// new fact; of all other instances the weight is no higher than before.
    pub fn advance(&mut self, template: &Template, change: &Change) -> u32 {
        for fact in &change.gone {
            self.held.remove(fact);
            let instance = template.tuple(fact);
            if let Some(weight) = instance.and_then(|instance| self.weights.get_mut(&word(&instance))) {
                *weight -= 1;
            }
        }
        // "kept ones in order"
        if !change.gone.is_empty() {
            self.facts.retain(|fact| change.gone.binary_search(fact).is_err());
        }
        // "all adds in": as the deletes are out already, a weight only rises here.
        let mut highest = 0;
        for fact in &change.new {
            highest = highest.max(self.insert(template, *fact));
        }
        for entry in &change.ends {
            if let Some(place) = self.open.iter().position(|open| open == entry) {
                self.open.remove(place);
            }
        }
        self.open.extend_from_slice(&change.starts);
        highest
    }
}

/// The events for which a fact stands in one role: none, one, or several.
#[derive(Clone, Copy, Default)]
enum Events {
    #[default]
    None,
    One(usize),
    Several,
}

impl Events {
    fn insert(&mut self, event: usize) {
        *self = match *self {
            Events::None => Events::One(event),
            Events::One(only) if only == event => Events::One(event),
            _ => Events::Several,
        };
    }

    /// Whether two different events are there, one of these and one of the others.
    fn differ(self, others: Events) -> bool {
        match (self, others) {
            (Events::None, _) | (_, Events::None) => false,
            (Events::One(one), Events::One(other)) => one != other,
            _ => true,
        }
    }
}

/// "Two events interfere if a condition of one, true or false, is an add or delete of the other, or
/// an add of one is a delete of the other." P2: "An end's conditions for interference become its own
/// only." Told for each fact that the events name, instead of for each pair of events; literals that
/// clear are then held against all others, since they interfere by any fact that both stand for.
fn some_interfere(domain: &Domain, events: &[Event]) -> bool {
    if events.len() < 2 {
        return false;
    }
    let literals = events.iter().map(|event| domain.actions[event.action as usize].literals.len()).sum();
    let mut named: HashMap<Fact, [Events; 3], Quick> = HashMap::with_capacity_and_hasher(literals, Quick::default());
    for (number, event) in events.iter().enumerate() {
        let clearing = domain.actions[event.action as usize].clearing;
        for (role, set) in event.roles(domain).into_iter().enumerate() {
            for fact in event.bound(domain, set.without(clearing)) {
                let roles = named.entry(fact).or_default();
                roles[role].insert(number);
                let [conditions, adds, deletes] = *roles;
                if conditions.differ(adds) || conditions.differ(deletes) || adds.differ(deletes) {
                    return true;
                }
            }
        }
    }
    events.iter().any(|event| events.iter().any(|other| event != other && clearing_interferes(domain, event, other)))
}

/// Whether a literal of one event that clears has a fact in common with one of the other, in roles that
/// interfere.
fn clearing_interferes(domain: &Domain, event: &Event, other: &Event) -> bool {
    let clearing = domain.actions[event.action as usize].clearing;
    !clearing.is_empty()
        && event.roles(domain).into_iter().enumerate().any(|(role, set)| {
            event.bound(domain, set.and(clearing)).any(|bound| {
                let others = other.roles(domain).into_iter().enumerate().filter(|(of_other, _)| *of_other != role);
                others.into_iter().any(|(_, set)| other.bound(domain, set).any(|other| bound.meets(&other)))
            })
        })
}

/// A quick hash for facts and instances.
#[derive(Default)]
pub struct Mix(u64);

type Quick = BuildHasherDefault<Mix>;

impl Hasher for Mix {
    fn finish(&self) -> u64 {
        self.0
    }

    fn write(&mut self, bytes: &[u8]) {
        for chunk in bytes.chunks(8) {
            let mut word = [0; 8];
            word[..chunk.len()].copy_from_slice(chunk);
            self.write_u64(u64::from_le_bytes(word));
        }
    }

    fn write_u64(&mut self, word: u64) {
        let wide = (self.0 ^ word) as u128 * 0x9E37_79B9_7F4A_7C15;
        self.0 = wide as u64 ^ (wide >> 64) as u64;
    }

    fn write_usize(&mut self, word: usize) {
        self.write_u64(word as u64);
    }
}
