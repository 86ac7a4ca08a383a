//! "Playing a run": the run file, the work memory, the answer.

use crate::classes::{classes, is_journey};
use crate::domain::{read, Argument, Atom, Domain, Object, Tuple, Var, ARITY, VARIABLES};
use crate::machine::{binding, Entry, Event, State};
use crate::records::Record;
use crate::verdict::FACT_BYTES;

/// Which of the two files a returned part is of.
#[derive(Clone, Copy, PartialEq, Eq, Debug)]
pub enum Source {
    Domain,
    Run,
}

/// "The faulty record comes back as a part of the domain file or of the run file, from that record
/// to the end"
#[derive(Clone, Copy, PartialEq, Eq, Debug)]
pub struct Part {
    pub file: Source,
    pub at: usize,
}

/// The answer of playing.
#[derive(Clone, Copy, PartialEq, Eq, Debug)]
pub struct Played {
    pub number: u8,
    pub first: usize,
    pub second: usize,
    pub third: usize,
    /// "steps made"
    pub steps: usize,
    /// "highest weight of any instance in any state reached"
    pub weight: u32,
    pub part: Part,
}

// "Work memory: the first 8,192 bytes hold the facts"
pub const WORK: usize = 8_192;
// "52 a step's 17th event or the 1,025th different start fact"; "over 1,024 facts or 32 open"
pub const EVENTS: usize = 16;
pub const FACTS: usize = 1_024;
pub const OPEN: usize = 32;
/// "object count 1 to 64"
pub const OBJECTS: u8 = 64;

const OBJECT_COUNT: u16 = 16;
const START_FACT: u16 = 17;
const EVENT: u16 = 18;
const CLOSE_STEP: u16 = 19;
const CLOSE_RUN: u16 = 20;

/// The answer of playing with an instance.
#[derive(Clone, Copy, PartialEq, Eq, Debug)]
pub struct Tracked {
    pub played: Played,
    /// P13: "the instance's weight plus the number of open journeys belonging to it", "after the last
    /// step made (0 while the start state doesn't count yet)"
    pub total: u32,
}

/// Plays a run file on a domain file.
pub fn play(domain_file: &[u8], run_file: &[u8], work: &mut [u8]) -> Played {
    play_with(domain_file, run_file, None, work).played
}

/// P13: "The player takes an instance of n objects", a byte each; they may repeat.
pub fn track(domain_file: &[u8], run_file: &[u8], instance: &[u8], work: &mut [u8]) -> Tracked {
    play_with(domain_file, run_file, Some(instance), work)
}

fn play_with(domain_file: &[u8], run_file: &[u8], instance: Option<&[u8]>, work: &mut [u8]) -> Tracked {
    let refused = |number, first, part| Tracked {
        played: Played { number, first, second: 0, third: 0, steps: 0, weight: 0, part },
        total: 0,
    };
    // "run, after 9 to 23" (27 with P1 and P4); "for 9 the whole domain file"
    let domain = match read(domain_file) {
        Ok(domain) => domain,
        Err(stop) => {
            return refused(stop.number, stop.place, Part { file: Source::Domain, at: stop.record });
        }
    };
    // "58 work memory under 8,192"; "the empty end of the run file if there is none"
    let no_record = Part { file: Source::Run, at: run_file.len() };
    if work.len() < WORK {
        return refused(58, 0, no_record);
    }
    let mut player = Player::new(&domain, instance);
    let fault = player.run(run_file);
    player.write(&mut work[..WORK]);
    // "9 to 23, and any later number for a record, give the record's offset as first place"
    let (number, first, part) = match fault {
        None => (2, 0, no_record),
        Some((number, at)) => (number, at, Part { file: Source::Run, at }),
    };
    let (steps, weight) = (player.steps, player.weight);
    Tracked { played: Played { number, first, second: 0, third: 0, steps, weight, part }, total: player.total() }
}

/// The number of journeys of an open entry that belong to an instance. P13: "each open entry counted once
/// for every journey whose bound key tuple is the instance"
fn journeys_for(domain: &Domain, entry: &Entry, instance: &Tuple<Object>) -> usize {
    let action = &domain.actions[entry.action as usize];
    let belongs = |tuple: Tuple<Var>| {
        let keys = 0..domain.template.n as usize;
        keys.into_iter().all(|key| entry.binding[tuple[key].0 as usize] == instance[key])
    };
    let classes = classes(&domain.template, action);
    classes.iter().filter(|class| is_journey(action, class) && belongs(class.tuple)).count()
}

struct Player<'d> {
    domain: &'d Domain,
    /// The instance that is tracked, if one is.
    instance: Option<&'d [u8]>,
    /// The object count, once its record is read.
    objects: Option<u8>,
    state: State,
    /// Whether the start facts are all read and weighed.
    started: bool,
    /// The events waiting for the close of their step.
    events: Vec<Event>,
    steps: usize,
    weight: u32,
}

impl<'d> Player<'d> {
    fn new(domain: &'d Domain, instance: Option<&'d [u8]>) -> Player<'d> {
        Player {
            domain,
            instance,
            objects: None,
            state: State::default(),
            started: false,
            events: Vec::new(),
            steps: 0,
            weight: 0,
        }
    }

    /// Plays the run file to its end, or up to the fault: its number and offset.
    fn run(&mut self, file: &[u8]) -> Option<(u8, usize)> {
        let mut at = 0;
        loop {
            // "50 run form, order or length": cut short, or no record 20
            let Some(record) = Record::read(file, at) else { return Some((50, at)) };
            if let Err(number) = self.take(&record) {
                return Some((number, at));
            }
            at = record.end();
            if record.kind == CLOSE_RUN {
                // "bytes behind it are 50 from the first of them"
                return if at < file.len() { Some((50, at)) } else { None };
            }
        }
    }

    /// Takes in one whole record, or tells its number.
    fn take(&mut self, record: &Record) -> Result<(), u8> {
        // "start included once the first uncut record of kind 18 to 20 is met; steps and weight are 0
        // before"
        if (EVENT..=CLOSE_RUN).contains(&record.kind) && !self.started {
            self.weight = self.state.highest_weight();
            self.started = true;
        }
        // "The order is one 16, any number of 17, then 18 and 19 mixed, one 20."
        let (counted, started) = (self.objects.is_some(), self.started);
        match record.kind {
            OBJECT_COUNT if !counted && !started => self.object_count(record.payload),
            START_FACT if counted && !started => self.start_fact(record.payload),
            EVENT if counted => self.event(record.payload),
            CLOSE_STEP if counted => self.close_step(record.payload),
            CLOSE_RUN if counted => self.close_run(record.payload),
            _ => Err(50),
        }
    }

    /// "kind 16, object count 1 to 64"
    fn object_count(&mut self, payload: &[u8]) -> Result<(), u8> {
        let &[count] = payload else { return Err(50) };
        if !(1..=OBJECTS).contains(&count) {
            return Err(51);
        }
        // P13: "a wrong count or object gives 51, last at kind 16"
        if let Some(instance) = self.instance {
            if instance.len() != self.domain.template.n as usize || instance.iter().any(|&object| object >= count) {
                return Err(51);
            }
        }
        self.objects = Some(count);
        Ok(())
    }

    /// The total of the instance, 0 without one.
    fn total(&self) -> u32 {
        let Some(objects) = self.instance.filter(|_| self.started && self.objects.is_some()) else { return 0 };
        let mut instance = [Object::EVERY; ARITY];
        for (place, &object) in instance.iter_mut().zip(objects) {
            *place = Object(object);
        }
        let open: usize = self.state.open().iter().map(|entry| journeys_for(self.domain, entry, &instance)).sum();
        self.state.weight(&instance) + open as u32
    }

    /// "51 number out of range", of objects in order
    fn in_range(&self, objects: &[u8]) -> Result<(), u8> {
        let count = self.objects.unwrap_or(0);
        if objects.iter().any(|&object| object >= count) {
            return Err(51);
        }
        Ok(())
    }

    /// "kind 17, start fact (relation, objects; repeats held once)"
    /// "A length (12, 50) comes first where it is fixed or too short for the relation or action,
    /// else once that is known."
    fn start_fact(&mut self, payload: &[u8]) -> Result<(), u8> {
        let (&relation, objects) = payload.split_first().ok_or(50)?;
        let arity = *self.domain.relations.get(relation as usize).ok_or(51)?;
        if objects.len() != arity as usize {
            return Err(50);
        }
        self.in_range(objects)?;
        let fact = Atom::new(relation, objects.iter().map(|&object| Object(object)));
        if self.state.holds(&fact) {
            return Ok(());
        }
        // "52 ... the 1,025th different start fact"
        if self.state.facts().len() == FACTS {
            return Err(52);
        }
        self.state.insert(&self.domain.template, fact);
        Ok(())
    }

    /// "kind 18, event (moment, action, objects; moment 1 is an end)"
    fn event(&mut self, payload: &[u8]) -> Result<(), u8> {
        let &[moment, number, ref objects @ ..] = payload else { return Err(50) };
        if moment > 1 {
            return Err(51);
        }
        let action = self.domain.actions.get(number as usize).ok_or(51)?;
        if objects.len() != action.variables as usize {
            return Err(50);
        }
        // "51 number out of range, or moment 1 of an action at once"
        if moment == 1 && !action.lasting {
            return Err(51);
        }
        self.in_range(objects)?;
        // "53 one object bound twice"
        let mut seen = 0u64;
        for &object in objects {
            if seen >> object & 1 == 1 {
                return Err(53);
            }
            seen |= 1 << object;
        }
        // "54 event repeated in its step"
        debug_assert!(objects.len() <= VARIABLES);
        let event = Event { moment, action: number, binding: binding(objects) };
        if self.events.contains(&event) {
            return Err(54);
        }
        // "52 a step's 17th event"
        if self.events.len() == EVENTS {
            return Err(52);
        }
        self.events.push(event);
        Ok(())
    }

    /// "kind 19, close the step"
    fn close_step(&mut self, payload: &[u8]) -> Result<(), u8> {
        if !payload.is_empty() {
            return Err(50);
        }
        // "57 end not open; 55 condition fails; 56 interference"
        self.state.allows(self.domain, &self.events).map_err(|refusal| refusal as u8)?;
        // "52 over 1,024 facts or 32 open"
        let change = self.state.change(self.domain, &self.events);
        let (facts, open) = self.state.sizes_after(&change);
        if facts > FACTS || open > OPEN {
            return Err(52);
        }
        // Only an instance that got a fact in this step can weigh more than before.
        let weight_now = self.state.advance(&self.domain.template, &change);
        self.events.clear();
        self.steps += 1;
        self.weight = self.weight.max(weight_now);
        Ok(())
    }

    /// "kind 20, close the run, with no event waiting (else 50 at that record)"
    fn close_run(&self, payload: &[u8]) -> Result<(), u8> {
        if !payload.is_empty() || !self.events.is_empty() {
            return Err(50);
        }
        Ok(())
    }

    /// "the first 8,192 bytes hold the facts, 8 bytes each in the witness's form ..., zeros after"
    fn write(&self, work: &mut [u8]) {
        let facts = self.state.facts();
        let (held, rest) = work.split_at_mut(FACT_BYTES * facts.len());
        for (bytes, fact) in held.chunks_exact_mut(FACT_BYTES).zip(facts) {
            bytes.copy_from_slice(&fact.bytes());
        }
        rest.fill(0);
    }
}
