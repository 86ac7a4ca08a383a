//! Run files for a domain: legal concurrent runs, forbidden steps of every kind, runs near every
//! limit, damaged ones.

use crate::domains::{self, Mood, Plan, PlanAction, Size, FF, MAY_CLEAR};
use crate::records::{damage, encode, junk, near, rec, split, Rec};
use crate::rng::Rng;
use model::domain::{Atom, Domain, Fact, Object};
use model::machine::{binding, Event, Refusal, State};
use model::player::{EVENTS, FACTS, OPEN};

/// A run file while it is written, with the state that playing it so far leaves.
pub struct Script<'d> {
    pub domain: &'d Domain,
    pub objects: u8,
    pub state: State,
    /// The events of the step that isn't closed yet.
    pub events: Vec<Event>,
    pub records: Vec<Rec>,
}

pub fn fact_record(fact: &Fact) -> Rec {
    let mut payload = vec![fact.relation];
    payload.extend(fact.args().iter().map(|object| object.0));
    rec(17, payload)
}

pub fn event_record(domain: &Domain, event: &Event) -> Rec {
    let variables = domain.actions[event.action as usize].variables as usize;
    let mut payload = vec![event.moment, event.action];
    payload.extend(event.binding[..variables].iter().map(|object| object.0));
    rec(18, payload)
}

impl<'d> Script<'d> {
    pub fn new(domain: &'d Domain, objects: u8) -> Script<'d> {
        let records = vec![rec(16, [objects])];
        Script { domain, objects, state: State::default(), events: Vec::new(), records }
    }

    /// A start fact; one held already is repeated in the file.
    pub fn start(&mut self, fact: Fact) {
        self.records.push(fact_record(&fact));
        if !self.state.holds(&fact) {
            self.state.insert(&self.domain.template, fact);
        }
    }

    fn event(&mut self, event: Event) {
        self.records.push(event_record(self.domain, &event));
        self.events.push(event);
    }

    /// Whether the step may have this event too.
    fn allows_also(&self, event: Event) -> bool {
        let mut events = self.events.clone();
        events.push(event);
        !self.events.contains(&event)
            && events.len() <= EVENTS
            && self.state.allows(self.domain, &events).is_ok()
            && self.fits(&events)
    }

    /// Whether an empty step is allowed after the step with this event too.
    fn goes_on(&self, event: Event) -> bool {
        let mut events = self.events.clone();
        events.push(event);
        let mut state = self.state.clone();
        state.advance(&self.domain.template, &self.state.change(self.domain, &events));
        state.allows(self.domain, &[]).is_ok()
    }

    fn fits(&self, events: &[Event]) -> bool {
        let change = self.state.change(self.domain, events);
        let (facts, open) = self.state.sizes_after(&change);
        facts <= FACTS && open <= OPEN
    }

    /// Closes the step; the state goes on if the step is allowed and fits.
    fn close(&mut self) {
        self.records.push(rec(19, []));
        if self.state.allows(self.domain, &self.events).is_ok() && self.fits(&self.events) {
            let change = self.state.change(self.domain, &self.events);
            self.state.advance(&self.domain.template, &change);
        }
        self.events.clear();
    }

    fn close_run(&mut self) {
        self.records.push(rec(20, []));
    }
}

/// Different objects for so many variables, or none if there are too few.
fn different(rng: &mut Rng, variables: u8, objects: u8) -> Option<Vec<u8>> {
    if variables > objects {
        return None;
    }
    let mut all: Vec<u8> = (0..objects).collect();
    rng.shuffle(&mut all);
    all.truncate(variables as usize);
    Some(all)
}

/// Any event with a binding to different objects; an end mostly isn't open.
fn any_event(rng: &mut Rng, script: &Script) -> Option<Event> {
    let actions = &script.domain.actions;
    if actions.is_empty() {
        return None;
    }
    let action = rng.below(actions.len());
    let objects = different(rng, actions[action].variables, script.objects)?;
    let moment = (actions[action].lasting && rng.chance(40)) as u8;
    Some(Event { moment, action: action as u8, binding: binding(&objects) })
}

/// An event that is likely to be allowed: an end of something open, or an action bound so that its
/// true conditions are facts held.
fn likely_event(rng: &mut Rng, script: &Script) -> Option<Event> {
    let actions = &script.domain.actions;
    let open = script.state.open();
    if !open.is_empty() && rng.chance(45) {
        let entry = rng.pick(open);
        return Some(Event { moment: 1, action: entry.action, binding: entry.binding });
    }
    if actions.is_empty() {
        return None;
    }
    let number = rng.below(actions.len());
    let action = &actions[number];
    let spare = different(rng, action.variables, script.objects)?;
    let mut bound: Vec<Option<u8>> = vec![None; action.variables as usize];
    for literal in action.moments[0].trues {
        let atom = action.atom(literal);
        let fitting: Vec<&Fact> = script
            .state
            .facts()
            .iter()
            .filter(|fact| fact.relation == atom.relation && extended(&bound, atom, fact).is_some())
            .collect();
        if !fitting.is_empty() {
            let fact = rng.pick(&fitting);
            if let Some(longer) = extended(&bound, atom, fact) {
                bound = longer;
            }
        }
    }
    let mut unused: Vec<u8> = spare.into_iter().chain(0..script.objects).collect();
    let mut objects = Vec::new();
    for variable in 0..bound.len() {
        let object = match bound[variable] {
            Some(object) => object,
            None => {
                unused.retain(|object| !bound.contains(&Some(*object)) && !objects.contains(object));
                *unused.first()?
            }
        };
        objects.push(object);
    }
    Some(Event { moment: 0, action: number as u8, binding: binding(&objects) })
}

/// The binding, with the atom made this fact, if that can be.
fn extended(bound: &[Option<u8>], atom: &Atom<model::Var>, fact: &Fact) -> Option<Vec<Option<u8>>> {
    let mut bound = bound.to_vec();
    for (variable, object) in atom.args().iter().zip(fact.args()) {
        let place = variable.0 as usize;
        match bound[place] {
            Some(already) if already == object.0 => {}
            Some(_) => return None,
            None if bound.contains(&Some(object.0)) => return None,
            None => bound[place] = Some(object.0),
        }
    }
    Some(bound)
}

fn any_fact(rng: &mut Rng, script: &Script) -> Option<Fact> {
    let relations = &script.domain.relations;
    if relations.is_empty() {
        return None;
    }
    let relation = rng.below(relations.len());
    let arguments: Vec<Object> =
        (0..relations[relation]).map(|_| Object(rng.below(script.objects as usize) as u8)).collect();
    Some(Atom::new(relation as u8, arguments.into_iter()))
}

/// Start facts: random ones, and the true conditions of random events. In most runs no instance
/// weighs more than one.
fn start_facts(rng: &mut Rng, script: &mut Script) {
    let clean = rng.chance(75);
    let wanted = rng.small(0, 16);
    for _ in 0..wanted {
        let mut facts: Vec<Fact> = Vec::new();
        if rng.chance(40) {
            facts.extend(any_fact(rng, script));
        } else if let Some(event) = any_event(rng, script) {
            let action = &script.domain.actions[event.action as usize];
            let bound = |literal| action.atom(literal).bind(|variable| event.binding[variable.0 as usize]);
            facts.extend(action.trues_at[0].map(bound));
            if rng.chance(30) {
                facts.extend(action.trues_at[1].map(bound));
            }
        }
        for fact in facts {
            let template = &script.domain.template;
            let weight = template.tuple(&fact).map_or(0, |instance| script.state.weight(&instance));
            if clean && weight > 0 && !script.state.holds(&fact) {
                continue;
            }
            script.start(fact);
            if rng.chance(8) {
                script.start(fact);
            }
        }
    }
}

/// Steps that are all allowed and fit, so many or fewer.
fn legal_steps(rng: &mut Rng, script: &mut Script, steps: usize) {
    // in most runs the over-all conditions of what is open stay true
    let careful = rng.chance(75);
    for _ in 0..steps {
        // where an over-all condition fails, no step is allowed any more
        if script.state.allows(script.domain, &[]).is_err() {
            return;
        }
        let wanted = match rng.below(10) {
            0 => rng.range(5, 16),
            1 => 0,
            _ => rng.small(1, 6),
        };
        for _ in 0..4 * wanted {
            let event = if rng.chance(80) { likely_event(rng, script) } else { any_event(rng, script) };
            if let Some(event) = event {
                let wanted = script.events.len() < wanted && script.allows_also(event);
                if wanted && (!careful || script.goes_on(event)) {
                    script.event(event);
                }
            }
        }
        script.close();
    }
}

fn step_count(rng: &mut Rng) -> usize {
    let most = if rng.chance(5) { 60 } else { 12 };
    rng.small(0, most).max(rng.below(5))
}

/// A domain to play on, mostly accepted, with lasting actions.
pub fn playground(rng: &mut Rng) -> Plan {
    let mood = rng.pick(&[
        Mood::Accepted0,
        Mood::Accepted0,
        Mood::Accepted1,
        Mood::Accepted1,
        Mood::Accepted1,
        Mood::Bounded43,
        Mood::Unbounded42,
        Mood::Heavy40,
        Mood::Unbalanced41,
        Mood::Anything,
    ]);
    let size = Size { components: 3, others: 2, actions: 6, variables: 4, classes: 2 };
    let mut plan = domains::valid_of(rng, mood, size);
    // An action without conditions now and then, so that more steps are allowed.
    if rng.chance(50) && plan.actions.len() < 64 {
        let mut action = PlanAction::new(rng.range(0, 3) as u8, rng.chance(60));
        for _ in 0..rng.range(1, 3) {
            let relation = rng.below(plan.relations.len()) as u8;
            let arity = plan.relations[relation as usize];
            let component = plan.components.iter().any(|c| c.0 == relation);
            if (component && rng.chance(70)) || (arity > 0 && action.variables == 0) {
                continue;
            }
            let role = if action.lasting { rng.pick(&[2, 3, 4, 5, 8, 9]) } else { rng.pick(&[2, 3]) };
            let arguments = (0..arity).map(|_| rng.below(action.variables as usize) as u8).collect();
            action.push(role, relation, arguments);
        }
        plan.actions.push(action);
    }
    plan
}

fn objects(rng: &mut Rng) -> u8 {
    match rng.below(10) {
        0 => 1,
        1 => 64,
        2 => rng.range(1, 64) as u8,
        _ => rng.range(2, 7) as u8,
    }
}

/// A run in which everything is allowed, closed.
pub fn legal(rng: &mut Rng, domain: &Domain) -> Vec<Rec> {
    let mut script = Script::new(domain, objects(rng));
    start_facts(rng, &mut script);
    let steps = step_count(rng);
    legal_steps(rng, &mut script, steps);
    script.close_run();
    script.records
}

/// A legal run that ends with a fault of some kind, then more records that aren't reached.
pub fn faulty(rng: &mut Rng, domain: &Domain) -> Vec<u8> {
    let mut script = Script::new(domain, objects(rng));
    start_facts(rng, &mut script);
    if rng.chance(12) {
        messy_start_fact(rng, &mut script);
    }
    let steps = step_count(rng);
    legal_steps(rng, &mut script, steps);
    // some events of the step at fault may be allowed
    for _ in 0..rng.small(0, 3) {
        if let Some(event) = likely_event(rng, &script) {
            if script.allows_also(event) {
                script.event(event);
            }
        }
    }
    match rng.below(19) {
        0..=1 => refused_step(rng, &mut script, Refusal::ConditionFails),
        2..=3 | 14..=15 => refused_step(rng, &mut script, Refusal::Interference),
        4..=5 => refused_step(rng, &mut script, Refusal::EndNotOpen),
        // any events at all, so that several faults stand in one step
        6..=7 => {
            for _ in 0..rng.range(1, 6) {
                if let Some(event) = any_event(rng, &script) {
                    if !script.events.contains(&event) {
                        script.event(event);
                    }
                }
            }
        }
        // an event repeated in its step, also as its 17th
        8 => {
            for _ in 0..rng.range(1, 30) {
                if let Some(event) = any_event(rng, &script) {
                    if !script.events.contains(&event) && script.events.len() < EVENTS {
                        script.event(event);
                    }
                }
            }
            if let Some(&event) = script.events.get(rng.below(EVENTS)) {
                script.event(event);
            }
        }
        // the step's 17th event, or no more than 16
        9 => {
            for _ in 0..80 {
                if let Some(event) = any_event(rng, &script) {
                    if !script.events.contains(&event) && script.events.len() <= EVENTS {
                        script.event(event);
                    }
                }
            }
        }
        10..=11 | 16..=17 => messy_event(rng, &mut script),
        // a record out of order, or of unknown kind
        12 => {
            let records = script.records.len();
            let at = rng.below(records + 1);
            let late = match rng.below(4) {
                0 => rec(16, [script.objects]),
                1 => any_fact(rng, &script).map_or(rec(17, []), |fact| fact_record(&fact)),
                2 => rec(rng.pick(&[0, 1, 5, 15, 21, 0x1010, 0x0112]), []),
                _ => rec(rng.pick(&[16, 17, 18, 19, 20]), rng.bytes(1)),
            };
            script.records.insert(at, late);
        }
        // one object bound twice, at times an object out of range too
        13 => {
            let several = |event: &Event| domain.actions[event.action as usize].variables >= 2;
            if let Some(event) = (0..10).find_map(|_| any_event(rng, &script).filter(several)) {
                let mut record = event_record(domain, &event);
                let mut places: Vec<usize> = (2..record.payload.len()).collect();
                rng.shuffle(&mut places);
                if rng.chance(30) {
                    record.payload[rng.pick(&places)] = rng.pick(&[script.objects, 64, 255]);
                }
                record.payload[places[1]] = record.payload[places[0]];
                script.records.push(record);
            }
        }
        // the run closed while events wait
        _ => {
            script.close_run();
        }
    }
    script.records.push(rec(19, []));
    script.close_run();
    let mut file = encode(&script.records);
    match rng.below(20) {
        0 => file.extend(junk(rng)),
        1 => file.truncate(file.len() - rng.range(1, 9).min(file.len())),
        _ => {}
    }
    file
}

/// Events that make the step one that is refused so, if a few tries find them.
fn refused_step(rng: &mut Rng, script: &mut Script, wanted: Refusal) {
    for _ in 0..100 {
        let mut events = script.events.clone();
        for _ in 0..rng.range(1, 4) {
            let event = match (wanted, rng.below(3)) {
                (Refusal::EndNotOpen, 0..=1) | (_, 0) => any_event(rng, script),
                _ => likely_event(rng, script),
            };
            if let Some(event) = event {
                if !events.contains(&event) && events.len() < EVENTS {
                    events.push(event);
                }
            }
        }
        if script.state.allows(script.domain, &events) == Err(wanted) {
            for event in events.split_off(script.events.len()) {
                script.event(event);
            }
            return;
        }
    }
}

/// A byte too many, or more than any relation or action needs.
fn lengthen(rng: &mut Rng, payload: &mut Vec<u8>) {
    let more = if rng.chance(30) { rng.range(16, 300) } else { 1 };
    for _ in 0..more {
        payload.push(near(rng, 0));
    }
}

/// An event record with two faults, so that it shows which comes first.
fn messy_event(rng: &mut Rng, script: &mut Script) {
    let event = if rng.chance(50) { likely_event(rng, script) } else { any_event(rng, script) };
    let mut record = event.map_or(rec(18, [0, 0]), |event| event_record(script.domain, &event));
    let at_once = script.domain.actions.iter().position(|action| !action.lasting);
    for _ in 0..rng.range(1, 2) {
        let payload = &mut record.payload;
        let place = rng.range(2, 17);
        let other = rng.range(2, 17);
        match rng.below(10) {
            0 => payload[0] = rng.pick(&[2, 3, 255]),
            1 => payload[1] = rng.pick(&[script.domain.actions.len() as u8, 64, 255]),
            2 => lengthen(rng, payload),
            3 if payload.len() > 2 => {
                payload.pop();
            }
            4 if rng.chance(40) => {
                record.payload.truncate(rng.below(2));
                break;
            }
            // the end of an action at once, with as many objects as that needs
            5 | 6 => {
                if let Some(action) = at_once {
                    payload[0] = 1;
                    payload[1] = action as u8;
                    let objects = script.domain.actions[action].variables as usize;
                    let some = payload[2..].to_vec();
                    payload.truncate(2);
                    payload.extend(some.into_iter().chain(0..16).take(objects));
                }
            }
            7 if place < payload.len() => payload[place] = rng.pick(&[script.objects, 64, 255]),
            8 | 9 if place < payload.len() && other < payload.len() => payload[place] = payload[other],
            _ => {}
        }
    }
    script.records.push(record);
}

/// A start fact record with two faults, so that it shows which comes first.
fn messy_start_fact(rng: &mut Rng, script: &mut Script) {
    let mut record = any_fact(rng, script).map_or(rec(17, [0]), |fact| fact_record(&fact));
    for _ in 0..rng.range(1, 2) {
        let payload = &mut record.payload;
        let place = rng.range(1, 6);
        match rng.below(5) {
            0 => payload[0] = rng.pick(&[script.domain.relations.len() as u8, 64, 255]),
            1 => lengthen(rng, payload),
            2 if payload.len() > 1 => {
                payload.pop();
            }
            3 if place < payload.len() => payload[place] = rng.pick(&[script.objects, 64, 255]),
            4 if rng.chance(20) => {
                payload.clear();
                break;
            }
            _ => {}
        }
    }
    script.records.push(record);
}

/// A domain and a run near a limit of the player, on either side of it.
pub fn near_limit(rng: &mut Rng) -> (Vec<u8>, Vec<u8>) {
    let mut plan = Plan { relations: vec![2, 2, 1, 0], ..Plan::default() };
    plan.components = match rng.below(3) {
        0 => vec![(1, vec![0, FF])],
        1 => vec![(1, vec![0, FF]), (2, vec![0])],
        _ => vec![(2, vec![FF]), (3, vec![])],
    };
    // 0: adds one fact; 1: deletes one fact; 2: adds six facts; 3: lasts, adds one at its end;
    // 4: moves a fact; 5: lasts, over all without a fact
    let mut once = PlanAction::new(2, false);
    once.push(2, 0, vec![0, 1]);
    let mut delete = PlanAction::new(2, false);
    delete.push(3, 0, vec![0, 1]);
    let mut six = PlanAction::new(3, false);
    for (a, b) in [(0, 1), (0, 2), (1, 0), (1, 2), (2, 0), (2, 1)] {
        six.push(2, 0, vec![a, b]);
    }
    let mut lasts = PlanAction::new(2, true);
    lasts.push(8, 0, vec![0, 1]);
    let mut moves = PlanAction::new(3, false);
    moves.push(0, 0, vec![0, 1]);
    moves.push(3, 0, vec![0, 1]);
    moves.push(2, 0, vec![0, 2]);
    let mut over_all = PlanAction::new(1, true);
    over_all.push(5, 2, vec![0]);
    plan.actions = vec![once, delete, six, lasts, moves, over_all];
    let file = plan.file();
    let Ok(domain) = model::read(&file) else { return (file, Vec::new()) };
    let count = rng.pick(&[64, 64, 64, 40, 33]);
    let mut script = Script::new(&domain, count);
    let over = rng.chance(50) as usize;
    match rng.below(6) {
        // object counts
        0 => {
            let count = rng.pick(&[0, 1, 63, 64, 65, 65, 255]);
            let object = rng.pick(&[0, 62, 63, 64]);
            let records = [rec(16, [count]), rec(17, [2, object]), rec(19, []), rec(20, [])];
            return (file, encode(&records));
        }
        // 1,024 or 1,025 different start facts, some repeated
        1 => {
            many_facts(rng, &mut script, FACTS);
            for _ in 0..rng.below(3) {
                let again = rng.pick(script.state.facts());
                script.start(again);
            }
            if over == 1 {
                while script.state.facts().len() == FACTS {
                    if let Some(fact) = any_fact(rng, &script) {
                        script.start(fact);
                    }
                }
            }
        }
        // 1,024 or 1,025 facts after a step
        2 | 3 => {
            let room = rng.small(0, 20);
            many_facts(rng, &mut script, FACTS - room);
            near_full(rng, &mut script);
        }
        // 32 or 33 open
        4 => {
            let starts = rng.pick(&[3, 3, 5]);
            while script.state.open().len() < OPEN {
                let wanted = rng.range(1, 16).min(OPEN - script.state.open().len());
                while script.events.len() < wanted {
                    let variables = domain.actions[starts as usize].variables;
                    if let Some(objects) = different(rng, variables, count) {
                        let event = Event { moment: 0, action: starts, binding: binding(&objects) };
                        if !script.events.contains(&event) {
                            script.event(event);
                        }
                    }
                }
                script.close();
            }
            for _ in 0..rng.range(1, 3) {
                let mut ended = 0;
                for _ in 0..rng.below(4) {
                    let entry = rng.pick(script.state.open());
                    let event = Event { moment: 1, action: entry.action, binding: entry.binding };
                    if !script.events.contains(&event) {
                        script.event(event);
                        ended += 1;
                    }
                }
                for started in 0..(ended + over).min(12) {
                    let objects = [started as u8, started as u8 + 1];
                    script.event(Event { moment: 0, action: 3, binding: binding(&objects) });
                }
                script.close();
            }
        }
        // 16 or 17 events
        _ => {
            while script.events.len() < 16 + over {
                let action = rng.pick(&[0, 3]);
                if let Some(objects) = different(rng, 2, count) {
                    let event = Event { moment: 0, action, binding: binding(&objects) };
                    if !script.events.contains(&event) {
                        script.event(event);
                    }
                }
            }
            if over == 1 && rng.chance(30) {
                if let Some(last) = script.records.last_mut() {
                    last.payload = near_event(rng, &last.payload);
                }
            }
            script.close();
        }
    }
    if !script.events.is_empty() {
        script.close();
    }
    script.close_run();
    (file, encode(&script.records))
}

fn near_event(rng: &mut Rng, payload: &[u8]) -> Vec<u8> {
    let mut payload = payload.to_vec();
    if payload.len() >= 4 && rng.chance(40) {
        payload[3] = payload[2];
        return payload;
    }
    let place = rng.below(payload.len());
    payload[place] = near(rng, payload[place]);
    payload
}

/// So many different start facts, most of relation 0.
fn many_facts(rng: &mut Rng, script: &mut Script, count: usize) {
    let mut all: Vec<Fact> = Vec::new();
    for a in 0..script.objects {
        for b in 0..script.objects {
            all.push(Atom::new(0, [Object(a), Object(b)].into_iter()));
        }
        if rng.chance(30) {
            all.push(Atom::new(2, [Object(a)].into_iter()));
        }
    }
    rng.shuffle(&mut all);
    for &fact in &all[..count.min(all.len())] {
        script.start(fact);
        if rng.chance(2) {
            let again = rng.pick(script.state.facts());
            script.start(again);
        }
    }
}

/// Steps where nearly as many facts are held as may be.
fn near_full(rng: &mut Rng, script: &mut Script) {
    for _ in 0..rng.range(1, 4) {
        for _ in 0..rng.range(1, 12) {
            let event = if rng.chance(60) { any_event(rng, script) } else { likely_event(rng, script) };
            let Some(event) = event else { continue };
            let mut events = script.events.clone();
            if event.moment == 1 || events.contains(&event) {
                continue;
            }
            events.push(event);
            if script.state.allows(script.domain, &events).is_ok() {
                script.event(event);
            }
        }
        script.close();
    }
}

/// A domain of a few short actions over a few facts, and a run of crowded steps on it, so that every
/// role of one event meets every role of another.
pub fn duel(rng: &mut Rng) -> (Vec<u8>, Vec<u8>) {
    let mut plan = Plan { relations: vec![1, 0, 2], ..Plan::default() };
    plan.components = match rng.below(4) {
        0 => vec![(0, vec![0])],
        1 => vec![(0, vec![FF]), (1, vec![])],
        2 => vec![(2, vec![FF, 0]), (0, vec![0])],
        _ => vec![(2, vec![1, 0])],
    };
    for _ in 0..rng.range(2, 5) {
        let mut action = PlanAction::new(rng.range(0, 2) as u8, rng.chance(65));
        for _ in 0..rng.range(0, 3) {
            let relation = rng.pick(&[0, 0, 1, 2]);
            let arity = plan.relations[relation as usize];
            if arity > 0 && action.variables == 0 {
                continue;
            }
            let role =
                if action.lasting { rng.pick(&[0, 1, 2, 3, 4, 4, 5, 5, 6, 7, 8, 9]) } else { rng.below(4) as u8 };
            let mut arguments: Vec<u8> = (0..arity).map(|_| rng.below(action.variables as usize) as u8).collect();
            let places = plan.clearable(relation);
            if MAY_CLEAR.contains(&role) && !places.is_empty() && rng.chance(25) {
                arguments[rng.pick(&places)] = FF;
            }
            action.push(role, relation, arguments);
        }
        plan.actions.push(action);
    }
    let file = plan.file();
    let Ok(domain) = model::read(&file) else { return (file, Vec::new()) };
    let mut script = Script::new(&domain, rng.range(1, 3) as u8);
    for _ in 0..rng.below(5) {
        if let Some(fact) = any_fact(rng, &script) {
            script.start(fact);
        }
    }
    let refusal =
        rng.pick(&[Refusal::Interference, Refusal::Interference, Refusal::ConditionFails, Refusal::EndNotOpen]);
    let steps = rng.below(5);
    legal_steps(rng, &mut script, steps);
    if rng.chance(80) {
        refused_step(rng, &mut script, refusal);
        script.close();
    }
    script.close_run();
    (file, encode(&script.records))
}

/// Actions that clear a relation of two places now in the one and now in the other, beside actions that name single
/// facts of it, and runs in which they meet: on one template that counts a place, or on another relation's.
pub fn clearings(rng: &mut Rng) -> (Vec<u8>, Vec<u8>) {
    let mut plan = Plan { relations: vec![2, 1, 0], ..Plan::default() };
    plan.components = match rng.below(5) {
        0 => vec![(0, vec![0, FF])],
        1 => vec![(0, vec![FF, 0]), (1, vec![0])],
        2 => vec![(1, vec![FF]), (2, vec![])],
        _ => vec![(2, vec![])],
    };
    for _ in 0..rng.range(2, 5) {
        let mut action = PlanAction::new(rng.range(0, 2) as u8, rng.chance(35));
        for _ in 0..rng.range(1, 2) {
            let relation = rng.pick(&[0, 0, 0, 1]);
            let roles: &[u8] = match (action.lasting, rng.chance(60)) {
                (false, true) => &[1, 3, 3],
                (false, false) => &[0, 1, 2, 2, 3],
                (true, true) => &[1, 3, 5, 7, 9, 9],
                (true, false) => &[0, 2, 4, 5, 6, 8, 8, 9],
            };
            let role = rng.pick(roles);
            let arity = plan.relations[relation as usize] as usize;
            let places = plan.clearable(relation);
            let clears = MAY_CLEAR.contains(&role) && !places.is_empty() && rng.chance(70);
            if (action.variables as usize) < (arity - clears as usize).min(1) {
                continue;
            }
            let variables = action.variables.max(1) as usize;
            let mut arguments: Vec<u8> = (0..arity).map(|_| rng.below(variables) as u8).collect();
            if clears {
                arguments[rng.pick(&places)] = FF;
            }
            action.push(role, relation, arguments);
        }
        plan.actions.push(action);
    }
    let file = plan.file();
    let Ok(domain) = model::read(&file) else { return (file, Vec::new()) };
    let mut script = Script::new(&domain, rng.range(1, 4) as u8);
    for _ in 0..rng.below(9) {
        if let Some(fact) = any_fact(rng, &script) {
            script.start(fact);
        }
    }
    let steps = rng.below(6);
    legal_steps(rng, &mut script, steps);
    if rng.chance(70) {
        let refusal = rng.pick(&[Refusal::Interference, Refusal::Interference, Refusal::ConditionFails]);
        refused_step(rng, &mut script, refusal);
        script.close();
    }
    script.close_run();
    (file, encode(&script.records))
}

/// Jobs that last, each needing entries throughout and at its end adding or striking out entries, and runs in which
/// several of them end together: with an over-all condition that another one's end strikes out, with the same literal
/// over all and at the end, and with what is needed over all gone before.
pub fn jobs(rng: &mut Rng) -> (Vec<u8>, Vec<u8>) {
    let mut plan = Plan { relations: vec![1, 1, 0], ..Plan::default() };
    plan.components = rng
        .pick(&[&[(0, &[0][..])][..], &[(0, &[FF]), (2, &[])], &[(1, &[FF])], &[(0, &[0]), (1, &[0])]])
        .iter()
        .map(|&(relation, labels)| (relation, labels.to_vec()))
        .collect();
    for _ in 0..rng.range(2, 4) {
        let mut action = PlanAction::new(rng.range(1, 2) as u8, true);
        for _ in 0..rng.range(1, 2) {
            let relation = rng.pick(&[0, 0, 1, 2]);
            let arguments: Vec<u8> =
                (0..plan.relations[relation as usize]).map(|_| rng.below(action.variables as usize) as u8).collect();
            let roles: &[u8] =
                rng.pick(&[&[4, 9][..], &[4, 9], &[4], &[4, 6, 9], &[4, 6], &[5, 8], &[5], &[5, 7, 8], &[8], &[9]]);
            for &role in roles {
                action.push(role, relation, arguments.clone());
            }
        }
        plan.actions.push(action);
    }
    let file = plan.file();
    let Ok(domain) = model::read(&file) else { return (file, Vec::new()) };
    let mut script = Script::new(&domain, rng.range(1, 3) as u8);
    let started = |rng: &mut Rng, script: &Script| -> Vec<Event> {
        (0..rng.range(2, 5)).filter_map(|_| any_event(rng, script)).filter(|event| event.moment == 0).collect()
    };
    // most of what the first jobs need throughout is there
    let mut first = started(rng, &script);
    for event in &first {
        let action = &domain.actions[event.action as usize];
        for fact in action.trues_at[1].map(|literal| action.atom(literal).bind(|v| event.binding[v.0 as usize])) {
            if rng.chance(90) {
                script.start(fact);
            }
        }
    }
    for _ in 0..rng.range(1, 3) {
        for event in std::mem::take(&mut first) {
            if !script.events.contains(&event) {
                script.event(event);
            }
        }
        first = started(rng, &script);
        script.close();
        // what is open ends, most of it in one step
        let open = script.state.open().to_vec();
        for entry in open {
            let event = Event { moment: 1, action: entry.action, binding: entry.binding };
            let refused = !script.allows_also(event);
            if script.events.contains(&event) || rng.chance(20) || (refused && rng.chance(80)) {
                continue;
            }
            script.event(event);
        }
        script.close();
    }
    script.close_run();
    (file, encode(&script.records))
}

/// A domain of relations of arity 4 to 6 and actions of 6 to 16 variables, and a run on it, with all six arguments
/// different objects.
pub fn wide(rng: &mut Rng) -> (Vec<u8>, Vec<u8>) {
    let mut plan = Plan { relations: vec![6, 6, 5, 4], ..Plan::default() };
    for relation in 0..rng.range(1, 3) as u8 {
        let mut labels: Vec<u8> = (0..5).collect();
        labels.extend((plan.relations[relation as usize] == 6).then_some(FF));
        rng.shuffle(&mut labels);
        plan.components.push((relation, labels));
    }
    for _ in 0..rng.range(2, 5) {
        let mut action = PlanAction::new(rng.range(6, 16) as u8, rng.chance(60));
        for _ in 0..rng.range(1, 4) {
            let relation = rng.below(plan.relations.len()) as u8;
            let mut arguments: Vec<u8> = (0..action.variables).collect();
            rng.shuffle(&mut arguments);
            arguments.truncate(plan.relations[relation as usize] as usize);
            let roles: &[u8] = match (action.lasting, rng.below(4)) {
                (false, 0) => &[0, 3],
                (false, 1) => &[1],
                (false, _) => &[2],
                (true, 0) => &[0, 3],
                (true, 1) => &[4],
                (true, 2) => &[2, 9],
                (true, _) => &[8],
            };
            for &role in roles {
                action.push(role, relation, arguments.clone());
            }
        }
        plan.actions.push(action);
    }
    let file = plan.file();
    let Ok(domain) = model::read(&file) else { return (file, Vec::new()) };
    let mut script = Script::new(&domain, rng.pick(&[16, 17, 63, 64]));
    start_facts(rng, &mut script);
    let steps = step_count(rng);
    legal_steps(rng, &mut script, steps);
    if rng.chance(30) {
        messy_event(rng, &mut script);
        script.close();
    }
    script.close_run();
    (file, encode(&script.records))
}

/// A template that many facts of one instance match: 16 components without a key, or with one key.
pub fn heavy(rng: &mut Rng) -> (Vec<u8>, Vec<u8>) {
    let keys = rng.below(2) as u8;
    let labels: Vec<u8> = (0..keys).chain([FF]).collect();
    let mut plan = Plan { relations: vec![1 + keys; 16], ..Plan::default() };
    plan.components = (0..16).map(|relation| (relation, labels.clone())).collect();
    let all_variables: Vec<u8> = (0..=keys).collect();
    for _ in 0..4 {
        let mut action = PlanAction::new(1 + keys, rng.chance(30));
        for _ in 0..rng.range(1, 3) {
            let role = if action.lasting { rng.pick(&[2, 3, 8, 9]) } else { rng.pick(&[2, 3]) };
            action.push(role, rng.below(16) as u8, all_variables.clone());
        }
        plan.actions.push(action);
    }
    let file = plan.file();
    let Ok(domain) = model::read(&file) else { return (file, Vec::new()) };
    let mut script = Script::new(&domain, 64);
    // The facts of one instance, all or some of them.
    let mut all: Vec<Fact> = Vec::new();
    for relation in 0..16 {
        for object in 0..64 {
            let objects: &[Object] = if keys == 0 { &[Object(object)] } else { &[Object(7), Object(object)] };
            all.push(Atom::new(relation, objects.iter().copied()));
        }
    }
    rng.shuffle(&mut all);
    let count = rng.pick(&[250, 255, 256, 257, 700, 1_023, 1_024]);
    for &fact in &all[..count] {
        script.start(fact);
    }
    let steps = rng.range(1, 6);
    legal_steps(rng, &mut script, steps);
    script.close_run();
    (file, encode(&script.records))
}

/// Actions of 64 literals and 16 variables, and steps of up to 16 of their events: as many facts as may be come, are
/// looked at and go in one step, or one fact too many comes.
pub fn burst(rng: &mut Rng) -> (Vec<u8>, Vec<u8>) {
    let mut plan = Plan { relations: vec![2, 2], ..Plan::default() };
    plan.components = vec![(0, vec![0, FF])];
    const ADDS: u8 = 0;
    const DELETES: u8 = 1;
    const NEEDS: u8 = 2;
    const TAKES: u8 = 3;
    const LASTS_TAKING: u8 = 4;
    const LASTS_NEEDING: u8 = 5;
    let lists: [(bool, &[u8]); 6] =
        [(false, &[2]), (false, &[3]), (false, &[0]), (false, &[0, 3]), (true, &[3, 8]), (true, &[4])];
    for (lasting, roles) in lists {
        let mut action = PlanAction::new(16, lasting);
        for literal in 0..64 / roles.len() as u8 {
            for &role in roles {
                action.push(role, 0, vec![literal / 8, 8 + literal % 8]);
            }
        }
        plan.actions.push(action);
    }
    let file = plan.file();
    let Ok(domain) = model::read(&file) else { return (file, Vec::new()) };
    let mut script = Script::new(&domain, 64);
    if rng.chance(40) {
        script.start(Atom::new(rng.below(2) as u8, [Object(40), Object(3)].into_iter()));
    }
    // Group e binds 8 of the first 32 objects and 8 of the others, so that no two events share a fact.
    let event = |moment: u8, action: u8, group: usize| {
        let (first, second) = (8 * (group / 4), 32 + 8 * (group % 4));
        let objects: Vec<u8> = (first..first + 8).chain(second..second + 8).map(|object| object as u8).collect();
        Event { moment, action, binding: binding(&objects) }
    };
    let steps: &[(u8, u8)] = match rng.below(4) {
        0 => &[(0, ADDS), (0, NEEDS), (0, DELETES), (0, ADDS), (0, TAKES)],
        1 => &[(0, ADDS), (0, LASTS_NEEDING), (0, NEEDS), (1, LASTS_NEEDING), (0, DELETES)],
        2 => &[(0, ADDS), (0, LASTS_TAKING), (1, LASTS_TAKING), (0, NEEDS), (0, DELETES)],
        _ => &[(0, ADDS), (0, LASTS_NEEDING), (0, LASTS_TAKING), (1, LASTS_TAKING)],
    };
    let most = rng.pick(&[3, 15, 16, 16, 16]);
    for &(moment, action) in steps {
        let mut groups: Vec<usize> = (0..16).collect();
        rng.shuffle(&mut groups);
        for &group in &groups[..most] {
            script.event(event(moment, action, group));
        }
        script.close();
    }
    script.close_run();
    (file, encode(&script.records))
}

/// A run file longer than any domain file, of repeated start facts and empty steps, with a fault behind them or none.
pub fn long(rng: &mut Rng) -> (Vec<u8>, Vec<u8>) {
    let plan = playground(rng);
    let file = plan.file();
    let Ok(domain) = model::read(&file) else { return (file, Vec::new()) };
    let mut script = Script::new(&domain, 5);
    start_facts(rng, &mut script);
    if let (true, Some(&fact)) = (rng.chance(50), script.state.facts().first()) {
        for _ in 0..9_000 {
            script.start(fact);
        }
    }
    let empty = rng.pick(&[16_384, 17_000, 65_536, 66_000]);
    script.records.extend((0..empty).map(|_| rec(19, [])));
    legal_steps(rng, &mut script, 3);
    if rng.chance(60) {
        messy_event(rng, &mut script);
        script.close();
    }
    script.close_run();
    (file, encode(&script.records))
}

/// Random bytes, or random records of a run.
pub fn random(rng: &mut Rng) -> Vec<u8> {
    if rng.chance(30) {
        let length = rng.small(0, 60);
        return rng.bytes(length);
    }
    let mut records = Vec::new();
    if !rng.chance(10) {
        records.push(rec(16, [rng.range(0, 8) as u8]));
    }
    for _ in 0..rng.small(0, 12) {
        let kind = if rng.chance(5) { rng.range(14, 22) } else { rng.range(17, 19) };
        let length = match kind {
            17 => rng.range(1, 3),
            18 => rng.range(2, 5),
            _ => 0,
        };
        records.push(rec(kind as u16, (0..length).map(|_| rng.small(0, 3) as u8).collect::<Vec<u8>>()));
    }
    if !rng.chance(10) {
        records.push(rec(20, []));
    }
    encode(&records)
}

/// Where a run comes from.
#[derive(Clone, Copy, PartialEq, Eq, PartialOrd, Ord, Debug)]
pub enum Origin {
    NearLimit,
    Duel,
    Clearings,
    Jobs,
    Lendings,
    Wide,
    Heavy,
    Burst,
    Long,
    Legal,
    Faulty,
    Damaged,
    Random,
    /// A domain file that is damaged, or not the one that the run was made for.
    OtherDomain,
}

/// A domain file and a run file for it.
pub fn pair(rng: &mut Rng) -> (Origin, Vec<u8>, Vec<u8>) {
    let told = |origin, (domain, run)| (origin, domain, run);
    match rng.below(100) {
        0..=6 => return told(Origin::NearLimit, near_limit(rng)),
        7..=13 => return told(Origin::Duel, duel(rng)),
        14..=16 => return told(Origin::Lendings, lendings(rng)),
        17..=20 => return told(Origin::Clearings, clearings(rng)),
        21..=24 => return told(Origin::Jobs, jobs(rng)),
        25..=28 => return told(Origin::Wide, wide(rng)),
        29 => {
            return match rng.below(20) {
                0 => told(Origin::Long, long(rng)),
                1..=9 => told(Origin::Heavy, heavy(rng)),
                _ => told(Origin::Burst, burst(rng)),
            }
        }
        _ => {}
    }
    let plan = playground(rng);
    let file = plan.file();
    let Ok(domain) = model::read(&file) else { return (Origin::OtherDomain, file, Vec::new()) };
    let (origin, run) = match rng.below(20) {
        0..=6 => (Origin::Legal, encode(&legal(rng, &domain))),
        7..=15 => (Origin::Faulty, faulty(rng, &domain)),
        16..=18 => {
            let records = legal(rng, &domain);
            (Origin::Damaged, damage(rng, &records))
        }
        _ => (Origin::Random, random(rng)),
    };
    match rng.below(100) {
        0..=2 => (Origin::OtherDomain, damage(rng, &plan.records()), run),
        3..=4 => (Origin::OtherDomain, domains::damaged(rng), run),
        5 => (Origin::OtherDomain, domains::near_limit(rng), run),
        _ => (origin, file, run),
    }
}

/// An instance to track in a run: mostly one that the run speaks of, else any; at times of a wrong count or with an object
/// that isn't there.
pub fn instance(rng: &mut Rng, domain_file: &[u8], run: &[u8]) -> Vec<u8> {
    let Ok(domain) = model::read(domain_file) else { return rng.bytes(1) };
    let n = domain.template.n as usize;
    let records = split(run);
    let objects = match records.first().map(|record| (record.kind, &record.payload[..])) {
        Some((16, &[count])) => count.clamp(1, 64) as usize,
        _ => 4,
    };
    let spoken_of: Vec<&Rec> = records.iter().take(200).filter(|record| [17, 18].contains(&record.kind)).collect();
    let mut instance: Vec<u8> = (0..n).map(|_| rng.below(objects) as u8).collect();
    if !spoken_of.is_empty() && rng.chance(85) {
        let record = rng.pick(&spoken_of);
        let named = if record.kind == 17 { of_fact(&domain, &record.payload) } else { of_event(rng, &domain, record) };
        instance = named.unwrap_or(instance);
    }
    match rng.below(40) {
        0 => {
            instance.pop();
        }
        1 => instance.push(rng.below(objects) as u8),
        2 if n > 0 => instance[rng.below(n)] = rng.pick(&[objects as u8, 64, 255]),
        3 if n > 1 => instance[0] = instance[1],
        _ => {}
    }
    instance
}

/// The instance that a start fact matches.
fn of_fact(domain: &Domain, payload: &[u8]) -> Option<Vec<u8>> {
    let (&relation, objects) = payload.split_first()?;
    let component = domain.template.component(relation).filter(|c| c.arity as usize == objects.len())?;
    let places = component.place_of[..domain.template.n as usize].iter();
    Some(places.map(|&place| objects[place as usize]).collect())
}

/// The instance of some class of an event.
fn of_event(rng: &mut Rng, domain: &Domain, record: &Rec) -> Option<Vec<u8>> {
    let action = domain.actions.get(*record.payload.get(1)? as usize)?;
    let classes = model::classes::classes(&domain.template, action);
    if classes.is_empty() {
        return None;
    }
    let tuple = rng.pick(&classes).tuple;
    let variables = tuple[..domain.template.n as usize].iter();
    variables.map(|variable| record.payload.get(2 + variable.0 as usize).copied()).collect()
}

/// Lending: volumes leave their shelves and come back or go out, told by one key or by none, alone or two at a time, so
/// that runs end while journeys are open.
pub fn lendings(rng: &mut Rng) -> (Vec<u8>, Vec<u8>) {
    let mut plan = Plan { relations: vec![2, 2, 1], ..Plan::default() };
    let labels: &[u8] = rng.pick(&[&[0u8, FF] as &[u8], &[0, FF], &[FF, 0], &[0, 1]]);
    plan.components = vec![(0, labels.to_vec()), (1, labels.to_vec())];
    if rng.chance(15) {
        plan.components = vec![(2, vec![FF])];
    }
    for _ in 0..rng.range(1, 3) {
        let mut action = PlanAction::new(rng.range(3, 4) as u8, true);
        for _ in 0..rng.range(1, 2) {
            let mut pair = || -> Vec<u8> { (0..2).map(|_| rng.below(action.variables as usize) as u8).collect() };
            let (from, mut to) = (pair(), pair());
            for (place, label) in labels.iter().enumerate() {
                if *label != FF {
                    to[place] = from[place];
                }
            }
            let (relation, other) = (rng.below(2) as u8, rng.below(2) as u8);
            let single = plan.components[0].0 == 2;
            let (first, from) = if single { (2, from[..1].to_vec()) } else { (relation, from) };
            let (second, to) = if single { (2, to[..1].to_vec()) } else { (other, to) };
            action.push(0, first, from.clone());
            action.push(3, first, from);
            action.push(8, second, to);
        }
        plan.actions.push(action);
    }
    // a volume that comes from nowhere, so that the same journey may begin twice
    if rng.chance(40) {
        let mut action = PlanAction::new(2, false);
        action.push(2, plan.components[0].0, (0..plan.relations[plan.components[0].0 as usize]).collect());
        plan.actions.push(action);
    }
    let file = plan.file();
    let Ok(domain) = model::read(&file) else { return (file, Vec::new()) };
    let mut script = Script::new(&domain, rng.range(3, 6) as u8);
    start_facts(rng, &mut script);
    let steps = rng.range(1, 10);
    legal_steps(rng, &mut script, steps);
    begin_again(rng, &mut script);
    script.close_run();
    (file, encode(&script.records))
}

/// Brings back what an open journey took away, if the last action can, and begins the same journey again.
fn begin_again(rng: &mut Rng, script: &mut Script) {
    let last = script.domain.actions.len() - 1;
    if script.state.open().is_empty() || script.domain.actions[last].lasting {
        return;
    }
    let entry = rng.pick(script.state.open());
    let action = &script.domain.actions[entry.action as usize];
    let taken: Vec<Fact> =
        action.trues_at[0].map(|literal| action.atom(literal).bind(|v| entry.binding[v.0 as usize])).collect();
    let back = taken.iter().map(|fact| {
        let mut objects: Vec<u8> = fact.args().iter().map(|object| object.0).collect();
        if objects.len() == 1 {
            objects.extend((0..script.objects).find(|object| *object != objects[0]));
        }
        Event { moment: 0, action: last as u8, binding: binding(&objects) }
    });
    let back: Vec<Event> = back.filter(|event| event.binding[0] != event.binding[1]).collect();
    let again = Event { moment: 0, action: entry.action, binding: entry.binding };
    for event in back.into_iter().chain([again]) {
        if script.allows_also(event) {
            script.event(event);
            script.close();
        }
    }
}
