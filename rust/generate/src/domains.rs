//! Domain files: valid ones of many shapes, ones near every limit, random bytes, damaged ones.

use crate::records::{damage, encode, junk, near, rec, Rec};
use crate::rng::Rng;
use model::classes::Name;
use model::verdict::{decide, rows};

pub const FF: u8 = 0xFF;

/// A domain file to be written, well-formed or not.
#[derive(Clone, Debug, Default)]
pub struct Plan {
    pub relations: Vec<u8>,
    pub actions: Vec<PlanAction>,
    pub components: Vec<(u8, Vec<u8>)>,
}

#[derive(Clone, Debug, Default)]
pub struct PlanAction {
    pub variables: u8,
    pub lasting: bool,
    /// Role, relation, variables.
    pub literals: Vec<(u8, u8, Vec<u8>)>,
}

impl PlanAction {
    pub fn new(variables: u8, lasting: bool) -> PlanAction {
        PlanAction { variables, lasting, literals: Vec::new() }
    }

    /// Adds a literal, if the file stays well-formed with it.
    pub fn push(&mut self, role: u8, relation: u8, arguments: Vec<u8>) {
        let clash = |other: u8| match (role, other) {
            _ if role == other => true,
            (0, 1) | (1, 0) => true,
            (4 | 6, 5 | 7) | (5 | 7, 4 | 6) => true,
            _ => false,
        };
        let alike = |(a, b): (&u8, &u8)| a == b || *a == FF || *b == FF;
        let meets = |other: &(u8, u8, Vec<u8>)| match other.0 == role {
            true => other.2 == arguments,
            false => other.2.iter().zip(&arguments).all(alike),
        };
        let taken = self.literals.iter().any(|l| l.1 == relation && clash(l.0) && meets(l));
        if self.literals.len() < 64 && !taken {
            self.literals.push((role, relation, arguments));
        }
    }

    fn records(&self) -> Vec<Rec> {
        let mut records = vec![rec(2, [self.variables, self.lasting as u8])];
        for (role, relation, arguments) in &self.literals {
            let mut payload = vec![*role, *relation];
            payload.extend(arguments);
            records.push(rec(3, payload));
        }
        records
    }
}

impl Plan {
    pub fn records(&self) -> Vec<Rec> {
        let mut records: Vec<Rec> = self.relations.iter().map(|&arity| rec(1, [arity])).collect();
        records.extend(self.actions.iter().flat_map(PlanAction::records));
        for (relation, labels) in &self.components {
            let mut payload = vec![*relation];
            payload.extend(labels);
            records.push(rec(4, payload));
        }
        records.push(rec(5, []));
        records
    }

    pub fn file(&self) -> Vec<u8> {
        encode(&self.records())
    }

    /// The places of a relation where a literal may have FF: its component's counted one, or any if it has none.
    pub fn clearable(&self, relation: u8) -> Vec<usize> {
        let places = 0..self.relations[relation as usize] as usize;
        match self.labels(relation) {
            Some(labels) => places.filter(|&place| labels[place] == FF).collect(),
            None => places.collect(),
        }
    }

    fn labels(&self, relation: u8) -> Option<&[u8]> {
        self.components.iter().find(|c| c.0 == relation).map(|c| &c.1[..])
    }

    fn n(&self) -> usize {
        self.components.first().map_or(0, |c| c.1.iter().filter(|&&label| label != FF).count())
    }
}

/// What a valid file is biased towards: a verdict, or none.
#[derive(Clone, Copy, PartialEq, Eq, Debug)]
pub enum Mood {
    Accepted0,
    Accepted1,
    Heavy40,
    Unbalanced41,
    Unbounded42,
    Bounded43,
    Anything,
}

pub const MOODS: [Mood; 7] = [
    Mood::Accepted0,
    Mood::Accepted1,
    Mood::Heavy40,
    Mood::Unbalanced41,
    Mood::Unbounded42,
    Mood::Bounded43,
    Mood::Anything,
];

/// A pattern for the literals of one class at one moment, by the name that it aims at.
#[derive(Clone, Copy, PartialEq, Eq, Debug)]
enum Aim {
    Unreachable,
    Irrelevant,
    Heavy,
    Balanced,
    Unbalanced,
    Bounded,
    Unbounded,
    Nothing,
}

/// How large a valid file may be.
#[derive(Clone, Copy, Debug)]
pub struct Size {
    pub components: usize,
    pub others: usize,
    pub actions: usize,
    pub variables: usize,
    pub classes: usize,
}

pub const SMALL: Size = Size { components: 3, others: 3, actions: 4, variables: 5, classes: 2 };
pub const LARGE: Size = Size { components: 16, others: 48, actions: 64, variables: 16, classes: 8 };

/// A valid file of a random mood and size, or of several faults.
pub fn valid(rng: &mut Rng) -> Plan {
    if rng.chance(8) {
        let order = rng.pick(&FAULT_ORDERS);
        return with_faults(rng, order);
    }
    let mood = rng.pick(&MOODS);
    let size = if rng.chance(6) { LARGE } else { SMALL };
    valid_of(rng, mood, size)
}

/// A valid file of this mood and size; of a few tries the first that has the verdict of the mood.
pub fn valid_of(rng: &mut Rng, mood: Mood, size: Size) -> Plan {
    let verdict = match mood {
        Mood::Accepted0 => 0,
        Mood::Accepted1 => 1,
        Mood::Heavy40 => 40,
        Mood::Unbalanced41 => 41,
        Mood::Unbounded42 => 42,
        Mood::Bounded43 => 43,
        Mood::Anything => return one_of(rng, mood, size),
    };
    let tries = if size.actions > SMALL.actions * 2 { 2 } else { 4 };
    for _ in 1..tries {
        let plan = one_of(rng, mood, size);
        if let Ok(domain) = model::read(&plan.file()) {
            if decide(&rows(&domain)).number() == verdict {
                return plan;
            }
        }
    }
    one_of(rng, mood, size)
}

fn one_of(rng: &mut Rng, mood: Mood, size: Size) -> Plan {
    let mut plan = template(rng, mood, size);
    let count = match mood {
        Mood::Bounded43 => rng.small(2, size.actions),
        _ if rng.chance(3) => 0,
        _ => rng.small(1, size.actions),
    };
    // The moment that the mood asks for comes at a random action; every action before it and, mostly,
    // after it is harmless.
    let special = if count > 0 { rng.below(count) } else { 0 };
    for number in 0..count {
        let mood = match mood {
            Mood::Heavy40 | Mood::Unbalanced41 | Mood::Unbounded42 if number != special && rng.chance(80) => {
                rng.pick(&[Mood::Accepted0, Mood::Accepted1])
            }
            Mood::Bounded43 if number != special => rng.pick(&[Mood::Accepted0, Mood::Accepted1]),
            mood => mood,
        };
        let action = action(rng, &plan, mood, size);
        plan.actions.push(action);
    }
    plan
}

/// Two and three different faults, 40 to 42, in every order.
pub const FAULT_ORDERS: [&[u8]; 12] = [
    &[40, 41],
    &[40, 42],
    &[41, 40],
    &[41, 42],
    &[42, 40],
    &[42, 41],
    &[40, 41, 42],
    &[40, 42, 41],
    &[41, 40, 42],
    &[41, 42, 40],
    &[42, 40, 41],
    &[42, 41, 40],
];

/// The different faults of a file, in the order in which they first occur in its report.
pub fn faults_met(domain: &model::Domain) -> Vec<u8> {
    let mut met = Vec::new();
    for row in rows(domain) {
        let number = match row.name {
            Name::Heavy => 40,
            Name::Unbalanced => 41,
            Name::Unbounded if !row.journeys_end => 42,
            _ => continue,
        };
        if !met.contains(&number) {
            met.push(number);
        }
    }
    met
}

/// A valid file with these different faults, first met in this order, if a few tries find one. They stand in actions of
/// their own, in classes of one action, or at both moments of a class, at times once more, and among harmless ones.
pub fn with_faults(rng: &mut Rng, order: &[u8]) -> Plan {
    let mut plan = Plan::default();
    for _ in 0..40 {
        plan = some_faults(rng, order);
        if model::read(&plan.file()).is_ok_and(|domain| faults_met(&domain) == order) {
            break;
        }
    }
    plan
}

fn some_faults(rng: &mut Rng, order: &[u8]) -> Plan {
    let mood = rng.pick(&[Mood::Unbounded42, Mood::Bounded43]);
    let mut plan = template(rng, mood, SMALL);
    let aim = |fault: u8| match fault {
        40 => Aim::Heavy,
        41 => Aim::Unbalanced,
        _ => Aim::Unbounded,
    };
    let mut faults = order.to_vec();
    if rng.chance(40) {
        faults.push(rng.pick(order));
    }
    let mut left = &faults[..];
    while !left.is_empty() {
        if rng.chance(35) {
            let mood = rng.pick(&[Mood::Accepted0, Mood::Accepted1, Mood::Bounded43]);
            let harmless = action(rng, &plan, mood, SMALL);
            plan.actions.push(harmless);
        }
        let (here, later) = left.split_at(rng.range(1, left.len()));
        left = later;
        let mut action = PlanAction::new(rng.range(2, 6) as u8, rng.chance(50));
        noise(rng, &plan, &mut action);
        let mut tuple: Vec<u8> = Vec::new();
        let mut moment = 1;
        for &fault in here {
            // the end of the same class, or a class of its own
            let next = moment == 0 && rng.chance(50);
            if !next {
                tuple = (0..plan.n()).map(|_| rng.below(action.variables as usize) as u8).collect();
            }
            moment = (action.lasting && (next || rng.chance(40))) as usize;
            moment_of(rng, &plan, &mut action, &tuple, moment == 1, aim(fault));
        }
        plan.actions.push(action);
    }
    plan
}

/// Relations and components; the relations of components stand anywhere among the others.
fn template(rng: &mut Rng, mood: Mood, size: Size) -> Plan {
    let n = match rng.below(10) {
        0 => 0,
        1..=4 => 1,
        5..=6 => 2,
        _ => rng.range(0, 6),
    };
    // Which components have an FF: none (so that moments may be bounded), all, or some.
    let percent = match mood {
        Mood::Bounded43 => rng.pick(&[0, 0, 0, 50, 100]),
        Mood::Accepted0 | Mood::Unbounded42 => rng.pick(&[0, 0, 50, 100]),
        _ => rng.pick(&[0, 50, 100]),
    };
    let least = if mood == Mood::Bounded43 && percent < 100 { 2 } else { 1 };
    let mut relations: Vec<(u8, Option<Vec<u8>>)> = Vec::new();
    for _ in 0..rng.small(least, size.components.max(least)) {
        let mut labels: Vec<u8> = (0..n as u8).collect();
        if n < 6 && rng.chance(percent) {
            labels.push(FF);
        }
        if rng.chance(50) {
            rng.shuffle(&mut labels);
        }
        relations.push((labels.len() as u8, Some(labels)));
    }
    for _ in 0..rng.small(0, size.others) {
        relations.push((rng.small(0, 6) as u8, None));
    }
    rng.shuffle(&mut relations);
    let mut plan = Plan { relations: relations.iter().map(|r| r.0).collect(), ..Plan::default() };
    for (relation, (_, labels)) in relations.iter().enumerate() {
        if let Some(labels) = labels {
            plan.components.push((relation as u8, labels.clone()));
        }
    }
    rng.shuffle(&mut plan.components);
    plan
}

/// A literal's relation and variables.
type PlanAtom = (u8, Vec<u8>);

/// An atom of this component's relation under a key tuple.
fn atom(rng: &mut Rng, plan: &Plan, action: &PlanAction, relation: u8, tuple: &[u8]) -> Option<PlanAtom> {
    let labels = plan.labels(relation)?;
    if !labels.is_empty() && action.variables == 0 {
        return None;
    }
    let mut arguments = Vec::new();
    for &label in labels {
        arguments.push(if label == FF { rng.below(action.variables as usize) as u8 } else { tuple[label as usize] });
    }
    Some((relation, arguments))
}

fn any_atom(rng: &mut Rng, plan: &Plan, action: &PlanAction, tuple: &[u8]) -> Option<PlanAtom> {
    let relation = plan.components[rng.below(plan.components.len())].0;
    atom(rng, plan, action, relation, tuple)
}

/// An atom other than this one, if a few tries find one.
fn other_atom(rng: &mut Rng, plan: &Plan, action: &PlanAction, tuple: &[u8], than: &PlanAtom) -> Option<PlanAtom> {
    (0..8).find_map(|_| any_atom(rng, plan, action, tuple).filter(|found| found != than))
}

fn action(rng: &mut Rng, plan: &Plan, mood: Mood, size: Size) -> PlanAction {
    let variables = match rng.below(20) {
        0 => 0,
        1 => size.variables,
        _ => rng.small(1, size.variables).max(rng.below(3)),
    };
    let lasting = match mood {
        Mood::Accepted1 => rng.chance(80),
        _ => rng.chance(40),
    };
    let mut action = PlanAction::new(variables as u8, lasting);
    if mood == Mood::Anything {
        anything(rng, plan, &mut action);
        return action;
    }
    noise(rng, plan, &mut action);
    let harmless = [Aim::Balanced, Aim::Balanced, Aim::Irrelevant, Aim::Unreachable, Aim::Nothing];
    let bounded = [Aim::Balanced, Aim::Bounded, Aim::Bounded, Aim::Irrelevant, Aim::Unreachable, Aim::Nothing];
    // A component with FF is covered too, by a literal that clears it.
    let uncounted = plan.components.iter().all(|c| !c.1.contains(&FF)) || rng.chance(40);
    let aims: &[Aim] = if mood == Mood::Accepted0 && uncounted { &bounded } else { &harmless };
    let classes = if plan.n() == 0 { 1 } else { rng.small(1, size.classes) };
    let special = rng.below(classes);
    for class in 0..classes {
        let mut any_tuple = || -> Vec<u8> { (0..plan.n()).map(|_| rng.below(variables.max(1)) as u8).collect() };
        let (tuple, other) = (any_tuple(), any_tuple());
        // of this class, or of another one
        if lasting && rng.chance(12) {
            let under = if rng.chance(50) { &tuple } else { &other };
            over_all(rng, plan, &mut action, under);
        }
        if lasting && (mood == Mood::Accepted1 || rng.chance(15)) && (mood != Mood::Accepted0 || uncounted) {
            journey(rng, plan, &mut action, &tuple, mood == Mood::Accepted0);
            continue;
        }
        let aim_of_mood = match mood {
            Mood::Heavy40 => Aim::Heavy,
            Mood::Unbalanced41 => Aim::Unbalanced,
            Mood::Unbounded42 => Aim::Unbounded,
            Mood::Bounded43 => Aim::Bounded,
            _ => rng.pick(aims),
        };
        let chosen_moment = rng.below(1 + lasting as usize);
        for moment in 0..1 + lasting as usize {
            let chosen = class == special && moment == chosen_moment;
            let aim = if chosen { aim_of_mood } else { rng.pick(aims) };
            moment_of(rng, plan, &mut action, &tuple, moment == 1, aim);
        }
    }
    if rng.chance(20) {
        let mut literals = std::mem::take(&mut action.literals);
        rng.shuffle(&mut literals);
        action.literals = literals;
    }
    if rng.chance(5) {
        anything(rng, plan, &mut action);
    }
    action
}

/// A true or false condition, in the roles that it may have at this moment: an end's is its own, or its own and an
/// over-all one, at times only an over-all one, which counts for less.
fn condition(rng: &mut Rng, plan: &Plan, action: &mut PlanAction, end: bool, truth: bool, atom: &PlanAtom) {
    let atom = &if truth { atom.clone() } else { cleared(rng, plan, atom, CLEARING) };
    let role = if truth { 0 } else { 1 };
    let roles: &[u8] = match (end, rng.below(12)) {
        (false, _) => &[0],
        (true, 0) => &[4],
        (true, 1..=2) => &[4, 6],
        (true, 3) => &[6, 4],
        (true, _) => &[6],
    };
    for base in roles {
        action.push(base + role, atom.0, atom.1.clone());
    }
}

fn add(action: &mut PlanAction, end: bool, atom: &PlanAtom) {
    action.push(if end { 8 } else { 2 }, atom.0, atom.1.clone());
}

fn delete(rng: &mut Rng, plan: &Plan, action: &mut PlanAction, end: bool, atom: &PlanAtom) {
    let (relation, arguments) = cleared(rng, plan, atom, CLEARING);
    action.push(if end { 9 } else { 3 }, relation, arguments);
}

/// How many of a hundred false conditions and deletes clear, where they may.
const CLEARING: usize = 15;

/// The atom, in so many of a hundred cases with FF in a place where it may stand.
fn cleared(rng: &mut Rng, plan: &Plan, atom: &PlanAtom, percent: usize) -> PlanAtom {
    let (relation, mut arguments) = atom.clone();
    let places = plan.clearable(relation);
    if !places.is_empty() && rng.chance(percent) {
        arguments[rng.pick(&places)] = FF;
    }
    (relation, arguments)
}

/// Literals of one class at one moment.
fn moment_of(rng: &mut Rng, plan: &Plan, action: &mut PlanAction, tuple: &[u8], end: bool, aim: Aim) {
    let Some(first) = any_atom(rng, plan, action, tuple) else { return };
    let second = other_atom(rng, plan, action, tuple, &first);
    match aim {
        Aim::Nothing => {}
        Aim::Unreachable => {
            condition(rng, plan, action, end, true, &first);
            if let Some(second) = second {
                condition(rng, plan, action, end, true, &second);
                if rng.chance(60) {
                    add(action, end, &second);
                }
            }
            if let (true, Some(third)) = (rng.chance(50), any_atom(rng, plan, action, tuple)) {
                add(action, end, &third);
            }
        }
        Aim::Irrelevant => {
            if rng.chance(60) {
                delete(rng, plan, action, end, &first);
            }
            if rng.chance(60) {
                let truth = rng.chance(50);
                condition(rng, plan, action, end, truth, &second.unwrap_or(first));
            }
        }
        Aim::Heavy => {
            add(action, end, &first);
            if let Some(second) = second {
                add(action, end, &second);
            }
            if let (true, Some(third)) = (rng.chance(50), any_atom(rng, plan, action, tuple)) {
                let truth = rng.chance(60);
                condition(rng, plan, action, end, truth, &third);
                if rng.chance(50) {
                    delete(rng, plan, action, end, &third);
                }
            }
        }
        Aim::Balanced => {
            condition(rng, plan, action, end, true, &first);
            if rng.chance(15) {
                add(action, end, &first);
            } else {
                delete(rng, plan, action, end, &first);
                add(action, end, &second.unwrap_or(first));
            }
        }
        Aim::Unbalanced => {
            if let Some(second) = second {
                condition(rng, plan, action, end, true, &first);
                add(action, end, &second);
                if rng.chance(20) {
                    delete(rng, plan, action, end, &second);
                }
            }
        }
        Aim::Bounded => {
            add(action, end, &first);
            let mut covering: Vec<PlanAtom> = Vec::new();
            for component in &plan.components {
                covering.extend(atom(rng, plan, action, component.0, tuple));
            }
            for atom in covering {
                // a component with FF is covered by clearing alone
                let counted = plan.labels(atom.0).is_some_and(|labels| labels.contains(&FF));
                let atom = cleared(rng, plan, &atom, if counted { 95 } else { 0 });
                match rng.below(3) {
                    _ if atom == first && rng.chance(70) => {}
                    0 => condition(rng, plan, action, end, false, &atom),
                    _ => delete(rng, plan, action, end, &atom),
                }
            }
        }
        Aim::Unbounded => {
            add(action, end, &first);
            if let Some(second) = second {
                if rng.chance(40) {
                    condition(rng, plan, action, end, false, &second);
                }
                if rng.chance(20) {
                    delete(rng, plan, action, end, &second);
                }
            }
        }
    }
}

/// A lasting class that is a journey, its end bounded or, mostly, not; now and then something is
/// missing.
fn journey(rng: &mut Rng, plan: &Plan, action: &mut PlanAction, tuple: &[u8], bounded: bool) {
    let Some(first) = any_atom(rng, plan, action, tuple) else { return };
    condition(rng, plan, action, false, true, &first);
    if !rng.chance(3) {
        delete(rng, plan, action, false, &first);
    }
    if bounded {
        moment_of(rng, plan, action, tuple, true, Aim::Bounded);
        return;
    }
    if let Some(last) = any_atom(rng, plan, action, tuple) {
        add(action, true, &last);
        match rng.below(20) {
            0 => delete(rng, plan, action, true, &last),
            1 => condition(rng, plan, action, true, false, &last),
            2 => action.push(5, first.0, first.1),
            3 => action.push(1, last.0, last.1),
            4 => {
                let last = cleared(rng, plan, &last, 50);
                action.push(3, last.0, last.1);
            }
            // over-all conditions don't unmake a journey, two true ones name its end all the same
            5 => action.push(4, last.0, last.1),
            6..=8 => {
                for _ in 0..rng.range(1, 2) {
                    over_all(rng, plan, action, tuple);
                }
            }
            _ => {}
        }
    }
}

/// An over-all condition under a key tuple.
fn over_all(rng: &mut Rng, plan: &Plan, action: &mut PlanAction, tuple: &[u8]) {
    let role = if rng.chance(60) { 4 } else { 5 };
    if let Some(atom) = any_atom(rng, plan, action, tuple) {
        let (relation, arguments) = cleared(rng, plan, &atom, if role == 5 { 2 * CLEARING } else { 0 });
        action.push(role, relation, arguments);
    }
}

/// Literals of relations without a component.
fn noise(rng: &mut Rng, plan: &Plan, action: &mut PlanAction) {
    for _ in 0..rng.small(0, 3) {
        let relation = rng.below(plan.relations.len());
        if plan.labels(relation as u8).is_none() {
            literal(rng, plan, action, relation as u8);
        }
    }
}

/// Any literals.
fn anything(rng: &mut Rng, plan: &Plan, action: &mut PlanAction) {
    let most = rng.pick(&[4, 12, 30]);
    for _ in 0..rng.range(0, most) {
        let relation = rng.below(plan.relations.len());
        literal(rng, plan, action, relation as u8);
    }
}

fn literal(rng: &mut Rng, plan: &Plan, action: &mut PlanAction, relation: u8) {
    let arity = plan.relations[relation as usize];
    let role = rng.below(if action.lasting { 10 } else { 4 });
    if arity > 0 && action.variables == 0 {
        // without variables only every object can be told
        if arity == 1 && MAY_CLEAR.contains(&(role as u8)) && !plan.clearable(relation).is_empty() {
            action.push(role as u8, relation, vec![FF]);
        }
        return;
    }
    let arguments = (0..arity).map(|_| rng.below(action.variables as usize) as u8).collect();
    let clears = if MAY_CLEAR.contains(&(role as u8)) { 2 * CLEARING } else { 0 };
    let (relation, arguments) = cleared(rng, plan, &(relation, arguments), clears);
    action.push(role as u8, relation, arguments);
}

/// The roles of false conditions and deletes.
pub const MAY_CLEAR: [u8; 5] = [1, 3, 5, 7, 9];

/// A file near a limit, on either side of it.
pub fn near_limit(rng: &mut Rng) -> Vec<u8> {
    let over = rng.chance(50) as usize;
    let mood = rng.pick(&MOODS);
    let mut plan = valid_of(rng, mood, SMALL);
    match rng.below(15) {
        // 64 or 65 relations
        0 => {
            while plan.relations.len() < 64 + over {
                plan.relations.push(rng.below(7) as u8);
            }
        }
        // 64 or 65 actions
        1 => {
            while plan.actions.len() < 64 + over {
                let action = action(rng, &plan, Mood::Accepted0, SMALL);
                plan.actions.push(action);
            }
        }
        // 64 or 65 literals
        2 => {
            let mut many = many_literals(rng);
            if over == 1 {
                let action = rng.below(many.actions.len());
                let last = (2, many.relations.len() as u8 - 1, vec![15, 15]);
                many.actions[action].literals.push(last);
            }
            plan = many;
        }
        // 16 or 17 components
        3 => plan = many_components(rng, 16 + over),
        // arity 6 or 7
        4 => {
            let relation = rng.below(plan.relations.len());
            plan.relations[relation] = 6 + over as u8;
        }
        // 16 or 17 variables
        5 => {
            let action = PlanAction::new(16 + over as u8, rng.chance(50));
            plan.actions.push(action);
        }
        // sort 1 or 2, and further
        6 => {
            let mut records = plan.records();
            let sort = if over == 1 { rng.range(2, 255) as u8 } else { 1 };
            let variables = rng.pick(&[0, 1, 16, 17]);
            let at = records.iter().position(|r| r.kind > 1).unwrap_or(0);
            records.insert(at, rec(2, [variables, sort]));
            return encode(&records);
        }
        // 65,535 or 65,536 bytes: bytes behind the closing record, or one huge record
        7 | 8 => {
            let mut file = if rng.chance(50) {
                plan.file()
            } else {
                let mut records = plan.records();
                let at = rng.below(records.len());
                records.insert(at, rec(rng.pick(&[1, 2, 3, 4, 5]), vec![0; 60_000]));
                encode(&records)
            };
            file.resize(65_535 + over * rng.pick(&[1, 1, 2, 1_000]), 0);
            return file;
        }
        // the last variable, relation, role, key, or one beyond
        9 | 10 => {
            let mut action = PlanAction::new(rng.range(1, 16) as u8, true);
            let relation = rng.below(plan.relations.len());
            let mut arguments = vec![action.variables - 1; plan.relations[relation] as usize];
            let mut role = 9;
            let mut named = relation;
            if over == 1 {
                match rng.below(3) {
                    0 => role = 10,
                    1 => named = plan.relations.len(),
                    _ => {
                        if let Some(last) = arguments.last_mut() {
                            *last += 1;
                        }
                    }
                }
            }
            action.literals.push((role, named as u8, arguments));
            plan.actions.push(action);
        }
        // a role that needs a lasting action
        11 => {
            let relation = rng.below(plan.relations.len());
            let mut action = PlanAction::new(6, over == 0);
            let arguments = (0..plan.relations[relation]).collect();
            action.literals.push((rng.range(4, 9) as u8, relation as u8, arguments));
            plan.actions.push(action);
        }
        // as many rows as there may be: 8,192
        12 => {
            plan = many_rows(rng);
        }
        // as many facts in a witness as there may be
        13 => plan = long_witness(rng),
        // keys 0 to 5
        _ => {
            let mut labels: Vec<u8> = (0..6).collect();
            rng.shuffle(&mut labels);
            if over == 1 {
                let place = rng.below(6);
                labels[place] = rng.pick(&[0, 5, 6, 7, 0xFE, FF]);
            }
            plan.relations.push(6);
            plan.components = vec![(plan.relations.len() as u8 - 1, labels)];
            plan.actions.clear();
            let mut action = PlanAction::new(6, false);
            action.push(rng.below(4) as u8, plan.components[0].0, vec![5, 4, 3, 2, 1, 0]);
            plan.actions.push(action);
        }
    }
    let mut records = plan.records();
    if rng.chance(25) {
        // a record out of order, perhaps over a limit too
        let record = records[rng.below(records.len())].clone();
        let later = records.iter().rposition(|r| r.kind < 5).unwrap_or(0);
        records.insert(later + rng.below(2), record);
    }
    if rng.chance(15) {
        damage(rng, &records)
    } else {
        encode(&records)
    }
}

/// Actions with 64 literals each.
fn many_literals(rng: &mut Rng) -> Plan {
    let mut plan = Plan { relations: vec![2, 2, 2], ..Plan::default() };
    plan.components = vec![(0, vec![0, FF]), (2, vec![FF, 0])];
    for _ in 0..rng.range(1, 3) {
        let mut action = PlanAction::new(16, true);
        while action.literals.len() < 64 {
            let arguments = vec![rng.below(15) as u8, rng.below(15) as u8];
            action.push(rng.below(10) as u8, rng.below(3) as u8, arguments);
        }
        plan.actions.push(action);
    }
    plan
}

fn many_components(rng: &mut Rng, count: usize) -> Plan {
    let n = rng.range(0, 2) as u8;
    let mut plan = Plan { relations: vec![n; count + 2], ..Plan::default() };
    let mut action = PlanAction::new(3, false);
    for relation in 0..count as u8 {
        let mut labels: Vec<u8> = (0..n).collect();
        rng.shuffle(&mut labels);
        plan.components.push((relation, labels));
        let arguments = (0..n).collect();
        let role = if relation == 0 { 2 } else { rng.pick(&[1, 3]) };
        if !rng.chance(3) {
            action.push(role, relation, arguments);
        }
    }
    rng.shuffle(&mut plan.components);
    plan.actions.push(action);
    plan
}

/// 64 lasting actions with 64 classes each, of harmless moments or of any.
fn many_rows(rng: &mut Rng) -> Plan {
    let roles: &[u8] = rng.pick(&[&[0u8, 1, 3, 4, 5, 6, 7, 9] as &[u8], &[0, 1, 2, 3, 4, 5, 6, 7, 8, 9]]);
    let mut plan = Plan { relations: vec![2], ..Plan::default() };
    plan.components = vec![(0, vec![1, 0])];
    for _ in 0..64 {
        let mut action = PlanAction::new(16, true);
        let mut pairs: Vec<(u8, u8)> = (0..16).flat_map(|a| (0..16).map(move |b| (a, b))).collect();
        rng.shuffle(&mut pairs);
        for (a, b) in pairs.into_iter().take(64) {
            action.push(rng.pick(roles), 0, vec![a, b]);
        }
        plan.actions.push(action);
    }
    plan
}

/// A refused class in an action with as many true conditions as it may have.
fn long_witness(rng: &mut Rng) -> Plan {
    let mut plan = Plan { relations: vec![2, 2], ..Plan::default() };
    plan.components = vec![(0, vec![0, FF])];
    let lasting = rng.chance(50);
    let mut action = PlanAction::new(rng.range(9, 16) as u8, lasting);
    let end = lasting && rng.chance(70);
    let adds = rng.range(1, 2);
    for add in 0..adds {
        action.push(if end { 8 } else { 2 }, 0, vec![0, add as u8]);
    }
    if adds == 1 && rng.chance(40) {
        action.push(if end { 4 } else { 0 }, 0, vec![0, 2]);
    }
    let target = rng.range(60, 64);
    while action.literals.len() < target {
        let arguments = vec![rng.range(1, 8) as u8, rng.below(9) as u8];
        let role = if end { rng.pick(&[4, 6]) } else { 0 };
        action.push(role, rng.below(2) as u8, arguments);
    }
    if rng.chance(50) {
        rng.shuffle(&mut action.literals);
    }
    plan.actions.push(action);
    plan
}

/// Random bytes, or random records.
pub fn random(rng: &mut Rng) -> Vec<u8> {
    match rng.below(4) {
        0 => {
            let length = rng.small(0, 300);
            rng.bytes(length)
        }
        1 => {
            // small numbers only, so that heads are often sensible
            let length = rng.small(0, 120);
            (0..length).map(|_| rng.small(0, 6) as u8).collect()
        }
        _ => {
            let mut records = Vec::new();
            let mut kind = 1;
            for _ in 0..rng.small(0, 24) {
                if rng.chance(25) {
                    kind = (kind + 1).min(5);
                }
                if rng.chance(4) {
                    kind = rng.range(0, 6);
                }
                let length = match kind {
                    1 => 1,
                    2 => 2,
                    3 => rng.range(2, 5),
                    4 => rng.range(1, 4),
                    _ => 0,
                };
                let length = if rng.chance(3) { rng.below(8) } else { length };
                records.push(rec(kind as u16, (0..length).map(|_| rng.small(0, 3) as u8).collect::<Vec<u8>>()));
            }
            if rng.chance(60) {
                records.push(rec(5, []));
            }
            encode(&records)
        }
    }
}

/// A valid file damaged anyhow, or so that it stops with a number from 10 to 27.
pub fn damaged(rng: &mut Rng) -> Vec<u8> {
    let plan = valid(rng);
    if rng.chance(50) {
        return damage(rng, &plan.records());
    }
    let number = rng.range(10, 27) as u8;
    damaged_for(rng, plan, number)
}

/// A valid file damaged so that it mostly stops with this number, or with another number that comes
/// before it at the same record.
pub fn damaged_for(rng: &mut Rng, mut plan: Plan, number: u8) -> Vec<u8> {
    let with_literal: Vec<usize> =
        (0..plan.actions.len()).filter(|&action| !plan.actions[action].literals.is_empty()).collect();
    let mut records = plan.records();
    match number {
        10 => {
            let mut file = plan.file();
            let cut = if rng.chance(40) { file.len() - rng.range(1, 4) } else { rng.below(file.len()) };
            file.truncate(cut);
            return file;
        }
        11 => {
            let at = rng.below(records.len());
            records[at].kind = rng.pick(&[0, 6, 16, 20, 0x0101, 0x0500, 0xFFFF]);
        }
        12 => {
            let at = rng.below(records.len());
            if rng.chance(50) || records[at].payload.is_empty() {
                let more = junk(rng);
                records[at].payload.extend(more);
            } else {
                let length = rng.below(records[at].payload.len());
                records[at].payload.truncate(length);
            }
        }
        13 => {
            let at = rng.below(records.len());
            if rng.chance(40) {
                let mut file = plan.file();
                let more = if rng.chance(50) { junk(rng) } else { encode(&records[at..]) };
                file.extend(more);
                return file;
            }
            let record = records.remove(at);
            let to = rng.below(records.len() + 1);
            records.insert(to, record);
        }
        14 => {
            // repeat records of one kind until there are too many
            let at = rng.below(records.len());
            let copy = records[at].clone();
            for _ in 0..65 {
                let mut copy = copy.clone();
                if copy.kind == 3 {
                    for byte in copy.payload.iter_mut().skip(2) {
                        *byte = rng.below(8) as u8;
                    }
                }
                records.insert(at, copy);
            }
        }
        15 => {
            let at = rng.below(records.len());
            if records[at].kind <= 2 {
                let place = rng.below(records[at].payload.len());
                records[at].payload[place] = rng.pick(&[2, 7, 17, 128, 255]);
            } else {
                let kind = rng.range(1, 2) as u16;
                let payload = if kind == 1 { vec![7] } else { vec![17, 2] };
                records.insert(0, rec(kind, payload));
            }
        }
        // a literal with two faults, so that it shows which comes first
        16..=18 | 26 => {
            if with_literal.is_empty() {
                plan.actions.push(PlanAction { variables: 2, lasting: rng.chance(50), literals: vec![(2, 0, vec![])] });
                records = plan.records();
            }
            let literals: Vec<usize> = (0..records.len()).filter(|&at| records[at].kind == 3).collect();
            let at = rng.pick(&literals);
            let second = rng.pick(&[16, 17, 18, 18, 19, 20, 21, 26]);
            for fault in [number, second] {
                let payload = &mut records[at].payload;
                if payload.len() < 2 {
                    break;
                }
                match fault {
                    16 => payload[0] = rng.pick(&[4, 5, 6, 7, 8, 9, 10, 10, 11, 255]),
                    17 => payload[1] = rng.pick(&[plan.relations.len() as u8, 64, 255]),
                    18 => {
                        let place = rng.range(2, payload.len());
                        if place < payload.len() {
                            payload[place] = rng.pick(&[16, 17, 64, 254]);
                        }
                    }
                    // FF once or twice, in any role
                    26 => {
                        for _ in 0..rng.range(1, 2) {
                            let place = rng.range(2, payload.len());
                            if place < payload.len() {
                                payload[place] = FF;
                            }
                        }
                        if rng.chance(50) {
                            payload[0] = rng.below(10) as u8;
                        }
                    }
                    19 => payload.push(rng.below(20) as u8),
                    20 => {
                        payload.pop();
                    }
                    _ => {}
                }
            }
        }
        19 | 20 => {
            if let Some(&action) = with_literal.first() {
                let action = if rng.chance(50) { action } else { rng.pick(&with_literal) };
                let literals = &mut plan.actions[action].literals;
                if number == 20 && rng.chance(70) {
                    // a condition, if there is one, comes to where it is picked
                    if let Some(condition) = literals.iter().position(|l| [0, 1, 4, 5, 6, 7].contains(&l.0)) {
                        literals.truncate(condition + 1);
                        literals.drain(..condition);
                    }
                }
                let (role, relation, arguments) = literals[rng.below(literals.len())].clone();
                let role = match (number, role) {
                    (19, role) => role,
                    (_, 0) => 1,
                    (_, 1) => 0,
                    (_, 4 | 6) => rng.pick(&[5, 7]),
                    (_, 5 | 7) => rng.pick(&[4, 6]),
                    (_, role) => role ^ 1,
                };
                let to = rng.below(literals.len() + 1);
                literals.insert(to, (role, relation, arguments));
            }
            records = plan.records();
        }
        21 | 22 | 24 | 25 | 27 => {
            let at = rng.below(plan.components.len());
            if number == 27 {
                clears_a_key(rng, &mut plan, at);
            }
            if number == 22 {
                let copy = plan.components[at].clone();
                let to = rng.below(plan.components.len() + 1);
                plan.components.insert(to, copy);
            }
            // one label, and at times a second, so that it shows which comes first
            for fault in [number, rng.pick(&[0, 0, 0, 0, 21, 24, 25])] {
                label_fault(rng, &mut plan, at, fault);
            }
            // a second fault, so that it shows which comes first
            let at = rng.below(plan.components.len());
            match rng.below(10) {
                0 => plan.components[at].0 = plan.relations.len() as u8,
                1 => plan.components[at].1.push(rng.pick(&[0, 1, FF])),
                2 => {
                    plan.components[at].1.pop();
                }
                _ => {}
            }
            records = plan.records();
        }
        _ => {
            plan.components.clear();
            records = plan.records();
            if rng.chance(20) {
                if let Some(last) = records.last_mut() {
                    last.payload = junk(rng);
                }
            }
            if rng.chance(20) {
                let mut file = encode(&records);
                file.extend(junk(rng));
                return file;
            }
        }
    }
    encode(&records)
}

/// A literal of some action that has FF where this component has a key.
fn clears_a_key(rng: &mut Rng, plan: &mut Plan, at: usize) {
    let (relation, labels) = plan.components[at].clone();
    let keys: Vec<usize> = (0..labels.len()).filter(|&place| labels[place] != FF).collect();
    if keys.is_empty() {
        return;
    }
    if plan.actions.is_empty() {
        plan.actions.push(PlanAction::new(2, rng.chance(50)));
    }
    let number = rng.below(plan.actions.len());
    let action = &mut plan.actions[number];
    if action.variables == 0 {
        return;
    }
    let mut arguments: Vec<u8> = labels.iter().map(|_| rng.below(action.variables as usize) as u8).collect();
    arguments[rng.pick(&keys)] = FF;
    action.push(if action.lasting { rng.pick(&MAY_CLEAR) } else { rng.pick(&[1, 3]) }, relation, arguments);
}

/// Changes a label of a component, so that it mostly stops with this number: 25 another FF, 24 a key that stands twice,
/// 21 a key that isn't below n, or one that is missing.
fn label_fault(rng: &mut Rng, plan: &mut Plan, at: usize, number: u8) {
    let n = plan.n() as u8;
    let labels = &mut plan.components[at].1;
    if labels.is_empty() {
        return;
    }
    let (place, other) = (rng.below(labels.len()), rng.below(labels.len()));
    labels[place] = match number {
        25 => FF,
        24 => labels[other],
        21 => match rng.below(4) {
            0 => n,
            1 => FF,
            2 => rng.pick(&[n.saturating_add(1), 6, 0x80, 0xFE]),
            _ => near(rng, labels[place]),
        },
        _ => return,
    };
    if number == 25 && rng.chance(70) {
        labels[other] = FF;
    }
}

/// A file whose only fault, if it has one, is the labels of its last component.
pub struct Labelled {
    pub file: Vec<u8>,
    /// The labels of the component before it, if there is one, and its own.
    pub first: Option<Vec<u8>>,
    pub labels: Vec<u8>,
    /// The place that a literal of its relation clears, if there is one.
    pub cleared: Option<usize>,
    /// The offset of its record.
    pub record: usize,
}

/// Every row of up to four labels out of 0, 1, 2, 3 and FF, as first component and behind right ones of up to three
/// keys, with and without FF. (It takes four to have two FF and a key that stands twice.) Those of up to three also
/// with an action that clears any place of their relation.
pub fn all_labels() -> Vec<Labelled> {
    let mut rows: Vec<Vec<u8>> = vec![Vec::new()];
    for shorter in 0..1 + 5 + 25 + 125 {
        let longer = [0, 1, 2, 3, FF].map(|label| [&rows[shorter][..], &[label]].concat());
        rows.extend(longer);
    }
    let mut before: Vec<Option<Vec<u8>>> = vec![None];
    for n in 0..=3 {
        let keys: Vec<u8> = (0..n).collect();
        before.extend([Some([&[FF], &keys[..]].concat()), Some(keys)]);
    }
    let mut files = Vec::new();
    for first in &before {
        for labels in &rows {
            let places = if labels.len() <= 3 { labels.len() } else { 0 };
            for cleared in [None].into_iter().chain((0..places).map(Some)) {
                let all: Vec<&Vec<u8>> = first.iter().chain([labels]).collect();
                let mut plan =
                    Plan { relations: all.iter().map(|labels| labels.len() as u8).collect(), ..Plan::default() };
                plan.components = all.iter().enumerate().map(|(at, labels)| (at as u8, labels.to_vec())).collect();
                if let Some(cleared) = cleared {
                    let mut arguments = vec![0; labels.len()];
                    arguments[cleared] = FF;
                    let mut action = PlanAction::new(1, true);
                    action.push(MAY_CLEAR[files.len() % MAY_CLEAR.len()], all.len() as u8 - 1, arguments);
                    plan.actions.push(action);
                }
                let records = plan.records();
                let record = encode(&records[..records.len() - 2]).len();
                files.push(Labelled {
                    file: plan.file(),
                    first: first.clone(),
                    labels: labels.clone(),
                    cleared,
                    record,
                });
            }
        }
    }
    files
}

/// A file whose only fault, if it has one, is the last literal of an action of two variables.
pub struct Literate {
    pub file: Vec<u8>,
    pub lasting: bool,
    /// Role and arguments of the literal before it, if there is one, and its own; all are of relation 0, of arity 2.
    pub earlier: Option<(u8, [u8; 2])>,
    pub literal: (u8, [u8; 2]),
    /// The offset of its record.
    pub record: usize,
}

/// Every literal of two arguments out of 0, 1, FF and one that is no variable, in every role and one that isn't one, of
/// an action at once and of a lasting one; alone, and behind every right literal.
pub fn all_literals() -> Vec<Literate> {
    let pairs =
        |from: &[u8]| -> Vec<[u8; 2]> { from.iter().flat_map(|&a| from.iter().map(move |&b| [a, b])).collect() };
    let mut files = Vec::new();
    for lasting in [false, true] {
        let roles = if lasting { 10 } else { 4 };
        let mut before: Vec<Option<(u8, [u8; 2])>> = vec![None];
        for role in 0..roles {
            let all = if MAY_CLEAR.contains(&role) { pairs(&[0, 1, FF]) } else { pairs(&[0, 1]) };
            before.extend(all.into_iter().filter(|arguments| *arguments != [FF; 2]).map(|args| Some((role, args))));
        }
        for &earlier in &before {
            for role in 0..=roles {
                for arguments in pairs(&[0, 1, 2, FF]) {
                    let literals: Vec<(u8, u8, Vec<u8>)> =
                        earlier.iter().chain([&(role, arguments)]).map(|l| (l.0, 0, l.1.to_vec())).collect();
                    let plan = Plan {
                        relations: vec![2, 0],
                        actions: vec![PlanAction { variables: 2, lasting, literals }],
                        components: vec![(1, Vec::new())],
                    };
                    let records = plan.records();
                    let record = encode(&records[..records.len() - 3]).len();
                    files.push(Literate { file: plan.file(), lasting, earlier, literal: (role, arguments), record });
                }
            }
        }
    }
    files
}

/// A domain of actions at once that is small enough to try every set of facts: relations of up to two places, up to
/// three variables, a few literals, many of them clearing.
pub fn tiny(rng: &mut Rng) -> Plan {
    let n = rng.pick(&[0, 0, 1, 1, 1, 1, 1, 2]);
    let mut plan = Plan::default();
    for _ in 0..rng.range(1, 2) {
        let mut labels: Vec<u8> = (0..n).collect();
        if n < 2 && rng.chance(85) {
            labels.insert(rng.below(labels.len() + 1), FF);
        }
        plan.components.push((plan.relations.len() as u8, labels.clone()));
        plan.relations.push(labels.len() as u8);
    }
    if rng.chance(20) {
        plan.relations.push(rng.below(2) as u8);
    }
    let most = if plan.relations.contains(&2) { 2 } else { 3 };
    for _ in 0..rng.pick(&[1, 1, 2]) {
        let mut action = PlanAction::new(rng.range(0, most) as u8, false);
        // a key is mostly variable 0, so that classes have several literals
        let keys: Vec<u8> = (0..n).map(|_| if rng.chance(70) { 0 } else { rng.below(2) as u8 }).collect();
        for number in 0..rng.range(2, 5) {
            let relation = rng.below(plan.relations.len()) as u8;
            let arity = plan.relations[relation as usize];
            let role = if number == 0 && rng.chance(80) { 2 } else { rng.pick(&[0, 0, 1, 2, 3, 3]) };
            if arity > 0 && action.variables == 0 {
                literal(rng, &plan, &mut action, relation);
                continue;
            }
            let labels = plan.labels(relation).unwrap_or(&[]);
            let argument = |place: usize| match labels.get(place) {
                Some(&key) if key != FF && rng.chance(85) => keys[key as usize].min(action.variables - 1),
                _ => rng.below(action.variables as usize) as u8,
            };
            let arguments = (0..arity as usize).map(argument).collect();
            let clears = if MAY_CLEAR.contains(&role) { 40 } else { 0 };
            let (relation, arguments) = cleared(rng, &plan, &(relation, arguments), clears);
            action.push(role, relation, arguments);
        }
        plan.actions.push(action);
    }
    plan
}
