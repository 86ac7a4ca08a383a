//! P10 once more, on sets of facts as lists: a second engine that tries the facts themselves. It can be told to misread a
//! sentence, for tests that must notice it.

use model::domain::{Action, Atom, Domain, Fact, List, Object, Var};

/// A sentence misread.
#[derive(Clone, Copy, PartialEq, Eq, Debug)]
pub enum Mistry {
    /// Only the true conditions are tried, without a further fact.
    NothingFurther,
    /// Sets that weigh two are tried.
    HeavySets,
    /// A step that isn't allowed is made.
    NotAllowed,
    /// Lasting actions are answered too.
    LastingToo,
    /// Two facts of any instance are enough.
    AnyInstance,
    /// What is cleared is only what the event binds.
    BoundObjectsOnly,
}

pub const MISTRIES: [Mistry; 6] = [
    Mistry::NothingFurther,
    Mistry::HeavySets,
    Mistry::NotAllowed,
    Mistry::LastingToo,
    Mistry::AnyInstance,
    Mistry::BoundObjectsOnly,
];

/// Which objects are tried in a counted place.
#[derive(Clone, Copy, PartialEq, Eq, Debug)]
pub enum Counted {
    Every,
    /// The spare one alone, which changes no answer.
    SpareOnly,
}

const EVERY: u8 = 0xFF;

/// The keys of a fact, or of a literal, told by their bytes.
fn keys(domain: &Domain, relation: u8, args: &[u8]) -> Option<Vec<u8>> {
    let component = domain.template.components.iter().find(|component| component.relation == relation)?;
    Some(component.place_of[..domain.template.n as usize].iter().map(|&place| args[place as usize]).collect())
}

fn bytes(atom: &Atom<Var>) -> Vec<u8> {
    atom.args().iter().map(|variable| variable.0).collect()
}

/// Variable i is object i; what a literal clears stands for one fact per object.
fn facts(action: &Action, list: List, objects: u8) -> Vec<Fact> {
    let mut facts = Vec::new();
    for literal in action.literals.iter().filter(|literal| literal.list == list) {
        let args = bytes(&literal.atom);
        let every: Vec<u8> = if args.contains(&EVERY) { (0..objects).collect() } else { vec![EVERY] };
        for object in every {
            let args: Vec<Object> = args.iter().map(|&arg| Object(if arg == EVERY { object } else { arg })).collect();
            facts.push(Atom::new(literal.atom.relation, args.into_iter()));
        }
    }
    facts
}

/// A byte for each class of each action at once.
pub fn answers(domain: &Domain, counted: Counted, misread: Option<Mistry>) -> Vec<u8> {
    let misreads = |which| misread == Some(which);
    let mut answers = Vec::new();
    for action in domain.actions.iter().filter(|action| !action.lasting || misreads(Mistry::LastingToo)) {
        let spare = action.variables;
        let cleared = if misreads(Mistry::BoundObjectsOnly) { spare } else { spare + 1 };
        let [needed, adds] = [List::True, List::Add].map(|list| facts(action, list, spare + 1));
        let [barred, deletes] = [List::False, List::Delete].map(|list| facts(action, list, cleared));
        let mut instances: Vec<Vec<u8>> = Vec::new();
        for literal in &action.literals {
            let instance = keys(domain, literal.atom.relation, &bytes(&literal.atom));
            instances.extend(instance.filter(|instance| !instances.contains(instance)));
        }
        for instance in &instances {
            let of = |fact: &Fact| keys(domain, fact.relation, &fact.args.map(|object| object.0));
            let weight = |set: &[Fact]| set.iter().filter(|fact| of(fact).as_ref() == Some(instance)).count();
            let mut sets = vec![needed.clone()];
            for component in &domain.template.components {
                let objects = match (component.counted, counted) {
                    (None, _) | (_, Counted::SpareOnly) => spare..spare + 1,
                    _ => 0..spare + 1,
                };
                for object in objects {
                    let mut args = vec![Object(object); component.arity as usize];
                    for (key, &object) in instance.iter().enumerate() {
                        args[component.place_of[key] as usize] = Object(object);
                    }
                    let further = Atom::new(component.relation, args.into_iter());
                    if !needed.contains(&further) {
                        sets.push([&needed[..], &[further]].concat());
                    }
                }
            }
            if misreads(Mistry::NothingFurther) {
                sets.truncate(1);
            }
            let harm = sets.iter().any(|set| {
                let allowed = !barred.iter().any(|fact| set.contains(fact)) || misreads(Mistry::NotAllowed);
                let light = weight(set) <= 1 || misreads(Mistry::HeavySets);
                let mut after: Vec<Fact> = set.iter().filter(|fact| !deletes.contains(fact)).copied().collect();
                for fact in &adds {
                    if !after.contains(fact) {
                        after.push(*fact);
                    }
                }
                let two = match misread {
                    Some(Mistry::AnyInstance) => after.iter().any(|fact| {
                        let instance = of(fact);
                        instance.is_some() && after.iter().filter(|other| of(other) == instance).count() >= 2
                    }),
                    _ => weight(&after) >= 2,
                };
                allowed && light && two
            });
            answers.push(harm as u8);
        }
    }
    answers
}
