//! Exactness where nothing lasts, by brute force: over every set of facts of a few objects, and every single event, a template
//! is refused exactly where some instance that weighs at most one weighs two or more after an allowed event. The machine is
//! told once more here, on sets of facts as words.

use generate::domains::tiny;
use generate::plain_judge::{judge, Misjudge};
use generate::rng::Rng;
use model::domain::{Atom, Domain, List, Literal};
use model::verdict::{decide, rows};
use model::{read, Var};

const DOMAINS: u64 = 100_000;
const EVERY: u8 = 0xFF;
/// No more objects than this, and no more facts in all.
const OBJECTS: u8 = 4;
const FACTS: usize = 13;

/// The facts over so many objects, each a bit.
struct Universe {
    objects: u8,
    /// Relation and objects of each fact.
    facts: Vec<(u8, Vec<u8>)>,
}

impl Universe {
    fn new(domain: &Domain, objects: u8) -> Universe {
        let mut facts = Vec::new();
        for (relation, &arity) in domain.relations.iter().enumerate() {
            let mut rows: Vec<Vec<u8>> = vec![Vec::new()];
            for _ in 0..arity {
                rows = rows.iter().flat_map(|row| (0..objects).map(move |o| [&row[..], &[o]].concat())).collect();
            }
            facts.extend(rows.into_iter().map(|row| (relation as u8, row)));
        }
        Universe { objects, facts }
    }

    /// The facts that a literal stands for under a binding.
    fn of(&self, atom: &Atom<Var>, binding: &[u8]) -> u32 {
        let fits = |(relation, objects): &(u8, Vec<u8>)| {
            let alike = |(variable, object): (&Var, &u8)| match variable.0 {
                EVERY => true,
                variable => binding[variable as usize] == *object,
            };
            *relation == atom.relation && atom.args().iter().zip(objects).all(alike)
        };
        self.those(fits)
    }

    fn those(&self, fits: impl Fn(&(u8, Vec<u8>)) -> bool) -> u32 {
        self.facts.iter().enumerate().filter(|(_, fact)| fits(fact)).map(|(bit, _)| 1 << bit).sum()
    }

    /// The facts of each instance that has any.
    fn instances(&self, domain: &Domain) -> Vec<u32> {
        let template = &domain.template;
        let tuple = |(relation, objects): &(u8, Vec<u8>)| -> Option<Vec<u8>> {
            let component = template.components.iter().find(|component| component.relation == *relation)?;
            let keys = component.place_of[..template.n as usize].iter();
            Some(keys.map(|&place| objects[place as usize]).collect())
        };
        let mut tuples: Vec<Vec<u8>> = self.facts.iter().filter_map(tuple).collect();
        tuples.sort();
        tuples.dedup();
        tuples.iter().map(|instance| self.those(|fact| tuple(fact).as_ref() == Some(instance))).collect()
    }

    /// Different objects for so many variables, in every way.
    fn bindings(&self, variables: u8) -> Vec<Vec<u8>> {
        let mut bindings: Vec<Vec<u8>> = vec![Vec::new()];
        for _ in 0..variables {
            let longer = |row: &Vec<u8>| {
                let row = row.clone();
                let others: Vec<u8> = (0..self.objects).filter(|object| !row.contains(object)).collect();
                others.into_iter().map(move |object| [&row[..], &[object]].concat())
            };
            bindings = bindings.iter().flat_map(longer).collect();
        }
        bindings
    }
}

/// Whether some event, allowed in some set of facts, makes an instance of at most one fact weigh two or more.
fn harm(domain: &Domain, objects: u8) -> bool {
    let universe = Universe::new(domain, objects);
    assert!(universe.facts.len() <= FACTS + 4, "too large to try");
    let instances = universe.instances(domain);
    domain.actions.iter().any(|action| {
        universe.bindings(action.variables).iter().any(|binding| {
            let of = |list: List| -> u32 {
                let literals = action.literals.iter().filter(|literal: &&Literal| literal.list == list);
                literals.fold(0, |set, literal| set | universe.of(&literal.atom, binding))
            };
            let [needed, barred, adds, deletes] = [List::True, List::False, List::Add, List::Delete].map(of);
            let touched: Vec<u32> = instances.iter().copied().filter(|instance| instance & adds != 0).collect();
            if needed & barred != 0 || touched.is_empty() {
                return false;
            }
            let free = !(needed | barred) & ((1u32 << universe.facts.len()) - 1);
            // every set of the other facts
            let mut others = free;
            loop {
                let before = needed | others;
                let after = before & !deletes | adds;
                let harmed =
                    |instance: &u32| (before & instance).count_ones() <= 1 && (after & instance).count_ones() >= 2;
                if touched.iter().any(harmed) {
                    return true;
                }
                if others == 0 {
                    return false;
                }
                others = (others - 1) & free;
            }
        })
    })
}

#[test]
fn refused_exactly_where_an_event_does_harm() {
    let (mut refused, mut accepted, mut by_clearing, mut too_large) = ([0u64; 3], 0, [0u64; 2], 0);
    let mut seed = 0;
    while refused.iter().sum::<u64>() + accepted < DOMAINS {
        seed += 1;
        let Ok(domain) = read(&tiny(&mut Rng::new(0xE8AC_0000_0000 + seed)).file()) else { continue };
        // the spare object too
        let objects = domain.actions.iter().map(|action| action.variables + 1).max().unwrap_or(1);
        let facts: usize = domain.relations.iter().map(|&arity| (objects as usize).pow(arity.into())).sum();
        // a few larger ones are tried as well
        if objects > OBJECTS || facts > FACTS + if seed % 64 == 0 { 4 } else { 0 } {
            too_large += 1;
            continue;
        }
        let number = decide(&rows(&domain)).number();
        assert_eq!(harm(&domain, objects), number >= 40, "seed {seed}");
        if number >= 40 {
            refused[number as usize - 40] += 1;
            continue;
        }
        accepted += 1;
        let without = |misread| judge(&domain, Some(misread)).number >= 40;
        let needed = [Misjudge::CountedNeverCovered, Misjudge::BalancedByEquality].map(without);
        by_clearing = [by_clearing[0] + needed[0] as u64, by_clearing[1] + needed[1] as u64];
    }
    println!(
        "{refused:?} refused by 40, 41, 42; {accepted} accepted, of them by clearing alone, bounded and balanced:"
    );
    println!("{by_clearing:?}; {too_large} domains were too large");
    assert!(refused.iter().chain(&by_clearing).all(|&count| count >= 800));
}
