//! The sentences of the paper about classes and verdicts once more, as plainly as can be: a second judge, for domains
//! that were read. It can be told to misread a sentence, for tests that must notice it.

use model::domain::{Action, Atom, Component, Domain, Fact, List, Literal, Object, Var, When};

/// A sentence misread.
#[derive(Clone, Copy, PartialEq, Eq, Debug)]
pub enum Misjudge {
    /// Over-all conditions don't count towards unreachable.
    OverAllUncounted,
    /// A literal over all and at the end counts twice towards unreachable.
    CountedTwice,
    /// A true over-all condition counts for balanced and unbalanced.
    OverAllBalances,
    /// A false over-all condition covers its component.
    OverAllCovers,
    /// A true over-all condition of the class unmakes a journey.
    OverAllUnmakesJourney,
    /// A witness is written although the class has an over-all literal.
    WitnessAlways,
    /// A true over-all literal alone suppresses the witness.
    SuppressedByTrue,
    /// An over-all literal of any class suppresses the witness.
    SuppressedByAny,
    /// An over-all literal of the class suppresses the witness of its start too.
    SuppressedAtStart,
    /// The witness of an end has its own true conditions only.
    OwnWitness,
    /// Bounded is tested by the relations named anywhere in the class.
    CoveredByOtherMoment,
    /// An end is excused by any start that is harmless.
    AnyStartExcuses,
    /// Classes are told by relation alone.
    ByRelation,
    /// Bounded moments are accepted beside an unbounded journey's end.
    BoundedAccepted,
    /// A delete that clears the true condition doesn't count for balanced, or for journeys.
    BalancedByEquality,
    JourneyByEquality,
    /// A component with FF is never covered, or by any literal of its relation.
    CountedNeverCovered,
    CountedByAnyName,
    /// The earliest fault is named, whatever its number.
    EarliestFault,
    /// Of one number the last place is named.
    LastPlace,
    /// 43 is looked for beside a 42.
    BoundedBeside,
    /// The witness is that of the earliest fault.
    EarliestWitness,
}

pub const MISJUDGEMENTS: [Misjudge; 22] = [
    Misjudge::OverAllUncounted,
    Misjudge::CountedTwice,
    Misjudge::OverAllBalances,
    Misjudge::OverAllCovers,
    Misjudge::OverAllUnmakesJourney,
    Misjudge::WitnessAlways,
    Misjudge::SuppressedByTrue,
    Misjudge::SuppressedByAny,
    Misjudge::SuppressedAtStart,
    Misjudge::OwnWitness,
    Misjudge::CoveredByOtherMoment,
    Misjudge::AnyStartExcuses,
    Misjudge::ByRelation,
    Misjudge::BoundedAccepted,
    Misjudge::BalancedByEquality,
    Misjudge::JourneyByEquality,
    Misjudge::CountedNeverCovered,
    Misjudge::CountedByAnyName,
    Misjudge::EarliestFault,
    Misjudge::LastPlace,
    Misjudge::BoundedBeside,
    Misjudge::EarliestWitness,
];

const UNREACHABLE: u8 = 1;
const IRRELEVANT: u8 = 2;
const HEAVY: u8 = 3;
const BALANCED: u8 = 4;
const UNBALANCED: u8 = 5;
const BOUNDED: u8 = 6;
const UNBOUNDED: u8 = 7;

/// What judging comes to with memory enough.
#[derive(Clone, PartialEq, Eq, Debug)]
pub struct Judged {
    pub number: u8,
    /// Action, class, moment.
    pub places: [u8; 3],
    /// Action, class, moment, name.
    pub rows: Vec<[u8; 4]>,
    pub witness: Vec<Fact>,
}

struct Judge<'d> {
    domain: &'d Domain,
    misread: Option<Misjudge>,
}

/// The literals of an action by class, in order, each under its key tuple.
type Classes<'d> = Vec<(Vec<Var>, Vec<&'d Literal>)>;

/// The literals at this time in this list.
fn those<'d>(literals: &[&'d Literal], when: When, list: List) -> Vec<&'d Literal> {
    literals.iter().copied().filter(|literal| literal.when == when && literal.list == list).collect()
}

fn own(moment: u8) -> When {
    if moment == 0 {
        When::Start
    } else {
        When::End
    }
}

/// The true conditions where a moment comes: an end's own and the over-all ones, in file order, once each.
fn trues<'d>(literals: &[&'d Literal], moment: u8) -> Vec<&'d Literal> {
    let now = |literal: &&&Literal| literal.when == own(moment) || (moment == 1 && literal.when == When::OverAll);
    let mut found: Vec<&Literal> = Vec::new();
    for &literal in literals.iter().filter(|literal| literal.list == List::True).filter(now) {
        if !found.iter().any(|earlier| earlier.atom == literal.atom) {
            found.push(literal);
        }
    }
    found
}

/// Whether a delete takes the atom away: it is the same, or has FF in a place and is the same in all others.
fn deleted(atom: &Atom<Var>, deletes: &[&Literal], by_equality: bool) -> bool {
    let alike = |(of_delete, of_atom): (&Var, &Var)| of_delete == of_atom || (*of_delete == Var(0xFF) && !by_equality);
    let takes =
        |delete: &Atom<Var>| delete.relation == atom.relation && delete.args().iter().zip(atom.args()).all(alike);
    deletes.iter().any(|literal| takes(&literal.atom))
}

impl<'d> Judge<'d> {
    fn misreads(&self, misread: Misjudge) -> bool {
        self.misread == Some(misread)
    }

    fn component(&self, relation: u8) -> Option<&'d Component> {
        self.domain.template.components.iter().find(|component| component.relation == relation)
    }

    fn key_tuple(&self, atom: &Atom<Var>) -> Option<Vec<Var>> {
        let component = self.component(atom.relation)?;
        let keys = component.place_of[..self.domain.template.n as usize].iter();
        let tuple: Vec<Var> = keys.map(|&place| atom.args[place as usize]).collect();
        Some(if self.misreads(Misjudge::ByRelation) { vec![Var(atom.relation); tuple.len()] } else { tuple })
    }

    fn classes(&self, action: &'d Action) -> Classes<'d> {
        let mut classes: Classes = Vec::new();
        for literal in &action.literals {
            let Some(tuple) = self.key_tuple(&literal.atom) else { continue };
            match classes.iter_mut().find(|class| class.0 == tuple) {
                Some(class) => class.1.push(literal),
                None => classes.push((tuple, vec![literal])),
            }
        }
        classes
    }

    fn name(&self, class: &[&Literal], moment: u8) -> u8 {
        let at = |list| those(class, own(moment), list);
        let mut own_trues = at(List::True);
        let counted = match self.misread {
            Some(Misjudge::OverAllUncounted) => own_trues.len(),
            Some(Misjudge::CountedTwice) if moment == 1 => {
                own_trues.len() + those(class, When::OverAll, List::True).len()
            }
            _ => trues(class, moment).len(),
        };
        if self.misreads(Misjudge::OverAllBalances) {
            own_trues = trues(class, moment);
        }
        let (adds, deletes) = (at(List::Add), at(List::Delete));
        let added = |atom: &Atom<Var>| adds.iter().any(|literal| literal.atom == *atom);
        let by_equality = self.misreads(Misjudge::BalancedByEquality);
        match (counted, adds.len(), own_trues.first()) {
            (2.., _, _) => UNREACHABLE,
            (_, 0, _) => IRRELEVANT,
            (_, 2.., _) => HEAVY,
            (_, _, Some(one)) if added(&one.atom) || deleted(&one.atom, &deletes, by_equality) => BALANCED,
            (_, _, Some(_)) => UNBALANCED,
            _ if self.uncovered(class, moment).is_none() => BOUNDED,
            _ => UNBOUNDED,
        }
    }

    /// The first component that isn't covered.
    fn uncovered(&self, class: &[&Literal], moment: u8) -> Option<&'d Component> {
        let covers = |component: &Component, literal: &Literal| {
            let now = literal.when == own(moment)
                || self.misreads(Misjudge::CoveredByOtherMoment)
                || (moment == 1 && literal.when == When::OverAll && self.misreads(Misjudge::OverAllCovers));
            let enough = match component.counted {
                None => true,
                Some(_) if self.misreads(Misjudge::CountedNeverCovered) => false,
                Some(_) if self.misreads(Misjudge::CountedByAnyName) => true,
                Some(place) => literal.atom.args[place as usize] == Var(0xFF),
            };
            now && enough && literal.list != List::True && literal.atom.relation == component.relation
        };
        let covered = |component: &&Component| class.iter().any(|literal| covers(component, literal));
        self.domain.template.components.iter().find(|component| !covered(component))
    }

    fn is_journey(&self, action: &Action, class: &[&Literal]) -> bool {
        let at = |when, list| those(class, when, list);
        let deletes = at(When::Start, List::Delete);
        let by_equality = self.misreads(Misjudge::JourneyByEquality);
        let start = at(When::Start, List::True);
        let mut end = at(When::End, List::True);
        if self.misreads(Misjudge::OverAllUnmakesJourney) {
            end.extend(at(When::OverAll, List::True));
        }
        let leaves = start.len() == 1 && deleted(&start[0].atom, &deletes, by_equality);
        action.lasting
            && at(When::Start, List::Add).is_empty()
            && (leaves || self.misreads(Misjudge::AnyStartExcuses))
            && end.is_empty()
            && at(When::End, List::Add).len() == 1
    }

    fn witness(&self, number: u8, action: &'d Action, class: &(Vec<Var>, Vec<&'d Literal>), moment: u8) -> Vec<Fact> {
        let all: Vec<&Literal> = action.literals.iter().collect();
        let over_all = |literals: &[&Literal]| literals.iter().any(|literal| literal.when == When::OverAll);
        let suppressed = match self.misread {
            Some(Misjudge::WitnessAlways) => false,
            Some(Misjudge::SuppressedByTrue) => moment == 1 && !those(&class.1, When::OverAll, List::True).is_empty(),
            Some(Misjudge::SuppressedByAny) => moment == 1 && over_all(&all),
            Some(Misjudge::SuppressedAtStart) => over_all(&class.1),
            _ => moment == 1 && over_all(&class.1),
        };
        if suppressed {
            return Vec::new();
        }
        let conditions = match self.misread {
            Some(Misjudge::OwnWitness) => those(&all, own(moment), List::True),
            _ => trues(&all, moment),
        };
        let fact = |literal: &&Literal| literal.atom.bind(|variable| Object(variable.0));
        let mut facts: Vec<Fact> = conditions.iter().map(fact).collect();
        if let (42, Some(component)) = (number, self.uncovered(&class.1, moment)) {
            let mut objects = vec![Object(action.variables); component.arity as usize];
            for (key, variable) in class.0.iter().enumerate() {
                objects[component.place_of[key] as usize] = Object(variable.0);
            }
            facts.push(Atom::new(component.relation, objects.into_iter()));
        }
        facts
    }

    fn judge(&self) -> Judged {
        let mut rows = Vec::new();
        // Whether the row of the same place is a journey's end.
        let mut ends = Vec::new();
        for (number, action) in self.domain.actions.iter().enumerate() {
            for (class_number, (_, class)) in self.classes(action).iter().enumerate() {
                for moment in 0..1 + action.lasting as u8 {
                    rows.push([number as u8, class_number as u8, moment, self.name(class, moment)]);
                    ends.push(moment == 1 && self.is_journey(action, class));
                }
            }
        }
        let fault = |row: &[u8; 4], end: bool| match row[3] {
            HEAVY => Some(40),
            UNBALANCED => Some(41),
            UNBOUNDED if !end => Some(42),
            _ => None,
        };
        let faults: Vec<(u8, [u8; 4])> =
            rows.iter().zip(&ends).filter_map(|(row, &end)| Some((fault(row, end)?, *row))).collect();
        // the earliest of the worst
        let refused = match self.misread {
            Some(Misjudge::EarliestFault) => faults.first(),
            Some(Misjudge::LastPlace) => faults.iter().rev().min_by_key(|(number, _)| number),
            _ => faults.iter().min_by_key(|(number, _)| number),
        };
        let some_unbounded = rows.iter().any(|row| row[3] == UNBOUNDED);
        let bounded = rows.iter().zip(&ends).find(|(row, &end)| row[3] == BOUNDED && !end).map(|(row, _)| *row);
        let bounded = bounded.filter(|_| some_unbounded && !self.misreads(Misjudge::BoundedAccepted));
        let (number, row) = match (refused, bounded) {
            (Some((42, _)), Some(row)) if self.misreads(Misjudge::BoundedBeside) => (43, Some(row)),
            (Some(&(number, row)), _) => (number, Some(row)),
            (None, Some(row)) => (43, Some(row)),
            (None, None) => (some_unbounded as u8, None),
        };
        let places = row.map_or([0; 3], |[action, class, moment, _]| [action, class, moment]);
        let shown = match self.misread {
            Some(Misjudge::EarliestWitness) => faults.first().copied(),
            _ => row.map(|row| (number, row)),
        };
        let witness = match shown {
            Some((number @ 40..=42, [action, class, moment, _])) => {
                let action = &self.domain.actions[action as usize];
                self.witness(number, action, &self.classes(action)[class as usize], moment)
            }
            _ => Vec::new(),
        };
        Judged { number, places, rows, witness }
    }
}

/// Judges a domain that was read.
pub fn judge(domain: &Domain, misread: Option<Misjudge>) -> Judged {
    Judge { domain, misread }.judge()
}

/// The key tuple of each class of an action, and whether it is a journey.
pub fn journeys_of(domain: &Domain, action: u8) -> Vec<(Vec<Var>, bool)> {
    let judge = Judge { domain, misread: None };
    let action = &domain.actions[action as usize];
    let classes = judge.classes(action).into_iter();
    classes.map(|(tuple, literals)| (tuple, judge.is_journey(action, &literals))).collect()
}
