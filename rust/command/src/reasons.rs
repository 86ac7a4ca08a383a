//! Why a class has its name at a moment: the rules of the names, worked out again for showing. The names themselves are
//! the library's; a reason of another name would be a mistake here, and the tests look for one.

use crate::domain::{Action, Component, Domain, List, Literal, Time};
use crate::library::Name;
use crate::records::FF;

/// What an action says about one instance: its matching literals with one key tuple.
#[derive(Clone, Debug)]
pub struct Class<'d> {
    pub key_tuple: Vec<u8>,
    pub literals: Vec<&'d Literal>,
}

/// The classes of an action, by their first literals.
pub fn classes<'d>(domain: &Domain, action: &'d Action) -> Vec<Class<'d>> {
    let mut classes: Vec<Class> = Vec::new();
    for literal in &action.literals {
        let Some(key_tuple) = domain.key_tuple(literal.relation, &literal.arguments) else { continue };
        match classes.iter_mut().find(|class| class.key_tuple == key_tuple) {
            Some(class) => class.literals.push(literal),
            None => classes.push(Class { key_tuple, literals: vec![literal] }),
        }
    }
    classes
}

/// The literals of a class that count at a moment.
#[derive(Clone, Debug, Default)]
pub struct Counting<'d> {
    pub trues: Vec<&'d Literal>,
    pub falses: Vec<&'d Literal>,
    pub adds: Vec<&'d Literal>,
    pub deletes: Vec<&'d Literal>,
    /// At an end the true conditions over all that are not its own, too. They count towards unreachable alone.
    pub over_all: Vec<&'d Literal>,
}

impl<'d> Counting<'d> {
    fn list(&mut self, list: List) -> &mut Vec<&'d Literal> {
        match list {
            List::True => &mut self.trues,
            List::False => &mut self.falses,
            List::Add => &mut self.adds,
            List::Delete => &mut self.deletes,
        }
    }

    /// The true conditions by which a class may be unreachable.
    pub fn asked(&self) -> Vec<&'d Literal> {
        self.trues.iter().chain(&self.over_all).copied().collect()
    }

    /// All of them, in the order of the file.
    pub fn all(&self, class: &Class<'d>) -> Vec<&'d Literal> {
        let is_among = |literal: &&&Literal| {
            let lists = [&self.trues, &self.falses, &self.adds, &self.deletes, &self.over_all];
            lists.into_iter().flatten().any(|other| std::ptr::eq(*other, **literal))
        };
        class.literals.iter().filter(is_among).copied().collect()
    }
}

/// The literals of a class that count at a moment: its own, and at an end what is asked over all.
pub fn counting<'d>(class: &Class<'d>, moment: u8) -> Counting<'d> {
    let own = if moment == 0 { Time::Start } else { Time::End };
    let mut counting = Counting::default();
    for &literal in class.literals.iter().filter(|literal| literal.time == own) {
        counting.list(literal.list).push(literal);
    }
    let is_own = |literal: &&Literal| counting.trues.iter().any(|other| other.is_about_same(literal));
    let over_all = class.literals.iter().copied().filter(|literal| moment == 1 && is_over_all(literal));
    counting.over_all = over_all.filter(|literal| literal.list == List::True && !is_own(literal)).collect();
    counting
}

fn is_over_all(literal: &Literal) -> bool {
    literal.time == Time::All
}

/// Whether a class has a condition over all; for its end no witness is written.
pub fn has_over_all(class: &Class) -> bool {
    class.literals.iter().any(|literal| is_over_all(literal))
}

/// Why a component isn't covered.
#[derive(Clone, Copy, PartialEq, Eq, Debug)]
pub enum Lack {
    /// It has a counted argument that no literal clears, so the instance may have a fact of it that no literal names.
    Counted,
    /// No literal names its relation as false condition, add or delete.
    Unnamed,
}

/// The reason for a name.
#[derive(Clone, Debug)]
pub enum Why<'d> {
    Unreachable {
        trues: Vec<&'d Literal>,
    },
    Irrelevant {
        condition: Option<&'d Literal>,
    },
    Heavy {
        adds: Vec<&'d Literal>,
    },
    /// What deletes the condition; none where it is added.
    Balanced {
        condition: &'d Literal,
        deleted: Option<&'d Literal>,
        add: &'d Literal,
    },
    Unbalanced {
        condition: &'d Literal,
        add: &'d Literal,
    },
    Bounded {
        add: &'d Literal,
        covered: Vec<(usize, &'d Literal)>,
    },
    Unbounded {
        add: &'d Literal,
        component: usize,
        lack: Lack,
    },
}

impl Why<'_> {
    pub fn name(&self) -> Name {
        match self {
            Why::Unreachable { .. } => Name::Unreachable,
            Why::Irrelevant { .. } => Name::Irrelevant,
            Why::Heavy { .. } => Name::Heavy,
            Why::Balanced { .. } => Name::Balanced,
            Why::Unbalanced { .. } => Name::Unbalanced,
            Why::Bounded { .. } => Name::Bounded,
            Why::Unbounded { .. } => Name::Unbounded,
        }
    }
}

/// The first line of the list of names that fits, with what makes it fit.
pub fn why<'d>(domain: &Domain, counting: &Counting<'d>) -> Why<'d> {
    let asked = counting.asked();
    if asked.len() >= 2 {
        return Why::Unreachable { trues: asked };
    }
    let condition = counting.trues.first().copied();
    let Some(&add) = counting.adds.first() else { return Why::Irrelevant { condition } };
    if counting.adds.len() >= 2 {
        return Why::Heavy { adds: counting.adds.clone() };
    }
    if let Some(condition) = condition {
        let deleted = deleting(counting, condition);
        return match add.is_about_same(condition) {
            true => Why::Balanced { condition, deleted: None, add },
            false if deleted.is_some() => Why::Balanced { condition, deleted, add },
            false => Why::Unbalanced { condition, add },
        };
    }
    match first_uncovered(domain, counting) {
        Some((component, lack)) => Why::Unbounded { add, component, lack },
        None => Why::Bounded { add, covered: covered(domain, counting) },
    }
}

/// The delete that takes a condition away, as it stands or with every object in a place.
fn deleting<'d>(counting: &Counting<'d>, condition: &Literal) -> Option<&'d Literal> {
    counting.deletes.iter().copied().find(|delete| delete.covers(condition))
}

/// The literal that covers a component: of its relation, a false condition, an add or a delete; where the component
/// has a counted place, with every object there.
fn covering<'d>(component: &Component, counting: &Counting<'d>) -> Option<&'d Literal> {
    let naming = counting.falses.iter().chain(&counting.adds).chain(&counting.deletes);
    let clears = |literal: &Literal| component.counted().is_none_or(|place| literal.arguments.get(place) == Some(&FF));
    naming.copied().find(|literal| literal.relation == component.relation && clears(literal))
}

fn first_uncovered(domain: &Domain, counting: &Counting) -> Option<(usize, Lack)> {
    let lack = |component: &Component| if component.counted().is_some() { Lack::Counted } else { Lack::Unnamed };
    let mut components = domain.components.iter().enumerate();
    let uncovered = components.find(|(_, component)| covering(component, counting).is_none())?;
    Some((uncovered.0, lack(uncovered.1)))
}

fn covered<'d>(domain: &Domain, counting: &Counting<'d>) -> Vec<(usize, &'d Literal)> {
    let components = domain.components.iter().enumerate();
    components.filter_map(|(number, component)| Some((number, covering(component, counting)?))).collect()
}

/// Whether a class of a lasting action is a journey: its start takes the one fact away that it asks for and adds none,
/// its end asks for none itself and gives one back.
pub fn is_journey(action: &Action, class: &Class) -> bool {
    let (start, end) = (counting(class, 0), counting(class, 1));
    let taken = |condition: &&Literal| deleting(&start, condition).is_some();
    action.lasting
        && start.adds.is_empty()
        && start.trues.len() == 1
        && start.trues.iter().all(taken)
        && end.trues.is_empty()
        && end.adds.len() == 1
}
