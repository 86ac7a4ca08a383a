//! "Classes of an action": classes, names, journeys.

use crate::domain::{Action, Component, Literals, Moment, Template, Tuple, Var};

/// "Literals of one action with equal tuples form a class; with n = 0 all matching literals form
/// one."
#[derive(Clone, Copy, Debug)]
pub struct Class {
    pub tuple: Tuple<Var>,
    pub literals: Literals,
}

/// "Classes are numbered by first literal in the file."
pub fn classes(template: &Template, action: &Action) -> Vec<Class> {
    let mut classes: Vec<Class> = Vec::new();
    for (number, literal) in action.literals.iter().enumerate() {
        let Some(tuple) = template.tuple(&literal.atom) else { continue };
        let class = match classes.iter().position(|class| class.tuple == tuple) {
            Some(class) => class,
            None => {
                classes.push(Class { tuple, literals: Literals::default() });
                classes.len() - 1
            }
        };
        classes[class].literals.insert(number);
    }
    classes
}

impl Class {
    /// "Only the class's literals of that moment count"
    pub fn at(&self, moment: &Moment) -> Moment {
        Moment {
            trues: moment.trues.and(self.literals),
            falses: moment.falses.and(self.literals),
            adds: moment.adds.and(self.literals),
            deletes: moment.deletes.and(self.literals),
        }
    }

    /// Whether an over-all condition, true or false, is of this class.
    pub fn has_over_all(&self, action: &Action) -> bool {
        !action.over_all.trues.or(action.over_all.falses).and(self.literals).is_empty()
    }
}

/// The names with their numbers 1 to 7.
#[derive(Clone, Copy, PartialEq, Eq, Debug)]
pub enum Name {
    Unreachable = 1,
    Irrelevant = 2,
    Heavy = 3,
    Balanced = 4,
    Unbalanced = 5,
    Bounded = 6,
    Unbounded = 7,
}

impl Name {
    pub fn text(self) -> &'static str {
        match self {
            Name::Unreachable => "unreachable",
            Name::Irrelevant => "irrelevant",
            Name::Heavy => "heavy",
            Name::Balanced => "balanced",
            Name::Unbalanced => "unbalanced",
            Name::Bounded => "bounded",
            Name::Unbounded => "unbounded",
        }
    }
}

/// "the first line that fits names it", of a class at a moment
pub fn name(template: &Template, action: &Action, class: &Class, moment: usize) -> Name {
    // "unreachable: two or more true conditions in the class"; P2: over-all conditions "count towards
    // unreachable and towards nothing else". A literal both an end's own and over all has one tuple, so
    // both are of one class and it counts once here as it does in the action.
    if action.trues_at[moment].and(class.literals).count() >= 2 {
        return Name::Unreachable;
    }
    let class = &class.at(&action.moments[moment]);
    // "irrelevant: no add"
    if class.adds.is_empty() {
        return Name::Irrelevant;
    }
    // "heavy: two or more adds"
    if class.adds.count() >= 2 {
        return Name::Heavy;
    }
    // "balanced: one true condition, also an add or a delete"
    // "unbalanced: one true condition, neither"
    if let Some(condition) = class.trues.into_iter().next() {
        return if action.covered(class.adds.or(class.deletes), action.atom(condition)) {
            Name::Balanced
        } else {
            Name::Unbalanced
        };
    }
    // "bounded: each component of the template is covered"
    // "unbounded: otherwise"
    match first_uncovered(template, action, class) {
        None => Name::Bounded,
        Some(_) => Name::Unbounded,
    }
}

/// The number of the first component that isn't covered. "covered, that is, has no FF and its
/// relation occurs among them as false condition, add or delete", where "they" are the class's
/// literals of the moment. P4: "A component with FF becomes covered when the class has such a literal
/// with FF in that same place", a false condition or a delete that clears it.
pub fn first_uncovered(template: &Template, action: &Action, class: &Moment) -> Option<usize> {
    let (mut occurring, mut cleared) = (0u64, 0u64);
    let named = class.falses.or(class.adds).or(class.deletes);
    for literal in named {
        occurring |= 1 << action.atom(literal).relation;
    }
    for literal in named.and(action.clearing) {
        let atom = action.atom(literal);
        if template.component(atom.relation).is_some_and(|component| component.counted == atom.cleared()) {
            cleared |= 1 << atom.relation;
        }
    }
    let covered = |component: &Component| {
        let those = if component.counted.is_some() { cleared } else { occurring };
        those >> component.relation & 1 == 1
    };
    template.components.iter().position(|component| !covered(component))
}

/// "A journey is a class of a lasting action whose start has no add and exactly one true condition,
/// which the start deletes, and whose end has no true condition and one add." P2: "A journey's end
/// likewise looks at its own conditions only."
pub fn is_journey(action: &Action, class: &Class) -> bool {
    if !action.lasting {
        return false;
    }
    let start = class.at(&action.moments[0]);
    let end = class.at(&action.moments[1]);
    start.adds.is_empty()
        && start.trues.count() == 1
        && start.trues.into_iter().all(|condition| action.covered(start.deletes, action.atom(condition)))
        && end.trues.is_empty()
        && end.adds.count() == 1
}
