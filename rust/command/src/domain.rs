//! A domain as its file says it, with names: of the text that it was written in, or r0, a0, v0 where there is none.

use crate::records::{split, ACTION, COMPONENT, FF, LITERAL, RELATION};

/// The sign for every object, which may stand in place of a variable.
pub const EVERY: &str = "*";

/// When a literal counts; the literals of an action at once count at its start.
#[derive(Clone, Copy, PartialEq, Eq, Debug)]
pub enum Time {
    Start,
    All,
    End,
}

/// What a literal says of its fact.
#[derive(Clone, Copy, PartialEq, Eq, Debug)]
pub enum List {
    True,
    False,
    Add,
    Delete,
}

impl Time {
    pub const ALL: [Time; 3] = [Time::Start, Time::All, Time::End];

    pub fn word(self) -> &'static str {
        match self {
            Time::Start => "start",
            Time::All => "all",
            Time::End => "end",
        }
    }
}

impl List {
    pub const ALL: [List; 4] = [List::True, List::False, List::Add, List::Delete];

    pub fn word(self) -> &'static str {
        match self {
            List::True => "true",
            List::False => "false",
            List::Add => "add",
            List::Delete => "delete",
        }
    }

    pub fn is_condition(self) -> bool {
        matches!(self, List::True | List::False)
    }
}

/// The number of a role; none for an effect over all.
pub fn role_number(time: Time, list: List) -> Option<u8> {
    let within = List::ALL.iter().position(|&other| other == list)? as u8;
    match time {
        Time::Start => Some(within),
        Time::All => list.is_condition().then_some(4 + within),
        Time::End => Some(6 + within),
    }
}

/// Time and list of the number of a role.
pub fn role_of(number: u8) -> Option<(Time, List)> {
    match number {
        0..=3 => Some((Time::Start, List::ALL[number as usize])),
        4..=5 => Some((Time::All, List::ALL[number as usize - 4])),
        6..=9 => Some((Time::End, List::ALL[number as usize - 6])),
        _ => None,
    }
}

/// Names for the numbers of a file.
#[derive(Clone, PartialEq, Eq, Debug, Default)]
pub struct Names {
    pub relations: Vec<String>,
    pub actions: Vec<ActionNames>,
}

#[derive(Clone, PartialEq, Eq, Debug, Default)]
pub struct ActionNames {
    pub name: String,
    pub variables: Vec<String>,
}

impl Names {
    pub fn relation(&self, number: usize) -> String {
        self.relations.get(number).cloned().unwrap_or_else(|| format!("r{number}"))
    }

    pub fn action(&self, number: usize) -> String {
        self.actions.get(number).map(|action| action.name.clone()).unwrap_or_else(|| format!("a{number}"))
    }

    pub fn variable(&self, action: usize, number: usize) -> String {
        let named = self.actions.get(action).and_then(|action| action.variables.get(number));
        named.cloned().unwrap_or_else(|| format!("v{number}"))
    }
}

#[derive(Clone, Debug)]
pub struct Relation {
    pub name: String,
    pub arity: usize,
}

#[derive(Clone, PartialEq, Eq, Debug)]
pub struct Literal {
    pub time: Time,
    pub list: List,
    pub relation: usize,
    pub arguments: Vec<u8>,
}

impl Literal {
    /// Whether both are of the same relation with the same arguments.
    pub fn is_about_same(&self, other: &Literal) -> bool {
        self.relation == other.relation && self.arguments == other.arguments
    }

    /// Whether it stands for every object in some place.
    pub fn clears(&self) -> bool {
        self.arguments.contains(&FF)
    }

    /// Whether it stands for all that the other one stands for: they are the same but where it has every object.
    pub fn covers(&self, other: &Literal) -> bool {
        self.relation == other.relation && row_covers(&self.arguments, &other.arguments)
    }
}

/// Whether two rows of arguments are alike in all places but those where the first stands for every object.
pub fn row_covers(row: &[u8], other: &[u8]) -> bool {
    row.len() == other.len() && row.iter().zip(other).all(|(one, of_other)| one == of_other || *one == FF)
}

/// What two rows of arguments both stand for; none where they are unlike in a place that is no "every object".
pub fn row_common(row: &[u8], other: &[u8]) -> Option<Vec<u8>> {
    let common = |(&one, &of_other): (&u8, &u8)| match (one, of_other) {
        (FF, of_other) => Some(of_other),
        (one, FF) => Some(one),
        (one, of_other) => (one == of_other).then_some(one),
    };
    let common: Option<Vec<u8>> = row.iter().zip(other).map(common).collect();
    common.filter(|_| row.len() == other.len())
}

#[derive(Clone, Debug)]
pub struct Action {
    pub name: String,
    pub variables: Vec<String>,
    pub lasting: bool,
    pub literals: Vec<Literal>,
}

#[derive(Clone, Debug)]
pub struct Component {
    pub relation: usize,
    pub labels: Vec<u8>,
}

impl Component {
    /// The place of the counted argument.
    pub fn counted(&self) -> Option<usize> {
        self.labels.iter().position(|&label| label == FF)
    }

    /// What stands in the places of the keys 0, 1, ..
    pub fn under_keys(&self, arguments: &[u8]) -> Vec<u8> {
        let keys = self.labels.iter().filter(|&&label| label != FF).count();
        let place = |key: usize| self.labels.iter().position(|&label| label as usize == key);
        (0..keys).filter_map(|key| arguments.get(place(key)?).copied()).collect()
    }
}

#[derive(Clone, Debug, Default)]
pub struct Domain {
    pub relations: Vec<Relation>,
    pub actions: Vec<Action>,
    pub components: Vec<Component>,
}

impl Domain {
    /// What a file says that the library reads, with these names.
    pub fn of(file: &[u8], names: &Names) -> Domain {
        let mut domain = Domain::default();
        for record in split(file).0 {
            match (record.kind, record.payload) {
                (RELATION, &[arity]) => domain.add_relation(names, arity),
                (ACTION, &[variables, sort]) => domain.add_action(names, variables, sort),
                (LITERAL, &[role, relation, ref arguments @ ..]) => domain.add_literal(role, relation, arguments),
                (COMPONENT, &[relation, ref labels @ ..]) => {
                    domain.components.push(Component { relation: relation as usize, labels: labels.to_vec() });
                }
                _ => {}
            }
        }
        domain
    }

    fn add_relation(&mut self, names: &Names, arity: u8) {
        let name = names.relation(self.relations.len());
        self.relations.push(Relation { name, arity: arity as usize });
    }

    fn add_action(&mut self, names: &Names, variables: u8, sort: u8) {
        let number = self.actions.len();
        let variables = (0..variables as usize).map(|variable| names.variable(number, variable)).collect();
        self.actions.push(Action { name: names.action(number), variables, lasting: sort == 1, literals: Vec::new() });
    }

    fn add_literal(&mut self, role: u8, relation: u8, arguments: &[u8]) {
        let Some((time, list)) = role_of(role) else { return };
        let Some(action) = self.actions.last_mut() else { return };
        action.literals.push(Literal { time, list, relation: relation as usize, arguments: arguments.to_vec() });
    }

    /// How many keys the template has.
    pub fn keys(&self) -> usize {
        self.components.first().map_or(0, |first| first.labels.iter().filter(|&&label| label != FF).count())
    }

    /// The component of a relation.
    pub fn component(&self, relation: usize) -> Option<&Component> {
        self.components.iter().find(|component| component.relation == relation)
    }

    /// What stands under the keys of a literal or a fact, none if its relation has no component.
    pub fn key_tuple(&self, relation: usize, arguments: &[u8]) -> Option<Vec<u8>> {
        self.component(relation).map(|component| component.under_keys(arguments))
    }

    pub fn relation_name(&self, relation: usize) -> &str {
        self.relations.get(relation).map_or("?", |relation| &relation.name)
    }

    /// A literal or a fact in words, `at(volume, shelf)`.
    pub fn atom(&self, relation: usize, arguments: &[u8], name: impl Fn(u8) -> String) -> String {
        let arguments: Vec<String> = arguments.iter().map(|&number| name(number)).collect();
        format!("{}({})", self.relation_name(relation), arguments.join(", "))
    }

    /// A literal of an action, without its role.
    pub fn literal(&self, action: &Action, literal: &Literal) -> String {
        self.atom(literal.relation, &literal.arguments, |number| action.variable(number))
    }

    /// A component, `at[0,_]`.
    pub fn component_words(&self, component: &Component) -> String {
        format!("{}[{}]", self.relation_name(component.relation), labels(&component.labels))
    }

    pub fn template_words(&self) -> String {
        self.components.iter().map(|component| self.component_words(component)).collect::<Vec<_>>().join(" ")
    }

    pub fn names(&self) -> Names {
        let action = |action: &Action| ActionNames { name: action.name.clone(), variables: action.variables.clone() };
        Names {
            relations: self.relations.iter().map(|relation| relation.name.clone()).collect(),
            actions: self.actions.iter().map(action).collect(),
        }
    }
}

impl Action {
    pub fn variable(&self, number: u8) -> String {
        match self.variables.get(number as usize) {
            Some(name) => name.clone(),
            None if number == FF => EVERY.to_string(),
            None => format!("v{number}"),
        }
    }

    /// Its name with its variables, `lend(volume, shelf)`.
    pub fn head(&self) -> String {
        format!("{}({})", self.name, self.variables.join(", "))
    }
}

/// The labels of a component as the notation writes them.
pub fn labels(labels: &[u8]) -> String {
    let label = |&label: &u8| if label == FF { "_".to_string() } else { label.to_string() };
    labels.iter().map(label).collect::<Vec<_>>().join(",")
}
