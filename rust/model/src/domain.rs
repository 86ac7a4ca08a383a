//! The domain file: what it says, and where reading it stops (numbers 9 to 27).

use crate::records::Record;
use std::hash::{Hash, Hasher};

/// "Variables, objects and keys are three separate numberings, each from 0; a number of one is
/// never read as another."
#[derive(Clone, Copy, PartialEq, Eq, PartialOrd, Ord, Debug)]
pub struct Var(pub u8);
#[derive(Clone, Copy, PartialEq, Eq, PartialOrd, Ord, Debug)]
pub struct Object(pub u8);
#[derive(Clone, Copy, PartialEq, Eq, PartialOrd, Ord, Debug)]
pub struct Key(pub u8);

/// What may stand in an argument: a variable in a literal, an object in a fact.
pub trait Argument: Copy + Eq {
    /// In an argument it means every object (P4); it also fills the places that aren't arguments, so that
    /// the arity tells the one from the other.
    const EVERY: Self;
    fn byte(self) -> u8;
}

impl Argument for Var {
    const EVERY: Var = Var(0xFF);
    fn byte(self) -> u8 {
        self.0
    }
}

impl Argument for Object {
    const EVERY: Object = Object(0xFF);
    fn byte(self) -> u8 {
        self.0
    }
}

/// A relation with its arguments, the places behind them filled. One argument at most is EVERY, and the
/// atom then stands for one fact per object.
#[derive(Clone, Copy, PartialEq, Eq, PartialOrd, Ord, Debug)]
pub struct Atom<T> {
    pub relation: u8,
    pub arity: u8,
    pub args: [T; ARITY],
}

/// A fact is an atom of objects, none of them EVERY.
pub type Fact = Atom<Object>;

impl<T: Argument> Atom<T> {
    pub fn new(relation: u8, args: impl ExactSizeIterator<Item = T>) -> Atom<T> {
        let mut atom = Atom { relation, arity: args.len() as u8, args: [T::EVERY; ARITY] };
        for (place, arg) in atom.args.iter_mut().zip(args) {
            *place = arg;
        }
        atom
    }

    /// "8 bytes a fact (relation, arity, arguments, FF to fill)"
    pub fn bytes(&self) -> [u8; 8] {
        let a = self.args.map(T::byte);
        [self.relation, self.arity, a[0], a[1], a[2], a[3], a[4], a[5]]
    }

    pub fn args(&self) -> &[T] {
        &self.args[..self.arity as usize]
    }

    /// The place of the argument that means every object.
    pub fn cleared(&self) -> Option<u8> {
        self.args().iter().position(|&arg| arg == T::EVERY).map(|place| place as u8)
    }

    /// Whether some fact is one of both, if there are objects at all.
    pub fn meets(&self, other: &Atom<T>) -> bool {
        let alike = |(a, b): (&T, &T)| a == b || *a == T::EVERY || *b == T::EVERY;
        self.relation == other.relation && self.args.iter().zip(&other.args).all(alike)
    }

    /// P4: "A literal then covers others": every fact of the other one is one of this.
    pub fn covers(&self, other: &Atom<T>) -> bool {
        let within = |(a, b): (&T, &T)| a == b || *a == T::EVERY;
        self.relation == other.relation && self.args.iter().zip(&other.args).all(within)
    }
}

impl<T: Argument> Hash for Atom<T> {
    fn hash<H: Hasher>(&self, state: &mut H) {
        state.write_u64(u64::from_le_bytes(self.bytes()));
    }
}

impl Atom<Var> {
    /// The atom under a binding of variables to objects: a fact, or every fact with any object in one
    /// place.
    pub fn bind(&self, object: impl Fn(Var) -> Object) -> Atom<Object> {
        let mut bound = Atom { relation: self.relation, arity: self.arity, args: [Object::EVERY; ARITY] };
        for place in 0..self.arity as usize {
            if self.args[place] != Var::EVERY {
                bound.args[place] = object(self.args[place]);
            }
        }
        bound
    }
}

/// What a literal says of its atom.
#[derive(Clone, Copy, PartialEq, Eq, Debug)]
pub enum List {
    True,
    False,
    Add,
    Delete,
}

/// When a literal says it; an action at once has its literals under `Start`.
#[derive(Clone, Copy, PartialEq, Eq, Debug)]
pub enum When {
    Start,
    OverAll,
    End,
}

/// "Roles: 0 true condition, 1 false condition, 2 add, 3 delete (at once, or at the start); 4 and 5
/// true and false over all; 6 to 9 the same as 0 to 3, at the end."
pub fn role(byte: u8) -> Option<(When, List)> {
    const LISTS: [List; 4] = [List::True, List::False, List::Add, List::Delete];
    match byte {
        0..=3 => Some((When::Start, LISTS[byte as usize])),
        4..=5 => Some((When::OverAll, LISTS[byte as usize - 4])),
        6..=9 => Some((When::End, LISTS[byte as usize - 6])),
        _ => None,
    }
}

#[derive(Clone, Copy, Debug)]
pub struct Literal {
    pub when: When,
    pub list: List,
    pub atom: Atom<Var>,
}

/// A set of literals of one action, of which there are at most 64: bit i is literal i, in the order
/// of the file.
#[derive(Clone, Copy, PartialEq, Eq, Debug, Default)]
pub struct Literals(pub u64);

impl Literals {
    pub fn insert(&mut self, literal: usize) {
        self.0 |= 1 << literal;
    }

    pub fn count(self) -> u32 {
        self.0.count_ones()
    }

    pub fn is_empty(self) -> bool {
        self.0 == 0
    }

    pub fn and(self, other: Literals) -> Literals {
        Literals(self.0 & other.0)
    }

    pub fn or(self, other: Literals) -> Literals {
        Literals(self.0 | other.0)
    }

    pub fn without(self, other: Literals) -> Literals {
        Literals(self.0 & !other.0)
    }
}

/// In the order of the file.
impl Iterator for Literals {
    type Item = usize;
    fn next(&mut self) -> Option<usize> {
        if self.0 == 0 {
            return None;
        }
        let literal = self.0.trailing_zeros() as usize;
        self.0 &= self.0 - 1;
        Some(literal)
    }
}

/// The literals of an action at one moment, or over all.
#[derive(Clone, Copy, Debug, Default)]
pub struct Moment {
    pub trues: Literals,
    pub falses: Literals,
    pub adds: Literals,
    pub deletes: Literals,
}

impl Moment {
    fn list(&mut self, list: List) -> &mut Literals {
        match list {
            List::True => &mut self.trues,
            List::False => &mut self.falses,
            List::Add => &mut self.adds,
            List::Delete => &mut self.deletes,
        }
    }
}

#[derive(Clone, Debug)]
pub struct Action {
    pub variables: u8,
    pub lasting: bool,
    pub literals: Vec<Literal>,
    /// Moment 0: at once, or the start. Moment 1: the end of a lasting action, with its own
    /// conditions only.
    pub moments: [Moment; 2],
    /// The over-all conditions.
    pub over_all: Moment,
    /// The true conditions that hold where a moment comes: an end's are its own and the over-all ones,
    /// "a literal in both counting once". The one that stands first in the file is the one that counts.
    pub trues_at: [Literals; 2],
    /// The literals that clear, of any list.
    pub clearing: Literals,
}

impl Action {
    fn new(variables: u8, lasting: bool) -> Action {
        Action {
            variables,
            lasting,
            literals: Vec::new(),
            moments: [Moment::default(); 2],
            over_all: Moment::default(),
            trues_at: [Literals::default(); 2],
            clearing: Literals::default(),
        }
    }

    /// "Each class has one moment (0), or for a lasting action start (0) and end (1)."
    pub fn moment_count(&self) -> usize {
        if self.lasting {
            2
        } else {
            1
        }
    }

    pub fn atom(&self, literal: usize) -> &Atom<Var> {
        &self.literals[literal].atom
    }

    /// Whether the atom of some literal of the set is this one.
    pub fn among(&self, mut set: Literals, atom: &Atom<Var>) -> bool {
        set.any(|literal| self.atom(literal) == atom)
    }

    /// Whether some literal of the set covers the atom. P4: "a delete of at(0,FF) deletes at(0,1) for
    /// balanced, for journeys".
    pub fn covered(&self, mut set: Literals, atom: &Atom<Var>) -> bool {
        set.any(|literal| self.atom(literal).covers(atom))
    }

    fn push(&mut self, literal: Literal) {
        let number = self.literals.len();
        self.literals.push(literal);
        let (of, moment) = match literal.when {
            When::Start => (&mut self.moments[0], 0),
            When::OverAll => (&mut self.over_all, 1),
            When::End => (&mut self.moments[1], 1),
        };
        of.list(literal.list).insert(number);
        if literal.atom.cleared().is_some() {
            self.clearing.insert(number);
        }
        if literal.list == List::True && !self.among(self.trues_at[moment], &literal.atom) {
            self.trues_at[moment].insert(number);
        }
    }
}

/// "Kind 4, component: relation, one label per argument. A label is a key number, or FF for
/// counted."
#[derive(Clone, Debug)]
pub struct Component {
    pub relation: u8,
    pub arity: u8,
    /// The argument place of each key 0 to n-1.
    pub place_of: [u8; ARITY],
    /// The argument place that is counted, if there is one.
    pub counted: Option<u8>,
}

#[derive(Clone, Debug)]
pub struct Template {
    /// "The first component's labels other than FF number n"
    pub n: u8,
    pub components: Vec<Component>,
    /// Per relation the number of its component.
    component_of: [Option<u8>; RELATIONS],
}

/// The variables or objects under keys 0 to n-1, filled.
pub type Tuple<T> = [T; ARITY];

impl Template {
    fn empty() -> Template {
        Template { n: 0, components: Vec::new(), component_of: [None; RELATIONS] }
    }

    /// The component of a relation.
    pub fn component(&self, relation: u8) -> Option<&Component> {
        let number = (*self.component_of.get(relation as usize)?)?;
        Some(&self.components[number as usize])
    }

    /// "A literal matches if its relation has a component. Its key tuple is the variables under keys
    /// 0, 1, .. n-1." The same of a fact: the instance that it matches.
    pub fn tuple<T: Argument>(&self, atom: &Atom<T>) -> Option<Tuple<T>> {
        let component = self.component(atom.relation)?;
        let mut tuple = [T::EVERY; ARITY];
        for (under_key, place) in tuple.iter_mut().zip(component.place_of).take(self.n as usize) {
            *under_key = atom.args[place as usize];
        }
        Some(tuple)
    }
}

#[derive(Clone, Debug)]
pub struct Domain {
    /// The arity of each relation.
    pub relations: Vec<u8>,
    pub actions: Vec<Action>,
    pub template: Template,
}

/// Where reading stops: a number from 9 to 27, its place, and the offset of the record. The place is
/// the record's offset but where a label is at fault, then it is the label's.
#[derive(Clone, Copy, PartialEq, Eq, Debug)]
pub struct Stop {
    pub number: u8,
    pub place: usize,
    pub record: usize,
}

impl Stop {
    fn at(number: u8, record: usize) -> Stop {
        Stop { number, place: record, record }
    }
}

/// Why a record is refused: the number, and the byte of the payload that is at fault if that is to be
/// told.
struct Fault {
    number: u8,
    byte: Option<usize>,
}

impl From<u8> for Fault {
    fn from(number: u8) -> Fault {
        Fault { number, byte: None }
    }
}

// "Limits: file 65,535 bytes; 64 relations; 64 actions; 64 literals an action; 16 components."
pub const FILE: usize = 65_535;
pub const RELATIONS: usize = 64;
pub const ACTIONS: usize = 64;
pub const LITERALS: usize = 64;
pub const COMPONENTS: usize = 16;
// "arity, 0 to 6"; "variable count, 0 to 16"
pub const ARITY: usize = 6;
pub const VARIABLES: usize = 16;
/// The label "FF for counted".
pub const COUNTED: u8 = 0xFF;

const RELATION: u16 = 1;
const ACTION: u16 = 2;
const LITERAL: u16 = 3;
const COMPONENT: u16 = 4;
const CLOSING: u16 = 5;

/// Reads a domain file. "Records are checked in file order, each down the rows, its fields in
/// payload order."
pub fn read(file: &[u8]) -> Result<Domain, Stop> {
    // "whole file: 9 too long"; "(9: 0 ...)"
    if file.len() > FILE {
        return Err(Stop::at(9, 0));
    }
    let mut domain = Domain { relations: Vec::new(), actions: Vec::new(), template: Template::empty() };
    let mut at = 0;
    loop {
        // "10 cut short or no closing record"; "(... missing closing: file length)"
        let record = Record::read(file, at).ok_or(Stop::at(10, at))?;
        domain.take(&record).map_err(|Fault { number, byte }| Stop {
            number,
            place: byte.map_or(at, |byte| record.byte(byte)),
            record: at,
        })?;
        at = record.end();
        if record.kind == CLOSING {
            // "anything behind the closing record: 13, before all else there"
            return if at < file.len() { Err(Stop::at(13, at)) } else { Ok(domain) };
        }
    }
}

impl Domain {
    /// Makes this component the whole template, by the rules for the first component of a file; the number
    /// if they refuse it.
    pub fn set_template(&mut self, relation: u8, labels: &[u8]) -> Result<(), u8> {
        self.template = Template::empty();
        self.component(&[&[relation], labels].concat()).map_err(|fault| fault.number)
    }

    /// Takes in one whole record, or tells its fault.
    fn take(&mut self, record: &Record) -> Result<(), Fault> {
        self.head(record.kind)?;
        match record.kind {
            RELATION => self.relation(record.payload)?,
            ACTION => self.action(record.payload)?,
            LITERAL => self.literal(record.payload)?,
            COMPONENT => self.component(record.payload)?,
            _ => self.closing(record.payload)?,
        }
        Ok(())
    }

    /// "record head: ... 11 unknown kind; 13 kind out of order; 14 over a limit"
    fn head(&self, kind: u16) -> Result<(), u8> {
        let actions = !self.actions.is_empty();
        let components = !self.template.components.is_empty();
        // "Order: relations, actions each followed by its literals, components, one closing record."
        let (in_order, under_limit) = match kind {
            RELATION => (!actions && !components, self.relations.len() < RELATIONS),
            ACTION => (!components, self.actions.len() < ACTIONS),
            LITERAL => {
                let literals = self.actions.last().map_or(0, |action| action.literals.len());
                (actions && !components, literals < LITERALS)
            }
            COMPONENT => (true, self.template.components.len() < COMPONENTS),
            CLOSING => (true, true),
            _ => return Err(11),
        };
        if !in_order {
            return Err(13);
        }
        if !under_limit {
            return Err(14);
        }
        Ok(())
    }

    /// "Kind 1, relation: arity, 0 to 6."
    fn relation(&mut self, payload: &[u8]) -> Result<(), u8> {
        let &[arity] = payload else { return Err(12) };
        if arity as usize > ARITY {
            return Err(15);
        }
        self.relations.push(arity);
        Ok(())
    }

    /// "Kind 2, action: variable count, 0 to 16; sort, 0 at once, 1 lasting."
    fn action(&mut self, payload: &[u8]) -> Result<(), u8> {
        let &[variables, sort] = payload else { return Err(12) };
        if variables as usize > VARIABLES || sort > 1 {
            return Err(15);
        }
        self.actions.push(Action::new(variables, sort == 1));
        Ok(())
    }

    /// "Kind 3, literal of the latest action: role, relation, one variable per argument."
    /// "A length (12, 50) comes first where it is fixed or too short for the relation or action,
    /// else once that is known."
    fn literal(&mut self, payload: &[u8]) -> Result<(), u8> {
        let &[role_byte, relation, ref variables @ ..] = payload else { return Err(12) };
        let action = self.actions.last_mut().ok_or(13)?;
        // "Roles 4 to 9 need a lasting action."
        let (when, list) = role(role_byte).ok_or(16)?;
        if when != When::Start && !action.lasting {
            return Err(16);
        }
        let arity = *self.relations.get(relation as usize).ok_or(17)?;
        if variables.len() != arity as usize {
            return Err(12);
        }
        // P4: "An argument FF in a false condition or a delete is to mean every object, at most one in a
        // literal." "FF in another role or twice gives 26 just before 18"
        let every = |variable: u8| Var(variable) == Var::EVERY;
        let cleared = variables.iter().filter(|&&variable| every(variable)).count();
        let may_clear = matches!(list, List::False | List::Delete);
        if cleared > 1 || (cleared == 1 && !may_clear) {
            return Err(26);
        }
        if variables.iter().any(|&variable| variable >= action.variables && !every(variable)) {
            return Err(18);
        }
        let literal = Literal { when, list, atom: Atom::new(relation, variables.iter().map(|&v| Var(v))) };
        // "19 repeated in its role", as it is written
        let same_role = |earlier: &Literal| earlier.when == when && earlier.list == list;
        if action.literals.iter().any(|earlier| same_role(earlier) && earlier.atom == literal.atom) {
            return Err(19);
        }
        // "20 both true and false among roles 0, 1 or among 4 to 7"; P4: "true at(0,1) with false at(0,FF)
        // is a contradiction (20)"
        let opposite = match list {
            List::True => Some(List::False),
            List::False => Some(List::True),
            List::Add | List::Delete => None,
        };
        let same_group = |earlier: &Literal| (earlier.when == When::Start) == (when == When::Start);
        let contradicts = |earlier: &Literal| same_group(earlier) && earlier.atom.meets(&literal.atom);
        if opposite.is_some_and(|opposite| action.literals.iter().any(|e| e.list == opposite && contradicts(e))) {
            return Err(20);
        }
        action.push(literal);
        Ok(())
    }

    /// "Kind 4, component: relation, one label per argument."
    fn component(&mut self, payload: &[u8]) -> Result<(), Fault> {
        let (&relation, labels) = payload.split_first().ok_or(12)?;
        let arity = *self.relations.get(relation as usize).ok_or(17)?;
        if labels.len() != arity as usize {
            return Err(12.into());
        }
        // "22 relation used before; 21 labels"
        if self.template.component(relation).is_some() {
            return Err(22.into());
        }
        // "The first component's labels other than FF number n; each component has the keys 0 to n-1
        // once each and at most one FF."
        let keys = labels.iter().filter(|&&label| label != COUNTED).count();
        let n = if self.template.components.is_empty() { keys } else { self.template.n as usize };
        if let Some((number, label)) = label_at_fault(labels, n) {
            return Err(Fault { number, byte: Some(1 + label) });
        }
        // P1: "Where a key is only missing it stays the record's."
        if keys != n {
            return Err(21.into());
        }
        // P4: "a component that puts a key where one of its relation's literals has FF gives 27 after 21"
        let mut clearing = self.actions.iter().flat_map(|action| action.clearing.map(|literal| action.atom(literal)));
        let has_key = |place: u8| labels[place as usize] != COUNTED;
        if clearing.any(|atom| atom.relation == relation && atom.cleared().is_some_and(has_key)) {
            return Err(27.into());
        }
        let mut place_of = [COUNTED; ARITY];
        let mut counted = None;
        for (place, &label) in labels.iter().enumerate() {
            match label {
                COUNTED => counted = Some(place as u8),
                key => place_of[key as usize] = place as u8,
            }
        }
        self.template.n = n as u8;
        self.template.component_of[relation as usize] = Some(self.template.components.len() as u8);
        self.template.components.push(Component { relation, arity, place_of, counted });
        Ok(())
    }

    /// "Kind 5, closing: no payload." "closing: 23 no component"
    fn closing(&self, payload: &[u8]) -> Result<(), u8> {
        if !payload.is_empty() {
            return Err(12);
        }
        if self.template.components.is_empty() {
            return Err(23);
        }
        Ok(())
    }
}

/// The number and the index of the label that is at fault. P1: "a second FF told first, then a key that
/// stands twice, then everything else about labels": 25 at "the second FF", 24 at "the first key equal to
/// an earlier one", 21 at "the first key not below n". Every label but FF is a key number, also one that
/// isn't below n.
fn label_at_fault(labels: &[u8], n: usize) -> Option<(u8, usize)> {
    let is_key = |label: u8| label != COUNTED;
    let repeated = |place: &usize| labels[..*place].contains(&labels[*place]);
    let mut places = 0..labels.len();
    let second_counted = places.clone().find(|place| !is_key(labels[*place]) && repeated(place));
    let repeated_key = places.clone().find(|place| is_key(labels[*place]) && repeated(place));
    let not_below = places.find(|place| is_key(labels[*place]) && labels[*place] as usize >= n);
    None.or(second_counted.map(|place| (25, place)))
        .or(repeated_key.map(|place| (24, place)))
        .or(not_below.map(|place| (21, place)))
}
