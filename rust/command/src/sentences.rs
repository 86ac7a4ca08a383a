//! The reason for a name in sentences.

use crate::domain::{Action, Domain, Literal};
use crate::library::Name;
use crate::prose::listed;
use crate::reasons::{counting, why, Class, Counting, Lack, Why};

/// What a class is about: the variables under its keys; without keys there is one class, about the template itself.
pub fn about(action: &Action, class: &Class) -> String {
    match &class.key_tuple[..] {
        [] => "the template".to_string(),
        tuple => listed(&tuple.iter().map(|&variable| action.variable(variable)).collect::<Vec<_>>()),
    }
}

/// When the event of a row happens.
pub fn moment_word(action: &Action, moment: u8) -> &'static str {
    match moment {
        _ if !action.lasting => "at once",
        0 => "at the start",
        _ => "at the end",
    }
}

/// A class at a moment, to be talked about.
pub struct Sentences<'d> {
    domain: &'d Domain,
    action: &'d Action,
    pub counting: Counting<'d>,
    why: Why<'d>,
    about: String,
}

impl<'d> Sentences<'d> {
    pub fn new(domain: &'d Domain, action: &'d Action, class: &Class<'d>, moment: u8) -> Sentences<'d> {
        let counting = counting(class, moment);
        let why = why(domain, &counting);
        Sentences { domain, action, counting, why, about: about(action, class) }
    }

    /// The name that the reason is for.
    pub fn name(&self) -> Name {
        self.why.name()
    }

    fn literal(&self, literal: &Literal) -> String {
        self.domain.literal(self.action, literal)
    }

    fn literals(&self, literals: &[&Literal]) -> String {
        listed(&literals.iter().map(|literal| self.literal(literal)).collect::<Vec<_>>())
    }

    /// Why the name fits.
    pub fn reason(&self) -> String {
        let about = &self.about;
        match &self.why {
            Why::Unreachable { trues } => format!(
                "it asks for {} facts of {about} at once, {}; where {about} has at most one, it never happens.",
                trues.len(),
                self.literals(trues)
            ),
            Why::Irrelevant { .. } => format!("it adds no fact of {about}."),
            Why::Heavy { adds } => format!("it adds {} facts of {about}: {}.", adds.len(), self.literals(adds)),
            Why::Balanced { add, deleted: None, .. } => {
                format!("the one fact of {about} that it adds, {}, is the one that it asks for.", self.literal(add))
            }
            Why::Balanced { condition, deleted: Some(delete), add } => {
                let with = if delete.clears() { format!(" with {}", self.literal(delete)) } else { String::new() };
                let (condition, add) = (self.literal(condition), self.literal(add));
                format!("it asks for {condition} and deletes it{with}, and {add} comes in its place.")
            }
            Why::Unbalanced { condition, add } => {
                let (condition, add) = (self.literal(condition), self.literal(add));
                format!("it asks for {condition} and leaves it true, and adds {add}: then both are true of {about}.")
            }
            Why::Bounded { add, covered } => {
                let covering: Vec<String> = covered.iter().map(|cover| self.covering(cover)).collect();
                let (add, covering) = (self.literal(add), covering.join(", "));
                let covered =
                    format!("every component is covered, so no other fact of {about} is true then: {covering}");
                format!("it adds {add} and {}, and {covered}.", self.asks_for_none())
            }
            Why::Unbounded { add, component, lack } => {
                let (add, lack) = (self.literal(add), self.lack(*component, *lack));
                let asks_for_none = self.asks_for_none();
                format!("it adds {add} and {asks_for_none}, so {about} may have one already: {lack}.")
            }
        }
    }

    /// That the moment itself asks for no fact; what is asked over all ends just before an end.
    fn asks_for_none(&self) -> String {
        match &self.counting.over_all[..] {
            [] => format!("asks for no fact of {}", self.about),
            over_all => {
                let over_all = self.literals(over_all);
                format!("asks for no fact of {} itself ({over_all} over all counts for unreachable alone)", self.about)
            }
        }
    }

    fn covering(&self, (component, literal): &(usize, &Literal)) -> String {
        let component = self.domain.component_words(&self.domain.components[*component]);
        format!("{component} by {} {}", literal.list.word(), self.literal(literal))
    }

    fn lack(&self, component: usize, lack: Lack) -> String {
        let component = &self.domain.components[component];
        let words = self.domain.component_words(component);
        let relation = self.domain.relation_name(component.relation);
        match lack {
            Lack::Counted => {
                format!("the component {words} has a counted place, and no false or delete here has * there, so there are facts of it that no literal names")
            }
            Lack::Unnamed => {
                let about = &self.about;
                format!("the component {words} is not covered, as no false, add or delete here is of {relation} and {about}")
            }
        }
    }

    /// Why another name isn't the one: it doesn't fit, or this one comes before it in the list.
    pub fn reason_not(&self, other: Name) -> String {
        if other > self.name() {
            return format!("{} comes before it in the list, and fits.", self.name().word());
        }
        let asked = self.counting.asked();
        match (other, self.counting.trues.first()) {
            (Name::Unreachable, _) if !asked.is_empty() => {
                format!("it asks for no more than one fact of {}, {}.", self.about, self.literals(&asked))
            }
            (Name::Balanced, Some(condition)) => format!("{} is neither deleted nor added.", self.literal(condition)),
            (Name::Unreachable | Name::Balanced | Name::Unbalanced, _) => format!("it {}.", self.asks_for_none()),
            (Name::Irrelevant, _) => format!("it adds {}.", self.literals(&self.counting.adds)),
            (Name::Heavy, _) => format!("it adds only {}.", self.literals(&self.counting.adds)),
            (Name::Bounded | Name::Unbounded, _) => "for that every component would have to be covered.".to_string(),
        }
    }
}
