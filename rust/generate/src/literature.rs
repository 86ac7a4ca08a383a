//! Domains of the planning literature, from the texts in cases/literature.
//!
//! The texts are in the notation of the command (`rust/command/src/notation`). Read here are its plain lines alone, so
//! that the two readers can be compared: `relation NAME/ARITY`; `lasting NAME(VARIABLE, ..)` and `at once NAME(..)`, each
//! followed by its literals; a literal is its time (`start`, `all`, `end`; none at once), its list (`true`, `false`,
//! `add`, `delete`), and its relation with its variables, or `*` for every object. The template is passed over, since each
//! domain is tried with several. A line that starts with # is a remark.

use crate::domains::{Plan, PlanAction, FF};
use crate::records::{rec, Rec};

pub const DEPOTS: &str = include_str!("../../cases/literature/depots.txt");
pub const DRIVERLOG: &str = include_str!("../../cases/literature/driverlog.txt");
pub const FLOORTILE: &str = include_str!("../../cases/literature/floortile.txt");
pub const ROVERS: &str = include_str!("../../cases/literature/rovers.txt");
pub const SATELLITE: &str = include_str!("../../cases/literature/satellite.txt");

/// A domain with its names, and no template yet.
#[derive(Clone, Debug, Default)]
pub struct Named {
    relations: Vec<(String, u8)>,
    actions: Vec<(String, PlanAction)>,
}

/// The place of a name in a list. Panics where it is missing: the texts are ours.
fn place<T>(list: &[(String, T)], name: &str) -> usize {
    list.iter().position(|(other, _)| other == name).unwrap_or_else(|| panic!("{name:?} is unknown"))
}

impl Named {
    /// Reads a text. Panics where it doesn't have the form told above.
    pub fn read(text: &str) -> Named {
        let mut domain = Named::default();
        let mut variables: Vec<&str> = Vec::new();
        for line in text.lines().filter(|line| !line.starts_with('#') && !line.is_empty()) {
            let words: Vec<&str> = line.split(&[' ', '(', ')', ',', '/']).filter(|word| !word.is_empty()).collect();
            match words[..] {
                ["relation", name, arity] => {
                    let arity = arity.parse().unwrap_or_else(|_| panic!("no arity: {line:?}"));
                    domain.relations.push((name.to_string(), arity));
                }
                ["lasting", name, ref of @ ..] | ["at", "once", name, ref of @ ..] => {
                    variables = of.to_vec();
                    let action = PlanAction::new(variables.len() as u8, words[0] == "lasting");
                    domain.actions.push((name.to_string(), action));
                }
                ["template", ..] => {}
                ["start", ref literal @ ..] => domain.literal(0, literal, &variables),
                ["all", ref literal @ ..] => domain.literal(4, literal, &variables),
                ["end", ref literal @ ..] => domain.literal(6, literal, &variables),
                ref literal => domain.literal(0, literal, &variables),
            }
        }
        domain
    }

    /// A literal of the latest action: its list, its relation and its arguments; `first` is the first role of its time.
    fn literal(&mut self, first: u8, words: &[&str], variables: &[&str]) {
        let [list, relation, of @ ..] = words else { panic!("not a line of a domain: {words:?}") };
        let lists = ["true", "false", "add", "delete"];
        let role = first + lists.iter().position(|other| other == list).expect("a list") as u8;
        let relation = place(&self.relations, relation) as u8;
        let argument = |name: &&str| match *name {
            "*" => FF,
            name => variables.iter().position(|other| *other == name).expect("a variable") as u8,
        };
        let of: Vec<u8> = of.iter().map(argument).collect();
        assert_eq!(of.len(), self.relations[relation as usize].1 as usize, "{words:?}");
        let (_, action) = self.actions.last_mut().expect("an action before its literals");
        action.literals.push((role, relation, of));
    }

    /// The same domain with every action at once: what is true or false at any time is a condition, all effects come
    /// together. A literal that would stand twice stands once.
    pub fn at_once(&self) -> Named {
        let mut domain = self.clone();
        for (_, action) in &mut domain.actions {
            let mut once = PlanAction::new(action.variables, false);
            for (role, relation, of) in action.literals.drain(..) {
                let list = match role {
                    0..=3 => role,
                    4..=5 => role - 4,
                    _ => role - 6,
                };
                once.push(list, relation, of);
            }
            *action = once;
        }
        domain
    }

    pub fn relation(&self, name: &str) -> u8 {
        place(&self.relations, name) as u8
    }

    pub fn action(&self, name: &str) -> u8 {
        place(&self.actions, name) as u8
    }

    pub fn variables(&self, action: u8) -> u8 {
        self.actions[action as usize].1.variables
    }

    /// The number of moments of each class of an action: two if it lasts.
    pub fn moments(&self, action: u8) -> usize {
        1 + self.actions[action as usize].1.lasting as usize
    }

    /// The domain with a template as the paper writes one: `at[0,FF], out[0,FF]`.
    pub fn with(&self, template: &str) -> Plan {
        let component = |text: &str| {
            let (relation, labels) = text.strip_suffix(']').and_then(|text| text.split_once('[')).expect("a component");
            let label = |text: &str| if text == "FF" { FF } else { text.parse().expect("a key") };
            let labels = labels.split(',').filter(|text| !text.is_empty()).map(label).collect();
            (self.relation(relation), labels)
        };
        Plan {
            relations: self.relations.iter().map(|relation| relation.1).collect(),
            actions: self.actions.iter().map(|action| action.1.clone()).collect(),
            components: template.split(", ").map(component).collect(),
        }
    }

    /// A run over the domain. A fact is its relation and objects, `at 0 2`; an event its moment (`start` or `once`,
    /// `end`), its action and its objects, `start drop 0 1`; a step is its events with `, ` between them.
    pub fn run(&self, objects: u8, facts: &[&str], steps: &[&str]) -> Vec<Rec> {
        let number = |word: &&str| word.parse::<u8>().unwrap_or_else(|_| panic!("not an object: {word:?}"));
        let mut records = vec![rec(16, [objects])];
        for fact in facts {
            let words: Vec<&str> = fact.split(' ').collect();
            let mut payload = vec![self.relation(words[0])];
            payload.extend(words[1..].iter().map(number));
            records.push(rec(17, payload));
        }
        for step in steps {
            for event in step.split(", ") {
                let words: Vec<&str> = event.split(' ').collect();
                let moment = match words[0] {
                    "start" | "once" => 0,
                    "end" => 1,
                    other => panic!("not a moment: {other:?}"),
                };
                let mut payload = vec![moment, self.action(words[1])];
                payload.extend(words[2..].iter().map(number));
                records.push(rec(18, payload));
            }
            records.push(rec(19, []));
        }
        records.push(rec(20, []));
        records
    }
}

#[cfg(test)]
mod tests {
    use super::*;

    /// Every text is a domain file with any of its relations as template, as it stands and with all actions at once.
    #[test]
    fn all_are_well_formed() {
        for text in [DEPOTS, DRIVERLOG, FLOORTILE, ROVERS, SATELLITE] {
            let domain = Named::read(text);
            for domain in [domain.at_once(), domain] {
                for (name, arity) in &domain.relations {
                    let labels: Vec<String> = (0..*arity).map(|key| key.to_string()).collect();
                    let plan = domain.with(&format!("{name}[{}]", labels.join(",")));
                    assert!(model::read(&plan.file()).is_ok(), "{name}");
                }
            }
        }
    }
}

/// Start facts and steps of a run, in words.
pub struct Told {
    pub facts: Vec<String>,
    pub events: Vec<String>,
}

impl Told {
    pub fn facts(&self) -> Vec<&str> {
        self.facts.iter().map(String::as_str).collect()
    }

    pub fn events(&self) -> Vec<&str> {
        self.events.iter().map(String::as_str).collect()
    }
}

/// Two rovers, 0 and 1, with stores 2 and 3, sample soil or rock at waypoint 4.
pub fn rovers_sampling(what: &str) -> Told {
    let mut facts = vec![format!("at_{what}_sample 4")];
    for (rover, store) in [(0, 2), (1, 3)] {
        facts.extend([format!("at {rover} 4"), format!("equipped_for_{what}_analysis {rover}")]);
        facts.extend([format!("store_of {store} {rover}"), format!("empty {store}")]);
    }
    let mut events = Vec::new();
    for moment in ["start", "end"] {
        events.extend([format!("{moment} sample_{what} 0 2 4"), format!("{moment} sample_{what} 1 3 4")]);
    }
    Told { facts, events }
}

/// Rover 0 drops twice what store 1 has, and samples in between at waypoint 2.
pub fn rovers_dropping() -> Told {
    let facts = ["full 1", "store_of 1 0", "at 0 2", "at_soil_sample 2", "equipped_for_soil_analysis 0"];
    let events = [
        "start drop 0 1",
        "start drop 0 1",
        "end drop 0 1",
        "start sample_soil 0 1 2",
        "end drop 0 1",
        "end sample_soil 0 1 2",
    ];
    Told { facts: facts.map(String::from).to_vec(), events: events.map(String::from).to_vec() }
}

/// Hoist 0 with crate 1 and hoist 5 with crate 6 drop them on pallet 2 in depot 3, and both end in one step.
pub fn depots_dropping_twice() -> Told {
    let facts = ["at 0 3", "at 5 3", "at 2 3", "clear 2", "lifting 0 1", "lifting 5 6"];
    let events = ["start drop 0 1 2 3, start drop 5 6 2 3", "end drop 0 1 2 3, end drop 5 6 2 3"];
    Told { facts: facts.map(String::from).to_vec(), events: events.map(String::from).to_vec() }
}

/// Hoist 0 drops crate 1 on pallet 2 and loads it into truck 4, and both end in one step.
pub fn depots_dropping_and_loading() -> Told {
    let facts = ["at 0 3", "at 2 3", "at 4 3", "clear 2", "lifting 0 1"];
    let events = ["start drop 0 1 2 3, start load 0 1 4 3", "end drop 0 1 2 3, end load 0 1 4 3"];
    Told { facts: facts.map(String::from).to_vec(), events: events.map(String::from).to_vec() }
}
