//! "Verdict and witness": rows, decision, witness, judging.

use crate::classes::{classes, first_uncovered, is_journey, name, Name};
use crate::domain::{read, Atom, Domain, Fact, Key, Object, Var};

/// A moment of a class. "per moment 4 bytes (action, class, moment, name number 1 to 7), in that
/// order of sorting"
#[derive(Clone, Copy, PartialEq, Eq, Debug)]
pub struct Row {
    pub action: u8,
    pub class: u8,
    pub moment: u8,
    pub name: Name,
    /// Whether this moment is a journey's end.
    pub journeys_end: bool,
}

/// All moments, in order.
pub fn rows(domain: &Domain) -> Vec<Row> {
    let mut rows = Vec::new();
    for (number, action) in domain.actions.iter().enumerate() {
        for (class_number, class) in classes(&domain.template, action).iter().enumerate() {
            let journey = is_journey(action, class);
            for moment in 0..action.moment_count() {
                rows.push(Row {
                    action: number as u8,
                    class: class_number as u8,
                    moment: moment as u8,
                    name: name(&domain.template, action, class, moment),
                    journeys_end: journey && moment == 1,
                });
            }
        }
    }
    rows
}

/// What is decided for the file alone: accepted (0, 1), or refused for a moment (40 to 43).
#[derive(Clone, Copy, PartialEq, Eq, Debug)]
pub enum Decision {
    Accepted(u8),
    Refused(u8, Row),
}

impl Decision {
    pub fn number(&self) -> u8 {
        match self {
            Decision::Accepted(number) | Decision::Refused(number, _) => *number,
        }
    }

    pub fn is_accepted(&self) -> bool {
        matches!(self, Decision::Accepted(_))
    }
}

pub fn decide(rows: &[Row]) -> Decision {
    // "the first moment that is heavy, unbalanced, or unbounded outside a journey's end: 40, 41, 42."
    // P8: "40 is named before 41 and 41 before 42. Within one number the earliest action, class and
    // moment wins as now."
    let first = |name: Name| rows.iter().find(|row| row.name == name && !(name == Name::Unbounded && row.journeys_end));
    for (number, name) in [(40, Name::Heavy), (41, Name::Unbalanced), (42, Name::Unbounded)] {
        if let Some(row) = first(name) {
            return Decision::Refused(number, *row);
        }
    }
    // "Else, if some moment is unbounded, the first bounded one that isn't a journey's end: 43. Else
    // accepted: 1 if some moment is unbounded, 0 if none." P8: "43 is still looked for only when none of
    // these exists."
    if !rows.iter().any(|row| row.name == Name::Unbounded) {
        return Decision::Accepted(0);
    }
    match rows.iter().find(|row| row.name == Name::Bounded && !row.journeys_end) {
        Some(row) => Decision::Refused(43, *row),
        None => Decision::Accepted(1),
    }
}

/// "40 to 42 write a witness": the facts, none for any other decision.
pub fn witness(domain: &Domain, decision: &Decision) -> Vec<Fact> {
    let Decision::Refused(number @ 40..=42, row) = decision else { return Vec::new() };
    let action = &domain.actions[row.action as usize];
    let class = classes(&domain.template, action)[row.class as usize];
    // P2: "No witness is written (31 isn't tested) for an end whose class has an over-all literal."
    if row.moment == 1 && class.has_over_all(action) {
        return Vec::new();
    }
    // "variable i is object i, the spare object is the variable count"
    let object = |Var(number)| Object(number);
    let spare = Object(action.variables);
    // "the facts are all true conditions of the action at that moment, matching or not, in file
    // order, once each"
    let trues = action.trues_at[row.moment as usize];
    let mut facts: Vec<Fact> = trues.map(|literal| action.atom(literal).bind(object)).collect();
    // "then for 42 the instance fact of the first uncovered component, the spare object in its FF
    // place"
    if *number == 42 {
        let own = class.at(&action.moments[row.moment as usize]);
        if let Some(uncovered) = first_uncovered(&domain.template, action, &own) {
            let component = &domain.template.components[uncovered];
            let mut fact = Atom::new(component.relation, (0..component.arity).map(|_| spare));
            for key in (0..domain.template.n).map(Key) {
                let place = component.place_of[key.0 as usize];
                fact.args[place as usize] = object(class.tuple[key.0 as usize]);
            }
            facts.push(fact);
        }
    }
    facts
}

/// The answer of judging: the number with its three places.
#[derive(Clone, Copy, PartialEq, Eq, Debug)]
pub struct Answer {
    pub number: u8,
    pub first: usize,
    pub second: usize,
    pub third: usize,
}

impl Answer {
    /// "unused places are 0"
    fn at(number: u8, first: usize) -> Answer {
        Answer { number, first, second: 0, third: 0 }
    }
}

pub const ROW_BYTES: usize = 4;
pub const FACT_BYTES: usize = 8;

/// Judges a domain file. "9 to 31 and 58 leave lent memory untouched; 40 to 42 fill report and
/// witness, 0, 1 and 43 the report only; bytes beyond are untouched."
pub fn judge(file: &[u8], report: &mut [u8], witness_memory: &mut [u8]) -> Answer {
    let domain = match read(file) {
        Ok(domain) => domain,
        Err(stop) => return Answer::at(stop.number, stop.place),
    };
    // "30 report under 4 bytes a moment; then 40 to 43 decided; 31 witness under 8 bytes a fact"
    let rows = rows(&domain);
    if report.len() < ROW_BYTES * rows.len() {
        return Answer::at(30, 0);
    }
    let decision = decide(&rows);
    let facts = witness(&domain, &decision);
    if witness_memory.len() < FACT_BYTES * facts.len() {
        return Answer::at(31, 0);
    }
    for (bytes, row) in report.chunks_exact_mut(ROW_BYTES).zip(&rows) {
        bytes.copy_from_slice(&[row.action, row.class, row.moment, row.name as u8]);
    }
    for (bytes, fact) in witness_memory.chunks_exact_mut(FACT_BYTES).zip(&facts) {
        bytes.copy_from_slice(&fact.bytes());
    }
    // "40 to 43 action, class, moment; unused places are 0"
    match decision {
        Decision::Accepted(number) => Answer::at(number, 0),
        Decision::Refused(number, row) => {
            Answer { number, first: row.action as usize, second: row.class as usize, third: row.moment as usize }
        }
    }
}
