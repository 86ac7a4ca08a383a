//! The calls of the verified library, with memory enough for every file. Everything that the command shows as an answer
//! comes from here.

use crate::records::put;
pub use goadlotus::{Name, Template};

/// A row of a report: the name of a class of an action at a moment.
#[derive(Clone, Copy, PartialEq, Eq, Debug)]
pub struct Row {
    pub action: usize,
    pub class: usize,
    pub moment: u8,
    pub name: Name,
}

impl From<goadlotus::Row> for Row {
    fn from(row: goadlotus::Row) -> Row {
        Row { action: row.action.into(), class: row.class.into(), moment: row.moment as u8, name: row.name }
    }
}

/// A fact: relation and objects.
#[derive(Clone, PartialEq, Eq, PartialOrd, Ord, Hash, Debug)]
pub struct Fact {
    pub relation: usize,
    pub objects: Vec<u8>,
}

impl From<goadlotus::Fact<'_>> for Fact {
    fn from(fact: goadlotus::Fact) -> Fact {
        Fact { relation: fact.relation.into(), objects: fact.objects.to_vec() }
    }
}

/// What judging answers.
#[derive(Clone, PartialEq, Eq, Debug)]
pub struct Judged {
    pub number: u64,
    pub places: [u64; 3],
    pub rows: Vec<Row>,
    pub witness: Vec<Fact>,
}

impl Judged {
    /// Whether the file is well-formed, so that its template is accepted or refused.
    pub fn is_read(&self) -> bool {
        matches!(self.number, 0 | 1 | 40..)
    }

    pub fn is_accepted(&self) -> bool {
        self.number < 2
    }

    /// The row that the verdict names.
    pub fn named(&self) -> Option<&Row> {
        let at = |row: &&Row| [row.action as u64, row.class as u64, row.moment as u64] == self.places;
        self.rows.iter().find(at).filter(|_| self.number >= 40)
    }
}

/// Judges a domain file.
pub fn judge(file: &[u8]) -> Judged {
    let judged = goadlotus::judge_file(file);
    let answer = judged.answer;
    Judged {
        number: answer.number,
        places: [answer.first, answer.second, answer.third],
        rows: judged.rows().map(Row::from).collect(),
        witness: judged.facts().map(Fact::from).collect(),
    }
}

/// The templates of a single component that a well-formed domain file could have.
pub fn templates(file: &[u8]) -> Vec<Template> {
    goadlotus::list_templates(file).unwrap_or_default()
}

/// Whether each class of each action at once of a well-formed domain file shows harm, in the order of the report.
pub fn try_facts(file: &[u8]) -> Vec<bool> {
    goadlotus::try_file(file).unwrap_or_default()
}

/// What playing answers.
#[derive(Clone, PartialEq, Eq, Debug)]
pub struct Played {
    pub number: u64,
    pub place: u64,
    pub steps: u64,
    pub weight: u64,
    /// The facts held.
    pub facts: Vec<Fact>,
}

impl Played {
    /// Whether it is the domain file that can't be read.
    pub fn is_of_domain(&self) -> bool {
        (9..50).contains(&self.number)
    }
}

/// Plays a run file on a domain file.
pub fn play(domain: &[u8], run: &[u8]) -> Played {
    let played = goadlotus::play_files(domain, run);
    let answer = &played.answer;
    Played {
        number: answer.number,
        place: answer.place,
        steps: answer.steps,
        weight: answer.weight,
        facts: played.facts().map(Fact::from).collect(),
    }
}

/// Plays a run file on a domain file with an instance: its weight plus its open journeys after the last step made.
pub fn track(domain: &[u8], run: &[u8], instance: &[u8]) -> u64 {
    goadlotus::track_files(domain, run, instance).total
}

/// The highest weight of any instance where these facts hold: that of a run that starts with them and makes no step.
pub fn weight(domain: &[u8], objects: u8, facts: &[Fact]) -> u64 {
    let mut run = Vec::new();
    put(&mut run, crate::records::OBJECTS, &[objects]);
    for fact in facts {
        let payload: Vec<u8> = [fact.relation as u8].into_iter().chain(fact.objects.iter().copied()).collect();
        put(&mut run, crate::records::START_FACT, &payload);
    }
    put(&mut run, crate::records::CLOSE_RUN, &[]);
    play(domain, &run).weight
}
