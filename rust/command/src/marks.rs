//! A student's names against the library's: right, wrong, missing.

use crate::answers::{Answers, ToldVerdict};
use crate::domain::Domain;
use crate::explain::verdict_word;
use crate::library::{Judged, Name, Row};
use crate::prose::wrap;
use crate::reasons::classes;
use crate::sentences::{about, moment_word, Sentences};

#[derive(Clone, PartialEq, Eq, Debug)]
pub enum Mark {
    Right,
    /// Another name, or a word that is none.
    Wrong(Result<Name, String>),
    Missing,
}

impl Mark {
    pub fn word(&self) -> &'static str {
        match self {
            Mark::Right => "right",
            Mark::Wrong(_) => "wrong",
            Mark::Missing => "missing",
        }
    }

    /// What the student wrote.
    pub fn told(&self, row: &Row) -> String {
        match self {
            Mark::Right => row.name.word().to_string(),
            Mark::Wrong(Ok(name)) => name.word().to_string(),
            Mark::Wrong(Err(word)) => word.clone(),
            Mark::Missing => String::new(),
        }
    }
}

/// The marks of one hand-in.
#[derive(Clone, Debug)]
pub struct Marks {
    pub rows: Vec<(Row, Mark)>,
    pub verdict: Mark,
    /// Lines that name no row of the domain, or that can't be made out.
    pub faults: usize,
}

/// Marks a hand-in.
pub fn mark(answers: &Answers, judged: &Judged) -> Marks {
    let rows = judged.rows.iter().map(|row| {
        let place = [row.action, row.class, row.moment as usize];
        let told = answers.rows.iter().find(|told| told.place == place);
        let mark = match told.map(|told| &told.name) {
            None => Mark::Missing,
            Some(Ok(name)) if *name == row.name => Mark::Right,
            Some(name) => Mark::Wrong(name.clone()),
        };
        (*row, mark)
    });
    let rows: Vec<(Row, Mark)> = rows.collect();
    let is_row = |place: [usize; 3]| rows.iter().any(|(row, _)| [row.action, row.class, row.moment as usize] == place);
    let strangers = answers.rows.iter().filter(|told| !is_row(told.place)).count();
    Marks { verdict: verdict(answers, judged), faults: answers.faults.len() + strangers, rows }
}

fn verdict(answers: &Answers, judged: &Judged) -> Mark {
    let is_right = match answers.verdict {
        None => return Mark::Missing,
        Some(ToldVerdict::Accepted) => judged.is_accepted(),
        Some(ToldVerdict::Refused) => !judged.is_accepted(),
        Some(ToldVerdict::Number(number)) => number == judged.number,
    };
    let told = match answers.verdict {
        Some(ToldVerdict::Number(number)) => number.to_string(),
        Some(ToldVerdict::Accepted) => "accepted".to_string(),
        _ => "refused".to_string(),
    };
    if is_right {
        Mark::Right
    } else {
        Mark::Wrong(Err(told))
    }
}

impl Marks {
    pub fn count(&self, word: &str) -> usize {
        self.rows.iter().filter(|(_, mark)| mark.word() == word).count()
    }

    /// Whether nothing is wrong or missing; a verdict need not be told.
    pub fn is_all_right(&self) -> bool {
        let is_wrong = |mark: &Mark| matches!(mark, Mark::Wrong(_));
        self.count("right") == self.rows.len() && !is_wrong(&self.verdict) && self.faults == 0
    }

    /// In sentences, with the reason for each that is wrong or missing.
    pub fn sentences(&self, name: &str, domain: &Domain, judged: &Judged) -> String {
        let (right, wrong, missing) = (self.count("right"), self.count("wrong"), self.count("missing"));
        let counts = format!("{name}: {right} of {} right, {wrong} wrong, {missing} missing", self.rows.len());
        let verdict = match &self.verdict {
            Mark::Missing => String::new(),
            Mark::Right => format!("; the verdict is right, {} ({})", verdict_word(judged.number), judged.number),
            Mark::Wrong(told) => {
                let told = told.clone().err().unwrap_or_default();
                format!(
                    "; the verdict is wrong: told is {told}, it is {} ({})",
                    verdict_word(judged.number),
                    judged.number
                )
            }
        };
        let mut text = wrap("", "    ", &format!("{counts}{verdict}."));
        for (row, mark) in self.rows.iter().filter(|(_, mark)| *mark != Mark::Right) {
            text += &row_sentences(domain, row, mark);
        }
        text
    }
}

/// What is told of a row and what it is, with the reasons.
fn row_sentences(domain: &Domain, row: &Row, mark: &Mark) -> String {
    let action = &domain.actions[row.action];
    let classes = classes(domain, action);
    let Some(class) = classes.get(row.class) else { return String::new() };
    let sentences = Sentences::new(domain, action, class, row.moment);
    let head = format!("{}, about {}, {}", action.name, about(action, class), moment_word(action, row.moment));
    let told = match mark {
        Mark::Missing => "nothing is told".to_string(),
        other => format!("told is {}", other.told(row)),
    };
    let mut text = wrap("  ", "      ", &format!("{head}: {told}, it is {}", row.name.word()));
    text += &wrap("    ", "      ", &format!("{}: {}", row.name.word(), sentences.reason()));
    if let Mark::Wrong(Ok(name)) = mark {
        text += &wrap("    ", "      ", &format!("not {}: {}", name.word(), sentences.reason_not(*name)));
    }
    text
}
