//! The verdict of a domain in sentences: what it is, every row with its reason, and what the witness leads to.

use crate::domain::{Action, Domain, Literal, Time};
use crate::evidence::evidence;
use crate::files::LoadedDomain;
use crate::library::{Judged, Name, Row};
use crate::prose::{listed, paragraph, wrap};
use crate::reasons::{classes, is_journey, Class, Counting};
use crate::sentences::{about, moment_word, Sentences};

/// Everything about a domain that the library reads.
pub fn explain(loaded: &LoadedDomain) -> String {
    let domain = loaded.domain();
    let explained = Explained { domain: &domain, loaded };
    let mut text = explained.verdict();
    for (number, action) in domain.actions.iter().enumerate() {
        text += &explained.action(number, action);
    }
    text + &evidence(&domain, &loaded.file, &loaded.judged)
}

/// What a verdict is called.
pub fn verdict_word(number: u64) -> &'static str {
    match number {
        0 | 1 => "accepted",
        40..=43 => "refused",
        _ => "not read",
    }
}

struct Explained<'d> {
    domain: &'d Domain,
    loaded: &'d LoadedDomain,
}

impl Explained<'_> {
    fn judged(&self) -> &Judged {
        &self.loaded.judged
    }

    fn verdict(&self) -> String {
        let number = self.judged().number;
        let template = self.domain.template_words();
        let mut text = match number {
            0 | 1 => paragraph("", &format!("accepted ({number}): the template {template} is safe in every run.")),
            _ => wrap("", "    ", &format!("refused ({number}): {}", self.fault())),
        };
        text += &paragraph("  ", &self.meaning());
        if number == 1 {
            text += &paragraph("  ", "Some actions are journeys: the start takes the one fact away, and the end gives one back; in between there is none.");
        }
        text
    }

    /// What is claimed of the instances.
    fn meaning(&self) -> String {
        let keys = self.domain.keys();
        let whose = match keys {
            0 => "At most one of these facts is true at any time".to_string(),
            1 => "Of each object under key 0 at most one of these facts is true at any time".to_string(),
            _ => format!(
                "Of any objects under the keys 0 to {} at most one of these facts is true at any time",
                keys - 1
            ),
        };
        if self.judged().is_accepted() {
            return format!("{whose}, in every run that starts with at most one.");
        }
        let is_exact = !self.domain.actions.iter().any(|action| action.lasting);
        let doubt = if is_exact { "is wrong" } else { "can't be relied on" };
        format!("The claim of the template {} {doubt}: \"{whose}.\"", self.domain.template_words())
    }

    fn fault(&self) -> String {
        let Some(row) = self.judged().named() else { return "the library names no row".to_string() };
        let action = &self.domain.actions[row.action];
        let classes = classes(self.domain, action);
        let about = classes.get(row.class).map_or(String::new(), |class| about(action, class));
        format!("{} is {} about {about}, {}.", action.name, row.name.word(), moment_word(action, row.moment))
    }

    /// An action with its rows.
    fn action(&self, number: usize, action: &Action) -> String {
        let sort = if action.lasting { "lasting" } else { "at once" };
        let mut text = wrap("\n", "    ", &format!("{sort} {}", action.head()));
        let classes = classes(self.domain, action);
        if classes.is_empty() {
            return text + &paragraph("  ", "no class: none of its literals is of a relation in the template.");
        }
        for row in self.judged().rows.iter().filter(|row| row.action == number) {
            text += &self.row(action, &classes, row);
        }
        text
    }

    fn row(&self, action: &Action, classes: &[Class], row: &Row) -> String {
        let Some(class) = classes.get(row.class) else { return no_reason(row) };
        let is_end_of_journey = row.moment == 1 && is_journey(action, class);
        let journey = if is_end_of_journey { ", the end of a journey" } else { "" };
        let head = format!("class {}, about {}, {}", row.class, about(action, class), moment_word(action, row.moment));
        let mut text = wrap("  ", "      ", &format!("{head}: {}{journey}", row.name.word()));
        if self.judged().named() == Some(row) {
            text += "    THE FAULT\n";
        }
        let sentences = Sentences::new(self.domain, action, class, row.moment);
        text += &self.literals(action, class, &sentences.counting);
        if sentences.name() != row.name {
            return text + &no_reason(row);
        }
        text += &wrap("    ", "      ", &format!("{}: {}", row.name.word(), sentences.reason()));
        if let Some(before) = Name::of(row.name as u8 - 1) {
            text += &wrap("    ", "      ", &format!("not {}: {}", before.word(), sentences.reason_not(before)));
        }
        if is_end_of_journey && row.name >= Name::Bounded {
            let said = "its start takes the fact away that it asks for, so the end fills what is empty.";
            text += &wrap("    ", "      ", &format!("a journey: {said}"));
        }
        if self.judged().number == 43 && self.judged().named() == Some(row) {
            text += &wrap("    ", "      ", &format!("refused, because {}", self.beside_journeys()));
        }
        text
    }

    /// Why a bounded row is a fault beside the unbounded end of a journey.
    fn beside_journeys(&self) -> String {
        let unbounded = self.judged().rows.iter().filter(|row| row.name == Name::Unbounded);
        let names: Vec<String> = unbounded.map(|row| self.domain.actions[row.action].name.clone()).collect();
        let names = listed(&dedup(names));
        format!("a journey ({names}) may be open: it has emptied the instance, this fills it, and the journey's end, which is unbounded, adds a second fact.")
    }

    /// The literals that count, a line each.
    fn literals(&self, action: &Action, class: &Class, counting: &Counting) -> String {
        let all = counting.all(class);
        if all.is_empty() {
            return "      no literal counts\n".to_string();
        }
        all.iter().map(|literal| self.literal_line(action, literal)).collect()
    }

    fn literal_line(&self, action: &Action, literal: &Literal) -> String {
        let over_all = if literal.time == Time::All { "  (over all)" } else { "" };
        format!("      {:6} {}{over_all}\n", literal.list.word(), self.domain.literal(action, literal))
    }
}

fn no_reason(row: &Row) -> String {
    format!("      no reason was found for {}: please report this file\n", row.name.word())
}

fn dedup(mut names: Vec<String>) -> Vec<String> {
    names.dedup();
    names
}
