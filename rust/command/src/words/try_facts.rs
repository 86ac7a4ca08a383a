//! `goadlotus try FILE`: whether some facts show harm, for each class of each action at once.

use super::{misused, troubled};
use crate::arguments::Arguments;
use crate::domain::Domain;
use crate::files::{load_domain, LoadedDomain};
use crate::library::{try_facts, Row};
use crate::output::{print, tell, Status};
use crate::prose::{paragraph, wrap};
use crate::scenario::{line, objects_taken};
use crate::sentences::about;
use crate::table::{Form, Table};
use crate::tried::{tried, Tried};

pub fn run(arguments: &Arguments) -> Result<Status, Status> {
    let [file] = &arguments.files[..] else { return Err(misused("try takes one file")) };
    let loaded = load_domain(file).map_err(troubled)?;
    if !loaded.judged.is_read() {
        tell(&loaded.refusal());
        return Ok(Status::Broken);
    }
    let domain = loaded.domain();
    let classes = tried(&domain, &try_facts(&loaded.file));
    let shown = match arguments.form {
        Form::Columns => sentences(&loaded, &domain, &classes),
        form => table(&loaded, &classes).text(form),
    };
    print(shown.as_bytes())?;
    Ok(if classes.iter().any(|class| class.harms) { Status::Refused } else { Status::Done })
}

const HEADS: [&str; 5] = ["action", "class", "about", "harm", "name"];

fn table(loaded: &LoadedDomain, classes: &[Tried]) -> Table {
    let mut table = Table::new(&HEADS);
    for class in classes {
        table.push(vec![
            class.action.name.as_str().into(),
            class.class_number.into(),
            about(class.action, &class.class).into(),
            answer(class).into(),
            name(loaded, class).into(),
        ]);
    }
    table
}

fn answer(class: &Tried) -> &'static str {
    if class.harms {
        "yes"
    } else {
        "no"
    }
}

/// The name that the report has for the class.
fn name(loaded: &LoadedDomain, class: &Tried) -> &'static str {
    let is_this = |row: &&Row| row.action == class.number && row.class == class.class_number;
    loaded.judged.rows.iter().find(is_this).map_or("", |row| row.name.word())
}

/// Every action with its classes; where the answer is yes, the first set of facts that leads to two.
fn sentences(loaded: &LoadedDomain, domain: &Domain, classes: &[Tried]) -> String {
    if domain.actions.is_empty() {
        return "no action: there is nothing to try.\n".to_string();
    }
    let mut text = String::new();
    for (number, action) in domain.actions.iter().enumerate() {
        let sort = if action.lasting { "lasting" } else { "at once" };
        let before = if number == 0 { "" } else { "\n" };
        text += &wrap(before, "    ", &format!("{sort} {}", action.head()));
        let own: Vec<&Tried> = classes.iter().filter(|class| class.number == number).collect();
        for class in &own {
            text += &class_words(loaded, domain, class);
        }
        if action.lasting {
            text += &paragraph("  ", "not tried: only actions at once are.");
        } else if own.is_empty() {
            text += &paragraph("  ", "no class: none of its literals is of a relation in the template.");
        }
    }
    text
}

fn class_words(loaded: &LoadedDomain, domain: &Domain, class: &Tried) -> String {
    let shown = match (class.harms, class.sets(domain).len()) {
        (true, 1) => "the only set leads to two facts".to_string(),
        (true, sets) => format!("some set of {sets} leads to two facts"),
        (false, 1) => "the only set does not lead to two facts".to_string(),
        (false, sets) => format!("none of {sets} sets leads to two facts"),
    };
    let head = format!("class {}, about {}", class.class_number, about(class.action, &class.class));
    let said = format!("{head}: {}, {shown} ({})", answer(class), name(loaded, class));
    let text = wrap("  ", "      ", &said);
    if !class.harms {
        return text;
    }
    let Some(scenario) = class.first_harm(domain, &loaded.file) else {
        return text + &paragraph("    ", "no such set was found: please report this file");
    };
    let after = scenario.state(1).facts;
    text + &paragraph("  ", &objects_taken(class.action))
        + &line("facts", &scenario.facts_words(&scenario.facts))
        + &line("event", &scenario.event_words(0))
        + &line("after it", &scenario.facts_words(&after))
        + &paragraph("  ", &scenario.weights())
}
