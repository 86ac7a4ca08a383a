//! `goadlotus templates FILE`: every template of a single component, with its verdict.

use super::{misused, troubled};
use crate::arguments::Arguments;
use crate::domain::{Component, Domain};
use crate::files::load_domain;
use crate::library::{templates, Template};
use crate::output::{print, tell, Status};
use crate::prose::wrap;
use crate::records::FF;
use crate::table::{Cell, Form, Table};

pub fn run(arguments: &Arguments) -> Result<Status, Status> {
    let [file] = &arguments.files[..] else { return Err(misused("templates takes one file")) };
    let loaded = load_domain(file).map_err(troubled)?;
    if !loaded.judged.is_read() {
        tell(&loaded.refusal());
        return Ok(Status::Broken);
    }
    let (domain, list) = (loaded.domain(), templates(&loaded.file));
    let mut text = table(&domain, &list).text(arguments.form);
    if arguments.form == Form::Columns {
        text += &passed_over(&domain, &list);
    }
    print(text.as_bytes())?;
    Ok(Status::Done)
}

const HEADS: [&str; 5] = ["template", "relation", "counted", "number", "meaning"];

fn table(domain: &Domain, list: &[Template]) -> Table {
    let mut table = Table::new(&HEADS);
    for template in list {
        let relation = template.relation as usize;
        let counted = template.counted.map_or(Cell::from("-"), |place| Cell::from(place as usize));
        table.push(vec![
            words(domain, relation, template.counted).into(),
            domain.relation_name(relation).into(),
            counted,
            template.verdict.value().into(),
            template.verdict.meaning().into(),
        ]);
    }
    table
}

/// A template of a single component, `at[0,_]`: its keys are numbered from left to right.
fn words(domain: &Domain, relation: usize, counted: Option<u8>) -> String {
    let mut keys = 0..;
    let label = |place: usize| if counted == Some(place as u8) { FF } else { keys.next().unwrap_or(FF) };
    let labels = (0..domain.relations[relation].arity).map(label).collect();
    domain.component_words(&Component { relation, labels })
}

/// Which templates the list has not, since a key would stand where a literal has every object.
fn passed_over(domain: &Domain, list: &[Template]) -> String {
    let mut missing = Vec::new();
    for (relation, of) in domain.relations.iter().enumerate() {
        for counted in [None].into_iter().chain((0..of.arity as u8).map(Some)) {
            let is_this = |template: &&Template| template.relation as usize == relation && template.counted == counted;
            if !list.iter().any(|template| is_this(&template)) {
                missing.push(words(domain, relation, counted));
            }
        }
    }
    if missing.is_empty() {
        return String::new();
    }
    wrap("\npassed over, as a literal has * where a key would be (27): ", "    ", &missing.join(" "))
}
