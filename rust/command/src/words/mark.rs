//! `goadlotus mark DOMAIN ANSWERS ..`: students' names against the program's.

use super::{misused, troubled};
use crate::answers;
use crate::arguments::Arguments;
use crate::domain::Domain;
use crate::files::{load, load_domain, shown_name, LoadedDomain, Trouble};
use crate::folder::{files_of, Progress};
use crate::marks::{mark, Marks};
use crate::notation::source::tell as told;
use crate::output::{complain, print, tell, Status};
use crate::reasons::classes;
use crate::sentences::{about, moment_word};
use crate::table::{Cell, Form, Table};
use std::ffi::{OsStr, OsString};

const FILES: [&str; 8] = ["file", "verdict", "told", "right", "wrong", "missing", "of", "remark"];
const ROWS: [&str; 8] = ["file", "action", "class", "about", "moment", "told", "name", "mark"];

pub fn run(arguments: &Arguments) -> Result<Status, Status> {
    let [domain_name, given @ ..] = &arguments.files[..] else { return Err(misused(USAGE)) };
    if given.is_empty() {
        return Err(misused(USAGE));
    }
    let loaded = load_domain(domain_name).map_err(troubled)?;
    if !loaded.judged.is_read() {
        tell(&loaded.refusal());
        return Ok(Status::Broken);
    }
    let domain = loaded.domain();
    // a folder of hand-ins may hold the domain, too
    let hand_ins: Vec<OsString> = files_of(given).into_iter().filter(|file| file != domain_name).collect();
    let is_one = given.len() == 1 && hand_ins.first() == given.first();
    if is_one && arguments.form == Form::Columns && !arguments.rows {
        let (text, marks) = marked(&loaded, &domain, &hand_ins[0]).map_err(troubled)?;
        tell(&text);
        print(marks.sentences(&shown_name(&hand_ins[0]), &domain, &loaded.judged).as_bytes())?;
        return Ok(status_of(&marks));
    }
    table(arguments, &loaded, &domain, &hand_ins)
}

const USAGE: &str = "mark takes a domain, and a hand-in, several, or a folder of them";

/// A hand-in's marks, and what can't be made out in it.
fn marked(loaded: &LoadedDomain, domain: &Domain, name: &OsStr) -> Result<(String, Marks), Trouble> {
    let text = String::from_utf8(load(name)?)
        .map_err(|_| Trouble::Broken(format!("{}: this is not a text in UTF-8\n", shown_name(name))))?;
    let answers = answers::read(&text, domain);
    let marks = mark(&answers, &loaded.judged);
    Ok((told(&shown_name(name), &text, &answers.faults), marks))
}

fn status_of(marks: &Marks) -> Status {
    if marks.is_all_right() {
        Status::Done
    } else {
        Status::Refused
    }
}

fn table(
    arguments: &Arguments,
    loaded: &LoadedDomain,
    domain: &Domain,
    hand_ins: &[OsString],
) -> Result<Status, Status> {
    let mut table = if arguments.rows { Table::new(&ROWS) } else { Table::new(&FILES) };
    let mut status = Status::Done;
    let mut progress = Progress::new(hand_ins.len());
    for name in hand_ins {
        progress.step();
        let shown = shown_name(name);
        match (marked(loaded, domain, name), arguments.rows) {
            (Ok((_, marks)), true) => {
                status = status.worse(status_of(&marks));
                push_rows(&mut table, domain, &shown, &marks);
            }
            (Ok((text, marks)), false) => {
                status = status.worse(status_of(&marks));
                table.push(file_row(loaded, &shown, &text, &marks));
            }
            (Err(trouble), is_rows) => {
                let (said, worse) = match trouble {
                    Trouble::Access(said) => (said, Status::Access),
                    Trouble::Broken(said) => (said.trim_end().to_string(), Status::Broken),
                };
                status = status.worse(worse);
                match is_rows {
                    true => complain(&said),
                    false => table.push(unread_row(loaded, &shown, &said)),
                }
            }
        }
    }
    progress.end();
    print(table.text(arguments.form).as_bytes())?;
    Ok(status)
}

/// A hand-in's line: the domain's verdict, whether it is told, the counts, and the first line that can't be made out.
fn file_row(loaded: &LoadedDomain, name: &str, text: &str, marks: &Marks) -> Vec<Cell> {
    let first = text.lines().next().unwrap_or_default();
    let remark = first.strip_prefix(&format!("{name}:")).unwrap_or(first);
    let remark = if remark.is_empty() { String::new() } else { format!("line {remark}") };
    vec![
        name.into(),
        loaded.judged.number.into(),
        marks.verdict.word().into(),
        marks.count("right").into(),
        marks.count("wrong").into(),
        marks.count("missing").into(),
        marks.rows.len().into(),
        remark.into(),
    ]
}

fn unread_row(loaded: &LoadedDomain, name: &str, said: &str) -> Vec<Cell> {
    let mut cells = vec![Cell::from(name), loaded.judged.number.into()];
    cells.extend([Cell::Nothing, Cell::Nothing, Cell::Nothing, Cell::Nothing, Cell::Nothing, said.into()]);
    cells
}

fn push_rows(table: &mut Table, domain: &Domain, name: &str, marks: &Marks) {
    for (row, mark) in &marks.rows {
        let action = &domain.actions[row.action];
        let about = classes(domain, action).get(row.class).map_or(String::new(), |class| about(action, class));
        table.push(vec![
            name.into(),
            action.name.as_str().into(),
            row.class.into(),
            about.into(),
            moment_word(action, row.moment).into(),
            mark.told(row).into(),
            row.name.word().into(),
            mark.word().into(),
        ]);
    }
}
