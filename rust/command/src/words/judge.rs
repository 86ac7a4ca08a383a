//! `goadlotus judge FILE ..`: the verdict and the names; of many files a table.

use super::{misused, troubled};
use crate::arguments::Arguments;
use crate::domain::Domain;
use crate::explain::verdict_word;
use crate::files::{load_domain, shown_name, LoadedDomain, Trouble};
use crate::folder::{files_of, Progress};
use crate::library::Row;
use crate::output::{print, tell, Status};
use crate::prose::paragraph;
use crate::reasons::{classes, is_journey, Class};
use crate::sentences::{about, moment_word};
use crate::table::{Cell, Form, Table};

pub fn run(arguments: &Arguments) -> Result<Status, Status> {
    if arguments.files.is_empty() {
        return Err(misused("judge takes a file, several, or a folder"));
    }
    let named = files_of(&arguments.files);
    let is_one = matches!(&named[..], [one] if arguments.files.first() == Some(one));
    if is_one && arguments.form == Form::Columns && !arguments.rows {
        return one(&load_domain(&named[0]).map_err(troubled)?);
    }
    let mut table = if arguments.rows { Table::new(&ROWS) } else { Table::new(&FILES) };
    let mut status = Status::Done;
    let mut progress = Progress::new(named.len());
    for name in &named {
        progress.step();
        let loaded = load_domain(name);
        status = status.worse(status_of(&loaded));
        match (loaded, arguments.rows) {
            (Ok(loaded), true) if loaded.judged.is_read() => push_rows(&mut table, &loaded),
            (loaded, true) => tell(&trouble_words(&shown_name(name), loaded)),
            (loaded, false) => table.push(file_row(&shown_name(name), loaded)),
        }
    }
    progress.end();
    print(table.text(arguments.form).as_bytes())?;
    Ok(status)
}

const FILES: [&str; 8] = ["file", "number", "verdict", "action", "about", "moment", "name", "remark"];
const ROWS: [&str; 7] = ["file", "action", "class", "about", "moment", "name", "remark"];

fn status_of(loaded: &Result<LoadedDomain, Trouble>) -> Status {
    match loaded {
        Ok(loaded) => Status::of_verdict(loaded.judged.number),
        Err(Trouble::Access(_)) => Status::Access,
        Err(Trouble::Broken(_)) => Status::Broken,
    }
}

/// The sentences about a file that isn't judged.
fn trouble_words(name: &str, loaded: Result<LoadedDomain, Trouble>) -> String {
    match loaded {
        Ok(loaded) => loaded.refusal(),
        Err(Trouble::Access(said)) => format!("{name}: {said}\n"),
        Err(Trouble::Broken(said)) => said,
    }
}

/// The verdict, and a line for each row.
fn one(loaded: &LoadedDomain) -> Result<Status, Status> {
    let number = loaded.judged.number;
    if !loaded.judged.is_read() {
        tell(&loaded.refusal());
        return Ok(Status::Broken);
    }
    let domain = loaded.domain();
    let mut text = paragraph("", &format!("{} ({number}): {}", verdict_word(number), domain.template_words()));
    let mut table = Table::new(&ROWS[1..]);
    for row in &loaded.judged.rows {
        table.push(row_cells(loaded, &domain, row));
    }
    if !loaded.judged.rows.is_empty() {
        text += &table.text(Form::Columns);
    }
    for action in domain.actions.iter().filter(|action| classes(&domain, action).is_empty()) {
        text += &format!("{} has no class: none of its literals is of a relation in the template\n", action.name);
    }
    print(text.as_bytes())?;
    Ok(Status::of_verdict(number))
}

/// A row of the report: action, class, what it is about, moment, name, remark.
fn row_cells(loaded: &LoadedDomain, domain: &Domain, row: &Row) -> Vec<Cell> {
    let action = &domain.actions[row.action];
    let classes = classes(domain, action);
    let class = classes.get(row.class);
    let is_journeys_end = class.is_some_and(|class| row.moment == 1 && is_journey(action, class));
    let remark = match (loaded.judged.named() == Some(row), is_journeys_end) {
        (true, _) => "the fault",
        (false, true) => "end of a journey",
        _ => "",
    };
    let about = class.map_or(String::new(), |class: &Class| about(action, class));
    let moment = moment_word(action, row.moment);
    vec![
        action.name.as_str().into(),
        row.class.into(),
        about.into(),
        moment.into(),
        row.name.word().into(),
        remark.into(),
    ]
}

fn push_rows(table: &mut Table, loaded: &LoadedDomain) {
    let domain = loaded.domain();
    for row in &loaded.judged.rows {
        let mut cells = vec![Cell::from(loaded.name.as_str())];
        cells.extend(row_cells(loaded, &domain, row));
        table.push(cells);
    }
}

/// A file's line in a table: its verdict with the row that it names, or why it isn't judged.
fn file_row(name: &str, loaded: Result<LoadedDomain, Trouble>) -> Vec<Cell> {
    let judged = match loaded {
        Ok(loaded) if loaded.judged.is_read() => loaded,
        other => return unread_row(name, other),
    };
    let number = judged.judged.number;
    let mut cells = vec![Cell::from(name), number.into(), verdict_word(number).into()];
    match judged.judged.named() {
        Some(row) => {
            let row = row_cells(&judged, &judged.domain(), row);
            cells.extend([row[0].clone(), row[2].clone(), row[3].clone(), row[4].clone(), "".into()]);
        }
        None => cells.extend([Cell::Nothing, Cell::Nothing, Cell::Nothing, Cell::Nothing, "".into()]),
    }
    cells
}

fn unread_row(name: &str, loaded: Result<LoadedDomain, Trouble>) -> Vec<Cell> {
    let number = match &loaded {
        Ok(loaded) => loaded.judged.number.into(),
        Err(_) => Cell::Nothing,
    };
    let words = trouble_words(name, loaded);
    let first = words.lines().next().unwrap_or_default();
    let remark = first.strip_prefix(&format!("{name}:")).unwrap_or(first).trim();
    let mut cells = vec![Cell::from(name), number, "not read".into()];
    cells.extend([Cell::Nothing, Cell::Nothing, Cell::Nothing, Cell::Nothing, remark.into()]);
    cells
}
