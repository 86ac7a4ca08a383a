//! `goadlotus totals FILE ..`: how many files met each number, and how many moments had each name.

use super::{misused, troubled};
use crate::arguments::Arguments;
use crate::boxes::{Counting, Uncounted};
use crate::files::{load_domain, reason, shown_name, LoadedDomain, Trouble};
use crate::folder::{files_of, Progress};
use crate::output::{print, tell, Status};
use crate::table::{Cell, Table};
use goadlotus::{Name, Number, Totals};
use std::ffi::OsStr;
use std::fs::File;
use std::io;
use std::path::Path;

pub fn run(arguments: &Arguments) -> Result<Status, Status> {
    if arguments.files.is_empty() {
        return Err(misused("totals takes a file, several, a folder, or a box of files"));
    }
    let named = files_of(&arguments.files);
    let (mut counting, mut status) = (Counting::default(), Status::Done);
    let mut progress = Progress::new(named.len());
    for name in &named {
        progress.step();
        let counted = match arguments.boxes || Path::new(name).extension() == Some(OsStr::new("box")) {
            true => count_box(&mut counting, name),
            false => load_domain(name).map(|loaded| count_file(&mut counting, &loaded)),
        };
        if let Err(trouble) = counted {
            status = status.worse(troubled(shortened(trouble)));
        }
    }
    progress.end();
    print(table(&counting.end(), arguments.all).text(arguments.form).as_bytes())?;
    Ok(status)
}

/// Of a file that isn't counted the first line says enough.
fn shortened(trouble: Trouble) -> Trouble {
    match trouble {
        Trouble::Broken(said) => {
            let first = said.lines().next().unwrap_or_default();
            Trouble::Broken(format!("{first}; not counted\n"))
        }
        access => access,
    }
}

fn count_file(counting: &mut Counting, loaded: &LoadedDomain) {
    // a box begins with a length below 65,536, and no record has kind 0
    if loaded.text.is_none() && loaded.file.get(2..4) == Some(&[0, 0]) {
        tell(&format!("{}: counted as one file; if it is a box of files, --box counts these\n", loaded.name));
    }
    counting.file(&loaded.file);
}

/// Counts the files of a box; none of them where it is cut.
fn count_box(counting: &mut Counting, name: &OsStr) -> Result<(), Trouble> {
    let shown = shown_name(name);
    let mut progress = Progress::unknown();
    let told = |bytes: u64| progress.show(&format!("{} MB of {shown}", bytes >> 20));
    let counted = match name == "-" {
        true => counting.whole(io::stdin().lock(), told),
        false => File::open(name).map_err(Uncounted::Unread).and_then(|file| counting.whole(file, told)),
    };
    progress.end();
    counted.map_err(|why| match why {
        Uncounted::Unread(error) => Trouble::Access(format!("can't read {shown}: {}", reason(&error))),
        Uncounted::Cut(at) => {
            let said = "the box is cut inside this length or its file (33)";
            Trouble::Broken(format!("{shown}: at offset {at}: {said}\n"))
        }
    })
}

const HEADS: [&str; 4] = ["of", "number", "total", "meaning"];

/// The numbers that were met, or all that a file can meet, and the seven names, each with the sum.
fn table(totals: &Totals, all: bool) -> Table {
    let mut table = Table::new(&HEADS);
    for &number in Number::ALL {
        let total = totals.files_with(number);
        if total > 0 || all && is_of_file(number) {
            table.push(vec!["files".into(), number.value().into(), total.into(), number.meaning().into()]);
        }
    }
    table.push(vec!["files".into(), Cell::Nothing, totals.files().into(), "all".into()]);
    for name in Name::ALL {
        table.push(vec!["moments".into(), (name as u64).into(), totals.moments_with(name).into(), name.word().into()]);
    }
    table.push(vec!["moments".into(), Cell::Nothing, totals.moments().into(), "all".into()]);
    table
}

fn is_of_file(number: Number) -> bool {
    use goadlotus::Kind::{Accepted, BrokenDomain, Refused};
    matches!(number.kind(), Accepted | BrokenDomain | Refused)
}
