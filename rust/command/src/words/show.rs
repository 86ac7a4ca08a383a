//! `goadlotus show FILE` and `goadlotus show DOMAIN RUN`: a file in words.

use super::given::{load_given, Given};
use super::write::put_out;
use crate::arguments::Arguments;
use crate::domain::Domain;
use crate::files::{LoadedDomain, LoadedRun};
use crate::library::play;
use crate::notation::show;
use crate::numbers::{says, says_at};
use crate::output::Status;

pub fn run(arguments: &Arguments) -> Result<Status, Status> {
    let (text, status) = match load_given("show", arguments)? {
        Given::Domain(loaded) => shown_domain(&loaded),
        Given::Run(run) => shown_run(&run, None),
        Given::RunOf(loaded, run) => shown_run(&run, Some((&loaded.domain(), &loaded.file))),
    };
    put_out(arguments, text.as_bytes())?;
    Ok(status)
}

/// A domain in words. Above a record that the library refuses a remark says so.
fn shown_domain(loaded: &LoadedDomain) -> (String, Status) {
    if loaded.judged.is_read() {
        return (show::domain(&loaded.file, &loaded.names, None), Status::Done);
    }
    let (number, offset) = (loaded.judged.number, loaded.judged.places[0] as usize);
    let remark = format!("refused ({number}), at offset {offset}: {}", says_at(number, &loaded.file, offset));
    (show::domain(&loaded.file, &loaded.names, Some((offset, &remark))), Status::Broken)
}

/// A run in words, likewise; its steps are not looked at.
fn shown_run(run: &LoadedRun, of: Option<(&Domain, &[u8])>) -> (String, Status) {
    let domain = of.map(|(domain, _)| domain);
    let played = of.map(|(_, file)| play(file, &run.file)).filter(|played| (50..=54).contains(&played.number));
    let Some(played) = played else { return (show::run(&run.file, domain, &run.objects, None), Status::Done) };
    let remark = format!("refused ({}), at offset {}: {}", played.number, played.place, says(played.number));
    (show::run(&run.file, domain, &run.objects, Some((played.place as usize, &remark))), Status::Broken)
}
