//! The files that `show` and `write` take: one of either kind, or a domain and a run.

use super::{misused, troubled};
use crate::arguments::Arguments;
use crate::files::{domain_of, is_run, load, load_domain, load_run, run_of, shown_name, LoadedDomain, LoadedRun};
use crate::output::{tell, Status};

pub enum Given {
    Domain(LoadedDomain),
    /// A run alone: its relations and actions have no names.
    Run(LoadedRun),
    RunOf(LoadedDomain, LoadedRun),
}

/// Loads them for a word. No run is read on a domain that the library refuses: the refusal is told.
pub fn load_given(word: &str, arguments: &Arguments) -> Result<Given, Status> {
    match &arguments.files[..] {
        [file] => {
            let content = load(file).map_err(troubled)?;
            match is_run(&content) {
                true => run_of(&shown_name(file), content, None).map(Given::Run),
                false => domain_of(&shown_name(file), content).map(Given::Domain),
            }
            .map_err(troubled)
        }
        [domain, run] => {
            let domain = load_domain(domain).map_err(troubled)?;
            if !domain.judged.is_read() {
                tell(&domain.refusal());
                return Err(Status::Broken);
            }
            let run = load_run(run, Some(&domain.domain())).map_err(troubled)?;
            Ok(Given::RunOf(domain, run))
        }
        _ => Err(misused(&format!("{word} takes a file, or a domain and a run"))),
    }
}
