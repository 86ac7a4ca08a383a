//! `goadlotus play DOMAIN RUN [OBJECT ..]`: a run in sentences, step by step, and where an instance is.

use super::{misused, troubled};
use crate::arguments::Arguments;
use crate::files::{load_domain, load_run, refusal_of_bytes, LoadedRun};
use crate::library::Played;
use crate::notation::domain_text::counted;
use crate::notation::nearest::nearest;
use crate::notation::source::{tell as told, Fault};
use crate::numbers::says;
use crate::output::{print, tell, Status};
use crate::story::Story;
use crate::trace::Trace;
use crate::tracked::Tracked;
use std::ffi::OsString;

pub fn run(arguments: &Arguments) -> Result<Status, Status> {
    let [domain, run, objects @ ..] = &arguments.files[..] else {
        return Err(misused("play takes a domain and a run, and the objects of an instance"));
    };
    let loaded = load_domain(domain).map_err(troubled)?;
    if !loaded.judged.is_read() {
        tell(&loaded.refusal());
        return Ok(Status::Broken);
    }
    let domain = loaded.domain();
    let run = load_run(run, Some(&domain)).map_err(troubled)?;
    let trace = Trace::of(&domain, &loaded.file, &run.file);
    let story = Story { trace: &trace, run: &run, all: arguments.all };
    let mut text = String::new();
    if arguments.track || !objects.is_empty() {
        let instance = instance(&trace, &run, objects)?;
        text = Tracked { story: &story, instance: &instance, verdict: loaded.judged.number }.text();
    }
    print((story.text() + &text).as_bytes())?;
    Ok(outcome(&run, &trace))
}

/// The objects of an instance, one for each key, by their names or their numbers.
fn instance(trace: &Trace, run: &LoadedRun, names: &[OsString]) -> Result<Vec<u8>, Status> {
    let keys = trace.domain.keys();
    if names.len() != keys {
        let (template, told) = (trace.domain.template_words(), counted(names.len(), "object"));
        return Err(misused(&format!("the template {template} has {}, and {told} here", counted(keys, "key"))));
    }
    names.iter().map(|name| object(trace, run, &name.to_string_lossy())).collect()
}

fn object(trace: &Trace, run: &LoadedRun, name: &str) -> Result<u8, Status> {
    let named = (0..trace.run.objects).find(|&object| run.object(object) == name);
    let numbered = name.parse::<u8>().ok().filter(|&object| object < trace.run.objects);
    named.or(numbered).ok_or_else(|| {
        let known: Vec<String> = (0..trace.run.objects).map(|object| run.object(object)).collect();
        match nearest(name, known.iter().map(String::as_str)) {
            Some(near) => misused(&format!("there is no object {name}; the nearest is {near}")),
            None => misused(&format!("there is no object {name}")),
        }
    })
}

/// The status of what was played; of a run file at fault the record or the line is told, too.
fn outcome(run: &LoadedRun, trace: &Trace) -> Status {
    match trace.played.number {
        2 => Status::Done,
        _ if trace.stops_at_step() => Status::Refused,
        _ => {
            tell(&fault_words(run, &trace.played));
            Status::Broken
        }
    }
}

fn fault_words(run: &LoadedRun, played: &Played) -> String {
    let offset = played.place as usize;
    match &run.text {
        Some((text, written)) => {
            let said = format!("{} ({})", says(played.number), played.number);
            told(&run.name, text, &[Fault::new(written.place(offset), said)])
        }
        None => refusal_of_bytes(&run.name, &run.file, played.number, offset),
    }
}
