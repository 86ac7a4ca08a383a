//! `goadlotus explain FILE`: the verdict in sentences.

use super::{misused, troubled};
use crate::arguments::Arguments;
use crate::explain::explain;
use crate::files::load_domain;
use crate::output::{print, tell, Status};

pub fn run(arguments: &Arguments) -> Result<Status, Status> {
    let [file] = &arguments.files[..] else { return Err(misused("explain takes one file")) };
    let loaded = load_domain(file).map_err(troubled)?;
    if !loaded.judged.is_read() {
        tell(&loaded.refusal());
        return Ok(Status::Broken);
    }
    print(explain(&loaded).as_bytes())?;
    Ok(Status::of_verdict(loaded.judged.number))
}
