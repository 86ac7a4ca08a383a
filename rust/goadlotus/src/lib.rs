//! Safe calls of the verified library libgoadlotus.a. `include/goadlotus.h` says what they promise.
//!
//! [`judge_file`] and [`play_files`] bring memory that is enough for every file, and say how much of it was written; [`judge`] and
//! [`play`] work in memory that the caller lends. In the same two ways [`track_files`] and [`track`] play a run and follow an instance,
//! [`list_templates`] and [`templates`] list the templates of a single component, [`try_file`] and [`try_facts`] try the facts
//! themselves, [`count_box`] and [`totals`] count a box of files.

mod calls;
mod counted;
mod listed;
mod numbers;
mod sizes;
mod whole;
mod written;

pub use calls::{judge, play, templates, totals, track, try_facts, Judgement, Part, Played, Served, Tracked};
pub use counted::{count_box, put_in_box, Totals};
pub use listed::{list_templates, Template};
pub use numbers::{Kind, Name, Number};
pub use sizes::{FACT, FILE_LIMIT, REPORT, ROW, TEMPLATE, TEMPLATES, TOTALS, TRIED, WITNESS, WORK};
pub use whole::{judge_file, play_files, track_files, try_file, Judged, PlayedRun, TrackedRun};
pub use written::{Fact, Facts, Moment, Row, Rows};
