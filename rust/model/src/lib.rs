//! A model of "One field per volume: templates, classes and runs" (the paper) with the customers'
//! requests that have landed, written from these texts alone. Sentences of the paper stand in
//! quotation marks beside the code that follows them, those of a request with its name (P6).
//!
//! - [`records`]: the record form that both files share
//! - [`domain`]: reading a domain file, numbers 9 to 27
//! - [`classes`]: classes, names, journeys
//! - [`verdict`]: rows, decision, witness, [`judge`]
//! - [`machine`]: state, events, steps
//! - [`player`]: the run file, [`play`], [`track`]
//! - [`templates`]: every one-relation template of a file
//! - [`trying`]: what the facts themselves show of actions at once
//! - [`totals`]: figures for a box of files
//! - [`service`]: what the services have in common
//! - [`listing`]: what the listing program prints
//!
//! The requests so far:
//! - P1: which label of a component is at fault; the part that playing hands back still begins at the
//!   record.
//! - P2: over all ends just before the end. An end's over-all conditions must hold in the state that
//!   its step is taken from, count towards unreachable, and stand in a witness that is written; they
//!   count neither for any other name nor for interference.
//! - P4: FF in a false condition or a delete means every object.
//! - P5: every one-relation template, listed.
//! - P6: the player's alarm is gone, and with it the judging that the player did only for it.
//! - P8: of the refusals by class the worst is named, 40 before 41 before 42.
//! - P10: trying the facts themselves.
//! - P11: figures for a whole term.
//! - P13: playing with an instance tells its weight and its open journeys together.
//!
//! The paper leaves some places open; these are the readings taken.
//! - Zero relations and zero actions are well-formed. An action without matching literals has no
//!   class and no row, also where n = 0.
//! - A record is cut short where its head or its payload runs past the end of the file.
//! - Over-all conditions are checked for what is open before the step: not for a start in it, but
//!   still for an end in it.
//! - The start weights count as soon as a whole record of kind 18 to 20 stands in the run file,
//!   even if that record is refused.

pub mod classes;
pub mod domain;
pub mod listing;
pub mod machine;
pub mod player;
pub mod records;
pub mod service;
pub mod templates;
pub mod totals;
pub mod trying;
pub mod verdict;

pub use domain::{read, Domain, Fact, Key, Object, Stop, Var};
pub use listing::listing;
pub use player::{play, track, Part, Played, Source, Tracked, WORK};
pub use service::Served;
pub use templates::templates;
pub use totals::totals;
pub use trying::try_facts;
pub use verdict::{judge, Answer};
