//! Compares judging and playing with the model: number, places, every byte of the memory lent, and whatever else comes
//! back.
//!
//! - [`judging`]: a judge against the model, and against what is written down
//! - [`playing`]: the same for a player
//! - [`tracking`]: the same for a player with an instance
//! - [`serving`]: the same for a service, as counting a box
//! - [`both`]: judging and playing of the same seeds, as many as it takes
//! - [`exact`]: the library in memory of just the lengths lent, for valgrind
//! - [`memory`]: memory and files to lend, with guards around them
//! - [`seeds`]: all cases of many seeds, on several cores
//! - [`edges`]: the lines of cases/edges.txt
//! - [`samples`]: the folder samples/ at the repository's root

pub mod both;
pub mod edges;
pub mod exact;
pub mod judging;
pub mod memory;
pub mod playing;
pub mod samples;
pub mod seeds;
pub mod serving;
pub mod tracking;
