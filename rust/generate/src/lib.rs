//! Cases for tests that compare two programs: domain files to judge, and run files to play.
//!
//! Everything is made from a seed: [`case`] of the same seed is the same case on every machine. The
//! model is used to choose steps that are allowed and to lend memory of the length needed, one less,
//! or more.

pub mod boxes;
pub mod domains;
pub mod literature;
pub mod met;
pub mod plain;
pub mod plain_judge;
pub mod plain_try;
pub mod proved;
pub mod records;
pub mod rng;
pub mod runs;
pub mod samples;

use rng::Rng;

/// A call with the length of the memory lent to it.
#[derive(Clone, PartialEq, Eq, Debug)]
pub enum Case {
    Judge { domain: Vec<u8>, report: usize, witness: usize },
    Play { domain: Vec<u8>, run: Vec<u8>, work: usize },
}

/// The case of a seed. Neighbouring seeds give unrelated cases.
pub fn case(seed: u64) -> Case {
    let rng = &mut Rng::new(seed);
    match rng.below(100) {
        0..=44 => {
            let plan = domains::valid(rng);
            judge_case(rng, plan.file())
        }
        45..=49 => {
            let file = domains::near_limit(rng);
            judge_case(rng, file)
        }
        50..=53 => {
            let file = domains::random(rng);
            judge_case(rng, file)
        }
        54..=69 => {
            let file = domains::damaged(rng);
            judge_case(rng, file)
        }
        _ => {
            let (_, domain, run) = runs::pair(rng);
            play_case(rng, domain, run)
        }
    }
}

/// Judging this file, with memory of a length near the one needed.
pub fn judge_case(rng: &mut Rng, domain: Vec<u8>) -> Case {
    let (report, witness) = room(&domain);
    let (report, witness) = match rng.below(20) {
        0..=2 => (report, witness),
        3 => (report.saturating_sub(rng.range(1, 5)), witness),
        4 | 5 => (report, witness.saturating_sub(rng.range(1, 9))),
        6 => (report.saturating_sub(1), witness.saturating_sub(1)),
        7 => (0, 0),
        8 => (report, 0),
        _ => (report + rng.small(0, 64), witness + rng.small(0, 64)),
    };
    Case::Judge { domain, report, witness }
}

/// The bytes of report and witness that judging this file needs, 0 if the file isn't well-formed.
pub fn room(domain: &[u8]) -> (usize, usize) {
    let Ok(domain) = model::read(domain) else { return (0, 0) };
    let rows = model::verdict::rows(&domain);
    let facts = model::verdict::witness(&domain, &model::verdict::decide(&rows));
    (4 * rows.len(), 8 * facts.len())
}

/// Playing this run, mostly with enough work memory.
pub fn play_case(rng: &mut Rng, domain: Vec<u8>, run: Vec<u8>) -> Case {
    let work = match rng.below(100) {
        0 => rng.pick(&[0, 1, 8_184, 8_191]),
        1 => rng.below(8_192),
        2..=11 => 8_192 + rng.small(1, 300),
        _ => 8_192,
    };
    Case::Play { domain, run, work }
}
