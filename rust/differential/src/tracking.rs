//! A player with an instance against the model: all that playing answers, the total, and every byte of work memory.

use crate::memory::{hex, Lent, Memory};
use crate::playing::{facts, of_library, of_model, Played, CLOSING, CLOSING_RUN, WORK};
use crate::seeds::{self, add_counts, Counted};
use generate::rng::Rng;
use generate::runs;
use std::collections::BTreeMap;

/// What playing with an instance answers.
#[derive(Clone, Copy, PartialEq, Eq, Debug)]
pub struct Tracked {
    pub played: Played,
    pub total: u64,
}

/// What is compared with the model: a domain file, a run file, an instance, work memory.
pub trait Track: Fn(&[u8], &[u8], &[u8], &mut [u8]) -> Tracked + Sync {}
impl<F: Fn(&[u8], &[u8], &[u8], &mut [u8]) -> Tracked + Sync> Track for F {}

/// The model, answering in the same form.
pub fn model(domain: &[u8], run: &[u8], instance: &[u8], work: &mut [u8]) -> Tracked {
    let tracked = model::track(domain, run, instance, work);
    Tracked { played: of_model(domain, run, tracked.played), total: tracked.total.into() }
}

/// The library, answering in the same form.
pub fn library(domain: &[u8], run: &[u8], instance: &[u8], work: &mut [u8]) -> Tracked {
    let tracked = goadlotus::track(domain, run, instance, work);
    Tracked { played: of_library(domain, run, tracked.played), total: tracked.total }
}

/// A domain file, a run file and an instance of a seed, and the length at which work memory is lent.
pub fn files(seed: u64) -> (Vec<u8>, Vec<u8>, Vec<u8>, usize) {
    let rng = &mut Rng::new(seed);
    let (domain, run) = match rng.chance(30) {
        true => runs::lendings(rng),
        false => {
            let (_, domain, run) = runs::pair(rng);
            (domain, run)
        }
    };
    let instance = runs::instance(rng, &domain, &run);
    let work = rng.pick(&[WORK, WORK, WORK, WORK, WORK, WORK, WORK + 9, WORK - 1]);
    (domain, run, instance, work)
}

/// Plays one pair of files with an instance, and compares; what both say, or how they differ.
pub fn compare(
    player: impl Track,
    (domain, run, instance): (&[u8], &[u8], &[u8]),
    work: usize,
    salt: usize,
) -> Result<Tracked, String> {
    let mut expected_work = Memory::new(work, salt);
    let expected = model(domain, run, instance, expected_work.lend());

    // Around the instance stand other objects, so that one byte more or less would be another instance.
    let lent =
        [Lent::new(domain, CLOSING, salt), Lent::new(run, CLOSING_RUN, salt + 1), Lent::new(instance, 0, salt + 3)];
    let mut got_work = Memory::new(work, salt);
    let got = player(lent[0].lend(), lent[1].lend(), lent[2].lend(), got_work.lend());
    let same_files = lent[0].is_untouched(domain, CLOSING, salt)
        && lent[1].is_untouched(run, CLOSING_RUN, salt + 1)
        && lent[2].is_untouched(instance, 0, salt + 3);
    if got == expected && same_files && got_work.bytes == expected_work.bytes {
        return Ok(got);
    }
    let mut text = format!("domain, {} bytes: {}\n", domain.len(), hex(domain));
    text += &format!("run, {} bytes: {}\n", run.len(), hex(run));
    text += &format!("instance {}; lent: work {work}; salt {salt}\n", hex(instance));
    let mark = |same: bool| if same { "same" } else { "DIFFERENT" };
    text += &format!("answer, {}\n  player {got:?}\n  model  {expected:?}\n", mark(got == expected));
    let same = got_work.bytes == expected_work.bytes;
    text += &format!("work memory with its guards, {}\n", mark(same));
    text += &format!("  player {}\n  model  {}\n", facts(got_work.lent()), facts(expected_work.lent()));
    if !same_files {
        text += "a file, or a byte beside it, was written to: DIFFERENT\n";
    }
    Err(text)
}

/// How often each number and each total occurred.
#[derive(Clone, PartialEq, Eq, Debug, Default)]
pub struct Counts {
    pub cases: u64,
    pub numbers: BTreeMap<u64, u64>,
    pub totals: BTreeMap<u64, u64>,
}

impl Counted for Counts {
    fn add(&mut self, other: &Counts) {
        self.cases += other.cases;
        add_counts(&mut self.numbers, &other.numbers);
        add_counts(&mut self.totals, &other.totals);
    }

    fn cases(&self) -> u64 {
        self.cases
    }
}

/// All cases of so many seeds, on all cores. Stops soon after a case that differs, and tells it.
pub fn run(player: impl Track, first: u64, cases: u64) -> Result<Counts, String> {
    let of_seed = |seed: u64| {
        let (domain, run, instance, work) = files(seed);
        let salt = (seed as usize).wrapping_mul(31) % 1_000;
        let tracked = compare(&player, (&domain, &run, &instance), work, salt);
        let tracked = tracked.map_err(|text| format!("seed {seed}\n{text}"))?;
        let mut counts = Counts { cases: 1, ..Counts::default() };
        counts.numbers.insert(tracked.played.number, 1);
        counts.totals.insert(tracked.total, 1);
        Ok(counts)
    };
    seeds::run(of_seed, first, cases)
}
