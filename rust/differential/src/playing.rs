//! A player against the model: number, place, steps, weight, the part that comes back, and every byte of work memory.
//!
//! A seed tells a domain file, a run file, and the lengths at which work memory is lent. One pair of files at one
//! length is a case.

use crate::memory::{after, hex, pattern, Lent, Memory};
use crate::seeds::{self, add_counts, table, Counted};
use generate::met::{self, Met};
use generate::rng::Rng;
use generate::runs::{self, Origin};
use model::Source;
use std::collections::BTreeMap;

/// What playing answers, the part by its file, its offset and its length.
#[derive(Clone, Copy, PartialEq, Eq, Debug)]
pub struct Played {
    pub number: u64,
    pub place: u64,
    pub steps: u64,
    pub weight: u64,
    pub file: Source,
    pub at: usize,
    pub length: usize,
}

/// What is compared with the model: a domain file, a run file, work memory.
pub trait Play: Fn(&[u8], &[u8], &mut [u8]) -> Played + Sync {}
impl<F: Fn(&[u8], &[u8], &mut [u8]) -> Played + Sync> Play for F {}

/// The model, answering in the same form.
pub fn model(domain: &[u8], run: &[u8], work: &mut [u8]) -> Played {
    of_model(domain, run, model::play(domain, run, work))
}

/// An answer of the model in this form.
pub fn of_model(domain: &[u8], run: &[u8], played: model::Played) -> Played {
    let whole = if played.part.file == Source::Domain { domain } else { run };
    Played {
        number: played.number.into(),
        place: played.first as u64,
        steps: played.steps as u64,
        weight: played.weight.into(),
        file: played.part.file,
        at: played.part.at,
        length: whole[played.part.at..].len(),
    }
}

/// The library, answering in the same form.
pub fn library(domain: &[u8], run: &[u8], work: &mut [u8]) -> Played {
    of_library(domain, run, goadlotus::play(domain, run, work))
}

/// An answer of the library in this form.
pub fn of_library(domain: &[u8], run: &[u8], played: goadlotus::Played) -> Played {
    let (file, whole, part) = match played.part {
        goadlotus::Part::Domain(part) => (Source::Domain, domain, part),
        goadlotus::Part::Run(part) => (Source::Run, run, part),
    };
    // The part is one of the lent file itself, so its offset can be told from where it stands.
    let at = part.as_ptr() as usize - whole.as_ptr() as usize;
    let goadlotus::Played { number, place, steps, weight, .. } = played;
    Played { number, place, steps, weight, file, at, length: part.len() }
}

/// The numbers that playing may answer; a run of cases must meet each.
pub const NUMBERS: [u64; 29] =
    [2, 9, 10, 11, 12, 13, 14, 15, 16, 17, 18, 19, 20, 21, 22, 23, 24, 25, 26, 27, 50, 51, 52, 53, 54, 55, 56, 57, 58];

/// The bytes of work memory that a player needs.
pub const WORK: usize = model::WORK;

/// The kinds of the records that close a domain file and a run file.
pub(crate) const CLOSING: u8 = 5;
pub(crate) const CLOSING_RUN: u8 = 20;

/// The files of a seed, and the lengths at which work memory is lent: one that is enough, and in one of eight pairs
/// one that isn't.
pub fn files(seed: u64) -> (Origin, Vec<u8>, Vec<u8>, Vec<usize>) {
    let rng = &mut Rng::new(seed);
    let (origin, domain, run) = runs::pair(rng);
    let enough = match rng.below(8) {
        0 => WORK + 8,
        1 => WORK + rng.small(1, 300),
        _ => WORK,
    };
    let mut lengths = vec![enough];
    match rng.below(32) {
        0 => lengths.push(0),
        1 => lengths.push(WORK - 1),
        2 => lengths.push(WORK - 8),
        3 => lengths.push(rng.below(WORK)),
        _ => {}
    }
    (origin, domain, run, lengths)
}

/// Plays one pair of files in work memory of this length, and compares; what both say, or how they differ.
pub fn compare(player: impl Play, domain: &[u8], run: &[u8], work: usize, salt: usize) -> Result<Played, String> {
    let mut expected_work = Memory::new(work, salt);
    let expected = model(domain, run, expected_work.lend());

    let (lent_domain, lent_run) = (Lent::new(domain, CLOSING, salt), Lent::new(run, CLOSING_RUN, salt + 1));
    let mut got_work = Memory::new(work, salt);
    let got = player(lent_domain.lend(), lent_run.lend(), got_work.lend());

    let same_files =
        lent_domain.is_untouched(domain, CLOSING, salt) && lent_run.is_untouched(run, CLOSING_RUN, salt + 1);
    let same_work = got_work.bytes == expected_work.bytes;
    if got == expected && same_files && same_work {
        return Ok(got);
    }
    let mut text = format!("domain, {} bytes: {}\n", domain.len(), hex(domain));
    text += &format!("run, {} bytes: {}\n", run.len(), hex(run));
    text += &format!("lent: work {work}; salt {salt}\n");
    let mut both = |what: &str, same: bool, player: String, model: String| {
        let mark = if same { "same" } else { "DIFFERENT" };
        text += &format!("{what}, {mark}\n  player {player}\n  model  {model}\n");
    };
    both("answer", got == expected, format!("{got:?}"), format!("{expected:?}"));
    both("work memory", got_work.lent() == expected_work.lent(), facts(got_work.lent()), facts(expected_work.lent()));
    if got_work.lent() == expected_work.lent() && !same_work {
        both("work memory with its guards", false, hex(&got_work.bytes), hex(&expected_work.bytes));
    }
    if !same_files {
        text += "a file, or a byte beside it, was written to: DIFFERENT\n";
    }
    Err(text)
}

/// Work memory in hexadecimal, the zeros at the end of its first 8,192 bytes left out.
pub(crate) fn facts(work: &[u8]) -> String {
    let (first, beyond) = work.split_at(work.len().min(WORK));
    let end = first.iter().rposition(|&byte| byte != 0).map_or(0, |last| last + 1);
    format!("{}, zeros to {}, then {}", hex(&first[..end]), first.len(), hex(beyond))
}

/// How often each number occurred and what the runs met, and what was counted over.
#[derive(Clone, PartialEq, Eq, Debug, Default)]
pub struct Counts {
    pub pairs: u64,
    pub cases: u64,
    pub steps: u64,
    pub origins: BTreeMap<Origin, u64>,
    /// Cases by the length of work memory.
    pub lengths: BTreeMap<usize, u64>,
    pub numbers: BTreeMap<u64, u64>,
    pub met: BTreeMap<Met, u64>,
}

impl Counted for Counts {
    fn add(&mut self, other: &Counts) {
        self.pairs += other.pairs;
        self.cases += other.cases;
        self.steps += other.steps;
        add_counts(&mut self.origins, &other.origins);
        add_counts(&mut self.lengths, &other.lengths);
        add_counts(&mut self.numbers, &other.numbers);
        add_counts(&mut self.met, &other.met);
    }

    fn cases(&self) -> u64 {
        self.cases
    }
}

impl Counts {
    /// The numbers that a run of cases must meet and that didn't occur.
    pub fn missing(&self) -> Vec<u64> {
        NUMBERS.into_iter().filter(|number| !self.numbers.contains_key(number)).collect()
    }

    /// What the runs must meet and didn't.
    pub fn not_met(&self) -> Vec<Met> {
        met::ALL.into_iter().filter(|met| !self.met.contains_key(met)).collect()
    }

    /// The lengths of work memory that must be lent and weren't.
    pub fn lengths_missing(&self) -> Vec<usize> {
        [0, WORK - 1, WORK, WORK + 8].into_iter().filter(|length| !self.lengths.contains_key(length)).collect()
    }

    pub fn table(&self) -> String {
        let numbers = table("number and cases", &NUMBERS, &self.numbers, |number| number.to_string());
        numbers + &table("met, and in how many runs", &met::ALL, &self.met, |met| format!("{met:?}"))
    }
}

/// All cases of one seed.
pub fn seed(player: impl Play, seed: u64) -> Result<Counts, String> {
    let (origin, domain, run, lengths) = files(seed);
    let mut counts = Counts { pairs: 1, ..Counts::default() };
    counts.origins.insert(origin, 1);
    for (number, &work) in lengths.iter().enumerate() {
        let salt = (seed as usize).wrapping_mul(31).wrapping_add(number * 17) % 1_000;
        let played =
            compare(&player, &domain, &run, work, salt).map_err(|text| format!("seed {seed}, {origin:?}\n{text}"))?;
        counts.cases += 1;
        counts.steps += played.steps;
        *counts.lengths.entry(work).or_default() += 1;
        *counts.numbers.entry(played.number).or_default() += 1;
    }
    for met in met::met(&domain, &run) {
        *counts.met.entry(met).or_default() += 1;
    }
    Ok(counts)
}

/// All cases of so many seeds, on all cores. Stops soon after a case that differs, and tells it.
pub fn run(player: impl Play, first: u64, pairs: u64) -> Result<Counts, String> {
    seeds::run(|number| seed(&player, number), first, pairs)
}

/// What playing comes to, written down: the answer, and the bytes of work memory written.
#[derive(Clone, PartialEq, Eq, Debug)]
pub struct Told {
    pub played: Played,
    pub work: Vec<u8>,
}

/// Plays in work memory of this length; panics unless this comes back and this is written.
#[track_caller]
pub fn expect(player: impl Play, name: &str, domain: &[u8], run: &[u8], lent: usize, told: &Told) {
    let mut work = pattern(lent);
    let got = player(domain, run, &mut work);
    let files = format!("domain {}, run {}", hex(domain), hex(run));
    assert_eq!(got, told.played, "{name}, lent {lent}: {files}");
    assert!(work == after(lent, &told.work), "{name}, lent {lent}: work memory {}; {files}", hex(&work));
}
