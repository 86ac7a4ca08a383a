//! A judge against the model: number, places, and every byte of the memory lent.
//!
//! A seed tells a file and the lengths at which report and witness are lent. One file at one pair of
//! lengths is a case.

use crate::memory::{after, hex, pattern, Lent, Memory};
use crate::seeds::{self, add_counts, table, Counted};
use generate::rng::Rng;
use generate::{domains, room};
pub use goadlotus::Judgement;
use std::collections::BTreeMap;

/// What is compared with the model.
pub trait Judge: Fn(&[u8], &mut [u8], &mut [u8]) -> Judgement + Sync {}
impl<F: Fn(&[u8], &mut [u8], &mut [u8]) -> Judgement + Sync> Judge for F {}

/// The model, answering in the same form.
pub fn model(file: &[u8], report: &mut [u8], witness: &mut [u8]) -> Judgement {
    let answer = model::judge(file, report, witness);
    Judgement {
        number: answer.number.into(),
        first: answer.first as u64,
        second: answer.second as u64,
        third: answer.third as u64,
    }
}

/// The numbers that judging may answer; a run must meet each.
pub const NUMBERS: [u64; 27] =
    [0, 1, 9, 10, 11, 12, 13, 14, 15, 16, 17, 18, 19, 20, 21, 22, 23, 24, 25, 26, 27, 30, 31, 40, 41, 42, 43];

/// The least number of cases that one file gives.
pub const CASES_A_FILE: u64 = 4;
/// As many as a file may give, and as many as one over `LARGE` bytes.
const MOST_A_FILE: usize = 11;
const MOST_A_LARGE_FILE: usize = 4;
const LARGE: usize = 8_000;

/// Where a file comes from.
#[derive(Clone, Copy, PartialEq, Eq, PartialOrd, Ord, Debug)]
pub enum Origin {
    Valid,
    NearLimit,
    Random,
    Damaged,
}

/// The file of a seed, and the pairs of lengths at which it is judged.
pub fn file(seed: u64) -> (Origin, Vec<u8>, Vec<(usize, usize)>) {
    let rng = &mut Rng::new(seed);
    let (origin, file) = match rng.below(100) {
        0..=54 => (Origin::Valid, domains::valid(rng).file()),
        55..=60 => (Origin::NearLimit, domains::near_limit(rng)),
        61..=64 => (Origin::Random, domains::random(rng)),
        _ => (Origin::Damaged, domains::damaged(rng)),
    };
    let lengths = lengths(rng, &file);
    (origin, file, lengths)
}

/// Pairs of lengths for report and witness: both exact, either one byte short, both longer, none, some
/// length on the way to the one needed, and others of 0, one byte short, exact, one byte more, plenty.
fn lengths(rng: &mut Rng, file: &[u8]) -> Vec<(usize, usize)> {
    let (report, witness) = room(file);
    let plenty = rng.range(2, 80);
    let lengths = |need: usize| [0, need.saturating_sub(1), need, need + 1, need + plenty];
    let (reports, witnesses) = (lengths(report), lengths(witness));
    let mut pairs: Vec<(usize, usize)> = Vec::new();
    for r in reports {
        pairs.extend(witnesses.map(|w| (r, w)));
    }
    rng.shuffle(&mut pairs);
    let first = [
        (report, witness),
        (report.saturating_sub(1), witness),
        (report, witness.saturating_sub(1)),
        (report + plenty, witness + plenty),
        (report + 1, witness + 1),
        (0, 0),
        (rng.below(report + 1), witness),
        (report, rng.below(witness + 1)),
    ];
    let large = file.len() > LARGE;
    if !large {
        pairs.splice(0..0, first);
    }
    let mut distinct: Vec<(usize, usize)> = Vec::new();
    for pair in pairs {
        if !distinct.contains(&pair) {
            distinct.push(pair);
        }
    }
    let well_formed = model::read(file).is_ok();
    let most = match well_formed {
        true if large => MOST_A_LARGE_FILE,
        true => MOST_A_FILE,
        false => CASES_A_FILE as usize,
    };
    distinct.truncate(most);
    distinct
}

/// The kind of the record that closes a domain file.
const CLOSING: u8 = 5;

/// Judges one file in memory of these lengths, and compares; what both say, or how they differ.
pub fn compare(
    judge: impl Judge,
    file: &[u8],
    (report, witness): (usize, usize),
    salt: usize,
) -> Result<Judgement, String> {
    let mut expected_report = Memory::new(report, salt);
    let mut expected_witness = Memory::new(witness, salt + 101);
    let expected = model(file, expected_report.lend(), expected_witness.lend());

    let lent = Lent::new(file, CLOSING, salt);
    let mut got_report = Memory::new(report, salt);
    let mut got_witness = Memory::new(witness, salt + 101);
    let got = judge(lent.lend(), got_report.lend(), got_witness.lend());

    let same_file = lent.is_untouched(file, CLOSING, salt);
    let same_report = got_report.bytes == expected_report.bytes;
    let same_witness = got_witness.bytes == expected_witness.bytes;
    if got == expected && same_file && same_report && same_witness {
        return Ok(got);
    }
    let mut text = format!("file, {} bytes: {}\n", file.len(), hex(file));
    text += &format!("lent: report {report}, witness {witness}; salt {salt}\n");
    let mut both = |what: &str, same: bool, judge: String, model: String| {
        let mark = if same { "same" } else { "DIFFERENT" };
        text += &format!("{what}, {mark}\n  judge {judge}\n  model {model}\n");
    };
    let answer = |j: &Judgement| format!("{} {} {} {}", j.number, j.first, j.second, j.third);
    both("answer", got == expected, answer(&got), answer(&expected));
    for (name, got, expected) in
        [("report", &got_report, &expected_report), ("witness", &got_witness, &expected_witness)]
    {
        both(name, got.lent() == expected.lent(), hex(got.lent()), hex(expected.lent()));
        if got.lent() == expected.lent() && got.bytes != expected.bytes {
            both(&format!("{name} with its guards"), false, hex(&got.bytes), hex(&expected.bytes));
        }
    }
    if !same_file {
        text += "the file, or a byte beside it, was written to\n";
    }
    Err(text)
}

/// How often each number occurred, and what it was counted over.
#[derive(Clone, PartialEq, Eq, Debug, Default)]
pub struct Counts {
    pub cases: u64,
    pub numbers: BTreeMap<u64, u64>,
    pub files: BTreeMap<Origin, u64>,
}

impl Counted for Counts {
    fn add(&mut self, other: &Counts) {
        self.cases += other.cases;
        add_counts(&mut self.numbers, &other.numbers);
        add_counts(&mut self.files, &other.files);
    }

    fn cases(&self) -> u64 {
        self.cases
    }
}

impl Counts {
    /// The numbers that a run must meet and that didn't occur.
    pub fn missing(&self) -> Vec<u64> {
        NUMBERS.into_iter().filter(|number| !self.numbers.contains_key(number)).collect()
    }

    pub fn table(&self) -> String {
        table("number and cases", &NUMBERS, &self.numbers, |number| number.to_string())
    }
}

/// All cases of one seed.
pub fn seed(judge: impl Judge, seed: u64) -> Result<Counts, String> {
    let (origin, file, lengths) = file(seed);
    let mut counts = Counts::default();
    counts.files.insert(origin, 1);
    for (number, &lent) in lengths.iter().enumerate() {
        let salt = (seed as usize).wrapping_mul(31).wrapping_add(number * 17) % 1_000;
        let answer = compare(&judge, &file, lent, salt).map_err(|text| format!("seed {seed}, {origin:?}\n{text}"))?;
        counts.cases += 1;
        *counts.numbers.entry(answer.number).or_default() += 1;
    }
    Ok(counts)
}

/// All cases of so many seeds, on all cores. Stops soon after a case that differs, and tells it.
pub fn run(judge: impl Judge, first: u64, files: u64) -> Result<Counts, String> {
    seeds::run(|number| seed(&judge, number), first, files)
}

/// What judging a file comes to, written down: the number with its three places, the bytes of report and witness.
#[derive(Clone, PartialEq, Eq, Debug)]
pub struct Told {
    pub answer: [u64; 4],
    pub report: Vec<u8>,
    pub witness: Vec<u8>,
}

/// Judges in memory of these lengths; panics unless this comes back and this is written.
#[track_caller]
pub fn expect(judge: impl Judge, name: &str, file: &[u8], lent: (usize, usize), told: &Told) {
    let mut report_memory = pattern(lent.0);
    let mut witness_memory = pattern(lent.1);
    let got = judge(file, &mut report_memory, &mut witness_memory);
    let file = hex(file);
    assert_eq!([got.number, got.first, got.second, got.third], told.answer, "{name}, lent {lent:?}: {file}");
    assert_eq!(report_memory, after(lent.0, &told.report), "{name}, lent {lent:?}, report: {file}");
    assert_eq!(witness_memory, after(lent.1, &told.witness), "{name}, lent {lent:?}, witness: {file}");
}

/// The same at every length: the decision is the same in exactly the room needed and in more; in one byte less or
/// in none 30 comes before 31, and memory stays untouched.
#[track_caller]
pub fn expect_at_all_lengths(judge: impl Judge, name: &str, file: &[u8], told: &Told) {
    let (r, w) = (told.report.len(), told.witness.len());
    for lent in [(r, w), (r + 1, w + 1), (r + 1_000, w + 1_000)] {
        expect(&judge, name, file, lent, told);
    }
    let nothing = |number| Told { answer: [number, 0, 0, 0], report: Vec::new(), witness: Vec::new() };
    if r > 0 {
        for lent in [(r - 1, w), (r - 1, 0), (0, w), (0, 0)] {
            expect(&judge, name, file, lent, &nothing(30));
        }
    }
    if w > 0 {
        for lent in [(r, w - 1), (r + 9, w - 1), (r, 0)] {
            expect(&judge, name, file, lent, &nothing(31));
        }
    }
}
