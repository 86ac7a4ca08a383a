//! Judging and playing with memory that is enough for every file, and with a count of what was written.
//!
//! The calls leave every byte alone that they don't write, and no row and no fact consists of zeros. So in memory that held
//! zeros what was written ends where the first bytes are that hold none.

use crate::calls::{judge, play, track, try_facts, Judgement, Played, Served};
use crate::numbers::Number;
use crate::sizes::{FACT, REPORT, ROW, TRIED, WITNESS, WORK};
use crate::written::{Fact, Facts, Row, Rows};

/// A domain file judged: the answer, the rows and the facts of the witness.
#[derive(Clone, PartialEq, Eq, Debug)]
pub struct Judged {
    pub answer: Judgement,
    report: Vec<u8>,
    witness: Vec<u8>,
}

/// Judges a domain file. The answer is never 30 or 31.
pub fn judge_file(file: &[u8]) -> Judged {
    let (mut report, mut witness) = (vec![0; REPORT], vec![0; WITNESS]);
    let answer = judge(file, &mut report, &mut witness);
    report.truncate(written(&report, |bytes: &[u8; ROW]| Row::of(*bytes).is_some()));
    witness.truncate(written(&witness, |bytes: &[u8; FACT]| Fact::of(bytes).is_some()));
    Judged { answer, report, witness }
}

impl Judged {
    pub fn number(&self) -> Number {
        known(self.answer.number)
    }

    /// The rows; none for 9 to 27.
    pub fn rows(&self) -> Rows<'_> {
        Rows::of(&self.report)
    }

    /// The facts of the witness; none but for 40 to 42.
    pub fn facts(&self) -> Facts<'_> {
        Facts::of(&self.witness)
    }

    /// The bytes of the report that were written.
    pub fn report(&self) -> &[u8] {
        &self.report
    }

    /// The bytes of the witness that were written.
    pub fn witness(&self) -> &[u8] {
        &self.witness
    }
}

/// A run played: the answer and the facts held.
#[derive(Clone, PartialEq, Eq, Debug)]
pub struct PlayedRun<'a> {
    pub answer: Played<'a>,
    work: Vec<u8>,
}

/// Plays a run file on a domain file. The answer is never 58.
pub fn play_files<'a>(domain: &'a [u8], run: &'a [u8]) -> PlayedRun<'a> {
    let mut work = vec![0; WORK];
    let answer = play(domain, run, &mut work);
    work.truncate(written(&work, |bytes: &[u8; FACT]| Fact::of(bytes).is_some()));
    PlayedRun { answer, work }
}

impl PlayedRun<'_> {
    pub fn number(&self) -> Number {
        known(self.answer.number)
    }

    /// The facts held after the last step made; none for 9 to 27.
    pub fn facts(&self) -> Facts<'_> {
        Facts::of(&self.work)
    }
}

/// A run played with an instance: the same, and the instance's total.
#[derive(Clone, PartialEq, Eq, Debug)]
pub struct TrackedRun<'a> {
    pub run: PlayedRun<'a>,
    /// The instance's weight plus its open journeys, after the last step made; 0 while the start doesn't count yet.
    pub total: u64,
}

/// Plays a run file on a domain file, and follows an instance, an object for each key. The answer is never 58.
pub fn track_files<'a>(domain: &'a [u8], run: &'a [u8], instance: &[u8]) -> TrackedRun<'a> {
    let mut work = vec![0; WORK];
    let tracked = track(domain, run, instance, &mut work);
    work.truncate(written(&work, |bytes: &[u8; FACT]| Fact::of(bytes).is_some()));
    TrackedRun { run: PlayedRun { answer: tracked.played, work }, total: tracked.total }
}

/// Tries the facts of a domain file: whether each class of each action at once shows harm, in the order of the report. Where the
/// file is refused, the number, 9 to 27, and its place.
pub fn try_file(file: &[u8]) -> Result<Vec<bool>, Served> {
    let mut tried = vec![0; TRIED];
    let served = try_facts(file, &mut tried);
    match served.number {
        0 => Ok(tried[..served.first as usize].iter().map(|&answer| answer == 1).collect()),
        _ => Err(served),
    }
}

/// The bytes up to the first that hold nothing.
fn written<const N: usize>(memory: &[u8], holds: impl Fn(&[u8; N]) -> bool) -> usize {
    let full = |bytes: &&[u8]| holds((*bytes).try_into().expect("as many bytes"));
    N * memory.chunks_exact(N).take_while(full).count()
}

/// The contracts of the calls leave no other number.
pub(crate) fn known(value: u64) -> Number {
    Number::of(value).unwrap_or_else(|| panic!("the library answers {value}, which is no number of this version"))
}
