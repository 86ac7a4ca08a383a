//! Judging and playing of the same seeds: seed n is the file that [`judging`] makes of it and the pair that [`playing`]
//! makes of it. As many seeds are taken as a number of cases needs.

use crate::judging::{self, Judge};
use crate::playing::{self, Play};
use crate::seeds::{self, Counted};
use std::collections::BTreeSet;
use std::panic::{self, AssertUnwindSafe};

/// What both counted.
#[derive(Clone, PartialEq, Eq, Debug, Default)]
pub struct Counts {
    pub judging: judging::Counts,
    pub playing: playing::Counts,
}

impl Counted for Counts {
    fn add(&mut self, other: &Counts) {
        self.judging.add(&other.judging);
        self.playing.add(&other.playing);
    }

    fn cases(&self) -> u64 {
        self.judging.cases() + self.playing.cases()
    }
}

impl Counts {
    /// How often each number occurred, judging and playing; '-' where the call can't answer it.
    pub fn table(&self) -> String {
        let mut numbers: BTreeSet<u64> = judging::NUMBERS.into_iter().chain(playing::NUMBERS).collect();
        numbers.extend(self.judging.numbers.keys().chain(self.playing.numbers.keys()));
        let mut text = format!("{:>6} {:>12} {:>12}\n", "number", "judging", "playing");
        for number in numbers {
            let judged = column(self.judging.numbers.get(&number), judging::NUMBERS.contains(&number));
            let played = column(self.playing.numbers.get(&number), playing::NUMBERS.contains(&number));
            text += &format!("{number:>6} {judged:>12} {played:>12}\n");
        }
        text + &format!("{:>6} {:>12} {:>12}\n", "cases", self.judging.cases(), self.playing.cases())
    }
}

fn column(count: Option<&u64>, may_occur: bool) -> String {
    match count {
        Some(count) => count.to_string(),
        None if may_occur => "0".to_string(),
        None => "-".to_string(),
    }
}

/// All cases of one seed. A panic counts as a difference, since a caller's own checks may notice a wrong answer first.
pub fn seed(judge: impl Judge, player: impl Play, seed: u64) -> Result<Counts, String> {
    let both = || -> Result<Counts, String> {
        let judging = judging::seed(&judge, seed).map_err(|text| format!("judging differs, {text}"))?;
        let playing = playing::seed(&player, seed).map_err(|text| format!("playing differs, {text}"))?;
        Ok(Counts { judging, playing })
    };
    let caught = panic::catch_unwind(AssertUnwindSafe(both));
    caught.unwrap_or_else(|_| Err(format!("seed {seed}\na panic, told on standard error\n")))
}

/// How far a run has come.
#[derive(Clone, PartialEq, Eq, Debug)]
pub struct Progress {
    /// Every seed from the first to before this one has passed.
    pub next: u64,
    pub counts: Counts,
}

/// As many as one seed may give, so that the last round doesn't go far beyond what is asked.
const MOST_A_SEED: u64 = 13;
/// Seeds from one telling of the progress to the next, at most.
const ROUND: u64 = 4_096;

/// At least so many cases, seeds from the first on, on so many threads. After every round the progress is told; which
/// seeds are taken doesn't depend on the threads. Ends with the text of the first seed that fails, if one does, and the
/// progress then has the seeds of its round that passed among its counts.
pub fn run(
    judge: impl Judge,
    player: impl Play,
    threads: usize,
    first: u64,
    cases: u64,
    mut tell: impl FnMut(&Progress),
) -> (Progress, Option<String>) {
    let mut progress = Progress { next: first, counts: Counts::default() };
    while progress.counts.cases() < cases {
        let missing = cases - progress.counts.cases();
        let round = (missing / MOST_A_SEED).clamp(1, ROUND);
        let (counts, failure) = seeds::run_on(threads, |n| seed(&judge, &player, n), progress.next, round);
        progress.counts.add(&counts);
        if failure.is_some() {
            return (progress, failure);
        }
        progress.next = progress.next.wrapping_add(round);
        tell(&progress);
    }
    (progress, None)
}
