//! All cases of many seeds, on several cores.

use std::collections::BTreeMap;
use std::env;
use std::io::{self, Write};
use std::sync::atomic::{AtomicBool, AtomicU64, Ordering};
use std::sync::Mutex;
use std::thread;

/// What is counted over the cases of a seed.
pub trait Counted: Default + Send {
    fn add(&mut self, other: &Self);
    /// How many cases agreed.
    fn cases(&self) -> u64;
}

/// The counts of so many seeds from the first on, on all cores. Stops soon after a seed that fails, and tells its text.
pub fn run<C: Counted>(of_seed: impl Fn(u64) -> Result<C, String> + Sync, first: u64, seeds: u64) -> Result<C, String> {
    let threads = thread::available_parallelism().map_or(2, |count| count.get());
    match run_on(threads, of_seed, first, seeds) {
        (counts, Some(text)) => Err(format!("{text}({} cases agreed before)", counts.cases())),
        (counts, None) => Ok(counts),
    }
}

/// The same on so many threads: the counts of the seeds that passed, and the text of the first that fails. Threads take
/// blocks of seeds in order and finish the block that they have, so that no seed before that one is left out.
pub fn run_on<C: Counted>(
    threads: usize,
    of_seed: impl Fn(u64) -> Result<C, String> + Sync,
    first: u64,
    seeds: u64,
) -> (C, Option<String>) {
    const BLOCK: u64 = 64;
    let next = AtomicU64::new(0);
    let stop = AtomicBool::new(false);
    let all = Mutex::new((C::default(), BTreeMap::new()));
    let work = || {
        let mut counts = C::default();
        let mut failure = None;
        while !stop.load(Ordering::Relaxed) && failure.is_none() {
            let block = next.fetch_add(BLOCK, Ordering::Relaxed);
            if block >= seeds {
                break;
            }
            for offset in block..(block + BLOCK).min(seeds) {
                match of_seed(first.wrapping_add(offset)) {
                    Ok(more) => counts.add(&more),
                    Err(text) => {
                        stop.store(true, Ordering::Relaxed);
                        failure = Some((offset, text));
                        break;
                    }
                }
            }
        }
        let mut all = all.lock().unwrap_or_else(|broken| broken.into_inner());
        all.0.add(&counts);
        all.1.extend(failure);
    };
    thread::scope(|scope| {
        for _ in 0..threads {
            scope.spawn(work);
        }
    });
    let (counts, failures) = all.into_inner().unwrap_or_else(|broken| broken.into_inner());
    (counts, failures.into_values().next())
}

/// A number that the environment tells, or this one.
pub fn setting(name: &str, otherwise: u64) -> u64 {
    match env::var(name) {
        Ok(text) => text.replace('_', "").parse().unwrap_or_else(|_| panic!("{name} isn't a number: {text:?}")),
        Err(_) => otherwise,
    }
}

/// Shows a text even where the test harness keeps what tests print.
pub fn show(text: &str) {
    let mut out = io::stdout().lock();
    let _ = writeln!(out, "{text}").and_then(|()| out.flush());
}

/// The counts in a table: what must occur first, then what occurs besides.
pub fn table<K: Copy + Ord>(head: &str, must: &[K], counts: &BTreeMap<K, u64>, name: impl Fn(K) -> String) -> String {
    let mut text = format!("{head}\n");
    for key in must.iter().chain(counts.keys().filter(|key| !must.contains(key))) {
        text += &format!("{:>20} {:7}\n", name(*key), counts.get(key).unwrap_or(&0));
    }
    text
}

/// Adds the counts of others to these.
pub fn add_counts<K: Copy + Ord>(counts: &mut BTreeMap<K, u64>, others: &BTreeMap<K, u64>) {
    for (&key, count) in others {
        *counts.entry(key).or_default() += count;
    }
}
