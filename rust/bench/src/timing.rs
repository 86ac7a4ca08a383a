//! Two sides timed in turns.

use std::time::{Duration, Instant};

/// A round calls so often that it takes about this long.
const ROUND: Duration = Duration::from_micros(500);
/// Rounds of each side: as many as fit into this time, within bounds.
const BUDGET: Duration = Duration::from_millis(1_500);
const LEAST_ROUNDS: usize = 15;
const MOST_ROUNDS: usize = 1_001;

/// Nanoseconds that a call takes: the median of the rounds.
pub struct Timed {
    pub library: f64,
    pub model: f64,
    pub rounds: usize,
}

/// The time that so many calls take.
fn round(call: &mut impl FnMut(), times: u32) -> Duration {
    let begin = Instant::now();
    for _ in 0..times {
        call();
    }
    begin.elapsed()
}

/// How often to call in a round.
fn times_a_round(call: &mut impl FnMut()) -> u32 {
    let mut times = 1;
    while round(call, times) < ROUND && times < 1 << 20 {
        times *= 2;
    }
    times
}

fn median(mut times: Vec<f64>) -> f64 {
    times.sort_by(f64::total_cmp);
    times[times.len() / 2]
}

/// Times two calls, now one going first and now the other.
pub fn take_turns(mut library: impl FnMut(), mut model: impl FnMut()) -> Timed {
    let (library_times, model_times) = (times_a_round(&mut library), times_a_round(&mut model));
    let (mut of_library, mut of_model) = (Vec::new(), Vec::new());
    let begin = Instant::now();
    while of_library.len() < LEAST_ROUNDS || (begin.elapsed() < BUDGET && of_library.len() < MOST_ROUNDS) {
        let turns = if of_library.len().is_multiple_of(2) { [true, false] } else { [false, true] };
        for library_now in turns {
            if library_now {
                of_library.push(round(&mut library, library_times).as_nanos() as f64 / library_times as f64);
            } else {
                of_model.push(round(&mut model, model_times).as_nanos() as f64 / model_times as f64);
            }
        }
    }
    Timed { rounds: of_library.len(), library: median(of_library), model: median(of_model) }
}
