//! Playing, timed.

use crate::files;
use crate::runs;
use crate::timing::{take_turns, Timed};
use std::hint::black_box;

const PLAYED: u64 = 2;
const CONDITION_FAILS: u64 = 55;

/// Answers with number, place, steps, weight, and the length of the part.
type Play = fn(&[u8], &[u8], &mut [u8]) -> [u64; 5];

struct Side {
    play: Play,
    work: Vec<u8>,
}

impl Side {
    fn new(play: Play) -> Side {
        Side { play, work: vec![0; model::WORK] }
    }

    fn play(&mut self, domain: &[u8], run: &[u8]) -> [u64; 5] {
        (self.play)(black_box(domain), black_box(run), black_box(&mut self.work))
    }
}

fn by_library(domain: &[u8], run: &[u8], work: &mut [u8]) -> [u64; 5] {
    let played = goadlotus::play(domain, run, work);
    let (goadlotus::Part::Domain(part) | goadlotus::Part::Run(part)) = played.part;
    [played.number, played.place, played.steps, played.weight, part.len() as u64]
}

fn by_model(domain: &[u8], run: &[u8], work: &mut [u8]) -> [u64; 5] {
    let played = model::play(domain, run, work);
    let file = if played.part.file == model::Source::Domain { domain } else { run };
    let part = file.len() - played.part.at;
    [played.number.into(), played.first as u64, played.steps as u64, played.weight.into(), part as u64]
}

/// The times, and the steps made; the run must come to this number.
fn time(name: &str, domain: &[u8], run: &[u8], number: u64) -> (Timed, f64) {
    let (mut library, mut model) = (Side::new(by_library), Side::new(by_model));
    let played = library.play(domain, run);
    let same = played == model.play(domain, run) && library.work == model.work;
    assert!(same, "{name}: library and model differ");
    assert_eq!(played[0], number, "{name}: another number");
    let timed = take_turns(
        || {
            black_box(library.play(domain, run));
        },
        || {
            black_box(model.play(domain, run));
        },
    );
    (timed, played[2] as f64)
}

fn single_runs(domain: &[u8]) {
    println!("\nplaying, nanoseconds: median of interleaved rounds; ratio is library / model");
    println!(
        "{:24} {:>7} {:>6} {:>12} {:>12} {:>7} {:>9} {:>9} {:>9} {:>9} {:>7}",
        "run", "bytes", "steps", "library", "model", "ratio", "lib/step", "mod/step", "lib/byte", "mod/byte", "rounds"
    );
    let (m1, rovers, clearing) = (files::m1(), files::rovers(), runs::clearing_archive());
    for (name, domain, run, number) in [
        ("M12, refused", &m1[..], runs::m12(), CONDITION_FAILS),
        ("Rovers, 20 steps", &rovers, runs::rovers_20(), PLAYED),
        ("5,000 steps of 1 event", domain, runs::single_events(5_000), PLAYED),
        ("5,000, a plain delete", &clearing, runs::plain_events(5_000), PLAYED),
        ("5,000, a clearing delete", &clearing, runs::clearing_events(5_000), PLAYED),
        ("1,000 steps of 16 events", domain, runs::full_steps(1_000), PLAYED),
        ("10,000 empty, 32 open", domain, runs::empty_steps(10_000), PLAYED),
        ("lending, 1 MB", domain, runs::lending(1_000_000), PLAYED),
    ] {
        let (timed, steps) = time(name, domain, &run, number);
        let bytes = run.len() as f64;
        println!(
            "{name:24} {bytes:>7} {steps:>6} {:>12.0} {:>12.0} {:>7.2} {:>9.1} {:>9.1} {:>9.2} {:>9.2} {:>7}",
            timed.library,
            timed.model,
            timed.library / timed.model,
            timed.library / steps,
            timed.model / steps,
            timed.library / bytes,
            timed.model / bytes,
            timed.rounds
        );
    }
}

/// Facts held and events of a step.
const SIZES: [(usize, usize); 9] =
    [(16, 1), (64, 1), (125, 1), (250, 1), (500, 1), (1_000, 1), (1_000, 2), (1_000, 4), (1_000, 16)];

fn growth(domain: &[u8]) {
    println!("\ngrowth with the facts held and the events of a step, nanoseconds a step");
    println!("{:>6} {:>6} {:>12} {:>12} {:>7}", "facts", "events", "library", "model", "ratio");
    for (facts, events) in SIZES {
        // each volume is moved 16 times
        let (timed, steps) = time("moves", domain, &runs::moves(facts, 16 * facts / events, events), PLAYED);
        let (library, model) = (timed.library / steps, timed.model / steps);
        println!("{facts:>6} {events:>6} {library:>12.1} {model:>12.1} {:>7.2}", library / model);
    }
}

/// Tracking the first volume beside playing: by the library, and by the model.
fn tracking(domain: &[u8]) {
    println!("\ntracking an instance beside playing, nanoseconds");
    println!("{:24} {:>12} {:>12} {:>7} {:>12} {:>7}", "run", "tracked", "played", "ratio", "by model", "lib/mod");
    let instance = runs::FIRST_VOLUME;
    for (name, run) in [
        ("5,000 steps of 1 event", runs::single_events(5_000)),
        ("10,000 empty, 32 open", runs::empty_steps(10_000)),
        ("lending, 1 MB", runs::lending(1_000_000)),
    ] {
        let (mut work, mut of_model) = (vec![0; model::WORK], vec![0; model::WORK]);
        let tracked = goadlotus::track(domain, &run, &instance, &mut work);
        let by_model = model::track(domain, &run, &instance, &mut of_model);
        let same = (tracked.played.number, tracked.total) == (by_model.played.number.into(), by_model.total.into());
        assert!(same && work == of_model && tracked.total == 1, "{name}: library and model differ");
        let mut side = Side::new(by_library);
        let beside = take_turns(
            || {
                black_box(goadlotus::track(black_box(domain), black_box(&run), &instance, black_box(&mut work)).total);
            },
            || {
                black_box(side.play(domain, &run));
            },
        );
        let against = take_turns(
            || {
                black_box(goadlotus::track(black_box(domain), black_box(&run), &instance, black_box(&mut work)).total);
            },
            || {
                black_box(model::track(black_box(domain), black_box(&run), &instance, black_box(&mut of_model)).total);
            },
        );
        println!(
            "{name:24} {:>12.0} {:>12.0} {:>7.2} {:>12.0} {:>7.2}",
            beside.library,
            beside.model,
            beside.library / beside.model,
            against.model,
            against.library / against.model
        );
    }
}

pub fn print() {
    let domain = runs::archive();
    single_runs(&domain);
    growth(&domain);
    tracking(&domain);
}
