//! The long run itself: a wrong judge or player stops it with its seed, and going on at a seed leaves nothing out.

use differential::both::{run, seed, Counts, Progress};
use differential::judging::{self, Judge, Judgement};
use differential::playing::{self, Play, Played};
use differential::seeds::Counted;

const FIRST: u64 = 1;
const CASES: u64 = 10_000;

fn on(threads: usize, from: u64, cases: u64) -> Progress {
    let (progress, failure) = run(judging::model, playing::model, threads, from, cases, |_| ());
    assert_eq!(failure, None);
    progress
}

/// The seed told is the first one that differs, and every seed before it was counted.
#[track_caller]
fn caught(judge: impl Judge, player: impl Play, what: &str) {
    let first = (FIRST..).find(|&n| seed(&judge, &player, n).is_err()).expect("a seed that differs");
    let mut before = 0;
    for n in FIRST..first {
        before += seed(&judge, &player, n).expect("a seed that agrees").cases();
    }
    for threads in [1, 2] {
        let (progress, failure) = run(&judge, &player, threads, FIRST, u64::MAX, |_| ());
        let text = failure.expect("a difference");
        assert!(text.contains(what) && text.contains(&format!("seed {first}")), "{text}");
        assert!(progress.next <= first && progress.counts.cases() >= before);
    }
}

#[test]
fn a_wrong_judge_or_player_stops_it() {
    let judge = |file: &[u8], report: &mut [u8], witness: &mut [u8]| {
        let judgement = judging::model(file, report, witness);
        Judgement { third: judgement.third.min(1), ..judgement }
    };
    let wrong_judge = |file: &[u8], report: &mut [u8], witness: &mut [u8]| {
        let judgement = judge(file, report, witness);
        Judgement { second: judgement.second.min(1), ..judgement }
    };
    caught(wrong_judge, playing::model, "judging differs");
    let player = |domain: &[u8], run: &[u8], work: &mut [u8]| {
        let played = playing::model(domain, run, work);
        Played { weight: played.weight.min(3), ..played }
    };
    caught(judging::model, player, "playing differs");
}

#[test]
fn a_panic_stops_it() {
    let player = |domain: &[u8], run: &[u8], work: &mut [u8]| {
        let played = playing::model(domain, run, work);
        assert_ne!(played.number, 56, "this panic is meant");
        played
    };
    caught(judging::model, player, "a panic");
}

#[test]
fn it_goes_on_at_a_seed() {
    let whole = on(2, FIRST, CASES);
    assert!((CASES..CASES + 20).contains(&whole.counts.cases()));
    assert_eq!(on(1, FIRST, CASES), whole, "on one thread");
    let half = on(2, FIRST, CASES / 2);
    let rest = on(2, half.next, CASES - half.counts.cases());
    let mut sum = half.counts;
    sum.add(&rest.counts);
    assert_eq!((rest.next, sum), (whole.next, whole.counts));
}

#[test]
fn the_progress_told_is_complete() {
    let mut told = Vec::new();
    run(judging::model, playing::model, 2, FIRST, CASES, |progress| told.push(progress.clone()));
    let mut counts = Counts::default();
    let mut next = FIRST;
    for progress in told {
        for n in next..progress.next {
            counts.add(&seed(judging::model, playing::model, n).expect("the model agrees with itself"));
        }
        next = progress.next;
        assert_eq!(progress.counts, counts);
    }
    assert!(counts.cases() >= CASES);
}
