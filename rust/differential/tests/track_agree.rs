//! Playing with an instance, by library and model over generated runs; and players that are wrong in one thing each must be
//! caught.
//!
//! `GOADLOTUS_CASES` is the number of cases, `GOADLOTUS_SEED` the first seed.

use differential::seeds::{setting, show};
use differential::tracking::{library, model, run, Track, Tracked};
use generate::plain::{self, total, Miscount, MISCOUNTS};
use generate::records::split;

#[test]
fn tracking_agrees() {
    let cases = setting("GOADLOTUS_CASES", 25_000);
    let counts = match run(library, setting("GOADLOTUS_SEED", 0), cases) {
        Ok(counts) => counts,
        Err(text) => panic!("library and model track differently\n{text}"),
    };
    show(&format!("\ntracking: {} cases, numbers {:?}, totals {:?}", counts.cases, counts.numbers, counts.totals));
    assert_eq!(counts.cases, cases);
    for number in [2, 10, 50, 51, 52, 55, 56, 57, 58] {
        assert!(counts.numbers.contains_key(&number), "{number} didn't occur");
    }
    for total in 0..=2 {
        assert!(counts.totals.contains_key(&total), "total {total} didn't occur");
    }
}

const FIRST: u64 = 1;
const CASES: u64 = 20_000;

#[track_caller]
fn caught(name: &str, player: impl Track) {
    match run(player, FIRST, CASES) {
        Ok(counts) => panic!("{name}: not caught in {} cases", counts.cases),
        Err(text) => assert!(text.contains("DIFFERENT") && text.contains("seed "), "{name}: {text}"),
    }
}

#[test]
fn the_model_itself_passes() {
    assert!(run(model, FIRST, 500).is_ok());
}

#[test]
fn wrong_totals_are_caught() {
    let changed = |change: fn(&mut Tracked)| {
        move |domain: &[u8], run: &[u8], instance: &[u8], work: &mut [u8]| {
            let mut tracked = model(domain, run, instance, work);
            change(&mut tracked);
            tracked
        }
    };
    caught("always 0", changed(|tracked| tracked.total = 0));
    caught("at most 1", changed(|tracked| tracked.total = tracked.total.min(1)));
    caught("the highest weight", changed(|tracked| tracked.total = tracked.played.weight));
    // the total of the start
    caught("the start's", |domain: &[u8], run: &[u8], instance: &[u8], work: &mut [u8]| {
        let tracked = model(domain, run, instance, work);
        let mut records = split(run);
        let start = records.iter().position(|record| record.kind >= 18).unwrap_or(records.len());
        records.truncate(start);
        records.push(generate::records::rec(20, []));
        let start = model(domain, &generate::records::encode(&records), instance, &mut vec![0; work.len()]);
        Tracked { total: if tracked.played.steps > 0 { start.total } else { tracked.total }, ..tracked }
    });
    // an instance that isn't looked at
    caught("any instance", |domain: &[u8], run: &[u8], instance: &[u8], work: &mut [u8]| {
        let tracked = model(domain, run, instance, work);
        if tracked.played.number == 51 && tracked.played.place == 0 {
            let played = differential::playing::model(domain, run, work);
            return Tracked { played, total: 0 };
        }
        tracked
    });
}

/// The total counted plainly with one sentence misread, wherever the plain machine can play the run.
fn miscounting(misread: Option<Miscount>) -> impl Track {
    move |domain: &[u8], run: &[u8], instance: &[u8], work: &mut [u8]| {
        let tracked = model(domain, run, instance, work);
        let known = [2, 52, 54, 55, 56, 57].contains(&tracked.played.number);
        let (true, Ok(plain_domain)) = (known, model::read(domain)) else { return tracked };
        let left = plain::play(&plain_domain, &split(run), None);
        Tracked { total: total(&plain_domain, &left, instance, misread).into(), ..tracked }
    }
}

#[test]
fn every_miscount_is_caught() {
    if let Err(text) = run(miscounting(None), FIRST, 3_000) {
        panic!("{text}");
    }
    for misread in MISCOUNTS {
        caught(&format!("{misread:?}"), miscounting(Some(misread)));
    }
}
