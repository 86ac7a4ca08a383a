//! P13: the total of an instance against a second, plainer count; and where the verdict is 1 and the start weighs at most one, it
//! never rises from one state to the next.

use generate::plain::{self, total, MISCOUNTS};
use generate::records::{encode, rec, split, Rec};
use generate::rng::Rng;
use generate::runs::{instance, lendings, pair};
use model::verdict::{decide, rows};
use model::{play, read, track, WORK};

/// A domain file and a run file, so many of a hundred of lending.
fn files(rng: &mut Rng, lending: usize) -> (Vec<u8>, Vec<u8>) {
    if rng.chance(lending) {
        return lendings(rng);
    }
    let (_, domain, run) = pair(rng);
    (domain, run)
}

/// The file of these records and the one that closes a run.
fn closed(records: &[Rec]) -> Vec<u8> {
    encode(&[records, &[rec(20, [])]].concat())
}

#[test]
fn the_total_is_the_plain_one() {
    let (mut compared, mut wrong, mut in_transit, mut told) = (0, 0, 0, MISCOUNTS.map(|_| 0));
    for seed in 0..5_000 {
        let rng = &mut Rng::new(0x1313_0000 + seed);
        let (domain_file, run) = files(rng, 25);
        let instance = instance(rng, &domain_file, &run);
        let (mut work, mut without) = (vec![0xA5; WORK], vec![0xA5; WORK]);
        let tracked = track(&domain_file, &run, &instance, &mut work);
        let played = play(&domain_file, &run, &mut without);
        let Ok(domain) = read(&domain_file) else {
            assert_eq!((tracked.played, tracked.total), (played, 0), "seed {seed}");
            continue;
        };
        let objects = match split(&run).first() {
            Some(record) if record.kind == 16 && record.payload.len() == 1 && (1..=64).contains(&record.payload[0]) => {
                Some(record.payload[0])
            }
            _ => None,
        };
        // "a wrong count or object gives 51, last at kind 16"
        let wrong_count = instance.len() != domain.template.n as usize;
        let wrong_object = |count: u8| instance.iter().any(|&object| object >= count);
        if objects.is_some_and(|count| wrong_count || wrong_object(count)) {
            let played = tracked.played;
            assert_eq!((played.number, played.first, played.steps, played.weight, tracked.total), (51, 0, 0, 0, 0));
            assert!(work.iter().all(|&byte| byte == 0) && played.part.at == 0, "seed {seed}");
            wrong += 1;
            continue;
        }
        // else all that both answer is the same
        assert!(tracked.played == played && work == without, "seed {seed}");
        if ![2, 52, 54, 55, 56, 57].contains(&played.number) {
            continue;
        }
        let left = plain::play(&domain, &split(&run), None);
        assert_eq!(tracked.total, total(&domain, &left, &instance, None), "seed {seed}: {instance:?}");
        compared += 1;
        in_transit += (tracked.total > total(&domain, &left, &instance, Some(MISCOUNTS[0]))) as usize;
        for (misread, count) in MISCOUNTS.into_iter().zip(&mut told) {
            *count += (total(&domain, &left, &instance, Some(misread)) != tracked.total) as usize;
        }
    }
    println!("{compared} totals compared, {in_transit} with open journeys, {wrong} instances wrong");
    println!("{MISCOUNTS:?} told by {told:?}");
    assert!(compared >= 2_000 && wrong >= 100 && in_transit >= 100);
    assert!(told.iter().all(|&count| count >= 5));
}

#[test]
fn the_total_never_rises() {
    let (mut runs, mut open, mut steps) = (0, 0, 0);
    for seed in 0..6_000 {
        let rng = &mut Rng::new(0x1314_0000 + seed);
        let is_1 = |file: &[u8]| read(file).is_ok_and(|domain| decide(&rows(&domain)).number() == 1);
        let Some((domain_file, run)) = (0..4).map(|_| files(rng, 85)).find(|(domain, _)| is_1(domain)) else {
            continue;
        };
        let Ok(domain) = read(&domain_file) else { continue };
        let records = split(&run);
        if records.len() > 300 {
            continue;
        }
        let start = records.iter().take_while(|record| record.kind < 18).count();
        let closes = records.iter().enumerate().filter(|(_, record)| record.kind == 19).map(|(at, _)| at + 1);
        let instance = instance(rng, &domain_file, &run);
        let (mut before, mut journeys) = (None, false);
        for end in [start].into_iter().chain(closes) {
            let mut work = [0; WORK];
            let tracked = track(&domain_file, &closed(&records[..end]), &instance, &mut work);
            // a start that weighs more, or a step that isn't allowed
            if tracked.played.number != 2 || (before.is_none() && tracked.played.weight > 1) {
                break;
            }
            assert!(before.is_none_or(|before| tracked.total <= before), "seed {seed}: {before:?}, {}", tracked.total);
            before = Some(tracked.total);
            steps += (end > start) as usize;
            journeys |= tracked.total > weight(&domain, &work, &instance);
        }
        runs += before.is_some() as usize;
        open += journeys as usize;
    }
    println!("{runs} runs of verdict 1, {steps} steps, {open} of them with open journeys of the instance");
    assert!(runs >= 4_000 && open >= 2_000);
}

/// The weight of an instance over the facts in work memory.
fn weight(domain: &model::Domain, work: &[u8], instance: &[u8]) -> u32 {
    let of = |fact: &&[u8]| {
        let component = domain.template.component(fact[0]);
        component.is_some_and(|component| {
            let places = component.place_of[..domain.template.n as usize].iter();
            places.map(|&place| fact[2 + place as usize]).eq(instance.iter().copied())
        })
    };
    // a fact's last byte or its arity isn't 0, so the zeros behind the facts aren't facts
    let facts = work.chunks_exact(8).take_while(|fact| fact.iter().any(|&byte| byte != 0));
    facts.filter(of).count() as u32
}
