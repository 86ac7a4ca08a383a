//! The comparison itself: players that are wrong in one thing each must be caught by it.

use differential::playing::{model, run, seed, Play, Played, NUMBERS, WORK};
use generate::plain::{self, Misread, MISREADINGS};
use generate::records::{encode, split, Rec};
use model::domain::{Domain, Fact};
use model::records::Record;
use model::Source;
use std::collections::BTreeMap;
use std::sync::OnceLock;

const FIRST: u64 = 1;
const PAIRS: u64 = 20_000;

#[track_caller]
fn caught(name: &str, player: impl Play) {
    match run(player, FIRST, PAIRS) {
        Ok(counts) => panic!("{name}: not caught in {} cases", counts.cases),
        Err(text) => {
            println!("{name}: {}", text.lines().last().unwrap_or(""));
            assert!(text.contains("DIFFERENT") && text.contains("seed "), "{name}: {text}");
        }
    }
}

/// The first seed that has a case of this number.
fn seed_of(number: u64) -> u64 {
    static SEEDS: OnceLock<BTreeMap<u64, u64>> = OnceLock::new();
    let find = || {
        let mut seeds = BTreeMap::new();
        for at in FIRST..FIRST + PAIRS {
            for &number in seed(model, at).expect("the model agrees with itself").numbers.keys() {
                seeds.entry(number).or_insert(at);
            }
            if NUMBERS.iter().all(|number| seeds.contains_key(number)) {
                break;
            }
        }
        seeds
    };
    SEEDS.get_or_init(find)[&number]
}

/// A player whose answer is the model's, changed where it is this number, must be caught by a case of it.
#[track_caller]
fn change_caught(name: &str, number: u64, change: impl Fn(&mut Played, &mut [u8]) + Sync) {
    let player = |domain: &[u8], run: &[u8], work: &mut [u8]| {
        let mut played = model(domain, run, work);
        if played.number == number {
            change(&mut played, work);
        }
        played
    };
    match seed(player, seed_of(number)) {
        Ok(_) => panic!("{name}, {number}: not caught"),
        Err(text) => assert!(text.contains("DIFFERENT") && text.contains("seed "), "{name}: {text}"),
    }
}

/// The model on another run, answering for this one: only what it leaves in work memory is changed.
fn on_another_run(other: impl Fn(&[u8]) -> Vec<u8> + Sync) -> impl Play {
    move |domain: &[u8], run: &[u8], work: &mut [u8]| {
        let played = model(domain, run, work);
        if played.steps > 0 {
            model(domain, &other(run), work);
        }
        played
    }
}

/// The records of a run up to the first that is so, then the run's close.
fn up_to(run: &[u8], last: impl Fn(&Rec) -> bool) -> Vec<u8> {
    let records = split(run);
    let end = records.iter().position(last).unwrap_or(records.len());
    let mut first = records[..end].to_vec();
    first.push(Rec { kind: 20, payload: Vec::new() });
    encode(&first)
}

#[test]
fn the_model_itself_passes() {
    assert!(run(model, FIRST, 500).is_ok());
}

#[test]
fn a_wrong_number() {
    for number in NUMBERS {
        change_caught("number", number, |played, _| played.number ^= 1);
    }
}

#[test]
fn a_wrong_place() {
    for number in NUMBERS {
        change_caught("place", number, |played, _| played.place += 1);
        change_caught("steps", number, |played, _| played.steps += 1);
        change_caught("weight", number, |played, _| played.weight += 1);
    }
}

#[test]
fn a_made_up_weight() {
    caught("always 0", |d: &[u8], r: &[u8], w: &mut [u8]| Played { weight: 0, ..model(d, r, w) });
    caught("always 1", |d: &[u8], r: &[u8], w: &mut [u8]| Played { weight: 1, ..model(d, r, w) });
    // The weight of an accepted template is at most 1 only if the start's is.
    caught("at most 1", |d: &[u8], r: &[u8], w: &mut [u8]| {
        let played = model(d, r, w);
        Played { weight: played.weight.min(1), ..played }
    });
    // "steps and weight are 0 before"
    caught("weighed before the first step", |domain: &[u8], run: &[u8], work: &mut [u8]| {
        let played = model(domain, run, work);
        if !(50..=52).contains(&played.number) || played.weight > 0 {
            return played;
        }
        let weight = model(domain, &up_to(run, |record| record.kind >= 18), &mut [0; WORK]).weight;
        Played { weight, ..played }
    });
}

#[test]
fn a_wrong_part() {
    for number in NUMBERS {
        change_caught("the other file", number, |played, _| {
            played.file = if played.file == Source::Domain { Source::Run } else { Source::Domain };
        });
        change_caught("not to the end", number, |played, _| played.length += 1);
        change_caught("from another byte", number, |played, _| {
            played.at += 1;
            played.length = played.length.wrapping_sub(1);
        });
    }
    // Shifted by one record: the part begins behind the faulty one.
    caught("the next record", |domain: &[u8], run: &[u8], work: &mut [u8]| {
        let played = model(domain, run, work);
        let whole = if played.file == Source::Domain { domain } else { run };
        match Record::read(whole, played.at) {
            Some(record) => Played { at: record.end(), length: whole.len() - record.end(), ..played },
            None => played,
        }
    });
    // For a step's close its first event instead of its kind 19.
    caught("the step's first record", |domain: &[u8], run: &[u8], work: &mut [u8]| {
        let played = model(domain, run, work);
        if !(55..=57).contains(&played.number) {
            return played;
        }
        let (mut at, mut first) = (0, 0);
        for record in split(&run[..played.at]) {
            at += 4 + record.payload.len();
            if record.kind != 18 {
                first = at;
            }
        }
        Played { at: first, length: run.len() - first, ..played }
    });
}

#[test]
fn the_start_facts_kept() {
    caught("start facts", on_another_run(|run| up_to(run, |record| record.kind >= 18)));
}

#[test]
fn only_the_first_step_made() {
    // In work memory alone, and in the whole answer.
    let first_step = |run: &[u8]| {
        let records = split(run);
        let end = records.iter().position(|record| record.kind == 19).map_or(records.len(), |close| close + 1);
        let mut first = records[..end].to_vec();
        first.push(Rec { kind: 20, payload: Vec::new() });
        encode(&first)
    };
    caught("first step", on_another_run(first_step));
    caught("first step", move |domain: &[u8], run: &[u8], work: &mut [u8]| {
        let played = model(domain, run, work);
        if played.number != 2 {
            return played;
        }
        let steps = model(domain, &first_step(run), work).steps;
        Played { steps, ..played }
    });
}

/// 9 to 27 write nothing, nor does 58, whatever length is lent to it.
#[test]
fn a_byte_written_by_a_refusal() {
    for number in 9..=27 {
        change_caught("written", number, |_, work| work[0] = !work[0]);
    }
    caught("written by 58", |domain: &[u8], run: &[u8], work: &mut [u8]| {
        let played = model(domain, run, work);
        if let (58, Some(last)) = (played.number, work.last_mut()) {
            *last = !*last;
        }
        played
    });
}

#[test]
fn wrong_bytes_behind_the_facts() {
    // Bytes beyond 8,192 stay as they were.
    caught("cleared beyond", |domain: &[u8], run: &[u8], work: &mut [u8]| {
        let played = model(domain, run, work);
        if let (true, Some(beyond)) = (played.number != 58, work.get_mut(WORK..)) {
            beyond.fill(0);
        }
        played
    });
    // "zeros after"
    caught("not cleared", |domain: &[u8], run: &[u8], work: &mut [u8]| {
        let before = work.to_vec();
        let played = model(domain, run, work);
        if played.number == 2 {
            let facts = work.chunks_exact(8).take_while(|fact| fact.iter().any(|&byte| byte != 0)).count();
            work[8 * facts..].copy_from_slice(&before[8 * facts..]);
        }
        played
    });
    // A fact's fill is FF.
    caught("another fill", |domain: &[u8], run: &[u8], work: &mut [u8]| {
        let played = model(domain, run, work);
        if played.number == 2 && work[7] == 0xFF {
            work[7] = 0;
        }
        played
    });
}

#[test]
fn another_length_of_work_memory() {
    caught("one byte more demanded", |domain: &[u8], run: &[u8], work: &mut [u8]| {
        let end = work.len().saturating_sub(1);
        model(domain, run, &mut work[..end])
    });
    caught("one byte less demanded", |domain: &[u8], run: &[u8], work: &mut [u8]| {
        let mut memory = [&*work, &[0]].concat();
        let played = model(domain, run, &mut memory);
        work.copy_from_slice(&memory[..work.len()]);
        played
    });
    // 9 to 27 come before 58.
    caught("58 first", |domain: &[u8], run: &[u8], work: &mut [u8]| {
        if work.len() < WORK {
            let (file, at) = (Source::Run, run.len());
            return Played { number: 58, place: 0, steps: 0, weight: 0, file, at, length: 0 };
        }
        model(domain, run, work)
    });
}

/// A record of this kind that is told one number is told another where its payload is so: the domain, the object
/// count and the payload are looked at.
#[track_caller]
fn other_order_caught(name: &str, kind: u16, from: u64, to: u64, so: impl Fn(&Domain, u8, &[u8]) -> bool + Sync) {
    caught(name, |domain: &[u8], run: &[u8], work: &mut [u8]| {
        let played = model(domain, run, work);
        let (Ok(domain), Some(first)) = (model::read(domain), split(run).into_iter().next()) else { return played };
        let record = Record::read(run, played.place as usize).filter(|record| record.kind == kind);
        match record {
            Some(record) if played.number == from && so(&domain, first.payload[0], record.payload) => {
                Played { number: to, ..played }
            }
            _ => played,
        }
    });
}

/// Of two faults of one record the other is told.
#[test]
fn another_order_of_faults() {
    let repeated = |objects: &[u8]| (1..objects.len()).any(|i| objects[..i].contains(&objects[i]));
    let over = |count: u8, objects: &[u8]| objects.iter().any(|&object| object >= count);
    // 51 of an object comes before 53.
    other_order_caught("53 before 51", 18, 51, 53, |domain, _, payload| {
        let action = domain.actions.get(payload[1] as usize);
        action.is_some_and(|action| payload[0] == 0 || action.lasting) && payload[0] < 2 && repeated(&payload[2..])
    });
    // A length comes once the action or the relation is known, so before the objects ..
    other_order_caught("51 before 50", 18, 50, 51, |_, count, payload| payload.len() > 2 && over(count, &payload[2..]));
    other_order_caught("51 before 50", 17, 50, 51, |_, count, payload| payload.len() > 1 && over(count, &payload[1..]));
    // .. and before what needs the action: moment 1 of an action at once.
    other_order_caught("moment before length", 18, 50, 51, |domain, _, payload| {
        payload.len() > 1 && payload[0] == 1 && domain.actions.get(payload[1] as usize).is_some_and(|a| !a.lasting)
    });
    // A moment, an action or a relation out of range comes before the length.
    other_order_caught("length before action", 18, 51, 50, |domain, _, payload| {
        payload[1] as usize >= domain.actions.len() && payload.len() > 2 + 16
    });
    other_order_caught("length before relation", 17, 51, 50, |domain, _, payload| {
        payload[0] as usize >= domain.relations.len() && payload.len() > 1 + 6
    });
    other_order_caught("length before moment", 18, 51, 50, |domain, _, payload| {
        let action = domain.actions.get(payload[1] as usize);
        payload[0] > 1 && action.is_some_and(|action| action.variables as usize + 2 != payload.len())
    });
}

/// The machine with one sentence misread, wherever the plain machine can play the run.
fn misreading(misread: Option<Misread>) -> impl Play {
    move |domain: &[u8], run: &[u8], work: &mut [u8]| {
        let played = model(domain, run, work);
        let (true, Ok(plain_domain)) = ([2, 52, 54, 55, 56, 57].contains(&played.number), model::read(domain)) else {
            return played;
        };
        let plainly = plain::play(&plain_domain, &split(run), misread);
        let facts: Vec<u8> = plainly.facts.iter().flat_map(Fact::bytes).collect();
        work[..WORK].fill(0);
        work[..facts.len()].copy_from_slice(&facts);
        let place = if plainly.number == 2 { 0 } else { plainly.at as u64 };
        Played {
            number: plainly.number.into(),
            place,
            steps: plainly.steps as u64,
            weight: plainly.weight.into(),
            file: Source::Run,
            at: plainly.at,
            length: run.len() - plainly.at,
        }
    }
}

#[test]
fn the_plain_machine_passes() {
    if let Err(text) = run(misreading(None), FIRST, 3_000) {
        panic!("{text}");
    }
}

#[test]
fn every_misreading() {
    for misread in MISREADINGS {
        caught(&format!("{misread:?}"), misreading(Some(misread)));
    }
}
