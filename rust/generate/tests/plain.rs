//! The plain machine against the model's player; and what the paper says that a witness shows.

use generate::domains::{valid_of, MOODS, SMALL};
use generate::plain;
use generate::records::{encode, rec, split};
use generate::rng::Rng;
use generate::runs::{fact_record, legal, near_limit, pair};
use model::domain::{Atom, Fact, Object};
use model::verdict::{decide, rows, witness, Decision};
use model::{play, read, Part, Source};

fn compare(domain_file: &[u8], run: &[u8], seed: u64) -> bool {
    let Ok(domain) = read(domain_file) else { return false };
    let mut work = vec![0xA5; 8_192];
    let played = play(domain_file, run, &mut work);
    // Of the faults of single records only those that the plain player knows are compared.
    if ![2, 52, 54, 55, 56, 57].contains(&played.number) {
        return false;
    }
    let plainly = plain::play(&domain, &split(run), None);
    let mut memory: Vec<u8> = plainly.facts.iter().flat_map(Fact::bytes).collect();
    memory.resize(8_192, 0);
    let part = Part { file: Source::Run, at: plainly.at };
    assert_eq!((played.number, played.part), (plainly.number, part), "seed {seed}");
    assert_eq!((played.steps, played.weight), (plainly.steps, plainly.weight), "seed {seed}");
    assert_eq!(played.first, if plainly.number == 2 { 0 } else { plainly.at }, "seed {seed}");
    assert!(work == memory, "seed {seed}: work memory");
    true
}

#[test]
fn the_player_is_the_plain_machine() {
    let mut compared = 0;
    for seed in 0..3_000 {
        let (_, domain, run) = pair(&mut Rng::new(0x5EED_0000 + seed));
        compared += compare(&domain, &run, seed) as usize;
    }
    for seed in 0..60 {
        let (domain, run) = near_limit(&mut Rng::new(0x0113_0000 + seed));
        compared += compare(&domain, &run, seed) as usize;
    }
    println!("{compared} runs compared with the plain machine");
    assert!(compared > 1_500);
}

/// Runs made to be legal are played to their end.
#[test]
fn legal_runs_are_played() {
    let mut played = 0;
    for seed in 0..800 {
        let rng = &mut Rng::new(0x1E6A_0000 + seed);
        let file = generate::runs::playground(rng).file();
        let domain = read(&file).unwrap();
        let run = encode(&legal(rng, &domain));
        let answer = play(&file, &run, &mut [0; 8_192]);
        assert_eq!((answer.number, answer.part.at), (2, run.len()), "seed {seed}");
        played += answer.steps;
    }
    println!("{played} steps of legal runs played");
}

/// Plans made to be valid are well-formed.
#[test]
fn valid_files_are_well_formed() {
    for seed in 0..3_000 {
        let rng = &mut Rng::new(0x0A11_0000 + seed);
        assert!(read(&generate::domains::valid(rng).file()).is_ok(), "seed {seed}");
    }
}

/// "Where no action lasts, the witness shows what demand 3 says: take the objects 0 to the variable
/// count and bind variable i to object i. With the witness's facts and nothing open, the named action
/// alone is an allowed step, and the bound key tuple of the named class is an instance that weighs at
/// most one before it and two or more after it."
#[test]
fn a_witness_shows_two_facts() {
    let mut shown = [0; 3];
    for seed in 0..6_000 {
        let rng = &mut Rng::new(0x0317_0000 + seed);
        let mood = rng.pick(&MOODS);
        let mut plan = valid_of(rng, mood, SMALL);
        for action in &mut plan.actions {
            action.lasting = false;
            action.literals.retain(|literal| literal.0 < 4);
        }
        let file = plan.file();
        let domain = read(&file).unwrap();
        let decision = decide(&rows(&domain));
        let Decision::Refused(number @ 40..=42, row) = decision else { continue };
        let witness = witness(&domain, &decision);
        let action = &domain.actions[row.action as usize];
        // The run: the witness's facts, the action alone.
        let mut records = vec![rec(16, [action.variables + 1])];
        records.extend(witness.iter().map(fact_record));
        let mut event = vec![0, row.action];
        event.extend(0..action.variables);
        records.extend([rec(18, event), rec(19, []), rec(20, [])]);
        let mut work = vec![0; 8_192];
        let played = play(&file, &encode(&records), &mut work);
        assert_eq!((played.number, played.steps), (2, 1), "seed {seed}");
        // The instance before and after.
        let class = model::classes::classes(&domain.template, action)[row.class as usize];
        let instance = class.tuple.map(|variable| Object(variable.0));
        let weight = |facts: &[[u8; 8]]| {
            let of = |b: &&[u8; 8]| {
                let args = b[2..2 + b[1] as usize].iter().map(|&object| Object(object)).collect::<Vec<_>>();
                domain.template.tuple(&Atom::new(b[0], args.into_iter())) == Some(instance)
            };
            facts.iter().filter(of).count()
        };
        let before: Vec<[u8; 8]> = witness.iter().map(Fact::bytes).collect();
        let zero = [0u8; 8];
        let after: Vec<[u8; 8]> = work.chunks_exact(8).map(|b| b.try_into().unwrap()).collect();
        // Relation 0 without arguments is told from the zeros by its FF.
        let after: Vec<[u8; 8]> = after.into_iter().filter(|b| *b != zero).collect();
        assert!(weight(&before) <= 1, "seed {seed}: before");
        assert!(weight(&after) >= 2, "seed {seed}: after");
        shown[number as usize - 40] += 1;
    }
    println!("witnesses shown of 40, 41, 42: {shown:?}");
    assert!(shown.iter().all(|&count| count >= 100));
}
