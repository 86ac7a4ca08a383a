//! The safety of accepted templates, tried on generated runs: where a template is accepted and every instance weighs at
//! most one at the start, none weighs more in any state that the player reaches.

use generate::records::{encode, rec, split, Rec};
use generate::rng::Rng;
use generate::runs::pair;
use model::verdict::{decide, rows};
use model::{play, read, WORK};

/// The highest weight of the start facts.
fn start_weight(domain: &[u8], run: &[u8]) -> u32 {
    let mut records: Vec<Rec> = split(run).into_iter().take_while(|record| record.kind < 18).collect();
    records.push(rec(20, []));
    play(domain, &encode(&records), &mut [0; WORK]).weight
}

#[test]
fn accepted_templates_are_safe() {
    let (mut tried, mut steps) = (0, 0);
    for seed in 0..8_000 {
        let (_, domain_file, run) = pair(&mut Rng::new(0x5AFE_0000 + seed));
        let Ok(domain) = read(&domain_file) else { continue };
        if !decide(&rows(&domain)).is_accepted() || start_weight(&domain_file, &run) > 1 {
            continue;
        }
        let played = play(&domain_file, &run, &mut [0; WORK]);
        assert!(played.weight <= 1, "seed {seed}: weight {}", played.weight);
        tried += (played.steps > 0) as usize;
        steps += played.steps;
    }
    println!("{tried} runs of accepted templates, {steps} steps");
    assert!(tried >= 1_000);
}
