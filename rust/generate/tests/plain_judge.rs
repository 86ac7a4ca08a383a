//! The plain judge against the model's; and every misreading of a sentence about classes and verdicts is met by files.

use generate::domains::{damaged, near_limit, valid};
use generate::plain_judge::{judge, Judged, MISJUDGEMENTS};
use generate::rng::Rng;
use model::read;
use model::verdict::{decide, rows, witness, Decision};
use model::Domain;

const FILES: u64 = 6_000;
/// How many files must tell each misreading.
const LEAST: usize = 15;

/// The file of a seed, if it is well-formed.
fn domain(seed: u64) -> Option<Domain> {
    let rng = &mut Rng::new(0x71A1_0000 + seed);
    let file = match rng.below(20) {
        0 => near_limit(rng),
        1..=2 => damaged(rng),
        _ => valid(rng).file(),
    };
    read(&file).ok()
}

fn by_model(domain: &Domain) -> Judged {
    let rows = rows(domain);
    let decision = decide(&rows);
    let places = match decision {
        Decision::Accepted(_) => [0; 3],
        Decision::Refused(_, row) => [row.action, row.class, row.moment],
    };
    Judged {
        number: decision.number(),
        places,
        rows: rows.iter().map(|row| [row.action, row.class, row.moment, row.name as u8]).collect(),
        witness: witness(domain, &decision),
    }
}

#[test]
fn the_model_judges_plainly() {
    let mut told = MISJUDGEMENTS.map(|_| 0);
    for seed in 0..FILES {
        let Some(domain) = domain(seed) else { continue };
        let judged = by_model(&domain);
        assert_eq!(judge(&domain, None), judged, "seed {seed}");
        for (misread, count) in MISJUDGEMENTS.into_iter().zip(&mut told) {
            *count += (judge(&domain, Some(misread)) != judged) as usize;
        }
    }
    for (misread, count) in MISJUDGEMENTS.into_iter().zip(told) {
        println!("{misread:?} told by {count} files");
        assert!(count >= LEAST, "{misread:?} is told by {count} files only");
    }
}
