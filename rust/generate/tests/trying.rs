//! P10 over generated files: the engine says yes exactly for heavy, unbalanced and unbounded, and what a second engine says; which
//! objects are tried in a counted place beside the spare one changes nothing.

use generate::domains::{near_limit, tiny, valid, valid_of, Mood, MOODS, SMALL};
use generate::plain_try::{answers, Counted, MISTRIES};
use generate::rng::Rng;
use model::classes::Name;
use model::verdict::rows;
use model::{read, trying, Domain};

const FILES: u64 = 100_000;
/// One of so many files is tried by the second engine with every misreading too.
const SOME: u64 = 8;

fn file(seed: u64) -> Vec<u8> {
    let rng = &mut Rng::new(0x1010_0000 + seed);
    match rng.below(1_000) {
        0..=2 => near_limit(rng),
        3..=5 => valid(rng).file(),
        6..=299 => {
            let mood = rng.pick(&MOODS);
            let mut plan = valid_of(rng, if mood == Mood::Accepted1 { Mood::Anything } else { mood }, SMALL);
            for action in plan.actions.iter_mut().filter(|action| action.lasting) {
                if rng.chance(80) {
                    action.lasting = false;
                    action.literals.retain(|literal| literal.0 < 4);
                }
            }
            plan.file()
        }
        _ => tiny(rng).file(),
    }
}

/// The answers that the names tell.
fn by_names(domain: &Domain) -> Vec<u8> {
    let at_once = rows(domain).into_iter().filter(|row| !domain.actions[row.action as usize].lasting);
    at_once.map(|row| matches!(row.name, Name::Heavy | Name::Unbalanced | Name::Unbounded) as u8).collect()
}

#[test]
fn yes_exactly_for_heavy_unbalanced_and_unbounded() {
    let (mut files, mut tried, mut yes, mut clearing, mut told) = (0, 0, 0, 0, MISTRIES.map(|_| 0));
    for seed in 0.. {
        if files == FILES {
            break;
        }
        let Ok(domain) = read(&file(seed)) else { continue };
        files += 1;
        let got = trying::answers(&domain);
        assert_eq!(got, by_names(&domain), "seed {seed}");
        tried += got.len();
        yes += got.iter().filter(|&&answer| answer == 1).count();
        let clears = |action: &model::domain::Action| action.literals.iter().any(|l| l.atom.cleared().is_some());
        clearing += domain.actions.iter().any(clears) as usize;
        if seed % SOME == 0 {
            assert_eq!(answers(&domain, Counted::Every, None), got, "seed {seed}");
            assert_eq!(answers(&domain, Counted::SpareOnly, None), got, "seed {seed}: the spare object alone");
            for (misread, count) in MISTRIES.into_iter().zip(&mut told) {
                *count += (answers(&domain, Counted::Every, Some(misread)) != got) as usize;
            }
        }
    }
    println!("{files} files, {tried} classes tried, {yes} with harm; {clearing} files with clearing literals");
    println!("{MISTRIES:?} told by {told:?}");
    assert!(tried >= 100_000 && yes >= 20_000 && clearing >= 10_000);
    assert!(told.iter().all(|&count| count >= 20));
}
