//! The library's player against the model over generated pairs of a domain file and a run file.
//!
//! `GOADLOTUS_CASES` is the least number of pairs, `GOADLOTUS_SEED` the first seed.

use differential::playing::{library, run, NUMBERS};
use differential::seeds::{setting, show};
use std::time::Instant;

#[test]
fn player_and_model_agree() {
    let pairs = setting("GOADLOTUS_CASES", 100_000);
    let first = setting("GOADLOTUS_SEED", 0);
    let last = first.wrapping_add(pairs).wrapping_sub(1);
    show(&format!("\nplaying by library and model, seeds {first} to {last}"));
    let begin = Instant::now();
    let counts = match run(library, first, pairs) {
        Ok(counts) => counts,
        Err(text) => panic!("library and model play differently\n{text}"),
    };
    let seconds = begin.elapsed().as_secs_f64();
    show(&format!("{} pairs, {} cases, {} steps in {seconds:.1} s", counts.pairs, counts.cases, counts.steps));
    show(&format!("of runs {:?}", counts.origins));
    show(&counts.table());
    assert!(counts.pairs >= pairs);
    assert_eq!(counts.missing(), [], "numbers that didn't occur");
    assert_eq!(counts.not_met(), [], "what no run met");
    assert_eq!(counts.lengths_missing(), [], "lengths of work memory that weren't lent");
    assert!(counts.numbers.keys().all(|number| NUMBERS.contains(number)), "a number that playing doesn't have");
}
