//! The library against the model over generated files.
//!
//! `GOADLOTUS_CASES` is the least number of cases, `GOADLOTUS_SEED` the first seed.

use differential::judging::{run, CASES_A_FILE};
use differential::seeds::{setting, show};
use std::time::Instant;

#[test]
fn library_and_model_agree() {
    let least = setting("GOADLOTUS_CASES", 200_000);
    let first = setting("GOADLOTUS_SEED", 0);
    let files = least.div_ceil(CASES_A_FILE);
    show(&format!("\nseeds {first} to {}", first.wrapping_add(files).wrapping_sub(1)));
    let begin = Instant::now();
    let counts = match run(goadlotus::judge, first, files) {
        Ok(counts) => counts,
        Err(text) => panic!("the library (judge) and the model differ\n{text}"),
    };
    show(&format!("{} cases in {:.1} s, of files {:?}", counts.cases, begin.elapsed().as_secs_f64(), counts.files));
    show(&counts.table());
    assert!(counts.cases >= least);
    assert_eq!(counts.missing(), [], "numbers that didn't occur");
}
