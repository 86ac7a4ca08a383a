//! P8 over files with two and three different faults in every order: the model names the earliest place of the least
//! number, as the rows tell it.

use generate::domains::{faults_met, with_faults, FAULT_ORDERS};
use generate::rng::Rng;
use model::classes::Name;
use model::read;
use model::verdict::{decide, rows, Decision, Row};

const FILES: usize = 1_000;

#[test]
fn the_worst_is_named() {
    let (mut beside_bounded, mut in_one_action) = (0, 0);
    for (number, order) in FAULT_ORDERS.into_iter().enumerate() {
        let rng = &mut Rng::new(0x0808_0000 + number as u64);
        let (mut met, mut tried) = (0, 0);
        while met < FILES {
            tried += 1;
            assert!(tried < 2 * FILES, "{order:?}: {met} of {tried} files have these faults");
            let Ok(domain) = read(&with_faults(rng, order).file()) else { panic!("{order:?}: not well-formed") };
            if faults_met(&domain) != order {
                continue;
            }
            met += 1;
            let worst = order.iter().min().copied().unwrap();
            let rows = rows(&domain);
            let at_fault = |row: &&Row| match worst {
                40 => row.name == Name::Heavy,
                _ => row.name == Name::Unbalanced,
            };
            let first = rows.iter().find(at_fault).unwrap();
            assert_eq!(decide(&rows), Decision::Refused(worst, *first), "{order:?}, file {tried}");
            beside_bounded += rows.iter().any(|row| row.name == Name::Bounded && !row.journeys_end) as usize;
            let faulty = |row: &&Row| matches!(row.name, Name::Heavy | Name::Unbalanced | Name::Unbounded);
            let mut actions = rows.iter().filter(faulty).map(|row| row.action);
            let first = actions.next();
            in_one_action += actions.any(|action| Some(action) == first) as usize;
        }
    }
    println!("{beside_bounded} files have a bounded moment too, {in_one_action} two faults in one action");
    assert!(beside_bounded >= 1_000 && in_one_action >= 1_000);
}
