//! P8: a thousand files each with two and with three different faults in every order, judged by library and model.

use differential::judging::compare;
use generate::domains::{faults_met, with_faults, FAULT_ORDERS};
use generate::rng::Rng;
use generate::room;

const FILES: usize = 1_000;

#[test]
fn several_faults_in_every_order() {
    for (number, order) in FAULT_ORDERS.into_iter().enumerate() {
        let rng = &mut Rng::new(0x0809_0000 + number as u64);
        let (mut met, mut tried) = (0, 0);
        while met < FILES {
            tried += 1;
            assert!(tried < 2 * FILES, "{order:?}: {met} of {tried} files have these faults");
            let file = with_faults(rng, order).file();
            met += model::read(&file).is_ok_and(|domain| faults_met(&domain) == order) as usize;
            let (report, witness) = room(&file);
            for lent in [(report, witness), (report, witness.saturating_sub(1)), (report, 0), (report + 9, witness + 9)]
            {
                if let Err(text) = compare(goadlotus::judge, &file, lent, tried) {
                    panic!("{order:?}, file {tried}\n{text}");
                }
            }
        }
    }
}
