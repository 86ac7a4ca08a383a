//! P5 once more: the list of a file against judging files that have the template in the place of their own components; and
//! how the keys are numbered changes no verdict.

use generate::domains::{damaged, near_limit, valid, valid_of, Mood, FF, SMALL};
use generate::literature::{Named, DEPOTS, DRIVERLOG, FLOORTILE, ROVERS, SATELLITE};
use generate::records::{encode, rec, split, Rec};
use generate::rng::Rng;
use model::listing::{REPORT, WITNESS};
use model::{judge, templates};

const FILES: u64 = 1_200;
/// 64 relations of 7 templates.
const LIST: usize = 64 * 7 * 3;

fn verdict(file: &[u8]) -> u8 {
    judge(file, &mut [0; REPORT], &mut [0; WITNESS]).number
}

/// The file with this component and no other.
fn with(records: &[Rec], relation: u8, labels: &[u8]) -> Vec<u8> {
    let mut other: Vec<Rec> = records.iter().filter(|record| record.kind < 4).cloned().collect();
    other.extend([rec(4, [&[relation], labels].concat()), rec(5, [])]);
    encode(&other)
}

/// What the list of a well-formed file should be; a template is passed over where its file is refused.
fn expected(rng: &mut Rng, file: &[u8], passed_over: &mut usize) -> Vec<u8> {
    let records = split(file);
    let arities: Vec<u8> = records.iter().filter(|record| record.kind == 1).map(|record| record.payload[0]).collect();
    let mut list = Vec::new();
    for (relation, &arity) in arities.iter().enumerate() {
        for counted in [None].into_iter().chain((0..arity as usize).map(Some)) {
            let mut labels: Vec<u8> = (0..arity).collect();
            if let Some(place) = counted {
                labels = (0..arity - 1).collect();
                labels.insert(place, FF);
            }
            let number = verdict(&with(&records, relation as u8, &labels));
            // any other order of the keys
            let mut keys: Vec<u8> = labels.iter().copied().filter(|&label| label != FF).collect();
            rng.shuffle(&mut keys);
            let others: Vec<u8> =
                labels.iter().map(|&label| if label == FF { FF } else { keys[label as usize] }).collect();
            assert_eq!(verdict(&with(&records, relation as u8, &others)), number, "{labels:?} or {others:?}");
            match number {
                0 | 1 | 40..=43 => list.extend([relation as u8, counted.map_or(FF, |place| place as u8), number]),
                27 => *passed_over += 1,
                _ => panic!("{labels:?} gives {number}"),
            }
        }
    }
    list
}

#[test]
fn the_list_is_what_judging_says() {
    let (mut listed, mut passed_over, mut refused, mut met) = (0, 0, 0, [0; 44]);
    for seed in 0..FILES {
        let rng = &mut Rng::new(0x0505_0000 + seed);
        let file = match rng.below(20) {
            0..=2 => damaged(rng),
            3 if seed % 8 == 0 => near_limit(rng),
            4..=7 => valid_of(rng, Mood::Bounded43, SMALL).file(),
            _ => valid(rng).file(),
        };
        let mut list = vec![0xA5; LIST];
        let served = templates(&file, &mut list);
        let stop = model::read(&file).err();
        if let Some(stop) = stop {
            assert_eq!((served.number, served.first), (stop.number, stop.place), "seed {seed}");
            assert!(list.iter().all(|&byte| byte == 0xA5), "seed {seed}");
            refused += 1;
            continue;
        }
        let expected = expected(rng, &file, &mut passed_over);
        assert_eq!((served.number, served.first), (0, expected.len()), "seed {seed}");
        assert_eq!(list[..expected.len()], expected, "seed {seed}");
        assert!(list[expected.len()..].iter().all(|&byte| byte == 0xA5), "seed {seed}");
        listed += expected.len() / 3;
        expected.chunks_exact(3).for_each(|entry| met[entry[2] as usize] += 1);
        for short in [0, expected.len().saturating_sub(1)].into_iter().filter(|&short| short < expected.len()) {
            let served = templates(&file, &mut list[..short]);
            assert_eq!((served.number, served.first), (30, 0), "seed {seed}");
        }
    }
    let met = [0, 1, 40, 41, 42, 43].map(|number| (number, met[number]));
    println!("{listed} templates listed, {passed_over} passed over, {refused} files refused; verdicts {met:?}");
    assert!(passed_over >= 100 && refused >= 50 && met.iter().all(|&(_, count)| count >= 20));
}

/// The lists of the domains of the literature, as they stand and with all actions at once.
#[test]
fn lists_of_the_literature() {
    for (text, own) in [
        (DEPOTS, "clear[FF]"),
        (DRIVERLOG, "empty[0]"),
        (FLOORTILE, "clear[0]"),
        (ROVERS, "full[0]"),
        (SATELLITE, "calibrated[0]"),
    ] {
        let domain = Named::read(text);
        for domain in [domain.at_once(), domain] {
            let file = domain.with(own).file();
            let mut list = [0; LIST];
            let served = templates(&file, &mut list);
            assert_eq!(served.number, 0);
            assert_eq!(list[..served.first], expected(&mut Rng::new(5), &file, &mut 0));
        }
    }
}
