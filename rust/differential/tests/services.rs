//! The services that write one memory, by library and model over generated files; and services that are wrong in one
//! thing each must be caught.
//!
//! `GOADLOTUS_CASES` is the least number of cases of each service, `GOADLOTUS_SEED` the first seed.

use differential::judging;
use differential::seeds::{run, setting, show, Counted as _};
use differential::serving::{Counts, Serve, Served, Service, TEMPLATES, TOTALS, TRY};
use generate::boxes::{any_box, any_file, packed, small};
use generate::domains::tiny;
use generate::plain_try::{answers, Counted, MISTRIES};
use generate::records::{encode, rec, Rec};
use generate::rng::Rng;

/// The least number of cases that one file gives.
const CASES_A_FILE: u64 = 3;
const FIRST: u64 = 1;
const FILES: u64 = 3_000;

/// What a service is tried on: the file of a seed, and the numbers that must occur.
struct Tried {
    service: Service,
    file: fn(u64) -> Vec<u8>,
    numbers: &'static [u64],
}

/// The files that judging is tried on.
fn domain_file(seed: u64) -> Vec<u8> {
    judging::file(seed).1
}

/// What refuses a domain file, what a short memory gives, and done.
const OF_ONE_FILE: &[u64] = &[0, 9, 10, 11, 12, 13, 14, 15, 16, 17, 18, 19, 20, 21, 22, 23, 24, 25, 26, 27, 30];

const OF_TEMPLATES: Tried = Tried { service: TEMPLATES, file: domain_file, numbers: OF_ONE_FILE };

const OF_TRY: Tried = Tried { service: TRY, file: domain_file, numbers: OF_ONE_FILE };

fn box_of_files(seed: u64) -> Vec<u8> {
    any_box(&mut Rng::new(seed))
}

const OF_TOTALS: Tried = Tried { service: TOTALS, file: box_of_files, numbers: &[0, 30, 33] };

/// The service on the files of so many seeds.
fn over(tried: &Tried, serve: impl Serve, first: u64, files: u64) -> Result<Counts, String> {
    let of_seed = |seed: u64| {
        let counts = tried.service.compare_all(&serve, &(tried.file)(seed), seed as usize % 1_000);
        counts.map_err(|text| format!("seed {seed}\n{text}"))
    };
    run(of_seed, first, files)
}

fn agree(name: &str, tried: Tried, cases: u64) {
    let least = setting("GOADLOTUS_CASES", cases);
    let first = setting("GOADLOTUS_SEED", 0);
    let counts = match over(&tried, tried.service.library, first, least.div_ceil(CASES_A_FILE)) {
        Ok(counts) => counts,
        Err(text) => panic!("the library ({name}) and the model differ\n{text}"),
    };
    show(&format!("\n{name}: {} cases, {:?}", counts.cases(), counts.numbers));
    assert!(counts.cases() >= least);
    assert!(counts.numbers.keys().eq(tried.numbers), "numbers that didn't occur, or that the service doesn't have");
}

#[track_caller]
fn caught(tried: &Tried, serve: impl Serve) {
    match over(tried, serve, FIRST, FILES) {
        Ok(counts) => panic!("not caught in {} cases", counts.cases()),
        Err(text) => assert!(text.contains("DIFFERENT") && text.contains("seed "), "{text}"),
    }
}

/// Services that every comparison must notice.
fn wrong_ones_are_caught(tried: &Tried) {
    let service = tried.service;
    let model = move |file: &[u8], memory: &mut [u8]| service.model(file, memory);
    assert!(over(tried, model, FIRST, 300).is_ok());
    for &number in tried.numbers {
        let changed = |change: fn(&mut Served)| {
            move |file: &[u8], memory: &mut [u8]| {
                let mut served = model(file, memory);
                if served.number == number {
                    change(&mut served);
                }
                served
            }
        };
        caught(tried, changed(|served| served.number ^= 1));
        caught(tried, changed(|served| served.first += 1));
    }
    // one byte more demanded, and one less
    caught(tried, |file: &[u8], memory: &mut [u8]| {
        let end = memory.len().saturating_sub(1);
        model(file, &mut memory[..end])
    });
    caught(tried, |file: &[u8], memory: &mut [u8]| {
        let mut longer = [&*memory, &[0]].concat();
        let served = model(file, &mut longer);
        memory.copy_from_slice(&longer[..memory.len()]);
        served
    });
    // a byte written by a refusal, one behind the answer, and a last byte that is wrong
    caught(tried, |file: &[u8], memory: &mut [u8]| {
        let served = model(file, memory);
        if let (true, Some(first)) = (served.number > 0, memory.first_mut()) {
            *first = !*first;
        }
        served
    });
    caught(tried, |file: &[u8], memory: &mut [u8]| {
        let served = model(file, memory);
        if let (0, Some(behind)) = (served.number, memory.get_mut(served.first as usize)) {
            *behind = 0;
        }
        served
    });
    caught(tried, |file: &[u8], memory: &mut [u8]| {
        let served = model(file, memory);
        if served.number == 0 && served.first > 0 {
            memory[served.first as usize - 1] ^= 1;
        }
        served
    });
}

#[test]
fn templates_agree() {
    agree("templates", OF_TEMPLATES, 30_000);
}

/// Relations of every arity that no action speaks of, up to the longest list there is, in memory of every length around it.
#[test]
fn templates_of_bare_relations() {
    for (relations, arity) in (0..=6).map(|arity| (64, arity)).chain((1..=64).map(|relations| (relations, 3))) {
        let mut records: Vec<Rec> = (0..relations).map(|_| rec(1, [arity])).collect();
        records.extend([rec(4, [vec![0], (0..arity).collect()].concat()), rec(5, [])]);
        let file = encode(&records);
        let room = 3 * relations as usize * (1 + arity as usize);
        for lent in [0, 1, room - 1, room, room + 1] {
            match TEMPLATES.compare(TEMPLATES.library, &file, lent, lent) {
                Ok(served) if lent >= room => assert_eq!((served.number, served.first), (0, room as u64)),
                Ok(served) => assert_eq!((served.number, served.first), (30, 0)),
                Err(text) => panic!("{text}"),
            }
        }
    }
}

#[test]
fn wrong_templates_are_caught() {
    wrong_ones_are_caught(&OF_TEMPLATES);
    let model = |file: &[u8], list: &mut [u8]| TEMPLATES.model(file, list);
    let listed = |served: Served| (served.number == 0).then_some(served.first as usize);
    // the counted place before none, the relations falling, and the verdict of the file's own template in every entry
    caught(&OF_TEMPLATES, move |file: &[u8], list: &mut [u8]| {
        let served = model(file, list);
        if let Some(end) = listed(served) {
            let entries: Vec<[u8; 3]> = list[..end].chunks_exact(3).map(|entry| entry.try_into().unwrap()).collect();
            let mut sorted = entries.clone();
            sorted.sort();
            list[..end].copy_from_slice(&sorted.concat());
        }
        served
    });
    caught(&OF_TEMPLATES, move |file: &[u8], list: &mut [u8]| {
        let served = model(file, list);
        if let Some(end) = listed(served) {
            let entries: Vec<u8> = list[..end].chunks_exact(3).rev().flatten().copied().collect();
            list[..end].copy_from_slice(&entries);
        }
        served
    });
    caught(&OF_TEMPLATES, move |file: &[u8], list: &mut [u8]| {
        let served = model(file, list);
        if let Some(end) = listed(served) {
            let own = judging::model(file, &mut [0; 32_768], &mut [0; 512]).number as u8;
            list[..end].chunks_exact_mut(3).for_each(|entry| entry[2] = own);
        }
        served
    });
}

#[test]
fn trying_agrees() {
    agree("try", OF_TRY, 30_000);
}

/// Small domains of actions at once, many of them with clearing literals. Each is read, and most have a class.
#[test]
fn trying_agrees_on_tiny_files() {
    const FILES: u64 = 100_000;
    let of_seed = |seed: u64| {
        let file = tiny(&mut Rng::new(seed)).file();
        TRY.compare_all(TRY.library, &file, seed as usize % 1_000).map_err(|text| format!("seed {seed}\n{text}"))
    };
    let counts = run(of_seed, setting("GOADLOTUS_SEED", 0), FILES).unwrap_or_else(|text| panic!("{text}"));
    show(&format!("\ntry on tiny files: {} cases, {:?}", counts.cases(), counts.numbers));
    // three lengths of memory are enough for a file that is read, and where it has a class one is too short
    assert!(counts.numbers.keys().eq(&[0, 30]) && counts.numbers[&0] >= 3 * FILES && counts.numbers[&30] >= FILES / 2);
}

#[test]
fn wrong_tries_are_caught() {
    wrong_ones_are_caught(&OF_TRY);
    for misread in MISTRIES {
        caught(&OF_TRY, |file: &[u8], memory: &mut [u8]| {
            let Ok(domain) = model::read(file) else { return TRY.model(file, memory) };
            let answers = answers(&domain, Counted::Every, Some(misread));
            match memory.get_mut(..answers.len()) {
                None => Served { number: 30, first: 0 },
                Some(front) => {
                    front.copy_from_slice(&answers);
                    Served { number: 0, first: answers.len() as u64 }
                }
            }
        });
    }
}

#[test]
fn totals_agree() {
    agree("totals", OF_TOTALS, 8_000);
}

/// Boxes of no file, of one and of a thousand, with a length that goes far beyond the box, and cut everywhere.
#[test]
fn totals_of_large_and_cut_boxes() {
    let rng = &mut Rng::new(setting("GOADLOTUS_SEED", 0));
    let compare = |of: &[u8], lent: usize| {
        if let Err(text) = TOTALS.compare(TOTALS.library, of, lent, lent) {
            panic!("{text}");
        }
    };
    for files in [0, 1, 1_000] {
        let mut of = packed(&(0..files).map(|_| any_file(rng)).collect::<Vec<_>>());
        for lent in [0, 567, 568, 569, 4_096] {
            compare(&of, lent);
        }
        of.extend([0xFF; 4]);
        compare(&of, 568);
        compare(&of, 0);
    }
    let small = packed(&(0..6).map(|_| small(rng).file()).collect::<Vec<_>>());
    for cut in 0..small.len() {
        compare(&small[..cut], 568);
        compare(&small[..cut], 567);
    }
}

#[test]
fn wrong_totals_are_caught() {
    wrong_ones_are_caught(&OF_TOTALS);
    // 30 before 33
    caught(&OF_TOTALS, |of: &[u8], memory: &mut [u8]| match memory.len() {
        0..568 => Served { number: 30, first: 0 },
        _ => TOTALS.model(of, memory),
    });
    // the files before the cut counted and written
    caught(&OF_TOTALS, |of: &[u8], memory: &mut [u8]| {
        let served = TOTALS.model(of, memory);
        if served.number == 33 {
            TOTALS.model(&of[..served.first as usize], memory);
        }
        served
    });
    // a file left out, and one counted twice
    caught(&OF_TOTALS, |of: &[u8], memory: &mut [u8]| match model::totals::files(of) {
        Ok(files) if files.len() > 1 => TOTALS.model(&of[4 + files[0].len()..], memory),
        _ => TOTALS.model(of, memory),
    });
    caught(&OF_TOTALS, |of: &[u8], memory: &mut [u8]| match model::totals::files(of) {
        Ok(files) if !files.is_empty() => TOTALS.model(&[of, &of[..4 + files[0].len()]].concat(), memory),
        _ => TOTALS.model(of, memory),
    });
}
