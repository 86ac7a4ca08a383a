//! Judging, timed.

use crate::files::{self, Shape};
use crate::timing::{take_turns, Timed};
use std::hint::black_box;

/// Memory that is enough for every file.
const REPORT: usize = 64 * 64 * 2 * 4;
const WITNESS: usize = 65 * 8;

/// Answers with the number and its three places.
type Judge = fn(&[u8], &mut [u8], &mut [u8]) -> [u64; 4];

struct Side {
    judge: Judge,
    report: Vec<u8>,
    witness: Vec<u8>,
}

impl Side {
    fn new(judge: Judge) -> Side {
        Side { judge, report: vec![0; REPORT], witness: vec![0; WITNESS] }
    }

    fn judge(&mut self, file: &[u8]) -> [u64; 4] {
        (self.judge)(black_box(file), black_box(&mut self.report), black_box(&mut self.witness))
    }
}

fn by_library(file: &[u8], report: &mut [u8], witness: &mut [u8]) -> [u64; 4] {
    let answer = goadlotus::judge(file, report, witness);
    [answer.number, answer.first, answer.second, answer.third]
}

fn by_model(file: &[u8], report: &mut [u8], witness: &mut [u8]) -> [u64; 4] {
    let answer = model::judge(file, report, witness);
    [answer.number.into(), answer.first as u64, answer.second as u64, answer.third as u64]
}

/// The times, and the number that is answered.
fn time(name: &str, file: &[u8]) -> (Timed, u64) {
    let (mut library, mut model) = (Side::new(by_library), Side::new(by_model));
    let verdict = library.judge(file);
    let same = verdict == model.judge(file) && library.report == model.report && library.witness == model.witness;
    assert!(same, "{name}: library and model differ");
    assert!(!(9..=31).contains(&verdict[0]), "{name}: judged {verdict:?}, so there is nothing to time");
    let turns = take_turns(
        || {
            black_box(library.judge(file));
        },
        || {
            black_box(model.judge(file));
        },
    );
    (turns, verdict[0])
}

fn single_files() {
    println!("judging, nanoseconds: median of interleaved rounds; ratio is library / model");
    println!(
        "{:24} {:>6} {:>7} {:>12} {:>12} {:>7} {:>9} {:>9} {:>7}",
        "file", "bytes", "verdict", "library", "model", "ratio", "lib/byte", "mod/byte", "rounds"
    );
    for (name, file) in [
        ("M1", files::m1()),
        ("Rovers, 9 actions", files::rovers()),
        ("dense, 64 classes", files::dense(64, Shape::Classes)),
        ("dense, 1 class", files::dense(64, Shape::OneClass)),
        ("dense, 21 journeys", files::dense(64, Shape::Journeys)),
    ] {
        let (timed, verdict) = time(name, &file);
        let bytes = file.len() as f64;
        println!(
            "{name:24} {bytes:>6} {verdict:>7} {:>12.0} {:>12.0} {:>7.2} {:>9.2} {:>9.2} {:>7}",
            timed.library,
            timed.model,
            timed.library / timed.model,
            timed.library / bytes,
            timed.model / bytes,
            timed.rounds
        );
    }
}

fn growth() {
    println!("\ngrowth with the number of actions of the same shape, nanoseconds an action");
    println!(
        "{:24} {:>7} {:>6} {:>12} {:>12} {:>7}   of 8 actions: library, model",
        "actions", "number", "bytes", "library", "model", "ratio"
    );
    for (name, shape) in [
        ("Rovers' communicate", Shape::Communicate),
        ("64 classes", Shape::Classes),
        ("1 class", Shape::OneClass),
        ("21 journeys", Shape::Journeys),
    ] {
        let mut first = None;
        for actions in [8, 16, 32, 64] {
            let file = files::dense(actions, shape);
            let (timed, _) = time(name, &file);
            let (library, model) = (timed.library / actions as f64, timed.model / actions as f64);
            let (first_library, first_model) = *first.get_or_insert((library, model));
            println!(
                "{name:24} {actions:>7} {:>6} {library:>12.1} {model:>12.1} {:>7.2}   x{:.2}, x{:.2}",
                file.len(),
                library / model,
                library / first_library,
                model / first_model
            );
        }
    }
}

/// A service of library and of model.
type Library = fn(&[u8], &mut [u8]) -> goadlotus::Served;
type Model = fn(&[u8], &mut [u8]) -> model::Served;

fn service(head: &str, (library, model): (Library, Model), most: usize, files: &[(&str, Vec<u8>)]) {
    println!("\n{head}, nanoseconds");
    println!("{:24} {:>6} {:>7} {:>12} {:>12} {:>7}", "file", "bytes", "written", "library", "model", "ratio");
    for (name, file) in files {
        let (mut of_library, mut of_model) = (vec![0; most], vec![0; most]);
        let (served, by_model) = (library(file, &mut of_library), model(file, &mut of_model));
        let same = (served.number, served.first) == (by_model.number.into(), by_model.first as u64);
        assert!(same && of_library == of_model && served.number == 0, "{name}: library and model differ");
        let timed = take_turns(
            || {
                black_box(library(black_box(file), black_box(&mut of_library)));
            },
            || {
                black_box(model(black_box(file), black_box(&mut of_model)));
            },
        );
        let ratio = timed.library / timed.model;
        let (bytes, written) = (file.len(), served.first);
        println!("{name:24} {bytes:>6} {written:>7} {:>12.0} {:>12.0} {ratio:>7.2}", timed.library, timed.model);
    }
}

fn services() {
    let templates: (Library, Model) = (goadlotus::templates, model::templates);
    let files = [
        ("M1", files::m1()),
        ("Rovers, 9 actions", files::rovers()),
        ("64 x 64, 16 named", files::dense(64, Shape::Journeys)),
        ("64 x 64, all named", files::dense(64, Shape::Relations)),
    ];
    service("listing the one-relation templates", templates, goadlotus::TEMPLATES, &files);
    let tries: (Library, Model) = (goadlotus::try_facts, model::try_facts);
    let files = [
        ("M1", files::m1()),
        ("64 actions, 1 class", files::to_try(1)),
        ("64 actions, 21 classes", files::to_try(21)),
        ("64 actions, 64 classes", files::to_try(64)),
        ("64 actions, all struck", files::struck()),
        ("64 x 8 conditions", files::asked(64, 8)),
        ("64 x 16 conditions", files::asked(64, 16)),
        ("64 x 32 conditions", files::asked(64, 32)),
        ("64 x 64 conditions", files::asked(64, 64)),
        ("32 x 64 conditions", files::asked(32, 64)),
        ("16 x 64 conditions", files::asked(16, 64)),
        ("8 x 64 conditions", files::asked(8, 64)),
    ];
    service("trying the facts", tries, goadlotus::TRIED, &files);
}

/// How many bytes of files are counted.
const BOX: usize = 100_000_000;

/// A box of 100 MB, counted as one, and its files judged one by one where they stand in it.
fn totals() {
    let kinds = [files::m1(), files::rovers(), files::dense(8, Shape::Communicate), files::dense(8, Shape::Journeys)];
    let mut all = Vec::new();
    let mut hand_ins = Vec::new();
    while all.len() < BOX {
        let file = &kinds[hand_ins.len() % kinds.len()];
        goadlotus::put_in_box(&mut all, file);
        hand_ins.push(all.len() - file.len()..all.len());
    }
    let (mut of_library, mut of_model) = (vec![0; goadlotus::TOTALS], vec![0; goadlotus::TOTALS]);
    let served = goadlotus::totals(&all, &mut of_library);
    let by_model = model::totals(&all, &mut of_model);
    let same = (served.number, served.first) == (by_model.number.into(), by_model.first as u64);
    assert!(same && of_library == of_model && served.number == 0, "a box: library and model differ");
    let mut one_by_one = Side::new(by_library);
    let timed = take_turns(
        || {
            black_box(goadlotus::totals(black_box(&all), black_box(&mut of_library)));
        },
        || {
            for place in &hand_ins {
                black_box(one_by_one.judge(&all[place.clone()]));
            }
        },
    );
    println!("\ncounting a box by the library, seconds");
    println!("{:>9} {:>11} {:>8} {:>11} {:>7}", "files", "bytes", "box", "one by one", "ratio");
    let (whole, single) = (timed.library / 1e9, timed.model / 1e9);
    println!("{:>9} {:>11} {whole:>8.3} {single:>11.3} {:>7.2}", hand_ins.len(), all.len(), whole / single);
}

pub fn print() {
    single_files();
    growth();
    services();
    totals();
}
