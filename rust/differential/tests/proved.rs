//! The cases that crates/cases proves of the definitions, executed: library and model answer and leave what each of the
//! proved equations says, every byte of it.

use differential::judging::{self, Judge};
use differential::playing::{self, Play};
use differential::serving::{Serve, Served, TRY};
use generate::proved::{Call, Case, Cases, Left, Part};
use goadlotus::{judge, Judgement};
use model::Source;

/// What a call leaves, if it asks this judge, this player or this one that tries.
fn left(judge: impl Judge, player: impl Play, trier: impl Serve, call: &Call) -> Left {
    match call {
        Call::Judge { file, report, witness } => {
            let (mut report, mut witness) = (report.clone(), witness.clone());
            let Judgement { number, first, second, third } = judge(file, &mut report, &mut witness);
            Left::Judged { number, places: [first, second, third], report, witness }
        }
        Call::Play { domain, run, work } => {
            let mut work = work.clone();
            let played = player(domain, run, &mut work);
            let of_domain = played.file == Source::Domain;
            let file = if of_domain { domain } else { run };
            let bytes = file[played.at..played.at + played.length].to_vec();
            Left::Played {
                number: played.number,
                places: [played.place, 0, 0],
                steps: played.steps,
                weight: played.weight,
                work,
                part: Part { of_domain, at: played.at as u64, bytes },
            }
        }
        Call::Try { file, memory } => {
            let mut memory = memory.clone();
            let Served { number, first } = trier(file, &mut memory);
            Left::Tried { number, first, memory }
        }
    }
}

/// The cases in which one of them leaves something else.
fn wrong<'a>(cases: &'a [Case], judge: impl Judge, player: impl Play, trier: impl Serve) -> Vec<&'a str> {
    let other = cases.iter().filter(|case| left(&judge, &player, &trier, &case.call) != case.left);
    other.map(|case| case.name.as_str()).collect()
}

#[test]
fn the_library_leaves_what_is_proved() {
    assert_eq!(wrong(&Cases::read().cases, judge, playing::library, TRY.library), [""; 0]);
}

#[test]
fn the_model_leaves_what_is_proved() {
    let trier = |file: &[u8], memory: &mut [u8]| TRY.model(file, memory);
    assert_eq!(wrong(&Cases::read().cases, judging::model, playing::model, trier), [""; 0]);
}

/// What the test would notice: a judge that gives the report a byte more, a player that counts a step more, an engine that
/// never says yes.
#[test]
fn wrong_answers_are_noticed() {
    let cases = Cases::read().cases;
    let wordy = |file: &[u8], report: &mut [u8], witness: &mut [u8]| {
        let answer = judge(file, report, witness);
        if let Some(last) = report.last_mut().filter(|_| answer.number == 43) {
            *last ^= 1;
        }
        answer
    };
    assert_eq!(
        wrong(&cases, wordy, playing::library, TRY.library),
        ["m10_judged", "bounded_later", "first_bounded", "no_witness", "beside_journey"]
    );
    let eager = |domain: &[u8], run: &[u8], work: &mut [u8]| {
        let played = playing::library(domain, run, work);
        playing::Played { steps: played.steps + (played.number == 57) as u64, ..played }
    };
    let not_open = ["open_before_condition", "open_twice", "not_yet_open", "other_entry", "first_end_asked"];
    assert_eq!(wrong(&cases, judge, eager, TRY.library), [&not_open[..], &["open_33_not_open"]].concat());
    let mild = |file: &[u8], memory: &mut [u8]| {
        let served = (TRY.library)(file, memory);
        memory.iter_mut().for_each(|byte| *byte -= (*byte == 1) as u8);
        served
    };
    let yes = ["m3_tried", "m4_tried", "m5_tried", "m7_tried", "spare_tried", "lacks_tried"];
    let also = ["classes_tried", "other_tried"];
    assert_eq!(wrong(&cases, judge, playing::library, mild), [&yes[..], &also].concat());
}
