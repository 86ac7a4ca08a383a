//! Playing: the states shown are the library's, the reasons fit its numbers on runs of every sort, and the sentences are
//! right.

use command::domain::{Domain, Names};
use command::files::{domain_of, is_words, run_of, LoadedRun};
use command::library::judge;
use command::notation::source::columns;
use command::run::Entry;
use command::stops::stops;
use command::story::Story;
use command::trace::Trace;
use generate::{rng::Rng, runs, samples};
use std::collections::BTreeMap;

/// Pairs of a domain that is read and a run.
fn pairs(count: u64) -> impl Iterator<Item = (Vec<u8>, Vec<u8>)> {
    let pairs = (0..count).map(|seed| runs::pair(&mut Rng::new(seed)));
    pairs.map(|(_, domain, run)| (domain, run)).filter(|(domain, _)| judge(domain).is_read())
}

#[test]
fn reasons_fit_the_library() {
    const STEPS: usize = 12;
    let mut seen: BTreeMap<u64, usize> = BTreeMap::new();
    for (file, run) in pairs(6_000) {
        let domain = Domain::of(&file, &Names::default());
        let trace = Trace::of(&domain, &file, &run);
        if trace.played.number == 50 && trace.run.objects == 0 {
            continue;
        }
        let made = trace.steps().min(STEPS);
        let states: Vec<_> = (0..=made).map(|steps| trace.state(steps)).collect();
        for (step, state) in states[..made].iter().enumerate() {
            let events = &trace.run.steps[step].events;
            assert_eq!(stops(&domain, &state.facts, &state.open, events), [], "step {step} of {run:?} on {file:?}");
        }
        if trace.steps() > STEPS || !trace.stops_at_step() {
            continue;
        }
        let found = stops(&domain, &states[made].facts, &states[made].open, &trace.run.steps[made].events);
        let number = trace.played.number;
        assert!(found.iter().all(|stop| stop.number() == number), "{found:?}, not {number}, of {run:?} on {file:?}");
        assert_eq!(found.is_empty(), number == 52, "{number} of {run:?} on {file:?}");
        *seen.entry(number).or_default() += 1;
    }
    assert!([55, 56, 57].iter().all(|number| seen[number] > 50), "{seen:?}");
}

/// What is shown as open is what the library lets end, and the highest weight of all states is the one that it tells.
#[test]
fn states_are_the_librarys() {
    let mut entries = 0;
    for (file, run) in pairs(1_500) {
        let domain = Domain::of(&file, &Names::default());
        let trace = Trace::of(&domain, &file, &run);
        if trace.steps() > 15 || trace.played.number != 2 {
            continue;
        }
        let states: Vec<_> = (0..=trace.steps()).map(|steps| trace.state(steps)).collect();
        assert_eq!(states[trace.steps()].facts, trace.played.facts);
        assert_eq!(states.iter().map(|state| state.weight).max(), Some(trace.played.weight), "{run:?} on {file:?}");
        let mut started: Vec<&Entry> = Vec::new();
        for (steps, state) in states.iter().enumerate() {
            for entry in &started {
                assert_eq!(state.open.contains(entry), trace.may_end(steps, &[entry]), "{run:?} on {file:?}");
                entries += 1;
            }
            let events = trace.run.steps.get(steps).map(|step| &step.events[..]).unwrap_or_default();
            started.extend(events.iter().filter(|event| event.is_start(&domain)).map(|event| &event.entry));
        }
        for (step, state) in states.iter().enumerate() {
            let weights = state.facts.iter().filter_map(|fact| trace.instance(fact));
            let highest = weights.map(|instance| trace.weight_of(&instance, &state.facts)).max().unwrap_or(0);
            assert_eq!(highest, state.weight, "step {step} of {run:?} on {file:?}");
        }
    }
    assert!(entries > 1_000, "{entries}");
}

/// A run's story, by the files' content.
fn story(domain: &[u8], run: &[u8], all: bool) -> String {
    let loaded = domain_of("d", domain.to_vec()).expect("a domain");
    let of = loaded.domain();
    let run: LoadedRun = run_of("r", run.to_vec(), Some(&of)).unwrap_or_else(|trouble| panic!("{trouble:?}"));
    let trace = Trace::of(&of, &loaded.file, &run.file);
    Story { trace: &trace, run: &run, all }.text()
}

/// Every run has its story, a damaged one too.
#[test]
fn every_run_has_its_story() {
    let mut told = BTreeMap::new();
    for (domain, run) in pairs(1_200).filter(|(_, run)| !is_words(run)) {
        let text = story(&domain, &run, false);
        let first = text.split(|sign: char| sign == '(').next().unwrap_or_default().to_string();
        assert!(!text.contains("please report"), "{text}");
        *told.entry(first.split(" at ").next().unwrap_or_default().to_string()).or_insert(0) += 1;
    }
    assert!(["played to the end ", "stopped", "the run is"].iter().all(|first| told[*first] > 50), "{told:?}");
}

#[test]
fn samples_fit_a_terminal() {
    let all = samples::all();
    for run in &all.runs {
        let of = all.domains.iter().find(|domain| domain.name == run.of).expect("its domain");
        let text = story(&of.file, &run.file, false);
        assert!(text.lines().all(|line| columns(line) <= 80), "{text}");
        assert!(!text.contains("please report"), "{text}");
    }
}

const ARCHIVE: &str = "\
relation at/2
relation out/2
at once move(volume, from, to)
    true and delete at(volume, from)
    add at(volume, to)
at once tidy(volume, shelf)
    delete at(volume, shelf)
lasting lend(volume, shelf, reader)
    start true and delete at(volume, shelf)
    end add out(volume, reader)
lasting watch(volume, shelf)
    all true at(volume, shelf)
lasting check(volume, shelf)
    end true at(volume, shelf)
template at[0,_] out[0,_]
";

/// The facts and objects of every run below.
const START: &str = "objects volume7 volume8 shelf2 shelf3 reader5\nfact at(volume7, shelf2), at(volume8, shelf2)\n";

fn archive(steps: &str) -> String {
    story(ARCHIVE.as_bytes(), format!("{START}{steps}").as_bytes(), false)
}

#[test]
fn a_run_with_names() {
    assert_eq!(
        archive(
            "step start lend(volume7, shelf2, reader5), move(volume8, shelf2, shelf3)\nstep end lend(volume7, shelf2, reader5)\n\
             step move(volume7, shelf2, shelf3)"
        ),
        "\
stopped at step 3 (55), line 5: a condition does not hold; 2 steps made, highest
    weight 1.

start: at(volume7, shelf2), at(volume8, shelf2)
  highest weight: 1

step 1: start lend(volume7, shelf2, reader5), move(volume8, shelf2, shelf3)
  gone: at(volume7, shelf2), at(volume8, shelf2)
  come: at(volume8, shelf3)
  open: lend(volume7, shelf2, reader5)
  weight: volume7 1 to 0; volume8 stays 1

step 2: end lend(volume7, shelf2, reader5)
  come: out(volume7, reader5)
  weight: volume7 0 to 1

step 3 is not made: move(volume7, shelf2, shelf3)
  move(volume7, shelf2, shelf3) asks for at(volume7, shelf2), which is not true:
      it went in step 1.

facts at the end: at(volume8, shelf3), out(volume7, reader5)

step                            0   1   2   3x
weight                          1   1   1   -
lend(volume7, shelf2, reader5)      [===]
move(volume8, shelf2, shelf3)       *
move(volume7, shelf2, shelf3)               *
"
    );
}

#[test]
fn each_stop_has_its_words() {
    let stops: [(&str, &str); 6] = [
        ("step end lend(volume7, shelf2, reader5)", "end lend(volume7, shelf2, reader5): this is not open, so it can't end."),
        ("step move(volume7, shelf3, shelf2)", "asks for at(volume7, shelf3), which is not true at any time before."),
        (
            "step start watch(volume7, shelf2)\nstep move(volume7, shelf2, shelf3)\nstep",
            "watch(volume7, shelf2) is open and asks over all for at(volume7, shelf2), which is not true: it went in step 2.",
        ),
        (
            "step move(volume7, shelf2, shelf3), start lend(volume7, shelf2, reader5)",
            "move(volume7, shelf2, shelf3) and start lend(volume7, shelf2, reader5) interfere about at(volume7, shelf2): one asks for it, the other deletes it.",
        ),
        (
            "step move(volume7, shelf2, shelf3), tidy(volume7, shelf3)",
            "interfere about at(volume7, shelf3): one adds it, the other deletes it.",
        ),
        (
            "step start check(volume7, shelf2)\nstep end check(volume7, shelf2), tidy(volume7, shelf2)",
            "end check(volume7, shelf2) and tidy(volume7, shelf2) interfere about at(volume7, shelf2): one asks for it, the other deletes it.",
        ),
    ];
    let flat = |text: &str| text.split_whitespace().collect::<Vec<_>>().join(" ");
    for (steps, said) in stops {
        let text = flat(&archive(steps));
        assert!(text.contains(said), "{steps}\n{text}");
    }
}

/// Steps with every object: what they take, what keeps them from being made, and by what they interfere.
#[test]
fn every_object_in_a_step() {
    let domain = "\
relation at/2
relation none/0
at once strike(volume)
    delete at(volume, *)
at once empty(shelf)
    delete at(*, shelf)
at once put(volume, shelf)
    false at(volume, *)
    add at(volume, shelf)
lasting keep-away(volume)
    all false at(volume, *)
at once check(shelf)
    false at(*, shelf)
template none[]
";
    let told = |steps: &str| {
        let text = story(domain.as_bytes(), format!("{START}{steps}").as_bytes(), false);
        text.split_whitespace().collect::<Vec<_>>().join(" ")
    };
    let said: [(&str, &str); 7] = [
        ("step strike(volume7), empty(shelf2)", "gone: at(volume7, shelf2), at(volume8, shelf2)"),
        (
            "step put(volume7, shelf3)",
            "put(volume7, shelf3) asks for at(volume7, *) to be false, but at(volume7, shelf2) is true.",
        ),
        (
            "step strike(volume7)\nstep put(volume7, shelf3)\nstep put(volume7, shelf2)",
            "asks for at(volume7, *) to be false, but at(volume7, shelf3) is true: it came in step 2.",
        ),
        (
            "step start keep-away(volume7)\nstep",
            "keep-away(volume7) is open and asks over all for at(volume7, *) to be false, but at(volume7, shelf2) is true.",
        ),
        (
            "step strike(volume7), strike(volume8)\nstep put(volume7, shelf2), check(shelf2)",
            "interfere about at(volume7, shelf2): one adds it, the other asks for it to be false with at(*, shelf2).",
        ),
        (
            "step strike(volume7), strike(volume8)\nstep strike(volume7), check(shelf3)",
            "interfere about at(volume7, shelf3): one deletes it with at(volume7, *), the other asks for it to be false with at(*, shelf3).",
        ),
        (
            "step strike(volume7), strike(volume8)\nstep strike(volume7), put(volume7, shelf2)",
            "interfere about at(volume7, *): one deletes it, the other asks for it to be false.",
        ),
    ];
    for (steps, words) in said {
        assert!(told(steps).contains(words), "{steps}\n{}", told(steps));
    }
}

/// What is asked over all ends just before the end, so an end is free to meet what takes it away.
#[test]
fn over_all_ends_before_the_end() {
    let text = archive("step start watch(volume7, shelf2)\nstep end watch(volume7, shelf2), tidy(volume7, shelf2)");
    assert!(text.starts_with("played to the end (2): 2 steps made"), "{text}");
}

/// Of a long run the last steps are told, unless all are asked for.
#[test]
fn long_runs_are_short() {
    let there_and_back = "step move(volume7, shelf2, shelf3)\nstep move(volume7, shelf3, shelf2)\n";
    let run = format!("{START}{}", there_and_back.repeat(50));
    let text = story(ARCHIVE.as_bytes(), run.as_bytes(), false);
    assert!(
        text.contains("The first 80 steps are left out")
            && text.contains("\nstep 81: ")
            && !text.contains("\nstep 80: "),
        "{text}"
    );
    assert!(text.lines().all(|line| columns(line) <= 80), "{text}");
    let text = story(ARCHIVE.as_bytes(), run.as_bytes(), true);
    assert!(text.contains("\nstep 1: ") && text.contains("\nstep 100: "), "{text}");
}
