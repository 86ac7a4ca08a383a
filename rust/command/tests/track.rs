//! Playing with an instance: what is shown of it, facts and open journeys, adds up to the library's total in every state, and the
//! sentences are right.

use command::domain::{Domain, Names};
use command::files::{domain_of, run_of, LoadedRun};
use command::library::judge;
use command::notation::source::columns;
use command::story::Story;
use command::trace::Trace;
use command::tracked::Tracked;
use generate::rng::Rng;
use generate::runs::{instance, lendings, pair};

/// Runs that are played for some steps, each with an instance.
#[test]
fn facts_and_journeys_add_up() {
    let (mut states, mut on_the_way, mut both) = (0, 0, 0);
    for seed in 0..4_000 {
        let rng = &mut Rng::new(seed);
        let (file, run) = match rng.chance(60) {
            true => lendings(rng),
            false => {
                let (_, domain, run) = pair(rng);
                (domain, run)
            }
        };
        let instance = instance(rng, &file, &run);
        if !judge(&file).is_read() {
            continue;
        }
        let domain = Domain::of(&file, &Names::default());
        let trace = Trace::of(&domain, &file, &run);
        let right = instance.len() == domain.keys() && instance.iter().all(|&object| object < trace.run.objects);
        if !right || trace.steps() > 15 || !(trace.played.number == 2 || trace.stops_at_step()) {
            continue;
        }
        let run = LoadedRun { name: "r".to_string(), file: run.clone(), objects: Vec::new(), text: None };
        let story = Story { trace: &trace, run: &run, all: false };
        let tracked = Tracked { story: &story, instance: &instance, verdict: judge(&file).number };
        for place in tracked.states() {
            let (facts, journeys) = (place.facts.len() as u64, place.journeys.len() as u64);
            assert_eq!(facts + journeys, place.total, "seed {seed}: {place:?}");
            states += 1;
            on_the_way += u32::from(facts == 0 && journeys > 0);
            both += u32::from(facts > 0 && journeys > 0);
        }
        let text = tracked.text();
        let total = tracked.states().last().expect("a state").total;
        assert!(text.starts_with(&format!("\ntotal {total}\n  ")) && !text.contains("doesn't count"), "{text}");
        assert!(text.lines().all(|line| columns(line) <= 80), "{text}");
    }
    assert!(states > 5_000 && on_the_way > 500 && both > 50, "{states} {on_the_way} {both}");
}

const ARCHIVE: &str = "\
relation at/2
relation out/2
lasting lend(volume, shelf, reader)
    start true and delete at(volume, shelf)
    end add out(volume, reader)
at once find(volume, shelf)
    false at(volume, *), out(volume, *)
    add at(volume, shelf)
at once lose(volume, shelf)
    delete at(volume, shelf)
template at[0,_] out[0,_]
";

const START: &str = "objects volume7 volume8 shelf2 shelf3 reader5\nfact at(volume7, shelf2)\n";

/// What is told of an instance of the archive behind its run.
fn told(domain: &str, steps: &str, instance: &[u8]) -> String {
    let loaded = domain_of("d", domain.as_bytes().to_vec()).expect("a domain");
    let of = loaded.domain();
    let run = run_of("r", format!("{START}{steps}").into_bytes(), Some(&of)).expect("a run");
    let trace = Trace::of(&of, &loaded.file, &run.file);
    let story = Story { trace: &trace, run: &run, all: false };
    Tracked { story: &story, instance, verdict: loaded.judged.number }.text()
}

#[test]
fn there_on_the_way_and_nowhere() {
    let domain = ARCHIVE.replace(
        "at once find(volume, shelf)\n    false at(volume, *), out(volume, *)\n    add at(volume, shelf)\n",
        "",
    );
    let steps = "step start lend(volume7, shelf2, reader5)\nstep\nstep end lend(volume7, shelf2, reader5)\n";
    assert_eq!(
        told(&domain, steps, &[0]),
        "
total 1
  at the start volume7 is there: at(volume7, shelf2)
  from step 1 on volume7 is on the way (in transit):
      lend(volume7, shelf2, reader5) is open
  from step 3 on volume7 is there: out(volume7, reader5)
  The verdict is 1 and the start has at most one fact, so the total never rises:
  what is nowhere stays so.
"
    );
    let lost = told(&domain, "step lose(volume7, shelf2)\nstep\n", &[0]);
    assert!(
        lost.starts_with("\ntotal 0\n  at the start volume7 is there: at(volume7, shelf2)\n  from step 1 on volume7 is nowhere (lost): "),
        "{lost}"
    );
    let other = told(&domain, steps, &[1]);
    assert!(
        other.starts_with("\ntotal 0\n  at the start volume8 is nowhere (lost): ")
            && other.matches("volume8").count() == 1,
        "{other}"
    );
}

/// A journey begun twice, since the volume was found meanwhile: the template is refused (43), and the total is 2.
#[test]
fn begun_twice() {
    let lend = "step start lend(volume7, shelf2, reader5)\n";
    let text = told(ARCHIVE, &format!("{lend}step find(volume7, shelf2)\n{lend}"), &[0]);
    assert_eq!(
        text,
        "
total 2
  at the start volume7 is there: at(volume7, shelf2)
  from step 1 on volume7 is on the way (in transit):
      lend(volume7, shelf2, reader5) is open
  from step 2 on volume7 is there and on the way as well: at(volume7, shelf2);
      lend(volume7, shelf2, reader5) is open
  from step 3 on volume7 is on the way (in transit):
      lend(volume7, shelf2, reader5) and lend(volume7, shelf2, reader5) are open
"
    );
}

/// Before the first uncut record of an event or a close the start doesn't count.
#[test]
fn a_start_that_does_not_count() {
    let text = told(ARCHIVE, "record 17 00 09 09\n", &[0]);
    assert_eq!(text, "\ntotal 0\n  The start doesn't count yet.\n");
}
