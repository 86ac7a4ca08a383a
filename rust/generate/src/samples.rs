//! The domain files and run files of the folder samples/ at the repository's root. Its page, samples/README.md, says
//! what each of them teaches; `write_samples` of the package `differential` writes them.

use crate::literature::{
    depots_dropping_and_loading, depots_dropping_twice, rovers_dropping, rovers_sampling, Named, DEPOTS, DRIVERLOG,
    FLOORTILE, ROVERS, SATELLITE,
};
use crate::proved::{Call, Cases};
use crate::records::encode;

/// A domain file, NAME.domain.
pub struct Domain {
    pub name: &'static str,
    pub file: Vec<u8>,
}

/// A run file, NAME.run, for the domain of this name.
pub struct Run {
    pub name: &'static str,
    pub of: &'static str,
    pub file: Vec<u8>,
}

#[derive(Default)]
pub struct Samples {
    pub domains: Vec<Domain>,
    pub runs: Vec<Run>,
}

impl Samples {
    fn domain(&mut self, name: &'static str, domain: &Named, template: &str) {
        self.domains.push(Domain { name, file: domain.with(template).file() });
    }

    /// A run of so many objects, from these facts, with these steps.
    fn run(&mut self, name: &'static str, of: (&'static str, &Named), objects: u8, facts: &[&str], steps: &[&str]) {
        let file = encode(&of.1.run(objects, facts, steps));
        self.runs.push(Run { name, of: of.0, file });
    }
}

/// All of them.
pub fn all() -> Samples {
    let mut samples = specification();
    proved(&mut samples);
    clearing(&mut samples);
    misreadings(&mut samples);
    on_the_way(&mut samples);
    samples.domain("seven-names", &Named::read(SEVEN_NAMES), "at[0,FF], out[0,FF]");
    floortile(&mut samples);
    depots(&mut samples);
    rovers(&mut samples);
    satellite(&mut samples);
    driverlog(&mut samples);
    samples
}

/// M1 to M12, the bytes that the programs `samples` and `play` are run on, and a run of M1 that is played to its end.
fn specification() -> Samples {
    macro_rules! stored {
        ($name:literal) => {
            Domain { name: $name, file: include_bytes!(concat!("../../../crates/list_samples/data/", $name)).to_vec() }
        };
    }
    let domains = vec![
        stored!("m1"),
        stored!("m2"),
        stored!("m3"),
        stored!("m4"),
        stored!("m5"),
        stored!("m6"),
        stored!("m7"),
        stored!("m8"),
        stored!("m9"),
        stored!("m10"),
        stored!("m11"),
    ];
    let m12 = include_bytes!("../../../crates/play/data/m12").to_vec();
    let mut samples = Samples { domains, runs: vec![Run { name: "m12", of: "m1", file: m12 }] };
    let m1 = Named::read(M1);
    samples.run("m1-lent", ("m1", &m1), 4, &["at 0 1"], &["start lend 0 1 2", "end lend 0 1 2"]);
    samples
}

/// M1 with names. Its file is the stored one.
const M1: &str = "
relation at/2
relation out/2

at once move(volume, from, to)
    true at(volume, from)
    add at(volume, to)
    delete at(volume, from)

lasting lend(volume, shelf, reader)
    start true at(volume, shelf)
    start delete at(volume, shelf)
    end add out(volume, reader)
";

/// What M1 to M12 leave open, from roles over all to six arguments.
const RULES: [&str; 21] = [
    "over-all-at-end",
    "over-all-not-at-start",
    "over-all-and-end-once",
    "over-all-false-covers-not",
    "over-all-elsewhere",
    "journey-over-all",
    "second-class",
    "class-before-moment",
    "no-row",
    "no-keys",
    "no-keys-two-relations",
    "no-arguments",
    "six-arguments",
    "keys-swapped-witness",
    "witness-order",
    "journey-of-another-class",
    "bounded-journey",
    "worst-of-three",
    "heavy-in-later-class",
    "earliest-action",
    "unbounded-beside-bounded",
];

/// A broken file for each number, 9 to 25; `CLEARING` has those of 26 and 27.
const BROKEN: [&str; 20] = [
    "too-long",
    "head-cut",
    "not-closed",
    "kind-6",
    "literal-long",
    "relation-late",
    "closing-behind",
    "relation-65",
    "arity-7",
    "role-4-at-once",
    "literal-relation",
    "variable-1",
    "repeated",
    "over-all-and-end",
    "key-high",
    "key-missing",
    "used-before",
    "no-component",
    "key-twice",
    "two-counted",
];

/// What a step asks and leaves: the domain, and its runs.
const STEPS: [(&str, &[&str]); 7] = [
    (
        "lamps",
        &[
            "order-of-facts",
            "order-of-events",
            "added-twice",
            "open-twice",
            "restarted",
            "empty-step",
            "start-free",
            "over-all-true-fails",
            "not-yet-open",
            "added-deleted",
            "end-over-all-free",
            "end-over-all-fails",
        ],
    ),
    ("jobs", &["ends-together", "ends-apart"]),
    ("moves", &["moved-together"]),
    ("fillings", &["filled-and-emptied"]),
    ("counted", &["counted-together"]),
    ("m1", &["weight-highest"]),
    ("m3", &["refused-template"]),
];

/// A run file at fault for each number, 50 to 54.
const RUN_FILES: [(&str, &[&str]); 2] =
    [("lamps", &["event-waits", "event-object", "bound-twice"]), ("calm", &["event-17", "event-repeated"])];

/// The case whose file a sample is, named as names are written in the definitions: the sample no-row is the case `no_row`.
fn case_of(sample: &str) -> String {
    let name = sample.replace('-', "_");
    // a theorem, or a case, that a definition has the name of
    if ["second_class", "no_component"].contains(&name.as_str()) { name + "_lem" } else { name }
}

/// Cases that are proved of the definitions, on their very bytes.
fn proved(samples: &mut Samples) {
    let cases = Cases::read();
    for (group, names) in [("Names", &RULES[..]), ("Refusals", &BROKEN)] {
        for &name in names {
            let Call::Judge { file, .. } = &cases.case(group, &case_of(name)).call else { panic!("{name} isn't judged") };
            samples.domains.push(Domain { name, file: file.clone() });
        }
    }
    for name in ["lamps", "jobs", "moves", "fillings", "counted", "calm"] {
        samples.domains.push(Domain { name, file: cases.file(name).to_vec() });
    }
    for (group, runs) in [("Steps", &STEPS[..]), ("RunFiles", &RUN_FILES)] {
        for (of, name) in runs.iter().flat_map(|(of, names)| names.iter().map(move |name| (*of, *name))) {
            let Call::Play { domain, run, .. } = &cases.case(group, &case_of(name)).call else { panic!("{name} isn't played") };
            assert_eq!(domain, cases.file(of), "{name} isn't a run of {of}");
            samples.runs.push(Run { name, of, file: run.clone() });
        }
    }
}

/// A domain with its name, its text, its template, and its runs: name, objects, facts and steps.
type Clearing = (&'static str, &'static str, &'static str, &'static [ClearingRun]);
type ClearingRun = (&'static str, u8, &'static [&'static str], &'static [&'static str]);

const STRIKE_AND_PUT: &str = "
relation at/2

at once put(volume, shelf)
    delete at(volume, *)
    add at(volume, shelf)
";

const PUT_WHERE_NONE: &str = "
relation at/2

at once put(volume, shelf)
    false at(volume, *)
    add at(volume, shelf)
";

const STRUCK_BY_MOVING: &str = "
relation at/2

at once move(volume, from, to)
    true at(volume, from)
    add at(volume, to)
    delete at(volume, *)

lasting repair(volume, shelf)
    start true at(volume, shelf)
    start delete at(volume, *)
    end add at(volume, shelf)
";

const STRUCK_AT_THE_END: &str = "
relation at/2

lasting put(volume, shelf)
    start add at(volume, shelf)
    end delete at(volume, *)
";

const ONE_LAMP: &str = "
relation lit/1

at once light(lamp)
    false lit(*)
    add lit(lamp)
";

const ROW_AND_COLUMN: &str = "
relation at/2
relation open/0

at once strike(volume)
    delete at(volume, *)

at once empty(shelf)
    delete at(*, shelf)

at once check(shelf)
    false at(*, shelf)
";

const ASKED_AND_STRUCK: &str = "
relation at/2

at once see(volume, shelf)
    true at(volume, shelf)
    false at(volume, *)
";

const EVERY_IN_ADD: &str = "
relation at/2

at once put(volume)
    add at(volume, *)
";

const KEY_WHERE_EVERY: &str = "
relation at/2

at once strike(volume)
    delete at(volume, *)
";

/// Every object: what covers, what contradicts, what interferes, and what can't be read.
const CLEARING: [Clearing; 9] = [
    (
        "strike-and-put",
        STRIKE_AND_PUT,
        "at[0,FF]",
        &[("strike-and-put", 4, &["at 0 1", "at 0 2", "at 3 1"], &["once put 0 1", "once put 3 2, once put 0 2"])],
    ),
    ("put-where-none", PUT_WHERE_NONE, "at[0,FF]", &[("put-where-none", 3, &["at 0 1"], &["once put 0 2"])]),
    ("struck-by-moving", STRUCK_BY_MOVING, "at[0,FF]", &[]),
    (
        "struck-at-the-end",
        STRUCK_AT_THE_END,
        "at[0,FF]",
        &[("struck-at-the-end", 3, &["at 0 2"], &["start put 0 1", "end put 0 1"])],
    ),
    (
        "one-lamp",
        ONE_LAMP,
        "lit[FF]",
        &[
            ("one-lamp-together", 2, &[], &["once light 0, once light 1"]),
            ("one-lamp-in-turn", 2, &[], &["once light 0", "once light 1"]),
        ],
    ),
    (
        "row-and-column",
        ROW_AND_COLUMN,
        "open[]",
        &[
            ("row-and-column", 4, &["at 0 1", "at 0 3", "at 2 1", "at 2 3"], &["once strike 0, once empty 1"]),
            ("row-and-check", 2, &[], &["once strike 0, once check 1"]),
        ],
    ),
    ("asked-and-struck", ASKED_AND_STRUCK, "at[0,FF]", &[]),
    ("every-in-add", EVERY_IN_ADD, "at[0,FF]", &[]),
    ("key-where-every", KEY_WHERE_EVERY, "at[0,1]", &[]),
];

fn clearing(samples: &mut Samples) {
    for (name, text, template, runs) in CLEARING {
        let domain = Named::read(text);
        samples.domain(name, &domain, template);
        for (run, objects, facts, steps) in runs {
            samples.run(run, (name, &domain), *objects, facts, steps);
        }
    }
}

/// The start of lend takes `in` away, and its end doesn't speak of it.
const BOUNDED_ANYWHERE: &str = "
relation in/1
relation out/1

lasting lend(volume)
    start delete in(volume)
    end add out(volume)

at once take-back(volume)
    add in(volume)
    delete out(volume)
";

/// The start of lend needs the volume on its shelf, but doesn't take it away.
const HARMLESS_START: &str = "
relation at/2
relation out/2

lasting lend(volume, shelf, reader)
    start true at(volume, shelf)
    end add out(volume, reader)
";

/// One volume goes off its shelf, another one comes on a shelf.
const BY_RELATION_ALONE: &str = "
relation at/2

at once exchange(volume, shelf, other-volume, other-shelf)
    true at(volume, shelf)
    delete at(volume, shelf)
    add at(other-volume, other-shelf)
";

/// lend is a journey; take-back is bounded.
const BOUNDED_BESIDE_JOURNEY: &str = "
relation in/1
relation out/1

lasting lend(volume)
    start true in(volume)
    start delete in(volume)
    end add out(volume)

at once take-back(volume)
    add in(volume)
    delete out(volume)
";

/// A domain for each misreading that the specification rules out, and a run that breaks the template.
fn misreadings(samples: &mut Samples) {
    let lent_and_back = ["start lend 0", "once take-back 0", "end lend 0"];

    let domain = Named::read(BOUNDED_ANYWHERE);
    samples.domain("bounded-anywhere", &domain, "in[0], out[0]");
    samples.run("bounded-anywhere", ("bounded-anywhere", &domain), 1, &["in 0"], &lent_and_back);

    let domain = Named::read(HARMLESS_START);
    samples.domain("harmless-start", &domain, "at[0,FF], out[0,FF]");
    let lent = ["start lend 0 1 2", "end lend 0 1 2"];
    samples.run("harmless-start", ("harmless-start", &domain), 3, &["at 0 1"], &lent);

    let domain = Named::read(BY_RELATION_ALONE);
    samples.domain("by-relation-alone", &domain, "at[0,FF]");
    let of = ("by-relation-alone", &domain);
    samples.run("by-relation-alone", of, 5, &["at 0 1", "at 2 4"], &["once exchange 0 1 2 3"]);

    let domain = Named::read(BOUNDED_BESIDE_JOURNEY);
    samples.domain("bounded-beside-journey", &domain, "in[0], out[0]");
    samples.run("bounded-beside-journey", ("bounded-beside-journey", &domain), 1, &["in 0"], &lent_and_back);
}

/// Runs to be played with an instance, volume 0: a journey that is open at the end, the same where the template doesn't see
/// its end, and one that begins twice.
fn on_the_way(samples: &mut Samples) {
    let (m1, lent) = (Named::read(M1), ["start lend 0 1 2"]);
    samples.run("on-the-way", ("m1", &m1), 3, &["at 0 1"], &lent);
    samples.run(
        "on-the-way-and-there",
        ("m1", &m1),
        4,
        &["at 0 1"],
        &["once move 0 1 3", "start lend 0 3 2", "end lend 0 3 2"],
    );
    samples.run("lost", ("m2", &m1), 3, &["at 0 1"], &lent);
    let domain = Named::read(BOUNDED_BESIDE_JOURNEY);
    let twice = ["start lend 0", "once take-back 0", "start lend 0", "end lend 0"];
    samples.run("begun-twice", ("bounded-beside-journey", &domain), 1, &["in 0"], &twice);
}

/// An action at once for each of the seven names, in their order.
const SEVEN_NAMES: &str = "
relation at/2
relation out/2

at once compare(volume, here, there, reader)
    true at(volume, here)
    true at(volume, there)
    add out(volume, reader)

at once discard(volume, shelf)
    true at(volume, shelf)
    delete at(volume, shelf)

at once double(volume, here, there)
    add at(volume, here)
    add at(volume, there)

at once move(volume, from, to)
    true at(volume, from)
    delete at(volume, from)
    add at(volume, to)

at once lend-copy(volume, shelf, reader)
    true at(volume, shelf)
    add out(volume, reader)

at once put(volume, shelf)
    delete at(volume, *)
    delete out(volume, *)
    add at(volume, shelf)

at once shelve(volume, shelf)
    add at(volume, shelf)
";

fn floortile(samples: &mut Samples) {
    let domain = Named::read(FLOORTILE);
    samples.domain("floortile-tile", &domain, "painted[0,FF], clear[0], robot-at[FF,0]");
    samples.domain("floortile-robots-on-tile", &domain, "robot-at[FF,0]");
    samples.domain("floortile-one-fact", &domain, "robot-at[0,1]");
    // Robot 0 on tile 1 paints tile 2 above it in color 4, then goes down to tile 3.
    samples.run(
        "floortile-paint",
        ("floortile-tile", &domain),
        5,
        &["robot-at 0 1", "clear 2", "clear 3", "up 2 1", "down 3 1", "robot-has 0 4"],
        &["start paint-up 0 2 1 4", "end paint-up 0 2 1 4", "start down 0 1 3", "end down 0 1 3"],
    );
    // Robot 0 goes up from tile 1 to tile 2, where robot 3 stands although the tile is clear.
    samples.run(
        "floortile-robots-on-tile",
        ("floortile-robots-on-tile", &domain),
        4,
        &["robot-at 0 1", "up 2 1", "clear 2", "robot-at 3 2"],
        &["start up 0 1 2", "end up 0 1 2"],
    );
}

fn depots(samples: &mut Samples) {
    let domain = Named::read(DEPOTS);
    samples.domain("depots-crate", &domain, "in[0,FF], at[0,FF], lifting[FF,0]");
    samples.domain("depots-place-and-stack", &domain, "at[0,FF], on[0,FF]");
    samples.domain("depots-clear", &domain, "clear[FF]");
    samples.domain("depots-surface", &domain, "clear[0], in[0,FF], on[FF,0], lifting[FF,0]");
    samples.domain("depots-stacked", &domain, "in[0,FF], on[0,FF], lifting[FF,0]");
    // Truck 0, crate 1, hoists 2 and 3, pallets 4 and 5, depots 6 and 7.
    samples.run(
        "depots-delivery",
        ("depots-crate", &domain),
        8,
        &[
            "at 0 6",
            "at 1 6",
            "on 1 4",
            "clear 1",
            "at 2 6",
            "available 2",
            "at 3 7",
            "available 3",
            "at 4 6",
            "at 5 7",
            "clear 5",
        ],
        &[
            "start lift 2 1 4 6",
            "end lift 2 1 4 6",
            "start load 2 1 0 6",
            "end load 2 1 0 6",
            "start drive 0 6 7",
            "end drive 0 6 7",
            "start unload 3 1 0 7",
            "end unload 3 1 0 7",
            "start drop 3 1 5 7",
            "end drop 3 1 5 7",
        ],
    );
    // Hoist 0 drops crate 1 on pallet 2 in depot 3.
    samples.run(
        "depots-place-and-stack",
        ("depots-place-and-stack", &domain),
        4,
        &["at 0 3", "at 2 3", "clear 2", "lifting 0 1"],
        &["start drop 0 1 2 3", "end drop 0 1 2 3"],
    );
    let (twice, loading) = (depots_dropping_twice(), depots_dropping_and_loading());
    for (name, told) in
        [("depots-clear", &twice), ("depots-surface", &twice), ("depots-stacked", &loading), ("depots-crate", &loading)]
    {
        samples.run(name, (name, &domain), 7, &told.facts(), &told.events());
    }
}

fn rovers(samples: &mut Samples) {
    let domain = Named::read(ROVERS);
    let soil = "at_soil_sample[0], have_soil_analysis[FF,0]";
    samples.domain("rovers-position", &domain, "at[0,FF]");
    samples.domain("rovers-soil", &domain, soil);
    samples.domain("rovers-soil-at-once", &domain.at_once(), soil);
    samples.domain("rovers-rock", &domain, "at_rock_sample[0], have_rock_analysis[FF,0]");
    samples.domain("rovers-sample-or-store", &domain, "at_rock_sample[FF], at_soil_sample[FF], full[FF]");
    samples.domain("rovers-store", &domain, "full[0], empty[0]");
    let drop = "lasting drop(rover, store)\n";
    let mended = Named::read(&ROVERS.replace(drop, &format!("{drop}    end true full(store)\n")));
    samples.domain("rovers-store-mended", &mended, "full[0], empty[0]");

    let (soil, rock, dropping) = (rovers_sampling("soil"), rovers_sampling("rock"), rovers_dropping());
    for (name, of, objects, told) in [
        ("rovers-soil", &domain, 5, &soil),
        ("rovers-rock", &domain, 5, &rock),
        ("rovers-sample-or-store", &domain, 5, &soil),
        ("rovers-store", &domain, 3, &dropping),
        ("rovers-store-mended", &mended, 3, &dropping),
    ] {
        samples.run(name, (name, of), objects, &told.facts(), &told.events());
    }
}

fn satellite(samples: &mut Samples) {
    let domain = Named::read(SATELLITE);
    samples.domain("satellite-pointing", &domain, "pointing[0,FF]");
    samples.domain("satellite-power-calibrated", &domain, "power_on[0], calibrated[0]");
    // Satellite 0 with instrument 1, which is calibrated on star 2 and takes planet 3 in mode 4.
    samples.run(
        "satellite-image",
        ("satellite-pointing", &domain),
        5,
        &["on_board 1 0", "supports 1 4", "calibration_target 1 2", "pointing 0 3", "power_avail 0"],
        &[
            "start switch_on 1 0, start turn_to 0 2 3",
            "end switch_on 1 0, end turn_to 0 2 3",
            "start calibrate 0 1 2",
            "end calibrate 0 1 2",
            "start turn_to 0 3 2",
            "end turn_to 0 3 2",
            "start take_image 0 3 1 4",
            "end take_image 0 3 1 4",
        ],
    );
    samples.run(
        "satellite-power-calibrated",
        ("satellite-power-calibrated", &domain),
        3,
        &["on_board 1 0", "calibration_target 1 2", "pointing 0 2", "power_on 1"],
        &["start calibrate 0 1 2", "end calibrate 0 1 2"],
    );
}

fn driverlog(samples: &mut Samples) {
    let domain = Named::read(DRIVERLOG);
    samples.domain("driverlog-whereabouts", &domain, "driving[0,FF], in[0,FF], at[0,FF]");
    samples.domain("driverlog-package", &domain, "at[0,FF], in[0,FF]");
    // Driver 0, truck 1 and package 2 go from place 3 to place 4.
    samples.run(
        "driverlog-delivery",
        ("driverlog-whereabouts", &domain),
        5,
        &["at 0 3", "at 1 3", "at 2 3", "empty 1", "link 3 4"],
        &[
            "start load-truck 2 1 3, start board-truck 0 1 3",
            "end load-truck 2 1 3, end board-truck 0 1 3",
            "start drive-truck 1 3 4 0",
            "end drive-truck 1 3 4 0",
            "start unload-truck 2 1 4, start disembark-truck 0 1 4",
            "end unload-truck 2 1 4, end disembark-truck 0 1 4",
        ],
    );
    // Driver 0 drives truck 1 at place 2, and is said to be at place 3 too.
    samples.run(
        "driverlog-package",
        ("driverlog-package", &domain),
        4,
        &["at 1 2", "driving 0 1", "at 0 3"],
        &["start disembark-truck 0 1 2", "end disembark-truck 0 1 2"],
    );
}

#[cfg(test)]
mod tests {
    use super::*;

    /// The text with names is the stored M1, so a run that is written with its names is one of M1.
    #[test]
    fn m1_with_names() {
        let stored = include_bytes!("../../../crates/list_samples/data/m1");
        assert_eq!(Named::read(M1).with("at[0,FF], out[0,FF]").file(), stored);
    }
}
