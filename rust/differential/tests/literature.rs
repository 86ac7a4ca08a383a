//! Domains of the planning literature against library and model: verdict, rows and witness of each are derived by
//! hand from the paper and written down here, with the reason.
//!
//! "Published" are the templates that figure 12 of source 000 lists as invariants of a domain; all of them are here.
//! Where the paper refuses one of them, a run shows that it isn't an invariant, but for one of Depots: there the paper
//! has no rule about pairs of actions. An over-all condition covers the open interval up to the end (P2), so two ends may
//! come together although each takes away what the other needs over all.

use differential::judging::{compare, expect_at_all_lengths, model, Told};
use differential::playing;
use generate::literature::{
    depots_dropping_and_loading, depots_dropping_twice, rovers_dropping, rovers_sampling, Named, DEPOTS, DRIVERLOG,
    FLOORTILE, ROVERS, SATELLITE,
};
use generate::records::{encode, rec, Rec};
use goadlotus::judge;

/// A template over a domain.
struct Case {
    template: &'static str,
    /// Whether figure 12 of source 000 has it.
    published: bool,
    why: &'static str,
    /// What it comes to with the domain's lasting actions, and with all actions at once.
    lasting: Expected,
    at_once: Expected,
}

struct Expected {
    /// The number, for a refusal with the moment that it names: `42 drop 0 1`.
    verdict: &'static str,
    /// A line has actions and their classes: `up, down: irrelevant unbounded / irrelevant irrelevant` is two classes
    /// of two moments each for two actions. An action that no line has has no class.
    rows: &'static [&'static str],
    /// A fact is its relation and objects: `at 0 2`.
    witness: &'static [&'static str],
}

const fn accepted(verdict: &'static str, rows: &'static [&'static str]) -> Expected {
    Expected { verdict, rows, witness: &[] }
}

const fn refused(verdict: &'static str, rows: &'static [&'static str], witness: &'static [&'static str]) -> Expected {
    Expected { verdict, rows, witness }
}

const NAMES: [&str; 7] = ["unreachable", "irrelevant", "heavy", "balanced", "unbalanced", "bounded", "unbounded"];

fn number(text: &str) -> u8 {
    text.parse().unwrap_or_else(|_| panic!("not a number: {text:?}"))
}

impl Expected {
    fn told(&self, domain: &Named) -> Told {
        let words: Vec<&str> = self.verdict.split(' ').collect();
        let answer = match words[..] {
            [verdict] => [number(verdict), 0, 0, 0],
            [verdict, action, class, moment] => [number(verdict), domain.action(action), number(class), number(moment)],
            _ => panic!("not a verdict: {:?}", self.verdict),
        };
        let mut rows: Vec<[u8; 4]> = Vec::new();
        for line in self.rows {
            let (actions, classes) = line.split_once(": ").unwrap_or_else(|| panic!("not rows: {line:?}"));
            for action in actions.split(", ").map(|name| domain.action(name)) {
                for (class, moments) in classes.split(" / ").enumerate() {
                    let names: Vec<&str> = moments.split(' ').collect();
                    assert_eq!(names.len(), domain.moments(action), "moments of a class: {line:?}");
                    for (moment, name) in names.iter().enumerate() {
                        let name = NAMES.iter().position(|other| other == name).expect("a name") + 1;
                        rows.push([action, class as u8, moment as u8, name as u8]);
                    }
                }
            }
        }
        rows.sort();
        let mut witness = Vec::new();
        for fact in self.witness {
            let (relation, objects) = fact.split_once(' ').unwrap_or_else(|| panic!("not a fact: {fact:?}"));
            let objects: Vec<u8> = objects.split(' ').map(number).collect();
            let mut bytes = [0xFF; 8];
            bytes[..2].copy_from_slice(&[domain.relation(relation), objects.len() as u8]);
            bytes[2..2 + objects.len()].copy_from_slice(&objects);
            witness.extend(bytes);
        }
        Told { answer: answer.map(u64::from), report: rows.concat(), witness }
    }
}

/// Judges every template over a domain, lasting and at once, by library and model, at all lengths.
#[track_caller]
fn check(name: &str, domain: &str, published: usize, cases: &[Case]) {
    let lasting = Named::read(domain);
    let at_once = lasting.at_once();
    for case in cases {
        for (form, domain, expected) in [("lasting", &lasting, &case.lasting), ("at once", &at_once, &case.at_once)] {
            let name = format!("{name} {form}, {}: {}", case.template, case.why);
            let file = domain.with(case.template).file();
            let told = expected.told(domain);
            expect_at_all_lengths(judge, &format!("library: {name}"), &file, &told);
            expect_at_all_lengths(model, &format!("model: {name}"), &file, &told);
            let (r, w) = (told.report.len(), told.witness.len());
            for lent in [(r, w), (r.saturating_sub(1), w), (r, w.saturating_sub(1)), (r + 40, w + 40)] {
                if let Err(text) = compare(judge, &file, lent, r + w) {
                    panic!("{name}\n{text}");
                }
            }
            if form == "at once" && (40..=42).contains(&told.answer[0]) {
                witness_shows(&name, &file, domain, &told);
            }
        }
    }
    assert_eq!(cases.iter().filter(|case| case.published).count(), published, "all that is published of {name}");
}

/// Plays the file; panics unless that goes to its end.
#[track_caller]
fn played(name: &str, file: &[u8], run: &[Rec]) -> playing::Played {
    let played = playing::compare(playing::library, file, &encode(run), playing::WORK, 0);
    let played = played.unwrap_or_else(|text| panic!("{name}\n{text}"));
    assert_eq!(played.number, 2, "{name}");
    played
}

/// "With the witness's facts and nothing open, the named action alone is an allowed step, and the bound key tuple of the
/// named class is an instance that weighs at most one before it and two or more after it." Here no instance weighs more
/// than one before it.
#[track_caller]
fn witness_shows(name: &str, file: &[u8], domain: &Named, told: &Told) {
    let action = told.answer[1] as u8;
    let variables = domain.variables(action);
    let mut start = vec![rec(16, [variables + 1])];
    for fact in told.witness.chunks_exact(8) {
        start.push(rec(17, [&fact[..1], &fact[2..2 + fact[1] as usize]].concat()));
    }
    let event: Vec<u8> = [0, action].into_iter().chain(0..variables).collect();
    let step = [&start[..], &[rec(18, event), rec(19, []), rec(20, [])]].concat();
    start.push(rec(20, []));
    assert!(played(name, file, &start).weight <= 1, "{name}");
    let after = played(name, file, &step);
    assert!(after.steps == 1 && after.weight >= 2, "{name}: {after:?}");
}

#[test]
fn floortile() {
    let cases = [
        Case {
            // Chapter 3 of source 001 has a table of this template: the same names, a row for each literal.
            template: "robot-at[0,FF]",
            published: true,
            why: "a robot is nowhere between leaving a tile and reaching the next",
            lasting: accepted(
                "1",
                &["paint-up, paint-down: irrelevant irrelevant", "up, down, right, left: irrelevant unbounded"],
            ),
            at_once: accepted("0", &["paint-up, paint-down: irrelevant", "up, down, right, left: balanced"]),
        },
        Case {
            template: "painted[0,FF], clear[0], robot-at[FF,0]",
            published: true,
            why: "who takes a tile first makes it not clear; painting, coming and going are journeys of one tile each",
            lasting: accepted(
                "1",
                &[
                    "paint-up, paint-down: irrelevant irrelevant / irrelevant unbounded",
                    "up, down, right, left: irrelevant unbounded / irrelevant unbounded",
                ],
            ),
            at_once: accepted(
                "0",
                &["paint-up, paint-down: irrelevant / balanced", "up, down, right, left: balanced / balanced"],
            ),
        },
        Case {
            template: "clear[0], robot-at[FF,0]",
            published: true,
            why: "as before; painting only takes clear away",
            lasting: accepted(
                "1",
                &[
                    "paint-up, paint-down: irrelevant irrelevant / irrelevant irrelevant",
                    "up, down, right, left: irrelevant unbounded / irrelevant unbounded",
                ],
            ),
            at_once: accepted(
                "0",
                &["paint-up, paint-down: irrelevant / irrelevant", "up, down, right, left: balanced / balanced"],
            ),
        },
        Case {
            template: "clear[FF]",
            published: true,
            why: "no key, one class: a move takes clear from one tile before it gives it to another",
            lasting: accepted(
                "1",
                &["paint-up, paint-down: irrelevant irrelevant", "up, down, right, left: irrelevant unbounded"],
            ),
            at_once: accepted("0", &["paint-up, paint-down: irrelevant", "up, down, right, left: balanced"]),
        },
        Case {
            template: "robot-has[0,FF]",
            published: true,
            why: "change-color is a journey; painting only needs the color over all",
            lasting: accepted(
                "1",
                &["change-color: irrelevant unbounded", "paint-up, paint-down: irrelevant irrelevant"],
            ),
            at_once: accepted("0", &["change-color: balanced", "paint-up, paint-down: irrelevant"]),
        },
        Case {
            // Example 20 of source 000 and chapter 4 of source 001 discard it too.
            template: "robot-at[FF,0]",
            published: false,
            why: "a robot reaches a tile of which the template alone doesn't say that nobody stands there",
            lasting: refused(
                "42 up 1 1",
                &[
                    "paint-up, paint-down: irrelevant irrelevant",
                    "up, down, right, left: irrelevant irrelevant / irrelevant unbounded",
                ],
                &["up 2 1", "robot-at 3 2"],
            ),
            at_once: refused(
                "42 up 1 0",
                &["paint-up, paint-down: irrelevant", "up, down, right, left: irrelevant / unbounded"],
                &["robot-at 0 1", "up 2 1", "clear 2", "robot-at 3 2"],
            ),
        },
        Case {
            // Example 20 of source 000 rejects it. An instance is one fact here, so it can't weigh two.
            template: "robot-at[0,1]",
            published: false,
            why: "a component without FF covers itself, so the class of the tile reached is bounded",
            lasting: accepted(
                "0",
                &[
                    "paint-up, paint-down: irrelevant irrelevant",
                    "up, down, right, left: irrelevant irrelevant / irrelevant bounded",
                ],
            ),
            at_once: accepted(
                "0",
                &["paint-up, paint-down: irrelevant", "up, down, right, left: irrelevant / bounded"],
            ),
        },
        Case {
            template: "painted[0,FF]",
            published: false,
            why: "nothing in the class tells that a tile isn't painted yet, since clear isn't in the template",
            lasting: refused(
                "42 paint-up 0 1",
                &["paint-up, paint-down: irrelevant unbounded"],
                &["robot-has 0 3", "up 1 2", "painted 1 4"],
            ),
            at_once: refused(
                "42 paint-up 0 0",
                &["paint-up, paint-down: unbounded"],
                &["robot-has 0 3", "robot-at 0 2", "up 1 2", "clear 1", "painted 1 4"],
            ),
        },
    ];
    check("floortile", FLOORTILE, 5, &cases);
}

#[test]
fn depots() {
    let cases = [
        // The published templates differ: drop and load need what they take away over all, not at their ends, and two
        // of them may end together. `published_and_yet_no_invariants` plays it.
        Case {
            template: "clear[FF]",
            published: true,
            why: "lift moves clear from the crate to what it stood on; two drops on one surface end with two crates clear",
            lasting: refused("42 drop 0 1", &["lift: balanced irrelevant", "drop: irrelevant unbounded"], &[]),
            at_once: accepted("0", &["lift, drop: balanced"]),
        },
        Case {
            // Example 18 of source 000 takes the ends of drop and load for unbounded first, as they are here, and goes on
            // with a corollary about pairs of actions, which the paper doesn't have. No run breaks the template.
            template: "lifting[0,FF], available[0]",
            published: true,
            why: "a hoist that drops or loads is lifting only until just before the end",
            lasting: refused(
                "42 drop 0 1",
                &["lift, unload: balanced irrelevant", "drop, load: irrelevant unbounded"],
                &[],
            ),
            at_once: accepted("0", &["lift, drop, load, unload: balanced"]),
        },
        Case {
            template: "in[0,FF], at[0,FF], lifting[FF,0]",
            published: true,
            why: "drive is a journey; a lifted crate may be dropped and loaded, ending in one step",
            lasting: refused(
                "42 drop 2 1",
                &[
                    "drive: irrelevant unbounded",
                    "lift: irrelevant irrelevant / balanced irrelevant",
                    "drop, load: irrelevant irrelevant / irrelevant irrelevant / irrelevant unbounded",
                    "unload: irrelevant irrelevant / irrelevant irrelevant / balanced irrelevant",
                ],
                &[],
            ),
            at_once: accepted(
                "0",
                &[
                    "drive: balanced",
                    "lift: irrelevant / balanced",
                    "drop, load, unload: irrelevant / irrelevant / balanced",
                ],
            ),
        },
        Case {
            template: "in[0,FF], on[0,FF], lifting[FF,0]",
            published: true,
            why: "a lifted crate may be dropped and loaded, ending in one step: on something and in a truck",
            lasting: refused(
                "42 drop 0 1",
                &["lift, unload: balanced irrelevant", "drop, load: irrelevant unbounded"],
                &[],
            ),
            at_once: accepted("0", &["lift, drop, load, unload: balanced"]),
        },
        Case {
            template: "clear[0], in[0,FF], on[FF,0], lifting[FF,0]",
            published: true,
            why: "two crates dropped on one surface, ending in one step, are both on it",
            lasting: refused(
                "42 drop 0 1",
                &[
                    "lift: balanced irrelevant / balanced irrelevant",
                    "drop: irrelevant unbounded / irrelevant unbounded",
                    "load: irrelevant unbounded",
                    "unload: balanced irrelevant",
                ],
                &[],
            ),
            at_once: accepted("0", &["lift, drop: balanced / balanced", "load, unload: balanced"]),
        },
        Case {
            template: "on[0,FF]",
            published: false,
            why: "drop puts a crate on something, and that it was lifted isn't in the template",
            lasting: refused(
                "42 drop 0 1",
                &["lift: irrelevant irrelevant", "drop: irrelevant unbounded"],
                &["at 0 3", "at 2 3", "clear 2", "lifting 0 1", "on 1 4"],
            ),
            at_once: refused(
                "42 drop 0 0",
                &["lift: irrelevant", "drop: unbounded"],
                &["at 0 3", "at 2 3", "clear 2", "lifting 0 1", "on 1 4"],
            ),
        },
        Case {
            template: "at[0,FF], on[0,FF]",
            published: false,
            why: "a crate on something is at a place too: drop adds both, and lift needs both, so it is unreachable",
            lasting: refused(
                "40 drop 2 1",
                &[
                    "drive: irrelevant unbounded",
                    "lift: irrelevant irrelevant / unreachable irrelevant",
                    "drop: irrelevant irrelevant / irrelevant irrelevant / irrelevant heavy",
                    "load, unload: irrelevant irrelevant / irrelevant irrelevant",
                ],
                &["at 0 3", "at 2 3", "clear 2", "lifting 0 1"],
            ),
            at_once: refused(
                "40 drop 2 0",
                &[
                    "drive: balanced",
                    "lift: irrelevant / unreachable",
                    "drop: irrelevant / irrelevant / heavy",
                    "load, unload: irrelevant / irrelevant",
                ],
                &["at 0 3", "at 2 3", "clear 2", "lifting 0 1"],
            ),
        },
    ];
    check("depots", DEPOTS, 5, &cases);
}

#[test]
fn driverlog() {
    let cases = [
        Case {
            template: "empty[0], driving[FF,0]",
            published: true,
            why: "a truck is empty or has one driver; boarding and disembarking are journeys of the truck",
            lasting: accepted(
                "1",
                &["board-truck, disembark-truck: irrelevant unbounded", "drive-truck: irrelevant irrelevant"],
            ),
            at_once: accepted("0", &["board-truck, disembark-truck: balanced", "drive-truck: irrelevant"]),
        },
        Case {
            template: "driving[0,FF], in[0,FF], at[0,FF]",
            published: true,
            why: "whatever moves is a journey; the truck that stays is a class of its own, where nothing changes",
            lasting: accepted(
                "1",
                &[
                    "load-truck, unload-truck: irrelevant irrelevant / irrelevant unbounded",
                    "board-truck, disembark-truck: irrelevant irrelevant / irrelevant unbounded",
                    "drive-truck: irrelevant unbounded / irrelevant irrelevant",
                    "walk: irrelevant unbounded",
                ],
            ),
            at_once: accepted(
                "0",
                &[
                    "load-truck, unload-truck, board-truck, disembark-truck: irrelevant / balanced",
                    "drive-truck: balanced / irrelevant",
                    "walk: balanced",
                ],
            ),
        },
        Case {
            template: "at[0,FF], in[0,FF]",
            published: false,
            why: "true of packages, but a file has no types: who disembarks was driving, not in the template",
            lasting: refused(
                "42 disembark-truck 1 1",
                &[
                    "load-truck, unload-truck: irrelevant irrelevant / irrelevant unbounded",
                    "board-truck: irrelevant irrelevant / irrelevant irrelevant",
                    "disembark-truck: irrelevant irrelevant / irrelevant unbounded",
                    "drive-truck, walk: irrelevant unbounded",
                ],
                &["at 1 2", "at 0 3"],
            ),
            at_once: refused(
                "42 disembark-truck 1 0",
                &[
                    "load-truck, unload-truck: irrelevant / balanced",
                    "board-truck: irrelevant / irrelevant",
                    "disembark-truck: irrelevant / unbounded",
                    "drive-truck, walk: balanced",
                ],
                &["at 1 2", "driving 0 1", "at 0 3"],
            ),
        },
        Case {
            template: "at[0,FF], driving[0,FF]",
            published: false,
            why: "true of drivers, but a file has no types: what is unloaded was in a truck, not in the template",
            lasting: refused(
                "42 unload-truck 1 1",
                &[
                    "load-truck: irrelevant irrelevant / irrelevant irrelevant",
                    "unload-truck, board-truck, disembark-truck: irrelevant irrelevant / irrelevant unbounded",
                    "drive-truck: irrelevant unbounded / irrelevant irrelevant",
                    "walk: irrelevant unbounded",
                ],
                &["at 1 2", "at 0 3"],
            ),
            at_once: refused(
                "42 unload-truck 1 0",
                &[
                    "load-truck: irrelevant / irrelevant",
                    "unload-truck: irrelevant / unbounded",
                    "board-truck, disembark-truck: irrelevant / balanced",
                    "drive-truck: balanced / irrelevant",
                    "walk: balanced",
                ],
                &["at 1 2", "in 0 1", "at 0 3"],
            ),
        },
    ];
    check("driverlog", DRIVERLOG, 2, &cases);
}

#[test]
fn satellite() {
    let cases = [
        Case {
            template: "power_avail[FF], power_on[FF]",
            published: true,
            why: "no key, one class: what is switched takes power_avail for power_on or the other way round",
            lasting: accepted(
                "1",
                &["switch_on, switch_off: irrelevant unbounded", "calibrate, take_image: irrelevant irrelevant"],
            ),
            at_once: accepted("0", &["switch_on, switch_off: balanced", "calibrate, take_image: irrelevant"]),
        },
        Case {
            template: "pointing[0,FF]",
            published: true,
            why: "turn_to is a journey; calibrate and take_image only need the direction",
            lasting: accepted("1", &["turn_to: irrelevant unbounded", "calibrate, take_image: irrelevant irrelevant"]),
            at_once: accepted("0", &["turn_to: balanced", "calibrate, take_image: irrelevant"]),
        },
        Case {
            template: "calibrated[0]",
            published: false,
            why: "an instance has a single fact: a component without FF covers itself; figure 12 has none of this kind",
            lasting: accepted("0", &["switch_on, take_image: irrelevant irrelevant", "calibrate: irrelevant bounded"]),
            at_once: accepted("0", &["switch_on, take_image: irrelevant", "calibrate: bounded"]),
        },
        Case {
            // switch_on deletes calibrated at its start; a name that stands only at the other moment doesn't exclude
            // its fact, so its end is at fault too, but calibrate's fault is worse.
            template: "power_on[0], calibrated[0]",
            published: false,
            why: "an instrument is both while it works: calibrate adds the one and keeps the other",
            lasting: refused(
                "41 calibrate 0 1",
                &[
                    "switch_on: irrelevant unbounded",
                    "switch_off: irrelevant irrelevant",
                    "calibrate: irrelevant unbalanced",
                    "take_image: irrelevant unreachable",
                ],
                &[],
            ),
            at_once: refused(
                "41 calibrate 0 0",
                &["switch_on: bounded", "switch_off: irrelevant", "calibrate: unbalanced", "take_image: unreachable"],
                &["on_board 1 0", "calibration_target 1 2", "pointing 0 2", "power_on 1"],
            ),
        },
    ];
    check("satellite", SATELLITE, 2, &cases);
}

#[test]
fn rovers() {
    let cases = [
        Case {
            template: "at[0,FF]",
            published: true,
            why: "navigate is a journey; all others only need to be somewhere",
            lasting: accepted(
                "1",
                &[
                    "navigate: irrelevant unbounded",
                    "sample_soil, sample_rock, calibrate, take_image: irrelevant irrelevant",
                    "communicate_soil_data, communicate_rock_data, communicate_image_data: irrelevant irrelevant",
                ],
            ),
            at_once: accepted(
                "0",
                &[
                    "navigate: balanced",
                    "sample_soil, sample_rock, calibrate, take_image: irrelevant",
                    "communicate_soil_data, communicate_rock_data, communicate_image_data: irrelevant",
                ],
            ),
        },
        Case {
            template: "channel_free[FF]",
            published: true,
            why: "a channel is taken at the start and given back at the end",
            lasting: accepted(
                "1",
                &["communicate_soil_data, communicate_rock_data, communicate_image_data: irrelevant unbounded"],
            ),
            at_once: accepted("0", &["communicate_soil_data, communicate_rock_data, communicate_image_data: balanced"]),
        },
        Case {
            template: "available[FF]",
            published: true,
            why: "as the channel; navigate only needs it",
            lasting: accepted(
                "1",
                &[
                    "navigate: irrelevant irrelevant",
                    "communicate_soil_data, communicate_rock_data, communicate_image_data: irrelevant unbounded",
                ],
            ),
            at_once: accepted(
                "0",
                &[
                    "navigate: irrelevant",
                    "communicate_soil_data, communicate_rock_data, communicate_image_data: balanced",
                ],
            ),
        },
        Case {
            template: "at_rock_sample[FF]",
            published: true,
            why: "nothing adds one",
            lasting: accepted("0", &["sample_rock: irrelevant irrelevant"]),
            at_once: accepted("0", &["sample_rock: irrelevant"]),
        },
        Case {
            template: "at_soil_sample[FF]",
            published: true,
            why: "nothing adds one",
            lasting: accepted("0", &["sample_soil: irrelevant irrelevant"]),
            at_once: accepted("0", &["sample_soil: irrelevant"]),
        },
        Case {
            // Differs from the published answer: two rovers may sample the same soil, as
            // `published_and_yet_no_invariants` plays it.
            template: "at_soil_sample[0], have_soil_analysis[FF,0]",
            published: true,
            why: "the sample is taken away only at the end, so the start excuses nothing; at once it is an exchange",
            lasting: refused(
                "42 sample_soil 0 1",
                &["sample_soil: irrelevant unbounded", "communicate_soil_data: irrelevant irrelevant"],
                &["at 0 2", "have_soil_analysis 3 2"],
            ),
            at_once: accepted("0", &["sample_soil: balanced", "communicate_soil_data: irrelevant"]),
        },
        Case {
            // Differs from the published answer, for the same reason.
            template: "at_rock_sample[0], have_rock_analysis[FF,0]",
            published: true,
            why: "the sample is taken away only at the end, so the start excuses nothing; at once it is an exchange",
            lasting: refused(
                "42 sample_rock 0 1",
                &["sample_rock: irrelevant unbounded", "communicate_rock_data: irrelevant irrelevant"],
                &["at 0 2", "have_rock_analysis 3 2"],
            ),
            at_once: accepted("0", &["sample_rock: balanced", "communicate_rock_data: irrelevant"]),
        },
        Case {
            // Differs from the published answer, for the same reason: both rovers fill their stores.
            template: "at_rock_sample[FF], at_soil_sample[FF], full[FF]",
            published: true,
            why: "a store gets full at the end of sampling, and the start takes no sample away",
            lasting: refused(
                "42 sample_soil 0 1",
                &["sample_soil, sample_rock: irrelevant unbounded", "drop: irrelevant irrelevant"],
                &["at 0 2", "at_rock_sample 3"],
            ),
            at_once: accepted("0", &["sample_soil, sample_rock: balanced", "drop: irrelevant"]),
        },
        Case {
            // Example 19 of source 000 finds that it isn't an invariant, too.
            template: "full[0], empty[0]",
            published: false,
            why: "drop needs full only at its start: its end is bounded, and may come while sampling is on its way",
            lasting: refused(
                "43 drop 0 1",
                &["sample_soil, sample_rock: irrelevant unbounded", "drop: irrelevant bounded"],
                &[],
            ),
            at_once: accepted("0", &["sample_soil, sample_rock, drop: balanced"]),
        },
    ];
    check("rovers", ROVERS, 8, &cases);
}

/// "adding an over all condition": Example 19 of source 000 goes on to a drop that needs full all the time, and finds
/// that the template is an invariant then. Here an over-all condition ends just before the end, so full must be a condition
/// of the end.
#[test]
fn rovers_mended() {
    let drop = "lasting drop(rover, store)\n";
    let over_all = ROVERS.replace(drop, &format!("{drop}    all true full(store)\n"));
    let at_end = ROVERS.replace(drop, &format!("{drop}    end true full(store)\n"));
    assert!(over_all != ROVERS && at_end != ROVERS);
    let template = "full[0], empty[0]";
    let not_mended = Case {
        template,
        published: false,
        why: "the end of drop has no condition of its own, so it stays bounded beside two journeys",
        lasting: refused(
            "43 drop 0 1",
            &["sample_soil, sample_rock: irrelevant unbounded", "drop: irrelevant bounded"],
            &[],
        ),
        at_once: accepted("0", &["sample_soil, sample_rock, drop: balanced"]),
    };
    check("rovers, full over all", &over_all, 0, &[not_mended]);
    let mended = Case {
        template,
        published: false,
        why: "the end of drop takes full, which holds, for empty",
        lasting: accepted("1", &["sample_soil, sample_rock: irrelevant unbounded", "drop: irrelevant balanced"]),
        at_once: accepted("0", &["sample_soil, sample_rock, drop: balanced"]),
    };
    check("rovers, full at the end", &at_end, 0, &[mended]);
}

/// Runs that start with weight 1 and reach 2, for the templates that the paper refuses although they are published, and
/// for the one of Example 19.
#[test]
fn published_and_yet_no_invariants() {
    let (rovers, depots) = (Named::read(ROVERS), Named::read(DEPOTS));
    for (domain, template, told) in [
        (&rovers, "at_soil_sample[0], have_soil_analysis[FF,0]", rovers_sampling("soil")),
        (&rovers, "at_rock_sample[0], have_rock_analysis[FF,0]", rovers_sampling("rock")),
        (&rovers, "at_rock_sample[FF], at_soil_sample[FF], full[FF]", rovers_sampling("soil")),
        (&rovers, "full[0], empty[0]", rovers_dropping()),
        (&depots, "clear[FF]", depots_dropping_twice()),
        (&depots, "clear[0], in[0,FF], on[FF,0], lifting[FF,0]", depots_dropping_twice()),
        (&depots, "in[0,FF], on[0,FF], lifting[FF,0]", depots_dropping_and_loading()),
        (&depots, "in[0,FF], at[0,FF], lifting[FF,0]", depots_dropping_and_loading()),
    ] {
        let file = domain.with(template).file();
        let (facts, steps) = (told.facts(), told.events());
        for (steps, weight) in [(&[][..], 1), (&steps[..], 2)] {
            let played = played(template, &file, &domain.run(7, &facts, steps));
            assert_eq!((played.steps, played.weight), (steps.len() as u64, weight), "{template}");
        }
    }
}
