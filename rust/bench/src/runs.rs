//! The run files that are timed: long ones over one archive, whose volumes are told by two objects each, so that 64
//! objects are enough for about a thousand of them; and short ones, for what a run costs before its first step.

use generate::literature::{Named, ROVERS};
use generate::records::{encode, rec, Rec};
use generate::rng::Rng;

const ARCHIVE: &str = "
relation stands/3
relation lent/3
relation present/1
relation closed/1

at once move(left, right, from, to)
    true stands(left, right, from)
    add stands(left, right, to)
    delete stands(left, right, from)

lasting lend(left, right, from, reader)
    start true stands(left, right, from)
    start delete stands(left, right, from)
    all true present(reader)
    all false closed(left)
    end add lent(left, right, reader)

lasting give-back(left, right, reader, to)
    start true lent(left, right, reader)
    start delete lent(left, right, reader)
    all true present(reader)
    end add stands(left, right, to)
";

/// The same move with the volume struck from every shelf: a delete that clears. It comes behind the others, so that they keep
/// their numbers.
const PUTTING: &str = "
at once put(left, right, from, to)
    true stands(left, right, from)
    add stands(left, right, to)
    delete stands(left, right, *)
";

const TEMPLATE: &str = "stands[0,1,FF], lent[0,1,FF]";

const STANDS: u8 = 0;
const PRESENT: u8 = 2;
const MOVE: u8 = 0;
const LEND: u8 = 1;
const GIVE_BACK: u8 = 2;
const PUT: u8 = 3;

/// The events of a full step, and half the objects: the first half is shelves, the second readers.
const FULL: usize = 16;
const HALF: usize = 32;

pub fn archive() -> Vec<u8> {
    Named::read(ARCHIVE).with(TEMPLATE).file()
}

/// The archive with an action that clears.
pub fn clearing_archive() -> Vec<u8> {
    Named::read(&format!("{ARCHIVE}{PUTTING}")).with(TEMPLATE).file()
}

/// The instance that is tracked: the two objects of volume 0.
pub const FIRST_VOLUME: [u8; 2] = [0, HALF as u8];

/// A volume's two objects.
fn volume(number: usize) -> [u8; 2] {
    [(number / HALF) as u8, (HALF + number % HALF) as u8]
}

/// Shelves that aren't the volume's first object, and a reader that isn't its second.
fn shelf(number: usize, which: usize) -> u8 {
    ((number / HALF + 1 + which) % HALF) as u8
}

fn reader(number: usize) -> u8 {
    (HALF + (number + 1) % HALF) as u8
}

/// 64 objects, and so many volumes, each on its first shelf.
fn start(volumes: usize) -> Vec<Rec> {
    let mut records = vec![rec(16, [64])];
    for number in 0..volumes {
        let [left, right] = volume(number);
        records.push(rec(17, [STANDS, left, right, shelf(number, 0)]));
    }
    records
}

fn event(moment: u8, action: u8, number: usize, first: u8, second: u8) -> Rec {
    let [left, right] = volume(number);
    rec(18, [moment, action, left, right, first, second])
}

fn close(mut records: Vec<Rec>) -> Vec<u8> {
    records.push(rec(20, []));
    encode(&records)
}

/// So many volumes, and so many steps of so many events, each moving a volume to its next shelf.
pub fn moves(volumes: usize, steps: usize, events: usize) -> Vec<u8> {
    let mut records = start(volumes);
    for step in 0..steps {
        for moved in step * events..(step + 1) * events {
            let (number, times) = (moved % volumes, moved / volumes);
            records.push(event(0, MOVE, number, shelf(number, times), shelf(number, times + 1)));
        }
        records.push(rec(19, []));
    }
    close(records)
}

/// Steps of one event over 1,000 facts.
pub fn single_events(steps: usize) -> Vec<u8> {
    moves(1_000, steps, 1)
}

/// The same with volumes that are drawn, so that what is deleted stands anywhere among the facts; the same ones for both.
fn drawn(action: u8, steps: usize) -> Vec<u8> {
    const VOLUMES: usize = 1_000;
    let mut records = start(VOLUMES);
    let (mut rng, mut times) = (Rng::new(4), [0; VOLUMES]);
    for _ in 0..steps {
        let number = rng.below(VOLUMES);
        records.push(event(0, action, number, shelf(number, times[number]), shelf(number, times[number] + 1)));
        records.push(rec(19, []));
        times[number] += 1;
    }
    close(records)
}

/// One plain delete a step.
pub fn plain_events(steps: usize) -> Vec<u8> {
    drawn(MOVE, steps)
}

/// One clearing delete a step, which strikes the same fact.
pub fn clearing_events(steps: usize) -> Vec<u8> {
    drawn(PUT, steps)
}

/// Steps of 16 events over 1,000 facts.
pub fn full_steps(steps: usize) -> Vec<u8> {
    moves(1_000, steps, FULL)
}

/// 960 volumes, all readers present.
const LENDING: usize = 960;

fn lending_start() -> Vec<Rec> {
    let mut records = start(LENDING);
    records.extend((HALF..2 * HALF).map(|reader| rec(17, [PRESENT, reader as u8])));
    records
}

/// A full step of starts or ends for 16 volumes from this one on.
fn full_step(records: &mut Vec<Rec>, moment: u8, action: u8, first: usize) {
    for number in first..first + FULL {
        let (reader, shelf) = (reader(number), shelf(number, 0));
        records.push(match action {
            LEND => event(moment, LEND, number, shelf, reader),
            _ => event(moment, action, number, reader, shelf),
        });
    }
    records.push(rec(19, []));
}

/// Two steps that leave 32 lasting actions open, then so many without events.
pub fn empty_steps(steps: usize) -> Vec<u8> {
    let mut records = lending_start();
    for first in [0, FULL] {
        full_step(&mut records, 0, LEND, first);
    }
    records.extend((0..steps).map(|_| rec(19, [])));
    close(records)
}

/// Full steps that lend volumes and give them back, until the file has so many bytes.
pub fn lending(bytes: usize) -> Vec<u8> {
    let mut records = lending_start();
    let step = FULL * event(0, LEND, 0, 0, 0).payload.len() + FULL * 4 + 4;
    let begun = encode(&records).len() + 4;
    let rounds = bytes.saturating_sub(begun).div_ceil(4 * step);
    for round in 0..rounds {
        let first = round * FULL % LENDING;
        for action in [LEND, GIVE_BACK] {
            full_step(&mut records, 0, action, first);
            full_step(&mut records, 1, action, first);
        }
    }
    close(records)
}

/// The paper's M12, a run of M1: at(0,1), start lend(0,1,2), then move(0,1,3), which is refused.
pub fn m12() -> Vec<u8> {
    let step = |event: [u8; 5]| [rec(18, event), rec(19, [])];
    let mut records = vec![rec(16, [4]), rec(17, [0, 0, 1])];
    records.extend(step([0, 1, 0, 1, 2]));
    records.extend(step([0, 0, 0, 1, 3]));
    close(records)
}

/// A rover goes to and fro between two waypoints: 20 steps on Rovers.
pub fn rovers_20() -> Vec<u8> {
    const TRIPS: usize = 5;
    let facts = ["available 0", "at 0 1", "visible 1 2", "visible 2 1", "can_traverse 0 1 2", "can_traverse 0 2 1"];
    let there_and_back = ["start navigate 0 1 2", "end navigate 0 1 2", "start navigate 0 2 1", "end navigate 0 2 1"];
    encode(&Named::read(ROVERS).run(3, &facts, &[there_and_back; TRIPS].concat()))
}

#[cfg(test)]
mod tests {
    use super::*;
    use model::{play, WORK};

    /// All are played to their end over an accepted template, with the steps and facts that their names tell.
    #[test]
    fn all_are_played() {
        let (archive, clearing) = (archive(), clearing_archive());
        for (domain, run, steps, facts) in [
            (&archive, single_events(5_000), 5_000, 1_000),
            (&clearing, plain_events(5_000), 5_000, 1_000),
            (&clearing, clearing_events(5_000), 5_000, 1_000),
            (&archive, full_steps(1_000), 1_000, 1_000),
            (&archive, empty_steps(10_000), 10_002, 960 - 32 + 32),
            (&archive, lending(1_000_000), 4 * 1_513, 960 + 32),
        ] {
            assert_eq!(model::judge(domain, &mut [0; 64], &mut []).number, 1);
            let mut work = [0; WORK];
            let played = play(domain, &run, &mut work);
            assert_eq!((played.number, played.steps, played.weight), (2, steps, 1));
            let held = work.chunks_exact(8).filter(|fact| fact[7] == 0xFF).count();
            assert_eq!(held, facts);
        }
        assert!((1_000_000..1_001_000).contains(&lending(1_000_000).len()));
    }

    /// The volume that is tracked is somewhere, or on its way, at the end of each run.
    #[test]
    fn the_first_volume_is_not_lost() {
        let domain = archive();
        for run in [single_events(5_000), empty_steps(10_000), lending(1_000_000)] {
            let tracked = model::track(&domain, &run, &FIRST_VOLUME, &mut [0; WORK]);
            assert_eq!((tracked.played.number, tracked.total), (2, 1));
        }
    }

    /// A clearing step leaves what the plain one leaves, and what it strikes stands anywhere among the facts.
    #[test]
    fn clearing_is_fair() {
        let domain = clearing_archive();
        let [plain, clearing] = [plain_events(5_000), clearing_events(5_000)].map(|run| {
            let mut work = [0; WORK];
            play(&domain, &run, &mut work);
            work
        });
        assert!(plain == clearing);
        // a volume that is never drawn again stays among the first: some of the first hundred are unmoved, many are not
        let unmoved = plain.chunks_exact(8).take(100).filter(|fact| fact[4] == fact[2] % 32 + 1).count();
        assert!((1..100).contains(&unmoved), "{unmoved}");
    }

    /// The short ones: M12 comes to what the paper says, and the rover is where it began.
    #[test]
    fn short_ones_are_played() {
        let mut work = [0; WORK];
        let played = play(&crate::files::m1(), &m12(), &mut work);
        assert_eq!((played.number, played.first, played.steps, played.weight), (55, 34, 1, 1));
        let rovers = crate::files::rovers();
        assert_eq!(rovers.len(), 771);
        let played = play(&rovers, &rovers_20(), &mut work);
        assert_eq!((played.number, played.steps, played.weight), (2, 20, 1));
        assert!(work.chunks_exact(8).any(|fact| fact[..4] == [0, 2, 0, 1]));
    }
}
