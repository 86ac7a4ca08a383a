//! The library, each slice lent as an allocation of just its length, so that valgrind tells of every byte beside it that
//! is read or written. Guards would hide that, since they are memory like any other.

use crate::judging::Judgement;
use crate::playing::{self, Played};
use crate::serving::{Served, Service};
use crate::tracking::{self, Tracked};

/// `goadlotus::judge` in such memory.
pub fn judge(file: &[u8], report: &mut [u8], witness: &mut [u8]) -> Judgement {
    let file = alone(file);
    let (mut own_report, mut own_witness) = (alone(report), alone(witness));
    let judgement = goadlotus::judge(&file, &mut own_report, &mut own_witness);
    report.copy_from_slice(&own_report);
    witness.copy_from_slice(&own_witness);
    judgement
}

/// `playing::library` in such memory.
pub fn play(domain: &[u8], run: &[u8], work: &mut [u8]) -> Played {
    let (domain, run) = (alone(domain), alone(run));
    let mut own_work = alone(work);
    let played = playing::library(&domain, &run, &mut own_work);
    work.copy_from_slice(&own_work);
    played
}

/// `tracking::library` in such memory.
pub fn track(domain: &[u8], run: &[u8], instance: &[u8], work: &mut [u8]) -> Tracked {
    let (domain, run, instance) = (alone(domain), alone(run), alone(instance));
    let mut own_work = alone(work);
    let tracked = tracking::library(&domain, &run, &instance, &mut own_work);
    work.copy_from_slice(&own_work);
    tracked
}

/// A service in such memory.
pub fn serve(service: Service, file: &[u8], memory: &mut [u8]) -> Served {
    let file = alone(file);
    let mut own = alone(memory);
    let served = (service.library)(&file, &mut own);
    memory.copy_from_slice(&own);
    served
}

/// A copy with nothing of its allocation before or behind it.
fn alone(bytes: &[u8]) -> Box<[u8]> {
    bytes.into()
}
