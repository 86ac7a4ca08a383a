//! The folder samples/ at the repository's root: every file that belongs to it, and the texts that the programs `list`
//! and `play` print, from the answers of a judge and a player.

use crate::judging::Judge;
use crate::playing::Play;
use generate::records::{encode, rec, split, Rec};
use generate::samples;
use model::listing::{played_text, verdict_text, REPORT, WITNESS};
use model::{Answer, Part, Played, WORK};
use std::collections::BTreeMap;
use std::path::PathBuf;

/// Files by their names.
pub type Files = BTreeMap<String, Vec<u8>>;

pub fn folder() -> PathBuf {
    PathBuf::from(concat!(env!("CARGO_MANIFEST_DIR"), "/../../samples"))
}

/// What `list` prints for this file, if it asks this judge.
pub fn listed(judge: impl Judge, file: &[u8]) -> String {
    let (mut report, mut witness) = (vec![0; REPORT], vec![0; WITNESS]);
    let answer = judge(file, &mut report, &mut witness);
    let answer = Answer {
        number: answer.number.try_into().expect("a number of one byte"),
        first: answer.first as usize,
        second: answer.second as usize,
        third: answer.third as usize,
    };
    verdict_text(answer, &report)
}

/// What `play` prints for these files, if it asks this player.
pub fn played(player: impl Play, domain: &[u8], run: &[u8]) -> String {
    let mut work = vec![0; WORK];
    let played = player(domain, run, &mut work);
    let played = Played {
        number: played.number.try_into().expect("a number of one byte"),
        first: played.place as usize,
        second: 0,
        third: 0,
        steps: played.steps as usize,
        weight: played.weight.try_into().expect("a weight"),
        part: Part { file: played.file, at: played.at },
    };
    played_text(played, &work)
}

/// A state that a run reaches.
#[derive(Clone, PartialEq, Eq, Debug)]
pub struct State {
    /// The facts held, each its relation and its objects.
    pub facts: Vec<Vec<u8>>,
    /// The highest weight of any instance.
    pub weight: u64,
}

/// The states that a run reaches, the start first. (Playing tells the highest weight of all states: so the facts after
/// each step are played once more, as the start of a run without steps.)
pub fn states(player: impl Play, domain: &[u8], run: &[u8]) -> Vec<State> {
    let records = split(run);
    let closes = records.iter().enumerate().filter(|(_, record)| record.kind == 19).map(|(at, _)| at + 1);
    let start = records.iter().take_while(|record| record.kind < 18).count();
    let mut states = Vec::new();
    for end in [start].into_iter().chain(closes) {
        let mut work = vec![0; WORK];
        let reached = player(domain, &closed(&records[..end]), &mut work);
        if reached.number != 2 {
            break;
        }
        let facts = work.chunks_exact(8).take_while(|fact| fact.iter().any(|&byte| byte != 0));
        let facts: Vec<Vec<u8>> = facts.map(|fact| [&fact[..1], &fact[2..2 + fact[1] as usize]].concat()).collect();
        let start = facts.iter().map(|fact| rec(17, fact.clone()));
        let start: Vec<Rec> = records[..1].iter().cloned().chain(start).collect();
        states.push(State { weight: player(domain, &closed(&start), &mut work).weight, facts });
    }
    states
}

/// The file of these records and the one that closes a run.
fn closed(records: &[Rec]) -> Vec<u8> {
    encode(&[records, &[rec(20, [])]].concat())
}

/// All files of the folder but its page: domains with their listings, runs with their domains' names and what is
/// played.
pub fn files(judge: impl Judge, player: impl Play) -> Files {
    let all = samples::all();
    let mut files = Files::new();
    for domain in &all.domains {
        files.insert(format!("{}.listing", domain.name), listed(&judge, &domain.file).into_bytes());
        files.insert(format!("{}.domain", domain.name), domain.file.clone());
    }
    for run in &all.runs {
        let of = format!("{}.domain", run.of);
        files.insert(format!("{}.played", run.name), played(&player, &files[&of], &run.file).into_bytes());
        files.insert(format!("{}.of", run.name), format!("{of}\n").into_bytes());
        files.insert(format!("{}.run", run.name), run.file.clone());
    }
    files
}
