//! What the programs print.

use crate::classes::Name;
use crate::player::{Played, Source, WORK};
use crate::verdict::{judge, Answer};

/// "The listing program reads them on standard input and prints the verdict with its three places,
/// then each row (9 to 31 print the first line alone)"
pub fn listing(file: &[u8]) -> String {
    let mut report = vec![0; REPORT];
    let mut witness = vec![0; WITNESS];
    let answer = judge(file, &mut report, &mut witness);
    verdict_text(answer, &report)
}

/// Room for every moment of every class of a well-formed file (64 x 64 x 2).
pub const REPORT: usize = 64 * 64 * 2 * 4;
/// Room for every fact of a witness (64 conditions and one more).
pub const WITNESS: usize = 65 * 8;

/// A verdict with its places, and its rows from a report that was zeros before.
pub fn verdict_text(answer: Answer, report: &[u8]) -> String {
    let mut text = format!("verdict {} {} {} {}\n", answer.number, answer.first, answer.second, answer.third);
    if (9..=31).contains(&answer.number) {
        return text;
    }
    const NAMES: [Name; 7] = [
        Name::Unreachable,
        Name::Irrelevant,
        Name::Heavy,
        Name::Balanced,
        Name::Unbalanced,
        Name::Bounded,
        Name::Unbounded,
    ];
    // A name number is never 0, so the rows end at the first 0.
    for row in report.chunks_exact(4).take_while(|row| row[3] != 0) {
        let name = NAMES[row[3] as usize - 1].text();
        text += &format!("row {} {} {} {}\n", row[0], row[1], row[2], name);
    }
    text
}

/// What playing comes to: its numbers, the facts in work memory that was zeros before, and the record at fault.
pub fn played_text(played: Played, work: &[u8]) -> String {
    let mut text = format!("played {} {} {} {}\n", played.number, played.first, played.steps, played.weight);
    for fact in work[..WORK].chunks_exact(8).take_while(|fact| fact.iter().any(|&byte| byte != 0)) {
        text += &format!("fact {}", fact[0]);
        for object in &fact[2..2 + fact[1] as usize] {
            text += &format!(" {object}");
        }
        text += "\n";
    }
    let file = match played.part.file {
        Source::Domain => "domain",
        Source::Run => "run",
    };
    // With 2 no record is at fault, and 58 doesn't come: WORK bytes are lent.
    if played.number != 2 {
        text += &format!("fault {file} {}\n", played.part.at);
    }
    text
}
