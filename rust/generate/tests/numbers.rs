//! Counts how often each number of the paper occurs over generated cases, with the model.

use generate::{case, Case};
use model::{judge, play};
use std::collections::BTreeMap;

const CASES: u64 = 20_000;

/// Numbers that must occur, and no others may: the paper's, but for what the requests took away.
const EXPECTED: [u8; 37] = [
    0, 1, 2, 9, 10, 11, 12, 13, 14, 15, 16, 17, 18, 19, 20, 21, 22, 23, 24, 25, 26, 27, 30, 31, 40, 41, 42, 43, 50, 51,
    52, 53, 54, 55, 56, 57, 58,
];

fn pattern(length: usize) -> Vec<u8> {
    (0..length).map(|i| (i * 7 + i / 256 + 0xA5) as u8).collect()
}

#[test]
fn every_number_occurs() {
    let mut judged: BTreeMap<u8, usize> = BTreeMap::new();
    let mut played: BTreeMap<u8, usize> = BTreeMap::new();
    let mut names = [0usize; 8];
    let (mut steps, mut longest, mut kept, mut heaviest) = (0, 0, 0, 0);
    for seed in 0..CASES {
        match case(seed) {
            Case::Judge { domain, report, witness } => {
                let mut report_memory = pattern(report);
                let mut witness_memory = pattern(witness);
                let answer = judge(&domain, &mut report_memory, &mut witness_memory);
                *judged.entry(answer.number).or_default() += 1;
                // Which memory is touched: none by 9 to 31, the witness by 40 to 42 alone.
                let (rows, facts) = generate::room(&domain);
                if (9..=31).contains(&answer.number) {
                    assert!(report_memory == pattern(report) && witness_memory == pattern(witness), "seed {seed}");
                } else {
                    assert!(report_memory[rows..] == pattern(report)[rows..], "seed {seed}");
                    assert!(witness_memory[facts..] == pattern(witness)[facts..], "seed {seed}");
                    for row in report_memory[..rows].chunks_exact(4) {
                        names[row[3] as usize] += 1;
                    }
                }
            }
            Case::Play { domain, run, work } => {
                let mut memory = pattern(work);
                let answer = play(&domain, &run, &mut memory);
                *played.entry(answer.number).or_default() += 1;
                steps += answer.steps;
                longest = longest.max(answer.steps);
                heaviest = heaviest.max(answer.weight);
                if (9..=27).contains(&answer.number) || answer.number == 58 {
                    assert!(memory == pattern(work), "seed {seed}");
                } else {
                    assert!(memory[8_192..] == pattern(work)[8_192..], "seed {seed}");
                    kept += memory[..8_192].chunks_exact(8).filter(|fact| fact[1] > 0).count();
                }
            }
        }
    }
    println!("{CASES} cases");
    println!("number  judged  played");
    for number in 0..=63 {
        let (j, p) = (judged.get(&number).copied().unwrap_or(0), played.get(&number).copied().unwrap_or(0));
        if j + p > 0 || EXPECTED.contains(&number) {
            println!("{number:6} {j:7} {p:7}");
        }
    }
    for (number, name) in
        ["unreachable", "irrelevant", "heavy", "balanced", "unbalanced", "bounded", "unbounded"].iter().enumerate()
    {
        println!("row {name:12} {:7}", names[number + 1]);
    }
    println!("{steps} steps made, {longest} in one run, {kept} facts left, highest weight {heaviest}");

    for number in EXPECTED {
        let count = judged.get(&number).unwrap_or(&0) + played.get(&number).unwrap_or(&0);
        assert!(count > 0, "number {number} is missing");
    }
    for number in judged.keys().chain(played.keys()) {
        assert!(EXPECTED.contains(number), "number {number} isn't one of these");
    }
    // Every verdict and every name occurs often.
    for number in [0, 1, 40, 41, 42, 43] {
        assert!(judged[&number] >= 200, "verdict {number} is rare");
    }
    assert!(names[1..].iter().all(|&count| count >= 500), "a name is rare");
    assert_eq!(names[0], 0);
}

/// The same seed gives the same case.
#[test]
fn a_case_is_told_by_its_seed() {
    for seed in (0..CASES).step_by(97) {
        assert_eq!(case(seed), case(seed));
    }
}
