//! The comparison itself: judges that are wrong in one thing each must be caught by it.

use differential::judging::{model, run, Judge, Judgement, NUMBERS};
use generate::plain_judge::{self, Misjudge, MISJUDGEMENTS};
use model::domain::Fact;

const FIRST: u64 = 1;
const FILES: u64 = 3_000;

#[track_caller]
fn caught(judge: impl Judge) {
    match run(judge, FIRST, FILES) {
        Ok(counts) => panic!("not caught in {} cases", counts.cases),
        Err(text) => assert!(text.contains("DIFFERENT") && text.contains("seed "), "{text}"),
    }
}

/// The model's answer, changed where it is this number.
fn changed(number: u64, change: impl Fn(&mut Judgement) + Sync) -> impl Judge {
    move |file: &[u8], report: &mut [u8], witness: &mut [u8]| {
        let mut answer = model(file, report, witness);
        if answer.number == number {
            change(&mut answer);
        }
        answer
    }
}

#[test]
fn the_model_itself_passes() {
    assert!(run(model, FIRST, 500).is_ok());
}

#[test]
fn a_wrong_number() {
    for number in NUMBERS {
        caught(changed(number, |answer| answer.number ^= 1));
    }
}

#[test]
fn a_wrong_place() {
    for number in NUMBERS {
        caught(changed(number, |answer| answer.first = u64::MAX));
        caught(changed(number, |answer| answer.second = u64::MAX));
        caught(changed(number, |answer| answer.third = u64::MAX));
    }
    caught(|file: &[u8], report: &mut [u8], witness: &mut [u8]| Judgement { third: 0, ..model(file, report, witness) });
}

/// Exactly the room needed must do.
#[test]
fn one_byte_more_demanded() {
    caught(|file: &[u8], report: &mut [u8], witness: &mut [u8]| {
        let end = report.len().saturating_sub(1);
        model(file, &mut report[..end], witness)
    });
    caught(|file: &[u8], report: &mut [u8], witness: &mut [u8]| {
        let end = witness.len().saturating_sub(1);
        model(file, report, &mut witness[..end])
    });
}

/// One byte short must not do.
#[test]
fn one_byte_less_demanded() {
    caught(|file: &[u8], report: &mut [u8], witness: &mut [u8]| {
        let mut memory = [&*report, &[0]].concat();
        let answer = model(file, &mut memory, witness);
        report.copy_from_slice(&memory[..report.len()]);
        answer
    });
    caught(|file: &[u8], report: &mut [u8], witness: &mut [u8]| {
        let mut memory = [&*witness, &[0]].concat();
        let answer = model(file, report, &mut memory);
        witness.copy_from_slice(&memory[..witness.len()]);
        answer
    });
}

/// 30 comes before 31.
#[test]
fn the_witness_first() {
    caught(|file: &[u8], report: &mut [u8], witness: &mut [u8]| {
        let mut answer = model(file, report, witness);
        if answer.number == 30 && witness.len() < generate::room(file).1 {
            answer.number = 31;
        }
        answer
    });
}

/// 31 writes nothing.
#[test]
fn the_report_filled_under_31() {
    caught(|file: &[u8], report: &mut [u8], witness: &mut [u8]| {
        let answer = model(file, report, witness);
        if answer.number == 31 {
            model(file, report, &mut [0; 520]);
        }
        answer
    });
}

/// A refused file writes nothing.
#[test]
fn a_byte_written_by_a_refusal() {
    for number in (9..=27).chain([30, 31]) {
        caught(move |file: &[u8], report: &mut [u8], witness: &mut [u8]| {
            let answer = model(file, report, witness);
            if answer.number == number {
                if let Some(last) = report.last_mut() {
                    *last = !*last;
                }
            }
            answer
        });
    }
}

/// Bytes beyond what is written stay as they were.
#[test]
fn the_rest_cleared() {
    caught(|file: &[u8], report: &mut [u8], witness: &mut [u8]| {
        let answer = model(file, report, witness);
        if !(9..=31).contains(&answer.number) {
            report[generate::room(file).0..].fill(0);
        }
        answer
    });
    caught(|file: &[u8], report: &mut [u8], witness: &mut [u8]| {
        let answer = model(file, report, witness);
        if !(9..=31).contains(&answer.number) {
            witness[generate::room(file).1..].fill(0);
        }
        answer
    });
}

/// A witness in another order, or with another fill.
#[test]
fn a_wrong_witness() {
    for number in [40, 41, 42] {
        caught(move |file: &[u8], report: &mut [u8], witness: &mut [u8]| {
            let answer = model(file, report, witness);
            let facts = &mut witness[..if answer.number == number { generate::room(file).1 } else { 0 }];
            if facts.len() >= 16 {
                let (first, second) = facts.split_at_mut(8);
                first.swap_with_slice(&mut second[..8]);
            }
            answer
        });
        caught(move |file: &[u8], report: &mut [u8], witness: &mut [u8]| {
            let answer = model(file, report, witness);
            if answer.number == number && generate::room(file).1 > 0 && witness[1] < 6 {
                witness[7] = 0;
            }
            answer
        });
    }
}

/// A name that is always the same, or wrong for one row.
#[test]
fn a_wrong_name() {
    caught(|file: &[u8], report: &mut [u8], witness: &mut [u8]| {
        let answer = model(file, report, witness);
        if !(9..=31).contains(&answer.number) {
            for row in report[..generate::room(file).0].chunks_exact_mut(4) {
                row[3] = 2;
            }
        }
        answer
    });
    for name in 1..=7 {
        caught(move |file: &[u8], report: &mut [u8], witness: &mut [u8]| {
            let answer = model(file, report, witness);
            if !(9..=31).contains(&answer.number) {
                let last = report[..generate::room(file).0].chunks_exact_mut(4).next_back();
                if let Some([.., of_row]) = last.filter(|row| row[3] == name) {
                    *of_row = name % 7 + 1;
                }
            }
            answer
        });
    }
}

/// The plain judge with one sentence misread, wherever a file is well-formed.
fn misjudging(misread: Option<Misjudge>) -> impl Judge {
    move |file: &[u8], report: &mut [u8], witness: &mut [u8]| {
        let Ok(domain) = model::read(file) else { return model(file, report, witness) };
        let judged = plain_judge::judge(&domain, misread);
        let (rows, facts) = (judged.rows.concat(), judged.witness.iter().flat_map(Fact::bytes).collect::<Vec<u8>>());
        let nothing = |number| Judgement { number, first: 0, second: 0, third: 0 };
        if report.len() < rows.len() {
            return nothing(30);
        }
        if witness.len() < facts.len() {
            return nothing(31);
        }
        report[..rows.len()].copy_from_slice(&rows);
        witness[..facts.len()].copy_from_slice(&facts);
        let [first, second, third] = judged.places.map(u64::from);
        Judgement { number: judged.number.into(), first, second, third }
    }
}

#[test]
fn the_plain_judge_passes() {
    if let Err(text) = run(misjudging(None), FIRST, FILES) {
        panic!("{text}");
    }
}

#[test]
fn every_misjudgement() {
    for misread in MISJUDGEMENTS {
        caught(misjudging(Some(misread)));
    }
}
