//! How many rows and facts `goadlotus::judge_file` and `play_files` tell: just as many as the library asks room for, and as the
//! model writes.

use generate::Case;
use goadlotus::{judge, judge_file, play, play_files, Number, FACT, REPORT, ROW, WITNESS, WORK};

const SEEDS: u64 = 20_000;

/// The room for report and witness that this file needs: one byte less is refused.
fn room_is_exact(file: &[u8], report: usize, witness: usize) {
    let number = |report, witness| judge(file, &mut vec![0; report], &mut vec![0; witness]).number;
    assert_eq!(number(report, witness), number(REPORT, WITNESS));
    if report > 0 {
        assert_eq!(number(report - 1, WITNESS), Number::ReportTooSmall.value());
    }
    if witness > 0 {
        assert_eq!(number(report, witness - 1), Number::WitnessTooSmall.value());
    }
}

#[test]
fn judged() {
    let (mut rows, mut facts) = (0, 0);
    for seed in 0..SEEDS {
        let Case::Judge { domain, .. } = generate::case(seed) else { continue };
        let judged = judge_file(&domain);
        room_is_exact(&domain, judged.rows().len() * ROW, judged.facts().len() * FACT);
        // the bytes are those of a call in memory that held something else
        let (mut report, mut witness) = (vec![0xAA; REPORT], vec![0xAA; WITNESS]);
        assert_eq!(judge(&domain, &mut report, &mut witness), judged.answer);
        assert_eq!(judged.report(), &report[..judged.report().len()], "seed {seed}");
        assert_eq!(judged.witness(), &witness[..judged.witness().len()], "seed {seed}");
        let again = judged.rows().flat_map(|row| [row.action, row.class, row.moment as u8, row.name as u8]);
        assert!(again.eq(report[..judged.report().len()].iter().copied()), "seed {seed}");
        rows += judged.rows().len();
        facts += judged.facts().len();
    }
    assert!(rows > 100_000 && facts > 5_000, "only {rows} rows and {facts} facts were met");
}

#[test]
fn played() {
    let mut facts = 0;
    for seed in 0..SEEDS {
        let Case::Play { domain, run, .. } = generate::case(seed) else { continue };
        let played = play_files(&domain, &run);
        let mut work = vec![0xAA; WORK];
        let answer = play(&domain, &run, &mut work);
        assert_eq!(answer, played.answer);
        let mut held = Vec::new();
        for fact in played.facts() {
            let mut bytes = [0xFF; FACT];
            (bytes[0], bytes[1]) = (fact.relation, fact.objects.len() as u8);
            bytes[2..2 + fact.objects.len()].copy_from_slice(fact.objects);
            held.extend(bytes);
        }
        facts += played.facts().len();
        // zeros behind the facts, unless nothing is written
        if work[0] == 0xAA {
            assert!(held.is_empty(), "seed {seed}");
            continue;
        }
        held.resize(WORK, 0);
        assert_eq!(held, work, "seed {seed}");
    }
    assert!(facts > 10_000, "only {facts} facts were met");
}
