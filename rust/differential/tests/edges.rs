//! Every line of cases/edges.txt against the library, as the file tells it and not as the model does; then each of its
//! files at every length and every cut against the model. Each call is made twice, the second time in memory of just the
//! lengths lent, for valgrind.

use differential::judging::{compare, expect, expect_at_all_lengths, Judgement};
use differential::memory::{after, pattern};
use differential::playing::{self, Played, WORK};
use differential::serving::{self, Service, TEMPLATES, TOTALS, TRY};
use differential::tracking::{self, Tracked};
use differential::{edges, exact};

const JUDGES: [fn(&[u8], &mut [u8], &mut [u8]) -> Judgement; 2] = [goadlotus::judge, exact::judge];
const PLAYERS: [fn(&[u8], &[u8], &mut [u8]) -> Played; 2] = [playing::library, exact::play];

#[test]
fn every_judge_line() {
    let lines = edges::judge_lines();
    for edge in &lines {
        let name = format!("line {}, {}", edge.line, edge.name);
        for judge in JUDGES {
            expect(judge, &name, &edge.file, (edge.report_lent, edge.witness_lent), &edge.told);
            if ![30, 31].contains(&edge.told.answer[0]) {
                expect_at_all_lengths(judge, &name, &edge.file, &edge.told);
            }
        }
    }
    println!("edges.txt: {} judge lines run", lines.len());
    assert!(!lines.is_empty());
}

#[test]
fn every_length_and_every_cut() {
    let mut cases = 0;
    for edge in edges::judge_lines() {
        let (report, witness) = generate::room(&edge.file);
        let mut run = |file: &[u8], lent: (usize, usize)| {
            for judge in JUDGES {
                if let Err(text) = compare(judge, file, lent, cases) {
                    panic!("line {}, {}\n{text}", edge.line, edge.name);
                }
            }
            cases += 1;
        };
        if report <= 64 {
            for r in 0..=report + 5 {
                for w in (0..=witness.min(24) + 9).chain([witness, witness + 1]) {
                    run(&edge.file, (r, w));
                }
            }
        }
        if edge.file.len() <= 2_000 {
            for cut in 0..edge.file.len() {
                run(&edge.file[..cut], (report, witness));
            }
        }
    }
    println!("{cases} cases");
}

#[test]
fn every_play_line() {
    let lines = edges::play_lines();
    for edge in &lines {
        let name = format!("line {}, {}", edge.line, edge.name);
        // As told, and where work memory suffices with more of it, which stays untouched.
        let more = if edge.work_lent >= WORK { edge.work_lent + 1_000 } else { edge.work_lent };
        for lent in [edge.work_lent, more] {
            for player in PLAYERS {
                playing::expect(player, &name, &edge.domain, &edge.run, lent, &edge.told);
            }
        }
    }
    println!("edges.txt: {} play lines run", lines.len());
    assert!(!lines.is_empty());
}

#[test]
fn every_track_line() {
    let lines = edges::track_lines();
    for (salt, edge) in lines.iter().enumerate() {
        let play = &edge.play;
        let name = format!("line {}, {}", play.line, play.name);
        for player in [tracking::library, exact::track] {
            let mut work = pattern(play.work_lent);
            let got = player(&play.domain, &play.run, &edge.instance, &mut work);
            assert_eq!(got, Tracked { played: play.told.played, total: edge.total }, "{name}");
            assert!(work == after(play.work_lent, &play.told.work), "{name}: work memory");
            // other instances, and every cut of the run
            let objects = [&[][..], &[0], &[1], &[2], &[64], &[0, 0], &[0, 1], &[1, 1], &[0, 1, 2]];
            for instance in objects {
                if let Err(text) = tracking::compare(player, (&play.domain, &play.run, instance), WORK, salt) {
                    panic!("{name}\n{text}");
                }
            }
            for cut in 0..play.run.len() {
                let files = (&play.domain[..], &play.run[..cut], &edge.instance[..]);
                if let Err(text) = tracking::compare(player, files, WORK, salt) {
                    panic!("{name}, cut at {cut}\n{text}");
                }
            }
        }
    }
    println!("edges.txt: {} track lines run", lines.len());
    assert!(!lines.is_empty());
}

/// "M12: M1 with at(0,1), start lend(0,1,2), then move(0,1,3): 55, 1 step, weight 1." The second step's close stands
/// behind 34 bytes, and lend's start leaves no fact.
#[test]
fn the_papers_m12() {
    let m1 = "0100010002 0100010002 020002000300 0400030000000001 0400030002000002 0400030003000001 \
              020002000301 0400030000000001 0400030003000001 0400030008010002 \
              03000400 0000FF 03000400 0100FF 00000500";
    let run = "0100100004 03001100000001 050012000001000102 00001300 050012000000000103 00001300 00001400";
    let [m1, run] = [m1, run].map(|text| edges::bytes(&text.replace(' ', "")).expect("hexadecimal"));
    let (file, at) = (model::Source::Run, 34);
    let played = Played { number: 55, place: 34, steps: 1, weight: 1, file, at, length: run.len() - at };
    for player in PLAYERS {
        playing::expect(player, "M12", &m1, &run, WORK, &playing::Told { played, work: vec![0; WORK] });
    }
}

#[test]
fn every_work_length_every_cut_and_every_flip_of_a_run() {
    let mut cases = 0;
    for edge in edges::play_lines() {
        let mut run = |domain: &[u8], run: &[u8], work: usize| {
            for player in PLAYERS {
                if let Err(text) = playing::compare(player, domain, run, work, cases) {
                    panic!("line {}, {}\n{text}", edge.line, edge.name);
                }
            }
            cases += 1;
        };
        for work in [0, 1, 8, WORK - 8, WORK - 1, WORK, WORK + 1, WORK + 8] {
            run(&edge.domain, &edge.run, work);
        }
        for cut in 0..edge.run.len() {
            run(&edge.domain, &edge.run[..cut], WORK);
        }
        let mut flipped = edge.run.clone();
        for bit in 0..8 * edge.run.len().min(200) {
            flipped[bit / 8] ^= 1 << (bit % 8);
            run(&edge.domain, &flipped, WORK);
            flipped[bit / 8] ^= 1 << (bit % 8);
        }
        // A cut of the domain file is refused before the run file is looked at.
        for cut in (0..edge.domain.len()).step_by(7) {
            run(&edge.domain[..cut], &edge.run, WORK);
        }
    }
    println!("{cases} cases");
}

/// The lines of a service, in memory of every length, and cut everywhere.
fn every_line(kind: &str, service: Service) {
    let lines = edges::service_lines(kind);
    for (salt, edge) in lines.iter().enumerate() {
        let name = format!("line {}, {}", edge.line, edge.name);
        let exactly = |file: &[u8], memory: &mut [u8]| exact::serve(service, file, memory);
        serving::expect(service.library, &name, &edge.file, edge.lent, edge.served, &edge.written);
        serving::expect(exactly, &name, &edge.file, edge.lent, edge.served, &edge.written);
        for lent in 0..=edge.written.len() + 9 {
            if let Err(text) = service.compare(exactly, &edge.file, lent, salt) {
                panic!("{name}\n{text}");
            }
        }
        for cut in 0..edge.file.len() {
            if let Err(text) = service.compare(exactly, &edge.file[..cut], edge.lent, salt) {
                panic!("{name}, cut at {cut}\n{text}");
            }
        }
    }
    println!("edges.txt: {} {kind} lines run", lines.len());
    assert!(!lines.is_empty());
}

#[test]
fn every_templates_line() {
    every_line("templates", TEMPLATES);
}

#[test]
fn every_try_line() {
    every_line("try", TRY);
}

#[test]
fn every_totals_line() {
    every_line("totals", TOTALS);
}
