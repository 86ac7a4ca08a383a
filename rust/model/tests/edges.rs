//! Runs every line of cases/edges.txt, as its first lines explain. A line that doesn't have the form
//! told there fails the test.

use model::{judge, play, track, Served, Source, Tracked};

/// What lent memory holds before a call: no two neighbours alike, and neither all 0 nor all FF.
fn pattern(length: usize) -> Vec<u8> {
    (0..length).map(|i| (i * 7 + i / 256 + 0xA5) as u8).collect()
}

/// Bytes in hexadecimal, '-' for none.
fn bytes(text: &str) -> Vec<u8> {
    if text == "-" {
        return Vec::new();
    }
    assert!(text.len().is_multiple_of(2) && !text.is_empty(), "not hexadecimal: {text:?}");
    let digit = |b: u8| (b as char).to_digit(16).unwrap_or_else(|| panic!("not hexadecimal: {text:?}")) as u8;
    text.as_bytes().chunks_exact(2).map(|pair| digit(pair[0]) << 4 | digit(pair[1])).collect()
}

fn number(text: &str) -> usize {
    text.parse().unwrap_or_else(|_| panic!("not a number: {text:?}"))
}

/// The words of a field, of which there must be so many.
fn words<const N: usize>(text: &str) -> [&str; N] {
    let words: Vec<&str> = text.split(' ').collect();
    words.try_into().unwrap_or_else(|_| panic!("not {N} words: {text:?}"))
}

/// Lent memory after a call: what was written, then the pattern as it was.
fn after(lent: usize, written: &[u8]) -> Vec<u8> {
    let mut memory = pattern(lent);
    memory[..written.len()].copy_from_slice(written);
    memory
}

fn judge_line(fields: &[&str]) {
    let &[_, name, domain, room, answer, report, witness] = fields else { panic!("not 7 fields") };
    let domain = bytes(domain);
    let ["report", report_lent, "witness", witness_lent] = words::<4>(room) else { panic!("room: {room:?}") };
    let (report_lent, witness_lent) = (number(report_lent), number(witness_lent));
    let answer = words::<4>(answer).map(number);
    let (report, witness) = (bytes(report), bytes(witness));

    let mut report_memory = pattern(report_lent);
    let mut witness_memory = pattern(witness_lent);
    let got = judge(&domain, &mut report_memory, &mut witness_memory);
    assert_eq!([got.number as usize, got.first, got.second, got.third], answer, "{name}");
    assert_eq!(report_memory, after(report_lent, &report), "{name}: report");
    assert_eq!(witness_memory, after(witness_lent, &witness), "{name}: witness");

    if answer[0] != 30 && answer[0] != 31 {
        // The decision is the same whatever memory is lent: in exactly the room needed ...
        let mut report_memory = pattern(report.len());
        let mut witness_memory = pattern(witness.len());
        let exact = judge(&domain, &mut report_memory, &mut witness_memory);
        assert_eq!(exact, got, "{name}: exact room");
        assert_eq!((report_memory, witness_memory), (report.clone(), witness.clone()), "{name}: exact room");
        // ... and in one byte less, where 30 comes before 31 and memory stays untouched.
        for (r, w, expected) in
            [(report.len().wrapping_sub(1), witness.len(), 30), (report.len(), witness.len().wrapping_sub(1), 31)]
        {
            if r == usize::MAX || w == usize::MAX {
                continue;
            }
            let mut report_memory = pattern(r);
            let mut witness_memory = pattern(w);
            let short = judge(&domain, &mut report_memory, &mut witness_memory);
            assert_eq!([short.number as usize, short.first, short.second, short.third], [expected, 0, 0, 0], "{name}");
            assert_eq!((report_memory, witness_memory), (pattern(r), pattern(w)), "{name}: short room");
        }
    }
}

fn play_line(fields: &[&str]) {
    let &[_, name, domain, run, room, answer, facts, part] = fields else { panic!("not 8 fields") };
    let without = |domain: &[u8], run: &[u8], work: &mut [u8]| Tracked { played: play(domain, run, work), total: 0 };
    played_line(&[name, domain, run, room, &format!("{answer} 0"), facts, part], without);
}

fn track_line(fields: &[&str]) {
    let &[_, name, domain, run, instance, room, answer, facts, part] = fields else { panic!("not 9 fields") };
    let instance = bytes(instance);
    let with = |domain: &[u8], run: &[u8], work: &mut [u8]| track(domain, run, &instance, work);
    played_line(&[name, domain, run, room, answer, facts, part], with);
}

fn played_line(fields: &[&str; 7], player: impl Fn(&[u8], &[u8], &mut [u8]) -> Tracked) {
    let &[name, domain, run, room, answer, facts, part] = fields;
    let (domain, run) = (bytes(domain), bytes(run));
    let ["work", lent] = words::<2>(room) else { panic!("room: {room:?}") };
    let lent = number(lent);
    let [expected_number, first, steps, weight, total] = words::<5>(answer).map(number);
    let written = match facts {
        "-" => Vec::new(),
        "none" => vec![0; 8_192],
        facts => {
            let mut memory = bytes(facts);
            assert!(memory.len().is_multiple_of(8) && memory.len() <= 8_192, "facts: {facts:?}");
            memory.resize(8_192, 0);
            memory
        }
    };
    let [file, at] = words::<2>(part);
    let file = match file {
        "domain" => Source::Domain,
        "run" => Source::Run,
        _ => panic!("part: {part:?}"),
    };
    let at = number(at);

    // As told, and where work memory suffices with more of it, which stays untouched.
    let more = if lent >= 8_192 { lent + 1_000 } else { lent };
    for lent in [lent, more] {
        let mut work = pattern(lent);
        let Tracked { played: got, total: got_total } = player(&domain, &run, &mut work);
        assert_eq!([got.number as usize, got.first, got.second, got.third], [expected_number, first, 0, 0], "{name}");
        assert_eq!((got.steps, got.weight as usize), (steps, weight), "{name}: steps and weight");
        assert_eq!(got_total as usize, total, "{name}: total");
        assert_eq!((got.part.file, got.part.at), (file, at), "{name}: part");
        assert!(work == after(lent, &written), "{name}: work memory");
    }
}

fn classes_line(fields: &[&str]) {
    let &[_, name, domain, numbers] = fields else { panic!("not 4 fields") };
    let domain = model::read(&bytes(domain)).unwrap_or_else(|stop| panic!("{name}: {stop:?}"));
    let mut of_actions: Vec<Vec<u8>> = Vec::new();
    for action in &domain.actions {
        let classes = model::classes::classes(&domain.template, action);
        let number = |literal: usize| classes.iter().position(|class| class.literals.into_iter().any(|l| l == literal));
        of_actions.push((0..action.literals.len()).map(|literal| number(literal).map_or(0xFF, |n| n as u8)).collect());
    }
    let told: Vec<Vec<u8>> = numbers.split(' ').map(bytes).collect();
    assert_eq!(of_actions, told, "{name}");
}

/// A service on one file, in memory of the length told; where it is done also in just the room needed, which is what
/// it tells, and in one byte less.
fn service_line(fields: &[&str], service: impl Fn(&[u8], &mut [u8]) -> Served) {
    let &[_, name, file, room, answer, written] = fields else { panic!("not 6 fields") };
    let (file, written) = (bytes(file), bytes(written));
    let ["room", lent] = words::<2>(room) else { panic!("room: {room:?}") };
    let answer = words::<2>(answer).map(number);
    let serve = |lent: usize| {
        let mut memory = pattern(lent);
        let served = service(&file, &mut memory);
        ([served.number as usize, served.first], memory)
    };
    let lent = number(lent);
    assert_eq!(serve(lent), (answer, after(lent, &written)), "{name}");
    if answer[0] == 0 {
        for more in [0, 1, 100] {
            let lent = written.len() + more;
            assert_eq!(serve(lent), ([0, written.len()], after(lent, &written)), "{name}, lent {lent}");
        }
        if let Some(short) = written.len().checked_sub(1) {
            assert_eq!(serve(short), ([30, 0], pattern(short)), "{name}, lent {short}");
        }
    }
}

#[test]
fn every_edge() {
    let text = include_str!("../../cases/edges.txt");
    let (mut remarks, mut judged, mut played, mut others) = (0, 0, 0, 0);
    for (line_number, line) in text.lines().enumerate() {
        if line.starts_with('#') {
            remarks += 1;
            continue;
        }
        let fields: Vec<&str> = line.split(" | ").map(str::trim).collect();
        let kind = fields[0];
        let outcome = std::panic::catch_unwind(|| match kind {
            "judge" => judge_line(&fields),
            "play" => play_line(&fields),
            "track" => track_line(&fields),
            "classes" => classes_line(&fields),
            "templates" => service_line(&fields, model::templates),
            "try" => service_line(&fields, model::try_facts),
            "totals" => service_line(&fields, model::totals),
            _ => panic!("no such kind: {kind:?}"),
        });
        assert!(outcome.is_ok(), "line {} of edges.txt fails", line_number + 1);
        match kind {
            "judge" => judged += 1,
            "play" => played += 1,
            _ => others += 1,
        }
    }
    println!(
        "edges.txt: {remarks} lines of explanation, {judged} judge lines run, {played} play lines run, {others} others"
    );
    assert!(judged > 0 && played > 0 && others > 0);
    assert_eq!(remarks + judged + played + others, text.lines().count());
}
