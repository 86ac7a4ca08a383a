//! The sample files M1 to M12 of the paper, with their listings, bytes, witnesses and runs.

use model::{judge, listing, play, Part, Source, WORK};

/// Bytes in hexadecimal, blanks between them left out.
fn hex(text: &str) -> Vec<u8> {
    let digits: Vec<u8> = text.chars().filter(|c| !c.is_whitespace()).map(|c| c.to_digit(16).unwrap() as u8).collect();
    assert!(digits.len().is_multiple_of(2));
    digits.chunks(2).map(|pair| pair[0] << 4 | pair[1]).collect()
}

const AT_OUT: &str = "0100010002 0100010002";
const MOVE: &str = "020002000300 0400030000000001 0400030002000002 0400030003000001";
const LEND: &str = "020002000301 0400030000000001 0400030003000001 0400030008010002";
const AT_COUNTED: &str = "03000400 0000FF";
const OUT_COUNTED: &str = "03000400 0100FF";
const CLOSING: &str = "00000500";

/// A file with M1's relations and template, and these actions.
fn with_m1s_template(actions: &str) -> Vec<u8> {
    hex(&[AT_OUT, actions, AT_COUNTED, OUT_COUNTED, CLOSING].concat())
}

fn m1() -> Vec<u8> {
    with_m1s_template(&[MOVE, LEND].concat())
}

/// Relations full/1 and empty/1, components full[0] and empty[0], and these actions.
fn full_empty(actions: &str) -> Vec<u8> {
    hex(&["0100010001 0100010001", actions, "02000400 0000", "02000400 0100", CLOSING].concat())
}

/// One variable; add full(0), delete empty(0).
const M6S_ACTION: &str = "020002000100 03000300 020000 03000300 030100";

/// Judges with memory to spare, all of it FF before, and checks the listing, the witness and that
/// nothing beyond either is touched.
fn check(file: &[u8], lines: &[&str], witness: &str) {
    let expected: String = lines.iter().map(|line| format!("{line}\n")).collect();
    assert_eq!(listing(file), expected);
    let (mut report, mut facts) = (vec![0xEE; 100], vec![0xEE; 100]);
    let answer = judge(file, &mut report, &mut facts);
    let head = format!("verdict {} {} {} {}", answer.number, answer.first, answer.second, answer.third);
    assert_eq!(head, lines[0]);
    let rows = lines.len() - 1;
    assert!(report[..4 * rows].chunks(4).all(|row| row[3] != 0xEE));
    assert!(report[4 * rows..].iter().all(|&byte| byte == 0xEE));
    let witness = hex(witness);
    assert_eq!(facts[..witness.len()], witness);
    assert!(facts[witness.len()..].iter().all(|&byte| byte == 0xEE));
}

#[test]
fn m1_bytes_and_listing() {
    let bytes = "0100010002 0100010002 020002000300 0400030000000001 0400030002000002 0400030003000001 \
                 020002000301 0400030000000001 0400030003000001 0400030008010002 03000400 0000FF \
                 03000400 0100FF 00000500";
    assert_eq!(m1(), hex(bytes));
    let lines = ["verdict 1 0 0 0", "row 0 0 0 balanced", "row 1 0 0 irrelevant", "row 1 0 1 unbounded"];
    check(&m1(), &lines, "");
}

#[test]
fn m2_one_component() {
    let file = hex(&[AT_OUT, MOVE, LEND, AT_COUNTED, CLOSING].concat());
    let lines = ["verdict 0 0 0 0", "row 0 0 0 balanced", "row 1 0 0 irrelevant", "row 1 0 1 irrelevant"];
    check(&file, &lines, "");
}

#[test]
fn m3_without_delete() {
    let file = with_m1s_template("020002000300 0400030000000001 0400030002000002");
    check(&file, &["verdict 41 0 0 0", "row 0 0 0 unbalanced"], "00 02 00 01 FFFFFFFF");
}

#[test]
fn m4_two_adds() {
    let file = with_m1s_template("020002000300 0400030002000001 0400030002000002");
    check(&file, &["verdict 40 0 0 0", "row 0 0 0 heavy"], "");
}

#[test]
fn m5_add_alone() {
    let file = hex(&["0100010002", "020002000200 0400030002000001", AT_COUNTED, CLOSING].concat());
    check(&file, &["verdict 42 0 0 0", "row 0 0 0 unbounded"], "00 02 00 02 FFFFFFFF");
}

#[test]
fn m6_full_and_empty() {
    check(&full_empty(M6S_ACTION), &["verdict 0 0 0 0", "row 0 0 0 bounded"], "");
}

#[test]
fn m7_neither_delete_nor_false() {
    let file = full_empty("020002000100 03000300 020000");
    check(&file, &["verdict 42 0 0 0", "row 0 0 0 unbounded"], "01 01 00 FFFFFFFFFF");
}

#[test]
fn m8_two_true() {
    let file = with_m1s_template("020002000400 0400030000000001 0400030000000002 0400030002010003");
    check(&file, &["verdict 0 0 0 0", "row 0 0 0 unreachable"], "");
}

#[test]
fn m9_true_and_add() {
    let file = with_m1s_template("020002000200 0400030000000001 0400030002000001");
    check(&file, &["verdict 0 0 0 0", "row 0 0 0 balanced"], "");
}

#[test]
fn m10_bounded_beside_a_journey() {
    let pour = "020002000101 03000300 000000 03000300 030000 03000300 080100";
    let file = full_empty(&[M6S_ACTION, pour].concat());
    let lines = ["verdict 43 0 0 0", "row 0 0 0 bounded", "row 1 0 0 irrelevant", "row 1 0 1 unbounded"];
    check(&file, &lines, "");
}

#[test]
fn m11_empty_input() {
    check(&[], &["verdict 10 0 0 0"], "");
    let mut work = vec![0xEE; WORK];
    let played = play(&[], &[], &mut work);
    assert_eq!((played.number, played.first, played.part), (10, 0, Part { file: Source::Domain, at: 0 }));
    assert!(work.iter().all(|&byte| byte == 0xEE));
}

/// "M12: M1 with at(0,1), start lend(0,1,2), then move(0,1,3): 55, 1 step, weight 1."
#[test]
fn m12_a_run() {
    let run = hex("0100 1000 04  0300 1100 000001  0500 1200 0001000102  0000 1300 \
         0500 1200 0000000103  0000 1300  0000 1400");
    let mut work = vec![0xEE; WORK + 8];
    let played = play(&m1(), &run, &mut work);
    // The close of the second step stands behind 5 + 7 + 9 + 4 + 9 bytes.
    assert_eq!((played.number, played.first, played.second, played.third), (55, 34, 0, 0));
    assert_eq!((played.steps, played.weight), (1, 1));
    assert_eq!(played.part, Part { file: Source::Run, at: 34 });
    // lend's start deleted at(0,1), and nothing else is held.
    assert!(work[..WORK].iter().all(|&byte| byte == 0));
    assert!(work[WORK..].iter().all(|&byte| byte == 0xEE));
}

/// The same run with lend's end in place of move is played, and hands out(0,2) on.
#[test]
fn m12_played_to_the_end() {
    let run = hex("0100 1000 04  0300 1100 000001  0500 1200 0001000102  0000 1300 \
         0500 1200 0101000102  0000 1300  0000 1400");
    let mut work = vec![0xEE; WORK];
    let played = play(&m1(), &run, &mut work);
    assert_eq!((played.number, played.first, played.steps, played.weight), (2, 0, 2, 1));
    assert_eq!(played.part, Part { file: Source::Run, at: run.len() });
    assert_eq!(work[..8], [1, 2, 0, 2, 0xFF, 0xFF, 0xFF, 0xFF]);
    assert!(work[8..].iter().all(|&byte| byte == 0));
}
