//! Places of the paper that cases/edges.txt doesn't reach, each with the reading that the model takes.

use model::{judge, play, Played, WORK};

fn file(records: &[(u16, &[u8])]) -> Vec<u8> {
    let mut file = Vec::new();
    for (kind, payload) in records {
        file.extend((payload.len() as u16).to_le_bytes());
        file.extend(kind.to_le_bytes());
        file.extend(*payload);
    }
    file
}

/// The answer, and the facts left.
fn run(domain: &[u8], records: &[(u16, &[u8])]) -> (Played, Vec<[u8; 8]>) {
    let mut work = vec![0xA5; WORK];
    let played = play(domain, &file(records), &mut work);
    let facts = work.chunks(8).take_while(|fact| fact[7] == 0xFF).map(|fact| fact.try_into().unwrap()).collect();
    (played, facts)
}

const fn p(object: u8) -> [u8; 8] {
    [0, 1, object, 0xFF, 0xFF, 0xFF, 0xFF, 0xFF]
}

/// p/1; action 0 lasts, over all true p(0); action 1 at once, delete p(0); p[0].
fn over_all() -> Vec<u8> {
    file(&[(1, &[1]), (2, &[1, 1]), (3, &[4, 0, 0]), (2, &[1, 0]), (3, &[3, 0, 0]), (4, &[0, 0]), (5, &[])])
}

/// P2: "An end's conditions for interference become its own only. Its over-all conditions must still hold
/// in the state the step is taken from."
#[test]
fn an_end_interferes_by_its_own_conditions_only() {
    let together = |first: &[(u16, &[u8])]| {
        let ends: [(u16, &[u8]); 4] = [(18, &[1, 0, 0]), (18, &[0, 1, 0]), (19, &[]), (20, &[])];
        run(&over_all(), &[first, &ends].concat())
    };
    let (played, facts) = together(&[(16, &[2]), (17, &[0, 0]), (18, &[0, 0, 0]), (19, &[])]);
    assert_eq!((played.number, played.steps, facts), (2, 2, vec![]));
    let (played, _) = together(&[(16, &[2]), (18, &[0, 0, 0]), (19, &[])]);
    assert_eq!((played.number, played.steps), (55, 1));
}

/// p/1; a lasting action, over all false p(0), end add p(0); p[FF]. If the over-all condition counted for
/// names, the template would be accepted; two ends together weigh two.
#[test]
fn over_all_conditions_cover_nothing() {
    let domain = file(&[(1, &[1]), (2, &[1, 1]), (3, &[5, 0, 0]), (3, &[8, 0, 0]), (4, &[0, 0xFF]), (5, &[])]);
    let (mut report, mut witness) = ([0xA5; 8], [0xA5; 8]);
    let answer = judge(&domain, &mut report, &mut witness);
    assert_eq!([answer.number as usize, answer.first, answer.second, answer.third], [42, 0, 0, 1]);
    assert_eq!((report, witness), ([0, 0, 0, 2, 0, 0, 1, 7], [0xA5; 8]));
    let (played, facts) = run(
        &domain,
        &[
            (16, &[2]),
            (18, &[0, 0, 0]),
            (18, &[0, 0, 1]),
            (19, &[]),
            (18, &[1, 0, 0]),
            (18, &[1, 0, 1]),
            (19, &[]),
            (20, &[]),
        ],
    );
    assert_eq!((played.number, played.steps, played.weight), (2, 2, 2));
    assert_eq!(facts, vec![p(0), p(1)]);
}

/// p/1 with p[0]: over all true p(1), end add p(0) under another relation's component: the over-all literal
/// is of another class, so it suppresses no witness and stands in it.
#[test]
fn an_over_all_literal_of_another_class() {
    let domain = file(&[
        (1, &[1]),
        (1, &[1]),
        (2, &[2, 1]),
        (3, &[4, 0, 1]),
        (3, &[8, 0, 0]),
        (4, &[0, 0]),
        (4, &[1, 0]),
        (5, &[]),
    ]);
    let (mut report, mut witness) = ([0xA5; 16], [0xA5; 16]);
    let answer = judge(&domain, &mut report, &mut witness);
    assert_eq!([answer.number as usize, answer.first, answer.second, answer.third], [42, 0, 1, 1]);
    assert_eq!(witness[..8], p(1));
    assert_eq!(witness[8..], [1, 1, 0, 0xFF, 0xFF, 0xFF, 0xFF, 0xFF]);
}

/// A start has no over-all conditions: neither must they hold, nor do they interfere. From the next
/// step on they must hold.
#[test]
fn a_start_has_no_over_all_conditions() {
    let (played, facts) = run(
        &over_all(),
        &[(16, &[2]), (17, &[0, 0]), (18, &[0, 0, 0]), (18, &[0, 1, 0]), (19, &[]), (19, &[]), (20, &[])],
    );
    assert_eq!((played.number, played.steps, facts), (55, 1, vec![]));
    let (played, _) = run(&over_all(), &[(16, &[2]), (18, &[0, 0, 0]), (19, &[]), (20, &[])]);
    assert_eq!((played.number, played.steps), (2, 1));
}

/// "a literal in both counting once": the end is balanced, not unreachable; and it is once in a
/// witness.
#[test]
fn a_literal_in_both_counts_once() {
    let balanced =
        file(&[(1, &[1]), (2, &[1, 1]), (3, &[6, 0, 0]), (3, &[4, 0, 0]), (3, &[8, 0, 0]), (4, &[0, 0]), (5, &[])]);
    let (mut report, mut witness) = ([0xA5; 8], [0xA5; 8]);
    let answer = judge(&balanced, &mut report, &mut witness);
    assert_eq!((answer.number, report), (0, [0, 0, 0, 2, 0, 0, 1, 4]));
    assert_eq!(witness, [0xA5; 8]);

    // p/1 without a component, q/2 with q[0,FF]: over all and at the end true p(1), at the end true
    // q(0,1) and add q(0,0)
    let unbalanced = file(&[
        (1, &[1]),
        (1, &[2]),
        (2, &[2, 1]),
        (3, &[4, 0, 1]),
        (3, &[6, 1, 0, 1]),
        (3, &[6, 0, 1]),
        (3, &[8, 1, 0, 0]),
        (4, &[1, 0, 0xFF]),
        (5, &[]),
    ]);
    let mut witness = [0xA5; 24];
    let answer = judge(&unbalanced, &mut report, &mut witness);
    assert_eq!([answer.number as usize, answer.first, answer.second, answer.third], [41, 0, 0, 1]);
    assert_eq!(witness[..8], p(1));
    assert_eq!(witness[8..16], [1, 2, 0, 1, 0xFF, 0xFF, 0xFF, 0xFF]);
    assert_eq!(witness[16..], [0xA5; 8]);
}

/// "a fact deleted and added again is new", also where one event does both, so that it doesn't
/// interfere with itself.
#[test]
fn deleted_and_added_again_is_new() {
    let domain =
        file(&[(1, &[1]), (2, &[1, 0]), (3, &[0, 0, 0]), (3, &[2, 0, 0]), (3, &[3, 0, 0]), (4, &[0, 0]), (5, &[])]);
    let (played, facts) = run(
        &domain,
        &[(16, &[3]), (17, &[0, 0]), (17, &[0, 1]), (17, &[0, 2]), (18, &[0, 0, 0]), (19, &[]), (20, &[])],
    );
    assert_eq!((played.number, played.steps, played.weight), (2, 1, 1));
    assert_eq!(facts, vec![p(1), p(2), p(0)]);
}

/// "50 to 57 leave ... the start facts read so far"; "steps and weight are 0 before"
#[test]
fn a_fault_among_the_start_facts() {
    let (played, facts) = run(&over_all(), &[(16, &[3]), (17, &[0, 0]), (17, &[0, 3]), (19, &[])]);
    assert_eq!((played.number, played.first, played.steps, played.weight), (51, 11, 0, 0));
    assert_eq!(facts, vec![p(0)]);
}

/// The order of rows for one start fact: a wrong length comes before an object out of range, the
/// relation before both.
#[test]
fn order_in_a_start_fact() {
    for (payload, number) in [(&[] as &[u8], 50), (&[1, 9, 9], 51), (&[0, 9, 9], 50), (&[0, 9], 51)] {
        let (played, _) = run(&over_all(), &[(16, &[3]), (17, payload)]);
        assert_eq!((played.number, played.first), (number, 5));
    }
}

const EVERY: u8 = 0xFF;

/// P4: at/2, at[0,FF]; a lasting action that adds at(0,0) at its start and clears at(0,FF) at its end. The start isn't
/// covered by what the end clears; from at(0,1) it makes two.
#[test]
fn the_other_moment_covers_nothing() {
    let domain =
        file(&[(1, &[2]), (2, &[1, 1]), (3, &[2, 0, 0, 0]), (3, &[9, 0, 0, EVERY]), (4, &[0, 0, 0xFF]), (5, &[])]);
    let (mut report, mut witness) = ([0; 8], [0; 8]);
    let answer = judge(&domain, &mut report, &mut witness);
    assert_eq!([answer.number as usize, answer.first, answer.second, answer.third], [42, 0, 0, 0]);
    assert_eq!((report, witness), ([0, 0, 0, 7, 0, 0, 1, 2], [0, 2, 0, 1, 0xFF, 0xFF, 0xFF, 0xFF]));
    let (played, _) = run(&domain, &[(16, &[2]), (17, &[0, 0, 1]), (18, &[0, 0, 0]), (19, &[]), (20, &[])]);
    assert_eq!((played.number, played.steps, played.weight), (2, 1, 2));
}

/// P4: p/1, p[FF]; an action at once, false p(FF), add p(0). It is bounded; bound to 0 and to 1 in one step it interferes,
/// since each adds what the other needs to be false.
#[test]
fn clearing_conditions_interfere_by_every_fact() {
    let domain = file(&[(1, &[1]), (2, &[1, 0]), (3, &[1, 0, EVERY]), (3, &[2, 0, 0]), (4, &[0, 0xFF]), (5, &[])]);
    let (mut report, mut witness) = ([0; 4], [0; 8]);
    assert_eq!(judge(&domain, &mut report, &mut witness).number, 0);
    assert_eq!(report, [0, 0, 0, 6]);
    let (played, facts) = run(&domain, &[(16, &[2]), (18, &[0, 0, 0]), (18, &[0, 0, 1]), (19, &[]), (20, &[])]);
    assert_eq!((played.number, played.steps, facts), (56, 0, vec![]));
    let (played, facts) =
        run(&domain, &[(16, &[2]), (18, &[0, 0, 0]), (19, &[]), (18, &[0, 0, 1]), (19, &[]), (20, &[])]);
    assert_eq!((played.number, played.steps, facts), (55, 1, vec![p(0)]));
}

/// P4: at/2 without a component; one action deletes at(0,FF), another needs at(FF,0) to be false. Neither literal covers the
/// other, and bound to 0 and 1 both stand for at(0,1).
#[test]
fn clearing_literals_interfere_where_they_overlap() {
    let domain = file(&[
        (1, &[2]),
        (1, &[0]),
        (2, &[1, 0]),
        (3, &[3, 0, 0, EVERY]),
        (2, &[1, 0]),
        (3, &[1, 0, EVERY, 0]),
        (4, &[1]),
        (5, &[]),
    ]);
    let both = |first: u8, second: u8| {
        run(&domain, &[(16, &[2]), (18, &[0, 0, first]), (18, &[0, 1, second]), (19, &[]), (20, &[])]).0
    };
    assert_eq!(both(0, 1).number, 56);
    assert_eq!(both(1, 1).number, 56);
}

/// P4: "a fact that a step clears and adds again is new".
#[test]
fn cleared_and_added_again_is_new() {
    let domain = file(&[(1, &[1]), (2, &[1, 0]), (3, &[2, 0, 0]), (3, &[3, 0, EVERY]), (4, &[0, 0xFF]), (5, &[])]);
    let (played, facts) =
        run(&domain, &[(16, &[3]), (17, &[0, 0]), (17, &[0, 1]), (18, &[0, 0, 0]), (19, &[]), (20, &[])]);
    assert_eq!((played.number, played.weight, facts), (2, 2, vec![p(0)]));
}
