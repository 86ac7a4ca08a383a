//! Explaining: the reasons fit the library's names and verdicts on files of every sort, and a witness leads where it
//! should.

use command::domain::{Domain, Names};
use command::explain::explain;
use command::files::{domain_of, LoadedDomain};
use command::library::{judge, Name};
use command::notation::source::columns;
use command::reasons::{classes, counting, has_over_all, is_journey, why};
use generate::{case, domains, rng::Rng, samples, Case};

/// The names by their reasons, and which rows are ends of journeys: action, class, moment, name.
fn reasoned(domain: &Domain) -> Vec<([usize; 3], Name, bool)> {
    let mut rows = Vec::new();
    for (number, action) in domain.actions.iter().enumerate() {
        for (class_number, class) in classes(domain, action).iter().enumerate() {
            for moment in 0..1 + usize::from(action.lasting) {
                let name = why(domain, &counting(class, moment as u8)).name();
                rows.push(([number, class_number, moment], name, moment == 1 && is_journey(action, class)));
            }
        }
    }
    rows
}

/// The verdict that these rows lead to, with its place.
fn decided(rows: &[([usize; 3], Name, bool)]) -> (u64, [u64; 3]) {
    let at = |place: [usize; 3]| place.map(|number| number as u64);
    let fault = |row: &([usize; 3], Name, bool)| match row.1 {
        Name::Heavy => Some(40),
        Name::Unbalanced => Some(41),
        Name::Unbounded if !row.2 => Some(42),
        _ => None,
    };
    for number in 40..=42 {
        if let Some(row) = rows.iter().find(|row| fault(row) == Some(number)) {
            return (number, at(row.0));
        }
    }
    if !rows.iter().any(|row| row.1 == Name::Unbounded) {
        return (0, [0; 3]);
    }
    match rows.iter().find(|row| row.1 == Name::Bounded && !row.2) {
        Some(row) => (43, at(row.0)),
        None => (1, [0; 3]),
    }
}

/// Files of many shapes, each with what the library says of it.
fn generated(count: u64) -> impl Iterator<Item = LoadedDomain> {
    (0..count).filter_map(|seed| {
        let file = match seed % 3 {
            0 => match case(seed) {
                Case::Judge { domain, .. } | Case::Play { domain, .. } => domain,
            },
            _ => domains::valid(&mut Rng::new(seed)).file(),
        };
        let judged = judge(&file);
        judged.is_read().then(|| LoadedDomain {
            name: seed.to_string(),
            file,
            names: Names::default(),
            judged,
            text: None,
        })
    })
}

#[test]
fn reasons_fit_the_library() {
    let mut seen = [0; 7];
    let mut verdicts = std::collections::BTreeMap::new();
    for loaded in generated(30_000) {
        let rows = reasoned(&loaded.domain());
        let told: Vec<_> =
            loaded.judged.rows.iter().map(|row| ([row.action, row.class, row.moment as usize], row.name)).collect();
        assert_eq!(rows.iter().map(|row| (row.0, row.1)).collect::<Vec<_>>(), told, "seed {}", loaded.name);
        assert_eq!(decided(&rows), (loaded.judged.number, loaded.judged.places), "seed {}", loaded.name);
        rows.iter().for_each(|row| seen[row.1 as usize - 1] += 1);
        *verdicts.entry(loaded.judged.number).or_insert(0) += 1;
    }
    assert!(seen.iter().all(|&count| count > 500), "{seen:?}");
    assert!([0, 1, 40, 41, 42, 43].iter().all(|number| verdicts[number] > 100), "{verdicts:?}");
}

/// Before and after the event of a witness: the two numbers of its last line.
fn weights(text: &str) -> Option<(u64, u64)> {
    let (_, line) = text.split_once("\n  weight: ")?;
    let (line, _) = line.split_once(".\n")?;
    let numbers: Vec<u64> = line.split_whitespace().filter_map(|word| word.parse().ok()).collect();
    Some((numbers[numbers.len() - 2], numbers[numbers.len() - 1]))
}

#[test]
fn witnesses_lead_to_two_facts() {
    let (mut exact, mut ends, mut beside) = (0, 0, 0);
    for loaded in generated(12_000) {
        let text = explain(&loaded);
        assert!(!text.contains("no reason was found"), "{text}");
        let lasting = loaded.domain().actions.iter().any(|action| action.lasting);
        if !(40..=42).contains(&loaded.judged.number) {
            assert!(!text.contains("\nwitness"), "{text}");
            beside += u32::from(loaded.judged.number == 43 && text.contains("The player makes a run that breaks"));
            continue;
        }
        assert!(text.contains("\nwitness: ") && text.contains("\n    THE FAULT\n"), "{text}");
        match weights(&text) {
            Some((before, after)) => assert!(before <= 1 && after >= 2, "{text}"),
            None => assert!(loaded.judged.places[2] == 1, "{text}"),
        }
        let (action, class) = (loaded.judged.places[0] as usize, loaded.judged.places[1] as usize);
        let domain = loaded.domain();
        let has_over_all = has_over_all(&classes(&domain, &domain.actions[action])[class]);
        let is_written = !(loaded.judged.places[2] == 1 && has_over_all);
        assert_eq!(text.contains("witness: none is written"), !is_written, "{text}");
        assert!(is_written || loaded.judged.witness.is_empty(), "{text}");
        if !lasting {
            assert!(text.contains("the refusal is exact: the template is"), "{text}");
            exact += 1;
        } else if text.contains("The player makes a run that breaks the template") {
            ends += 1;
        }
    }
    assert!(exact > 500 && ends > 50 && beside > 50, "{exact} {ends} {beside}");
}

#[test]
fn samples_fit_a_terminal() {
    for sample in samples::all().domains {
        let loaded = domain_of(sample.name, sample.file).expect("bytes");
        if !loaded.judged.is_read() {
            assert!(loaded.refusal().contains(&format!("({})", loaded.judged.number)), "{}", loaded.refusal());
            continue;
        }
        let text = explain(&loaded);
        assert!(text.lines().all(|line| columns(line) <= 80), "{text}");
        for (count, action) in loaded.domain().actions.iter().enumerate() {
            let has_rows = loaded.judged.rows.iter().any(|row| row.action == count);
            let (_, told) = text.split_once(&format!("{}(", action.name)).expect("every action is told");
            let told = told.split("\n\n").next().unwrap_or_default();
            assert_eq!(told.contains("no class: "), !has_rows, "{text}");
        }
    }
}

fn explained(text: &str) -> String {
    explain(&domain_of("d.txt", text.as_bytes().to_vec()).expect("a domain"))
}

#[test]
fn a_refusal_with_names() {
    let text = "\
relation at/2
relation lit/1
at once shelve(volume, shelf)
    add at(volume, shelf)
at once light(lamp)
    add lit(lamp)
template at[0,_]
";
    assert_eq!(
        explained(text),
        "\
refused (42): shelve is unbounded about volume, at once.
  The claim of the template at[0,_] is wrong: \"Of each object under key 0 at
  most one of these facts is true at any time.\"

at once shelve(volume, shelf)
  class 0, about volume, at once: unbounded
    THE FAULT
      add    at(volume, shelf)
    unbounded: it adds at(volume, shelf) and asks for no fact of volume, so
      volume may have one already: the component at[0,_] has a counted place,
      and no false or delete here has * there, so there are facts of it that no
      literal names.
    not bounded: for that every component would have to be covered.

at once light(lamp)
  no class: none of its literals is of a relation in the template.

witness: take different objects volume and shelf, and one more, other.
  facts    at(volume, other)
  event    shelve(volume, shelf)
  after it at(volume, other), at(volume, shelf)
  weight: volume has 1 of the facts before and 2 after.
  This event alone is an allowed step, so the refusal is exact: the template is
  broken.
"
    );
}

/// Where an open journey makes a bounded row a fault, the player makes the run that shows it.
#[test]
fn a_run_beside_a_journey() {
    let text = "full/1, empty/1; fill(jug, tap): add full(jug), delete empty(jug); \
                lasting pour(cup): start true and delete full(cup), end add empty(cup); full[0], empty[0]";
    let (_, shown) =
        explained(text).split_once("\n\nThe player").map(|(a, b)| (a.to_string(), b.to_string())).expect("a run");
    assert_eq!(
        shown,
        " makes a run that breaks the template:
  facts    full(cup)
  step 1   start pour(cup); then: none
  step 2   fill(cup, tap); then: full(cup)
  step 3   end pour(cup); then: full(cup), empty(cup)
  weight: cup has 1 of the facts before and 2 after.
"
    );
}

/// Conditions over all count towards unreachable, and towards nothing else.
#[test]
fn over_all_counts_for_unreachable_alone() {
    let flat = |text: &str| text.split_whitespace().collect::<Vec<_>>().join(" ");
    let ends: [(&str, &str); 4] = [
        ("all true at(v, a), end true at(v, b), end add at(v, c)", "at the end: unreachable"),
        ("all true at(v, a), end delete at(v, a), end add at(v, b)", "at the end: unbounded"),
        ("all true at(v, a), end true at(v, a), end add at(v, b)", "at the end: unbalanced"),
        (
            "start true and delete at(v, a), all true at(v, b), end add at(v, c)",
            "at the end: unbounded, the end of a journey",
        ),
    ];
    for (literals, named) in ends {
        let text = flat(&explained(&format!("at/2; lasting go(v, a, b, c): {literals}; at[0,_]")));
        assert!(text.contains(named) && !text.contains("no reason was found"), "{literals}: {text}");
    }
    let held = flat(&explained(
        "at/2; lasting go(v, a, b): all true at(v, a), end delete at(v, a), end add at(v, b); at[0,_]",
    ));
    assert!(held.contains("asks for no fact of v itself (at(v, a) over all counts for unreachable alone)"), "{held}");
    assert!(held.contains("witness: none is written for an end whose class has a condition over all."), "{held}");
}

/// A literal with every object deletes the condition, covers the counted place and makes a journey; one of the other
/// moment, or of another volume, does none of this.
#[test]
fn every_object_covers() {
    let flat = |text: &str| text.split_whitespace().collect::<Vec<_>>().join(" ");
    let said: [(&str, &str); 8] = [
        ("put(v, a): delete at(v, *), add at(v, a)", "so no other fact of v is true then: at[0,_] by delete at(v, *)."),
        ("put(v, a): false at(v, *), add at(v, a)", "so no other fact of v is true then: at[0,_] by false at(v, *)."),
        (
            "put(v, a): add at(v, a)",
            "the component at[0,_] has a counted place, and no false or delete here has * there, so there are facts",
        ),
        (
            "move(v, a, b): true at(v, a), add at(v, b), delete at(v, *)",
            "balanced: it asks for at(v, a) and deletes it with at(v, *), and at(v, b) comes in its place.",
        ),
        ("swap(v, a, w, b): true at(v, a), add at(v, b), delete at(w, *)", "unbalanced: it asks for at(v, a)"),
        (
            "lasting lend(v, a, b): start true at(v, a), start delete at(v, *), end add at(v, b)",
            "at the end: unbounded, the end of a journey",
        ),
        (
            "lasting put(v, a): start add at(v, a), end delete at(v, *)",
            "refused (42): put is unbounded about v, at the start.",
        ),
        (
            "lasting put(v, a): all false at(v, *), end add at(v, a)",
            "refused (42): put is unbounded about v, at the end.",
        ),
    ];
    for (action, words) in said {
        let text = flat(&explained(&format!("at/2; {action}; at[0,_]")));
        assert!(text.contains(words) && !text.contains("no reason was found"), "{action}: {text}");
    }
}

/// Of several faults the worst is named, whatever the order of the actions.
#[test]
fn the_worst_fault_is_named() {
    let actions =
        [("put", "add at(v, a)"), ("copy", "true at(v, a), add at(v, b)"), ("double", "add at(v, a), at(v, b)")];
    let worst = ["refused (42): put is unbounded", "refused (41): copy is unbalanced", "refused (40): double is heavy"];
    for (first, others) in [(0, [1, 2]), (1, [0, 2]), (2, [1, 0]), (0, [2, 1]), (1, [2, 0]), (2, [0, 1])] {
        let mut order = vec![first];
        for other in others {
            let text: String =
                order.iter().map(|&n| format!("{}(v, a, b): {}; ", actions[n].0, actions[n].1)).collect();
            let text = explained(&format!("at/2; {text}at[0,_]"));
            assert!(text.starts_with(worst[*order.iter().max().unwrap_or(&0)]), "{order:?}: {text}");
            order.push(other);
        }
    }
}

/// Every name has words of its own, for why it fits and why the one before doesn't.
#[test]
fn each_name_has_its_words() {
    let actions: [(&str, &str, &str); 8] = [
        (
            "true at(v, a), at(v, b), add at(v, c)",
            "unreachable: it asks for 2 facts of v at once, at(v, a) and at(v, b)",
            "",
        ),
        ("delete at(v, a)", "irrelevant: it adds no fact of v.", "not unreachable: it asks for no fact of v."),
        (
            "true at(v, a)",
            "irrelevant: it adds no fact of v.",
            "not unreachable: it asks for no more than one fact of v, at(v, a).",
        ),
        (
            "add at(v, a), at(v, b)",
            "heavy: it adds 2 facts of v: at(v, a) and at(v, b).",
            "not irrelevant: it adds at(v, a) and at(v, b).",
        ),
        (
            "true and delete at(v, a), add at(v, b)",
            "balanced: it asks for at(v, a) and deletes it, and at(v, b) comes in its place.",
            "not heavy: it adds only at(v, b).",
        ),
        (
            "true and add at(v, a)",
            "balanced: the one fact of v that it adds, at(v, a), is the one that it asks for.",
            "not heavy: it adds only at(v, a).",
        ),
        (
            "true at(v, a), add at(v, b)",
            "unbalanced: it asks for at(v, a) and leaves it true, and adds at(v, b): then both are true of v.",
            "not balanced: at(v, a) is neither deleted nor added.",
        ),
        (
            "add at(v, a)",
            "unbounded: it adds at(v, a) and asks for no fact of v, so v may have one already",
            "not bounded: for that every component would have to be covered.",
        ),
    ];
    let flat = |text: &str| text.split_whitespace().collect::<Vec<_>>().join(" ");
    for (literals, fits, before) in actions {
        let text = flat(&explained(&format!("at/2; go(v, a, b, c): {literals}; at[0,_]")));
        assert!(text.contains(fits) && text.contains(before), "{literals}: {text}");
    }
    let bounded = flat(&explained("full/1, empty/1; fill(jug): add full(jug), false empty(jug); full[0], empty[0]"));
    assert!(bounded.contains("every component is covered, so no other fact of jug is true then: full[0] by add full(jug), empty[0] by false empty(jug)."), "{bounded}");
    assert!(bounded.contains("not unbalanced: it asks for no fact of jug."), "{bounded}");
}
