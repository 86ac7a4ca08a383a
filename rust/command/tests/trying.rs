//! `goadlotus try`: where the library says yes the player shows it from some set of facts, where it says no from none; and the
//! sentences are right.

mod folder;

use command::domain::{Domain, Names};
use command::library::{judge, try_facts, Name};
use command::notation::source::columns;
use command::tried::tried;
use folder::Folder;
use generate::domains::{tiny, valid};
use generate::rng::Rng;
use std::process::{Command, Output};

const SAMPLES: &str = concat!(env!("CARGO_MANIFEST_DIR"), "/../../samples");

/// The library's answers against the player, and against the names.
#[test]
fn the_player_shows_it() {
    let (mut yes, mut no) = ([0; 7], [0; 7]);
    for seed in 0..3_000 {
        let rng = &mut Rng::new(seed);
        let file = if seed % 10 == 0 { valid(rng) } else { tiny(rng) }.file();
        let judged = judge(&file);
        if !judged.is_read() {
            continue;
        }
        let domain = Domain::of(&file, &Names::default());
        let (answers, classes) = (try_facts(&file), tried(&domain, &try_facts(&file)));
        assert_eq!(answers.len(), classes.len(), "seed {seed}");
        for class in &classes {
            let row = |row: &&command::library::Row| (row.action, row.class) == (class.number, class.class_number);
            let name = judged.rows.iter().find(row).expect("its row").name;
            assert_eq!(class.harms, matches!(name, Name::Heavy | Name::Unbalanced | Name::Unbounded), "seed {seed}");
            // all sets of a large action take long
            if class.harms || class.sets(&domain).len() < 20 {
                assert_eq!(class.first_harm(&domain, &file).is_some(), class.harms, "seed {seed}");
            }
            (if class.harms { &mut yes } else { &mut no })[name as usize - 1] += 1;
        }
    }
    assert!(
        [2, 4, 6].iter().all(|&name| yes[name] > 100) && [0, 1, 3, 5].iter().all(|&name| no[name] > 100),
        "{yes:?} {no:?}"
    );
}

fn run(arguments: &[&str]) -> Output {
    Command::new(env!("CARGO_BIN_EXE_goadlotus")).arg("try").args(arguments).output().expect("the command")
}

fn said(output: &Output) -> String {
    String::from_utf8_lossy(&output.stdout).into_owned()
}

#[test]
fn yes_and_no_in_sentences() {
    let folder = Folder::new("try");
    let text = "\
relation at/2
relation seen/1
at once put(volume, shelf)
    add at(volume, shelf)
at once strike(volume, shelf)
    delete at(volume, *)
    add at(volume, shelf)
at once see(volume)
    add seen(volume)
lasting lend(volume, shelf)
    start delete at(volume, shelf)
template at[0,_]
";
    let file = folder.put("d.txt", text);
    let output = run(&[file.to_str().expect("a name")]);
    assert_eq!(output.status.code(), Some(3));
    assert_eq!(
        said(&output),
        "\
at once put(volume, shelf)
  class 0, about volume: yes, some set of 4 leads to two facts (unbounded)
  take different objects volume and shelf, and one more, other.
  facts    at(volume, other)
  event    put(volume, shelf)
  after it at(volume, other), at(volume, shelf)
  weight: volume has 1 of the facts before and 2 after.

at once strike(volume, shelf)
  class 0, about volume: no, none of 4 sets leads to two facts (bounded)

at once see(volume)
  no class: none of its literals is of a relation in the template.

lasting lend(volume, shelf)
  not tried: only actions at once are.
"
    );
    let tsv = said(&run(&["--tsv", file.to_str().expect("a name")]));
    assert_eq!(
        tsv,
        "action\tclass\tabout\tharm\tname\nput\t0\tvolume\tyes\tunbounded\nstrike\t0\tvolume\tno\tbounded\n"
    );
}

#[test]
fn a_file_without_actions_says_so() {
    let folder = Folder::new("try-none");
    let file = folder.put("d.txt", "relation at/2\ntemplate at[0,_]\n");
    let output = run(&[file.to_str().expect("a name")]);
    assert_eq!((output.status.code(), &said(&output)[..]), (Some(0), "no action: there is nothing to try.\n"));
}

#[test]
fn statuses() {
    for (arguments, status) in [
        (&["m5.domain"][..], 3),
        (&["m6.domain"], 0),
        (&["m10.domain"], 0),
        (&["m11.domain"], 4),
        (&["no such"], 1),
        (&["m5.domain", "m6.domain"], 2),
        (&[], 2),
    ] {
        let named: Vec<String> = arguments.iter().map(|name| format!("{SAMPLES}/{name}")).collect();
        let output = run(&named.iter().map(String::as_str).collect::<Vec<_>>());
        assert_eq!(output.status.code(), Some(status), "{arguments:?}");
    }
}

/// Every sample that is read has its sentences, on lines that fit a terminal.
#[test]
fn samples_fit_a_terminal() {
    let mut yes = 0;
    for sample in generate::samples::all().domains {
        let output = run(&[&format!("{SAMPLES}/{}.domain.txt", sample.name)]);
        let text = said(&output);
        assert!(text.lines().all(|line| columns(line) <= 80) && !text.contains("please report"), "{text}");
        yes += text.matches(": yes, ").count();
        assert_eq!(text.matches(": yes, ").count(), text.matches("\n  after it").count(), "{text}");
    }
    assert!(yes > 10, "{yes}");
}
