//! `goadlotus templates`: the list in words, and every template in it judged as it stands there.

mod folder;

use command::library::judge;
use command::notation::domain_text;
use folder::Folder;
use std::fs;
use std::path::Path;
use std::process::{Command, Output};

const SAMPLES: &str = concat!(env!("CARGO_MANIFEST_DIR"), "/../../samples");

fn run(arguments: &[&str]) -> Output {
    Command::new(env!("CARGO_BIN_EXE_goadlotus")).arg("templates").args(arguments).output().expect("the command")
}

fn said(output: &Output) -> String {
    String::from_utf8_lossy(&output.stdout).into_owned()
}

fn text(path: &Path) -> &str {
    path.to_str().expect("a name")
}

#[test]
fn m1_in_three_forms() {
    let m1 = format!("{SAMPLES}/m1.domain.txt");
    let output = run(&[&m1]);
    assert_eq!(output.status.code(), Some(0));
    assert_eq!(
        said(&output),
        "\
template  relation  counted  number  meaning
at[0,1]   at        -        0       accepted; no moment is unbounded
at[_,0]   at        0        42      refused: unbounded outside a journey's end
at[0,_]   at        1        0       accepted; no moment is unbounded
out[0,1]  out       -        0       accepted; no moment is unbounded
out[_,0]  out       0        42      refused: unbounded outside a journey's end
out[0,_]  out       1        42      refused: unbounded outside a journey's end
"
    );
    let tsv = said(&run(&["--tsv", &m1]));
    assert_eq!(tsv.lines().nth(2), Some("at[_,0]\tat\t0\t42\trefused: unbounded outside a journey's end"), "{tsv}");
    let json = said(&run(&["--json", &m1]));
    let first = "{\"template\": \"at[0,1]\", \"relation\": \"at\", \"counted\": \"-\", \"number\": 0, ";
    assert!(json.starts_with(first) && json.lines().count() == 6, "{json}");
}

/// Every template of every sample that is read, in the place of its own: judging says what the list says. What isn't in
/// the list is refused by 27.
#[test]
fn each_is_judged_as_it_is_listed() {
    let (mut listed, mut passed_over) = (0, 0);
    for entry in fs::read_dir(SAMPLES).expect("samples") {
        let path = entry.expect("an entry").path();
        if !text(&path).ends_with(".domain.txt") {
            continue;
        }
        let words = fs::read_to_string(&path).expect("a text");
        let judged = |template: &str| {
            let (front, _) = words.split_once("\ntemplate").expect("a template");
            let read = domain_text::read(&format!("{front}\ntemplate {template}\n")).expect("a domain");
            judge(&read.written.file).number
        };
        let output = run(&[text(&path)]);
        let Some(0) = output.status.code() else {
            assert_eq!((output.status.code(), said(&output).as_str()), (Some(4), ""), "{path:?}");
            continue;
        };
        let shown = said(&output);
        let (table, missing) = shown.split_once("\n\npassed over").unwrap_or((&shown, ""));
        for line in table.lines().skip(1) {
            let cells: Vec<&str> = line.split_whitespace().collect();
            assert_eq!(cells[3].parse(), Ok(judged(cells[0])), "{path:?}: {line}");
            let place = cells[0].split(['[', ',', ']']).skip(1).position(|label| label == "_");
            assert_eq!(cells[2], place.map_or("-".to_string(), |place| place.to_string()), "{line}");
            listed += 1;
        }
        for template in missing.split_whitespace().filter(|word| word.contains('[')) {
            assert_eq!(judged(template), 27, "{path:?}: {template}");
            passed_over += 1;
        }
    }
    assert!(listed > 500 && passed_over > 5, "{listed} {passed_over}");
}

#[test]
fn what_is_not_listed() {
    let folder = Folder::new("templates");
    let broken = folder.put("broken.txt", "relation at/2\nat once put(volume)\n    ad at(volume, volume)\n");
    let none = folder.put("none.txt", "relation at/2\nat once put(volume)\n    delete at(volume, *)\n");
    for (file, said) in [(&broken, "the nearest is `add`"), (&none, "the template is missing (23)")] {
        let output = run(&[text(file)]);
        let complained = String::from_utf8_lossy(&output.stderr);
        assert!(output.status.code() == Some(4) && complained.contains(said), "{complained}");
    }
    for wrong in [&[][..], &["a", "b"], &["--rows", "a"]] {
        assert_eq!(run(wrong).status.code(), Some(2));
    }
    let row = folder.put("row.txt", "relation at/2\nat once put(v)\n    delete at(v, *)\ntemplate at[0,_]\n");
    let shown = said(&run(&[text(&row)]));
    let passed = "\n\npassed over, as a literal has * where a key would be (27): at[0,1] at[_,0]\n";
    assert!(shown.ends_with(passed) && shown.lines().count() == 4, "{shown}");
    let tsv = said(&run(&["--tsv", text(&row)]));
    assert!(tsv.lines().count() == 2 && !tsv.contains("passed over"), "{tsv}");
}
