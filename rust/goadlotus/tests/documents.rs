//! docs/PROOFS.md, docs/DECISIONS.md and docs/SENTENCES.md cite definitions as file and name (literals/Decode `decode`), paths, functions
//! (`judging::judge`), theorems, clauses of contracts, must-fail edits, edge cases and Rust tests by their names: all must be there.

use std::fs;
use std::path::{Path, PathBuf};
use std::process::Command;

const PROOFS: &str = "docs/PROOFS.md";
const DECISIONS: &str = "docs/DECISIONS.md";
const SENTENCES: &str = "docs/SENTENCES.md";

fn root() -> PathBuf {
    Path::new(env!("CARGO_MANIFEST_DIR")).join("../..").canonicalize().expect("the repository's root")
}

fn read(root: &Path, file: &str) -> String {
    fs::read_to_string(root.join(file)).unwrap_or_else(|why| panic!("{file}: {why}"))
}

/// The texts of all files with this ending below a folder, target/ and out/, where rt and cargo build, left out.
fn sources(folder: &Path, ending: &str) -> Vec<String> {
    let mut found = Vec::new();
    for entry in fs::read_dir(folder).into_iter().flatten() {
        let path = entry.expect("an entry").path();
        if path.is_dir() && !path.ends_with("target") && !path.ends_with("out") {
            found.extend(sources(&path, ending));
        } else if path.to_str().is_some_and(|p| p.ends_with(ending)) {
            found.push(fs::read_to_string(&path).expect("a source"));
        }
    }
    found
}

/// The names in backticks right behind the start of `text`, one behind the other, and what follows: "`a`, `b` and `c`; .." has three.
fn row_of_names(mut text: &str) -> (Vec<&str>, &str) {
    let mut found = Vec::new();
    loop {
        text = text.trim_start_matches([' ', ',', '\n']);
        text = text.strip_prefix("and ").or(text.strip_prefix("to ")).unwrap_or(text);
        let Some((name, rest)) = text.strip_prefix('`').and_then(|t| t.split_once('`')) else { return (found, text) };
        found.push(name);
        // a new clause, or words, end the row of names
        if !rest.starts_with([',', ' ', '\n']) {
            return (found, rest);
        }
        text = rest;
    }
}

fn names(text: &str) -> Vec<&str> {
    row_of_names(text).0
}

/// The names that a text cites behind one of these words: "edit `a`", "edits `a`, `b`".
fn cited<'a>(text: &'a str, words: &[&str]) -> Vec<&'a str> {
    let mut found = Vec::new();
    for word in words {
        for (at, sign) in text.match_indices(&format!("{word} `")) {
            found.extend(names(&text[at + sign.len() - 1..]));
        }
    }
    found
}

/// A source in antt defines a name: a definition, theorem, field or case of its own, whose type follows.
fn defines(source: &str, name: &str) -> bool {
    source.lines().any(|line| {
        let head = line.split([':', '(', '{']).next().unwrap_or("");
        !line.trim_start().starts_with("--")
            && head.len() < line.len()
            && head.split_whitespace().any(|word| word == name)
    })
}

/// What stands behind the head of a function or type in a source: its parameters, contract and body.
fn item<'a>(source: &'a str, kind: &str, name: &str) -> Option<&'a str> {
    let head = format!("{kind} {name}");
    let found = source.match_indices(&head).map(|(at, _)| &source[at + head.len()..]);
    found.into_iter().find(|rest| rest.starts_with(['(', '<', ' ']))
}

/// A module or `impl` of the crates has a function of this path: `reading::read::read_domain`, `State::step`, `play_files`.
fn has_function(root: &Path, path: &str) -> bool {
    let (owner, name) = path.rsplit_once("::").unwrap_or(("", path));
    let has = |source: &str| ["fn", "struct", "enum"].iter().any(|kind| item(source, kind, name).is_some());
    let krate = owner.split("::").next().unwrap_or("");
    if !krate.is_empty() && root.join("crates").join(krate).is_dir() {
        let module = owner.split_once("::").map_or("lib", |(_, module)| module);
        return fs::read_to_string(root.join(format!("crates/{krate}/src/{module}.rt")))
            .is_ok_and(|source| has(&source));
    }
    let word = |line: &str| line.split(|c: char| !c.is_alphanumeric()).any(|w| w == owner);
    let owned = |source: &str| owner.is_empty() || source.lines().any(|line| line.starts_with("impl") && word(line));
    sources(&root.join("crates"), ".rt").iter().any(|source| has(source) && owned(source))
}

/// What a document cites that isn't there, and how many citations were tried.
fn missing(root: &Path, text: &str) -> (Vec<String>, usize) {
    let (mut lacking, mut tried) = (Vec::new(), 0);
    let outside = |c: char| !c.is_ascii_alphanumeric() && c != '_' && c != '/' && c != '.';
    for word in text.split(outside).filter(|w| !w.is_empty()) {
        let at = word.as_ptr() as usize - text.as_ptr() as usize;
        let Some((krate, file)) = word.split_once('/') else { continue };
        if (word.starts_with("crates/") || word.starts_with("rust/"))
            && text[..at].ends_with('`')
            && !word.contains("NAME")
        {
            tried += 1;
            if !root.join(word.trim_end_matches('.')).exists() {
                lacking.push(word.to_string());
            }
        } else if root.join("crates").join(krate).is_dir() && file.starts_with(|c: char| c.is_ascii_uppercase()) {
            let file = file.trim_end_matches('.');
            let path = root.join(format!("crates/{krate}/specs/{file}.antt"));
            let Ok(source) = fs::read_to_string(&path) else {
                lacking.push(format!("{krate}/{file}"));
                continue;
            };
            for name in names(&text[at + word.len()..]) {
                tried += 1;
                if !defines(&source, name) {
                    lacking.push(format!("{krate}/{file} `{name}`"));
                }
            }
        }
    }
    (lacking, tried)
}

/// The must-fail edits: of each its crate and the names of its wrongs, the lines "# wrong NAME: ..".
fn edits(root: &Path) -> Vec<(String, Vec<String>)> {
    let mut edits = Vec::new();
    for entry in fs::read_dir(root.join("crates")).expect("crates") {
        let krate = entry.expect("a crate");
        for entry in fs::read_dir(krate.path().join("must-fail")).into_iter().flatten() {
            let path = entry.expect("an edit").path();
            if path.extension().is_some_and(|ending| ending == "edit") {
                let text = fs::read_to_string(path).expect("an edit");
                let names = text.lines().filter_map(|line| line.strip_prefix("# wrong ")?.split_once(':'));
                let names = names.map(|(name, _)| name.to_string()).collect();
                edits.push((krate.file_name().into_string().expect("a name"), names));
            }
        }
    }
    edits
}

#[test]
fn what_is_cited_is_there() {
    let root = root();
    for (document, least) in [(PROOFS, 100), (DECISIONS, 150), (SENTENCES, 600)] {
        let (lacking, tried) = missing(&root, &read(&root, document));
        assert!(lacking.is_empty(), "{document} cites what isn't there: {lacking:?}");
        assert!(tried >= least, "{document}: only {tried} citations were found");
    }
}

#[test]
fn edits_are_there() {
    let root = root();
    let (edits, text) = (edits(&root), read(&root, SENTENCES));
    let names = cited(&text, &["edit", "edits"]);
    for name in &names {
        let there = edits.iter().any(|(_, wrongs)| wrongs.iter().any(|wrong| wrong == name));
        assert!(there, "{SENTENCES} cites the edit {name}, and there is none");
    }
    assert!(names.len() >= 30, "{SENTENCES}: only {} edits are cited", names.len());
    // docs/PROOFS.md has them by crate: "verdict `passes_all`, `refuses_all`; naming `all_irrelevant`"
    let text = read(&root, PROOFS);
    let part = text.split("## Must-fail edits").nth(1).expect("the edits").split("\n## ").next().unwrap_or("");
    let wrongs: usize = edits.iter().map(|(_, wrongs)| wrongs.len()).sum();
    let counted = format!("There are {}, with {wrongs} wrongs", edits.len());
    assert!(part.contains(&counted), "{PROOFS}: {counted}");
    let mut tried = 0;
    for entry in fs::read_dir(root.join("crates")).expect("crates") {
        let krate = entry.expect("a crate").file_name().into_string().expect("a name");
        let here: Vec<&String> = edits.iter().filter(|(of, _)| *of == krate).flat_map(|(_, wrongs)| wrongs).collect();
        for name in cited(part, &[&krate]) {
            tried += 1;
            assert!(here.iter().any(|wrong| *wrong == name), "{PROOFS}: no edit {name} in {krate}");
        }
    }
    assert!(tried >= 30, "{PROOFS}: only {tried} edits are cited");
}

#[test]
fn functions_and_clauses_are_there() {
    let root = root();
    for (document, least) in [(PROOFS, 10), (DECISIONS, 5), (SENTENCES, 10)] {
        let text = read(&root, document);
        let paths = text.split('`').skip(1).step_by(2).filter(|word| word.contains("::"));
        let contracts = cited(&text, &["contract of", "contracts of", "call of"]);
        let mut tried = 0;
        for path in
            paths.chain(contracts).filter(|path| path.chars().all(|c| c.is_alphanumeric() || c == '_' || c == ':'))
        {
            tried += 1;
            let module = path.replace("::", "/src/");
            let there = has_function(&root, path) || root.join(format!("crates/{module}.rt")).exists();
            assert!(there, "{document} cites `{path}`, and there is no such function");
        }
        assert!(tried >= least, "{document}: only {tried} functions are cited");
    }
    // "clause `low` of the contract of `player::play::play`"
    let text = read(&root, SENTENCES);
    for part in text.split("clause").skip(1) {
        let Some((clauses, rest)) = part.split_once(" of the contract of `") else { continue };
        if clauses.contains('|') {
            continue;
        }
        let path = rest.split('`').next().unwrap_or("");
        let (owner, name) = path.rsplit_once("::").expect("a path");
        let (krate, module) = owner.split_once("::").unwrap_or((owner, "lib"));
        let source = read(&root, &format!("crates/{krate}/src/{module}.rt"));
        let contract = item(&source, "fn", name).expect("the function").split("\n{").next().unwrap_or("");
        for clause in clauses.split('`').skip(1).step_by(2) {
            assert!(contract.contains(&format!("ensures {clause} ")), "{path} has no clause `{clause}`");
        }
    }
}

#[test]
fn theorems_cases_and_tests_are_there() {
    let root = root();
    let text = read(&root, SENTENCES);
    let proofs = sources(&root.join("crates"), ".antt");
    let theorems = cited(&text, &["theorem", "theorems"]);
    for name in &theorems {
        assert!(proofs.iter().any(|source| defines(source, name)), "{SENTENCES} cites the theorem {name}");
    }
    let edges = read(&root, "rust/cases/edges.txt");
    let lines = cited(&text, &["edge", "edges"]);
    for name in &lines {
        assert!(edges.contains(&format!("| {name} |")), "{SENTENCES} cites the edge {name}");
    }
    let tests = cited(&text, &["Rust"]);
    let rust = sources(&root.join("rust"), ".rs");
    for name in &tests {
        assert!(rust.iter().any(|source| source.contains(&format!("fn {name}("))), "{SENTENCES} cites the test {name}");
    }
    assert!(theorems.len() >= 20 && lines.len() >= 4 && tests.len() >= 5);
}

#[test]
fn theorems_are_in_their_files() {
    // "`leaves_30`, `leaves_31`, judging Calls": crates/judging/proofs/Calls.antt
    let root = root();
    let text = read(&root, PROOFS);
    let mut tried = 0;
    let mut rest = text.as_str();
    while let Some(at) = rest.find('`') {
        let (names, behind) = row_of_names(&rest[at..]);
        rest = if names.is_empty() { &rest[at + 1..] } else { behind };
        let mut words = behind.split(|c: char| !c.is_alphanumeric() && c != '_');
        let (Some(krate), Some(file)) = (words.next(), words.next()) else { continue };
        let Ok(source) = fs::read_to_string(root.join(format!("crates/{krate}/proofs/{file}.antt"))) else { continue };
        for name in names {
            tried += 1;
            assert!(defines(&source, name), "{PROOFS}: no `{name}` in the proofs {krate} {file}");
        }
    }
    assert!(tried >= 40, "{PROOFS}: only {tried} theorems with their files");
}

#[test]
fn every_sentence_has_its_place() {
    let text = read(&root(), SENTENCES);
    let rows = text.lines().filter(|line| line.starts_with("| ") && !line.starts_with("| Sentence |"));
    let mut count = 0;
    for row in rows {
        count += 1;
        let cells: Vec<&str> = row.trim_matches('|').split(" | ").map(str::trim).collect();
        assert!(cells.len() == 3 && cells.iter().all(|cell| !cell.is_empty()), "not three cells: {row}");
    }
    assert!(count >= 290, "only {count} sentences");
}

/// A word such as A11 or J6.
fn is_decision(word: &str) -> bool {
    let (letter, number) = word.split_at(word.len().min(1));
    letter.chars().all(|c| ('A'..='L').contains(&c)) && !number.is_empty() && number.chars().all(|c| c.is_ascii_digit())
}

#[test]
fn decisions_are_in_order() {
    let root = root();
    let text = read(&root, DECISIONS);
    let mut known: Vec<String> = Vec::new();
    let (mut section, mut number) = ("", 0);
    for line in text.lines() {
        if let Some((letter, _)) = line.strip_prefix("## ").and_then(|heading| heading.split_once(". ")) {
            (section, number) = (letter, 0);
        } else if let Some((name, _)) = line.strip_prefix("- ").and_then(|item| item.split_once(". **")) {
            number += 1;
            assert_eq!(name, format!("{section}{number}"), "out of order: {line}");
            known.push(name.to_string());
        }
    }
    assert!(known.len() >= 93, "only {} decisions", known.len());
    let words = |text: &str| text.split(|c: char| !c.is_ascii_alphanumeric()).map(str::to_string).collect::<Vec<_>>();
    for word in words(&text).into_iter().filter(|word| is_decision(word)) {
        assert!(known.contains(&word), "{DECISIONS} speaks of {word}, which is none");
    }
    for document in ["README.md", PROOFS, SENTENCES, "docs/DEVELOPING.md", "docs/LANDINGS.md", "docs/FORMAT.md"] {
        // "docs/DECISIONS.md H3, H23": the words up to the end of the sentence or of the parenthesis
        for behind in read(&root, document).split("DECISIONS.md").skip(1) {
            let near = behind.split([';', '.', '\n']).next().unwrap_or("");
            for word in words(near).into_iter().filter(|word| is_decision(word)) {
                assert!(known.contains(&word), "{document} speaks of decision {word}, which is none");
            }
        }
    }
}

/// The name by which a link finds a heading: "## A release" is found as #a-release.
fn anchor(heading: &str) -> String {
    let kept =
        heading.trim_start_matches('#').trim().chars().filter(|c| c.is_alphanumeric() || matches!(c, ' ' | '-' | '_'));
    kept.map(|c| if c == ' ' { '-' } else { c.to_ascii_lowercase() }).collect()
}

#[test]
fn links_lead_somewhere() {
    let root = root();
    let documents = ["README.md", "rust/README.md", "samples/README.md"].map(PathBuf::from).into_iter();
    let in_docs = fs::read_dir(root.join("docs")).expect("docs").map(|entry| entry.expect("a document").path());
    let mut tried = 0;
    for document in documents.map(|document| root.join(document)).chain(in_docs) {
        let text = fs::read_to_string(&document).expect("a document");
        for target in text.split("](").skip(1).filter_map(|rest| rest.split(')').next()) {
            let (path, heading) = target.split_once('#').unwrap_or((target, ""));
            let file = if path.is_empty() { document.clone() } else { document.parent().expect("a folder").join(path) };
            assert!(file.exists(), "{document:?} links to {target}");
            let found = || {
                fs::read_to_string(&file).is_ok_and(|t| t.lines().any(|l| l.starts_with('#') && anchor(l) == heading))
            };
            assert!(heading.is_empty() || found(), "{document:?} links to {target}");
            tried += 1;
        }
    }
    assert!(tried >= 25, "only {tried} links");
}

#[test]
fn a_wrong_citation_is_noticed() {
    let root = root();
    let lacking = |text| missing(&root, text).0;
    assert!(lacking("literals/Decode `decode`, `stop_of` and `read_step`; `crates/literals/src/lib.rt`").is_empty());
    assert_eq!(lacking("literals/Decode `decode`, `decoded_twice`; .."), ["literals/Decode `decoded_twice`"]);
    // used there, and defined elsewhere
    assert_eq!(lacking("run_semantics/Play `play_run`, `fact_stop`"), ["run_semantics/Play `fact_stop`"]);
    assert_eq!(lacking("literals/Nowhere `decode`"), ["literals/Nowhere"]);
    assert_eq!(lacking("in `crates/literals/src/none.rt`"), ["crates/literals/src/none.rt"]);
    assert!(
        has_function(&root, "judging::judge")
            && has_function(&root, "State::step")
            && has_function(&root, "play_files")
    );
    assert!(!has_function(&root, "judging::judged") && !has_function(&root, "State::stepped"));
    assert_eq!(cited("edits `a`, `b`; edit `c` (d)", &["edit", "edits"]), ["c", "a", "b"]);
}

/// What a reader must believe, as docs/PROOFS.md says it: counted again by tools/lines-to-believe.
#[test]
fn lines_to_believe_are_counted() {
    let root = root();
    let counted = Command::new("python3").arg("tools/lines-to-believe").current_dir(&root).output().expect("python3");
    let said = String::from_utf8(counted.stdout).expect("a sentence");
    assert!(counted.status.success(), "{}", String::from_utf8_lossy(&counted.stderr));
    let text = fs::read_to_string(root.join("docs/PROOFS.md")).expect("docs/PROOFS.md");
    assert!(text.contains(said.trim()), "docs/PROOFS.md doesn't say: {}", said.trim());
}
