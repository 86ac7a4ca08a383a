//! The folder samples/ at the repository's root: every file is judged or played by library and model and compared with
//! the text beside it; its page has every file with its answer; and nothing is missing or left over.

use differential::judging::{self, Judge};
use differential::playing::{self, Play};
use differential::samples::{files, folder, listed, played, states, Files, State};
use differential::serving::TEMPLATES;
use differential::tracking;
use generate::literature::{Named, DEPOTS, DRIVERLOG, FLOORTILE, ROVERS, SATELLITE};
use generate::records::{encode, rec, split};
use goadlotus::{judge, Judgement, REPORT, WITNESS};
use std::collections::BTreeSet;
use std::fs;

const PAGE: &str = "README.md";

/// The folder as it stands, but for the texts in words: these are the command's, and its tests look at them.
fn stored() -> Files {
    let entries = fs::read_dir(folder()).expect("the folder samples/");
    let paths = entries.map(|entry| entry.expect("an entry").path()).filter(|path| !name_of(path).ends_with(".txt"));
    paths.map(|path| (name_of(&path), fs::read(&path).expect("a file"))).collect()
}

fn name_of(path: &std::path::Path) -> String {
    path.file_name().and_then(|name| name.to_str()).expect("a name").to_string()
}

/// The text of a file, empty if there is none.
fn text(files: &Files, name: &str) -> String {
    files.get(name).map(|bytes| String::from_utf8_lossy(bytes).into_owned()).unwrap_or_default()
}

/// The names without this ending.
fn names<'a>(files: &'a Files, ending: &'a str) -> impl Iterator<Item = &'a str> {
    files.keys().filter_map(move |name| name.strip_suffix(ending))
}

/// The domain file that a run is for.
fn domain_of<'a>(files: &'a Files, run: &str) -> Option<(String, &'a [u8])> {
    let of = text(files, &format!("{run}.of")).lines().next()?.to_string();
    let file = files.get(&of).filter(|_| of.ends_with(".domain"))?;
    Some((of, file))
}

/// Every text that isn't what this judge and this player come to.
fn wrong_texts(judge: impl Judge, player: impl Play, files: &Files) -> Vec<String> {
    let mut faults = Vec::new();
    let mut compare = |name: String, got: String| {
        if files.get(&name).map(Vec::as_slice) != Some(got.as_bytes()) {
            faults.push(format!("{name} should be\n{got}"));
        }
    };
    for name in names(files, ".domain") {
        compare(format!("{name}.listing"), listed(&judge, &files[&format!("{name}.domain")]));
    }
    for name in names(files, ".run") {
        match domain_of(files, name) {
            Some((_, domain)) => {
                compare(format!("{name}.played"), played(&player, domain, &files[&format!("{name}.run")]))
            }
            None => compare(format!("{name}.of"), "the name of a domain file here\n".to_string()),
        }
    }
    faults
}

/// Every file that isn't as `write_samples` writes it, or that it doesn't write, or that is missing.
fn not_as_written(files: &Files, written: &Files) -> Vec<String> {
    let here = files.keys().filter(|name| *name != PAGE);
    let all: BTreeSet<&String> = here.chain(written.keys()).collect();
    let other = all.into_iter().filter(|name| files.get(*name) != written.get(*name));
    other.map(|name| format!("{name} isn't as write_samples writes it")).collect()
}

fn written() -> Files {
    files(judge, playing::library)
}

/// What the page doesn't say of a file, or says wrong.
fn wrong_on_page(files: &Files) -> Vec<String> {
    let page = text(files, PAGE);
    let mut faults = Vec::new();
    for line in lines_on_page(files) {
        let found = page.lines().filter(|other| other.starts_with(&line)).count();
        if found != 1 {
            faults.push(format!("{found} lines of {PAGE} begin with {line}"));
        }
    }
    for run in names(files, ".run") {
        let (shown, weights) = (shown_weights(&page, run), weights_of(files, run));
        if shown.is_some_and(|shown| shown != weights) {
            faults.push(format!("the steps of {run}.run on {PAGE} should have the weights {weights:?}"));
        }
    }
    for word in page.split('`').filter(|word| word.ends_with(".domain") || word.ends_with(".run")) {
        if !word.contains([' ', '/']) && !word.starts_with("NAME") && !files.contains_key(word) {
            faults.push(format!("{PAGE} has {word}, which isn't there"));
        }
    }
    faults
}

/// How the page's line about each file begins: its name, for a run its domain, the answer, for a run the weights.
fn lines_on_page(files: &Files) -> Vec<String> {
    let answer = |name: String| {
        let text = text(files, &name);
        let line = text.lines().next().and_then(|line| line.split_once(' '));
        line.map(|(_, numbers)| numbers.to_string()).unwrap_or_default()
    };
    let mut lines = Vec::new();
    for name in names(files, ".domain") {
        lines.push(format!("| `{name}.domain` | {} | ", answer(format!("{name}.listing"))));
    }
    for name in names(files, ".run") {
        let of = domain_of(files, name).map(|(of, _)| of).unwrap_or_default();
        let weights = weights_of(files, name).join(" ");
        lines.push(format!("| `{name}.run` | `{of}` | {} | {weights} | ", answer(format!("{name}.played"))));
    }
    lines
}

/// The cells of a line of a table.
fn cells(line: &str) -> Vec<&str> {
    line.trim_matches('|').split('|').map(str::trim).collect()
}

/// The table under a heading about this run, if there is one: a line for each state.
fn shown<'a>(page: &'a str, run: &str) -> Option<Vec<Vec<&'a str>>> {
    let (_, shown) = page.split_once(&format!("\n### `{run}.run`"))?;
    let table = shown.lines().skip_while(|line| !line.starts_with('|')).take_while(|line| line.starts_with('|'));
    Some(table.skip(2).map(cells).collect())
}

/// The last cells of that table.
fn shown_weights(page: &str, run: &str) -> Option<Vec<String>> {
    Some(shown(page, run)?.iter().filter_map(|cells| Some(cells.last()?.to_string())).collect())
}

/// The states of a run, in which library and model agree.
fn states_of(files: &Files, run: &str) -> Vec<State> {
    let Some((_, domain)) = domain_of(files, run) else { return Vec::new() };
    let run = &files[&format!("{run}.run")];
    let reached = states(playing::library, domain, run);
    assert_eq!(reached, states(playing::model, domain, run));
    reached
}

fn weights_of(files: &Files, run: &str) -> Vec<String> {
    states_of(files, run).iter().map(|state| state.weight.to_string()).collect()
}

fn expect_none(faults: Vec<String>) {
    assert!(faults.is_empty(), "{}", faults.join("\n"));
}

#[test]
fn texts_of_the_library() {
    expect_none(wrong_texts(judge, playing::library, &stored()));
}

#[test]
fn texts_of_the_model() {
    expect_none(wrong_texts(judging::model, playing::model, &stored()));
}

#[test]
fn as_written_and_nothing_else() {
    expect_none(not_as_written(&stored(), &written()));
}

#[test]
fn the_page_has_every_file() {
    expect_none(wrong_on_page(&stored()));
}

/// The repository's README tells how many files there are.
#[test]
fn the_readme_counts_them() {
    let files = stored();
    let readme = fs::read_to_string(folder().join("../README.md")).expect("README.md");
    let (domains, runs) = (names(&files, ".domain").count(), names(&files, ".run").count());
    let told = format!("{domains} domain files and {runs} run files");
    assert!(readme.contains(&told), "README.md doesn't say that samples/ has {told}");
}

/// What the page shows step by step, the runs that decide where a published answer differs: the facts that it tells of
/// the instance are those held. (No other instance has any in these runs.)
#[test]
fn the_page_shows_the_deciding_runs() {
    let (files, rovers, depots) = (stored(), Named::read(ROVERS), Named::read(DEPOTS));
    let page = text(&files, PAGE);
    for (run, named) in [
        ("rovers-soil", &rovers),
        ("rovers-rock", &rovers),
        ("rovers-sample-or-store", &rovers),
        ("depots-stacked", &depots),
        ("depots-clear", &depots),
    ] {
        let shown = shown(&page, run).unwrap_or_else(|| panic!("{run} isn't shown"));
        let domain = model::read(&files[&format!("{run}.domain")]).expect("a domain");
        let counts = |fact: &&Vec<u8>| domain.template.components.iter().any(|component| component.relation == fact[0]);
        let held = states_of(&files, run);
        assert_eq!(shown.len(), held.len(), "{run}");
        for (cells, state) in shown.iter().zip(&held) {
            let told: Vec<Vec<u8>> = cells[2].split(", ").map(|fact| fact_of(named, fact)).collect();
            assert_eq!(told.iter().collect::<Vec<_>>(), state.facts.iter().filter(counts).collect::<Vec<_>>(), "{run}");
        }
    }
}

/// A fact as the page writes it: `at(0,4)`.
fn fact_of(domain: &Named, text: &str) -> Vec<u8> {
    let (relation, objects) = text.strip_suffix(')').and_then(|text| text.split_once('(')).expect("a fact");
    let objects = objects.split(',').map(|object| object.parse::<u8>().expect("an object"));
    [domain.relation(relation)].into_iter().chain(objects).collect()
}

/// The template that the page tells of a domain of the literature is the one in its file.
#[test]
fn the_page_has_the_templates() {
    let files = stored();
    let page = text(&files, PAGE);
    let domains = [
        ("depots", DEPOTS, 5),
        ("driverlog", DRIVERLOG, 2),
        ("floortile", FLOORTILE, 3),
        ("rovers", ROVERS, 7),
        ("satellite", SATELLITE, 2),
    ];
    for (name, domain, count) in domains {
        let lines: Vec<&str> =
            page.lines().filter(|line| line.starts_with(&format!("| `{name}-")) && !line.contains(".run`")).collect();
        assert_eq!(lines.len(), count, "{name}");
        for line in lines {
            let cells = cells(line);
            let records = Named::read(domain).with(cells[2]).records();
            let template = records.iter().position(|record| record.kind == 4).expect("a component");
            let file = &files[cells[0].trim_matches('`')];
            assert!(file.ends_with(&encode(&records[template..])), "{line}");
            assert_eq!(model::read(file).expect("a domain").template.components.len(), records.len() - 1 - template);
        }
    }
}

/// The section of the page about the templates of one relation.
fn page_of_templates(files: &Files) -> String {
    let page = text(files, PAGE);
    let (_, section) = page.split_once("\n## Every template of one relation\n").expect("the section");
    section.split("\n## ").next().unwrap_or_default().to_string()
}

/// The lists of templates that the page has are those of library and model: a line for each relation, the verdicts of the
/// template that counts nothing, then by the counted place.
#[test]
fn the_page_lists_the_templates() {
    let files = stored();
    let section = page_of_templates(&files);
    let m1 = String::from_utf8(fs::read(folder().join("m1.domain.txt")).expect("M1 in words")).expect("a text");
    let domains = [
        ("M1", "m1", m1.as_str()),
        ("Floortile", "floortile-tile", FLOORTILE),
        ("Depots", "depots-crate", DEPOTS),
        ("DriverLog", "driverlog-package", DRIVERLOG),
        ("Rovers", "rovers-position", ROVERS),
        ("Satellite", "satellite-pointing", SATELLITE),
    ];
    assert_eq!(section.matches("\n### ").count(), domains.len());
    for (title, name, named) in domains {
        let named = Named::read(named);
        let (_, told) = section.split_once(&format!("\n### {title}, `{name}.domain`\n")).expect("its list");
        let lines = told.lines().skip_while(|line| !line.starts_with('|')).take_while(|line| line.starts_with('|'));
        let mut list: Vec<u8> = Vec::new();
        for cells in lines.skip(2).map(cells) {
            let verdicts = cells[1..].iter().filter(|cell| !cell.is_empty());
            for (count, verdict) in verdicts.enumerate() {
                let counted = count.checked_sub(1).map_or(0xFF, |place| place as u8);
                list.extend([named.relation(cells[0]), counted, verdict.parse().expect("a verdict")]);
            }
        }
        for serve in [TEMPLATES.library, |file: &[u8], list: &mut [u8]| TEMPLATES.model(file, list)] {
            let mut memory = vec![0; list.len()];
            let served = serve(&files[&format!("{name}.domain")], &mut memory);
            assert_eq!((served.number, served.first as usize), (0, list.len()), "{name}");
            assert_eq!(memory, list, "{name}");
        }
    }
}

/// What the page says of the published templates of one relation: the verdict, and whether it is found.
#[test]
fn the_page_says_which_are_found() {
    let section = page_of_templates(&stored());
    let mut told = 0;
    for cells in section.lines().filter(|line| line.starts_with("| ")).map(cells) {
        let [domain, template, verdict, found] = cells[..] else { continue };
        let text = match domain {
            "Floortile" => FLOORTILE,
            "Depots" => DEPOTS,
            "Rovers" => ROVERS,
            "Satellite" => SATELLITE,
            _ => continue,
        };
        let file = Named::read(text).with(template).file();
        let number = judge(&file, &mut [0; REPORT], &mut [0; WITNESS]).number;
        assert_eq!(verdict, number.to_string(), "{template}");
        assert_eq!(found.starts_with("Found"), number < 2, "{template}");
        told += 1;
    }
    assert_eq!(told, 10);
}

/// The totals that the page tells of an instance are those of library and model, in every state.
#[test]
fn the_page_has_the_totals() {
    let files = stored();
    let page = text(&files, PAGE);
    let mut told = 0;
    for cells in page.lines().filter(|line| line.starts_with("| `")).map(cells) {
        let [run, of, _, _, instance, totals, _] = cells[..] else { continue };
        let [run, domain] = [run, of].map(|name| &files[name.trim_matches('`')][..]);
        let instance: Vec<u8> = instance.split(' ').map(|object| object.parse().expect("an object")).collect();
        for track in [tracking::library, tracking::model] {
            let state = |run: &Vec<u8>| track(domain, run, &instance, &mut [0; goadlotus::WORK]).total.to_string();
            let states: Vec<String> = cuts(run).iter().map(state).collect();
            assert_eq!(states.join(" "), totals, "{cells:?}");
        }
        told += 1;
    }
    assert_eq!(told, 4);
}

/// The run file cut behind its start facts and behind each of its steps, and closed.
fn cuts(run: &[u8]) -> Vec<Vec<u8>> {
    let records = split(run);
    let start = records.iter().take_while(|record| record.kind < 18).count();
    let closes = records.iter().enumerate().filter(|(_, record)| record.kind == 19).map(|(at, _)| at + 1);
    let cut = |end: usize| encode(&[&records[..end], &[rec(20, [])]].concat());
    [start].into_iter().chain(closes).map(cut).collect()
}

/// The texts are those of the programs: for every stored file of the crates `list_samples` and `play_samples` the same as
/// the output that is stored there, which the gate compares with the programs' own.
#[test]
fn texts_are_those_of_the_programs() {
    let crates = folder().join("../crates");
    let read = |path: &str| fs::read(crates.join(path)).unwrap_or_else(|_| panic!("crates/{path}"));
    let lines =
        |path: &str| -> Vec<String> { String::from_utf8(read(path)).unwrap().lines().map(String::from).collect() };
    let mut listings = String::new();
    for name in lines("list_samples/args") {
        listings += &format!("{name}\n{}", listed(judge, &read(&format!("list_samples/data/{name}"))));
    }
    assert!(listings.as_bytes() == read("list_samples/stdout"), "{listings}");
    let mut runs = String::new();
    for pair in lines("play_samples/args").chunks(2) {
        let [domain, run] = [0, 1].map(|file| read(&format!("play_samples/data/{}", pair[file])));
        runs += &format!("{} {}\n{}", pair[0], pair[1], played(playing::library, &domain, &run));
    }
    assert!(runs.as_bytes() == read("play_samples/stdout"), "{runs}");
}

/// A changed byte, wherever it is, is noticed; in a text, or in the name of a run's domain, by comparing texts alone.
#[test]
fn a_changed_byte_is_noticed() {
    let (stored, written) = (stored(), written());
    for (name, bytes) in &written {
        let (stem, ending) = name.rsplit_once('.').expect("an ending");
        // The other texts say nothing about this file.
        let of = domain_of(&stored, stem).map_or(stem.to_string(), |(of, _)| of.replace(".domain", ""));
        let is_near = |other: &str| other.rsplit_once('.').is_some_and(|(other, _)| other == stem || other == of);
        let mut files: Files = stored.clone().into_iter().filter(|(other, _)| is_near(other)).collect();
        let written: Files = written.clone().into_iter().filter(|(other, _)| is_near(other)).collect();
        for at in 0..bytes.len() {
            let mut changed = bytes.clone();
            changed[at] ^= 1;
            files.insert(name.clone(), changed);
            let wrong = match ending {
                "listing" | "played" | "of" => wrong_texts(judge, playing::library, &files),
                _ => not_as_written(&files, &written),
            };
            assert!(!wrong.is_empty(), "byte {at} of {name}");
        }
        files.insert(name.clone(), bytes.clone());
        assert!(wrong_texts(judge, playing::library, &files).is_empty(), "{name}");
    }
}

/// A file that is missing or that nobody asked for is noticed, by its neighbour or on the page too.
#[test]
fn a_missing_file_is_noticed() {
    let (stored, written) = (stored(), written());
    for name in written.keys() {
        let mut files = stored.clone();
        files.remove(name);
        assert!(!not_as_written(&files, &written).is_empty(), "{name}");
        let wrong = match name.ends_with(".domain") || name.ends_with(".run") {
            true => wrong_on_page(&files),
            false => wrong_texts(judge, playing::library, &files),
        };
        assert!(!wrong.is_empty(), "{name}");
    }
    let mut files = stored.clone();
    files.insert("more.domain".to_string(), Vec::new());
    assert!(!not_as_written(&files, &written).is_empty());
    assert!(!wrong_texts(judge, playing::library, &files).is_empty());
    assert!(!wrong_on_page(&files).is_empty());
}

/// The page without any one of its lines about a file, or with another digit in it, is noticed.
#[test]
fn a_changed_page_is_noticed() {
    let stored = stored();
    let page = text(&stored, PAGE);
    let mut lines_of_files = 0;
    for (at, line) in page.lines().enumerate().filter(|(_, line)| line.starts_with("| `") && !line.contains("NAME")) {
        lines_of_files += 1;
        let digit = line.find(" | ").and_then(|from| Some(from + line[from..].find(|c: char| c.is_ascii_digit())?));
        let digit = digit.expect("an answer");
        let other = format!("{}7{}", &line[..digit], &line[digit + 1..]);
        for instead in [None, Some(other.as_str())] {
            let lines = page.lines().enumerate().filter_map(|(n, line)| if n == at { instead } else { Some(line) });
            let changed = lines.collect::<Vec<_>>().join("\n");
            let mut files = stored.clone();
            files.insert(PAGE.to_string(), changed.into_bytes());
            assert!(!wrong_on_page(&files).is_empty(), "{line}");
        }
    }
    assert_eq!(lines_of_files, names(&stored, ".domain").count() + names(&stored, ".run").count());
}

/// A judge or a player that is wrong in one place is noticed.
#[test]
fn a_wrong_answer_is_noticed() {
    let stored = stored();
    let lenient = |file: &[u8], report: &mut [u8], witness: &mut [u8]| match judge(file, report, witness) {
        Judgement { number: 43, .. } => Judgement { number: 1, first: 0, second: 0, third: 0 },
        answer => answer,
    };
    assert_eq!(wrong_texts(lenient, playing::library, &stored).len(), 3);
    let light = |domain: &[u8], run: &[u8], work: &mut [u8]| {
        let played = playing::library(domain, run, work);
        playing::Played { weight: played.weight.min(1), ..played }
    };
    let weighs_two = |name: &&str| text(&stored, &format!("{name}.played")).lines().next().unwrap().ends_with(" 2");
    let heavy = names(&stored, ".run").filter(weighs_two).count();
    assert_eq!((wrong_texts(judge, light, &stored).len(), heavy), (23, 23));
}
