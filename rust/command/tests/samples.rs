//! The texts beside the samples, and the domains of the literature: in words what the files are in bytes.

use command::domain::Domain;
use command::files::{domain_of, run_of};
use command::notation::source::tell;
use command::notation::{domain_text, run_text};
use generate::literature::{Named, DEPOTS, DRIVERLOG, FLOORTILE, ROVERS, SATELLITE};
use std::collections::BTreeSet;
use std::fs;
use std::path::PathBuf;

fn folder() -> PathBuf {
    PathBuf::from(concat!(env!("CARGO_MANIFEST_DIR"), "/../../samples"))
}

/// The names of the files with this ending, without it.
fn names(ending: &str) -> BTreeSet<String> {
    let entries = fs::read_dir(folder()).expect("samples/").map(|entry| entry.expect("an entry").file_name());
    let names = entries.map(|name| name.into_string().expect("a name"));
    names.filter_map(|name| Some(name.strip_suffix(ending)?.to_string())).collect()
}

fn bytes(name: &str) -> Vec<u8> {
    fs::read(folder().join(name)).unwrap_or_else(|_| panic!("samples/{name}"))
}

fn text(name: &str) -> String {
    String::from_utf8(bytes(name)).expect("a text")
}

/// What a domain in words says, with its names.
fn named(name: &str) -> (Vec<u8>, Domain) {
    let text = text(&format!("{name}.domain.txt"));
    let read = domain_text::read(&text).unwrap_or_else(|faults| panic!("{}", tell(name, &text, &faults)));
    let domain = Domain::of(&read.written.file, &read.names);
    (read.written.file, domain)
}

#[test]
fn every_file_has_its_words() {
    let (domains, runs) = (names(".domain"), names(".run"));
    assert!(domains.len() > 60 && runs.len() > 30);
    assert_eq!(names(".domain.txt"), domains);
    assert_eq!(names(".run.txt"), runs);
    assert_eq!(names(".txt").len(), domains.len() + runs.len());
    for name in &domains {
        assert!(named(name).0 == bytes(&format!("{name}.domain")), "{name}");
    }
    for name in &runs {
        let of = text(&format!("{name}.of")).trim().replace(".domain", "");
        let text = text(&format!("{name}.run.txt"));
        let read = run_text::read(&text, Some(&named(&of).1));
        let read = read.unwrap_or_else(|faults| panic!("{}", tell(name, &text, &faults)));
        assert!(read.written.file == bytes(&format!("{name}.run")), "{name}");
    }
}

/// Words and bytes are told apart by their first bytes, for every sample.
#[test]
fn words_and_bytes_are_told_apart() {
    for name in names(".domain") {
        let bytes = domain_of("b", bytes(&format!("{name}.domain"))).expect("bytes");
        let words = domain_of("w", text(&format!("{name}.domain.txt")).into_bytes()).expect("words");
        assert!(bytes.text.is_none() && words.text.is_some(), "{name}");
        assert_eq!(bytes.judged, words.judged, "{name}");
    }
    for name in names(".run") {
        assert!(run_of("b", bytes(&format!("{name}.run")), None).expect("bytes").text.is_none(), "{name}");
    }
}

/// The two readers of the literature, this one and the plain one that makes the samples, read the same.
#[test]
fn the_literature_is_read_alike() {
    for text in [DEPOTS, DRIVERLOG, FLOORTILE, ROVERS, SATELLITE] {
        let read = domain_text::read(text).unwrap_or_else(|faults| panic!("{}", tell("literature", text, &faults)));
        let (_, template) = text.trim_end().rsplit_once("template ").expect("a template");
        let template = template.replace(' ', ", ").replace('_', "FF");
        let by_name = template.split(", ").map(|component| component.split('[').next().unwrap_or_default());
        assert!(by_name.clone().all(|name| !name.contains("FF")), "a name with _ would be changed: {template}");
        assert!(Named::read(text).with(&template).file() == read.written.file, "{template}");
    }
}
