//! `goadlotus totals`: files, folders and boxes counted; every total against what judging says of each file.

mod folder;

use folder::Folder;
use std::collections::BTreeMap;
use std::fs;
use std::io::Write;
use std::path::Path;
use std::process::{Command, Output, Stdio};
use std::time::{Duration, Instant};

const SAMPLES: &str = concat!(env!("CARGO_MANIFEST_DIR"), "/../../samples");

fn run(arguments: &[&str], input: &[u8]) -> Output {
    let mut command = Command::new(env!("CARGO_BIN_EXE_goadlotus"));
    command.arg("totals").args(arguments).stdin(Stdio::piped()).stdout(Stdio::piped()).stderr(Stdio::piped());
    let mut child = command.spawn().expect("the command");
    child.stdin.take().expect("standard input").write_all(input).expect("it is read");
    child.wait_with_output().expect("an end")
}

fn text(path: &Path) -> &str {
    path.to_str().expect("a name")
}

fn said(output: &Output) -> String {
    String::from_utf8_lossy(&output.stdout).into_owned()
}

fn complained(output: &Output) -> String {
    String::from_utf8_lossy(&output.stderr).into_owned()
}

/// The samples in bytes, by name.
fn samples() -> Vec<Vec<u8>> {
    let entries = fs::read_dir(SAMPLES).expect("samples");
    let mut paths: Vec<_> = entries.map(|entry| entry.expect("an entry").path()).collect();
    paths.retain(|path| path.extension().is_some_and(|extension| extension == "domain"));
    paths.sort();
    paths.iter().map(|path| fs::read(path).expect("a sample")).collect()
}

fn boxed(files: &[Vec<u8>]) -> Vec<u8> {
    let mut all = Vec::new();
    files.iter().for_each(|file| goadlotus::put_in_box(&mut all, file));
    all
}

/// What the table should say, from what judging says of each file: (of, number, total).
fn expected(files: &[Vec<u8>]) -> Vec<(String, String, u64)> {
    let (mut numbers, mut names) = (BTreeMap::new(), [0u64; 7]);
    for file in files {
        let judged = goadlotus::judge_file(file);
        *numbers.entry(judged.answer.number).or_insert(0u64) += 1;
        judged.rows().for_each(|row| names[row.name as usize - 1] += 1);
    }
    let mut lines: Vec<_> = numbers.iter().map(|(n, &total)| ("files".to_string(), n.to_string(), total)).collect();
    lines.push(("files".to_string(), String::new(), numbers.values().sum()));
    lines.extend(names.iter().enumerate().map(|(k, &total)| ("moments".to_string(), (k + 1).to_string(), total)));
    lines.push(("moments".to_string(), String::new(), names.iter().sum()));
    lines
}

/// The same as a table in TSV has it.
fn told(output: &Output) -> Vec<(String, String, u64)> {
    let line = |line: &str| {
        let cells: Vec<&str> = line.split('\t').collect();
        (cells[0].to_string(), cells[1].to_string(), cells[2].parse().expect("a total"))
    };
    said(output).lines().skip(1).map(line).collect()
}

#[test]
fn files_folders_and_boxes() {
    let files = samples();
    assert!(files.len() > 50);
    let folder = Folder::new("totals");
    for (number, file) in files.iter().enumerate() {
        folder.put(&format!("{number:03}.domain"), file);
    }
    let of_folder = run(&["--tsv", text(&folder.0)], b"");
    assert_eq!((of_folder.status.code(), complained(&of_folder)), (Some(0), String::new()));
    assert_eq!(told(&of_folder), expected(&files));
    // the same files in a box, by its name, by the option, and on standard input
    let apart = Folder::new("totals of a box");
    let named = apart.put("term.box", boxed(&files));
    assert_eq!(said(&run(&["--tsv", text(&named)], b"")), said(&of_folder));
    let plain = apart.put("term", boxed(&files));
    assert_eq!(said(&run(&["--tsv", "--box", text(&plain)], b"")), said(&of_folder));
    assert_eq!(said(&run(&["--tsv", "--box", "-"], &boxed(&files))), said(&of_folder));
    // without it the box is one file, and that is told
    let one = run(&["--tsv", text(&plain)], b"");
    assert_eq!(told(&one), expected(&[boxed(&files)]));
    assert!(complained(&one).contains("--box"), "{}", complained(&one));
    // files and a box together
    let both = run(&["--tsv", text(&folder.0), text(&named)], b"");
    assert_eq!(told(&both), expected(&[files.clone(), files].concat()));
}

#[test]
fn three_forms() {
    let m1 = format!("{SAMPLES}/m1.domain");
    let columns = "\
of       number  total  meaning
files    1       1      accepted; some journey's end is unbounded
files            1      all
moments  1       0      unreachable
moments  2       1      irrelevant
moments  3       0      heavy
moments  4       1      balanced
moments  5       0      unbalanced
moments  6       0      bounded
moments  7       1      unbounded
moments          3      all
";
    assert_eq!(said(&run(&[&m1], b"")), columns);
    let json = said(&run(&["--json", &m1], b""));
    assert!(json.starts_with("{\"of\": \"files\", \"number\": 1, \"total\": 1, \"meaning\": \"accepted; "), "{json}");
    assert_eq!(json.lines().count(), 10);
    // every number that a file can meet
    let all = said(&run(&["--tsv", "--all", &m1], b""));
    let numbers: Vec<&str> = all.lines().skip(1).filter(|line| line.starts_with("files\t")).collect();
    assert_eq!(numbers.len(), 2 + 19 + 4 + 1, "{all}");
}

#[test]
fn what_is_not_counted() {
    let files = samples();
    let folder = Folder::new("totals cut");
    let whole = boxed(&files);
    let cut = folder.put("cut.box", &whole[..whole.len() - 1]);
    let last = whole.len() - files.last().expect("a file").len() - 4;
    let output = run(&["--tsv", text(&cut)], b"");
    assert_eq!(output.status.code(), Some(4));
    assert_eq!(told(&output), expected(&[]));
    assert!(complained(&output).contains(&format!("at offset {last}: the box is cut")), "{}", complained(&output));
    // words that are no domain are told in a line, and the rest is counted
    folder.put("words.txt", "this is\nno domain\n");
    folder.put("m1.domain", &files[0]);
    fs::remove_file(&cut).expect("gone");
    let output = run(&["--tsv", text(&folder.0)], b"");
    assert_eq!((output.status.code(), complained(&output).lines().count()), (Some(4), 1));
    assert_eq!(told(&output), expected(&files[..1]));
    // a file that isn't there
    assert_eq!(run(&["--box", "no such box"], b"").status.code(), Some(1));
    assert_eq!(run(&[], b"").status.code(), Some(2));
}

/// A folder of 10,000 hand-ins is counted in seconds, and adds up.
#[test]
fn ten_thousand() {
    let files = samples();
    let folder = Folder::new("totals many");
    let all: Vec<Vec<u8>> = files.iter().filter(|file| file.len() < 4_000).cycle().take(10_000).cloned().collect();
    for (number, file) in all.iter().enumerate() {
        folder.put(&format!("{number:05}.domain"), file);
    }
    let begin = Instant::now();
    let output = run(&["--tsv", text(&folder.0)], b"");
    let took = begin.elapsed();
    println!("10,000 hand-ins counted in {:.2} s", took.as_secs_f64());
    assert_eq!(told(&output), expected(&all));
    assert!(took < Duration::from_secs(10), "{took:?}");
}
