//! docs/COURSE.md and docs/NAMES.md are run: their files are written into a folder, their commands are run there, and what they
//! print is what the page shows. With GOADLOTUS_FILL set in the environment the pages are written anew with what they print.

use std::env;
use std::fs;
use std::path::{Path, PathBuf};
use std::process::Command;

fn page_path(name: &str) -> PathBuf {
    Path::new(concat!(env!("CARGO_MANIFEST_DIR"), "/../../docs")).join(name)
}

/// What a page says of a file: its name, and the file it is made of with the lines that are others.
#[derive(Debug)]
struct Told {
    name: String,
    of: Option<(String, Vec<usize>)>,
}

/// `File `NAME`:` or `File `NAME`, which is `OTHER` with these lines in place of 8 and 17:`
fn told(line: &str) -> Option<Told> {
    let parts: Vec<&str> = line.strip_prefix("File `")?.split('`').collect();
    match parts[..] {
        [name, ":"] => Some(Told { name: name.to_string(), of: None }),
        [name, ", which is ", other, rest] => {
            let numbers = rest.trim_end_matches(':').split(' ').filter_map(|word| word.parse().ok()).collect();
            Some(Told { name: name.to_string(), of: Some((other.to_string(), numbers)) })
        }
        _ => None,
    }
}

/// Writes a file of the page.
fn write(folder: &Path, told: &Told, block: &[&str]) {
    let mut lines: Vec<String> = block.iter().map(|line| line.to_string()).collect();
    if let Some((other, numbers)) = &told.of {
        assert_eq!(numbers.len(), block.len(), "{told:?}");
        let text = fs::read_to_string(folder.join(other)).unwrap_or_else(|_| panic!("{other} isn't there yet"));
        let mut whole: Vec<String> = text.lines().map(String::from).collect();
        for (number, line) in numbers.iter().zip(lines) {
            whole[number - 1] = line;
        }
        lines = whole;
    }
    let path = folder.join(&told.name);
    fs::create_dir_all(path.parent().expect("a folder")).expect("a folder");
    fs::write(path, lines.join("\n") + "\n").expect("a file");
}

/// What a command prints, on standard output and standard error as they come.
fn printed(folder: &Path, command: &str) -> String {
    let program = Path::new(env!("CARGO_BIN_EXE_goadlotus"));
    let path = format!("{}:{}", program.parent().expect("a folder").display(), env::var("PATH").unwrap_or_default());
    let script = format!("exec 2>&1; {command}");
    let output = Command::new("sh").args(["-c", &script]).current_dir(folder).env("PATH", path).output().expect("sh");
    String::from_utf8(output.stdout).expect("a text")
}

/// The page with what its commands print now, and how many these are.
fn filled(page: &str, folder: &Path) -> (String, usize) {
    let (mut text, mut commands) = (String::new(), 0);
    let mut waiting: Option<Told> = None;
    let mut lines = page.lines();
    while let Some(line) = lines.next() {
        text += &format!("{line}\n");
        if line.starts_with("File `") {
            waiting = Some(told(line).unwrap_or_else(|| panic!("not a file: {line}")));
        }
        if !line.starts_with("```") {
            continue;
        }
        let block: Vec<&str> = lines.by_ref().take_while(|line| *line != "```").collect();
        if line == "```console" {
            for command in block.iter().filter_map(|line| line.strip_prefix("$ ")) {
                text += &format!("$ {command}\n{}", printed(folder, command));
                commands += 1;
            }
        } else {
            let told = waiting.take().unwrap_or_else(|| panic!("a block of no file: {block:?}"));
            write(folder, &told, &block);
            block.iter().for_each(|line| text += &format!("{line}\n"));
        }
        text += "```\n";
    }
    (text, commands)
}

#[test]
fn the_course_is_true() {
    page_is_true("COURSE.md", 13);
}

#[test]
fn the_names_are_true() {
    page_is_true("NAMES.md", 2);
}

/// A page with so many commands, or more.
fn page_is_true(name: &str, least: usize) {
    let folder = env::temp_dir().join(format!("goadlotus-{name}-{}", std::process::id()));
    fs::create_dir_all(&folder).expect("a folder");
    let page = fs::read_to_string(page_path(name)).expect("a page of docs/");
    let (text, commands) = filled(&page, &folder);
    fs::remove_dir_all(&folder).expect("the folder goes");
    if env::var_os("GOADLOTUS_FILL").is_some() {
        fs::write(page_path(name), &text).expect("a page of docs/");
        return;
    }
    assert!(commands >= least, "{commands}");
    for (shown, now) in page.lines().zip(text.lines()) {
        assert_eq!(shown, now);
    }
    assert_eq!(page, text);
}

/// All five procedures, a right template and two wrong ones, and a run of ten steps.
#[test]
fn the_page_has_what_the_course_needs() {
    let page = fs::read_to_string(page_path("COURSE.md")).expect("docs/COURSE.md");
    for action in ["at once move(", "at once reserve(", "lasting lend(", "at once return(", "lasting repair("] {
        assert!(page.contains(&format!("\n{action}")), "{action}");
    }
    for outcome in ["\naccepted (1): ", "\nrefused (42): ", "reserve(volume", "played to the end (2): 10 steps made"] {
        assert!(page.contains(outcome), "{outcome}");
    }
    for unit in ["## Unit 1", "## Unit 2", "## Unit 3"] {
        let (_, unit) = page.split_once(&format!("\n{unit}")).expect("a unit");
        let unit = unit.split("\n## ").next().unwrap_or_default();
        assert!(
            unit.contains("**Exercise.**") && unit.contains("**Solution.**") && unit.contains("```console"),
            "{unit}"
        );
    }
}

/// The page of the names has all seven, and the file that it shows is the sample.
#[test]
fn the_names_are_all_there() {
    let page = fs::read_to_string(page_path("NAMES.md")).expect("docs/NAMES.md");
    let sample = page_path("../samples/seven-names.domain.txt");
    let sample = fs::read_to_string(sample).expect("samples/seven-names.domain.txt");
    assert!(page.contains(&format!("```\n{sample}```\n")));
    for name in goadlotus::Name::ALL {
        let answer = match name {
            goadlotus::Name::Heavy | goadlotus::Name::Unbalanced | goadlotus::Name::Unbounded => "yes",
            _ => "no",
        };
        assert_eq!(page.matches(&format!("\n| {name} | {answer} | ")).count(), 1, "{name}");
        assert_eq!(page.matches(&format!(" ({name})\n")).count(), 1, "{name}");
    }
}
