//! What the sources keep to: no line above 140 characters, and the code that trying leaves aside.
use std::fs;
use std::path::{Path, PathBuf};

const LONGEST_LINE: usize = 140;

/// Every file of the crates' code.
fn sources() -> Vec<PathBuf> {
    let crates = Path::new(env!("CARGO_MANIFEST_DIR")).join("../../crates");
    let mut found = Vec::new();
    for folder in fs::read_dir(crates).unwrap() {
        let code = folder.unwrap().path().join("src");
        found.extend(fs::read_dir(code).unwrap().map(|file| file.unwrap().path()));
    }
    found.retain(|path| path.extension().is_some_and(|end| end == "rt"));
    assert!(40 < found.len(), "only {} files of code", found.len());
    found
}

#[test]
fn no_line_is_longer_than_it_may_be() {
    let mut long = Vec::new();
    for path in sources() {
        for (i, line) in fs::read_to_string(&path).unwrap().lines().enumerate() {
            if LONGEST_LINE < line.chars().count() {
                long.push(format!("{}:{}", path.display(), i + 1));
            }
        }
    }
    assert!(long.is_empty(), "lines above {LONGEST_LINE} characters: {long:#?}");
}

/// The crates whose code names classes, decides by names, or shows a refusal.
const CLASS_CODE: [&str; 4] = ["naming", "verdict", "witness", "judging"];

/// "It uses the machine and none of the class code": of classes alone what numbers key tuples. Definitions (`ghost use`) are no code.
#[test]
fn trying_uses_none_of_the_class_code() {
    let is_trying = |path: &PathBuf| path.parent().and_then(Path::parent).is_some_and(|of| of.ends_with("trying"));
    let (mut files, mut of_classes) = (0, Vec::new());
    for path in sources().into_iter().filter(is_trying) {
        files += 1;
        let text = fs::read_to_string(&path).unwrap();
        let code = text.lines().filter(|line| !line.starts_with("ghost use ") && !line.trim_start().starts_with("//"));
        for line in code {
            // a crate is named by a path, behind `use` or in the code
            let words = line.split(|c: char| !c.is_alphanumeric() && c != '_' && c != ':');
            for (krate, _) in words.filter_map(|word| word.split_once("::")) {
                assert!(!CLASS_CODE.contains(&krate), "{}: {line}", path.display());
                if krate == "classes" {
                    of_classes.push(line.to_string());
                }
            }
        }
    }
    assert!(3 < files, "only {files} files of trying");
    of_classes.sort();
    assert_eq!(of_classes, ["use classes::number::{class_tuple, number_classes};"]);
}
