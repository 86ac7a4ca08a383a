//! include/goadlotus.h and this crate have the same sizes, numbers and names, and docs/FORMAT.md has every number.

use goadlotus::{Name, Number, FACT, FILE_LIMIT, REPORT, ROW, TEMPLATE, TEMPLATES, TOTALS, TRIED, WITNESS, WORK};
use std::fs;
use std::path::Path;

fn read(path: &str) -> String {
    let path = Path::new(env!("CARGO_MANIFEST_DIR")).join("../..").join(path);
    fs::read_to_string(&path).unwrap_or_else(|e| panic!("{}: {e}", path.display()))
}

/// The constants of an enum of the header: name, value, and what the comment beside it says.
fn constants(header: &str, of: &str) -> Vec<(String, u64, String)> {
    let (_, behind) = header.split_once(&format!("enum {of} {{\n")).unwrap_or_else(|| panic!("no enum {of}"));
    let (lines, _) = behind.split_once("};").expect("the enum ends");
    let constant = |line: &str| {
        let (name, rest) = line.split_once('=').expect("NAME = VALUE");
        let (value, said) = rest.split_once("/*").unwrap_or((rest, ""));
        let value = value.trim().trim_end_matches(',').parse().expect("a number");
        (name.trim().to_string(), value, said.trim_end_matches("*/").trim().to_string())
    };
    lines.lines().map(constant).collect()
}

/// The header's name of a variant: `CutShort` is GOADLOTUS_CUT_SHORT.
fn in_c(variant: &str) -> String {
    let mut name = String::from("GOADLOTUS");
    for letter in variant.chars() {
        if letter.is_uppercase() {
            name.push('_');
        }
        name.push(letter.to_ascii_uppercase());
    }
    name
}

#[test]
fn numbers() {
    let ours: Vec<_> =
        Number::ALL.iter().map(|n| (in_c(&format!("{n:?}")), n.value(), n.meaning().to_string())).collect();
    assert_eq!(constants(&read("include/goadlotus.h"), "goadlotus_number"), ours);
    assert!(Number::ALL.is_sorted(), "the numbers rise");
}

#[test]
fn names() {
    let ours: Vec<_> = Name::ALL.iter().map(|&n| (in_c(&format!("{n:?}")), n as u64, String::new())).collect();
    let header = read("include/goadlotus.h");
    assert_eq!(constants(&header, "goadlotus_name"), ours);
    let (_, words) = header.split_once("words[] = {\"\",").expect("the words");
    let words = words.split_once('}').expect("their end").0;
    let words: Vec<_> = words.split(',').map(|word| word.trim().trim_matches('"')).collect();
    assert_eq!(words, Name::ALL.map(Name::word));
}

#[test]
fn sizes() {
    let header = read("include/goadlotus.h");
    let defined: Vec<(&str, usize)> = header
        .lines()
        .filter_map(|line| line.strip_prefix("#define GOADLOTUS_")?.split_once(' '))
        .map(|(name, rest)| (name, rest.split_whitespace().next().and_then(|n| n.parse().ok()).expect("a size")))
        .collect();
    let ours = [
        ("FILE_LIMIT", FILE_LIMIT),
        ("REPORT_SIZE", REPORT),
        ("WITNESS_SIZE", WITNESS),
        ("WORK_SIZE", WORK),
        ("TEMPLATES_SIZE", TEMPLATES),
        ("TRIED_SIZE", TRIED),
        ("TOTALS_SIZE", TOTALS),
        ("ROW_SIZE", ROW),
        ("TEMPLATE_SIZE", TEMPLATE),
        ("FACT_SIZE", FACT),
    ];
    assert_eq!(defined, ours);
}

/// Section 10 has each number in a cell, alone or beside another.
#[test]
fn the_format_has_every_number() {
    let format = read("docs/FORMAT.md");
    let (_, section) = format.split_once("\n## 10 All numbers\n").expect("section 10");
    let table = section.split_once("\n## ").expect("section 11").0;
    let cells: Vec<u64> = table.split(['|', ',']).filter_map(|cell| cell.trim().parse().ok()).collect();
    for number in Number::ALL {
        assert!(cells.contains(&number.value()), "docs/FORMAT.md, section 10, lacks {}", number.value());
    }
}

#[test]
fn values_and_back() {
    for &number in Number::ALL {
        assert_eq!(Number::of(number.value()), Some(number));
    }
    for value in [3, 8, 32, 60, u64::MAX] {
        assert_eq!(Number::of(value), None);
    }
    for byte in 0..=255 {
        assert_eq!(Name::of(byte).map(|name| name as u8), (1..=7).contains(&byte).then_some(byte));
    }
}
