//! The examples that README.md shows: both programs are compiled, list the samples, and stand in README.md as they are; and what it says
//! that the command prints is what is stored.

use std::env;
use std::fs;
use std::path::{Path, PathBuf};
use std::process::Command;

fn root() -> PathBuf {
    Path::new(env!("CARGO_MANIFEST_DIR")).join("../..").canonicalize().expect("the repository's root")
}

/// A program prints the listing of every domain file of samples/, and says which file is missing.
fn lists_the_samples(program: &Path) {
    let run = |file: &Path| {
        let out = Command::new(program).arg(file).output();
        out.unwrap_or_else(|e| panic!("{} doesn't start: {e}", program.display()))
    };
    let mut tried = 0;
    for entry in fs::read_dir(root().join("samples")).expect("samples") {
        let file = entry.expect("a file").path();
        if file.extension().is_some_and(|e| e == "domain") {
            let out = run(&file);
            assert!(out.status.success(), "{}: {out:?}", file.display());
            let listing = fs::read_to_string(file.with_extension("listing")).expect("its listing");
            assert_eq!(String::from_utf8_lossy(&out.stdout), listing, "{}", file.display());
            tried += 1;
        }
    }
    assert!(tried >= 60, "only {tried} files of samples/ were found");
    let out = run(Path::new("no such.domain"));
    assert_eq!((out.status.code(), out.stdout.len()), (Some(1), 0));
    let said = String::from_utf8_lossy(&out.stderr);
    assert!(said.starts_with("no such.domain: ") && said.lines().count() == 1, "{said}");
}

/// A program in C over the library, in a folder that goes with it.
struct Compiled {
    folder: PathBuf,
    program: PathBuf,
}

impl Compiled {
    fn of(source: &str) -> Compiled {
        let root = root();
        let name = Path::new(source).file_stem().and_then(|name| name.to_str()).expect("a name");
        let folder = env::temp_dir().join(format!("goadlotus-{name}-{}", std::process::id()));
        fs::create_dir_all(&folder).expect("a temporary folder");
        let program = folder.join(name);
        let out = Command::new("cc")
            .args(["-std=c99", "-pedantic", "-Wall", "-Wextra", "-Werror", "-I"])
            .args([&root.join("include"), Path::new("-o"), &program])
            .args([root.join(source), root.join("crates/goadlotus/out/libgoadlotus.a")])
            .output()
            .unwrap_or_else(|e| panic!("cc doesn't start, and this test needs a C compiler of that name: {e}"));
        assert!(out.status.success(), "cc refuses {source}:\n{}", String::from_utf8_lossy(&out.stderr));
        Compiled { folder, program }
    }
}

impl Drop for Compiled {
    fn drop(&mut self) {
        let _ = fs::remove_dir_all(&self.folder);
    }
}

#[test]
fn c() {
    lists_the_samples(&Compiled::of("include/example.c").program);
}

/// The header's own functions count as this crate does.
#[test]
fn c_counts() {
    let counting = Compiled::of("rust/goadlotus/tests/counts.c");
    let samples = root().join("samples");
    let mut tried = 0;
    for entry in fs::read_dir(&samples).expect("samples") {
        let run = entry.expect("a file").path();
        if run.extension().is_none_or(|e| e != "run") {
            continue;
        }
        let domain = samples.join(fs::read_to_string(run.with_extension("of")).expect("its domain").trim_end());
        let out = Command::new(&counting.program).args([&domain, &run]).output().expect("it starts");
        let (domain, run) = (fs::read(domain).expect("a domain file"), fs::read(run).expect("a run file"));
        let (judged, played) = (goadlotus::judge_file(&domain), goadlotus::play_files(&domain, &run));
        let mut counts = vec![
            judged.answer.number,
            judged.rows().len() as u64,
            judged.facts().len() as u64,
            played.answer.number,
            played.facts().len() as u64,
        ];
        for instance in [&[][..], &[0]] {
            let tracked = goadlotus::track_files(&domain, &run, instance);
            counts.extend([tracked.run.answer.number, tracked.run.facts().len() as u64, tracked.total]);
        }
        let (number, templates) = match goadlotus::list_templates(&domain) {
            Ok(templates) => (0, templates),
            Err(refused) => (refused.number, Vec::new()),
        };
        let entry = |template: &goadlotus::Template| {
            [template.relation.into(), template.counted.unwrap_or(0xFF).into(), template.verdict.value()]
        };
        counts.extend([number, templates.len() as u64]);
        counts.extend(templates.last().map_or([0; 3], entry));
        let (number, answers) = match goadlotus::try_file(&domain) {
            Ok(answers) => (0, answers),
            Err(refused) => (refused.number, Vec::new()),
        };
        counts.extend([number, answers.len() as u64, answers.iter().filter(|&&yes| yes).count() as u64]);
        // the box with the domain file twice, and cut in the second
        let named = |name| judged.rows().filter(|row| row.name as u64 == name).count() as u64;
        counts.extend([0, 568, 2]);
        counts.extend((1..=7).map(|name| 2 * named(name)));
        counts.extend([33, domain.len() as u64 + 4]);
        let told: Vec<u64> = String::from_utf8_lossy(&out.stdout).split_whitespace().flat_map(str::parse).collect();
        assert_eq!(told, counts);
        tried += 1;
    }
    assert!(tried >= 30, "only {tried} run files of samples/ were found");
}

#[test]
fn rust() {
    // target/release/deps/examples-HASH, and beside deps the examples
    let here = env::current_exe().expect("this test's own file");
    let program = here.parent().and_then(Path::parent).expect("the profile's folder").join("examples/judge");
    assert!(program.exists(), "{} isn't built: run cargo test without --test", program.display());
    lists_the_samples(&program);
}

#[test]
fn readme_shows_them() {
    let root = root();
    let readme = fs::read_to_string(root.join("README.md")).expect("README.md");
    for (language, file) in [("c", "include/example.c"), ("rust", "rust/goadlotus/examples/judge.rs")] {
        let text = fs::read_to_string(root.join(file)).expect("an example");
        assert!(readme.contains(&format!("```{language}\n{text}```\n")), "README.md doesn't show {file} as it is");
    }
}

/// What README.md says that the command prints: its words, from a block with them alone, and the block behind it.
fn printed(readme: &str) -> Vec<(Vec<&str>, &str)> {
    let parts: Vec<&str> = readme.split("```\n").collect();
    let shown = parts.windows(3).filter(|next| next[0].starts_with("./goadlotus ") && next[1].is_empty());
    shown.map(|next| (next[0].split_whitespace().skip(1).collect(), next[2])).collect()
}

/// Where GOADLOTUS_FILL is set, README.md gets what is printed instead.
#[test]
fn readme_shows_what_is_printed() {
    let root = root();
    let readme = fs::read_to_string(root.join("README.md")).expect("README.md");
    let shown = printed(&readme);
    let words: Vec<&str> = shown.iter().map(|(words, _)| words[0]).collect();
    assert_eq!(words, ["list", "judge", "explain", "play"]);
    let listing = fs::read_to_string(root.join("samples/m1.listing")).expect("a listing");
    assert_eq!(shown[0], (vec!["list", "samples/m1.domain"], listing.as_str()));
    if !root.join("crates/list/out/list").exists() || !root.join("rust/target/release/goadlotus").exists() {
        eprintln!("the command isn't built, so it isn't tried");
        return;
    }
    let mut filled = readme.clone();
    for (words, output) in shown {
        // no rt: if something is older than its sources, run ./goadlotus list
        let mut command = Command::new("./goadlotus");
        let out = command.args(&words).current_dir(&root).env("PATH", "/usr/bin:/bin").output().expect("it starts");
        let now = String::from_utf8(out.stdout).expect("UTF-8");
        assert!(!now.is_empty(), "{words:?}: {}", String::from_utf8_lossy(&out.stderr));
        if env::var_os("GOADLOTUS_FILL").is_some() {
            filled = filled.replacen(output, &now, 1);
        } else {
            assert_eq!(now, output, "{words:?}; to write it anew: GOADLOTUS_FILL=1");
        }
    }
    if filled != readme {
        fs::write(root.join("README.md"), filled).expect("README.md is written");
    }
}

/// The domain in words that README.md shows.
#[test]
fn readme_shows_m1_in_words() {
    let root = root();
    let readme = fs::read_to_string(root.join("README.md")).expect("README.md");
    let m1 = fs::read_to_string(root.join("samples/m1.domain.txt")).expect("M1 in words");
    assert!(readme.contains(&format!("```\n{m1}```\n")), "README.md doesn't show samples/m1.domain.txt as it is");
}
