//! The release, where the programs are built: it is packed, unpacked in an empty folder, and tried there with an empty environment but for
//! the system's own PATH, as it comes and installed; programs in C and Rust are built over it.

use std::fs::{self, Permissions};
use std::os::unix::fs::PermissionsExt;
use std::path::{Path, PathBuf};
use std::process::{Command, Output};

const PATH: (&str, &str) = ("PATH", "/usr/bin:/bin");

fn root() -> PathBuf {
    Path::new(env!("CARGO_MANIFEST_DIR")).join("../..").canonicalize().expect("the repository's root")
}

/// Exit status, standard output, standard error.
type Answer = (i32, String, String);

fn answer(out: Output) -> Answer {
    let text = |bytes| String::from_utf8(bytes).expect("UTF-8");
    (out.status.code().expect("an exit status"), text(out.stdout), text(out.stderr))
}

/// A program in a folder, with nothing in its environment but PATH.
fn bare(program: impl AsRef<Path>, folder: &Path) -> Command {
    let mut command = Command::new(program.as_ref());
    command.current_dir(folder).env_clear().envs([PATH]);
    command
}

fn tried(program: impl AsRef<Path>, folder: &Path, words: &[&str]) -> Answer {
    answer(bare(program, folder).args(words).output().expect("it starts"))
}

/// What went well, and its output.
fn done(mut command: Command) -> String {
    let (status, out, said) = answer(command.output().expect("it starts"));
    assert_eq!(status, 0, "{command:?}: {said}");
    out
}

/// A release of this checkout, unpacked in a folder of its own. All goes with the test.
struct Release {
    folder: PathBuf,
    unpacked: PathBuf,
    version: String,
}

impl Release {
    /// None where the programs aren't built.
    fn packed(name: &str) -> Option<Release> {
        let root = root();
        for path in [
            "crates/list/out/list",
            "crates/play/out/play",
            "crates/goadlotus/out/libgoadlotus.a",
            "rust/target/release/goadlotus",
        ] {
            if !root.join(path).exists() {
                eprintln!("{path} isn't built, so no release is tried");
                return None;
            }
        }
        let folder = std::env::temp_dir().join(format!("goadlotus {name} релиз {}", std::process::id()));
        let empty = folder.join("empty");
        fs::create_dir_all(&empty).expect("a folder");
        let mut release = Release { folder, unpacked: empty.clone(), version: String::new() };
        let folder = &release.folder;
        // no rt: if something is older than its sources, run ./goadlotus list
        let (status, packed, said) = tried(root.join("release"), &root, &[folder.to_str().expect("UTF-8")]);
        assert_eq!(status, 0, "{said}");
        let packed = packed.trim_end();
        assert_eq!(tried("tar", &empty, &["-xzf", packed]), (0, String::new(), String::new()));
        assert_eq!(tried("sha256sum", folder, &["--quiet", "-c", &format!("{packed}.sha256")]).0, 0);
        let name = Path::new(packed).file_name().and_then(|n| n.to_str()).expect("a name");
        let version = name.strip_prefix("goadlotus-").and_then(|n| n.strip_suffix("-linux-x86_64.tar.gz"));
        release.version = version.unwrap_or_else(|| panic!("{name} is no name of a release")).to_string();
        release.unpacked = empty.join(name.strip_suffix(".tar.gz").expect("a packed file"));
        Some(release)
    }

    fn told(&self, words: &[&str]) -> Answer {
        tried("./goadlotus", &self.unpacked, words)
    }
}

impl Drop for Release {
    fn drop(&mut self) {
        let _ = fs::set_permissions(&self.unpacked, Permissions::from_mode(0o755));
        let _ = fs::remove_dir_all(&self.folder);
    }
}

/// Every word, in a folder that can't be written.
#[test]
fn words() {
    let Some(release) = Release::packed("words") else { return };
    fs::set_permissions(&release.unpacked, Permissions::from_mode(0o555)).expect("permissions");
    let sample = |name: &str| fs::read_to_string(release.unpacked.join("samples").join(name)).expect(name);
    assert_eq!(release.told(&["--version"]), (0, format!("goadlotus {}\n", release.version), String::new()));
    let (status, help, said) = release.told(&["--help"]);
    assert_eq!((status, said.as_str()), (0, ""));
    for word in ["list", "judge", "explain", "play", "show", "write", "mark"] {
        assert!(help.contains(&format!("goadlotus {word} ")), "the help lacks {word}:\n{help}");
        assert_eq!(release.told(&[word, "--help"]).0, 0, "{word}");
    }
    // it fits a terminal of 80 columns
    assert!(help.lines().all(|line| line.chars().count() < 80), "{help}");
    let (m1, m5, m12) = ("samples/m1.domain", "samples/m5.domain", "samples/m12.run");
    assert_eq!(release.told(&["list", m1]), (0, sample("m1.listing"), String::new()));
    assert_eq!(release.told(&["list", m5]), (3, sample("m5.listing"), String::new()));
    assert_eq!(release.told(&["list", "samples/m11.domain"]), (4, sample("m11.listing"), String::new()));
    let played = tried("libexec/goadlotus/play", &release.unpacked, &[m1, m12]);
    assert_eq!(played, (0, sample("m12.played"), String::new()));
    for (words, status) in [
        (&["judge", m1][..], 0),
        (&["judge", m5], 3),
        (&["judge", "samples/m11.domain"], 4),
        (&["explain", m5], 3),
        (&["play", m1, m12], 3),
        (&["play", m1, "samples/m1-lent.run"], 0),
        (&["show", m1], 0),
        (&["mark", m1, "samples/m1.listing"], 0),
    ] {
        let (ended, out, said) = release.told(words);
        assert!(ended == status && !(out + &said).is_empty(), "{words:?}: status {ended}\n{said}");
    }
    for (words, status) in [(&["judge", "no such"][..], 1), (&["list", "no such"], 1), (&["judge"], 2), (&["list"], 2)]
    {
        let (ended, out, said) = release.told(words);
        assert!(ended == status && out.is_empty() && !said.is_empty(), "{words:?}: status {ended}\n{out}{said}");
    }
    // a file in words is written as the bytes that it was shown from
    let shown = release.folder.join("m1 in words");
    fs::write(&shown, release.told(&["show", m1]).1).expect("a file");
    let written = bare("./goadlotus", &release.unpacked).arg("write").arg(shown).output().expect("it starts");
    assert_eq!(written.stdout, fs::read(release.unpacked.join(m1)).expect(m1));
}

/// Everything is there, with its checksum, and needs no library but the system's.
#[test]
fn contents() {
    let Some(release) = Release::packed("contents") else { return };
    let here = &release.unpacked;
    assert_eq!(tried("sha256sum", here, &["--quiet", "-c", "SHA256SUMS"]), (0, String::new(), String::new()));
    let summed = fs::read_to_string(here.join("SHA256SUMS")).expect("SHA256SUMS").lines().count();
    let mut find = bare("find", here);
    find.args([".", "-type", "f"]);
    assert_eq!(done(find).lines().count(), summed + 1, "a file without checksum");
    for file in
        ["README.md", "LICENSE", "docs/FORMAT.md", "include/example.c", "samples/README.md", "samples/m1.domain"]
    {
        let (ours, theirs) = (fs::read(root().join(file)).expect(file), fs::read(here.join(file)).expect(file));
        assert!(ours == theirs, "{file}");
    }
    for program in ["goadlotus", "list", "play"] {
        let mut ldd = bare("ldd", here);
        ldd.arg(here.join("libexec/goadlotus").join(program));
        for line in done(ldd).lines() {
            let library = line.split_whitespace().next().expect("a library").rsplit('/').next().expect("its name");
            let of_the_system = ["linux-vdso.so.1", "libc.so.6", "libgcc_s.so.1", "ld-linux-x86-64.so.2"];
            assert!(of_the_system.contains(&library) && !line.contains("not found"), "{program} needs {line}");
        }
    }
    // the same checkout gives the same release
    let Some(again) = Release::packed("contents again") else { return };
    let sums = |r: &Release| {
        let name = format!("goadlotus-{}-linux-x86_64.tar.gz.sha256", r.version);
        fs::read_to_string(r.folder.join(name)).expect("a checksum")
    };
    assert_eq!(sums(&release), sums(&again));
}

#[test]
fn installed() {
    let Some(release) = Release::packed("installed") else { return };
    let prefix = release.folder.join("a prefix");
    let install = |words: &[&str]| {
        let mut command = bare("./install", &release.unpacked);
        command.args(words);
        command
    };
    assert_eq!(answer(install(&[]).output().expect("it starts")).0, 2);
    done(install(&[prefix.to_str().expect("UTF-8")]));
    let mut below = install(&["/usr"]);
    below.env("DESTDIR", release.folder.join("a package"));
    done(below);
    let elsewhere = release.folder.join("elsewhere");
    fs::create_dir(&elsewhere).expect("a folder");
    for place in [prefix, release.folder.join("a package/usr")] {
        let samples = place.join("share/doc/goadlotus/samples");
        let listing = fs::read_to_string(samples.join("m5.listing")).expect("a listing");
        let m5 = samples.join("m5.domain");
        let listed = tried(place.join("bin/goadlotus"), &elsewhere, &["list", m5.to_str().expect("UTF-8")]);
        assert_eq!(listed, (3, listing, String::new()));
        assert_eq!(tried(place.join("bin/goadlotus"), &elsewhere, &["judge", m5.to_str().expect("UTF-8")]).0, 3);
        for file in ["include/goadlotus.h", "lib/libgoadlotus.a", "share/doc/goadlotus/LICENSE"] {
            assert!(place.join(file).is_file(), "{file}");
        }
    }
    // a link leads to it as well
    std::os::unix::fs::symlink(release.unpacked.join("goadlotus"), elsewhere.join("linked")).expect("a link");
    assert_eq!(tried("./linked", &elsewhere, &["--version"]).0, 0);
    // damaged, nothing is installed; and a checkout has nothing to install
    fs::write(release.unpacked.join("LICENSE"), "none").expect("a file");
    let nowhere = release.folder.join("nowhere");
    let (status, _, said) = answer(install(&[nowhere.to_str().expect("UTF-8")]).output().expect("it starts"));
    assert!(status == 1 && said.contains("damaged") && !nowhere.exists(), "{said}");
    let (status, _, said) = tried(root().join("install"), &elsewhere, &[nowhere.to_str().expect("UTF-8")]);
    assert!(status == 1 && said.contains("no release") && !nowhere.exists(), "{said}");
}

/// The examples in C and Rust, in the release's own folder.
#[test]
fn examples() {
    let Some(release) = Release::packed("examples") else { return };
    let here = &release.unpacked;
    let listing = fs::read_to_string(here.join("samples/m1.listing")).expect("a listing");
    let mut cc = bare("cc", here);
    cc.args(["-o", "example", "include/example.c", "lib/libgoadlotus.a"]);
    done(cc);
    assert_eq!(tried("./example", here, &["samples/m1.domain"]), (0, listing.clone(), String::new()));
    let mut cargo = cargo("run", here);
    cargo.args(["--manifest-path", "rust/goadlotus/Cargo.toml", "--example", "judge", "samples/m1.domain"]);
    assert_eq!(done(cargo), listing);
}

/// cargo in a folder, with a place of its own for what it builds.
fn cargo(word: &str, folder: &Path) -> Command {
    let mut cargo = Command::new(env!("CARGO"));
    cargo.current_dir(folder).args([word, "--offline", "--quiet"]);
    cargo.env("CARGO_TARGET_DIR", folder.join("built")).env_remove("GOADLOTUS_LIB");
    cargo
}

/// A Rust project over a copy of the crate that stands in no release finds the library by GOADLOTUS_LIB.
#[test]
fn a_project_outside() {
    let Some(release) = Release::packed("outside") else { return };
    let (here, project) = (&release.unpacked, release.folder.join("project"));
    fs::create_dir_all(project.join("src")).expect("a folder");
    let mut copy = bare("cp", &project);
    copy.arg("-R").arg(here.join("rust/goadlotus")).arg("wrapper");
    done(copy);
    let manifest = "[package]\nname = \"project\"\nedition = \"2021\"\n[workspace]\n[dependencies]\n";
    fs::write(project.join("Cargo.toml"), format!("{manifest}goadlotus = {{ path = \"wrapper\" }}\n")).expect("a file");
    fs::copy(here.join("rust/goadlotus/examples/judge.rs"), project.join("src/main.rs")).expect("a copy");
    let build = |library: Option<&Path>| {
        let mut build = cargo("build", &project);
        build.envs(library.map(|folder| ("GOADLOTUS_LIB", folder)));
        build
    };
    for (library, why) in
        [(None, "or set GOADLOTUS_LIB to"), (Some(project.as_path()), "and libgoadlotus.a is missing there")]
    {
        let (status, _, said) = answer(build(library).output().expect("cargo starts"));
        assert!(status != 0 && said.contains(why), "{said}");
    }
    done(build(Some(&here.join("lib"))));
    let m1 = here.join("samples/m1.domain");
    let listing = fs::read_to_string(here.join("samples/m1.listing")).expect("a listing");
    let listed = tried(project.join("built/debug/project"), &project, &[m1.to_str().expect("UTF-8")]);
    assert_eq!(listed, (0, listing, String::new()));
}
