//! The script `goadlotus` of the repository's root. What it does at a first use is tried in a folder of its own, with stand-ins for rt and
//! cargo, so that nothing is proved here; the samples are tried by the programs of this checkout where they are built.

use std::fs::{self, File, Permissions};
use std::os::unix::fs::{MetadataExt, PermissionsExt};
use std::os::unix::process::CommandExt;
use std::path::{Path, PathBuf};
use std::process::{Child, Command, Output, Stdio};
use std::thread::sleep;
use std::time::{Duration, Instant, SystemTime};

fn root() -> PathBuf {
    Path::new(env!("CARGO_MANIFEST_DIR")).join("../..").canonicalize().expect("the repository's root")
}

fn write(path: PathBuf, text: &str) {
    fs::create_dir_all(path.parent().expect("a folder")).expect("a folder");
    fs::write(&path, text).expect("a file");
    fs::set_permissions(&path, Permissions::from_mode(0o755)).expect("permissions");
}

/// Exit status, standard output, standard error.
type Answer = (i32, String, String);

fn answer(out: Output) -> Answer {
    let text = |bytes| String::from_utf8(bytes).expect("UTF-8");
    (out.status.code().expect("an exit status"), text(out.stdout), text(out.stderr))
}

/// As rt does in a crate's folder: it makes the library, or builds and runs the program; one that is there with a stamp is left alone. The
/// program `list` answers the number that its file holds.
const RT: &str = r#"#!/bin/sh
[ -f ../../crates.txt ] || exit 2
name=${PWD##*/}
echo "$name: rt $*" >>../../calls
[ "$name" != records ] || sleep 0.7
mkdir -p out
echo "fn $name::f: proved"
case "$*" in
lib)
    [ "$name" = list ] || [ "$name" = play ] && exit 2
    [ "$name" != goadlotus ] || echo library >out/libgoadlotus.a
    ;;
run*)
    [ "$name" = list ] || [ "$name" = play ] || exit 2
    if [ ! -e out/stamp ] || [ ! -e "out/$name" ]; then
        : >out/stamp
        printf '#!/bin/sh\nread -r number || number=10\necho "verdict $number 0 0 0"\n' >"out/$name"
        chmod +x "out/$name"
    fi
    "out/$name"
    ;;
*) exit 2 ;;
esac
"#;

/// The command that it compiles tells its words, and its status is the last of them.
const CARGO: &str = r#"#!/bin/sh
echo "cargo $1" >>calls
mkdir -p rust/target/release
printf '#!/bin/sh\necho command "$@"\nfor last; do :; done\nexit "$last"\n' >rust/target/release/goadlotus
chmod +x rust/target/release/goadlotus
"#;

/// A small repository with the script, and the stand-ins on its PATH. It goes with the test.
struct Place {
    folder: PathBuf,
}

impl Place {
    fn new(name: &str) -> Place {
        let place =
            Place { folder: std::env::temp_dir().join(format!("goadlotus script {name} {}", std::process::id())) };
        let script = fs::read_to_string(root().join("goadlotus")).expect("the script");
        write(place.script(), &script);
        write(
            place.at("crates.txt"),
            "# crates\nrecords:\ngoadlotus staticlib: records\nlist: records io\nplay: records\nother:\n",
        );
        for crate_name in ["records", "goadlotus", "list", "play", "other"] {
            write(place.at(&format!("crates/{crate_name}/src/lib.rt")), "");
        }
        write(place.at("crates/list/stdin"), "1\n");
        write(place.at("rust/Cargo.toml"), "version = \"7.8.9\"\n");
        write(place.at("rust/command/src/main.rs"), "");
        for (file, number) in [("accepted", "1\n"), ("refused", "42\n"), ("broken", "13\n"), ("empty", "")] {
            write(place.folder.join(file), number);
        }
        fs::create_dir_all(place.folder.join("temporary")).expect("a folder");
        place
    }

    fn with_tools(name: &str) -> Place {
        let place = Place::new(name);
        place.tool("rt", RT);
        place.tool("cargo", CARGO);
        place
    }

    fn at(&self, path: &str) -> PathBuf {
        self.folder.join("the repository").join(path)
    }

    fn script(&self) -> PathBuf {
        self.at("goadlotus")
    }

    fn tool(&self, name: &str, text: &str) {
        write(self.folder.join("bin").join(name), text);
    }

    /// The script, told these words. No rt and no cargo but the stand-ins are found. Signals do what they do for a person who starts it:
    /// these tests may run where an interrupt is ignored, as a shell's jobs in the background do, and a script would inherit that.
    fn told(&self, words: &[&str]) -> Command {
        let mut command = Command::new("env");
        command.arg("--default-signal").arg(self.script()).args(words);
        self.around(&mut command);
        command
    }

    fn around(&self, command: &mut Command) {
        command
            .current_dir(&self.folder)
            .env("PATH", format!("{}:/usr/bin:/bin", self.folder.join("bin").display()))
            .env("TMPDIR", self.folder.join("temporary"))
            .stdin(Stdio::null())
            .stdout(Stdio::piped())
            .stderr(Stdio::piped());
    }

    fn tried(&self, words: &[&str]) -> Answer {
        answer(self.told(words).output().expect("the script starts"))
    }

    /// What rt and cargo were called for, since the last look.
    fn calls(&self) -> Vec<String> {
        let calls = fs::read_to_string(self.at("calls")).unwrap_or_default();
        let _ = fs::remove_file(self.at("calls"));
        calls.lines().map(String::from).collect()
    }

    fn touch(&self, path: &str) {
        let soon = SystemTime::now() + Duration::from_millis(20);
        File::options().append(true).open(self.at(path)).and_then(|f| f.set_modified(soon)).expect("a time");
        sleep(Duration::from_millis(40));
    }

    /// A note of the script's, in the temporary folder of the build that goes on.
    fn note(&self, name: &str) -> PathBuf {
        let folders = fs::read_dir(self.folder.join("temporary")).expect("a folder");
        let notes = folders.map(|folder| folder.expect("a folder").path().join(name));
        notes.into_iter().find(|note| note.exists()).expect("a note")
    }

    fn nothing_temporary(&self) -> bool {
        fs::read_dir(self.folder.join("temporary")).expect("a folder").next().is_none()
    }
}

impl Drop for Place {
    fn drop(&mut self) {
        let _ = fs::set_permissions(self.at("target"), Permissions::from_mode(0o755));
        let _ = fs::remove_dir_all(&self.folder);
    }
}

const PROVING: [&str; 5] =
    ["records: rt lib", "goadlotus: rt lib", "list: rt run", "play: rt run -- data/m1 data/m12", "cargo build"];

/// Does a text fit a terminal of 80 columns?
fn fits(text: &str) -> bool {
    text.lines().all(|line| line.chars().count() < 80)
}

#[test]
fn without_a_build() {
    let place = Place::with_tools("without a build");
    let (status, help, said) = place.tried(&["--help"]);
    assert_eq!((status, said.as_str()), (0, ""));
    assert!(
        help.contains("goadlotus list FILE") && help.contains("judge, explain, play, mark, templates, try,\n"),
        "{help}"
    );
    assert!(fits(&help), "{help}");
    assert_eq!(place.tried(&[]), (2, String::new(), help));
    assert_eq!(place.tried(&["--version"]), (0, "goadlotus 7.8.9\n".into(), String::new()));
    let (status, help, said) = place.tried(&["list", "--help"]);
    assert_eq!((status, said.as_str()), (0, ""));
    assert!(
        help.contains("Status: 0 accepted, 3 refused, 4 a broken file, 1 ") && help.contains("2 wrong usage"),
        "{help}"
    );
    assert!(fits(&help), "{help}");
    let missing = "goadlotus: can't read no such: there is no such file\n";
    assert_eq!(place.tried(&["list", "no such"]), (1, String::new(), missing.into()));
    assert_eq!(place.tried(&["list", "bin"]).0, 1);
    for words in [&["lst"][..], &["list"], &["list", "a", "b"]] {
        let (status, out, said) = place.tried(words);
        assert_eq!((status, out.as_str(), said.lines().count()), (2, "", 1), "{words:?}: {said}");
    }
    assert_eq!(place.calls(), [""; 0]);
}

#[test]
fn first_use() {
    let place = Place::new("first use");
    for tool in ["cargo", "rt"] {
        let (status, out, said) = place.tried(&["judge", "accepted", "0"]);
        assert!(status == 1 && out.is_empty() && said.lines().count() == 1, "{said}");
        assert!(said.contains(&format!("{tool} isn't on PATH")), "{said}");
        place.tool(tool, if tool == "rt" { RT } else { CARGO });
    }
    // one build for every word, which tells where it is: the crate, how many are left, the time
    let (status, out, said) = place.tried(&["judge", "a name", "3"]);
    assert_eq!((status, out.as_str()), (3, "command judge a name 3\n"), "{said}");
    for part in
        ["the first use proves", "4 of 4 crates left, 0 min ", " s: proving records\n", "proved and built in 0 min "]
    {
        assert!(said.contains(part), "{part:?} isn't in\n{said}");
    }
    assert_eq!(place.calls(), PROVING);
    let at_once = |words: &[&str], status, out: &str| {
        assert_eq!(place.tried(words), (status, out.into(), String::new()), "{words:?}");
        assert_eq!(place.calls(), [""; 0], "{words:?}");
    };
    at_once(&["list", "accepted"], 0, "verdict 1 0 0 0\n");
    at_once(&["list", "refused"], 3, "verdict 42 0 0 0\n");
    at_once(&["list", "broken"], 4, "verdict 13 0 0 0\n");
    at_once(&["list", "empty"], 4, "verdict 10 0 0 0\n");
    at_once(&["play", "a", "0"], 0, "command play a 0\n");
    at_once(&["lst", "2"], 2, "command lst 2\n");
    // an empty word, a blank and a letter of another alphabet go through
    at_once(&["judge", "", "два слова", "0"], 0, "command judge  два слова 0\n");
    assert!(place.nothing_temporary());
}

#[test]
fn what_is_older_is_built_again_once() {
    let place = Place::with_tools("older");
    let built = |calls: &[&str]| {
        assert_eq!(place.tried(&["judge", "0"]).0, 0);
        assert_eq!(place.calls(), calls);
        assert_eq!(place.tried(&["judge", "0"]), (0, "command judge 0\n".into(), String::new()));
    };
    built(&PROVING);
    place.touch("crates/records/src/lib.rt");
    built(&PROVING);
    // what the programs aren't made of
    place.touch("crates/other/src/lib.rt");
    built(&[]);
    place.touch("rust/command/src/main.rs");
    built(&["cargo build"]);
    for gone in ["crates/list/out/list", "crates/play/out/play", "crates/goadlotus/out/libgoadlotus.a"] {
        fs::remove_file(place.at(gone)).expect("it goes");
        built(&PROVING);
    }
    fs::remove_file(place.at("rust/target/release/goadlotus")).expect("it goes");
    built(&["cargo build"]);
}

/// Where rt or cargo fails all that it said is shown but for what is proved, and nothing old is run.
#[test]
fn failures_are_shown() {
    let place = Place::with_tools("failures");
    assert_eq!(place.tried(&["judge", "0"]).0, 0);
    let fails = |said_by_tool: &str| {
        for words in [["judge", "0"], ["list", "accepted"]] {
            let (status, out, said) = place.tried(&words);
            assert!(
                status == 1 && out.is_empty() && said.contains(said_by_tool) && !said.contains("f: proved"),
                "{said}"
            );
            assert!(said.ends_with("so there is nothing to run; what rt and cargo said is above\n"), "{said}");
        }
        assert!(place.nothing_temporary());
    };
    place.touch("crates/records/src/lib.rt");
    place.tool("rt", "#!/bin/sh\necho 'fn f: proved'\necho 'error: a proof'\necho 'rt: FAILED: list'\nexit 1\n");
    fails("error: a proof\nrt: FAILED: list\n");
    place.tool("rt", RT);
    place.tool("cargo", "#!/bin/sh\necho 'error: a type' >&2\nexit 101\n");
    fails("error: a type\n");
    place.tool("cargo", CARGO);
    assert_eq!(place.tried(&["judge", "0"]).1, "command judge 0\n");
}

/// Is there such a process, and does it still run?
fn runs(process: &str) -> bool {
    let state = |stat: String| stat.rsplit_once(") ").is_some_and(|(_, rest)| !rest.starts_with('Z'));
    fs::read_to_string(format!("/proc/{process}/stat")).is_ok_and(state)
}

fn within(seconds: u64, what: &str, mut holds: impl FnMut() -> bool) {
    let began = Instant::now();
    while !holds() {
        assert!(began.elapsed() < Duration::from_secs(seconds), "not within {seconds} s: {what}");
        sleep(Duration::from_millis(20));
    }
}

fn kill(signal: &str, process: &str) {
    assert!(Command::new("kill").args(["-s", signal, "--", process]).status().expect("kill").success());
}

/// A prover that doesn't care for an interrupt, as those that a shell starts in the background, below one more process; a folder of rt's; and
/// programs that look new.
const SLOW_RT: &str = r#"#!/bin/sh
mktemp -d >/dev/null
touch ../list/out/list ../play/out/play ../goadlotus/out/libgoadlotus.a
sh -c 'sleep 1000; :' &
echo $$ $! >>../../provers
sleep 1000
"#;

#[test]
fn signals_end_the_provers() {
    for (signal, to_all, status) in [("INT", true, 130), ("TERM", false, 143), ("HUP", false, 129)] {
        let place = Place::with_tools(signal);
        assert_eq!(place.tried(&["judge", "0"]).0, 0);
        place.touch("crates/records/src/lib.rt");
        place.calls();
        place.tool("rt", SLOW_RT);
        let mut script: Child = place.told(&["judge", "0"]).process_group(0).spawn().expect("the script starts");
        let provers = place.at("provers");
        within(20, "a prover starts", || fs::read_to_string(&provers).is_ok_and(|text| text.ends_with('\n')));
        let provers = fs::read_to_string(provers).expect("their numbers");
        assert!(provers.split_whitespace().all(runs), "{provers}");
        // whoever reads the progress may be gone first, and there is some
        if signal == "TERM" {
            drop(script.stderr.take());
            write(place.note("doing"), "2 list\n");
            sleep(Duration::from_secs(1));
        }
        // a terminal sends an interrupt to everything in the foreground, kill to one process
        kill(signal, &format!("{}{}", if to_all { "-" } else { "" }, script.id()));
        within(20, "the script ends", || script.try_wait().expect("a status").is_some());
        let (ended, out, said) = answer(script.wait_with_output().expect("the script ends"));
        assert_eq!((ended, out.as_str()), (status, ""), "{signal}: {said}");
        within(5, "no prover runs", || !provers.split_whitespace().any(runs));
        assert!(place.nothing_temporary(), "{signal}");
        // what was half built isn't used
        place.tool("rt", RT);
        assert_eq!(place.tried(&["judge", "0"]).1, "command judge 0\n");
        assert_eq!(place.calls(), PROVING, "{signal}");
    }
}

#[test]
fn two_first_uses() {
    let place = Place::with_tools("two");
    let first = place.told(&["judge", "first", "0"]).spawn().expect("the script starts");
    within(20, "the first builds", || place.at("calls").exists());
    let second = answer(place.told(&["judge", "second", "0"]).output().expect("the script starts"));
    let first = answer(first.wait_with_output().expect("the script ends"));
    assert_eq!((first.0, first.1.as_str()), (0, "command judge first 0\n"));
    let waited = "goadlotus: another use is proving and building here; waiting for its end\n";
    assert_eq!(second, (0, "command judge second 0\n".into(), waited.into()));
    assert_eq!(place.calls(), PROVING);
}

/// A target/ that can't be written is no matter where all is built, and refused in one line where something must be.
#[test]
fn target_not_writable() {
    let place = Place::with_tools("not writable");
    assert_eq!(place.tried(&["judge", "0"]).0, 0);
    fs::set_permissions(place.at("target"), Permissions::from_mode(0o555)).expect("permissions");
    // root may write everything, so somebody else tries it
    let tried = || {
        let mut command = if fs::metadata(&place.folder).expect("the folder").uid() == 0 {
            let mut other = Command::new("setpriv");
            other.args(["--reuid=65534", "--regid=65534", "--clear-groups"]).arg(place.script());
            other
        } else {
            Command::new(place.script())
        };
        command.args(["judge", "0"]);
        place.around(&mut command);
        answer(command.output().expect("the script starts"))
    };
    assert_eq!(tried(), (0, "command judge 0\n".into(), String::new()));
    place.touch("crates/records/src/lib.rt");
    place.calls();
    let (status, out, said) = tried();
    assert_eq!((status, out.as_str(), said.lines().count()), (1, "", 1), "{said}");
    assert!(said.contains("can't write to ") && said.contains("/target"), "{said}");
    assert_eq!(place.calls(), [""; 0]);
}

#[test]
fn list_tells_what_it_cannot_read_or_write() {
    let place = Place::with_tools("errors");
    assert_eq!(place.tried(&["list", "accepted"]).0, 0);
    let given = |input: File| {
        answer(place.told(&["list", "-"]).stdin(input).stdout(Stdio::piped()).output().expect("the script starts"))
    };
    let open = |name: &str| File::open(place.folder.join(name)).expect("it opens");
    assert_eq!(given(open("refused")), (3, "verdict 42 0 0 0\n".into(), String::new()));
    assert_eq!(given(open("empty")), (4, "verdict 10 0 0 0\n".into(), String::new()));
    // reading fails, of a folder and of memory that isn't there
    let unread = |name: &str| (1, String::new(), format!("goadlotus: can't read {name}: an error while it was read\n"));
    assert_eq!(given(open("bin")), unread("-"));
    assert_eq!(place.tried(&["list", "/proc/self/mem"]), unread("/proc/self/mem"));
    let unwritten = "goadlotus: can't write the listing to standard output\n";
    let full = File::options().write(true).open("/dev/full").expect("/dev/full");
    let out = place.told(&["list", "accepted"]).stdout(full).output().expect("the script starts");
    assert_eq!(answer(out), (1, String::new(), unwritten.into()));
    let mut closed = place.told(&["list", "accepted"]).spawn().expect("the script starts");
    drop(closed.stdout.take());
    assert_eq!(answer(closed.wait_with_output().expect("the script ends")), (1, String::new(), unwritten.into()));
    // a program that doesn't answer
    write(place.at("crates/list/out/list"), "#!/bin/sh\nexit 1\n");
    let (status, out, said) = place.tried(&["list", "accepted"]);
    assert!(status == 1 && out.is_empty() && said.contains("gives no verdict"), "{said}");
}

/// The exit status that belongs to a listing.
fn status_of(listing: &str) -> i32 {
    match listing.split_whitespace().nth(1).and_then(|n| n.parse().ok()).expect("a verdict") {
        0 | 1 => 0,
        40..=49 => 3,
        9..=29 => 4,
        other => panic!("verdict {other}"),
    }
}

/// Every file of samples/ by the proved programs themselves: what they print is the text beside it.
#[test]
fn samples_where_built() {
    let (root, samples) = (root(), root().join("samples"));
    let needed = [
        "crates/list/out/list",
        "crates/play/out/play",
        "crates/goadlotus/out/libgoadlotus.a",
        "rust/target/release/goadlotus",
    ];
    if let Some(lacking) = needed.iter().find(|path| !root.join(path).exists()) {
        eprintln!("{lacking} isn't built, so the samples aren't tried");
        return;
    }
    let read = |name: String| fs::read_to_string(samples.join(&name)).unwrap_or_else(|_| panic!("samples/{name}"));
    let tried = |program: PathBuf, words: &[&str]| {
        // no rt: if something is older than its sources, run ./goadlotus list
        let path = ("PATH", "/usr/bin:/bin");
        answer(Command::new(program).args(words).current_dir(&samples).envs([path]).output().expect("it starts"))
    };
    let mut files = 0;
    for entry in fs::read_dir(&samples).expect("samples") {
        let file = entry.expect("a file").file_name().into_string().expect("UTF-8");
        if let Some(name) = file.strip_suffix(".domain") {
            let listing = read(format!("{name}.listing"));
            let expected = (status_of(&listing), listing, String::new());
            assert_eq!(tried(root.join("goadlotus"), &["list", &file]), expected, "{file}");
            files += 1;
        } else if let Some(name) = file.strip_suffix(".run") {
            let of = read(format!("{name}.of"));
            let expected = (0, read(format!("{name}.played")), String::new());
            assert_eq!(tried(root.join("crates/play/out/play"), &[of.trim_end(), &file]), expected, "{file}");
            files += 1;
        }
    }
    assert!(files >= 100, "only {files} files of samples/ were found");
}
