//! The command as it is started: its words, its statuses, standard input and output, names of files, tables.

mod folder;

use folder::Folder;
use std::ffi::OsStr;
use std::fs::{self, File};
use std::io::Write;
use std::path::{Path, PathBuf};
use std::process::{Command, Output, Stdio};
use std::time::{Duration, Instant};

const ARCHIVE: &str = "\
relation at/2
relation out/2
at once move(volume, from, to)
    true and delete at(volume, from)
    add at(volume, to)
lasting lend(volume, shelf, reader)
    start true and delete at(volume, shelf)
    end add out(volume, reader)
template at[0,_] out[0,_]
";

const RUN: &str = "\
objects volume7 shelf2 shelf3 reader5
fact at(volume7, shelf2)
step start lend(volume7, shelf2, reader5)
step end lend(volume7, shelf2, reader5)
";

fn goadlotus() -> Command {
    Command::new(env!("CARGO_BIN_EXE_goadlotus"))
}

fn run<S: AsRef<OsStr>>(arguments: impl IntoIterator<Item = S>) -> Output {
    goadlotus().args(arguments).stdin(Stdio::null()).output().expect("the command")
}

/// The same with this on standard input.
fn run_with<S: AsRef<OsStr>>(arguments: impl IntoIterator<Item = S>, input: &[u8]) -> Output {
    let command =
        goadlotus().args(arguments).stdin(Stdio::piped()).stdout(Stdio::piped()).stderr(Stdio::piped()).spawn();
    let mut child = command.expect("the command");
    child.stdin.take().expect("standard input").write_all(input).expect("it is read");
    child.wait_with_output().expect("an end")
}

fn status(output: &Output) -> i32 {
    output.status.code().expect("no signal")
}

fn said(output: &Output) -> String {
    String::from_utf8_lossy(&output.stdout).into_owned()
}

fn complained(output: &Output) -> String {
    String::from_utf8_lossy(&output.stderr).into_owned()
}

fn sample(name: &str) -> PathBuf {
    Path::new(env!("CARGO_MANIFEST_DIR")).join("../../samples").join(name)
}

#[test]
fn statuses() {
    let folder = Folder::new("statuses");
    let archive = folder.put("archive.txt", ARCHIVE);
    let run_file = folder.put("run.txt", RUN);
    let broken = folder.put("broken.txt", ARCHIVE.replace("to)\n    true", "to)\n    treu"));
    let refused_step = folder.put("refused.txt", format!("{RUN}step move(volume7, shelf2, shelf3)\n"));
    let slip = folder.put("slip.txt", RUN.replace("volume7, shelf2)\nstep start", "volume6, shelf2)\nstep start"));
    let names = folder.put("names.txt", "move balanced\nlend start irrelevant\nlend end unbounded\n");
    let wrong = folder.put("wrong.txt", "move heavy\n");
    let missing = folder.0.join("missing.txt");
    let (word, m5, m11) = (OsStr::new, sample("m5.domain"), sample("m11.domain"));
    let cases: [(&[&OsStr], i32); 38] = [
        (&[word("judge"), archive.as_ref()], 0),
        (&[word("judge"), m5.as_ref()], 3),
        (&[word("judge"), m11.as_ref()], 4),
        (&[word("judge"), broken.as_ref()], 4),
        (&[word("judge"), missing.as_ref()], 1),
        (&[word("judge"), archive.as_ref(), m5.as_ref()], 3),
        (&[word("judge"), archive.as_ref(), m5.as_ref(), m11.as_ref()], 4),
        (&[word("judge"), archive.as_ref(), m11.as_ref(), missing.as_ref()], 1),
        (&[word("judge")], 2),
        (&[word("judge"), word("--all"), archive.as_ref()], 2),
        (&[word("explain"), archive.as_ref()], 0),
        (&[word("explain"), m5.as_ref()], 3),
        (&[word("explain"), m11.as_ref()], 4),
        (&[word("explain"), missing.as_ref()], 1),
        (&[word("explain"), archive.as_ref(), m5.as_ref()], 2),
        (&[word("play"), archive.as_ref(), run_file.as_ref()], 0),
        (&[word("play"), archive.as_ref(), refused_step.as_ref()], 3),
        (&[word("play"), archive.as_ref(), slip.as_ref()], 4),
        (&[word("play"), m11.as_ref(), run_file.as_ref()], 4),
        (&[word("play"), archive.as_ref(), missing.as_ref()], 1),
        (&[word("play"), archive.as_ref()], 2),
        (&[word("play"), archive.as_ref(), run_file.as_ref(), word("volume7")], 0),
        (&[word("play"), archive.as_ref(), refused_step.as_ref(), word("volume7")], 3),
        (&[word("play"), archive.as_ref(), run_file.as_ref(), word("0")], 0),
        (&[word("play"), archive.as_ref(), run_file.as_ref(), word("volume9")], 2),
        (&[word("play"), archive.as_ref(), run_file.as_ref(), word("volume7"), word("shelf2")], 2),
        (&[word("play"), word("--track"), archive.as_ref(), run_file.as_ref()], 2),
        (&[word("show"), archive.as_ref()], 0),
        (&[word("show"), m11.as_ref()], 4),
        (&[word("write"), archive.as_ref()], 0),
        (&[word("write"), broken.as_ref()], 4),
        (&[word("write"), archive.as_ref(), word("-o"), folder.0.as_ref()], 1),
        (&[word("mark"), archive.as_ref(), names.as_ref()], 0),
        (&[word("mark"), archive.as_ref(), wrong.as_ref()], 3),
        (&[word("mark"), archive.as_ref(), missing.as_ref()], 1),
        (&[word("mark"), archive.as_ref()], 2),
        (&[word("judgement"), archive.as_ref()], 2),
        (&[], 2),
    ];
    for (arguments, expected) in cases {
        let output = run(arguments);
        assert_eq!(status(&output), expected, "{arguments:?}\n{}{}", said(&output), complained(&output));
        assert!(expected == 0 || !output.stdout.is_empty() || !output.stderr.is_empty(), "{arguments:?} says nothing");
    }
}

#[test]
fn helps() {
    let words = ["judge", "explain", "play", "templates", "try", "totals", "show", "write", "mark"];
    let all = run(["--help"]);
    assert_eq!(status(&all), 0);
    assert!(said(&all).lines().all(|line| line.len() <= 80), "{}", said(&all));
    for word in words {
        assert!(said(&all).contains(&format!("goadlotus {word} ")), "{word}");
        let help = run([word, "--help"]);
        assert!(status(&help) == 0 && said(&help).starts_with(&format!("goadlotus {word} ")), "{word}");
        assert!(said(&help).contains("\nStatus: 0 "), "{word}");
        assert!(said(&help).lines().all(|line| line.len() <= 80), "{}", said(&help));
    }
    assert!(said(&run(["--version"])).starts_with("goadlotus "));
    assert_eq!(
        complained(&run(["explian", "x"])),
        "goadlotus: there is no word explian; the nearest is explain; see goadlotus --help\n"
    );
}

/// Words and bytes are both taken, by name and on standard input, and say the same but for names.
#[test]
fn words_and_bytes_are_taken() {
    let folder = Folder::new("both");
    let (archive, run_file) = (folder.put("archive.txt", ARCHIVE), folder.put("run.txt", RUN));
    let bytes = folder.0.join("archive.domain");
    let run_bytes = folder.0.join("archive.run");
    let (write, output) = (OsStr::new("write"), OsStr::new("-o"));
    assert_eq!(status(&run([write, archive.as_ref(), output, bytes.as_ref()])), 0);
    assert_eq!(status(&run([write, archive.as_ref(), run_file.as_ref(), output, run_bytes.as_ref()])), 0);
    assert_eq!(run([write, archive.as_ref()]).stdout, fs::read(&bytes).expect("bytes"));
    assert_eq!(run([write, bytes.as_ref()]).stdout, fs::read(&bytes).expect("bytes"));
    for word in ["judge", "explain", "show"] {
        let named = run([OsStr::new(word), archive.as_ref()]);
        let piped = run_with([word, "-"], ARCHIVE.as_bytes());
        assert_eq!(said(&named), said(&piped));
        let numbered = said(&run([OsStr::new(word), bytes.as_ref()]));
        assert!(
            numbered.contains("a0") && numbered.split_whitespace().count() == said(&named).split_whitespace().count(),
            "{numbered}"
        );
    }
    let play = OsStr::new("play");
    let told = run([play, archive.as_ref(), run_file.as_ref()]);
    assert!(said(&told).starts_with("played to the end (2): 2 steps made, highest weight 1."), "{}", said(&told));
    let numbered = run([play, archive.as_ref(), run_bytes.as_ref()]);
    assert!(said(&numbered).contains("step 1: start lend(o0, o1, o3)"), "{}", said(&numbered));
    let piped = run_with([play, bytes.as_ref(), OsStr::new("-")], &fs::read(&run_bytes).expect("bytes"));
    assert!(said(&piped).contains("step 1: start a1(o0, o1, o3)"), "{}", said(&piped));
    let shown = run([OsStr::new("show"), archive.as_ref(), run_bytes.as_ref()]);
    assert!(said(&shown).contains("fact at(o0, o1)\n\nstep\n    start lend(o0, o1, o3)\n"), "{}", said(&shown));
    let alone = run([OsStr::new("show"), run_bytes.as_ref()]);
    assert_eq!(run_with(["write", "-"], &alone.stdout).stdout, fs::read(&run_bytes).expect("bytes"));
}

/// A refusal tells the line of the words, and the file is written all the same.
#[test]
fn what_is_refused_is_written_and_told() {
    let folder = Folder::new("refused");
    let text = folder.put("twice.txt", ARCHIVE.replace("    add at", "    true at(volume, from)\n    add at"));
    let output = run([OsStr::new("write"), text.as_ref()]);
    assert_eq!(status(&output), 4);
    assert!(
        complained(&output).contains("twice.txt:5:5: this literal stands in its action already, in the same role (19)")
    );
    let judged = run_with(["judge", "-"], &output.stdout);
    assert!(complained(&judged).contains("(19)"), "{}", complained(&judged));
}

/// In bytes the offset is that of the label at fault, and the record around it is told.
#[test]
fn a_label_at_fault_in_bytes() {
    let file = [1, 0, 1, 0, 4, 5, 0, 4, 0, 0, 0, 0, 0xFF, 0xFF, 0, 0, 5, 0];
    let output = run_with(["judge", "-"], &file);
    let said = complained(&output);
    assert!(said.starts_with("standard input: at offset 13: a second `_` in a component"), "{said}");
    assert!(said.contains("= the record at offset 5 has kind 4 and holds 00 00 00 FF FF"), "{said}");
    let shown = run_with(["show", "-"], &file);
    assert!(self::said(&shown).contains("# refused (25), at offset 13: "), "{}", self::said(&shown));
}

/// Of a file that is too long no record is told: it is not looked at.
#[test]
fn a_file_over_the_limit() {
    for byte in [0, 1] {
        let output = run_with(["judge", "-"], &[byte; 65_536]);
        assert_eq!(complained(&output), "standard input: at offset 0: the file is longer than 65,535 bytes (9)\n");
        assert_eq!(status(&output), 4);
    }
}

/// What is no file of ours is named as what it is.
#[test]
fn strangers_are_recognised() {
    let utf16: Vec<u8> = ARCHIVE.encode_utf16().flat_map(u16::to_le_bytes).collect();
    let marked = [&[0xFF, 0xFE], &utf16[..]].concat();
    let strangers: [(&[u8], &str); 7] = [
        (b"0100010002 0100010002 020002000300", "this is hexadecimal"),
        (b"(define (domain archive))", "this is PDDL"),
        (&utf16, "it looks like a text in UTF-16"),
        (&marked, "it looks like a text in UTF-16"),
        (b"caf\xE9 noir", "this is not UTF-8"),
        (b"", "the file is empty"),
        (b"\n\n  \n", "the file has nothing but blanks"),
    ];
    for (content, expected) in strangers {
        for word in ["judge", "explain", "write"] {
            let output = run_with([word, "-"], content);
            assert!(complained(&output).contains(expected), "{word}: {}", complained(&output));
            assert_eq!(status(&output), 4, "{expected}");
        }
    }
}

/// Standard output that is full, closed or not read to its end: status 1.
#[test]
fn writes_that_fail_are_noticed() {
    let m1 = sample("m1.domain");
    let full = goadlotus().arg("judge").arg(&m1).stdout(File::create("/dev/full").expect("/dev/full")).output();
    let full = full.expect("the command");
    assert_eq!((status(&full), complained(&full).contains("no space left")), (1, true), "{}", complained(&full));
    let script = format!("'{}' judge '{}' >&-", env!("CARGO_BIN_EXE_goadlotus"), m1.display());
    let closed = Command::new("sh").args(["-c", &script]).output().expect("sh");
    assert_eq!((status(&closed), complained(&closed).contains("it is closed")), (1, true), "{}", complained(&closed));
    let script = format!("'{}' judge '{}' >/dev/null", env!("CARGO_BIN_EXE_goadlotus"), m1.display());
    assert_eq!(status(&Command::new("sh").args(["-c", &script]).output().expect("sh")), 0);
    let mut child =
        goadlotus().args(["judge", "--rows"]).args(vec![&m1; 3_000]).stdout(Stdio::piped()).spawn().expect("it");
    drop(child.stdout.take());
    assert_eq!(child.wait().expect("an end").code(), Some(1));
}

#[test]
fn names_of_files_are_free() {
    let folder = Folder::new("имена 本");
    for name in ["with space.txt", "Größe.txt", "том 7.txt", "本.txt", "-dash.txt", "quote'\".txt"] {
        let path = folder.put(name, ARCHIVE);
        let output = run([OsStr::new("judge"), OsStr::new("--tsv"), path.as_ref()]);
        assert_eq!(status(&output), 0, "{name}");
        assert!(said(&output).contains(&format!("{name}\t1\taccepted")), "{}", said(&output));
    }
    let output = goadlotus().current_dir(&folder.0).args(["judge", "--", "-dash.txt"]).output().expect("the command");
    assert_eq!(status(&output), 0);
    let output = run([OsStr::new("judge"), folder.0.as_ref()]);
    assert_eq!(said(&output).lines().count(), 7, "{}", said(&output));
}

/// A folder without write permission is no hindrance. (Whoever may write everywhere can't try it.)
#[test]
fn a_folder_that_is_only_read() {
    use std::os::unix::fs::PermissionsExt;
    let folder = Folder::new("read only");
    let file = folder.put("archive.txt", ARCHIVE);
    fs::set_permissions(&folder.0, fs::Permissions::from_mode(0o555)).expect("permissions");
    let output = goadlotus().current_dir(&folder.0).arg("explain").arg(&file).output().expect("the command");
    fs::set_permissions(&folder.0, fs::Permissions::from_mode(0o755)).expect("permissions");
    assert_eq!(status(&output), 0);
}

#[test]
fn a_folder_is_judged_as_a_table() {
    let folder = Folder::new("table");
    folder.put("a/archive.txt", ARCHIVE);
    folder.put("b.domain", fs::read(sample("m5.domain")).expect("m5"));
    folder.put("c.txt", ARCHIVE.replace("template", "tempalte"));
    folder.put(".hidden", "no domain");
    let columns = said(&run([OsStr::new("judge"), folder.0.as_ref()]));
    assert!(columns.starts_with("file ") && columns.lines().count() == 4, "{columns}");
    let tsv = said(&run([OsStr::new("judge"), OsStr::new("--tsv"), folder.0.as_ref()]));
    let lines: Vec<Vec<&str>> = tsv.lines().map(|line| line.split('\t').collect()).collect();
    assert!(lines.iter().all(|line| line.len() == lines[0].len()), "{tsv}");
    assert_eq!(lines[1][1..3], ["1", "accepted"]);
    assert_eq!(lines[2][1..7], ["42", "refused", "a0", "v0", "at once", "unbounded"]);
    assert!(lines[3][2] == "not read" && lines[3][7].starts_with("9:1: expected relation"), "{tsv}");
    let json = said(&run([OsStr::new("judge"), OsStr::new("--json"), folder.0.as_ref()]));
    assert!(json.lines().nth(1).expect("a line").ends_with(
        "b.domain\", \"number\": 42, \"verdict\": \"refused\", \"action\": \"a0\", \"about\": \"v0\", \"moment\": \"at once\", \"name\": \"unbounded\", \"remark\": \"\"}"
    ), "{json}");
    let rows = said(&run([OsStr::new("judge"), OsStr::new("--rows"), OsStr::new("--tsv"), folder.0.as_ref()]));
    assert_eq!(rows.lines().count(), 1 + 3 + 1, "{rows}");
}

#[test]
fn ten_thousand_files_take_seconds() {
    let folder = Folder::new("many");
    let (accepted, refused) = (fs::read(sample("m1.domain")).expect("m1"), fs::read(sample("m5.domain")).expect("m5"));
    for number in 0..10_000 {
        folder.put(&format!("{number:05}"), if number % 4 == 0 { &refused } else { &accepted });
    }
    let began = Instant::now();
    let output = run([OsStr::new("judge"), OsStr::new("--tsv"), folder.0.as_ref()]);
    assert!(began.elapsed() < Duration::from_secs(8), "{:?}", began.elapsed());
    assert_eq!(status(&output), 3);
    assert_eq!(said(&output).lines().filter(|line| line.contains("\t42\trefused\t")).count(), 2_500);
    assert_eq!(said(&output).lines().filter(|line| line.contains("\t1\taccepted\t")).count(), 7_500);
}

#[test]
fn a_hand_in_is_marked() {
    let folder = Folder::new("mark");
    let archive = folder.put("archive.txt", ARCHIVE);
    let names = folder.put("anna.txt", "verdict: 41\nmove: heavy\nlend(volume) start: irrelevant\n");
    let output = run([OsStr::new("mark"), archive.as_ref(), names.as_ref()]);
    let name = names.display().to_string();
    let text = said(&output).replace(&name, "anna.txt");
    let flat = text.split_whitespace().collect::<Vec<_>>().join(" ");
    assert_eq!(
        flat,
        "anna.txt: 1 of 3 right, 1 wrong, 1 missing; the verdict is wrong: told is 41, it is accepted (1). \
         move, about volume, at once: told is heavy, it is balanced \
         balanced: it asks for at(volume, from) and deletes it, and at(volume, to) comes in its place. \
         not heavy: it adds only at(volume, to). \
         lend, about volume, at the end: nothing is told, it is unbounded \
         unbounded: it adds out(volume, reader) and asks for no fact of volume, so volume may have one already: \
         the component at[0,_] has a counted place, and no false or delete here has * there, \
         so there are facts of it that no literal names."
    );
}

/// The listing that the program `list` prints of a sample is a hand-in that is all right.
#[test]
fn listings_are_right_hand_ins() {
    let mut marked = 0;
    for entry in fs::read_dir(sample("")).expect("samples/") {
        let listing = entry.expect("an entry").path();
        let domain = listing.with_extension("domain");
        let is_judged = |text: &str| !text.starts_with("verdict 9") && text.lines().count() > 1;
        if listing.extension() != Some(OsStr::new("listing"))
            || !is_judged(&fs::read_to_string(&listing).expect("a text"))
        {
            continue;
        }
        let output = run([OsStr::new("mark"), domain.as_ref(), listing.as_ref()]);
        assert_eq!(status(&output), 0, "{}{}", said(&output), complained(&output));
        marked += 1;
    }
    assert!(marked > 30, "{marked}");
}

#[test]
fn two_hundred_hand_ins_are_marked_at_once() {
    let folder = Folder::new("hand-ins");
    let archive = folder.put("archive.txt", ARCHIVE);
    let right = "verdict: accepted\nmove: balanced\nlend start: irrelevant\nlend end: unbounded\n";
    for number in 0..200 {
        let text = match number % 4 {
            0 => right.to_string(),
            1 => right.replace("balanced", "unbalanced"),
            2 => right.replace("lend end: unbounded\n", ""),
            _ => right.replace("lend end", "lent end"),
        };
        folder.put(&format!("hand-ins/student {number}.txt"), text);
    }
    let hand_ins = folder.0.join("hand-ins");
    let output = run([OsStr::new("mark"), OsStr::new("--tsv"), archive.as_ref(), hand_ins.as_ref()]);
    assert_eq!(status(&output), 3);
    let table = said(&output);
    assert_eq!(table.lines().next(), Some("file\tverdict\ttold\tright\twrong\tmissing\tof\tremark"));
    let count = |cells: &str| table.lines().filter(|line| line.contains(cells)).count();
    assert_eq!(count("\t1\tright\t3\t0\t0\t3\t"), 50, "{table}");
    assert_eq!(count("\t1\tright\t2\t1\t0\t3\t"), 50, "{table}");
    assert_eq!(count("\t1\tright\t2\t0\t1\t3\t"), 100, "{table}");
    assert_eq!(count("\tline 4:1: there is no action `lent`"), 50, "{table}");
    let rows =
        run([OsStr::new("mark"), OsStr::new("--rows"), OsStr::new("--json"), archive.as_ref(), hand_ins.as_ref()]);
    assert_eq!(said(&rows).lines().count(), 600);
}

/// What can't be made out in a hand-in is told by line and column.
#[test]
fn slips_in_a_hand_in() {
    let folder = Folder::new("slips");
    let swap = "swap(a, b, x, y): true and delete at(a, x), at(b, y), add at(a, y), at(b, x)";
    let wait = "lasting wait(x): start add at(x, x)";
    let archive = folder.put("swap.txt", format!("at/2; {swap}; {wait}; at[0,_]"));
    let slips = [
        ("swap: balanced", "`swap` has several classes, so the line needs what it is about"),
        ("swap(x): balanced", "`swap` has no class about x"),
        ("swap(a) start: balanced", "`swap` is at once and has neither start nor end"),
        ("wait: heavy", "`wait` lasts, so the line needs its moment"),
        ("wait start: hevy", "the nearest is `heavy`"),
        ("wait start:", "expected a name, as balanced, found the end of the line"),
        ("wait start: heavy\nwait start: heavy", "this is told already; the first line counts"),
        ("verdict: fine", "`fine` is no verdict"),
        ("swap(a): balanced heavy", "expected the end of the line, found `heavy`"),
    ];
    for (text, expected) in slips {
        let hand_in = folder.put("hand-in.txt", text);
        let output = run([OsStr::new("mark"), archive.as_ref(), hand_in.as_ref()]);
        assert!(complained(&output).contains(expected), "{text}: {}", complained(&output));
        assert_eq!(status(&output), 3, "{text}");
    }
}
