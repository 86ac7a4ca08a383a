//! The notation: words make the files that they should, every file has words that make it again, and slips are told by
//! file, line and column.

use command::domain::{Domain, Names};
use command::library::judge;
use command::notation::source::tell;
use command::notation::{domain_text, refused, run_text, show};
use generate::{case, rng::Rng, samples, Case};

const M1: &str = "\
# volumes that are moved and lent
relation at/2
relation out/2

at once move(volume, from, to)
    true at(volume, from)
    add at(volume, to)
    delete at(volume, from)

lasting lend(volume, shelf, reader)
    start true and delete at(volume, shelf)
    end add out(volume, reader)

template at[0,_] out[0,_]
";

/// M1 as the specification writes it.
const PAPER: &str = "at/2, out/2; move(0,1,2): true at(0,1), add at(0,2), delete at(0,1); \
lasting lend(0,1,2): start true and delete at(0,1), end add out(0,2); at[0,FF], out[0,FF]";

fn m1() -> Vec<u8> {
    samples::all().domains.into_iter().find(|domain| domain.name == "m1").expect("m1").file
}

fn domain(text: &str) -> Vec<u8> {
    match domain_text::read(text) {
        Ok(read) => read.written.file,
        Err(faults) => panic!("{}", tell("text", text, &faults)),
    }
}

/// The file of a domain as the command has it.
fn read(file: &[u8]) -> Option<Domain> {
    judge(file).is_read().then(|| Domain::of(file, &Names::default()))
}

fn same_domain(file: &[u8]) {
    let words = show::domain(file, &Names::default(), None);
    assert!(domain(&words) == file, "{words}");
}

fn same_run(file: &[u8], of: Option<&Domain>) {
    let words = show::run(file, of, &[], None);
    assert!(run_text::is_run(&words), "{words}");
    match run_text::read(&words, of) {
        Ok(read) => assert!(read.written.file == file, "{words}"),
        Err(faults) => panic!("{}", tell("text", &words, &faults)),
    }
}

#[test]
fn m1_in_words_is_m1() {
    assert_eq!(domain(M1), m1());
    assert_eq!(domain(PAPER), m1());
}

/// Line ends of other systems, a byte order mark, and several things on a line make no difference.
#[test]
fn layout_is_free() {
    assert_eq!(domain(&M1.replace('\n', "\r\n")), m1());
    assert_eq!(domain(&format!("\u{FEFF}{M1}")), m1());
    assert_eq!(domain(&M1.replace("relation out/2\n", "").replace("at/2", "at/2, out/2")), m1());
    assert_eq!(domain(&M1.replace("relation ", "").replace("template ", "template\n").replace("template\n", "")), m1());
    assert_eq!(domain(&M1.replace("    ", "\t").replace("end add", "end  add")), m1());
}

/// Names are of any alphabet, and words of the notation are names where a name stands.
#[test]
fn names_are_free() {
    let texts = [
        ("at", "стоит"),
        ("volume", "βιβλίο"),
        ("move", "移動"),
        ("shelf", "étagère"),
        ("out", "true"),
        ("lend", "end"),
    ];
    let mut text = M1.to_string();
    for (name, other) in texts {
        text =
            text.replace(&format!("{name}("), &format!("{other}(")).replace(&format!("{name}/"), &format!("{other}/"));
        text =
            text.replace(&format!("{name}["), &format!("{other}[")).replace(&format!("({name}"), &format!("({other}"));
        text = text
            .replace(&format!(" {name},"), &format!(" {other},"))
            .replace(&format!(" {name})"), &format!(" {other})"));
    }
    assert!(text.contains("lasting end(βιβλίο, étagère, reader)") && text.contains("end add true(βιβλίο"), "{text}");
    assert_eq!(domain(&text), m1());
}

#[test]
fn samples_again() {
    let all = samples::all();
    for sample in &all.domains {
        same_domain(&sample.file);
    }
    for run in &all.runs {
        let of = all.domains.iter().find(|domain| domain.name == run.of).expect("its domain");
        same_run(&run.file, read(&of.file).as_ref());
        same_run(&run.file, None);
    }
}

/// Files of every sort: valid ones, ones near the limits, damaged ones and random bytes.
#[test]
fn generated_files_again() {
    let (mut domains, mut runs) = (0, 0);
    for seed in 0.. {
        match case(seed) {
            Case::Judge { domain, .. } => {
                same_domain(&domain);
                domains += 1;
            }
            Case::Play { domain, run, .. } => {
                same_domain(&domain);
                same_run(&run, read(&domain).as_ref());
                if seed % 8 == 0 {
                    same_run(&run, None);
                }
                domains += 1;
                runs += 1;
            }
        }
        if domains + runs >= 100_000 {
            break;
        }
    }
    assert!(domains > 50_000 && runs > 20_000, "{domains} {runs}");
}

/// What is told of a text that can't be written, or that the library refuses.
fn told(text: &str) -> String {
    match domain_text::read(text) {
        Ok(read) => tell("d.txt", text, &refused::in_domain(&read)),
        Err(faults) => tell("d.txt", text, &faults),
    }
}

#[test]
fn slips_are_told_by_line_and_column() {
    let text = M1.replace("true at(volume, from)", "true ot(volume, form)").replace("end add", "ned add");
    assert_eq!(
        told(&text),
        "\
d.txt:6:10: there is no relation `ot`
  6 |     true ot(volume, form)
    |          ^^ the nearest is `at`
d.txt:6:21: there is no variable `form`
  6 |     true ot(volume, form)
    |                     ^^^^ the nearest is `from`
    = of the action `move`
d.txt:12:5: expected relation, at once, lasting, template, or a literal (true, false, add, delete), found `ned`
 12 |     ned add out(volume, reader)
    |     ^^^ the nearest is `end`
"
    );
}

#[test]
fn marks_stand_under_their_place() {
    let text = M1.replace("at once move(volume", "at once перенос(том").replace("at(volume, to)", "at(том, куда)");
    let told = told(&text);
    assert!(
        told.contains(
            "d.txt:7:17: there is no variable `куда`\n  7 |     add at(том, куда)\n    |                 ^^^^ "
        ),
        "{told}"
    );
    let wide = "relation 本/1\nat once 移(本)\n    add 本(木)\ntemplate 本[0]\n";
    let told = self::told(wide);
    assert!(
        told.contains("d.txt:3:11: there is no variable `木`\n  3 |     add 本(木)\n    |            ^^ "),
        "{told}"
    );
    for line in told.lines() {
        assert!(command::notation::source::columns(line) <= 100, "{line}");
    }
}

/// Each slip with the words that it must be told with.
#[test]
fn each_slip_has_its_words() {
    let slips: [(&str, &str, &str); 25] = [
        ("relation at/2", "relation at", "expected `/` and the number of arguments, as in at/2"),
        ("relation at/2", "relation at/two", "`two` is no number"),
        ("relation at/2", "relation at/300", "300 is too large"),
        ("relation out/2", "relation at/2", "there are two relations `at`"),
        ("lend(volume", "move(volume", "there are two actions `move`"),
        ("(volume, from, to)", "(volume, from, from)", "there are two variables `from`"),
        ("(volume, from, to)", "(volume, from, to", "expected `)` or `,`, found the end of the line"),
        ("true at(volume, from)", "true at(volume)", "`at` has 2 arguments, and 1 argument here"),
        ("true at(volume, from)", "true at volume from", "expected `(` and the arguments of at, found `volume`"),
        ("true at(volume, from)", "at(volume, from)", "expected true, false, add or delete before a literal"),
        ("true at(volume, from)", "start true at(volume, from)", "`move` is at once and has no start"),
        ("end add", "add", "`lend` lasts, so add needs its time: start, all or end"),
        ("end add", "all add", "what counts over all is a condition"),
        ("end add", "end ad", "the nearest is `add`"),
        ("delete at(volume, from)", "delete at(volume, _)", "every object is `*`"),
        ("(volume, from, to)", "(volume, from, *)", "`*` is no name, and a variable is expected here"),
        ("at[0,_] out", "at[0,*] out", "`*` is no label"),
        ("at[0,_] out", "at(0,_) out", "expected `[` and a label for each argument"),
        ("at[0,_] out", "at[0] out", "`at` has 2 arguments, and 1 label here"),
        ("at[0,_] out", "at[0,x] out", "`x` is no label"),
        ("at[0,_] out", "ta[0,_] out", "there is no relation `ta`"),
        ("relation at/2\n", "relation at/2\n    true at(a, b)\n", "this literal belongs to no action"),
        ("to)\n", "to) volume\n", "expected the end of the line, or `:`, found `volume`"),
        ("from)\n", "from) at\n", "expected the end of the line, or `,`, found `at`"),
        ("relation out/2", "relation out/2 !", "`!` has no meaning in this notation"),
    ];
    for (right, wrong, said) in slips {
        assert!(M1.contains(right), "{right}");
        let told = told(&M1.replacen(right, wrong, 1));
        assert!(told.contains(said), "{wrong}:\n{told}");
    }
}

/// Each slip that the library refuses with its number, and the line that is the cause.
#[test]
fn refusals_are_told_by_number_and_line() {
    let many = |count: usize, line: &str| (0..count).map(|n| line.replace('#', &n.to_string())).collect::<String>();
    let slips: [(&str, String, u64, usize); 19] = [
        ("relation out/2", "relation out/2\nrelation more/7".to_string(), 15, 4),
        ("relation out/2\n", format!("relation out/2\n{}", many(63, "relation more#/0\n")), 14, 66),
        ("(volume, from, to)", "(volume, from, to, 1, 2, 3, 4, 5, 6, 7, 8, 9, 10, 11, 12, 13, 14)".to_string(), 15, 5),
        ("template", "relation late/1\ntemplate".to_string(), 13, 14),
        ("true at(volume, from)", "end true at(volume, from)".to_string(), 16, 6),
        ("true at(volume, from)", "true at(volume, *)".to_string(), 26, 6),
        ("add at(volume, to)", "add at(volume, *)".to_string(), 26, 7),
        ("delete at(volume, from)", "delete at(*, *)".to_string(), 26, 8),
        ("delete at(volume, from)", "false at(volume, *)".to_string(), 20, 8),
        ("delete at(volume, from)", "delete at(*, from)".to_string(), 27, 14),
        ("delete at(volume, from)", "record 3 03 00 00 03".to_string(), 18, 8),
        ("add at(volume, to)", "true at(volume, from)".to_string(), 19, 7),
        ("add at(volume, to)", "false at(volume, from)".to_string(), 20, 7),
        ("at[0,_] out", "at[_,_] out".to_string(), 25, 14),
        ("at[0,_] out", "at[0,0] out".to_string(), 24, 14),
        ("out[0,_]", "out[0,1]".to_string(), 21, 14),
        ("out[0,_]", "at[0,_]".to_string(), 22, 14),
        ("template at[0,_] out[0,_]\n", String::new(), 23, 13),
        ("relation out/2", "relation out/2\nrecord 6 02".to_string(), 11, 4),
    ];
    for (right, wrong, number, line) in slips {
        assert!(M1.contains(right), "{right}");
        let text = M1.replacen(right, &wrong, 1);
        let told = told(&text);
        let first = told.lines().next().unwrap_or_default();
        assert!(
            first.starts_with(&format!("d.txt:{line}:")) && first.contains(&format!("({number})")),
            "{wrong}:\n{told}"
        );
        assert_eq!(judge(&domain(&text)).number, number, "{wrong}");
    }
}

/// A label at fault is marked itself: the second `_`, the repeated key, the key that is too high. Where a key is only
/// missing, the component is.
#[test]
fn the_label_at_fault_is_marked() {
    let slips: [(&str, &str, u64, usize); 5] = [
        ("at[0,_] out", "at[_,_] out", 25, 15),
        ("at[0,_] out", "at[0,0] out", 24, 15),
        ("at[0,_] out", "at[1,_] out", 21, 13),
        ("out[0,_]", "out[0,1]", 21, 24),
        ("at[0,_] out[0,_]", "at[0,1] out[0,_]", 21, 18),
    ];
    for (right, wrong, number, column) in slips {
        let told = told(&M1.replacen(right, wrong, 1));
        let first = told.lines().next().unwrap_or_default();
        assert!(
            first.starts_with(&format!("d.txt:14:{column}: ")) && first.ends_with(&format!("({number})")),
            "{told}"
        );
    }
}

/// Every object is `*`, and FF where no variable has that name, as the paper writes it; bytes are shown with `*`.
#[test]
fn every_object_has_a_sign() {
    let text = M1.replace("delete at(volume, from)\n", "delete at(volume, *)\n");
    let file = domain(&text);
    assert_eq!(file[32..40], [4, 0, 3, 0, 3, 0, 0, 0xFF]);
    assert_eq!(domain(&PAPER.replace("delete at(0,1);", "delete at(0,FF);")), file);
    let shown = show::domain(&file, &domain_text::read(&text).expect("a domain").names, None);
    assert!(shown.contains("\n    delete at(volume, *)\n"), "{shown}");
    assert_eq!(domain(&shown), file);
    let named = M1.replace("from", "FF");
    assert_eq!(domain(&named), m1());
}

/// The `*` at fault is marked itself, and so is the key that stands where a literal has one.
#[test]
fn the_every_at_fault_is_marked() {
    let marked = |right: &str, wrong: &str| told(&M1.replacen(right, wrong, 1));
    assert_eq!(
        marked("delete at(volume, from)", "delete at(*, *)"),
        "\
d.txt:8:18: `*`, every object, stands in a false or a delete alone, and once at most (26)
  8 |     delete at(*, *)
    |                  ^
"
    );
    assert_eq!(
        marked("delete at(volume, from)", "delete at(*, from)"),
        "\
d.txt:14:13: a key in a place where a literal of the relation has `*` (27)
 14 | template at[0,_] out[0,_]
    |             ^ the `*` is in line 8
"
    );
    let told = marked("delete at(volume, from)", "false at(volume, *)");
    assert!(told.contains("(20)\n") && told.contains("the other is in line 6"), "{told}");
}

/// A template whose only component is refused is not missing besides: words get the numbers that bytes get.
#[test]
fn a_refused_component_is_no_missing_one() {
    let text = "\
at/2
at once put(volume, shelf)
    delete at(volume, *)
template at[0,1]
";
    let cleared = "\
d.txt:4:15: a key in a place where a literal of the relation has `*` (27)
  4 | template at[0,1]
    |               ^ the `*` is in line 3
";
    assert_eq!(told(text), cleared);
    for (labels, number) in [("0,0", 24), ("_,_", 25), ("0,9", 21)] {
        let text = text.replace("volume, *", "volume, shelf").replace("0,1", labels);
        let told = told(&text);
        assert!(told.contains(&format!("({number})")) && told.lines().count() == 3, "{told}");
        assert_eq!(judge(&domain(&text)).number, number);
    }
    let none = told(&text.replace("template at[0,1]", ""));
    assert!(none.contains("(23)") && none.lines().count() == 3, "{none}");
}

/// Of literals and components every refusal is told in one go.
#[test]
fn several_refusals_at_once() {
    let text = M1
        .replace("    add at(volume, to)", "    true at(volume, from)\n    false at(volume, from)")
        .replace("    end add out(volume, reader)", "    end add out(volume, reader)\n    end add out(volume, reader)")
        .replace("out[0,_]", "out[1,_]");
    let told = told(&text);
    let numbers = [
        "d.txt:7:5: this literal stands in its action already, in the same role (19)",
        "d.txt:8:",
        "(20)",
        "d.txt:14:",
        "d.txt:16:",
        "(21)",
    ];
    for words in numbers {
        assert!(told.contains(words), "{words}\n{told}");
    }
    assert!(told.contains("the other is in line 6") && told.contains("the other is in line 13"), "{told}");
}

const RUN: &str = "\
objects volume7 shelf2 reader5 shelf3
fact at(volume7, shelf2)
step
    start lend(volume7, shelf2, reader5)
step
    move(volume7, shelf2, shelf3)
";

#[test]
fn m12_in_words_is_m12() {
    let all = samples::all();
    let m12 = all.runs.iter().find(|run| run.name == "m12").expect("m12");
    let of = Domain::of(&m1(), &domain_text::read(M1).expect("m1").names);
    assert_eq!(run_text::read(RUN, Some(&of)).expect("a run").written.file, m12.file);
    let short = "objects: 0, 1, 2, 3; fact at(0,1); step start lend(0,1,2); step: move(0,1,3)";
    assert_eq!(run_text::read(short, Some(&of)).expect("a run").written.file, m12.file);
    let shown = show::run(&m12.file, Some(&of), &["volume7", "shelf2", "reader5", "shelf3"].map(String::from), None);
    assert_eq!(shown.replace("\n\n", "\n"), RUN);
}

#[test]
fn slips_in_a_run() {
    let of = Domain::of(&m1(), &domain_text::read(M1).expect("m1").names);
    let slips: [(&str, &str, &str); 15] = [
        ("objects volume7 ", "objects volume7 volume7 ", "there are two objects `volume7`"),
        ("fact at(volume7", "fact at(volum7", "the nearest is `volume7`"),
        ("fact at(", "fact it(", "the nearest is `at`"),
        ("fact at(volume7, shelf2)", "fact at(volume7)", "`at` has 2 arguments, and 1 object here"),
        ("fact at", "fct at", "the nearest is `fact`"),
        ("start lend", "lend", "`lend` lasts, so an event is its start or its end"),
        ("start lend", "start lent", "the nearest is `lend`"),
        ("move(", "start move(", "`move` is at once and has no start"),
        ("move(volume7, shelf2, shelf3)", "move(volume7, shelf2)", "`move` has 3 variables, and 2 objects here"),
        ("shelf3)\n", "shelf3), end\n", "expected `(` and the objects of end, found the end of the line"),
        ("step\n    start", "    start", "this event stands in no step"),
        ("objects volume7 shelf2 reader5 shelf3\n", "", "the objects of the run are missing"),
        ("shelf2, shelf3)", "shelf2 shelf3)", "expected `)` or `,`, found `shelf3`"),
        ("step\n    move", "stop\n    move", "the nearest is `step`"),
        ("fact at(volume7, shelf2)", "fact at volume7 shelf2", "expected `(` and the objects of at, found `volume7`"),
    ];
    for (right, wrong, said) in slips {
        assert!(RUN.contains(right), "{right}");
        let text = RUN.replacen(right, wrong, 1);
        let faults = run_text::read(&text, Some(&of)).err().unwrap_or_else(|| panic!("{wrong} is taken"));
        let told = tell("r.txt", &text, &faults);
        assert!(told.contains(said), "{wrong}:\n{told}");
    }
}

/// Texts with random damage are read or refused, and what is told of them has a line each.
#[test]
fn damaged_texts_are_told() {
    let of = Domain::of(&m1(), &domain_text::read(M1).expect("m1").names);
    let signs: Vec<char> = "()[],:;/#_* \n0aé本\t\"".chars().collect();
    let words = [
        "true ",
        "end ",
        "start ",
        "relation ",
        "template ",
        "step ",
        "record ",
        "bytes ",
        "times ",
        "not closed",
        "FF",
    ];
    let (mut refused, mut taken) = (0, 0);
    for seed in 0..20_000 {
        let rng = &mut Rng::new(seed);
        let mut text: Vec<char> = if seed % 3 == 0 { RUN } else { M1 }.chars().collect();
        for _ in 0..rng.range(1, 3) {
            let at = rng.below(text.len());
            match rng.below(4) {
                0 => drop(text.remove(at)),
                1 => text.insert(at, rng.pick(&signs)),
                2 => text[at] = rng.pick(&signs),
                _ => drop(text.splice(at..at, rng.pick(&words).chars())),
            }
        }
        let text: String = text.into_iter().collect();
        let faults = match run_text::is_run(&text) {
            true => run_text::read(&text, Some(&of)).map(|_| Vec::new()).unwrap_or_else(|faults| faults),
            false => domain_text::read(&text).map(|read| refused::in_domain(&read)).unwrap_or_else(|faults| faults),
        };
        let told = tell("t", &text, &faults);
        let heads = told.lines().filter(|line| line.starts_with("t:")).count();
        assert!(faults.is_empty() == told.is_empty() && heads <= faults.len().max(1), "{told}");
        assert!(faults.iter().all(|fault| fault.span.line <= text.lines().count()), "{told}");
        if faults.is_empty() {
            taken += 1;
        } else {
            refused += 1;
        }
    }
    assert!(refused > 5_000 && taken > 500, "{refused} {taken}");
}

/// What the library refuses in a run, by its number and the line.
#[test]
fn refusals_of_a_run() {
    let of = Domain::of(&m1(), &domain_text::read(M1).expect("m1").names);
    let many: String = (0..65).map(|n| format!(" x{n}")).collect();
    let slips: [(&str, String, u64, usize); 6] = [
        ("objects volume7", format!("objects{many} volume7"), 51, 1),
        ("step\n    move", "fact at(volume7, shelf3)\nstep\n    move".to_string(), 50, 5),
        ("    move(volume7, shelf2, shelf3)", "    end move(volume7, shelf2, shelf3)".to_string(), 51, 6),
        ("start lend(volume7, shelf2", "start lend(volume7, volume7".to_string(), 53, 4),
        ("step\n    move", "    start lend(volume7, shelf2, reader5)\nstep\n    move".to_string(), 54, 5),
        ("step\n    move(volume7, shelf2, shelf3)", "record 18 00 00 00 01 03".to_string(), 50, 5),
    ];
    for (right, wrong, number, line) in slips {
        assert!(RUN.contains(right), "{right}");
        let text = RUN.replacen(right, &wrong, 1);
        let read = match run_text::read(&text, Some(&of)) {
            Ok(read) => read,
            Err(faults) => panic!("{}", tell("r.txt", &text, &faults)),
        };
        let fault = refused::in_run(&m1(), &read.written).unwrap_or_else(|| panic!("{wrong} is played"));
        assert!(fault.said.contains(&format!("({number})")) && fault.span.line + 1 == line, "{wrong}: {fault:?}");
    }
    let read = run_text::read(RUN, Some(&of)).expect("a run");
    assert_eq!(refused::in_run(&m1(), &read.written), None);
}
