//! The texts of `--help`.

pub fn version() -> String {
    format!("goadlotus {}\n", env!("CARGO_PKG_VERSION"))
}

pub fn all() -> String {
    "\
goadlotus: says whether a family of facts may be joined into one field, and
plays runs of the procedures that change them

  goadlotus judge FILE ..      the verdict of a domain and the name of each
                               class; of many files or a folder a table
  goadlotus explain FILE       the verdict in sentences, with every reason
  goadlotus play DOMAIN RUN    a run step by step, where it stops and why; with
                               objects behind it, where such an instance is
  goadlotus mark DOMAIN FILE   a student's names against the program's; of many
                               hand-ins or a folder a table
  goadlotus templates FILE     every template of a single relation, and its
                               verdict
  goadlotus try FILE           for each class of an action at once, facts from
                               which one event leads to two facts of the class
  goadlotus totals FILE ..     how many files met each verdict or refusal, and
                               how many moments had each name
  goadlotus show FILE          a file in words
  goadlotus write FILE -o OUT  a file in bytes, from words
  goadlotus --help, goadlotus WORD --help, goadlotus --version

A FILE is in words or in bytes, which is told by its first bytes; - is standard
input. docs/COURSE.md shows how a domain and a run are written, docs/FORMAT.md
has the bytes and every number.

Status: 0 accepted, or played to the end; 3 refused for a class, or a step that
isn't allowed; 4 a broken file; 1 something can't be read or written; 2 wrong
usage.
"
    .to_string()
}

pub fn of(word: &str) -> String {
    match word {
        "judge" => JUDGE,
        "explain" => EXPLAIN,
        "mark" => MARK,
        "play" => PLAY,
        "templates" => TEMPLATES,
        "try" => TRY,
        "totals" => TOTALS,
        "show" => SHOW,
        "write" => WRITE,
        _ => "",
    }
    .to_string()
}

const JUDGE: &str = "\
goadlotus judge FILE
goadlotus judge [--tsv | --json] [--rows] FILE-OR-FOLDER ..

One file: its verdict, and a line for each moment of each class: action, class,
what the class is about, moment, name. Several files, or a folder with all in it
but hidden files: a table with a line for each file, as columns, as TSV for a
spreadsheet, or as JSON lines. --rows: a line for each row of each file instead.

Status: 0 all are accepted, 3 one is refused, 4 one is broken, 1 one can't be
read.
";

const EXPLAIN: &str = "\
goadlotus explain FILE

The verdict of a domain in sentences. For each row: what the class is about,
which literals count, why it has its name, and why not the one before it in the
list. For a refusal the witness: facts, the event, and the facts after it.

Status: 0 accepted, 3 refused, 4 a broken file, 1 it can't be read.
";

const MARK: &str = "\
goadlotus mark DOMAIN FILE
goadlotus mark [--tsv | --json] [--rows] DOMAIN FILE-OR-FOLDER ..

A student's names against the program's: right, wrong or missing, with the
reason for each that is wrong. Several files, or a folder: a table with a line
for each hand-in. --rows: a line for each row of each hand-in instead. A hand-in
is a text:

  verdict: accepted
  move: balanced
  lend start: irrelevant
  lend end: unbounded

Where an action has several classes a line tells which, as lend(volume) start,
or lend class 0 start. The verdict need not be told; lines of the listing, as
row 1 0 1 unbounded, are taken, too.

Status: 0 all are right, 3 something is wrong or missing, 4 a file is broken,
1 one can't be read.
";

const PLAY: &str = "\
goadlotus play [--all] DOMAIN RUN
goadlotus play [--all] [--track] DOMAIN RUN OBJECT ..

A run in sentences. For each step: its events, the facts that go and come, what
is open, and the weight of each instance that loses or gets a fact. Where it
stops: which condition fails, what isn't open, or which two events interfere.
Last a line of time: * at once, [ start, ] end, = open, and the highest weight
after each step. Of more than 60 steps only the last 20 are told, unless --all
stands there.

With an OBJECT for each key of the template, by name or by number, one instance
is followed. Last of all stand its total, which is its facts and its open
journeys together, and from which step on it is there, on the way (a journey has
taken it and will bring it), or nowhere. --track alone follows the one instance
of a template without keys.

Status: 0 played to the end, 3 a step that isn't allowed, 4 a broken file, 1 a
file can't be read.
";

const TEMPLATES: &str = "\
goadlotus templates [--tsv | --json] FILE

Every template of a single relation that the domain could have, each judged by
itself; the file's own template is left aside. A line each: the template, its
relation, the place that is counted (from 0; - for none), and the verdict, as
number and in words. Relations stand in the order of the file; of each comes
first the template that counts nothing. As columns, as TSV for a spreadsheet, or
as JSON lines. Below the columns: which templates are passed over, since they
have a key where a literal has *.

Status: 0 listed, 4 a broken file, 1 it can't be read.
";

const TRY: &str = "\
goadlotus try [--tsv | --json] FILE

Tries the facts themselves, and knows no name; the one that the report has
stands beside the answer. For each class of each action at once: an object for
each variable, and one more; the sets are what the action asks for, and this
with one further fact of the class. From each set in which the class has at most
one fact the action is played, where it is allowed. yes where two facts of the
class or more are true then. The library makes one step for each action, from
what it asks for, and decides the other sets by it, which is proved to be the
same. Of the sets with a yes one is told, with the event and the facts after it:
what the action asks for, else the first with a further fact, that with the one
object more before the others. Actions that last are not tried. --tsv and
--json: a table with a line for each class.

Status: 0 no class has a yes, 3 some class has, 4 a broken file, 1 it can't be
read.
";

const TOTALS: &str = "\
goadlotus totals [--tsv | --json] [--all] [--box] FILE-OR-FOLDER ..

How many of the files met each number, and how many moments of the files that
are read had each of the seven names: a table as columns, as TSV for a
spreadsheet, or as JSON lines. Numbers that no file met are left out, unless
--all stands there. Of a folder all files are counted but hidden ones. A file
whose name ends in .box, or every file where --box stands there, is a box: files
in bytes in a row, each behind its length in 4 bytes, the lowest first. Words
that are no domain are told and not counted.

Status: 0 all are counted, 4 a box is cut or words are no domain, 1 one can't be
read.
";

const SHOW: &str = "\
goadlotus show FILE [-o OUT]
goadlotus show DOMAIN RUN [-o OUT]

A domain or a run in words. A file in bytes has no names, so they are r0, a0, v0
and o0; with a domain in words its names are used for the run. A broken file is
shown too, with a remark above the record at fault, and what has no words as
records and bytes: write makes the same file of it again.

Status: 0 shown, 4 a broken file, 1 it can't be read or written.
";

const WRITE: &str = "\
goadlotus write FILE [-o OUT]
goadlotus write DOMAIN RUN [-o OUT]

A domain or a run in bytes, on standard output or in the file OUT. A run in
words needs its domain, unless it has numbers in place of names. What reading
refuses is written too, and told by its line and its number.

Status: 0 written, 4 a slip in the words, or a file that reading refuses, 1 it
can't be read or written.
";
