//! Files in words. What can't be said in words is told as records and bytes, so that the words make the same file again.

use super::raw::hexadecimal;
use crate::domain::{labels, role_of, Domain, Names, EVERY};
use crate::prose::wrap;
use crate::records::{
    split, Record, ACTION, CLOSE_RUN, CLOSE_STEP, CLOSING, COMPONENT, EVENT, FF, LITERAL, OBJECTS, RELATION, START_FACT,
};

const WIDEST: usize = 76;

/// A text with the offset in its file of what each line is about; the closing record has no line of its own.
#[derive(Default)]
struct Lines {
    lines: Vec<(usize, Option<String>)>,
}

impl Lines {
    fn push(&mut self, at: usize, line: String) {
        self.lines.push((at, Some(line)));
    }

    /// Adds to the last line, if that begins with this word; whether it does.
    fn add_to_last(&mut self, word: &str, more: &str) -> bool {
        match self.lines.last_mut() {
            Some((_, Some(line))) if line.trim_start().starts_with(word) => {
                *line += more;
                true
            }
            _ => false,
        }
    }

    /// The end of the file: closed by the record at this offset, or not closed.
    fn end(&mut self, file: &[u8], close: Option<usize>) {
        let line = close.is_none().then(|| "not closed".to_string());
        self.lines.push((close.unwrap_or(file.len()), line));
    }

    /// The first of some records, which has no words; equal ones in a row are told once. How many these are.
    fn raws(&mut self, records: &[Record]) -> usize {
        let is_equal = |other: &&Record| (other.kind, other.payload) == (records[0].kind, records[0].payload);
        let equal = records.iter().take_while(is_equal).count().min(u16::MAX as usize);
        self.raw(&records[0], equal);
        equal
    }

    fn raw(&mut self, record: &Record, times: usize) {
        let times = if times > 1 { format!(" times {times}") } else { String::new() };
        self.push(record.at, format!("record {}{}{times}", record.kind, hexadecimal(record.payload)));
    }

    /// The bytes at the end of a file that are no whole record.
    fn rest(&mut self, at: usize, bytes: &[u8]) {
        let Some((first, others)) = bytes.split_first() else { return };
        if others.len() > 3 && others.iter().all(|byte| byte == first) {
            // a count has two bytes at most
            const MOST: usize = u16::MAX as usize;
            for (count, part) in bytes.chunks(MOST).enumerate() {
                self.push(at + MOST * count, format!("bytes {first:02X} times {}", part.len()));
            }
            return;
        }
        for (count, part) in bytes.chunks(24).enumerate() {
            self.push(at + 24 * count, format!("bytes{}", hexadecimal(part)));
        }
    }

    /// The text, with a remark above the line that an offset is in.
    fn text(self, remark: Option<(usize, &str)>) -> String {
        let told = remark.and_then(|(at, _)| self.lines.iter().rposition(|(line, _)| *line <= at));
        let mut text = String::new();
        for (count, (_, line)) in self.lines.iter().enumerate() {
            let line = line.as_deref().unwrap_or_default();
            // an empty line comes before the remark
            let (empty, line) = line.strip_prefix('\n').map_or(("", line), |line| ("\n", line));
            text += empty;
            if let (true, Some((_, words))) = (told == Some(count), remark) {
                text += &wrap("# ", "# ", words);
            }
            if !line.is_empty() {
                text += &format!("{line}\n");
            }
        }
        text
    }
}

/// The most bytes of a record that are told as one; a longer one, and what follows it, is told as bytes.
const LONGEST: usize = 64;

/// A domain file in words; `remark` is an offset in it and what there is to say about it.
pub fn domain(file: &[u8], names: &Names, remark: Option<(usize, &str)>) -> String {
    let (records, end) = whole(file);
    let closing = records.last().filter(|last| end == file.len() && last.kind == CLOSING && last.payload.is_empty());
    let told = if closing.is_some() { &records[..records.len() - 1] } else { &records[..] };
    let (arities, actions) = (Vec::new(), Vec::new());
    let mut shown = ShownDomain { names, lines: Lines::default(), arities, actions };
    let mut at = 0;
    while at < told.len() {
        at += match shown.say(&told[at]) {
            Some(()) => 1,
            None => shown.lines.raws(&told[at..]),
        };
    }
    shown.lines.rest(end, &file[end..]);
    shown.lines.end(file, closing.map(|closing| closing.at));
    shown.lines.text(remark)
}

/// The records of a file up to one that is too long to be told as one, and the offset behind them.
fn whole(file: &[u8]) -> (Vec<Record<'_>>, usize) {
    let (mut records, mut end) = split(file);
    if let Some(long) = records.iter().position(|record| record.payload.len() > LONGEST) {
        end = records[long].at;
        records.truncate(long);
    }
    (records, end)
}

struct ShownDomain<'n> {
    names: &'n Names,
    lines: Lines,
    /// Of the relations told so far.
    arities: Vec<u8>,
    /// Variable count and sort of the actions told so far.
    actions: Vec<(u8, bool)>,
}

impl ShownDomain<'_> {
    /// Tells a record, if it has words.
    fn say(&mut self, record: &Record) -> Option<()> {
        let line = match (record.kind, record.payload) {
            (RELATION, &[arity]) if arity < FF => {
                self.arities.push(arity);
                format!("relation {}/{arity}", self.names.relation(self.arities.len() - 1))
            }
            (ACTION, &[variables, sort @ 0..=1]) if variables < FF => self.action(variables, sort == 1),
            (LITERAL, &[role, relation, ref arguments @ ..]) => self.literal(role, relation, arguments)?,
            (COMPONENT, &[relation, ref labels @ ..]) => {
                let component = self.component(relation, labels)?;
                if self.lines.add_to_last("template ", &format!(" {component}")) {
                    return Some(());
                }
                format!("\ntemplate {component}")
            }
            _ => return None,
        };
        self.lines.push(record.at, line);
        Some(())
    }

    fn action(&mut self, variables: u8, lasting: bool) -> String {
        let number = self.actions.len();
        self.actions.push((variables, lasting));
        let names: Vec<String> =
            (0..variables as usize).map(|variable| self.names.variable(number, variable)).collect();
        let sort = if lasting { "lasting" } else { "at once" };
        format!("\n{sort} {}({})", self.names.action(number), names.join(", "))
    }

    fn literal(&self, role: u8, relation: u8, arguments: &[u8]) -> Option<String> {
        let (time, list) = role_of(role)?;
        let number = self.actions.len().checked_sub(1)?;
        let (variables, lasting) = self.actions[number];
        let fits = *self.arities.get(relation as usize)? as usize == arguments.len();
        let known = arguments.iter().all(|&variable| variable < variables || variable == FF);
        if !fits || !known {
            return None;
        }
        let name = |&variable: &u8| match variable {
            FF => EVERY.to_string(),
            variable => self.names.variable(number, variable as usize),
        };
        let arguments: Vec<String> = arguments.iter().map(name).collect();
        let time = if lasting || role > 3 { format!("{} ", time.word()) } else { String::new() };
        Some(format!("    {time}{} {}({})", list.word(), self.names.relation(relation as usize), arguments.join(", ")))
    }

    fn component(&self, relation: u8, of: &[u8]) -> Option<String> {
        if *self.arities.get(relation as usize)? as usize != of.len() {
            return None;
        }
        Some(format!("{}[{}]", self.names.relation(relation as usize), labels(of)))
    }
}

/// A run file in words, with the names of its domain if that is at hand.
pub fn run(file: &[u8], domain: Option<&Domain>, objects: &[String], remark: Option<(usize, &str)>) -> String {
    let (records, end) = whole(file);
    let count = match records.first() {
        Some(Record { kind: OBJECTS, payload: &[count], .. }) if count < FF => Some(count),
        _ => None,
    };
    let closing = records.last().filter(|last| end == file.len() && last.kind == CLOSE_RUN && last.payload.is_empty());
    let mut told = if closing.is_some() { &records[..records.len() - 1] } else { &records[..] };
    let mut shown = ShownRun { domain, objects, count: count.unwrap_or(0), lines: Lines::default() };
    match count {
        Some(_) => {
            shown.objects();
            told = &told[1..];
        }
        None => shown.lines.push(0, "run".to_string()),
    }
    shown.records(told);
    shown.lines.rest(end, &file[end..]);
    shown.lines.end(file, closing.map(|closing| closing.at));
    shown.lines.text(remark)
}

struct ShownRun<'n> {
    domain: Option<&'n Domain>,
    objects: &'n [String],
    count: u8,
    lines: Lines,
}

impl ShownRun<'_> {
    fn object(&self, number: u8) -> String {
        self.objects.get(number as usize).cloned().unwrap_or_else(|| format!("o{number}"))
    }

    fn objects(&mut self) {
        let mut line = "objects".to_string();
        for number in 0..self.count {
            let name = self.object(number);
            if line.len() + 1 + name.len() > WIDEST {
                self.lines.push(0, std::mem::replace(&mut line, "objects".to_string()));
            }
            line += &format!(" {name}");
        }
        self.lines.push(0, line);
    }

    fn records(&mut self, records: &[Record]) {
        let mut at = 0;
        while at < records.len() {
            at += match records[at].kind {
                EVENT | CLOSE_STEP => self.step(&records[at..]),
                _ => self.other(&records[at..]),
            };
        }
    }

    /// A start fact, or a record without words (equal ones in a row once); how many records that is.
    fn other(&mut self, records: &[Record]) -> usize {
        let record = &records[0];
        if let Some(line) = self.fact(record) {
            self.lines.push(record.at, line);
            return 1;
        }
        self.lines.raws(records)
    }

    fn fact(&self, record: &Record) -> Option<String> {
        let (START_FACT, &[relation, ref objects @ ..]) = (record.kind, record.payload) else { return None };
        let name = match self.domain {
            Some(domain) => {
                domain.relations.get(relation as usize).filter(|known| known.arity == objects.len())?.name.clone()
            }
            None => format!("r{relation}"),
        };
        Some(format!("fact {name}({})", self.objects_of(objects)?))
    }

    fn objects_of(&self, objects: &[u8]) -> Option<String> {
        let all_known = objects.iter().all(|&object| object < self.count);
        let names: Vec<String> = objects.iter().map(|&object| self.object(object)).collect();
        all_known.then(|| names.join(", "))
    }

    /// Events and the record that closes their step. Where one of them has no words, none is told in words.
    fn step(&mut self, records: &[Record]) -> usize {
        let events = records.iter().take_while(|record| record.kind == EVENT).count();
        let lines: Option<Vec<String>> = records[..events].iter().map(|record| self.event(record)).collect();
        let close = records.get(events).filter(|record| record.kind == CLOSE_STEP && record.payload.is_empty());
        if let (Some(lines), Some(close)) = (lines, close) {
            // the step is told above its events, and what is wrong with it at its close
            self.lines.push(records[0].at.min(close.at), "\nstep".to_string());
            for (record, line) in records.iter().zip(lines) {
                self.lines.push(record.at, line);
            }
            return events + 1;
        }
        let count = events + usize::from(records.get(events).is_some_and(|record| record.kind == CLOSE_STEP));
        for record in &records[..count] {
            self.lines.raw(record, 1);
        }
        count
    }

    fn event(&self, record: &Record) -> Option<String> {
        let &[moment @ 0..=1, action, ref objects @ ..] = record.payload else { return None };
        let (name, start) = match self.domain {
            Some(domain) => {
                let action =
                    domain.actions.get(action as usize).filter(|action| action.variables.len() == objects.len())?;
                (action.name.clone(), if action.lasting { "start " } else { "" })
            }
            None => (format!("a{action}"), ""),
        };
        let moment = if moment == 1 { "end " } else { start };
        Some(format!("    {moment}{name}({})", self.objects_of(objects)?))
    }
}
