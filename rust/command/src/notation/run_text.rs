//! Reading a run in words.

use super::cursor::{unknown, Name, Parsed};
use super::domain_text::counted;
use super::items::Reader;
use super::nearest::nearest;
use super::raw::{self, Raw};
use super::source::{Fault, Span};
use super::words::first_word;
use super::written::Written;
use crate::domain::Domain;
use crate::records::{CLOSE_RUN, CLOSE_STEP, EVENT, FF, OBJECTS, START_FACT};

/// A run file written from words, and the names of its objects.
#[derive(Clone, Debug, Default)]
pub struct RunText {
    pub written: Written,
    pub objects: Vec<String>,
}

/// Whether a text is a run: its first word is `objects` or `run`. Every other text is a domain.
pub fn is_run(text: &str) -> bool {
    matches!(first_word(text), Some("objects" | "run"))
}

/// Reads a run in words, or tells everything in it that can't be written. Without a domain relations are r0, r1, .. and
/// actions a0, a1, ..
pub fn read(text: &str, domain: Option<&Domain>) -> Result<RunText, Vec<Fault>> {
    let reader = Reader::read(text, Reader::item);
    let mut writer = Writer { domain, faults: reader.faults, text: RunText::default(), step: None, closed: true };
    writer.objects(&reader.items);
    for item in &reader.items {
        writer.item(item);
    }
    writer.close(reader.cursor.peek().span);
    if writer.faults.is_empty() {
        Ok(writer.text)
    } else {
        Err(writer.faults)
    }
}

#[derive(Clone, Debug)]
struct Atom {
    name: Name,
    objects: Vec<Name>,
    span: Span,
}

#[derive(Clone, Copy, PartialEq, Eq, Debug)]
enum Moment {
    Untold,
    Start,
    End,
}

#[derive(Clone, Debug)]
enum Item {
    Run,
    Objects { names: Vec<Name>, span: Span },
    Fact(Atom),
    Step(Span),
    Event { moment: Moment, event: Atom, span: Span },
    Raw(Raw),
    NotClosed,
}

impl Reader<'_, Item> {
    fn item(&mut self) -> Parsed<()> {
        let is_name = self.cursor.sign_ahead(1, '(');
        match self.cursor.word_ahead(0) {
            Some("run") if !is_name => {
                self.cursor.advance();
                self.items.push(Item::Run);
            }
            Some("objects") if !is_name => self.objects()?,
            Some("fact" | "facts") if !is_name => {
                self.cursor.advance();
                self.facts()?;
            }
            Some("step") if !is_name => self.step()?,
            Some("record" | "bytes") if raw::comes(&self.cursor) => {
                let raw = raw::read(&mut self.cursor)?;
                self.items.push(Item::Raw(raw));
            }
            Some("not") if self.cursor.word_ahead(1) == Some("closed") => {
                self.cursor.advance();
                self.cursor.advance();
                self.items.push(Item::NotClosed);
            }
            Some("start" | "end") if !is_name => self.events()?,
            Some(_) if is_name => self.events()?,
            _ => return Err(self.no_item()),
        }
        self.item_end()
    }

    fn no_item(&self) -> Fault {
        let fault = self.cursor.unexpected("objects, fact, step, or an event as start lend(volume7, shelf2)");
        match self.cursor.word_ahead(0).and_then(|word| nearest(word, ["objects", "fact", "step", "start", "end"])) {
            Some(near) => fault.beside(format!("the nearest is `{near}`")),
            None => fault.beside(""),
        }
    }

    fn objects(&mut self) -> Parsed<()> {
        let span = self.cursor.advance();
        let mut names = Vec::new();
        self.cursor.take_sign(':');
        while !self.cursor.is_item_end() {
            names.push(self.cursor.expect_name("the name of an object")?);
            self.cursor.take_sign(',');
        }
        self.items.push(Item::Objects { names, span });
        Ok(())
    }

    fn facts(&mut self) -> Parsed<()> {
        loop {
            let fact = self.atom("a relation")?;
            self.items.push(Item::Fact(fact));
            if !self.cursor.take_sign(',') {
                return Ok(());
            }
            self.cursor.skip_lines();
        }
    }

    fn step(&mut self) -> Parsed<()> {
        let span = self.cursor.advance();
        self.items.push(Item::Step(span));
        self.cursor.take_sign(':');
        if self.cursor.is_item_end() {
            return Ok(());
        }
        self.events()
    }

    fn events(&mut self) -> Parsed<()> {
        loop {
            let span = self.cursor.peek().span;
            let moment = if self.cursor.comes(&["start"]) {
                Moment::Start
            } else if self.cursor.comes(&["end"]) {
                Moment::End
            } else {
                Moment::Untold
            };
            if moment != Moment::Untold {
                self.cursor.advance();
            }
            let event = self.atom("an action")?;
            let span = span.to(event.span);
            self.items.push(Item::Event { moment, event, span });
            if !self.cursor.take_sign(',') {
                return Ok(());
            }
            self.cursor.skip_lines();
        }
    }

    fn atom(&mut self, what: &str) -> Parsed<Atom> {
        let name = self.cursor.expect_name(what)?;
        if !self.cursor.sign_ahead(0, '(') {
            return Err(self.cursor.unexpected(&format!("`(` and the objects of {}", name.text)));
        }
        let objects = self.cursor.in_parentheses("an object")?;
        let span = objects.last().map_or(name.span, |last| name.span.to(last.span));
        Ok(Atom { name, objects, span })
    }
}

struct Writer<'d> {
    domain: Option<&'d Domain>,
    faults: Vec<Fault>,
    text: RunText,
    /// The step whose events are being written.
    step: Option<Span>,
    closed: bool,
}

impl Writer<'_> {
    /// Takes in the names of all objects, which stand above what is said about them.
    fn objects(&mut self, items: &[Item]) {
        let mut lines: Vec<usize> = Vec::new();
        for item in items {
            let Item::Objects { names, .. } = item else { continue };
            for name in names {
                if let Some(first) = self.text.objects.iter().position(|other| *other == name.text) {
                    let said = format!("there are two objects `{}`", name.text);
                    let beside = format!("the first is in line {}", lines[first] + 1);
                    self.faults.push(Fault::new(name.span, said).beside(beside));
                }
                self.text.objects.push(name.text.clone());
                lines.push(name.span.line);
            }
        }
        let told = items.iter().any(|item| matches!(item, Item::Objects { .. } | Item::Run));
        let first = items.iter().find_map(|item| match item {
            Item::Fact(fact) => Some(fact.span),
            Item::Event { span, .. } => Some(*span),
            _ => None,
        });
        if let (false, Some(span)) = (told, first) {
            let said = "the objects of the run are missing";
            self.faults.push(Fault::new(span, said).beside("expected a line as `objects volume7 shelf2` above"));
        }
    }

    fn item(&mut self, item: &Item) {
        match item {
            Item::Run => {}
            Item::Objects { names, span } => self.put_objects(names.len(), *span),
            Item::Fact(fact) => self.fact(fact),
            Item::Step(span) => {
                self.close_step();
                self.step = Some(*span);
            }
            Item::Event { moment, event, span } => self.event(*moment, event, *span),
            Item::Raw(raw) => {
                self.close_step();
                self.text.written.raw(raw);
            }
            Item::NotClosed => self.closed = false,
        }
    }

    /// The first line of objects makes the record, further lines right below it add to its count.
    fn put_objects(&mut self, count: usize, span: Span) {
        self.close_step();
        let file = &mut self.text.written.file;
        if let [1, 0, 16, 0, total] = file[..] {
            file[4] = (total as usize + count).min(FF as usize) as u8;
            return;
        }
        self.text.written.record(OBJECTS, &[count.min(FF as usize) as u8], span, 0, &[]);
    }

    fn close_step(&mut self) {
        if let Some(span) = self.step.take() {
            self.text.written.record(CLOSE_STEP, &[], span, 0, &[]);
        }
    }

    fn fact(&mut self, fact: &Atom) {
        self.close_step();
        let relation = self.relation(fact);
        let objects = self.objects_of(&fact.objects);
        let (Some(relation), Some(objects)) = (relation, objects) else { return };
        let own: Vec<Span> = fact.objects.iter().map(|name| name.span).collect();
        self.text.written.record(START_FACT, &[&[relation], &objects[..]].concat(), fact.span, 1, &own);
    }

    fn relation(&mut self, fact: &Atom) -> Option<u8> {
        let Some(domain) = self.domain else { return self.numbered("relation", 'r', &fact.name) };
        let Some(number) = domain.relations.iter().position(|relation| relation.name == fact.name.text) else {
            let known = domain.relations.iter().map(|relation| relation.name.as_str());
            self.faults.push(unknown("relation", &fact.name, known));
            return None;
        };
        self.fits(fact, domain.relations[number].arity, "argument")?;
        Some(number as u8)
    }

    fn action(&mut self, event: &Atom) -> Option<usize> {
        let Some(domain) = self.domain else { return self.numbered("action", 'a', &event.name).map(usize::from) };
        let Some(number) = domain.actions.iter().position(|action| action.name == event.name.text) else {
            let known = domain.actions.iter().map(|action| action.name.as_str());
            self.faults.push(unknown("action", &event.name, known));
            return None;
        };
        self.fits(event, domain.actions[number].variables.len(), "variable")?;
        Some(number)
    }

    /// That so many objects are told as there are places for them.
    fn fits(&mut self, atom: &Atom, places: usize, what: &str) -> Option<()> {
        if atom.objects.len() == places {
            return Some(());
        }
        let told = counted(atom.objects.len(), "object");
        let said = format!("`{}` has {}, and {told} here", atom.name.text, counted(places, what));
        self.faults.push(Fault::new(atom.span, said).beside(format!("expected {}", counted(places, "object"))));
        None
    }

    /// A number behind its letter, for a run whose domain isn't at hand.
    fn numbered(&mut self, sort: &str, letter: char, name: &Name) -> Option<u8> {
        let number = name.text.strip_prefix(letter).and_then(|digits| digits.parse::<u8>().ok());
        if number.is_none() {
            let said = format!("`{}` is a name of the domain, which isn't at hand", name.text);
            let fault = Fault::new(name.span, said).beside(format!("expected the number of the {sort}, as {letter}0"));
            self.faults.push(fault.note("give the domain file before the run file"));
        }
        number
    }

    fn objects_of(&mut self, names: &[Name]) -> Option<Vec<u8>> {
        let mut numbers = Some(Vec::new());
        for name in names {
            let found = self.text.objects.iter().position(|object| *object == name.text);
            if found.is_none() {
                let known = self.text.objects.iter().map(String::as_str);
                self.faults.push(unknown("object", name, known));
            }
            numbers = numbers.zip(found).map(|(numbers, number)| [numbers, vec![number.min(254) as u8]].concat());
        }
        numbers
    }

    fn event(&mut self, moment: Moment, event: &Atom, span: Span) {
        if self.step.is_none() {
            let said = "this event stands in no step";
            self.faults.push(Fault::new(span, said).beside("expected a line `step` above it"));
        }
        let action = self.action(event);
        let objects = self.objects_of(&event.objects);
        let Some(action) = action else { return };
        let moment = self.moment(moment, action, event);
        let (Some(moment), Some(objects)) = (moment, objects) else { return };
        let payload = [&[moment, action as u8], &objects[..]].concat();
        let own: Vec<Span> = event.objects.iter().map(|name| name.span).collect();
        self.text.written.record(EVENT, &payload, span, 2, &own);
    }

    /// The number of the moment: 1 for an end.
    fn moment(&mut self, moment: Moment, action: usize, event: &Atom) -> Option<u8> {
        let lasting = self.domain.map(|domain| domain.actions[action].lasting);
        let name = &event.name.text;
        let said = match (moment, lasting) {
            (Moment::Untold, Some(true)) => format!("`{name}` lasts, so an event is its start or its end"),
            (Moment::Start, Some(false)) => format!("`{name}` is at once and has no start"),
            (Moment::End, _) => return Some(1),
            _ => return Some(0),
        };
        let beside = match moment {
            Moment::Untold => "expected start or end before it",
            _ => "the action alone will do",
        };
        self.faults.push(Fault::new(event.name.span, said).beside(beside));
        None
    }

    fn close(&mut self, end: Span) {
        self.close_step();
        if self.closed {
            self.text.written.record(CLOSE_RUN, &[], end, 0, &[]);
        }
    }
}
