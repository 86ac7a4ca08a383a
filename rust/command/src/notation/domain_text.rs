//! Reading a domain in words.

use super::cursor::{unknown, Cursor, Name, Parsed};
use super::items::Reader;
use super::nearest::nearest;
use super::raw::{self, Raw};
use super::source::{Fault, Span};
use super::words::Kind;
use super::written::Written;
use crate::domain::{role_number, ActionNames, List, Names, Time, EVERY};
use crate::records::{ACTION, CLOSING, COMPONENT, FF, LITERAL, RELATION};

/// A domain file written from words, and the names in them.
#[derive(Clone, Debug, Default)]
pub struct DomainText {
    pub written: Written,
    pub names: Names,
}

/// Reads a domain in words, or tells everything in it that can't be written.
pub fn read(text: &str) -> Result<DomainText, Vec<Fault>> {
    let reader = Reader::read(text, Reader::item);
    let mut faults = reader.faults;
    let mut writer = Writer::new(&reader.items, &mut faults);
    for item in &reader.items {
        writer.item(item);
    }
    let text = writer.close(reader.cursor.peek().span);
    if faults.is_empty() {
        Ok(text)
    } else {
        Err(faults)
    }
}

/// A role as it is told: an action at once has no word for the time.
#[derive(Clone, Copy, Debug)]
struct Role {
    time: Option<(Time, Span)>,
    list: List,
    span: Span,
}

#[derive(Clone, Debug)]
struct Atom {
    relation: Name,
    arguments: Vec<Name>,
    span: Span,
}

#[derive(Clone, Debug)]
enum Label {
    Key(u8),
    Counted,
}

/// A part of a text. What is none was faulty, and nothing more is said about it.
#[derive(Clone, Debug)]
enum Item {
    Relation { name: Name, arity: Option<u8> },
    Action { name: Name, lasting: bool, variables: Option<Vec<Name>> },
    Literal { role: Role, atom: Atom },
    Component { relation: Name, labels: Vec<(Label, Span)>, span: Span },
    Raw(Raw),
    NotClosed,
}

const ITEMS: &str = "relation, at once, lasting, template, or a literal (true, false, add, delete)";
const LISTS: &str = "true, false, add or delete";

impl Reader<'_, Item> {
    fn item(&mut self) -> Parsed<()> {
        let next_is = |sign| self.cursor.word_ahead(0).is_some() && self.cursor.sign_ahead(1, sign);
        if self.cursor.comes(&["relation"]) {
            self.cursor.advance();
            self.relations()?;
        } else if next_is('/') {
            self.relations()?;
        } else if self.cursor.comes(&["template"]) {
            self.cursor.advance();
            self.components()?;
        } else if next_is('[') {
            self.components()?;
        } else if self.cursor.comes(&["lasting"]) {
            self.cursor.advance();
            return self.action(true);
        } else if self.cursor.comes(&["at", "once"]) || self.cursor.comes(&["at-once"]) {
            self.cursor.advance();
            if self.cursor.comes(&["once"]) {
                self.cursor.advance();
            }
            return self.action(false);
        } else if next_is('(') {
            return self.action_of_the_paper();
        } else if raw::comes(&self.cursor) {
            let raw = raw::read(&mut self.cursor)?;
            self.items.push(Item::Raw(raw));
        } else if self.cursor.word_ahead(0) == Some("not") && self.cursor.word_ahead(1) == Some("closed") {
            self.cursor.advance();
            self.cursor.advance();
            self.items.push(Item::NotClosed);
        } else if self.time().is_some() || self.list().is_some() {
            self.literals()?;
        } else {
            return Err(self.no_item());
        }
        self.item_end()
    }

    /// That no part of a domain begins here.
    fn no_item(&self) -> Fault {
        const WORDS: [&str; 11] =
            ["relation", "lasting", "at once", "template", "start", "all", "end", "true", "false", "add", "delete"];
        let fault = self.cursor.unexpected(ITEMS);
        match self.cursor.word_ahead(0).and_then(|word| nearest(word, WORDS)) {
            Some(near) => fault.beside(format!("the nearest is `{near}`")),
            None => fault.beside(""),
        }
    }

    /// `at/2, out/2`
    fn relations(&mut self) -> Parsed<()> {
        loop {
            let name = self.cursor.expect_name("the name of a relation")?;
            let arity = self.arity();
            let (arity, fault) = arity.map_or_else(|fault| (None, Some(fault)), |arity| (Some(arity), None));
            self.items.push(Item::Relation { name, arity });
            if let Some(fault) = fault {
                return Err(fault);
            }
            if !self.cursor.take_sign(',') {
                return Ok(());
            }
            self.cursor.skip_lines();
        }
    }

    fn arity(&mut self) -> Parsed<u8> {
        self.cursor.expect_sign('/', "`/` and the number of arguments, as in at/2")?;
        Ok(self.cursor.expect_number("the number of arguments", 254)?.0 as u8)
    }

    /// `at[0,_] out[0,_]`, with or without commas between
    fn components(&mut self) -> Parsed<()> {
        loop {
            let relation = self.cursor.expect_name("a component, as at[0,_]")?;
            self.cursor.expect_sign('[', "`[` and a label for each argument, as in at[0,_]")?;
            let labels = self.cursor.until(']', "`]` or `,`", label)?;
            let span = relation.span;
            self.items.push(Item::Component { relation, labels, span });
            if self.cursor.take_sign(',') {
                self.cursor.skip_lines();
            } else if self.cursor.word_ahead(0).is_none() {
                return Ok(());
            }
        }
    }

    /// An action's name and variables. What is faulty in them says nothing about the literals below.
    fn action(&mut self, lasting: bool) -> Parsed<()> {
        let name = self.cursor.expect_name("the name of an action")?;
        let variables = self.variables();
        let (variables, fault) = variables.map_or_else(|fault| (None, Some(fault)), |all| (Some(all), None));
        self.items.push(Item::Action { name, lasting, variables });
        match fault {
            Some(fault) => Err(fault),
            None if self.cursor.take_sign(':') => Ok(()),
            None if self.cursor.is_item_end() => Ok(()),
            None => Err(self.cursor.unexpected("the end of the line, or `:`")),
        }
    }

    fn variables(&mut self) -> Parsed<Vec<Name>> {
        self.cursor.expect_sign('(', "`(` and the variables, as in move(volume, from, to)")?;
        self.cursor.until(')', "`)` or `,`", |cursor| cursor.expect_name("a variable"))
    }

    /// `move(0,1,2): ..`, an action at once as the paper writes it. Without the colon it may be a literal, too.
    fn action_of_the_paper(&mut self) -> Parsed<()> {
        if self.heads_an_action() {
            return self.action(false);
        }
        let fault = self.cursor.unexpected(&format!("{LISTS} before a literal, at once or lasting before an action"));
        Err(fault.beside("a literal or an action?"))
    }

    /// Whether the parenthesis behind the next word is closed on its line, with `:` behind it.
    fn heads_an_action(&self) -> bool {
        let kinds = (2..).map(|count| self.cursor.ahead(count).kind);
        let of_line = kinds.take_while(|kind| !matches!(kind, Kind::NewLine | Kind::End));
        of_line.skip_while(|kind| *kind != Kind::Sign(')')).nth(1) == Some(Kind::Sign(':'))
    }

    /// The word for a time that comes next, and how many tokens it has.
    fn time(&self) -> Option<(Time, usize)> {
        if self.cursor.comes(&["over", "all"]) {
            return Some((Time::All, 2));
        }
        let time = Time::ALL.into_iter().find(|time| self.cursor.comes(&[time.word()]))?;
        Some((time, 1))
    }

    fn list(&self) -> Option<List> {
        List::ALL.into_iter().find(|list| self.cursor.comes(&[list.word()]))
    }

    /// `start true and delete at(volume, shelf), end add out(volume, reader)`. A time and a list hold on until others come.
    fn literals(&mut self) -> Parsed<()> {
        let mut time = None;
        let mut lists: Vec<(List, Span)> = Vec::new();
        loop {
            if let Some((found, count)) = self.time() {
                let span = self.cursor.peek().span;
                for _ in 0..count {
                    self.cursor.advance();
                }
                time = Some((found, span));
                lists.clear();
            }
            if self.list().is_some() {
                lists = self.lists()?;
            }
            if lists.is_empty() {
                return Err(self.no_list());
            }
            let atom = self.atom()?;
            for &(list, span) in &lists {
                self.items.push(Item::Literal { role: Role { time, list, span }, atom: atom.clone() });
            }
            if !self.cursor.take_sign(',') {
                return Ok(());
            }
            self.cursor.skip_lines();
        }
    }

    /// `true and delete`
    fn lists(&mut self) -> Parsed<Vec<(List, Span)>> {
        let mut lists = Vec::new();
        loop {
            let Some(list) = self.list() else { return Err(self.no_list()) };
            lists.push((list, self.cursor.advance()));
            if !self.cursor.comes(&["and"]) {
                return Ok(lists);
            }
            self.cursor.advance();
        }
    }

    fn no_list(&self) -> Fault {
        let fault = self.cursor.unexpected(LISTS);
        match self.cursor.word_ahead(0).and_then(|word| nearest(word, List::ALL.map(List::word))) {
            Some(near) => fault.beside(format!("the nearest is `{near}`")),
            None => fault,
        }
    }

    fn atom(&mut self) -> Parsed<Atom> {
        let relation = self.cursor.expect_name("a relation")?;
        if !self.cursor.sign_ahead(0, '(') {
            return Err(self.cursor.unexpected(&format!("`(` and the arguments of {}", relation.text)));
        }
        let arguments = self.cursor.in_parentheses("a variable, or `*` for every object")?;
        let span = arguments.last().map_or(relation.span, |last| relation.span.to(last.span));
        Ok(Atom { relation, arguments, span })
    }
}

fn label(cursor: &mut Cursor) -> Parsed<(Label, Span)> {
    let word = cursor.expect_word("a key (0, 1, ..) or `_` for the counted argument")?;
    if word.text == "_" || word.text == "FF" {
        return Ok((Label::Counted, word.span));
    }
    match word.text.parse::<u8>() {
        Ok(key) if key != FF => Ok((Label::Key(key), word.span)),
        _ => {
            let said = format!("`{}` is no label", word.text);
            Err(Fault::new(word.span, said).beside("expected a key (0, 1, ..) or `_` for the counted argument"))
        }
    }
}

/// A name that is declared, with where and how.
struct Declared<T> {
    name: String,
    line: usize,
    what: T,
}

/// Writes the records of the items, and notes the names that don't fit.
struct Writer<'f> {
    faults: &'f mut Vec<Fault>,
    relations: Vec<Declared<Option<u8>>>,
    actions: Vec<Declared<(bool, Option<Vec<Name>>)>>,
    /// How many of the actions have been written.
    written_actions: usize,
    text: DomainText,
    closed: bool,
}

impl<'f> Writer<'f> {
    fn new(items: &[Item], faults: &'f mut Vec<Fault>) -> Writer<'f> {
        let (relations, actions) = (Vec::new(), Vec::new());
        let mut writer =
            Writer { faults, relations, actions, written_actions: 0, text: DomainText::default(), closed: true };
        for item in items {
            writer.declare(item);
        }
        writer
    }

    fn declare(&mut self, item: &Item) {
        match item {
            Item::Relation { name, arity } => {
                let found = self.relations.iter().find(|other| other.name == name.text).map(|other| other.line);
                self.declared_once("relation", name, found);
                self.relations.push(Declared { name: name.text.clone(), line: name.span.line, what: *arity });
            }
            Item::Action { name, lasting, variables } => {
                let found = self.actions.iter().find(|other| other.name == name.text).map(|other| other.line);
                self.declared_once("action", name, found);
                let all = variables.as_deref().unwrap_or_default();
                for (count, variable) in all.iter().enumerate() {
                    let found = all[..count].iter().find(|other| other.text == variable.text);
                    self.declared_once("variable", variable, found.map(|found| found.span.line));
                }
                let what = (*lasting, variables.clone());
                self.actions.push(Declared { name: name.text.clone(), line: name.span.line, what });
            }
            _ => {}
        }
    }

    fn declared_once(&mut self, sort: &str, name: &Name, found: Option<usize>) {
        if let Some(line) = found {
            let said = format!("there are two {sort}s `{}`", name.text);
            self.faults.push(Fault::new(name.span, said).beside(format!("the first is in line {}", line + 1)));
        }
    }

    fn item(&mut self, item: &Item) {
        match item {
            Item::Relation { name, arity } => {
                self.text.names.relations.push(name.text.clone());
                self.text.written.record(RELATION, &[arity.unwrap_or(0)], name.span, 0, &[]);
            }
            Item::Action { name, lasting, variables } => {
                let variables: Vec<String> = variables.iter().flatten().map(|name| name.text.clone()).collect();
                let payload = [variables.len().min(FF as usize) as u8, u8::from(*lasting)];
                self.text.written.record(ACTION, &payload, name.span, 0, &[]);
                self.text.names.actions.push(ActionNames { name: name.text.clone(), variables });
                self.written_actions += 1;
            }
            Item::Literal { role, atom } => self.literal(role, atom),
            Item::Component { relation, labels, span } => self.component(relation, labels, *span),
            Item::Raw(raw) => self.text.written.raw(raw),
            Item::NotClosed => self.closed = false,
        }
    }

    /// The number of a relation, where it takes so many arguments.
    fn relation(&mut self, name: &Name, arguments: usize, span: Span, what: &str) -> Option<u8> {
        let Some(number) = self.relations.iter().position(|relation| relation.name == name.text) else {
            self.faults.push(unknown("relation", name, self.relations.iter().map(|relation| relation.name.as_str())));
            return None;
        };
        let Declared { line, what: arity, .. } = self.relations[number];
        let arity = arity? as usize;
        if arity != arguments {
            let said =
                format!("`{}` has {}, and {} here", name.text, counted(arity, "argument"), counted(arguments, what));
            self.faults.push(Fault::new(span, said).beside(format!(
                "declared in line {} as {}/{arity}",
                line + 1,
                name.text
            )));
            return None;
        }
        Some(number as u8)
    }

    fn literal(&mut self, role: &Role, atom: &Atom) {
        let Some(action) = self.written_actions.checked_sub(1) else {
            let said = "this literal belongs to no action: there is none above it";
            self.faults.push(Fault::new(role.span, said).beside("at once or lasting comes first"));
            return;
        };
        let role_number = self.role(action, role);
        let relation = self.relation(&atom.relation, atom.arguments.len(), atom.span, "argument");
        let arguments: Vec<Option<u8>> = atom.arguments.iter().map(|name| self.variable(action, name)).collect();
        let (Some(role_number), Some(relation)) = (role_number, relation) else { return };
        let Some(arguments) = arguments.into_iter().collect::<Option<Vec<u8>>>() else { return };
        let payload = [&[role_number, relation], &arguments[..]].concat();
        let own: Vec<Span> = atom.arguments.iter().map(|name| name.span).collect();
        self.text.written.record(LITERAL, &payload, role.span.to(atom.span), 2, &own);
    }

    fn role(&mut self, action: usize, role: &Role) -> Option<u8> {
        let Declared { name, what: (lasting, _), .. } = &self.actions[action];
        let list = role.list.word();
        let fault = match role.time {
            None if *lasting => {
                let said = format!("`{name}` lasts, so {list} needs its time: start, all or end");
                Fault::new(role.span, said).beside("expected start, all or end before it")
            }
            Some((Time::Start, span)) if !lasting => Fault::new(span, format!("`{name}` is at once and has no start"))
                .beside(format!("{list} alone will do")),
            Some((Time::All, _)) if !role.list.is_condition() => {
                Fault::new(role.span, "what counts over all is a condition").beside("expected true or false")
            }
            time => return role_number(time.map_or(Time::Start, |(time, _)| time), role.list),
        };
        self.faults.push(fault);
        None
    }

    /// The number of a variable; FF for `*`, every object, which may be written FF where no variable has that name.
    fn variable(&mut self, action: usize, name: &Name) -> Option<u8> {
        if name.text == EVERY {
            return Some(FF);
        }
        if name.text == "_" {
            self.faults.push(Fault::new(name.span, "`_` is a label of the template").beside("every object is `*`"));
            return None;
        }
        let variables = self.actions[action].what.1.as_ref()?;
        let found = variables.iter().position(|variable| variable.text == name.text);
        if found.is_none() && name.text == "FF" {
            return Some(FF);
        }
        if found.is_none() {
            let known = variables.iter().map(|variable| variable.text.as_str());
            let fault = unknown("variable", name, known).note(format!("of the action `{}`", self.actions[action].name));
            self.faults.push(fault);
        }
        found.map(|number| number as u8)
    }

    fn component(&mut self, relation: &Name, labels: &[(Label, Span)], span: Span) {
        let Some(relation) = self.relation(relation, labels.len(), span, "label") else { return };
        let bytes = labels.iter().map(|(label, _)| match label {
            Label::Key(key) => *key,
            Label::Counted => FF,
        });
        let payload: Vec<u8> = [relation].into_iter().chain(bytes).collect();
        let own: Vec<Span> = labels.iter().map(|&(_, span)| span).collect();
        self.text.written.record(COMPONENT, &payload, span, 1, &own);
    }

    fn close(mut self, end: Span) -> DomainText {
        if self.closed {
            self.text.written.record(CLOSING, &[], end, 0, &[]);
        }
        self.text
    }
}

/// `1 argument`, `2 arguments`
pub fn counted(count: usize, what: &str) -> String {
    match count {
        0 => format!("no {what}"),
        1 => format!("1 {what}"),
        _ => format!("{count} {what}s"),
    }
}
