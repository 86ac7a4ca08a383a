//! A student's names for the classes of a domain, a small text:
//! ```text
//! verdict: accepted
//! move: balanced
//! lend(volume) start: irrelevant
//! lend(volume) end: unbounded
//! ```
//! A line tells an action, what the class is about (its variables in parentheses, or `class 0`; not needed where there is
//! one class), the moment of a lasting action, and the name. Lines of the listing program, `row 1 0 1 unbounded`, are
//! taken, too.

use crate::domain::{Action, Domain};
use crate::library::Name;
use crate::notation::cursor::{unknown, Cursor, Name as Word, Parsed};
use crate::notation::nearest::nearest;
use crate::notation::source::{Fault, Span};
use crate::notation::words::words;
use crate::reasons::classes;
use crate::sentences::about;

/// A name that is told for a row.
#[derive(Clone, Debug)]
pub struct Told {
    /// Action, class, moment.
    pub place: [usize; 3],
    /// The name; a word that is none as it stands.
    pub name: Result<Name, String>,
    pub span: Span,
}

#[derive(Clone, Copy, PartialEq, Eq, Debug)]
pub enum ToldVerdict {
    Accepted,
    Refused,
    Number(u64),
}

/// What is told, and what can't be made out.
#[derive(Clone, Debug, Default)]
pub struct Answers {
    pub rows: Vec<Told>,
    pub verdict: Option<ToldVerdict>,
    pub faults: Vec<Fault>,
}

/// Reads a student's names for a domain.
pub fn read<'d>(text: &'d str, domain: &'d Domain) -> Answers {
    let (tokens, faults) = words(text);
    let mut reader = Reader { cursor: Cursor::new(tokens), domain, answers: Answers { faults, ..Answers::default() } };
    reader.cursor.skip_separators();
    while !reader.cursor.is_at_end() {
        if let Err(fault) = reader.line() {
            reader.answers.faults.push(fault);
            reader.cursor.skip_item();
        }
        reader.cursor.skip_separators();
    }
    reader.answers
}

struct Reader<'d> {
    cursor: Cursor<'d>,
    domain: &'d Domain,
    answers: Answers,
}

impl Reader<'_> {
    fn line(&mut self) -> Parsed<()> {
        let is_number = |count| self.cursor.word_ahead(count).is_some_and(|word| word.parse::<u64>().is_ok());
        let is_verdict = self.cursor.word_ahead(0) == Some("verdict") && !self.cursor.sign_ahead(1, '(');
        if is_verdict {
            self.verdict()?;
        } else if self.cursor.word_ahead(0) == Some("row") && (1..4).all(is_number) {
            self.listed_row()?;
        } else {
            self.row()?;
        }
        match self.cursor.is_item_end() {
            true => Ok(()),
            false => Err(self.cursor.unexpected("the end of the line")),
        }
    }

    fn verdict(&mut self) -> Parsed<()> {
        self.cursor.advance();
        self.cursor.take_sign(':');
        let word = self.cursor.expect_word("accepted, refused, or the number of the verdict")?;
        let verdict = match (word.text.as_str(), word.text.parse()) {
            ("accepted", _) => ToldVerdict::Accepted,
            ("refused", _) => ToldVerdict::Refused,
            (_, Ok(number)) => ToldVerdict::Number(number),
            _ => {
                let said = format!("`{}` is no verdict", word.text);
                return Err(
                    Fault::new(word.span, said).beside("expected accepted, refused, or the number of the verdict")
                );
            }
        };
        // the listing has three places behind the number
        while self.cursor.word_ahead(0).is_some_and(|word| word.parse::<u64>().is_ok()) {
            self.cursor.advance();
        }
        self.answers.verdict = Some(verdict);
        Ok(())
    }

    /// `row 1 0 1 unbounded`
    fn listed_row(&mut self) -> Parsed<()> {
        let span = self.cursor.advance();
        let mut place = [0; 3];
        for number in &mut place {
            *number = self.cursor.expect_number("a number", u16::MAX)?.0 as usize;
        }
        self.name(place, span)
    }

    fn row(&mut self) -> Parsed<()> {
        let name = self.cursor.expect_word("an action")?;
        let Some(action) = self.domain.actions.iter().position(|action| action.name == name.text) else {
            let known = self.domain.actions.iter().map(|action| action.name.as_str());
            return Err(unknown("action", &name, known));
        };
        let class = self.class(action, &name)?;
        let moment = self.moment(&self.domain.actions[action].clone(), &name)?;
        self.cursor.take_sign(':');
        self.name([action, class, moment], name.span)
    }

    /// The class that a line is about.
    fn class(&mut self, number: usize, name: &Word) -> Parsed<usize> {
        let action = &self.domain.actions[number];
        let classes = classes(self.domain, action);
        if self.cursor.comes(&["class"]) {
            self.cursor.advance();
            return Ok(self.cursor.expect_number("the number of the class", u16::MAX)?.0 as usize);
        }
        let choices = || classes.iter().map(|class| about(action, class)).collect::<Vec<_>>().join("; ");
        if self.cursor.sign_ahead(0, '(') {
            let told = self.cursor.in_parentheses("a variable")?;
            let told: Vec<&str> = told.iter().map(|word| word.text.as_str()).collect();
            let is_told =
                |tuple: &[u8]| tuple.iter().map(|&variable| action.variable(variable)).eq(told.iter().copied());
            return classes.iter().position(|class| is_told(&class.key_tuple)).ok_or_else(|| {
                let said = format!("`{}` has no class about {}", action.name, told.join(", "));
                Fault::new(name.span, said).beside(format!("its classes are about: {}", choices()))
            });
        }
        match classes.len() {
            0 => Err(Fault::new(name.span, format!("`{}` has no class, so it has no name", action.name))),
            1 => Ok(0),
            _ => {
                let said = format!("`{}` has several classes, so the line needs what it is about", action.name);
                Err(Fault::new(name.span, said).beside(format!("its classes are about: {}", choices())))
            }
        }
    }

    fn moment(&mut self, action: &Action, name: &Word) -> Parsed<usize> {
        if self.cursor.word_ahead(0) == Some("at") && self.cursor.word_ahead(1) == Some("once") {
            self.cursor.advance();
            self.cursor.advance();
        }
        let moment = match self.cursor.word_ahead(0) {
            Some("start") => Some(0),
            Some("end") => Some(1),
            _ => None,
        };
        if moment.is_some() {
            self.cursor.advance();
        }
        match (moment, action.lasting) {
            (Some(moment), true) => Ok(moment),
            (None, false) => Ok(0),
            (None, true) => {
                let said = format!("`{}` lasts, so the line needs its moment", action.name);
                Err(Fault::new(name.span, said).beside("expected start or end behind it"))
            }
            (Some(_), false) => {
                Err(Fault::new(name.span, format!("`{}` is at once and has neither start nor end", action.name)))
            }
        }
    }

    fn name(&mut self, place: [usize; 3], span: Span) -> Parsed<()> {
        let word = self.cursor.expect_word("a name, as balanced")?;
        let known = Name::ALL.into_iter().find(|name| name.word() == word.text.to_lowercase());
        if known.is_none() {
            let fault = Fault::new(word.span, format!("`{}` is none of the seven names", word.text));
            self.answers.faults.push(match nearest(&word.text, Name::ALL.map(Name::word)) {
                Some(near) => fault.beside(format!("the nearest is `{near}`")),
                None => fault,
            });
        }
        let is_repeated = self.answers.rows.iter().any(|told| told.place == place);
        if is_repeated {
            self.answers.faults.push(Fault::new(span, "this is told already; the first line counts"));
            return Ok(());
        }
        self.answers.rows.push(Told { place, name: known.ok_or(word.text), span });
        Ok(())
    }
}
