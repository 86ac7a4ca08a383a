//! Walking over the words and signs of a text.

use super::nearest::nearest;
use super::source::{Fault, Span};
use super::words::{Kind, Token};
use crate::domain::EVERY;

/// A word of the text and where it stands.
#[derive(Clone, PartialEq, Eq, Debug)]
pub struct Name {
    pub text: String,
    pub span: Span,
}

/// What a part of a text is read as, or the fault that stops it.
pub type Parsed<T> = Result<T, Fault>;

pub struct Cursor<'t> {
    tokens: Vec<Token<'t>>,
    at: usize,
}

impl<'t> Cursor<'t> {
    /// The tokens end with `End`, which is never passed.
    pub fn new(tokens: Vec<Token<'t>>) -> Cursor<'t> {
        Cursor { tokens, at: 0 }
    }

    pub fn peek(&self) -> Token<'t> {
        self.ahead(0)
    }

    pub fn ahead(&self, count: usize) -> Token<'t> {
        self.tokens[(self.at + count).min(self.tokens.len() - 1)]
    }

    /// Passes a token, and tells where it stands.
    pub fn advance(&mut self) -> Span {
        let span = self.peek().span;
        self.at = (self.at + 1).min(self.tokens.len() - 1);
        span
    }

    /// The word so many tokens ahead.
    pub fn word_ahead(&self, count: usize) -> Option<&'t str> {
        match self.ahead(count).kind {
            Kind::Word(word) => Some(word),
            _ => None,
        }
    }

    pub fn sign_ahead(&self, count: usize, sign: char) -> bool {
        self.ahead(count).kind == Kind::Sign(sign)
    }

    /// Whether these words come next, and then another word: so they are words of the notation and no names.
    pub fn comes(&self, words: &[&str]) -> bool {
        let all = words.iter().enumerate().all(|(count, word)| self.word_ahead(count) == Some(word));
        all && self.word_ahead(words.len()).is_some()
    }

    pub fn take_sign(&mut self, sign: char) -> bool {
        let found = self.sign_ahead(0, sign);
        if found {
            self.advance();
        }
        found
    }

    pub fn expect_sign(&mut self, sign: char, what: &str) -> Parsed<Span> {
        if self.sign_ahead(0, sign) {
            return Ok(self.advance());
        }
        Err(self.unexpected(what))
    }

    pub fn expect_word(&mut self, what: &str) -> Parsed<Name> {
        let Kind::Word(text) = self.peek().kind else { return Err(self.unexpected(what)) };
        Ok(Name { text: text.to_string(), span: self.advance() })
    }

    /// A name that is declared: any word but `_` and `*`.
    pub fn expect_name(&mut self, what: &str) -> Parsed<Name> {
        let name = self.expect_word(what)?;
        if name.text == "_" || name.text == EVERY {
            return Err(Fault::new(name.span, format!("`{}` is no name, and {what} is expected here", name.text)));
        }
        Ok(name)
    }

    /// A number that fits in a byte.
    pub fn expect_number(&mut self, what: &str, most: u16) -> Parsed<(u16, Span)> {
        let name = self.expect_word(what)?;
        match name.text.parse::<u32>() {
            Ok(number) if number <= most as u32 => Ok((number as u16, name.span)),
            Ok(_) => {
                Err(Fault::new(name.span, format!("{} is too large", name.text)).beside(format!("at most {most}")))
            }
            Err(_) => {
                Err(Fault::new(name.span, format!("`{}` is no number", name.text)).beside(format!("expected {what}")))
            }
        }
    }

    /// That something else stands here than what is expected.
    pub fn unexpected(&self, what: &str) -> Fault {
        let token = self.peek();
        let found = match token.kind {
            Kind::Word(word) => format!("`{word}`"),
            Kind::Sign(sign) => format!("`{sign}`"),
            Kind::NewLine => "the end of the line".to_string(),
            Kind::End => "the end of the text".to_string(),
        };
        Fault::new(token.span, format!("expected {what}, found {found}")).beside(format!("expected {what}"))
    }

    pub fn is_at_end(&self) -> bool {
        self.peek().kind == Kind::End
    }

    /// Whether an item ends here: at the end of a line or of the text, or at `;`.
    pub fn is_item_end(&self) -> bool {
        matches!(self.peek().kind, Kind::NewLine | Kind::End | Kind::Sign(';'))
    }

    /// Goes on to the next line or `;`, so that reading can go on behind a fault.
    pub fn skip_item(&mut self) {
        while !self.is_item_end() {
            self.advance();
        }
    }

    pub fn skip_lines(&mut self) {
        while self.peek().kind == Kind::NewLine {
            self.advance();
        }
    }

    pub fn skip_separators(&mut self) {
        while !self.is_at_end() && self.is_item_end() {
            self.advance();
        }
    }

    /// Words with `,` between them in parentheses, as of variables or arguments.
    pub fn in_parentheses(&mut self, what: &str) -> Parsed<Vec<Name>> {
        self.expect_sign('(', "`(`")?;
        self.until(')', "`)` or `,`", |cursor| cursor.expect_word(what))
    }

    /// Things with `,` between them up to a sign, whose opening sign has been passed.
    pub fn until<T>(
        &mut self,
        close: char,
        what: &str,
        mut one: impl FnMut(&mut Cursor<'t>) -> Parsed<T>,
    ) -> Parsed<Vec<T>> {
        let mut all = Vec::new();
        if self.take_sign(close) {
            return Ok(all);
        }
        loop {
            all.push(one(self)?);
            if self.take_sign(close) {
                return Ok(all);
            }
            self.expect_sign(',', what)?;
        }
    }
}

/// That a name is unknown, with the nearest that is known.
pub fn unknown<'n>(sort: &str, name: &Name, known: impl IntoIterator<Item = &'n str>) -> Fault {
    let known: Vec<&str> = known.into_iter().collect();
    let fault = Fault::new(name.span, format!("there is no {sort} `{}`", name.text));
    match nearest(&name.text, known.iter().copied()) {
        Some(near) => fault.beside(format!("the nearest is `{near}`")),
        None if known.is_empty() => fault,
        None => fault.beside(known_names(sort, &known)),
    }
}

fn known_names(sort: &str, known: &[&str]) -> String {
    const MOST: usize = 6;
    let shown = known.iter().take(MOST).copied().collect::<Vec<_>>().join(", ");
    let more = if known.len() > MOST { ", .." } else { "" };
    format!("{sort}s here: {shown}{more}")
}
