//! The words and signs of a text.

use super::source::{Fault, Span};

#[derive(Clone, Copy, PartialEq, Eq, Debug)]
pub enum Kind<'t> {
    /// A name, a number, a word of the notation, or `*`, which stands where a name could.
    Word(&'t str),
    /// One of `( ) [ ] , : ; /`.
    Sign(char),
    NewLine,
    End,
}

#[derive(Clone, Copy, PartialEq, Eq, Debug)]
pub struct Token<'t> {
    pub kind: Kind<'t>,
    pub span: Span,
}

const SIGNS: &str = "()[],:;/";

/// The words and signs of a text, and the characters that are neither. `#` and what follows it on its line is a remark.
pub fn words(text: &str) -> (Vec<Token<'_>>, Vec<Fault>) {
    let (mut tokens, mut faults) = (Vec::new(), Vec::new());
    let mut last = Span::default();
    for (line, content) in lines(text).enumerate() {
        words_of_line(line, content, &mut tokens, &mut faults);
        let end = content.chars().count();
        last = Span { line, from: end, to: end };
        tokens.push(Token { kind: Kind::NewLine, span: last });
    }
    tokens.push(Token { kind: Kind::End, span: last });
    (tokens, faults)
}

/// The lines of a text behind its byte order mark, if it has one.
fn lines(text: &str) -> impl Iterator<Item = &str> {
    text.strip_prefix('\u{FEFF}').unwrap_or(text).lines()
}

/// The first word of a text, if a word comes first.
pub fn first_word(text: &str) -> Option<&str> {
    let (mut tokens, mut faults) = (Vec::new(), Vec::new());
    for line in lines(text) {
        words_of_line(0, line, &mut tokens, &mut faults);
        match tokens.first() {
            Some(Token { kind: Kind::Word(word), .. }) => return Some(word),
            Some(_) => return None,
            None => {}
        }
    }
    None
}

fn words_of_line<'t>(line: usize, content: &'t str, tokens: &mut Vec<Token<'t>>, faults: &mut Vec<Fault>) {
    let mut signs = content.char_indices().enumerate().peekable();
    while let Some((from, (begin, sign))) = signs.next() {
        let mut span = Span { line, from, to: from + 1 };
        if sign == '#' {
            return;
        } else if sign.is_whitespace() {
            continue;
        } else if SIGNS.contains(sign) {
            tokens.push(Token { kind: Kind::Sign(sign), span });
        } else if sign == '*' {
            tokens.push(Token { kind: Kind::Word(&content[begin..begin + 1]), span });
        } else if is_in_words(sign) {
            let mut end = begin + sign.len_utf8();
            while let Some((at, (begin, sign))) = signs.next_if(|(_, (_, sign))| is_in_words(*sign)) {
                end = begin + sign.len_utf8();
                span.to = at + 1;
            }
            tokens.push(Token { kind: Kind::Word(&content[begin..end]), span });
        } else {
            let said = format!("`{}` has no meaning in this notation", sign.escape_debug());
            faults.push(Fault::new(span, said));
        }
    }
}

/// Whether a character may stand in a name: letters and digits of every alphabet, with the marks that some put above or
/// below them, and `_ - '`.
pub fn is_in_words(sign: char) -> bool {
    if sign.is_ascii() {
        return sign.is_ascii_alphanumeric() || matches!(sign, '_' | '-' | '\'');
    }
    let is_mark = matches!(sign as u32,
        0x300..=0x36F | 0x483..=0x487 | 0x591..=0x5C7 | 0x610..=0x61A | 0x64B..=0x65F | 0x6D6..=0x6ED | 0x900..=0xFFF
        | 0x1000..=0x109F | 0x1AB0..=0x1AFF | 0x200C..=0x200D | 0x20D0..=0x20FF | 0xFE20..=0xFE2F);
    sign.is_alphanumeric() || is_mark || sign == '\u{2019}'
}
