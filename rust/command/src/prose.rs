//! Sentences for a terminal of 80 columns.

use crate::notation::source::columns;

pub const WIDTH: usize = 80;

/// A sentence in lines that fit, the first with one indent and the others with another.
pub fn wrap(first: &str, others: &str, sentence: &str) -> String {
    let mut text = String::new();
    let mut line = first.to_string();
    let mut is_empty = true;
    for word in words(sentence) {
        if !is_empty && columns(&line) + 1 + columns(word) > WIDTH {
            text += line.trim_end();
            text.push('\n');
            line = others.to_string();
            is_empty = true;
        }
        if !is_empty {
            line.push(' ');
        }
        line += word;
        is_empty = false;
    }
    text + line.trim_end() + "\n"
}

/// The words of a sentence; a literal or a fact, `at(volume, shelf)`, is one word.
fn words(sentence: &str) -> Vec<&str> {
    let (mut words, mut from, mut depth, mut before) = (Vec::new(), 0, 0, ' ');
    for (at, sign) in sentence.char_indices() {
        match sign {
            '(' if depth > 0 || before != ' ' => depth += 1,
            ')' if depth > 0 => depth -= 1,
            ' ' if depth == 0 => {
                words.push(&sentence[from..at]);
                from = at + 1;
            }
            _ => {}
        }
        before = sign;
    }
    words.push(&sentence[from..]);
    words.retain(|word| !word.is_empty());
    words
}

/// A sentence with the same indent on all lines.
pub fn paragraph(indent: &str, sentence: &str) -> String {
    wrap(indent, indent, sentence)
}

/// `a`, `a and b`, `a, b and c`
pub fn listed(things: &[String]) -> String {
    match things {
        [] => "nothing".to_string(),
        [one] => one.clone(),
        [others @ .., last] => format!("{} and {last}", others.join(", ")),
    }
}

/// A text filled with blanks to so many columns.
pub fn padded(text: &str, to: usize) -> String {
    format!("{text}{}", " ".repeat(to.saturating_sub(columns(text))))
}

#[cfg(test)]
mod tests {
    use super::*;

    #[test]
    fn lines_fit() {
        let sentence = "word ".repeat(60);
        let text = wrap("- ", "  ", &sentence);
        assert!(text.lines().count() > 3 && text.lines().all(|line| columns(line) <= WIDTH));
        assert_eq!(text.split_whitespace().filter(|word| *word == "word").count(), 60);
        let long = "x".repeat(100);
        assert_eq!(paragraph("  ", &long), format!("  {long}\n"));
        assert_eq!(words("if at(a, b) (or so) goes, c(d)."), ["if", "at(a, b)", "(or", "so)", "goes,", "c(d)."]);
        assert_eq!(listed(&["a".into(), "b".into(), "c".into()]), "a, b and c");
    }
}
