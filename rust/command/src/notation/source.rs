//! Where something stands in a text, and how a fault in it is told: file, line, column, the line itself with a mark
//! under the place, and what was expected.

/// A part of a line. Lines and characters count from 0.
#[derive(Clone, Copy, PartialEq, Eq, Debug, Default)]
pub struct Span {
    pub line: usize,
    pub from: usize,
    pub to: usize,
}

impl Span {
    /// From the beginning of this one to the end of another on the same line; this one alone if it is on another line.
    pub fn to(self, other: Span) -> Span {
        if other.line == self.line && other.to > self.to {
            return Span { to: other.to, ..self };
        }
        self
    }
}

/// Something wrong in a text.
#[derive(Clone, PartialEq, Eq, Debug)]
pub struct Fault {
    pub span: Span,
    /// What is wrong.
    pub said: String,
    /// What stands beside the mark: what was expected, or the nearest name.
    pub beside: String,
    /// Further lines below.
    pub notes: Vec<String>,
}

impl Fault {
    pub fn new(span: Span, said: impl Into<String>) -> Fault {
        Fault { span, said: said.into(), beside: String::new(), notes: Vec::new() }
    }

    pub fn beside(mut self, words: impl Into<String>) -> Fault {
        self.beside = words.into();
        self
    }

    pub fn note(mut self, words: impl Into<String>) -> Fault {
        self.notes.push(words.into());
        self
    }
}

/// The faults of a text in the order of its lines, each told once; no more than `MOST` of them.
pub fn tell(name: &str, text: &str, faults: &[Fault]) -> String {
    const MOST: usize = 20;
    let mut sorted: Vec<&Fault> = faults.iter().collect();
    sorted.sort_by_key(|fault| (fault.span.line, fault.span.from));
    sorted.dedup();
    let lines: Vec<&str> = text.lines().collect();
    let mut told = String::new();
    for fault in sorted.iter().take(MOST) {
        told += &tell_one(name, &lines, fault);
    }
    if sorted.len() > MOST {
        told += &format!("{name}: and {} more\n", sorted.len() - MOST);
    }
    told
}

fn tell_one(name: &str, lines: &[&str], fault: &Fault) -> String {
    let span = fault.span;
    let mut told = format!("{name}:{}:{}: {}\n", span.line + 1, span.from + 1, fault.said);
    let number = (span.line + 1).to_string();
    let margin = " ".repeat(number.len().max(3));
    if let Some(line) = lines.get(span.line) {
        let shown = Window::of(line, span);
        told += &format!("{number:>3} | {}\n", shown.text);
        let beside = if fault.beside.is_empty() { String::new() } else { format!(" {}", fault.beside) };
        told += &format!("{margin} | {}{}{beside}\n", " ".repeat(shown.before), "^".repeat(shown.marked));
    } else if !fault.beside.is_empty() {
        told += &format!("{margin} = {}\n", fault.beside);
    }
    for note in &fault.notes {
        told += &format!("{margin} = {note}\n");
    }
    told
}

/// What is shown of a line, so that the mark fits on a terminal of 80 columns.
struct Window {
    text: String,
    /// Columns before the mark, and columns of the mark.
    before: usize,
    marked: usize,
}

impl Window {
    const WIDEST: usize = 72;

    fn of(line: &str, span: Span) -> Window {
        let signs: Vec<char> = line.chars().map(|sign| if sign.is_control() { ' ' } else { sign }).collect();
        let columns = |signs: &[char]| signs.iter().map(|&sign| width(sign)).sum::<usize>();
        let from = span.from.min(signs.len());
        let to = span.to.clamp(from, signs.len());
        let (mut first, mut last, mut ahead) = (0, signs.len(), "");
        if columns(&signs) > Window::WIDEST {
            while first < from && columns(&signs[first..to]) > Window::WIDEST / 2 {
                first += 1;
            }
            while last > to.max(first + 1) && columns(&signs[first..last]) > Window::WIDEST - 4 {
                last -= 1;
            }
            ahead = if first > 0 { ".. " } else { "" };
        }
        let behind = if last < signs.len() { " .." } else { "" };
        let shown: String = signs[first..last].iter().collect();
        Window {
            text: format!("{ahead}{shown}{behind}"),
            before: ahead.len() + columns(&signs[first..from.max(first)]),
            marked: columns(&signs[from.max(first)..to.min(last).max(from.max(first))]).max(1),
        }
    }
}

/// The columns that a character takes on a terminal.
pub fn width(sign: char) -> usize {
    match sign as u32 {
        0x300..=0x36F | 0x200B..=0x200F | 0x20D0..=0x20FF | 0xFE00..=0xFE0F | 0xFE20..=0xFE2F => 0,
        0x1100..=0x115F | 0x2E80..=0xA4CF | 0xAC00..=0xD7A3 | 0xF900..=0xFAFF => 2,
        0xFE30..=0xFE6F | 0xFF00..=0xFF60 | 0xFFE0..=0xFFE6 | 0x1F300..=0x1FAFF | 0x20000..=0x3FFFD => 2,
        _ => 1,
    }
}

/// The columns of a text.
pub fn columns(text: &str) -> usize {
    text.chars().map(width).sum()
}

#[cfg(test)]
mod tests {
    use super::*;

    /// Of a long line the part around the mark is shown, and the mark stands under its place.
    #[test]
    fn long_lines_fit() {
        let line = format!("{}HERE{}", "left ".repeat(40), " right".repeat(40));
        for from in [0, 100, 200, 300, 437] {
            let told = tell("f", &line, &[Fault::new(Span { line: 0, from, to: from + 4 }, "wrong")]);
            let lines: Vec<&str> = told.lines().collect();
            assert!(lines[1..].iter().all(|line| columns(line) <= 80), "{told}");
            let mark = lines[2].find('^').unwrap_or_default();
            assert_eq!(lines[1][mark..mark + 4], line[from..from + 4], "{told}");
        }
    }

    #[test]
    fn tabs_and_wide_letters() {
        let told =
            tell("f", "\ta\u{301} \u{672C} x", &[Fault::new(Span { line: 0, from: 6, to: 7 }, "wrong").beside("here")]);
        assert_eq!(told, "f:1:7: wrong\n  1 |  a\u{301} \u{672C} x\n    |       ^ here\n");
    }
}
