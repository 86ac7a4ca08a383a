//! A line of time as text: which actions are open when, what happens at once, and the weight over time.

use crate::notation::source::columns;
use crate::prose::{padded, WIDTH};

/// An action with its objects, and what happens to it in each step.
#[derive(Clone, Debug)]
pub struct Line {
    pub label: String,
    pub marks: Vec<Mark>,
}

/// What a step means to an action: how often it starts and ends, whether it happens at once, and how often it is open
/// behind the step.
#[derive(Clone, Copy, PartialEq, Eq, Debug, Default)]
pub struct Mark {
    pub happens: bool,
    pub starts: bool,
    pub ends: bool,
    pub open: usize,
}

/// A step's column: its number, the weight behind it, and whether it was allowed.
#[derive(Clone, Copy, Debug)]
pub struct Column {
    pub step: usize,
    pub weight: Option<u64>,
}

const LABEL: usize = 36;
const CELL: usize = 4;
const MOST: usize = 40;

/// The lines under their columns, in blocks that fit on a terminal. The first column is the state before the first step.
pub fn timeline(columns: &[Column], lines: &[Line]) -> String {
    let label = lines.iter().map(|line| self::columns(&line.label)).max().unwrap_or(0).clamp(6, LABEL);
    let in_block = (WIDTH - label - 2) / CELL;
    let blocks = columns.chunks(in_block).enumerate();
    let blocks: Vec<String> = blocks.map(|(count, part)| block(label, part, lines, count * in_block)).collect();
    blocks.join("\n")
}

fn block(label: usize, columns: &[Column], lines: &[Line], from: usize) -> String {
    let row = |head: &str, cells: Vec<String>| {
        let cells: String = cells.iter().map(|cell| padded(cell, CELL)).collect();
        format!("{}  {}\n", padded(&shortened(head, label), label), cells).trim_end().to_string() + "\n"
    };
    let steps = columns.iter().map(|column| match column.weight {
        Some(_) => column.step.to_string(),
        None => format!("{}x", column.step),
    });
    let mut text = row("step", steps.collect());
    let weights = columns.iter().map(|column| column.weight.map_or("-".to_string(), |weight| weight.to_string()));
    text += &row("weight", weights.collect());
    let busy: Vec<&Line> = lines.iter().filter(|line| line.is_busy(from, from + columns.len())).collect();
    for line in busy.iter().take(MOST) {
        text += &row(&line.label, line.marks[from..from + columns.len()].iter().map(Mark::cell).collect());
    }
    if busy.len() > MOST {
        text += &format!("and {} more\n", busy.len() - MOST);
    }
    text
}

/// A label in so many columns.
fn shortened(label: &str, to: usize) -> String {
    if columns(label) <= to {
        return label.to_string();
    }
    let mut short = String::new();
    for sign in label.chars() {
        if columns(&short) + 3 > to {
            break;
        }
        short.push(sign);
    }
    short + ".."
}

impl Line {
    fn is_busy(&self, from: usize, to: usize) -> bool {
        self.marks[from..to].iter().any(|mark| *mark != Mark::default())
    }
}

impl Mark {
    /// `*` at once, `[` starts, `]` ends; `=` while it is open, a number if more than once.
    fn cell(&self) -> String {
        let begins = match (self.happens, self.ends, self.starts) {
            (true, _, _) => "*",
            (_, true, true) => "][",
            (_, true, false) => "]",
            (_, false, true) => "[",
            _ => "",
        };
        let fill = match self.open {
            0 => " ".to_string(),
            1 => "=".to_string(),
            more => more.min(9).to_string(),
        };
        let cell = format!("{begins}{}", fill.repeat(CELL));
        cell.chars().take(CELL).collect()
    }
}

#[cfg(test)]
mod tests {
    use super::*;

    #[test]
    fn fits_and_shows() {
        let columns: Vec<Column> = (0..30).map(|step| Column { step, weight: (step < 29).then_some(1) }).collect();
        let mark = |step: usize| Mark {
            starts: step == 2,
            ends: step == 5,
            open: usize::from((2..5).contains(&step)),
            happens: false,
        };
        let lines = [Line {
            label: "lend(a very long label indeed, with objects)".to_string(),
            marks: (0..30).map(mark).collect(),
        }];
        let text = timeline(&columns, &lines);
        assert!(text.lines().all(|line| super::columns(line) <= WIDTH), "{text}");
        assert!(text.contains("  0   1   2   3   4   5") && text.contains("29x"), "{text}");
        assert!(text.contains("lend(a very long label indeed, wit..          [===========]"), "{text}");
    }
}
