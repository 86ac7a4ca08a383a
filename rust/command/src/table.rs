//! Tables: as columns for reading, as TSV for a spreadsheet, as JSON lines for programs.

use crate::notation::source::columns;
use crate::prose::padded;

#[derive(Clone, Copy, PartialEq, Eq, Debug, Default)]
pub enum Form {
    #[default]
    Columns,
    Tsv,
    Json,
}

/// A cell: words, or a number, which JSON writes without quotation marks.
#[derive(Clone, PartialEq, Eq, Debug)]
pub enum Cell {
    Words(String),
    Number(u64),
    Nothing,
}

impl From<String> for Cell {
    fn from(words: String) -> Cell {
        Cell::Words(words)
    }
}

impl From<&str> for Cell {
    fn from(words: &str) -> Cell {
        Cell::Words(words.to_string())
    }
}

impl From<u64> for Cell {
    fn from(number: u64) -> Cell {
        Cell::Number(number)
    }
}

impl From<usize> for Cell {
    fn from(number: usize) -> Cell {
        Cell::Number(number as u64)
    }
}

impl Cell {
    /// On one line: a line end or a tab in a name of a file would break the table.
    fn plain(&self) -> String {
        match self {
            Cell::Words(words) => words.chars().map(|sign| if sign.is_control() { '?' } else { sign }).collect(),
            Cell::Number(number) => number.to_string(),
            Cell::Nothing => String::new(),
        }
    }

    fn json(&self) -> String {
        match self {
            Cell::Words(words) => quoted(words),
            Cell::Number(number) => number.to_string(),
            Cell::Nothing => "null".to_string(),
        }
    }
}

/// A text as JSON has it.
pub fn quoted(text: &str) -> String {
    let mut quoted = String::from("\"");
    for sign in text.chars() {
        match sign {
            '"' => quoted += "\\\"",
            '\\' => quoted += "\\\\",
            sign if (sign as u32) < 32 => quoted += &format!("\\u{:04x}", sign as u32),
            sign => quoted.push(sign),
        }
    }
    quoted + "\""
}

pub struct Table {
    heads: Vec<&'static str>,
    rows: Vec<Vec<Cell>>,
}

impl Table {
    pub fn new(heads: &[&'static str]) -> Table {
        Table { heads: heads.to_vec(), rows: Vec::new() }
    }

    pub fn push(&mut self, row: Vec<Cell>) {
        self.rows.push(row);
    }

    pub fn text(&self, form: Form) -> String {
        match form {
            Form::Columns => self.columns(),
            Form::Tsv => self.tsv(),
            Form::Json => self.json(),
        }
    }

    fn columns(&self) -> String {
        let mut lines: Vec<Vec<String>> = vec![self.heads.iter().map(|head| head.to_string()).collect()];
        lines.extend(self.rows.iter().map(|row| row.iter().map(Cell::plain).collect()));
        let widest =
            |at: usize| lines.iter().filter_map(|line| line.get(at)).map(|cell| columns(cell)).max().unwrap_or(0);
        let widths: Vec<usize> = (0..self.heads.len()).map(widest).collect();
        let line = |cells: &Vec<String>| {
            let padded: Vec<String> = cells.iter().zip(&widths).map(|(cell, &width)| padded(cell, width)).collect();
            format!("{}\n", padded.join("  ").trim_end())
        };
        lines.iter().map(line).collect()
    }

    fn tsv(&self) -> String {
        let mut text = format!("{}\n", self.heads.join("\t"));
        for row in &self.rows {
            text += &format!("{}\n", row.iter().map(Cell::plain).collect::<Vec<_>>().join("\t"));
        }
        text
    }

    fn json(&self) -> String {
        let mut text = String::new();
        for row in &self.rows {
            let fields = self.heads.iter().zip(row).map(|(head, cell)| format!("{}: {}", quoted(head), cell.json()));
            text += &format!("{{{}}}\n", fields.collect::<Vec<_>>().join(", "));
        }
        text
    }
}

#[cfg(test)]
mod tests {
    use super::*;

    #[test]
    fn three_forms() {
        let mut table = Table::new(&["file", "marks"]);
        table.push(vec!["a \"b\"\t.txt".into(), 7u64.into()]);
        table.push(vec!["本".into(), Cell::Nothing]);
        assert_eq!(table.text(Form::Columns), "file        marks\na \"b\"?.txt  7\n本\n");
        assert_eq!(table.text(Form::Tsv), "file\tmarks\na \"b\"?.txt\t7\n本\t\n");
        let json = "{\"file\": \"a \\\"b\\\"\\u0009.txt\", \"marks\": 7}\n{\"file\": \"本\", \"marks\": null}\n";
        assert_eq!(table.text(Form::Json), json);
    }
}
