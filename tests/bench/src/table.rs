//! A table of words and numbers, printed as plain text.

pub struct Table {
    pub title: String,
    pub heads: Vec<String>,
    pub rows: Vec<Vec<String>>,
}

/// A number with few digits.
pub fn number(value: f64) -> String {
    match value {
        _ if value < 0.1 => format!("{value:.4}"),
        _ if value < 10.0 => format!("{value:.2}"),
        _ if value < 100.0 => format!("{value:.1}"),
        _ => format!("{value:.0}"),
    }
}

impl Table {
    pub fn new(title: &str, heads: &[&str], rows: Vec<Vec<String>>) -> Self {
        Table { title: title.to_string(), heads: heads.iter().map(|head| head.to_string()).collect(), rows }
    }

    /// The widest cell of each column, in characters.
    fn widths(&self) -> Vec<usize> {
        let cells =
            |column: usize| self.rows.iter().chain([&self.heads]).map(move |row| row[column].chars().count());
        (0..self.heads.len()).map(|column| cells(column).max().unwrap_or(0)).collect()
    }

    /// One line: the first cell to the left, the others to the right of their columns.
    fn line(&self, row: &[String]) -> String {
        let mut line = String::new();
        for (column, (cell, width)) in row.iter().zip(self.widths()).enumerate() {
            match column {
                0 => line += &format!("{cell:<width$}"),
                _ => line += &format!("  {cell:>width$}"),
            }
        }
        line
    }

    pub fn text(&self) -> String {
        let mut text = format!("{}\n\n{}\n", self.title, self.line(&self.heads));
        for row in &self.rows {
            text += &self.line(row);
            text.push('\n');
        }
        text
    }
}
