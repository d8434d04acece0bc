//! Tables for people: headings, and columns that are as wide as their widest cell.
use std::fmt::{Display, Write as _};
use std::io::{self, Write};

#[derive(Clone, Copy)]
pub struct Column {
    heading: &'static str,
    right: bool,
}

/// A column of text.
pub const fn text(heading: &'static str) -> Column {
    Column { heading, right: false }
}

/// A column of numbers, which end in the same place.
pub const fn number(heading: &'static str) -> Column {
    Column { heading, right: true }
}

/// Writes a table with a row for each item. A row is made twice, first for its width, so that no row is kept.
pub fn write<T, const N: usize>(
    out: &mut dyn Write,
    columns: [Column; N],
    items: &[T],
    row: impl Fn(&T) -> [String; N],
) -> io::Result<()> {
    let headings = columns.map(|column| column.heading.to_string());
    let mut widths = headings.each_ref().map(|heading| heading.chars().count());
    for item in items {
        for (width, cell) in widths.iter_mut().zip(row(item)) {
            *width = (*width).max(cell.chars().count());
        }
    }
    line(out, columns, widths, headings)?;
    items.iter().try_for_each(|item| line(out, columns, widths, row(item)))
}

/// A table whose rows are written as they come. How wide the cells of each column can be is known beforehand.
pub struct Streamed<'w, const N: usize> {
    out: &'w mut dyn Write,
    columns: [Column; N],
    widths: [usize; N],
    /// The line that is being made.
    text: String,
}

impl<'w, const N: usize> Streamed<'w, N> {
    /// Writes the headings. A cell that is wider than was said moves the rest of its row.
    pub fn new(out: &'w mut dyn Write, columns: [Column; N], widest: [usize; N]) -> io::Result<Streamed<'w, N>> {
        let mut widths = widest;
        for (width, column) in widths.iter_mut().zip(&columns) {
            *width = (*width).max(column.heading.chars().count());
        }
        line(out, columns, widths, columns.map(|column| column.heading.to_string()))?;
        Ok(Streamed { out, columns, widths, text: String::new() })
    }

    pub fn row(&mut self, cells: [&dyn Display; N]) -> io::Result<()> {
        self.text.clear();
        for ((column, width), cell) in self.columns.iter().zip(self.widths).zip(cells) {
            let put = if column.right {
                write!(self.text, "{cell:>width$}  ")
            } else {
                write!(self.text, "{cell:<width$}  ")
            };
            put.map_err(io::Error::other)?;
        }
        writeln!(self.out, "{}", self.text.trim_end())
    }
}

fn line<const N: usize>(
    out: &mut dyn Write,
    columns: [Column; N],
    widths: [usize; N],
    cells: [String; N],
) -> io::Result<()> {
    let mut text = String::new();
    for ((column, width), cell) in columns.iter().zip(widths).zip(cells) {
        let padded = if column.right { format!("{cell:>width$}") } else { format!("{cell:<width$}") };
        text.push_str(&padded);
        text.push_str("  ");
    }
    writeln!(out, "{}", text.trim_end())
}

#[cfg(test)]
mod tests {
    use super::*;

    #[test]
    fn columns_are_aligned() {
        let mut out = Vec::new();
        let row = |n: &u32| [n.to_string(), format!("<{n}>"), String::new()];
        write(&mut out, [number("n"), text("word"), text("rest")], &[7, 1000], row).unwrap();
        assert_eq!(String::from_utf8(out).unwrap(), "   n  word    rest\n   7  <7>\n1000  <1000>\n");
    }

    #[test]
    fn rows_are_written_as_they_come() {
        let mut out = Vec::new();
        let mut table = Streamed::new(&mut out, [number("n"), text("word"), text("rest")], [3, 2, 0]).unwrap();
        table.row([&7, &"<7>", &""]).unwrap();
        table.row([&-1000, &"<1000>", &"x"]).unwrap();
        assert_eq!(String::from_utf8(out).unwrap(), "  n  word  rest\n  7  <7>\n-1000  <1000>  x\n");
    }
}
