//! HTML that is well-formed XML too: every tag is closed, and every text is escaped by one function.

/// A text as it stands between tags and in attributes. What XML does not allow, what could act on a terminal, and what turns the direction of writing, so that a
/// name reads as another, is a question mark.
pub fn escaped(text: &str) -> String {
    let mut out = String::with_capacity(text.len());
    for c in text.chars() {
        match c {
            '&' => out.push_str("&amp;"),
            '<' => out.push_str("&lt;"),
            '>' => out.push_str("&gt;"),
            '"' => out.push_str("&quot;"),
            '\'' => out.push_str("&#39;"),
            '\u{fffe}' | '\u{ffff}' | '\u{200e}' | '\u{200f}' | '\u{202a}'..='\u{202e}' | '\u{2066}'..='\u{2069}' => {
                out.push('?')
            }
            c if c.is_control() => out.push('?'),
            c => out.push(c),
        }
    }
    out
}

/// A line of a name may end after so many characters at the latest, and before that only after one of these.
const PIECE: usize = 16;
const SEPARATORS: &str = "/\\-_.,;:+ ";

/// A name, which may be written from right to left and does not turn what stands beside it. A short one is not broken into lines.
pub fn name(text: &str) -> String {
    if text.chars().count() <= PIECE {
        return format!("<bdi>{}</bdi>", escaped(text));
    }
    let (mut out, mut piece) = (String::new(), String::new());
    let last = text.chars().count() - 1;
    for (i, c) in text.chars().enumerate() {
        piece.push(c);
        let is_full = piece.chars().count() == PIECE;
        if i < last && (SEPARATORS.contains(c) || is_full) {
            out += &format!("{}<wbr/>", escaped(&piece));
            piece.clear();
        }
    }
    format!("<bdi>{out}{}</bdi>", escaped(&piece))
}

/// A long text without its middle, where a picture or a list has no room for it.
pub fn shortened(text: &str, most: usize) -> String {
    let all: Vec<char> = text.chars().collect();
    if all.len() <= most {
        return text.into();
    }
    let (head, tail) = (most / 2, most - most / 2 - 1);
    all[..head].iter().chain(&['…']).chain(&all[all.len() - tail..]).collect()
}

/// A verdict: good, to be looked at, or bad. It has a sign as well as a colour.
#[derive(Clone, Copy, Debug, PartialEq)]
pub enum Mark {
    Good,
    Look,
    Bad,
}

impl Mark {
    pub fn class(self) -> &'static str {
        match self {
            Mark::Good => "good",
            Mark::Look => "look",
            Mark::Bad => "bad",
        }
    }

    fn sign(self) -> &'static str {
        match self {
            Mark::Good => "✓",
            Mark::Look => "!",
            Mark::Bad => "✗",
        }
    }

    /// Words with the sign before them.
    pub fn says(self, words: &str) -> String {
        format!("<span class=\"{}\"><b>{}</b> {}</span>", self.class(), self.sign(), escaped(words))
    }
}

/// A cell of a table, whose text is escaped already.
#[derive(Clone)]
pub struct Cell {
    is_number: bool,
    html: String,
    /// As many columns it takes.
    columns: usize,
}

/// A cell of text.
pub fn text(words: &str) -> Cell {
    html(escaped(words))
}

/// A cell of a number, which ends where the others of its column do.
pub fn number(digits: impl ToString) -> Cell {
    Cell { is_number: true, ..html(escaped(&digits.to_string())) }
}

/// A cell of tags.
pub fn html(html: String) -> Cell {
    Cell { is_number: false, html, columns: 1 }
}

/// A cell of tags that takes some columns.
pub fn wide(columns: usize, html: String) -> Cell {
    Cell { is_number: false, html, columns }
}

/// About as many bytes a row takes.
pub fn weight(row: &[Cell]) -> usize {
    row.iter().map(|cell| cell.html.len() + 40).sum()
}

/// A table in a frame that scrolls where it is too wide. Each cell has its heading with it, for a page too narrow for columns: the cells of `cards`
/// stand below each other there, those of `flow` after each other.
pub fn table(class: &str, headings: &[&str], rows: impl IntoIterator<Item = Vec<Cell>>) -> String {
    let rows: Vec<Vec<Cell>> = rows.into_iter().collect();
    let is_number = |column: usize| rows.iter().find_map(|row| row.get(column)).is_some_and(|cell| cell.is_number);
    let heads: String =
        headings.iter().enumerate().map(|(i, head)| tag("th", is_number(i), "", &escaped(head), 1)).collect();
    let line = |row: &Vec<Cell>| {
        let cells =
            row.iter().zip(headings).map(|(cell, head)| tag("td", cell.is_number, head, &cell.html, cell.columns));
        format!("<tr>{}</tr>\n", cells.collect::<String>())
    };
    let body: String = rows.iter().map(line).collect();
    format!(
        "<div class=\"frame\"><table class=\"{class}\"><thead><tr>{heads}</tr></thead>\n<tbody>{body}</tbody></table></div>\n"
    )
}

fn tag(name: &str, is_number: bool, head: &str, html: &str, columns: usize) -> String {
    let class = if is_number { " class=\"n\"" } else { "" };
    let head = if head.is_empty() { String::new() } else { format!(" data-head=\"{}\"", escaped(head)) };
    let span = if columns == 1 { String::new() } else { format!(" colspan=\"{columns}\"") };
    format!("<{name}{class}{head}{span}>{html}</{name}>")
}

#[cfg(test)]
mod tests {
    use super::*;

    #[test]
    fn nothing_is_markup() {
        assert_eq!(escaped("<script>\"a\" & 'b'"), "&lt;script&gt;&quot;a&quot; &amp; &#39;b&#39;");
        assert_eq!(escaped("a\0\x1b\u{7f}\u{85}\u{ffff}\nb"), "a??????b");
        assert_eq!(escaped("\u{202e}vom.exe\u{2066}"), "?vom.exe?");
        assert_eq!(escaped("Schlauch 2 é 水"), "Schlauch 2 é 水");
    }

    #[test]
    fn long_names_break_where_they_may() {
        assert_eq!(name("berth7.mov"), "<bdi>berth7.mov</bdi>");
        assert_eq!(name("quay-7/berth7.mov"), "<bdi>quay-<wbr/>7/<wbr/>berth7.<wbr/>mov</bdi>");
        assert_eq!(name(&"<".repeat(17)), format!("<bdi>{}<wbr/>&lt;</bdi>", "&lt;".repeat(16)));
        assert_eq!([shortened("abcdef", 6), shortened("abcdefg", 6)], ["abcdef", "abc…fg"]);
    }
}
