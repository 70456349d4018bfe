//! Lines that fit a terminal.

/// The columns of a terminal.
pub const COLUMNS: usize = 80;

/// Words on lines of at most so many columns, a longer word on one of its own.
pub fn filled<W: AsRef<str>>(words: &[W], columns: usize) -> String {
    let (mut text, mut column) = (String::new(), 0);
    for word in words.iter().map(AsRef::as_ref) {
        let width = word.chars().count();
        if column > 0 && column + 1 + width > columns {
            text.push('\n');
            column = 0;
        }
        if column > 0 {
            text.push(' ');
            column += 1;
        }
        text.push_str(word);
        column += width;
    }
    if column > 0 {
        text.push('\n');
    }
    text
}

/// Paragraphs on lines that fit.
pub fn wrapped(text: &str) -> String {
    text.lines()
        .map(|paragraph| {
            let words: Vec<&str> = paragraph.split_whitespace().collect();
            filled(&words, COLUMNS)
        })
        .collect()
}

/// Rows of cells with a head, each column as wide as it has to be, all to the right.
pub struct Table {
    rows: Vec<Vec<String>>,
}

impl Table {
    pub fn new(head: &[&str]) -> Table {
        let head = head.iter().map(|word| String::from(*word)).collect();
        Table { rows: vec![head] }
    }

    pub fn row<const N: usize>(&mut self, cells: [String; N]) {
        self.rows.push(cells.into());
    }

    pub fn text(&self) -> String {
        let columns = self.rows.iter().map(Vec::len).max().unwrap_or(0);
        let width = |column: usize| {
            let cells = self.rows.iter().filter_map(|row| row.get(column));
            cells.map(|cell| cell.chars().count()).max().unwrap_or(0)
        };
        let widths: Vec<usize> = (0..columns).map(width).collect();
        let mut text = String::new();
        for row in &self.rows {
            let cells: Vec<String> = row
                .iter()
                .zip(&widths)
                .map(|(cell, &width)| format!("{cell:>width$}"))
                .collect();
            text += &cells.join("  ");
            text.push('\n');
        }
        text
    }
}

/// A number and its noun.
pub fn counted(count: usize, one: &str, more: &str) -> String {
    match count {
        1 => format!("1 {one}"),
        _ => format!("{count} {more}"),
    }
}

/// The versions of a set.
pub fn versions(set: u32) -> impl Iterator<Item = u32> {
    (0..u32::BITS).filter(move |version| set >> version & 1 == 1)
}
