//! Bytes as they are shown to people: nothing that a terminal would act on or leave out. The command shows them so too.

use std::ops::Range;

/// Columns of a shown line; of a longer one, what stands around the place.
const WIDTH: usize = 100;

/// What each character or stray byte is shown as, with its length in bytes.
fn units(bytes: &[u8]) -> impl Iterator<Item = (usize, String)> + '_ {
    bytes.utf8_chunks().flat_map(|chunk| {
        let stray = chunk.invalid().iter().map(|byte| (1, format!("\\x{byte:02x}")));
        chunk.valid().chars().map(|c| (c.len_utf8(), shown_char(c))).chain(stray)
    })
}

/// A character, escaped if it is not printable.
pub(crate) fn shown_char(c: char) -> String {
    match c {
        '\'' => c.to_string(),
        _ => c.escape_debug().collect(),
    }
}

/// Bytes with what is not printable escaped.
pub(crate) fn shown(bytes: &[u8]) -> String {
    units(bytes).map(|(_, text)| text).collect()
}

/// Bytes in backquotes.
pub(crate) fn quoted(bytes: &[u8]) -> String {
    format!("`{}`", shown(bytes))
}

/// An argument as it stands in a shown line.
pub(crate) struct ShownArgument {
    pub text: String,
    /// the columns of the text
    pub width: usize,
    /// for each byte of the argument, and for its end, the column where it is shown
    columns: Vec<usize>,
}

impl ShownArgument {
    /// In double quotes if it is empty or has a space; cut off with dots if it is wider than `most`.
    pub fn new(bytes: &[u8], most: usize) -> ShownArgument {
        let quote = if bytes.is_empty() || bytes.contains(&b' ') { "\"" } else { "" };
        let mut text = quote.to_string();
        let (mut width, mut columns) = (quote.len(), Vec::with_capacity(bytes.len() + 1));
        for (length, unit) in units(bytes) {
            columns.extend(std::iter::repeat_n(width, length));
            width += unit.chars().count();
            text.push_str(&unit);
        }
        columns.push(width);
        text.push_str(quote);
        width += quote.len();
        if width > most {
            text = text.chars().take(most - 3).chain("...".chars()).collect();
            width = most;
        }
        ShownArgument { text, width, columns }
    }

    /// The columns of some of its bytes, one at least. Those of an empty argument are its quotes; what was cut off stands under
    /// the dots.
    pub fn columns(&self, part: &Range<usize>) -> Range<usize> {
        if self.columns.len() == 1 {
            return 0..self.width;
        }
        let (from, to) = (self.columns[part.start], self.columns[part.end]);
        let from = if to > self.width { from.min(self.width - 3) } else { from };
        from..to.min(self.width).max(from + 1)
    }
}

/// A word as it stands in a shown line.
pub(crate) fn shown_word(bytes: &[u8]) -> String {
    ShownArgument::new(bytes, usize::MAX).text
}

/// A line, and below it carets under some of its columns.
pub(crate) fn underlined(line: &str, columns: Range<usize>) -> String {
    let (line, columns) = window(line, columns);
    format!("  {line}\n  {}{}", " ".repeat(columns.start), "^".repeat(columns.len()))
}

/// The line, or if it is too wide what stands about the columns, with dots where it was cut.
fn window(line: &str, columns: Range<usize>) -> (String, Range<usize>) {
    let line: Vec<char> = line.chars().collect();
    if line.len() <= WIDTH {
        return (line.into_iter().collect(), columns);
    }
    let from = columns.start.saturating_sub(WIDTH / 2);
    let to = line.len().min(from + WIDTH);
    let before = if from > 0 { "..." } else { "" };
    let after = if to < line.len() { "..." } else { "" };
    let text: String = line[from..to].iter().collect();
    let moved = |column: usize| column.min(to + 1) - from + before.len();
    (format!("{before}{text}{after}"), moved(columns.start)..moved(columns.end))
}
