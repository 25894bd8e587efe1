//! Where something stands in a form's text, and what is wrong there.

use crate::shown;

/// A line and a column of it, in characters, both counted from 1.
#[derive(Clone, Copy, Debug, PartialEq, Eq)]
pub struct Spot {
    pub line: usize,
    pub column: usize,
}

/// What is wrong with a form's text, and where.
#[derive(Debug, PartialEq, Eq)]
pub struct Fault {
    pub spot: Spot,
    pub words: String,
}

impl Fault {
    pub fn new(spot: Spot, words: impl Into<String>) -> Fault {
        Fault { spot, words: words.into() }
    }

    /// The file, line and column, what is wrong, and the line with a caret under the column.
    pub fn shown(&self, file: &str, text: &str) -> String {
        let Spot { line, column } = self.spot;
        let units: Vec<String> = text.lines().nth(line - 1).unwrap_or_default().chars().map(source_char).collect();
        let caret: usize = units.iter().take(column - 1).map(|unit| unit.chars().count()).sum();
        format!("{file}:{line}:{column}: {}\n{}", self.words, shown::underlined(&units.concat(), caret..caret + 1))
    }
}

/// A character of a text, as it was written. A tab takes one column, so that the caret below it fits.
fn source_char(c: char) -> String {
    match c {
        '\t' => " ".to_string(),
        '"' | '\\' => c.to_string(),
        _ => shown::shown_char(c),
    }
}
