//! What the command prints: the line with its items, then the values or the refusal.

use std::ffi::OsString;
use std::fmt::Write;
use std::ops::Range;
use std::os::unix::ffi::OsStrExt;

use silverpoise::{Item, ItemKind, Mark, ReadError, UsedBy, Value};

use crate::shown::{shown, shown_word, ShownArgument};
use crate::written::Under;

/// Columns of the arguments on one row; more arguments go to further rows.
const ROOM: usize = 56;
/// Columns of a row of values.
const WIDTH: usize = 100;

/// Colours, or none where the output is not a terminal.
#[derive(Clone, Copy)]
pub struct Paint(pub bool);

impl Paint {
    fn paint(self, code: &str, text: &str) -> String {
        match self.0 {
            true => format!("\x1b[{code}m{text}\x1b[0m"),
            false => text.to_string(),
        }
    }

    fn bold(self, text: &str) -> String {
        self.paint("1", text)
    }

    fn mark(self, mark: Mark, text: &str) -> String {
        match mark {
            Mark::Used(_) => self.paint("32", text),
            Mark::Unused | Mark::Conflict(_) => self.paint("31", text),
        }
    }
}

/// The arguments, and below them a row for each item, with carets under what the item stands for, and who used it.
pub fn line(paint: Paint, under: Under, args: &[OsString], items: &[Item]) -> String {
    let label = paint.bold("line");
    if args.is_empty() {
        return format!("{label}  (no arguments)\n");
    }
    // a line that is split has an item at least
    if items.is_empty() {
        return format!("{label}  (not split)\n");
    }
    let shown: Vec<ShownArgument> = args.iter().map(|arg| ShownArgument::new(arg.as_bytes(), ROOM)).collect();
    let rows = rows(&shown);
    let texts = |row: &Range<usize>| shown[row.clone()].iter().map(|arg| arg.text.as_str()).collect::<Vec<_>>().join(" ");
    let kinds = items.iter().map(|item| kind(item).len()).max().unwrap_or(0);
    // a caret may stand right behind the last argument, under the nothing behind a `=`
    let wide = 1 + rows.iter().map(|row| texts(row).chars().count()).max().unwrap_or(0);
    let mut out = String::new();
    for row in &rows {
        let _ = writeln!(out, "{label}  {}", texts(row));
        for (place, item) in items.iter().enumerate().filter(|(_, item)| row.contains(&item.argument)) {
            let before: usize = shown[row.start..item.argument].iter().map(|arg| arg.width + 1).sum();
            let columns = shown[item.argument].columns(&item.part);
            let carets = carets(paint, item.mark, before + columns.start..before + columns.end, wide);
            let mark = paint.mark(item.mark, &mark(under, item.mark));
            let _ = writeln!(out, "{place:4}  {carets} {:kinds$}  {mark}", kind(item));
        }
    }
    out
}

/// Carets under the columns, with spaces before and behind them.
fn carets(paint: Paint, mark: Mark, columns: Range<usize>, wide: usize) -> String {
    let carets = paint.mark(mark, &"^".repeat(columns.len()));
    format!("{}{carets}{}", " ".repeat(columns.start), " ".repeat(wide - columns.end))
}

/// The arguments of each row: as many as there is room for, one at least.
fn rows(shown: &[ShownArgument]) -> Vec<Range<usize>> {
    let mut rows = Vec::new();
    let (mut from, mut used) = (0, 0);
    for (k, arg) in shown.iter().enumerate() {
        if k > from && used + 1 + arg.width > ROOM {
            rows.push(from..k);
            (from, used) = (k, 0);
        }
        used += arg.width + usize::from(k > from);
    }
    rows.push(from..shown.len());
    rows
}

fn kind(item: &Item) -> String {
    let kind = match item.kind {
        ItemKind::Short(_) => "Short",
        ItemKind::Long(_) => "Long",
        ItemKind::ArgWord => "ArgWord",
        ItemKind::Word => "Word",
        ItemKind::PosWord => "PosWord",
    };
    format!("{kind}{}", if item.adjacent { ", adjacent" } else { "" })
}

fn mark(under: Under, mark: Mark) -> String {
    match mark {
        Mark::Used(UsedBy::Field(number)) => match under.fields.get(number) {
            Some(field) => format!("used by {}", shown(field.name.as_bytes())),
            None => format!("used by field {number}"),
        },
        Mark::Used(UsedBy::Marker) => "ends the options".to_string(),
        Mark::Used(UsedBy::Command) => match under.command {
            Some(command) => format!("the command {}", shown_word(command.as_bytes())),
            None => "a command".to_string(),
        },
        Mark::Unused => "not used".to_string(),
        Mark::Conflict(winner) => format!("conflict with {winner}"),
    }
}

/// The values of the fields, each behind its name.
pub fn values(paint: Paint, under: Under, values: &[Value], counts: Counts) -> String {
    let names: Vec<String> = under.fields.iter().map(|field| shown(field.name.as_bytes())).collect();
    let wide = names.iter().map(|name| name.chars().count()).max().unwrap_or(0);
    let of = under.command.map_or(String::new(), |command| format!(" of {}", shown_word(command.as_bytes())));
    let mut out = format!("{} in {}\n", paint.bold(&format!("values{of}")), counts.words());
    for (name, value) in names.iter().zip(values) {
        let _ = writeln!(out, "  {name:wide$}  {}", wrapped(&value_words(value), wide + 4));
    }
    out
}

/// A value in words that may stand on rows of their own.
fn value_words(value: &Value) -> Vec<String> {
    match value {
        Value::List(elements) => {
            let words: Vec<String> = elements.iter().map(|element| value_words(element).concat()).collect();
            let last = words.len().saturating_sub(1);
            let commas = words.iter().enumerate().map(|(k, word)| format!("{word}{}", if k < last { "," } else { "]" }));
            let mut all: Vec<String> = commas.collect();
            match all.first_mut() {
                Some(first) => first.insert(0, '['),
                None => all.push("[]".to_string()),
            }
            all
        }
        Value::Optional(Some(value)) => value_words(value),
        Value::Optional(None) => vec!["absent".to_string()],
        Value::YesNo(yes) => vec![if *yes { "yes" } else { "no" }.to_string()],
        Value::Number(number) => vec![number.to_string()],
        Value::Text(text) => vec![format!("\"{}\"", shown(text.as_bytes()))],
    }
}

/// The words with spaces between them, on rows that begin at the indent.
fn wrapped(words: &[String], indent: usize) -> String {
    let (mut out, mut column) = (String::new(), indent);
    for (k, word) in words.iter().enumerate() {
        let wide = word.chars().count();
        if k > 0 && column + 1 + wide > WIDTH {
            let _ = write!(out, "\n{:indent$}", "");
            column = indent;
        } else if k > 0 {
            out.push(' ');
            column += 1;
        }
        out.push_str(word);
        column += wide;
    }
    out
}

/// The refusal by its number, then in words with the place underlined.
pub fn refusal(paint: Paint, error: &ReadError, counts: Counts) -> String {
    let place = error.place().map_or(String::new(), |place| format!(" at place {place}"));
    let head = format!("refused with {}{place}", error.number());
    let words = error.to_string().replace('\n', "\n  ");
    format!("{} in {}\n  {words}\n", paint.paint("1;31", &head), counts.words())
}

/// What an answer took.
#[derive(Clone, Copy)]
pub struct Counts {
    pub tries: u32,
    /// of names, where there are commands
    pub comparisons: Option<u32>,
}

impl Counts {
    fn words(self) -> String {
        let tries = format!("{} {}", self.tries, if self.tries == 1 { "try" } else { "tries" });
        match self.comparisons {
            Some(1) => format!("{tries}, 1 comparison"),
            Some(comparisons) => format!("{tries}, {comparisons} comparisons"),
            None => tries,
        }
    }
}

/// A note or a warning.
pub fn aside(paint: Paint, what: &str, words: &str) -> String {
    format!("{} {words}\n", paint.paint("33", &format!("{what}:")))
}
