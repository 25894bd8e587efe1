//! The command for people: reads a line by a form that is written as text, and shows how it was read.
#![forbid(unsafe_code)]

mod files;
mod notation;
mod sections;
mod show;
// the library's own file
#[path = "../../shown.rs"]
mod shown;
mod source;
#[cfg(test)]
mod tests;
mod tokens;
mod written;

use std::ffi::{OsStr, OsString};
use std::io::{self, IsTerminal, Write};
use std::os::unix::ffi::OsStrExt;
use std::process::ExitCode;

use show::{Counts, Paint};
use silverpoise::{Form, Line, ReadError, Warning};
use written::{What, Written};

const USAGE: &str = "usage: silverpoise [--as-bpaf | --check | --emit | --portable] [--join FORM]... [--] FORM WORD...";

const HELP: &str = "\
Reads the words as a command line by the form, and shows how it was read. A line is refused on which an
argument that looks like options would be a word.

usage: silverpoise [--as-bpaf | --check | --emit | --portable] [--join FORM]... [--] FORM WORD...

  FORM         a file with one field a line; - is standard input
  WORD...      the line; all words after FORM belong to it
  --join FORM  read by the fields of this form too, which come before those of the next
  --as-bpaf    read by bpaf's rules alone: an argument that looks like options may be a word
  --check      say what of the form is easily overlooked; no words
  --emit       write the form or the commands as bytes, for other programs; no words
  --portable   say whether POSIX has such short options; no words
  --help       print this
  --version    print the version

A form:

  # the name of the field, what it reads, and how
  limit:   number -l --limit, 1..9999, optional
  verbose: flag -v, count
  stand:   (text --cradle or text --stand), else \"bench\"
  parts:   text, some

  switch NAMES   yes or no               text NAMES, number NAMES   an option's value
  flag NAMES     yes, must be given      text, number               a word without a name
  ( ... )        brackets                A or B                     the one that is given

  after a comma: optional, many, some, count, last, LO..HI, else VALUE, and
  catch (after optional, many, some), adjacent (of text NAMES and number NAMES),
  strict and non-strict (of text and number without names)

Several commands, each with its names and a form below them; a name of one character is short:

  [wear w]
  limit:   number -l, optional
  [log]
  parts:   text, many

Exit status: 0 values; 1 the line is refused, the form is not portable, or --check has a warning;
2 wrong use or a form at fault. A line that is accepted with --as-bpaf alone is refused with 50 without it.
docs/COMMAND.md says more.
";

/// The files of forms that are joined, mostly one.
type Files<'a> = Vec<&'a OsStr>;

enum Use<'a> {
    Help,
    Version,
    Check(Files<'a>),
    Emit(Files<'a>),
    Portable(Files<'a>),
    Read { files: Files<'a>, line: &'a [OsString], as_bpaf: bool },
}

fn main() -> ExitCode {
    let args = silverpoise::args();
    let printed = wanted(&args).and_then(run);
    match printed.and_then(|(status, bytes)| print(&bytes).map(|()| status)) {
        Ok(status) => ExitCode::from(status),
        Err(message) => {
            // nothing is left to do where this cannot be written either
            let _ = writeln!(io::stderr(), "{message}");
            ExitCode::from(2)
        }
    }
}

/// What the command's own arguments ask for.
fn wanted(args: &[OsString]) -> Result<Use<'_>, String> {
    let (mut asked, mut files, mut rest) = (None, Vec::new(), args);
    while let [first, behind @ ..] = rest {
        if let Some((file, behind)) = joined(rest) {
            files.push(file);
            rest = behind;
            continue;
        }
        match first.as_bytes() {
            b"--help" => return Ok(Use::Help),
            b"--version" => return Ok(Use::Version),
            b"--join" => return Err(format!("silverpoise: `--join` needs a form\n{USAGE}")),
            b"--as-bpaf" | b"--check" | b"--emit" | b"--portable" => {
                if let Some(other) = asked.filter(|other| *other != first) {
                    let (other, first) = (named(other), named(first));
                    return Err(format!("silverpoise: `{other}` and `{first}` do not go together\n{USAGE}"));
                }
                asked = Some(first);
            }
            b"--" => {
                rest = behind;
                break;
            }
            [b'-', _, ..] => return Err(format!("silverpoise: there is no option `{}`\n{USAGE}", named(first))),
            _ => break,
        }
        rest = behind;
    }
    let [file, line @ ..] = rest else { return Err(format!("silverpoise: a form is needed\n{USAGE}")) };
    files.push(file);
    match (asked.map(|option| option.as_bytes()), line) {
        (None, _) => Ok(Use::Read { files, line, as_bpaf: false }),
        (Some(b"--as-bpaf"), _) => Ok(Use::Read { files, line, as_bpaf: true }),
        (Some(b"--check"), []) => Ok(Use::Check(files)),
        (Some(b"--emit"), []) => Ok(Use::Emit(files)),
        (Some(_), []) => Ok(Use::Portable(files)),
        (Some(option), _) => Err(format!("silverpoise: `{}` takes no words after the form\n{USAGE}", shown::shown(option))),
    }
}

/// The form of `--join FORM` or `--join=FORM` where the words begin with it, and the words behind.
fn joined(words: &[OsString]) -> Option<(&OsStr, &[OsString])> {
    let (first, behind) = words.split_first()?;
    match (first.as_bytes().strip_prefix(b"--join")?, behind) {
        ([b'=', file @ ..], _) => Some((OsStr::from_bytes(file), behind)),
        ([], [file, behind @ ..]) if !matches!(file.as_bytes(), [b'-', _, ..]) => Some((file, behind)),
        _ => None,
    }
}

/// The exit status, and what is printed.
fn run(wanted: Use) -> Result<(u8, Vec<u8>), String> {
    match wanted {
        Use::Help => Ok((0, HELP.into())),
        Use::Version => Ok((0, concat!("silverpoise ", env!("CARGO_PKG_VERSION"), "\n").into())),
        Use::Check(files) => {
            let (status, text) = check(&files::written(&files)?, paint());
            Ok((status, text.into_bytes()))
        }
        Use::Emit(files) => Ok((0, files::written(&files)?.bytes().to_vec())),
        Use::Portable(files) => {
            let (status, text) = portable(&files::written(&files)?);
            Ok((status, text.into_bytes()))
        }
        Use::Read { files, line, as_bpaf } => {
            let written = files::written(&files)?;
            let (status, text) = read(&if as_bpaf { written.by_plain_rules() } else { written }, line, paint());
            Ok((status, text.into_bytes()))
        }
    }
}

/// What is easily overlooked in the form, each with its field, and its command if there are commands.
fn check(written: &Written, paint: Paint) -> (u8, String) {
    let warnings = written.warnings();
    if warnings.is_empty() {
        return (0, "no warnings\n".into());
    }
    let row = |(command, warning): &(Option<usize>, Warning)| {
        let under = written.under(*command);
        let command = under.command.map_or(String::new(), |command| format!("{}: ", shown::shown_word(command.as_bytes())));
        let field = shown::shown(under.fields[warning.field()].name.as_bytes());
        show::aside(paint, "warning", &format!("{command}{field}: {warning}"))
    };
    (1, warnings.iter().map(row).collect())
}

/// The portable mark, and the short names that take it away, each behind its command if there are commands.
fn portable(written: &Written) -> (u8, String) {
    if written.forms().iter().all(Form::is_portable) {
        return (0, "portable: every short option is one of 0..9, A..Z, a..z, and none is W\n".into());
    }
    let why = |name| match name {
        'W' => "is reserved for vendor options",
        _ => "is none of 0..9, A..Z, a..z",
    };
    let row = |under: &str, name: char| format!("  {under}`-{}` {}\n", shown::shown_char(name), why(name));
    let mut text = "not portable:\n".to_string();
    for (number, form) in written.forms().iter().enumerate() {
        let command = written.under(Some(number)).command;
        let under = command.map_or(String::new(), |command| format!("{}: ", shown::shown_word(command.as_bytes())));
        text.extend(form.unportable_names().into_iter().map(|name| row(&under, name)));
    }
    (1, text)
}

fn print(bytes: &[u8]) -> Result<(), String> {
    let mut out = io::stdout();
    match out.write_all(bytes).and_then(|()| out.flush()) {
        // the reader is gone, as with `head`
        Err(error) if error.kind() == io::ErrorKind::BrokenPipe => Ok(()),
        written => written.map_err(|error| format!("silverpoise: standard output: {error}")),
    }
}

/// Colours on a terminal, unless NO_COLOR is set.
fn paint() -> Paint {
    let no_colour = std::env::var_os("NO_COLOR").is_some_and(|value| !value.is_empty());
    Paint(io::stdout().is_terminal() && !no_colour)
}

fn named(option: &OsStr) -> String {
    shown::shown(option.as_bytes())
}

/// The exit status of a line, and what is shown of it.
fn read(written: &Written, line: &[OsString], paint: Paint) -> (u8, String) {
    let answer = written.read_values(line);
    let under = written.under(answer.as_ref().map_or_else(ReadError::command, Line::command));
    let (status, items, answered, notes) = match &answer {
        Ok(read) => {
            let values = show::values(paint, under, read.values(), counts(written, read.tries(), read.comparisons()));
            (0, read.items().to_vec(), values, read.notes())
        }
        Err(error) => {
            let refusal = show::refusal(paint, error, counts(written, error.tries(), error.comparisons()));
            (1, error.items(), refusal, error.notes())
        }
    };
    let notes: String = notes.iter().map(|note| show::aside(paint, "note", &note.to_string())).collect();
    (status, format!("{}\n{answered}{notes}", show::line(paint, under, line, &items)))
}

fn counts(written: &Written, tries: u32, comparisons: u32) -> Counts {
    let commands = matches!(written.what, What::Commands(_));
    Counts { tries, comparisons: commands.then_some(comparisons) }
}
