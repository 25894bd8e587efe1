//! Lines that read otherwise than they look: facts of a line and its form that are easily overlooked.

use std::ffi::OsString;
use std::fmt;
use std::os::unix::ffi::OsStrExt;

use crate::ffi;
use crate::item::{Item, ItemKind, Mark, UsedBy};
use crate::node::kind;
use crate::reason::Reason;
use crate::run::Run;
use crate::shown::quoted;
use crate::value::{Value, Words};
use crate::warning::{from_nothing, FromNothing};
use crate::word;

/// What is easily overlooked of a line, and is not said by its refusal already. Its `Display` says it in words.
///
/// ```
/// use silverpoise::{short, Form, Node, Note, Reason, Takes};
///
/// let form = Form::of([Node::switch(short('v')), Node::positional(Takes::Text)])?.as_bpaf();
/// let args = ["-vx"];
/// let line = form.read_values(&args)?;
/// assert_eq!(line.notes(), [Note::Word { place: 0, word: "-vx".into(), reason: Reason::UnknownLetter('x') }]);
/// assert_eq!(line.notes()[0].to_string(), "`-vx` is one word, not options: no option has the letter `x`");
/// # Ok::<(), Box<dyn std::error::Error>>(())
/// ```
#[derive(Clone, Debug, PartialEq, Eq)]
#[non_exhaustive]
pub enum Note {
    /// an argument that looks like options is a word. An accepted line has this only if it is read by bpaf's rules alone
    /// ([`Form::as_bpaf`](crate::Form::as_bpaf)); read carefully it is refused with 50
    Word {
        /// the place of the word
        place: usize,
        /// the word
        word: OsString,
        /// why it is one: [`Reason::UnknownLetter`] or [`Reason::NotUtf8`]
        reason: Reason,
    },
    /// an operand took the rest of an argument, which an option before it looks for as its value
    RestTaken {
        /// the place of the rest
        place: usize,
        /// the rest
        rest: OsString,
        /// the whole argument
        argument: OsString,
        /// the letter of the option
        letter: char,
    },
    /// a count or a list has a value that nothing on the line gave; which repeats can is told by the proved code
    FromNothing(FromNothing),
    /// the word at this place was refused, and stays used
    StaysUsed {
        /// the place of the word
        place: usize,
    },
}

impl fmt::Display for Note {
    fn fmt(&self, f: &mut fmt::Formatter<'_>) -> fmt::Result {
        match self {
            Note::Word { word, reason, .. } => {
                write!(f, "{} is one word, not options: {}", quoted(word.as_bytes()), reason.word_cause())
            }
            Note::RestTaken { rest, argument, letter, .. } => {
                let (rest, whole) = (quoted(rest.as_bytes()), quoted(argument.as_bytes()));
                let key = quoted(format!("-{letter}").as_bytes());
                write!(f, "a positional took {rest}, the rest of {whole}, before {key} looked for its value")
            }
            Note::FromNothing(FromNothing { value, cause, .. }) => write!(f, "{value} although it took nothing: {cause}"),
            Note::StaysUsed { place } => {
                write!(f, "place {place} stays used: a word is not given back when it is refused")
            }
        }
    }
}

/// What is easily overlooked of a line that was run, and of which these are the items.
pub(crate) fn notes(run: &Run, items: &[Item]) -> Vec<Note> {
    let mut notes: Vec<Note> = items.iter().enumerate().filter_map(|(place, item)| word(run, place, item)).collect();
    notes.extend(items.windows(2).enumerate().filter_map(|(place, pair)| rest_taken(run, place + 1, &pair[0], &pair[1])));
    match run.answer.number {
        0 => notes.extend(values_from_nothing(run, items)),
        _ => notes.extend(run.kept.map(|place| Note::StaysUsed { place })),
    }
    notes
}

/// A whole argument that looks like options and is a word, but for a command and for the one of which the refusal says it.
fn word(run: &Run, place: usize, item: &Item) -> Option<Note> {
    let looks = item.text.len() > 1 && item.text.as_bytes()[0] == b'-' && item.text.len() == run.args[item.argument].len();
    if item.kind != ItemKind::Word || !looks || item.mark == Mark::Used(UsedBy::Command) {
        return None;
    }
    let said = matches!(run.reason, Some(Reason::UnknownLetter(_) | Reason::NotUtf8));
    if said && ffi::place(run.answer.place) == Some(place) {
        return None;
    }
    let reason = match run.commands {
        Some(tried) => word::reason(tried.table.forms().iter(), item.text),
        None => word::reason(run.form.into_iter(), item.text),
    };
    Some(Note::Word { place, word: item.text.to_os_string(), reason: reason? })
}

/// The rest behind an argument letter is a word like any other, so an operand that is read earlier takes it.
fn rest_taken(run: &Run, place: usize, key: &Item, rest: &Item) -> Option<Note> {
    let ItemKind::Short(letter) = key.kind else { return None };
    let taken = key.adjacent && !key.mark.is_used() && rest.mark.is_used() && rest.kind == ItemKind::Word;
    let argument = run.args[key.argument].to_os_string();
    taken.then(|| Note::RestTaken { place, rest: rest.text.to_os_string(), argument, letter })
}

/// The first value of a repeat always counts: of each field that took nothing, the count that is 1 or the list of one value.
fn values_from_nothing(run: &Run, items: &[Item]) -> Vec<Note> {
    let Some(form) = run.form.filter(|form| form.idle() != 0) else { return Vec::new() };
    let took = |field: &usize| items.iter().any(|item| item.mark.field() == Some(*field));
    let last = |idle: &FromNothing| form.layout().node(idle.node).kind == kind::LAST;
    let repeat = |field: usize| from_nothing(form, field).find(|idle| !last(idle));
    let idle: Vec<FromNothing> = (0..form.kinds().len()).filter(|field| !took(field)).filter_map(repeat).collect();
    let values = if idle.is_empty() { Vec::new() } else { Words::new(run).values() };
    idle.into_iter().filter(|idle| is_one(&values[idle.field])).map(Note::FromNothing).collect()
}

fn is_one(value: &Value) -> bool {
    match value {
        Value::Number(number) => *number == 1,
        Value::List(values) => values.len() == 1,
        Value::Optional(Some(value)) => is_one(value),
        _ => false,
    }
}
