//! A refused line in words.

use std::ops::Range;
use std::os::unix::ffi::OsStrExt;

use crate::item::{Item, ItemKind, Mark, UsedBy};
use crate::missing::Missing;
use crate::needs::{either, has_option, letters, some_required};
use crate::node::{kind, LONG, NON_STRICT, SHORT};
use crate::reason::Reason;
use crate::run::{Run, Tried};
use crate::sheet::ARGUMENTS;
use crate::shown::{quoted, shown_word};
use crate::table::CommandTable;

/// A sentence, and the argument and the bytes of it that are shown below it.
#[derive(Clone, PartialEq, Eq)]
pub(crate) struct Said {
    pub sentence: String,
    pub spot: Option<(usize, Range<usize>)>,
}

/// What is said of a refused line, in order: what was refused, and where something is missing an unknown option before it. No
/// field takes such an option, so it stays wrong when what is missing is given; and it may be just that, mistyped. What is
/// wrong under a command has its name before it.
pub(crate) fn said(run: &Run, items: &[Item], place: Option<usize>, missing: &[Missing]) -> Vec<Said> {
    let refused = Said { sentence: sentence(run, items, place, missing), spot: spot(run, items, place) };
    let first = items.iter().find(|item| run.answer.number == 20 && unknown(run, item));
    let mistyped = first.map(|item| Said { sentence: not_known(item), spot: Some((item.argument, item.part.clone())) });
    let under = under(run);
    let named = |Said { sentence, spot }| Said { sentence: format!("{under}{sentence}"), spot };
    mistyped.into_iter().chain([refused]).map(named).collect()
}

/// The command that was given, as it stands before a sentence.
fn under(run: &Run) -> String {
    match run.commands {
        Some(Tried { table, command: Some(number), .. }) => format!("{}: ", shown_word(table.names()[number].as_bytes())),
        _ => String::new(),
    }
}

/// What was refused, in a sentence.
fn sentence(run: &Run, items: &[Item], place: Option<usize>, missing: &[Missing]) -> String {
    let item = place.and_then(|place| items.get(place));
    match (run.answer.number, item) {
        (5, _) => format!("the arguments have {} bytes together, and at most 32768 are read", bytes(run)),
        (6, _) => format!("there are {} arguments, and at most {ARGUMENTS} are read", run.args.len()),
        (7 | 14, _) => "a buffer is too short".to_string(),
        (8, _) => "the arguments are more than 256 options and words".to_string(),
        (9, Some(item)) => ambiguous(run, items, item),
        (31, _) => no_command(run, items),
        (20, _) => not_found(&[either(&missing.iter().map(Missing::to_string).collect::<Vec<_>>())]),
        (21, _) => not_found(&run.form.map_or_else(Vec::new, |form| some_required(form.layout()))),
        (22, Some(key)) => no_value(key, place.and_then(|place| items.get(place + 1))),
        (23, Some(item)) => format!("{} must come after `--`", name(item)),
        (24, Some(item)) => format!("{} comes after `--`, and must come before it", name(item)),
        (25, Some(item)) => format!("{} is not a number from 0 to 4294967295", name(item)),
        (26, Some(_)) => "a number is out of its bounds; the word that was taken last is shown".to_string(),
        (26, None) => "a number is out of its bounds, and no word was taken".to_string(),
        (27, Some(item)) => left_over(items, item, run.reason.unwrap_or_else(|| reason_under(run, items, item))),
        (50, Some(item)) => misread(run, items, item),
        (number, _) => format!("the line is refused with {number}"),
    }
}

/// The argument and the bytes of it that a refusal is about.
fn spot(run: &Run, items: &[Item], place: Option<usize>) -> Option<(usize, Range<usize>)> {
    let item = match run.answer.number {
        31 => first_present(items)?,
        _ => items.get(place?)?,
    };
    let part = if run.answer.number == 9 { ambiguous_letter(run, items, item) } else { item.part.clone() };
    Some((item.argument, part))
}

fn bytes(run: &Run) -> usize {
    run.args.iter().map(|arg| arg.len()).sum()
}

/// An option's name or a word's text, in backquotes.
fn name(item: &Item) -> String {
    match item.kind {
        ItemKind::Short(letter) => quoted(format!("-{letter}").as_bytes()),
        ItemKind::Long(name) => quoted(&[b"--", name.as_bytes()].concat()),
        _ => quoted(item.text.as_bytes()),
    }
}

/// The letter behind those that the cluster gave before it was refused.
fn ambiguous_letter(run: &Run, items: &[Item], word: &Item) -> Range<usize> {
    let letters = items.iter().filter(|item| item.argument == word.argument && matches!(item.kind, ItemKind::Short(_)));
    let from = 1 + letters.map(|item| item.part.len()).sum::<usize>();
    let rest = run.args[word.argument].to_str().and_then(|text| text.get(from..)).unwrap_or_default();
    from..from + rest.chars().next().map_or(0, char::len_utf8)
}

fn ambiguous(run: &Run, items: &[Item], word: &Item) -> String {
    let letter = &word.text.as_bytes()[ambiguous_letter(run, items, word)];
    let named = format!("the letter {} in {}", quoted(letter), quoted(word.text.as_bytes()));
    match (run.commands, std::str::from_utf8(letter).ok().and_then(|letter| letter.chars().next())) {
        (Some(tried), Some(letter)) => format!("{named} {}", ambiguous_in(tried.table, letter)),
        _ => format!("{named} may be a flag and may take a value: it must be given separately"),
    }
}

/// Which commands make a letter ambiguous: a line is split before its command is known.
fn ambiguous_in(table: &CommandTable, letter: char) -> String {
    let names = |kind: u16| table.with_letter(kind, letter).iter().map(|name| shown_word(name.as_bytes())).collect::<Vec<_>>();
    let (flags, arguments) = (names(kind::FLAG).join(", "), names(kind::ARGUMENT).join(", "));
    format!("is a flag of {flags} and takes a value in {arguments}: under every command it must be given separately")
}

/// The first item that is not used: the only one that may be a command.
fn first_present<'i, 'a>(items: &'i [Item<'a>]) -> Option<&'i Item<'a>> {
    items.iter().find(|item| !item.mark.is_used())
}

fn no_command(run: &Run, items: &[Item]) -> String {
    let names = run.commands.map_or(&[][..], |tried| tried.table.names());
    let names: Vec<String> = names.iter().map(|name| shown_word(name.as_bytes())).collect();
    let all = names.join(", ");
    let there_are = if names.len() == 1 { format!("the command is {all}") } else { format!("the commands are {all}") };
    match first_present(items) {
        None => format!("a command is required: {all}"),
        Some(item) if item.kind == ItemKind::PosWord => {
            format!("{} comes after `--`, and a command must come before it; {there_are}", name(item))
        }
        Some(item) => format!("{} is not a command; {there_are}", name(item)),
    }
}

fn not_found(required: &[String]) -> String {
    match required {
        [] => "something required was not found".to_string(),
        [one] => format!("{one} is required, and was not found"),
        all => format!("something required was not found; required are {}", all.join(", ")),
    }
}

fn no_value(key: &Item, next: Option<&Item>) -> String {
    let key_name = name(key);
    match next {
        Some(next) if matches!(next.kind, ItemKind::Short(_) | ItemKind::Long(_)) => {
            let hint = with_equals(key, next).map_or(String::new(), |hint| format!(" (as its value: {hint})"));
            format!("{key_name} needs a value, and {} after it is an option{hint}", quoted(next.text.as_bytes()))
        }
        Some(next) if matches!(next.kind, ItemKind::Word | ItemKind::ArgWord) => {
            format!("{key_name} needs a value, and {} after it is taken already", name(next))
        }
        _ => format!("{key_name} needs a value, and none follows it"),
    }
}

/// A key and the argument behind it as one argument. A short name that is not ASCII cannot be given so.
fn with_equals(key: &Item, value: &Item) -> Option<String> {
    let option = match key.kind {
        ItemKind::Short(letter) if letter.is_ascii() => format!("-{letter}").into_bytes(),
        ItemKind::Long(name) => [b"--", name.as_bytes()].concat(),
        _ => return None,
    };
    Some(quoted(&[&option[..], b"=", value.text.as_bytes()].concat()))
}

/// Why an item was left over, in a sentence.
fn left_over(items: &[Item], item: &Item, reason: Reason) -> String {
    let shown = name(item);
    match reason {
        Reason::LostTo(winner) => {
            let winner_name = items.get(winner).map_or(String::new(), name);
            format!("{shown} lost to {winner_name} at place {winner}: they cannot be given together")
        }
        Reason::GivenEarlier(earlier) => format!("{shown} is given twice: already at place {earlier}"),
        Reason::KeyUsed => {
            let key_name = key(items, item).map_or(String::new(), name);
            format!("{key_name} is taken as a flag, and {shown} is given to it as a value")
        }
        Reason::Unnamed => not_known(item),
        Reason::NoPositional => format!("{shown} is read as an operand, and no operands are taken"),
        Reason::UnknownLetter(_) | Reason::NotUtf8 => format!("{shown} is read as a word: {}", reason.word_cause()),
        Reason::Other if item.kind == ItemKind::Word && item.text.len() > 1 && item.text.as_bytes()[0] == b'-' => {
            format!("{shown} is not expected here: it is read as a word, not as options")
        }
        Reason::Other => format!("{shown} is not expected here"),
    }
}

/// Why an argument that looks like options is a word, and what to write instead.
fn misread(run: &Run, items: &[Item], word: &Item) -> String {
    let cause = run.reason.map_or(String::new(), Reason::word_cause);
    format!("{} looks like options and was read as a word: {cause}{}", name(word), instead(run, items, word))
}

/// How a word that looks like options can be given: to an option before it in one argument, or after `--`. There is no way where
/// a letter is ambiguous and has no `=`, or the operand must come before `--`.
fn instead(run: &Run, items: &[Item], word: &Item) -> String {
    let before = items.iter().take_while(|item| item.argument < word.argument).last();
    // an option and what the same field took right after it: no field has both flags and operands
    let key = before.filter(|key| key.mark == word.mark && matches!(key.kind, ItemKind::Short(_) | ItemKind::Long(_)));
    let hint = match key {
        Some(key) => with_equals(key, word).or_else(|| joined(run, key, word)).map(|hint| format!("as a value write {hint}")),
        None => takes_after_marker(run, word).then(|| "to be a word it must come after `--`".to_string()),
    };
    hint.map_or(String::new(), |hint| format!("; {hint}"))
}

/// A short name and its value as one argument, where the letter is not a flag's too.
fn joined(run: &Run, key: &Item, value: &Item) -> Option<String> {
    let ItemKind::Short(letter) = key.kind else { return None };
    let ambiguous = match (run.commands, run.form) {
        (Some(tried), _) => !tried.table.with_letter(kind::FLAG, letter).is_empty(),
        (_, form) => form.is_some_and(|form| letters(form.layout(), kind::FLAG).contains(&letter)),
    };
    (!ambiguous).then(|| quoted(&[format!("-{letter}").as_bytes(), value.text.as_bytes()].concat()))
}

/// Whether the field that took a word takes operands after `--` too.
fn takes_after_marker(run: &Run, word: &Item) -> bool {
    let (Some(form), Some(field)) = (run.form, word.mark.field()) else { return false };
    form.layout().field_tree(field).iter().any(|node| node.kind == kind::POSITIONAL && node.p != NON_STRICT)
}

/// Why an item was left over under a command. The proved call that tells it knows one form, and the letters of all forms split
/// such a line: so here only what the run left, and the names of the command's form, are looked at.
fn reason_under(run: &Run, items: &[Item], item: &Item) -> Reason {
    match (item.mark, item.kind) {
        (Mark::Conflict(winner), _) => Reason::LostTo(winner),
        (_, ItemKind::ArgWord) if key(items, item).is_some_and(|key| key.mark.field().is_some()) => Reason::KeyUsed,
        _ if unknown(run, item) => Reason::Unnamed,
        _ => Reason::Other,
    }
}

fn not_known(option: &Item) -> String {
    format!("{} is not a known option", name(option))
}

/// Whether this is an option, and the form has none of its name.
fn unknown(run: &Run, item: &Item) -> bool {
    let has = |ty: u16, name: &[u8]| run.form.is_some_and(|form| has_option(form.layout(), ty, name));
    match item.kind {
        // a command word may look like an option
        _ if item.mark == Mark::Used(UsedBy::Command) => false,
        ItemKind::Short(letter) => !has(SHORT, letter.to_string().as_bytes()),
        ItemKind::Long(name) => !has(LONG, name.as_bytes()),
        _ => false,
    }
}

/// The option that a value behind a `=` was given to: the first of its argument.
fn key<'i, 'a>(items: &'i [Item<'a>], value: &Item) -> Option<&'i Item<'a>> {
    items.iter().find(|item| item.argument == value.argument)
}
