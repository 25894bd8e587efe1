//! Why an argument that looks like options is a word, asked of the proved code.

use std::ffi::OsStr;

use crate::form::Form;
use crate::names::Names;
use crate::needs::letters;
use crate::node::{kind, Node, Takes};
use crate::reason::Reason;
use crate::rules::{buffer, Rules, Slices};
use crate::sheet;

/// Why an argument is a word where a line is split by the letters of these forms. The careful run tells it of the lowest such word
/// of a line that is accepted, so it is given a line of this argument alone, and a form that has just those of the argument's
/// letters that an option has, and takes any word.
pub(crate) fn reason<'f>(forms: impl Iterator<Item = &'f Form> + Clone, argument: &OsStr) -> Option<Reason> {
    let text = argument.to_string_lossy();
    let names = |kind: u16| {
        let mut known: Vec<char> = forms.clone().flat_map(|form| letters(form.layout(), kind)).collect();
        known.retain(|letter| text.contains(*letter));
        known.sort_unstable();
        known.dedup();
        (!known.is_empty()).then(|| known.into_iter().fold(Names::default(), Names::short))
    };
    let switch = names(kind::FLAG).map(Node::switch);
    let option = names(kind::ARGUMENT).map(|names| Node::argument(names, Takes::Text).optional());
    let fields = switch.into_iter().chain(option).chain([Node::positional(Takes::Text)]);
    // an argument with more letters than a form has names is left without a reason
    let form = Form::of(fields).ok()?;
    let mut sheet = Vec::new();
    sheet::write(&mut sheet, &[argument]);
    let answer = Rules::Careful.run(form.bytes(), &sheet, Slices::of(&mut buffer()));
    (answer.number == 50).then(|| Reason::of_word(answer.letter))
}
