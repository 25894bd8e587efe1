//! What a form asks for and which options it has, for the words of refused lines.

use crate::form_words::names;
use crate::layout::Layout;
use crate::node::{kind, Record, SHORT};

/// What an unrestricted, a strict and a non-strict positional look for.
const OPERANDS: [&str; 3] = ["an operand", "an operand after `--`", "an operand before `--`"];

/// What the fields ask for that would be refused with 21 where it is not found: a some has no list of what is missing.
pub(crate) fn some_required(layout: Layout) -> Vec<String> {
    let fields = (0..layout.fields()).map(|field| layout.field(field));
    fields.filter(|node| need(layout, *node) == Some(21)).map(|node| either(&parts(layout, node))).collect()
}

/// The number of the refusal where what a node of an accepted form asks for is not found; none if it asks for nothing.
fn need(layout: Layout, node: usize) -> Option<u32> {
    let record = layout.node(node);
    match record.kind {
        kind::FLAG if record.r == 1 => None,
        kind::FLAG | kind::ARGUMENT | kind::POSITIONAL => Some(20),
        // with catch, a value that is no number or out of its bounds is not counted
        kind::SOME if record.r == 1 => Some(21),
        kind::SOME => need(layout, record.p).map(|_| 21),
        kind::LAST | kind::GUARD => need(layout, record.p),
        // where neither side finds something, the refusal is the second's
        kind::CHOICE => need(layout, record.p).and_then(|_| need(layout, record.q)),
        _ => None,
    }
}

/// What a node looks for: one of these.
pub(crate) fn parts(layout: Layout, node: usize) -> Vec<String> {
    let record = layout.node(node);
    match record.kind {
        kind::FLAG | kind::ARGUMENT | kind::POSITIONAL => vec![leaf_words(layout, &record)],
        kind::SOME => vec![format!("{} (one at least)", either(&parts(layout, record.p)))],
        kind::CHOICE => [parts(layout, record.p), parts(layout, record.q)].concat(),
        _ => parts(layout, record.p),
    }
}

/// What a flag, an argument or a positional looks for.
pub(crate) fn leaf_words(layout: Layout, leaf: &Record) -> String {
    let named = || format!("`{}`", names(layout, leaf, "` or `"));
    match leaf.kind {
        kind::ARGUMENT if leaf.r & 1 == 1 => format!("{} with its value in the same argument", named()),
        kind::POSITIONAL => OPERANDS[leaf.p].to_string(),
        _ => named(),
    }
}

/// One of several. A comma stands before each `or` where a part is more than a name, so that one sees where the next begins.
pub(crate) fn either(parts: &[String]) -> String {
    let plain = |part: &String| part == OPERANDS[0] || !part.contains(' ');
    parts.join(if parts.iter().all(plain) { " or " } else { ", or " })
}

/// Whether a flag or an argument of the form has this short or long name.
pub(crate) fn has_option(layout: Layout, ty: u16, name: &[u8]) -> bool {
    let of_either = [kind::FLAG, kind::ARGUMENT].into_iter().flat_map(|kind| of_kind(layout, kind));
    of_either.flat_map(|leaf| leaf_names(layout, &leaf)).any(|given| given == (ty, name))
}

/// The short names of the flags of a form, or of its arguments.
pub(crate) fn letters(layout: Layout, kind: u16) -> Vec<char> {
    of_kind(layout, kind).flat_map(|leaf| leaf_letters(layout, &leaf)).collect()
}

/// The short names of a flag or an argument; any other node has none.
pub(crate) fn leaf_letters<'a>(layout: Layout<'a>, leaf: &Record) -> impl Iterator<Item = char> + 'a {
    let shorts = leaf_names(layout, leaf).filter(|(ty, _)| *ty == SHORT);
    shorts.filter_map(|(_, name)| std::str::from_utf8(name).ok()?.chars().next())
}

/// The types and bytes of the names of a flag or an argument; any other node has none.
pub(crate) fn leaf_names<'a>(layout: Layout<'a>, leaf: &Record) -> impl Iterator<Item = (u16, &'a [u8])> {
    let records = if matches!(leaf.kind, kind::FLAG | kind::ARGUMENT) { leaf.p..leaf.p + leaf.q } else { 0..0 };
    records.map(move |record| layout.name(record))
}

/// The names of a flag or an argument as they are given on a line.
pub(crate) fn given(layout: Layout, leaf: &Record) -> Vec<String> {
    let dashes = |ty: u16| if ty == SHORT { "-" } else { "--" };
    leaf_names(layout, leaf).map(|(ty, name)| format!("{}{}", dashes(ty), String::from_utf8_lossy(name))).collect()
}

fn of_kind(layout: Layout<'_>, kind: u16) -> impl Iterator<Item = Record> + '_ {
    (0..layout.nodes()).map(move |node| layout.node(node)).filter(move |record| record.kind == kind)
}
