//! Why a form was refused, in words. The proved check decides; what is here only finds the words.

use crate::form_error::FormError;
use crate::kind::{Base, Kind};
use crate::layout::{area_length, Layout, AREA, FIELDS, NAMES, NODES};
use crate::node::{kind, Node, Record, LONG, MISPLACED, SHORT, TEXT};
use crate::shown::{quoted, shown};

/// How deep a node is shown: nodes at fault may share children, so a whole tree may be endless for people.
const DEPTH: usize = 4;

/// Refusal 1 of nodes and names that do not fit into a form.
pub(crate) fn within_limits(all: &Node, fields: usize) -> Result<(), FormError> {
    let over = [
        (fields, 1, FIELDS, "fields"),
        (all.nodes.len(), 1, NODES, "nodes (flags, arguments, positionals and what is over them)"),
        (all.names.len(), 0, NAMES, "names and fallback texts"),
        (area_length(&all.names), 0, AREA, "bytes of names and fallback texts"),
    ];
    match over.iter().find(|(count, least, most, _)| count < least || count > most) {
        None => Ok(()),
        Some(count) => Err(FormError::new(1, None, None, limit_words(*count))),
    }
}

/// Refusal 18 of two forms that are too large for one: every limit that would be passed.
pub(crate) fn too_large(first: Layout, second: Layout, number: u32) -> FormError {
    let counts = [
        (first.nodes() + second.nodes(), NODES, "nodes"),
        (first.fields() + second.fields(), FIELDS, "fields"),
        (first.names() + second.names(), NAMES, "names and fallback texts"),
        (first.area() + second.area(), AREA, "bytes of names and fallback texts"),
    ];
    let words = |(count, most, what): &(usize, usize, &str)| {
        let over = count.checked_sub(*most).filter(|over| *over > 0)?;
        Some(format!("{count} {what}, {over} more than the {most} that are allowed"))
    };
    let over: Vec<String> = counts.iter().filter_map(words).collect();
    FormError::new(number, None, None, format!("together the forms have {}", over.join("; ")))
}

fn limit_words((count, least, most, what): (usize, usize, usize, &str)) -> String {
    format!("the form has {count} {what}, and {least} to {most} are allowed")
}

/// Why the check refused these bytes.
pub(crate) fn why(bytes: &[u8], number: u32, place: Option<usize>) -> FormError {
    let (subject, reason) = match (number, place) {
        (1, _) => (None, why_length(bytes)),
        (2, Some(record)) => (Some(format!("name record {record}")), why_name(bytes, record)),
        (3, Some(node)) => (Some(node_words(bytes, node)), why_node(bytes, node)),
        (4, Some(node)) => (Some(node_words(bytes, node)), why_use(bytes, node)),
        (4, None) => (None, why_field(bytes)),
        _ => (None, format!("the form is refused with {number}")),
    };
    FormError::new(number, place, subject, reason)
}

fn why_length(bytes: &[u8]) -> String {
    let length = bytes.len();
    if length < 8 {
        return format!("the form has {length} bytes, and its counts alone need 8");
    }
    let layout = Layout::of(bytes);
    let counts = [
        (layout.nodes(), 1, NODES, "nodes"),
        (layout.fields(), 1, FIELDS, "fields"),
        (layout.names(), 0, NAMES, "name records"),
        (layout.area(), 0, AREA, "bytes of names"),
    ];
    match counts.iter().find(|(count, least, most, _)| count < least || count > most) {
        Some(count) => limit_words(*count),
        None => format!("the form has {length} bytes, and its counts ask for {}", layout.length()),
    }
}

fn why_name(bytes: &[u8], record: usize) -> String {
    let layout = Layout::of(bytes);
    let (ty, name) = layout.name(record);
    match (ty, layout.has_part(record)) {
        (_, false) => "its part is outside the area".to_string(),
        (SHORT, _) => format!("it is a short name, and {} is not one UTF-8 character", quoted(name)),
        (LONG, _) => format!("it is a long name, and {} is not UTF-8", quoted(name)),
        (ty, _) => format!("its type is {ty}, and there are only 0, 1 and 2"),
    }
}

fn why_field(bytes: &[u8]) -> String {
    let layout = Layout::of(bytes);
    let (nodes, mut fields) = (layout.nodes(), 0..layout.fields());
    let field = fields.find(|field| layout.field(*field) >= nodes).unwrap_or_default();
    format!("field {field} is node {}, and there are {nodes} nodes", layout.field(field))
}

fn why_use(bytes: &[u8], node: usize) -> String {
    let layout = Layout::of(bytes);
    let fields = (0..layout.fields()).filter(|field| layout.field(*field) == node).count();
    let children = (0..layout.nodes()).flat_map(|k| layout.node(k).children()).filter(|child| *child == node).count();
    format!("it is used {} times, and must be used once", fields + children)
}

fn node_words(bytes: &[u8], node: usize) -> String {
    format!("node {node}, {}", show(Layout::of(bytes), node, DEPTH))
}

/// A node in the notation of the documents.
fn show(layout: Layout, node: usize, depth: usize) -> String {
    let record = layout.node(node);
    if depth == 0 {
        return "..".to_string();
    }
    let child = |child: usize| if child < node { show(layout, child, depth - 1) } else { format!("node {child}") };
    match record.kind {
        kind::FLAG => format!("{}({})", if record.r == 1 { "switch" } else { "flag" }, names(layout, &record, " ")),
        kind::ARGUMENT => format!("{}({})", if record.r & 2 == 2 { "number" } else { "text" }, names(layout, &record, " ")),
        kind::POSITIONAL => ["operand", "strict", "non-strict"].get(record.p).unwrap_or(&"positional").to_string(),
        kind::CHOICE => format!("choice({}, {})", child(record.p), child(record.q)),
        kind::GUARD => format!("guard({}, {}..{})", child(record.p), record.lo, record.hi),
        kind::OPTIONAL..=kind::FALLBACK => format!("{}({})", word(record.kind), child(record.p)),
        _ => format!("of kind {}", record.kind),
    }
}

fn word(kind: u16) -> &'static str {
    let words = ["optional", "many", "some", "count", "last", "choice", "fallback", "guard"];
    let at = kind.wrapping_sub(kind::OPTIONAL) as usize;
    words.get(at).copied().unwrap_or("no node")
}

/// The names of a flag or argument as they are given on a line.
pub(crate) fn names(layout: Layout, record: &Record, between: &str) -> String {
    let records = record.p..layout.names().min(record.p + record.q);
    let shown_name = |(ty, name): (u16, &[u8])| format!("{}{}", if ty == SHORT { "-" } else { "--" }, shown(name));
    records.map(|k| shown_name(layout.name(k))).collect::<Vec<_>>().join(between)
}

/// What is known of a node that is not at fault: its kind, and whether a repeat is this node or stands beneath it.
#[derive(Clone, Copy)]
struct Known {
    kind: Kind,
    repeats: bool,
}

/// Why a node is at fault, where all lower ones are not.
fn why_node(bytes: &[u8], node: usize) -> String {
    let layout = Layout::of(bytes);
    let below = (0..node).try_fold(Vec::new(), |mut known, k| {
        known.push(judge(layout, k, &known)?);
        Ok::<Vec<Known>, String>(known)
    });
    match below.map(|known| judge(layout, node, &known)) {
        Ok(Err(why)) => why,
        _ => "it is refused".to_string(),
    }
}

fn judge(layout: Layout, node: usize, known: &[Known]) -> Result<Known, String> {
    let record = layout.node(node);
    if record.r == MISPLACED {
        return Err("it cannot have the catch, adjacent, strict or non-strict that was put to it".to_string());
    }
    if let Some(child) = record.children().find(|child| *child >= node) {
        return Err(format!("its child is node {child}, and children have lower numbers"));
    }
    let below: Vec<Known> = record.children().map(|child| known[child]).collect();
    let repeats = below.iter().any(|child| child.repeats);
    match record.kind {
        kind::FLAG | kind::ARGUMENT => judge_named(layout, &record)?,
        kind::MANY..=kind::LAST if repeats => return Err(format!("{} over a many, some, count or last", word(record.kind))),
        kind::GUARD if record.lo > record.hi => {
            return Err(format!("nothing is within {}..{}", record.lo, record.hi));
        }
        _ => {}
    }
    let kind = kind_over(&record, &below)?;
    numbers_fit(layout, &record, kind)?;
    Ok(Known { kind, repeats: repeats || (kind::MANY..=kind::LAST).contains(&record.kind) })
}

fn judge_named(layout: Layout, record: &Record) -> Result<(), String> {
    let (from, to) = (record.p, record.p + record.q);
    if record.q == 0 {
        return Err("it has no name".to_string());
    }
    if to > layout.names() {
        return Err(format!("its names are the records {from} to {}, and there are {}", to - 1, layout.names()));
    }
    match (from..to).find(|k| layout.name(*k).0 == TEXT) {
        Some(k) => Err(format!("its name record {k} is a text")),
        None => Ok(()),
    }
}

/// The kind of a node over children of these kinds.
fn kind_over(record: &Record, below: &[Known]) -> Result<Kind, String> {
    let taken = Kind::Base(if record.r & 2 == 2 { Base::Number } else { Base::Text });
    let child = below.first().map(|child| child.kind);
    match (record.kind, child) {
        (kind::FLAG, _) => Ok(Kind::Base(Base::YesNo)),
        (kind::ARGUMENT | kind::POSITIONAL, _) => Ok(taken),
        (kind::OPTIONAL, Some(Kind::Base(base))) => Ok(Kind::Optional(base)),
        (kind::OPTIONAL, Some(Kind::List(base))) => Ok(Kind::OptionalList(base)),
        (kind::MANY | kind::SOME, Some(Kind::Base(base))) => Ok(Kind::List(base)),
        (kind::MANY | kind::SOME, Some(Kind::Optional(base))) => Ok(Kind::ListOfOptional(base)),
        (kind::COUNT, Some(Kind::Base(_) | Kind::Optional(_))) => Ok(Kind::Base(Base::Number)),
        (kind::LAST, Some(kind @ (Kind::Base(_) | Kind::Optional(_)))) => Ok(kind),
        (kind::CHOICE, Some(kind)) if kind == below[1].kind => Ok(kind),
        (kind::CHOICE, Some(kind)) => {
            Err(format!("its sides are {} and {}, and must be the same", kind_words(kind), kind_words(below[1].kind)))
        }
        (kind::FALLBACK, Some(kind @ Kind::Base(_))) => Ok(kind),
        (kind::GUARD, Some(kind @ Kind::Base(Base::Number))) => Ok(kind),
        (_, Some(kind)) => Err(format!("{} over {}", word(record.kind), kind_words(kind))),
        (_, None) => Err(format!("there is no kind {} of nodes", record.kind)),
    }
}

/// The numbers of a node that its children do not decide.
fn numbers_fit(layout: Layout, record: &Record, kind: Kind) -> Result<(), String> {
    let Record { p, q, r, lo, hi, .. } = *record;
    let text = |k: usize| k < layout.names() && layout.name(k).0 == TEXT;
    let fit = match (record.kind, kind) {
        (kind::FLAG, _) => r <= 1 && (lo, hi) == (0, 0),
        (kind::ARGUMENT, _) => r <= 3 && (lo, hi) == (0, 0),
        (kind::POSITIONAL, _) => p <= 2 && (r == 0 || r == 2) && (q, lo, hi) == (0, 0, 0),
        (kind::OPTIONAL..=kind::SOME, _) => r <= 1 && (q, lo, hi) == (0, 0, 0),
        (kind::COUNT | kind::LAST, _) => (q, r, lo, hi) == (0, 0, 0, 0),
        (kind::CHOICE, _) => (r, lo, hi) == (0, 0, 0),
        (kind::GUARD, _) => (q, r) == (0, 0),
        (_, Kind::Base(Base::Text)) => text(r) && (q, lo, hi) == (0, 0, 0),
        (_, Kind::Base(Base::YesNo)) => lo <= 1 && (q, r, hi) == (0, 0, 0),
        _ => (q, r, hi) == (0, 0, 0),
    };
    match fit {
        true => Ok(()),
        false => Err(format!("one of its numbers is not allowed: p {p}, q {q}, r {r}, lo {lo}, hi {hi}")),
    }
}

fn kind_words(kind: Kind) -> String {
    let one = |base| match base {
        Base::YesNo => "yes/no",
        Base::Text => "text",
        Base::Number => "number",
    };
    let several = |base| match base {
        Base::YesNo => "yes/nos",
        Base::Text => "texts",
        Base::Number => "numbers",
    };
    match kind {
        Kind::Base(base) => format!("a {}", one(base)),
        Kind::Optional(base) => format!("an optional {}", one(base)),
        Kind::List(base) => format!("a list of {}", several(base)),
        Kind::ListOfOptional(base) => format!("a list of optional {}", several(base)),
        Kind::OptionalList(base) => format!("an optional list of {}", several(base)),
    }
}

/// Refusal 3 of a fallback whose value is of another base than its child.
pub(crate) fn other_fallback(bytes: &[u8], node: usize, given: Base, child: Kind) -> FormError {
    let child_words = show(Layout::of(bytes), Layout::of(bytes).node(node).p, DEPTH);
    let reason = format!("its value is {}, and {child_words} is {}", kind_words(Kind::Base(given)), kind_words(child));
    FormError::new(3, Some(node), Some(node_words(bytes, node)), reason)
}

/// Refusal 2 of a form that has a name which is wanted for help or version.
pub(crate) fn name_taken(layout: Layout, ty: u16, name: &str) -> FormError {
    let record = (0..layout.names()).find(|k| layout.name(*k) == (ty, name.as_bytes()));
    let dashes = if ty == SHORT { "-" } else { "--" };
    FormError::new(2, record, None, format!("the form has an option `{dashes}{name}`, which is wanted for help or version"))
}
