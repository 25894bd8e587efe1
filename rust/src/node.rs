//! An untyped parser as data: node records and name records, the root last.

use std::ffi::{OsStr, OsString};
use std::ops::RangeInclusive;
use std::os::unix::ffi::OsStrExt;

use crate::names::{Name, Names};

/// The kinds of nodes, as numbered in a form's bytes.
pub(crate) mod kind {
    pub const FLAG: u16 = 1;
    pub const ARGUMENT: u16 = 2;
    pub const POSITIONAL: u16 = 3;
    pub const OPTIONAL: u16 = 4;
    pub const MANY: u16 = 5;
    pub const SOME: u16 = 6;
    pub const COUNT: u16 = 7;
    pub const LAST: u16 = 8;
    pub const CHOICE: u16 = 9;
    pub const FALLBACK: u16 = 10;
    pub const GUARD: u16 = 11;
}

/// The types of name records.
pub(crate) const SHORT: u16 = 0;
pub(crate) const LONG: u16 = 1;
pub(crate) const TEXT: u16 = 2;

/// In `p` of a positional: only words before `--`.
pub(crate) const NON_STRICT: usize = 2;

/// In `r`, a modifier that does not belong to its node. No kind of node accepts this number, so the form check refuses it.
pub(crate) const MISPLACED: usize = 0xffff;

/// What an argument or a positional takes.
#[derive(Clone, Copy, Debug, PartialEq, Eq)]
pub enum Takes {
    /// any bytes
    Text,
    /// 0 to 4,294,967,295 in digits, perhaps behind a `+`
    Number,
}

/// The value of a fallback.
#[derive(Clone, Debug, PartialEq, Eq)]
pub enum Fallback {
    /// over a flag or switch
    YesNo(bool),
    /// over a number
    Number(u32),
    /// over a text
    Text(OsString),
}

impl From<bool> for Fallback {
    fn from(value: bool) -> Fallback {
        Fallback::YesNo(value)
    }
}

impl From<u32> for Fallback {
    fn from(value: u32) -> Fallback {
        Fallback::Number(value)
    }
}

impl<T: AsRef<OsStr> + ?Sized> From<&T> for Fallback {
    fn from(value: &T) -> Fallback {
        Fallback::Text(value.as_ref().to_os_string())
    }
}

/// A node record with numbers of any size: a form has them as two bytes each, and its limits are tested when it is made.
#[derive(Clone, Debug, Default, PartialEq, Eq)]
pub(crate) struct Record {
    pub kind: u16,
    pub p: usize,
    pub q: usize,
    pub r: usize,
    pub lo: u32,
    pub hi: u32,
    /// of a fallback: the value that was given, which the numbers alone do not always tell
    pub fallback: Option<Fallback>,
}

impl Record {
    /// The nodes that it stands right over.
    pub fn children(&self) -> impl Iterator<Item = usize> {
        let first = (kind::OPTIONAL..=kind::GUARD).contains(&self.kind).then_some(self.p);
        let second = (self.kind == kind::CHOICE).then_some(self.q);
        first.into_iter().chain(second)
    }

    /// The record behind `nodes` further nodes and `names` further names.
    fn moved(mut self, nodes: usize, names: usize) -> Record {
        match self.kind {
            kind::FLAG | kind::ARGUMENT => self.p += names,
            kind::POSITIONAL => {}
            kind::CHOICE => {
                self.p += nodes;
                self.q += nodes;
            }
            _ => self.p += nodes,
        }
        if let (Some(Fallback::Text(_)), true) = (&self.fallback, self.r != MISPLACED) {
            self.r += names;
        }
        self
    }
}

/// An untyped parser: a flag, an argument or a positional, or a parser over others.
///
/// This is the form as data, for programs that learn their options at run time; [`Parser`](crate::Parser) is the same with
/// types. Nothing is tested here: [`Form::of`](crate::Form::of) refuses what does not fit together, a modifier
/// ([`catch`](Node::catch), [`adjacent`](Node::adjacent), [`strict`](Node::strict), [`non_strict`](Node::non_strict)) behind a
/// node that has no such thing included.
///
/// ```
/// use silverpoise::{short, Form, Node, Takes, Value};
///
/// let weight = Node::argument(short('w').long("weight"), Takes::Number).guard(1..=9999).optional();
/// let form = Form::of([Node::switch(short('v')), weight, Node::positional(Takes::Text).many()])?;
/// let line = form.read_values(&["-vw7", "lock"])?;
/// let weight = Value::Optional(Some(Box::new(Value::Number(7))));
/// let words = Value::List(vec![Value::Text("lock".as_ref())]);
/// assert_eq!(line.into_values(), [Value::YesNo(true), weight, words]);
/// # Ok::<(), Box<dyn std::error::Error>>(())
/// ```
#[derive(Clone, Debug, PartialEq, Eq)]
pub struct Node {
    pub(crate) nodes: Vec<Record>,
    pub(crate) names: Vec<NameRecord>,
}

/// The type of a name record, and its bytes.
pub(crate) type NameRecord = (u16, Vec<u8>);

/// The records of names, in order.
pub(crate) fn name_records(names: Names) -> Vec<NameRecord> {
    let record = |name| match name {
        Name::Short(name) => (SHORT, char::to_string(&name).into_bytes()),
        Name::Long(name) => (LONG, name.into_bytes()),
    };
    names.names.into_iter().map(record).collect()
}

impl Node {
    fn leaf(record: Record) -> Node {
        Node { nodes: vec![record], names: Vec::new() }
    }

    fn named(kind: u16, names: Names, r: usize) -> Node {
        let names = name_records(names);
        Node { nodes: vec![Record { kind, q: names.len(), r, ..Record::default() }], names }
    }

    /// A flag that must be given; its value is yes.
    pub fn flag(names: Names) -> Node {
        Node::named(kind::FLAG, names, 0)
    }

    /// A flag that may be given: yes or no.
    pub fn switch(names: Names) -> Node {
        Node::named(kind::FLAG, names, 1)
    }

    /// An option with a value.
    pub fn argument(names: Names, takes: Takes) -> Node {
        Node::named(kind::ARGUMENT, names, taken(takes))
    }

    /// A word that is no option's value.
    pub fn positional(takes: Takes) -> Node {
        Node::leaf(Record { kind: kind::POSITIONAL, r: taken(takes), ..Record::default() })
    }

    /// Of an argument: its value must stand in the same argument of the line (`-w7`, `--weight=7`).
    pub fn adjacent(self) -> Node {
        self.modified(|root| match root.kind {
            kind::ARGUMENT => root.r |= 1,
            _ => root.r = MISPLACED,
        })
    }

    /// Of a positional: only words behind `--`.
    pub fn strict(self) -> Node {
        self.modified(|root| match root.kind {
            kind::POSITIONAL => root.p = 1,
            _ => root.r = MISPLACED,
        })
    }

    /// Of a positional: only words before `--`.
    pub fn non_strict(self) -> Node {
        self.modified(|root| match root.kind {
            kind::POSITIONAL => root.p = NON_STRICT,
            _ => root.r = MISPLACED,
        })
    }

    /// Of an optional, a many or a some: a value that is no number or out of bounds counts as absent too.
    pub fn catch(self) -> Node {
        self.modified(|root| match root.kind {
            kind::OPTIONAL | kind::MANY | kind::SOME => root.r |= 1,
            _ => root.r = MISPLACED,
        })
    }

    /// Absent where this parser finds nothing.
    pub fn optional(self) -> Node {
        self.over(kind::OPTIONAL)
    }

    /// All that this parser finds, perhaps nothing.
    pub fn many(self) -> Node {
        self.over(kind::MANY)
    }

    /// All that this parser finds, one at least.
    pub fn some(self) -> Node {
        self.over(kind::SOME)
    }

    /// How often this parser finds something.
    pub fn count(self) -> Node {
        self.over(kind::COUNT)
    }

    /// The last that this parser finds.
    pub fn last(self) -> Node {
        self.over(kind::LAST)
    }

    /// Whichever of the two took what stands further left; both must have the same kind of value.
    pub fn or(mut self, other: Node) -> Node {
        let first = self.nodes.len() - 1;
        let second = self.append(other);
        self.nodes.push(Record { kind: kind::CHOICE, p: first, q: second, ..Record::default() });
        self
    }

    /// The value instead, where this parser finds nothing.
    pub fn fallback(mut self, value: impl Into<Fallback>) -> Node {
        let value = value.into();
        let mut record = Record { kind: kind::FALLBACK, p: self.nodes.len() - 1, ..Record::default() };
        match &value {
            Fallback::YesNo(yes) => record.lo = u32::from(*yes),
            Fallback::Number(number) => record.lo = *number,
            Fallback::Text(text) => {
                record.r = self.names.len();
                self.names.push((TEXT, text.as_bytes().to_vec()));
            }
        }
        record.fallback = Some(value);
        self.nodes.push(record);
        self
    }

    /// A number within the bounds, both included.
    pub fn guard(self, bounds: RangeInclusive<u32>) -> Node {
        let mut node = self.over(kind::GUARD);
        let root = node.root();
        (root.lo, root.hi) = (*bounds.start(), *bounds.end());
        node
    }

    /// Puts the other's nodes and names behind these; the other's root.
    pub(crate) fn append(&mut self, other: Node) -> usize {
        let (nodes, names) = (self.nodes.len(), self.names.len());
        self.nodes.extend(other.nodes.into_iter().map(|record| record.moved(nodes, names)));
        self.names.extend(other.names);
        self.nodes.len() - 1
    }

    fn over(mut self, kind: u16) -> Node {
        self.nodes.push(Record { kind, p: self.nodes.len() - 1, ..Record::default() });
        self
    }

    fn root(&mut self) -> &mut Record {
        self.nodes.last_mut().expect("a node has its root")
    }

    fn modified(mut self, change: impl FnOnce(&mut Record)) -> Node {
        change(self.root());
        self
    }
}

fn taken(takes: Takes) -> usize {
    match takes {
        Takes::Text => 0,
        Takes::Number => 2,
    }
}
