//! What is easily overlooked in a form, before any line is read.

use std::fmt;
use std::ops::RangeInclusive;

use crate::form::Form;
use crate::layout::Layout;
use crate::needs::{either, given, leaf_letters, leaf_names, parts};
use crate::node::{kind, Record, LONG, NON_STRICT};
use crate::shown::quoted;
use crate::table::CommandTable;

/// Something of a form that its writer has probably not meant. Its `Display` says it in words.
#[derive(Clone, Debug, PartialEq, Eq)]
#[non_exhaustive]
pub enum Warning {
    /// a repeat has a value where nothing is given; which they are is told by the proved code
    FromNothing(FromNothing),
    /// an option with a value comes after an operand, which may take that value
    ValueTaken {
        /// the field of the option
        field: usize,
        /// the field of the operand
        operand: usize,
        /// the names of the option, as they are given on a line
        names: Vec<String>,
    },
    /// an operand comes after a repeat that takes all of them
    NoneLeft {
        /// the field of the operand
        field: usize,
        /// the field of the repeat
        repeat: usize,
    },
    /// a fallback is not within the bounds of its guard
    FallbackOutside {
        /// the field of both
        field: usize,
        /// the fallback
        value: u32,
        /// the bounds
        bounds: RangeInclusive<u32>,
        /// it is tested by them, and refused; else it is the value, whatever the bounds are
        tested: bool,
    },
    /// a letter is an option of two fields
    LetterTwice {
        /// the later field
        field: usize,
        /// the earlier field, which takes it first
        earlier: usize,
        /// the letter
        letter: char,
        /// it is a flag and takes a value: then it is refused where it comes with other letters
        ambiguous: bool,
    },
    /// a long name has a `=`, with which it can never be given, or begins with a dash
    LongName {
        /// the field of the option
        field: usize,
        /// the name, without the two dashes that it is given with
        name: String,
    },
}

/// A many, some, count or last that has a value although it took nothing.
#[derive(Clone, Debug, PartialEq, Eq)]
#[non_exhaustive]
pub struct FromNothing {
    /// the number of its field
    pub field: usize,
    /// the number of its node, counted as by [`FormError::place`](crate::FormError::place)
    pub node: usize,
    /// what it has, and why
    pub(crate) value: String,
    pub(crate) cause: &'static str,
}

impl Warning {
    /// The number of the field that it is about, counted from 0.
    pub fn field(&self) -> usize {
        match self {
            Warning::FromNothing(FromNothing { field, .. })
            | Warning::ValueTaken { field, .. }
            | Warning::NoneLeft { field, .. }
            | Warning::FallbackOutside { field, .. }
            | Warning::LetterTwice { field, .. }
            | Warning::LongName { field, .. } => *field,
        }
    }
}

impl fmt::Display for Warning {
    fn fmt(&self, f: &mut fmt::Formatter<'_>) -> fmt::Result {
        match self {
            Warning::FromNothing(FromNothing { value, cause, .. }) => write!(f, "{value} where nothing is given: {cause}"),
            Warning::ValueTaken { names, .. } => {
                let names: Vec<String> = names.iter().map(|name| quoted(name.as_bytes())).collect();
                write!(f, "an operand comes before {} and may take its value: put operands last", either(&names))
            }
            Warning::NoneLeft { .. } => f.write_str("no operand is left: an earlier field takes all"),
            Warning::FallbackOutside { value, bounds, tested, .. } => {
                let then = if *tested { "where nothing is given, it is refused" } else { "it is not tested by them" };
                write!(f, "the fallback {value} is not in the bounds {}..{}: {then}", bounds.start(), bounds.end())
            }
            Warning::LetterTwice { letter, ambiguous, .. } => {
                let letter = quoted(format!("-{letter}").as_bytes());
                let cluster = if *ambiguous { ", and with other letters it is refused" } else { "" };
                write!(f, "{letter} is an option of an earlier field too, which takes it first{cluster}")
            }
            Warning::LongName { name, .. } => {
                let given = quoted(format!("--{name}").as_bytes());
                match name.contains('=') {
                    true => write!(f, "{given} can never be given: what comes after a `=` is a value"),
                    false => write!(f, "the long name {} begins with a dash: it is given as {given}", quoted(name.as_bytes())),
                }
            }
        }
    }
}

impl Form {
    /// What of the form is easily overlooked, field by field.
    ///
    /// ```
    /// use silverpoise::{positional, short, Text, TypedForm};
    ///
    /// let form = TypedForm::of((short('v').switch().count(), positional::<Text>(), short('w').argument::<u32>().optional()))?;
    /// let warnings: Vec<String> = form.warnings().iter().map(|warning| warning.to_string()).collect();
    /// assert_eq!(warnings, [
    ///     "the count of `-v` is 1 where nothing is given: a switch always has a value, a flag only if it is given",
    ///     "an operand comes before `-w` and may take its value: put operands last",
    /// ]);
    /// # Ok::<(), silverpoise::FormError>(())
    /// ```
    pub fn warnings(&self) -> Vec<Warning> {
        let layout = self.layout();
        let of_field = |field: usize| {
            let mut warnings: Vec<Warning> = from_nothing(self, field).map(Warning::FromNothing).collect();
            warnings.extend(values_taken(layout, field));
            warnings.extend(none_left(layout, field));
            warnings.extend(fallbacks_outside(layout, field));
            warnings.extend(letters_twice(layout, field));
            warnings.extend(long_names(layout, field));
            warnings
        };
        (0..layout.fields()).flat_map(of_field).collect()
    }
}

impl CommandTable {
    /// What of each command's form is easily overlooked, with the number of the command.
    pub fn warnings(&self) -> Vec<(usize, Warning)> {
        let forms = self.forms().iter().enumerate();
        forms.flat_map(|(command, form)| form.warnings().into_iter().map(move |warning| (command, warning))).collect()
    }
}

/// The repeats of a field that have a value where nothing is given, by the proved call.
pub(crate) fn from_nothing(form: &Form, field: usize) -> impl Iterator<Item = FromNothing> + '_ {
    let layout = form.layout();
    let nodes = layout.tree(layout.field(field)).into_iter().filter(|node| form.idle() >> node & 1 == 1);
    nodes.map(move |node| {
        let record = layout.node(node);
        let what = either(&parts(layout, record.p));
        let value = match record.kind {
            kind::COUNT => format!("the count of {what} is 1"),
            kind::LAST => format!("the last of {what} has a value"),
            _ => format!("the list of {what} has one value"),
        };
        FromNothing { field, node, value, cause: cause(layout, record.p) }
    })
}

/// Why a node has a value where nothing is given.
fn cause(layout: Layout, node: usize) -> &'static str {
    let record = layout.node(node);
    match record.kind {
        kind::GUARD => cause(layout, record.p),
        kind::FLAG => "a switch always has a value, a flag only if it is given",
        kind::OPTIONAL => "an optional always has a value",
        kind::FALLBACK => "with a fallback there is always a value",
        _ => "one of its sides always has a value",
    }
}

/// The options of a field whose value an operand of an earlier field may take. A value after a `=` is safe, so it does not matter
/// to an option that takes no other.
fn values_taken(layout: Layout<'_>, field: usize) -> impl Iterator<Item = Warning> + '_ {
    let operand = (0..field).find(|earlier| layout.field_tree(*earlier).iter().any(|node| node.kind == kind::POSITIONAL));
    let safe = move |node: &Record| node.r & 1 == 1 && leaf_letters(layout, node).next().is_none();
    let options = move |node: &Record| node.kind == kind::ARGUMENT && !safe(node);
    let warn = move |operand: usize| {
        let nodes = layout.field_tree(field).into_iter().filter(options);
        nodes.map(move |node| Warning::ValueTaken { field, operand, names: given(layout, &node) })
    };
    operand.into_iter().flat_map(warn)
}

/// Where an earlier field takes all that the operands of a field could.
fn none_left(layout: Layout, field: usize) -> Option<Warning> {
    let operands = |field: usize| layout.field_tree(field).into_iter().filter(|node| node.kind == kind::POSITIONAL);
    let taken = |earlier: usize, node: &Record| operands(earlier).any(|all| all.p != NON_STRICT || node.p == NON_STRICT);
    let takes = |earlier: &usize| takes_all(layout, *earlier) && operands(field).all(|node| taken(*earlier, &node));
    operands(field).next()?;
    (0..field).find(takes).map(|repeat| Warning::NoneLeft { field, repeat })
}

/// Whether a field repeats its operands until none is left. With a catch, and where a choice has another side to take, a number
/// that is refused is left.
fn takes_all(layout: Layout, field: usize) -> bool {
    let tree = layout.field_tree(field);
    let catches = |node: &Record| matches!(node.kind, kind::OPTIONAL..=kind::SOME) && node.r == 1;
    let leaves = tree.iter().any(|node| catches(node) || node.kind == kind::CHOICE);
    let numbers = tree.iter().any(|node| node.kind == kind::POSITIONAL && node.r & 2 == 2);
    // beneath a choice a repeat may lose to the other side
    let repeat = tree.iter().find(|node| !matches!(node.kind, kind::OPTIONAL | kind::FALLBACK | kind::GUARD));
    !(leaves && numbers) && repeat.is_some_and(|node| matches!(node.kind, kind::MANY..=kind::LAST))
}

/// The fallback that is the value where nothing is given, of all the lowest, with each guard over or beneath it.
fn fallbacks_outside(layout: Layout, field: usize) -> Vec<Warning> {
    let mut warnings = Vec::new();
    let mut test = |fallback: &Record, guard: &Record, tested: bool| {
        let (value, bounds) = (fallback.lo, guard.lo..=guard.hi);
        if !bounds.contains(&value) {
            warnings.push(Warning::FallbackOutside { field, value, bounds, tested });
        }
    };
    for over in layout.field_tree(field) {
        let beneath = same_number(layout, &over);
        let fallback = beneath.iter().rfind(|node| node.kind == kind::FALLBACK);
        match (over.kind, fallback) {
            (kind::GUARD, Some(fallback)) => test(fallback, &over, true),
            (kind::FALLBACK, None) => {
                beneath.iter().filter(|node| node.kind == kind::GUARD).for_each(|guard| test(&over, guard, false))
            }
            _ => {}
        }
    }
    warnings
}

/// The nodes beneath a guard or a fallback whose number is its number, from above. Of a choice it may be either's.
fn same_number(layout: Layout, over: &Record) -> Vec<Record> {
    let is_same = |node: &Record| matches!(node.kind, kind::LAST | kind::GUARD | kind::FALLBACK);
    std::iter::successors(is_same(over).then(|| layout.node(over.p)), |node| is_same(node).then(|| layout.node(node.p)))
        .collect()
}

fn letters_twice(layout: Layout, field: usize) -> Vec<Warning> {
    let letters = |field: usize| -> Vec<(char, u16)> {
        let leaves = layout.field_tree(field).into_iter();
        leaves.flat_map(|leaf| leaf_letters(layout, &leaf).map(|letter| (letter, leaf.kind)).collect::<Vec<_>>()).collect()
    };
    let mut warnings: Vec<Warning> = Vec::new();
    for (letter, kind) in letters(field) {
        let said = |warning: &Warning| matches!(warning, Warning::LetterTwice { letter: other, .. } if *other == letter);
        let earlier = (0..field).find(|earlier| letters(*earlier).iter().any(|(other, _)| *other == letter));
        if let Some(earlier) = earlier.filter(|_| !warnings.iter().any(said)) {
            let ambiguous = (0..=field).flat_map(letters).any(|(other, of)| other == letter && of != kind);
            warnings.push(Warning::LetterTwice { field, earlier, letter, ambiguous });
        }
    }
    warnings
}

fn long_names(layout: Layout<'_>, field: usize) -> impl Iterator<Item = Warning> + '_ {
    let odd = |name: &String| name.contains('=') || name.starts_with('-');
    let names = move |leaf: Record| {
        let long = leaf_names(layout, &leaf).filter(|(ty, _)| *ty == LONG);
        long.map(|(_, name)| String::from_utf8_lossy(name).into_owned()).filter(odd).collect::<Vec<_>>()
    };
    layout.field_tree(field).into_iter().flat_map(names).map(move |name| Warning::LongName { field, name })
}
