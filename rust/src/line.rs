//! A line that was read.

use crate::item::Item;
use crate::note::{notes, Note};
use crate::run::Run;

/// A line that was accepted: its values, and what they were read from.
#[derive(Clone, Debug, PartialEq, Eq)]
pub struct Line<'a, V> {
    values: V,
    items: Vec<Item<'a>>,
    tries: u32,
    command: Option<usize>,
    comparisons: u32,
    notes: Vec<Note>,
}

impl<'a, V> Line<'a, V> {
    pub(crate) fn new(values: V, run: &Run<'_, 'a>) -> Line<'a, V> {
        let (items, command, comparisons) = (run.items(), run.command(), run.comparisons());
        let notes = notes(run, &items);
        Line { values, items, tries: run.answer.tries, command, comparisons, notes }
    }

    /// The values of the fields, in order.
    pub fn values(&self) -> &V {
        &self.values
    }

    /// The values of the fields, in order.
    pub fn into_values(self) -> V {
        self.values
    }

    /// The items of the line, each with whether it was used, and by which field.
    pub fn items(&self) -> &[Item<'a>] {
        &self.items
    }

    /// What of the line is easily overlooked.
    pub fn notes(&self) -> &[Note] {
        &self.notes
    }

    /// How often a flag, an argument or a positional was evaluated.
    pub fn tries(&self) -> u32 {
        self.tries
    }

    /// The number of the command that was given, counted from 0; none for a line that was read by a form alone.
    pub fn command(&self) -> Option<usize> {
        self.command
    }

    /// How many names of commands were compared with the line's first word: the number of the name that is that word, counted
    /// from 1 in the order of the table, in each command the long names before the short ones. 0 for a form alone.
    pub fn comparisons(&self) -> u32 {
        self.comparisons
    }
}
