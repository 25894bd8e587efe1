//! A form that was run on a line: what the proved code left, with what it was run on.

use std::ffi::OsStr;

use crate::ffi::CarefulAnswer;
use crate::form::Form;
use crate::item::{Area, Item};
use crate::missing::{self, Missing};
use crate::reason::Reason;
use crate::table::CommandTable;

/// What a run left, with what it was run on.
pub struct Run<'r, 'a> {
    /// the form that was run; none where a line of commands was refused before one was chosen
    pub(crate) form: Option<&'a Form>,
    /// of a line of commands
    pub(crate) commands: Option<Tried<'a>>,
    pub(crate) args: Vec<&'a OsStr>,
    pub(crate) answer: CarefulAnswer,
    /// why the place of a 27 was left over, none for a line of commands; why that of a 50 is a word
    pub(crate) reason: Option<Reason>,
    /// the place of a word that was refused and stays used
    pub(crate) kept: Option<usize>,
    /// where each argument begins in the sheet's area
    pub(crate) starts: &'r [usize],
    /// the records of the items
    pub(crate) records: &'r [u32],
    pub(crate) words: &'r [u32],
    /// what looked in vain, as entries with zeros behind them
    pub(crate) list: &'r [u32],
}

/// Which command a line began with.
#[derive(Clone, Copy)]
pub(crate) struct Tried<'a> {
    pub table: &'a CommandTable,
    /// the number of the command; none where none was found
    pub command: Option<usize>,
    pub comparisons: u32,
}

impl<'a> Run<'_, 'a> {
    /// The number of the command whose form was run.
    pub(crate) fn command(&self) -> Option<usize> {
        self.commands.and_then(|tried| tried.command)
    }

    pub(crate) fn comparisons(&self) -> u32 {
        self.commands.map_or(0, |tried| tried.comparisons)
    }

    pub(crate) fn area(&self) -> Area<'_, 'a> {
        Area { args: &self.args, starts: self.starts }
    }

    pub(crate) fn items(&self) -> Vec<Item<'a>> {
        self.area().items(self.records, &self.answer.state.marks)
    }

    pub(crate) fn missing(&self) -> Vec<Missing> {
        self.form.map_or_else(Vec::new, |form| missing::read(form.layout(), self.list))
    }
}
