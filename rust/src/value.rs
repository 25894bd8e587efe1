//! Values, and the answer words that they are read from.

use std::ffi::OsStr;
use std::os::unix::ffi::OsStrExt;

use crate::form::Form;
use crate::item::Area;
use crate::kind::{Base, Kind};
use crate::run::Run;

/// A value of a field. Texts are parts of the arguments that were read, or of the form where a fallback gave them.
#[derive(Clone, Debug, PartialEq, Eq)]
pub enum Value<'a> {
    /// of a flag or switch
    YesNo(bool),
    /// of an argument or positional that takes a number, or of a count
    Number(u32),
    /// of an argument or positional that takes a text
    Text(&'a OsStr),
    /// of an optional
    Optional(Option<Box<Value<'a>>>),
    /// of a many or some
    List(Vec<Value<'a>>),
}

/// The answer words of an accepted line, read from the left.
///
/// That there are as many words as the fields' kinds ask for, and that each text word is an item or a text name, is proved
/// of the run; if it were not so, reading them would panic.
pub struct Words<'r, 'a> {
    form: &'a Form,
    area: Area<'r, 'a>,
    /// the records of the items
    records: &'r [u32],
    rest: std::slice::Iter<'r, u32>,
}

impl<'r, 'a> Words<'r, 'a> {
    pub(crate) fn new(run: &'r Run<'r, 'a>) -> Words<'r, 'a> {
        let form = run.form.expect("a line that was accepted has its form");
        Words::of(form, run.area(), run.records, run.words)
    }

    pub(crate) fn of(form: &'a Form, area: Area<'r, 'a>, records: &'r [u32], words: &'r [u32]) -> Words<'r, 'a> {
        Words { form, area, records, rest: words.iter() }
    }

    /// A value for each field of the form, in order.
    pub(crate) fn values(&mut self) -> Vec<Value<'a>> {
        self.form.kinds().iter().map(|kind| self.value(*kind)).collect()
    }

    pub(crate) fn number(&mut self) -> u32 {
        *self.rest.next().expect("a word for each value")
    }

    pub(crate) fn yes_no(&mut self) -> bool {
        self.number() == 1
    }

    /// A text: an item's, or from 256 on a name record's.
    pub(crate) fn text(&mut self) -> &'a OsStr {
        let word = self.number();
        match word.checked_sub(256) {
            Some(record) => OsStr::from_bytes(self.form.layout().name(record as usize).1),
            None => {
                let at = 7 * word as usize;
                self.area.part(self.records[at + 5], self.records[at + 6])
            }
        }
    }

    pub(crate) fn optional<T>(&mut self, value: impl FnOnce(&mut Self) -> T) -> Option<T> {
        self.yes_no().then(|| value(self))
    }

    pub(crate) fn list<T>(&mut self, mut element: impl FnMut(&mut Self) -> T) -> Vec<T> {
        (0..self.number()).map(|_| element(self)).collect()
    }

    fn base(&mut self, base: Base) -> Value<'a> {
        match base {
            Base::YesNo => Value::YesNo(self.yes_no()),
            Base::Text => Value::Text(self.text()),
            Base::Number => Value::Number(self.number()),
        }
    }

    fn optional_base(&mut self, base: Base) -> Value<'a> {
        Value::Optional(self.optional(|words| Box::new(words.base(base))))
    }

    fn list_of_base(&mut self, base: Base) -> Value<'a> {
        Value::List(self.list(|words| words.base(base)))
    }

    fn value(&mut self, kind: Kind) -> Value<'a> {
        match kind {
            Kind::Base(base) => self.base(base),
            Kind::Optional(base) => self.optional_base(base),
            Kind::List(base) => self.list_of_base(base),
            Kind::ListOfOptional(base) => Value::List(self.list(|words| words.optional_base(base))),
            Kind::OptionalList(base) => Value::Optional(self.optional(|words| Box::new(words.list_of_base(base)))),
        }
    }
}
