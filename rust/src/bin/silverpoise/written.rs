//! What a file has: a form, or commands with a form each.

use std::ffi::OsString;

use silverpoise::{CommandTable, Form, Line, ReadError, Value, Warning};

use crate::source::Spot;

/// A form or commands, with what their text says beyond them.
pub struct Written {
    pub what: What,
    /// the fields of each form
    pub fields: Vec<Vec<Field>>,
}

/// What a file has.
pub enum What {
    Form(Form),
    Commands(CommandTable),
}

/// What a line was read by: the command that was given, if there are commands, and its fields.
#[derive(Clone, Copy)]
pub struct Under<'w> {
    pub command: Option<&'w str>,
    pub fields: &'w [Field],
}

impl Written {
    pub fn bytes(&self) -> &[u8] {
        match &self.what {
            What::Form(form) => form.bytes(),
            What::Commands(table) => table.bytes(),
        }
    }

    /// The form, or those of the commands.
    pub fn forms(&self) -> &[Form] {
        match &self.what {
            What::Form(form) => std::slice::from_ref(form),
            What::Commands(table) => table.forms(),
        }
    }

    /// This form's fields and then the other's; or why not, in words. Neither has commands.
    pub fn join(self, other: Written) -> Result<Written, String> {
        let form = self.forms()[0].join(&other.forms()[0]).map_err(|error| error.to_string())?;
        Ok(Written { what: What::Form(form), fields: vec![self.fields.into_iter().chain(other.fields).flatten().collect()] })
    }

    /// The same, read by bpaf's rules alone.
    pub fn by_plain_rules(self) -> Written {
        let what = match self.what {
            What::Form(form) => What::Form(form.as_bpaf()),
            What::Commands(table) => What::Commands(table.as_bpaf()),
        };
        Written { what, ..self }
    }

    /// What is easily overlooked in the form, or in those of the commands with the number of the command.
    pub fn warnings(&self) -> Vec<(Option<usize>, Warning)> {
        match &self.what {
            What::Form(form) => form.warnings().into_iter().map(|warning| (None, warning)).collect(),
            What::Commands(table) => table.warnings().into_iter().map(|(command, warning)| (Some(command), warning)).collect(),
        }
    }

    pub fn read_values<'a>(&'a self, line: &'a [OsString]) -> Result<Line<'a, Vec<Value<'a>>>, ReadError> {
        match &self.what {
            What::Form(form) => form.read_values(line),
            What::Commands(table) => table.read_values(line),
        }
    }

    /// What a line was read by, where the command has this number. Where no command was found there are no fields.
    pub fn under(&self, command: Option<usize>) -> Under<'_> {
        let (form, command) = match &self.what {
            What::Form(_) => (Some(0), None),
            What::Commands(table) => (command, command.map(|number| table.names()[number].as_str())),
        };
        let fields = form.map_or(&[][..], |number| &self.fields[number]);
        Under { command, fields }
    }
}

#[derive(Clone)]
pub struct Field {
    pub name: String,
    /// where the name was written
    pub spot: Spot,
}

#[derive(Clone, Debug, PartialEq, Eq)]
pub enum OptionName {
    Short(char),
    Long(String),
}
