//! Why a form or a command table was refused.

use std::fmt;

/// Why a form or a [`CommandTable`](crate::CommandTable) was refused. Its `Display` says in words what is at fault and why.
#[derive(Clone, Debug, PartialEq, Eq)]
pub struct FormError {
    number: u32,
    place: Option<usize>,
    /// the number of the command at fault, and what it is called
    command: Option<(usize, String)>,
    /// the name record or the node at fault, in words
    subject: Option<String>,
    reason: String,
}

impl FormError {
    pub(crate) fn new(number: u32, place: Option<usize>, subject: Option<String>, reason: String) -> FormError {
        FormError { number, place, command: None, subject, reason }
    }

    /// The same of the form or the names of a command.
    pub(crate) fn of_command(mut self, number: usize, name: String) -> FormError {
        self.command = Some((number, name));
        self
    }

    /// The refusal's number: 1 counts or length, 2 a name, 3 a node, 4 how nodes are used; 11 a command table; 18 two forms that
    /// are too large for one.
    pub fn number(&self) -> u32 {
        self.number
    }

    /// The number of the name record (2) or of the node (3, 4) at fault, if the refusal has one. Nodes and names are numbered
    /// in the order in which they were put together: fields in order, what is beneath a node before it, a choice's first side
    /// before its second.
    pub fn place(&self) -> Option<usize> {
        self.place
    }

    /// The number of the command whose form or names are at fault, counted from 0. None where the fault is that of no command,
    /// and where a form alone was refused.
    pub fn command(&self) -> Option<usize> {
        self.command.as_ref().map(|(number, _)| *number)
    }

    /// What is wrong, without the command and the node or name record that `Display` puts before it.
    pub fn reason(&self) -> &str {
        &self.reason
    }
}

impl fmt::Display for FormError {
    fn fmt(&self, f: &mut fmt::Formatter<'_>) -> fmt::Result {
        if let Some((_, name)) = &self.command {
            write!(f, "{name}: ")?;
        }
        match &self.subject {
            Some(subject) => write!(f, "{subject}: {}", self.reason),
            None => f.write_str(&self.reason),
        }
    }
}

impl std::error::Error for FormError {}
