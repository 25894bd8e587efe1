//! Lines read by bpaf's own parsers, written as its users write them and built once.

use std::{ffi::OsString, hint::black_box};

use bpaf::{
    doc::harness::{read, Letters},
    Error, State,
};
use line::format::Refusal;

use crate::values::Shown;

/// The parsers of all fields of a form.
pub trait Fields {
    /// Reads a line and drops its values: what is timed.
    fn read(&self, line: &[OsString]) -> Result<(), Refusal>;
    /// The values as text.
    fn values(&self, line: &[OsString]) -> Result<String, Refusal>;
}

pub struct Parsers<F> {
    pub letters: Letters,
    pub eval: F,
}

impl<T: Shown, F: Fn(&mut State) -> Result<T, Error>> Fields for Parsers<F> {
    fn read(&self, line: &[OsString]) -> Result<(), Refusal> {
        read(line, &self.letters, &self.eval).map(|values| drop(black_box(values)))
    }

    fn values(&self, line: &[OsString]) -> Result<String, Refusal> {
        read(line, &self.letters, &self.eval).map(|values| values.show())
    }
}

/// A parser per field, in order; each is evaluated on the state that the one before it left.
#[macro_export]
macro_rules! fields {
    ($($field:ident = $parser:expr),+ $(,)?) => {{
        $(let $field = $parser;)+
        let letters = bpaf::doc::harness::Letters::of(&[$(bpaf::Parser::meta(&$field)),+]);
        let eval = move |state: &mut bpaf::State| Ok::<_, bpaf::Error>(($(bpaf::Parser::eval(&$field, state)?,)+));
        Box::new($crate::parsers::Parsers { letters, eval }) as Box<dyn $crate::parsers::Fields>
    }};
}

/// The same for fields of one type whose number is known only when they are made.
pub fn list<T: Shown + 'static>(fields: Vec<Box<dyn bpaf::Parser<T>>>) -> Box<dyn Fields> {
    let metas: Vec<bpaf::Meta> = fields.iter().map(|field| field.meta()).collect();
    let eval = move |state: &mut State| {
        let values = fields.iter().map(|field| field.eval(state)).collect::<Result<Vec<T>, Error>>()?;
        Ok(Listed(values))
    };
    Box::new(Parsers { letters: Letters::of(&metas), eval })
}

/// The values of such fields.
struct Listed<T>(Vec<T>);

impl<T: Shown> Shown for Listed<T> {
    fn show(&self) -> String {
        self.0.iter().map(Shown::show).collect::<Vec<_>>().join("; ")
    }
}

/// bpaf asks for names that live as long as the program.
pub fn kept(name: String) -> &'static str {
    Box::leak(name.into_boxed_str())
}
