//! Command lines read by the proved code of Silverpoise.
//!
//! A form says which options exist. It is built in a few lines and checked at once; a line is read to a tuple of values, or
//! to an error that says what was refused and shows where.
//!
//! ```
//! use std::ffi::OsStr;
//! use silverpoise::{long, positional, short, Text, TypedForm};
//!
//! let form = TypedForm::of((
//!     short('v').long("verbose").flag().count(),
//!     short('l').long("limit").argument::<u32>().guard(1..=9999).fallback(500),
//!     long("cradle").argument::<Text>().or(long("stand").argument::<Text>()).optional(),
//!     positional::<Text>().some(),
//! ))?;
//!
//! let args = ["-vvl7", "--cradle=left", "lock", "chain"]; // or silverpoise::args()
//! let (verbose, limit, at, parts) = form.read(&args)?;
//! assert_eq!((verbose, limit, at), (2, 7, Some(OsStr::new("left"))));
//! assert_eq!(parts, ["lock", "chain"]);
//!
//! let error = form.read(&["lock", "-vl"]).unwrap_err();
//! assert_eq!(error.with_program("wear").to_string(), "\
//! `-l` needs a value, and none follows it
//!   wear lock -vl
//!               ^");
//! # Ok::<(), Box<dyn std::error::Error>>(())
//! ```
//!
//! - **Arguments** are a slice of anything that is an `OsStr`, without the program's name: the caller keeps them, and texts
//!   are parts of them. An iterator such as `args_os()` would be used up by the read, and its texts with it; so [`args`]
//!   collects this program's arguments first.
//! - **Read carefully**: no argument that looks like options is taken for a word. Where no option has the letter 1, `-17` is
//!   refused (50), as an operand and as a value; `-- -17`, `-l=-17` and `--limit=-17` say what they mean and are read. This is
//!   the one difference to bpaf's rules, and `as_bpaf` of a form or of commands takes it away ([`Form::as_bpaf`]).
//! - **Types**: [`TypedForm`] over [`Parser`]s; wrong combinations do not compile, and what types cannot say is a
//!   [`FormError`]. [`TypedForm::with_help`] adds `-h` and `-V`.
//! - **Commands**, each with its own options: [`Commands`] over typed forms gives an enum of yours.
//! - **Two forms as one**, where options are kept in two places: [`TypedForm::join`] and [`Form::join`].
//! - **Without types**: [`Form`] over [`Node`]s and [`CommandTable`] over forms, for options that are known only at run time;
//!   their values are [`Value`]s.
//! - **What was read**: [`TypedForm::read_line`] and [`ReadError`] have the items, which field used each of them ([`Mark`]), and
//!   the tries; [`ReadError::missing`] what looked in vain, [`ReadError::reason`] why an item was left over or is a word.
//! - **What is easily overlooked**: [`Line::notes`] and [`ReadError::notes`] of a line, [`Form::warnings`] of a form.
//! - **Many lines**: a [`Reader`] keeps the buffers, and [`Reader::read_many`] reads many lines in one call.
//!
//! What each parser does, and the numbers of the refusals, are in the project's docs/FORMAT.md.
//!
//! # What is proved
//!
//! The form check, the join of two forms, the splitting, the run, the careful run, the reason for an item that is left over and
//! which repeats have values from nothing are the proved code, and every read runs all that it needs of it: a form or a table is
//! checked again each time, and a line is never run unchecked. Writing the arguments as a sheet, reading the answer words as values
//! and all texts for people, notes and warnings among them, are this crate's, in safe Rust, and compared with the real bpaf by
//! `rust/test`. The calls themselves are in one file, `src/ffi.rs`, the only one with `unsafe`.
#![deny(unsafe_code)]
#![warn(missing_docs)]

// The files, lowest first: each imports only those above it (rust/test looks).

#[allow(unsafe_code)]
mod ffi;
mod form_error;
mod item;
mod kind;
mod names;
mod rules;
pub mod shape;
mod shown;

// forms: put together, written as bytes, checked
mod node;

mod layout;

mod form_words;

mod form;
mod needs;

// command tables, and what of a table or a form is easily overlooked
mod table_layout;

mod table_words;

mod table;

mod warning;

// lines: as bytes, run, and what is told of them
mod sheet;

mod batch;
mod missing;
mod reason;

mod word;

mod run;

mod value;

mod note;

mod line;
mod read_words;

mod read_error;

mod reader;

// both with types
mod parser;

mod typed;

mod commands;
mod help;

pub use commands::{Chosen, Command, Commands, Values};
pub use form::Form;
pub use form_error::FormError;
pub use help::{Answer, HelpForm};
pub use item::{Item, ItemKind, Mark, UsedBy};
pub use line::Line;
pub use missing::Missing;
pub use names::{long, short, Names};
pub use node::{Fallback, Node, Takes};
pub use note::Note;
pub use parser::{positional, Base, Element, Kind, Parser, Taken, Text};
pub use read_error::ReadError;
pub use reader::Reader;
pub use reason::Reason;
pub use table::CommandTable;
pub use typed::{Fields, Joined, Kinds, TypedForm};
pub use value::Value;
pub use warning::{FromNothing, Warning};

/// The arguments of this program, behind its name.
pub fn args() -> Vec<std::ffi::OsString> {
    std::env::args_os().skip(1).collect()
}
