//! Help and version, reported apart from the values.

use std::ffi::OsStr;
use std::fmt;
use std::marker::PhantomData;
use std::os::unix::ffi::OsStrExt;

use crate::form::Form;
use crate::form_error::FormError;
use crate::form_words;
use crate::item::{Item, ItemKind};
use crate::line::Line;
use crate::names::short;
use crate::needs::has_option;
use crate::node::{Node, LONG, SHORT};
use crate::read_error::ReadError;
use crate::reader::Reader;
use crate::run::Run;
use crate::typed::{Kinds, TypedForm};
use crate::value::Words;

/// The names of the two switches: type and bytes as in a form's name records.
const NAMES: [(u16, &str); 4] = [(SHORT, "h"), (LONG, "help"), (SHORT, "V"), (LONG, "version")];

/// What a line asks for.
#[derive(Clone, Copy, Debug, PartialEq, Eq)]
pub enum Answer<T> {
    /// the values of the fields, in order
    Values(T),
    /// `-h` or `--help` was given
    Help,
    /// `-V` or `--version` was given, and no help
    Version,
}

/// A form with the switches `-h`, `--help` and `-V`, `--version` behind its own fields, made by [`TypedForm::with_help`].
pub struct HelpForm<K> {
    form: Form,
    kinds: PhantomData<fn() -> K>,
}

impl<K> fmt::Debug for HelpForm<K> {
    fn fmt(&self, f: &mut fmt::Formatter<'_>) -> fmt::Result {
        self.form.fmt(f)
    }
}

impl<K: Kinds> TypedForm<K> {
    /// The form with `-h`, `--help` and `-V`, `--version` as two further switches, so that their letters are known in clusters:
    /// `-vh` asks for help, and is no word. A form that has one of these names already, or over fourteen fields, is refused.
    ///
    /// ```
    /// use silverpoise::{positional, short, Answer, Text, TypedForm};
    ///
    /// let form = TypedForm::of((short('v').switch(), positional::<Text>()))?.with_help()?;
    /// assert_eq!(form.read(&["-vh"])?, Answer::Help);
    /// assert_eq!(form.read(&["--version", "lock"])?, Answer::Version);
    /// assert_eq!(form.read(&["--", "-h"])?, Answer::Values((false, "-h".as_ref())));
    /// # Ok::<(), Box<dyn std::error::Error>>(())
    /// ```
    pub fn with_help(self) -> Result<HelpForm<K>, FormError> {
        let layout = self.form().layout();
        if let Some((ty, name)) = NAMES.iter().find(|(ty, name)| has_option(layout, *ty, name.as_bytes())) {
            return Err(form_words::name_taken(layout, *ty, name));
        }
        let switches = [short('h').long("help"), short('V').long("version")].map(Node::switch);
        let form = Form::of(self.fields().iter().cloned().chain(switches))?.read_by(self.form().rules());
        Ok(HelpForm { form, kinds: PhantomData })
    }
}

impl<K: Kinds> HelpForm<K> {
    /// The same form, whose lines are read by bpaf's rules alone, as [`Form::as_bpaf`] has it. A typed form that is read so
    /// already stays so with help.
    pub fn as_bpaf(self) -> HelpForm<K> {
        HelpForm { form: self.form.as_bpaf(), ..self }
    }

    /// Reads a line as [`TypedForm::read`] does. Where one of the switches is among the items of the line, that is the answer,
    /// help before version, **also where the rest of the line would be refused**. A `-h` behind `--` is a word. A line that
    /// cannot be split is refused: with 9 only the switches before the ambiguous letter are seen, with 5, 6 and 8 none.
    pub fn read<'a, A: AsRef<OsStr>>(&'a self, args: &'a [A]) -> Result<Answer<K::Values<'a>>, ReadError> {
        Reader::new().read_help(self, args)
    }

    /// Reads a line, and keeps its items, which field used each of them, and the count of tries, as [`TypedForm::read_line`] does.
    /// The switches of help are the two fields behind the last.
    ///
    /// ```
    /// use silverpoise::{positional, short, Answer, Text, TypedForm};
    ///
    /// let form = TypedForm::of((short('v').switch(), positional::<Text>()))?.with_help()?;
    /// let args = ["-v", "lock"];
    /// let Answer::Values(line) = form.read_line(&args)? else { panic!("no help is asked for") };
    /// assert_eq!((line.values().0, line.items().len()), (true, 2));
    /// # Ok::<(), Box<dyn std::error::Error>>(())
    /// ```
    pub fn read_line<'a, A: AsRef<OsStr>>(&'a self, args: &'a [A]) -> Result<Answer<Line<'a, K::Values<'a>>>, ReadError> {
        Reader::new().answer(self, args, |run| Line::new(K::read(&mut Words::new(run)), run))
    }

    /// The form without types, the two switches included.
    pub fn form(&self) -> &Form {
        &self.form
    }
}

impl Reader {
    /// Reads a line under a form with help, as [`HelpForm::read`] does.
    pub fn read_help<'a, K: Kinds, A: AsRef<OsStr>>(
        &mut self,
        form: &'a HelpForm<K>,
        args: &'a [A],
    ) -> Result<Answer<K::Values<'a>>, ReadError> {
        self.answer(form, args, |run| K::read(&mut Words::new(run)))
    }

    /// Help or version if it is asked for, else what is made of the run.
    fn answer<'a, K: Kinds, A: AsRef<OsStr>, T>(
        &mut self,
        form: &'a HelpForm<K>,
        args: &'a [A],
        value: impl FnOnce(&Run<'_, 'a>) -> T,
    ) -> Result<Answer<T>, ReadError> {
        match self.run(&form.form, args) {
            Ok(run) => Ok(asked(&run.items()).unwrap_or_else(|| Answer::Values(value(&run)))),
            Err(error) => asked(&error.items()).ok_or(error),
        }
    }
}

/// Help or version, if one of their names is among the items.
fn asked<T>(items: &[Item]) -> Option<Answer<T>> {
    let given = |names: &[(u16, &str)]| items.iter().any(|item| names.iter().any(|name| is_option(item, name)));
    if given(&NAMES[..2]) {
        return Some(Answer::Help);
    }
    given(&NAMES[2..]).then_some(Answer::Version)
}

fn is_option(item: &Item, (ty, name): &(u16, &str)) -> bool {
    match item.kind {
        ItemKind::Short(letter) => *ty == SHORT && name.chars().eq([letter]),
        ItemKind::Long(long) => *ty == LONG && long.as_bytes() == name.as_bytes(),
        _ => false,
    }
}
