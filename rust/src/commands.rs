//! Commands whose values are of Rust types: an enum of the caller's.

use std::ffi::OsStr;
use std::fmt;

use crate::form::Form;
use crate::form_error::FormError;
use crate::line::Line;
use crate::names::Names;
use crate::read_error::ReadError;
use crate::reader::Reader;
use crate::run::Run;
use crate::table::CommandTable;
use crate::typed::{Kinds, TypedForm};
use crate::value::Words;

/// What is read from a line of commands, mostly an enum with a variant for each command. It may borrow texts from the line, so
/// it is named with the lifetime of what it borrows. The enum itself has this trait, or any other type that stands for it.
pub trait Chosen {
    /// The value as it is handed out; texts live as long as the arguments and the commands.
    type Value<'a>;
}

/// The values of a command's form, in the order of its fields: what a command is given to make its value of.
pub struct Values<'a, K: Kinds>(
    /// the tuple that [`TypedForm::read`] gives
    pub K::Values<'a>,
);

/// How a command's answer words become its value.
type Read<C> = Box<dyn for<'r, 'a> Fn(&mut Words<'r, 'a>) -> <C as Chosen>::Value<'a> + Send + Sync>;

/// One of several [`Commands`], made by [`Names::command`].
pub struct Command<C: Chosen> {
    names: Names,
    form: Form,
    read: Read<C>,
}

impl Names {
    /// A command with these names, its options, and what is made of their values. A name is what is given on the line, so it
    /// has no dashes; one at least is long.
    pub fn command<C: Chosen, K: Kinds + 'static>(
        self,
        form: TypedForm<K>,
        value: impl for<'a> Fn(Values<'a, K>) -> C::Value<'a> + Send + Sync + 'static,
    ) -> Command<C> {
        Command { names: self, form: form.into_form(), read: Box::new(move |words| value(Values(K::read(words)))) }
    }
}

/// Commands, each with its names, its form and what is made of its values.
///
/// ```
/// use std::ffi::OsStr;
/// use silverpoise::{long, positional, short, Chosen, Commands, Text, TypedForm, Values};
///
/// #[derive(Debug, PartialEq)]
/// enum Job<'a> {
///     Wear { limit: u32, label: &'a OsStr },
///     Pair { force: bool, locks: (&'a OsStr, &'a OsStr) },
///     Log { since: Option<u32>, labels: Vec<&'a OsStr> },
/// }
///
/// // the enum, with the lifetime of the texts that it borrows
/// impl Chosen for Job<'_> {
///     type Value<'a> = Job<'a>;
/// }
///
/// let wear = TypedForm::of((short('l').long("limit").argument::<u32>().fallback(500), positional::<Text>()))?;
/// let pair = TypedForm::of((long("force").switch(), positional::<Text>(), positional::<Text>()))?;
/// let log = TypedForm::of((long("since").argument::<u32>().optional(), positional::<Text>().many()))?;
///
/// let commands = Commands::<Job>::of([
///     long("wear").short('w').command(wear, |Values((limit, label))| Job::Wear { limit, label }),
///     long("pair").command(pair, |Values((force, first, second))| Job::Pair { force, locks: (first, second) }),
///     long("log").command(log, |Values((since, labels))| Job::Log { since, labels }),
/// ])?;
///
/// let args = ["w", "-l7", "lock"]; // or silverpoise::args()
/// match commands.read(&args)? {
///     Job::Wear { limit, label } => assert_eq!((limit, label), (7, OsStr::new("lock"))),
///     other => panic!("{other:?}"),
/// }
///
/// let error = commands.read(&["pair", "lock"]).unwrap_err();
/// assert_eq!(error.to_string(), "pair: an operand is required, and was not found");
/// let error = commands.read(&["wera", "lock"]).unwrap_err();
/// assert_eq!(error.with_program("bench").to_string(), "\
/// `wera` is not a command; the commands are wear, pair, log
///   bench wera lock
///         ^^^^");
/// # Ok::<(), Box<dyn std::error::Error>>(())
/// ```
///
/// The command is the line's first argument, so options stand behind it. A line is split before its command is known, by the
/// short names of **all** forms: a letter that is a flag of one command and takes a value in another is refused in a cluster
/// under every command ([`CommandTable::ambiguous_letters`]).
pub struct Commands<C: Chosen> {
    table: CommandTable,
    reads: Vec<Read<C>>,
}

impl<C: Chosen> fmt::Debug for Commands<C> {
    fn fmt(&self, f: &mut fmt::Formatter<'_>) -> fmt::Result {
        self.table.fmt(f)
    }
}

impl<C: Chosen> Commands<C> {
    /// These commands, 1 to 32, in the order in which they are tried. Too many, or one without a long name, is an error.
    pub fn of(commands: impl IntoIterator<Item = Command<C>>) -> Result<Commands<C>, FormError> {
        let split = |Command { names, form, read }| ((names, form), read);
        let (entries, reads): (Vec<(Names, Form)>, _) = commands.into_iter().map(split).unzip();
        Ok(Commands { table: CommandTable::of(entries)?, reads })
    }

    /// The same commands, whose lines are read by bpaf's rules alone, as [`Form::as_bpaf`] has it. The rules of the forms that
    /// the commands were made of do not matter.
    pub fn as_bpaf(self) -> Commands<C> {
        Commands { table: self.table.as_bpaf(), ..self }
    }

    /// Reads a line, whose first argument is the command. The arguments are those behind the program's name
    /// ([`args`](crate::args) gives them); texts are parts of them, not copies.
    pub fn read<'a, A: AsRef<OsStr>>(&'a self, args: &'a [A]) -> Result<C::Value<'a>, ReadError> {
        Reader::new().read_command(self, args)
    }

    /// Reads a line, and keeps its items, which field of the command's form used each of them, and the count of tries.
    pub fn read_line<'a, A: AsRef<OsStr>>(&'a self, args: &'a [A]) -> Result<Line<'a, C::Value<'a>>, ReadError> {
        let mut reader = Reader::new();
        let run = reader.run_commands(&self.table, args)?;
        Ok(Line::new(self.value(&run), &run))
    }

    /// What the command that was given makes of its values.
    fn value<'a>(&self, run: &Run<'_, 'a>) -> C::Value<'a> {
        let command = run.command().expect("a line that was accepted has its command");
        (self.reads[command])(&mut Words::new(run))
    }

    /// The same commands without types.
    pub fn table(&self) -> &CommandTable {
        &self.table
    }
}

impl Reader {
    /// Reads a line of commands, as [`Commands::read`] does.
    pub fn read_command<'a, C: Chosen, A: AsRef<OsStr>>(
        &mut self,
        commands: &'a Commands<C>,
        args: &'a [A],
    ) -> Result<C::Value<'a>, ReadError> {
        let run = self.run_commands(&commands.table, args)?;
        Ok(commands.value(&run))
    }
}
