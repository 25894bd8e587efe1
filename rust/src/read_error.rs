//! Why a line was refused.

use std::ffi::{OsStr, OsString};
use std::fmt;
use std::ops::Range;
use std::os::unix::ffi::OsStrExt;

use crate::ffi;
use crate::item::{starts, Area, Item};
use crate::missing::Missing;
use crate::note::{notes, Note};
use crate::read_words::{said, Said};
use crate::reason::Reason;
use crate::run::Run;
use crate::shown::{underlined, ShownArgument};

/// Why a line was refused. Its `Display` says in words what was refused, and shows the line with the place underlined. Where
/// something is missing (20) an option that the form does not have is said before it, since it may be that, mistyped. Where a
/// command was given, each sentence begins with its name.
///
/// It owns what it shows, so that it can be handed up with `?`.
#[derive(Clone, PartialEq, Eq)]
pub struct ReadError(Box<Inner>);

#[derive(Clone, PartialEq, Eq)]
struct Inner {
    number: u32,
    place: Option<usize>,
    tries: u32,
    command: Option<usize>,
    comparisons: u32,
    missing: Vec<Missing>,
    reason: Option<Reason>,
    notes: Vec<Note>,
    said: Vec<Said>,
    program: Option<OsString>,
    /// empty where the line was not split
    args: Vec<OsString>,
    records: Vec<u32>,
    marks: Vec<u16>,
}

impl ReadError {
    pub(crate) fn new(run: &Run) -> ReadError {
        let answer = &run.answer;
        let (place, items, missing) = (ffi::place(answer.place), run.items(), run.missing());
        let split = !run.records.is_empty();
        ReadError(Box::new(Inner {
            number: answer.number,
            place,
            tries: answer.tries,
            command: run.command(),
            comparisons: run.comparisons(),
            said: said(run, &items, place, &missing),
            missing,
            reason: run.reason,
            notes: notes(run, &items),
            program: None,
            args: if split { run.args.iter().map(OsString::from).collect() } else { Vec::new() },
            records: run.records.to_vec(),
            marks: answer.state.marks[..answer.state.count as usize].to_vec(),
        }))
    }

    /// The same, with the program's name before the arguments where the line is shown.
    pub fn with_program(mut self, name: impl AsRef<OsStr>) -> ReadError {
        self.0.program = Some(name.as_ref().to_os_string());
        self
    }

    /// The refusal's number (docs/FORMAT.md, section 9).
    pub fn number(&self) -> u32 {
        self.0.number
    }

    /// The place of the item that the refusal is about, if it is about one.
    pub fn place(&self) -> Option<usize> {
        self.0.place
    }

    /// How often a flag, an argument or a positional was evaluated.
    pub fn tries(&self) -> u32 {
        self.0.tries
    }

    /// The number of the command that was given, counted from 0. None for a line that was read by a form alone, and where no
    /// command was found (31) or looked for (5 to 9).
    pub fn command(&self) -> Option<usize> {
        self.0.command
    }

    /// How many names of commands were compared with the line's first word, as [`Line`](crate::Line) has it: all names where none
    /// is that word (31), and 0 where none was looked for.
    pub fn comparisons(&self) -> u32 {
        self.0.comparisons
    }

    /// What is missing, where the refusal is 20 (docs/FORMAT.md, section 9): each flag, argument and positional that looked in
    /// vain, in the order in which they were evaluated. One of them is enough for its field. Empty for every other refusal.
    ///
    /// ```
    /// use silverpoise::{positional, short, Text, TypedForm};
    ///
    /// let form = TypedForm::of((short('v').switch(), short('l').long("label").argument::<Text>().or(positional::<Text>())))?;
    /// let error = form.read(&["-v"]).unwrap_err();
    /// assert_eq!(error.missing()[0].names, ["-l", "--label"]);
    /// assert_eq!(error.missing()[1].to_string(), "an operand");
    /// assert_eq!(error.to_string(), "`-l` or `--label`, or an operand is required, and was not found");
    /// # Ok::<(), silverpoise::FormError>(())
    /// ```
    pub fn missing(&self) -> &[Missing] {
        &self.0.missing
    }

    /// Why the item at [`place`](ReadError::place) was left over, where the refusal is 27 (docs/FORMAT.md, section 14), and why it
    /// is a word, where it is 50 (section 15): the letter that no option has, or a name that is not UTF-8. None for every other
    /// refusal.
    ///
    /// None for a 27 of a line of commands too: the proved call that tells it knows one form, and such a line is split by the
    /// letters of all forms. What is said in words of such a line is read from its items.
    ///
    /// ```
    /// use silverpoise::{short, Reason, TypedForm};
    ///
    /// let form = TypedForm::of((short('v').switch(),))?;
    /// let error = form.read(&["-v", "-v"]).unwrap_err();
    /// assert_eq!((error.number(), error.place(), error.reason()), (27, Some(1), Some(Reason::GivenEarlier(0))));
    /// assert_eq!(error.to_string(), "\
    /// `-v` is given twice: already at place 0
    ///   -v -v
    ///      ^^");
    ///
    /// let form = TypedForm::of((short('l').argument::<silverpoise::Text>(),))?;
    /// let error = form.read(&["-l", "-17"]).unwrap_err();
    /// assert_eq!((error.number(), error.place(), error.reason()), (50, Some(1), Some(Reason::UnknownLetter('1'))));
    /// assert_eq!(error.to_string(), "\
    /// `-17` looks like options and was read as a word: no option has the letter `1`; as a value write `-l=-17`
    ///   -l -17
    ///      ^^^");
    /// # Ok::<(), silverpoise::FormError>(())
    /// ```
    pub fn reason(&self) -> Option<Reason> {
        self.0.reason
    }

    /// What of the line is easily overlooked, and is not what the refusal says.
    pub fn notes(&self) -> &[Note] {
        &self.0.notes
    }

    /// The items of the line, each with whether it was used, and by which field, up to the refusal. None where the line could
    /// not be split (5 to 8); for 9 those up to the place.
    pub fn items(&self) -> Vec<Item<'_>> {
        let args: Vec<&OsStr> = self.0.args.iter().map(OsString::as_os_str).collect();
        let starts: Vec<usize> = starts(&args).collect();
        Area { args: &args, starts: &starts }.items(&self.0.records, &self.0.marks)
    }
}

impl Inner {
    /// The program and the arguments on a line, with carets under a part of one of them.
    fn line(&self, argument: usize, part: &Range<usize>) -> String {
        let words = self.program.iter().chain(&self.args);
        let shown: Vec<ShownArgument> = words.map(|word| ShownArgument::new(word.as_bytes(), usize::MAX)).collect();
        let (before, from) = shown.split_at(self.program.iter().len() + argument);
        let (start, columns) = (before.iter().map(|word| word.width + 1).sum::<usize>(), from[0].columns(part));
        let texts: Vec<&str> = shown.iter().map(|word| word.text.as_str()).collect();
        underlined(&texts.join(" "), start + columns.start..start + columns.end)
    }
}

impl fmt::Display for ReadError {
    fn fmt(&self, f: &mut fmt::Formatter<'_>) -> fmt::Result {
        for (k, Said { sentence, spot }) in self.0.said.iter().enumerate() {
            write!(f, "{}{sentence}", if k > 0 { "\n" } else { "" })?;
            if let Some((argument, part)) = spot {
                write!(f, "\n{}", self.0.line(*argument, part))?;
            }
        }
        Ok(())
    }
}

impl fmt::Debug for ReadError {
    fn fmt(&self, f: &mut fmt::Formatter<'_>) -> fmt::Result {
        write!(f, "ReadError {{ number: {}, place: {:?}, tries: {} }}", self.number(), self.place(), self.tries())?;
        write!(f, "\n{self}")
    }
}

impl std::error::Error for ReadError {}
