//! Reading a line: arguments become a sheet, the proved code runs the form on it, and its words become values.

use std::ffi::OsStr;

use crate::batch::{self, Accepted, Batch};
use crate::ffi;
use crate::form::Form;
use crate::item::{starts, Area, Mark};
use crate::line::Line;
use crate::read_error::ReadError;
use crate::reason::Reason;
use crate::rules::{buffer, Rules, Slices};
use crate::run::{Run, Tried};
use crate::sheet;
use crate::table::CommandTable;
use crate::value::{Value, Words};

/// The buffers of a read, kept from line to line: [`read`](Reader::read) then allocates nothing but its values and a list of
/// references to its arguments, [`read_values`](Reader::read_values) the items besides. The same holds of lines of commands,
/// and of many lines at once ([`read_many`](Reader::read_many)).
#[derive(Debug)]
pub struct Reader {
    sheet: Vec<u8>,
    starts: Vec<usize>,
    /// item slice, answer slice and list slice, one behind the other
    words: Vec<u32>,
    batch: Batch,
}

impl Reader {
    /// A reader with buffers of its own, about 40 KB. Where many lines are read at once it has others, 1.3 MB for 32 lines.
    pub fn new() -> Reader {
        Reader { sheet: Vec::new(), starts: Vec::new(), words: buffer(), batch: Batch::default() }
    }

    /// Reads a line under an untyped form, as [`Form::read_values`] does.
    pub fn read_values<'a, A: AsRef<OsStr>>(
        &mut self,
        form: &'a Form,
        args: &'a [A],
    ) -> Result<Line<'a, Vec<Value<'a>>>, ReadError> {
        Ok(values_of(&self.run(form, args)?))
    }

    /// Reads a line of commands under an untyped table, as [`CommandTable::read_values`] does.
    pub fn read_command_values<'a, A: AsRef<OsStr>>(
        &mut self,
        table: &'a CommandTable,
        args: &'a [A],
    ) -> Result<Line<'a, Vec<Value<'a>>>, ReadError> {
        Ok(values_of(&self.run_commands(table, args)?))
    }

    /// Reads many lines under an untyped form, as [`read_many`](Reader::read_many) does under one with types: the values of
    /// each, as [`Line::into_values`] gives them. Who wants the items of a line too reads it by itself.
    pub fn read_many_values<'a, L: AsRef<[A]>, A: AsRef<OsStr> + 'a>(
        &mut self,
        form: &'a Form,
        lines: &'a [L],
    ) -> Vec<Result<Vec<Value<'a>>, ReadError>> {
        self.read_each(form, lines, |words| words.values())
    }

    /// Reads many lines, as many of them in one call as a batch can have. What is made of the words of a line is given.
    pub(crate) fn read_each<'a, L: AsRef<[A]>, A: AsRef<OsStr> + 'a, V>(
        &mut self,
        form: &'a Form,
        lines: &'a [L],
        value: impl Fn(&mut Words<'_, 'a>) -> V,
    ) -> Vec<Result<V, ReadError>> {
        let mut read = Vec::with_capacity(lines.len());
        for lines in lines.chunks(batch::LINES) {
            let lines: Vec<Vec<&OsStr>> = lines.iter().map(|line| references(line.as_ref())).collect();
            self.batch.run(form, &lines);
            for (k, args) in lines.into_iter().enumerate() {
                read.push(match self.batch.accepted(k) {
                    Some(Accepted { records, words }) => {
                        let area = Area { args: &args, starts: write_starts(&mut self.starts, &args) };
                        Ok(value(&mut Words::of(form, area, records, words)))
                    }
                    // an error tells which field used which item, and a batch does not: such a line is run by itself
                    None => self.run_line(form, args).map(|run| value(&mut Words::new(&run))),
                });
            }
        }
        read
    }

    /// Runs a form on a line, to its values or its refusal.
    pub(crate) fn run<'r, 'a, A: AsRef<OsStr>>(&'r mut self, form: &'a Form, args: &'a [A]) -> Result<Run<'r, 'a>, ReadError> {
        self.run_line(form, references(args))
    }

    fn run_line<'r, 'a>(&'r mut self, form: &'a Form, args: Vec<&'a OsStr>) -> Result<Run<'r, 'a>, ReadError> {
        self.write_sheet(&args);
        let answer = form.rules().run(form.bytes(), &self.sheet, Slices::of(&mut self.words));
        let reason = match answer.number {
            // to ask why is to run the line once more, so only a line that needs it is asked
            27 => ffi::place(answer.place).and_then(|place| self.reason(form, place)),
            50 => Some(Reason::of_word(answer.letter)),
            _ => None,
        };
        let kept = kept(&answer, |field| {
            let open = form.layout().without_guards(field + 1);
            Rules::Plain.run(&open, &self.sheet, Slices::of(&mut buffer())).number
        });
        self.ran(args, Some(form), None, answer, Told { reason, kept })
    }

    /// Why a place of the line in the sheet was left over. The slices then have what a run of the line leaves.
    fn reason(&mut self, form: &Form, place: usize) -> Option<Reason> {
        let Slices { items, answers, list } = Slices::of(&mut self.words);
        Reason::of(ffi::why(form.bytes(), &self.sheet, place, items, answers, list))
    }

    /// Why an item of a line was left over, as [`Form::why`] tells it.
    pub fn why<A: AsRef<OsStr>>(&mut self, form: &Form, args: &[A], place: usize) -> Option<Reason> {
        self.write_sheet(&references(args));
        self.reason(form, place)
    }

    /// Runs the form of the command that a line begins with, to its values or its refusal.
    pub(crate) fn run_commands<'r, 'a, A: AsRef<OsStr>>(
        &'r mut self,
        table: &'a CommandTable,
        args: &'a [A],
    ) -> Result<Run<'r, 'a>, ReadError> {
        let args = references(args);
        self.write_sheet(&args);
        let answer = table.rules().run_commands(table.bytes(), &self.sheet, Slices::of(&mut self.words));
        let ffi::CarefulCommandAnswer { number, place, tries, words, comparisons, entry, letter, state } = answer;
        let tried = Tried { table, command: ffi::place(entry), comparisons };
        let form = tried.command.and_then(|command| table.forms().get(command));
        let answer = ffi::CarefulAnswer { number, place, tries, words, letter, state };
        let reason = (number == 50).then(|| Reason::of_word(letter));
        let kept = form.zip(tried.command).and_then(|(form, command)| {
            kept(&answer, |field| {
                let open = table.with_form(command, &form.layout().without_guards(field + 1));
                Rules::Plain.run_commands(&open, &self.sheet, Slices::of(&mut buffer())).number
            })
        });
        self.ran(args, form, Some(tried), answer, Told { reason, kept })
    }

    /// What a run left in the buffers, as a run or as its refusal.
    fn ran<'r, 'a>(
        &'r self,
        args: Vec<&'a OsStr>,
        form: Option<&'a Form>,
        commands: Option<Tried<'a>>,
        answer: ffi::CarefulAnswer,
        Told { reason, kept }: Told,
    ) -> Result<Run<'r, 'a>, ReadError> {
        let (records, rest) = self.words.split_at(ffi::ITEM_WORDS);
        let (words, list) = rest.split_at(ffi::ANSWER_WORDS);
        let (records, words) = (&records[..7 * answer.state.count as usize], &words[..answer.words as usize]);
        let run = Run { form, commands, args, answer, reason, kept, starts: &self.starts, records, words, list };
        match answer.number {
            0 => Ok(run),
            _ => Err(ReadError::new(&run)),
        }
    }

    /// The sheet of any arguments, and where each of them begins in it.
    fn write_sheet(&mut self, args: &[&OsStr]) {
        self.sheet.clear();
        sheet::write(&mut self.sheet, args);
        write_starts(&mut self.starts, args);
    }
}

/// Where each argument begins in a sheet, in a buffer that is used anew.
fn write_starts<'r>(buffer: &'r mut Vec<usize>, args: &[&OsStr]) -> &'r [usize] {
    buffer.clear();
    buffer.extend(starts(args));
    buffer
}

/// The arguments, each asked once for what it is.
fn references<A: AsRef<OsStr>>(args: &[A]) -> Vec<&OsStr> {
    args.iter().map(AsRef::as_ref).collect()
}

/// What further runs of a refused line told of it.
struct Told {
    reason: Option<Reason>,
    kept: Option<usize>,
}

/// The place of a word that was refused and stays used. With 26 the place is that of the word that was taken last, perhaps by an
/// earlier field, which was not refused: so the line is run once more, where only the guards up to that field refuse.
fn kept(answer: &ffi::CarefulAnswer, number_up_to: impl FnOnce(usize) -> u32) -> Option<usize> {
    let place = ffi::place(answer.place)?;
    let field = Mark::of(*answer.state.marks.get(place)?).field()?;
    match answer.number {
        23..=25 => Some(place),
        26 => (number_up_to(field) == 26).then_some(place),
        _ => None,
    }
}

/// A line that was accepted, with a value for each field of its form.
fn values_of<'a>(run: &Run<'_, 'a>) -> Line<'a, Vec<Value<'a>>> {
    Line::new(Words::new(run).values(), run)
}

impl Default for Reader {
    fn default() -> Reader {
        Reader::new()
    }
}

impl Form {
    /// Reads a line: a value for each field, in order. The arguments are those behind the program's name.
    ///
    /// A [`Reader`] does the same and keeps its buffers from line to line.
    pub fn read_values<'a, A: AsRef<OsStr>>(&'a self, args: &'a [A]) -> Result<Line<'a, Vec<Value<'a>>>, ReadError> {
        Reader::new().read_values(self, args)
    }

    /// Reads many lines, as [`Reader::read_many_values`] does.
    pub fn read_many_values<'a, L: AsRef<[A]>, A: AsRef<OsStr> + 'a>(
        &'a self,
        lines: &'a [L],
    ) -> Vec<Result<Vec<Value<'a>>, ReadError>> {
        Reader::new().read_many_values(self, lines)
    }

    /// Why the item at a place of a line was left over. The line must be refused with 27 and the item not be used: where it is
    /// not so, and where there is no such place, there is no reason.
    ///
    /// [`ReadError::reason`] has that of the first item that was left over, and here those behind it are told too:
    ///
    /// ```
    /// use silverpoise::{short, Form, Node, Reason};
    ///
    /// let form = Form::of([Node::switch(short('v'))])?;
    /// let args = ["-v", "lock", "-v"];
    /// let error = form.read_values(&args).unwrap_err();
    /// assert_eq!((error.place(), error.reason()), (Some(1), Some(Reason::NoPositional)));
    /// assert_eq!(form.why(&args, 2), Some(Reason::GivenEarlier(0)));
    /// assert_eq!(form.why(&args, 0), None); // it is used
    /// # Ok::<(), silverpoise::FormError>(())
    /// ```
    pub fn why<A: AsRef<OsStr>>(&self, args: &[A], place: usize) -> Option<Reason> {
        Reader::new().why(self, args, place)
    }
}

impl CommandTable {
    /// Reads a line whose first argument is a command: a value for each field of its form, in order, and the command's number.
    ///
    /// A [`Reader`] does the same and keeps its buffers from line to line.
    pub fn read_values<'a, A: AsRef<OsStr>>(&'a self, args: &'a [A]) -> Result<Line<'a, Vec<Value<'a>>>, ReadError> {
        Reader::new().read_command_values(self, args)
    }
}

#[cfg(test)]
mod tests {
    use super::*;
    use crate::names::short;
    use crate::node::Node;

    /// No caller can make a reader with short buffers; if there were one, the run would refuse it.
    #[test]
    fn short_buffers_are_refused() {
        let form = Form::of([Node::switch(short('v'))]).unwrap();
        let refused = |error: ReadError, number: u32| {
            assert_eq!((error.number(), error.to_string()), (number, "a buffer is too short".to_string()));
            assert_eq!((error.place(), error.tries(), error.items(), error.missing()), (None, 0, vec![], &[][..]));
        };
        let mut reader = Reader::new();
        reader.words.pop();
        refused(reader.read_values(&form, &["-v"]).unwrap_err(), 14);
        let (items, rest) = reader.words.split_at_mut(ffi::ITEM_WORDS - 1);
        let slices = Slices { items, answers: rest, list: &mut [] };
        let answer = form.rules().run(form.bytes(), &reader.sheet, slices);
        let args = vec![OsStr::new("-v")];
        let (form, commands) = (Some(&form), None);
        let (starts, records, words, list) = (&[0], &[], &[], &[]);
        let run = Run { form, commands, args, answer, reason: None, kept: None, starts, records, words, list };
        refused(ReadError::new(&run), 7);
    }

    /// What is missing on one line is gone from the list on the next.
    #[test]
    fn an_accepted_line_misses_nothing() {
        let form = Form::of([Node::switch(short('v')), Node::flag(short('x'))]).unwrap();
        let mut reader = Reader::new();
        let list = ffi::ITEM_WORDS + ffi::ANSWER_WORDS..;
        assert_eq!(reader.read_values(&form, &["-v"]).unwrap_err().missing().len(), 1);
        assert_eq!(reader.words[list.clone()][..4], [2, 0, 1, 0]);
        for args in [&["-x"][..], &["-x", "-v"], &["-vx"]] {
            assert!(reader.read_values(&form, args).is_ok());
            assert_eq!(reader.words[list.clone()], [0; ffi::LIST_WORDS]);
        }
        assert_eq!(reader.read_values(&form, &["-x", "y"]).unwrap_err().missing(), []);
    }
}
