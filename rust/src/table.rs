//! Command tables: several forms, each under the names of its command, checked when they are made.

use crate::ffi;
use crate::form::Form;
use crate::form_error::FormError;
use crate::form_words;
use crate::names::Names;
use crate::needs::letters;
use crate::node::{kind, name_records, NameRecord};
use crate::rules::Rules;
use crate::shown::shown_word;
use crate::table_layout::{self, TableLayout};
use crate::table_words;

/// Commands as data: each has its names and its [`Form`]. A table that exists has passed the check of the proved code.
///
/// This is the table without types, for programs that learn their commands at run time; [`Commands`](crate::Commands) is the
/// same with types.
///
/// ```
/// use silverpoise::{long, short, CommandTable, Form, Node, Takes, Value};
///
/// let pair = Form::of([Node::switch(short('f').long("force")), Node::positional(Takes::Text)])?;
/// let log = Form::of([Node::positional(Takes::Text).many()])?;
/// let table = CommandTable::of([(long("pair").short('p'), pair), (long("log"), log)])?;
///
/// let args = ["p", "-f", "lock"];
/// let line = table.read_values(&args)?;
/// assert_eq!((line.command(), &table.names()[0][..]), (Some(0), "pair"));
/// assert_eq!(line.into_values(), [Value::YesNo(true), Value::Text("lock".as_ref())]);
///
/// let error = table.read_values(&["lgo"]).unwrap_err();
/// assert_eq!(error.to_string(), "`lgo` is not a command; the commands are pair, log\n  lgo\n  ^^^");
/// # Ok::<(), Box<dyn std::error::Error>>(())
/// ```
#[derive(Clone, Debug, PartialEq, Eq)]
pub struct CommandTable {
    bytes: Vec<u8>,
    names: Vec<String>,
    forms: Vec<Form>,
    rules: Rules,
}

impl CommandTable {
    /// The table of these commands, 1 to 32. A name is what is given on the line, without dashes; a short one is a single
    /// character, and one at least is long. The commands are tried in order, of each the long names before the short ones.
    /// All lines are read by the same rules, whatever those of the forms are: [`as_bpaf`](CommandTable::as_bpaf) is the table's.
    pub fn of(commands: impl IntoIterator<Item = (Names, Form)>) -> Result<CommandTable, FormError> {
        let (names, forms): (Vec<Vec<NameRecord>>, Vec<Form>) =
            commands.into_iter().map(|(names, form)| (name_records(names), form)).unzip();
        table_words::within_limits(&names)?;
        let entries = names.iter().zip(&forms).map(|(names, form)| (&names[..], form.bytes()));
        CommandTable::checked(table_layout::write(entries), |number| Ok(forms[number].clone().read_by(Rules::default())))
    }

    /// The table of these bytes, as docs/FORMAT.md lays them out.
    pub fn from_bytes(bytes: &[u8]) -> Result<CommandTable, FormError> {
        CommandTable::checked(bytes.to_vec(), |number| Form::from_bytes(form_part(bytes, number)))
    }

    /// The table of bytes that pass the check, with these forms.
    fn checked(bytes: Vec<u8>, form: impl Fn(usize) -> Result<Form, FormError>) -> Result<CommandTable, FormError> {
        let refused = ffi::commands_check(&bytes);
        let table = TableLayout::of(&bytes);
        let called = |number: usize| {
            let name = table.entry(number).and_then(|entry| entry.first_long()).unwrap_or_default();
            String::from_utf8_lossy(name).into_owned()
        };
        match (refused.number, ffi::place(refused.entry)) {
            (0, _) => {}
            (refusal, Some(entry)) => {
                let error = form_words::why(form_part(&bytes, entry), refusal, ffi::place(refused.place));
                return Err(error.of_command(entry, shown_word(called(entry).as_bytes())));
            }
            _ => return Err(table_words::why(&bytes)),
        }
        let commands = 0..table.commands().unwrap_or_default();
        let (names, forms) = (commands.clone().map(called).collect(), commands.map(form).collect::<Result<_, _>>()?);
        Ok(CommandTable { bytes, names, forms, rules: Rules::default() })
    }

    /// The same table, whose lines are read by bpaf's rules alone, as [`Form::as_bpaf`] has it.
    pub fn as_bpaf(self) -> CommandTable {
        let forms = self.forms.into_iter().map(Form::as_bpaf).collect();
        CommandTable { forms, rules: Rules::Plain, ..self }
    }

    pub(crate) fn rules(&self) -> Rules {
        self.rules
    }

    /// The table as bytes, which [`from_bytes`](CommandTable::from_bytes) and every other caller of the proved code reads.
    pub fn bytes(&self) -> &[u8] {
        &self.bytes
    }

    /// What each command is called: its first long name.
    pub fn names(&self) -> &[String] {
        &self.names
    }

    /// The form of each command.
    pub fn forms(&self) -> &[Form] {
        &self.forms
    }

    /// The letters that are a flag of one form and take a value in another, or in the same. A line is split by the letters of
    /// all forms together, so in a cluster such a letter is refused (9) **under every command**; given apart it is read.
    ///
    /// ```
    /// use silverpoise::{long, short, CommandTable, Form, Node, Takes};
    ///
    /// let wear = Form::of([Node::switch(short('v')), Node::argument(short('l'), Takes::Number)])?;
    /// let log = Form::of([Node::switch(short('l'))])?;
    /// let table = CommandTable::of([(long("wear"), wear), (long("log"), log)])?;
    /// assert_eq!(table.ambiguous_letters(), ['l']);
    /// assert_eq!(table.read_values(&["wear", "-vl7"]).unwrap_err().number(), 9);
    /// assert!(table.read_values(&["wear", "-v", "-l", "7"]).is_ok());
    /// # Ok::<(), silverpoise::FormError>(())
    /// ```
    pub fn ambiguous_letters(&self) -> Vec<char> {
        let of_kind = |kind: u16| self.forms.iter().flat_map(move |form| letters(form.layout(), kind));
        let arguments: Vec<char> = of_kind(kind::ARGUMENT).collect();
        let mut both: Vec<char> = of_kind(kind::FLAG).filter(|letter| arguments.contains(letter)).collect();
        both.sort_unstable();
        both.dedup();
        both
    }

    /// The table's bytes with another form of the same length.
    pub(crate) fn with_form(&self, entry: usize, form: &[u8]) -> Vec<u8> {
        let part = ffi::command_form(&self.bytes, entry);
        [&self.bytes[..part.offset], form, &self.bytes[part.offset + part.length..]].concat()
    }

    /// The names of the commands whose form has the letter on a node of this kind.
    pub(crate) fn with_letter(&self, kind: u16, letter: char) -> Vec<&str> {
        let has = |form: &Form| letters(form.layout(), kind).contains(&letter);
        self.names.iter().zip(&self.forms).filter(|(_, form)| has(form)).map(|(name, _)| name.as_str()).collect()
    }
}

/// The form of an entry of a table whose names are not at fault.
fn form_part(table: &[u8], entry: usize) -> &[u8] {
    let part = ffi::command_form(table, entry);
    &table[part.offset..part.offset + part.length]
}
