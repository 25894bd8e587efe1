//! Forms that take most of what they are given, and lines in which much has a dash before it: options and their values, clusters with
//! a letter that no option has, names that are not UTF-8, a dash alone, and words behind `--`. Tables of such forms, under names that
//! look like options too.

use super::forms::renumber;
use super::left_over::spare_name;
use super::sheets::BROKEN;
use super::{Case, Rng, TableCase};
use crate::commands::{write, Command, ENTRIES};
use crate::format::*;
use crate::notation;

/// Few names, so that lines hit them. A letter in both lists is ambiguous in a cluster.
const FLAGS: [&str; 9] = ["-v", "-q", "-1", "-2", "-v --verbose", "-1 -2", "-\\xc3\\xa9", "-= -q", "-\\x2d"];
const ARGUMENTS: [&str; 8] = ["-l", "-w", "-l", "-l --limit", "-w --width", "--name", "-\\xe2\\x82\\xac --", "-v"];
const POSITIONALS: [&str; 9] = [
    "many(operand)",
    "many(operand)",
    "many(operand)",
    "some(operand)",
    "operand; many(operand)",
    "many(non-strict)",
    "optional(operand); many(strict)",
    "last(operand)",
    "many!(operand#); many(operand)",
];
const WORDS: [&[u8]; 10] = [b"a", b"b", b"7", b"42", b"", b"a-b", b"-", b"-", "é".as_bytes(), b"\xff"];
/// Words that look like options, unless a form has all their letters.
#[rustfmt::skip]
const MISREAD: [&[u8]; 20] = [
    b"-17", b"-12x", b"-xh", b"-foo", b"-z1", b"-=x", b"-v-", b"-\0v", "-v😀".as_bytes(), "-é€".as_bytes(), b"-0.5",
    b"-v\xff", b"-\xff", b"-x\xff", "-é=7".as_bytes(), b"-\xc3=", b"--\xff", b"--\xff=7", b"--limit\xc3=7", b"---\xff",
];
/// Values, of which a few are read as options where they are arguments.
#[rustfmt::skip]
const VALUES: [&[u8]; 16] = [
    b"7", b"x", b"", b"-", b"-", b"-", b"-17", b"-17", b"-foo", b"-xh", "-é=7".as_bytes(), b"-\xff", b"-l", b"--", b"--x=y", b"\xff",
];

/// Names of commands: words, options, and such as look like them.
#[rustfmt::skip]
const COMMANDS: [&str; 20] = [
    "wear", "wear", "log", "log", "w", "l", "-17", "-17", "-12x", "-xh", "-zv", "-é=7", "-z", "-v", "-12", "-l7", "--wear", "--wear=7",
    "-", "--",
];

/// An accepted form, and a line of which it takes most.
pub fn dashed(rng: &mut Rng) -> Case {
    let form = dashed_form(rng);
    let sheet = dashed_line(rng, &form);
    Case::new(&form, &sheet)
}

/// A table of accepted forms, and a line for one of them, mostly behind its name.
pub fn dashed_commands(rng: &mut Rng) -> TableCase {
    let count = if rng.chance(1, 64) { ENTRIES } else { rng.between(1, 4) };
    let forms: Vec<Form> = (0..count).map(|_| dashed_form(rng)).collect();
    let commands: Vec<Command> = forms.iter().map(|form| command(rng, form)).collect();
    let k = rng.below(count);
    // most lines have the letters of one form alone
    let all = if rng.chance(1, 4) { &forms[..] } else { &forms[k..=k] };
    let letters = |kind: u16| all.iter().flat_map(|form| form.letters(kind)).collect();
    let (flags, arguments) = (letters(FLAG), letters(ARGUMENT));
    let mut line = Dashes { rng, form: &forms[k], flags, arguments, out: Vec::new() }.line();
    if rng.chance(31, 32) {
        let name = rng.pick(&commands[k].names).bytes(&commands[k].area).to_vec();
        line.insert(0, name);
    }
    TableCase { table: write(&commands), sheet: Sheet { arguments: line }.write() }
}

/// An entry: a long name, and perhaps others.
fn command(rng: &mut Rng, form: &Form) -> Command {
    let mut names = vec![(LONG, *rng.pick(&COMMANDS))];
    for _ in 0..rng.below(3) {
        let short = rng.chance(1, 4);
        names.push(if short { (SHORT, *rng.pick(&["w", "l", "-"])) } else { (LONG, *rng.pick(&COMMANDS)) });
    }
    Command::new(&names, form.write())
}

/// A form that is seldom refused, whatever a line has.
pub fn dashed_form(rng: &mut Rng) -> Form {
    let mut fields: Vec<String> = (0..rng.between(1, 4)).map(|_| field(rng)).collect();
    // one before the last takes values of the options behind it
    let at = if rng.chance(7, 8) { fields.len() } else { rng.below(fields.len()) };
    fields.insert(at, rng.pick(&POSITIONALS).to_string());
    let mut form = notation::parse(&fields.join("; ")).expect("the notation");
    if rng.chance(1, 4) {
        spare_name(rng, &mut form);
    }
    if rng.chance(1, 2) {
        renumber(rng, &mut form);
    }
    form
}

/// A line for such a form.
pub fn dashed_line(rng: &mut Rng, form: &Form) -> Sheet {
    let (flags, arguments) = (form.letters(FLAG), form.letters(ARGUMENT));
    Sheet { arguments: Dashes { rng, form, flags, arguments, out: Vec::new() }.line() }
}

/// A field that is seldom refused, whatever the line has.
fn field(rng: &mut Rng) -> String {
    let (flag, argument) = (*rng.pick(&FLAGS), *rng.pick(&ARGUMENTS));
    match rng.below(16) {
        0..=5 => format!("count(flag({flag}))"),
        6 | 7 => format!("switch({flag})"),
        8..=12 => format!("many(text({argument}))"),
        13 => format!("optional(text({argument}))"),
        14 => format!("many(text=({argument}))"),
        _ => format!("optional!(number({argument}))"),
    }
}

/// Writes a line for a form, with these letters in its clusters.
struct Dashes<'a> {
    rng: &'a mut Rng,
    form: &'a Form,
    flags: Vec<char>,
    arguments: Vec<char>,
    out: Vec<Vec<u8>>,
}

impl Dashes<'_> {
    fn line(mut self) -> Vec<Vec<u8>> {
        for _ in 0..self.rng.between(1, 6) {
            match self.rng.below(20) {
                0..=6 => self.option(),
                7..=10 => self.cluster(),
                11 | 12 => self.out.push(self.rng.pick(&MISREAD).to_vec()),
                13 => self.spoilt(),
                14 => self.out.push(b"--".to_vec()),
                _ => self.out.push(self.rng.pick(&WORDS).to_vec()),
            }
        }
        self.out
    }

    /// A name of the form; an argument's with a value, in one argument or in two.
    fn option(&mut self) {
        let named: Vec<&Node> = self.form.nodes.iter().filter(|node| node.kind <= ARGUMENT).collect();
        let node = *self.rng.pick(&named);
        let record = usize::from(node.p) + self.rng.below(usize::from(node.q));
        let short = self.form.names[record].ty == SHORT;
        let mut option = [if short { b"-" } else { b"--" as &[u8] }, self.form.name(record)].concat();
        if node.kind == FLAG {
            return self.out.push(option);
        }
        let value = *self.rng.pick(&VALUES);
        match self.rng.below(4) {
            0 | 1 => self.out.extend([option, value.to_vec()]),
            which => {
                option.extend(if short && which == 2 { b"" } else { b"=" as &[u8] });
                self.out.push([&option, value].concat());
            }
        }
    }

    /// Letters of flags, then perhaps one of an argument with its value, or letters that may be unknown.
    fn cluster(&mut self) {
        let few = self.rng.between(1, 3);
        let mut letters: String = (0..few).filter(|_| !self.flags.is_empty()).map(|_| *self.rng.pick(&self.flags)).collect();
        let mut value: &[u8] = b"";
        match self.rng.below(4) {
            0 | 1 if !self.arguments.is_empty() => {
                letters.push(*self.rng.pick(&self.arguments));
                value = *self.rng.pick(&VALUES);
            }
            2 => letters += *self.rng.pick(&["zx", "7z", "17", "-z", "€z", "\0\0", "l", "7"]),
            _ => {}
        }
        self.out.push([b"-", letters.as_bytes(), value].concat());
    }

    /// An option or a cluster, with bytes in it that are not UTF-8.
    fn spoilt(&mut self) {
        match self.rng.chance(1, 2) {
            true => self.option(),
            false => self.cluster(),
        }
        let broken = *self.rng.pick(&BROKEN);
        if let Some(argument) = self.out.last_mut() {
            let at = self.rng.below(argument.len() + 1);
            argument.splice(at..at, broken.iter().copied());
        }
    }
}
