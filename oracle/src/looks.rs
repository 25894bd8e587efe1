//! A careful run: a second reading of the rules, beside the definitions in crates/rules/specs. It is of the arguments and of the
//! form's letters alone, and looks at no item.
//!
//! An argument before the first `--` looks like options if it begins with a dash and is longer than that. A run takes such a one for
//! a word where no option has one of its letters, and where its name is not UTF-8. A careful run that would be accepted is refused
//! with 50 for the first of them.
//!
//! On a line of commands an option is one of any form of the table, and the first argument, which is the command word, may look as
//! it likes.

use crate::commands::Table;
use crate::format::*;

/// Begins with a dash, and is longer than `-`.
pub fn looks_like_options(argument: &[u8]) -> bool {
    argument.len() > 1 && argument[0] == b'-'
}

/// The arguments before the first `--`, then those from it on.
pub fn at_marker(arguments: &[Vec<u8>]) -> (&[Vec<u8>], &[Vec<u8>]) {
    let marker = arguments.iter().position(|argument| argument == b"--");
    arguments.split_at(marker.unwrap_or(arguments.len()))
}

/// What an argument before the first `--` is read as.
#[derive(Clone, Copy, Debug, PartialEq, Eq)]
enum As {
    /// a word that does not look like options
    Word,
    /// options, so many items with a value
    Options(usize),
    /// a word, since no option has this letter, or since its name is not UTF-8
    Misread(Option<char>),
}

/// An argument that looks like options and is read as a word.
#[derive(Clone, Copy, Debug, PartialEq, Eq)]
pub struct Misread {
    pub argument: usize,
    pub place: usize,
    /// the first that no option has; none where the name is not UTF-8
    pub letter: Option<char>,
}

/// How a line is read that has no ambiguous letter.
#[derive(Debug, Default, PartialEq, Eq)]
pub struct Reading {
    pub items: usize,
    /// in their order: a careful run is refused for the first
    pub misread: Vec<Misread>,
}

impl Reading {
    pub fn of(form: &Form, arguments: &[Vec<u8>]) -> Reading {
        Reading::with(&Letters { flags: form.letters(FLAG), arguments: form.letters(ARGUMENT) }, arguments)
    }

    /// Of a line of commands whose first argument is the command word.
    pub fn of_commands(table: &Table, arguments: &[Vec<u8>]) -> Reading {
        let letters = Letters { flags: table.letters(FLAG), arguments: table.letters(ARGUMENT) };
        let mut reading = Reading::with(&letters, arguments);
        reading.misread.retain(|word| word.argument > 0);
        reading
    }

    fn with(letters: &Letters, arguments: &[Vec<u8>]) -> Reading {
        let (before, behind) = at_marker(arguments);
        let (mut place, mut misread) = (0, Vec::new());
        for (argument, text) in before.iter().enumerate() {
            place += match letters.read(text) {
                As::Word => 1,
                As::Options(items) => items,
                As::Misread(letter) => {
                    misread.push(Misread { argument, place, letter });
                    1
                }
            };
        }
        Reading { items: place + behind.len(), misread }
    }
}

/// The short names of the flags, and those of the arguments.
struct Letters {
    flags: Vec<char>,
    arguments: Vec<char>,
}

impl Letters {
    fn read(&self, argument: &[u8]) -> As {
        match argument {
            [b'-', b'-', long @ ..] => read_long(long),
            [b'-', first, more @ ..] if more.contains(&b'=') => read_value(*first),
            [b'-', short @ ..] if !short.is_empty() => self.read_short(short),
            _ => As::Word,
        }
    }

    /// Behind one dash, where no `=` stands behind the first byte.
    fn read_short(&self, name: &[u8]) -> As {
        match std::str::from_utf8(name) {
            Err(_) => As::Misread(None),
            // whether an option has it or not
            Ok(letters) if letters.chars().count() == 1 => As::Options(1),
            Ok(letters) => self.read_cluster(letters),
        }
    }

    /// Flags, up to an argument's letter, whose value is the rest.
    fn read_cluster(&self, letters: &str) -> As {
        let mut rest = letters.chars();
        let mut items = 0;
        while let Some(letter) = rest.next() {
            items += 1;
            if self.arguments.contains(&letter) {
                return As::Options(items + usize::from(!rest.as_str().is_empty()));
            }
            if !self.flags.contains(&letter) {
                return As::Misread(Some(letter));
            }
        }
        As::Options(items)
    }
}

/// Behind two dashes: a name, and a value if there is a `=`.
fn read_long(long: &[u8]) -> As {
    let equals = long.iter().position(|byte| *byte == b'=');
    match std::str::from_utf8(&long[..equals.unwrap_or(long.len())]) {
        Ok(_) => As::Options(1 + usize::from(equals.is_some())),
        Err(_) => As::Misread(None),
    }
}

/// One byte of name, and a value.
fn read_value(name: u8) -> As {
    match name.is_ascii() {
        true => As::Options(2),
        false => As::Misread(None),
    }
}

#[cfg(test)]
mod tests {
    use super::*;
    use crate::commands::{self, Command};
    use crate::notation;

    const FORM: &str = "switch(-v); switch(-\\xc3\\xa9); switch(-=); optional(text(-w --width)); many(operand)";

    fn read(argument: &[u8]) -> As {
        let form = notation::parse(FORM).expect("a form");
        Letters { flags: form.letters(FLAG), arguments: form.letters(ARGUMENT) }.read(argument)
    }

    fn reading(arguments: &[&[u8]]) -> Reading {
        let arguments: Vec<Vec<u8>> = arguments.iter().map(|a| a.to_vec()).collect();
        Reading::of(&notation::parse(FORM).expect("a form"), &arguments)
    }

    fn misread(argument: usize, place: usize, letter: char) -> Misread {
        Misread { argument, place, letter: Some(letter) }
    }

    #[test]
    fn words_begin_with_no_dash_or_are_one() {
        for argument in [b"" as &[u8], b"a", b"-", b"a-b", b"=", b"\xff", b" -v"] {
            assert_eq!(read(argument), As::Word);
            assert!(!looks_like_options(argument));
        }
        for argument in [b"--" as &[u8], b"-v", b"-\xff", b"---"] {
            assert!(looks_like_options(argument));
        }
    }

    #[test]
    fn long_names_are_utf8_up_to_the_first_equals() {
        for (argument, items) in [("--width", 1), ("--x", 1), ("---", 1), ("--é", 1), ("--=", 2), ("--x=", 2), ("--x=y=z", 2)] {
            assert_eq!(read(argument.as_bytes()), As::Options(items), "{argument}");
        }
        assert_eq!(read(b"--x=\xff"), As::Options(2));
        for argument in [b"--\xff" as &[u8], b"--x\xff", b"--\xff=x", b"--\xc3=\xa9"] {
            assert_eq!(read(argument), As::Misread(None));
        }
    }

    #[test]
    fn one_letter_is_an_option_whichever_it_is() {
        for argument in ["-v", "-z", "-=", "-é", "-😀", "-\0"] {
            assert_eq!(read(argument.as_bytes()), As::Options(1), "{argument}");
        }
        assert_eq!([b"-\xff", b"-\xc3"].map(|a| read(a)), [As::Misread(None); 2]);
    }

    #[test]
    fn clusters_are_flags_up_to_an_argument() {
        let options = [("-vv", 2), ("-év", 2), ("-vw", 2), ("-vwx", 3), ("-évé", 3), ("-w-v", 2), ("-ww", 2), ("-=v", 2)];
        for (argument, items) in options {
            assert_eq!(read(argument.as_bytes()), As::Options(items), "{argument}");
        }
        let unknown = [("-vx", 'x'), ("-xv", 'x'), ("-vxw", 'x'), ("-yx", 'y'), ("-v-", '-'), ("-é€w", '€'), ("-v\0", '\0')];
        for (argument, letter) in unknown {
            assert_eq!(read(argument.as_bytes()), As::Misread(Some(letter)), "{argument}");
        }
        // however many known letters stand before the bytes that are not UTF-8, and whichever
        for argument in [b"-v\xff" as &[u8], b"-x\xff", b"-w\xff", b"-\xffv"] {
            assert_eq!(read(argument), As::Misread(None));
        }
    }

    #[test]
    fn a_later_equals_leaves_one_byte_of_name() {
        for argument in [b"-v=" as &[u8], b"-v\xff=7", b"-vx=7", b"-==", b"-x==\xff"] {
            assert_eq!(read(argument), As::Options(2));
        }
        assert_eq!(read("-é=7".as_bytes()), As::Misread(None));
        assert_eq!(read("-éx=7".as_bytes()), As::Misread(None));
    }

    #[test]
    fn places_count_the_items_before() {
        let line = reading(&[b"-vwx", b"--width=7", b"a", b"-", b"-vx", b"-zz", b"--", b"-zz", b"--"]);
        assert_eq!(line, Reading { items: 12, misread: vec![misread(4, 7, 'x'), misread(5, 8, 'z')] });
        let name = Misread { argument: 1, place: 1, letter: None };
        assert_eq!(reading(&[b"-w", "-é=7".as_bytes()]), Reading { items: 2, misread: vec![name] });
    }

    #[test]
    fn nothing_is_misread_behind_the_first_marker() {
        for line in [&[b"--" as &[u8], b"-zz"] as &[&[u8]], &[b"-w", b"--", b"-zz", b"--\xff"], &[b"-v", b"--", b"--", b"-17"]] {
            assert_eq!(reading(line), Reading { items: line.len(), misread: Vec::new() });
        }
    }

    /// The table of these forms, each under a long name.
    fn table(entries: &[(&str, &str)]) -> Table {
        let form = |text: &str| notation::parse(text).expect("a form").write();
        let commands: Vec<Command> = entries.iter().map(|(name, text)| Command::new(&[(LONG, name)], form(text))).collect();
        Table::check(&commands::write(&commands)).expect("a table")
    }

    fn commanded(table: &Table, arguments: &[&[u8]]) -> Reading {
        Reading::of_commands(table, &arguments.iter().map(|a| a.to_vec()).collect::<Vec<_>>())
    }

    #[test]
    fn the_letters_of_all_forms_are_known() {
        let two = table(&[("wear", "switch(-1); many(operand)"), ("log", "switch(-2); optional(text(-s)); many(operand)")]);
        assert_eq!(commanded(&two, &[b"wear", b"-12"]), Reading { items: 3, misread: Vec::new() });
        assert_eq!(commanded(&two, &[b"wear", b"-1s7"]), Reading { items: 4, misread: Vec::new() });
        assert_eq!(commanded(&two, &[b"log", b"-17", b"-21x"]).misread, [misread(1, 1, '7'), misread(2, 2, 'x')]);
        let alone = |line: &[Vec<u8>]| Reading::of(&two.forms[0], line).misread;
        assert_eq!(alone(&[b"wear".to_vec(), b"-12".to_vec()]), [misread(1, 1, '2')]);
        let name = Misread { argument: 1, place: 1, letter: None };
        assert_eq!(commanded(&two, &[b"wear", b"-1\xff"]).misread, [name]);
    }

    #[test]
    fn the_command_word_may_look_as_it_likes() {
        let two = table(&[("-17", "many(operand)"), ("-12", "count(flag(-1)); switch(-2); many(operand)")]);
        assert_eq!(commanded(&two, &[b"-17"]), Reading { items: 1, misread: Vec::new() });
        assert_eq!(commanded(&two, &[b"-17", b"-17"]), Reading { items: 2, misread: vec![misread(1, 1, '7')] });
        // a command word that is options counts as its letters do
        assert_eq!(commanded(&two, &[b"-12", b"-1", b"-17"]), Reading { items: 4, misread: vec![misread(2, 3, '7')] });
        assert_eq!(commanded(&two, &["-é=7".as_bytes(), b"a"]), Reading { items: 2, misread: Vec::new() });
    }

    #[test]
    fn letters_are_those_of_nodes() {
        let mut form = notation::parse("switch(-v -x)").expect("a form");
        let line = [b"-vx".to_vec()];
        assert_eq!(Reading::of(&form, &line), Reading { items: 2, misread: Vec::new() });
        form.nodes[0].q = 1;
        assert_eq!(Reading::of(&form, &line), Reading { items: 1, misread: vec![misread(0, 0, 'x')] });
    }
}
