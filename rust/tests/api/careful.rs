//! Lines on which an argument that looks like options would be a word: refused with 50, but for `as_bpaf`.

use std::ffi::{OsStr, OsString};
use std::os::unix::ffi::{OsStrExt, OsStringExt};

use silverpoise::{
    long, positional, short, Answer, Chosen, CommandTable, Commands, Form, ItemKind, Line, Mark, Node, ReadError, Reader,
    Reason, Takes, Text, TypedForm, UsedBy, Value, Values,
};

fn text() -> Node {
    Node::positional(Takes::Text)
}

fn limit() -> Node {
    Node::argument(short('l').long("limit"), Takes::Text)
}

/// The form of docs/FORMAT.md, 15.4.
fn form() -> Form {
    Form::of([limit().optional(), Node::switch(short('v')), text().many()]).unwrap()
}

fn bytes(args: &[&[u8]]) -> Vec<OsString> {
    args.iter().map(|arg| OsString::from_vec(arg.to_vec())).collect()
}

/// Number, place and reason; 0 where the line is accepted.
fn refused<V>(read: &Result<V, ReadError>) -> (u32, Option<usize>, Option<Reason>) {
    read.as_ref().map_or_else(|error| (error.number(), error.place(), error.reason()), |_| (0, None, None))
}

/// The examples of docs/FORMAT.md, 15.4.
#[test]
fn examples() {
    let letter = |place: usize, letter: char| (50, Some(place), Some(Reason::UnknownLetter(letter)));
    let expected: [(&[&[u8]], _); 17] = [
        (&[b"-17"], letter(0, '1')),
        (&[b"a", b"-17"], letter(1, '1')),
        (&[b"-l", b"-17"], letter(1, '1')),
        (&[b"--limit", b"-17"], letter(1, '1')),
        (&[b"-vx"], letter(0, 'x')),
        (&[b"a", b"-l-17", b"-", b"-x7", b"-18", b"--", b"-19"], letter(4, 'x')),
        (&[b"-\xff"], (50, Some(0), Some(Reason::NotUtf8))),
        (&[b"-\xc3\xa9=7"], (50, Some(0), Some(Reason::NotUtf8))),
        (&[b"-l-17"], (0, None, None)),
        (&[b"-l=-17"], (0, None, None)),
        (&[b"--limit=-17"], (0, None, None)),
        (&[b"-l-foo"], (0, None, None)),
        (&[b"-l", b"-"], (0, None, None)),
        (&[b"--", b"-17"], (0, None, None)),
        (&[b"-"], (0, None, None)),
        (&[b"-x"], (27, Some(0), Some(Reason::Unnamed))),
        (&[b"-17", b"-l"], (22, Some(1), None)),
    ];
    let (careful, plain) = (form(), form().as_bpaf());
    for (args, answer) in expected {
        let args = bytes(args);
        assert_eq!(refused(&careful.read_values(&args)), answer, "{args:?}");
        let as_bpaf = if answer.0 == 50 { (0, None, None) } else { answer };
        assert_eq!(refused(&plain.read_values(&args)), as_bpaf, "{args:?}");
    }
}

/// Whether an argument looks like options and is none, read from its bytes and the letters v, w and l of the options.
fn misread(argument: &OsStr) -> bool {
    let name = match argument.as_bytes() {
        [b'-', b'-', name @ ..] => return std::str::from_utf8(name.split(|byte| *byte == b'=').next().unwrap()).is_err(),
        [b'-', name @ ..] if !name.is_empty() => name,
        _ => return false,
    };
    let whole = if name[1..].contains(&b'=') { &name[..1] } else { name };
    let Ok(name) = std::str::from_utf8(whole) else { return true };
    let known = name.chars().take_while(|letter| *letter == 'v').count();
    let first = name.chars().nth(known);
    name.chars().count() > 1 && first.is_some_and(|letter| !"wl".contains(letter))
}

/// Every line of two of these words, by both rules: they differ by 50 alone, where the plain line is accepted and an
/// argument before `--` is misread.
#[test]
fn careful_and_plain_lines() {
    let number = Node::argument(short('w'), Takes::Number);
    let careful = Form::of([limit().optional(), number.optional(), Node::switch(short('v')), text().many()]).unwrap();
    let plain = careful.clone().as_bpaf();
    let words = bytes(&[
        b"-17",
        b"-12x",
        b"-xh",
        b"-v\xff",
        b"-\xc3\xa9=7",
        b"--\xff",
        b"-l",
        b"--limit",
        b"-w",
        b"-v",
        b"-vl-17",
        b"-l=-17",
        b"--",
        b"-",
        b"lock",
    ]);
    let (mut reader, mut counts) = (Reader::new(), [0; 3]);
    for (first, second) in words.iter().flat_map(|first| words.iter().map(move |second| (first, second))) {
        let line = [first.as_os_str(), second.as_os_str()];
        let (read, expected) = (reader.read_values(&careful, &line), plain.read_values(&line));
        let end = line.iter().position(|arg| *arg == "--").unwrap_or(line.len());
        let at_fault = line[..end].iter().position(|argument| misread(argument));
        match (&expected, at_fault) {
            (Ok(accepted), Some(argument)) => {
                let error = read.unwrap_err();
                let place = accepted.items().iter().position(|item| item.argument == argument);
                assert_eq!((error.number(), error.place(), error.tries()), (50, place, accepted.tries()), "{line:?}");
                assert_eq!((error.items(), error.missing()), (accepted.items().to_vec(), &[][..]), "{line:?}");
                counts[0] += 1;
            }
            _ => {
                counts[if expected.is_ok() { 1 } else { 2 }] += 1;
                assert_eq!(read, expected, "{line:?}");
            }
        }
    }
    assert!(counts.iter().all(|count| *count > 30), "{counts:?}");
}

/// What is shown of a line of the form that is refused with 50.
fn shown<const N: usize>(fields: [Node; N], args: &[impl AsRef<OsStr>]) -> String {
    let error = Form::of(fields).unwrap().read_values(args).unwrap_err();
    assert_eq!(error.number(), 50);
    error.with_program("wear").to_string()
}

const AFTER: &str = "to be a word it must come after `--`";

#[test]
fn an_operand() {
    let words = "`-17` looks like options and was read as a word: no option has the letter `1`";
    assert_eq!(shown([text()], &["-17"]), format!("{words}; {AFTER}\n  wear -17\n       ^^^"));
    // the option before it is a flag, or its value is another word
    let switch = || Node::switch(short('v'));
    assert_eq!(shown([switch(), text()], &["-v", "-17"]), format!("{words}; {AFTER}\n  wear -v -17\n          ^^^"));
    let fields = || [limit().or(text()).many()];
    assert_eq!(shown(fields(), &["-l", "a", "-17"]), format!("{words}; {AFTER}\n  wear -l a -17\n            ^^^"));
    assert_eq!(shown(fields(), &["-la", "-17"]), format!("{words}; {AFTER}\n  wear -la -17\n           ^^^"));
    // an operand that comes before `--` cannot be given so
    assert_eq!(shown([text().non_strict()], &["-17"]), format!("{words}\n  wear -17\n       ^^^"));
    let either = text().non_strict().or(text()).many();
    assert_eq!(shown([either], &["-17"]), format!("{words}; {AFTER}\n  wear -17\n       ^^^"));
}

#[test]
fn a_name_that_is_not_utf8() {
    let words = format!("looks like options and was read as a word: its name is not UTF-8; {AFTER}");
    let args = bytes(&[b"-v\xff"]);
    assert_eq!(shown([text()], &args), format!("`-v\\xff` {words}\n  wear -v\\xff\n       ^^^^^^"));
    assert_eq!(shown([text()], &["-é=7"]), format!("`-é=7` {words}\n  wear -é=7\n       ^^^^"));
}

/// What to write instead is accepted, and gives the same value.
#[test]
fn a_value() {
    let cause = "looks like options and was read as a word: no option has the letter";
    let is = |names: silverpoise::Names, args: &[&str], words: &str, instead: &str| {
        let fields = || [Node::switch(short('v')), Node::argument(names.clone(), Takes::Text)];
        assert!(shown(fields(), args).starts_with(&format!("{words}; as a value write `{instead}`\n")), "{args:?}");
        let (form, joined) = (Form::of(fields()).unwrap(), [instead]);
        let values = form.read_values(&joined).unwrap().into_values();
        assert_eq!(values[1], Value::Text(args.last().unwrap().as_ref()), "{args:?}");
    };
    is(short('l').long("limit"), &["-l", "-17"], &format!("`-17` {cause} `1`"), "-l=-17");
    is(short('l').long("limit"), &["--limit", "-vx"], &format!("`-vx` {cause} `x`"), "--limit=-vx");
    is(short('l'), &["-vl", "-17"], &format!("`-17` {cause} `1`"), "-l=-17");
    is(short('='), &["-=", "-17"], &format!("`-17` {cause} `1`"), "-==-17");
    // `-é=-17` would be a word
    is(short('é'), &["-é", "-17"], &format!("`-17` {cause} `1`"), "-é-17");
    // and `-é-17` ambiguous
    let fields = [Node::flag(short('é')).many(), Node::argument(short('é'), Takes::Text).many()];
    let taken = [fields[1].clone(), fields[0].clone()];
    assert!(shown(taken, &["-é", "-17"]).starts_with(&format!("`-17` {cause} `1`\n")));
}

fn table() -> CommandTable {
    let wear = Form::of([limit().optional(), text().many()]).unwrap();
    let log = Form::of([Node::switch(short('1').short('é')), text().many()]).unwrap();
    CommandTable::of([(long("wear").long("-wx"), wear), (long("log"), log)]).unwrap()
}

/// The letters of all commands count; the command's own word may look like options.
#[test]
fn commands() {
    let (careful, plain) = (table(), table().as_bpaf());
    let error = careful.read_values(&["wear", "-17"]).unwrap_err();
    assert_eq!((error.command(), error.comparisons(), error.tries()), (Some(0), 1, 3));
    assert_eq!((error.number(), error.place(), error.reason()), (50, Some(1), Some(Reason::UnknownLetter('7'))));
    let words = "wear: `-17` looks like options and was read as a word: no option has the letter `7`";
    assert_eq!(error.to_string(), format!("{words}; {AFTER}\n  wear -17\n       ^^^"));
    assert_eq!(error.items()[0].mark, Mark::Used(UsedBy::Command));
    let value = careful.read_values(&["wear", "-l", "-17"]).unwrap_err().to_string();
    assert!(value.starts_with(&format!("{words}; as a value write `-l=-17`\n")), "{value}");
    assert_eq!(refused(&careful.read_values(&["-wx", "a"])), (0, None, None));
    assert_eq!(refused(&careful.read_values(&["-wx", "-wx"])).1, Some(1));
    assert_eq!(refused(&careful.read_values(&["log", "-1", "a"])), (0, None, None));
    let not_utf8 = bytes(&[b"log", b"-\xff"]);
    assert_eq!(refused(&careful.read_values(&not_utf8)), (50, Some(1), Some(Reason::NotUtf8)));
    for args in [&["wear", "-17"][..], &["wear", "-l", "-17"], &["-wx", "-wx"]] {
        let line = plain.read_values(args).unwrap();
        assert!(line.items().iter().skip(1).any(|item| item.kind == ItemKind::Word), "{args:?}");
    }
    // an ambiguous letter of another command
    let flag = Form::of([Node::switch(short('é'))]).unwrap();
    let wear = Form::of([Node::argument(short('é'), Takes::Text)]).unwrap();
    let both = CommandTable::of([(long("wear"), wear), (long("log"), flag)]).unwrap();
    let error = both.read_values(&["wear", "-é", "-17"]).unwrap_err();
    assert!(error
        .to_string()
        .starts_with("wear: `-17` looks like options and was read as a word: no option has the letter `1`\n"));
}

/// The rules are the table's, whatever those of its forms are.
#[test]
fn the_rules_of_a_table() {
    let plain = || Form::of([text()]).unwrap().as_bpaf();
    let table = CommandTable::of([(long("a"), plain())]).unwrap();
    assert_eq!(refused(&table.read_values(&["a", "-17"])).0, 50);
    assert_eq!(table, CommandTable::from_bytes(table.bytes()).unwrap());
    assert_eq!(refused(&table.clone().as_bpaf().read_values(&["a", "-17"])).0, 0);
    assert_eq!(table.as_bpaf().forms(), [plain()]);
}

struct Label;

impl Chosen for Label {
    type Value<'a> = &'a OsStr;
}

/// The same switch on forms with types, with help and for commands, by a reader and many lines at once.
#[test]
fn every_way_to_read() {
    let typed = || TypedForm::of((short('v').switch(), positional::<Text>())).unwrap();
    let (careful, plain, args) = (typed(), typed().as_bpaf(), ["-vx"]);
    let word = OsStr::new("-vx");
    let mut reader = Reader::new();
    for _ in 0..2 {
        assert_eq!((careful.read(&args).unwrap_err().number(), plain.read(&args)), (50, Ok((false, word))));
        assert_eq!((reader.read(&careful, &args).unwrap_err().number(), reader.read(&plain, &args)), (50, Ok((false, word))));
        assert_eq!(careful.read_line(&args).unwrap_err().number(), 50);
        assert_eq!(plain.read_line(&args).map(Line::into_values), Ok((false, word)));
        let lines = [["-vx"], ["a"], ["-v"]];
        let numbers = |form: &TypedForm<_>, reader: &mut Reader| -> Vec<u32> {
            reader.read_many(form, &lines).iter().map(|read| refused(read).0).collect()
        };
        assert_eq!((numbers(&careful, &mut reader), numbers(&plain, &mut reader)), (vec![50, 0, 20], vec![0, 0, 20]));
        let error = reader.read_many_values(careful.form(), &lines).remove(0).unwrap_err();
        assert_eq!(Err(error), careful.form().read_values(&lines[0]));
    }
    let commands = |form| Commands::<Label>::of([long("log").command(form, |Values((_, label))| label)]).unwrap();
    let args = ["log", "-vx"];
    assert_eq!(reader.read_command(&commands(plain), &args).unwrap_err().number(), 50);
    assert_eq!(commands(careful).read_line(&args).unwrap_err().number(), 50);
    let plain = commands(typed()).as_bpaf();
    assert_eq!((plain.read(&args), reader.read_command(&plain, &args)), (Ok(word), Ok(word)));
}

/// A form that is read by the plain rules stays so with help, and is another form.
#[test]
fn with_help() {
    let typed = || TypedForm::of((short('v').switch(), positional::<Text>())).unwrap();
    let args = ["-vx"];
    assert_eq!(typed().with_help().unwrap().read(&args).unwrap_err().number(), 50);
    let plain = [typed().as_bpaf().with_help().unwrap(), typed().with_help().unwrap().as_bpaf()];
    for form in plain {
        assert_eq!(form.read(&args), Ok(Answer::Values((false, OsStr::new("-vx")))));
    }
    assert_ne!(typed().form(), typed().as_bpaf().form());
    assert_eq!(typed().form().bytes(), typed().as_bpaf().form().bytes());
}
