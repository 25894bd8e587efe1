//! Commands with types: an enum of the caller's.

use std::ffi::{OsStr, OsString};
use std::os::unix::ffi::OsStrExt;

use silverpoise::{long, positional, short, Chosen, Commands, FormError, Mark, Names, Reader, Text, TypedForm, UsedBy, Values};

#[derive(Clone, Debug, PartialEq)]
enum Job<'a> {
    Wear { limit: Option<u32>, cradle: bool, label: &'a OsStr },
    Pair { force: bool, locks: [&'a OsStr; 2] },
    Log { since: u32, labels: Vec<&'a OsStr> },
}

impl Chosen for Job<'_> {
    type Value<'a> = Job<'a>;
}

/// The workshop's commands: `wear` or `w`, `pair`, and `log` or `list`.
fn workshop() -> Commands<Job<'static>> {
    let limit = short('l').long("limit").argument::<u32>().guard(1..=9999).optional();
    let wear = TypedForm::of((limit, short('1').switch(), positional::<Text>())).unwrap();
    let pair = TypedForm::of((short('f').long("force").switch(), positional::<Text>(), positional::<Text>())).unwrap();
    let log = TypedForm::of((long("since").argument::<u32>().fallback(7), positional::<Text>().many())).unwrap();
    Commands::<Job>::of([
        short('w').long("wear").command(wear, |Values((limit, cradle, label))| Job::Wear { limit, cradle, label }),
        long("pair").command(pair, |Values((force, first, second))| Job::Pair { force, locks: [first, second] }),
        long("log").long("list").command(log, |Values((since, labels))| Job::Log { since, labels }),
    ])
    .unwrap()
}

fn text(text: &str) -> &OsStr {
    OsStr::new(text)
}

#[test]
fn each_command_gives_its_variant() {
    let commands = workshop();
    let wear = Job::Wear { limit: Some(7), cradle: true, label: text("lock") };
    assert_eq!(commands.read(&["wear", "-1l7", "lock"]), Ok(wear.clone()));
    assert_eq!(commands.read(&["w", "lock", "-1", "--limit=7"]), Ok(wear));
    assert_eq!(commands.read(&["pair", "a", "b"]), Ok(Job::Pair { force: false, locks: [text("a"), text("b")] }));
    for name in ["log", "list"] {
        assert_eq!(commands.read(&[name]), Ok(Job::Log { since: 7, labels: vec![] }));
    }
    // behind the command a command's name is a word like any other, and `--` ends the options
    assert_eq!(commands.read(&["log", "--", "log", "-1"]), Ok(Job::Log { since: 7, labels: vec![text("log"), text("-1")] }));
}

/// Which command, how many names were compared, and who used the items.
#[test]
fn what_was_read() {
    let commands = workshop();
    let args = ["pair", "-f", "a", "b"];
    let line = commands.read_line(&args).unwrap();
    assert_eq!((line.command(), line.comparisons(), line.tries()), (Some(1), 3, 3));
    let marks: Vec<Mark> = line.items().iter().map(|item| item.mark).collect();
    let by = |field| Mark::Used(UsedBy::Field(field));
    assert_eq!(marks, [Mark::Used(UsedBy::Command), by(0), by(1), by(2)]);
    assert_eq!(line.into_values(), Job::Pair { force: true, locks: [text("a"), text("b")] });

    let compared = |args: &[&str]| commands.read_line(args).map(|line| (line.command(), line.comparisons())).unwrap();
    assert_eq!((compared(&["wear", "a"]), compared(&["w", "a"])), ((Some(0), 1), (Some(0), 2)));
    assert_eq!((compared(&["log"]), compared(&["list"])), ((Some(2), 4), (Some(2), 5)));
}

/// A form alone has no command.
#[test]
fn a_form_has_no_command() {
    let form = TypedForm::of((positional::<Text>(),)).unwrap();
    let line = form.read_line(&["wear"]).unwrap();
    assert_eq!((line.command(), line.comparisons()), (None, 0));
    let error = form.read(&["wear", "lock"]).unwrap_err();
    assert_eq!((error.command(), error.comparisons()), (None, 0));
}

/// The number of the refusal, the command and the comparisons, and what is shown.
fn refused(args: &[&str]) -> (u32, Option<usize>, u32, String) {
    let error = workshop().read(args).unwrap_err().with_program("bench");
    (error.number(), error.command(), error.comparisons(), error.to_string())
}

#[test]
fn no_command() {
    let commands = "the commands are wear, pair, log";
    let shown =
        |words: &str, line: &str, under: &str| (31, None, 5, format!("{words}; {commands}\n  bench {line}\n        {under}"));
    assert_eq!(refused(&["wera", "lock"]), shown("`wera` is not a command", "wera lock", "^^^^"));
    assert_eq!(refused(&[""]), shown("`` is not a command", "\"\"", "^^"));
    // only the first item is looked at, and an option is none
    assert_eq!(refused(&["-1", "wear"]), shown("`-1` is not a command", "-1 wear", "^^"));
    assert_eq!(refused(&["--wear=7"]), shown("`--wear` is not a command", "--wear=7", "^^^^^^"));
    let behind = "`wear` comes after `--`, and a command must come before it";
    assert_eq!(refused(&["--", "wear"]), shown(behind, "-- wear", "   ^^^^"));
    assert_eq!(refused(&[]), (31, None, 5, "a command is required: wear, pair, log".to_string()));
    assert_eq!(refused(&["--"]), (31, None, 5, "a command is required: wear, pair, log".to_string()));
}

/// What is refused under a command has its name before it, each sentence.
#[test]
fn refused_under_a_command() {
    assert_eq!(refused(&["wear"]), (20, Some(0), 1, "wear: an operand is required, and was not found".to_string()));
    let mistyped = "pair: `--forc` is not a known option\n  bench pair a --forc\n               ^^^^^^\n";
    let missing = "pair: an operand is required, and was not found";
    assert_eq!(refused(&["pair", "a", "--forc"]), (20, Some(1), 3, format!("{mistyped}{missing}")));
    let value = "wear: `-l` needs a value, and none follows it\n  bench w -1l\n            ^";
    assert_eq!(refused(&["w", "-1l"]), (22, Some(0), 2, value.to_string()));
    let left = "pair: `c` is not expected here\n  bench pair a b c\n                 ^";
    assert_eq!(refused(&["pair", "a", "b", "c"]), (27, Some(1), 3, left.to_string()));
    // an option of another command splits a cluster, and is unknown all the same
    let other = "log: `-f` is not a known option\n  bench log -f1\n             ^";
    assert_eq!(refused(&["log", "-f1"]), (27, Some(2), 4, other.to_string()));
}

#[test]
fn refused_before_a_command() {
    let ambiguous =
        "the letter `l` in `-1l` is a flag of log and takes a value in wear: under every command it must be given separately";
    let wear = TypedForm::of((short('1').switch(), short('l').argument::<Text>().optional())).unwrap();
    let log = TypedForm::of((short('l').switch(),)).unwrap();
    let commands = Commands::<Number>::of([
        long("wear").command(wear, |Values((_, limit))| u32::from(limit.is_some())),
        long("log").command(log, |Values((long,))| 2 + u32::from(long)),
    ])
    .unwrap();
    for command in ["wear", "log", "other"] {
        let error = commands.read(&[command, "-1l"]).unwrap_err();
        assert_eq!((error.number(), error.place(), error.command(), error.comparisons()), (9, Some(2), None, 0));
        let under = " ".repeat(command.len() + 3);
        assert_eq!(error.to_string(), format!("{ambiguous}\n  {command} -1l\n  {under}^"));
    }
    assert_eq!(commands.table().ambiguous_letters(), ['l']);
    // given apart the letter is read, by each command in its way
    assert_eq!((commands.read(&["wear", "-1", "-l", "7"]), commands.read(&["log", "-l"])), (Ok(1), Ok(3)));
    assert_eq!(refused(&["a"; 257]).0, 6);
    assert_eq!(refused(&["a"; 257]).3, "there are 257 arguments, and at most 256 are read");
}

/// Stands for a value that borrows nothing.
enum Number {}

impl Chosen for Number {
    type Value<'a> = u32;
}

/// Commands are made once and read any number of lines, whose arguments need not outlive them; texts are the caller's bytes.
#[test]
fn many_lines() {
    let commands = workshop();
    let mut reader = Reader::new();
    for _ in 0..2 {
        let args: Vec<OsString> = vec!["log".into(), "lock".into()];
        let Job::Log { labels, .. } = reader.read_command(&commands, &args).unwrap() else { panic!("another command") };
        assert_eq!(labels[0].as_bytes().as_ptr(), args[1].as_bytes().as_ptr());
        assert_eq!(reader.read_command(&commands, &["pair"]).unwrap_err().number(), 20);
    }
}

/// What is made of the values may use what surrounds it, and commands go from thread to thread.
#[test]
fn values_are_made_by_any_function() {
    let added = 7;
    let number = || TypedForm::of((positional::<u32>(),)).unwrap();
    let commands = Commands::<Number>::of([
        long("add").command(number(), move |Values((n,))| n + added),
        long("twice").command(number(), |values| 2 * values.0 .0),
    ])
    .unwrap();
    let read = std::thread::spawn(move || (commands.read(&["add", "1"]), commands.read(&["twice", "4"])));
    assert_eq!(read.join().unwrap(), (Ok(8), Ok(8)));
}

/// A text that a fallback gives lives as long as the commands.
#[test]
fn texts_of_fallbacks() {
    struct Label;
    impl Chosen for Label {
        type Value<'a> = &'a OsStr;
    }
    let form = TypedForm::of((positional::<Text>().fallback("bench"),)).unwrap();
    let commands = Commands::<Label>::of([long("log").command(form, |Values((label,))| label)]).unwrap();
    assert_eq!((commands.read(&["log"]), commands.read(&["log", "a"])), (Ok(text("bench")), Ok(text("a"))));
}

fn made(names: impl IntoIterator<Item = Names>) -> Result<Commands<Number>, FormError> {
    let form = || TypedForm::of((short('v').switch(),)).unwrap();
    Commands::of(names.into_iter().map(|names| names.command(form(), |Values((v,))| u32::from(v))))
}

#[test]
fn commands_that_cannot_be() {
    let refused = |names: Vec<Names>| {
        let error = made(names).unwrap_err();
        assert_eq!((error.number(), error.place()), (11, None));
        (error.command(), error.to_string())
    };
    let words = |words: &str| words.to_string();
    assert_eq!(refused(vec![]), (None, words("the table has 0 commands, and 1 to 32 are allowed")));
    assert_eq!(refused(vec![long("a"); 33]), (None, words("the table has 33 commands, and 1 to 32 are allowed")));
    assert_eq!(refused(vec![long("a"), short('w')]), (Some(1), words("command 1: it has no long name")));
    assert_eq!(refused(vec![Names::default()]), (Some(0), words("command 0: it has no long name")));
    let names = (0..70_000).fold(long("a"), |names, _| names.short('v'));
    assert_eq!(refused(vec![names]), (Some(0), words("command 0: it has 70001 names, and at most 128 are allowed")));
    let area = "command 0: its names have 131072 bytes, and at most 4096 are allowed";
    assert_eq!(refused(vec![long("x".repeat(1 << 17))]), (Some(0), words(area)));
}

/// At the limits commands are accepted; of two with the same name the first is read.
#[test]
fn limits_and_equal_names() {
    let commands = made(vec![long("a"); 32]).unwrap();
    assert_eq!(commands.read_line(&["a", "-v"]).map(|line| (line.command(), line.comparisons())), Ok((Some(0), 1)));
    assert_eq!(commands.read(&["b"]).unwrap_err().comparisons(), 32);
    let names = (0..127).fold(long("x".repeat(4096 - 127)), |names, _| names.short('v'));
    let commands = made([names]).unwrap();
    assert_eq!(commands.read_line(&["v"]).map(|line| line.comparisons()), Ok(2));
    // one command alone, in words
    assert!(made([long("a")])
        .unwrap()
        .read(&["b"])
        .unwrap_err()
        .to_string()
        .starts_with("`b` is not a command; the command is a\n"));
    assert_eq!(format!("{commands:?}"), format!("{:?}", commands.table()));
}

/// A name is the whole text of an item: one that looks like an option, one of another script, an empty one.
#[test]
fn names_of_every_kind() {
    let commands = made([long("").long("--two words").long("-v").long("é")]).unwrap();
    for (args, value) in [(&[""][..], 0), (&["--two words"], 0), (&["-v", "-v"], 1), (&["é", "-v"], 1)] {
        assert_eq!(commands.read(args), Ok(value), "{args:?}");
    }
    assert_eq!(commands.read(&["--two words=7"]).unwrap_err().number(), 31);
    assert_eq!(commands.read(&["-v", "-x"]).unwrap_err().to_string(), "\"\": `-x` is not a known option\n  -v -x\n     ^^");
}
