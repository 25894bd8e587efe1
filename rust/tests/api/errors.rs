//! What people are shown for every refusal of a line.

use std::ffi::OsString;
use std::os::unix::ffi::OsStringExt;

use silverpoise::{long, short, Form, Node, ReadError, Takes};

fn text() -> Node {
    Node::positional(Takes::Text)
}

fn number() -> Node {
    Node::positional(Takes::Number)
}

fn weight() -> Node {
    Node::argument(short('w').long("weight"), Takes::Number)
}

fn limit() -> Node {
    Node::argument(short('l').long("limit"), Takes::Text)
}

fn switch(name: char) -> Node {
    Node::switch(short(name))
}

/// The number and what is shown.
fn shown<const N: usize>(fields: [Node; N], args: &[&str]) -> (u32, String) {
    let form = Form::of(fields).unwrap();
    let error = form.read_values(args).unwrap_err();
    (error.number(), error.with_program("wear").to_string())
}

fn is<const N: usize>(fields: [Node; N], args: &[&str], number: u32, words: &str) {
    assert_eq!(shown(fields, args), (number, words.to_string()));
}

#[test]
fn too_much() {
    let long = "x".repeat(32769);
    is([text()], &[&long], 5, "the arguments have 32769 bytes together, and at most 32768 are read");
    is([text()], &["a"; 257], 6, "there are 257 arguments, and at most 256 are read");
    let letters = format!("-{}", "v".repeat(257));
    is([Node::flag(short('v')).many()], &[&letters], 8, "the arguments are more than 256 options and words");
}

#[test]
fn an_ambiguous_letter() {
    let both =
        || [switch('v'), switch('é'), Node::flag(short('b')).optional(), Node::argument(short('b'), Takes::Text).optional()];
    is(
        both(),
        &["a", "-véb7"],
        9,
        "the letter `b` in `-véb7` may be a flag and may take a value: it must be given separately\n  \
         wear a -véb7\n            ^",
    );
    is(
        both(),
        &["-bv"],
        9,
        "the letter `b` in `-bv` may be a flag and may take a value: it must be given separately\n  wear -bv\n        ^",
    );
}

#[test]
fn something_missing() {
    is([text()], &[], 20, "an operand is required, and was not found");
    is([weight()], &[], 20, "`-w` or `--weight` is required, and was not found");
    let adjacent = "`-w` or `--weight` with its value in the same argument is required, and was not found";
    is([weight().adjacent()], &["-w", "7"], 20, adjacent);
    is([text().strict()], &[], 20, "an operand after `--` is required, and was not found");
    is([weight().guard(1..=5).last(), switch('v')], &["-v"], 20, "`-w` or `--weight` is required, and was not found");
    // the first field that looks in vain ends the run, and the others are not asked
    let fields = |first: Node| [first, weight().optional(), text().non_strict(), text().many()];
    is(fields(Node::flag(long("yes"))), &[], 20, "`--yes` is required, and was not found");
    is(fields(Node::flag(long("yes"))), &["--yes"], 20, "an operand before `--` is required, and was not found");
}

/// Where several looked in vain each of them is named, the first side of a choice first.
#[test]
fn either_of_several_missing() {
    is([limit().or(text())], &[], 20, "`-l` or `--limit`, or an operand is required, and was not found");
    is([text().or(limit())], &[], 20, "an operand, or `-l` or `--limit` is required, and was not found");
    is([Node::flag(short('v')).or(Node::flag(short('q')))], &[], 20, "`-v` or `-q` is required, and was not found");
    let flag = |name: char| Node::flag(short(name));
    is([flag('a').or(flag('b').or(flag('c')))], &[], 20, "`-a` or `-b` or `-c` is required, and was not found");
    let words = "an operand after `--`, or `-w` is required, and was not found";
    is([text().strict().or(Node::argument(short('w'), Takes::Text))], &[], 20, words);
    // an optional, a fallback and a repeat do without, and name nothing
    let fields = [weight().optional(), weight().fallback(9), text().many(), limit().last()];
    is(fields, &[], 20, "`-l` or `--limit` is required, and was not found");
}

/// Of a choice that was refused with 24 nothing is named, not even what its other side looked for in vain.
#[test]
fn only_what_is_missing_is_named() {
    let argument = |name: char| Node::argument(short(name), Takes::Text);
    let choice = || argument('v').or(text().non_strict()).or(argument('w'));
    is([choice()], &["--", "x"], 20, "`-w` is required, and was not found");
    is([choice()], &["--"], 20, "`-v`, or an operand before `--`, or `-w` is required, and was not found");
}

/// What is missing as data: the names, the number of the node, and the places that were looked at.
#[test]
fn what_is_missing() {
    let form = Form::of([switch('v'), limit().or(text().strict()), Node::flag(long("yes"))]).unwrap();
    let error = form.read_values(&["-v", "--"]).unwrap_err();
    let seen = |error: &ReadError| -> Vec<String> {
        error.missing().iter().map(|one| format!("{one}: {:?} {} {:?}", one.names, one.node, one.scope)).collect()
    };
    let first = "`-l` or `--limit`: [\"-l\", \"--limit\"] 1 0..2";
    assert_eq!(seen(&error), [first, "an operand after `--`: [] 2 0..2"]);
    let error = form.read_values(&["-v", "-lx", "a"]).unwrap_err();
    assert_eq!(seen(&error), ["`--yes`: [\"--yes\"] 4 0..4"]);
    // every other refusal misses nothing
    for (args, number) in [(&["-l"][..], 22), (&["x"], 23), (&["-lx", "--yes", "y"], 27)] {
        let error = form.read_values(args).unwrap_err();
        assert_eq!((error.number(), error.missing()), (number, &[][..]), "{args:?}");
    }
}

/// An option that the form does not have is said first, with its place, and then what is missing.
#[test]
fn an_unknown_option_and_something_missing() {
    let missing = "an operand is required, and was not found";
    is([text()], &["--limt=7"], 20, &format!("`--limt` is not a known option\n  wear --limt=7\n       ^^^^^^\n{missing}"));
    is([switch('v'), text()], &["-v", "-x"], 20, &format!("`-x` is not a known option\n  wear -v -x\n          ^^\n{missing}"));
    // the first of several, before the operand that they are not
    let first = format!("`-7` is not a known option\n  wear -7 --also\n       ^^\n{missing}");
    is([number()], &["-7", "--also"], 20, &first);
    // options that the form has are known, also where nothing takes them here
    is([switch('v'), text()], &["-v", "-v"], 20, missing);
    is(
        [weight().adjacent()],
        &["--weight", "7"],
        20,
        "`-w` or `--weight` with its value in the same argument is required, and was not found",
    );
}

#[test]
fn none_of_some() {
    is([text().some()], &[], 21, "an operand (one at least) is required, and was not found");
    // what is no number is not counted, and the fallback is not asked
    is([number().fallback(9).some().catch()], &["a"], 21, "an operand (one at least) is required, and was not found");
    is([text(), weight().some()], &["a"], 21, "`-w` or `--weight` (one at least) is required, and was not found");
    let choice = Node::flag(short('v')).or(Node::flag(short('q')));
    is([choice.some()], &[], 21, "`-v` or `-q` (one at least) is required, and was not found");
}

#[test]
fn a_value_missing() {
    is([switch('v'), weight()], &["-vw"], 22, "`-w` needs a value, and none follows it\n  wear -vw\n         ^");
    is([weight()], &["--weight"], 22, "`--weight` needs a value, and none follows it\n  wear --weight\n       ^^^^^^^^");
    is([weight()], &["-w", "--", "7"], 22, "`-w` needs a value, and none follows it\n  wear -w -- 7\n       ^^");
    is(
        [weight()],
        &["-w", "-7"],
        22,
        "`-w` needs a value, and `-7` after it is an option (as its value: `-w=-7`)\n  wear -w -7\n       ^^",
    );
    is(
        [weight()],
        &["--weight", "--x=1"],
        22,
        "`--weight` needs a value, and `--x=1` after it is an option (as its value: `--weight=--x=1`)\n  \
         wear --weight --x=1\n       ^^^^^^^^",
    );
    // `-é=-7` would be a word
    is(
        [Node::argument(short('é'), Takes::Text)],
        &["-é", "-7"],
        22,
        "`-é` needs a value, and `-7` after it is an option\n  wear -é -7\n       ^^",
    );
    is([text(), weight()], &["-w7"], 22, "`-w` needs a value, and `7` after it is taken already\n  wear -w7\n        ^");
}

#[test]
fn words_on_the_wrong_side() {
    is([text().strict()], &["a"], 23, "`a` must come after `--`\n  wear a\n       ^");
    is([text().non_strict()], &["--", "ab"], 24, "`ab` comes after `--`, and must come before it\n  wear -- ab\n          ^^");
}

#[test]
fn numbers() {
    let no_number = "is not a number from 0 to 4294967295";
    is([number()], &["4294967296"], 25, &format!("`4294967296` {no_number}\n  wear 4294967296\n       ^^^^^^^^^^"));
    is([weight()], &["--weight=-7"], 25, &format!("`-7` {no_number}\n  wear --weight=-7\n                ^^"));
    is([weight()], &["--weight="], 25, &format!("`` {no_number}\n  wear --weight=\n                ^"));
    is([number()], &[""], 25, &format!("`` {no_number}\n  wear \"\"\n       ^^"));
    is(
        [weight().guard(1..=5)],
        &["-w9"],
        26,
        "a number is out of its bounds; the word that was taken last is shown\n  wear -w9\n         ^",
    );
    is([weight().fallback(9).guard(1..=5)], &[], 26, "a number is out of its bounds, and no word was taken");
    // the place is that of the word that was taken last, here no number
    is(
        [text(), weight().fallback(9).guard(1..=5)],
        &["a"],
        26,
        "a number is out of its bounds; the word that was taken last is shown\n  wear a\n       ^",
    );
}

/// A sentence for each reason.
#[test]
fn left_over() {
    is(
        [Node::flag(short('v')).or(Node::flag(long("quiet")))],
        &["--quiet", "-v"],
        27,
        "`-v` lost to `--quiet` at place 0: they cannot be given together\n  wear --quiet -v\n               ^^",
    );
    is([switch('v')], &["-v", "-v"], 27, "`-v` is given twice: already at place 0\n  wear -v -v\n          ^^");
    is([switch('v')], &["-v=7"], 27, "`-v` is taken as a flag, and `7` is given to it as a value\n  wear -v=7\n          ^");
    is([switch('v')], &["-x=1"], 27, "`-x` is not a known option\n  wear -x=1\n       ^^");
    is([weight().optional()], &["--weights"], 27, "`--weights` is not a known option\n  wear --weights\n       ^^^^^^^^^");
    is([switch('v')], &["-"], 27, "`-` is read as an operand, and no operands are taken\n  wear -\n       ^");
    is([switch('v')], &["--", "-v"], 27, "`-v` is read as an operand, and no operands are taken\n  wear -- -v\n          ^^");
    is(
        [switch('v')],
        &["-v", "-vx"],
        27,
        "`-vx` is read as an operand, and no operands are taken\n  wear -v -vx\n          ^^^",
    );
    let letter = "`-v\\u{1b}x` is read as a word: no option has the letter `\\u{1b}`\n  wear a -v\\u{1b}x\n         ^^^^^^^^^";
    is([switch('v'), text()], &["a", "-v\u{1b}x"], 27, letter);
    is(
        [weight().adjacent().optional()],
        &["--weight", "7"],
        27,
        "`--weight` is not expected here\n  wear --weight 7\n       ^^^^^^^^",
    );
    is([text()], &["a", "b"], 27, "`b` is not expected here\n  wear a b\n         ^");
    let word = "`-é=7` is not expected here: it is read as a word, not as options\n  wear a -é=7\n         ^^^^";
    is([text()], &["a", "-é=7"], 27, word);
}

/// What a terminal would act on or leave out is escaped, in the sentence and in the line.
#[test]
fn what_is_not_printable() {
    let form = Form::of([switch('v')]).unwrap();
    let args = [&b"-v"[..], b"it's a\xff\x1b[0m\"\\", b"x"].map(|bytes| OsString::from_vec(bytes.to_vec()));
    let error = form.read_values(&args).unwrap_err();
    let words = r#"`it's a\xff\u{1b}[0m\"\\` is read as an operand, and no operands are taken
  -v "it's a\xff\u{1b}[0m\"\\" x
      ^^^^^^^^^^^^^^^^^^^^^^^"#;
    assert_eq!(error.to_string(), words);
    let args = ["\u{202e}\u{301}\u{a0}", "é語"];
    let words = "`\\u{202e}\\u{301}\\u{a0}` is read as an operand, and no operands are taken\n  \
                 \\u{202e}\\u{301}\\u{a0} é語\n  ^^^^^^^^^^^^^^^^^^^^^";
    assert_eq!(form.read_values(&args).unwrap_err().to_string(), words);
}

/// Of a long line only what stands about the place is shown.
#[test]
fn a_long_line() {
    let form = Form::of([Node::flag(short('x'))]).unwrap();
    let mut args = vec!["abcdefghi"; 30];
    args[20] = "-x";
    args[21] = "here";
    let error = form.read_values(&args).unwrap_err();
    let around = "abcdefghi ".repeat(10);
    let words = "`abcdefghi` is read as an operand, and no operands are taken";
    assert_eq!(error.to_string(), format!("{words}\n  {around}...\n  ^^^^^^^^^"));

    let number = Form::of([text().many(), weight()]).unwrap();
    let args: Vec<&str> = [&["abcdefghi"; 30][..], &["-w"]].concat();
    let error = number.read_values(&args).unwrap_err();
    let around = format!("...{}-w", "abcdefghi ".repeat(5));
    let under = " ".repeat(around.len() - 2);
    let words = "`-w` needs a value, and none follows it";
    assert_eq!(error.with_program("wear").to_string(), format!("{words}\n  {around}\n  {under}^^"));
}

#[test]
fn an_error_can_be_handed_up() {
    fn read() -> Result<(), Box<dyn std::error::Error + Send + Sync>> {
        Form::of([text()])?.read_values(&["a", "b"])?;
        Ok(())
    }
    let error = read().unwrap_err();
    assert_eq!(error.to_string(), "`b` is not expected here\n  a b\n    ^");
    let debug = "ReadError { number: 27, place: Some(1), tries: 1 }\n`b` is not expected here\n  a b\n    ^";
    assert_eq!(format!("{error:?}"), debug);
}
