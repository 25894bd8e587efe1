//! Wrong use is answered with an error: no panic, nothing undefined (these tests also run under valgrind).

use std::ffi::{OsStr, OsString};
use std::os::unix::ffi::OsStringExt;

use silverpoise::{long, short, Form, Names, Node, Takes};

fn any_words() -> Form {
    Form::of([Node::positional(Takes::Text).many()]).unwrap()
}

fn number(args: &[impl AsRef<OsStr>]) -> u32 {
    any_words().read_values(args).map_or_else(|error| error.number(), |_| 0)
}

#[test]
fn any_number_of_arguments() {
    for (count, expected) in [(0, 0), (256, 0), (257, 6), (65_535, 6), (65_536, 6), (65_537, 6), (200_000, 6)] {
        assert_eq!(number(&vec!["a"; count]), expected, "{count}");
    }
}

#[test]
fn any_length_of_arguments() {
    for (length, expected) in [(32_768, 0), (32_769, 5), (65_535, 5), (65_536, 5), (65_537, 5), (98_304, 5), (1 << 20, 5)] {
        assert_eq!(number(&["x".repeat(length)]), expected, "{length}");
        assert_eq!(number(&["a".to_string(), "x".repeat(length - 1)]), expected, "{length}");
        assert_eq!(number(&["x".repeat(length), String::new()]), expected, "{length}");
    }
    assert_eq!(number(&vec!["x".repeat(128); 256]), 0);
    assert_eq!(number(&vec!["x".repeat(256); 256]), 5);
}

/// A node of a hundred thousand nodes is refused by its size, without a deep call.
#[test]
fn any_depth() {
    let deep = (0..100_000).fold(Node::positional(Takes::Text), |node, _| node.optional());
    assert_eq!(Form::of([deep.clone()]).unwrap_err().number(), 1);
    assert_eq!(Form::of([deep.clone().or(deep)]).unwrap_err().number(), 1);
}

#[test]
fn any_names() {
    let of = |names: Names| Form::of([Node::switch(names)]).map_err(|error| error.number());
    assert_eq!(of(Names::default()).unwrap_err(), 3);
    assert_eq!(of(long("x".repeat(1 << 17))).unwrap_err(), 1);
    assert_eq!(of((0..70_000).fold(short('v'), |names, _| names.short('v'))).unwrap_err(), 1);
    let odd = of(short('\0').short('-').short('=').short('\u{10ffff}').long("").long("-").long("a=b\0")).unwrap();
    for line in ["-\0", "--=", "---", "-=", "-\u{10ffff}"] {
        let args = [line];
        let read = odd.read_values(&args).map(|line| line.into_values());
        let expected = if line == "--=" { Err(27) } else { Ok(vec![silverpoise::Value::YesNo(true)]) };
        assert_eq!(read.map_err(|error| error.number()), expected, "{line:?}");
    }
}

/// Every cut of a form, and every byte of it changed, is a form or an error; a form reads a line.
#[test]
fn damaged_forms() {
    let fields =
        [Node::argument(short('w').long("weight"), Takes::Number).guard(1..=9).optional(), Node::switch(short('v')).count()];
    let form = Form::of(fields).unwrap();
    let bytes = form.bytes();
    let mut accepted = 0;
    let mut try_form = |bytes: &[u8]| match Form::from_bytes(bytes) {
        Ok(form) => {
            accepted += 1;
            let _ = form.read_values(&["-vw7", "--weight=3"]);
        }
        Err(error) => assert!((1..=4).contains(&error.number()) && !error.to_string().is_empty()),
    };
    (0..bytes.len()).for_each(|length| try_form(&bytes[..length]));
    for at in 0..bytes.len() {
        for value in [0, 1, 2, 3, 5, 9, 10, 11, 64, 127, 255] {
            let mut changed = bytes.to_vec();
            changed[at] = value;
            try_form(&changed);
        }
    }
    assert!(accepted > 20, "{accepted}");
}

/// Bytes of every value, alone and behind dashes, are read or refused, and shown.
#[test]
fn any_bytes_are_shown() {
    let form = Form::of([Node::switch(short('v')), Node::argument(short('w'), Takes::Number).optional()]).unwrap();
    for byte in 0..=255 {
        for bytes in
            [vec![byte], vec![b'-', byte], vec![b'-', b'v', byte, b'='], vec![b'-', b'-', byte, byte], vec![b'-', b'w', byte]]
        {
            let args = [OsString::from_vec(bytes)];
            if let Err(error) = form.read_values(&args) {
                assert!(error.to_string().lines().count() == 3 && !error.items().is_empty(), "{args:?}");
            }
        }
    }
}

/// Arguments whose text changes from call to call are asked once, so what is read is what is handed out.
#[test]
fn arguments_that_change() {
    struct Fickle(std::cell::Cell<bool>);
    impl AsRef<OsStr> for Fickle {
        fn as_ref(&self) -> &OsStr {
            OsStr::new(if self.0.replace(true) { "" } else { "first" })
        }
    }
    let form = any_words();
    let args = [Fickle(false.into())];
    let values = form.read_values(&args).unwrap().into_values();
    assert_eq!(format!("{values:?}"), "[List([Text(\"first\")])]");
}

#[test]
fn this_program() {
    // the test runner's own arguments, without its name
    assert_eq!(silverpoise::args(), std::env::args_os().skip(1).collect::<Vec<_>>());
}
